#!/usr/bin/env python3
"""Writes the bytes of the worked logons that the examples of the exchange over bytes are compared with.

usage: tools/worked-logon.py [--shown | --run]

Writes crates/examples_world/specs/runs/Worked.antt: the third logon of worked_logon.py, its texts, its random bytes, and the
signed frames of the second one; and for the program test_logon the rows of a client's dialog through the first one, and
what it is to print: each frame of all four on a line, and how many rows it answers. The
formulas are compared with published numbers first: MS-NLMP 4.2.4, and Microsoft's derivations for SMB 3.0 and 3.1.1. Then each logon is heard from the other side: what was sealed is opened by OpenSSL,
signatures and the proof are made anew. With --shown each logon is printed instead: what is drawn, tokens, keys and every frame.
With --run the definitions are computed by spec_values.py instead: the world over bytes of crates/spec_world from its start
on, event by event, whose frames are to be those of each logon (a minute or two), and the clauses of the worked examples.
"""
import os
import re
import struct
import sys
import threading

from cryptography.hazmat.primitives.ciphers.aead import AESCCM, AESGCM

import session_formulas as f
import worked_logon as worked
from session_formulas import pairs, utf16
from spec_values import Module, Terms
from spec_words import Case, applied

TOP = os.path.dirname(os.path.dirname(os.path.abspath(__file__)))
FILE = os.path.join(TOP, "crates", "examples_world", "specs", "runs", "Worked.antt")
ROWS = os.path.join(TOP, "crates", "test_logon", "stdin")
OUTPUT = os.path.join(TOP, "crates", "test_logon", "stdout")
WIDTH = 120


# ---- the formulas against what is published


def compare_published():
    owf = f.ntowf("Password", "User", "Domain")
    blob = f.temp(0, b"\xaa" * 8, pairs((2, utf16("Domain")), (1, utf16("Server"))))
    proof = f.proof(owf, bytes.fromhex("0123456789abcdef"), blob)
    assert owf.hex() == "0c868a403bfd7a93a3001ef22ef02e3f" and proof.hex() == "68cd0ab851e51c96aabc927bebef6a1c"
    base = f.hmac_md5(owf, proof)
    assert base.hex() == "8de40ccadbc14a82f15cb0ad0de95ca3"
    assert f.Rc4(base).apply(b"\x55" * 16).hex() == "c5dad2544fc9799094ce1ce90bc9d03e"
    smb_30 = f.kdf(bytes.fromhex("b4546771b515f766a86735532dd6c4f0"), b"SMB2AESCCM\0", b"ServerIn \0", 128)
    assert smb_30.hex() == "261b72350558f2e9dcf613070383edbf"
    chain = bytes.fromhex(
        "b23f3cbfd69487d9832b79b1594a367cdd950909b774c3a4c412b4fcea9edddb"
        "a7db256ba2ea30e977f11f9b113247578e0e915c6d2a513b8f2fca5707dc8770"
    )
    smb_311 = f.Keys(bytes.fromhex("419fddf34c1e001909d362ae7fb6af79"), chain, 2)
    assert smb_311.to_server.hex() == "a2f5e80e5d59103034f32e52f698e5ec"
    assert smb_311.to_client.hex() == "748c50868c90f302962a5c35f5f9a8bf"


# ---- each logon, heard from the other side


def opened(cipher, key, frame):
    """What OpenSSL opens."""
    nonce, added, hidden = frame[20:36], frame[20:52], frame[52:] + frame[4:20]
    if cipher in f.GCM:
        return AESGCM(key).decrypt(nonce[:12], hidden, added)
    return AESCCM(key, tag_length=16).decrypt(nonce[:11], hidden, added)


def hear(logon):
    nonces = set()
    for place, message in enumerate(logon.messages):
        head = struct.unpack_from("<HHIHHIIQ", message.text, 4)
        assert head[0] == 64 and head[7] == place // 2 and head[5] & 1 == place % 2
        if message.sealed:
            key = logon.keys.to_client if place % 2 else logon.keys.to_server
            assert opened(logon.cipher, key, message.frame) == message.text
            assert struct.unpack_from("<IHHQ", message.frame, 36) == (len(message.text), 0, 1, logon.session)
            nonces.add((place % 2, message.frame[20:36]))
        if message.signed:
            assert message.frame[48:64] == f.signature(logon.signing, logon.keys.signing, message.frame)
    assert len(nonces) == (4 if logon.encrypts else 0)
    hear_tokens(logon.tokens)


def hear_tokens(t):
    """The server's side: the proof, the key that was carried, and the MIC, from the type 3 alone."""
    count, _, at = struct.unpack_from("<HHI", t.type3, 20)
    answer = t.type3[at : at + count]
    owf = f.ntowf(worked.PASSWORD, worked.USER, "")
    assert answer[:16] == f.hmac_md5(owf, t.server + answer[16:])
    carried = struct.unpack_from("<HHI", t.type3, 52)
    key = f.Rc4(f.hmac_md5(owf, answer[:16])).apply(t.type3[carried[2] : carried[2] + carried[0]])
    assert key == t.key and t.type3[72:88] == f.mic(key, t.type1, t.type2, t.type3)
    assert t.alone[72:88] == f.mic(t.base, t.type1, t.type2, t.alone) and t.alone[112:128] == f.proof(owf, t.server, t.alone[128:-8])


# ---- written


def spelled(name, data):
    """A list of bytes, broken before the width."""
    lines, line = [], "   "
    for word in [f"{byte} \u2237" for byte in data] + ["[]"]:
        if len(line) + 1 + len(word) > WIDTH:
            lines.append(line)
            line = "   "
        line += " " + word
    return "\n".join([f"abbrev pub {name} : List \u2115", f"{name} =", *lines, line])


def specs(sealed, signed):
    """The texts of one logon, and the frames of another one that are signed."""
    names = ("greeting", "greeting_reply", "first_setup", "interim", "second_setup", "last_reply")
    names += ("tree_asked", "tree_told", "create_asked", "create_told")
    lists = list(zip(names, (m.text for m in sealed.messages)))
    lists += [("client_salt", worked.draw(1)), ("server_salt", worked.draw(4)), ("server_challenge", sealed.tokens.server)]
    lists += [("create_salt", worked.draw(0)[:8]), ("second_token", sealed.tokens.second), ("final_token", sealed.tokens.final)]
    lists += [("signing_key", sealed.keys.signing), ("tree_key", signed.keys.signing)]
    lists += [("type_1", sealed.tokens.type1), ("type_2", sealed.tokens.type2), ("alone_key", sealed.tokens.base)]
    lists += [("signed_tree_asked", signed.messages[6].frame), ("signed_tree_told", signed.messages[7].frame)]
    head = ["-- The bytes of two worked logons; written by tools/worked-logon.py."]
    head += ["use Rattle.std.specs.Prelude.{\u2115, List, [], \u25cc\u2237\u25cc}"]
    return "\n".join(head) + "\n\n" + "\n\n".join(spelled(name, data) for name, data in lists) + "\n"


def printed(logon):
    """A line for each frame, and an empty one."""
    return "".join(message.frame.hex() + "\n" for message in logon.messages) + "\n"


def dialog_rows(logon):
    """What a client says from NEGOTIATE to TREE_CONNECT: first by itself, then to each response; the last one makes it ready."""
    said = [message.frame.hex() for message in logon.messages[0:8:2]] + [f"ready in session {logon.session} and tree 1"]
    heard = ["start"] + [message.frame.hex() for message in logon.messages[1:8:2]]
    return list(map(" = ".join, zip(heard, said)))


def show(logon):
    t = logon.tokens
    print(f"# {logon.name}: ciphers {logon.ciphers}, signing algorithms {logon.signings}, first moment {logon.start}")
    for name, data in (("client salt", worked.draw(1)), ("server salt", worked.draw(4)), ("client challenge", t.challenge)):
        print(f"{name} {data.hex()}")
    for name, data in (("server challenge", t.server), ("exported key", t.key), ("type 1", t.type1), ("type 2", t.type2)):
        print(f"{name} {data.hex()}")
    for name, data in (("type 3", t.type3), ("chain", logon.chain), ("signing key", logon.keys.signing)):
        print(f"{name} {data.hex()}")
    print(f"to server {logon.keys.to_server.hex()}\nto client {logon.keys.to_client.hex()}")
    for message in logon.messages:
        print(f"{message.name} {message.text.hex()}" + (f"\n  sealed {message.frame.hex()}" if message.sealed else ""))


# ---- computed by the definitions

EVENTS = "Rattle.spec_world.specs.Events"


def listed(data):
    return "(" + " \u2237 ".join(map(str, data)) + " \u2237 [])" if data else "[]"


def settings(logon):
    """A WorldSettings."""
    user, word = listed(worked.USER.encode()), listed(worked.PASSWORD.encode())
    users = f"record {{ list = record {{ name = {user}; password = {word} }} \u2237 []; bare = false }}"
    server = f"record {{ users = {users}; guid = {listed(worked.SERVER_GUID)} }}"
    client = f"record {{ user = {user}; password = {word}; guid = {listed(worked.CLIENT_GUID)}; "
    client += f"ciphers = {listed(logon.ciphers)}; signings = {listed(logon.signings)} }}"
    rest = f"share = {listed(worked.SHARE.encode())}; room = 1000000; encrypts = {str(logon.encrypts).lower()}; "
    rest += f"address = record {{ ip = 0; port = 445 }}; seed = {listed(worked.SEED)}"
    return f"record {{ server = {server}; client = {client}; {rest} }}"


def events():
    """A logon on connection 0, and a create behind it."""
    created = f"OpCreate {listed(worked.PATH.encode())} {worked.ACCESS} {worked.SHARED} {worked.DISPOSITION} true false"
    dialog = [f"Wait {worked.WAITED}", "Open 0"] + 4 * ["Serve 0", "Take 0"]
    return dialog + [f"Submit 1 ({created})", "Push 0 [] (Some (record { op = 1; slot = 0 }))", "Serve 0", "Take 0"]


def run(terms, logon):
    """The frames of a run: behind a Serve the last that goes down, and behind each other event the last that goes up."""
    z = terms.value(EVENTS, settings(logon))
    world, frames = applied(terms.modules[EVENTS].value("bytes_start"), [z]), []
    for event in events():
        happening = Case("Plain", [terms.value(EVENTS, event)])
        world = applied(terms.modules[EVENTS].value("bytes_happen"), [z, world, happening])
        wires = applied(world.fields["wires"], [0]).fields
        frames += map(bytes, wires["down" if event.startswith("Serve") else "up"][-1:])
    outcome = applied(world.fields["values"].fields["client"].fields["outcome"], [1])
    return frames, outcome.name


def examples(terms):
    """The clauses of the worked examples, each with whether its sides are equal."""
    with open(os.path.join(TOP, "crates", "examples_world", "src", "runs.rt"), encoding="utf-8") as file:
        text = file.read()
    scope = Module(terms, "examples", "\n".join(re.findall(r"(?m)^ghost (use .*);$", text)))
    terms.modules["examples"] = scope
    for name, body in re.findall(r"pub fn (worked_\w+)\(\)\n((?:    ensures .*\n)+)", text):
        for clause, one, other in re.findall(r"ensures (\w+) \{ (.*) \u2261 (.*) \}", body):
            yield f"{name}, {clause}", terms.value("examples", one) == terms.value("examples", other)


def alone(terms):
    """What a type 3 alone shows behind a type 1 alone: a logon with the base key, or nothing where its MIC is another."""
    scope = "alone"
    names = ("spec_crypto.specs.tokens.Tokens.{shown}", "spec_world.specs.Logon.{pending_by, exported}")
    terms.modules[scope] = Module(terms, scope, "\n".join(f"use Rattle.{name}" for name in names))
    t = worked.worked_logons()[2].tokens
    user = f"record {{ name = {listed(worked.USER.encode())}; password = {listed(worked.PASSWORD.encode())} }}"
    users = f"(record {{ list = {user} \u2237 []; bare = true }})"
    behind = f"{users} (pending_by true {listed(t.type1)} {listed(t.server)} {t.now})"
    yield "a type 3 alone is a logon", terms.value(scope, f"shown {behind} {listed(t.alone)}").name == "LoggedOn"
    yield "its key", bytes(terms.value(scope, f"exported {behind} {listed(t.alone)}")) == t.base
    wrong = t.alone[:72] + bytes(16) + t.alone[88:]
    yield "one without its MIC", terms.value(scope, f"shown {behind} {listed(wrong)}").name == "Refused"


def run_all():
    terms, bad = Terms(), 0
    for logon in worked.worked_logons():
        frames, outcome = run(terms, logon)
        same = frames == [message.frame for message in logon.messages] and outcome == "WasOk"
        print(f"{'the same' if same else 'ANOTHER'}: {logon.name}", flush=True)
        bad += not same
    for name, same in (*alone(terms), *examples(terms)):
        print(f"{'the same' if same else 'ANOTHER'}: {name}", flush=True)
        bad += not same
    STATUS.append(1 if bad else 0)


STATUS = []


def with_a_large_stack(call):
    """Lists of hundreds of bytes are gone through by calls within calls."""
    sys.setrecursionlimit(1000000)
    threading.stack_size(512 * 1024 * 1024)
    thread = threading.Thread(target=call)
    thread.start()
    thread.join()
    return STATUS[-1] if STATUS else 1


def main():
    if sys.argv[1:] not in ([], ["--shown"], ["--run"]):
        sys.exit(__doc__)
    if sys.argv[1:] == ["--run"]:
        return with_a_large_stack(run_all)
    compare_published()
    logons = worked.worked_logons()
    for logon in logons:
        hear(logon)
        if sys.argv[1:]:
            show(logon)
    if not sys.argv[1:]:
        with open(FILE, "w", encoding="utf-8") as out:
            out.write(specs(logons[2], logons[1]))
        rows = dialog_rows(logons[0])
        with open(ROWS, "w", encoding="utf-8") as out:
            out.write("# a client's dialog: what it hears, and what it then says\n" + "\n".join(rows) + "\n")
        with open(OUTPUT, "w", encoding="utf-8") as out:
            out.write("".join(printed(logon) for logon in logons))
            out.write(f"{len(rows)} rows of a dialog are answered as they say\n")
    return 0


if __name__ == "__main__":
    sys.exit(main())
