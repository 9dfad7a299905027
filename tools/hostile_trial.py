"""Tries the client of tools/hostile-run.py itself: keys and signatures on published vectors, all its calls on a server that runs."""
import os
import random
import struct

import recorded_disk
import session_formulas as f
from cryptography.hazmat.primitives.ciphers.aead import AESCCM, AESGCM
from hostile_client import Refused, answered, bound, logged_on
from hostile_server import expect
from hostile_work import refused_by
from worked_logon import worked_logons


def vectors():
    """MD4 (RFC 1320), RC4, HMAC-MD5 (RFC 2202), NTOWFv2 (MS-NLMP 4.2.4.1.1), AES-CMAC (RFC 4493), GCM, CCM (SP 800-38C)."""
    expect(f.md4(b"").hex() == "31d6cfe0d16ae931b73c59d7e0c089c0", "MD4")
    expect(f.Rc4(b"Key").apply(b"Plaintext").hex() == "bbf316e8d940af0ad3", "RC4")
    expect(f.hmac_md5(b"Jefe", b"what do ya want for nothing?").hex() == "750c783e6ab0b503eaa86e310a5db738", "HMAC-MD5")
    expect(f.ntowf("Password", "User", "Domain").hex() == "0c868a403bfd7a93a3001ef22ef02e3f", "NTOWFv2")
    sealed = AESGCM(bytes(16)).encrypt(bytes(12), bytes(16), b"").hex()
    expect(sealed == "0388dace60b6a392f328c2b971b2fe78ab6e47d42cec13bdf53a67b21257bddf", "GCM")
    short = AESCCM(bytes(range(0x40, 0x50)), tag_length=4)
    expect(short.encrypt(bytes(range(0x10, 0x17)), bytes(range(0x20, 0x24)), bytes(range(8))).hex() == "7162015b4dac255d", "CCM")
    mac = f.CMAC(f.AES(bytes.fromhex("2b7e151628aed2a6abf7158809cf4f3c")))
    mac.update(bytes.fromhex("6bc1bee22e409f96e93d7e117393172a"))
    expect(mac.finalize().hex() == "070a16b46b4d4144f79bdd9dd04a287c", "CMAC")
    return worked()


def worked():
    """The authenticate message to the worked logon's challenge has the proof and the MIC that its server would check."""
    for logon in worked_logons():
        tokens, exported = logon.tokens, bytes(range(16))
        third = answered(tokens.type2, tokens.type1, "User", "Password", exported)
        length, at = struct.unpack_from("<HxxI", third, 20)
        owf, answer = f.ntowf("Password", "User", ""), third[at:at + length]
        expect(f.proof(owf, tokens.server, answer[16:]) == answer[:16], "the proof of NTLMv2")
        expect(f.mic(exported, tokens.type1, tokens.type2, third) == third[72:88], "NTLM's MIC")
    return "ok vectors: hashes, ciphers, keys and tokens"


OLD, NEW, MORE = os.urandom(1500), os.urandom(2500), os.urandom(700)


def record_of(draft_synced=True, folder_synced=True):
    """A record of a journal that is written anew and goes on, as a program leaves it that syncs, or forgets one of the syncs."""
    folder = [("s", 0, 0, b""), ("e", 0, 0, b"")]
    made = [("n", 1, 0, b"smb311.journal"), *folder, ("w", 1, 0, OLD), ("s", 1, 0, b""), ("e", 1, 0, b"")]
    draft = [("n", 2, 0, b"smb311.draft"), ("w", 2, 0, NEW[:1000]), ("w", 2, 1000, NEW[1000:])]
    draft += [("s", 2, 0, b""), ("e", 2, 0, b"")] if draft_synced else []
    named = [("r", 0, 0, b"smb311.draft\0smb311.journal")] + (folder if folder_synced else [])
    more = [("w", 2, len(NEW), MORE), ("s", 2, 0, b""), ("e", 2, 0, b"")]
    return [(number, *step) for number, step in enumerate(made + draft + named + more)], len(made)


def journals(record, begun):
    """The journals of many images from a moment on; those of the last moment by themselves."""
    chance, recorded, found, last = random.Random(1), recorded_disk.Recorded(record), set(), set()
    for moment in range(begun, len(record) + 1):
        recorded.go_to(moment)
        last = {recorded.image(chance)["smb311.journal"] for _ in range(200)}
        found |= last
    return found, last


def images():
    """Files as a crash may leave them: of a journal that is written anew with all its syncs one of two, torn behind them at most; without
    the draft's sync a torn one; without the folder's sync the old one at the end."""
    found, last = journals(*record_of())
    expect(last == {NEW + MORE} and {OLD, NEW} <= found, "images of a journal that is written anew lack the old one or the new one")
    expect(all(data == OLD or data.startswith(NEW) for data in found), "an image has a torn journal, though each sync was done")
    found, _ = journals(*record_of(draft_synced=False))
    expect(any(data != OLD and not data.startswith(NEW) for data in found), "no image has a torn journal, though its draft wasn't synced")
    _, last = journals(*record_of(folder_synced=False))
    expect({OLD, NEW + MORE} <= last, "no image has the old journal, though its folder wasn't synced")
    return "ok images: whole with all syncs, torn without the draft's, old without the folder's"


def client(port, user, password, share):
    """Each call of the client once; the server may be Samba's."""
    number, rest = int(port), 0
    one = logged_on(number, user, password, share)
    other = logged_on(number, user, password, share, ciphers=(1,), signings=(2, 1))
    opened, found = one.create("hostile-trial.txt"), other.create("hostile-trial.txt")
    one.write(opened.file, 0, b"hello" * 30000)
    expect(other.read(found.file, 5, 5) == b"hello", "a read gives other bytes")
    one.lock(opened.file, 0, 10)
    expect(refused_by(lambda: other.lock(found.file, 5, 1)) == 0xC0000055, "a lock isn't held")
    one.lock(opened.file, 0, 10, flags=4)
    other.lock(found.file, 5, 1)
    other.close_file(found.file)
    one.set_end(opened.file, 100)
    one.flush(opened.file)
    one.rename(opened.file, "hostile-moved.txt")
    one.close_file(opened.file)
    one.make_folder("hostile-folder")
    expect({"hostile-moved.txt", "hostile-folder"} <= set(one.listed("")), "a listing lacks what was made")
    expect(one.whole("hostile-moved.txt") == (b"hello" * 20), "a file has other bytes")
    for name, options in (("hostile-moved.txt", 0x40), ("hostile-folder", 1)):
        gone = one.create(name, disposition=1, options=options)
        one.remove(gone.file)
        one.close_file(gone.file)
    expect(one.whole("hostile-moved.txt") is None, "a removed file is there")
    try:
        logged_on(number, user, password + "x", share)
    except Refused as refused:
        rest = refused.status
    expect(rest == 0xC000006D, "a wrong password isn't refused")
    one.echo()
    how = f"{'sealed' if one.encrypts else 'signed'} with cipher {one.cipher} and {other.cipher}, signing {one.signing} and {other.signing}"
    try:
        bound(one, user, password).echo()
        how += "; a second channel was bound"
    except Refused as refused:
        how += f"; a second channel was refused with {refused.status:08x}"
    one.log_off()
    return f"ok client: {how}"
