#!/usr/bin/env python3
"""Checks logons by NTLM's messages without SPNEGO: PORT KIND WORD USER PASSWORD SHARE.

KIND is sealed or signed, what the server's sessions are. WORD is any, where the server is to take such tokens, or spnego, where it is
to refuse them. It prints one line for each check, `ok NAME` or `FAILED NAME: WHY`. The client is that of hostile_client.py.
One logon has the messages of Linux's kernel client: a type 1 without a version, and a type 3 without version and MIC, whose target
information is the server's as it came, so that it owes no MIC.
"""
import os
import struct
import sys

import session_formulas as f
from hostile_client import FIRST, LOGON_FAILURE, Client, answered, refused, told_in

if len(sys.argv) != 7:
    sys.exit(__doc__)
PORT, KIND, WORD, USER, PASSWORD, SHARE = int(sys.argv[1]), *sys.argv[2:7]
INVALID_PARAMETER = 0xC000000D
KERNELS_FIRST = b"NTLMSSP\0" + struct.pack("<II", 1, 0xE0088235) + bytes(16)


def alone(password=PASSWORD, **words):
    return Client(PORT, **words).negotiate().log_on_alone(USER, password)


def kernels_third(challenge, first, user, password, exported):
    """Linux's type 3: its parts stand behind 64 bytes."""
    server, told = told_in(challenge)
    moment = told.index(b"\7\0\10\0") + 4
    owf = f.ntowf(password, user, "")
    blob = b"\1\1" + bytes(6) + told[moment:moment + 8] + os.urandom(8) + bytes(4) + told
    answer = f.proof(owf, server, blob)
    carried = f.Rc4(f.hmac_md5(owf, answer)).apply(exported)
    parts = [b"", answer + blob, b"", f.utf16(user), f.utf16("linux"), carried]
    flags = struct.unpack_from("<I", challenge, 20)[0] | 0x802004
    return b"NTLMSSP\0" + struct.pack("<I", 3) + b"".join(f.fields(b"", 64, parts)) + struct.pack("<I", flags) + b"".join(parts)


def files(client):
    data = os.urandom(100000)
    opened = client.create("bare")
    client.write(opened.file, 0, data)
    client.close_file(opened.file)
    assert "bare" in client.listed("")
    assert client.whole("bare") == data


def removed(client):
    opened = client.create("bare")
    client.remove(opened.file)
    client.close_file(opened.file)


def kernels_logon():
    client = Client(PORT).negotiate().log_on_alone(USER, PASSWORD, first=KERNELS_FIRST, answers=kernels_third).connect_tree(SHARE)
    files(client)
    removed(client)
    client.log_off()


def use():
    """Logged on, sealed or signed: a file is written, listed, read and removed, over a second channel too."""
    client = alone().connect_tree(SHARE)
    assert client.encrypts == (KIND == "sealed"), "the session is guarded otherwise"
    files(client)
    channel = Client(PORT, guid=client.guid).negotiate().log_on_alone(USER, PASSWORD, to=client)
    files(channel)
    removed(channel)
    client.log_off()


def wrong_mic():
    client = Client(PORT).negotiate()
    third = answered(client.first_alone(), FIRST, USER, PASSWORD, os.urandom(16))
    assert client.set_up(third[:72] + bytes(16) + third[88:])[0] == LOGON_FAILURE


def wrapped_third():
    """A type 3 in SPNEGO behind a type 1 alone."""
    client = Client(PORT).negotiate()
    third = answered(client.first_alone(), FIRST, USER, PASSWORD, os.urandom(16))
    assert client.set_up(f.resp_token(token=third))[0] == INVALID_PARAMETER


def wrapped_logon():
    Client(PORT).negotiate().log_on(USER, PASSWORD).connect_tree(SHARE).log_off()


TAKEN = (
    ("log on, list, read and write, on two channels", use),
    ("a logon as Linux's kernel spells it", kernels_logon),
    ("a wrong password", lambda: refused(lambda: alone(PASSWORD + "x"), LOGON_FAILURE)),
    ("a wrong MIC", wrong_mic),
    ("a type 3 in SPNEGO behind a type 1 without", wrapped_third),
    ("a logon in SPNEGO", wrapped_logon),
)
LEFT = (("refused where the settings don't say it", lambda: refused(alone, INVALID_PARAMETER)), ("a logon in SPNEGO", wrapped_logon))


def main():
    failed = 0
    for name, call in TAKEN if WORD == "any" else LEFT:
        try:
            call()
            print(f"ok NTLM without SPNEGO {KIND}: {name}", flush=True)
        except Exception as error:  # whatever a client meets is told
            failed += 1
            print(f"FAILED NTLM without SPNEGO {KIND}: {name}: {error or repr(error)}", flush=True)
    return 1 if failed else 0


sys.exit(main())
