#!/usr/bin/python3
"""Tries a running server by libsmbclient (Debian's python3-smbc): PORT KIND USER PASSWORD SHARE. It prints a line for each check, as
impacket_client.py does; KIND is only told in them."""
import os
import sys

import smbc

PORT, KIND, USER, PASSWORD, SHARE = sys.argv[1:]
ROOM = f"smb://127.0.0.1:{PORT}/{SHARE}/smbc"


def connected(password=PASSWORD):
    context = smbc.Context(auth_fn=lambda host, share, group, user, word: ("WORKGROUP", USER, password))
    context.optionUseKerberos = False
    return context


def got(context):
    file = context.open(f"{ROOM}/one")
    assert file.read() == bytes(range(256)) * 1000, "other bytes came back"
    file.close()


def folder(context):
    context.mkdir(ROOM)


def put(context):
    file = context.open(f"{ROOM}/one", os.O_CREAT | os.O_WRONLY)
    assert file.write(bytes(range(256)) * 1000) == 256000, "not all bytes were taken"
    file.close()


def listed(context):
    context.rename(f"{ROOM}/one", f"{ROOM}/two")
    names = {entry.name for entry in context.opendir(ROOM).getdents()}
    assert names == {".", "..", "two"}, f"it lists {sorted(names)}"


def removed(context):
    context.unlink(f"{ROOM}/two")
    context.rmdir(ROOM)


def refused(_):
    try:
        connected(PASSWORD + "x").opendir(ROOM)
    except smbc.PermissionError:
        return
    raise AssertionError("a wrong password was taken")


def main():
    bad = 0
    for name, call in (("make a folder", folder), ("put", put), ("get", got), ("rename and list", listed),
                       ("remove", removed), ("a wrong password", refused)):
        try:
            call(connected())
            print(f"ok libsmbclient {KIND}: {name}")
        except Exception as why:
            bad += 1
            print(f"FAILED libsmbclient {KIND}: {name}: {why!r}")
    sys.exit(1 if bad else 0)


main()
