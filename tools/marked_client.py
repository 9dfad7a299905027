#!/usr/bin/env python3
"""Checks what a server does at a start with directories that were marked for deletion and aren't empty: PORT KIND USER PASSWORD SHARE.

It marks two of them, of which one has a persistent open, and prints `marked`. Its caller then ends the server and begins it again; the
checks of what it finds there stand behind. It prints one line for each check, `ok NAME` or `FAILED NAME: WHY`; KIND is only told in them.
The client is that of hostile_client.py.
"""
import os
import sys
import time

from hostile_client import FOLDER, MAKE, NAME_NOT_FOUND, OPEN, Closed, logged_on, refused

if len(sys.argv) != 6:
    sys.exit(__doc__)
PORT, KIND, USER, PASSWORD, SHARE = int(sys.argv[1]), *sys.argv[2:6]
DELETE_PENDING, DIRECTORY_NOT_EMPTY = 0xC0000056, 0xC0000101
DELETES = 0x1000  # an option of CREATE (MS-SMB2 2.2.13)
GUID = os.urandom(16)
kept = {}


def open_folder(client, name, options=0):
    return client.create(name, disposition=OPEN, options=FOLDER | options)


def put(client, name):
    opened = client.create(name, disposition=MAKE)
    client.write(opened.file, 0, b"text")
    client.close_file(opened.file)


def take(client, name, options=0):
    """An open that deletes on close, closed."""
    client.close_file(client.create(name, disposition=OPEN, options=options | DELETES).file)


def takes_no_name(client, name):
    for what in (f"{name}\\a", f"{name}\\b"):
        refused(lambda: client.create(what), DELETE_PENDING)


def is_free(client, name):
    """It is listed, takes a name, and goes once it is empty."""
    assert client.listed(name) == ["a"], client.listed(name)
    put(client, f"{name}\\b")
    opened = open_folder(client, name)
    refused(lambda: client.remove(opened.file), DIRECTORY_NOT_EMPTY)
    client.close_file(opened.file)
    for entry in ("a", "b"):
        take(client, f"{name}\\{entry}")
    take(client, name, FOLDER)
    refused(lambda: open_folder(client, name), NAME_NOT_FOUND)


def mark():
    """A directory is marked while another open has it (MS-FSA 2.1.5.5); then it takes no name."""
    client = kept["client"] = logged_on(PORT, USER, PASSWORD, SHARE)
    kept["file"] = client.create_persistent("marked-kept", GUID, disposition=MAKE, options=FOLDER).file
    client.make_folder("marked-plain")
    open_folder(client, "marked-plain")
    for name in ("marked-kept", "marked-plain"):
        marking = open_folder(client, name, DELETES)
        put(client, f"{name}\\a")
        client.close_file(marking.file)
        takes_no_name(client, name)


def begun_again():
    """Waits until the server has gone and listens again."""
    print("marked", flush=True)
    assert kept.pop("client").ended_within(60), "the server goes on"
    for _ in range(600):
        try:
            kept["client"] = logged_on(PORT, USER, PASSWORD, SHARE)
            return
        except Closed:
            time.sleep(0.1)
    raise AssertionError("no server listens")


def attached():
    """A persistent open keeps the mark over the start, and its CLOSE takes it away."""
    client = kept["client"]
    takes_no_name(client, "marked-kept")
    client.close_file(client.attach("marked-kept", kept["file"], GUID).file)
    is_free(client, "marked-kept")


def main():
    for name, call in (("two directories are marked while they aren't empty", mark), ("the server begins again", begun_again),
                       ("a start clears a mark", lambda: is_free(kept["client"], "marked-plain")), ("a persistent open keeps one, and its close clears it", attached)):
        try:
            call()
            print(f"ok marked directories {KIND}: {name}", flush=True)
        except Exception as error:  # whatever a client meets is told
            print(f"FAILED marked directories {KIND}: {name}: {error or repr(error)}", flush=True)
            return 1
    return 0


sys.exit(main())
