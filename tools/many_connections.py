#!/usr/bin/env python3
"""Makes COUNT connections to 127.0.0.1:PORT at once, says NEGOTIATE on each and holds them: PORT COUNT SECONDS.

It prints `answered N reset M`, N being how many were answered with success, and ends with 0 where all were.
"""
import os
import selectors
import socket
import struct
import sys
import time

if len(sys.argv) != 4:
    sys.exit(__doc__)
PORT, COUNT, SECONDS = int(sys.argv[1]), int(sys.argv[2]), float(sys.argv[3])


def negotiate():
    """A NEGOTIATE request of 3.1.1 with a preauthentication context (MS-SMB2 2.2.3), as its frame."""
    context = struct.pack("<HHIHHH", 1, 38, 0, 1, 32, 1) + os.urandom(32)
    body = struct.pack("<HHHHI16sIHHH", 36, 1, 1, 0, 0, os.urandom(16), 104, 1, 0, 0x0311) + bytes(2)
    header = b"\xfeSMB" + struct.pack("<HHIHHIIQIIQ", 64, 0, 0, 0, 1, 0, 0, 0, 0, 0, 0) + bytes(16)
    message = header + body + context
    return struct.pack(">I", len(message)) + message


def main():
    chosen, links = selectors.DefaultSelector(), []
    for _ in range(COUNT):
        link = socket.create_connection(("127.0.0.1", PORT))
        link.sendall(negotiate())
        link.setblocking(False)
        chosen.register(link, selectors.EVENT_READ)
        links.append(link)
    answered = reset = 0
    end = time.time() + 300
    while answered + reset < COUNT and time.time() < end:
        for key, _ in chosen.select(1):
            try:
                data = key.fileobj.recv(65536)
            except ConnectionResetError:
                data = b""
            chosen.unregister(key.fileobj)
            if data[4:8] == b"\xfeSMB" and data[12:16] == bytes(4):
                answered += 1
            else:
                reset += 1
    print(f"answered {answered} reset {COUNT - answered}", flush=True)
    time.sleep(SECONDS)
    sys.exit(0 if answered == COUNT else 1)


main()
