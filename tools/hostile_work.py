"""Clients that work while something happens to the server, and look afterwards whether all that was acknowledged is there."""
import os
import struct
import threading
import time

from hostile_client import Closed, Refused, Wrong
from hostile_server import BERT, expect

LINE = 64  # bytes of a line that is appended


def line(number):
    return b"%016d" % number + b"." * (LINE - 17) + b"\n"


class Appender(threading.Thread):
    """Appends numbered lines to a file of its own until it is stopped or its connection ends. It also is the client whose answers
    tell whether the server still serves: `slowest` is the longest time that one of them took."""

    def __init__(self, server, name="appended", who=BERT, source=None, pause=0.0, timeout=120.0):
        super().__init__(daemon=True)
        self.server, self.name, self.pause = server, name, pause
        self.client = server.client(who, source=source, timeout=timeout)
        self.file = self.client.create(name).file
        self.acknowledged, self.slowest, self.stopping, self.error = 0, 0.0, False, None

    def run(self):
        try:
            while not self.stopping:
                begun = time.monotonic()
                self.client.write(self.file, LINE * self.acknowledged, line(self.acknowledged))
                self.acknowledged += 1
                self.slowest = max(self.slowest, time.monotonic() - begun)
                if self.pause:
                    time.sleep(self.pause)
        except (Closed, Refused, Wrong, TimeoutError) as error:
            self.error = error

    def stop(self):
        """Ends the work; its error, where it had one."""
        self.stopping = True
        self.join()
        self.client.close()
        return self.error

    def stop_well(self):
        error = self.stop()
        expect(error is None, f"a client that worked beside it met {error!r}")

    def verify(self, client):
        """All acknowledged lines stand in the file, and at most the one that was on its way."""
        data = client.whole(self.name)
        expect(data is not None, f"{self.name} is gone with {self.acknowledged} acknowledged writes")
        wanted = b"".join(map(line, range(self.acknowledged)))
        lost = f"of {self.acknowledged} acknowledged writes of {self.name} some are gone: {len(data)} bytes are left"
        expect(data[:len(wanted)] == wanted, lost)
        expect(data[len(wanted):] in (b"", line(self.acknowledged)), f"{self.name} has {len(data) - len(wanted)} bytes that nobody wrote")


class Kept:
    """A persistent open with a lock and bytes, which has to come back after the server's end."""

    def __init__(self, server, name, who=BERT):
        self.name, self.who, self.guid, self.data = name, who, os.urandom(16), os.urandom(5000)
        self.client = server.client(who)
        self.file = self.client.create_persistent(name, self.guid).file
        self.client.write(self.file, 0, self.data)
        self.client.lock(self.file, 0, 100)

    def expect_back(self, server):
        """It is attached again in a new session, its lock is held against others, and it writes."""
        other = server.client()
        found = other.create(self.name, disposition=1)
        expect(refused_by(lambda: other.lock(found.file, 50, 1)) == 0xC0000055, "the lock of a persistent open is gone")
        client = server.client(self.who, guid=self.client.guid)
        attached = client.attach(self.name, self.file, self.guid)
        expect(attached.file == self.file, "an open that was attached has another id")
        expect(client.read(self.file, 0, 6000) == self.data, "a file with a persistent open has other bytes")
        client.write(self.file, 5000, b"more")
        client.lock(self.file, 0, 100, flags=4)
        other.lock(found.file, 50, 1)
        client.close_file(self.file)
        client.close()
        other.close()


def refused_by(call):
    """The status with which a call is refused, 0 where it isn't."""
    try:
        call()
    except Refused as refused:
        return refused.status
    return 0


def gates(journal):
    """The places of the open gates of a journal: behind 8 bytes of a mark a gate, a length of 4 bytes, in the second form a checksum of as
    many, and so many bytes as the length tells; and so on."""
    found, at, front = [], 8, 9 if journal[:8] == b"smb311j2" else 5
    while at + front <= len(journal) and journal[at] == 1:
        found.append(at)
        at += front + struct.unpack_from("<I", journal, at + 1)[0]
    return found


def end_of(journal):
    """The place behind the closed gate; zeros may stand there."""
    found = gates(journal)
    front = 9 if journal[:8] == b"smb311j2" else 5
    return found[-1] + front + struct.unpack_from("<I", journal, found[-1] + 1)[0] + 1 if found else 9


def used_of(path):
    """How many bytes of a journal's file stand for something; nothing but its gates is read."""
    try:
        with open(path, "rb", buffering=0) as file:
            front, at = 9 if os.pread(file.fileno(), 8, 0) == b"smb311j2" else 5, 8
            while len(head := os.pread(file.fileno(), 5, at)) == 5 and head[0] == 1:
                at += front + struct.unpack_from("<I", head, 1)[0]
            return at + 1
    except FileNotFoundError:
        return 0
