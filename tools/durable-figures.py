#!/usr/bin/python3
"""Measures what writes cost whose answer says that they are on the disk, beside Samba: tools/durable-figures.py [--only WORD]
[--seconds N] [--minutes N] [--seed N] --folder FOLDER PROGRAM [WORD..]

The server is begun as PROGRAM WORD.. 127.0.0.1:445, Samba with `strict sync = yes` and `sync always = yes`, each alone, on a new folder
below FOLDER for each figure, which has to be on a real disk. One client measures both: its frames are made and signed before they are
sent, answers are counted and not verified, and beside each figure stands how busy it was. All is signed alone (GMAC where the server
has it). WORD chooses figures:

- writes: of 4 KiB, over what a file has, at random places, how many a second: over one connection one at a time, over eight connections
  one at a time each, over one connection with 32 outstanding;
- over: for --minutes minutes in pieces of 4 KiB, and as long in pieces of 64 KiB, eight outstanding, over 24 MiB: MiB a second; for each
  byte of user data how many bytes of the system's cache the server dirtied (write_bytes of /proc/PID/io, which counts all of a block of
  the cache that has a dirty byte, up to 2 MiB), and how many the disk wrote (of all the machine, with what the file system adds); how
  long a read of 512 bytes by a second client took, one each 10 ms; and the greatest length of smb311.journal with the draft beside it;
- start: how long a start takes over a journal just below the mark at which it is written anew, by the log and until it listens.

In front stands how many writes of 4 KiB with fdatasync the disk itself does a second. It wants what tools/serve-figures.py wants, and some
500 MB in FOLDER. It prints a line a figure as it comes, and a table at the end: what this server came to, what Samba did, and the first as
a part of the second.
"""
import argparse
import contextlib
import importlib.util
import multiprocessing
import os
import random
import selectors
import shutil
import signal
import struct
import sys
import tempfile
import time

import hostile_client as raw
from hostile_server import DRAFT, JOURNAL, MARK, READY, WRITTEN_ANEW
from hostile_work import used_of

TOOLS = os.path.dirname(os.path.abspath(__file__))
BLOCK, PIECE, WHOLE = 4096, 65536, 24 << 20  # bytes of a write, of a longer one, and of all files that are written over
AHEAD = 2000  # frames that are made before they are sent, at most
EACH = 0.01  # seconds between two reads of the second client
GMAC_FIRST = (2, 1)


def serving():
    loaded = importlib.util.spec_from_file_location("serve_figures", f"{TOOLS}/serve-figures.py")
    module = importlib.util.module_from_spec(loaded)
    loaded.loader.exec_module(module)
    return module


servers = serving()
servers.SAMBA += "strict sync = yes\nsync always = yes\n"  # of the share, which stands last
servers.Ours.more = "log info\n"


class Wire:
    """A connection with a file of its own, over which writes go without waiting for each."""

    def __init__(self, name, size, piece, chance):
        self.client = raw.logged_on(servers.PORT, servers.USER, servers.PASSWORD, servers.SHARE, timeout=600, signings=GMAC_FIRST)
        self.file, self.piece, self.chance = self.client.create(name).file, piece, chance
        self.data, self.heard, self.frames = chance.randbytes(1 << 20), bytearray(), []
        self.places, self.waiting, self.done = size // piece, 0, 0
        for at in range(0, size, 1 << 20):
            self.client.write(self.file, at, self.data[:min(1 << 20, size - at)])

    def make(self, count):
        """Makes frames of writes at random places."""
        for _ in range(count):
            at, begin = self.chance.randrange(self.places) * self.piece, self.chance.randrange((1 << 20) - self.piece)
            body = raw.write_body(self.file, at, self.data[begin:begin + self.piece])
            _, message = self.client.request(raw.WRITE, body, raw.charge_of(self.piece))
            self.frames.append(raw.framed(self.client.guarded(message)))
        self.frames.reverse()  # the first is the last

    def send(self):
        if not self.frames:
            self.make(AHEAD // 20)
        self.client.send_bytes(self.frames.pop())
        self.waiting += 1

    def hear(self):
        """Takes what came; how many writes it acknowledges."""
        got, count = self.client.socket.recv(1 << 18), 0
        if not got:
            raise raw.Closed("the server closed")
        self.heard += got
        while len(self.heard) >= 4 and len(self.heard) >= (size := 4 + int.from_bytes(self.heard[1:4], "big")):
            status = struct.unpack_from("<I", self.heard, 12)[0]
            if status not in (raw.SUCCESS, raw.PENDING):
                raise raw.Refused(status)
            count += status == raw.SUCCESS
            del self.heard[:size]
        self.waiting -= count
        self.done += count
        return count

    def forget(self):
        """Drops the frames that weren't sent: the next ones have their ids."""
        if self.frames:
            self.client.next -= len(self.frames) * raw.charge_of(self.piece)
            self.frames.clear()


def written(wires, outstanding, seconds, most=None):
    """Writes for so long, or so many: how many were acknowledged, in how many seconds, and how busy this client was."""
    for wire in wires:
        wire.make(min(AHEAD, most or AHEAD))
    with selectors.DefaultSelector() as waits:
        for wire in wires:
            waits.register(wire.client.socket, selectors.EVENT_READ, wire)
        begun, spent, left = time.monotonic(), time.process_time(), most or 10**9
        for wire in wires:
            for _ in range(min(outstanding, left)):
                wire.send()
                left -= 1
        count = 0
        while any(wire.waiting for wire in wires):
            for key, _ in waits.select(600):
                for _ in range(key.data.hear()):
                    count += 1
                    if left and time.monotonic() < begun + seconds:
                        key.data.send()
                        left -= 1
    took = time.monotonic() - begun
    for wire in wires:
        wire.forget()
    return count, took, (time.process_time() - spent) / took


def wires_of(count, size, piece, chance):
    return [Wire(f"file{number}", size // count, piece, chance) for number in range(count)]


def ended(wires):
    for wire in wires:
        wire.client.close()


# ---- writes


def tell_writes(tell, make, asked, chance):
    for count, outstanding, how in ((1, 1, "1 connection, one at a time"), (8, 1, "8 connections, one at a time each"),
                                    (1, 32, "1 connection, 32 outstanding")):
        with make():
            wires = wires_of(count, WHOLE, BLOCK, chance)
            written(wires, outstanding, 1)
            done, took, busy = written(wires, outstanding, asked.seconds)
            tell(f"durable writes of 4 KiB a second, {how}", done / took, f"this client was busy for {busy:.2f} of it")
            ended(wires)


# ---- writing over


def bytes_to_disk(server):
    """What all processes of a server had written, by the system's count."""
    total = 0
    for process, _ in server.processes():
        with contextlib.suppress(OSError), open(f"/proc/{process}/io", encoding="ascii") as file:
            total += sum(int(line.split()[1]) for line in file if line.startswith("write_bytes:"))
    return total


def bytes_to_device(folder):
    """What all the machine wrote to the disk of a folder; None where the system doesn't count it."""
    number = os.stat(folder).st_dev
    try:
        with open(f"/sys/dev/block/{os.major(number)}:{os.minor(number)}/stat", encoding="ascii") as file:
            return 512 * int(file.read().split()[6])
    except OSError:
        return None


def length_of(path):
    try:
        return os.stat(path).st_size
    except FileNotFoundError:
        return 0


def watched(folder, stop, told):
    """The second client: how long each of its reads took, and the greatest length of the journal with its draft."""
    client = raw.logged_on(servers.PORT, servers.USER, servers.PASSWORD, servers.SHARE, timeout=600, signings=GMAC_FIRST)
    file = client.create("small").file
    client.write(file, 0, bytes(512))
    told.send("begun")
    took, longest = [], 0
    while not stop.is_set():
        begun = time.monotonic()
        client.read(file, 0, 512)
        took.append(time.monotonic() - begun)
        longest = max(longest, length_of(f"{folder}/{JOURNAL}") + length_of(f"{folder}/{DRAFT}"))
        time.sleep(max(0, EACH - took[-1]))
    client.close()
    told.send((sorted(took), longest))


class Watch:
    """The second client in a process of its own."""

    def __enter__(self):
        self.stop, (self.told, there) = multiprocessing.Event(), multiprocessing.Pipe()
        self.process = multiprocessing.Process(target=watched, args=(self.folder, self.stop, there), daemon=True)
        self.process.start()
        there.close()
        self.told.recv()
        return self

    def __init__(self, folder):
        self.folder = folder

    def end(self):
        self.stop.set()
        return self.told.recv()

    def __exit__(self, *_):
        self.process.kill()
        self.process.join()


def tell_over(tell, make, asked, chance):
    for piece in (BLOCK, PIECE):
        how = f"in pieces of {piece >> 10} KiB"
        with make() as server:
            wires = wires_of(1, WHOLE, piece, chance)
            with Watch(server.room) as watch:
                before, device = bytes_to_disk(server), bytes_to_device(server.room)
                count, took, busy = written(wires, 8, 60 * asked.minutes)
                spent, reached = bytes_to_disk(server) - before, bytes_to_device(server.room)
                reads, longest = watch.end()
            anew = len(WRITTEN_ANEW.findall(server.said()))
            told = f"this client was busy for {busy:.2f} of it; written anew {anew} times"
            tell(f"written over {how}, MiB a second", count * piece / took / 2**20, told)
            tell(f"bytes dirtied for each byte written over {how}", spent / (count * piece))
            if device is not None:
                tell(f"bytes that the disk wrote for each byte written over {how}", (reached - device) / (count * piece))
            tell(f"longest read of a second client meanwhile {how}, ms", 1000 * reads[-1], f"of {len(reads)}")
            tell(f"99 of 100 of its reads took at most {how}, ms", 1000 * reads[len(reads) * 99 // 100])
            if longest:
                tell(f"journal and draft at most {how}, MiB", longest / 2**20)
            ended(wires)


# ---- a start


def fill_to_mark(server, wires):
    """Writes over until the journal is just below the mark; how many bytes of it count."""
    path, used = f"{server.room}/{JOURNAL}", 0
    for _ in range(200):
        anew = WRITTEN_ANEW.findall(server.said())
        mark, used = max(MARK, 2 * int(anew[-1][1])) if anew else MARK, used_of(path)
        if mark - (2 << 20) <= used < mark:
            return used
        written(wires, 8, 60, most=max(1, (mark - (1 << 20) - used) // 2 // PIECE))
    sys.exit(f"the journal of {server.name} didn't come near to its mark, but to {used} bytes")


def tell_start(tell, make, chance):
    with make() as server:
        wires = wires_of(1, WHOLE, PIECE, chance)
        used = fill_to_mark(server, wires)
        ended(wires)
        server.end()
        begun = time.monotonic()
        server.begin()
        server.begun()
        took, read = time.monotonic() - begun, READY.search(server.said())
        if read:
            tell("start over a journal below the mark, by the log, ms", int(read[1]), f"{used / 2**20:.1f} MiB of it count")
        tell("start over a journal below the mark, until it listens, ms", 1000 * took)
        client = raw.logged_on(servers.PORT, servers.USER, servers.PASSWORD, servers.SHARE, timeout=600, signings=GMAC_FIRST)
        tell("from that start's beginning until a first client is on the share, ms", 1000 * (time.monotonic() - begun))
        client.close()


# ---- all


def measured(name, make, asked, is_ours):
    found, chance = {}, random.Random(asked.seed)

    def tell(figure, value, more=""):
        found[figure] = value
        print(f"{name}: {figure}: {value:.4g}{f' ({more})' if more else ''}", flush=True)

    if asked.only in "writes":
        tell_writes(tell, make, asked, chance)
    if asked.only in "over":
        tell_over(tell, make, asked, chance)
    if is_ours and asked.only in "start":
        tell_start(tell, make, chance)
    return found


def kind_of(folder):
    """The kind of the file system that has a folder."""
    found, best = "?", -1
    with open("/proc/self/mounts", encoding="utf-8") as file:
        for line in file:
            _, at, kind = line.split()[:3]
            if os.path.commonpath((os.path.realpath(folder), at)) == at and len(at) > best:
                found, best = kind, len(at)
    return found


def synced(folder, seconds=3):
    """How many writes of 4 KiB into a file, each synced, the disk does a second."""
    with tempfile.NamedTemporaryFile(dir=folder, buffering=0) as file:
        file.write(os.urandom(1 << 20))
        os.fsync(file.fileno())
        count, begun = 0, time.monotonic()
        while time.monotonic() < begun + seconds:
            os.pwrite(file.fileno(), os.urandom(BLOCK), BLOCK * (count % 256))
            os.fdatasync(file.fileno())
            count += 1
        return count / (time.monotonic() - begun)


def words():
    told = argparse.ArgumentParser(description=__doc__, formatter_class=argparse.RawDescriptionHelpFormatter)
    told.add_argument("--only", default="", choices=("", "writes", "over", "start"))
    told.add_argument("--seconds", type=float, default=10, help="of a figure on writes (10)")
    told.add_argument("--minutes", type=float, default=2, help="of writing over in pieces of one size (2)")
    told.add_argument("--seed", type=int, default=1, help="of what is drawn (1)")
    told.add_argument("--folder", required=True, help="on a real disk")
    told.add_argument("--samba", action="store_true", help="Samba alone")
    told.add_argument("program", nargs="*", help="the program, and what stands in front of the address")
    return told.parse_intermixed_args()


def main():
    asked = words()
    for wanted in ("smbd", "smbpasswd"):
        if not shutil.which(wanted):
            sys.exit(f"there is no {wanted}")
    if kind_of(asked.folder) in ("tmpfs", "ramfs"):
        sys.exit(f"{asked.folder} is in memory")
    if not asked.program and not asked.samba:
        sys.exit("no program")
    servers.Server.place = asked.folder
    if asked.program:
        asked.program[0] = os.path.abspath(asked.program[0]) if os.path.exists(asked.program[0]) else asked.program[0]
    signal.signal(signal.SIGTERM, lambda *_: sys.exit("ended"))  # so that the servers are ended too
    print(f"load {os.getloadavg()[0]:.1f} on {os.cpu_count()} processors; on {kind_of(asked.folder)} {synced(asked.folder):.0f} synced "
          "writes of 4 KiB a second", flush=True)
    ours = measured("smb311", lambda: servers.Ours(asked.program, False), asked, True) if asked.program else {}
    samba = measured("Samba", lambda: servers.Samba(False), asked, False)
    print(f"load {os.getloadavg()[0]:.1f} at the end\n\n| figure | smb311 | Samba | ratio |\n|---|---|---|---|")
    for figure in [*ours, *(figure for figure in samba if figure not in ours)]:
        own, theirs = ours.get(figure, float("nan")), samba.get(figure, float("nan"))
        print(f"| {figure} | {own:.4g} | {theirs:.4g} | {own / theirs if theirs else float('nan'):.2g} |")


if __name__ == "__main__":
    main()
