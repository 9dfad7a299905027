#!/usr/bin/env python3
"""Runs the client against the server over a relay that loses connections, and compares what it told with the files that the server then
holds: tools/run-over-relay.py [--first SEED] [--count N] [--verbose] PROGRAM

For each seed `PROGRAM serve` begins on an empty folder, and `PROGRAM run` does a script that the seed makes, over two channels through
tools/relay.py. One of the two is cut at every n-th frame (n from 9 to 40; the frame is lost, arrives in part, or arrives and its answer is
lost), and in every second run the server is killed up to three times and begun again on its journal, while the relay goes on taking
connections. Then another client (tools/hostile_client.py) reads the files. Of each run it is checked that

- an operation on a persistent open settled as it would over one connection that loses nothing, and one on another open so, or unknown
  because its session was lost, or never sent;
- each file holds what the operations that succeeded make of it, and those that are unknown perhaps; no other file is there;
- reads gave bytes that the file had; orders list each write, end and read that a response settled once; what is printed of a file is
  what the server holds; the status is 11 exactly where an outcome is unknown.

A line a run, and a count at the end; the status is 0 where no run failed. It wants Python's package cryptography."""
import argparse
import itertools
import os
import random
import shutil
import socket
import subprocess
import sys
import tempfile
import threading
import time

import hostile_client as raw
import relay

HOST, USER, PASSWORD, SHARE, LIMIT = "127.0.0.1", "anna", "First", "data", 120
END_OF_FILE, END_AGAIN = "refused c0000011", "unknown status c0000011"  # the second where an earlier copy is unanswered
LONG, FAR = 9000, 1 << 20  # bytes of a fill; where ranges are locked, behind all that is written


class Wrong(Exception):
    pass


def free_port():
    with socket.create_server((HOST, 0)) as probe:
        return probe.getsockname()[1]


class Server:
    """The served journal of a folder."""

    def __init__(self, program, folder, cipher):
        self.program, self.folder, self.port, self.process, self.starts = program, folder, free_port(), None, 0
        self.settings = f"{'cipher none' if cipher == 'none' else 'cipher gcm'}\nuser {USER} {PASSWORD}\nshare {SHARE}\npeers 256\n"

    def begin(self):
        self.process = subprocess.Popen([self.program, "serve", f"{HOST}:{self.port}"], cwd=self.folder, stdin=subprocess.PIPE,
                                        stdout=subprocess.DEVNULL)
        self.process.stdin.write(self.settings.encode())
        self.process.stdin.close()
        self.starts += 1
        for _ in range(2000):
            with socket.socket() as probe:
                if probe.connect_ex((HOST, self.port)) == 0:
                    return
            if self.process.poll() is not None:
                break
            time.sleep(0.01)
        raise Wrong(f"the server ended with status {self.process.poll()}")

    def kill(self):
        self.process.kill()
        self.process.wait()


class Losses:
    """What the relay does, by a seed: cuts in one slot, and kills at frames of all slots."""

    def __init__(self, chance):
        self.slot, self.count = chance.randrange(2), chance.randint(9, 40)
        self.cut = relay.every(self.slot, self.count, chance.randint(1, self.count), "any", chance.random())
        self.kills = sorted(chance.sample(range(10, 90), chance.randint(1, 3))) if chance.random() < 0.5 else []
        self.seen, self.due = 0, threading.Semaphore(0)

    def fate(self, slot):
        self.seen += 1
        if self.kills and self.seen >= self.kills[0]:
            self.kills.pop(0)
            self.due.release()
        return self.cut(slot)


# ---- scripts: of each operation its words, and what it does


class Script:
    """Operations on files of their own, each behind one open that shares nothing, so that what is due follows from their order."""

    def __init__(self, chance):
        self.chance, self.ops, self.opens = chance, [], {}
        self.cipher = chance.choice(("none", "ccm", "gcm", "ccm256", "gcm256"))
        self.head = f"cipher {self.cipher}\nsigning {chance.choice(('cmac', 'gmac'))}\nuser {USER} {PASSWORD}\nshare {SHARE}\nchannels 2\n"
        turns = [self.file(f"f{number}", chance.random() < 0.8) for number in range(chance.randint(1, 4))]
        while turns:
            turn = chance.choice(turns)
            if next(turn, None) is None:
                turns.remove(turn)

    def add(self, words, create=None, **what):
        self.ops.append({"words": words, "create": create or len(self.ops) + 1, **what})
        return len(self.ops)

    def file(self, path, persistent):
        """the operations on one file, one at a time"""
        chance, locked = self.chance, []
        c = self.add(f"create {path} rwd - create {'persist' if persistent else 'plain'}", kind="create", path=path, persistent=persistent)
        self.opens[c] = {"path": path, "persistent": persistent}
        yield c
        for _ in range(chance.randint(3, 14)):
            what = chance.choice(("write", "write", "write", "fill", "end", "read", "lock", "flush", "stat", "unlock"))
            at = chance.randrange(300)
            if what == "write":
                data = chance.randbytes(chance.randint(0, 60))
                yield self.add(f"write {c} {at} {data.hex() or '-'}", c, kind="write", at=at, data=data)
            elif what == "fill":
                size, byte = chance.randrange(LONG), chance.randrange(256)
                yield self.add(f"fill {c} {at} {size} {byte:02x}", c, kind="write", at=at, data=bytes([byte]) * size)
            elif what == "end":
                size = chance.randrange(400)
                yield self.add(f"end {c} {size}", c, kind="end", size=size)
            elif what == "read":
                size = chance.randrange(400)
                yield self.add(f"read {c} {at} {size}", c, kind="read", at=at, size=size)
            elif what == "lock":
                at = locked[-1] + 100 if locked else FAR
                locked.append(at)
                yield self.add(f"lock {c} {at} 10 {chance.choice(('shared', 'exclusive'))}", c, kind="lock")
            elif what == "unlock" and locked:
                yield self.add(f"unlock {c} {locked.pop(0)} 10", c, kind="lock")
            elif what in ("flush", "stat"):
                yield self.add(f"{what} {c}", c, kind=what)
        last = chance.random()
        if last < 0.15:
            self.opens[c]["path"] = path + "-new"
            yield self.add(f"rename {c} {path}-new", c, kind="rename", path=path + "-new")
        elif last < 0.25 and persistent:
            yield self.add(f"remove {c}", c, kind="remove")
        # a persistent open that isn't closed would keep the reader of the files out
        yield self.add(f"close {c}", c, kind="close")

    def text(self):
        return self.head + "".join(f"op {op['words']}\n" for op in self.ops)


# ---- what the client told


class Told:
    def __init__(self, text, count):
        self.outcomes, self.orders, self.files, self.dialogs = {}, {}, {}, []
        for line in text.splitlines():
            word, _, rest = line.partition(" ")
            if word == "dialog":
                self.dialogs.append(rest)
            elif word == "order":
                create, *numbers = map(int, rest.split())
                self.orders[create] = numbers
            elif word == "file":
                path, length, shown = rest.split(" ")
                self.files[path] = (int(length), shown)
            else:
                self.outcomes[int(word)] = rest
        if sorted(self.outcomes) != list(range(1, count + 1)):
            raise Wrong("not each operation has an outcome")


def written(content, op):
    """the content machine (MS-FSA 2.1.5.3, 2.1.5.15.4)"""
    if op["kind"] == "end":
        return content[:op["size"]].ljust(op["size"], b"\0")
    if op["kind"] == "write" and op["data"]:
        at = op["at"]
        return content[:at].ljust(at, b"\0") + op["data"] + content[at + len(op["data"]):]
    return content


def shown(content):
    import hashlib
    return content.hex() or "-" if len(content) <= 64 else "sha256:" + hashlib.sha256(content).hexdigest()


def judged(script, told):
    """Of each operation its kind of outcome: `acted`, `not` or `perhaps`. One that no cause explains is wrong."""
    fates = {}
    for number, op in enumerate(script.ops, 1):
        outcome, persistent = told.outcomes[number], script.opens[op["create"]]["persistent"]
        word = outcome.split()[0]
        if word == "ok":
            fates[number] = "acted"
            due = {"create": "ok created", "write": f"ok {len(op.get('data', b''))}", "read": None, "stat": None}.get(op["kind"], "ok")
            if due and outcome != due:
                raise Wrong(f"operation {number} ({op['words'][:40]}) settled as {outcome}")
        elif op["kind"] == "read" and outcome in (END_OF_FILE, END_AGAIN):
            fates[number] = "not"
        elif not persistent and outcome.startswith("unknown session-lost "):
            fates[number] = "perhaps"
        elif not persistent and outcome == f"noopen {op['create']}" and op["kind"] != "create":
            fates[number] = "not"
        else:
            raise Wrong(f"operation {number} ({op['words'][:40]}) settled as {outcome}")
    return fates


def contents(ops, fates):
    """all that the file may hold behind these operations, in their order"""
    found = {b""}
    for number, op in ops:
        after = {written(content, op) for content in found}
        found = after if fates[number] == "acted" else found | after if fates[number] == "perhaps" else found
    return found


def before(ops, fates, number, op):
    """All that the file may hold when a read acts: it waits for writes below it that it meets, and for ends, but not for others, of which
    two channels have two on their way."""
    found = set()
    apart = [last for last, other in ops if last < number and other["kind"] == "write" and (
        other["at"] >= op["at"] + op["size"] or other["at"] + len(other["data"]) <= op["at"])]
    for last, _ in ops:
        if last >= number:
            found |= contents([pair for pair in ops if pair[0] <= last], fates)
    for count in (1, 2):
        for late in itertools.combinations(apart, count):
            found |= contents([pair for pair in ops if pair[0] < number and pair[0] not in late], fates)
    return found


def check_read(ops, fates, told, number, op):
    """Its bytes are some that the file had."""
    held = [content[op["at"]:op["at"] + op["size"]] for content in before(ops, fates, number, op)]
    if fates[number] != "acted":
        if told.outcomes[number] in (END_OF_FILE, END_AGAIN) and b"" not in held:
            raise Wrong(f"read {number} met no end")
        return
    got = told.outcomes[number].split()[1]
    data = b"" if got == "-" else bytes.fromhex(got)
    if not any(len(content) == len(data) for content in held):
        raise Wrong(f"read {number} gave {len(data)} bytes")
    for place, byte in enumerate(data):
        if not any(place < len(content) and content[place] == byte for content in held):
            raise Wrong(f"read {number} gave a byte at {op['at'] + place} that the file never had")


def compare(script, told, held):
    fates = judged(script, told)
    left = dict(held)
    for create, opened in script.opens.items():
        ops = [(number, op) for number, op in enumerate(script.ops, 1) if op["create"] == create]
        for number, op in ops:
            if op["kind"] == "read":
                check_read(ops, fates, told, number, op)
        renames = [(number, op["path"]) for number, op in ops if op["kind"] == "rename"]
        paths = {script.ops[create - 1]["path"]}
        for number, path in renames:
            paths = {path} if fates[number] == "acted" else paths | {path} if fates[number] == "perhaps" else paths
        removed = any(op["kind"] == "remove" and fates[number] == "acted" for number, op in ops)
        there = [path for path in (script.ops[create - 1]["path"], *(path for _, path in renames)) if path in left]
        if removed or not there:
            if there:
                raise Wrong(f"{there[0]} was removed and is there")
            if not removed and fates[create] == "acted":
                raise Wrong(f"{opened['path']} isn't there")
            continue
        if len(there) > 1 or there[0] not in paths:
            raise Wrong(f"of create {create} there is {there}")
        content, due = left.pop(there[0]), contents(ops, fates)
        if content not in due:
            raise Wrong(f"{there[0]} has {len(content)} bytes, none of {len(due)} that are due")
        certain = all(fates[number] == "acted" for number, op in ops if op["kind"] in ("create", "write", "end"))
        if certain and told.files.get(script.ops[create - 1]["path"]) != (len(content), shown(content)):
            raise Wrong(f"what is printed of {there[0]} isn't what the server holds")
        listed = [number for number, op in ops if op["kind"] in ("write", "end", "read")
                  and told.outcomes[number].startswith(("ok", "refused ", "unknown status "))]
        if fates[create] == "acted" and sorted(told.orders.get(create, [])) != sorted(listed):
            raise Wrong(f"the order of create {create} is {told.orders.get(create)}")
    if left:
        raise Wrong(f"nobody made {sorted(left)}")


def held_by(port, paths):
    """what the server has under these names"""
    found = {}
    with raw.logged_on(port, USER, PASSWORD, SHARE) as client:
        for path in paths:
            try:
                opened = client.create(path, access=0x120089, disposition=raw.OPEN)
            except raw.Refused as refused:
                if refused.status == raw.NAME_NOT_FOUND:
                    continue
                raise
            found[path] = client.read_all(opened.file, opened.length)
            client.close_file(opened.file)
    return found


def one(program, seed, verbose):
    chance = random.Random(seed)
    script, losses = Script(chance), Losses(chance)
    folder = tempfile.mkdtemp(prefix="run-over-relay-", dir="/dev/shm")
    server = Server(program, folder, script.cipher)
    try:
        server.begin()
        between = relay.Relay(server.port, losses.fate)
        running = True

        def killer():
            while running:
                if losses.due.acquire(timeout=0.1):
                    between.hold()
                    server.kill()
                    server.begin()
                    between.go_on()
        thread = threading.Thread(target=killer, daemon=True)
        thread.start()
        try:
            ran = subprocess.run([program, "run", f"{HOST}:{between.port}"], input=script.text(), capture_output=True, text=True,
                                 timeout=LIMIT, check=False)
        finally:
            running = False
            thread.join()
            between.end()
        if verbose:
            print(script.text() + ran.stdout, end="")
        told = Told(ran.stdout, len(script.ops)) if ran.returncode in (0, 11) else None
        if told is None or (ran.returncode == 11) != any(text.startswith("unknown") for text in told.outcomes.values()):
            raise Wrong(f"status {ran.returncode}: {ran.stdout[:200]}{ran.stderr[:200]}")
        paths = [path for opened in script.ops if opened["kind"] in ("create", "rename") for path in [opened["path"]]]
        compare(script, told, held_by(server.port, paths))
        words = [text.split()[0] for text in told.outcomes.values()]
        counts = " ".join(f"{words.count(word)} {word}" for word in ("ok", "refused", "noopen", "unknown") if word in words)
        return between.cuts, server.starts - 1, f"{between.count} connections, {between.cuts} cuts in slot {losses.slot} at every " \
            f"{losses.count}th frame, {server.starts - 1} restarts: {counts}"
    finally:
        if server.process:
            server.kill()
        shutil.rmtree(folder, ignore_errors=True)


def main():
    parser = argparse.ArgumentParser(usage=__doc__)
    parser.add_argument("--first", type=int, default=1)
    parser.add_argument("--count", type=int, default=200)
    parser.add_argument("--verbose", action="store_true")
    parser.add_argument("program")
    said = parser.parse_args()
    program = os.path.abspath(said.program)
    cuts = starts = failed = 0
    for seed in range(said.first, said.first + said.count):
        try:
            more, again, line = one(program, seed, said.verbose)
            cuts, starts = cuts + more, starts + again
            print(f"seed {seed}: {line}", flush=True)
        except (Wrong, AssertionError, raw.Refused, raw.Closed, raw.Wrong, subprocess.TimeoutExpired) as error:
            failed += 1
            print(f"FAILED seed {seed}: {error}", flush=True)
    print(f"{said.count} runs from seed {said.first} on, {cuts} cuts, {starts} restarts, {failed} failed")
    return failed != 0


if __name__ == "__main__":
    sys.exit(main())
