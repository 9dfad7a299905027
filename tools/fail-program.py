#!/usr/bin/env python3
"""Lets each allocation of the program fail in turn: tools/fail-program.py PROGRAM [drill] [serve] [run] [served]
[threads]

PROGRAM is the built `smb311`. A library that is loaded in front of the C library answers the Nth call of malloc with no memory.

drill: two scripts, a file that is written, read and closed, and a server that restarts behind a create. Each run has to print what one
with memory prints, with status 0, or to end with 8 and a beginning of it.

serve: a server of two connections, whose client makes a session on one and binds the other to it, creates, writes, reads and closes a
file in turns on both, and asks anew where it is told NO_MEMORY. The server has to end with 0, or with 8 before it listens; an operation
is answered as with memory, or with NO_MEMORY, or its connection ends, and the server prints that it ended as `memory`. A connection for
which memory runs out before it is taken in ends without an answer, and isn't counted, so that the server waits for one more; where no
thread can be made the second one waits for the first one's end. What was acknowledged has to stand for a server that is begun in the
same folder with memory.

run: the client of four channels writes, reads and closes a file at a server with memory. It has to end with 0 and print what one with
memory prints, or with 8 and print nothing, or with 11 and tell of each operation the same, that it is unknown, or that its open is gone.

served: the same, and the server's allocations fail. The server has to end as in serve, and the client with 0, 8, 11 or as one whose
operations may also be refused for want of memory. After both, what the client was told stands for a server with memory.

threads: clients of 2 to 8 channels, each with each set of its threads refused. They have to print what one with all its threads prints.

It prints how often each came about, and each run that is wrong. The status is 0 where there is none. It needs a C compiler (`cc`) and, but
for drill, the package `cryptography`; it takes some minutes, and proves nothing."""
import collections
import functools
import os
import subprocess
import sys
import tempfile
import time

from failing_memory import calls_in, failing, library_in
from hostile_client import MAKE, Client, Closed, Link, Refused, Wrong, logged_on
from hostile_server import free_port

SCRIPTS = {
    "a file": "op create a.txt rw - create plain\nop write 1 0 68656c6c6f\nop read 1 0 16\nop close 1\nsettle\n",
    "a restart": "link 0\nop create a rw - create persist\npush 0\nserve 0\nrestart\ncut 0\nsettle\n",
}
NO_MEMORY = 0xC0000017
HELLO, NAME, SECONDS = b"hello", "a.txt", 30
SOON = 3
# Over so many channels, so that lists of threads are split, and what a client with memory prints.
CHANNELS = 4
FILE = "op create a.txt rw - create plain\nop write 1 0 68656c6c6f\nop read 1 0 16\nop close 1\n"
TOLD = "1 ok created\n2 ok 5\n3 ok 68656c6c6f\n4 ok\norder 1 2 3\nfile a.txt 5 68656c6c6f\n"
NO_MEMORY_WORD, END_OF_FILE = "refused c0000017", "3 refused c0000011"


class Tally:
    """How often each came about, and what is wrong."""

    def __init__(self):
        self.found, self.wrong = collections.Counter(), []

    def told(self, name, calls, of="allocations"):
        print(f"{name}: {calls} {of}")
        if not calls:
            self.wrong.append("none was counted")
        for what, times in self.found.most_common():
            print(f"{times:6d} {what}")
        for what in self.wrong:
            print(f"  WRONG: {what}")
        return len(self.wrong)


# ---- drill


def drilled(program, script, library=None, number=0):
    """The status, what was printed, and how often it allocated."""
    ran = subprocess.run([program, "drill"], input=script.encode(), capture_output=True, env=failing(library, number), timeout=SECONDS)
    return ran.returncode, ran.stdout, calls_in(ran.stderr)


def drill(program, library):
    wrong = 0
    for name, script in SCRIPTS.items():
        due, tally = drilled(program, script), Tally()
        assert due[0] == 0, due
        calls = drilled(program, script, library)[2]
        for number in range(1, calls + 1):
            status, printed, _ = drilled(program, script, library, number)
            if (status, printed) == due[:2]:
                tally.found["0, and all is printed"] += 1
            elif status == 8 and due[1].startswith(printed):
                tally.found["8, and nothing is printed" if not printed else "8, and a beginning is printed"] += 1
            else:
                tally.wrong.append(f"call {number}: status {status}, {printed[:200]!r}")
        wrong += tally.told(f"drill, {name}", calls)
    return wrong


# ---- serve


class Served:
    """A server of so many connections in a folder, None for one that goes on, and what it came to."""

    def __init__(self, program, folder, count, library=None, number=0):
        self.port = free_port()
        words = [program, "serve", f"127.0.0.1:{self.port}"] + ([] if count is None else [str(count), "info"])
        pipes = {"stdin": subprocess.DEVNULL, "stdout": subprocess.PIPE, "stderr": subprocess.PIPE}
        self.process = subprocess.Popen(words, cwd=folder, env=failing(library, number), **pipes)

    def listens(self):
        """Whether it comes to listen: its socket stands in the kernel's table."""
        wanted, end = f":{self.port:04X} 00000000:0000 0A", time.monotonic() + SECONDS
        while time.monotonic() < end and self.process.poll() is None:
            with open("/proc/net/tcp", encoding="ascii") as table:
                if wanted in table.read():
                    return True
            time.sleep(0.002)
        return False

    def ends_soon(self):
        """Whether it ends by itself, without another connection."""
        try:
            self.process.wait(timeout=SOON)
        except subprocess.TimeoutExpired:
            return False
        return True

    def ended(self):
        """Its status, its lines, and how often it allocated; one that doesn't end by itself is ended."""
        try:
            printed, said = self.process.communicate(timeout=SECONDS)
        except subprocess.TimeoutExpired:
            self.process.kill()
            printed, said = self.process.communicate()
            return "no end", printed.decode(), calls_in(said)
        return self.process.returncode, printed.decode(), calls_in(said)

    def stopped(self):
        """Its status and how often it allocated; one that goes on is ended, and has the status 0."""
        if self.process.poll() is None:
            self.process.kill()
            self.process.communicate()
            return 0, 0
        status, _, calls = self.ended()
        return status, calls


class Lost(Exception):
    """A connection ended before all was done."""


class Peer:
    """The client's side: its connections, whether it was told NO_MEMORY, whether a connection ended without an answer, whether the second
    one had none while the first one stood, and what was acknowledged."""

    def __init__(self, port):
        self.port, self.clients, self.kept = port, [], {}
        self.short = self.unanswered = self.waits = False

    def asked(self, call):
        """What a call gives, asked anew where it is told NO_MEMORY."""
        for _ in range(3):
            try:
                return call()
            except Refused as refused:
                if refused.status != NO_MEMORY:
                    raise
                self.short = True
            except Closed as closed:
                raise Lost from closed
        raise AssertionError("it is told NO_MEMORY three times")

    def connected(self, to=None):
        """A connection with a session of its own in the share, or bound to that of another one."""
        client = self.asked(lambda: Client(self.port, guid=to and to.guid))
        self.clients.append(client)
        try:
            self.asked(client.negotiate)
        except Lost:
            self.unanswered = not self.short
            raise
        self.asked(lambda: client.log_on("user", "Password", to=to))
        if to is None:
            self.asked(lambda: client.connect_tree("data"))
        return client

    def works(self):
        """A file that is created, written, read and closed, in turns on two connections; False where one ends before."""
        try:
            first = self.connected()
            try:
                second = self.connected(first)
            except TimeoutError:
                self.waits = True
                return False
            opened = self.asked(lambda: first.create(NAME, disposition=MAKE))
            self.kept[NAME] = b""
            self.asked(lambda: second.write(opened.file, 0, HELLO))
            self.kept[NAME] = HELLO
            assert self.asked(lambda: first.read(opened.file, 0, 16)) == HELLO, "another content"
            self.asked(lambda: second.close_file(opened.file))
        except Lost:
            return False
        return True

    def ends(self):
        """Ends its connections; a server of two waits for the second one."""
        while len(self.clients) < 2:
            try:
                self.clients.append(Link(self.port))
            except Closed:
                break
        for client in self.clients:
            client.close()

    def may_find(self, content):
        """Whether the file may have this content, None where it isn't there; what wasn't acknowledged may stand or not."""
        known = self.kept.get(NAME)
        return content == HELLO or content == known or known is None and content == b""


def stands(program, folder, peer):
    """Whether a server with memory has in that folder what was acknowledged."""
    server = Served(program, folder, 1)
    assert server.listens(), "no server begins there again"
    client = logged_on(server.port, "user", "Password")
    content = client.whole(NAME)
    client.close()
    return server.ended()[0] == 0 and peer.may_find(content)


def came_about(program, folder, library, number):
    """What a run comes to whose call of this number fails, whether that is right, and how often it allocated."""
    server = Served(program, folder, 2, library, number)
    if not server.listens():
        status, printed, calls = server.ended()
        return f"{status}, before it listens", status == 8 and not printed, calls
    peer = Peer(server.port)
    done = peer.works()
    peer.ends()
    let_go = peer.unanswered and not server.ends_soon()
    if let_go:
        Link(server.port).close()
    status, printed, calls = server.ended()
    if status == 8:
        what = "8, when it had listened"
    elif done:
        what = f"{status}, and all is answered" + (", once NO_MEMORY in front" if peer.short else "")
    elif let_go:
        what = f"{status}, and a connection ends before it is taken in"
    elif peer.waits:
        what = f"{status}, and the second connection waits for the first one's end"
    else:
        what = f"{status}, and a connection ends as memory"
    told = "memory" in printed or status == 8 or let_go or peer.waits
    return what, status in (0, 8) and (done or told) and stands(program, folder, peer), calls


def each_of(name, library, once):
    """What a run comes to whose calls fail in turn, each in a folder of its own. Call 0 is none: it tells how many there are."""
    tally, number, calls = Tally(), 0, 1
    while number <= calls:
        with tempfile.TemporaryDirectory() as folder:
            try:
                what, right, count = once(folder, library, number)
            except (AssertionError, Refused, Wrong, Closed, TimeoutError) as error:
                what, right, count = f"{type(error).__name__}: {error}", False, 0
        if number == 0:
            assert right, what
            calls = count
        elif right:
            tally.found[what] += 1
        else:
            tally.wrong.append(f"call {number}: {what}")
        number += 1
    return tally.told(name, calls)


def serve(program, library):
    return each_of("serve, two connections and a file", library, functools.partial(came_about, program))


# ---- run


def asked(program, port, library=None, number=0, channels=CHANNELS, refused=0):
    """The status of a client of so many channels, what it printed, and how often it allocated."""
    words, env = [program, "run", f"127.0.0.1:{port}"], failing(library, number, 1, refused)
    script = f"channels {channels}\n{FILE}"
    try:
        ran = subprocess.run(words, input=script.encode(), capture_output=True, env=env, timeout=SECONDS)
    except subprocess.TimeoutExpired as late:
        return "no end", (late.stdout or b"").decode(), calls_in(late.stderr or b"")
    return ran.returncode, ran.stdout.decode(), calls_in(ran.stderr)


def tells(line, due, refused):
    """Whether a line of outcomes may stand in another's place: the same, unknown, without an open, and where it may be, refused for want of
    memory."""
    if line == due:
        return True
    words = line.split()
    may_be = words[1:2] in (["unknown"], ["noopen"]) or refused and words[1:] == ["refused", "c0000017"]
    return words[:1] == due.split()[:1] and may_be


def is_told(status, printed, refused):
    """Whether a client may end so."""
    if status == 8:
        return not printed
    lines = [line for line in printed.split("\n") if not line.startswith("dialog ")]
    if (status, "\n".join(lines)) == (0, TOLD):
        return True
    dues = TOLD.split("\n")[:4]
    # The file is empty where the write didn't act.
    if len(lines) >= 4 and lines[1] != dues[1] and lines[2] == END_OF_FILE:
        dues[2] = END_OF_FILE
    right = len(lines) >= 4 and all(tells(line, due, refused) for line, due in zip(lines, dues))
    return right and status == (11 if any(" unknown" in line for line in lines) else 0) and (status == 11 or refused)


def keeps(program, folder, printed):
    """Whether a server with memory has in that folder what the client was told."""
    server = Served(program, folder, 1)
    assert server.listens(), "no server begins there again"
    client = logged_on(server.port, "user", "Password")
    content = client.whole(NAME)
    client.close()
    if "2 ok 5" in printed:
        due = {HELLO}
    elif "1 ok" in printed:
        due = {b""} if "2 refused" in printed else {HELLO, b""}
    else:
        due = {HELLO, b"", None}
    return server.ended()[0] == 0 and content in due


def ran_once(program, at_server, folder, library, number):
    """What a run comes to in which one call of one of both programs fails, whether that is right, and how often that one allocated."""
    # One that counts its connections tells how often it allocates; else a channel may need one connection more.
    server = Served(program, folder, None if number else CHANNELS, library if at_server else None, number)
    if not server.listens():
        status, printed, calls = server.ended()
        return f"{status}, before it listens", status == 8 and not printed, calls
    status, printed, calls = asked(program, server.port, None if at_server else library, number)
    served, counted = server.stopped() if number else server.ended()[::2]
    what = f"the client {status}" + (f", the server {served}" if at_server or served else "")
    if NO_MEMORY_WORD in printed:
        what += ", an operation refused for want of memory"
    right = served in (0, 8) if at_server else served == 0
    right = right and is_told(status, printed, at_server) and keeps(program, folder, printed)
    return what if right else f"{what}: {printed!r}", right, counted if at_server else calls


def run(program, library):
    return each_of("run, four channels and a file", library, functools.partial(ran_once, program, False))


def served(program, library):
    return each_of("served, a client of four channels", library, functools.partial(ran_once, program, True))


def threads(program, library):
    """The first channel has the command's own thread, and each further one has one that may be refused."""
    wrong = 0
    for channels in range(2, 9):
        tally, sets = Tally(), 2 ** (channels - 1)
        for refused in range(sets):
            with tempfile.TemporaryDirectory() as folder:
                server = Served(program, folder, None)
                assert server.listens(), "no server begins"
                status, printed, _ = asked(program, server.port, library, 0, channels, refused)
                server.stopped()
            if (status, printed) == (0, TOLD):
                tally.found["0, and all is printed"] += 1
            else:
                tally.wrong.append(f"threads refused {refused:b}: status {status}, {printed[:200]!r}")
        wrong += tally.told(f"threads, {channels} channels", sets, "sets that are refused")
    return wrong


def main(words):
    ways = {"drill": drill, "serve": serve, "run": run, "served": served, "threads": threads}
    names = words[1:] or list(ways)
    if not words or words[0].startswith("-") or not set(names) <= set(ways):
        sys.exit(__doc__)
    program, wrong = os.path.abspath(words[0]), 0
    with tempfile.TemporaryDirectory() as folder:
        library = library_in(folder)
        for name in names:
            wrong += ways[name](program, library)
    return 1 if wrong else 0


if __name__ == "__main__":
    sys.exit(main(sys.argv[1:]))
