#!/usr/bin/env python3
"""Lets each allocation of a row of events fail in turn: tools/fail-allocations.py PROGRAM

PROGRAM is `test_events` as `rt run` built it. A library that is loaded in front of the C library answers the Nth call of
malloc with no memory. Where an event then answers `Memory`, each other event must be answered as in a run without that
one; else the server didn't start, or the program says why it gives up. The same goes for frames of a connection, where an
event that found no memory is answered c0000017 (NO_MEMORY). There each run is made once more, with the next call failing
too: a connection's first such answer has room that stands by, and so has to come all the same. It prints how often each
came about, and each answer that is another. The status is 0 where there is none. It needs a C compiler (`cc`) and the
package `cryptography`, and proves nothing."""

import collections
import subprocess
import sys
import tempfile

from failing_memory import calls_in, failing, library_in
from worked_file import WorkedFile

EVENTS = """accept 1
first
second
connect data tree=0
create b rw - create guid=7 lasts=100
create a rw - create guid=9
write 1.1 0 61
write 1.2 3 6162
lock 1.1 1 0 0+1:12
lock 1.2 2 0 0+5:12
read 1.2 0 9
size 1.2 2
create d rwd rwd create dir
create d\\a rw rwd create
basic 1.2 0 9 0 0 1
query 1.2 5 24
volume 1.1 1 18
list 1.3 12 65536 *
rename 1.3 e
close 1.2 query
accept 2
first bind on=2 in=1.1 by=1
second bind on=2 by=1
create c rw - create guid=11 lasts=0
lock 1.5 1 1 0+1:12
lock 1.5 1 2 9+1:12
disconnect
logoff
at 1000005
accept 3
accept 1
first
second
connect data tree=0 in=1.2
create c rw - create guid=11 replay in=1.2
end 1
stop
files
restart
files""".split("\n")


LACKING = {"new": "Memory", "sealed": "c0000017"}


def frames():
    """A logon, and a file that is created, written, read and closed; each text is sealed under the keys of the connection."""
    logon, events = WorkedFile("a file", [2, 1, 4, 3], [2, 1], True), ["accept 1"]
    for place in range(0, len(logon.messages), 2):
        message = logon.messages[place]
        events += ["at %d" % (logon.start + place + 1), ("sealed " if message.sealed else "frame ") + message.text.hex()]
    return events


def answers(program, head, events, library=None, number=0, in_a_row=1):
    """what the program answers to the events, or what it writes in their place; and how often it allocated"""
    row = "%s | %s = what is due isn't asked here\n" % (head, "; ".join(events))
    ran = subprocess.run([program], input=row.encode(), capture_output=True, env=failing(library, number, in_a_row), timeout=60)
    said = ran.stdout.decode(errors="replace").split("\n")[0].rpartition(" = ")[2].split("; ")
    return (said if ran.returncode == 0 else ["status %d" % ran.returncode]), calls_in(ran.stderr)


def came_about(program, head, events, said, due):
    """what came about where an allocation failed, and whether that is right"""
    word = LACKING[head]
    if said == due:
        return "all is answered as with memory", True
    if said[-1].endswith(("memory ran out", "another than is due")):
        return "given up", True
    if len(said) != len(due):
        return "no start: " + said[0], True
    if head == "sealed" and "Memory" in said:
        return "the connection ends as Memory", said[: said.index("Memory")] == due[: said.index("Memory")]
    lacking = [i for i, told in enumerate(said) if told == word]
    if len(lacking) != 1:
        return "other answers: %s" % said, False
    i = lacking[0]
    others, _ = answers(program, head, events[:i] + events[i + 1:])
    right = said[:i] + said[i + 1:] == others
    return ("%s, and the others as without it" % word if right else "other answers: %s" % said), right


def tried(program, library, head, events):
    """how many runs are wrong"""
    due, _ = answers(program, head, events)
    _, count = answers(program, head, events, library)
    found, wrong = collections.Counter(), 0
    for n in range(1, count + 1):
        said, _ = answers(program, head, events, library, n)
        what, right = came_about(program, head, events, said, due)
        found[what] += 1
        wrong += not right
        if head == "sealed" and LACKING[head] in said:
            again, _ = answers(program, head, events, library, n, 2)
            stands = again[: said.index(LACKING[head]) + 1] == said[: said.index(LACKING[head]) + 1]
            found["the same with the next allocation failing too" if stands else "otherwise with the next one: %s" % again] += 1
            wrong += not stands
    print("%d events, %d allocations" % (len(events), count))
    for what, times in found.most_common():
        print("%4d %s" % (times, what))
    # A run in which nothing was counted shows nothing.
    return wrong + (len(due) != len(events)) + (count == 0)


def main(program):
    with tempfile.TemporaryDirectory() as folder:
        library = library_in(folder)
        wrong = sum(tried(program, library, head, events) for head, events in (("new", EVENTS), ("sealed", frames())))
    return 1 if wrong else 0


if __name__ == "__main__":
    sys.exit(main(*sys.argv[1:]) if len(sys.argv) == 2 and sys.argv[1] != "--help" else __doc__)
