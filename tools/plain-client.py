#!/usr/bin/env python3
"""Writes random scripts of a client's events, each with what a plain client answers: tools/plain_client.py.

usage: tools/plain-client.py [figures]

Writes the rows `client ..` of crates/test_rows/stdin; with `figures` it tells how often each answer comes, and writes
nothing. Each run first checks the plain client on answers that were worked by hand (tools/plain_client_checks.py).

A row is an event, ` = ` and the answer: what is done, then, behind `; `, each operation that settles by it.

    script N                     a client with nothing
    submit N KIND [CREATE ..]    how many operations are taken then
    push K CREDITS               `sends N` or `asks N` (to attach its open), with the open's id, the ChannelSequence, of a lock
                                 its slot and number, and `replay`; `nothing`, `closes all`, `done`
    hear K N STATUS [BODY]       a reply to an operation, `-` a body that no operation is answered: `nothing`, `closes all`
    join K N STATUS              a reply to the request to attach its open
    cut K                        `nothing`, `lost`, `ends`
    ready K SESSION TREE         `ready`, `apart`
    wear K TIMES                 channel K becomes ready and is cut, so often
    refused K WHY                a refused dialog
    finish WHY                   no session can be had
    end                          all outcomes; what is outstanding; the order of the replies; the session; refused dialogs
"""
import collections
import sys

import plain_client_checks
import vector_parts
from plain_client import LOCKS, NO_MEMORY, REPLIES, USER_SESSION_DELETED, Client, Operation
from plain_client import DISK_FULL, DUPLICATE_OBJECTID, FILE_CLOSED, FILE_LOCK_CONFLICT, FILE_NOT_AVAILABLE, OBJECT_NAME_NOT_FOUND

SCRIPTS = 2000
OTHERS = (0xC0000022, 0xC0000054, 0xC0000055, 0xC000009A, 0xC0000011)
DUE = {
    "create": (DUPLICATE_OBJECTID, NO_MEMORY, OBJECT_NAME_NOT_FOUND),
    "close": (FILE_CLOSED, OBJECT_NAME_NOT_FOUND, FILE_NOT_AVAILABLE),
    "lock": (DISK_FULL, NO_MEMORY, 0xC0000055),
    "unlock": (DISK_FULL, NO_MEMORY, 0xC000007E),
    "write": (FILE_NOT_AVAILABLE, FILE_LOCK_CONFLICT, DISK_FULL),
}
WHYS = (("no-session", "bad-token"), ("no-session", "status", 0xC000006D), ("gave-up", 8), ("ended",))
REFUSALS = (("bad-token",), ("bad-signature",), ("no-sha512",), ("status", 0xC000006D))
KINDS = ("write",) * 6 + ("read", "lock", "lock", "unlock") * 2 + ("end", "time", "rename", "remove", "flush", "stat", "list", "close")


class Chance:
    """Numbers from a seed, the same with each version of Python."""

    def __init__(self, seed):
        self.state = seed
        self.below(1)

    def below(self, count):
        self.state = (self.state * 6364136223846793005 + 1442695040888963407) % 2**64
        return (self.state >> 33) % count

    def happens(self, percent):
        return self.below(100) < percent

    def one_of(self, items):
        return items[self.below(len(items))]


def spelled(words):
    """Statuses, which are above all else, in hexadecimal digits."""
    return " ".join("%08x" % word if isinstance(word, int) and word >= 2**30 else str(word) for word in words)


def outcome_spelled(outcome):
    if outcome is None:
        return "unsettled"
    if outcome[:2] == ("unknown", "status"):
        return "unknown status %08x" % outcome[2]
    return spelled(outcome)


class Script:
    """A client, and the rows of what it met."""

    def __init__(self, number):
        self.client, self.told, self.rows = Client(), set(), []
        self.row("script %d" % number, "nothing")

    def row(self, given, answer):
        settled = [op for op in self.client.operations if op.outcome is not None and op.number not in self.told]
        self.told.update(op.number for op in settled)
        parts = [answer] + ["%d %s" % (op.number, outcome_spelled(op.outcome)) for op in settled]
        self.rows.append("%s = %s" % (given, "; ".join(parts)))

    def submit(self, number, kind, create=0, at=0, size=0, persist=False, exclusive=True):
        words = {
            "create": ["persist" if persist else "plain", size],
            "write": [create, at, size],
            "read": [create, at, size],
            "end": [create, size],
            "time": [create, size],
            "rename": [create, size],
            "lock": [create, at, size, "exclusive" if exclusive else "shared"],
            "unlock": [create, at, size],
        }.get(kind, [create])
        self.client.submit(Operation(number, kind, create, at, size, persist))
        self.row("submit %d %s %s" % (number, kind, " ".join(map(str, words))), "%d taken" % len(self.client.operations))

    def push(self, channel, credits=None):
        credits = self.client.held(channel) if credits is None else credits
        pushed = self.client.push(channel, credits)
        self.row("push %d %d" % (channel, credits), pushed if isinstance(pushed, str) else self.sent(*pushed))
        return pushed

    def sent(self, word, op):
        said = [word, op.number]
        if op.kind != "create":
            said += ["file", self.client.opens[op.create].file]
        said += ["sequence", self.client.sequence]
        if word == "sends" and op.kind in LOCKS:
            said += ["slot", op.slot, op.slot_number]
        if word == "sends" and self.client.is_replay(op):
            said.append("replay")
        return " ".join(map(str, said))

    def hear(self, channel, number, status, body=None, file=0):
        words = ["hear", channel, number, "%08x" % status]
        if status == 0:
            words += ["-"] if body is None else [*body] + ([file] if body[0] == "action" else [])
        answer = self.client.hear(channel, number, False, status, body, file)
        self.row(" ".join(map(str, words)), answer)

    def join(self, channel, number, status):
        self.row("join %d %d %08x" % (channel, number, status), self.client.hear(channel, number, True, status, None))

    def cut(self, channel):
        self.row("cut %d" % channel, self.client.cut(channel))

    def ready(self, channel, session, tree):
        self.row("ready %d %d %d" % (channel, session, tree), self.client.ready(channel, session, tree))

    def wear(self, channel, times):
        for _ in range(times):
            self.client.ready(channel, self.client.session, self.client.tree)
            self.client.cut(channel)
        self.row("wear %d %d" % (channel, times), "nothing")

    def refuse(self, channel, why):
        self.client.refuse(channel, why)
        self.row("refused %d %s" % (channel, spelled(why)), "nothing")

    def finish(self, why):
        self.client.finish(why)
        self.row("finish " + spelled(why), "nothing")

    def end(self):
        client = self.client
        outcomes = ", ".join("%d %s" % (op.number, outcome_spelled(op.outcome)) for op in client.operations)
        out = ", ".join(
            "%d%s on %d" % (op.number, " asks" if op.attaching else "", op.channel) for op in client.operations if op.channel is not None
        )
        said = [outcomes or "-", "out " + (out or "-"), "order " + (spelled(client.order) or "-"), self.session_said()]
        said += ["dialog " + spelled(dialog) for dialog in client.dialogs]
        self.rows.append("end = " + "; ".join(said))

    def session_said(self):
        client = self.client
        if not client.live:
            return "no session"
        said = ["session", client.sessions, client.session, "tree", client.tree, "sequence", client.sequence, "ready"]
        return " ".join(map(str, said + sorted(client.ready_channels)))


class Play:
    """A script whose events are drawn."""

    def __init__(self, number, chance):
        self.script, self.chance = Script(number), chance
        self.client = self.script.client
        self.channels = chance.one_of((1, 2, 2, 2, 2, 3))
        self.most = chance.one_of((4, 6, 6, 8, 12))
        self.cuts = chance.one_of((0, 4, 10, 10, 16))
        self.refusals = chance.one_of((5, 20, 20, 45))
        self.persists = chance.one_of((0, 60, 60, 100))
        self.next_session = 0

    def submit(self):
        chance, number = self.chance, len(self.client.operations) + 1
        creates = [op.number for op in self.client.operations if op.kind == "create"]
        if chance.happens(2):
            number += chance.one_of((-1, 1))
        if not creates or chance.happens(12):
            self.script.submit(number, "create", size=self.long(1025, 1), persist=chance.happens(self.persists))
            return
        create = chance.one_of(creates[-2:])
        if chance.happens(2):
            create = chance.one_of((0, number, number - 1))
        kind = chance.one_of(KINDS)
        size = self.long(1048578, chance.below(4)) if kind in ("write", "read") else chance.below(4)
        if kind == "rename":
            size = self.long(1025, 1 + size)
        self.script.submit(number, kind, create, chance.below(5), size, exclusive=chance.happens(60))

    def long(self, most, short):
        """Now and then a length at a limit, or past it."""
        if not self.chance.happens(3):
            return short
        return self.chance.one_of((most - 1, most, 65536, 65537) if most > 65537 else (most - 1, most))

    def channel(self, strange):
        """A channel that is ready; in so many of a hundred any one."""
        ready = sorted(self.client.ready_channels)
        return self.chance.below(4) if not ready or self.chance.happens(strange) else self.chance.one_of(ready)

    def push(self):
        credits = self.chance.one_of((0, 1, 5, 16)) if self.chance.happens(4) else None
        self.script.push(self.channel(3), credits)

    def status_to(self, op):
        often = self.refusals // 3 if op.kind == "create" and not op.unanswered else self.refusals
        more = 25 * op.unanswered + 25 * (op.sequence < self.client.sequence)
        if not self.chance.happens(often + more):
            return 0
        if self.chance.happens(4):
            return USER_SESSION_DELETED
        if op.attaching and self.chance.happens(60):
            return OBJECT_NAME_NOT_FOUND
        if op.sequence < self.client.sequence and self.chance.happens(50):
            return FILE_NOT_AVAILABLE
        due = DUE.get(op.kind, (FILE_NOT_AVAILABLE, NO_MEMORY) if op.kind in ("end", "time", "rename", "remove") else (NO_MEMORY,))
        return self.chance.one_of(due if self.chance.happens(75) else OTHERS)

    def body_to(self, op):
        """What a success says; now and then what no operation is answered, or another one is."""
        chance = self.chance
        if chance.happens(2):
            return None
        word = chance.one_of(list(REPLIES.values())) if chance.happens(3) else REPLIES.get(op.kind, "done")
        if word == "content":
            return word, chance.one_of(("61", "6263", "00"))
        if word == "names":
            return (word, *chance.one_of(((), (".", ".."), (".", "..", "a"), ("a", "b"))))
        numbers = {"action": chance.below(4), "count": op.size, "length": chance.below(300)}
        return (word, numbers[word]) if word in numbers else (word,)

    def hear(self):
        out = [op for op in self.client.operations if op.channel is not None]
        if not out or self.chance.happens(3):
            return self.hear_strangely()
        op = self.chance.one_of(out)
        self.answer(op, self.status_to(op))

    def answer(self, op, status):
        if op.attaching:
            self.script.join(op.channel, op.number, status)
        else:
            self.script.hear(op.channel, op.number, status, self.body_to(op), self.chance.below(9) + 1)

    def hear_strangely(self):
        """A reply that may not be awaited."""
        number, channel = self.chance.below(len(self.client.operations) + 2), self.channel(50)
        status = self.chance.one_of(OTHERS)
        (self.script.join if self.chance.happens(40) else self.script.hear)(channel, number, status)

    def ready(self):
        free = [k for k in range(self.channels) if k not in self.client.ready_channels]
        if not free:
            return
        strange, session = self.chance.happens(4), self.client.session
        if not self.client.live:
            self.next_session = max(self.next_session, session) + 1 + self.chance.below(2)
            session = max(0, session - self.chance.below(2)) if strange else self.next_session
        elif strange:
            session += 1
        self.script.ready(self.chance.one_of(free), session, 1 + self.chance.below(3))

    def lose(self):
        self.script.cut(self.channel(5))

    def rare(self):
        if self.chance.happens(50):
            self.script.refuse(self.chance.below(4), self.chance.one_of(REFUSALS))
        elif not self.client.live:
            self.script.finish(self.chance.one_of(WHYS))

    def event(self):
        """One event; a client with no channel mostly gets one, and one whose operations wait goes on."""
        if not self.client.ready_channels and self.chance.happens(55):
            return self.ready()
        out = any(op.channel is not None for op in self.client.operations)
        left = self.most - len(self.client.operations)
        weights = [
            (self.submit, 30 if left > 0 else 1),
            (self.push, 40 if any(self.client.may_go(op) for op in self.client.operations) else 3),
            (self.hear, 22 if out else 1),
            (self.lose, self.cuts if out else 1),
            (self.ready, 12 if len(self.client.ready_channels) < self.channels else 0),
            (self.rare, 1),
        ]
        dice = self.chance.below(sum(weight for _, weight in weights))
        for act, weight in weights:
            if dice < weight:
                return act()
            dice -= weight

    def settle(self, rounds):
        """What is left goes out and is answered, for so many rounds."""
        for _ in range(rounds):
            if not self.client.unsettled():
                return
            if not self.client.ready_channels:
                self.ready()
            elif isinstance(self.script.push(min(self.client.ready_channels)), str):
                return
            out = [op for op in self.client.operations if op.channel is not None]
            if out:
                self.answer(out[-1], self.status_to(out[-1]))


def drawn(number, chance):
    play = Play(number, chance)
    for _ in range(14 + chance.below(14)):
        play.event()
    if chance.happens(40):
        play.settle(6)
    play.script.end()
    return play.script.rows


# ---- scripts that are long, or that come to what seldom is drawn


# an open's id whose FileId has the two halves 7 and 10
WIDE = (3 << 64) + 7


def begun(number, persist=True, channels=(0, 1)):
    """A script with an open, on these channels."""
    script = Script(number)
    for channel in channels:
        script.ready(channel, 1, 1)
    script.submit(1, "create", size=1, persist=persist)
    script.push(0)
    script.hear(0, 1, 0, ("action", 2), WIDE)
    return script


def all_slots(number, chance):
    """Locks on ranges apart until no slot is free; some are lost and go out again, some meet DISK_FULL, and then more come."""
    script = begun(number, persist=chance.happens(50))
    for lock in range(2, 67):
        script.submit(lock, chance.one_of(LOCKS), 1, 2 * lock, 1)
        if lock < 65 and chance.happens(90):
            script.push(chance.below(2))
    script.submit(67, "write", 1, 0, 1)
    script.submit(68, "lock", 1, 0, 1)
    script.submit(69, "create", size=1)
    while not isinstance(script.push(chance.below(2)), str):
        pass
    for op in list(script.client.operations[1:]):
        if op.channel is not None and chance.happens(40):
            script.hear(op.channel, op.number, 0 if chance.happens(60) else chance.one_of(DUE["lock"]), ("done",))
    script.cut(1)
    for lock in range(70, 90):
        script.submit(lock, "lock", 1, 2 * lock, 1)
        script.push(0)
    script.cut(0)
    script.end()
    return script.rows


def one_slot(number, chance):
    """One lock after the other, so that each takes the first slot, whose numbers begin anew behind 15."""
    script = begun(number)
    for lock in range(2, 38):
        script.submit(lock, chance.one_of(LOCKS), 1, 0, 1)
        script.push(0)
        script.hear(0, lock, 0 if chance.happens(90) else 0xC0000055, ("done",))
    script.end()
    return script.rows


def no_credits(number, chance):
    """Listings and long reads until the credits of a channel are spent, with cheaper ones behind them."""
    script = begun(number, persist=chance.happens(50))
    for place in range(2, 40):
        kind = chance.one_of(("list", "list", "read"))
        script.submit(place, kind, 1, 0, chance.one_of((1048577, 1048576, 983041)) if kind == "read" else 0)
        script.push(0)
    script.submit(40, "flush", 1)
    for _ in range(4):
        script.push(0)
    out = [op for op in script.client.operations if op.channel == 0]
    script.hear(0, chance.one_of(out).number, 0xC0000022)
    for _ in range(3):
        script.push(0)
    script.cut(0)
    script.push(1)
    script.push(1)
    script.end()
    return script.rows


def last_sequence(number, chance):
    """A session whose ChannelSequence can't be raised any more, so that it ends with another channel ready."""
    script = begun(number, channels=(0,))
    script.submit(2, "write", 1, 0, 1)
    script.push(0)
    script.wear(1, 32766 + chance.below(2))
    script.hear(0, 2, FILE_NOT_AVAILABLE)
    script.push(0)
    script.ready(1, 1, 1)
    script.cut(1)
    script.ready(1, 1, 1)
    script.ready(1, 2, 1)
    script.cut(0)
    script.push(1)
    script.end()
    return script.rows


def deleted_lock(number, chance):
    """A lock that the server answered by the end of its session, refused before its open is attached: its slot may be used."""
    script = begun(number)
    script.submit(2, "lock", 1, 0, 1)
    script.push(0)
    script.hear(0, 2, USER_SESSION_DELETED)
    script.ready(0, 2, 1)
    script.push(0)
    script.join(0, 2, DISK_FULL)
    for lock in (3, 4):
        script.submit(lock, "lock", 1, 0, 1)
        script.push(0)
        script.join(0, lock, 0)
        script.push(0)
        script.hear(0, lock, chance.one_of((0, DISK_FULL)), ("done",))
    script.end()
    return script.rows


def older_twice(number, chance):
    """A write that goes out under three sequences: only an older one than the client's lets it go out again."""
    script = begun(number, channels=(0, 1, 2, 3))
    script.cut(1)
    script.submit(2, chance.one_of(("write", "end", "remove")), 1, 0, 1)
    script.push(0)
    for channel in (2, 3):
        script.cut(channel)
        script.hear(0, 2, FILE_NOT_AVAILABLE)
        script.push(0)
    script.hear(0, 2, FILE_NOT_AVAILABLE)
    script.end()
    return script.rows


def in_the_next_session(number, kind, size=0, goes=True):
    """An operation of a persistent open, whose session ended, and which asks for its open in the next one."""
    script = begun(number, channels=(0,))
    script.submit(2, kind, 1, 0, size)
    if goes:
        script.push(0)
    script.cut(0)
    for channel in (0, 1):
        script.ready(channel, 2, 1)
    script.cut(1)
    script.push(0, 1)
    return script


def closed_at_attach(number, chance):
    """FILE_CLOSED tells that a close was done only of the close itself."""
    script = in_the_next_session(number, "close")
    script.join(0, 2, FILE_CLOSED)
    script.end()
    return script.rows


def older_at_attach(number, chance):
    """FILE_NOT_AVAILABLE lets a write of an older sequence go out again only where it answers the write."""
    script = in_the_next_session(number, "write", 1)
    script.join(0, 2, FILE_NOT_AVAILABLE)
    script.push(0)
    script.end()
    return script.rows


def dear_at_attach(number, chance):
    """To ask for an open pays one credit, whatever its operation pays."""
    script = in_the_next_session(number, "read", 1048577, goes=False)
    script.join(0, 2, 0)
    for credits in (16, 17):
        script.push(0, credits)
    script.end()
    return script.rows


LAST = (closed_at_attach, older_at_attach, dear_at_attach)
LONG = (all_slots,) * 4 + (one_slot,) * 4 + (no_credits,) * 4 + (last_sequence,) * 2 + (deleted_lock,) * 4 + (older_twice,) * 3


def scripts():
    """The rows of all scripts."""
    chance, rows = Chance(1), []
    for number in range(1, SCRIPTS + 1):
        last = number - 1 - (SCRIPTS - len(LAST))
        rows += (LAST[last] if last >= 0 else LONG[number - 1] if number <= len(LONG) else drawn)(number, chance)
    return rows


def figures(rows):
    """How often each answer comes, with its numbers taken out."""
    counts = collections.Counter()
    for row in rows:
        given, answer = row.split(" = ", 1)
        word = given.split(" ", 1)[0]
        if word != "end":
            said = [" ".join(w for w in part.split() if not w.isdigit() or w == "0") for part in answer.split("; ")]
            counts.update("%s: %s" % (word, part) for part in said[:1])
            counts.update("settles: " + " ".join(part.split()[:4]) for part in said[1:])
            if word == "hear" and "c0000467" in given and answer == "nothing":
                counts["hear: goes again, or isn't awaited"] += 1
    for said, count in sorted(counts.items()):
        print("%7d  %s" % (count, said))


def main(words):
    if words not in ([], ["figures"]):
        sys.exit(__doc__)
    plain_client_checks.check()
    rows = scripts()
    if words:
        figures(rows)
        return 0
    vector_parts.put("test_rows", "stdin", "plain-client.py", ["client " + row for row in rows])
    return 0


if __name__ == "__main__":
    sys.exit(main(sys.argv[1:]))
