"""The check of tools/hostile-run.py on a journal that is written anew while the server runs, and on kills meanwhile.

Clients as in hostile_kills.py overwrite their files in large pieces, so that the journal is due every few seconds. The server is killed at
random moments and while `smb311.draft` is there. Drafts that nobody wrote are put beside the journal too.
"""
import contextlib
import os
import re
import threading
import time

from hostile_client import Closed, Refused
from hostile_kills import CLIENTS, FILES, State, Worker
from hostile_server import (AHEAD, DRAFT, JOURNAL, LOCK_FILE, LOG, MARK, SIGNED_ALONE, USERS, Failed, check, expect, mebibytes)

LARGEST, PIECES = 1 << 20, (4096, 65536, 300_000, 1 << 20, 1 << 20)  # bytes of a file at most, and of a write
BURST = 4 << 20  # what one event adds to the journal, at most, and what is told beside the bytes of files
WAIT = 20  # seconds for a draft
SETTINGS = LOG.format(level="info") + SIGNED_ALONE + USERS
OUR_FILES = re.compile(r"smb311\.(journal|lock|draft|cut-\d+)$")


class Overwriter(State):
    """A client that mostly writes over what is there."""

    largest, pieces = LARGEST, PIECES

    def step(self, client):
        if self.chance.randrange(4):
            return self.overwrite(client)
        return super().step(client)

    def overwrite(self, client):
        """Several writes over one file, which becomes no longer than it may be."""
        name = f"f{self.chance.randrange(FILES)}"
        file = self.opened(client, name)
        for _ in range(self.chance.randrange(1, 5)):
            old, size = self.files[name], self.chance.choice(self.pieces)
            at = self.chance.randrange(min(len(old), self.largest - size) + 1)
            data = self.chance.randbytes(size)
            new = old[:at] + data + old[at + size:]
            self.changed(self.files | {name: new}, lambda at=at, data=data: client.write(file, at, data))
        client.close_file(file)


def bound():
    """How long the journal's file may become: twice the longest snapshot, or the least mark; what one event adds; zeros ahead."""
    return max(MARK, 2 * longest_snapshot()) + AHEAD + BURST


def longest_snapshot():
    return CLIENTS * (FILES + 1) * Overwriter.largest + BURST


class Lengths(threading.Thread):
    """Looks at the journal and its draft while the server runs: the greatest length of each. A draft of an earlier life doesn't count."""

    def __init__(self, server):
        super().__init__(daemon=True)
        self.server, self.stopping, self.longest = server, False, {JOURNAL: 0, DRAFT: 0}
        self.stale = self.seen(DRAFT)

    def seen(self, name):
        """When a file was last written, and its length."""
        with contextlib.suppress(FileNotFoundError):
            told = os.stat(self.server.path(name))
            return told.st_mtime_ns, told.st_size
        return 0, 0

    def look(self):
        for name, longest in self.longest.items():
            seen = self.seen(name)
            if seen != self.stale:
                self.longest[name] = max(longest, seen[1])

    def run(self):
        while not self.stopping:
            self.look()
            time.sleep(0.005)

    def stop(self):
        self.stopping = True
        self.join()
        self.look()
        return self.longest


def wait_for_draft(server, chance):
    """Until a draft is there, and a moment more; no longer than so many seconds."""
    end = time.monotonic() + WAIT
    while not os.path.exists(server.path(DRAFT)) and time.monotonic() < end and server.process.poll() is None:
        time.sleep(0.0002)
    time.sleep(chance.random() * chance.choice((0, 0.002, 0.02, 0.1)))


def worked(server, states, until):
    """The clients work until `until` comes back, and then the server is killed. The lengths of its files, and whether a draft is left."""
    workers, lengths = [Worker(server, state) for state in states], Lengths(server)
    for thread in (lengths, *workers):
        thread.start()
    until()
    server.expect_alive("under clients that overwrite")
    server.kill()
    longest = lengths.stop()
    for worker in workers:
        worker.join(120)
        if worker.error:
            raise Failed(f"{worker.state.folder} met {worker.error!r}")
    return longest, os.path.exists(server.path(DRAFT))


def stale_draft(server, chance):
    """Puts a draft beside the journal that nobody wrote: nothing, open gates, a journal of another time, longer than the journal."""
    path, kind = server.path(DRAFT), chance.randrange(4)
    data = (b"", b"\1" * chance.randrange(1, 1 << 20), server.journal()[:chance.randrange(1 << 22)], os.urandom(1 << 20) * 40)[kind]
    with open(path, "wb") as file:
        file.write(data)


def expect_folder(server, longest, anew):
    """No file of the folder is longer than it may be, none is of another name, and the journal's form is that of what was written."""
    for name, length in longest.items():
        expect(length <= bound(), f"{name} had {mebibytes(length)}, and {mebibytes(bound())} is the most")
    strange = [name for name in os.listdir(server.folder) if not OUR_FILES.match(name)]
    expect(not strange, f"the folder has {strange}")
    expect({JOURNAL, LOCK_FILE} <= set(os.listdir(server.folder)), "the journal is gone, or the lock file")
    if anew:
        with open(server.path(), "rb") as file:
            expect(file.read(8) == b"smb311j2", "a journal that was written anew isn't in the second form")


class Seen:
    """What the check saw in all."""

    def __init__(self):
        self.kills = self.anew = self.below = self.drafts = self.stale = self.looked = 0
        self.longest, self.slowest = {JOURNAL: 0, DRAFT: 0}, 0.0

    def lived(self, longest, anew, is_left):
        """One life more: how long its files became, how often the journal was written anew, whether its end left a draft."""
        self.kills, self.anew, self.drafts = self.kills + 1, self.anew + len(anew), self.drafts + is_left
        for name, length in longest.items():
            self.longest[name] = max(self.longest[name], length)
        for after, before in anew:
            expect(after <= longest_snapshot(), f"a snapshot had {mebibytes(after)}, and {mebibytes(longest_snapshot())} is the most")
            self.below += before < MARK

    def expect_enough(self, count):
        expect(self.anew >= count // 4, f"the journal was written anew only {self.anew} times in {self.kills} lives")
        expect(self.drafts >= count // 10, f"only {self.drafts} of {self.kills} kills left a draft")

    def text(self):
        return (f"{self.kills} kills, {self.anew} compactions, of which {self.below} below the mark, {self.drafts} kills left a draft, "
                f"{self.stale} stale drafts were put there; the journal had {mebibytes(self.longest[JOURNAL])} at most, the draft "
                f"{mebibytes(self.longest[DRAFT])}, the slowest start took {self.slowest:.2f} s")


def killed_at_work(server, states, seen, chance, aims):
    """One life of the server under its clients, up to a kill: at a random moment, or while a draft is there."""
    def until():
        if aims:
            return wait_for_draft(server, chance)
        return time.sleep(chance.random() * chance.choice((0.2, 1, 4)))

    longest, is_left = worked(server, states, until)
    anew = server.written_anew()
    seen.lived(longest, anew, is_left)
    expect_folder(server, longest, anew)


def killed_at_first(server, seen, chance):
    """Another life, which ends about when its first event has the journal written anew, if that is due."""
    def come():
        try:
            server.client().close()
        except (Closed, Refused, TimeoutError):
            pass

    comer = threading.Thread(target=come, daemon=True)
    comer.start()
    time.sleep(chance.random() * 0.2)
    server.kill()
    comer.join(60)
    seen.lived({}, server.written_anew(), os.path.exists(server.path(DRAFT)))


def looked_up(server, states):
    """All that was acknowledged is there. How many files and locks were looked up."""
    with server.client() as client:
        return sum(state.verify(client) for state in states)


def expect_no_draft(server):
    """Once the journal was written anew there is no draft any more, whoever left one, and the file that filled it is there."""
    with server.client() as client:
        file, data = client.create("filler").file, os.urandom(1 << 20)
        for _ in range(2 * MARK >> 20):
            if server.written_anew():
                break
            client.write(file, 0, data)
        expect(server.written_anew(), f"{mebibytes(2 * MARK)} were written over, and the journal wasn't written anew")
        expect(not os.path.exists(server.path(DRAFT)), "a draft is left behind a journal that was written anew")
        client.close_file(file)
        expect(client.whole("filler") in (b"", data), "a file has other bytes behind a journal that was written anew")


@check("compactions", "counts")
def compactions(run):
    """200 kills of a server whose journal is written anew every few seconds, half of them while a draft is there: each acknowledged byte,
    lock and persistent open is back, and the journal stays below a bound."""
    count, seen, chance = run.count(200, 12), Seen(), run.random
    server, states = run.server(SETTINGS), [Overwriter(number, chance.random()) for number in range(CLIENTS)]
    for number in range(count):
        killed_at_work(server, states, seen, chance, number % 2)
        if chance.randrange(4) == 0:
            stale_draft(server, chance)
            seen.stale += 1
        server = server.again()
        if chance.randrange(4) == 0:
            killed_at_first(server, seen, chance)
            server = server.again()
        seen.slowest = max(seen.slowest, server.took)
        seen.looked += looked_up(server, states)
        run.servers = [server]
    server.kill()
    stale_draft(server, chance)
    server = server.again()
    expect_no_draft(server)
    seen.looked += looked_up(server, states)
    seen.expect_enough(count)
    run.counted("kills under compactions", seen.kills)
    run.counted("compactions", seen.anew)
    run.counted("drafts that a kill left", seen.drafts)
    acknowledged = sum(state.acknowledged for state in states)
    return f"{seen.text()}; {acknowledged} acknowledged operations, {seen.looked} files and locks looked up"
