"""The check of tools/hostile-run.py that kills the server at random moments under four clients.

Each client has a folder of its own and keeps what the server acknowledged: the bytes of its files, its persistent open and that open's
locks. Behind a kill at most one operation of each client, the one that wasn't answered, may have been done or not. After the start all is
looked up: each file, each name, each lock. Then the clients go on from what is there.
"""
import os
import random
import signal
import threading
import time

from hostile_client import AT_ONCE, EXCLUSIVE, NAME_NOT_FOUND, OPEN, UNLOCK, Closed, Refused
from hostile_server import BERT, Failed, check, expect
from hostile_work import refused_by

CLIENTS, FILES, SLOTS = 4, 6, 8
LARGEST = 60_000  # bytes of a file, at most
STARTS = 100  # of one folder, before a new one is taken


def place(slot):
    """Where a slot's lock stands: far behind a file's end, so that everybody may read the file."""
    return (1 << 40) + 10 * slot


class Worker(threading.Thread):
    """One client's work between two starts of the server; `state` outlives it."""

    def __init__(self, server, state):
        super().__init__(daemon=True)
        self.server, self.state, self.error, self.done = server, state, None, 0

    def run(self):
        try:
            client = self.server.client(self.state.who, guid=self.state.guid, timeout=60)
            self.state.reattach(client)
            while True:
                self.state.step(client)
                self.done += 1
        except (Closed, TimeoutError):
            return
        except Exception as error:  # told by the check
            self.error = error


class State:
    """What the server acknowledged to one client. `waiting` is what may or may not have been done: how all looks then."""

    largest, pieces = LARGEST, (1, 10, 500, 4096, 20000)  # bytes of a file at most, and of a write

    def __init__(self, number, seed):
        self.folder, self.chance, self.guid = f"client{number}", random.Random(seed), os.urandom(16)
        self.who = BERT if number % 2 else ("anna", "First")
        self.files, self.waiting, self.made = {}, None, False
        self.open_file, self.open_guid, self.locks = None, None, set()
        self.lock_waiting, self.open_waiting, self.acknowledged = None, False, 0

    def path(self, name):
        return f"{self.folder}\\{name}"

    def begin(self, client):
        """The folder and the persistent open, in the first run over a journal."""
        client.make_folder(self.folder)
        self.made = True

    # ---- the persistent open

    def reattach(self, client):
        """The client comes back: its persistent open is attached again, or made."""
        if not self.made:
            self.begin(client)
        if self.open_waiting:
            self.settle_open(client)
        if self.open_file is None:
            return self.make_open(client)
        attached = client.attach(self.path("held"), self.open_file, self.open_guid)
        expect(attached.file == self.open_file, "a persistent open came back under another id")
        return self.settle_lock(client)

    def make_open(self, client):
        kept, self.open_guid, self.open_waiting = [], os.urandom(16), True
        self.changed({"held": b""} | self.files, lambda: kept.append(client.create_persistent(self.path("held"), self.open_guid)))
        self.open_file, self.open_waiting, self.locks = kept[0].file, False, set()

    def settle_open(self, client):
        """A CLOSE that wasn't answered is done again, where the open came back; one that was made unheard has no locks and goes later."""
        if self.open_file is not None:
            status = refused_by(lambda: client.attach(self.path("held"), self.open_file, self.open_guid))
            expect(status in (0, NAME_NOT_FOUND), f"an open that may be closed is attached with {status:08x}")
            if status == 0:
                client.close_file(self.open_file)
        self.open_file, self.open_waiting, self.locks, self.lock_waiting = None, False, set(), None

    def settle_lock(self, client):
        """A lock that wasn't answered is taken off, whether it was granted or not."""
        if self.lock_waiting is not None:
            refused_by(lambda: client.lock(self.open_file, place(self.lock_waiting), 10, UNLOCK))
            self.locks.discard(self.lock_waiting)
            self.lock_waiting = None

    # ---- one operation

    def step(self, client):
        kinds = (self.write, self.write, self.write, self.end, self.rename, self.remove, self.lock, self.held_write, self.reopen)
        self.chance.choice(kinds)(client)

    def others(self):
        """All its files but that of the persistent open."""
        return sorted(name for name in self.files if name != "held")

    def changed(self, after, call):
        """An operation by which the files become `after`."""
        self.waiting = after
        call()
        self.files, self.waiting = after, None
        self.acknowledged += 1

    def opened(self, client, name):
        """A file that is there is opened, and one that isn't there is made, which is an operation of its own."""
        if name in self.files:
            return client.create(self.path(name), disposition=OPEN).file
        kept = []
        self.changed(self.files | {name: b""}, lambda: kept.append(client.create(self.path(name), disposition=2).file))
        return kept[0]

    def write(self, client):
        name = f"f{self.chance.randrange(FILES)}"
        file, old = self.opened(client, name), self.files[name]
        at = self.chance.randrange(len(old) + 100)
        data = self.chance.randbytes(self.chance.choice(self.pieces))[:self.largest - at]
        if data:
            new = old.ljust(at, b"\0")[:at] + data + old[at + len(data):]
            self.changed(self.files | {name: new}, lambda: client.write(file, at, data))
        client.close_file(file)

    def end(self, client):
        name = f"f{self.chance.randrange(FILES)}"
        file, length = self.opened(client, name), self.chance.randrange(self.largest // 4)
        self.changed(self.files | {name: self.files[name][:length].ljust(length, b"\0")}, lambda: client.set_end(file, length))
        client.close_file(file)

    def rename(self, client):
        free = [f"f{number}" for number in range(FILES) if f"f{number}" not in self.files]
        if not free or not self.others():
            return
        old, new = self.chance.choice(self.others()), self.chance.choice(free)
        file = client.create(self.path(old), disposition=OPEN).file
        after = {name: data for name, data in self.files.items() if name != old} | {new: self.files[old]}
        self.changed(after, lambda: client.rename(file, self.path(new)))
        client.close_file(file)

    def remove(self, client):
        """The mark is one operation, and the close by which the file goes another; a kill may be what closes."""
        if not self.others():
            return
        name = self.chance.choice(self.others())
        file = client.create(self.path(name), disposition=OPEN).file
        after = {other: data for other, data in self.files.items() if other != name}

        def both():
            client.remove(file)
            client.close_file(file)

        self.changed(after, both)

    def lock(self, client):
        slot = self.chance.randrange(SLOTS)
        self.lock_waiting = slot
        if slot in self.locks:
            client.lock(self.open_file, place(slot), 10, UNLOCK)
            self.locks.discard(slot)
        else:
            client.lock(self.open_file, place(slot), 10, EXCLUSIVE | AT_ONCE)
            self.locks.add(slot)
        self.lock_waiting = None
        self.acknowledged += 1

    def held_write(self, client):
        old, data = self.files.get("held", b""), self.chance.randbytes(100)
        at = self.chance.randrange(len(old) + 1) if len(old) < LARGEST else 0
        self.changed(self.files | {"held": old[:at] + data + old[at + 100:]}, lambda: client.write(self.open_file, at, data))

    def reopen(self, client):
        """Now and then the persistent open is closed, and another one made."""
        if self.chance.randrange(10):
            return
        self.open_waiting = True
        client.close_file(self.open_file)
        self.open_file, self.open_waiting, self.locks = None, False, set()
        self.acknowledged += 1
        self.make_open(client)

    # ---- behind a start

    def verify(self, client):
        """All that was acknowledged is there; what waited is there as a whole or not at all. How many things were looked up."""
        if not self.made:
            found = client.listed("")
            self.made = self.folder in found
            return 1
        found = {name: client.whole(self.path(name)) for name in client.listed(self.folder)}
        if found != self.files and found != self.waiting:
            raise Failed(f"{self.folder}: {differences(self.files, found)}")
        self.files, self.waiting = found, None
        return len(found) + self.verify_locks(client)

    def verify_locks(self, client):
        """Each lock of the persistent open is held against another open; a range that nobody locked is free."""
        if self.open_file is None or self.open_waiting:
            return 0
        try:
            file = client.create(self.path("held"), disposition=OPEN).file
        except Refused as refused:
            raise Failed(f"{self.folder}: the file of a persistent open is refused with {refused.status:08x}") from refused
        for slot in range(SLOTS):
            status = refused_by(lambda slot=slot: client.lock(file, place(slot), 10))
            if slot == self.lock_waiting:
                continue
            how = "gone" if slot in self.locks else "held"
            expect((status != 0) == (slot in self.locks), f"{self.folder}: lock {slot} is {how} ({status:08x})")
        client.close_file(file)
        return SLOTS


def differences(wanted, found):
    """In which files what is found isn't what was acknowledged."""
    told = []
    for name in sorted(set(wanted) | set(found)):
        have, want = found.get(name), wanted.get(name)
        if have != want:
            sizes = [f"{len(data)} bytes" if data is not None else "nothing" for data in (want, have)]
            told.append(f"{name}: {sizes[0]} acknowledged, {sizes[1]} there")
    return "; ".join(told)


def killed_once(server, states, chance):
    """Four clients work until the server is killed, somewhere behind so many acknowledged operations."""
    workers, most = [Worker(server, state) for state in states], chance.choice((0, 1, 4, 20, 60))
    for worker in workers:
        worker.start()
    end = time.monotonic() + 2
    while sum(worker.done for worker in workers) < most and time.monotonic() < end and any(worker.is_alive() for worker in workers):
        time.sleep(0.0005)
    time.sleep(chance.random() * chance.choice((0.001, 0.01, 0.05)))
    server.expect_alive("under four clients")
    server.kill(chance.choice((signal.SIGKILL, signal.SIGKILL, signal.SIGTERM)))
    for worker in workers:
        worker.join(120)
        if worker.error:
            raise Failed(f"{worker.state.folder} met {worker.error!r}")


@check("kills", "counts")
def kills(run):
    """1,000 kills at random moments under four clients: after each start every acknowledged operation is looked up."""
    count, looked, slowest = run.count(1000, 30), 0, 0.0
    server = states = None
    acknowledged = 0
    for number in range(count):
        if number % STARTS == 0:
            acknowledged += sum(state.acknowledged for state in states or ())
            run.end_all()
            server, states = run.server(), [State(client, run.random.random()) for client in range(CLIENTS)]
        killed_once(server, states, run.random)
        server = server.again()
        slowest = max(slowest, time.monotonic() - server.begun)
        with server.client() as client:
            for state in states:
                looked += state.verify(client)
        run.servers = [server]
        if run.random.random() < 0.05:  # killed once more before anybody came
            server.kill()
            server = server.again()
    acknowledged += sum(state.acknowledged for state in states)
    run.counted("kills", count)
    run.counted("acknowledged operations under kills", acknowledged)
    return (f"{count} kills, {acknowledged} acknowledged operations, {looked} files and locks looked up; the slowest start took "
            f"{slowest:.2f} s")
