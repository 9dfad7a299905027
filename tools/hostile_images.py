"""Checks of tools/hostile-run.py on what a loss of power, or a disk that rots, leaves of the journal.

The server runs with a library in front of the C library that writes down what it does to its files (recorded_disk.py). Of that record
files are made as they may stand at any moment of it, unsynced writes lost, torn and in another order, and a server is begun over them.
"""
import contextlib
import copy
import errno
import os
import shutil
import struct
import time

import recorded_disk
from hostile_client import Closed, Refused
from hostile_compactions import SETTINGS, Overwriter
from hostile_disk import contents
from hostile_kills import CLIENTS, State, Worker
from hostile_server import AHEAD, DISK_FAILED, JOURNAL, NOT_A_JOURNAL, WRITTEN_ANEW, Failed, Server, Skipped, check, expect
from hostile_work import end_of, gates, used_of

STARTED = 60  # seconds
KINDS = 4  # of recorded runs, one behind the other
DUE_SECONDS = 120  # until a journal is due to be written anew, at most


class Noting:
    """A client's state that keeps how it stood, with the length that the record had then. What is kept before a request is sent allows
    that it was done or not; what is kept behind its answer doesn't."""

    LOOKED_AT = ("made", "files", "waiting", "open_file", "open_guid", "open_waiting", "lock_waiting")

    def __init__(self, number, seed, trace):
        self.trace, self.stood = trace, []
        super().__init__(number, seed)

    def __setattr__(self, name, value):
        super().__setattr__(name, value)
        if name in self.LOOKED_AT and hasattr(self, "acknowledged"):
            told = {kept: copy.copy(getattr(self, kept)) for kept in (*self.LOOKED_AT, "locks")}
            self.stood.append((os.path.getsize(self.trace), told))

    def at(self, place):
        """How it stood when the record had this length, for a server that isn't recorded."""
        state = State(0, 0)
        state.folder, state.who, state.guid = self.folder, self.who, self.guid
        for length, told in self.stood:
            if length > place:
                break
            for name, value in told.items():
                setattr(state, name, copy.copy(value))
        return state


class Noted(Noting, State):
    """Of a client that writes little at a time."""


class NotedOverwriter(Noting, Overwriter):
    """Of one that overwrites, so that the journal is written anew."""


def worked_for(server, states, seconds, is_done=lambda: False):
    """The clients work for so long, or until it is done, and then the server is killed."""
    workers, end = [Worker(server, state) for state in states], time.monotonic() + seconds
    for worker in workers:
        worker.start()
    while time.monotonic() < end and not is_done():
        time.sleep(0.02)
    server.expect_alive("under four clients")
    server.kill()
    for worker in workers:
        worker.join(120)
        if worker.error:
            raise Failed(f"{worker.state.folder} met {worker.error!r}")


def stand_of(server):
    """The files that are there: by each name the file's number and bytes."""
    return {name: (os.stat(server.path(name)).st_ino, data) for name, data in contents(server.folder).items()}


def recorded_run(run, library, seconds, made=Noted, before=0.0):
    """A server under four clients for so long: what it did to its files, the files in front of that, and how the clients' states stood. It
    may have had a life before, of so many seconds, of which nothing is recorded."""
    trace, server = run.note("record"), Server(run, SETTINGS)
    with open(trace, "wb"):
        pass
    states, files = [made(number, run.random.random(), trace) for number in range(CLIENTS)], {}
    if before:
        worked_for(server.begin(), states, before)
        files = stand_of(server)
    server = server.again(environment={**os.environ, "LD_PRELOAD": library, "RECORDED": trace})
    with server.client() as client:
        for state in states:
            state.verify(client)
    worked_for(server, states, seconds)
    with open(trace, "rb") as file:
        return file.read(), files, states


def looked_at(run, files, states):
    """A server over these files has all that was acknowledged. How many files and locks were looked up."""
    folder = run.new_folder()
    for name, data in files.items():
        with open(os.path.join(folder, name), "wb") as file:
            file.write(data)
    server, looked = Server(run, SETTINGS, folder=folder).begin(STARTED), 0
    with server.client() as client:
        for state in states:
            looked += state.verify(client)
    server.kill()
    run.servers.remove(server)
    shutil.rmtree(folder)
    return looked


def moments_of(records, chance, count):
    """Moments of a record, half of them while the journal is written anew, where it is. Each with whether it is such a one."""
    drafts, found = recorded_disk.drafts_among(records), []
    for number in range(count):
        if drafts and number % 2:
            first, last = chance.choice(drafts)
            found.append((chance.randrange(first, last + 1), True))
        else:
            found.append((chance.randrange(len(records) + 1), False))
    return sorted(found)


def images_of(run, library, kind, count, seen):
    """Some images of one run: of a new server, of one with a life before it, or of one whose journal passes the mark."""
    large = kind == KINDS - 1
    words = {"made": NotedOverwriter, "before": 3.0} if large else {"before": run.random.uniform(0.5, 3) * (kind % 2)}
    trace, files, states = recorded_run(run, library, run.random.uniform(2, 4) if large else run.random.uniform(0.2, 2), **words)
    records = recorded_disk.records_of(trace)
    expect(records, "the library saw no call: the program makes its calls of the system by itself")
    recorded = recorded_disk.Recorded(records, files)
    seen["compactions"] += len(recorded_disk.drafts_among(records))
    for moment, is_draft in moments_of(records, run.random, count):
        recorded.go_to(moment)
        place = records[moment - 1][0] if moment else 0
        seen["images"] += 1
        seen["of a journal that is written anew"] += is_draft
        try:
            seen["files and locks looked up"] += looked_at(run, recorded.image(run.random), [state.at(place) for state in states])
        except (Failed, Closed, Refused) as error:
            raise Failed(f"image {seen['images']}, behind {moment} of {len(records)} records: {error}") from error
    run.end_all()


@check("images", "journal")
def images(run):
    """1,000 images of the files, unsynced writes lost, torn and in another order, many of them while the journal is written anew: none is
    refused, nothing acknowledged is lost."""
    if not shutil.which("cc"):
        raise Skipped("there is no C compiler")
    library, kind = recorded_disk.library_in(run.notes), 0
    seen = dict.fromkeys(("images", "of a journal that is written anew", "compactions", "files and locks looked up"), 0)
    while seen["images"] < run.count(1000, 40):
        images_of(run, library, kind % KINDS, run.count(50, 10) // (1 if kind % KINDS < KINDS - 1 else 2), seen)
        kind += 1
    expect(seen["of a journal that is written anew"], "the journal was never written anew")
    run.counted("images of files that a crash may leave", seen["images"])
    return ", ".join(f"{count} {what}" for what, count in seen.items())


# ---- calls that fail

FULL = (errno.ENOSPC, errno.EFBIG, errno.EDQUOT)  # after which there is no room, and a draft is given up


def goes_on(refused, error):
    """Whether a server goes on behind these refused calls: where there was no room for a draft, or for zeros behind the journal's end."""
    return error in FULL and all(kind == "d" or (name, kind) == ("zeros", "j") for name, kind in refused)


class Refusing:
    """One client's work over a server of which calls are refused, and what came of it."""

    def __init__(self, run, library, call, error, made=State, kinds=None, files=None, state=None):
        self.run, self.error, self.told = run, error, run.note("refused")
        self.server = Server(run, SETTINGS, environment=recorded_disk.refusing(library, call, error, self.told, kinds=kinds))
        self.state = state or made(0, call)  # the same work each time
        for name, data in (files or {}).items():
            with open(self.server.path(name), "wb") as file:
                file.write(data)

    def refused(self):
        return recorded_disk.refused_in(self.told)

    def is_done(self, worker, seconds):
        """Waits until the server ended, or one call was refused and the client did so much behind it, or for so long."""
        end, done = time.monotonic() + seconds, None
        while time.monotonic() < end and worker.is_alive():
            if done is None and self.refused():
                done, end = worker.done, max(end, time.monotonic() + 5)
            if done is not None and worker.done >= done + 10:
                return
            time.sleep(0.005)

    def live(self, seconds):
        """The server's life; how it ended by itself, or None."""
        self.server.launch()
        try:
            self.server.ready_after(STARTED)
        except Failed:
            if self.server.ended(5) is None:
                raise
            return self.server.process.returncode
        if self.state.made:
            with contextlib.suppress(Closed), self.server.client() as client:
                self.state.verify(client)
        worker = Worker(self.server, self.state)
        worker.start()
        self.is_done(worker, seconds)
        status = self.server.ended(0 if worker.is_alive() else 5)
        self.server.kill()
        worker.join(60)
        if worker.error:
            raise Failed(f"the client met {worker.error!r}")
        return status

    def tried(self, seconds):
        """Whether a call was refused, whether the server went on, and its log. Another server over the folder has all."""
        status, refused = self.live(seconds), self.refused()
        if refused and not goes_on(refused, self.error):
            expect(status == DISK_FAILED, f"behind {refused} it {'serves' if status is None else f'ended with {status}'}")
        else:
            expect(status is None, f"behind {refused or 'nothing'} that was refused it ended with {status}")
        told = self.server.told()
        server = self.server.again(environment=None)
        with server.client() as client:
            self.state.verify(client)
        gone(self.run, server)
        return refused, told


def refused_at_each(run, most, errors, try_one):
    """Counts by the error's name: the calls that were refused, and of those how often the server went on."""
    seen = {}
    for error in errors:
        name = errno.errorcode[error]
        counts = seen.setdefault(name, [0, 0])
        for call in range(1, most + 1):
            try:
                refused, _ = try_one(call, error)
            except (Failed, Closed, Refused) as failed:
                raise Failed(f"{name} at call {call}: {failed}") from failed
            counts[0] += bool(refused)
            counts[1] += bool(refused) and goes_on(refused, error)
            run.end_all()
    return seen


def refused_told(run, seen):
    run.counted("refused calls", sum(count for count, _ in seen.values()))
    return ", ".join(f"{count} calls refused with {name} (behind {on} of them it went on)" for name, (count, on) in seen.items())


@check("refused-calls", "journal")
def refused_calls(run):
    """Each call on the journal's files is refused once, as an error of the disk, a full and a read-only one: the server ends with 6 before
    anything else is acknowledged, or gives a draft up for lack of room; the next one has all that was."""
    if not shutil.which("cc"):
        raise Skipped("there is no C compiler")
    library = recorded_disk.library_in(run.notes)

    def try_one(call, error):
        return Refusing(run, library, call, error).tried(0.5 + call / 200)

    seen = refused_at_each(run, run.count(200, 20), (errno.EIO, errno.ENOSPC, errno.EROFS), try_one)
    return refused_told(run, seen)


def is_due(server, states):
    """Whether the journal has so much that it is written anew in front of the next server's first event."""
    live = sum(len(data) for state in states for data in state.files.values())
    return used_of(server.path()) > 2 * live + (2 << 20)


def due_folder(run):
    """A folder whose journal is due at the first event, and what its client had acknowledged."""
    server, state = run.server(SETTINGS), Overwriter(0, run.random.random())
    worked_for(server, [state], DUE_SECONDS, lambda: is_due(server, [state]))
    files = contents(server.folder)
    run.end_all()
    return files, state


@check("refused-drafts", "journal")
def refused_drafts(run):
    """The same while a journal of some MiB is written anew, in front of the first event, call by call; and over the mark, where a server
    that lacked room for a draft writes its journal anew once there is room."""
    if not shutil.which("cc"):
        raise Skipped("there is no C compiler")
    library, (files, state) = recorded_disk.library_in(run.notes), due_folder(run)

    def over_due(call, error):
        return Refusing(run, library, call, error, kinds="dfj", files=files, state=copy.deepcopy(state)).tried(2)

    seen = refused_at_each(run, run.count(60, 16), (errno.EIO, errno.ENOSPC, errno.EROFS), over_due)
    return f"{refused_told(run, seen)}; over the mark {refused_over_mark(run, library)}"


def refused_over_mark(run, library):
    """Of the drafts behind the first one calls are refused for lack of room: the server goes on, and a later draft becomes the journal."""
    rounds = run.count(8, 2)
    for number in range(rounds):
        call = run.random.randrange(7, 7 + 8 * (number + 1))
        trial = Refusing(run, library, call, errno.ENOSPC, Overwriter, "d")
        trial.server.launch().ready_after(STARTED)
        worker = Worker(trial.server, trial.state)
        worker.start()
        end = time.monotonic() + 120
        while not (trial.refused() and anew_behind(trial.server)) and time.monotonic() < end and worker.is_alive():
            time.sleep(0.05)
        trial.server.expect_alive(f"behind {trial.refused()} that had no room")
        expect(trial.refused(), "no draft was begun over the mark")
        expect(anew_behind(trial.server), f"behind {trial.refused()} the journal wasn't written anew any more")
        trial.server.kill()
        worker.join(60)
        expect(worker.error is None, f"the client met {worker.error!r}")
        server = trial.server.again(environment=None)
        with server.client() as client:
            trial.state.verify(client)
        run.end_all()
    run.counted("drafts that lacked room", rounds)
    return f"{rounds} drafts lacked room, and another became the journal each time"


def anew_behind(server):
    """Whether the log tells that the journal was written anew, behind the line on a lack of room."""
    lines = server.told().splitlines()
    lacked = [number for number, line in enumerate(lines) if f"{JOURNAL} is not written anew for lack of room" in line]
    return bool(lacked) and any(WRITTEN_ANEW.search(line) for line in lines[lacked[-1]:])


# ---- bytes that rot

def checksum_table():
    found = []
    for byte in range(256):
        for _ in range(8):
            byte = byte >> 1 ^ (0x82F63B78 if byte & 1 else 0)  # Castagnoli's polynomial, its bits turned round (RFC 3720, B.4)
        found.append(byte)
    return found


TABLE = checksum_table()


def checksum(data):
    found = 0xFFFFFFFF
    for byte in data:
        found = found >> 8 ^ TABLE[(found ^ byte) & 255]
    return found ^ 0xFFFFFFFF


def with_checksums(journal):
    """A journal of the first form in the second one: behind each gate the length, a checksum of length and body, and the body."""
    found, at = bytearray(b"smb311j2"), 8
    while at + 5 <= len(journal) and journal[at] == 1:
        entry = journal[at + 1:at + 5 + struct.unpack_from("<I", journal, at + 1)[0]]
        found += b"\1" + entry[:4] + struct.pack("<I", checksum(entry)) + entry[4:]
        at += 1 + len(entry)
    return bytes(found + b"\0")


def begun_over(run, journal):
    """A server over this journal alone, that listens, or ended; and its folder."""
    folder = run.new_folder()
    with open(os.path.join(folder, JOURNAL), "wb") as file:
        file.write(journal)
    server = Server(run, folder=folder).launch()
    try:
        server.ready_after(STARTED)
    except Failed:
        if server.ended(5) is None:
            raise
    return server


def gone(run, server):
    server.kill()
    run.servers.remove(server)
    shutil.rmtree(server.folder)


def all_files(server, folders):
    """Each file of these folders with its bytes."""
    with server.client() as client:
        there = client.listed("")
        return {f"{folder}\\{name}": client.whole(f"{folder}\\{name}") for folder in folders if folder in there
                for name in client.listed(folder)}


def found_over(run, journal, folders):
    server = begun_over(run, journal)
    server.expect_alive("over a journal that stands")
    found = all_files(server, folders)
    gone(run, server)
    return found


def refused_at(server, journal, gate):
    """It ended as over bytes that are no journal, told the place of that entry, and left the file alone."""
    status = server.ended(5)
    expect(status == NOT_A_JOURNAL, f"it ended with {status}")
    expect(server.journal() == journal, "it changed a journal that it refuses")
    told = server.said().split()
    expect(str(gate) in told, f"it told {told} and not the place {gate}")


PIECES_FROM = 64  # the first byte of a body in a snapshot, at least


def flipped_journal(run):
    """A journal with a snapshot and what was done since, without zeros behind it, the places of its gates, the clients' folders, and how
    many bytes the snapshot has."""
    server, states = run.server(SETTINGS), [State(number, run.random.random()) for number in range(CLIENTS)]
    worked_for(server, states, DUE_SECONDS, lambda: is_due(server, states))
    server = server.again()
    with server.client() as client:
        for state in states:
            state.verify(client)
    worked_for(server, states, run.count(20, 5) / 10)
    journal = server.journal()
    journal = journal[:end_of(journal)] if journal.startswith(b"smb311j2") else with_checksums(journal)
    places = gates(journal)
    behind = [place for place in places if journal[place + 9] < PIECES_FROM]
    run.end_all()
    return journal, places, [state.folder for state in states], (behind[0] if behind else len(journal)) - 8


@check("flips", "journal")
def flips(run):
    """10,000 single bits flipped in a journal with checksums, a snapshot and zeros at its end: status 9 with the entry's place, or the same
    files; a gate's bit shows an earlier moment."""
    journal, places, folders, snapshot = flipped_journal(run)
    seen = dict.fromkeys(("refused", "the same", "an earlier moment", "bits of the snapshot", "bits of the zeros"), 0)
    whole, count = found_over(run, journal, folders), run.count(10000, 300)
    for number in range(count):
        ahead = bytes(run.random.choice((4096, AHEAD))) if number % 20 == 10 else bytes(4096)  # decides nothing behind a closed gate
        bit = bit_of(run.random, number, journal, places, ahead)
        try:
            seen[flipped_once(run, journal + ahead, places, bit, folders, whole)] += 1
        except Failed as error:
            raise Failed(f"bit {bit % 8} of byte {bit // 8} of {len(journal)}: {error}") from error
        seen["bits of the snapshot"] += 8 <= bit // 8 < 8 + snapshot
        seen["bits of the zeros"] += bit // 8 >= len(journal)
    run.counted("flipped bits of a journal", count)
    return ", ".join(f"{number} {what}" for what, number in seen.items()) + (
        f" (a journal of {len(places)} entries with {len(journal)} bytes, of which {snapshot} are a snapshot's)")


def bit_of(chance, number, journal, places, ahead):
    """A bit of a gate, of the zeros behind the journal, or of any byte."""
    if number % 50 == 0:
        return chance.choice(places) * 8 + chance.randrange(8)
    if number % 20 == 10:
        return 8 * len(journal) + chance.randrange(8 * len(ahead))
    return chance.randrange(8 * (len(journal) + 4096))


def flipped_once(run, journal, places, bit, folders, whole):
    """What came of one flipped bit."""
    place, last = bit // 8, end_of(journal) - 1
    bytes_now = bytearray(journal)
    bytes_now[place] ^= 1 << bit % 8
    server = begun_over(run, bytes(bytes_now))
    try:
        opens = place == last and bit % 8 == 0  # the closed gate, behind which stands no entry
        if place < 8 or opens or place < last and place not in places:
            gate = place if place < 8 or opens else max(gate for gate in places if gate < place)
            refused_at(server, bytes(bytes_now), gate)
            return "refused"
        server.expect_alive("over a bit that its checksums don't cover")
        found = all_files(server, folders)
        if place not in places:
            expect(found == whole, "files differ though nothing that counts was flipped")
            return "the same"
        expect(found == found_over(run, journal[:place] + b"\0", folders), "what stands isn't what stood before that entry")
        return "an earlier moment"
    finally:
        gone(run, server)
