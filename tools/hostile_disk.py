"""Checks of tools/hostile-run.py on the journal and its folder, on ends of the process, on a full disk and on the clock."""
import errno
import mmap
import os
import resource
import shutil
import signal
import stat
import struct
import subprocess
import time

from hostile_client import Closed, Refused
from hostile_server import (CUT_FILE, DISK_FAILED, JOURNAL, KEPT_CUT, LOCK_FILE, LOG, TOP, USERS, Failed, Server, Skipped, check, expect,
                            free_port, mebibytes)
from hostile_work import Appender, Kept, end_of, gates


def contents(folder):
    """The files of a folder, with their bytes."""
    found = {}
    for name in sorted(os.listdir(folder)):
        with open(os.path.join(folder, name), "rb") as file:
            found[name] = file.read()
    return found


def second_ends(run, server, port):
    """A second server in the folder, which has to end with 6; its cause is told where the log asks for it."""
    second = Server(run, LOG.format(level="error") + USERS, folder=server.folder, port=port).launch()
    status = second.ended(20)
    expect(status == DISK_FAILED, f"the second server {'serves' if status is None else f'ended with {status}'}")
    return second


@check("two-servers", "journal")
def two_servers(run):
    """A second server in the folder, on the same port and on another, idle and under writes, ends with 6 and changes nothing."""
    rounds, server, acknowledged = run.count(30, 6), run.server(), 0
    for number in range(rounds):
        port = server.port if number % 2 else free_port()
        writer = Appender(server, f"file{number}")
        writer.start()
        time.sleep(0.05)
        if number % 3:
            second_ends(run, server, port)
            writer.stop_well()
        else:
            writer.stop_well()
            before = contents(server.folder)
            second_ends(run, server, port)
            expect(contents(server.folder) == before, "the second server changed a file of the folder")
            expect(LOCK_FILE in before, f"there is no {LOCK_FILE}")
        server.expect_alive("beside a second one")
        server.kill()
        server = server.again()
        writer.verify(server.client())
        acknowledged += writer.acknowledged
    run.counted("second servers", rounds)
    return f"{rounds} second servers ended with {DISK_FAILED} and changed nothing, {acknowledged} acknowledged writes are there"


def rotten(run, server, behind, byte):
    """Kills the server and changes the last gate with more bytes of entries behind it than that; the old journal and the gate's place."""
    server.kill()
    journal = bytearray(server.journal())
    place = max(at for at in gates(journal) if end_of(journal) - at > behind)
    journal[place] = byte
    with open(server.path(), "wb") as file:
        file.write(journal)
    return bytes(journal), place


def cuts(server):
    return sorted(name for name in os.listdir(server.folder) if CUT_FILE.match(name))


def expect_kept(server, old, place, name):
    """The file has what stood behind the gate, and nobody else may read it."""
    with open(server.path(name), "rb") as file:
        kept = file.read()
    expect(old.endswith(kept) and len(kept) in (len(old) - place - 1, len(old) - place), f"{name} has {len(kept)} bytes, not what was cut")
    mode = stat.S_IMODE(os.stat(server.path(name)).st_mode)
    expect(mode == 0o600, f"{name} has mode {mode:o}")


@check("cut-kept", "journal")
def cut_kept(run):
    """A gate byte that rots: the start goes on, what it cuts is in smb311.cut-N where it is more than 2 MiB, and the log tells."""
    server = run.server(LOG.format(level="warn") + USERS)
    client, seen = server.client(), []
    for name in ("first", "second"):
        file = client.create(name).file
        for at in range(4):
            client.write(file, at << 20, os.urandom(1 << 20))
    for number, byte in ((1, 0), (2, 3)):
        old, place = rotten(run, server, KEPT_CUT + (1 << 20), byte)
        server = server.again()
        names = [name for name in cuts(server) if name not in seen]
        expect(len(names) == 1, f"after {mebibytes(len(old) - place)} were cut there are the new files {names}")
        expect_kept(server, old, place, names[0])
        expect(set(seen) <= set(cuts(server)), "an earlier copy is gone")
        expect("cut" in server.told(), "the log doesn't tell that something was cut")
        seen = cuts(server)
        expect(server.client().whole("first")[:1 << 20] != b"", "what stood before the gate isn't served")
    old, place = rotten(run, server, 0, 0)
    server = server.again()
    expect(cuts(server) == seen, "a small cut was kept too")
    server.client().close()
    return f"{', '.join(seen)} have what was cut; {len(old) - place} bytes were cut without a copy"


def expect_owners(server, mask):
    """Nobody else may read the journal."""
    for name in (JOURNAL, LOCK_FILE):
        expect(os.path.exists(server.path(name)), f"there is no {name}")
        mode = stat.S_IMODE(os.stat(server.path(name)).st_mode)
        expect(mode == 0o600, f"{name} has mode {mode:o} under umask {mask:o}")


@check("modes", "journal")
def modes(run):
    """The journal and the lock file are made with mode 0600, whatever the umask, and so is the draft that becomes the journal."""
    for mask in (0, 0o022, 0o077):
        server = run.server(prepare=lambda mask=mask: os.umask(mask))
        expect_owners(server, mask)
        server.client().close()
        expect_owners(server, mask)
        server.kill()
    return f"{JOURNAL} and {LOCK_FILE} have mode 600"


@check("folder-synced", "journal")
def folder_synced(run):
    """The folder is synced when the journal is made (seen by strace)."""
    if not shutil.which("strace"):
        raise Skipped("strace is missing")
    server = run.server()
    server.kill()
    os.unlink(server.path())
    trace = run.note("trace")
    words = ["strace", "-f", "-y", "-e", "trace=openat,fsync,fdatasync", "-o", trace, run.program, "serve", f"127.0.0.1:{server.port}"]
    with open(run.note("traced"), "wb") as out:
        process = subprocess.Popen(words, cwd=server.folder, stdin=subprocess.DEVNULL, stdout=out, stderr=out, start_new_session=True)
    try:
        server.process, server.begun = process, time.monotonic()
        server.ready_after(60)
    finally:
        os.killpg(process.pid, signal.SIGKILL)
        process.wait()
    with open(trace, encoding="utf-8", errors="replace") as file:
        synced = [told for told in file if "sync(" in told and f"<{server.folder}>" in told]
    if not synced and not os.path.getsize(trace):
        raise Skipped("strace may not trace here")
    expect(synced, "no sync of the folder")
    return synced[0].strip()


# ---- ends


@check("signals", "ends")
def signals(run):
    """SIGTERM and SIGINT end it at once; persistent opens with their locks and all acknowledged writes come back."""
    rounds, server, acknowledged = run.count(10, 2), run.server(), 0
    for number in range(2 * rounds):
        how = (signal.SIGTERM, signal.SIGINT)[number % 2]
        kept, writer = Kept(server, f"kept{number}"), Appender(server, f"file{number}")
        writer.start()
        time.sleep(run.random.random() * 0.1)
        server.process.send_signal(how)
        status = server.ended(5)
        expect(status is not None, f"{how.name} doesn't end it within 5 seconds")
        writer.stop()
        server = server.again()
        kept.expect_back(server)
        writer.verify(server.client())
        acknowledged += writer.acknowledged
    run.counted("ends by SIGTERM and SIGINT", 2 * rounds)
    return f"{2 * rounds} persistent opens came back with their locks, {acknowledged} acknowledged writes are there"


def fill(client, name, most=64):
    """Writes until the connection ends or the server refuses; how many bytes were acknowledged, and how it ended."""
    file, at = client.create(name).file, 0
    for _ in range(most * 4):
        try:
            client.write(file, at, b"x" * (1 << 18))
        except (Closed, Refused) as error:
            return at, error
        at += 1 << 18
    raise Failed(f"{most} MiB were taken")


def within(limit):
    return lambda: resource.setrlimit(resource.RLIMIT_FSIZE, (limit, limit))


def filled(server, name):
    """A client fills the disk: how many bytes were acknowledged, with which status the process ends, and how long that takes."""
    taken, error = fill(server.client(), name)
    expect(not isinstance(error, Refused), f"a full disk was answered {error}")
    begun = time.monotonic()
    status = server.ended(5)
    return taken, status, time.monotonic() - begun


@check("file-size", "ends")
def file_size(run):
    """A limit on the file's size: a failed write like any other, status 6; else docs/CLIENTS.md says how to set the limit."""
    seen = []
    for clean in (True, False):
        server = run.server(prepare=within(4 << 20), clean=clean)
        kept = Kept(server, "kept")
        taken, status, took = filled(server, "big")
        seen.append(f"SIGXFSZ {'as it is by default' if clean else 'ignored by the caller'}: status {status} after {took:.2f} s")
        if clean and status == -signal.SIGXFSZ:
            with open(os.path.join(TOP, "docs", "CLIENTS.md"), encoding="utf-8") as page:
                expect("XFSZ" in page.read(), "SIGXFSZ ended it, and docs/CLIENTS.md doesn't say how to set such a limit")
        else:
            expect(status == DISK_FAILED and took < 1.5, seen[-1])
        server = server.again()
        kept.expect_back(server)
        found = server.client().whole("big")
        expect(found is not None and len(found) >= taken, "acknowledged writes are gone")
    return "; ".join(seen)


def small_disk(run, size):
    """A file system of so many bytes, which is only had as root."""
    place = run.new_folder()
    words = ["mount", "-t", "tmpfs", "-o", f"size={size},mode=700", "tmpfs", place]
    if os.geteuid() or subprocess.run(words, capture_output=True, check=False).returncode:
        return None
    run.mounts.append(place)
    return place


def take_all(path):
    """Takes what is left of a file system."""
    with open(path, "wb", buffering=0) as rest:
        try:
            while rest.write(b"x" * 4096):
                pass
        except OSError:
            pass


@check("disk-full", "ends")
def disk_full(run):
    """A full disk: the process ends by itself within a second with 6, its cause is in the log, and it serves reads when begun there."""
    place = small_disk(run, 8 << 20)
    words = {"folder": place} if place else {"prepare": within(8 << 20), "clean": False}
    server = run.server(LOG.format(level="error") + USERS, **words)
    writer = Appender(server, "before")
    writer.start()
    time.sleep(0.3)
    writer.stop_well()
    idle = [server.client() for _ in range(3)] + [server.link() for _ in range(3)]
    taken, status, took = filled(server, "big")
    expect(status == DISK_FAILED, f"the process {'stays' if status is None else f'ended with {status}'}")
    expect(took < 1.5, f"it took {took:.2f} seconds until the process ended")
    expect(JOURNAL in server.told() and ("os error" in server.told() or "space" in server.told() or "large" in server.told()),
           f"the log doesn't tell path and error: {server.told()[-200:]!r}")
    if place:
        take_all(os.path.join(place, "rest"))
    for link in idle:
        link.close()
    server = server.again(settings=USERS, prepare=words.get("prepare"), clean=words.get("clean", True))
    writer.verify(server.client())
    how = "a small file system" if place else "a limit on the file's size"
    return f"by {how}: {mebibytes(taken)} were acknowledged, status {status} after {took:.2f} s; begun there it serves reads"


MOST_LINES = 20  # on one lack of room, under hundreds of events


@check("no-room-ahead", "ends")
def no_room_ahead(run):
    """A disk that has no room for zeros behind the journal's end, nor for a draft: the server goes on, and its log isn't flooded."""
    place = small_disk(run, 5 << 20)
    if place is None:
        raise Skipped("no file system can be mounted here")
    server = run.server(LOG.format(level="info") + USERS, folder=place)
    client, data = server.client(), os.urandom(1 << 18)
    file = client.create("over").file
    for _ in range(8):
        client.write(file, 0, data)
    count = run.count(400, 100)
    for number in range(count):
        client.write(file, 0, b"%06d" % number)
        expect(client.read(file, 0, 6) == b"%06d" % number, "a read gives other bytes")
    lines = no_room_lines(server)
    expect(lines <= MOST_LINES, f"{lines} lines of the log tell in {2 * count} events that there is no room")
    server.kill()
    server = server.again()
    take_all(os.path.join(place, "rest"))
    client = server.client()
    for _ in range(count):
        expect(client.whole("over") == b"%06d" % (count - 1) + data[6:], "a file has other bytes")
    lines += no_room_lines(server)
    expect(lines <= 2 * MOST_LINES, f"{lines} lines of the log tell in some {5 * count} events that there is no room")
    server.expect_alive("on a disk without room for a draft")
    return f"{lines} lines told in some {5 * count} events that there is no room"


def no_room_lines(server):
    return sum(os.strerror(errno.ENOSPC) in line for line in server.told().splitlines())


# ---- the clock

SHIM = r"""
#define _GNU_SOURCE
#include <fcntl.h>
#include <stdlib.h>
#include <sys/mman.h>
#include <sys/syscall.h>
#include <sys/time.h>
#include <time.h>
#include <unistd.h>
static long step(void) {
    static volatile long *at;
    if (!at) {
        const char *path = getenv("HOSTILE_STEP");
        int file = path ? open(path, O_RDONLY) : -1;
        if (file < 0) return 0;
        at = mmap(0, sizeof(long), PROT_READ, MAP_SHARED, file, 0);
        close(file);
        if (at == MAP_FAILED) { at = 0; return 0; }
    }
    return *at;
}
int clock_gettime(clockid_t id, struct timespec *told) {
    long done = syscall(SYS_clock_gettime, id, told);
    if (done == 0 && (id == CLOCK_REALTIME || id == CLOCK_REALTIME_COARSE)) told->tv_sec += step();
    return (int) done;
}
int gettimeofday(struct timeval *told, void *zone) {
    struct timespec now;
    (void) zone;
    clock_gettime(CLOCK_REALTIME, &now);
    told->tv_sec = now.tv_sec;
    told->tv_usec = now.tv_nsec / 1000;
    return 0;
}
time_t time(time_t *told) {
    struct timespec now;
    clock_gettime(CLOCK_REALTIME, &now);
    if (told) *told = now.tv_sec;
    return now.tv_sec;
}
"""


class Clock:
    """A wall clock that only the server sees, moved by steps: a library that is loaded before the others and reads a file."""

    def __init__(self, run):
        folder = run.new_folder()
        compiler, self.library, self.file = shutil.which("cc") or shutil.which("gcc"), f"{folder}/step.so", f"{folder}/step"
        with open(run.program, "rb") as program:
            if b"ld-linux" not in program.read(1 << 16):
                raise Skipped("the program isn't linked dynamically, and a step of the clock can't be made from outside")
        if not compiler:
            raise Skipped("there is no C compiler, and a step of the clock can't be made from outside")
        with open(f"{folder}/step.c", "w", encoding="ascii") as source:
            source.write(SHIM)
        subprocess.run([compiler, "-shared", "-fPIC", "-O1", "-o", self.library, source.name], check=True)
        with open(self.file, "wb") as file:
            file.write(bytes(mmap.PAGESIZE))
        self.environment = os.environ | {"LD_PRELOAD": self.library, "HOSTILE_STEP": self.file}

    def step(self, seconds):
        with open(self.file, "r+b") as file:
            file.write(struct.pack("<q", seconds))

    def expect_seen(self):
        """That a program which is begun so has this clock."""
        told = int(subprocess.run(["date", "+%s"], env=self.environment, capture_output=True, text=True, check=True).stdout)
        if abs(told - time.time() - 7200) > 60:
            raise Skipped("the library isn't loaded here, and a step of the clock can't be made from outside")


@check("clock", "clock")
def clock(run):
    """A step of the machine's clock, forwards and back, drops no persistent open of a client that is away (a preloaded library steps)."""
    clock_of = Clock(run)
    clock_of.step(7200)
    clock_of.expect_seen()
    clock_of.step(0)
    server = run.server(environment=clock_of.environment)
    for number, step in enumerate((7200, -7200, 90, 10**6, 0)):
        kept = Kept(server, f"kept{number}")
        kept.client.close()
        time.sleep(0.2)
        clock_of.step(step)
        client = server.client()
        for _ in range(8):  # an event lets at most one open go
            client.close_file(client.create("other").file)
        time.sleep(0.3)
        try:
            kept.expect_back(server)
        except (Failed, Refused) as error:
            raise Failed(f"after the clock was set to {step} seconds off: {error}") from error
    return "persistent opens of clients that were away came back after steps of 2 hours, back, 90 seconds, 11 days and back"


@check("journal-files", "journal")
def journal_files(run):
    """What a folder has after a run: the journal and the lock file, and nothing else."""
    server = run.server()
    server.client().close()
    server.kill()
    names = sorted(contents(server.folder))
    expect(names == sorted((JOURNAL, LOCK_FILE)), f"the folder has {names}")
    return ", ".join(names)
