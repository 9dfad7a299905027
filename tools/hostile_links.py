"""Checks of tools/hostile-run.py on accepting: few descriptors, no threads, 256 connections, memory of connections, thousands of them."""
import os
import resource
import shutil
import socket
import struct
import threading
import time

from hostile_client import Client, Closed, Refused, bound
from hostile_server import (ANNA, BERT, CONNECTIONS, LOG, LOGON_SECONDS, PATIENCE, SESSIONS, USERS, Skipped, check, closed_all, expect,
                            mebibytes, silent, still_open)
from hostile_work import Appender

SOMEBODY = 54321  # a user of whom there is no process
ROOM_OF_LINKS = 64 << 20  # what 256 connections may hold


def all_bound(server, sessions=SESSIONS, channels=CONNECTIONS // SESSIONS):
    """So many sessions with so many connections each, from several addresses."""
    firsts, others = [], []
    for number in range(sessions):
        first = server.client(source=f"127.9.1.{1 + number % 8}")
        firsts.append(first)
        for channel in range(1, channels):
            others.append(bound(first, *ANNA, source=f"127.9.{1 + channel}.{1 + number % 8}"))
    return firsts, others


def threads_after(server, most, seconds=10):
    """How many threads it has when they came down to so many, or the time is over."""
    end = time.monotonic() + seconds
    while (count := server.threads()) > most and time.monotonic() < end:
        time.sleep(0.1)
    return count


@check("few-descriptors", "accepting")
def few_descriptors(run):
    """At `ulimit -n 64` come 300 connections, and go: who was there goes on, a new client is served, and no descriptor is lost."""
    server = run.server(prepare=lambda: resource.setrlimit(resource.RLIMIT_NOFILE, (64, 64)))
    writer, longest, before = Appender(server, pause=0.005), 0.0, server.descriptors()
    writer.start()
    rounds = run.count(5, 2)
    for _ in range(rounds):
        links = silent(server, 300, lenient=True)
        time.sleep(1)
        server.expect_alive("under 300 connections at 64 descriptors")
        closed_all(links)
        client, took = server.client_within(10)
        client.close()
        longest = max(longest, took)
    writer.stop_well()
    time.sleep(1)
    expect(server.descriptors() <= before, f"it had {before} descriptors, and has {server.descriptors()}")
    run.counted("connections past the limit of descriptors", 300 * rounds)
    return (f"{rounds} times 300 connections; a new client was served after {longest:.2f} s at most, another one's answers took "
            f"{writer.slowest:.2f} s")


def aborted(server, source):
    link = server.link(source)
    link.socket.setsockopt(socket.SOL_SOCKET, socket.SO_LINGER, struct.pack("ii", 1, 0))
    link.close()


@check("aborted", "accepting")
def aborted_connections(run):
    """Connections that are reset before or right after they are accepted: the next client is served at once."""
    server, count = run.server(), run.count(5000, 500)
    for number in range(count):
        aborted(server, f"127.9.{number % 200}.1")
    client, took = server.client_within(20)
    client.close()
    run.counted("connections reset at once", count)
    return f"after {count} a client was served in {took:.2f} s"


@check("full", "accepting")
def full(run):
    """256 connections that have sessions: what comes behind them is closed, no thread is made for it, and when some go others come in."""
    server = run.server(LOG.format(level="warn") + USERS)
    firsts, others = all_bound(server)
    threads, seen = server.threads(), 0
    for _ in range(run.count(300, 50)):
        with server.link("127.9.9.9", 5) as link:
            expect(link.ended_within(5), f"a connection past the {CONNECTIONS}th stays, behind {seen} that were closed")
            expect(server.threads() <= threads + 1, "a thread was made for a connection that finds no place")
            seen += 1
    for link in firsts + others:
        link.echo()
    expect("full" in server.told(), "the log has no line `full`")
    closed_all(others[:3] + firsts[:1])
    client, took = server.client_within(5, source="127.9.9.9")
    client.close()
    return (f"{seen} connections past the {CONNECTIONS}th were closed, with {threads} threads; behind them a client was served in "
            f"{took:.2f} s")


def limit_to(server, kind, most):
    """Sets a limit of the running server, or takes it away (None), as the user that the server has."""
    child = os.fork()
    if child == 0:
        try:
            if server.user is not None:
                os.setgroups([])
                os.setresgid(server.user, server.user, server.user)
                os.setresuid(server.user, server.user, server.user)
            hard = resource.prlimit(server.process.pid, kind)[1]
            resource.prlimit(server.process.pid, kind, (hard if most is None else most, hard))
            os._exit(0)
        finally:
            os._exit(1)
    expect(os.waitpid(child, 0)[1] == 0, "the tool may not set a limit of the server")


def echoed(client, kind):
    """The client, or None where it was ended for want of address space, which its answer takes too."""
    try:
        if client:
            client.echo()
        return client
    except Closed:
        expect(kind == resource.RLIMIT_AS, "a client that was there was ended")
        return None


def without_threads(server, kind, limit):
    """Where no thread is to be had accepting goes on: what comes is dropped, who is there is served, and when there are threads again new
    clients are served though the silent ones stay. What was seen."""
    client, slowest = server.client(), 0.0
    limit_to(server, kind, limit(server))
    links = silent(server, 20)
    for _ in range(30):
        begun = time.monotonic()
        client = echoed(client, kind)
        slowest = max(slowest, time.monotonic() - begun)
        time.sleep(0.1)
    server.expect_alive("without threads")
    dropped = len(links) - len(still_open(links))
    expect(dropped, "no link was dropped: a thread was to be had, or the accepting thread serves one of them")
    limit_to(server, kind, None)
    other, took = server.client_within(5)
    other.close()
    stays = echoed(client, kind) is not None
    told = f"one that was there had answers within {slowest:.2f} s" if stays else "one that was there was ended for want of memory"
    closed_all(links)
    return f"{dropped} of {len(links)} links were dropped, and {told}; with threads a new client was served in {took:.2f} s"


@check("no-threads-space", "accepting")
def no_threads_space(run):
    """Without address space for a stack a link is dropped and accepting goes on; with space a new client is served though others stay."""
    return without_threads(run.server(), resource.RLIMIT_AS, lambda server: server.space() + (128 << 10))


def reachable(run):
    """A copy of the program that any user may begin."""
    folder = run.new_folder()
    os.chmod(folder, 0o755)
    return shutil.copy(run.program, folder)


@check("no-threads-count", "accepting")
def no_threads_count(run):
    """The same where the user may have no more processes (as root, with a server of another user)."""
    if os.geteuid():
        raise Skipped("only root may begin a server as another user")
    program, run.program = run.program, reachable(run)
    try:
        server = run.server(user=SOMEBODY)
    finally:
        run.program = program
    return without_threads(server, resource.RLIMIT_NPROC, lambda server: server.threads())


@check("stacks", "accepting")
def stacks(run):
    """256 connections have their threads within 3 GiB of address space, with stacks of 1 MiB (`ulimit -s 1024`)."""
    # The C library sets aside 64 MiB of addresses for up to 8 threads a processor.
    def limits():
        resource.setrlimit(resource.RLIMIT_STACK, (1 << 20, 1 << 20))
        resource.setrlimit(resource.RLIMIT_AS, (3 << 30, 3 << 30))
    server = run.server(prepare=limits)
    before = server.space()
    firsts, others = all_bound(server)
    for link in firsts + others:
        link.echo()
    taken, held = mebibytes(server.space() - before), mebibytes(server.resident())
    return f"{len(firsts + others)} connections take {taken} of address space, {held} are held"


@check("announced", "memory")
def announced(run):
    """256 connections that announce 1 MiB and send nothing hold under 64 MiB in all, without sessions and with them."""
    seen = []
    for kind in ("without sessions", "with sessions"):
        server = run.server()
        before = server.resident()
        if kind == "without sessions":
            links = silent(server, CONNECTIONS)
        else:
            firsts, others = all_bound(server)
            links = firsts + others
        idle = server.resident() - before
        for link in links:
            link.send_bytes(struct.pack(">I", 1 << 20))
        time.sleep(3)
        held = server.resident() - before
        server.expect_alive("behind announced frames")
        seen.append(f"{kind}: {mebibytes(idle)} idle, {mebibytes(held)} behind the announcement")
        expect(held < ROOM_OF_LINKS, seen[-1])
        closed_all(links)
        server.kill()
    return "; ".join(seen)


# ---- many, and slow ones


def one_visit(server, chance, source):
    """A client that comes and goes, in one of several ways."""
    how = chance.randrange(8)
    if how == 0:
        return aborted(server, source)
    if how == 1:
        return server.link(source).close()
    if how == 2:
        with server.link(source) as link:
            return link.send_bytes(struct.pack(">I", chance.randrange(1 << 20)) + bytes(chance.randrange(200)))
    with Client(server.port, source) as client:
        client.negotiate()
        if how == 3:
            return None
        if how == 4:
            try:
                client.log_on("anna", "no password of hers")
            except Refused:
                return None
        client.log_on(*ANNA).connect_tree("data")
        if how > 5:
            client.write(client.create("visited", disposition=5).file, 0, source.encode())
        if how == 7:
            client.log_off()
    return None


def visits(server, run, count):
    """So many of them, four at a time."""
    lost = []

    def some(seed):
        chance = type(run.random)(seed)
        for _ in range(count // 4):
            source = "127.%d.%d.%d" % (chance.randint(20, 250), chance.randint(1, 250), chance.randint(1, 250))
            try:
                one_visit(server, chance, source)
            except (Closed, Refused, TimeoutError) as error:
                lost.append(error)

    workers = [threading.Thread(target=some, args=(run.random.random(),), daemon=True) for _ in range(4)]
    for worker in workers:
        worker.start()
    for worker in workers:
        worker.join()
    return lost


@check("churn", "counts")
def churn(run):
    """10,000 connections are opened and closed in several ways: memory, descriptors and threads are afterwards as before."""
    server, count = run.server(), run.count(10000, 1000)
    idle = (server.threads(), server.descriptors())
    lost = visits(server, run, 400)
    threads_after(server, idle[0])
    before = (server.resident(), server.descriptors())
    lost += visits(server, run, count)
    threads, after = threads_after(server, idle[0]), (server.resident(), server.descriptors())
    expect(not lost, f"{len(lost)} clients weren't served, the first with {lost[:1]!r}")
    expect(after[1] <= idle[1], f"it had {idle[1]} descriptors, and has {after[1]}")
    expect(threads <= idle[0], f"it had {idle[0]} threads, and has {threads}")
    expect(after[0] - before[0] < 16 << 20, f"it held {mebibytes(before[0])}, and holds {mebibytes(after[0])}")
    run.counted("connections opened and closed", count)
    return f"{count} connections: {mebibytes(before[0])} before and {mebibytes(after[0])} after, {before[1]} and {after[1]} descriptors"


@check("slow", "counts")
def slow(run):
    """256 clients of one byte a second: others log on and are served meanwhile, and the slow ones are closed when their time is over."""
    seconds = run.count(LOGON_SECONDS, 8)
    server = run.server(USERS if not run.quick else PATIENCE.format(logon=seconds, idle=900) + USERS)
    writer, before, slowest, logons = Appender(server, pause=0.01), server.resident(), 0.0, 0
    writer.start()
    begun = time.monotonic()
    links, frame = silent(server, CONNECTIONS, 8), struct.pack(">I", 60000) + b"\xfeSMB" + bytes(200)
    left = list(links)
    for turn in range(seconds + 15):
        left = still_open(left)
        if not left:
            break
        for link in left:
            try:
                link.socket.send(frame[turn:turn + 1])
            except OSError:
                pass
        client, took = server.client_within(10, BERT)
        client.close()
        slowest, logons = max(slowest, took), logons + 1
        time.sleep(max(0.0, begun + turn + 1 - time.monotonic()))
    took, held = time.monotonic() - begun, server.resident() - before
    writer.stop_well()
    expect(not left, f"{len(left)} slow clients are there after {took:.0f} seconds")
    expect(slowest < 5 and writer.slowest < 5, f"a logon took {slowest:.2f} s, an answer {writer.slowest:.2f} s")
    expect(held < ROOM_OF_LINKS, f"they held {mebibytes(held)}")
    return (f"{logons} logons beside them took {slowest:.2f} s at most, answers {writer.slowest:.2f} s; all were closed after "
            f"{took:.0f} s; {mebibytes(held)} were held")


