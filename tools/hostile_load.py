"""Checks of tools/hostile-run.py on requests that ask for much: what one connection takes, and what others feel of it."""
import multiprocessing
import os
import struct
import threading
import time

from hostile_client import (ECHO, FOLDER, NO_MORE_FILES, OPEN, QUERY_DIRECTORY, READ, Client, Closed, Refused, charge_of, header, logged_on,
                            names_of, query_directory_body, read_body)
from hostile_server import ANNA, check, expect, mebibytes
from hostile_work import Appender

LONGEST_PATTERN = 1024
CREDITS = 512
INVALID_PARAMETER = 0xC000000D


def asked_pattern(client, folder, pattern):
    """How long a listing by a pattern takes, and how it was answered."""
    opened, begun, names = client.create(folder, access=0x81, disposition=OPEN, options=FOLDER), time.monotonic(), 0
    try:
        while True:
            names += len(names_of(client.call(QUERY_DIRECTORY, query_directory_body(opened.file, pattern), charge_of(65536))))
    except Refused as refused:
        took, told = time.monotonic() - begun, f"{names} names" if refused.status == NO_MORE_FILES else f"{refused.status:08x}"
    client.close_file(opened.file)
    return took, told


@check("patterns", "load")
def patterns(run):
    """Listings of 1,000 names by patterns of 1,024 and of 32,000 characters that match slowly: times, and what another client feels."""
    server = run.server()
    client = server.client(timeout=300)
    client.make_folder("many")
    for number in range(1000):
        client.close_file(client.create("many\\" + "a" * 120 + f"{number:04}").file)
    writer, seen = Appender(server, pause=0.005), []
    writer.start()
    patterns_of = [("*a" * 511 + "*b", 1024), ("?" * 1023 + "b", 1024), ("*" + "a?" * 60 + "*b", 123), ("*a" * 16000, 32000)]
    for pattern, size in patterns_of:
        took, told = asked_pattern(client, "many", pattern)
        seen.append(f"{size} characters from {pattern[:3]!r}: {took:.2f} s, {told}")
        expect(size > LONGEST_PATTERN or took < 3, seen[-1])
    writer.stop_well()
    expect(writer.slowest < 3, f"another client's answer took {writer.slowest:.2f} s; {'; '.join(seen)}")
    return f"{'; '.join(seen)}; another client's answers took {writer.slowest:.2f} s at most"


def answers_of(client, numbers):
    """The statuses of answers and how many bytes of them came; the answers aren't kept."""
    statuses, taken = {}, 0
    for number in numbers:
        answer = client.answer_to(number)
        taken += len(answer)
        status = struct.unpack_from("<I", answer, 8)[0]
        statuses[status] = statuses.get(status, 0) + 1
    return statuses, taken


def read_at_once(server, client, file, count, charge):
    """One frame with so many READs of 1 MiB: its time, and what came, in words and by status."""
    begun = time.monotonic()
    numbers = client.ask_chain([(READ, read_body(file, 0, 1 << 20))] * count, charge)
    try:
        statuses, taken = answers_of(client, numbers)
    except Closed as error:
        return time.monotonic() - begun, f"its connection was ended ({error})", {}
    told = ", ".join(f"{number} {status:08x}" for status, number in statuses.items())
    return time.monotonic() - begun, f"answers {told} with {mebibytes(taken)}", statuses


@check("many-reads", "load")
def many_reads(run):
    """One frame of 61 KB with 510 READs of 1 MiB, each for one credit, and one with as many as the credits pay: time, memory, others.

    Those for one credit are all INVALID_PARAMETER (MS-SMB2 3.3.5.2.5). How long the others wait is told and not judged.
    """
    seen = []
    for count, charge in ((510, 1), (CREDITS // 16 - 1, 16)):
        server = run.server()
        client = server.client(timeout=300)
        file = client.create("big").file
        client.write(file, 0, os.urandom(1 << 20))
        for _ in range(8):
            client.echo()
        writer, before = Appender(server, pause=0.005, timeout=300), server.peak()
        writer.start()
        took, told, statuses = read_at_once(server, client, file, count, charge)
        expect(statuses == {0 if charge == 16 else INVALID_PARAMETER: count}, f"{count} READs of {charge} credits: {told}")
        writer.stop_well()
        server.expect_alive("behind many READs")
        held = mebibytes(server.peak() - before)
        seen.append(f"{count} READs of {charge} credits: {took:.2f} s, {told}, {held} more were held, another client's answers took "
                    f"{writer.slowest:.2f} s")
        server.kill()
    return "; ".join(seen)


@check("connection-memory", "load")
def connection_memory(run):
    """The most memory that one authenticated connection takes: chains of READs, frames of 1 MiB, answers that nobody takes."""
    server = run.server()
    client = server.client(timeout=300)
    file = client.create("big").file
    client.write(file, 0, os.urandom(1 << 20))
    before, seen = server.peak(), []
    client.write(file, 0, os.urandom(1 << 20))
    seen.append(f"a WRITE of 1 MiB {mebibytes(server.peak() - before)}")
    for _ in range(8):
        client.echo()
    taker = threading.Thread(target=lambda: read_at_once(server, client, file, CREDITS // 16 - 1, 16), daemon=True)
    taker.start()
    taker.join(120)
    seen.append(f"with 31 READs of 1 MiB in a frame {mebibytes(server.peak() - before)}")
    deaf = server.client(timeout=2)
    opened, asked = deaf.create("big").file, 0
    try:
        for _ in range(31):
            deaf.ask(READ, read_body(opened, 0, 1 << 20), 16)
            asked += 1
    except Closed:
        pass
    time.sleep(2)
    seen.append(f"with {asked} READs whose answers nobody takes {mebibytes(server.peak() - before)}")
    other, took = server.client_within(5)
    other.close()
    deaf.close()
    return f"{'; '.join(seen)}; a client beside it was served in {took:.2f} s"


def setups(port, source, size, until):
    """Sends frames with a SESSION_SETUP of so many bytes until the time is over, on new connections where one ends."""
    sent = 0
    body = struct.pack("<HBBIIHHQ", 25, 0, 1, 0, 0, 88, 65535, 0) + bytes(max(0, size - 88))
    while time.monotonic() < until:
        try:
            with Client(port, source, 5) as client:
                client.negotiate()
                while time.monotonic() < until:
                    client.send_frame(header(1, client.took()) + body)
                    client.receive_frame()
                    sent += 1
        except (Closed, Refused, TimeoutError):
            time.sleep(0.005)
    return sent


def rate(server, seconds):
    """How many writes a second a client gets."""
    writer = Appender(server, name=f"rate{time.monotonic_ns()}")
    writer.start()
    time.sleep(seconds)
    writer.stop_well()
    return writer.acknowledged / seconds


def begun(count, work):
    """So many processes of the tool's own, so that its clients don't wait for each other."""
    workers = []
    for number in range(count):
        call, words = work(number)
        workers.append(multiprocessing.Process(target=call, args=words, daemon=True))
        workers[-1].start()
    return workers


@check("big-setups", "load")
def big_setups(run):
    """Eight connections without a password send SETUP frames of 1 MB, then of 65,000 bytes: a client keeps a tenth of its writes."""
    server, seconds, seen = run.server(), run.count(6, 3), []
    alone = rate(server, seconds)
    for size in (1 << 20, 65000):
        until = time.monotonic() + seconds + 1
        workers = begun(8, lambda number: (setups, (server.port, f"127.9.3.{number + 1}", size, until)))
        time.sleep(0.5)
        beside = rate(server, seconds)
        for worker in workers:
            worker.join()
        seen.append(f"{beside:.0f} beside frames of {size} bytes")
        expect(beside > alone / 10, f"{alone:.0f} writes a second alone, {seen[-1]}")
        server.expect_alive("behind large frames")
    return f"{alone:.0f} writes a second alone, {', '.join(seen)}"


def echoes(port, source, until):
    """A logged-on client that sends frames full of ECHOs."""
    client = logged_on(port, *ANNA, source=source)
    while time.monotonic() < until:
        answers_of(client, client.ask_chain([(ECHO, struct.pack("<HH", 4, 0))] * 200))


@check("echoes", "load")
def many_echoes(run):
    """Four logged-on clients send frames of 200 ECHOs without end: how many writes a second another one keeps.

    A whole frame is one turn, so all of them take turns with it, and how many are left is told and not judged but for a twentieth.
    """
    server, seconds = run.server(), run.count(6, 3)
    alone, until = rate(server, seconds), time.monotonic() + seconds + 2
    workers = begun(4, lambda number: (echoes, (server.port, f"127.9.2.{number + 1}", until)))
    time.sleep(0.5)
    beside = rate(server, seconds)
    for worker in workers:
        worker.join()
    expect(all(worker.exitcode == 0 for worker in workers), "one of them wasn't served")
    expect(beside > alone / 20, f"{alone:.0f} writes a second alone, {beside:.0f} beside")
    return f"{alone:.0f} writes a second alone, {beside:.0f} beside"
