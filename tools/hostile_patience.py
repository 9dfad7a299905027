"""Checks of tools/hostile-run.py on connections that stay: who is closed after which time, who gives way, and what refused logons cost."""
import os
import socket
import statistics
import struct
import time

from hostile_client import HOST, Client, Closed, Refused, bound
from hostile_server import (ANNA, BERT, CONNECTIONS, KEEPALIVE_SECONDS, LOG, LOGON_SECONDS, PATIENCE, PEER_CONNECTIONS, PEER_REFUSALS,
                            PEERS, REFUSALS, SESSIONS, USERS, Skipped, check, closed_all, expect, silent, still_open)
from hostile_work import refused_by

SLACK = 3.0  # seconds that a time-out may come late


@check("silent", "time-outs")
def silent_connections(run):
    """256 silent connections: a client logs on at once, and the oldest one without a session gave way to it."""
    server = run.server()
    links = silent(server, CONNECTIONS)
    time.sleep(0.5)
    expect(len(still_open(links)) == CONNECTIONS, f"of {CONNECTIONS} connections {len(still_open(links))} stayed")
    clients, slowest = [], 0.0
    for _ in range(run.count(60, 10)):
        client, took = server.client_within(5, source="127.9.8.1")
        clients.append(client)
        slowest = max(slowest, took)
    expect(slowest < 2, f"a logon took {slowest:.2f} seconds")
    left = still_open(links)
    expect(set(map(id, left)) == set(map(id, links[len(links) - len(left):])), "not the oldest ones gave way")
    expect(len(links) - len(left) <= len(clients) + 1, f"{len(links) - len(left)} gave way to {len(clients)} clients")
    for client in clients:
        client.echo()
    return f"{len(clients)} clients logged on, the slowest in {slowest:.2f} s; the {len(links) - len(left)} oldest connections gave way"


def closed_after(link, begun, most):
    """How many seconds behind its beginning the server closes a connection, which may be so many."""
    link.socket.setblocking(True)
    expect(link.ended_within(begun + most - time.monotonic()), f"a connection isn't closed after {time.monotonic() - begun:.1f} seconds")
    return time.monotonic() - begun


@check("logon-patience", "time-outs")
def logon_patience(run):
    """A connection without a session is closed LOGON seconds after its accept: silent, behind NEGOTIATE, in a logon, byte by byte."""
    wanted = run.count(LOGON_SECONDS, 3)
    server = run.server(USERS if not run.quick else PATIENCE.format(logon=wanted, idle=900) + USERS)
    member, begun = server.client(), time.monotonic()
    links = [server.link(), Client(server.port).negotiate(), Client(server.port).negotiate(), server.link()]
    links[2].send_frame(links[2].setup_message(b"\x60\x00"))
    expect(refused_by(lambda: links[1].log_on("anna", "wrong")) != 0, "a wrong password is taken")
    slowly = iter(struct.pack(">I", 60000) + bytes(60000))
    while time.monotonic() < begun + wanted - 1:
        time.sleep(0.5)
        links[3].send_bytes(bytes([next(slowly)]))
    expect(still_open(links[:1]), f"a silent connection was closed before {wanted} seconds")
    times = [closed_after(link, begun, wanted + SLACK) for link in links]
    member.echo()
    return f"with {wanted} seconds they were closed after {', '.join(f'{took:.1f}' for took in times)} s; one with a session stayed"


@check("idle-patience", "time-outs")
def idle_patience(run):
    """A connection with a session and no open that sends nothing for IDLE seconds is closed; one that sends, or has an open, isn't."""
    wanted = 4
    server = run.server(PATIENCE.format(logon=30, idle=wanted) + USERS)
    begun = time.monotonic()
    idle, active, holder, former = server.client(), server.client(), server.client(), server.client(BERT)
    file = holder.create("held").file
    former.close_file(former.create("shut").file)
    second = bound(holder, *ANNA)
    times = {}
    while time.monotonic() < begun + 3 * wanted:
        time.sleep(0.3)
        active.echo()
        for name, link in (("idle", idle), ("without its open", former)):
            if name not in times and not still_open([link]):
                times[name] = time.monotonic() - begun
    expect(len(times) == 2, f"with {wanted} seconds of patience only {times} were closed after {3 * wanted} seconds")
    timely = all(wanted - 1 < took < wanted + SLACK for took in times.values())
    expect(timely, f"with {wanted} seconds of patience they were closed at {times}")
    holder.write(file, 0, b"still here")
    second.echo()
    expect(holder.whole("held") == b"still here", "a file has other bytes")
    told = ", ".join(f"{took:.1f}" for took in times.values())
    return (f"with {wanted} seconds idle ones were closed after {told} s; after {3 * wanted} s one that sent, one with an open and its "
            "second channel were there")


@check("sixty-four", "time-outs")
def sixty_four(run):
    """64 logons that stay idle: a new client gets in when their patience is over."""
    wanted = 4
    server = run.server(PATIENCE.format(logon=30, idle=wanted) + USERS)
    clients = [server.client(source=f"127.9.7.{1 + number % 4}") for number in range(SESSIONS)]
    status = refused_by(lambda: server.client(BERT))
    client, took = server.client_within(wanted + SLACK + 2, BERT)
    client.echo()
    closed_all(clients)
    told = "taken" if status == 0 else f"answered {status:08x}"
    return f"the 65th logon was {told}; after {took:.1f} s a client got in, with {wanted} seconds of patience"


@check("peers", "time-outs")
def peers(run):
    """From one address come at most 128 connections, or N with the setting; another address is served, and the same one when they go."""
    seen = []
    for settings, most in ((USERS, PEER_CONNECTIONS), (PEERS.format(count=10) + USERS, 10), (PEERS.format(count=200) + USERS, 200)):
        server = run.server(settings)
        links = silent(server, 220, peers=1)
        time.sleep(1)
        left = still_open(links)
        expect(len(left) == most, f"from one address {len(left)} connections stayed, not {most}")
        client, took = server.client_within(3, source="127.9.6.1")
        client.close()
        closed_all(links)
        again, _ = server.client_within(3, source="127.9.9.1")
        again.close()
        seen.append(f"{len(left)} of 220 stayed, another address was served in {took:.2f} s")
        server.kill()
    return "; ".join(seen)


def timers(port):
    """Of the server's connections the kind of the timer that runs (2 is keepalive) and its seconds, as the kernel tells them."""
    found, end = [], f"{0x0100007F:08X}:{port:04X}"
    with open("/proc/net/tcp", encoding="ascii") as file:
        for line in file.readlines()[1:]:
            words = line.split()
            if words[1] == end and words[3] == "01":
                kind, left = words[5].split(":")
                found.append((int(kind, 16), int(left, 16) / 100))
    return found


@check("keepalive", "time-outs")
def keepalive(run):
    """Sockets have keepalive, so that a machine that vanished gives its opens and locks back: the kernel's timer runs for each."""
    server = run.server()
    client = server.client()
    client.create("held")
    link = server.link()
    time.sleep(1)
    found = timers(server.port)
    expect(len(found) >= 2, f"the kernel tells {len(found)} connections of the server at {HOST}")
    expect(all(kind == 2 and left <= KEEPALIVE_SECONDS for kind, left in found), f"timers (kind, seconds) are {found}; 2 is keepalive")
    link.close()
    return f"its timer runs for {len(found)} connections, with {max(left for _, left in found):.0f} s left at most"


TCP_REPAIR = 19  # of Linux: a socket that is closed in this mode tells its peer nothing


@check("vanished", "time-outs")
def vanished(run):
    """A client that vanishes without a word: its open and lock are given back after some 60 seconds (as root, without --quick)."""
    if run.quick or os.geteuid():
        raise Skipped("it waits for more than a minute, and takes root" if run.quick else "only root may close a socket unheard")
    server = run.server()
    gone, other = server.client(), server.client(BERT)
    held, found = gone.create("held").file, other.create("held").file
    gone.lock(held, 0, 10)
    gone.socket.setsockopt(socket.IPPROTO_TCP, TCP_REPAIR, 1)
    gone.close()
    begun = time.monotonic()
    while (status := refused_by(lambda: other.lock(found, 0, 10))) and time.monotonic() < begun + 2 * KEEPALIVE_SECONDS:
        time.sleep(1)
    expect(status == 0, f"its lock is held after {time.monotonic() - begun:.0f} seconds")
    return f"its lock was given to another client after {time.monotonic() - begun:.0f} s"


# ---- refused logons


def behind_echo(server, source):
    """A client that has negotiated, and whose SESSION_SETUPs go behind an ECHO in their frames."""
    client = Client(server.port, source).negotiate()
    client.behind = True
    return client


def refused_behind(server, source):
    """Logons that are refused behind an ECHO in their frames count too: for the connection, for its address, and in the log."""
    before, count = negotiating(server, source), 0
    while count <= PEER_REFUSALS:
        with behind_echo(server, source) as client:
            for number in range(1, min(REFUSALS, PEER_REFUSALS + 1 - count) + 1):
                status = refused_by(lambda client=client: client.log_on("mallory", "wrong"))
                expect(status == 0xC000006D, f"refused logon {number} behind an ECHO was answered {status:08x}")
                count += 1
            expect(number < REFUSALS or client.ended_within(3), f"after {REFUSALS} refused logons behind ECHOs the link stays")
    time.sleep(0.5)
    lines = [line for line in server.told().split("\n") if source in line and "mallory" in line]
    expect(len(lines) == count, f"{len(lines)} lines of the log tell {count} refused logons behind ECHOs: {lines[:2]!r}")
    slow = negotiating(server, source)
    expect(before < 0.5 and 0.8 < slow < 5, f"a NEGOTIATE took {before:.2f} s before {count} of them, {slow:.2f} s behind them")
    with behind_echo(server, "127.9.5.4") as client:
        client.log_on(*ANNA).connect_tree("data").echo()
    return f"behind an ECHO: dropped after {REFUSALS}, {count} lines, a NEGOTIATE then took {slow:.2f} s"


@check("refused-logons", "logons")
def refused_logons(run):
    """After ten refused logons on one connection its link is dropped, those behind an ECHO too; after nine the right password is taken."""
    server, seen = run.server(LOG.format(level="warn") + USERS), []
    for user in ("anna", "nobody"):
        with Client(server.port, source=run.peer()) as client:
            client.negotiate()
            for number in range(1, REFUSALS + 1):
                status = refused_by(lambda: client.log_on(user, "wrong"))
                expect(status == 0xC000006D, f"refused logon {number} of {user} was answered {status:08x}")
            expect(client.ended_within(3), f"after {REFUSALS} refused logons of {user} the link stays")
            seen.append(f"{user}: dropped after {REFUSALS}")
    with Client(server.port, source=run.peer()) as client:
        client.negotiate()
        for _ in range(REFUSALS - 1):
            refused_by(lambda: client.log_on("anna", "wrong"))
        client.log_on(*ANNA).connect_tree("data").echo()
    seen.append(refused_behind(server, "127.9.5.3"))
    return f"{'; '.join(seen)}; after {REFUSALS - 1} the right one was taken"


def negotiating(server, source):
    """How long a NEGOTIATE takes that comes from this address."""
    with Client(server.port, source) as client:
        begun = time.monotonic()
        client.negotiate()
        return time.monotonic() - begun


@check("refused-delay", "logons")
def refused_delay(run):
    """After 20 refused logons in a minute from one address its next reads take a second each, and others are served at once."""
    server, source = run.server(), "127.9.5.1"
    before = negotiating(server, source)
    for _ in range(3):
        with Client(server.port, source) as client:
            client.negotiate()
            for _ in range(PEER_REFUSALS // 3 + 1):
                refused_by(lambda: client.log_on("anna", "wrong"))
    behind, other = negotiating(server, source), negotiating(server, "127.9.5.2")
    expect(before < 0.5 and other < 0.5, f"a NEGOTIATE took {before:.2f} s before, {other:.2f} s from another address")
    expect(0.8 < behind < 5, f"behind {PEER_REFUSALS + 1} refused logons a NEGOTIATE takes {behind:.2f} seconds")
    if run.quick:
        return (f"a NEGOTIATE took {before:.3f} s before and {behind:.2f} s behind {PEER_REFUSALS + 1} refused logons, {other:.3f} s from "
                "another address")
    time.sleep(62)
    later = negotiating(server, source)
    expect(later < 0.5, f"a minute later a NEGOTIATE takes {later:.2f} seconds")
    return f"a NEGOTIATE took {before:.3f} s before, {behind:.2f} s behind {PEER_REFUSALS + 1} refused logons, {later:.3f} s a minute later"


def timed_refusal(server, user, source):
    """How long the answer to a third message with a wrong password, or of an unknown user, takes."""
    with Client(server.port, source) as client:
        client.negotiate()
        status, took = refused_logon(client, user)
        expect(status == 0xC000006D, f"{user} was answered {status:08x}")
        return took


def refused_logon(client, user):
    marks, sent = [], client.send_frame

    def noted(message):
        marks.append(time.perf_counter())
        sent(message)

    client.send_frame = noted
    status = refused_by(lambda: client.log_on(user, "not the password"))
    return status, time.perf_counter() - marks[-1]


@check("logon-timing", "logons")
def logon_timing(run):
    """A wrong password and an unknown user take the same work: medians of 200 within 20 %."""
    server, count = run.server("".join(f"user guest{n} Word{n}\n" for n in range(200)) + USERS), run.count(200, 60)
    for user in ("anna", "carl") * 10:
        timed_refusal(server, user, run.peer())
    medians, attempts = (0.0, 0.0), []
    for _ in range(3):  # a busy machine may spoil one
        times = {"anna": [], "carl": []}
        for _ in range(count):
            for user, kept in times.items():
                kept.append(timed_refusal(server, user, run.peer()))
        medians = tuple(statistics.median(kept) for kept in times.values())
        attempts.append(max(medians) / min(medians) - 1)
        if attempts[-1] < 0.2:
            break
    run.counted("refused logons timed", 2 * count * len(attempts))
    told = f"wrong password {medians[0] * 1e6:.0f} µs, unknown user {medians[1] * 1e6:.0f} µs, apart by {attempts[-1]:.0%}"
    expect(attempts[-1] < 0.2, f"medians of {count}: {told}")
    return f"medians of {count}: {told}"


@check("wrong-then-right", "logons")
def wrong_then_right(run):
    """Refused logons of one address keep nobody else out, and no session or thread of theirs is left."""
    server = run.server()
    threads, client = server.threads(), server.client(BERT)
    for number in range(run.count(300, 40)):
        with Client(server.port, f"127.9.{number % 100 + 1}.77") as other:
            other.negotiate()
            status = refused_by(lambda: other.log_on("anna", "wrong"))
            expect(status == 0xC000006D, f"a wrong password was answered {status:08x}")
    client.echo()
    for number in range(SESSIONS - 1):
        try:
            server.client(source=f"127.9.4.{number + 1}")
        except (Closed, Refused) as error:
            expect(False, f"logon {number + 2} of {SESSIONS} behind refused ones met {error}")
    return f"{run.count(300, 40)} refused logons, then {SESSIONS} sessions at once; {threads} threads at the beginning"
