"""Checks of tools/hostile-run.py on what the server tells: its log, its statuses with their causes, refused settings, and the pages."""
import base64
import datetime
import os
import re
import shutil
import socket
import subprocess
import time

import session_formulas as f
from hostile_client import HOST, Client, bound
from hostile_server import (ANNA, DISK_FAILED, JOURNAL, LOCK_FILE, LOG, NET_FAILED, NOT_A_JOURNAL, SETTINGS_REFUSED, TIME, TOP, USERS,
                            Failed, Server, Skipped, check, expect, free_port, mebibytes)
from hostile_work import refused_by

ELSEWHERE = "203.0.113.7"  # an address of no machine (RFC 5737)
JOURNAL_LIMIT = 939_524_096

# What a line of each event has, as a regular expression without regard to case; {peer} is the client's address, {port} the server's.
LINES = {
    "ready": r"127\.0\.0\.1:{port}.*" + re.escape(JOURNAL) + r"|" + re.escape(JOURNAL) + r".*127\.0\.0\.1:{port}",
    "connection": r"connection.*{peer}|{peer}.*connect|accept.*{peer}",
    "logon": r"anna.*{peer}|{peer}.*anna",
    "refused logon": r"refused|denied|fail|wrong",
    "bound": r"a channel of a session",
    "closed": r"\bclosed\b",
    "bad-frame": r"bad-frame",
}


def new_lines(server, seen):
    """The lines that came since, when none came for a while."""
    end, text = time.monotonic() + 5, server.told()
    while time.monotonic() < end:
        time.sleep(0.3)
        if (later := server.told()) == text and later:
            break
        text = later
    return server.told().split("\n")[len(seen):-1]


def expect_lines(lines):
    """Each has a time in UTC of now, and no control characters."""
    now = datetime.datetime.now(datetime.timezone.utc)
    for line in lines:
        found = TIME.search(line)
        expect(found, f"a line has no time of RFC 3339 in UTC: {line!r}")
        told = datetime.datetime.fromisoformat(re.sub(r"\.\d+", "", found[0]).replace("Z", "+00:00"))
        expect(abs((now - told).total_seconds()) < 120, f"a line's time isn't now: {line!r}")
        expect(not re.search(r"[\x00-\x1f\x7f]", line), f"a line has control characters: {line!r}")


def one_line(server, kept, name, peer):
    """The one new line of an event that fits; other events may have lines beside it."""
    lines = new_lines(server, kept)
    kept.extend(lines)
    expect_lines(lines)
    wanted = LINES[name].format(peer=re.escape(peer), port=server.port)
    fitting = [line for line in lines if re.search(wanted, line, re.IGNORECASE)]
    expect(len(fitting) == 1, f"{len(fitting)} lines fit `{name}`: {lines!r}")
    return fitting[0]


@check("log-lines", "log")
def log_lines(run):
    """With `log info` one line each for ready, a connection, a logon, a refused one, a binding and an end, with the time in RFC 3339."""
    server, kept, seen = run.server(LOG.format(level="info") + USERS), [], []
    seen.append(one_line(server, kept, "ready", HOST))
    new_lines(server, kept)
    kept[:] = server.told().split("\n")[:-1]
    client = Client(server.port, "127.9.8.7")
    seen.append(one_line(server, kept, "connection", "127.9.8.7"))
    client.negotiate().log_on(*ANNA)
    seen.append(one_line(server, kept, "logon", "127.9.8.7"))
    client.connect_tree("data").create("held")
    bound(client, *ANNA, source="127.9.8.6")
    seen.append(one_line(server, kept, "bound", "127.9.8.6"))
    other = Client(server.port, "127.9.8.5").negotiate()
    new_lines(server, kept)
    kept[:] = server.told().split("\n")[:-1]
    refused_by(lambda: other.log_on("mallory", "wrong"))
    line = one_line(server, kept, "refused logon", "127.9.8.5")
    expect("mallory" in line and "127.9.8.5" in line, f"a refused logon's line lacks its user or address: {line!r}")
    seen.append(line)
    other.close()
    seen.append(one_line(server, kept, "closed", "127.9.8.5"))
    bad = Client(server.port, "127.9.8.4").negotiate()
    kept.extend(new_lines(server, kept))
    bad.send_frame(b"nothing of this is a message, by far" * 3)
    seen.append(one_line(server, kept, "bad-frame", "127.9.8.4"))
    return " | ".join(seen)


@check("log-escapes", "log")
def log_escapes(run):
    """A refused logon's user name stands in one line, escaped, whatever it has."""
    server, kept = run.server(LOG.format(level="info") + USERS), []
    kept.extend(new_lines(server, kept))
    names = {"two\nlines": "lines", "cr\r\nlf": "lf", "esc\x1b[31mred": "31mred", "nul\0end": "end", "quote\"and\\slash": "slash",
             "x" * 250: "xxxx", "\x85next\u2028line": "next", "grün": "gr"}
    for name, part in names.items():
        with Client(server.port, run.peer()) as client:
            client.negotiate()
            refused_by(lambda name=name, client=client: client.log_on(name, "wrong"))
        lines = new_lines(server, kept)
        kept.extend(lines)
        expect_lines(lines)
        expect(not any(re.search("[\x80-\x9f\u2028\u2029\x1b]", line) for line in lines), f"a name isn't escaped: {lines!r}")
        told = [line for line in lines if part in line and re.search(LINES["refused logon"], line, re.IGNORECASE)]
        expect(told, f"no line tells the refused logon of {name!r}: {lines!r}")
    return f"{len(names)} names were told in lines of their own"


@check("log-levels", "log")
def log_levels(run):
    """`log error` tells nothing of what is well, `log warn` no connection or logon, and no setting prints nothing."""
    told = {}
    for level in ("error", "warn", ""):
        server = run.server((LOG.format(level=level) if level else "") + USERS)
        client = server.client()
        client.create("some")
        refused_by(lambda server=server: server.client(("anna", "wrong")))
        client.close()
        time.sleep(0.5)
        server.kill()
        told[level] = server.told()
        expect(server.said() == "", f"it printed {server.said()[:100]!r}")
    expect(told[""] == "", f"without the setting it told {told[''][:200]!r}")
    expect(told["error"] == "", f"with `log error` it told {told['error'][:200]!r}")
    expect("closed" not in told["warn"], f"with `log warn` it told {told['warn'][:200]!r}")
    return f"nothing without the setting and with error; {told['warn'].count(chr(10))} lines with warn, of a refused logon"


def spelled(secret):
    """The ways in which a secret may stand in a text."""
    data = secret if isinstance(secret, bytes) else secret.encode()
    ways = [data, data.hex().encode(), data.hex().upper().encode(), base64.b64encode(data)[:-4], str(list(data))[1:-1].encode()]
    if isinstance(secret, str):
        ways += [secret.encode("utf-16-le"), secret.encode("utf-16-le").hex().encode(), base64.b64encode(secret.encode("utf-16-le"))[:-4]]
    return [way for way in ways if len(way) > 3]


def tokens_of(client):
    """What is secret in the third message: the proof, the MIC and the key that was carried."""
    token = client.token
    at, carried = int.from_bytes(token[24:28], "little"), int.from_bytes(token[56:60], "little")
    return [token[at:at + 16], token[72:88], token[carried:carried + 16]]


@check("log-secrets", "log")
def log_secrets(run):
    """With `log info` no password, key, token or byte of a file stands in what it prints, in any spelling."""
    word, wrong, data = "Rosebud-4711-Xanadu", "Kane-0815-Sled", b"bytes of a file that nobody else reads"
    server = run.server(LOG.format(level="info") + f"user carl {word}\n" + USERS)
    client = server.client(("carl", word))
    secrets = [word, wrong, data, f.md4(f.utf16(word)), f.ntowf(word, "carl", ""), client.exported, client.keys.signing]
    secrets += [client.keys.to_server, client.keys.to_client, *tokens_of(client)]
    file = client.create("some").file
    client.write(file, 0, data)
    client.read(file, 0, 100)
    with Client(server.port, run.peer()) as other:
        other.negotiate()
        refused_by(lambda: other.log_on("carl", wrong))
        secrets += tokens_of(other)
    client.send_bytes(b"\0\0\0\x40" + b"\xfdSMB" + bytes(60))
    time.sleep(1)
    server.kill()
    with open(server.err, "rb") as err, open(server.out, "rb") as out:
        text = err.read() + out.read()
    expect(b"carl" in text, "the log has no line of the logon")
    for secret in secrets:
        for way in spelled(secret):
            expect(way not in text, f"the log has {way[:40]!r}")
    return f"{len(secrets)} secrets are in none of its {len(text)} bytes"


@check("log-room", "log")
def log_room(run):
    """The room tells when it passes three quarters, and nine tenths."""
    room = 4_000_000
    server, kept = run.server(LOG.format(level="warn") + f"room {room}\n" + USERS), []
    client = server.client()
    file, seen = client.create("big").file, []
    there = 0
    for at, wanted in ((0.7, 0), (0.76, 1), (0.8, 0), (0.91, 1), (0.95, 0)):
        while there < int(room * at):
            piece = os.urandom(min(60_000, int(room * at) - there))
            client.write(file, there, piece)
            there += len(piece)
        lines = new_lines(server, kept)
        kept.extend(lines)
        expect_lines(lines)
        expect(len(lines) == wanted, f"at {at:.0%} of the room there came {lines!r}")
        seen += lines
    return " | ".join(seen)


@check("log-journal", "log")
def log_journal(run):
    """The journal tells when it passes three quarters, and nine tenths of its limit (without --quick: it writes 850 MB)."""
    if run.quick:
        raise Skipped("it writes 850 MB; call it without --quick")
    server, kept = run.server(LOG.format(level="warn") + USERS), []
    client = server.client(timeout=300)
    file, data, seen = client.create("big").file, os.urandom(1 << 20), []
    for part, wanted in ((0.74, 0), (0.77, 1), (0.89, 0), (0.91, 1)):
        while os.path.getsize(server.path()) < part * JOURNAL_LIMIT:
            client.write(file, 0, data)
        lines = new_lines(server, kept)
        kept.extend(lines)
        expect(len(lines) == wanted, f"at {part:.0%} of the journal there came {lines!r}")
        seen += lines
    server.kill()
    server = server.again()
    expect(server.client(timeout=300).whole("big") == data, "a large journal doesn't give its file back")
    return f"{' | '.join(seen)}; begun again in {time.monotonic() - server.begun:.1f} s with {mebibytes(os.path.getsize(server.path()))}"


# ---- statuses


def ended_with(run, settings, address=HOST, port=None, folder=None):
    """A server that has to end at once: its status, what it printed, and its log."""
    server = Server(run, settings, address=address, port=port, folder=folder).launch()
    status = server.ended(10)
    if status is None:
        raise Failed(f"it serves at {address}:{server.port} with {settings[:60]!r}")
    return status, server.said(), server.told()


def expect_cause(run, name, settings, wanted, cause, **words):
    """Its status, standard output as ever, the cause in the log where there is one, and silence without."""
    for level in ("error", None):
        status, said, told = ended_with(run, (LOG.format(level=level) if level else "") + settings, **words)
        lines = wanted[1].replace("{n}", str((1 if level else 0) + wanted[2])) if len(wanted) > 2 else wanted[1]
        expect(status == wanted[0], f"{name}: status {status}, not {wanted[0]}: {said!r} {told!r}")
        expect(re.fullmatch(lines, said), f"{name}: it printed {said!r}")
        if level:
            expect(re.search(cause, told, re.IGNORECASE), f"{name}: its log has {told!r}")
        else:
            expect(told == "", f"{name}: without `log` it told {told!r}")


@check("causes", "statuses")
def causes(run):
    """Statuses 6, 7 and 9 print what they printed; with `log` their cause stands on standard error, without it nothing."""
    with socket.socket() as taken:
        taken.bind((HOST, 0))
        taken.listen()
        port = taken.getsockname()[1]
        expect_cause(run, "a port in use", USERS, (NET_FAILED, ""), rf"{port}.*(in use|98)", port=port)
    expect_cause(run, "an address of another machine", USERS, (NET_FAILED, ""), re.escape(ELSEWHERE), address=ELSEWHERE, port=free_port())
    strange, closed, locked = run.new_folder(), run.new_folder(), run.new_folder()
    with open(os.path.join(strange, JOURNAL), "wb") as file:
        file.write(b"no journal of this program\n")
    expect_cause(run, "a file that is no journal", USERS, (NOT_A_JOURNAL, r"journal \d+\n"), re.escape(JOURNAL), folder=strange)
    os.mkdir(os.path.join(closed, JOURNAL))
    expect_cause(run, "a journal that can't be opened", USERS, (DISK_FAILED, ""), re.escape(JOURNAL), folder=closed)
    os.mkdir(os.path.join(locked, LOCK_FILE))
    expect_cause(run, "a lock file that can't be opened", USERS, (DISK_FAILED, ""), re.escape(LOCK_FILE), folder=locked)
    return "port in use, another machine's address, no journal, journal and lock file that can't be opened"


@check("no-user", "settings")
def no_user(run):
    """Without a user line an address that isn't a loopback one is status 3, `line N no-user`; on the loopback the default user logs on."""
    for settings, line in (("", 1), ("share data\n", 2), ("share data", 2), ("cipher none\nshare data\n", 3)):
        for address in (ELSEWHERE, "0.0.0.0"):
            status, said, _ = ended_with(run, settings, address=address)
            expect((status, said) == (SETTINGS_REFUSED, f"line {line} no-user\n"), f"{settings!r} at {address}: status {status}, {said!r}")
    status, said, _ = ended_with(run, USERS, address=ELSEWHERE)
    expect(status == NET_FAILED, f"with users at {ELSEWHERE}: status {status}, {said!r}")
    server = run.server("share data\n")
    server.client(("user", "Password")).echo()
    return f"refused at {ELSEWHERE} and 0.0.0.0, taken at {HOST}"


@check("control-characters", "settings")
def control_characters(run):
    """A carriage return, a tab, NUL or another control character in a settings line is `bad-line`."""
    folder, count = run.new_folder(), 0
    for code in (13, 9, 0, 1, 8, 11, 12, 27, 31, 127):
        bad, user = chr(code), "user anna First"
        lines = ((1, f"{user}{bad}\nshare data\n"), (2, f"share data\nuser an{bad}na First\n"), (3, f"{user}\nshare data\nroom{bad}"),
                 (1, f"user anna Fi{bad}rst\n"))
        for line, settings in lines:
            status, said, _ = ended_with(run, settings, folder=folder)
            expect((status, said) == (SETTINGS_REFUSED, f"line {line} bad-line\n"), f"{settings!r}: status {status}, {said!r}")
            count += 1
    expect(not os.listdir(folder), f"a server whose settings are refused made {os.listdir(folder)}")
    return f"{count} lines were refused"


@check("many-users", "settings")
def many_users(run):
    """20,000 user lines are read in under 0.2 seconds: the time to the first connection, less that with one line."""
    times = {}
    for count in (1, 20000):
        settings, took = "".join(f"user guest{number} Word{number}\n" for number in range(count)) + "share data\n", []
        for _ in range(5):
            server = Server(run, settings).launch()
            took.append(server.ready_after(60))
            server.client((f"guest{count - 1}", f"Word{count - 1}")).echo()
            server.kill()
        times[count] = min(took)
    more = times[20000] - times[1]
    expect(more < 0.2, f"20,000 lines take {more:.2f} seconds more than one")
    status, said, _ = ended_with(run, "".join(f"user guest{number} W\n" for number in range(20000)) + "user GUEST77 W\n")
    expect(status == SETTINGS_REFUSED and said.startswith("line 20001 "), f"a name that stands twice: status {status}, {said!r}")
    return f"{times[20000]:.3f} s with 20,000 lines, {times[1]:.3f} s with one (the least of five each)"


# ---- the pages


@check("pages", "pages")
def pages(run):
    """docs/smb311.8 passes `mandoc -T lint`, and it and docs/CLIENTS.md have the settings, files and statuses."""
    names = ("smb311.journal", "smb311.lock", "smb311.cut-", "patience", "peers", "log", "room", "share", "cipher", "user")
    texts = {}
    for name in ("docs/smb311.8", "docs/CLIENTS.md"):
        with open(os.path.join(TOP, name), encoding="utf-8") as page:
            texts[name] = page.read()
    lacking = [f"{name} lacks {word}" for name, text in texts.items() for word in names if word not in text]
    expect(not lacking, ", ".join(lacking))
    if not shutil.which("mandoc"):
        raise Skipped("mandoc is missing")
    lint = subprocess.run(["mandoc", "-T", "lint", os.path.join(TOP, "docs", "smb311.8")], capture_output=True, text=True, check=False)
    expect(lint.stdout + lint.stderr == "", f"mandoc says {lint.stdout + lint.stderr}")
    return f"both pages have {len(names)} words, and mandoc has nothing to say"
