"""The server under trial, and what all checks of tools/hostile-run.py share: names of settings, counts, folders, and how a check ends.

A server is begun as `PROGRAM serve 127.0.0.1:PORT` in a folder of its own, with its settings on standard input. What it prints is kept in
another folder. Every process that was begun here is ended by its id.
"""
import os
import random
import re
import shutil
import signal
import socket
import subprocess
import tempfile
import time

from hostile_client import HOST, Closed, Link, Refused, logged_on

# What may be named otherwise: settings, files, times and statuses. Nothing else in the tool spells them.
USERS = "user anna First\nuser bert Second\nshare data\n"
ANNA, BERT = ("anna", "First"), ("bert", "Second")
PATIENCE = "patience {logon} {idle}\n"  # seconds
PEERS = "peers {count}\n"
LOG = "log {level}\n"
SIGNED_ALONE = "cipher none\n"
LOGON_SECONDS, IDLE_SECONDS, PEER_CONNECTIONS = 30, 900, 128
CONNECTIONS, SESSIONS = 256, 64
JOURNAL, LOCK_FILE, CUT_FILE = "smb311.journal", "smb311.lock", re.compile(r"smb311\.cut-(\d+)$")
DRAFT = "smb311.draft"  # in which the journal is written anew
WRITTEN_ANEW = re.compile(r"smb311\.journal was written anew: (\d+) bytes before, (\d+) behind")
MARK, AHEAD = 64 << 20, 16 << 20  # bytes from which on it is written anew; of zeros behind its end
READY = re.compile(r"ready at \S+ with \d+ files and directories of \d+ bytes from \d+ of smb311\.journal, read in (\d+) ms")
KEPT_CUT = 2 << 20  # what a start cuts is kept where it is more
REFUSALS, PEER_REFUSALS = 10, 20  # refused logons of a connection; of an address in a minute
KEEPALIVE_SECONDS = 60
SETTINGS_REFUSED, DISK_FAILED, NET_FAILED, NOT_A_JOURNAL = 3, 6, 7, 9
TIME = re.compile(r"\d{4}-\d\d-\d\dT\d\d:\d\d:\d\d(?:\.\d+)?(?:Z|\+00:00)")  # RFC 3339, in UTC
TOP = os.path.dirname(os.path.dirname(os.path.abspath(__file__)))


class Failed(Exception):
    """A check failed."""


class Skipped(Exception):
    """What a check wants isn't there."""


def expect(true, text):
    if not true:
        raise Failed(text)


CHECKS = []


def check(name, subject):
    """A check by its name; its text says what it does."""
    def kept(call):
        CHECKS.append((name, subject, call))
        return call
    return kept


class Run:
    """What one call of the tool was asked for, and what it began."""

    def __init__(self, program, seed, quick, log=print):
        self.program, self.seed, self.quick, self.log = program, seed, quick, log
        self.room, self.servers, self.counts = tempfile.mkdtemp(prefix="hostile-"), [], {}
        os.chmod(self.room, 0o755)
        self.random, self.mounts, self.begun, self.notes = random.Random(seed), [], 0, tempfile.mkdtemp(prefix="hostile-notes-")

    def count(self, full, quick):
        return quick if self.quick else full

    def counted(self, name, number):
        """For the lines at the end."""
        self.counts[name] = self.counts.get(name, 0) + number

    def new_folder(self):
        return tempfile.mkdtemp(dir=self.room)

    def server(self, settings=USERS, **words):
        return Server(self, settings, **words).begin()

    def end_all(self):
        """Ends what a check left behind it."""
        for server in self.servers:
            server.kill()
        self.servers.clear()
        for place in self.mounts:
            subprocess.run(["umount", place], check=False)
        self.mounts.clear()
        for name in os.listdir(self.room):
            shutil.rmtree(os.path.join(self.room, name), ignore_errors=True)

    def close(self):
        self.end_all()
        shutil.rmtree(self.room, ignore_errors=True)
        shutil.rmtree(self.notes, ignore_errors=True)

    def note(self, name):
        """A file of the tool itself, outside all folders of servers."""
        self.begun += 1
        return os.path.join(self.notes, f"{name}-{self.begun}")

    def peer(self):
        """An address of this machine from which nobody came yet, most likely."""
        return "127.%d.%d.%d" % (self.random.randint(1, 250), self.random.randint(1, 250), self.random.randint(1, 250))


def free_port():
    with socket.socket() as probe:
        probe.bind((HOST, 0))
        return probe.getsockname()[1]


class Server:
    """A server process; `again` begins another one over the same folder."""

    def __init__(self, run, settings=USERS, folder=None, port=None, address=HOST, prepare=None, environment=None, user=None, clean=True):
        self.run, self.settings, self.folder = run, settings, folder or run.new_folder()
        self.port, self.address, self.prepare, self.environment = port or free_port(), address, prepare, environment
        self.user, self.process, self.begun, self.clean = user, None, 0.0, clean
        if user is not None:
            os.chown(self.folder, user, user)

    def path(self, name=JOURNAL):
        return os.path.join(self.folder, name)

    def launch(self):
        """Begins the process and waits for nothing."""
        self.out, self.err, given = self.run.note("out"), self.run.note("err"), self.run.note("settings")
        with open(given, "w", encoding="utf-8", newline="") as file:
            file.write(self.settings)
        more = {} if self.user is None else {"user": self.user, "group": self.user, "extra_groups": []}
        with open(given, "rb") as asked, open(self.out, "wb") as out, open(self.err, "wb") as err:
            self.begun = time.monotonic()
            self.process = subprocess.Popen([self.run.program, "serve", f"{self.address}:{self.port}"], cwd=self.folder, stdin=asked,
                                            stdout=out, stderr=err, preexec_fn=self.prepare, env=self.environment,
                                            start_new_session=True, restore_signals=self.clean, **more)
        self.run.servers.append(self)
        return self

    def begin(self, seconds=60):
        self.launch()
        self.took = self.ready_after(seconds)
        return self

    def ready_after(self, seconds=60):
        """How many seconds it took until a connection was made."""
        end = self.begun + seconds
        while time.monotonic() < end:
            status = self.process.poll()
            if status is not None:
                raise Failed(f"the server ended with {status} when it began: {self.said()[-200:]}{self.told()[-200:]}")
            with socket.socket() as probe:
                if probe.connect_ex((HOST, self.port)) == 0:
                    return time.monotonic() - self.begun
            time.sleep(0.002)
        raise Failed(f"the server took no connection in {seconds} seconds")

    def again(self, **words):
        """Another process over the same folder, with the same settings where no others are given."""
        asked = {"settings": self.settings, "user": self.user, "port": self.port} | words
        return Server(self.run, folder=self.folder, **asked).begin()

    # ---- its end

    def kill(self, how=signal.SIGKILL):
        """Ends it by a signal; its status."""
        if self.process is None:
            return None
        if self.process.poll() is None:
            self.process.send_signal(how)
        if how == signal.SIGKILL or self.ended(30) is not None:
            return self.process.wait()
        raise Failed(f"signal {how} doesn't end it within 30 seconds")

    def ended(self, seconds):
        """Its status where it ends by itself within so many seconds, else None."""
        try:
            return self.process.wait(seconds)
        except subprocess.TimeoutExpired:
            return None

    def expect_alive(self, when=""):
        status = self.process.poll()
        if status is not None:
            raise Failed(f"the server ended with {status} {when}: {self.said()[-200:]}{self.told()[-300:]}")

    # ---- what it prints and holds

    def text_of(self, path):
        with open(path, encoding="utf-8", errors="replace", newline="") as file:
            return file.read()

    def said(self):
        return self.text_of(self.out)

    def told(self):
        """The lines of its log."""
        return self.text_of(self.err)

    def written_anew(self):
        """How often its log tells that the journal was written anew, each time the bytes then and before."""
        return [(int(behind), int(before)) for before, behind in WRITTEN_ANEW.findall(self.told())]

    def field(self, name):
        with open(f"/proc/{self.process.pid}/status", encoding="utf-8") as file:
            for line in file:
                if line.startswith(name + ":"):
                    return int(line.split()[1])
        raise Failed(f"the process tells no {name}")

    def resident(self):
        """Bytes of memory that it holds now."""
        return self.field("VmRSS") * 1024

    def peak(self):
        return self.field("VmHWM") * 1024

    def space(self):
        return self.field("VmSize") * 1024

    def threads(self):
        return self.field("Threads")

    def descriptors(self):
        return len(os.listdir(f"/proc/{self.process.pid}/fd"))

    def journal(self):
        with open(self.path(), "rb") as file:
            return file.read()

    # ---- its clients

    def client(self, who=ANNA, **words):
        return logged_on(self.port, *who, **words)

    def link(self, source=None, timeout=30.0):
        return Link(self.port, source, timeout)

    def client_within(self, seconds, who=ANNA, **words):
        """A client that gets in within so many seconds, trying again, and how many seconds it took."""
        begun, last = time.monotonic(), None
        while time.monotonic() < begun + seconds:
            self.expect_alive("while a client came")
            try:
                words["timeout"] = max(0.2, begun + seconds - time.monotonic())
                return self.client(who, **words), time.monotonic() - begun
            except (Closed, Refused, TimeoutError) as error:
                last = error
            time.sleep(0.05)
        raise Failed(f"no client got in within {seconds} seconds: {last}")


def silent(server, count, peers=4, lenient=False):
    """So many connections that say nothing, from so many addresses; those that the server closed at once are among them. A lenient caller
    goes on where the server takes no more."""
    links = []
    for number in range(count):
        try:
            links.append(server.link(f"127.9.9.{1 + number % peers}", 0.2 if lenient else 30.0))
        except Closed:
            if not lenient:
                raise
    return links


def closed_all(links):
    for link in links:
        link.close()


def still_open(links):
    """Of some connections those that the other end didn't close, without waiting."""
    left = []
    for link in links:
        link.socket.setblocking(False)
        try:
            data = link.socket.recv(1 << 16)
        except BlockingIOError:
            left.append(link)
            continue
        except OSError:
            continue
        if data:
            left.append(link)
    return left


def mebibytes(count):
    return f"{count / 2**20:.1f} MiB"
