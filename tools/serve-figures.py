#!/usr/bin/python3
"""Measures the built server beside Samba: tools/serve-figures.py [--only WORD] [--size MIB] [--each MIB] [--rounds N] [--seconds N]
PROGRAM [WORD..]

The server is begun as PROGRAM WORD.. 127.0.0.1:445 with its settings on standard input. Each server runs alone, on a new folder in
/dev/shm for each figure, signed alone and sealed, and the same clients of Samba measure both: smbclient for large files, the library
below it for small operations and logons. WORD chooses figures:

- large: a put and a get of --size MiB by one smbclient;
- three: the same of --each MiB by one smbclient, and then by three side by side, each with a connection and a file of its own, and what
  the three come to together as a part of the one. Each is the median of --rounds rounds, of which each has a server of its own;
- small: operations on small files over 1, 4 and 16 connections, --seconds long;
- logons: how many a second;
- many: what 200 idle connections take of memory and of the processor, signed alone;
- wait: the processor time of the server while 8 connections wait for one that holds the turn (`waiting` has how), signed alone.

It wants Debian's samba, smbclient, python3-samba, python3-cryptography and strace, root, and port 445 of the loopback. It prints a line
a figure as it comes, and a table at the end: what this server came to, what Samba did, and the first as a part of the second. The load
of the machine stands in front, since a busy machine makes every figure worse.
"""
import argparse
import concurrent.futures
import contextlib
import glob
import multiprocessing
import os
import select
import shutil
import signal
import socket
import statistics
import subprocess
import sys
import tempfile
import time

import hostile_client as raw

HOST, PORT, SHARE, USER, PASSWORD = "127.0.0.1", 445, "data", "nobody", "Password"
TOOLS = os.path.dirname(os.path.abspath(__file__))
WAITERS, SIDE_BY_SIDE = 8, 3
MOST = 60000  # small files, since all files are 65,536 at most
CLIENT = """[global]
client min protocol = SMB3_11
client max protocol = SMB3_11
client signing = required
"""
SAMBA = """[global]
server role = standalone
server min protocol = SMB3_11
server signing = mandatory
server smb encrypt = {sealed}
interfaces = lo
bind interfaces only = yes
disable netbios = yes
load printers = no
smb ports = 445
log file = {room}/log
private dir = {room}/private
lock directory = {room}/lock
state directory = {room}/state
cache directory = {room}/cache
pid directory = {room}/pid
ncalrpc dir = {room}/ncalrpc
passdb backend = tdbsam:{room}/private/passdb.tdb
[data]
path = {room}/files
read only = no
"""


def listens():
    with socket.socket() as probe:
        return probe.connect_ex((HOST, PORT)) == 0


class Server:
    """A server in a new folder. Behind it neither its processes nor the folder are left."""

    process, place = None, "/dev/shm"

    def __enter__(self):
        if listens():
            sys.exit("port 445 is taken")
        self.room = tempfile.mkdtemp(dir=self.place)
        try:
            self.begin()
            return self.begun()
        except BaseException:
            self.__exit__()
            raise

    def begun(self):
        """Itself, once it listens."""
        for _ in range(6000):
            if listens():
                return self
            if self.process.poll() is not None:
                break
            time.sleep(0.005)
        sys.exit(f"{self.name} didn't begin: {self.said()}")

    def said(self):
        with open(f"{self.room}/said", encoding="utf-8", errors="replace") as said:
            return said.read()

    def end(self):
        if self.process:
            with contextlib.suppress(ProcessLookupError):
                os.killpg(self.process.pid, signal.SIGKILL)
            self.process.wait()
        while listens():
            time.sleep(0.05)

    def __exit__(self, *_):
        self.end()
        shutil.rmtree(self.room, ignore_errors=True)

    def start(self, words, settings=""):
        with open(f"{self.room}/settings", "w", encoding="ascii") as file:
            file.write(settings)
        with open(f"{self.room}/settings", encoding="ascii") as file, open(f"{self.room}/said", "w", encoding="utf-8") as said:
            self.process = subprocess.Popen(words, cwd=self.room, stdin=file, stdout=said, stderr=said, start_new_session=True)

    def processes(self):
        """all processes of its group"""
        found = []
        for path in glob.glob("/proc/[0-9]*/stat"):
            try:
                with open(path, encoding="utf-8") as file:
                    fields = file.read().rsplit(")", 1)[1].split()
            except OSError:
                continue
            if int(fields[2]) == self.process.pid:
                found.append((int(path.split("/")[2]), int(fields[11]) + int(fields[12])))
        return found

    def states(self):
        """by its number, what each thread of these processes does"""
        found = {}
        for process, _ in self.processes():
            for path in glob.glob(f"/proc/{process}/task/[0-9]*/stat"):
                with contextlib.suppress(OSError), open(path, encoding="utf-8") as file:
                    found[int(path.split("/")[4])] = file.read().rsplit(")", 1)[1].split()[0]
        return found

    def threads(self):
        """all threads of these processes, once none came or went for half a second"""
        found, seen = None, set()
        while found != seen:
            found = seen
            time.sleep(0.5)
            seen = set(self.states())
        return seen

    def wanting(self):
        """how many threads run or would like to, as a mean of two seconds"""
        counts = []
        for _ in range(20):
            counts.append(sum(state == "R" for state in self.states().values()))
            time.sleep(0.1)
        return statistics.mean(counts)

    def memory(self):
        """bytes that are its own, with its part of what processes share"""
        total = 0
        for process, _ in self.processes():
            with open(f"/proc/{process}/smaps_rollup", encoding="utf-8") as file:
                total += sum(int(line.split()[1]) for line in file if line.startswith("Pss:"))
        return total * 1024

    def spent(self):
        """processor seconds"""
        return sum(ticks for _, ticks in self.processes()) / os.sysconf("SC_CLK_TCK")


class Ours(Server):
    name, strace, more = "smb311", ["strace"], ""  # more settings

    def __init__(self, words, sealed):
        self.words, self.sealed = words, sealed

    def begin(self):
        cipher = "" if self.sealed else "cipher none\n"
        self.start([*self.words, f"{HOST}:{PORT}"], f"{cipher}{self.more}user {USER} {PASSWORD}\nshare {SHARE}\npeers 256\n")


class Samba(Server):
    name, strace = "Samba", ["strace", "-f"]  # it writes in threads that it makes for it

    def __init__(self, sealed):
        self.sealed = sealed

    def begin(self):
        for folder in ("private", "lock", "state", "cache", "pid", "ncalrpc", "files"):
            os.mkdir(f"{self.room}/{folder}")
        os.chmod(self.room, 0o755)
        os.chmod(f"{self.room}/files", 0o777)
        with open(f"{self.room}/smb.conf", "w", encoding="ascii") as file:
            file.write(SAMBA.format(room=self.room, sealed="required" if self.sealed else "off"))
        subprocess.run(["smbpasswd", "-c", f"{self.room}/smb.conf", "-a", "-s", USER], input=f"{PASSWORD}\n" * 2, text=True,
                       check=True, stdout=subprocess.DEVNULL)
        self.start(["smbd", "-F", "--no-process-group", "-s", f"{self.room}/smb.conf"])


def connected():
    from samba import credentials, param
    from samba.samba3 import libsmb_samba_internal, param as s3param
    told = s3param.get_context()
    told.load(os.environ["SERVE_FIGURES_CONF"])
    who = credentials.Credentials()
    loaded = param.LoadParm(os.environ["SERVE_FIGURES_CONF"])
    who.guess(loaded)
    who.set_username(USER)
    who.set_password(PASSWORD)
    who.set_domain("")
    who.set_kerberos_state(credentials.DONT_USE_KERBEROS)
    return libsmb_samba_internal.Conn(HOST, SHARE, told, creds=who)


def meet(barrier):
    """The workers of a pool begin together, once all have logged on."""
    operations.barrier = barrier


def operations(job):
    """how many a second: create, write 4 KiB, read, close"""
    number, seconds, most = job
    link, text, count = connected(), b"x" * 4096, 0
    operations.barrier.wait(60)
    begun = time.monotonic()
    while time.monotonic() < begun + seconds and count < most:
        file = link.create(f"f{number}-{count}", DesiredAccess=0x12019F, CreateDisposition=5)
        link.write(file, text, 0)
        if link.read(file, 0, 4096) != text:
            sys.exit("a read gave other bytes")
        link.close(file)
        count += 1
    return count / (time.monotonic() - begun)


def logons(seconds):
    count, begun = 0, time.monotonic()
    while time.monotonic() < begun + seconds:
        connected()
        count += 1
    return count / (time.monotonic() - begun)


def smbclient(commands, conf):
    begun = time.monotonic()
    said = subprocess.run(["smbclient", f"//{HOST}/{SHARE}", "-s", conf, "-U", f"{USER}%{PASSWORD}", "-t", "600", "-c", commands],
                          capture_output=True, text=True, check=False)
    if said.returncode or "NT_STATUS" in said.stdout + said.stderr:
        sys.exit(f"smbclient: {said.stdout}{said.stderr}")
    return time.monotonic() - begun


def at_once(count, conf, commands):
    """Seconds until the last of so many smbclients that begin together has ended; `commands` of a number is what that one does."""
    begun = time.monotonic()
    with concurrent.futures.ThreadPoolExecutor(count) as pool:
        list(pool.map(lambda number: smbclient(commands(number), conf), range(count)))
    return time.monotonic() - begun


def put_and_got(here, count, size, conf):
    """MiB a second of so many clients together: of their puts, and then of their gets, each of a file of its own"""
    put = at_once(count, conf, lambda number: f"put {here}/put{number} {count}-{number}")
    get = at_once(count, conf, lambda number: f"get {count}-{number} {here}/got{number}")
    for number in range(count):
        subprocess.run(["cmp", f"{here}/put{number}", f"{here}/got{number}"], check=True)
        os.remove(f"{here}/got{number}")
    return count * size / put, count * size / get


def large(make, counts, size, rounds, conf):
    """By each count of clients: MiB a second of their puts, and of their gets, together. They are medians of so many rounds."""
    found = {count: [] for count in counts}
    with tempfile.TemporaryDirectory(dir="/dev/shm") as here:
        for number in range(max(counts)):
            with open(f"{here}/put{number}", "wb") as file:
                for _ in range(size):
                    file.write(os.urandom(1 << 20))
        for _ in range(rounds):
            with make():
                smbclient("ls", conf)
                for count in counts:
                    found[count].append(put_and_got(here, count, size, conf))
    return {count: [statistics.median(column) for column in zip(*speeds)] for count, speeds in found.items()}


def small(make, links, seconds):
    """how many operations a second so many connections do together"""
    began = multiprocessing.Barrier(links)
    with make(), concurrent.futures.ProcessPoolExecutor(links, initializer=meet, initargs=(began,)) as pool:
        return sum(pool.map(operations, [(link, seconds, MOST // links) for link in range(links)]))


def burnt(server, seconds):
    """processor seconds a second over so many seconds"""
    spent, begun = server.spent(), time.monotonic()
    time.sleep(seconds)
    return (server.spent() - spent) / (time.monotonic() - begun)


def many(server):
    """how many of 200 connections at once are answered; bytes a connection, and processor seconds a second while they are idle"""
    words = [sys.executable, f"{TOOLS}/many_connections.py", str(PORT), "200", "600"]
    with server:
        empty = server.memory()
        with subprocess.Popen(words, stdout=subprocess.PIPE, text=True) as holder:
            try:
                answered = int(holder.stdout.readline().split()[1])
                time.sleep(3)
                held, spent = server.memory(), burnt(server, 10)
            finally:
                holder.kill()
    return answered, held / 2**20, (held - empty) / 200 / 1024, spent


class Halted:
    """The next write to a file by one of these threads takes until the end of the block."""

    def __init__(self, strace, threads):
        names = [word for thread in threads for word in ("-p", str(thread))]
        self.words = [*strace, "-qq", "-o", "/dev/null", "-e", "trace=pwrite64", "-e", "inject=pwrite64:delay_enter=600000000", *names]
        self.threads = threads

    def is_traced(self, thread):
        with open(f"/proc/{thread}/status", encoding="utf-8") as file:
            return "TracerPid:\t0\n" not in file.read()

    def __enter__(self):
        self.process = subprocess.Popen(self.words)
        while not all(self.is_traced(thread) for thread in self.threads):
            if self.process.poll() is not None:
                sys.exit("strace ended")
            time.sleep(0.05)

    def __exit__(self, *_):
        self.process.terminate()
        self.process.wait()


def is_answered(client, number):
    """Whether the answer has come; one that tells that it takes a while (PENDING) is none."""
    while select.select([client.socket], [], [], 0)[0]:
        client.hear()
    return number in client.heard


def opened(server, number):
    """a connection with a file of 4 KiB of its own, and the file"""
    client = raw.logged_on(PORT, USER, PASSWORD, SHARE, timeout=600)
    file = client.create(f"file{number}").file
    client.write(file, 0, bytes(4096))
    return client, file


def waiting(server, seconds):
    """The server's processor seconds a second while 8 connections wait for an answer, how many threads want a processor, and how many
    connections are answered meanwhile. On a busy machine threads that want a processor get little of it, so that the first alone tells
    too little there.

    Of nine connections one asks for a WRITE, and its thread is halted where it writes to the disk, as a disk would that takes long. A
    server that writes inside a turn has given that turn away for so long, and spends nothing on it itself. Then each other asks for a
    READ of a file of its own. Samba has no turn: there all eight are answered, which is told too. At the end all nine have to be
    answered.
    """
    with server:
        before = server.threads()
        holder, held = opened(server, 0)
        own = server.threads() - before
        others = [opened(server, number) for number in range(1, WAITERS + 1)]
        if not own:
            sys.exit(f"no thread of {server.name} serves the first connection")
        with Halted(server.strace, own):
            first = holder.ask(raw.WRITE, raw.write_body(held, 0, bytes(4096)))
            time.sleep(1)
            asked = [(client, client.ask(raw.READ, raw.read_body(file, 0, 4096))) for client, file in others]
            time.sleep(1)
            spent, wanting = burnt(server, seconds), server.wanting()
            answered = sum(is_answered(*one) for one in asked)
            if is_answered(holder, first):
                sys.exit(f"the write of {server.name} wasn't halted")
        for client, number in [(holder, first), *asked]:
            client.success(client.answer_to(number))
            client.close()
    return spent, wanting, answered


def tell_large(tell, make, asked, conf):
    if asked.only in "large":
        (put, get), = large(make, [1], asked.size, 1, conf).values()
        tell(f"put of {asked.size} MiB, MiB a second", put)
        tell(f"get of {asked.size} MiB, MiB a second", get)
    if asked.only in "three":
        speeds = large(make, [1, SIDE_BY_SIDE], asked.each, asked.rounds, conf)
        for column, verb in enumerate(("put", "get")):
            one, three = (speeds[count][column] for count in (1, SIDE_BY_SIDE))
            tell(f"{verb} of {asked.each} MiB by 1 client, MiB a second", one)
            tell(f"{verb} of {asked.each} MiB by {SIDE_BY_SIDE} clients at once, MiB a second together", three)
            tell(f"{verb} of {asked.each} MiB, {SIDE_BY_SIDE} clients together to 1", three / one)


def tell_idle(tell, make, asked):
    if asked.only in "many":
        answered, held, each, spent = many(make())
        tell("connections answered of 200 at once", answered)
        tell("MiB with 200 idle connections", held)
        tell("KiB for each of them", each)
        tell("processor seconds a second while they are idle", spent)
    if asked.only in "wait":
        spent, wanting, answered = waiting(make(), asked.seconds)
        tell(f"processor seconds a second while {WAITERS} connections wait for one that holds the turn", spent)
        tell("threads that want a processor meanwhile", wanting)
        tell(f"of {WAITERS} connections, answered while another's write takes long", answered)


def measured(name, make, sealed, asked, conf):
    how, found = "sealed" if sealed else "signed", {}

    def tell(figure, value):
        found[f"{figure}, {how}"] = value
        print(f"{name}: {figure}, {how}: {value:.4g}", flush=True)

    tell_large(tell, lambda: make(sealed), asked, conf)
    for links in (1, 4, 16):
        if asked.only in "small":
            tell(f"create, write 4 KiB, read, close, a second, {links} connections", small(lambda: make(sealed), links, asked.seconds))
    if asked.only in "logons":
        with make(sealed), concurrent.futures.ProcessPoolExecutor(1) as pool:
            tell("logons a second", pool.submit(logons, asked.seconds).result())
    if not sealed:
        tell_idle(tell, lambda: make(sealed), asked)
    return found


def main():
    words = argparse.ArgumentParser()
    words.add_argument("--only", default="")
    words.add_argument("--size", type=int, default=100)
    words.add_argument("--each", type=int, default=60)
    words.add_argument("--rounds", type=int, default=3)
    words.add_argument("--seconds", type=float, default=10)
    words.add_argument("program", nargs=argparse.REMAINDER)
    asked = words.parse_args()
    for wanted in ("smbd", "smbpasswd", "smbclient", "strace"):
        if not shutil.which(wanted):
            sys.exit(f"there is no {wanted}")
    signal.signal(signal.SIGTERM, lambda *_: sys.exit("ended"))  # so that the servers are ended too
    print(f"load {os.getloadavg()[0]:.1f} on {os.cpu_count()} processors", flush=True)
    with tempfile.TemporaryDirectory() as here:
        conf = os.environ["SERVE_FIGURES_CONF"] = f"{here}/client.conf"
        with open(conf, "w", encoding="ascii") as file:
            file.write(CLIENT)
        ours, samba = {}, {}
        for sealed in (False, True):
            if asked.program:
                ours |= measured("smb311", lambda s: Ours(asked.program, s), sealed, asked, conf)
            samba |= measured("Samba", Samba, sealed, asked, conf)
    print(f"load {os.getloadavg()[0]:.1f} at the end\n\n| figure | smb311 | Samba | ratio |\n|---|---|---|---|")
    for figure, theirs in samba.items():
        own = ours.get(figure, float("nan"))
        print(f"| {figure} | {own:.4g} | {theirs:.4g} | {own / theirs if theirs else float('nan'):.2g} |")


if __name__ == "__main__":
    main()
