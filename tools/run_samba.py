#!/usr/bin/python3
"""The command `run` against Debian's Samba: tools/run_samba.py PROGRAM. It begins `smbd` with several channels allowed, on a new folder,
for each algorithm by itself, and compares what `PROGRAM run` tells, and the bytes that Samba then has on its disk. A line a check, as
clients.sh wants them. It wants root, Debian's samba (4.17) and a free port of the loopback.

It may answer a read, write or flush first with STATUS_PENDING, behind which the client waits on. One thing is kept out of the way: where
a connection is a further channel, the process that took it hands it to another one, but may read the next frame itself, which it then
drops ("client used more credits than granted" in its log): nobody answers, and the run is tried again."""
import contextlib
import os
import shutil
import socket
import subprocess
import sys
import tempfile
import time

HOST, SHARE, USER, PASSWORD = "127.0.0.1", "data", "nobody", "Password"
SAMBA = """[global]
server role = standalone
server min protocol = SMB3_11
server multi channel support = yes
server signing = mandatory
server smb encrypt = {sealed}
{algorithm}
interfaces = "lo;capability=RSS,speed=1000000000"
bind interfaces only = yes
disable netbios = yes
load printers = no
aio read size = 1
aio write size = 1
strict sync = yes
smb ports = {port}
log file = {room}/log
private dir = {room}/private
lock directory = {room}/lock
state directory = {room}/state
cache directory = {room}/cache
pid directory = {room}/pid
ncalrpc dir = {room}/ncalrpc
passdb backend = tdbsam:{room}/private/passdb.tdb
[data]
path = {room}/files
read only = no
"""
SIGNED = {"cmac": "AES-128-CMAC", "gmac": "AES-128-GMAC"}
SEALED = {"gcm": "AES-128-GCM", "ccm": "AES-128-CCM", "gcm256": "AES-256-GCM", "ccm256": "AES-256-CCM"}
DROPPED = "client used more credits than granted"
LIMIT, TRIES = 30, 8  # seconds of a run; how often one is tried of which Samba dropped a frame


class Wrong(Exception):
    pass


class Samba:
    def __init__(self, sealed, algorithm):
        self.sealed, self.algorithm, self.process = sealed, algorithm, None
        with socket.create_server((HOST, 0)) as probe:
            self.port = probe.getsockname()[1]

    def __enter__(self):
        self.room = tempfile.mkdtemp(dir="/dev/shm")
        for folder in ("private", "lock", "state", "cache", "pid", "ncalrpc", "files"):
            os.mkdir(f"{self.room}/{folder}")
        os.chmod(self.room, 0o755)
        os.chmod(f"{self.room}/files", 0o777)
        kind = "encryption" if self.sealed else "signing"
        with open(f"{self.room}/smb.conf", "w", encoding="ascii") as file:
            file.write(SAMBA.format(room=self.room, port=self.port, sealed="required" if self.sealed else "off",
                                    algorithm=f"server smb3 {kind} algorithms = {self.algorithm}"))
        subprocess.run(["smbpasswd", "-c", f"{self.room}/smb.conf", "-a", "-s", USER], input=f"{PASSWORD}\n" * 2, text=True, check=True,
                       stdout=subprocess.DEVNULL, stderr=subprocess.DEVNULL)
        self.process = subprocess.Popen(["smbd", "-F", "--no-process-group", "-s", f"{self.room}/smb.conf"], start_new_session=True,
                                        stdin=subprocess.DEVNULL, stdout=subprocess.DEVNULL, stderr=subprocess.DEVNULL)
        for _ in range(600):
            with socket.socket() as probe:
                if probe.connect_ex((HOST, self.port)) == 0:
                    return self
            time.sleep(0.05)
        raise Wrong("Samba didn't begin")

    def __exit__(self, *_):
        with contextlib.suppress(ProcessLookupError):
            os.killpg(self.process.pid, 15)
        self.process.wait()
        shutil.rmtree(self.room, ignore_errors=True)

    def dropped(self):
        """how many frames of a connection that it handed on it read and dropped"""
        with open(f"{self.room}/log", encoding="utf-8", errors="replace") as file:
            return file.read().count(DROPPED)

    def path(self, name):
        return f"{self.room}/files/{name}"

    def bytes_of(self, name):
        with open(self.path(name), "rb") as file:
            return file.read()


def ran(program, samba, head, ops, password=PASSWORD, share=SHARE):
    """what `run` prints, a line each"""
    script = f"{head}user {USER} {password}\nshare {share}\n" + "".join(f"op {op}\n" for op in ops)
    said = subprocess.run([program, "run", f"{HOST}:{samba.port}"], input=script, capture_output=True, text=True, timeout=LIMIT,
                          check=False)
    return said.returncode, said.stdout.splitlines()


def told(name, program, samba, head, pairs, status=0, **who):
    """Each operation with what is due of it; None where it may be anything."""
    got, lines = ran(program, samba, head, [op for op, _ in pairs], **who)
    outcomes = [line.partition(" ")[2] for line in lines if line.split()[0].isdigit()]
    for number, ((op, due), outcome) in enumerate(zip(pairs, outcomes), 1):
        if due is not None and outcome != due:
            raise Wrong(f"operation {number} ({op[:40]}) settled as {outcome[:60]}, and {due[:60]} was due")
    if got != status or len(outcomes) != len(pairs):
        raise Wrong(f"status {got}, and {' / '.join(lines)[:200]}")
    return lines


def same(name, got, due):
    if got != due:
        raise Wrong(f"{name} has {len(got)} bytes, and {len(due)} others were due")


def edits(program, samba, head):
    """create, write, read, lock, unlock, end, time, rename, flush, stat, close; and the bytes on Samba's disk"""
    data = os.urandom(3000)
    told("edits", program, samba, head, [
        ("create one rwd - create plain", "ok created"), (f"write 1 0 {data.hex()}", "ok 3000"), ("fill 1 70000 5000 61", "ok 5000"),
        ("read 1 0 3000", f"ok {data.hex()}"), ("lock 1 0 10 exclusive", "ok"), ("unlock 1 0 10", "ok"), ("lock 1 0 10 shared", "ok"),
        ("unlock 1 0 10", "ok"), ("flush 1", "ok"), ("end 1 74000", "ok"), ("stat 1", "ok 74000"),
        ("time 1 132000000000000000", "ok"), ("rename 1 two", "ok"), ("close 1", "ok")])
    if os.path.exists(samba.path("one")):
        raise Wrong("the old name is there")
    same("two", samba.bytes_of("two"), data + bytes(67000) + b"a" * 4000)
    if int(os.stat(samba.path("two")).st_mtime) != 132000000000000000 // 10000000 - 11644473600:
        raise Wrong("it has another time")


def folders(program, samba, head):
    """directories: made, listed, removed"""
    told("folders", program, samba, head, [("create folder rwd rwd create dir", "ok created"), ("close 1", "ok")])
    told("folders", program, samba, head, [("create folder\\b rw r create plain", "ok created"), ("close 1", "ok"),
                                           ("create folder\\a rw r create plain", "ok created"), ("close 3", "ok")])
    lines = told("folders", program, samba, head, [("create folder r rwd open dir", "ok opened"), ("list 1", None), ("close 1", "ok")])
    if sorted(lines[1].split(" ")[2].split("/")) != ["a", "b"]:
        raise Wrong(f"the list is {lines[1]}")
    told("folders", program, samba, head, [("create folder\\a rd - open plain", "ok opened"), ("remove 1", "ok"), ("close 1", "ok"),
                                           ("create folder\\b rd - open plain", "ok opened"), ("remove 4", "ok"), ("close 4", "ok")])
    told("folders", program, samba, head, [("create folder rd - open dir", "ok opened"), ("remove 1", "ok"), ("close 1", "ok")])
    if os.path.exists(samba.path("folder")):
        raise Wrong("the folder is there")


def refusals(program, samba, head):
    """an error of each kind, over one channel, so that operations come in their order"""
    told("refusals", program, samba, head, [
        ("create here rw rw create plain", "ok created"), ("write 1 0 616263", "ok 3"),
        ("create here rw rw create plain", "refused c0000035"), ("write 3 0 61", "noopen 3"),
        ("create missing rw - open plain", "refused c0000034"), ("create no\\here rw - create plain", "refused c000003a"),
        ("create here rw r open plain", "refused c0000043"), ("create here rw rw open dir", "refused c0000103"),
        ("create here rw rw open plain", "ok opened"), ("lock 1 0 10 exclusive", "ok"), ("lock 9 5 10 exclusive", "refused c0000055"),
        ("write 9 0 61", "refused c0000054"), ("unlock 9 100 5", "refused c000007e"), ("read 1 3 10", "refused c0000011"),
        ("unlock 1 0 10", "ok"), ("remove 9", "refused c0000022"), ("close 9", "ok"), ("read 9 0 1", "noopen 9"), ("close 1", "ok")])
    told("refusals", program, samba, head, [
        ("create full rwd rwd create dir", "ok created"), ("create full\\a rw rwd create plain", "ok created"),
        ("remove 1", "refused c0000101"), ("create full rw rwd open plain", "refused c00000ba")])


def logons(program, samba, head):
    """a logon, or a share, that is refused"""
    lines = told("logons", program, samba, head, [("create a rw - create plain", "unknown no-session status c000006d")], 11,
                 password="wrong")
    if lines[0] != "dialog 0 status c000006d":
        raise Wrong(f"the dialog is told as {lines[0]}")
    told("logons", program, samba, head, [("create a rw - create plain", "unknown no-session status c00000cc")], 11, share="nowhere")


def large(program, samba, head):
    """16 MiB in writes of 1 MiB, which channels share, and fetched again"""
    data = os.urandom(16 << 20)
    parts = [data[at:at + (1 << 20)] for at in range(0, len(data), 1 << 20)]
    told("large", program, samba, head, [("create large rwd r create plain", "ok created")] + [
        (f"write 1 {number << 20} {part.hex()}", f"ok {1 << 20}") for number, part in enumerate(parts)] + [("close 1", "ok")])
    same("large", samba.bytes_of("large"), data)
    told("large", program, samba, head, [("create large r r open plain", "ok opened")] + [
        (f"read 1 {number << 20} {1 << 20}", f"ok {part.hex()}") for number, part in enumerate(parts)])


def persistent(program, samba, head):
    """Samba grants no persistent handle. While the session stands the open is a plain one."""
    told("persistent", program, samba, head, [("create kept rw - create persist", "ok created"), ("write 1 0 616263", "ok 3"),
                                              ("close 1", "ok")])
    same("kept", samba.bytes_of("kept"), b"abc")


def unsealed(program, samba, head):
    """The client's NEGOTIATE doesn't tell that it can encrypt (SMB2_GLOBAL_CAP_ENCRYPTION), though it offers ciphers. Samba then chooses
    none, and refuses the session where it wants sealed ones."""
    lines = told("unsealed", program, samba, head, [("create a rw - create plain", "unknown no-session status c0000022")], 11)
    if lines[0] != "dialog 0 status c0000022":
        raise Wrong(f"the dialog is told as {lines[0]}")


def tried(check, program, samba, head):
    """once more for each frame that Samba dropped"""
    for turn in range(TRIES):
        before = samba.dropped()
        shutil.rmtree(samba.path(""), ignore_errors=True)
        os.makedirs(samba.path(""), exist_ok=True)
        os.chmod(samba.path(""), 0o777)
        try:
            return check(program, samba, head)
        except subprocess.TimeoutExpired:
            if turn + 1 == TRIES or samba.dropped() == before:
                raise
    return None


def main(program):
    kinds = [(False, word, name) for word, name in SIGNED.items()] + [(True, word, name) for word, name in SEALED.items()]
    for sealed, word, name in kinds:
        with Samba(sealed, name) as samba:
            for channels in (1,) if sealed else (1, 4):
                head = (f"cipher {word}\n" if sealed else f"cipher none\nsigning {word}\n") + f"channels {channels}\n"
                checks = [unsealed] if sealed else [edits, folders, large] + ([refusals, logons, persistent] if channels == 1 else [])
                for check in checks:
                    shown = f"run, Samba {'sealed' if sealed else 'signed'} {name}, channels {channels}: {check.__name__}"
                    try:
                        tried(check, program, samba, head)
                        print(f"ok {shown}", flush=True)
                    except (Wrong, subprocess.TimeoutExpired, OSError, IndexError) as error:
                        print(f"FAILED {shown}: {error}", flush=True)


if __name__ == "__main__":
    main(os.path.abspath(sys.argv[1]))
