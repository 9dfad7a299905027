#!/usr/bin/python3
"""Measures the command `run` beside smbclient: tools/run-figures.py [--only WORD] [--size MIB] [--operations N] PROGRAM

Each figure has a server of its own, `PROGRAM serve` or Samba, on a new folder in /dev/shm, signed alone and sealed (tools/serve-figures.py
has the servers, and says what it wants). Samba has several channels, and nothing that makes it answer STATUS_PENDING. WORD chooses figures:

- store: MiB a second of --size MiB, in writes of 1 MiB, by `PROGRAM run` over 1 and 4 channels, and of a put by smbclient;
- small: how many writes of 4 KiB a second, over 1 and 4 channels;
- long: of --operations writes of 4 KiB and of ten times as many, how many microseconds each takes, and how many bytes of memory. They go
  round the same 1,000 places, since a write that makes the file longer costs more than one that doesn't.

What Samba refuses, as sealed sessions, is said in place of a figure. A run over several channels that hasn't ended behind its limit is
tried again, since Samba may drop a frame of a connection that it hands on (tools/run_samba.py)."""
import argparse
import importlib.util
import os
import subprocess
import sys
import tempfile
import threading
import time

TOOLS = os.path.dirname(os.path.abspath(__file__))
LIMIT, TRIES = 90, 6  # seconds of a run over several channels, and how often one is tried
CHANNELS = """interfaces = "lo;capability=RSS,speed=1000000000"
server multi channel support = yes
aio read size = 0
aio write size = 0
strict sync = no
"""


def serving():
    loaded = importlib.util.spec_from_file_location("serve_figures", f"{TOOLS}/serve-figures.py")
    module = importlib.util.module_from_spec(loaded)
    loaded.loader.exec_module(module)
    return module


servers = serving()
servers.SAMBA = servers.SAMBA.replace("interfaces = lo\n", CHANNELS)
LATE = f"no end in {LIMIT} seconds"
HEAD = f"user {servers.USER} {servers.PASSWORD}\nshare {servers.SHARE}\n"


def ran(program, path, limit=None):
    """seconds, and the most bytes of memory, of `run` on a script; what it refused first"""
    begun = time.monotonic()
    with open(path, "rb") as script, tempfile.TemporaryFile() as out:
        process = subprocess.Popen([program, "run", f"{servers.HOST}:{servers.PORT}"], stdin=script, stdout=out)
        late = threading.Timer(limit or 3600, process.kill)
        late.start()
        _, status, usage = os.wait4(process.pid, 0)
        late.cancel()
        taken = time.monotonic() - begun
        out.seek(0)
        bad = [line for line in out.read().decode().splitlines() if line.split()[0].isdigit() and not line.split()[1] == "ok"]
    if os.waitstatus_to_exitcode(status) == -9:
        return None, None, LATE
    if os.waitstatus_to_exitcode(status) or bad:
        return None, None, f"status {os.waitstatus_to_exitcode(status)}, {bad[0] if bad else ''}"
    return taken, usage.ru_maxrss * 1024, ""


def served(make, program, here, channels):
    """the same at a new server, which is tried again where the run didn't end"""
    for _ in range(TRIES if channels > 1 else 1):
        with make():
            took, held, why = ran(program, f"{here}/script", LIMIT if channels > 1 else None)
        if why != LATE:
            break
    return took, held, why


def script(path, sealed, channels, lines):
    with open(path, "w", encoding="ascii") as file:
        file.write(("" if sealed else "cipher none\n") + HEAD + f"channels {channels}\n")
        file.write("op create big rw - overwriteif plain\n")
        file.writelines(lines)
        file.write("op close 1\n")


def fills(count):
    return (f"op fill 1 {(number % 1000) * 4096} 4096 61\n" for number in range(count))


def store(make, sealed, program, here, size, conf):
    with open(f"{here}/put", "wb") as file:
        file.write(os.urandom(size << 20))
    with make():
        took = servers.smbclient(f"put {here}/put put", conf)
        print(f"  smbclient, a put of {size} MiB: {size / took:.1f} MiB a second", flush=True)
    for channels in (1, 4):
        with open(f"{here}/put", "rb") as file:
            script(f"{here}/script", sealed, channels,
                   (f"op write 1 {number << 20} {file.read(1 << 20).hex()}\n" for number in range(size)))
        took, _, why = served(make, program, here, channels)
        print(f"  run over {channels}: " + (why or f"{size / took:.1f} MiB a second"), flush=True)


def small(make, sealed, program, here, count):
    for channels in (1, 4):
        script(f"{here}/script", sealed, channels, fills(count))
        took, _, why = served(make, program, here, channels)
        print(f"  {count} writes of 4 KiB over {channels}: " + (why or f"{count / took:.0f} a second"), flush=True)


def long(make, sealed, program, here, count):
    for times in (1, 10):
        script(f"{here}/script", sealed, 1, fills(count * times))
        took, held, why = served(make, program, here, 1)
        print(f"  {count * times} writes: " + (why or f"{took / count / times * 1e6:.0f} microseconds each, {held >> 20} MiB"), flush=True)


def main():
    parser = argparse.ArgumentParser(usage=__doc__)
    parser.add_argument("--only", choices=("store", "small", "long"))
    parser.add_argument("--size", type=int, default=100)
    parser.add_argument("--operations", type=int, default=10000)
    parser.add_argument("program")
    said = parser.parse_args()
    program = os.path.abspath(said.program)
    with tempfile.TemporaryDirectory(dir="/dev/shm") as here:
        conf = f"{here}/smb.conf"
        with open(conf, "w", encoding="ascii") as file:
            file.write(servers.CLIENT)
        os.environ["SERVE_FIGURES_CONF"] = conf
        print(f"load {os.getloadavg()[0]:.1f}")
        for sealed in (False, True):
            for name, make in (("smb311", lambda: servers.Ours([program, "serve"], sealed)), ("Samba", lambda: servers.Samba(sealed))):
                print(f"{name}, {'sealed' if sealed else 'signed'}:", flush=True)
                if said.only in (None, "store"):
                    store(make, sealed, program, here, said.size, conf)
                if said.only in (None, "small"):
                    small(make, sealed, program, here, said.operations)
                if said.only in (None, "long"):
                    long(make, sealed, program, here, said.operations)


if __name__ == "__main__":
    sys.exit(main())
