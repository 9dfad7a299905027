#!/usr/bin/env python3
"""Tries from outside whether `smb311 serve` may be left running. One line a check, `ok NAME: what was seen`, `failed NAME: why`
or `skipped NAME: what is missing`; counts and seeds at the end. The status is 0 where none failed.

It wants Python 3.9 with the package `cryptography` on Linux, and of its loopback all addresses of 127.0.0.0/8. As root it also
mounts a small file system (disk-full) and begins a server as another user (no-threads-count); else both are tried in another way
or skipped. mandoc, strace and a C compiler are used where they are there. It wants some 4 GB of memory and 3 GB of disk
in the folder for temporary files (TMPDIR), and no other work on the machine, since some checks measure times. It takes some
minutes with --quick, and an hour and more without. Traffic stays on the loopback.

With --self or --client PORT USER PASSWORD SHARE no program is wanted: they try the tool itself, and its client on a server that runs,
Samba's for example.
"""
import argparse
import os
import signal
import sys
import time
import traceback

import hostile_compactions
import hostile_disk
import hostile_frames
import hostile_images
import hostile_kills
import hostile_links
import hostile_load
import hostile_model
import hostile_patience
import hostile_trial
import hostile_words
from hostile_client import Closed, Refused, Wrong
from hostile_server import CHECKS, Failed, Run, Skipped

PARTS = (hostile_disk, hostile_links, hostile_patience, hostile_load, hostile_words, hostile_images, hostile_kills,
         hostile_compactions, hostile_frames)


def in_order():
    """All checks, the long ones last."""
    return sorted(CHECKS, key=lambda kept: [part.__name__ for part in PARTS].index(kept[2].__module__))


def help_of_checks():
    return "checks, with their subjects:\n" + "\n".join(
        f"  {name:18} {subject:9} {' '.join(call.__doc__.split())}" for name, subject, call in in_order())


def tried(run, name, call):
    """One check with its line: True, False or None where it was skipped."""
    begun = time.monotonic()
    try:
        word, seen = "ok", call(run)
    except Skipped as why:
        word, seen = "skipped", why
    except (Failed, Refused, Closed, Wrong, TimeoutError) as why:
        word, seen = "failed", f"{why}" if isinstance(why, Failed) else f"{why!r} at line {line_of(why)}"
    except Exception:  # a slip of the tool is told as one, and the other checks go on
        word, seen = "failed", "the tool itself: " + " ".join(traceback.format_exc().split()[-60:])
    finally:
        run.end_all()
    print(f"{word} {name}: {' '.join(str(seen).split())} [{time.monotonic() - begun:.1f} s]", flush=True)
    return {"ok": True, "failed": False, "skipped": None}[word]


def line_of(error):
    """The line of the check where an error came up."""
    frames = [f"{os.path.basename(frame.filename)}:{frame.lineno}" for frame in traceback.extract_tb(error.__traceback__)]
    return " < ".join([frame for frame in frames if "hostile_client" not in frame][-1:-4:-1])


def asked():
    words = argparse.ArgumentParser(description=__doc__, epilog=help_of_checks(), formatter_class=argparse.RawDescriptionHelpFormatter)
    words.add_argument("program", nargs="?", help="the program, which is called as PROGRAM serve ADDRESS")
    words.add_argument("--only", default="", metavar="NAME,..", help="these checks alone")
    words.add_argument("--without", default="", metavar="NAME,..", help="all but these")
    words.add_argument("--seed", type=int, default=1, help="of what is drawn (1)")
    words.add_argument("--quick", action="store_true", help="smaller counts")
    words.add_argument("--client", nargs=4, metavar=("PORT", "USER", "PASSWORD", "SHARE"), help="try the tool's own client")
    words.add_argument("--self", action="store_true",
                       help="try the tool itself: keys on published vectors, images of a record, kills of a server in memory")
    told = words.parse_args()
    names = [name for name, _, _ in CHECKS]
    strange = [name for name in f"{told.only},{told.without}".split(",") if name and name not in names]
    if strange:
        words.error(f"no such check: {', '.join(strange)}")
    if not (told.program or told.client or told.self):
        words.error("no program")
    return told


def chosen(told):
    only, without = told.only.split(",") if told.only else [], told.without.split(",")
    return [(name, call) for name, _, call in in_order() if (not only or name in only) and name not in without]


def main():
    told = asked()
    if told.self:
        print(hostile_trial.vectors())
        print(hostile_trial.images())
        print(hostile_model.kills())
    if told.client:
        print(hostile_trial.client(*told.client))
    if not told.program:
        return
    run, results = Run(os.path.abspath(told.program), told.seed, told.quick), {True: 0, False: 0, None: 0}
    if not os.access(run.program, os.X_OK):
        sys.exit(f"{told.program} isn't a program")
    signal.signal(signal.SIGTERM, lambda *_: sys.exit("ended by a signal"))  # the servers are ended then too
    try:
        for name, call in chosen(told):
            results[tried(run, name, call)] += 1
    finally:
        run.close()
    counts = ", ".join(f"{count} {name}" for name, count in run.counts.items())
    print(f"seed {told.seed}, {'quick' if told.quick else 'full'} counts: {counts}")
    print(f"{results[True]} checks passed, {results[False]} failed, {results[None]} skipped")
    sys.exit(1 if results[False] else 0)


main()
