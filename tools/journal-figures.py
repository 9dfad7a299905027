#!/usr/bin/env python3
"""Builds and runs tools/journal-figures.txt, a program, over a copy of the crates.

usage: tools/journal-figures.py FOLDER

FOLDER is made, on the disk that is to be measured. The program isn't proved: `rt try` runs it.
"""
import os, shutil, subprocess, sys


def main():
    if len(sys.argv) != 2 or sys.argv[1].startswith("-"):
        return __doc__
    folder = os.path.abspath(sys.argv[1])
    top = os.path.dirname(os.path.dirname(os.path.abspath(__file__)))
    os.makedirs(folder)
    lines = [line for line in open(f"{top}/crates.txt", encoding="utf-8") if ":" in line and line[0] != "#"]
    below = {line.split(":")[0].split()[0]: line for line in lines}
    names = ["journal"]
    for name in names:
        names += [it for it in below[name].split(":")[1].split() if it in below and it not in names]
        shutil.copytree(f"{top}/crates/{name}", f"{folder}/crates/{name}")
    lines = [line for name, line in below.items() if name in names]
    lines.append("journal_figures: base_machine base_outside wire_bytes journal anyhow\n")
    with open(f"{folder}/crates.txt", "w", encoding="utf-8") as out:
        out.writelines(lines)
    shutil.copy(f"{top}/HANDLES", folder)
    os.makedirs(f"{folder}/crates/journal_figures/src")
    shutil.copy(f"{top}/tools/journal-figures.txt", f"{folder}/crates/journal_figures/src/main.rt")
    return subprocess.run(["rt", "try"], cwd=f"{folder}/crates/journal_figures").returncode


sys.exit(main())
