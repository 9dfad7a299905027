"""Parts of the tables of a program over rows: several scripts write one file, each the lines from its own head on."""
import os

CRATES = os.path.join(os.path.dirname(os.path.dirname(os.path.abspath(__file__))), "crates")
HEAD = "# Written by tools/"


def parts(path):
    """the lines of a file by their heads, in their order; what stands in front of the first one has the head None"""
    found = {None: []}
    head = None
    with open(path, encoding="utf-8") as file:
        for line in file.read().splitlines():
            if line.startswith(HEAD):
                head = line
                found[head] = []
            else:
                found[head].append(line)
    return found


def put(crate, name, script, lines):
    """puts the lines in place of those that this script wrote before"""
    path = os.path.join(CRATES, crate, name)
    found = parts(path)
    found["%s%s." % (HEAD, script)] = lines
    with open(path, "w", encoding="utf-8") as out:
        for head, those in found.items():
            out.writelines(line + "\n" for line in ([head] if head else []) + those)
