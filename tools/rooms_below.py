"""The rooms of crates.txt, what is below one, copies of them, and how many provers this machine holds."""
import os
import re
import shutil

TOP = os.path.dirname(os.path.dirname(os.path.abspath(__file__)))
# what a prover takes, in bytes
EACH = 7 << 29


def lines_of():
    """the lines of crates.txt by their rooms, and the rooms that each names"""
    lines, named = {}, {}
    with open(os.path.join(TOP, "crates.txt"), encoding="utf-8") as file:
        for line in file:
            head, colon, names = line.split("#")[0].partition(":")
            if colon:
                room = head.split()[0]
                lines[room], named[room] = line, names.split()
    return lines, {room: [name for name in names if name in lines] for room, names in named.items()}


def all_below(room, rooms):
    """the rooms that one stands on, lowest first"""
    found = []

    def visit(name):
        for lower in rooms[name]:
            visit(lower)
            if lower not in found:
                found.append(lower)

    visit(room)
    return found


def memory():
    """the bytes that are free, or the limit of the control group where that is less"""
    with open("/proc/meminfo", encoding="ascii") as file:
        free = int(re.search(r"MemAvailable:\s+(\d+)", file.read())[1]) << 10
    for path in ("/sys/fs/cgroup/memory.max", "/sys/fs/cgroup/memory/memory.limit_in_bytes"):
        try:
            with open(path, encoding="ascii") as file:
                free = min(free, int(file.read()))
        except (OSError, ValueError):
            pass
    return free


def provers():
    """as many as there are processors, and as memory holds"""
    return max(1, min(len(os.sched_getaffinity(0)), memory() // EACH))


def folder(room, top=TOP):
    return os.path.join(top, "crates", room)


def copied(top, names, lines):
    """A repository of these rooms alone, without what was built in them."""
    # rt takes a folder with .git for the top of a repository
    os.makedirs(os.path.join(top, ".git"))
    for name in names:
        shutil.copytree(folder(name), folder(name, top), ignore=shutil.ignore_patterns("out"))
    with open(os.path.join(top, "crates.txt"), "w", encoding="utf-8") as file:
        file.writelines(lines[name] for name in names)
    shutil.copy(os.path.join(TOP, "HANDLES"), top)


def linked(one, other):
    """Gives the files of a folder a second name, in place of what stood there: rt never writes into a file that it has made."""
    if os.path.isdir(one):
        shutil.rmtree(other, ignore_errors=True)
        shutil.copytree(one, other, copy_function=os.link)
