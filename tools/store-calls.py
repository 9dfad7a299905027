#!/usr/bin/env python3
"""Writes random calls on a store of files, each with its answer by a plain model: a dict of paths and byte strings.
They become the rows `file ..` of crates/test_rows/stdin.

usage: tools/store-calls.py SEED COUNT [WORD..]       leaves out the calls of each WORD, of those that change nothing

A line is a call, ` = ` and its answer. An answer of eight hexadecimal digits alone is a status (MS-ERREF); a refused call
changes nothing.

    new ROOM = ok                              the first line: a store with nothing in it but the root, number 0
    find PATH = NUMBER | none                  PATH `-` is the root
    make PATH file|dir ATTRIBUTES NOW = NUMBER
    write NUMBER AT BYTES NOW = ok             BYTES are hexadecimal digits, `-` for none, or `COUNT*FIRST`: byte i is (7 i + FIRST) mod 256
    end NUMBER LENGTH NOW = ok
    rename NUMBER PATH keep|replace = ok
    remove NUMBER = ok
    read NUMBER AT LENGTH = BYTES              `-` for none, above 24 bytes `COUNT#SUM`
    list NUMBER PATTERN = NAME/NUMBER ..       `-` is the empty pattern
    more NUMBER PATTERN LAST CLASS ROOM one|all = none | some NAME/NUMBER ..
                                               what fits behind the name LAST (`+` for none) in an information class; `none` where no name is
                                               accepted there, and `some` alone where the first doesn't fit
    below NUMBER = NUMBER ..                   all that stands below a directory, by path in upper case; `none` where nothing does
    path NUMBER = PATH
    info NUMBER = file|dir LENGTH marked|kept CREATED ACCESSED WRITTEN CHANGED ATTRIBUTES
    basic NUMBER CREATED ACCESSED WRITTEN CHANGED ATTRIBUTES = ok
    mark NUMBER marked|kept = ok
    try make .. | write .. | rename .. = ok    as the call, but given up when its memory is taken: nothing changes
    gone NUMBER back|away = ok                 a file or an empty directory is taken out, and put back or dropped
    coded PATH = NUMBER                        makes a file; the path is hexadecimal digits
    holds NUMBER AT BYTES = same | other       whether the file holds these bytes there
    used = BYTES        next = NUMBER        room ROOM = ok
    held = BYTES                               what the pieces of all files have, without the zeros between them
    files = COUNT#SUM                          no directories, in byte order of paths; the SUM is over, for each, its path's UTF-8 bytes,
                                               a zero byte, its length in 8 bytes and its bytes, one after the other

The SUM of bytes is the sum of (i + 1) times byte i, modulo 2^32.
"""
import copy
import random
import sys

import vector_parts

INVALID, NAME_INVALID, NO_PATH, COLLISION = 0xC000000D, 0xC0000033, 0xC000003A, 0xC0000035
DENIED, NOT_EMPTY, FULL, PAST_END, NO_FILE = 0xC0000022, 0xC0000101, 0xC000007F, 0xC0000011, 0xC000000F

# bytes of an entry beside its name, by information class (MS-FSCC 2.4)
PARTS = {1: 64, 2: 68, 3: 94, 12: 12, 37: 104, 38: 80}
ROOT = 0


class Refused(Exception):
    def __init__(self, status):
        super().__init__(f"{status:08x}")


def upper(text):
    return "".join(chr(ord(c) - 32) if "a" <= c <= "z" else c for c in text)


def parent_of(path):
    return path.rpartition("\\")[0]


def is_below(directory, path):
    return path != "" if directory == "" else upper(path).startswith(upper(directory) + "\\")


def judge_name(path):
    """The form of a path: what MS-SMB2 2.2.13 and MS-FSCC 2.1.5 ask of it."""
    if path == "":
        return
    if path[0] == "\\":
        raise Refused(INVALID)
    parts = path.split("\\")
    if (
        any(part in ("", ".", "..") for part in parts)
        or any(c in '"*/:<>?|' or c < " " for c in path)
        or len(path.encode("utf-16-le")) > 2048
    ):
        raise Refused(NAME_INVALID)


def accepts(pattern, name):
    """`*` stands for any characters, `?` for one; letters by ASCII case; an empty pattern counts as `*`."""
    if pattern == "":
        return True

    def at(p, n):
        if p == len(pattern):
            return n == len(name)
        if pattern[p] == "*":
            return any(at(p + 1, m) for m in range(n, len(name) + 1))
        return n < len(name) and (pattern[p] == "?" or upper(pattern[p]) == upper(name[n])) and at(p + 1, n + 1)

    return at(0, 0)


class File:
    def __init__(self, path, directory, attributes, now):
        self.path, self.directory, self.marked = path, directory, False
        self.bytes, self.basic = b"", [now, now, now, now, attributes]
        self.written = b""  # for each byte 1 where it was written since the file had it, else 0


class Store:
    """Files by number; a path is found by comparing it with every file's."""

    def __init__(self, room):
        self.room, self.next, self.files = room, 1, {ROOT: File("", True, 0, 0)}

    def find(self, path):
        return next((number for number, file in self.files.items() if upper(file.path) == upper(path)), None)

    def used(self):
        return sum(len(file.bytes) for file in self.files.values())

    def held(self):
        return sum(file.written.count(1) for file in self.files.values())

    def has_parent(self, path):
        found = self.find(parent_of(path))
        return found is not None and self.files[found].directory

    def make(self, path, directory, attributes, now):
        judge_name(path)
        if not self.has_parent(path):
            raise Refused(NO_PATH)
        if self.find(path) is not None:
            raise Refused(COLLISION)
        number, self.next = self.next, self.next + 1
        self.files[number] = File(path, directory, attributes, now)
        return number

    def resized(self, number, data, written, now):
        """The file's bytes become these, where they fit."""
        file = self.files[number]
        if len(data) > len(file.bytes) and self.used() - len(file.bytes) + len(data) > self.room:
            raise Refused(FULL)
        file.bytes, file.written = data, written
        file.basic[2] = file.basic[3] = now

    def write(self, number, at, data, now):
        if not data:
            return
        old = self.files[number].bytes
        if self.used() - len(old) + max(len(old), at + len(data)) > self.room and at + len(data) > len(old):
            raise Refused(FULL)
        marks, end = self.files[number].written, at + len(data)
        written = marks[:at].ljust(at, b"\0") + b"\1" * len(data) + marks[end:]
        self.resized(number, old[:at].ljust(at, b"\0") + data + old[end:], written, now)

    def set_end(self, number, length, now):
        old = self.files[number].bytes
        if length > len(old) and self.used() - len(old) + length > self.room:
            raise Refused(FULL)
        self.resized(number, old[:length].ljust(length, b"\0"), self.files[number].written[:length].ljust(length, b"\0"), now)

    def rename(self, number, to, replace):
        file = self.files[number]
        judge_name(to)
        if number == ROOT:
            raise Refused(DENIED)
        if file.directory and is_below(file.path, to):
            raise Refused(INVALID)
        if not self.has_parent(to):
            raise Refused(NO_PATH)
        target = self.find(to)
        if target is not None and not replace:
            raise Refused(COLLISION)
        if target is not None and target != number:
            if self.files[target].directory:
                raise Refused(DENIED)
            del self.files[target]
        self.moved(file.path, to)

    def moved(self, old, to):
        for file in self.files.values():
            if upper(file.path) == upper(old):
                file.path = to
            elif is_below(old, file.path):
                file.path = to + file.path[len(old) :]

    def remove(self, number):
        file = self.files[number]
        if number == ROOT:
            raise Refused(DENIED)
        if file.directory and any(is_below(file.path, other.path) for other in self.files.values()):
            raise Refused(NOT_EMPTY)
        del self.files[number]

    def read(self, number, at, length):
        data = self.files[number].bytes
        if length and at >= len(data):
            raise Refused(PAST_END)
        return data[at : at + length]

    def list(self, number, pattern):
        path = self.files[number].path
        inside = [
            (upper(name).encode(), name, other)
            for other, file in self.files.items()
            if other != ROOT and upper(parent_of(file.path)) == upper(path)
            for name in [file.path.rpartition("\\")[2]]
        ]
        names = [(".", number), ("..", self.find(parent_of(path)))] + [(name, other) for _, name, other in sorted(inside)]
        return [(name, other) for name, other in names if accepts(pattern, name)]

    def list_from(self, number, pattern, last, kind, room, single):
        """The wanted names behind the last one, and those of them that fit."""

        def place(name):
            return (0, b"") if name == "." else (1, b"") if name == ".." else (2, upper(name).encode())

        wanted = [entry for entry in self.list(number, pattern) if last is None or place(last) < place(entry[0])]
        fit, at = [], 0
        for name, other in wanted:
            at = (at + 7) // 8 * 8 + PARTS[kind] + len(name.encode("utf-16-le"))
            if at > room:
                break
            fit.append((name, other))
        return wanted, fit[:1] if single else fit

    def below(self, number):
        path = self.files[number].path
        inside = [(upper(file.path).encode(), other) for other, file in self.files.items() if is_below(path, file.path)]
        return [other for _, other in sorted(inside)]

    def all_files(self):
        """(path, bytes) of each file, in byte order of paths."""
        return sorted((file.path.encode(), file.bytes) for file in self.files.values() if not file.directory)


# ---- calls with answers that were worked by hand

WORKED = r"""
# Names (MS-SMB2 3.3.5.9, MS-FSCC 2.1.5). A path that holds a space or a control character is coded.
new 0 = ok
make d dir 0 1 = 1
make a file 0 1 = 2
make A file 0 1 = c0000035
make - file 0 1 = c0000035
coded 6220632e64 = 3
make ... file 0 1 = 4
make é file 0 1 = 5
make É file 0 1 = 6
coded 787f = 7
coded f0908080 = 8
make d\x file 0 1 = 9
make D\X file 0 1 = c0000035
make none\x file 0 1 = c000003a
make a\x file 0 1 = c000003a
make \x file 0 1 = c000000d
make \x* file 0 1 = c000000d
make \ file 0 1 = c000000d
make . file 0 1 = c0000033
make .. file 0 1 = c0000033
make d\.. file 0 1 = c0000033
make d\\x file 0 1 = c0000033
make d\ file 0 1 = c0000033
make " file 0 1 = c0000033
make x* file 0 1 = c0000033
make x/y file 0 1 = c0000033
make x:y file 0 1 = c0000033
make < file 0 1 = c0000033
make > file 0 1 = c0000033
make x? file 0 1 = c0000033
make | file 0 1 = c0000033
coded 1f = c0000033
coded 7800 = c0000033
make none\x* file 0 1 = c0000033
# Renames by kind (MS-FSA 2.1.5.15.11).
new 0 = ok
make d dir 0 1 = 1
make d\x file 0 1 = 2
make a file 0 1 = 3
make e dir 0 1 = 4
rename 0 r keep = c0000022
rename 3 \a keep = c000000d
rename 3 a* keep = c0000033
rename 1 d\e replace = c000000d
rename 1 D\x\y replace = c000000d
rename 3 none\a replace = c000003a
rename 3 a\a replace = c000003a
rename 3 d\X keep = c0000035
rename 3 A keep = c0000035
rename 3 - keep = c0000035
rename 3 e replace = c0000022
rename 3 - replace = c0000022
rename 1 e replace = c0000022
rename 3 A replace = ok
rename 3 d\X replace = ok
rename 1 e\d keep = ok
path 3 = e\d\X
find d = none
remove 4 = c0000101
# Whether a write changes anything.
new 10 = ok
make a file 0 1 = 1
holds 1 0 - = same
holds 1 0 78 = other
# What one byte far away holds.
new 268435456 = ok
make f file 0 1 = 1
write 1 200000000 78 2 = ok
held = 1
read 1 199999999 2 = 0078
remove 1 = ok
held = 0
# Calls at random.
""".strip()


# ---- calls at random


def sum_of(data):
    return sum((i + 1) * b for i, b in enumerate(data) if b) % 2**32


def bytes_of(count, first):
    return bytes((7 * i + first) % 256 for i in range(count))


def shown_bytes(data):
    if len(data) > 24:
        return f"{len(data)}#{sum_of(data)}"
    return data.hex() or "-"


def shown(text):
    return text or "-"


class Caller:
    NAMES = ["a", "b", "A", "Bb", "c.txt", "C.TXT", "d_", "dZ", "dé", "d\U0001F600x", "long-name-of-a-file", "[", "Z", "zz", "_"]
    BAD = ["x\\", "\\x", "\\*", "x\\\\y", "a*", "a?b", "a:b", ".", "..", "a\\..", "a|", "<", 'q"', "a/b", "n" * 1025, "\U0001F600" * 513]
    PATTERNS = ["*", "*", "", "?", "??", "a*", "*.TXT", "*.*", "d?", "D?x", "*z*", "c.txt", "no", "."]

    def __init__(self, seed, room):
        self.chance, self.store, self.now = random.Random(seed), Store(room), 1000

    def a_path(self):
        if self.chance.random() < 0.03:
            return self.chance.choice(self.BAD)
        path = self.chance.choice(self.NAMES)
        directories = [file.path for file in self.store.files.values() if file.directory and file.path and file.path.count("\\") < 6]
        kind = self.chance.random()
        if directories and kind < 0.7:
            path = self.chance.choice(directories) + "\\" + path
        elif kind < 0.76:
            path = self.chance.choice(self.NAMES) + "\\" + path
        kind = self.chance.random()
        return path.upper() if kind < 0.15 and path.isascii() else path.lower() if kind < 0.3 and path.isascii() else path

    def a_number(self, directory=None):
        numbers = [number for number, file in self.store.files.items() if directory is None or file.directory == directory]
        return self.chance.choice(numbers) if numbers else None

    def a_place(self, length):
        kind = self.chance.random()
        if kind < 0.6:
            return self.chance.randrange(length + 20)
        return self.chance.choice([0, length, self.chance.randrange(4000), self.chance.randrange(40000), 2**40 if kind > 0.97 else 0])

    def call_find(self):
        path = self.a_path() if self.chance.random() < 0.95 else ""
        if self.chance.random() < 0.5:
            path = self.store.files[self.a_number()].path.lower()
        found = self.store.find(path)
        return f"find {shown(path)}", "none" if found is None else found

    def call_make(self):
        path, directory, attributes = self.a_path(), self.chance.random() < 0.35, self.chance.choice([0, 0x20, 0x80, 2])
        if self.chance.random() < 0.01:
            path = ""
        return f"make {shown(path)} {'dir' if directory else 'file'} {attributes} {self.now}", lambda: self.store.make(
            path, directory, attributes, self.now
        )

    def call_write(self):
        number = self.a_number(False)
        if number is None:
            return self.call_make()
        at = self.a_place(len(self.store.files[number].bytes))
        first, kind = self.chance.randrange(256), self.chance.random()
        count = (
            self.chance.randrange(0, 9)
            if kind < 0.5
            else self.chance.randrange(9, 600)
            if kind < 0.95
            else self.chance.randrange(600, 9000)
        )
        data = bytes_of(count, first)
        words = f"{count}*{first}" if count > 8 else data.hex() or "-"
        return f"write {number} {at} {words} {self.now}", lambda: self.store.write(number, at, data, self.now)

    def call_end(self):
        number = self.a_number(False)
        if number is None:
            return self.call_make()
        length = self.a_place(len(self.store.files[number].bytes))
        return f"end {number} {length} {self.now}", lambda: self.store.set_end(number, length, self.now)

    def call_rename(self):
        number, path, replace = self.a_number(), self.a_path(), self.chance.random() < 0.5
        kind = self.chance.random()
        if kind < 0.1:
            path = self.store.files[number].path.upper() if self.store.files[number].path.isascii() else path
        elif kind < 0.12:
            path = ""
        elif kind < 0.2:
            path = self.store.files[number].path + "\\below"
        return f"rename {number} {shown(path)} {'replace' if replace else 'keep'}", lambda: self.store.rename(number, path, replace)

    def call_remove(self):
        number = self.a_number()
        return f"remove {number}", lambda: self.store.remove(number)

    def call_read(self):
        number = self.a_number(False)
        if number is None:
            return self.call_find()
        at = self.a_place(len(self.store.files[number].bytes))
        length = self.chance.choice([0, 1, 8, 24, 100, 1000, 65536])
        return f"read {number} {at} {length}", lambda: shown_bytes(self.store.read(number, at, length))

    def call_list(self):
        number, pattern = self.a_number(True), self.chance.choice(self.PATTERNS)
        names = self.store.list(number, pattern)
        return f"list {number} {shown(pattern)}", " ".join(f"{name}/{other}" for name, other in names) or f"{NO_FILE:08x}"

    def call_more(self):
        number, pattern = self.a_number(True), self.chance.choice(self.PATTERNS)
        names = [name for name, _ in self.store.list(number, "*")]
        last = self.chance.choice([None, *names, *names, "A", "b!", "~"])
        kind, room = self.chance.choice(list(PARTS)), self.chance.choice([0, 100, 200, 300, 1000, 65536])
        single = self.chance.random() < 0.2
        wanted, fit = self.store.list_from(number, pattern, last, kind, room, single)
        words = f"more {number} {shown(pattern)} {'+' if last is None else last} {kind} {room} {'one' if single else 'all'}"
        return words, " ".join(["some"] + [f"{name}/{other}" for name, other in fit]) if wanted else "none"

    def call_below(self):
        number = self.a_number(True)
        return f"below {number}", " ".join(map(str, self.store.below(number))) or "none"

    def call_try(self):
        """A call that is given up before it acts: it is refused as ever, and changes nothing."""
        words, act = self.chance.choice([self.call_make, self.call_rename, self.call_rename, self.call_write])()
        if not callable(act):
            return words, act
        store = copy.deepcopy(self.store)

        def tried():
            try:
                act()
            finally:
                self.store.__dict__.update(store.__dict__)

        return f"try {words}", tried

    def call_gone(self):
        """Files and empty directories that are taken out; those that come back are as they were."""
        files = self.store.files
        free = [
            number
            for number, file in files.items()
            if number != ROOT and not any(is_below(file.path, other.path) for other in files.values() if file.directory)
        ]
        if not free:
            return self.call_used()
        number, back = self.chance.choice(free), self.chance.random() < 0.8
        return f"gone {number} {'back' if back else 'away'}", lambda: None if back else self.store.remove(number)

    def call_path(self):
        number = self.a_number()
        return f"path {number}", shown(self.store.files[number].path)

    def call_info(self):
        number = self.a_number()
        file = self.store.files[number]
        return f"info {number}", " ".join(
            map(str, ["dir" if file.directory else "file", len(file.bytes), "marked" if file.marked else "kept", *file.basic])
        )

    def call_basic(self):
        number = self.a_number()
        basic = [self.chance.randrange(2 ** self.chance.choice([4, 20, 64])) for _ in range(4)] + [
            self.chance.choice([0, 0x20, 0x80, 0x2022])
        ]

        def act():
            self.store.files[number].basic = basic

        return f"basic {number} {' '.join(map(str, basic))}", act

    def call_mark(self):
        number, flag = self.a_number(), self.chance.random() < 0.5
        if number == ROOT:
            return self.call_used()

        def act():
            self.store.files[number].marked = flag

        return f"mark {number} {'marked' if flag else 'kept'}", act

    def call_used(self):
        return ("used", self.store.used()) if self.chance.random() < 0.6 else ("next", self.store.next)

    def call_room(self):
        room = self.chance.choice([0, 20000, 60000, 120000, 120000, 250000])

        def act():
            self.store.room = room

        return f"room {room}", act

    def call_files(self):
        out = b""
        files = self.store.all_files()
        for path, data in files:
            out += path + b"\0" + len(data).to_bytes(8, "little") + data
        return "files", f"{len(files)}#{sum_of(out)}"

    def weights(self):
        """More removals where there are many files."""
        many = len(self.store.files) > 70
        return {
            self.call_find: 9,
            self.call_make: 8 if many else 14,
            self.call_write: 17,
            self.call_end: 6,
            self.call_rename: 9,
            self.call_remove: 11 if many else 5,
            self.call_read: 12,
            self.call_list: 2,
            self.call_more: 4,
            self.call_below: 1,
            self.call_try: 3,
            self.call_gone: 2,
            self.call_path: 4,
            self.call_info: 9,
            self.call_basic: 2,
            self.call_mark: 3,
            self.call_used: 3,
            self.call_room: 0.6,
            self.call_files: 0.4,
        }

    def lines(self, count):
        """So many calls, and behind each fiftieth what is held."""
        for place in range(1, count + 1):
            yield self.line()
            if place % 50 == 0:
                yield f"held = {self.store.held()}"

    def line(self):
        self.now += self.chance.randrange(1, 5)
        weights = self.weights()
        words, answer = self.chance.choices(list(weights), list(weights.values()))[0]()
        if callable(answer):
            try:
                answer = answer()
            except Refused as refused:
                answer = str(refused)
            answer = "ok" if answer is None else answer
        return f"{words} = {answer}"


def main():
    if len(sys.argv) < 3:
        sys.exit(__doc__)
    seed, count, left_out = int(sys.argv[1]), int(sys.argv[2]), sys.argv[3:]
    caller = Caller(seed, 120000)
    lines = ["new 120000 = ok", *caller.lines(count - 2), "files = " + caller.call_files()[1]]
    lines = [line for line in lines if line.split(" ")[0] not in left_out]
    rows = [line if line.startswith("#") else "file " + line for line in [*WORKED.split("\n"), *lines] if line]
    vector_parts.put("test_rows", "stdin", " ".join(["store-calls.py", *sys.argv[1:]]), rows)
    return 0


if __name__ == "__main__":
    sys.exit(main())
