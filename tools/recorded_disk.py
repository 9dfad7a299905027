"""A library that is loaded in front of the C library and writes down what a process does to its files smb311.*, or refuses some of its
calls, and the files as a loss of power may have left them at a moment of that.

It needs a C compiler (`cc`). A record stands before its call, so a call is no later than its record; that a sync came back has a record of
its own. A call belongs to the journal (`j`), the draft in which it is written anew (`d`), the lock (`l`), a copy of what was cut (`c`) or
the folder (`f`). Which call was refused is told in a file of its own."""
import os
import struct
import subprocess

SECTOR = 512  # bytes that a disk writes as a whole, or tears
DRAFT = b"smb311.draft"

RECORDING = r"""
#define _GNU_SOURCE
#include <dlfcn.h>
#include <errno.h>
#include <fcntl.h>
#include <pthread.h>
#include <stdarg.h>
#include <stdint.h>
#include <stdio.h>
#include <stdlib.h>
#include <string.h>
#include <sys/stat.h>
#include <unistd.h>
#define FILES 65536
static int trace = -1;
static uint64_t tracked[FILES];
static char folder[FILES], kinds[FILES];
static pthread_mutex_t turn = PTHREAD_MUTEX_INITIALIZER;
static ssize_t (*writes)(int, const void *, size_t);
static long calls, refused, last;
#define NEXT(name) static __typeof__(&name) next; if (!next) next = (__typeof__(&name))dlsym(RTLD_NEXT, #name)
__attribute__((constructor)) static void begin(void) {
    writes = (__typeof__(writes))dlsym(RTLD_NEXT, "write");
    refused = getenv("REFUSED_CALL") ? atol(getenv("REFUSED_CALL")) : 0;
    last = getenv("REFUSED_LAST") ? atol(getenv("REFUSED_LAST")) : refused;
    if (getenv("RECORDED")) trace = open(getenv("RECORDED"), O_WRONLY | O_CREAT | O_APPEND | O_CLOEXEC, 0600);
}
/* whether this call is refused: the one of that number, and those up to the last one, of all calls or of those on files of the kinds
   that REFUSED_ON names */
static int fails(const char *name, char kind) {
    const char *only = getenv("REFUSED_ON");
    char told[64];
    if (!refused || (only && !strchr(only, kind))) return 0;
    long call = __atomic_add_fetch(&calls, 1, __ATOMIC_SEQ_CST);
    if (call < refused || last < call) return 0;
    int file = open(getenv("REFUSED_TOLD"), O_WRONLY | O_CREAT | O_APPEND | O_CLOEXEC, 0600);
    if (writes(file, told, snprintf(told, sizeof told, "%s %c\n", name, kind)) <= 0) _exit(99);
    close(file);
    return errno = atoi(getenv("REFUSED_AS"));
}
/* a write of zeros alone is no entry of a journal */
static const char *named(const void *bytes, size_t count) {
    const char *at = bytes;
    return count < 4096 || *at || memcmp(at, at + 1, count - 1) ? "write" : "zeros";
}
static void put(const void *bytes, size_t count) {
    const char *at = bytes;
    while (count) { ssize_t done = writes(trace, at, count); if (done <= 0) _exit(99); at += done; count -= done; }
}
/* a kind, the file's number, a place, a count and as many bytes */
static void record(char kind, uint64_t file, uint64_t place, const void *bytes, uint64_t count, int has) {
    char *whole = malloc(25 + (has ? count : 0));
    if (trace < 0 || !whole) { free(whole); return; }
    whole[0] = kind;
    memcpy(whole + 1, &file, 8); memcpy(whole + 9, &place, 8); memcpy(whole + 17, &count, 8);
    if (has) memcpy(whole + 25, bytes, count);
    pthread_mutex_lock(&turn); put(whole, 25 + (has ? count : 0)); pthread_mutex_unlock(&turn);
    free(whole);
}
static const char *leaf(const char *path) { const char *slash = strrchr(path, '/'); return slash ? slash + 1 : path; }
static int ours(const char *path) { return strncmp(leaf(path), "smb311.", 7) == 0; }
static char kind_of(const char *path) { return ours(path) ? leaf(path)[7] : 'f'; }
static int opened(int file, const char *path, int flags, int fresh) {
    struct stat about;
    if (file < 0 || file >= FILES) return file;
    tracked[file] = 0; folder[file] = strcmp(path, ".") == 0;
    if (!ours(path) || fstat(file, &about)) return file;
    tracked[file] = about.st_ino; kinds[file] = kind_of(path);
    if (fresh) record('n', about.st_ino, 0, leaf(path), strlen(leaf(path)), 1);
    else if (flags & O_TRUNC) record('t', about.st_ino, 0, 0, 0, 0);
    return file;
}
#define MODE mode_t mode = 0; if (flags & (O_CREAT | O_TMPFILE)) { va_list more; va_start(more, flags); mode = va_arg(more, mode_t); va_end(more); }
int open(const char *path, int flags, ...) { MODE NEXT(open); int fresh = access(path, F_OK); if (ours(path) && fails("open", kind_of(path))) return -1; return opened(next(path, flags, mode), path, flags, fresh); }
int open64(const char *path, int flags, ...) { MODE NEXT(open64); int fresh = access(path, F_OK); if (ours(path) && fails("open", kind_of(path))) return -1; return opened(next(path, flags, mode), path, flags, fresh); }
int openat(int at, const char *path, int flags, ...) { MODE NEXT(openat); int fresh = faccessat(at, path, F_OK, 0); if (ours(path) && fails("open", kind_of(path))) return -1; return opened(next(at, path, flags, mode), path, flags, fresh); }
int openat64(int at, const char *path, int flags, ...) { MODE NEXT(openat64); int fresh = faccessat(at, path, F_OK, 0); if (ours(path) && fails("open", kind_of(path))) return -1; return opened(next(at, path, flags, mode), path, flags, fresh); }
#define OURS(file) ((file) >= 0 && (file) < FILES && tracked[file])
ssize_t write(int file, const void *bytes, size_t count) {
    if (OURS(file) && fails(named(bytes, count), kinds[file])) return -1;
    if (OURS(file)) record('w', tracked[file], lseek(file, 0, SEEK_CUR), bytes, count, 1);
    return writes(file, bytes, count);
}
ssize_t pwrite(int file, const void *bytes, size_t count, off_t at) { NEXT(pwrite); if (OURS(file) && fails(named(bytes, count), kinds[file])) return -1; if (OURS(file)) record('w', tracked[file], at, bytes, count, 1); return next(file, bytes, count, at); }
ssize_t pwrite64(int file, const void *bytes, size_t count, off64_t at) { NEXT(pwrite64); if (OURS(file) && fails(named(bytes, count), kinds[file])) return -1; if (OURS(file)) record('w', tracked[file], at, bytes, count, 1); return next(file, bytes, count, at); }
int ftruncate(int file, off_t length) { NEXT(ftruncate); if (OURS(file) && fails("cut", kinds[file])) return -1; if (OURS(file)) record('t', tracked[file], length, 0, 0, 0); return next(file, length); }
int ftruncate64(int file, off64_t length) { NEXT(ftruncate64); if (OURS(file) && fails("cut", kinds[file])) return -1; if (OURS(file)) record('t', tracked[file], length, 0, 0, 0); return next(file, length); }
static int synced(int (*next)(int), int file) {
    uint64_t number = OURS(file) ? tracked[file] : file >= 0 && file < FILES && folder[file] ? 0 : UINT64_MAX;
    if (number != UINT64_MAX && fails("sync", number ? kinds[file] : 'f')) return -1;
    if (number != UINT64_MAX) record('s', number, 0, 0, 0, 0);
    int done = next(file);
    if (number != UINT64_MAX && !done) record('e', number, 0, 0, 0, 0);
    return done;
}
int fsync(int file) { NEXT(fsync); return synced(next, file); }
int fdatasync(int file) { NEXT(fdatasync); return synced(next, file); }
int close(int file) { NEXT(close); if (file >= 0 && file < FILES) tracked[file] = folder[file] = 0; return next(file); }
static void moved(const char *old, const char *new) {
    char both[512];
    struct stat about;
    size_t first = strlen(leaf(old)), second = strlen(leaf(new));
    if (!ours(old) || first + second + 1 > sizeof both) return;
    memcpy(both, leaf(old), first + 1); memcpy(both + first + 1, leaf(new), second);
    record('r', 0, 0, both, first + 1 + second, 1);
    for (int file = 0; !stat(old, &about) && file < FILES; file++) if (tracked[file] == about.st_ino) kinds[file] = kind_of(new);
}
int rename(const char *old, const char *new) { NEXT(rename); if (ours(old) && fails("rename", kind_of(old))) return -1; moved(old, new); return next(old, new); }
int renameat(int a, const char *old, int b, const char *new) { NEXT(renameat); if (ours(old) && fails("rename", kind_of(old))) return -1; moved(old, new); return next(a, old, b, new); }
int unlink(const char *path) { NEXT(unlink); if (ours(path)) record('u', 0, 0, leaf(path), strlen(leaf(path)), 1); return next(path); }
int unlinkat(int at, const char *path, int flags) { NEXT(unlinkat); if (ours(path)) record('u', 0, 0, leaf(path), strlen(leaf(path)), 1); return next(at, path, flags); }
"""


def library_in(folder):
    """The library, built there."""
    library = os.path.join(folder, "recording.so")
    compiled = ["cc", "-shared", "-fPIC", "-w", "-x", "c", "-o", library, "-", "-ldl", "-lpthread"]
    subprocess.run(compiled, input=RECORDING.encode(), check=True)
    return library


def refusing(library, call, error, told, count=1, kinds=None):
    """The environment in which the call of this number on such a file, from 1, is refused with this error, and those behind it up to so
    many; with kinds only calls on files of these kinds are counted. The file `told` has a line for each that was refused."""
    more = {"REFUSED_CALL": call, "REFUSED_LAST": call + count - 1, "REFUSED_AS": error, "REFUSED_TOLD": told}
    more |= {"REFUSED_ON": kinds} if kinds else {}
    return {**os.environ, "LD_PRELOAD": library, **{name: str(value) for name, value in more.items()}}


def refused_in(told):
    """The calls that were refused, each as its name and the kind of its file."""
    try:
        with open(told, encoding="ascii") as file:
            return [tuple(line.split()) for line in file]
    except FileNotFoundError:
        return []


def records_of(trace):
    """Each record with the place behind it: (end, kind, file, place, bytes)."""
    found, at = [], 0
    while at + 25 <= len(trace):
        kind, (file, place, count) = chr(trace[at]), struct.unpack_from("<QQQ", trace, at + 1)
        at += 25
        data = trace[at:at + count] if kind in "nwru" else b""
        at += len(data)
        found.append((at, kind, file, place, data))
    return found


def drafts_among(records):
    """The stretches of the records in which a draft is made, written, synced and renamed, up to the sync of the folder behind that; of
    each where it begins and where it ends."""
    found, begun, renamed = [], None, False
    for index, (_, kind, file, _, data) in enumerate(records):
        if kind == "n" and data == DRAFT:
            begun, renamed = index, False
        elif begun is not None and kind == "r":
            renamed = True
        elif renamed and kind == "e" and not file:
            found.append((begun, index + 1))
            begun, renamed = None, False
    return found + ([(begun, len(records))] if begun is not None else [])


class Kept:
    """A file: its bytes at the last sync that came back, and what was done to it since."""

    def __init__(self, synced=b""):
        self.synced, self.since, self.mark = bytearray(synced), [], 0

    def do(self, step):
        self.since.append(step)

    def end_sync(self):
        for step in self.since[:self.mark]:
            do_to(self.synced, step)
        del self.since[:self.mark]
        self.mark = 0

    def lengths(self):
        """Of the file at the last sync, and behind each step since."""
        found = [len(self.synced)]
        for place, new in self.since:
            found.append(place if new is None else max(found[-1], place + len(new)))
        return found

    def behind(self, count):
        """The file behind so many steps."""
        found = bytearray(self.synced)
        for step in self.since[:count]:
            do_to(found, step)
        return found

    def touched(self, longest):
        """By its number each sector that a step touches, with the numbers of these steps."""
        found = {}
        for number, (place, new) in enumerate(self.since):
            end = longest if new is None else place + len(new)
            for sector in range(place // SECTOR, -(-end // SECTOR)):
                found.setdefault(sector, []).append(number)
        return found

    def sector(self, number, steps):
        """A sector behind these steps."""
        at = number * SECTOR
        found = bytearray(self.synced[at:at + SECTOR].ljust(SECTOR, b"\0"))
        for step in steps:
            place, new = self.since[step]
            if new is None:
                found[max(0, place - at):] = bytes(SECTOR - max(0, place - at))
            else:
                part = new[max(0, at - place):max(0, at + SECTOR - place)]
                begin = max(0, place - at)
                found[begin:begin + len(part)] = part
        return bytes(found)

    def left(self, chance):
        """The file as it may stand: each sector as of some moment since the last sync, or torn between two."""
        count, lengths = len(self.since), self.lengths()
        if not count or chance.randrange(8) == 0:
            return bytes(self.behind(chance.randrange(count + 1)))
        length = chance.choice(lengths)
        found = self.synced[:length].ljust(length, b"\0")
        for number, steps in self.touched(length).items():
            at = number * SECTOR
            if at < length:
                one, other = (self.sector(number, steps[:chance.randrange(len(steps) + 1)]) for _ in range(2))
                cut = chance.choice((SECTOR, SECTOR, chance.randrange(SECTOR + 1)))
                found[at:at + SECTOR] = (one[:cut] + other[cut:])[:length - at]
        return bytes(found)


def do_to(data, step):
    place, new = step
    if len(data) < place:
        data += bytes(place - len(data))
    if new is None:
        del data[place:]
    else:
        data[place:place + len(new)] = new


class Recorded:
    """What a record of a run leaves of the files, moment by moment. `before` has the files that were there, synced, in front of it: by
    each name the file's number and bytes."""

    def __init__(self, records, before=None):
        self.records, self.at, self.named, self.mark = records, 0, [], 0
        self.files = {number: Kept(data) for number, data in (before or {}).values()}
        self.names = {name: self.files[number] for name, (number, _) in (before or {}).items()}

    def go_to(self, index):
        """Goes on to the moment behind this many records."""
        while self.at < index:
            self.take(*self.records[self.at][1:])
            self.at += 1

    def take(self, kind, file, place, data):
        if kind == "n":
            self.files[file] = Kept()  # a number may have been that of a file which is gone
            self.named.append(("new", data.decode(), self.files[file]))
        elif kind in "ru":
            self.named.append((kind, *data.decode().split("\0")))
        elif kind in "wt":
            self.files.setdefault(file, Kept()).do((place, data if kind == "w" else None))
        elif file:
            kept = self.files.setdefault(file, Kept())
            if kind == "s":
                kept.mark = len(kept.since)
            else:
                kept.end_sync()
        elif kind == "s":
            self.mark = len(self.named)
        else:
            self.names = names_behind(self.names, self.named[:self.mark])
            del self.named[:self.mark]
            self.mark = 0

    def image(self, chance):
        """The files as they may stand: names that weren't synced are there up to some step, and each sector of a file as of some moment
        since its last sync, or torn between two."""
        names = names_behind(self.names, self.named[:chance.randrange(len(self.named) + 1)])
        return {name: file.left(chance) for name, file in names.items()}


def names_behind(names, steps):
    names = dict(names)
    for kind, *words in steps:
        if kind == "new":
            names[words[0]] = words[1]
        elif kind == "r" and words[0] in names:
            names[words[1]] = names.pop(words[0])
        elif kind == "u":
            names.pop(words[0], None)
    return names
