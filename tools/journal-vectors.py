#!/usr/bin/env python3
"""Rows of journals whose entries carry checksums, and of bodies that wait, with what is due of each: tools/journal-vectors.py

Writes the rows `journal of 736d623331316a32 ..` of crates/test_rows/stdin: whole ones, ones with a torn end, and one in which each byte
has one bit flipped. What is due is told by the form alone, read here again: the mark, then gate, length, CRC-32C of length and body,
body, up to the first gate that isn't 01. The checksum is a division bit by bit.

Then bodies that wait, in both forms, and with each call of the disk failing in turn: what is written, in which order, is told here again.
An entry goes behind the closed gate; with the next one's write its gate opens."""
import vector_parts

MARK = b"smb311j2"
PLAIN = b"smb311j1"
DIVISOR = 0x1EDC6F41  # x^32 + x^28 + .. + 1 without its highest term, the lowest term last


def crc32c(text):
    left = 0xFFFFFFFF
    for byte in text:
        for bit in range(8):
            carry = (left >> 31) ^ (byte >> bit & 1)
            left = (left << 1 & 0xFFFFFFFF) ^ (DIVISOR if carry else 0)
    mirrored = int(f"{left:032b}"[::-1], 2)
    return mirrored ^ 0xFFFFFFFF


def entry(body, mark=MARK):
    length = len(body).to_bytes(4, "little")
    return b"\x01" + length + (crc32c(length + body).to_bytes(4, "little") if mark == MARK else b"") + body


def read(disk):
    """the bodies and where the closed gate stands, or the place of what is no journal"""
    if len(disk) <= 9 and not (len(disk) == 9 and disk[:8] == MARK and disk[8] != 1):
        return None, [], 0
    for at in range(8):
        if disk[at] != MARK[at]:
            return at, None, None
    gate, bodies = 8, []
    while True:
        if disk[gate] != 1:
            return None, bodies, gate
        size = int.from_bytes(disk[gate + 1 : gate + 5], "little")
        body = disk[gate + 9 : gate + 9 + size]
        if gate + 9 + size >= len(disk) or entry(body)[5:9] != disk[gate + 5 : gate + 9]:
            return gate, None, None
        bodies.append(body)
        gate += 9 + size


def said(bodies):
    return ",".join(body.hex() or "-" for body in bodies) or "none"


def row(disk):
    place, bodies, gate = read(disk)
    told = f"NotAJournal({place})" if bodies is None else said(bodies)
    left = disk if bodies is None else disk[: gate + 1]
    return f"journal of {disk.hex()} | bodies = {told}; {left.hex()}: {told}"


def grown(bodies, more):
    disk = MARK + b"".join(map(entry, bodies)) + b"\0"
    behind = MARK + b"".join(map(entry, [*bodies, more])) + b"\0"
    told = said([*bodies, more])
    return f"journal of {disk.hex()} | append {more.hex()}; bodies = {len(bodies)}; {told}; {behind.hex()}: {told}"


class Fails(Exception):
    pass


class Disk:
    """bytes, each call done at once, but for the one that fails, which isn't done"""

    def __init__(self, text, failing=0):
        self.text, self.left = text, failing

    def call(self):
        self.left -= 1
        if self.left == 0:
            raise Fails

    def write(self, at, piece):
        self.call()
        self.text = self.text[:at].ljust(at, b"\0") + piece + self.text[at + len(piece) :]


class Waiting:
    """a journal of some bodies, and one that waits or none"""

    def __init__(self, mark, bodies, failing=0):
        self.mark, self.count, self.waits, self.stopped = mark, len(bodies), None, False
        self.disk = Disk(mark + b"".join(entry(b, mark) for b in bodies) + b"\0", failing)
        self.gate = len(self.disk.text) - 1

    def opened(self):
        if self.waits is not None:
            self.disk.write(self.waits, b"\x01")
            self.waits = None

    def put(self, body):
        text = entry(body, self.mark)
        self.disk.write(self.gate + 1, text[1:] + b"\0")
        self.disk.call()
        self.waits, self.gate, self.count = self.gate, self.gate + len(text), self.count + 1

    def settled(self):
        if self.waits is not None:
            self.opened()
            self.disk.call()

    def answer(self, word, body):
        if self.stopped:
            return "Stopped(1)"
        try:
            if word == "settle":
                self.settled()
                return "settled"
            if word == "stage":
                self.opened()
            else:
                self.settled()
            self.put(body)
            if word == "append":
                self.settled()
                return str(self.count - 1)
            return "waits"
        except Fails:
            self.stopped = True
            return "DiskFault(1)"


def held(text, mark):
    """the bodies whose gates are open"""
    bodies, gate, more = [], 8, 9 if mark == MARK else 5
    while text[gate] == 1:
        size = int.from_bytes(text[gate + 1 : gate + 5], "little")
        bodies.append(text[gate + more : gate + more + size])
        gate += more + size
    return bodies


def ran(mark, bodies, calls, failing=0):
    """the calls, their answers, and the journal behind them"""
    journal = Waiting(mark, bodies, failing)
    words = [word if body is None else f"{word} {body.hex() or '-'}" for word, body in calls]
    answers = [journal.answer(word, body) for word, body in calls]
    return "; ".join(words), "; ".join(answers), journal


def waiting_rows():
    stage, settle = [("stage", b"f"), ("stage", b"gh")], [("settle", None)]
    for mark in (PLAIN, MARK):
        for calls in (stage[:1], stage, stage + settle, settle, stage + [("append", b"i")], stage + settle + settle + stage[:1] + settle):
            before = Waiting(mark, [b"ab", b"cde"]).disk.text
            words, answers, journal = ran(mark, [b"ab", b"cde"], calls)
            yield f"journal of {before.hex()} | {words} = {answers}; {journal.disk.text.hex()}: {said(held(journal.disk.text, mark))}"
    for failing in range(1, 8):
        words, answers, journal = ran(PLAIN, [], stage + settle, failing)
        # six calls make the journal
        plan = bytes(6 + failing - 1) + b"\x01"
        yield f"journal failing {plan.hex()} | {words} = {answers}; faults 1: {said(held(journal.disk.text, PLAIN))}"


def rows():
    yield from waiting_rows()
    bodies = [b"ab", b"cde"]
    whole = MARK + b"".join(map(entry, bodies)) + b"\0"
    yield from [row(MARK + b"\0\0"), row(MARK + entry(b"") + b"\0"), row(whole), row(whole + b"torn"), row(whole[:-1]), grown(bodies, b"f")]
    yield row(MARK + entry(bytes(range(40))) + b"\0")
    for at in range(len(whole) - 1):
        yield row(whole[:at] + bytes([whole[at] ^ 1 << at % 8]) + whole[at + 1 :])


assert crc32c(b"123456789") == 0xE3069283 and crc32c(bytes(32)) == 0x8A9136AA and crc32c(b"\xff" * 32) == 0x62A8AB43
if __name__ == "__main__":
    vector_parts.put("test_rows", "stdin", "journal-vectors.py", list(rows()))
