#!/usr/bin/env python3
"""The table of the journal's checksum: tools/checksum-tables.py

Writes crates/journal/src/checksum/table.rt: what is left of each byte behind 1 to 8 bytes, by a division bit by bit."""
import pathlib

TOP = pathlib.Path(__file__).resolve().parent.parent
TABLE = TOP / "crates/journal/src/checksum/table.rt"
DEGREES = [28, 27, 26, 25, 23, 22, 20, 19, 18, 14, 13, 11, 10, 9, 8, 6, 0]
DIVISOR = sum(1 << (31 - degree) for degree in DEGREES)

HEAD = """// Written by tools/checksum-tables.py.
// What is left of each byte behind 1 to 8 bytes of the division; `Entries` of the proofs computes each entry anew.
/// What is left of each byte behind itself, then behind itself and one byte more, and so on to seven more.
pub(crate) static TABLE: [u32; 2048] = [
"""


def times_x(left):
    return left >> 1 ^ (DIVISOR if left & 1 else 0)


def left_of(byte, more):
    for _ in range(8 * (more + 1)):
        byte = times_x(byte)
    return byte


def main():
    entries = [f"0x{left_of(byte, more):08x}" for more in range(8) for byte in range(256)]
    lines = ["    " + ", ".join(entries[at : at + 8]) + ",\n" for at in range(0, len(entries), 8)]
    TABLE.write_text(HEAD + "".join(lines) + "];\n")


if __name__ == "__main__":
    main()
