#!/usr/bin/env python3
"""Writes crates/crypto_ciphers/src/aes_block/tables.rt, the tables of AES's rounds.

    tools/aes-tables.py

Entry i of the first four is what byte i in rows 0 to 3 brings to a column behind SubBytes and MixColumns (FIPS 197, 5.1.1
and 5.1.3), with row 0 in the lowest byte; entry i of the last four is the S-box's byte in that row alone, for the last
round. The prover compares each entry with the definition."""

import os
import sys

TOP = os.path.join(os.path.dirname(os.path.abspath(__file__)), "..")
TARGET = os.path.join(TOP, "crates", "crypto_ciphers", "src", "aes_block", "tables.rt")


def doubled(a):
    return (a * 2) ^ (0x11B if a >= 128 else 0)


def product(a, b):
    total = 0
    while b:
        if b % 2:
            total ^= a
        a, b = doubled(a), b // 2
    return total


def substituted(a):
    inverse = next((b for b in range(256) if product(a, b) == 1), 0)
    turned = [(inverse << k | inverse >> (8 - k)) & 255 for k in range(5)]
    return turned[0] ^ turned[1] ^ turned[2] ^ turned[3] ^ turned[4] ^ 0x63


def entry(table, s):
    if table >= 4:
        return s << 8 * (table - 4)
    column = [doubled(s), s, s, doubled(s) ^ s]
    return sum(column[(row - table) % 4] << 8 * row for row in range(4))


def main():
    if len(sys.argv) > 1:
        sys.exit(__doc__)
    sboxes = [substituted(i) for i in range(256)]
    lines = [
        "// Written by tools/aes-tables.py.",
        "/// What a byte brings to its column, by the byte's row: in a round that mixes columns (0 to 3), and in the last (4 to 7).",
        "pub(crate) static TABLES: [[u32; 256]; 8] = [",
    ]
    for table in range(8):
        lines.append("    [")
        words = ["0x%08x" % entry(table, s) for s in sboxes]
        for at in range(0, 256, 7):
            lines.append("        " + ", ".join(words[at : at + 7]) + ",")
        lines.append("    ],")
    lines.append("];")
    with open(TARGET, "w", encoding="utf-8") as file:
        file.write("\n".join(lines) + "\n")


if __name__ == "__main__":
    main()
