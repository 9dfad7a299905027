#!/usr/bin/env python3
"""Writes what is due of the rows `cipher vector ..` of crates/test_rows, by Python's `cryptography` (which is OpenSSL's code).

    tools/cipher-vectors.py

It reads these rows, whose words are the mode, and the lengths of key, nonce, additional data, text and tag, and writes them again with the
answer. A mode with `-through` stands for all lengths of text from 0 to the one that is told, its result for the SHA-256 of their results one
behind the other; one with `-zeros` has a key, nonce and text of zeros."""

import hashlib
import os
import sys

import vector_parts

from cryptography.hazmat.primitives.ciphers.aead import AESCCM, AESGCM
from cryptography.hazmat.primitives.ciphers.algorithms import AES
from cryptography.hazmat.primitives.cmac import CMAC

ROWS = "cipher vector "


def pattern(count, square, step, first, modulus):
    return bytes((square * i * i + step * i + first) % 2**32 % modulus for i in range(count))


def parts(kind, key, nonce, added, text):
    if kind == "zeros":
        return bytes(key), bytes(nonce), bytes(added), bytes(text)
    if kind == "example":
        return tuple(pattern(n, 0, 1, first, 256) for n, first in [(key, 0x40), (nonce, 0x10), (added, 0), (text, 0x20)])
    return (
        pattern(key, 0, 7, 3, 256),
        pattern(nonce, 0, 11, 2, 256),
        pattern(added, 0, 3, 9, 256),
        pattern(text, 1, 5, 1, 251),
    )


def result(mode, kind, key, nonce, added, text, tag):
    key, nonce, added, text = parts(kind, key, nonce, added, text)
    if mode == "cmac":
        mac = CMAC(AES(key))
        mac.update(text)
        return mac.finalize()
    if mode == "gmac":
        return AESGCM(key).encrypt(nonce, b"", text)
    if mode == "gcm":
        return AESGCM(key).encrypt(nonce, text, added)
    return AESCCM(key, tag_length=tag).encrypt(nonce, text, added)


def shown(value):
    return value.hex() if len(value) < 1000 else "sha256 " + hashlib.sha256(value).hexdigest()


def answer(line):
    word, *numbers = line.split()
    key, nonce, added, text, tag = map(int, numbers)
    mode, _, kind = word.partition("-")
    if kind == "through":
        all_of_them = b"".join(result(mode, "", key, nonce, added, n, tag) for n in range(text + 1))
        return "sha256 " + hashlib.sha256(all_of_them).hexdigest()
    return shown(result(mode, kind, key, nonce, added, text, tag))


def main():
    if len(sys.argv) > 1:
        sys.exit(__doc__)
    path = os.path.join(vector_parts.CRATES, "test_rows", "stdin")
    with open(path, encoding="utf-8") as file:
        given = [line.partition(" = ")[0] for line in file.read().splitlines() if line.startswith(ROWS)]
    vector_parts.put("test_rows", "stdin", "cipher-vectors.py", ["%s = %s" % (row, answer(row[len(ROWS):])) for row in given])


if __name__ == "__main__":
    main()
