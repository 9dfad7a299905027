#!/usr/bin/env python3
"""Writes rows in which the messages of a logon, and of a file that is made, written, read and closed, are cut and changed.

usage: tools/cut-messages.py

Writes its part of `stdin` and `stdout` of crates/test_messages. Each header, message, token and list of contexts is cut to each length;
and each byte of it becomes 0, ff and its complement. A row asks one reader for all of these, and tells the places from which the
outcome is another; where bytes are changed also the SHA-256 of all outcomes, values and their spellings among them, each with a line
end. What is due comes from the slow readers of wire_layouts.py and wire_readers.py, the messages from worked_file.py.
"""
import hashlib
import sys

import vector_parts
import wire_layouts as layouts
import wire_readers as readers
import worked_logon as worked
from wire_layouts import HEADER
from wire_shown import Shown
from worked_file import WorkedFile

LAYOUTS = {kind: (table, layout) for table, of in (("session", layouts.SESSION), ("file", layouts.FILE)) for kind, layout in of.items()}


# ---- what a reader says


def read(kind, data):
    """The lines that the program prints of bytes, by the slow reader of their kind."""
    if kind in LAYOUTS:
        layout = LAYOUTS[kind][1]
        value = layout.read(data)
        return [value] if isinstance(value, str) else readers.told(Shown(layout.shown, **value), layout.spelled(value))
    return readers.offer(3, data) if kind == "contexts" else getattr(readers, kind)(data)


CHANGES = {"zeroed": lambda byte: 0, "ones": lambda byte: 0xFF, "turned": lambda byte: byte ^ 0xFF}


def altered(form, data):
    """The bytes of a form, by their place: cut to it, or changed there; last the whole ones."""
    for place in range(len(data) + 1):
        change = data[place : place + 1]
        yield data[:place] if form == "cuts" else data[:place] + bytes(map(CHANGES[form], change)) + data[place + 1 :]


def row(form, kind, data):
    """What is due of a reader to all forms of the bytes."""
    runs, last, all_said = [], None, hashlib.sha256()
    for place, piece in enumerate(altered(form, data)):
        lines = read(kind, piece)
        all_said.update("\n".join(lines).encode() + b"\n")
        word = "read" if len(lines) > 1 else lines[0]
        if word != last:
            runs.append(f"{place} {word}")
            last = word
    digest = "" if form == "cuts" else f"; {all_said.hexdigest()}"
    return f"{form} {kind}: {', '.join(runs)}{digest}"


class Rows:
    """Rows and what is due to them."""

    def __init__(self):
        self.asked, self.answered = [], []

    def title(self, words):
        self.asked.append(f"# {words}")
        self.answered.append(f"# {words}")

    def all_of(self, table, kind, data, front=b""):
        """Behind a header of zeros where the kind is a message's."""
        for form in ("cuts", *CHANGES):
            self.asked.append(f"{table} {form} {kind} {data.hex()}")
            self.answered.append(row(form, kind, front + data))

    def write(self):
        for file, lines in (("stdin", self.asked), ("stdout", self.answered)):
            vector_parts.put("test_messages", file, "cut-messages.py", lines)


def contexts_in(kind, text):
    """Negotiate contexts, or the contexts of a CREATE or of its response, and the word of their reader."""
    part = LAYOUTS[kind][1].read(text)["contexts"]
    if kind.startswith("negotiate"):
        return "session", "contexts", part
    return "file", "chain" if kind.endswith("request") else "answers", part


def main():
    if len(sys.argv) > 1:
        sys.exit(__doc__)
    logon, rows = WorkedFile("a file", [2, 1, 4, 3], [2, 1], True), Rows()
    rows.title("a logon, and a file that is created, written, read and closed: each header and body, cut and changed")
    lists = []
    for message in logon.messages:
        table, layout = LAYOUTS[message.name]
        rows.all_of("session", "header", message.text[:HEADER])
        rows.all_of(table, message.name, message.text[HEADER:], bytes(HEADER))
        if layout.read(message.text).get("contexts"):
            lists.append(contexts_in(message.name, message.text))
    rows.title("its contexts, and those of the response to a persistent create")
    persistent = worked.worked_logons()[0].messages[-1]
    for table, kind, data in (*lists, contexts_in(persistent.name, persistent.text)):
        rows.all_of(table, kind, data)
    rows.title("its tokens, and NTLM's messages in them")
    t = logon.tokens
    tokens = (("init", t.first), ("type1", t.type1), ("resp", t.interim), ("type2", t.type2), ("resp", t.second), ("type3", t.type3))
    for kind, data in (*tokens, ("resp", t.final)):
        rows.all_of("logon", kind, data)
    rows.write()
    return 0


if __name__ == "__main__":
    sys.exit(main())
