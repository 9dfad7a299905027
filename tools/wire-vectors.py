#!/usr/bin/env python3
"""Writes the tables of messages, contexts, info classes, frames, texts and records that the vector programs are run on.

usage: tools/wire-vectors.py

Writes its part of `stdin` and `stdout` of crates/test_messages. The bytes are made by `struct.pack` from the layouts of MS-SMB2 2.2,
MS-FSCC 2.4 and 2.5, and of the journal; nothing here is the output of the program. A line of `stdin` is the name of a table, a
word and the hexadecimal digits of a body, which stands behind a header of 64 zero bytes where the word is a message; a number
behind them cuts the message to so many bytes. `stdout` has the value that stands in it, by name, and its canonical spelling, or
the refusal. A line `cuts` asks for the outcome at each length, and `stdout` has the lengths from which it is another; a line
`only` asks for the value alone. Lines that begin with `#` are printed as they are.
"""
import struct
import sys

import vector_parts
import wire_classes as classes
import wire_contexts as contexts
import wire_layouts as layouts
import wire_records as records
import worked_logon as worked
from wire_layouts import HEADER, packed, snake
from wire_shown import Shown

OTHER_ID = bytes(range(0x21, 0x31))


class Table:
    """The two sides of a table."""

    def __init__(self, name):
        self.name, self.asked, self.answered = name, [], []

    def title(self, words):
        self.asked.append(f"# {words}")
        self.answered.append(f"# {words}")

    def row(self, asked, *answered):
        self.asked.append(f"{self.name} {asked}")
        self.answered += answered


def write(tables):
    asked = [line for table in tables for line in table.asked]
    answered = [line for table in tables for line in table.answered]
    for file, lines in (("stdin", asked), ("stdout", answered)):
        vector_parts.put("test_messages", file, "wire-vectors.py", lines)


# ---- messages


def value_shown(layout, value):
    return Shown(layout.shown, **value)


def outcome(kind, layout, message):
    """What a reader says of a message: its value's line, or its refusal's."""
    read = layout.read(message)
    return f"{kind}: {read if isinstance(read, str) else value_shown(layout, read)}"


def accepted(table, kind, layout, value, **form):
    """A message that reads as the value, and the value's canonical spelling."""
    behind = form.pop("behind", b"")
    body = layout.spelled(value, **form) + behind
    assert layout.read(bytes(HEADER) + body) == value, (kind, value)
    table.row(f"{kind} {body.hex()}", f"{kind}: {value_shown(layout, value)}", f"  {layout.spelled(value).hex()}")


def only_read(table, kind, layout, body):
    table.row(f"only {kind} {body.hex()}", outcome(kind, layout, bytes(HEADER) + body))


def refused(table, kind, layout, body, refusal, cut=None):
    """A body, cut where told, and the refusal, which the slow reader must find too."""
    message = (bytes(HEADER) + body)[:cut]
    assert layout.read(message) == refusal, (kind, body.hex(), cut, refusal, layout.read(message))
    table.row(f"{kind} {body.hex()}" + ("" if cut is None else f" {cut}"), f"{kind}: {refusal}")


def with_number(body, place, width, number):
    return body[: place - HEADER] + packed(width, number) + body[place - HEADER + width :]


def part_refusals(table, kind, layout, value, part):
    """A range in the fixed part and one past the end; a count of 0 where that breaks, and a list past the end."""
    body = layout.spelled(value)
    if not part.walked and part.place:
        width = dict(layout.fields)[part.place]
        for place in (layout.end - 1, HEADER + len(body) - len(value[part.name]) + 1, 256**width - 1):
            refused(table, kind, layout, with_number(body, layout.place_of(part.place), width, place), part.refusal())
        far = all_ones(all_ones(body, layout, part.place), layout, part.length)
        refused(table, kind, layout, far, part.refusal())
        return
    at = layout.place_of(part.length)
    if part.walked:
        for place in (0, HEADER, layout.end - 1, HEADER + len(body) + 1, 2**32 - 1):
            refused(table, kind, layout, with_number(body, layout.place_of(part.place), 4, place), f"BadOffset({part.told})")
    else:
        refused(table, kind, layout, with_number(body, at, 2, 0), part.refusal())
    refused(table, kind, layout, with_number(body, at, 2, 200), part.refusal())


def short_place(layout, length):
    """The place of the first field that doesn't fit."""
    at = HEADER
    for width in [2] + [width for _, width in layout.fields]:
        if at + width > length:
            return at
        at += width
    raise ValueError(length)


def refusals(table, kind, layout, value):
    body = layout.spelled(value)
    for length in (HEADER - 1, HEADER + 1, layout.end - 1):
        place = 0 if length < HEADER else short_place(layout, length)
        refused(table, kind, layout, body, f"Short({place})", length)
    other_size = with_number(body, HEADER, 2, layout.size + 1)
    refused(table, kind, layout, other_size, f"BadSize({layout.size + 1})")
    for part in layout.parts:
        part_refusals(table, kind, layout, value, part)
    if layout.end > HEADER + 2:
        refused(table, kind, layout, other_size, f"Short({short_place(layout, layout.end - 1)})", layout.end - 1)
    breaking = [part for part in layout.parts if not part.walked]
    if breaking:
        broken = other_size
        for part in breaking:
            broken = all_ones(broken, layout, part.length)
        refused(table, kind, layout, broken, f"BadSize({layout.size + 1})")
        refused(table, kind, layout, with_number(broken, HEADER, 2, layout.size), breaking[0].refusal())


def all_ones(body, layout, field):
    width = dict(layout.fields)[field]
    return with_number(body, layout.place_of(field), width, 256**width - 1)


def with_empty_part(table, kind, layout, value, part):
    """A part of no bytes may be told to stand anywhere."""
    body = all_ones(layout.spelled(value), layout, part.place)
    only_read(table, kind, layout, with_number(body, layout.place_of(part.length), dict(layout.fields)[part.length], 0))


def counted_value(layout, given):
    """A value in which no two bytes of the told fields are equal, but for the given ones."""
    value, next_byte = {}, 1
    for name, width in layout.told():
        content = bytes((next_byte + i) % 256 for i in range(width))
        next_byte += width
        value[snake(name)] = content if width == 16 else int.from_bytes(content, "little")
    for part in layout.parts:
        value[part.name] = b""
    for name, content in given.items():
        assert name in value, name
        value[name] = content
    return value


def message_rows(table, kind, layout, given, *typical):
    """A value of unlike bytes in its canonical spelling, in another one and with bytes behind it, typical values, and the refusals."""
    table.title(kind)
    value = counted_value(layout, given)
    accepted(table, kind, layout, value)
    if not any(part.walked for part in layout.parts):
        accepted(table, kind, layout, value, behind=b"\xdd" * 3)
    placed = [part for part in layout.parts if part.place]
    turned = len(placed) > 1 and len(placed) == len(layout.parts) and not any(part.walked for part in placed)
    accepted(table, kind, layout, value, reserved=0xEE, gap=16, turned=turned)
    for other in typical:
        accepted(table, kind, layout, counted_value(layout, other))
    for part in layout.parts:
        if part.place:
            with_empty_part(table, kind, layout, value, part)
    refusals(table, kind, layout, value)


def cuts(table, kind, layout, value):
    """The lengths from which a message, cut to them, has another outcome."""
    body = layout.spelled(value)
    message, found = bytes(HEADER) + body, []
    for length in range(len(message) + 1):
        read = layout.read(message[:length])
        word = read if isinstance(read, str) else "read"
        if not found or found[-1][1] != word:
            found.append((length, word))
    table.row(f"cuts {kind} {body.hex()}", f"cuts {kind}: " + ", ".join(f"{length} {word}" for length, word in found))


# ---- the tables of messages

TOKEN = bytes.fromhex("601c06062b0601050502a0123010a00e300c060a2b06010401823702020a")
PATH = r"\\smb311\data".encode("utf-16-le")
NAME = "d\\Aé\U0001F600.txt".encode("utf-16-le")


def lock_element(offset, length, flags):
    return struct.pack("<QQII", offset, length, flags, 0)


def client_contexts():
    return contexts.negotiate_contexts(
        [(1, contexts.hash_data([1], bytes(range(32)))), (2, contexts.ids_data([2, 1, 4, 3])), (8, contexts.ids_data([1, 2]))]
    )


def server_contexts():
    return contexts.negotiate_contexts(
        [(1, contexts.hash_data([1], bytes(range(64, 96)))), (2, contexts.ids_data([2])), (8, contexts.ids_data([1]))]
    )


def session_values():
    hello = {"dialects": packed(2, 0x0311), "negotiate_context_count": 3, "contexts": client_contexts()}
    usual = {
        "security_mode": 1,
        "capabilities": 0x7F,
        "dialects": b"".join(packed(2, d) for d in (0x202, 0x210, 0x300, 0x302, 0x311)),
        "negotiate_context_count": 5,
        "contexts": contexts.usual_contexts(),
    }
    old = {
        "dialects": packed(2, 0x202) + packed(2, 0x210),
        "negotiate_context_count": 1,
        "contexts": contexts.negotiate_contexts([(3, bytes(10))]),
    }
    answer = {
        "security_mode": 3,
        "dialect_revision": 0x311,
        "negotiate_context_count": 3,
        "capabilities": 0x1C,
        "max_transact_size": 1048576,
        "max_read_size": 1048576,
        "max_write_size": 1048576,
        "server_start_time": 0,
        "security": TOKEN,
        "contexts": server_contexts(),
    }
    bare = {
        "security": b"",
        "negotiate_context_count": 1,
        "contexts": contexts.negotiate_contexts([(1, contexts.hash_data([1], bytes(32)))]),
    }
    first = {"flags": 0, "security_mode": 1, "capabilities": 0, "channel": 0, "previous_session_id": 0, "security": b"first token"}
    return {
        "negotiate_request": (hello, usual, old),
        "negotiate_response": (answer, bare),
        "session_setup_request": ({"security": b"a token"}, first),
        "session_setup_response": ({"security": TOKEN}, {"session_flags": 4, "security": b"last"}),
        "tree_connect_request": ({"path": PATH}, {"flags": 0, "path": r"\\s\IPC$".encode("utf-16-le")}),
        "tree_connect_response": ({}, {"share_type": 1, "share_flags": 0, "capabilities": 0x10, "maximal_access": 0x1F01FF}),
        "error_response": ({}, {"error_context_count": 0, "byte_count": 0}),
    }


def file_values():
    chain = contexts.create_chain([(b"DH2Q", contexts.dh2q(0, 2, OTHER_ID)), (b"MxAc", b""), (b"QFid", b"")])
    answers = contexts.create_chain([(b"DH2Q", packed(4, 60000) + packed(4, 2)), (b"MxAc", packed(4, 0) + packed(4, 0x1F01FF))])
    root = {"requested_oplock_level": 0, "impersonation_level": 2, "desired_access": 0x81, "name": b"", "contexts": b""}
    two = lock_element(10, 20, 0x12) + lock_element(2**64 - 1, 1, 4)
    return {
        "create_request": (
            {"name": NAME, "contexts": chain},
            {"name": "abcd".encode("utf-16-le")},
            {"name": "abcde".encode("utf-16-le")},
            root,
        ),
        "create_response": ({"contexts": answers}, {"contexts": b""}),
        "read_response": ({"payload": b"hello"}, {"data_remaining": 0, "payload": b""}),
        "write_request": ({"payload": b"hello"}, {"offset": 2**63, "payload": bytes(range(256))}),
        "lock_request": ({"locks": two}, {"lock_sequence": 0x1F, "locks": lock_element(0, 1, 2)}),
    }


def info_values():
    names = classes.directory(37, classes.some_entries())
    return {
        "ioctl_request": (
            {"input": b"sixteen bytes ..", "output": b"more"},
            {"ctl_code": 0x1401FC, "file_id": b"\xff" * 16, "input": b"in", "flags": 1},
            {"ctl_code": 0x1401FC, "file_id": b"\xff" * 16, "max_input_response": 0, "flags": 1},
        ),
        "ioctl_response": (
            {"input": b"eightbyt", "output": b"output"},
            {"ctl_code": 0x1401FC, "output": classes.interface(0x0100007F), "input": b"eightbyt"},
            {"ctl_code": 0x1401FC, "output": classes.interface(0x0100007F)},
        ),
        "query_directory_request": (
            {"file_information_class": 37, "name": "*".encode("utf-16-le")},
            {"file_information_class": 12, "flags": 1, "name": NAME, "output_buffer_length": 1048576},
            {"file_information_class": 1},
        ),
        "query_directory_response": ({"output": names},),
        "query_info_request": (
            {"info_type": 1, "file_info_class": 18, "input": b"not looked at"},
            {"info_type": 2, "file_info_class": 7, "input": b"."},
            {"info_type": 1, "file_info_class": 5},
        ),
        "query_info_response": ({"output": bytes(range(40))},),
        "set_info_request": (
            {"info_type": 1, "file_info_class": 4, "payload": classes.basic(classes.TIMES)},
            {"info_type": 1, "file_info_class": 13, "additional_information": 0, "payload": b"\1"},
        ),
    }


def tables_of(table, messages, values):
    for kind, layout in messages.items():
        given, *typical = values.get(kind, ({},))
        message_rows(table, kind, layout, given, *typical)


def class_refusals(table, messages):
    """Classes that aren't known, before any part; the types whose things are left out have no such class."""
    table.title("information classes (MS-FSCC 2.4, 2.5): the known ones are read, others are refused before a part is looked at")
    listing, asked, given = (messages[name] for name in ("query_directory_request", "query_info_request", "set_info_request"))
    for number in (0, 4, 5, 36, 39, 255):
        value = counted_value(listing, {"file_information_class": number, "name": b"*\0"})
        refused(table, "query_directory_request", listing, listing.spelled(value), f"BadClass({number})")
    for number in layouts.DIRECTORY_CLASSES:
        value = counted_value(listing, {"file_information_class": number, "name": b"*\0"})
        only_read(table, "query_directory_request", listing, listing.spelled(value))
    for kind, layout, part, known, others in (
        ("query_info_request", asked, "input", layouts.QUERY_CLASSES, {1: (0, 1, 10, 13, 19, 20, 64), 2: (0, 2, 6, 8, 9, 10, 12)}),
        ("set_info_request", given, "payload", layouts.SET_CLASSES, {1: (0, 1, 5, 6, 8, 9, 17, 18, 21, 22, 34, 255)}),
    ):
        for info_type, numbers in others.items():
            for number in numbers:
                body = layout.spelled(counted_value(layout, {"info_type": info_type, "file_info_class": number, part: b"part"}))
                refused(table, kind, layout, body, f"BadClass({number})")
                refused(table, kind, layout, all_ones(body, layout, layout.parts[0].length), f"BadClass({number})")
        for info_type, numbers in known.items():
            for number in numbers:
                value = counted_value(layout, {"info_type": info_type, "file_info_class": number, part: b"part"})
                only_read(table, kind, layout, layout.spelled(value))
        for info_type in (3, 4):
            value = counted_value(layout, {"info_type": info_type, "file_info_class": 0, part: b"part"})
            only_read(table, kind, layout, layout.spelled(value))


def lock_elements(table):
    table.title("elements of a LOCK request (2.2.26.1), one after the other, the reserved bytes passed over; what is left over is none")
    ranges = ((10, 20, 0x12), (2**64 - 1, 2**63, 0xFFFFFFFF), (0, 0, 0))
    for behind in (b"", bytes(23)):
        for count in (0, 1, 3):
            shown = [f"  {Shown('LockElement', offset=o, length=n, flags=f)}" for o, n, f in ranges[:count]]
            spelled = b"".join(lock_element(*each) for each in ranges[:count])
            told = b"".join(struct.pack("<QQII", *each, 0xEEEEEEEE) for each in ranges[:count]) + behind
            table.row(f"elements {told.hex() or '-'}", "elements:", *shown, f"  none at {count}", f"  {spelled.hex() or '-'}")


def logon_cuts(table, messages, values):
    table.title("each message of a logon with a create, a write, a listing and a close, cut at each length")
    for kind in messages:
        given = values.get(kind, ({},))
        cuts(table, kind, messages[kind], counted_value(messages[kind], given[1] if kind == "query_directory_request" else given[0]))


LOGON = {
    "session": (
        "negotiate_request",
        "negotiate_response",
        "session_setup_request",
        "session_setup_response",
        "tree_connect_request",
        "tree_connect_response",
        "tree_disconnect_request",
        "tree_disconnect_response",
        "logoff_request",
        "logoff_response",
        "error_response",
    ),
    "file": ("create_request", "create_response", "write_request", "write_response", "close_request", "close_response"),
    "info": ("query_directory_request", "query_directory_response"),
}


def worked_rows(session, file):
    """The headers and bodies of one of the logons of worked_logon.py, which writes them by itself."""
    logon = worked.worked_logons()[0]
    for table in (session, file):
        table.title(f"a worked logon, {logon.name}: its messages, the sealed ones as they were before")
    for message in logon.messages:
        table, of_table = (session, layouts.SESSION) if message.name in layouts.SESSION else (file, layouts.FILE)
        layout = of_table[message.name]
        contexts.spelled_header_row(session, message.frame if message.signed else message.text)
        value = layout.read(message.text)
        assert layout.spelled(value) == message.text[HEADER:], message.name
        accepted(table, message.name, layout, value)


def chosen(messages, names):
    return {name: messages[name] for name in names}


def main():
    if len(sys.argv) > 1:
        sys.exit(__doc__)
    session, file, info, record = (Table(name) for name in ("session", "file", "info", "record"))
    contexts.header_rows(session)
    contexts.frame_rows(session)
    contexts.text_rows(session)
    tables_of(session, layouts.SESSION, session_values())
    logon_cuts(session, chosen(layouts.SESSION, LOGON["session"]), session_values())
    contexts.negotiate_context_rows(session)
    worked_rows(session, file)
    tables_of(file, layouts.FILE, file_values())
    logon_cuts(file, chosen(layouts.FILE, LOGON["file"]), file_values())
    lock_elements(file)
    contexts.create_context_rows(file)
    tables_of(info, layouts.INFO, info_values())
    class_refusals(info, layouts.INFO)
    logon_cuts(info, chosen(layouts.INFO, LOGON["info"]), info_values())
    classes.class_rows(info)
    records.record_rows(record)
    write((session, file, info, record))
    return 0


if __name__ == "__main__":
    sys.exit(main())
