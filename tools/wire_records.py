"""The journal's twelve kinds of records, in its versions 1 and 2: one byte of kind, the origin but in kinds 1 and 11, the fields."""
import struct

from wire_layouts import packed
from wire_shown import Shown, owned, some, text

ORIGIN = (0x0102030405060708, 0x11121314, 0x2122232425262728)
CLIENT, GUID = b"smb311-client-01", bytes(range(0x60, 0x70))


def spelled_text(value):
    data = value.encode("utf-16-le")
    return packed(2, len(data)) + data


def origin(numbers=ORIGIN):
    return struct.pack("<QIQ", *numbers)


def shown_origin(numbers=ORIGIN):
    return Shown("Origin", session=numbers[0], connection=numbers[1], message=numbers[2])


class Record:
    """A record's bytes in both versions, and its value as it is read in each."""

    def __init__(self, kind, name, data, told, has_origin=True):
        self.kind, self.name, self.told = kind, name, told
        self.front = packed(1, kind) + (origin() if has_origin else b"")
        self.fields = {"origin": shown_origin()} if has_origin else {}
        self.data = data if callable(data) else lambda version: data

    def spelled(self, version=2):
        return self.front + self.data(version)

    def value(self, version=2):
        told = self.told(version) if callable(self.told) else self.told
        return Shown(self.name, **self.fields, **told)


def epoch(number):
    return Record(1, "Epoch", packed(4, number), {"number": number}, has_origin=False)


def create(path, directory=False, opened=None, timeout=30000):
    """`opened` is the user's name."""

    def data(version):
        out = struct.pack("<IQ", 2, 0x3132333435363738) + spelled_text(path) + struct.pack("<IBQ", 0x20, directory, 0x4142434445464748)
        if opened is None:
            return out + b"\0"
        out += b"\1" + packed(8, 0x5152535455565758) + CLIENT + GUID + spelled_text(opened) + struct.pack("<III", 0x183, 5, 0x40)
        return out + (packed(4, timeout) if version == 2 else b"")

    def told(version):
        made = None
        if opened is not None:
            made = some(
                Shown(
                    "NewOpen",
                    id=0x5152535455565758,
                    client=CLIENT,
                    guid=GUID,
                    user=text(opened),
                    access=0x183,
                    share=5,
                    options=0x40,
                    timeout=timeout if version == 2 else 60000,
                )
            )
        return {
            "action": 2,
            "file": 0x3132333435363738,
            "path": text(path),
            "attributes": 0x20,
            "directory": directory,
            "time": 0x4142434445464748,
            "opened": made,
        }

    return Record(2, "Create", data, told)


def basic_told():
    return Shown("Basic", created=1, accessed=2**40, written=2**48 + 5, changed=2**64 - 1, attributes=0x80)


def lock(elements):
    data = b"".join(struct.pack("<QQII", *element, 0) for element in elements)
    return Record(
        9,
        "Lock",
        struct.pack("<QBBIH", 9, 64, 15, 0xC0000055, len(elements)) + data,
        {"id": 9, "index": 64, "number": 15, "status": 0xC0000055, "elements": owned(data)},
    )


def all_records():
    return [
        epoch(7),
        create("d\\aé\U0001F600"),
        create("dir", directory=True),
        create("a", opened="User"),
        create("", opened=""),
        Record(3, "Write", struct.pack("<QQQI", 5, 6, 7, 3) + b"abc", {"file": 5, "at": 6, "time": 7, "bytes": owned(b"abc")}),
        Record(3, "Write", struct.pack("<QQQI", 5, 2**63, 7, 0), {"file": 5, "at": 2**63, "time": 7, "bytes": owned(b"")}),
        Record(4, "SetEnd", struct.pack("<QQQ", 8, 9, 10), {"file": 8, "length": 9, "time": 10}),
        Record(
            5, "SetBasic", struct.pack("<QQQQQI", 11, 1, 2**40, 2**48 + 5, 2**64 - 1, 0x80), {"file": 11, "basic": basic_told()}
        ),
        Record(6, "SetDelete", struct.pack("<QB", 12, 1), {"file": 12, "marked": True}),
        Record(6, "SetDelete", struct.pack("<QB", 12, 0), {"file": 12, "marked": False}),
        Record(7, "Rename", struct.pack("<QQ", 13, 14) + spelled_text("to\\é"), {"file": 13, "replaced": 14, "path": text("to\\é")}),
        Record(8, "Remove", packed(8, 15), {"file": 15}),
        lock([(10, 20, 2), (2**64 - 1, 1, 4)]),
        lock([]),
        Record(10, "Shut", packed(8, 16), {"id": 16}),
        Record(11, "Version", packed(4, 2), {"number": 2}, has_origin=False),
        Record(12, "Expire", packed(8, 17), {"id": 17}),
    ]


def body_row(table, version, records, behind=2):
    """A body that is read in a version, its records, and the body as version 2 writes it."""
    body, lines, now = b"", [], version
    for record in records:
        body += record.spelled(now)
        lines.append(f"  {record.value(now)}")
        now = 2 if record.kind == 11 else now
    written = written_again(version, records)
    table.row(f"records {version} {body.hex() or '-'}", f"records: {len(records)}", *lines, f"  {written.hex() or '-'}")


def written_again(version, records):
    """In version 2, with the timeout that was read."""
    out, now = b"", version
    for record in records:
        spelled = record.spelled(2)
        if now == 1 and record.kind == 2 and record.spelled(1) != spelled:
            spelled = spelled[:-4] + packed(4, 60000)
        out += spelled
        now = 2 if record.kind == 11 else now
    return out


def record_rows(table):
    records = all_records()
    table.title("each kind of record in version 2: the values of a body, and the body again")
    for record in records:
        body_row(table, 2, [record])
    table.title("in version 1 a new open has no timeout, which is then 60000; behind a Version record it has one")
    for record in records:
        if record.kind < 11:
            body_row(table, 1, [record])
    body_row(table, 1, [records[16], epoch(2)])
    body_row(table, 1, [create("a", opened="User"), records[16], create("b", opened="User", timeout=5)])
    table.title("bodies of several records and of none")
    body_row(table, 2, [records[5], records[0], records[13]])
    body_row(table, 2, records)
    body_row(table, 2, [])
    refusals(table, records)


def bad(table, version, body, place):
    table.row(f"records {version} {body.hex()}", f"records: BadRecord({place})")


def refusals(table, records):
    table.title("bodies that do not read: the place at which the first record begins that is none")
    first = records[5].spelled()
    for kind in (0, 13, 255):
        bad(table, 2, packed(1, kind) + origin() + packed(8, 1), 0)
        bad(table, 2, first + packed(1, kind) + origin() + packed(8, 1), len(first))
    for record in records:
        bad(table, 2, record.spelled()[:-1], 0)
        bad(table, 2, first + record.spelled()[:-1], len(first))
    bad(table, 2, first + b"\1", len(first))
    bad(table, 1, create("a", opened="User").spelled(2), len(create("a", opened="User").spelled(1)))
    bad(table, 2, create("a", opened="User").spelled(1), 0)
    path_at = 1 + 20 + 4 + 8
    plain = create("ab").spelled()
    bad(table, 2, plain[: path_at + 2] + b"\x00\xd8" + plain[path_at + 4 :], 0)
    bad(table, 2, plain[:path_at] + packed(2, 3) + plain[path_at + 2 :], 0)
    bad(table, 2, plain[:-1] + b"\2", 0)
    bad(table, 2, packed(1, 11) + packed(4, 3), 0)
    table.title("bodies cut at each length")
    for body in (first + records[3].spelled(), records[13].spelled() + records[0].spelled()):
        cut_row(table, body, len(first) if body.startswith(first) else len(records[13].spelled()))


def cut_row(table, body, second):
    found = [(0, "read"), (1, "BadRecord(0)"), (second, "read"), (second + 1, f"BadRecord({second})"), (len(body), "read")]
    table.row(f"cuts records {body.hex()}", "cuts records: " + ", ".join(f"{length} {word}" for length, word in found))
