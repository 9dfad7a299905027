"""Info classes of MS-FSCC 2.4 (files), 2.4 (directories), 2.5 (volumes), and FSCTL_QUERY_NETWORK_INTERFACE_INFO (MS-SMB2 2.2.32.5)."""
import struct

from wire_layouts import aligned, packed, snake
from wire_shown import Shown

TIMES = (0x01D9A0B1C2D3E4F5, 0x01D9A0B1C2D3E4F6, 0x01D9A0B1C2D3E4F7, 0x01D9A0B1C2D3E4F8)
NAME = "aé\U0001F600.txt"


def utf16(text):
    return text.encode("utf-16-le")


# ---- files


def basic(times, attributes=0x20, reserved=0):
    return struct.pack("<QQQQII", *times, attributes, reserved)


# ---- directories

FIXED = {1: 64, 2: 68, 3: 94, 12: 12, 37: 104, 38: 80}


class Entry:
    """A file in a listing; what stands in `passed` fields (FileIndex, EA size, short name, reserved) is read as anything and written 0."""

    def __init__(self, name, times=TIMES, end=5, allocated=8, attributes=0x20, file=7):
        self.name, self.times, self.end, self.allocated = name, times, end, allocated
        self.attributes, self.file = attributes, file

    def spelled(self, kind, passed=0):
        """The entry but for NextEntryOffset."""
        data, zeros = utf16(self.name), lambda count: bytes([passed]) * count
        if kind == 12:
            return zeros(4) + packed(4, len(data)) + data
        out = zeros(4) + struct.pack("<QQQQQQII", *self.times, self.end, self.allocated, self.attributes, len(data))
        out += {
            1: b"",
            2: zeros(4),
            3: zeros(4) + zeros(2) + zeros(24),
            37: zeros(4) + zeros(2) + zeros(24) + zeros(2) + packed(8, self.file),
            38: zeros(4) + zeros(4) + packed(8, self.file),
        }[kind]
        return out + data

    def value(self, kind):
        told = kind != 12
        times = dict(zip(("creation_time", "last_access_time", "last_write_time", "change_time"), self.times if told else (0, 0, 0, 0)))
        sizes = {"end_of_file": self.end, "allocation_size": self.allocated, "file_attributes": self.attributes}
        file = self.file if kind in (37, 38) else 0
        return Shown("DirectoryEntry", **times, **(sizes if told else dict.fromkeys(sizes, 0)), file_id=file, name=utf16(self.name))


def some_entries():
    return [
        Entry(".", attributes=0x10, end=0, allocated=0, file=3),
        Entry("..", attributes=0x10, end=0, allocated=0, file=1),
        Entry(NAME, file=0x1122334455667788),
        Entry("b", end=0, allocated=0, file=9),
    ]


def directory(kind, entries, passed=0, gap=0):
    """The entries of a listing, each at a multiple of 8 (MS-FSCC 2.4), with a gap of so many bytes more between them."""
    out = b""
    for place, entry in enumerate(entries):
        spelled = entry.spelled(kind, passed)
        assert 4 + len(spelled) == FIXED[kind] + len(utf16(entry.name))
        last = place + 1 == len(entries)
        out += packed(4, 0 if last else aligned(4 + len(spelled)) + gap) + spelled
        out = out if last else out.ljust(aligned(len(out)) + gap, bytes([passed]))
    return out


def listing_row(table, kind, entries, data):
    lines = [f"  {entry.value(kind)}" for entry in entries]
    table.row(f"listing {kind} {data.hex() or '-'}", f"listing: {len(entries)}", *lines, f"  {directory(kind, entries).hex() or '-'}")


def listing_rows(table):
    table.title("listings by class (MS-FSCC 2.4): their entries, and the listing again")
    entries = some_entries()
    for kind in FIXED:
        listing_row(table, kind, entries, directory(kind, entries))
        listing_row(table, kind, entries, directory(kind, entries, passed=0xEE, gap=16) + b"behind")
        listing_row(table, kind, entries[2:3], directory(kind, entries[2:3]))
        listing_row(table, kind, [], b"")
    table.title("listings that do not read: places are counted from the entry")
    for kind, fixed in FIXED.items():
        one, two = directory(kind, entries[2:3]), directory(kind, entries[2:])
        second = aligned(len(one))
        name_at = 8 if kind == 12 else 60
        breaks = [(one[:3], "Short(0)"), (one[:7], "Short(4)"), (one[: fixed - 1], None), (one[:-1], "BadOffset(Name)")]
        breaks += [(packed(4, number) + two[4:], "BadOffset(Output)") for number in (4, second + 1, len(two) + 8, 2**32 - 8)]
        breaks += [(two[:-1], "BadOffset(Name)"), (two[: second + 3], "Short(0)"), (two[:second], "Short(0)")]
        breaks += [(two[:name_at] + packed(4, second - fixed + 1) + two[name_at + 4 :], "BadOffset(Name)")]
        for data, refusal in breaks:
            last = {1: 60, 2: 64, 3: 70, 12: 8, 37: 96, 38: 72}[kind]
            table.row(f"listing {kind} {data.hex()}", f"listing: {refusal or f'Short({last})'}")


def interface(address, index=1, capability=0, speed=10**9, family=2):
    """One interface of 152 bytes: Next, IfIndex, Capability, Reserved, LinkSpeed, and a SOCKADDR_IN in 128 bytes."""
    socket = struct.pack("<HHI", family, 0, address).ljust(128, b"\0")
    out = struct.pack("<IIIIQ", 0, index, capability, 0, speed) + socket
    assert len(out) == 152
    return out


# ---- rows

TIME_FIELDS = "CreationTime:8 LastAccessTime:8 LastWriteTime:8 ChangeTime:8"
RAW = ("Port", "Address", "ObjectId", "BirthVolumeId", "BirthObjectId")
PLAIN = (
    ("FileBasicInformation", f"{TIME_FIELDS} FileAttributes:4 Reserved:4"),
    ("FileStandardInformation", "AllocationSize:8 EndOfFile:8 NumberOfLinks:4 DeletePending:1 Directory:1 Reserved:2"),
    ("FileInternalInformation", "IndexNumber:8"),
    ("FileEaInformation", "EaSize:4"),
    ("FileAccessInformation", "AccessFlags:4"),
    ("FilePositionInformation", "CurrentByteOffset:8"),
    ("FileModeInformation", "Mode:4"),
    ("FileAlignmentInformation", "AlignmentRequirement:4"),
    ("FileDispositionInformation", "DeletePending:1"),
    ("FileAllocationInformation", "AllocationSize:8"),
    ("FileEndOfFileInformation", "EndOfFile:8"),
    ("FileNetworkOpenInformation", f"{TIME_FIELDS} AllocationSize:8 EndOfFile:8 FileAttributes:4 Reserved:4"),
    ("FileFsSizeInformation", "TotalAllocationUnits:8 AvailableAllocationUnits:8 SectorsPerAllocationUnit:4 BytesPerSector:4"),
    ("FileFsDeviceInformation", "DeviceType:4 Characteristics:4"),
    ("NetworkInterface", "Next:4 IfIndex:4 Capability:4 Reserved1:4 LinkSpeed:8 Family:2 Port:2 Address:4 Reserved2:120"),
    ("ObjectIdBuffer", "ObjectId:16 BirthVolumeId:16 BirthObjectId:16 ReservedDomainId:16"),
    (
        "FileFsFullSizeInformation",
        "TotalAllocationUnits:8 CallerAvailableAllocationUnits:8 ActualAvailableAllocationUnits:8"
        " SectorsPerAllocationUnit:4 BytesPerSector:4",
    ),
    (
        "FileFsSectorSizeInformation",
        "LogicalBytesPerSector:4 PhysicalBytesPerSectorForAtomicity:4 PhysicalBytesPerSectorForPerformance:4"
        " FileSystemEffectivePhysicalBytesPerSectorForAtomicity:4 Flags:4 ByteOffsetForSectorAlignment:4"
        " ByteOffsetForPartitionAlignment:4",
    ),
)


def fields_of(words):
    return [(name, int(width)) for name, width in (word.split(":") for word in words.split())]


def plain_bytes(fields, first, reserved=0, given=None):
    """Fields of unlike bytes that count upwards from the first, but for the given numbers, and the numbers in them."""
    out, numbers = b"", {}
    for name, width in fields:
        if name.startswith("Reserved"):
            out += bytes([reserved]) * width
            continue
        content = bytes((first + i) % 256 for i in range(width))
        if name in (given or {}):
            content = packed(width, given[name])
        first += width
        out += content
        numbers[snake(name)] = content if name in RAW else int.from_bytes(content, "little")
    return out, numbers


def plain_rows(table, name, words):
    kind, fields = snake(name), fields_of(words)
    for first, reserved in ((1, 0), (0xB0, 0), (3, 0xEE)):
        data, numbers = plain_bytes(fields, first, reserved)
        table.row(f"{kind} {data.hex()}", f"{kind}: {Shown(name, **numbers)}", f"  {plain_bytes(fields, first)[0].hex()}")
    short_rows(table, kind, fields, plain_bytes(fields, 1)[0])


def short_rows(table, kind, fields, data):
    """Each field cut by one byte, and of few fields at other lengths too: the place of the first that doesn't fit."""
    at = 0
    for _, width in fields:
        for length in {at + width - 1} if len(fields) > 2 else sorted({at, at + width // 2, at + width - 1}):
            table.row(f"{kind} {data[:length].hex() or '-'}", f"{kind}: Short({at})")
        at += width


# the length of the name stands in the field of this name; MS-FSCC's EA size and alignment are passed over and written 0
NAMED = (
    ("FileRenameInformation", "ReplaceIfExists:1 Reserved:7 RootDirectory:8 FileNameLength:4", "FileNameLength", "name"),
    (
        "FileAllInformation",
        f"{TIME_FIELDS} FileAttributes:4 Reserved1:4 AllocationSize:8 EndOfFile:8 NumberOfLinks:4 DeletePending:1"
        " Directory:1 Reserved2:2 IndexNumber:8 ReservedEaSize:4 AccessFlags:4 CurrentByteOffset:8 Mode:4"
        " ReservedAlignment:4 FileNameLength:4",
        "FileNameLength",
        "name",
    ),
    ("FileNameInformation", "FileNameLength:4", "FileNameLength", "name"),
    (
        "FileStreamInformation",
        "NextEntryOffset:4 StreamNameLength:4 StreamSize:8 StreamAllocationSize:8",
        "StreamNameLength",
        "name",
    ),
    (
        "FileFsVolumeInformation",
        "VolumeCreationTime:8 VolumeSerialNumber:4 VolumeLabelLength:4 SupportsObjects:1 Reserved:1",
        "VolumeLabelLength",
        "label",
    ),
    (
        "FileFsAttributeInformation",
        "FileSystemAttributes:4 MaximumComponentNameLength:4 FileSystemNameLength:4",
        "FileSystemNameLength",
        "name",
    ),
)


def named_rows(table, name, words, length, part):
    kind, fields = snake(name), fields_of(words)
    for text, first, reserved, behind in ((NAME, 1, 0, b""), ("", 0x91, 0, b""), ("\\d\\x", 5, 0xEE, b"behind"), ("NTFS", 9, 0, b"")):
        data, numbers = plain_bytes(fields, first, reserved, {length: len(utf16(text))})
        del numbers[snake(length)]
        written = plain_bytes(fields, first, 0, {length: len(utf16(text))})[0] + utf16(text)
        table.row(
            f"{kind} {(data + utf16(text) + behind).hex()}",
            f"{kind}: {Shown(name, **numbers, **{part: utf16(text)})}",
            f"  {written.hex()}",
        )
    whole = plain_bytes(fields, 1, 0, {length: len(utf16(NAME))})[0] + utf16(NAME)
    short_rows(table, kind, fields, whole)
    for data in (
        whole[:-1],
        plain_bytes(fields, 1, 0, {length: 2**32 - 1})[0] + utf16(NAME),
        plain_bytes(fields, 1, 0, {length: 1})[0],
    ):
        table.row(f"{kind} {data.hex()}", f"{kind}: BadOffset(Name)")


def class_rows(table):
    table.title("info classes of one length (MS-FSCC 2.4, 2.5), the entry of a network interface (MS-SMB2 2.2.32.5), and an object id (MS-FSCC 2.1.3.1)")
    for name, words in PLAIN:
        plain_rows(table, name, words)
    address = Shown(
        "NetworkInterface", next=0, if_index=1, capability=0, link_speed=10**9, family=2, port=bytes(2), address=b"\x7f\0\0\1"
    )
    table.row(f"network_interface {interface(0x0100007F).hex()}", f"network_interface: {address}", f"  {interface(0x0100007F).hex()}")
    table.title("info classes that end in a name")
    for name, words, length, part in NAMED:
        named_rows(table, name, words, length, part)
    listing_rows(table)
