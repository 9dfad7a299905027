"""Layouts of MS-SMB2 2.2, a writer of them and a slow plain reader, by `struct` alone.

A layout is the standard's list of fields behind the header of 64 bytes, and the variable parts that some of them place.
The reader tells the first break of a message: a fixed part that doesn't fit (at the field that doesn't), another
StructureSize, an information class that isn't known, then the parts in the order of their fields.
"""
import re
import struct

HEADER = 64
NUMBERS = {1: "<B", 2: "<H", 4: "<I", 8: "<Q"}


def packed(width, number):
    return struct.pack(NUMBERS[width], number)


def number_at(message, at, width):
    return struct.unpack_from(NUMBERS[width], message, at)[0]


def aligned(place):
    return (place + 7) // 8 * 8


def snake(name):
    return re.sub(r"(?<=[a-z0-9])(?=[A-Z])", "_", name).lower()


class Part:
    """A variable part: the fields of its place and its length, its name, and where it may begin.

    `each` is the length of an element where the length field is a count; a count of 0 then breaks. `walked` parts are
    negotiate contexts, whose elements carry their own lengths. A part without a place stands behind the fixed part. The place
    of an `absent` part of no bytes is written 0, that of another one where it would stand.
    """

    def __init__(self, name, place, length, told=None, each=1, step=1, counted=False, walked=False, one_byte=False, absent=False):
        self.name, self.place, self.length, self.told = name, place, length, told or name.capitalize()
        self.each, self.step, self.counted, self.walked = each, step, counted, walked
        self.one_byte, self.absent = one_byte, absent or step == 8

    def refusal(self):
        return f"BadCount({self.told})" if self.counted else f"BadOffset({self.told})"


class Layout:
    """The size that the message tells, its fields as (name, width), and its parts."""

    def __init__(self, shown, size, fields, *parts):
        self.shown, self.size, self.parts = shown, size, parts
        self.fields = [(name, int(width)) for name, width in (word.split(":") for word in fields.split())]
        self.of_parts = {name: part for part in parts for name in (part.place, part.length) if name}
        self.walked = {part.length for part in parts if part.walked}
        self.end = HEADER + 2 + sum(width for _, width in self.fields)
        self.class_field, self.known = None, None

    def is_told(self, name):
        """Whether the value of a message has the field: not reserved ones, nor the place and length of a part."""
        if name in self.walked:
            return True
        return name not in self.of_parts and not re.match(
            r"Reserved|Padding|One|(Read|Write)ChannelInfo|SecurityFlags|SmbCreateFlags", name
        )

    def told(self):
        return [(name, width) for name, width in self.fields if self.is_told(name)]

    def place_of(self, name):
        at = HEADER + 2
        for field, width in self.fields:
            if field == name:
                return at
            at += width
        raise KeyError(name)

    # ---- writing

    def parts_spelled(self, value, gap, turned):
        """The bytes behind the fixed part, and the place and the length field of each part."""
        behind, numbers = b"", {}
        for part in reversed(self.parts) if turned else self.parts:
            content = value[part.name]
            if part.place:
                start = self.end + len(behind) + gap
                start += -start % part.step
                numbers[part.place] = start if content or not part.absent else 0
                if content:
                    behind = behind.ljust(start - self.end, b"\xcc" if gap else b"\0")
            behind += content
            if part.length not in self.walked:
                numbers[part.length] = len(content) // part.each
        if not behind and any(part.one_byte for part in self.parts):
            behind = b"\0"
        return behind, numbers

    def spelled(self, value, reserved=0, gap=0, turned=False):
        """The body of a message: canonical, or with other reserved bytes, gaps before the parts, and parts in another order."""
        behind, numbers = self.parts_spelled(value, gap, turned)
        body = packed(2, self.size)
        for name, width in self.fields:
            if name in numbers:
                body += packed(width, numbers[name])
            elif not self.is_told(name):
                body += bytes([reserved]) * width
            elif width == 16:
                body += value[snake(name)]
            else:
                body += packed(width, value[snake(name)])
        return body + behind

    # ---- reading

    def read(self, message):
        """The value of a message, or the words of its first break."""
        if len(message) < HEADER:
            return "Short(0)"
        at, values = HEADER + 2, {}
        if len(message) < at:
            return f"Short({HEADER})"
        for name, width in self.fields:
            if len(message) < at + width:
                return f"Short({at})"
            values[name] = message[at : at + width] if width > 8 else number_at(message, at, width)
            at += width
        size = number_at(message, HEADER, 2)
        if size != self.size:
            return f"BadSize({size})"
        if self.class_field and not self.known(values):
            return f"BadClass({values[self.class_field]})"
        value = {snake(name): values[name] for name, _ in self.told()}
        for part in self.parts:
            if part.walked and values[part.length] and not self.begins_well(message, values[part.place], part):
                return f"BadOffset({part.told})"
            content = self.part_read(message, part, values)
            if content is None:
                return part.refusal()
            value[part.name] = content
        return value

    def begins_well(self, message, start, part):
        """Whether a part may begin there: behind the fixed part, in the message, at a multiple of its step."""
        return self.end <= start <= len(message) and start % part.step == 0

    def part_read(self, message, part, values):
        start = values[part.place] if part.place else self.end
        if part.walked:
            return walked_contexts(message, start, values[part.length])
        count = values[part.length] * part.each
        if part.counted and count == 0:
            return None
        if count and not self.end <= start <= start + count <= len(message):
            return None
        return message[start : start + count] if count else b""


def walked_contexts(message, start, count):
    """The bytes of so many negotiate contexts (MS-SMB2 2.2.3.1), each at a multiple of 8."""
    if count == 0:
        return b""
    at = start
    for _ in range(count):
        at = aligned(at)
        if len(message) < at + 8:
            return None
        at += 8 + number_at(message, at + 2, 2)
        if len(message) < at:
            return None
    return message[start:at]


# ---- the messages

FILE_ID = "FileId:16"
TIMES = "CreationTime:8 LastAccessTime:8 LastWriteTime:8 ChangeTime:8"
LENGTHS = "AllocationSize:8 EndOfFile:8 FileAttributes:4"


def security():
    return Part("security", "SecurityBufferOffset", "SecurityBufferLength")


def create_contexts():
    return Part("contexts", "CreateContextsOffset", "CreateContextsLength", step=8)


def output():
    return Part("output", "OutputBufferOffset", "OutputBufferLength")


def negotiate_contexts():
    return Part("contexts", "NegotiateContextOffset", "NegotiateContextCount", step=8, counted=True, walked=True)


SESSION = {
    "negotiate_request": Layout(
        "NegotiateRequest",
        36,
        "DialectCount:2 SecurityMode:2 Reserved:2 Capabilities:4 ClientGuid:16 NegotiateContextOffset:4"
        " NegotiateContextCount:2 Reserved2:2",
        Part("dialects", None, "DialectCount", each=2, counted=True),
        negotiate_contexts(),
    ),
    "negotiate_response": Layout(
        "NegotiateResponse",
        65,
        "SecurityMode:2 DialectRevision:2 NegotiateContextCount:2 ServerGuid:16 Capabilities:4 MaxTransactSize:4 MaxReadSize:4"
        " MaxWriteSize:4 SystemTime:8 ServerStartTime:8 SecurityBufferOffset:2 SecurityBufferLength:2 NegotiateContextOffset:4",
        security(),
        negotiate_contexts(),
    ),
    "session_setup_request": Layout(
        "SessionSetupRequest",
        25,
        "Flags:1 SecurityMode:1 Capabilities:4 Channel:4 SecurityBufferOffset:2 SecurityBufferLength:2 PreviousSessionId:8",
        security(),
    ),
    "session_setup_response": Layout(
        "SessionSetupResponse", 9, "SessionFlags:2 SecurityBufferOffset:2 SecurityBufferLength:2", security()
    ),
    "logoff_request": Layout("LogoffRequest", 4, "Reserved:2"),
    "logoff_response": Layout("LogoffResponse", 4, "Reserved:2"),
    "tree_connect_request": Layout(
        "TreeConnectRequest", 9, "Flags:2 PathOffset:2 PathLength:2", Part("path", "PathOffset", "PathLength")
    ),
    "tree_connect_response": Layout("TreeConnectResponse", 16, "ShareType:1 Reserved:1 ShareFlags:4 Capabilities:4 MaximalAccess:4"),
    "tree_disconnect_request": Layout("TreeDisconnectRequest", 4, "Reserved:2"),
    "tree_disconnect_response": Layout("TreeDisconnectResponse", 4, "Reserved:2"),
    "echo_request": Layout("EchoRequest", 4, "Reserved:2"),
    "echo_response": Layout("EchoResponse", 4, "Reserved:2"),
    "error_response": Layout("ErrorResponse", 9, "ErrorContextCount:1 Reserved:1 ByteCount:4 OneByte:1"),
}

FILE = {
    "create_request": Layout(
        "CreateRequest",
        57,
        "SecurityFlags:1 RequestedOplockLevel:1 ImpersonationLevel:4 SmbCreateFlags:8 Reserved:8 DesiredAccess:4 FileAttributes:4"
        " ShareAccess:4 CreateDisposition:4 CreateOptions:4 NameOffset:2 NameLength:2 CreateContextsOffset:4 CreateContextsLength:4",
        Part("name", "NameOffset", "NameLength", one_byte=True),
        create_contexts(),
    ),
    "create_response": Layout(
        "CreateResponse",
        89,
        f"OplockLevel:1 Flags:1 CreateAction:4 {TIMES} {LENGTHS} Reserved2:4 {FILE_ID} CreateContextsOffset:4 CreateContextsLength:4",
        create_contexts(),
    ),
    "close_request": Layout("CloseRequest", 24, f"Flags:2 Reserved:4 {FILE_ID}"),
    "close_response": Layout("CloseResponse", 60, f"Flags:2 Reserved:4 {TIMES} {LENGTHS}"),
    "flush_request": Layout("FlushRequest", 24, f"Reserved1:2 Reserved2:4 {FILE_ID}"),
    "flush_response": Layout("FlushResponse", 4, "Reserved:2"),
    "read_request": Layout(
        "ReadRequest",
        49,
        f"Padding:1 Flags:1 Length:4 Offset:8 {FILE_ID} MinimumCount:4 Channel:4 RemainingBytes:4 ReadChannelInfoOffset:2"
        " ReadChannelInfoLength:2 OneByte:1",
    ),
    "read_response": Layout(
        "ReadResponse",
        17,
        "DataOffset:1 Reserved:1 DataLength:4 DataRemaining:4 Reserved2:4",
        Part("payload", "DataOffset", "DataLength", one_byte=True),
    ),
    "write_request": Layout(
        "WriteRequest",
        49,
        f"DataOffset:2 Length:4 Offset:8 {FILE_ID} Channel:4 RemainingBytes:4 WriteChannelInfoOffset:2 WriteChannelInfoLength:2 Flags:4",
        Part("payload", "DataOffset", "Length"),
    ),
    "write_response": Layout("WriteResponse", 17, "Reserved:2 Count:4 Remaining:4 WriteChannelInfoOffset:2 WriteChannelInfoLength:2"),
    "lock_request": Layout(
        "LockRequest", 48, f"LockCount:2 LockSequence:4 {FILE_ID}", Part("locks", None, "LockCount", each=24, counted=True)
    ),
    "lock_response": Layout("LockResponse", 4, "Reserved:2"),
}

INFO = {
    "ioctl_request": Layout(
        "IoctlRequest",
        57,
        f"Reserved:2 CtlCode:4 {FILE_ID} InputOffset:4 InputCount:4 MaxInputResponse:4 OutputOffset:4 OutputCount:4"
        " MaxOutputResponse:4 Flags:4 Reserved2:4",
        Part("input", "InputOffset", "InputCount", absent=True),
        Part("output", "OutputOffset", "OutputCount", absent=True),
    ),
    "ioctl_response": Layout(
        "IoctlResponse",
        49,
        f"Reserved:2 CtlCode:4 {FILE_ID} InputOffset:4 InputCount:4 OutputOffset:4 OutputCount:4 Flags:4 Reserved2:4",
        Part("input", "InputOffset", "InputCount", absent=True),
        Part("output", "OutputOffset", "OutputCount", absent=True),
    ),
    "query_directory_request": Layout(
        "QueryDirectoryRequest",
        33,
        f"FileInformationClass:1 Flags:1 FileIndex:4 {FILE_ID} FileNameOffset:2 FileNameLength:2 OutputBufferLength:4",
        Part("name", "FileNameOffset", "FileNameLength", absent=True),
    ),
    "query_directory_response": Layout("QueryDirectoryResponse", 9, "OutputBufferOffset:2 OutputBufferLength:4", output()),
    "query_info_request": Layout(
        "QueryInfoRequest",
        41,
        f"InfoType:1 FileInfoClass:1 OutputBufferLength:4 InputBufferOffset:2 Reserved:2 InputBufferLength:4 AdditionalInformation:4"
        f" Flags:4 {FILE_ID}",
        Part("input", "InputBufferOffset", "InputBufferLength", absent=True),
    ),
    "query_info_response": Layout("QueryInfoResponse", 9, "OutputBufferOffset:2 OutputBufferLength:4", output()),
    "set_info_request": Layout(
        "SetInfoRequest",
        33,
        f"InfoType:1 FileInfoClass:1 BufferLength:4 BufferOffset:2 Reserved:2 AdditionalInformation:4 {FILE_ID}",
        Part("payload", "BufferOffset", "BufferLength"),
    ),
    "set_info_response": Layout("SetInfoResponse", 2, ""),
}

# ---- information classes: those that are known, by information type; types of other kinds have none

DIRECTORY_CLASSES = (1, 2, 3, 12, 37, 38)
QUERY_CLASSES = {1: (4, 5, 6, 7, 8, 9, 14, 16, 17, 18, 21, 22, 34), 2: (1, 3, 4, 5, 7, 11)}
SET_CLASSES = {1: (4, 10, 13, 14, 16, 19, 20)}


def known_by(classes):
    return lambda values: values["InfoType"] not in classes or values["FileInfoClass"] in classes[values["InfoType"]]


INFO["query_directory_request"].class_field = "FileInformationClass"
INFO["query_directory_request"].known = lambda values: values["FileInformationClass"] in DIRECTORY_CLASSES
INFO["query_info_request"].class_field = "FileInfoClass"
INFO["query_info_request"].known = known_by(QUERY_CLASSES)
INFO["set_info_request"].class_field = "FileInfoClass"
INFO["set_info_request"].known = known_by(SET_CLASSES)
