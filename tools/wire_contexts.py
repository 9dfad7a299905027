"""Headers, compounds, frames, texts, and the contexts of NEGOTIATE and CREATE (MS-SMB2 2.1, 2.2.1, 2.2.3.1, 2.2.13.2, 2.2.14.2)."""
import struct

from wire_layouts import HEADER, aligned, packed
from wire_shown import Shown, shown, some

PROTOCOL, OLD_PROTOCOL = b"\xfeSMB", b"\xffSMB"


# ---- headers and compounds


def header(
    charge=0, status=0, command=0, credits=0, flags=0, next=0, message=0, reserved=0, tree=0, session=0, signature=bytes(16), size=64
):
    return (
        PROTOCOL
        + struct.pack("<HHIHHIIQIIQ", size, charge, status, command, credits, flags, next, message, reserved, tree, session)
        + signature
    )


def header_row(table, **fields):
    shown_fields = {
        name: fields.get(name, 0) for name in ("charge", "status", "command", "credits", "flags", "next", "message", "tree", "session")
    }
    value = Shown("Header", **shown_fields, signature=fields.get("signature", bytes(16)))
    written = header(**{name: number for name, number in fields.items() if name != "reserved"})
    table.row(f"header {header(**fields).hex()}", f"header: {value}", f"  {written.hex()}")


def spelled_header_row(table, message):
    """The row of the header that a message begins with."""
    names = ("charge", "status", "command", "credits", "flags", "next", "message", "reserved", "tree", "session")
    fields = dict(zip(names, struct.unpack_from("<HIHHIIQIIQ", message, 6)), signature=message[48:64])
    assert header(**fields) == message[:64]
    header_row(table, **fields)


def header_rows(table):
    table.title("headers (2.2.1.2; asynchronous 2.2.1.1, whose AsyncId has TreeId's place in its upper half)")
    signature = bytes(range(16, 32))
    header_row(
        table,
        charge=1,
        status=0x01020304,
        command=9,
        credits=512,
        flags=0x20000008,
        next=0x70,
        message=0x1122334455667788,
        tree=0xA1B2C3D4,
        session=0x0102030405060708,
        signature=signature,
    )
    header_row(
        table,
        charge=2,
        status=0x103,
        command=15,
        credits=1,
        flags=3,
        message=7,
        reserved=0x0D0C0B0A,
        tree=0x11100F0E,
        session=9,
        signature=signature,
    )
    header_row(table, command=13, message=2**64 - 1, reserved=0xFEFF, tree=2**32 - 1, session=2**64 - 1, flags=0x10000000)
    whole = header(command=1)
    table.row(f"header {whole[:63].hex()}", "header: Short")
    table.row("header -", "header: Short")
    for data, refusal in (
        (b"\xfdSMB" + whole[4:], "BadProtocol([253, 83, 77, 66])"),
        (OLD_PROTOCOL + whole[4:], "BadProtocol([255, 83, 77, 66])"),
        (header(size=65), "BadSize(65)"),
        (OLD_PROTOCOL + header(size=65)[4:], "BadProtocol([255, 83, 77, 66])"),
    ):
        table.row(f"header {data.hex()}", f"header: {refusal}")
    compound_rows(table)


def compound(*bodies):
    """Messages joined by NextCommand, each padded to a multiple of 8 but the last."""
    frame = b""
    for place, body in enumerate(bodies):
        last = place + 1 == len(bodies)
        length = HEADER + len(body) if last else aligned(HEADER + len(body))
        flags = 0 if place == 0 else 4
        frame += (header(command=5 + place, flags=flags, next=0 if last else length, message=place) + body).ljust(length, b"\0")
    return frame


def split_row(table, frame, answer):
    table.row(f"compound {frame.hex()}", f"compound: {answer}")


def compound_rows(table):
    table.title(
        "compounds (3.3.5.2.7): each message with the padding behind it; a refusal names the place of the message whose NextCommand breaks"
    )
    one, two, three = compound(b"abc"), compound(b"abc", b"12345678"), compound(b"", b"x", b"yz")
    split_row(table, one, "0..67")
    split_row(table, two, "0..72 72..144")
    split_row(table, three, "0..64 64..136 136..202")
    split_row(table, compound(b""), "0..64")
    split_row(table, one[:63], "Short")
    split_row(table, two[:135], "BadNext(0)")
    split_row(table, two[:136], "0..72 72..136")
    for number in (1, 8, 56, 63, 65, 71, 88, 2**32 - 8, 2**32 - 1):
        split_row(table, two[:20] + packed(4, number) + two[24:], "BadNext(0)")
    split_row(table, two[:92] + packed(4, 72) + two[96:], "BadNext(72)")
    split_row(table, two[:72] + b"\xffSMB" + two[76:], "BadProtocol([255, 83, 77, 66])")


# ---- frames (2.1) and texts


def stream_row(table, pieces, *answers):
    table.row("stream " + " ".join(piece.hex() for piece in pieces), "stream: " + "; ".join(answers))


def frame_rows(table):
    table.title("direct TCP: pieces that are fed, and behind each what is handed out")
    message = bytes(range(64))
    whole = b"\0\0\0\x40" + message
    table.row(f"frame {message.hex()}", f"frame: {whole.hex()}")
    table.row("frame -", "frame: 00000000")
    for count in (255, 256, 1114111, 1114112):
        table.row(f"zeros {count}", f"zeros: {struct.pack('>I', count).hex()} and {count} bytes")
    for count in (1114113, 1114368, 16777216):
        table.row(f"zeros {count}", f"zeros: TooLong({count})")
    stream_row(
        table,
        [whole[:1], whole[1:3], whole[3:4], whole[4:67], whole[67:], bytes(4), b"\1"],
        "None",
        "None",
        "None",
        "None",
        f"{message.hex()}, None",
        "empty, None",
        "BadLead(1), BadLead(1)",
    )
    stream_row(table, [b"\0\0\0\1a\0\0\0\2bc\0\0", b"\0\1d"], "61, 6263, None", "64, None")
    stream_row(table, [b"\0\x11\0\0"], "None")
    stream_row(table, [b"\0\x11\0", b"\1", b"abc"], "None", "TooLong(1114113), TooLong(1114113)", "TooLong(1114113), TooLong(1114113)")
    stream_row(table, [b"\0\xff\xff\xff"], "TooLong(16777215), TooLong(16777215)")
    stream_row(table, [b"\0\0\0\1a\x85"], "61, BadLead(133), BadLead(133)")
    stream_row(table, [b"\xff\0\0", b"\0\0\0\0"], "BadLead(255), BadLead(255)", "BadLead(255), BadLead(255)")


def text_rows(table):
    table.title("texts in UTF-16")
    for text in ("aé", "", "d\\a.txt", "\ud7ff\ue000\uffff", "\U00010000\U0001F600\U0010FFFF", "x\U0001F600y"):
        data = text.encode("utf-16-le").hex() or "-"
        table.row(f"text {data}", f"text: {text}", f"  {data}")
    for data, refusal in (
        ("61", "OddLength(1)"),
        ("610062", "OddLength(3)"),
        ("00d8", "LoneSurrogate(0)"),
        ("00dc", "LoneSurrogate(0)"),
        ("61003dd8", "LoneSurrogate(2)"),
        ("3dd86100", "LoneSurrogate(0)"),
        ("3dd83dd800de", "LoneSurrogate(0)"),
        ("3dd800de00de", "LoneSurrogate(4)"),
        ("6100ffdf", "LoneSurrogate(2)"),
    ):
        table.row(f"text {data}", f"text: {refusal}")


# ---- negotiate contexts


def hash_data(ids, salt):
    return struct.pack("<HH", len(ids), len(salt)) + b"".join(packed(2, number) for number in ids) + salt


def ids_data(ids):
    return packed(2, len(ids)) + b"".join(packed(2, number) for number in ids)


def negotiate_contexts(contexts, reserved=0):
    """Contexts from a place that is a multiple of 8 on."""
    out = b""
    for kind, data in contexts:
        out = out.ljust(aligned(len(out)), b"\0") + struct.pack("<HHI", kind, len(data), reserved) + data
    return out


def usual_contexts():
    name = "smb311".encode("utf-16-le")
    compression = struct.pack("<HHIHH", 2, 0, 1, 1, 4)
    return negotiate_contexts(
        [(1, hash_data([1], bytes(range(100, 132)))), (2, ids_data([2, 1, 4, 3])), (3, compression), (5, name), (8, ids_data([2, 1, 0]))]
    )


def offer_row(table, contexts, ciphers, signings, hashes=True, **form):
    """Contexts that read as an offer, the offer as it is written with a salt of 32 bytes 5a."""
    words = f"sha512 {shown(hashes)} preauth true ciphers {shown(ciphers)} signings {shown(signings)}"
    written = (
        [(1, hash_data([1], b"\x5a" * 32))]
        + ([(2, ids_data(ciphers))] if ciphers else [])
        + ([(8, ids_data(signings))] if signings else [])
    )
    lines = [f"contexts: {words}"]
    if hashes:
        lines.append(f"  {negotiate_contexts(written).hex()}")
    table.row(f"contexts {len(contexts)} {negotiate_contexts(contexts, **form).hex()}", *lines)


def context_refusals(table):
    hashed, ciphers = (1, hash_data([1], bytes(32))), (2, ids_data([2]))
    whole = negotiate_contexts([hashed, ciphers])
    for count, data, refusal in (
        (2, whole[:-1], "Short"),
        (1, whole[:7], "Short"),
        (3, whole, "Short"),
        (1, whole[:45], "Short"),
        (1, negotiate_contexts([(2, packed(2, 3) + bytes(4))]), "Short"),
        (1, negotiate_contexts([(8, packed(2, 2) + bytes(3))]), "Short"),
        (1, negotiate_contexts([(2, b"\1")]), "Short"),
        (1, negotiate_contexts([(1, hash_data([1], bytes(32))[:-1])]), "Short"),
        (1, negotiate_contexts([(1, struct.pack("<HH", 2, 0) + packed(2, 1))]), "Short"),
        (3, negotiate_contexts([hashed, ciphers, hashed]), "Doubled(1)"),
        (2, negotiate_contexts([ciphers, ciphers]), "Doubled(2)"),
        (3, negotiate_contexts([(8, ids_data([1])), hashed, (8, ids_data([1]))]), "Doubled(8)"),
    ):
        table.row(f"contexts {count} {data.hex()}", f"contexts: {refusal}")


def negotiate_context_rows(table):
    table.title("negotiate contexts (2.2.3.1): what they offer, and its canonical spelling")
    salted = (1, hash_data([1], bytes(range(32))))
    offer_row(table, [salted, (2, ids_data([2, 1, 4, 3])), (8, ids_data([1, 2]))], [2, 1, 4, 3], [1, 2])
    offer_row(table, [(8, ids_data([2, 1])), (2, ids_data([4, 2])), salted], [4, 2], [2, 1])
    offer_row(table, [salted], [], [], reserved=0x01020304)
    offer_row(table, [salted, (2, ids_data([9, 3])), (8, ids_data([0]))], [9, 3], [0])
    offer_row(table, [salted, (2, ids_data([5, 6]) + b"more")], [5, 6], [])
    passed_over = [(3, bytes(9)), (3, bytes(9)), (1, hash_data([2, 1], b"")), (5, b"ab"), (8, ids_data([7, 2])), (5, b"")]
    offer_row(table, passed_over, [], [7, 2])
    offer_row(table, [(1, hash_data([2, 3], b"salt"))], [], [], hashes=False)
    usual = usual_contexts()
    table.row(
        f"contexts 5 {usual.hex()}",
        "contexts: sha512 true preauth true ciphers [2, 1, 4, 3] signings [2, 1, 0]",
        "  " + negotiate_contexts([(1, hash_data([1], b"\x5a" * 32)), (2, ids_data([2, 1, 4, 3])), (8, ids_data([2, 1, 0]))]).hex(),
    )
    context_refusals(table)


# ---- create contexts


def create_context(name, data, next=0, name_at=16, data_at=None):
    start = aligned(name_at + len(name)) if data_at is None else data_at
    out = struct.pack("<IHHHHI", next, name_at, len(name), 0, start if data else 0, len(data))
    out = out.ljust(name_at, b"\0") + name
    return out.ljust(start, b"\0") + data if data else out


def create_chain(contexts):
    out = b""
    for place, (name, data) in enumerate(contexts):
        length = len(create_context(name, data))
        if place + 1 == len(contexts):
            out += create_context(name, data)
        else:
            out += create_context(name, data, next=aligned(length)).ljust(aligned(length), b"\0")
    return out


def dh2q(timeout, flags, guid, reserved=0):
    return struct.pack("<IIQ", timeout, flags, reserved) + guid


def dh2c(file, guid, flags):
    return file + guid + packed(4, flags)


def chain_row(table, asked, **told):
    """A chain, its value, and the canonical chain of that value."""
    names = ("dh2q", "dh2c", "mxac", "qfid")
    written, value = [], {}
    for name in names:
        given = told.get(name)
        value[name] = given is not None if name in ("mxac", "qfid") else None if given is None else some(given[0])
        if given is not None:
            written.append((name.upper().encode() if name[0] == "d" else {"mxac": b"MxAc", "qfid": b"QFid"}[name], given[1]))
    table.row(f"chain {asked.hex()}", f"chain: {Shown('CreateContexts', **value)}", f"  {create_chain(written).hex() or '-'}")


def answers_row(table, asked, dh2q=None, mxac=None, qfid=None):
    """A response's chain as bytes, its value, and the canonical chain of that value."""
    written = []
    if dh2q:
        written.append((b"DH2Q", struct.pack("<II", dh2q[0], 2 if dh2q[1] else 0)))
    if mxac:
        written.append((b"MxAc", struct.pack("<II", *mxac)))
    if qfid:
        written.append((b"QFid", struct.pack("<QQ", *qfid) + bytes(16)))
    value = Shown(
        "ReplyContexts",
        dh2q=dh2q and some(Shown("Dh2qReply", timeout=dh2q[0], persistent=dh2q[1])),
        mxac=mxac and some(Shown("MaximalAccess", query_status=mxac[0], maximal_access=mxac[1])),
        qfid=qfid and some(Shown("DiskId", file=qfid[0], volume=qfid[1])),
    )
    table.row(f"answers {(asked or create_chain(written)).hex()}", f"answers: {value}", f"  {create_chain(written).hex()}")


def answer_rows(table):
    table.title("create contexts of responses (2.2.14.2)")
    timeout, access, disk = (60000, True), (0, 0x1F01FF), (0x1122334455667788, 1)
    answers_row(table, None, timeout)
    answers_row(table, None, None, access)
    answers_row(table, None, None, None, disk)
    answers_row(table, None, timeout, access, disk)
    other = create_chain(
        [(b"QFid", struct.pack("<QQ", *disk) + b"\xee" * 16), (b"RqLs", bytes(52)), (b"MxAc", struct.pack("<II", 0xC0000022, 0))]
    )
    answers_row(table, other, None, (0xC0000022, 0), disk)
    for name, length in ((b"DH2Q", 7), (b"DH2Q", 9), (b"MxAc", 0), (b"MxAc", 4), (b"QFid", 31), (b"QFid", 33)):
        table.row(f"answers {create_chain([(name, bytes(length))]).hex()}", f"answers: BadLength({shown(name)})")
    whole = create_chain([(b"MxAc", bytes(8)), (b"QFid", bytes(32))])
    for data, refusal in (
        (whole[:-1], "Short"),
        (whole[:15], "Short"),
        (packed(4, 4) + whole[4:], "BadNext"),
        (packed(4, 800) + whole[4:], "BadNext"),
    ):
        table.row(f"answers {data.hex()}", f"answers: {refusal}")


def create_context_rows(table):
    table.title("create contexts of requests (2.2.13.2): the value of a chain, and its canonical chain")
    guid, file = bytes(range(0x40, 0x50)), bytes(range(1, 9)) * 2
    asked = Shown("Dh2q", timeout=30000, persistent=True, guid=guid), dh2q(30000, 2, guid)
    plain = Shown("Dh2q", timeout=0, persistent=False, guid=guid), dh2q(0, 0, guid)
    again = Shown("Dh2c", file=file, guid=guid, persistent=True), dh2c(file, guid, 2)
    chain_row(table, create_chain([(b"DH2Q", asked[1])]), dh2q=asked)
    chain_row(table, create_chain([(b"DH2C", again[1])]), dh2c=again)
    chain_row(
        table,
        create_chain([(b"DH2Q", asked[1]), (b"DH2C", again[1]), (b"MxAc", b""), (b"QFid", b"")]),
        dh2q=asked,
        dh2c=again,
        mxac=(True, b""),
        qfid=(True, b""),
    )
    chain_row(
        table,
        create_chain([(b"QFid", b""), (b"MxAc", bytes(8)), (b"DH2Q", dh2q(0, 0, guid, reserved=5))]),
        dh2q=plain,
        mxac=(True, b""),
        qfid=(True, b""),
    )
    lease, instance = bytes(52), bytes.fromhex("45bca66aefa7f74a9008fa462e144d74")
    chain_row(
        table,
        create_chain([(b"DHnQ", bytes(16)), (b"RqLs", lease), (b"MxAc", b""), (instance, bytes(20)), (b"QFid", b"123")]),
        mxac=(True, b""),
        qfid=(True, b""),
    )
    chain_row(table, create_chain([(b"AlSi", bytes(8)), (b"SecD", b"")]))
    chain_row(table, create_context(b"DH2Q", plain[1], name_at=24, data_at=40), dh2q=plain)
    chain_refusals(table, asked[1])
    answer_rows(table)


LENGTHS = {b"DH2Q": (32,), b"DH2C": (36,)}


def chain_break(data):
    """The first break of a request's chain, by a slow reader, or none; no bytes are a chain of no contexts."""
    at = 0
    while data:
        if len(data) < at + 16:
            return "Short"
        next, name_at, name_length, _, data_at, data_length = struct.unpack_from("<IHHHHI", data, at)
        if next % 8 or at + next > len(data):
            return "BadNext"
        end = next or len(data) - at
        for place, length in ((name_at, name_length), (data_at, data_length)):
            if length and not 16 <= place <= place + length <= end:
                return "Short"
        name = data[at + name_at : at + name_at + name_length]
        if data_length not in LENGTHS.get(name, (data_length,)):
            return f"BadLength({shown(name)})"
        if next == 0:
            return None
        at += next


def chain_cuts(table, data):
    found = []
    for length in range(len(data) + 1):
        word = chain_break(data[:length]) or "read"
        if not found or found[-1][1] != word:
            found.append((length, word))
    table.row(f"cuts chain {data.hex()}", "cuts chain: " + ", ".join(f"{length} {word}" for length, word in found))


def chain_refusals(table, data):
    table.title("chains that do not read")
    whole = create_chain([(b"DH2Q", data)])
    two = create_chain([(b"MxAc", b""), (b"DH2Q", data)])
    for bytes_of, refusal in (
        (whole[:15], "Short"),
        (whole[:19], "Short"),
        (whole[:-1], "Short"),
        (two[: 24 + 10], "Short"),
        (two[:-1], "Short"),
        (packed(4, 4) + two[4:], "BadNext"),
        (packed(4, 25) + two[4:], "BadNext"),
        (packed(4, 2**32 - 8) + two[4:], "BadNext"),
        (packed(4, 4096) + two[4:], "BadNext"),
        (two[:24] + packed(4, 1 << 20) + two[28:], "BadNext"),
        (create_chain([(b"DH2Q", data[:-1])]), f"BadLength({shown(b'DH2Q')})"),
        (create_chain([(b"DH2Q", b"")]), f"BadLength({shown(b'DH2Q')})"),
        (create_chain([(b"DH2Q", data + b"\0")]), f"BadLength({shown(b'DH2Q')})"),
        (create_chain([(b"QFid", b""), (b"DH2C", bytes(35))]), f"BadLength({shown(b'DH2C')})"),
        (create_chain([(b"DH2C", bytes(37))]), f"BadLength({shown(b'DH2C')})"),
    ):
        assert chain_break(bytes_of) == refusal
        table.row(f"chain {bytes_of.hex()}", f"chain: {refusal}")
    chain_cuts(table, two)
    chain_cuts(table, create_chain([(b"QFid", b""), (b"DH2C", bytes(36)), (b"RqLs", bytes(32))]))
