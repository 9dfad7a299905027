"""Slow plain readers of what stands in the messages of a logon, by `struct` alone.

Headers (MS-SMB2 2.2.1.2), the contexts of NEGOTIATE and of CREATE (2.2.3.1, 2.2.13.2, 2.2.14.2), SPNEGO's tokens (RFC 4178 4.2, X.690
8.1) and NTLM's messages (MS-NLMP 2.2.1). Each gives the lines that a program over rows prints: a value and its canonical spelling, or
the first break alone. Breaks are looked for from the front, in the order of the fields that the documents give.
"""
import struct

import session_formulas as f
import wire_contexts as contexts
from wire_layouts import aligned
from wire_shown import Shown, shown, some


def digits(data):
    return data.hex() or "-"


def told(value, spelling):
    return [str(value), f"  {digits(spelling)}"]


# ---- headers


def header(m):
    if len(m) < 64:
        return ["Short"]
    if m[:4] != contexts.PROTOCOL:
        return [f"BadProtocol({shown(m[:4])})"]
    size = struct.unpack_from("<H", m, 4)[0]
    if size != 64:
        return [f"BadSize({size})"]
    names = ("charge", "status", "command", "credits", "flags", "next", "message", "reserved", "tree", "session")
    fields = dict(zip(names, struct.unpack_from("<HIHHIIQIIQ", m, 6)), signature=m[48:64])
    del fields["reserved"]
    return told(Shown("Header", **fields), contexts.header(**fields))


# ---- the contexts of NEGOTIATE


def ids_in(data, at):
    return list(struct.unpack_from(f"<{struct.unpack_from('<H', data)[0]}H", data, at))


def lists_fit(kind, data):
    if kind == 1:
        return len(data) >= 4 and sum(struct.unpack_from("<HH", data)) + struct.unpack_from("<H", data)[0] + 4 <= len(data)
    return kind not in (2, 8) or len(data) >= 2 and 2 + 2 * struct.unpack_from("<H", data)[0] <= len(data)


def offer(count, m):
    """So many contexts: what they offer, and the offer as it is written with a salt of 32 bytes 5a."""
    at, found = 0, []
    for _ in range(count):
        at = aligned(at)
        if len(m) < at + 8:
            return ["Short"]
        kind, length = struct.unpack_from("<HH", m, at)
        found.append((kind, m[at + 8 : at + 8 + length]))
        at += 8 + length
        if len(m) < at:
            return ["Short"]
    if not all(lists_fit(*each) for each in found):
        return ["Short"]
    for place, (kind, _) in enumerate(found):
        if kind in (1, 2, 8) and kind in [other for other, _ in found[:place]]:
            return [f"Doubled({kind})"]
    of_kind = dict(found)
    sha512 = 1 in of_kind and 1 in ids_in(of_kind[1], 4)
    ciphers, signings = (ids_in(of_kind[kind], 2) if kind in of_kind else [] for kind in (2, 8))
    line = f"sha512 {shown(sha512)} preauth {shown(1 in of_kind)} ciphers {shown(ciphers)} signings {shown(signings)}"
    if not sha512:
        return [line]
    lists = [(kind, contexts.ids_data(ids)) for kind, ids in ((2, ciphers), (8, signings)) if ids]
    return [line, "  " + contexts.negotiate_contexts([(1, contexts.hash_data([1], b"\x5a" * 32)), *lists]).hex()]


# ---- the contexts of CREATE


def chained(m, lengths):
    """The contexts of a chain by their names, of two with one name the first; or its first break."""
    at, found = 0, {}
    while m:
        if len(m) < at + 16:
            return "Short"
        next, name_at, name_length, _, data_at, data_length = struct.unpack_from("<IHHHHI", m, at)
        if next % 8 or at + next > len(m):
            return "BadNext"
        end = next or len(m) - at
        for place, length in ((name_at, name_length), (data_at, data_length)):
            if length and not 16 <= place <= place + length <= end:
                return "Short"
        name = m[at + name_at : at + name_at + name_length]
        if data_length != lengths.get(name, data_length):
            return f"BadLength({shown(name)})"
        found.setdefault(name, m[at + data_at : at + data_at + data_length])
        if next == 0:
            return found
        at += next
    return found


def flag(number):
    return number & 2 != 0


def chain(m):
    found = chained(m, {b"DH2Q": 32, b"DH2C": 36})
    if isinstance(found, str):
        return [found]
    value, written = {"dh2q": None, "dh2c": None, "mxac": b"MxAc" in found, "qfid": b"QFid" in found}, []
    if b"DH2Q" in found:
        timeout, flags, guid = struct.unpack("<II8x16s", found[b"DH2Q"])
        value["dh2q"] = some(Shown("Dh2q", timeout=timeout, persistent=flag(flags), guid=guid))
        written.append((b"DH2Q", contexts.dh2q(timeout, flags & 2, guid)))
    if b"DH2C" in found:
        file, guid, flags = struct.unpack("<16s16sI", found[b"DH2C"])
        value["dh2c"] = some(Shown("Dh2c", file=file, guid=guid, persistent=flag(flags)))
        written.append((b"DH2C", contexts.dh2c(file, guid, flags & 2)))
    written += [(name, b"") for name in (b"MxAc", b"QFid") if name in found]
    return told(Shown("CreateContexts", **value), contexts.create_chain(written))


def answers(m):
    found = chained(m, {b"DH2Q": 8, b"MxAc": 8, b"QFid": 32})
    if isinstance(found, str):
        return [found]
    value, written = {"dh2q": None, "mxac": None, "qfid": None}, []
    if b"DH2Q" in found:
        timeout, flags = struct.unpack("<II", found[b"DH2Q"])
        value["dh2q"] = some(Shown("Dh2qReply", timeout=timeout, persistent=flag(flags)))
        written.append((b"DH2Q", struct.pack("<II", timeout, flags & 2)))
    if b"MxAc" in found:
        status, access = struct.unpack("<II", found[b"MxAc"])
        value["mxac"] = some(Shown("MaximalAccess", query_status=status, maximal_access=access))
        written.append((b"MxAc", found[b"MxAc"]))
    if b"QFid" in found:
        file, volume = struct.unpack_from("<QQ", found[b"QFid"])
        value["qfid"] = some(Shown("DiskId", file=file, volume=volume))
        written.append((b"QFid", found[b"QFid"][:16] + bytes(16)))
    return told(Shown("ReplyContexts", **value), contexts.create_chain(written))


# ---- SPNEGO


class Break(Exception):
    """The first break of a token."""


class Piece:
    """Bytes of a token, and the place of the first of them in it."""

    def __init__(self, data, at=0):
        self.data, self.at = data, at

    def starts(self, tag):
        return self.data[:1] == bytes([tag])

    def length(self):
        """How many bytes the length behind the tag takes, and the length."""
        if len(self.data) < 2:
            raise Break(f"Truncated({self.at + 1})")
        first = self.data[1]
        if first < 0x80:
            return 1, first
        if not 0x81 <= first <= 0x84:
            raise Break(f"BadLength({self.at + 1})")
        if len(self.data) < 2 + first - 0x80:
            raise Break(f"Truncated({self.at + 1})")
        return first - 0x7F, int.from_bytes(self.data[2 : 2 + first - 0x80], "big")

    def element(self, tag):
        """The contents of the element with this tag, and what stands behind it."""
        if not self.data:
            raise Break(f"Truncated({self.at})")
        if not self.starts(tag):
            raise Break(f"BadTag({self.at}, {self.data[0]})")
        took, length = self.length()
        end = 1 + took + length
        if len(self.data) < end:
            raise Break(f"Truncated({self.at + 1})")
        return Piece(self.data[1 + took : end], self.at + 1 + took), Piece(self.data[end:], self.at + end)

    def ends(self):
        if self.data:
            raise Break(f"Trailing({self.at})")


def octets(piece, tag):
    """An element of one OCTET STRING, where it comes next."""
    if not piece.starts(tag):
        return None, piece
    contents, rest = piece.element(tag)
    text, behind = contents.element(4)
    behind.ends()
    return text.data, rest


def spnego_named(piece):
    name, rest = piece.element(6)
    if len(name.data) != len(f.SPNEGO_OID):
        raise Break(f"BadLength({piece.at + 1})")
    for place, (found, due) in enumerate(zip(name.data, f.SPNEGO_OID)):
        if found != due:
            raise Break(f"BadTag({name.at + place}, {found})")
    return rest


def names_in(piece):
    """The object identifiers of a SEQUENCE, which is all of the piece."""
    listed, rest = piece.element(0x30)
    names = []
    while listed.data:
        name, listed = listed.element(6)
        names.append(name.data)
    rest.ends()
    return names


def init_fields(piece):
    types, rest = piece.element(0xA0)
    names = names_in(types)
    if rest.starts(0xA1):
        rest = rest.element(0xA1)[1]
    token, rest = octets(rest, 0xA2)
    hinted = False
    if rest.starts(0xA3):
        hints, behind = rest.element(0xA3)
        hinted = hints.starts(0x30)
        rest = behind if hinted else rest
    mic, rest = octets(rest, 0xA4 if hinted else 0xA3)
    rest.ends()
    return types.data, names, token, mic


def word_of(data):
    return "none" if data is None else digits(data)


def init(m):
    try:
        inside, behind = Piece(m).element(0x60)
        choice, behind_choice = spnego_named(inside).element(0xA0)
        sequence, behind_sequence = choice.element(0x30)
        listed, names, token, mic = init_fields(sequence)
        for rest in (behind_sequence, behind_choice, behind):
            rest.ends()
    except Break as found:
        return [str(found)]
    if f.NTLM_OID not in names:
        return ["NoNtlm"]
    first = names[0] == f.NTLM_OID
    alone = listed == f.mech_list(f.NTLM_OID)
    line = f"list {listed.hex()} ntlm_first {shown(first)} token {word_of(token)} mic {word_of(mic)}"
    return [line, f"  {f.init_token(listed, token, mic).hex() if alone else 'with another mechanism'}"]


def resp_fields(piece):
    state, ntlm = None, False
    if piece.starts(0xA0):
        contents, rest = piece.element(0xA0)
        number, behind = contents.element(0x0A)
        if len(number.data) != 1:
            raise Break(f"BadLength({contents.at + 1})")
        behind.ends()
        state, piece = number.data[0], rest
    if piece.starts(0xA1):
        contents, rest = piece.element(0xA1)
        name, behind = contents.element(6)
        behind.ends()
        ntlm, piece = name.data == f.NTLM_OID, rest
    token, piece = octets(piece, 0xA2)
    mic, piece = octets(piece, 0xA3)
    piece.ends()
    return state, ntlm, token, mic


def resp(m):
    try:
        choice, behind = Piece(m).element(0xA1)
        sequence, behind_sequence = choice.element(0x30)
        state, ntlm, token, mic = resp_fields(sequence)
        for rest in (behind_sequence, behind):
            rest.ends()
    except Break as found:
        return [str(found)]
    number = "none" if state is None else state
    line = f"state {number} ntlm {shown(ntlm)} token {word_of(token)} mic {word_of(mic)}"
    return [line, f"  {f.resp_token(state, f.NTLM_OID if ntlm else None, token, mic).hex()}"]


# ---- NTLM


def front_break(m, fixed, kind):
    if len(m) < fixed or m[:8] != b"NTLMSSP\0":
        return "BadSignature"
    found = struct.unpack_from("<I", m, 8)[0]
    return None if found == kind else f"BadType({found})"


def part(m, at):
    """A part that the message tells at a place, or nothing where it leaves the message."""
    count, _, start = struct.unpack_from("<HHI", m, at)
    return None if count and start + count > len(m) else m[start : start + count] if count else b""


def parts_break(m, places):
    for name, at in places:
        if part(m, at) is None:
            return f"OutOfRange({name})"
    return None


def pairs_break(info, at):
    """The place of the first pair that doesn't fit before an end pair."""
    while len(info) >= 4:
        kind, length = struct.unpack_from("<HH", info)
        if kind == 0:
            return None
        if len(info) < 4 + length:
            break
        info, at = info[4 + length :], at + 4 + length
    return f"BadPairs({at})"


def type1(m):
    found = front_break(m, 16, 1)
    if found:
        return [found]
    flags = struct.unpack_from("<I", m, 12)[0]
    return told(Shown("Type1", flags=flags), f.type1(flags))


def type2(m):
    found = front_break(m, 56, 2) or parts_break(m, (("TargetName", 12), ("TargetInfo", 40)))
    if found:
        return [found]
    name, info, flags, challenge = part(m, 12), part(m, 40), struct.unpack_from("<I", m, 20)[0], m[24:32]
    found = pairs_break(info, struct.unpack_from("<I", m, 44)[0]) if info else None
    if found:
        return [found]
    value = Shown("Type2", flags=flags, challenge=challenge, target_name=name, target_info=info)
    return told(value, f.type2(flags, challenge, name, info))


TYPE_3 = (("Lm", 12), ("Nt", 20), ("Domain", 28), ("User", 36), ("Workstation", 44), ("SessionKey", 52))


def type3(m):
    found = front_break(m, 88, 3) or parts_break(m, TYPE_3)
    if found:
        return [found]
    lm, nt, domain, user, workstation, key = (part(m, at) for _, at in TYPE_3)
    # an NTLMv2 response has its pairs behind 44 bytes (2.2.2.7, 2.2.2.8)
    found = pairs_break(nt[44:], struct.unpack_from("<I", m, 24)[0] + 44) if len(nt) >= 44 else None
    if found:
        return [found]
    flags, mic = struct.unpack_from("<I", m, 60)[0], m[72:88]
    value = Shown(
        "Type3", flags=flags, lm=lm, nt=nt, domain=domain, user=user, workstation=workstation, session_key=key, mic=mic
    )
    return told(value, f.Type3(flags, lm, nt, domain, user, workstation, key, mic).spelled())
