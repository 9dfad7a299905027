#!/usr/bin/env python3
"""Writes the table of logon tokens, keys, signatures and sealed messages, which are rows of the program crates/test_messages.

usage: tools/session-vectors.py

The answers are those of session_formulas.py, that is of hashlib, OpenSSL and the RFCs; the rows of MS-NLMP 4.2.4 and of
Microsoft's published derivations are compared with the published numbers first. In a row `-` is no bytes; a message is
hexadecimal digits and `COUNT*FIRST` (byte i is (7 i + FIRST) mod 256), joined by `+`. Bytes above 200 are told as their count
and their SHA-256. Lines that begin with `#` are printed as they are.
"""
import hashlib
import struct
import sys

import session_formulas as f
import vector_parts
import worked_logon as worked
from session_formulas import Type3, der, pairs, utf16
from wire_contexts import header
from wire_shown import Shown

CHALLENGE = bytes.fromhex("0123456789abcdef")
NOW = 0x01D9A0B1C2D3E4F5
CLIENT_FLAGS, USUAL_FIRST, USUAL_LAST = 0x60080215, 0xE2088297, 0xE2888215
EXPORTED = bytes(range(0xC0, 0xD0))


class Table:
    def __init__(self):
        self.asked, self.answered = [], []

    def title(self, words):
        self.asked.append(f"# {words}")
        self.answered.append(f"# {words}")

    def row(self, asked, *answered):
        self.asked.append(f"logon {asked}")
        self.answered += [f"{asked.split()[0]}: {answered[0]}", *[f"  {line}" for line in answered[1:]]]

    def write(self):
        for file, lines in (("stdin", self.asked), ("stdout", self.answered)):
            vector_parts.put("test_messages", file, "session-vectors.py", lines)


def digits(data):
    return data.hex() or "-"


def shown(data):
    return digits(data) if len(data) <= 200 else f"{len(data)} sha256 {hashlib.sha256(data).hexdigest()}"


def said(word):
    """The bytes of a message's words."""
    out = b""
    for part in word.split("+"):
        count, star, first = part.partition("*")
        out += bytes((7 * i + int(first)) % 256 for i in range(int(count))) if star else bytes.fromhex(part)
    return out


# ---- NTLM


def published(table):
    """MS-NLMP 4.2.4: User, Password, Domain, all keys and messages as printed there."""
    table.title("MS-NLMP 4.2.4, as published: NTOWFv2, proof, session base key, messages, and a message enciphered under a sealing key")
    info = pairs((2, utf16("Domain")), (1, utf16("Server")))
    owf, blob = f.ntowf("Password", "User", "Domain"), f.temp(0, b"\xaa" * 8, info)
    answer = f.proof(owf, CHALLENGE, blob)
    base = f.hmac_md5(owf, answer)
    assert owf.hex() == "0c868a403bfd7a93a3001ef22ef02e3f" and answer.hex() == "68cd0ab851e51c96aabc927bebef6a1c"
    assert (
        base.hex() == "8de40ccadbc14a82f15cb0ad0de95ca3" and f.Rc4(base).apply(b"\x55" * 16).hex() == "c5dad2544fc9799094ce1ce90bc9d03e"
    )
    stream = f.Rc4(f.session_key_of(b"\x55" * 16, True, "sealing"))
    assert stream.apply(utf16("Plaintext")).hex() == "54e50165bf1936dc996020c1811b0f06fb5f"
    assert f.message_signature(b"\x55" * 16, True, True, utf16("Plaintext"), 0, stream).hex() == "010000007fb38ec5c55d497600000000"
    for user in ("User", "user", "uSER"):
        table.row(f"ntowf Password {user} Domain", owf.hex())
    table.row(f"proof {owf.hex()} {CHALLENGE.hex()} {blob.hex()}", answer.hex())
    table.row(f"base_key {owf.hex()} {answer.hex()}", base.hex())
    table.row(f"rc4 {base.hex()} {(b'U' * 16).hex()}", "c5dad2544fc9799094ce1ce90bc9d03e")
    table.row(f"rc4 59f600973cc4960a25480a7c196e4c58 {utf16('Plaintext').hex()}", "54e50165bf1936dc996020c1811b0f06fb5f")
    published_messages(table)


PUBLISHED_2 = (
    "4e544c4d53535000020000000c000c003800000033828ae20123456789abcdef00000000000000002400240044000000060070170000000f"
    "53006500720076006500720002000c0044006f006d00610069006e0001000c0053006500720076006500720000000000"
)
PUBLISHED_3 = (
    "4e544c4d5353500003000000180018006c00000054005400840000000c000c00480000000800080054000000100010005c00000010001000d8000000"
    "358288e20501280a0000000f44006f006d00610069006e005500730065007200"
    "43004f004d0050005500540045005200"
    "86c35097ac9cec102554764a57cccc19aaaaaaaaaaaaaaaa68cd0ab851e51c96aabc927bebef6a1c01010000000000000000000000000000aaaaaaaaaaaaaaaa"
    "0000000002000c0044006f006d00610069006e0001000c005300650072007600650072000000000000000000c5dad2544fc9799094ce1ce90bc9d03e"
)


def published_messages(table):
    """The challenge, and the authenticate message, in which the places of a MIC are the front of its payload."""
    second, third = bytes.fromhex(PUBLISHED_2), bytes.fromhex(PUBLISHED_3)
    name, info = second[56:68], second[68:104]
    table.row(f"type2 {PUBLISHED_2}", type2_shown(0xE28A8233, CHALLENGE, name, info), f.type2(0xE28A8233, CHALLENGE, name, info).hex())
    read = Type3(0xE2888235, third[108:132], third[132:216], third[72:84], third[84:92], third[92:108], third[216:232], mic=third[72:88])
    table.row(f"type3 {PUBLISHED_3}", type3_shown(read), read.spelled().hex())


def type2_shown(flags, challenge, name, info):
    return Shown("Type2", flags=flags, challenge=challenge, target_name=name, target_info=info)


def type3_shown(m):
    return Shown(
        "Type3",
        flags=m.flags,
        lm=m.lm,
        nt=m.nt,
        domain=m.domain,
        user=m.user,
        workstation=m.workstation,
        session_key=m.session_key,
        mic=m.mic,
    )


def formulas(table):
    table.title("the formulas on other texts: an empty domain, text beyond ASCII, a long password")
    for password, user, domain in (
        ("Password", "User", "-"),
        ("pässwörd", "Bob", "-"),
        ("\U0001F600key", "admin", "DOMÄNE"),
        ("x" * 100, "a", "b"),
    ):
        table.row(f"ntowf {password} {user} {domain}", f.ntowf(password, user, "" if domain == "-" else domain).hex())
    messages = [bytes(40), bytes(range(150)), bytes(range(200, 255)) * 5]
    table.row(f"mic {EXPORTED.hex()} " + " ".join(m.hex() for m in messages), f.mic(EXPORTED, *messages).hex())
    listed = f.mech_list(f.NTLM_OID)
    for key in (b"\x55" * 16, EXPORTED):
        for side in ("client", "server"):
            for exchanged in ("exchanged", "plain"):
                table.row(
                    f"list_mic {key.hex()} {side} {exchanged} {listed.hex()}",
                    f.message_signature(key, side == "client", exchanged == "exchanged", listed).hex(),
                )


def server_info():
    name, low = utf16("SMB311"), utf16("smb311")
    return (2, name), (1, name), (4, low), (3, low), (7, struct.pack("<Q", NOW))


def challenge_of(first_flags):
    flags = 0x00820204 | first_flags & (1 | 0x10 | 0x20 | 0x8000 | 0x80000 | 0x20000000 | 0x40000000)
    return f.type2(flags, CHALLENGE, utf16("SMB311"), pairs(*server_info()))


class Logon:
    """A client's third message to a first one and its challenge."""

    def __init__(
        self, first=None, flags=CLIENT_FLAGS, user="User", password="Password", domain="", workstation="", told=2, exported=EXPORTED
    ):
        self.first = first or f.type1(CLIENT_FLAGS)
        self.second = challenge_of(struct.unpack_from("<I", self.first, 12)[0])
        kept = server_info() + (((6, struct.pack("<I", told)),) if told is not None else ())
        owf, blob = f.ntowf(password, user, domain), f.temp(NOW, b"\x11" * 8, pairs(*kept))
        answer = f.proof(owf, CHALLENGE, blob)
        base = f.hmac_md5(owf, answer)
        self.name = {"USER": "User", "BOB": "bob"}.get(user.upper())
        self.exchanged = bool(flags & 0x40000000)
        self.key = exported if self.exchanged else base
        carried = f.Rc4(base).apply(exported) if self.exchanged else b""
        self.third = Type3(flags, bytes(24), answer + blob, utf16(domain), utf16(user), utf16(workstation), carried)
        self.third.mic = f.mic(self.key, self.first, self.second, self.third.spelled())

    def row(self, table, answer=None):
        words = answer or f"{self.key.hex()} {'exchanged' if self.exchanged else 'plain'} {self.name}"
        table.row(f"check {self.first.hex()} {CHALLENGE.hex()} {NOW} {self.third.spelled().hex()}", words)


def token_messages(table):
    table.title("messages of type 1 to 3: this project's client, a usual client with its version bytes, other orders, refusals")
    first, usual = f.type1(CLIENT_FLAGS), f.type1(USUAL_FIRST, bytes.fromhex("0a0063450000000f"))
    for message, flags in ((first, CLIENT_FLAGS), (usual, USUAL_FIRST)):
        table.row(f"type1 {message.hex()}", Shown("Type1", flags=flags), f.type1(flags).hex())
        table.row(f"challenge {message.hex()} {CHALLENGE.hex()} {NOW}", challenge_of(flags).hex())
    info = pairs((2, utf16("D")), (7, bytes(8)))
    for name, told, version in ((utf16("SMB311"), info, bytes(8)), (b"", info, bytes(range(8))), (b"", b"", bytes(8))):
        second = f.type2(0x60880215, CHALLENGE, name, told, version)
        table.row(
            f"type2 {second.hex()}", type2_shown(0x60880215, CHALLENGE, name, told), f.type2(0x60880215, CHALLENGE, name, told).hex()
        )
    third = Logon(domain="WORK", workstation="PC").third
    table.row(f"type3 {third.spelled().hex()}", type3_shown(third), third.spelled().hex())
    table.row("first -", first.hex())
    token_refusals(table, first, third)


def field_set(message, at, length, offset):
    return message[:at] + struct.pack("<HHI", length, length, offset) + message[at + 8 :]


def token_refusals(table, first, third):
    second, last = f.type2(1, CHALLENGE, utf16("SMB311"), pairs((2, utf16("D")))), third.spelled()
    for kind, message, shortest in (("type1", first, 16), ("type2", second, 56), ("type3", last, 88)):
        table.row(f"{kind} {message[:shortest - 1].hex()}", "BadSignature")
        table.row(f"{kind} {(b'ntlmssp' + message[7:]).hex()}", "BadSignature")
        other = 3 if kind == "type1" else 1
        table.row(f"{kind} {(message[:8] + struct.pack('<I', other) + message[12:]).hex()}", f"BadType({other})")
    table.row(f"type1 {first[:16].hex()}", Shown("Type1", flags=CLIENT_FLAGS), first.hex())
    for at, name in ((12, "TargetName"), (40, "TargetInfo")):
        table.row(f"type2 {field_set(second, at, 8, len(second) - 7).hex()}", f"OutOfRange({name})")
        table.row(f"type2 {field_set(second, at, 1, 2**32 - 1).hex()}", f"OutOfRange({name})")
    for at, name in ((12, "Lm"), (20, "Nt"), (28, "Domain"), (36, "User"), (44, "Workstation"), (52, "SessionKey")):
        table.row(f"type3 {field_set(last, at, 8, len(last) - 7).hex()}", f"OutOfRange({name})")
    table.row(f"type3 {field_set(field_set(last, 28, 8, len(last)), 20, 8, len(last)).hex()}", "OutOfRange(Nt)")
    start = 56 + 12
    for broken, place in ((struct.pack("<HH", 2, 30) + bytes(4), start), (struct.pack("<HHH", 2, 2, 0), start + 6), (b"\2\0\2", start)):
        table.row(f"type2 {f.type2(1, CHALLENGE, utf16('SMB311'), broken).hex()}", f"BadPairs({place})")
    nt_at = 88 + 24
    bad = Type3(CLIENT_FLAGS, bytes(24), bytes(44) + struct.pack("<HH", 1, 9), b"", utf16("User"), b"", b"")
    table.row(f"type3 {bad.spelled().hex()}", f"BadPairs({nt_at + 44})")
    short = Type3(CLIENT_FLAGS, bytes(24), bytes(43), b"", utf16("User"), b"", b"")
    table.row(f"type3 {short.spelled().hex()}", type3_shown(short), short.spelled().hex())


def logons(table):
    table.title("the client's answers; the acceptor over users User:Password and bob:secret: the exported key, or its refusal")
    for user, password, domain in (("User", "Password", ""), ("bob", "secret", "WORK"), ("User", "p\u00e4ss", "")):
        made = Logon(user=user, password=password, domain=domain)
        words = f"{user} {password} {domain or '-'} {'11' * 8} {EXPORTED.hex()} {made.first.hex()} {made.second.hex()}"
        table.row(f"answer {words}", made.third.spelled().hex())
    Logon().row(table)
    Logon(user="bob", password="secret", told=None).row(table)
    Logon(user="USER", domain="WORKGROUP", workstation="PC").row(table)
    usual = f.type1(USUAL_FIRST, bytes.fromhex("0a0063450000000f"))
    Logon(first=usual, flags=USUAL_LAST, domain="DÖM", workstation="LAPTOP").row(table)
    Logon(flags=CLIENT_FLAGS & ~0x40000000).row(table)
    Logon(flags=CLIENT_FLAGS & ~0x40000000, told=None).row(table)
    Logon(password="password").row(table, "WrongProof")
    Logon(user="Users").row(table, "UnknownUser")
    Logon(user="Üser").row(table, "NotAscii")
    for flag in (1, 0x80000, 0x20000000):
        Logon(flags=CLIENT_FLAGS & ~flag).row(table, "WrongProof")
    wrong = Logon()
    wrong.third.mic = bytes(16)
    wrong.row(table, "WrongMic")
    for told, answer in ((0, None), (1, None), (3, "WrongMic"), (None, None)):
        other = Logon(told=told)
        other.third.mic = bytes(range(16))
        other.row(table, answer)
    both = Logon(password="other")
    both.third.mic = bytes(16)
    both.row(table, "WrongProof")
    cut = Logon()
    cut.third.nt = cut.third.nt[:43]
    cut.row(table, "WrongProof")


# ---- SPNEGO


def word_of(data):
    return "none" if data is None else digits(data)


def init_row(table, token, listed, ntlm_first, mech_token=None, mic=None):
    table.row(
        f"init {token.hex()}",
        f"list {listed.hex()} ntlm_first {str(ntlm_first).lower()} token {word_of(mech_token)} mic {word_of(mic)}",
        f.init_token(listed, mech_token, mic).hex() if listed == f.mech_list(f.NTLM_OID) else "with another mechanism",
    )


def resp_row(table, token, state=None, ntlm=False, inner=None, mic=None):
    table.row(
        f"resp {token.hex()}",
        f"state {'none' if state is None else state} ntlm {str(ntlm).lower()} token {word_of(inner)} mic {word_of(mic)}",
        f.resp_token(state, f.NTLM_OID if ntlm else None, inner, mic).hex(),
    )


def tokens(table):
    table.title("SPNEGO (RFC 4178 4.2): tokens read, and written with the shortest lengths")
    one, mic = f.mech_list(f.NTLM_OID), bytes(range(16))
    three = f.mech_list(f.KERBEROS_OID, f.NTLM_OID, bytes.fromhex("2a864882f712010202"))
    first, long = f.type1(CLIENT_FLAGS), said("300*5")
    assert f.init_token(one).hex() == "601c06062b0601050502a0123010a00e300c060a2b06010401823702020a"
    init_row(table, f.init_token(one), one, True)
    init_row(table, f.init_token(one, first), one, True, first)
    init_row(table, f.init_token(one, first, mic), one, True, first, mic)
    init_row(table, f.init_token(three, long), three, False, long)
    init_row(table, f.init_token(one, said("120*1")), one, True, said("120*1"))
    init_row(table, f.init_token(one, first, req_flags=der(3, b"\1\x80")), one, True, first)
    hints = der(0x30, der(0xA0, der(0x1B, b"not_defined_in_RFC4178@please_ignore")))
    init_row(table, f.init_token(one, hints=hints), one, True)
    init_row(table, f.init_token(one, first, mic, hints=hints), one, True, first, mic)
    for form in (1, 2, 3, 4):
        init_row(table, f.init_token(one, first, mic, form=form), one, True, first, mic)
    resp_row(table, f.resp_token(1, f.NTLM_OID, first), 1, True, first)
    resp_row(table, f.resp_token(0, mic=mic), 0, False, None, mic)
    resp_row(table, f.resp_token(2), 2)
    resp_row(table, f.resp_token(token=long, mic=mic), None, False, long, mic)
    resp_row(table, f.resp_token(3, f.NTLM_OID), 3, True)
    for form in (1, 2, 3, 4):
        resp_row(table, f.resp_token(1, f.NTLM_OID, first, mic, form=form), 1, True, first, mic)
    resp_row(table, f.resp_token())
    token_breaks(table, one, first)


def token_breaks(table, one, first):
    table.title("tokens that do not read")
    plain = f.init_token(one)
    table.row(f"init {f.init_token(f.mech_list(f.KERBEROS_OID)).hex()}", "NoNtlm")
    table.row(f"init {f.resp_token(1).hex()}", "BadTag(0, 161)")
    table.row(f"resp {plain.hex()}", "BadTag(0, 96)")
    table.row(f"init {first.hex()}", "BadTag(0, 78)")
    for place, tag in ((2, 4), (10, 0xA1), (12, 0x31), (14, 0xA5), (16, 0x31), (18, 4)):
        broken = plain[:place] + bytes([tag]) + plain[place + 1 :]
        table.row(f"init {broken.hex()}", f"BadTag({place}, {tag})")
    table.row(f"init {(plain[:1] + bytes([0x80]) + plain[2:]).hex()}", "BadLength(1)")
    table.row(f"init {(plain[:1] + bytes([0x85, 0, 0, 0, 0, 28]) + plain[2:]).hex()}", "BadLength(1)")
    for bytes_of, refusal in (
        (plain[:29], "Truncated(1)"),
        (plain[:1], "Truncated(1)"),
        (b"", "Truncated(0)"),
        (plain + b"1", "Trailing(30)"),
        (plain[:3] + b"\7" + plain[4:], "BadLength(3)"),
        (plain[:9] + b"\3" + plain[10:], "BadTag(9, 3)"),
        (plain[:11] + b"\x13" + plain[12:], "Truncated(11)"),
        (plain[:11] + b"\x11" + plain[12:], "Truncated(13)"),
    ):
        table.row(f"init {digits(bytes_of)}", refusal)
    answer = f.resp_token(0)
    table.row(f"resp {(answer + b'12').hex()}", f"Trailing({len(answer)})")
    table.row(f"resp {(answer[:1] + bytes([0x80]) + answer[2:]).hex()}", "BadLength(1)")
    table.row(f"resp {(answer[:2] + bytes([0x31]) + answer[3:]).hex()}", "BadTag(2, 49)")


# ---- chain, keys, signatures


def choices(table):
    table.title(
        "the choice of a server (MS-SMB2 3.3.5.4): whether there is a preauthentication context with SHA-512, ciphers, algorithms"
    )
    for preauth, sha512, ciphers, signings, answer in (
        ("yes", "yes", "2,1,4,3", "1,2", (2, 1, True)),
        ("yes", "yes", "4,2", "2,1", (4, 2, True)),
        ("yes", "yes", "-", "-", (0, 1, False)),
        ("yes", "yes", "9,3", "0", (3, 1, False)),
        ("yes", "yes", "5,6", "-", (0, 1, False)),
        ("yes", "yes", "0,65535,1,2", "7,2", (1, 2, True)),
        ("yes", "yes", "2,1,4,3", "2,1,0", (2, 2, True)),
        ("yes", "no", "2", "1", "NoHash"),
        ("no", "no", "2", "1", "NoPreauth"),
        ("no", "yes", "-", "-", "NoPreauth"),
    ):
        if not isinstance(answer, str):
            answer = Shown("Chosen", cipher=answer[0], signing=answer[1], signing_told=answer[2])
        table.row(f"choice {preauth} {sha512} {ciphers} {signings}", answer)


def chains(table):
    table.title("the preauthentication chain (MS-SMB2 3.3.5.4, 3.3.5.5)")
    five = [said(f"{count}*{first}") for count, first in ((190, 1), (250, 2), (150, 3), (220, 4), (333, 5))]
    words = ["190*1", "250*2", "150*3", "220*4", "333*5"]
    for count in range(6):
        table.row("chain " + (" ".join(words[:count]) or "none"), f.chain(five[:count]).hex())
    table.row("chain - 1000*7", f.chain([b"", said("1000*7")]).hex())


def derivations(table):
    table.title("Microsoft's published derivations of SMB 3.0, then those of SMB 3.1.1 (3.1.4.2) for each cipher")
    for key, label, context, answer in (
        ("b4546771b515f766a86735532dd6c4f0", "SMB2AESCCM", "ServerIn ", "261b72350558f2e9dcf613070383edbf"),
        ("b4546771b515f766a86735532dd6c4f0", "SMB2AESCCM", "ServerOut", "8fe2b57ec34d2db5b1a9727f526bbdb5"),
        ("7cd451825d0450d235424e44ba6e78cc", "SMB2AESCMAC", "SmbSign", "0b7e9c5cac36c0f6ea9ab275298cedce"),
    ):
        label_bytes, context_bytes = label.encode() + b"\0", context.encode() + b"\0"
        assert f.kdf(bytes.fromhex(key), label_bytes, context_bytes, 128).hex() == answer
        table.row(f"kdf {key} {label_bytes.hex()} {context_bytes.hex()} 128", answer + "00" * 16)
    for base, words in ((EXPORTED, "64*9"), (b"\x55" * 16, "64*200")):
        for cipher in (1, 2, 3, 4):
            algorithm, session = 1 + cipher % 2, 0x1122334455667788 + cipher
            keys = f.Keys(base, said(words), cipher)
            asked = f"keys {base.hex()} {words} {cipher} {algorithm} {session}"
            table.row(asked, keys_shown(keys, keys.signing, algorithm, cipher, session))
            bound = f.Keys(bytes(range(16)), said("64*31"), cipher).signing
            table.row(f"bound{asked[4:]} {bytes(range(16)).hex()} 64*31", keys_shown(keys, bound, algorithm, cipher, session))
        unsealed = f.Keys(base, said(words), 0)
        table.row(f"signing {base.hex()} {words}", unsealed.signing.hex())


def nonces(table):
    table.title("the first nonces of a channel: 8 bytes of counter, 2 of the channel's number, zeros (2.2.41)")
    for channel, count in ((1, 3), (513, 2), (65535, 1)):
        table.row(f"nonces {channel} {count}", b"".join(struct.pack("<QH6x", counter, channel) for counter in range(count)).hex())


def keys_shown(keys, signing, algorithm, cipher, session):
    """A bound channel signs with its own key; the keys of the ciphers are its session's."""
    long = [key.ljust(32, b"\0").hex() for key in (keys.to_server, keys.to_client)]
    return f"{signing.hex()} {algorithm} {long[0]} {long[1]} {cipher} {session}"


def message_head(response=False, command=9, number=77):
    return header(command=command, flags=9 if response else 8, message=number, session=5, signature=b"\xee" * 16).hex()


def signatures(table):
    table.title("signatures (3.1.4.1), whatever stands in the Signature field: AES-CMAC 1, AES-GMAC 2")
    key = said("16*40")
    words = [
        "64*0",
        "65*1",
        "80*2",
        "127*3",
        "1000*4",
        "100000*5",
        message_head(),
        message_head(response=True) + "+100*6",
        message_head(command=12, number=2**64 - 1),
        message_head(response=True, command=12),
        message_head(number=0) + "+65536*7",
    ]
    for algorithm in (1, 2):
        for word in words:
            table.row(f"sign {algorithm} {key.hex()} {word}", f.signature(algorithm, key, said(word)).hex())


# ---- sealing


def key_for(cipher):
    return said("32*17" if cipher in f.LONG_KEYS else "16*17")


def nonce_for(place):
    return struct.pack("<QH6x", 1000 + place, place % 3)


def seals(table):
    table.title("sealed messages (2.2.41, 3.1.4.3) under each cipher and in both directions")
    session = 0x0102030405060708
    words = ["64*1", "65*2", "79*3", "80*4", "128*5", message_head() + "+33*6", "4096*7", "100000*8"]
    for cipher in (1, 2, 3, 4):
        for place, word in enumerate(words):
            for side in ("client", "server") if place in (0, 2, 6) else ("client" if (place + cipher) % 2 else "server",):
                nonce = nonce_for(place)
                table.row(
                    f"seal {cipher} {key_for(cipher).hex()} {session} {side} {nonce.hex()} {word}",
                    shown(f.sealed(cipher, key_for(cipher), session, nonce, said(word))),
                )
    breaks(table, session)


def breaks(table, session):
    table.title("frames that do not open: the first of not sealed, another size, another session, another tag")
    for cipher in (1, 4):
        key = key_for(cipher)
        frame = f.sealed(cipher, key, session, nonce_for(1), said("64*1"))

        def row(changed, answer):
            table.row(f"unseal {cipher} {key.hex()} {session} server {changed.hex()}", answer)

        row(frame, said("64*1").hex())
        row(frame[:51], "NotSealed")
        row(b"\xfeSMB" + frame[4:], "NotSealed")
        row(frame[:-1], "BadSize(64)")
        row(frame + b"\0", "BadSize(64)")
        row(frame[:36] + struct.pack("<I", 1114061) + frame[40:], "BadSize(1114061)")
        row(frame[:36] + struct.pack("<I", 63) + frame[40:44] + bytes(8) + frame[52:], "BadSize(63)")
        row(frame[:44] + struct.pack("<Q", session + 1) + frame[52:], f"OtherSession({session + 1})")
        row(frame[:4] + bytes(16) + frame[20:44] + bytes(8) + frame[52:], "OtherSession(0)")
        for place in (4, 19, 20, 30, 40, 42, 52, 115):
            row(frame[:place] + bytes([frame[place] ^ 1]) + frame[place + 1 :], "BadTag")


# ---- worked logons


def worked_rows(table):
    """Each part of the logons of worked_logon.py, whose bytes are made there."""
    for logon in worked.worked_logons():
        table.title(f"a worked logon, {logon.name}: choice, tokens, chain, keys, signatures, sealed messages")
        offered = [",".join(map(str, ids)) or "-" for ids in (logon.ciphers, logon.signings)]
        chosen = Shown("Chosen", cipher=logon.cipher, signing=logon.signing, signing_told=bool(logon.signings))
        table.row("choice yes yes " + " ".join(offered), chosen)
        worked_tokens(table, logon.tokens)
        table.row("chain " + " ".join(message.hex() for message in logon.transcript), logon.chain.hex())
        asked = f"keys {logon.tokens.key.hex()} {logon.chain.hex()} {logon.cipher} {logon.signing} {logon.session}"
        table.row(asked, keys_shown(logon.keys, logon.keys.signing, logon.signing, logon.cipher, logon.session))
        worked_frames(table, logon)


def worked_tokens(table, t):
    table.row("first -", t.type1.hex())
    init_row(table, t.first, t.list, True, t.type1)
    table.row(f"challenge {t.type1.hex()} {t.server.hex()} {t.now}", t.type2.hex())
    resp_row(table, t.interim, 1, True, t.type2)
    client = f"{worked.USER} {worked.PASSWORD} - {t.challenge.hex()} {t.key.hex()}"
    table.row(f"answer {client} {t.type1.hex()} {t.type2.hex()}", t.type3.hex())
    table.row(f"list_mic {t.key.hex()} client exchanged {t.list.hex()}", t.second[-16:].hex())
    resp_row(table, t.second, inner=t.type3, mic=t.second[-16:])
    table.row(f"check {t.type1.hex()} {t.server.hex()} {t.now} {t.type3.hex()}", f"{t.key.hex()} exchanged {worked.USER}")
    table.row(f"list_mic {t.key.hex()} server exchanged {t.list.hex()}", t.final[-16:].hex())
    resp_row(table, t.final, 0, mic=t.final[-16:])


def worked_frames(table, logon):
    """A signature is asked of the message with zeros in its place."""
    if logon.encrypts:
        table.row("nonces 1 2", b"".join(struct.pack("<QH6x", counter, 1) for counter in range(2)).hex())
    for place, message in enumerate(logon.messages):
        if message.signed:
            bare = message.frame[:48] + bytes(16) + message.frame[64:]
            table.row(f"sign {logon.signing} {logon.keys.signing.hex()} {bare.hex()}", message.frame[48:64].hex())
        if message.sealed:
            side, key = ("server", logon.keys.to_client) if place % 2 else ("client", logon.keys.to_server)
            asked = f"{logon.cipher} {key.hex()} {logon.session} {side} {message.frame[20:36].hex()} {message.text.hex()}"
            table.row(f"seal {asked}", shown(message.frame))


def main():
    if len(sys.argv) > 1:
        sys.exit(__doc__)
    table = Table()
    published(table)
    formulas(table)
    token_messages(table)
    logons(table)
    tokens(table)
    choices(table)
    chains(table)
    derivations(table)
    nonces(table)
    signatures(table)
    seals(table)
    worked_rows(table)
    table.write()
    return 0


if __name__ == "__main__":
    sys.exit(main())
