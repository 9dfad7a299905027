"""Formulas of MS-NLMP 3.3.2, RFC 4178 and MS-SMB2 3.1.4, over Python's hashlib and the package `cryptography` (OpenSSL).

MD4 (RFC 1320) and RC4 are written out, since those two have neither any longer.
"""
import hashlib
import hmac
import struct

from cryptography.hazmat.primitives.ciphers.aead import AESCCM, AESGCM
from cryptography.hazmat.primitives.ciphers.algorithms import AES
from cryptography.hazmat.primitives.cmac import CMAC

WORD = 0xFFFFFFFF


# ---- hashes


def turned(word, count):
    return (word << count | (word & WORD) >> (32 - count)) & WORD


def md4(message):
    """RFC 1320."""
    state = [0x67452301, 0xEFCDAB89, 0x98BADCFE, 0x10325476]
    padded = message + b"\x80" + bytes((55 - len(message)) % 64) + struct.pack("<Q", 8 * len(message))
    rounds = (
        (lambda x, y, z: x & y | ~x & z, 0, range(16), (3, 7, 11, 19)),
        (lambda x, y, z: x & y | x & z | y & z, 0x5A827999, [i % 4 * 4 + i // 4 for i in range(16)], (3, 5, 9, 13)),
        (lambda x, y, z: x ^ y ^ z, 0x6ED9EBA1, (0, 8, 4, 12, 2, 10, 6, 14, 1, 9, 5, 13, 3, 11, 7, 15), (3, 9, 11, 15)),
    )
    for block in range(0, len(padded), 64):
        words, (a, b, c, d) = struct.unpack_from("<16I", padded, block), state
        for mixed, added, order, turns in rounds:
            for step, place in enumerate(order):
                a, b, c, d = d, turned((a + mixed(b, c, d) + words[place] + added) & WORD, turns[step % 4]), b, c
        state = [(old + new) & WORD for old, new in zip(state, (a, b, c, d))]
    return struct.pack("<4I", *state)


def md5(message):
    return hashlib.md5(message).digest()


def hmac_md5(key, message):
    return hmac.new(key, message, "md5").digest()


def chain(messages, start=bytes(64)):
    """The preauthentication hash (MS-SMB2 3.3.5.4, 3.3.5.5)."""
    for message in messages:
        start = hashlib.sha512(start + message).digest()
    return start


class Rc4:
    def __init__(self, key):
        self.box, self.i, self.j, j = list(range(256)), 0, 0, 0
        for i in range(256):
            j = (j + self.box[i] + key[i % len(key)]) % 256
            self.box[i], self.box[j] = self.box[j], self.box[i]

    def apply(self, data):
        out = bytearray()
        for byte in data:
            self.i = (self.i + 1) % 256
            self.j = (self.j + self.box[self.i]) % 256
            self.box[self.i], self.box[self.j] = self.box[self.j], self.box[self.i]
            out.append(byte ^ self.box[(self.box[self.i] + self.box[self.j]) % 256])
        return bytes(out)


# ---- NTLM (MS-NLMP 3.3.2, 3.4)


def utf16(text):
    return text.encode("utf-16-le")


def ascii_upper(text):
    return "".join(chr(ord(c) - 32) if "a" <= c <= "z" else c for c in text)


def ntowf(password, user, domain):
    return hmac_md5(md4(utf16(password)), utf16(ascii_upper(user) + domain))


def temp(time, challenge, target_info):
    return b"\1\1" + bytes(6) + struct.pack("<Q", time) + challenge + bytes(4) + target_info + bytes(4)


def proof(owf, server_challenge, blob):
    return hmac_md5(owf, server_challenge + blob)


def mic(exported, first, second, third):
    """Over the three messages, the MIC of the last one zero (MS-NLMP 3.1.5.1.2)."""
    return hmac_md5(exported, first + second + third[:72] + bytes(16) + third[88:])


def session_key_of(exported, from_client, purpose):
    side = "client-to-server" if from_client else "server-to-client"
    return md5(exported + f"session key to {side} {purpose} key magic constant".encode() + b"\0")


def message_signature(exported, from_client, exchanged, data, sequence=0, stream=None):
    """With extended session security (MS-NLMP 3.4.4.2); `stream` is the sealing stream as far as it was used."""
    number = struct.pack("<I", sequence)
    checksum = hmac_md5(session_key_of(exported, from_client, "signing"), number + data)[:8]
    if exchanged:
        checksum = (stream or Rc4(session_key_of(exported, from_client, "sealing"))).apply(checksum)
    return b"\1\0\0\0" + checksum + number


def pairs(*items):
    return b"".join(struct.pack("<HH", kind, len(value)) + value for kind, value in items) + bytes(4)


def fields(front, at, parts):
    """Len, MaxLen and Offset of each part, whose bytes stand one behind the other from `at` on."""
    out = []
    for part in parts:
        out.append(struct.pack("<HHI", len(part), len(part), at))
        at += len(part)
    return out


def type1(flags, version=bytes(8)):
    return b"NTLMSSP\0" + struct.pack("<II", 1, flags) + bytes(16) + version


def type2(flags, challenge, name, info, version=bytes(8)):
    places = fields(b"", 56, [name, info])
    return (
        b"NTLMSSP\0"
        + struct.pack("<I", 2)
        + places[0]
        + struct.pack("<I", flags)
        + challenge
        + bytes(8)
        + places[1]
        + version
        + name
        + info
    )


class Type3:
    """An authenticate message; the parts in the order of their fields behind a MIC of 16 bytes."""

    def __init__(self, flags, lm, nt, domain, user, workstation, session_key, mic=bytes(16), version=bytes(8)):
        self.flags, self.lm, self.nt, self.domain, self.user = flags, lm, nt, domain, user
        self.workstation, self.session_key, self.mic, self.version = workstation, session_key, mic, version

    def spelled(self):
        parts = [self.lm, self.nt, self.domain, self.user, self.workstation, self.session_key]
        places = fields(b"", 88, parts)
        return (
            b"NTLMSSP\0"
            + struct.pack("<I", 3)
            + b"".join(places)
            + struct.pack("<I", self.flags)
            + self.version
            + self.mic
            + b"".join(parts)
        )


# ---- SPNEGO (RFC 4178), DER with the shortest lengths

NTLM_OID, SPNEGO_OID = bytes.fromhex("2b06010401823702020a"), bytes.fromhex("2b0601050502")
KERBEROS_OID = bytes.fromhex("2a864886f712010202")


def der_length(count, form=None):
    """The shortest form, or one of so many bytes."""
    if form is None:
        form = 0 if count < 128 else (count.bit_length() + 7) // 8
    return bytes([count]) if form == 0 else bytes([0x80 | form]) + count.to_bytes(form, "big")


def der(tag, content, form=None):
    return bytes([tag]) + der_length(len(content), form) + content


def mech_list(*oids):
    return der(0x30, b"".join(der(6, oid) for oid in oids))


def init_token(mechs, token=None, mic=None, hints=None, req_flags=None, form=None):
    parts = der(0xA0, mechs, form)
    if req_flags is not None:
        parts += der(0xA1, req_flags, form)
    if token is not None:
        parts += der(0xA2, der(4, token, form), form)
    if hints is not None:
        parts += der(0xA3, hints, form)
    if mic is not None:
        parts += der(0xA4 if hints is not None else 0xA3, der(4, mic, form), form)
    return der(0x60, der(6, SPNEGO_OID) + der(0xA0, der(0x30, parts, form), form), form)


def resp_token(state=None, mech=None, token=None, mic=None, form=None):
    parts = b""
    if state is not None:
        parts += der(0xA0, der(10, bytes([state]), form), form)
    if mech is not None:
        parts += der(0xA1, der(6, mech, form), form)
    if token is not None:
        parts += der(0xA2, der(4, token, form), form)
    if mic is not None:
        parts += der(0xA3, der(4, mic, form), form)
    return der(0xA1, der(0x30, parts, form), form)


# ---- keys, signatures and sealing (MS-SMB2 3.1.4.1 to 3.1.4.3)

LONG_KEYS, GCM = (3, 4), (2, 4)


def kdf(key, label, context, bits):
    """SP 800-108 in counter mode with HMAC-SHA256, one block."""
    return hmac.new(key, b"\0\0\0\1" + label + b"\0" + context + struct.pack(">I", bits), "sha256").digest()[: bits // 8]


class Keys:
    def __init__(self, base, value, cipher):
        bits = 256 if cipher in LONG_KEYS else 128
        self.signing = kdf(base, b"SMBSigningKey\0", value, 128)
        self.to_server = kdf(base, b"SMBC2SCipherKey\0", value, bits)
        self.to_client = kdf(base, b"SMBS2CCipherKey\0", value, bits)


def signature(algorithm, key, message):
    zeroed = message[:48] + bytes(16) + message[64:]
    if algorithm == 1:
        mac = CMAC(AES(key))
        mac.update(zeroed)
        return mac.finalize()
    number, flags, command = message[24:32], message[16], struct.unpack_from("<H", message, 12)[0]
    nonce = number + bytes([(flags & 1) | (2 if command == 12 else 0), 0, 0, 0])
    return AESGCM(key).encrypt(nonce, b"", zeroed)


def sealed(cipher, key, session, nonce, message):
    added = nonce + struct.pack("<IHHQ", len(message), 0, 1, session)
    if cipher in GCM:
        out = AESGCM(key).encrypt(nonce[:12], message, added)
    else:
        out = AESCCM(key, tag_length=16).encrypt(nonce[:11], message, added)
    return b"\xfdSMB" + out[-16:] + added + out[:-16]
