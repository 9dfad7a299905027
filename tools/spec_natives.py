"""What stands for the library's functions, hashes and ciphers, and for some readers, where spec_values.py computes a term."""
import hashlib

from cryptography.hazmat.primitives.ciphers import Cipher, modes
from cryptography.hazmat.primitives.ciphers.aead import AESCCM, AESGCM
from cryptography.hazmat.primitives.ciphers.algorithms import AES
from cryptography.hazmat.primitives.cmac import CMAC

import session_formulas as f
from spec_words import NONE, Case, Function, Record, applied, some

TAG = 16


def told(call):
    """A function of bytes as one of lists."""
    return lambda *lists: tuple(call(*[bytes(one) if isinstance(one, tuple) else one for one in lists]))


# ---- ciphers; a key is that of the words of its schedule, and one that is no key gives zeros


def cmac(key, message):
    if len(key) != 16:
        return bytes(TAG)
    code = CMAC(AES(key))
    code.update(message)
    return code.finalize()


def gmac(key, nonce, message):
    return AESGCM(key).encrypt(nonce, b"", message) if len(key) == 16 else bytes(TAG)


def gcm_tag(key, nonce, added, hidden):
    stream = Cipher(AES(key), modes.CTR(nonce + b"\0\0\0\2")).encryptor()
    return AESGCM(key).encrypt(nonce, stream.update(hidden), added)[-TAG:]


def ccm_tag(key, nonce, added, text, width):
    return AESCCM(key, tag_length=width).encrypt(nonce, text, added)[-width:]


# ---- tokens (RFC 4178), whose breaks aren't told apart


def element(data):
    count, at = data[1], 2
    if count >= 128:
        at = 2 + count - 128
        count = int.from_bytes(bytes(data[2:at]), "big")
    if len(data) < at + count:
        raise ValueError
    return data[0], data[at : at + count], data[at + count :]


def alone(data, tag):
    found, contents, rest = element(data)
    if found != tag or rest:
        raise ValueError
    return contents


def fields(data):
    out = {}
    while data:
        tag, contents, data = element(data)
        out[tag] = contents
    return out


def octets(parts, tag):
    return some(alone(parts[tag], 4)) if tag in parts else NONE


def init_value(token):
    _, rest = element(alone(token, 0x60))[1:]
    parts = fields(alone(alone(rest, 0xA0), 0x30))
    return Record({"mech_list": parts[0xA0], "ntlm_first": True, "token": octets(parts, 0xA2), "mic": octets(parts, 0xA3)})


def resp_value(token):
    parts = fields(alone(alone(token, 0xA1), 0x30))
    state = some(alone(parts[0xA0], 10)[0]) if 0xA0 in parts else NONE
    return Record({"state": state, "ntlm": 0xA1 in parts, "token": octets(parts, 0xA2), "mic": octets(parts, 0xA3)})


def read_by(value_of):
    def read(token):
        try:
            return Case("Ok", (value_of(token),))
        except (ValueError, IndexError, KeyError):
            return Case("Err", (Case("Broken"),))

    return read


def is_final(key, token):
    read = read_by(resp_value)(token)
    if read.name != "Ok" or read.parts[0].fields["state"] != some(0):
        return False
    code = read.parts[0].fields["mic"]
    return code == NONE or bytes(code.parts[0]) == f.message_signature(bytes(key), False, True, f.mech_list(f.NTLM_OID))


# ---- texts and chains


def text_in(units):
    try:
        return some(tuple(bytes(units).decode("utf-16-le").encode()))
    except UnicodeDecodeError:
        return NONE


def chain_spelling(item, size, values):
    out = ()
    for value in values[:-1]:
        count = applied(size, [value])
        out += applied(item, [value, count + -count % 8]) + (0,) * (-count % 8)
    return out + applied(item, [values[-1], 0]) if values else out


def items_in(read, is_broken, data):
    out = []
    while data:
        if applied(is_broken, [data]):
            return NONE
        to_next = int.from_bytes(bytes(data[:4]), "little")
        out.append(applied(read, [data[:to_next] if to_next else data]))
        data = data[to_next:] if to_next else ()
    return some(tuple(out))


# ---- by name, with the number of arguments

CALLS = {
    "length": (1, len),
    "take": (2, lambda count, xs: xs[:count]),
    "drop": (2, lambda count, xs: xs[count:]),
    "replicate": (2, lambda count, x: (x,) * count),
    "map": (2, lambda call, xs: tuple(applied(call, [x]) for x in xs)),
    "filter": (2, lambda call, xs: tuple(x for x in xs if applied(call, [x]))),
    "flat_map": (2, lambda call, xs: tuple(y for x in xs for y in applied(call, [x]))),
    "sum_by": (2, lambda call, xs: sum(applied(call, [x]) for x in xs)),
    "pointwise": (3, lambda call, xs, ys: len(xs) == len(ys) and all(applied(call, [x, y]) for x, y in zip(xs, ys))),
    "option_map": (2, lambda call, x: NONE if x == NONE else some(applied(call, [x.parts[0]]))),
    "is_some": (1, lambda x: x.name == "Some"),
    "is_none": (1, lambda x: x.name == "None"),
    "slice_index": (2, lambda xs, place: xs[place] if place < len(xs) else 0),
    "slice_get": (2, lambda xs, place: some(xs[place]) if place < len(xs) else NONE),
    "not": (1, lambda x: not x),
    "min": (2, min),
    "max": (2, max),
    "suc": (1, lambda n: n + 1),
    "nat_eq": (2, lambda a, b: a == b),
    "nat_le": (2, lambda a, b: a <= b),
    "nat_lt": (2, lambda a, b: a < b),
    "bytes_eq": (2, lambda a, b: a == b),
    "bit_or": (2, lambda a, b: a | b),
    "bit_and": (2, lambda a, b: a & b),
    "bit_xor": (2, lambda a, b: a ^ b),
    "codes": (1, lambda text: tuple(map(ord, text))),
    "chars": (1, lambda text: tuple(map(ord, bytes(text).decode()))),
    "to_ascii_uppercase": (1, lambda c: c - 32 if 97 <= c <= 122 else c),
    "sha256": (1, told(lambda data: hashlib.sha256(data).digest())),
    "sha512": (1, told(lambda data: hashlib.sha512(data).digest())),
    "md5": (1, told(f.md5)),
    "md4": (1, told(f.md4)),
    "hmac_of_md5": (2, told(f.hmac_md5)),
    "derived": (4, told(f.kdf)),
    "derived_padded": (4, told(lambda key, label, value, bits: f.kdf(key, label, value, bits).ljust(32, b"\0"))),
    "cmac": (2, told(cmac)),
    "gmac": (3, told(gmac)),
    "init_in": (1, read_by(init_value)),
    "resp_in": (1, read_by(resp_value)),
    "is_final": (2, is_final),
    "text_in": (1, text_in),
    "chain_spelling": (3, chain_spelling),
    "items_in": (3, items_in),
}
NATIVES = {name: Function(*call) for name, call in CALLS.items()}
NATIVES |= {"true": True, "false": False, "zero": 0}

# these stand in place of definitions that have equations
REPLACED = {"derived", "derived_padded", "cmac", "gmac", "md4", "hmac_of_md5", "init_in", "resp_in", "is_final", "text_in", "items_in"}

# and these, whose names others have too
BY_MODULE = {
    ("Rc4", "opened"): Function(1, bytes),
    ("Rc4", "enciphered"): Function(2, told(lambda key, data: f.Rc4(key).apply(data))),
    ("Aes", "schedule"): Function(2, lambda words, key: bytes(key)),
    ("Gcm", "ciphertext"): Function(3, told(lambda key, nonce, text: AESGCM(key).encrypt(nonce, text, b"")[:-TAG])),
    ("Gcm", "tag_of"): Function(4, told(gcm_tag)),
    ("Ccm", "ciphertext"): Function(3, told(lambda key, nonce, text: AESCCM(key).encrypt(nonce, text, b"")[:-TAG])),
    ("Ccm", "tag_of"): Function(5, told(ccm_tag)),
}
