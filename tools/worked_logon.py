"""One logon in SMB 3.1.1, every byte of it: NEGOTIATE, both SESSION_SETUPs, TREE_CONNECT and one CREATE, each with its response.

The messages are written by `struct` from MS-SMB2 2.2, tokens and keys by session_formulas.py. What a run draws, its times and
its ids are those of a first run of the exchange: draw n is the SHA-256 of the seed and n in 8 bytes; the server runs in its
first epoch; every event takes a moment. Nothing here is read from the crates.
"""
import hashlib
import struct

import session_formulas as f
from session_formulas import NTLM_OID, Type3, pairs, utf16

USER, PASSWORD = "User", "Password"
CLIENT_GUID, SERVER_GUID = bytes(range(0x10, 0x20)), bytes(range(0x20, 0x30))
SEED = b"worked logon"
SHARE, PATH = "data", "disk.img"
WAITED = 13331434932246  # milliseconds before the first event, and ten thousand times so many moments
ACCESS, SHARED, DISPOSITION, CREATE_NUMBER = 0x12019F, 1, 3, 1  # GENERIC_READ and WRITE as they are mapped; readers; open or create
CLIENT_FLAGS = 0x60080215
FIRST_ID = 0x1_0000_0001  # of a session and of an open, in the first epoch
MORE = 0xC0000016


def draw(number):
    return hashlib.sha256(SEED + struct.pack("<Q", number)).digest()


def padded(data):
    """Up to the next multiple of 8."""
    return data + bytes(-len(data) % 8)


# ---- headers and bodies


def header(command, message, flags=0, status=0, credits=512, tree=0, session=0):
    """2.2.1.2: CreditCharge 1; Signature zero."""
    front = b"\xfeSMB" + struct.pack("<HHIHHII", 64, 1, status, command, credits, flags, 0)
    return front + struct.pack("<QIIQ", message, 0, tree, session) + bytes(16)


def context(kind, data):
    return struct.pack("<HHI", kind, len(data), 0) + data


def id_list(ids):
    return struct.pack(f"<H{len(ids)}H", len(ids), *ids)


def negotiate_contexts(salt, ciphers, signings):
    """2.2.3.1: preauthentication with SHA-512, ciphers, signing algorithms; a kind whose list is empty has none."""
    told = [context(1, struct.pack("<HHH", 1, len(salt), 1) + salt)]
    told += [context(kind, id_list(ids)) for kind, ids in ((2, ciphers), (8, signings)) if ids]
    return len(told), b"".join(map(padded, told[:-1])) + told[-1]


def negotiate_request(salt, ciphers, signings):
    """2.2.3: one dialect, behind it two bytes up to the contexts at 104; signing enabled and required; large MTU 4,
    multi-channel 8, persistent handles 0x10."""
    count, contexts = negotiate_contexts(salt, ciphers, signings)
    fixed = struct.pack("<HHHHI", 36, 1, 3, 0, 0x1C) + CLIENT_GUID + struct.pack("<IHH", 104, count, 0)
    return fixed + struct.pack("<H", 0x311) + bytes(2) + contexts


def negotiate_response(salt, ciphers, signings, now):
    """2.2.4: of each kind that was offered the one that was chosen; a token that names NTLM."""
    count, contexts = negotiate_contexts(salt, ciphers, signings)
    hint = f.init_token(f.mech_list(NTLM_OID))
    at = len(padded(bytes(128 + len(hint))))
    fixed = struct.pack("<HHHH", 65, 3, 0x311, count) + SERVER_GUID + struct.pack("<IIII", 0x1C, 1 << 20, 1 << 20, 1 << 20)
    return fixed + struct.pack("<QQHHI", now, 0, 128, len(hint), at) + hint + bytes(at - 128 - len(hint)) + contexts


def setup_request(token):
    """2.2.5: no Flags, SecurityMode 1, no previous session."""
    return struct.pack("<HBBIIHHQ", 25, 0, 1, 0, 0, 88, len(token), 0) + token


def setup_response(flags, token):
    return struct.pack("<HHHH", 9, flags, 72, len(token)) + token


def tree_request():
    path = utf16("\\\\smb311\\" + SHARE)
    return struct.pack("<HHHH", 9, 0, 72, len(path)) + path


def tree_response():
    """2.2.10: a disk that is continuously available, 0x10."""
    return struct.pack("<HBBIII", 16, 1, 0, 0, 0x10, 0x1F01FF)


def create_context(name, data):
    """2.2.13.2: alone, the name at 16, the data at 24."""
    return struct.pack("<IHHHHI", 0, 16, len(name), 0, 24, len(data)) + padded(name) + data


def create_request():
    """2.2.13, 2.2.13.2.11: no oplock, impersonation, a file; a persistent open with a timeout of the server's choice, whose
    CreateGuid is the create's number and eight random bytes."""
    guid = struct.pack("<Q", CREATE_NUMBER) + draw(0)[:8]
    durable = create_context(b"DH2Q", struct.pack("<II8x", 0, 2) + guid)
    name = utf16(PATH)
    fixed = struct.pack("<HBBIQQ", 57, 0, 0, 2, 0, 0) + struct.pack("<IIIII", ACCESS, 0, SHARED, DISPOSITION, 0x40)
    at = len(padded(bytes(120 + len(name))))
    return fixed + struct.pack("<HHII", 120, len(name), at, len(durable)) + name + bytes(at - 120 - len(name)) + durable


def create_response(now):
    """2.2.14, 2.2.14.2.12: created 2, an empty file of no attributes but ARCHIVE; kept for a minute."""
    durable = create_context(b"DH2Q", struct.pack("<II", 60000, 2))
    fixed = struct.pack("<HBBI", 89, 0, 0, 2) + struct.pack("<4Q", now, now, now, now) + struct.pack("<QQII", 0, 0, 0x20, 0)
    return fixed + struct.pack("<QQII", FIRST_ID, FIRST_ID, 152, len(durable)) + durable


# ---- tokens


class Tokens:
    """The logon's tokens (MS-NLMP 3.1.5.1, 3.2.5.1, RFC 4178 4.2): draws 2 and 3 are the client's challenge and its key, draw 6
    the server's challenge."""

    def __init__(self, now):
        self.key, self.challenge, self.server, self.now = draw(3)[:16], draw(2)[:8], draw(6)[:8], now
        self.list = f.mech_list(NTLM_OID)
        self.type1 = f.type1(CLIENT_FLAGS)
        self.first = f.init_token(self.list, self.type1)
        name, low = utf16("SMB311"), utf16("smb311")
        told = ((2, name), (1, name), (4, low), (3, low), (7, struct.pack("<Q", now)))
        self.type2 = f.type2(0x608A0215, self.server, name, pairs(*told))
        self.interim = f.resp_token(1, NTLM_OID, self.type2)
        self.type3 = self.answered(pairs(*told, (6, struct.pack("<I", 2))))
        self.second = f.resp_token(token=self.type3, mic=f.message_signature(self.key, True, True, self.list))
        self.final = f.resp_token(0, mic=f.message_signature(self.key, False, True, self.list))
        self.alone, self.base = self.plainly_answered(pairs(*told, (6, struct.pack("<I", 2))))

    def answered(self, info):
        """No domain; the time is the server's, so the LM response is zeros; a MIC over the three messages."""
        owf, blob = f.ntowf(PASSWORD, USER, ""), f.temp(self.now, self.challenge, info)
        answer = f.proof(owf, self.server, blob)
        carried = f.Rc4(f.hmac_md5(owf, answer)).apply(self.key)
        third = Type3(CLIENT_FLAGS, bytes(24), answer + blob, b"", utf16(USER), b"", carried)
        third.mic = f.mic(self.key, self.type1, self.type2, third.spelled())
        return third.spelled()

    def plainly_answered(self, info):
        """A type 3 without a key of the client's, and the base key that both ends then have."""
        owf, blob = f.ntowf(PASSWORD, USER, ""), f.temp(self.now, self.challenge, info)
        answer = f.proof(owf, self.server, blob)
        base = f.hmac_md5(owf, answer)
        third = Type3(CLIENT_FLAGS & ~0x40000000, bytes(24), answer + blob, b"", utf16(USER), b"", b"")
        third.mic = f.mic(base, self.type1, self.type2, third.spelled())
        return third.spelled(), base


# ---- the exchange


class Message:
    """What one end sends: its text, and the frame that it goes out as."""

    def __init__(self, name, text, frame=None):
        self.name, self.text, self.frame = name, text, text if frame is None else frame
        self.sealed = self.frame[:4] == b"\xfdSMB"
        self.signed = not self.sealed and text[16] & 8 != 0


class Worked:
    """A logon: what the client offers, in its order, and whether the server's sessions are sealed."""

    def __init__(self, name, ciphers, signings, encrypts):
        self.name, self.ciphers, self.signings, self.encrypts = name, ciphers, signings, encrypts
        self.cipher, self.signing, self.session = ciphers[0], (signings or [1])[0], FIRST_ID
        self.start = 10000 * WAITED  # the moment of the first event, which opens the connection
        self.tokens = Tokens(self.start + 3)
        self.sent = {True: 0, False: 0}
        self.messages = self.greeted() + self.set_up()
        self.transcript = [m.frame for m in self.messages]
        self.chain = f.chain(self.transcript)
        self.keys = f.Keys(self.tokens.key, self.chain, self.cipher)
        self.messages += [self.ended(), *self.tree(), *self.created()]

    def greeted(self):
        asked = header(0, 0) + negotiate_request(draw(1), self.ciphers, self.signings)
        body = negotiate_response(draw(4), self.ciphers[:1], self.signings[:1], self.start + 1)
        return [Message("negotiate_request", asked), Message("negotiate_response", header(0, 0, 1) + body)]

    def set_up(self):
        t = self.tokens
        return [
            Message("session_setup_request", header(1, 1) + setup_request(t.first)),
            Message("session_setup_response", header(1, 1, 1, MORE, 1, 0, self.session) + setup_response(0, t.interim)),
            Message("session_setup_request", header(1, 2, session=self.session) + setup_request(t.second)),
        ]

    def ended(self):
        """The final response, signed with the new session's key."""
        flags = 4 if self.encrypts else 0
        text = header(1, 2, 9, 0, 1, 0, self.session) + setup_response(flags, self.tokens.final)
        return Message("session_setup_response", self.with_signature(text))

    def with_signature(self, text):
        return text[:48] + f.signature(self.signing, self.keys.signing, text) + text[64:]

    def nonce(self, from_client):
        """Of channel 1; the counter of each direction begins at 0."""
        self.sent[from_client] += 1
        return struct.pack("<QH6x", self.sent[from_client] - 1, 1)

    def guarded(self, name, text, from_client):
        """Sealed, or signed with the flag 8."""
        if not self.encrypts:
            text = self.with_signature(text[:16] + bytes([text[16] | 8]) + text[17:])
            return Message(name, text)
        key = self.keys.to_server if from_client else self.keys.to_client
        return Message(name, text, f.sealed(self.cipher, key, self.session, self.nonce(from_client), text))

    def tree(self):
        asked = header(3, 3, session=self.session) + tree_request()
        told = header(3, 3, 1, 0, 1, 1, self.session) + tree_response()
        return self.guarded("tree_connect_request", asked, True), self.guarded("tree_connect_response", told, False)

    def created(self):
        """Behind the last message of the dialog is taken, the operation is submitted and goes out."""
        asked = header(5, 4, tree=1, session=self.session) + create_request()
        told = header(5, 4, 1, 0, 1, 1, self.session) + create_response(self.start + 11)
        return self.guarded("create_request", asked, True), self.guarded("create_response", told, False)


def worked_logons():
    return [
        Worked("sealed by AES-128-GCM, signed by AES-GMAC", [2, 1, 4, 3], [2, 1], True),
        Worked("signed by AES-CMAC, with keys of 256 bits that nothing is sealed with", [4, 3], [1], False),
        Worked("sealed by AES-128-CCM, signed by AES-CMAC, which isn't told", [1], [], True),
        Worked("sealed by AES-256-GCM, signed by AES-CMAC", [4, 2], [1, 2], True),
    ]
