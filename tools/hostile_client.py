"""A client of SMB 3.1.1 over a socket (MS-SMB2, MS-NLMP), for tools/hostile-run.py: it logs on, signs or seals, and sends what it is told.

Keys, tokens and signatures come from session_formulas.py, which wants the package `cryptography`. Nothing here is read from the crates.
It keeps no rule of a good client: a caller may send any bytes, under any message id, from any address of 127.0.0.0/8.
"""
import os
import socket
import struct
import time

import session_formulas as f
from cryptography.exceptions import InvalidTag
from cryptography.hazmat.primitives.ciphers.aead import AESCCM, AESGCM
from session_formulas import NTLM_OID, Type3, pairs, utf16
from worked_logon import CLIENT_FLAGS, create_context, negotiate_contexts, padded

HOST = "127.0.0.1"
NEGOTIATE, SESSION_SETUP, LOGOFF, TREE_CONNECT, TREE_DISCONNECT, CREATE, CLOSE, FLUSH, READ, WRITE, LOCK = range(11)
IOCTL, CANCEL, ECHO, QUERY_DIRECTORY, CHANGE_NOTIFY, QUERY_INFO, SET_INFO, OPLOCK_BREAK = range(11, 19)
SUCCESS, PENDING, MORE = 0, 0x103, 0xC0000016
NO_MORE_FILES, END_OF_FILE, LOCK_NOT_GRANTED, LOGON_FAILURE = 0x80000006, 0xC0000011, 0xC0000055, 0xC000006D
NAME_NOT_FOUND, DISK_FULL = 0xC0000034, 0xC000007F
ANSWER, RELATED, SIGNED, SEALED = 1, 4, 8, b"\xfdSMB"
ACCESS, SHARED = 0x13019F, 7  # reading, writing and deleting (MS-SMB2 2.2.13.1.1); all are shared
OPEN, MAKE, OPEN_OR_MAKE, EMPTIED = 1, 2, 3, 5  # dispositions (2.2.13)
PLAIN, FOLDER = 0x40, 1  # options
PERSISTENT = 2
EXCLUSIVE, UNLOCK, AT_ONCE = 2, 4, 0x10
GCM = (2, 4)
FIRST = f.type1(CLIENT_FLAGS)


class Closed(Exception):
    """The connection ended, or no connection was made."""


class Refused(Exception):
    """A request was answered with a status other than success."""

    def __init__(self, status):
        super().__init__(f"status {status:08x}")
        self.status = status


def refused(call, status):
    """A call that has to be refused with this status."""
    try:
        call()
    except Refused as told:
        assert told.status == status, f"{told.status:08x}"
        return
    raise AssertionError("it was not refused")


class Wrong(Exception):
    """An answer isn't what the standard says."""


def header(command, message, charge=1, flags=0, tree=0, session=0, credits=512, chained=0):
    front = b"\xfeSMB" + struct.pack("<HHIHHII", 64, charge, 0, command, credits, flags, chained)
    return front + struct.pack("<QIIQ", message, 0, tree, session) + bytes(16)


def framed(message):
    return struct.pack(">I", len(message)) + message


def charge_of(size):
    """2.2.1.2: a credit for each 64 KiB that are sent or asked for."""
    return 1 + max(0, size - 1) // 65536


class Link:
    """A connection and its frames; `source` is the address of this machine that it comes from."""

    def __init__(self, port, source=None, timeout=30.0):
        self.socket = socket.socket()
        self.socket.settimeout(timeout)
        try:
            if source:
                self.socket.bind((source, 0))
            self.socket.connect((HOST, port))
            self.socket.setsockopt(socket.IPPROTO_TCP, socket.TCP_NODELAY, 1)
        except OSError as error:
            self.socket.close()
            raise Closed(f"no connection: {error}") from error

    def close(self):
        self.socket.close()

    def __enter__(self):
        return self

    def __exit__(self, *_):
        self.close()

    def send_bytes(self, data):
        try:
            self.socket.sendall(data)
        except TimeoutError as error:
            raise Closed("nothing is taken") from error
        except OSError as error:
            raise Closed(str(error)) from error

    def send_frame(self, message):
        self.send_bytes(framed(message))

    def read_exactly(self, count):
        data = bytearray()
        while len(data) < count:
            try:
                got = self.socket.recv(min(count - len(data), 1 << 20))
            except TimeoutError:
                raise
            except OSError as error:
                raise Closed(str(error)) from error
            if not got:
                raise Closed("the other end closed")
            data += got
        return bytes(data)

    def receive_frame(self):
        return self.read_exactly(struct.unpack(">I", self.read_exactly(4))[0] & 0xFFFFFF)

    def ended_within(self, seconds):
        """Whether the other end closes within so many seconds; what it says before is passed over."""
        end = time.monotonic() + seconds
        try:
            while (left := end - time.monotonic()) > 0:
                self.socket.settimeout(left)
                if not self.socket.recv(1 << 16):
                    return True
        except TimeoutError:
            return False
        except OSError:
            return True
        return False

    def is_open(self):
        return not self.ended_within(0.02)


class Opened:
    def __init__(self, answer):
        self.action, self.length = struct.unpack_from("<I", answer, 68)[0], struct.unpack_from("<Q", answer, 112)[0]
        self.file = answer[128:144]


class Client(Link):
    """A connection that may log on. Of each frame that is sent or heard before the keys stand, the hash chain is kept."""

    def __init__(self, port, source=None, timeout=30.0, guid=None, ciphers=(2, 1), signings=(1,)):
        super().__init__(port, source, timeout)
        self.guid, self.ciphers, self.signings = guid or os.urandom(16), list(ciphers), list(signings)
        self.next = self.session = self.tree = self.sent = 0
        self.channel, self.keys, self.encrypts, self.cipher, self.signing = 1, None, False, 0, 1
        self.chain, self.heard, self.signing_key, self.greeted = bytes(64), {}, None, bytes(64)
        self.behind = False  # each SESSION_SETUP goes behind an ECHO in its frame

    # ---- messages

    def took(self, charge=1):
        number = self.next
        self.next += max(1, charge)
        return number

    def signed(self, message, key=None):
        message = message[:16] + bytes([message[16] | SIGNED]) + message[17:]
        return message[:48] + f.signature(self.signing, key or self.signing_key, message) + message[64:]

    def sealed(self, message):
        """Each message has a nonce of its own: a counter, and the channel."""
        self.sent += 1
        nonce = struct.pack("<QH6x", self.sent, self.channel)
        return f.sealed(self.cipher, self.keys.to_server, self.session, nonce, message)

    def guarded(self, message):
        if self.keys is None:
            return message
        return self.sealed(message) if self.encrypts else self.signed(message)

    def opened(self, frame, keys=None):
        if frame[:4] != SEALED:
            return frame
        keys = keys or self.keys
        if keys is None or len(frame) < 52:
            raise Wrong("a sealed frame before there are keys")
        try:
            if self.cipher in GCM:
                return AESGCM(keys.to_client).decrypt(frame[20:32], frame[52:] + frame[4:20], frame[20:52])
            return AESCCM(keys.to_client, tag_length=16).decrypt(frame[20:31], frame[52:] + frame[4:20], frame[20:52])
        except InvalidTag as error:
            raise Wrong("a sealed frame doesn't open") from error

    def hear(self):
        """The messages of the next frame, kept by their ids."""
        text = self.opened(self.receive_frame())
        while text:
            if text[:4] != b"\xfeSMB" or len(text) < 64:
                raise Wrong("an answer without a header")
            chained = struct.unpack_from("<I", text, 20)[0]
            message, text = (text[:chained], text[chained:]) if chained else (text, b"")
            if self.keys is not None and not self.encrypts and message[16] & SIGNED:
                if message[48:64] != f.signature(self.signing, self.signing_key, message):
                    raise Wrong("an answer's signature isn't right")
            if struct.unpack_from("<I", message, 8)[0] != PENDING:
                self.heard[struct.unpack_from("<Q", message, 24)[0]] = message

    def answer_to(self, number):
        while number not in self.heard:
            self.hear()
        return self.heard.pop(number)

    def request(self, command, body, charge=1, flags=0, tree=None):
        """A request's message and its id, neither signed nor sealed yet."""
        number = self.took(charge)
        where = self.tree if tree is None else tree
        return number, header(command, number, charge, flags, where, self.session) + body

    def ask(self, command, body, charge=1, flags=0, tree=None):
        """Sends a request; its id."""
        number, message = self.request(command, body, charge, flags, tree)
        self.send_frame(self.guarded(message))
        return number

    def ask_chain(self, bodies, charge=1, flags=0):
        """Sends several requests in one frame (3.2.4.1.4), given as pairs of command and body; their ids."""
        numbers, parts = [], []
        for place, (command, body) in enumerate(bodies):
            number = self.took(charge)
            body = padded(body) if place + 1 < len(bodies) else body
            chained = 64 + len(body) if place + 1 < len(bodies) else 0
            message = header(command, number, charge, flags if place else 0, self.tree, self.session, chained=chained) + body
            parts.append(message if self.encrypts else self.signed(message))
            numbers.append(number)
        text = b"".join(parts)
        self.send_frame(self.sealed(text) if self.encrypts else text)
        return numbers

    def call(self, command, body, charge=1, flags=0, tree=None):
        """Asks, and gives the answer where it is success."""
        return self.success(self.answer_to(self.ask(command, body, charge, flags, tree)))

    def success(self, answer):
        status = struct.unpack_from("<I", answer, 8)[0]
        if status != SUCCESS:
            raise Refused(status)
        return answer

    # ---- the dialog

    def noted(self, message):
        self.chain = f.chain([message], self.chain)

    def negotiate_message(self):
        count, contexts = negotiate_contexts(os.urandom(32), self.ciphers, self.signings)
        body = struct.pack("<HHHHI", 36, 1, 3, 0, 0x5C) + self.guid + struct.pack("<IHH", 104, count, 0)
        return header(NEGOTIATE, self.took()) + body + struct.pack("<H", 0x311) + bytes(2) + contexts

    def negotiate(self):
        message = self.negotiate_message()
        self.noted(message)
        self.send_frame(message)
        answer = self.receive_frame()
        self.noted(answer)
        self.success(answer)
        at, count = struct.unpack_from("<I", answer, 124)[0], struct.unpack_from("<H", answer, 70)[0]
        for _ in range(count):
            kind, length = struct.unpack_from("<HH", answer, at)
            first = struct.unpack_from("<H", answer, at + 10)[0] if kind in (2, 8) else 0
            if kind == 2:
                self.cipher = first
            if kind == 8:
                self.signing = first
            at += 8 + length + -length % 8
        self.greeted = self.chain
        return self

    def setup_message(self, token, binding=False, previous=0):
        body = struct.pack("<HBBIIHHQ", 25, int(binding), 1, 0, 0, 88, len(token), previous) + token
        return header(SESSION_SETUP, self.took(), session=self.session) + body

    def set_up_behind(self, token):
        """One SESSION_SETUP behind an ECHO of SessionId 0 in its frame (3.3.5.2.7), and its answer."""
        echo = self.took()
        front = header(ECHO, echo, chained=72) + struct.pack("<HH4x", 4, 0)
        message = self.setup_message(token)
        number = struct.unpack_from("<Q", message, 24)[0]
        self.noted(message)
        self.send_frame(front + message)
        self.success(self.answer_to(echo))
        answer = self.answer_to(number)
        return struct.unpack_from("<I", answer, 8)[0], answer

    def set_up(self, token, to=None, previous=0):
        """One SESSION_SETUP and its answer; in a binding it is signed with the session's key."""
        if self.behind:
            return self.set_up_behind(token)
        message = self.setup_message(token, to is not None, previous)
        if to is not None:
            message = self.signed(message, to.keys.signing)
        self.noted(message)
        self.send_frame(message)
        answer = self.opened(self.receive_frame(), to and to.keys)
        return struct.unpack_from("<I", answer, 8)[0], answer

    def log_on(self, user, password, to=None, previous=0):
        """NTLMv2 in SPNEGO (MS-NLMP 3.1.5.1, RFC 4178); `to` is the client whose session this connection is bound to."""
        listed, first = f.mech_list(NTLM_OID), FIRST
        self.session, self.chain = (to.session if to else 0), self.greeted
        status, answer = self.set_up(f.init_token(listed, first), to, previous)
        if status != MORE:
            raise Refused(status)
        self.noted(answer)
        self.session = struct.unpack_from("<Q", answer, 40)[0]
        self.exported = os.urandom(16)
        third = answered(answer[answer.index(b"NTLMSSP\0\2\0\0\0"):], first, user, password, self.exported)
        mic = f.message_signature(self.exported, True, True, listed)
        self.token = third
        status, answer = self.set_up(f.resp_token(token=third, mic=mic), to, previous)
        if status != SUCCESS:
            raise Refused(status)
        self.begin(answer, to)
        return self

    def first_alone(self, to=None, first=FIRST):
        """A type 1 without SPNEGO around it (MS-SPNG 3.3.4), and the answer, which is a type 2 alone."""
        self.session, self.chain = (to.session if to else 0), self.greeted
        status, answer = self.set_up(first, to)
        if status != MORE:
            raise Refused(status)
        self.noted(answer)
        self.session = struct.unpack_from("<Q", answer, 40)[0]
        return token_of(answer)

    def log_on_alone(self, user, password, to=None, first=FIRST, answers=None):
        """NTLMv2 by NTLM's messages alone; the last answer has no token."""
        second, self.exported = self.first_alone(to, first), os.urandom(16)
        self.token = (answers or answered)(second, first, user, password, self.exported)
        status, answer = self.set_up(self.token, to)
        if status != SUCCESS:
            raise Refused(status)
        if not second.startswith(b"NTLMSSP\0\2\0\0\0") or token_of(answer):
            raise Wrong("a token that answers isn't NTLM's message alone")
        self.begin(answer, to)
        return self

    def begin(self, answer, to):
        """The keys stand, and the last answer has to be signed with them."""
        own = f.Keys(self.exported, self.chain, self.cipher)
        self.keys, self.signing_key = (to.keys if to else own), own.signing
        self.encrypts = to.encrypts if to else struct.unpack_from("<H", answer, 66)[0] & 4 != 0
        if to:
            to.channels = getattr(to, "channels", 1) + 1
            self.channel, self.tree = to.channels, to.tree
        if answer[48:64] != f.signature(self.signing, self.signing_key, answer):
            raise Wrong("the last answer of the logon isn't signed with the session's key")

    def connect_tree(self, share):
        path = utf16(f"\\\\{HOST}\\{share}")
        answer = self.call(TREE_CONNECT, struct.pack("<HHHH", 9, 0, 72, len(path)) + path, tree=0)
        self.tree = struct.unpack_from("<I", answer, 36)[0]
        return self

    def log_off(self):
        self.call(LOGOFF, struct.pack("<HH", 4, 0), tree=0)

    # ---- files

    def create(self, name, access=ACCESS, shared=SHARED, disposition=OPEN_OR_MAKE, options=PLAIN, contexts=b""):
        return Opened(self.call(CREATE, create_body(name, access, shared, disposition, options, contexts)))

    def create_persistent(self, name, guid, shared=SHARED, disposition=OPEN_OR_MAKE, options=PLAIN):
        """2.2.13.2.11: an open that outlives its session; the time for which it is kept is the server's choice."""
        asked = create_context(b"DH2Q", struct.pack("<II8x", 0, PERSISTENT) + guid)
        return self.create(name, shared=shared, disposition=disposition, options=options, contexts=asked)

    def attach(self, name, file, guid):
        """2.2.13.2.12: a persistent open of an earlier session."""
        asked = create_context(b"DH2C", file + guid + struct.pack("<I", PERSISTENT))
        return self.create(name, disposition=OPEN, contexts=asked)

    def make_folder(self, name):
        self.close_file(self.create(name, options=FOLDER).file)

    def write(self, file, at, data):
        answer = self.call(WRITE, write_body(file, at, data), charge_of(len(data)))
        if struct.unpack_from("<I", answer, 68)[0] != len(data):
            raise Wrong("a write took another count of bytes")

    def read(self, file, at, count):
        try:
            answer = self.call(READ, read_body(file, at, count), charge_of(count))
        except Refused as refused:
            if refused.status == END_OF_FILE:
                return b""
            raise
        place, length = answer[66], struct.unpack_from("<I", answer, 68)[0]
        return answer[place:place + length]

    def read_all(self, file, length):
        parts = [self.read(file, at, min(1 << 20, length - at)) for at in range(0, length, 1 << 20)]
        return b"".join(parts)

    def lock(self, file, at, count, flags=EXCLUSIVE | AT_ONCE):
        self.call(LOCK, lock_body(file, at, count, flags))

    def close_file(self, file):
        self.call(CLOSE, struct.pack("<HHI", 24, 0, 0) + file)

    def flush(self, file):
        self.call(FLUSH, struct.pack("<HHI", 24, 0, 0) + file)

    def echo(self):
        self.call(ECHO, struct.pack("<HH", 4, 0), tree=0)

    def set_info(self, file, kind, data):
        self.call(SET_INFO, struct.pack("<HBBIHHI", 33, 1, kind, len(data), 96, 0, 0) + file + data)

    def set_end(self, file, length):
        self.set_info(file, 20, struct.pack("<Q", length))

    def rename(self, file, name):
        text = utf16(name)
        self.set_info(file, 10, struct.pack("<B7xQI", 0, 0, len(text)) + text)

    def remove(self, file):
        """The file goes when it is closed."""
        self.set_info(file, 13, b"\1")

    def listed(self, folder, pattern="*"):
        """The names of a folder, without the two of itself."""
        names, opened = [], self.create(folder, access=0x81, disposition=OPEN, options=FOLDER)
        while True:
            try:
                answer = self.call(QUERY_DIRECTORY, query_directory_body(opened.file, pattern), charge_of(65536))
            except Refused as refused:
                if refused.status != NO_MORE_FILES and not (refused.status == 0xC000000F and not names):
                    raise
                break
            names += names_of(answer)
        self.close_file(opened.file)
        return [name for name in names if name not in (".", "..")]

    def whole(self, name):
        """A file's bytes, or None where it isn't there."""
        try:
            opened = self.create(name, access=0x120089, disposition=OPEN)
        except Refused as refused:
            if refused.status == NAME_NOT_FOUND:
                return None
            raise
        data = self.read_all(opened.file, opened.length)
        self.close_file(opened.file)
        return data


# ---- bodies


def create_body(name, access, shared, disposition, options, contexts):
    text = utf16(name)
    at = len(padded(bytes(120 + max(1, len(text)))))
    fixed = struct.pack("<HBBIQQ", 57, 0, 0, 2, 0, 0) + struct.pack("<IIIII", access, 0, shared, disposition, options)
    fixed += struct.pack("<HHII", 120, len(text), at if contexts else 0, len(contexts))
    return fixed + text + bytes(at - 120 - len(text)) + contexts


def write_body(file, at, data):
    return struct.pack("<HHIQ", 49, 112, len(data), at) + file + struct.pack("<IIHHI", 0, 0, 0, 0, 0) + (data or b"\0")


def read_body(file, at, count):
    return struct.pack("<HBBIQ", 49, 80, 0, count, at) + file + struct.pack("<IIIHH", 0, 0, 0, 0, 0) + b"\0"


def lock_body(file, at, count, flags, sequence=0):
    return struct.pack("<HHI", 48, 1, sequence) + file + struct.pack("<QQII", at, count, flags, 0)


def query_directory_body(file, pattern, kind=1, flags=0, size=65536):
    text = utf16(pattern)
    return struct.pack("<HBBI", 33, kind, flags, 0) + file + struct.pack("<HHI", 96, len(text), size) + text


def query_info_body(file, type_of, kind, size=4096):
    return struct.pack("<HBBIHHIII", 41, type_of, kind, size, 0, 0, 0, 0, 0) + file


def ioctl_body(file, code, size=4096):
    return struct.pack("<HHI", 57, 0, code) + file + struct.pack("<IIIIIIII", 0, 0, 0, 0, 0, size, 1, 0)


def token_of(answer):
    """The token of a SESSION_SETUP's response (MS-SMB2 2.2.6)."""
    at, length = struct.unpack_from("<HH", answer, 68)
    return answer[at:at + length]


def names_of(answer):
    """The names of a listing in class 1 (MS-FSCC 2.4.10)."""
    at, length = struct.unpack_from("<HI", answer, 66)
    names, data = [], answer[at:at + length]
    while data:
        step, size = struct.unpack_from("<I", data)[0], struct.unpack_from("<I", data, 60)[0]
        names.append(data[64:64 + size].decode("utf-16-le"))
        data = data[step:] if step else b""
    return names


def whole_of(challenge):
    """A type 2 with whatever stands behind its target information cut off."""
    length, at = struct.unpack_from("<HxxI", challenge, 40)
    return challenge[:at + length]


def told_in(challenge):
    """The 8 bytes of a type 2, and its target information."""
    length, at = struct.unpack_from("<HxxI", challenge, 40)
    return challenge[24:32], challenge[at:at + length]


def answered(challenge, first, user, password, exported):
    """The authenticate message to a challenge: NTLMv2, a MIC over the three messages, a key of the client's choice."""
    server, told = told_in(challenge)
    items, place = [], 0
    while place + 4 <= len(told):
        kind, size = struct.unpack_from("<HH", told, place)
        if kind == 0:
            break
        items.append((kind, told[place + 4:place + 4 + size]))
        place += 4 + size
    moment = next((struct.unpack("<Q", value)[0] for kind, value in items if kind == 7), 0)
    owf = f.ntowf(password, user, "")
    blob = f.temp(moment, os.urandom(8), pairs(*items, (6, struct.pack("<I", 2))))
    answer = f.proof(owf, server, blob)
    carried = f.Rc4(f.hmac_md5(owf, answer)).apply(exported)
    third = Type3(CLIENT_FLAGS, bytes(24), answer + blob, b"", utf16(user), b"", carried)
    third.mic = f.mic(exported, first, whole_of(challenge), third.spelled())
    return third.spelled()


def logged_on(port, user, password, share="data", **words):
    """A client on a share, whatever it takes to get there."""
    client = Client(port, **words)
    try:
        client.negotiate().log_on(user, password)
        return client.connect_tree(share)
    except BaseException:
        client.close()
        raise


def bound(to, user, password, **words):
    """Another connection of a client's session."""
    client = Client(to.socket.getpeername()[1], guid=to.guid, ciphers=to.ciphers, signings=to.signings, **words)
    try:
        return client.negotiate().log_on(user, password, to=to)
    except BaseException:
        client.close()
        raise
