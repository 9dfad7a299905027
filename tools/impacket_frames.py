#!/usr/bin/python3
"""Checks what a running server answers to frames that a good client rarely sends, or never, with Debian's python3-impacket 0.10:
PORT KIND USER PASSWORD SHARE, KIND being sign or seal. The server also has the user `other` with the password `Second`.

It prints one line for each check, as impacket_client.py does, whose mended connection it takes. Messages, tokens, keys and signatures are
impacket's; only how they are put into frames is written here.

Samba 4.17 passes all but these, where this server chose for itself: it signs the refusal of a wrong signature, answers a binding that is
unsigned or wrongly signed USER_SESSION_DELETED, wants the bindings of a session that seals sealed, and takes longer frames before a session.
"""
import hashlib
import socket
import struct
import sys

from impacket import crypto, ntlm, smb3
from impacket.smb3structs import (
    SMB2_CLOSE, SMB2_CREATE, SMB2_DIALECT_311, SMB2_ECHO, SMB2_QUERY_DIRECTORY, SMB2_QUERY_INFO, SMB2_READ, SMB2_SESSION_SETUP,
    SMB2_TRANSFORM_HEADER, SMB2_TREE_CONNECT, SMB2_TREE_DISCONNECT, SMB2Close, SMB2Create, SMB2Echo, SMB2Packet, SMB2QueryDirectory,
    SMB2QueryInfo, SMB2Read, SMB2SessionSetup, SMB2SessionSetup_Response, SMB2TreeConnect, SMB2TreeDisconnect, SMB3Packet)
from impacket.spnego import SPNEGO_NegTokenInit, SPNEGO_NegTokenResp, TypesMech
from Cryptodome.Cipher import AES

from impacket_client import KIND, PASSWORD, PORT, SHARE, USER, check, connected, logged_on

OTHER = ("other", "Second")
TURNS = 1000  # how often the compound is sent
RELATED, SIGNED, BINDING = 4, 8, 1
SUCCESS, MORE = 0, 0xC0000016
INVALID_PARAMETER, ACCESS_DENIED, LOGON_FAILURE = 0xC000000D, 0xC0000022, 0xC000006D
NAME_INVALID, NAME_NOT_FOUND, NO_SUCH_FILE = 0xC0000033, 0xC0000034, 0xC000000F
FILE_CLOSED, END_OF_FILE = 0xC0000128, 0xC0000011
NO_SUCH_CLASS, STANDARD = 200, 5
ALL_IDS = b"\xff" * 16
MOST_BEFORE_SESSION = 66000
READS = 510


class Ended(Exception):
    """The server closed the connection."""


class Line:
    """A connection of impacket's, over which whole frames go. `key` is what its messages are signed with."""

    def __init__(self, inner):
        self.inner, self.keys = inner, inner._Session
        self.socket = inner._NetBIOSSession.get_socket()
        self.socket.settimeout(30)

    @property
    def key(self):
        return self.keys["SigningKey"]

    def message(self, command, body, flags=0, session=None, tree=0):
        packet = SMB3Packet()
        packet["Command"], packet["TreeID"], packet["Flags"] = command, tree, flags
        packet["CreditCharge"], packet["CreditRequestResponse"] = 1, 127
        packet["MessageID"] = self.inner._Connection["SequenceWindow"]
        packet["SessionID"] = self.keys["SessionID"] if session is None else session
        packet["Signature"] = b"\0" * 16
        packet["Data"] = body
        self.inner._Connection["SequenceWindow"] += 1
        return packet.getData()

    def send(self, frame):
        try:
            self.socket.sendall(struct.pack(">I", len(frame)) + frame)
        except ConnectionError as error:
            raise Ended from error

    def send_owed(self, messages):
        """Sends messages in one frame, signed one by one or sealed together, as KIND has it."""
        parts = []
        for at, one in enumerate(messages):
            if at + 1 < len(messages):
                one += bytes(-len(one) % 8)
                one = one[:20] + struct.pack("<I", len(one)) + one[24:]
            parts.append(signed(self.key, one) if KIND == "sign" else one)
        frame = b"".join(parts)
        self.send(frame if KIND == "sign" else self.sealed(frame))

    def sealed(self, frame, flags=1):
        head = SMB2_TRANSFORM_HEADER()
        nonce = struct.pack("<Q", self.inner._Connection["SequenceWindow"]) + b"abc"
        head["Nonce"], head["OriginalMessageSize"], head["EncryptionAlgorithm"] = nonce, len(frame), flags
        head["SessionID"] = self.keys["SessionID"]
        cipher = AES.new(self.keys["EncryptionKey"], AES.MODE_CCM, nonce)
        cipher.update(head.getData()[20:])
        text = cipher.encrypt(frame)
        head["Signature"] = cipher.digest()
        return head.getData() + text

    def exactly(self, count):
        data = b""
        while len(data) < count:
            try:
                got = self.socket.recv(count - len(data))
            except ConnectionError as error:
                raise Ended from error
            if not got:
                raise Ended
            data += got
        return data

    def receive(self):
        """The messages of the next frame."""
        frame = self.exactly(struct.unpack(">I", self.exactly(4))[0])
        if frame.startswith(b"\xfdSMB"):
            head = SMB2_TRANSFORM_HEADER(frame)
            cipher = AES.new(self.keys["DecryptionKey"], AES.MODE_CCM, head["Nonce"][:11])
            cipher.update(frame[20:52])
            frame = cipher.decrypt_and_verify(frame[52:], frame[4:20])
        messages = []
        while frame:
            size = struct.unpack_from("<I", frame, 20)[0] or len(frame)
            messages.append(frame[:size])
            frame = frame[size:]
        return messages

    def answers(self, count):
        heard = []
        while len(heard) < count:
            heard += self.receive()
        return heard


def signed(key, one):
    """The message with its signature, of AES-CMAC: impacket offers no other (MS-SMB2 3.1.4.1)."""
    one = one[:16] + struct.pack("<I", flags_of(one) | SIGNED) + one[20:48] + bytes(16) + one[64:]
    return one[:48] + bytes(crypto.AES_CMAC(key, one, len(one))) + one[64:]


def spoiled(one):
    return one[:48] + bytes([one[48] ^ 1]) + one[49:]


def flags_of(one):
    return struct.unpack_from("<I", one, 16)[0]


def status_of(one):
    return struct.unpack_from("<I", one, 8)[0]


def expect_status(one, status):
    assert status_of(one) == status, f"answered {status_of(one):08x}, due is {status:08x}"


def expect_unsigned(one):
    assert not flags_of(one) & SIGNED and one[48:64] == bytes(16), "the answer is signed"


def expect_signed(one, key):
    assert flags_of(one) & SIGNED, "the answer isn't signed"
    assert signed(key, one) == one, "the answer's signature is another"


def expect_ended(line, what):
    try:
        heard = line.receive()
    except Ended:
        return
    except socket.timeout as error:
        raise AssertionError(f"{what} did not end the connection") from error
    raise AssertionError(f"{what} was answered {status_of(heard[0]):08x}")


def create_body(name, share):
    body = SMB2Create()
    body["ImpersonationLevel"], body["DesiredAccess"], body["ShareAccess"] = 2, 0x12019F, share
    body["CreateDisposition"], body["CreateOptions"] = 3, 0x40
    body["NameLength"], body["Buffer"] = 2 * len(name), name.encode("utf-16le")
    return body


def query_body(info_class, room):
    body = SMB2QueryInfo()
    body["InfoType"], body["FileInfoClass"], body["OutputBufferLength"], body["FileID"] = 1, info_class, room, ALL_IDS
    body["InputBufferOffset"], body["Buffer"] = 0, b"\0"
    return body


def read_body(file, count):
    body = SMB2Read()
    body["Length"], body["FileID"] = count, file
    return body


def list_body(directory, pattern):
    body = SMB2QueryDirectory()
    body["FileInformationClass"], body["Flags"], body["FileID"] = 12, 1, directory
    body["OutputBufferLength"], body["FileNameLength"], body["Buffer"] = 65536, 2 * len(pattern), pattern.encode("utf-16le")
    return body


def context(name, value, last):
    """A create context of a name of 4 bytes (MS-SMB2 2.2.13.2)."""
    one = struct.pack("<IHHHHI", 0, 16, 4, 0, 24, len(value)) + name + bytes(4) + value
    one += bytes(-len(one) % 8)
    return one if last else struct.pack("<I", len(one)) + one[4:]


def contexts_body(*contexts):
    """A CREATE by a name that no file can have, with contexts."""
    body = create_body("a:b", 7)
    told = b"".join(context(name, value, at + 1 == len(contexts)) for at, (name, value) in enumerate(contexts))
    body["Buffer"] = body["Buffer"] + bytes(2)
    body["CreateContextsOffset"], body["CreateContextsLength"] = 120 + len(body["Buffer"]), len(told)
    body["Buffer"] += told
    return body


def close_body():
    body = SMB2Close()
    body["FileID"] = ALL_IDS
    return body


def tree_body():
    body, path = SMB2TreeConnect(), f"\\\\127.0.0.1\\{SHARE}"
    body["PathLength"], body["Buffer"] = 2 * len(path), path.encode("utf-16le")
    return body


def closes_behind(it):
    """CREATE, a QUERY_INFO that fails, CLOSE, related in one frame: the CLOSE is carried out (MS-SMB2 3.3.5.2.7.2)."""
    tree, line = it.connectTree(SHARE), Line(it._SMBConnection)
    for turn in range(TURNS):
        query = query_body(NO_SUCH_CLASS, 64) if turn % 2 else query_body(STANDARD, 1)
        line.send_owed([
            line.message(SMB2_CREATE, create_body("iheld", 7), tree=tree), line.message(SMB2_QUERY_INFO, query, RELATED, tree=tree),
            line.message(SMB2_CLOSE, close_body(), RELATED, tree=tree)])
        told = [status_of(one) for one in line.answers(3)]
        assert told[0] == SUCCESS and told[1] != SUCCESS, f"turn {turn}: CREATE, QUERY_INFO answered {told[0]:08x}, {told[1]:08x}"
        assert told[2] == SUCCESS, f"turn {turn}: CLOSE behind {told[1]:08x} answered {told[2]:08x}"
    file = it.openFile(tree, "iheld", shareMode=0)
    it.closeFile(tree, file)
    it.deleteFile(SHARE, "iheld")


def trees_opens(it):
    """A request under another tree's id finds no open, and a TREE_DISCONNECT closes those of its tree (MS-SMB2 3.3.5.8, 3.3.5.12)."""
    tree, line = it.connectTree(SHARE), Line(it._SMBConnection)

    def asked(command, body, under):
        line.send_owed([line.message(command, body, tree=under)])
        return line.receive()[0]

    connected_tree = asked(SMB2_TREE_CONNECT, tree_body(), 0)
    expect_status(connected_tree, SUCCESS)
    other = struct.unpack_from("<I", connected_tree, 36)[0]
    made = asked(SMB2_CREATE, create_body("in a tree", 0), other)
    expect_status(made, SUCCESS)
    file = made[128:144]
    expect_status(asked(SMB2_READ, read_body(file, 1), tree), FILE_CLOSED)
    expect_status(asked(SMB2_READ, read_body(file, 1), other), END_OF_FILE)
    expect_status(asked(SMB2_TREE_DISCONNECT, SMB2TreeDisconnect(), other), SUCCESS)
    it.closeFile(tree, it.openFile(tree, "in a tree", shareMode=0))
    it.deleteFile(SHARE, "in a tree")


def unpaid_reads(it):
    """READs of 1 MiB with a CreditCharge of 1, as many as the credits let through, in one frame of 61 KB (MS-SMB2 3.3.5.2.5)."""
    tree, line = it.connectTree(SHARE), Line(it._SMBConnection)
    file = it.createFile(tree, "unpaid")
    it.writeFile(tree, file, bytes(65536))
    for _ in range(8):
        line.send_owed([line.message(SMB2_ECHO, SMB2Echo())])
        expect_status(line.receive()[0], SUCCESS)
    line.send_owed([line.message(SMB2_READ, read_body(file, 1 << 20), tree=tree) for _ in range(READS)])
    heard = line.answers(READS)
    told = {status_of(one) for one in heard}
    assert told == {INVALID_PARAMETER}, "answered " + ", ".join(f"{status:08x}" for status in sorted(told))
    assert sum(map(len, heard)) < 65536, f"{sum(map(len, heard))} bytes of answers"
    for body, status in ((read_body(file, 65536), SUCCESS), (read_body(file, 65537), INVALID_PARAMETER)):
        line.send_owed([line.message(SMB2_READ, body, tree=tree)])
        expect_status(line.receive()[0], status)
    line.send_owed([line.message(SMB2_QUERY_INFO, query_body(NO_SUCH_CLASS, 65537), tree=tree)])
    expect_status(line.receive()[0], INVALID_PARAMETER)
    it.closeFile(tree, file)
    it.deleteFile(SHARE, "unpaid")


def long_pattern(it):
    """A pattern has at most the 1,024 units of a path, which is this server's own limit."""
    tree, line = it.connectTree(SHARE), Line(it._SMBConnection)
    root = it._SMBConnection.create(tree, "", 0x81, 7, 1, 1, 0)
    for count, status in ((1024, NO_SUCH_FILE), (1025, NAME_INVALID)):
        line.send_owed([line.message(SMB2_QUERY_DIRECTORY, list_body(root, "?" * count), tree=tree)])
        expect_status(line.receive()[0], status)
    it.closeFile(tree, root)


def attaching(it):
    """A CREATE with DH2C has no DH2Q, DHnQ or DHnC beside it, and is judged by nothing else (MS-SMB2 3.3.5.9.12); no context comes twice."""
    tree, line = it.connectTree(SHARE), Line(it._SMBConnection)
    again, durable = (b"DH2C", bytes(36)), (b"DH2Q", bytes(16) + b"x" * 16)
    older = ((b"DHnQ", bytes(16)), (b"DHnC", bytes(16)))
    twice = (b"MxAc", b"")
    for contexts, status in (
            ((again,), NAME_NOT_FOUND), ((again, durable), INVALID_PARAMETER), ((durable,), NAME_INVALID), ((again, older[0]), INVALID_PARAMETER),
            ((older[1], again), INVALID_PARAMETER), (older, NAME_INVALID), ((twice, twice), INVALID_PARAMETER), ((twice,), NAME_INVALID)):
        line.send_owed([line.message(SMB2_CREATE, contexts_body(*contexts), tree=tree)])
        expect_status(line.receive()[0], status)


def related_first(it):
    """The related flag on a frame's first message (MS-SMB2 3.3.5.2.7.2)."""
    line = Line(it._SMBConnection)
    for command, body in ((SMB2_ECHO, SMB2Echo()), (SMB2_TREE_CONNECT, tree_body())):
        line.send_owed([line.message(command, body, RELATED)])
        expect_status(line.receive()[0], INVALID_PARAMETER)


def related_negotiate():
    class Related(smb3.SMB3):
        def sendSMB(self, packet):
            packet["Flags"] = RELATED
            return super().sendSMB(packet)

    try:
        Related("127.0.0.1", "127.0.0.1", sess_port=PORT, preferredDialect=SMB2_DIALECT_311, timeout=30)
    except smb3.SessionError as error:
        assert error.get_error_code() == INVALID_PARAMETER, f"answered {error.get_error_code():08x}"
        return
    raise AssertionError("it was answered with success")


def wrong_signature(it):
    """ACCESS_DENIED, unsigned, and the session goes on (MS-SMB2 3.3.5.2.4)."""
    line = Line(it._SMBConnection)
    line.send(spoiled(signed(line.key, line.message(SMB2_TREE_CONNECT, tree_body()))))
    heard = line.receive()[0]
    expect_status(heard, ACCESS_DENIED)
    expect_unsigned(heard)
    it.connectTree(SHARE)


def wrong_tag(it):
    """A sealed frame that doesn't open ends the connection (MS-SMB2 3.3.5.2.1.1)."""
    line = Line(it._SMBConnection)
    frame = line.sealed(line.message(SMB2_ECHO, SMB2Echo()))
    line.send(frame[:-1] + bytes([frame[-1] ^ 1]))
    expect_ended(line, "it")


def transform_flags():
    """Flags other than 1 in a transform header end the connection (MS-SMB2 3.3.5.2.1.1)."""
    for flags in (1, 0, 2, 3):
        line = Line(logged_on()._SMBConnection)
        line.send(line.sealed(line.message(SMB2_ECHO, SMB2Echo()), flags))
        if flags == 1:
            expect_status(line.receive()[0], SUCCESS)
        else:
            expect_ended(line, f"Flags {flags}")


def echoes(line):
    """An ECHO with SessionId 0, unsigned: SUCCESS, unsigned (MS-SMB2 3.3.5.17 looks up no session)."""
    line.send(line.message(SMB2_ECHO, SMB2Echo(), session=0))
    heard = line.receive()[0]
    expect_status(heard, SUCCESS)
    expect_unsigned(heard)


def long_frame():
    """Before a session a frame may have 66,000 bytes and no more, which is this server's own limit."""
    for size in (MOST_BEFORE_SESSION, MOST_BEFORE_SESSION + 1):
        line = Line(connected()._SMBConnection)
        body = SMB2SessionSetup()
        body["SecurityBufferLength"], body["Buffer"] = 65535, b"x" * 65535
        one = line.message(SMB2_SESSION_SETUP, body)
        line.send(one + bytes(size - len(one)))
        if size > MOST_BEFORE_SESSION:
            expect_ended(line, f"a frame of {size} bytes")
        else:
            line.receive()


class Binding:
    """A second connection, by the same client, that asks to be a channel of a session (MS-SMB2 3.2.4.2.3)."""

    def __init__(self, first):
        guid = first.ClientGuid
        kind = type("Second", (smb3.SMB3,), {"ClientGuid": property(lambda _: guid, lambda _, given: None)})
        self.line = Line(kind("127.0.0.1", "127.0.0.1", sess_port=PORT, preferredDialect=SMB2_DIALECT_311, timeout=60))
        self.session, self.key = first._Session["SessionID"], first._Session["SigningKey"]
        self.chain = self.line.inner._Connection["PreauthIntegrityHashValue"]

    def link(self, one):
        self.chain = hashlib.sha512(self.chain + one).digest()

    def ask(self, token, changed=lambda one: one):
        """Sends a SESSION_SETUP that binds, signed by the session's key, and gives the answer."""
        body = SMB2SessionSetup()
        body["Flags"], body["SecurityMode"], body["SecurityBufferLength"], body["Buffer"] = BINDING, 1, len(token), token
        one = changed(signed(self.key, self.line.message(SMB2_SESSION_SETUP, body, session=self.session)))
        self.line.send(one)
        self.link(one)
        return self.line.receive()[0]

    def begun(self, changed=lambda one: one):
        token = SPNEGO_NegTokenInit()
        token["MechTypes"] = [TypesMech["NTLMSSP - Microsoft NTLM Security Support Provider"]]
        self.first = ntlm.getNTLMSSPType1("", "", True)
        token["MechToken"] = self.first.getData()
        return self.ask(token.getData(), changed)

    def ended(self, challenge, user, password):
        self.link(challenge)
        given = SPNEGO_NegTokenResp(SMB2SessionSetup_Response(SMB2Packet(challenge)["Data"])["Buffer"])["ResponseToken"]
        last, exported = ntlm.getNTLMSSPType3(self.first, given, user, password, "")
        token = SPNEGO_NegTokenResp()
        token["ResponseToken"] = last.getData()
        heard = self.ask(token.getData())
        self.channel_key = crypto.KDF_CounterMode(exported, b"SMBSigningKey\0", self.chain, 128)
        return heard


def binds(it):
    """A binding that succeeds: the interim answer is signed by the session's key, the last one by the channel's (3.3.5.5.3)."""
    second = Binding(it._SMBConnection)
    challenge = second.begun()
    expect_status(challenge, MORE)
    heard = second.ended(challenge, USER, PASSWORD)
    expect_status(heard, SUCCESS)
    expect_signed(heard, second.channel_key)


def binding_wrong_signature(it):
    heard = Binding(it._SMBConnection).begun(spoiled)
    expect_status(heard, ACCESS_DENIED)
    expect_unsigned(heard)


def binding_unsigned(it):
    heard = Binding(it._SMBConnection).begun(lambda one: one[:16] + bytes(4) + one[20:48] + bytes(16) + one[64:])
    expect_status(heard, INVALID_PARAMETER)
    expect_unsigned(heard)


def binding_refused(it, user, password, status):
    """The refusal is signed by the session's key, as the request was (3.3.4.1.1)."""
    second = Binding(it._SMBConnection)
    challenge = second.begun()
    expect_status(challenge, MORE)
    expect_signed(challenge, second.key)
    heard = second.ended(challenge, user, password)
    expect_status(heard, status)
    expect_signed(heard, second.key)


def main():
    everywhere = [
        (f"CREATE, a QUERY_INFO that fails, CLOSE in one frame, {TURNS} times", closes_behind),
        ("a request under another tree, and the opens of a tree that goes", trees_opens),
        ("the related flag on a frame's first message", related_first), (f"{READS} READs of 1 MiB for a credit each", unpaid_reads),
        ("a pattern of more than 1,024 units", long_pattern), ("a CREATE that asks to attach", attaching),
        ("an ECHO without a session after a logon", lambda it: echoes(Line(it._SMBConnection))), ("a binding", binds),
        ("a binding with a wrong signature", binding_wrong_signature), ("a binding that is not signed", binding_unsigned),
        ("a binding with a wrong password", lambda it: binding_refused(it, USER, PASSWORD + "x", LOGON_FAILURE)),
        ("a binding by another user", lambda it: binding_refused(it, *OTHER, ACCESS_DENIED))]
    alone = [
        ("the related flag on NEGOTIATE", related_negotiate),
        ("an ECHO without a session before a logon", lambda: echoes(Line(connected()._SMBConnection))),
        ("frames before a session", long_frame)]
    if KIND == "sign":
        everywhere.append(("a wrong signature", wrong_signature))
    else:
        everywhere.append(("a sealed frame that doesn't open", wrong_tag))
        alone.append(("a transform header's Flags", transform_flags))
    told = [check(name, lambda call=call: call(logged_on())) for name, call in everywhere]
    told += [check(name, call) for name, call in alone]
    sys.exit(0 if all(told) else 1)


if __name__ == "__main__":
    main()
