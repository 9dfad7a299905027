#!/usr/bin/env python3
"""Writes rows of frames that come to a server's connection, and what is due to them.

usage: tools/frame-rows.py

Writes its part of `stdin` of crates/test_events, and how many rows the whole has into `stdout`. The frames are those of worked_file.py,
once sealed and once signed, and those of a usual client. Each frame is taken cut to each length, and each text of a sealed frame is cut
before it is sealed; what is due follows from MS-SMB2 3.3.5.2 and the slow reader of wire_layouts.py. The answers to whole frames are
written byte by byte, by `struct` and OpenSSL.
"""
import os
import struct
import sys

import session_formulas as f
import vector_parts
import wire_layouts as layouts
import worked_logon as worked
from session_formulas import NTLM_OID, Type3, pairs, utf16
from wire_contexts import create_chain, dh2q, usual_contexts
from wire_layouts import HEADER
from worked_file import FILE_ID, WorkedFile

LAYOUTS = {**layouts.SESSION, **layouts.FILE}
INVALID_PARAMETER, ACCESS_DENIED = "c000000d", "c0000022"
STATUS = {"session_setup_request": ("c0000016", "ok"), "create_request": ("ok acts",), "write_request": ("ok acts",)}
STATUS["close_request"] = ("ok acts",)


def framed(data):
    return (struct.pack(">I", len(data)) + data).hex()


# ---- the exchanges


class UsualTokens(worked.Tokens):
    """Of a client that has other flags, a version, a domain and a workstation, and names a second mechanism (MS-NLMP 2.2.2.5)."""

    FIRST, LAST, NEGOEX = 0xE2088297, 0xE2888215, bytes.fromhex("2b06010401823702021e")
    ANSWERED = 1 | 0x10 | 0x20 | 0x8000 | 0x80000 | 0x20000000 | 0x40000000

    def __init__(self, now):
        super().__init__(now)
        self.list = f.mech_list(NTLM_OID, self.NEGOEX)
        self.type1 = f.type1(self.FIRST, bytes.fromhex("0a0063450000000f"))
        self.first = f.init_token(self.list, self.type1)
        name, low = utf16("SMB311"), utf16("smb311")
        told = ((2, name), (1, name), (4, low), (3, low), (7, struct.pack("<Q", now)))
        self.type2 = f.type2(0x00820204 | self.FIRST & self.ANSWERED, self.server, name, pairs(*told))
        self.interim = f.resp_token(1, NTLM_OID, self.type2)
        self.type3 = self.answered(pairs(*told, (6, struct.pack("<I", 2))))
        self.second = f.resp_token(token=self.type3, mic=f.message_signature(self.key, True, True, self.list))
        self.final = f.resp_token(0, mic=f.message_signature(self.key, False, True, self.list))

    def answered(self, info):
        domain = "WORK"
        owf, blob = f.ntowf(worked.PASSWORD, worked.USER, domain), f.temp(self.now, self.challenge, info)
        answer = f.proof(owf, self.server, blob)
        carried = f.Rc4(f.hmac_md5(owf, answer)).apply(self.key)
        third = Type3(self.LAST, bytes(24), answer + blob, utf16(domain), utf16(worked.USER), utf16("LAPTOP"), carried)
        third.version = bytes.fromhex("0a0063450000000f")
        third.mic = f.mic(self.key, self.type1, self.type2, third.spelled())
        return third.spelled()


class UsualClient(worked.Worked):
    """A client that offers all dialects, more contexts than are known, and joins three requests in a frame."""

    def __init__(self, name, encrypts):
        super().__init__(name, [2, 1, 4, 3], [2, 1, 0], encrypts)

    def greeted(self):
        self.tokens = UsualTokens(self.start + 3)
        value = {"security_mode": 1, "capabilities": 0x7F, "client_guid": worked.CLIENT_GUID, "negotiate_context_count": 5}
        value |= {"dialects": struct.pack("<5H", 0x202, 0x210, 0x300, 0x302, 0x311), "contexts": usual_contexts()}
        asked = worked.header(0, 0) + layouts.SESSION["negotiate_request"].spelled(value)
        told = worked.negotiate_response(worked.draw(4), [2], [2], self.start + 1)
        return [worked.Message("negotiate_request", asked), worked.Message("negotiate_response", worked.header(0, 0, 1) + told)]

    def created(self):
        """CREATE, and related to it QUERY_INFO of all information and CLOSE; the answers in one frame."""
        guid, now, any_file = bytes(range(0x40, 0x50)), self.start + 11, b"\xff" * 16
        asked = {"requested_oplock_level": 0xFF, "impersonation_level": 2, "desired_access": 0x120089, "file_attributes": 0x80}
        asked |= {"share_access": 7, "create_disposition": 2, "create_options": 0x60, "name": utf16("usual.txt")}
        asked |= {"contexts": create_chain([(b"DH2Q", dh2q(0, 0, guid)), (b"MxAc", b""), (b"QFid", b""), (b"RqLs", bytes(52))])}
        told = dict.fromkeys(("creation_time", "last_access_time", "last_write_time", "change_time"), now)
        told |= {"oplock_level": 0, "flags": 0, "create_action": 2, "allocation_size": 0, "end_of_file": 0, "file_attributes": 0x20}
        told |= {"file_id": FILE_ID, "contexts": create_chain([(b"MxAc", struct.pack("<II", 0, 0x1F01FF)), (b"QFid", struct.pack("<QQ16x", 1, 1))])}
        query = {"info_type": 1, "file_info_class": 18, "output_buffer_length": 4096, "additional_information": 0, "flags": 0}
        name = utf16("\\usual.txt")
        every = struct.pack("<4QII", now, now, now, now, 0x20, 0) + struct.pack("<QQIBBH", 0, 0, 1, 0, 0, 0)
        every += struct.pack("<QIIQIII", 1, 0, 0x120089, 0, 0x20, 0, len(name)) + name
        gone = dict.fromkeys(("creation_time", "last_access_time", "last_write_time", "change_time"), 0)
        gone |= {"flags": 0, "allocation_size": 0, "end_of_file": 0, "file_attributes": 0}
        requests = [
            (5, layouts.FILE["create_request"].spelled(asked)),
            (16, layouts.INFO["query_info_request"].spelled({**query, "file_id": any_file, "input": b""})),
            (6, layouts.FILE["close_request"].spelled({"flags": 0, "file_id": any_file})),
        ]
        replies = [
            (5, layouts.FILE["create_response"].spelled(told)),
            (16, layouts.INFO["query_info_response"].spelled({"output": every})),
            (6, layouts.FILE["close_response"].spelled(gone)),
        ]
        return [self.chained(requests, 0), self.chained(replies, 1)]

    def chained(self, bodies, flags):
        """Messages in one frame, of which the later ones are related; sealed together, or each signed with what pads it."""
        text, from_client = b"", flags == 0
        for place, (command, body) in enumerate(bodies):
            last, related = place + 1 == len(bodies), 4 if place else 0
            ids = {"tree": 0xFFFFFFFF, "session": 2**64 - 1} if related and from_client else {"tree": 1, "session": self.session}
            signed = 0 if self.encrypts else 8
            message = worked.header(command, 4 + place, flags | related | signed, credits=1, **ids) + body
            if not last:
                message = worked.padded(message)
                message = message[:20] + struct.pack("<I", len(message)) + message[24:]
            text += self.with_signature(message) if signed else message
        if not self.encrypts:
            return worked.Message("compound", text)
        key = self.keys.to_server if from_client else self.keys.to_client
        return worked.Message("compound", text, f.sealed(self.cipher, key, self.session, self.nonce(from_client), text))


# ---- rows

LINES = []


def remark(words):
    LINES.append(f"# {words}")


def row(head, before, asked, due):
    front = "; ".join(before) + " > " if before else ""
    LINES.append(f"{head} | {front}{'; '.join(asked)} = {'; '.join(due)}")


def head_of(logon):
    return "sealed" if logon.encrypts else "new"


def requests(logon):
    """Each request with its response and the moment at which it comes."""
    for place in range(0, len(logon.messages), 2):
        yield logon.start + (place + 1 if place < 8 else 11), logon.messages[place], logon.messages[place + 1]


def runs(of):
    """The lengths from which what is due is another."""
    found = []
    for length, word in enumerate(of):
        if not found or found[-1][1] != word:
            found.append((length, word))
    return ", ".join(f"{length} {word}" for length, word in found)


def cut_text(layout, text, whole):
    """What is due to each front of a text that the connection opens, or takes as it is."""
    for length in range(len(text) + 1):
        if length < HEADER:
            yield "BadFrame"
        else:
            yield INVALID_PARAMETER if isinstance(layout.read(text[:length]), str) else whole


def cut_sealed(frame, whole):
    for length in range(len(frame) + 1):
        yield whole if length == len(frame) else "Unsealable" if length >= 4 else "BadFrame"


def cut_signed(frame, whole):
    for length in range(len(frame) + 1):
        yield whole if length == len(frame) else ACCESS_DENIED if length >= HEADER else "BadFrame"


def cuts(logon):
    before, seen = ["accept 1"], {}
    for moment, asked, _ in requests(logon):
        whole = STATUS.get(asked.name, ("ok",))[seen.get(asked.name, 0)]
        seen[asked.name] = 1
        layout = LAYOUTS[asked.name]
        at = [*before, f"at {moment}"]
        if asked.sealed:
            row(head_of(logon), at, [f"cuts frame {asked.frame.hex()}"], [runs(cut_sealed(asked.frame, whole))])
            row(head_of(logon), at, [f"cuts sealed {asked.text.hex()}"], [runs(cut_text(layout, asked.text, whole))])
        elif asked.signed:
            row(head_of(logon), at, [f"cuts frame {asked.frame.hex()}"], [runs(cut_signed(asked.frame, whole))])
        elif logon.encrypts:
            row(head_of(logon), at, [f"cuts frame {asked.frame.hex()}"], [runs(cut_text(layout, asked.text, whole))])
        before = [*at, f"frame {asked.frame.hex()}"]


def whole(logon):
    """Each frame of a logon, and its answer to the byte."""
    asked, due = ["accept 1"], ["ok"]
    for moment, request, response in requests(logon):
        asked += [f"at {moment}", f"answer {request.frame.hex()}"]
        due += ["ok", framed(response.frame)]
    row(head_of(logon), [], asked, due)


def prepared(logon, count):
    out = ["accept 1"]
    for moment, asked, _ in list(requests(logon))[:count]:
        out += [f"at {moment}", f"frame {asked.frame.hex()}"]
    return out


def ends(sealed, signed):
    """Frames that end their connection."""
    echo = [signed.with_signature(worked.header(13, number, 8, session=signed.session) + b"\4\0\0\0") for number in (4, 5)]
    other = b"\xfcSMB" + bytes(60)
    row("new", prepared(signed, 4), [f"frame {data.hex()}" for data in (*echo, other)], ["ok", "ok", "BadFrame"])
    greeting = signed.messages[0].frame
    again = worked.header(0, 1) + greeting[HEADER:]
    row("new", prepared(signed, 1), [f"frame {again.hex()}"], ["SecondNegotiate"])
    row("new", prepared(signed, 4), [f"frame {(worked.header(0, 4) + greeting[HEADER:]).hex()}"], ["SecondNegotiate"])
    row("new", ["accept 1"], [f"frame {signed.messages[2].frame.hex()}"], ["BadFrame"])
    row("new", prepared(signed, 1), [f"frame {(greeting[:4] + bytes(2) + greeting[6:]).hex()}"], ["BadFrame"])
    far = worked.header(1, 600) + signed.messages[2].frame[HEADER:]
    row("new", prepared(signed, 1), [f"frame {far.hex()}"], ["OutsideWindow(600)"])
    row("new", prepared(signed, 2), [f"frame {signed.messages[2].frame.hex()}"], ["OutsideWindow(1)"])
    row("new", prepared(signed, 3), [f"frame {sealed.messages[6].frame.hex()}"], ["Unsealable"])
    flags = sealed.messages[6].frame
    row("sealed", prepared(sealed, 3), [f"frame {(flags[:42] + bytes(2) + flags[44:]).hex()}"], ["Unsealable"])


def counted():
    """How many rows the whole table has."""
    with open(os.path.join(vector_parts.CRATES, "test_events", "stdin"), encoding="utf-8") as file:
        count = sum(1 for line in file if line.strip() and not line.startswith("#"))
    with open(os.path.join(vector_parts.CRATES, "test_events", "stdout"), "w", encoding="utf-8") as out:
        out.write(f"{count} rows are answered as they say\n")


def main():
    if len(sys.argv) > 1:
        sys.exit(__doc__)
    sealed = WorkedFile("sealed by AES-128-GCM", [2, 1, 4, 3], [2, 1], True)
    signed = WorkedFile("signed by AES-CMAC", [4, 3], [1], False)
    remark("Frames of a logon, and of a file that is created, written, read and closed, with their answers to the byte: once all is sealed,")
    remark("and once all is signed (3.3.4.1, 3.3.5.2).")
    for logon in (sealed, signed):
        whole(logon)
    remark("Each frame cut to each length (3.3.5.2.1, 3.3.5.2.4), and each sealed one whose text was cut before (3.3.5.2.6).")
    for logon in (sealed, signed):
        cuts(logon)
    remark("Frames that end their connection: of another protocol, a second NEGOTIATE (3.3.5.3.1), a request in front of it, another")
    remark("StructureSize (2.2.1.2), ids that aren't held (3.3.5.2.3), a sealed frame without keys, and one whose Flags are others (2.2.41).")
    ends(sealed, signed)
    remark("A usual client: all dialects, contexts that aren't known, AES-128-GCM and AES-GMAC first, other flags of NTLM with a version, a")
    remark("domain and a workstation; then CREATE, QUERY_INFO and CLOSE in one frame, and their answers in one, with MxAc and QFid alone.")
    for encrypts in (True, False):
        whole(UsualClient("usual", encrypts))
    vector_parts.put("test_events", "stdin", "frame-rows.py", LINES)
    counted()
    return 0


if __name__ == "__main__":
    sys.exit(main())
