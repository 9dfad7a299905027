#!/usr/bin/python3
"""Checks a running server with Debian's python3-impacket 0.10: PORT KIND USER PASSWORD SHARE, KIND being sign or seal, or sign-alone or
seal-alone, where its NTLM messages go out without SPNEGO around them, as those of Linux's kernel do.

It prints one line for each check, `ok NAME` or `FAILED NAME: WHY`. Three slips of impacket 0.10 are mended here: its logon doesn't begin
with the hash of NEGOTIATE (MS-SMB2 3.2.5.3.1), it looks for the capability of sealing, which no server of 3.1.1 tells (2.2.4), and its
lock joins texts.
"""
import io
import os
import struct
import sys

if len(sys.argv) != 6:
    sys.exit(__doc__)

from impacket import smb3, smb3structs, smbconnection
from impacket.smb3structs import SMB2_DIALECT_311

PORT, KIND, USER, PASSWORD, SHARE = int(sys.argv[1]), *sys.argv[2:6]
SIZES = (0, 1, 65536, 1048577)


class Alone:
    """In place of a token of SPNEGO: the message of NTLM that it would carry."""

    def __init__(self, message=b""):
        self.message = message

    def __setitem__(self, name, value):
        if name in ("MechToken", "ResponseToken"):
            self.message = value

    def __getitem__(self, name):
        return self.message

    def __len__(self):
        return len(self.message)

    def getData(self):
        return self.message


if KIND.endswith("-alone"):
    smb3.SPNEGO_NegTokenInit = smb3.SPNEGO_NegTokenResp = Alone


def connected():
    plain = smbconnection.SMBConnection(
        "127.0.0.1", "127.0.0.1", sess_port=PORT, preferredDialect=SMB2_DIALECT_311, timeout=300)
    inner = plain._SMBConnection
    inner._Connection["SupportsEncryption"] = KIND.startswith("seal")
    inner._Session["PreauthIntegrityHashValue"] = inner._Connection["PreauthIntegrityHashValue"]
    return plain


def logged_on():
    it = connected()
    it.login(USER, PASSWORD)
    return it


def lock_bytes(it, tree, file, at, length, flags):
    """A LOCK of one range, with its elements as bytes."""
    inner = it._SMBConnection
    element = smb3structs.SMB2_LOCK_ELEMENT()
    element["Offset"], element["Length"], element["Flags"] = at, length, flags
    packet = inner.SMB_PACKET()
    packet["Command"], packet["TreeID"] = smb3structs.SMB2_LOCK, tree
    lock = smb3structs.SMB2Lock()
    lock["FileID"], lock["LockCount"], lock["LockSequence"] = file, 1, 0
    lock["Locks"] = element.getData()
    packet["Data"] = lock
    return inner.recvSMB(inner.sendSMB(packet)).isValidAnswer(0)


def refused(call, status):
    try:
        call()
    except (smbconnection.SessionError, smb3.SessionError) as error:
        code = error.getErrorCode() if hasattr(error, "getErrorCode") else error.get_error_code()
        assert code == status, hex(code)
        return
    raise AssertionError("it was not refused")


def files(it):
    for size in SIZES:
        data, got = os.urandom(size), io.BytesIO()
        it.putFile(SHARE, f"i{size}", io.BytesIO(data).read)
        it.getFile(SHARE, f"i{size}", got.write)
        assert got.getvalue() == data, f"{size} bytes differ"


def names(it):
    it.createDirectory(SHARE, "idir")
    it.putFile(SHARE, "idir\\a", io.BytesIO(b"text").read)
    it.rename(SHARE, "idir\\a", "idir\\b")
    listed = sorted(entry.get_longname() for entry in it.listPath(SHARE, "idir\\*"))
    assert listed == [".", "..", "b"], listed
    it.deleteFile(SHARE, "idir\\b")
    it.deleteDirectory(SHARE, "idir")
    for size in SIZES:
        it.deleteFile(SHARE, f"i{size}")


def locks(it):
    tree = it.connectTree(SHARE)
    file = it.createFile(tree, "ilock", shareMode=7)
    assert lock_bytes(it, tree, file, 0, 4, 0x12)
    second = logged_on()
    branch = second.connectTree(SHARE)
    other = second.openFile(branch, "ilock", shareMode=7)
    refused(lambda: lock_bytes(second, branch, other, 2, 4, 0x12), 0xC0000055)
    second.closeFile(branch, other)
    second.logoff()
    it.closeFile(tree, file)
    it.deleteFile(SHARE, "ilock")


def classes(it):
    """Information of a file and of the volume that impacket's own structures read (MS-FSCC 2.4, 2.5)."""
    tree = it.connectTree(SHARE)
    file = it.createFile(tree, "iclass", shareMode=7)
    it.writeFile(tree, file, b"text")
    inner = it._SMBConnection
    asked = lambda number, kind=1: inner.queryInfo(tree, file, infoType=kind, fileInfoClass=number)
    assert smb3structs.FILE_EA_INFORMATION(asked(7))["EaSize"] == 0
    assert smb3structs.FILE_ACCESS_INFORMATION(asked(8))["AccessFlags"] & 3 == 3
    assert smb3structs.FILE_NAME_INFORMATION(asked(9))["FileName"] == "\\iclass".encode("utf-16-le")
    assert inner.setInfo(tree, file, inputBlob=(9).to_bytes(8, "little"), fileInfoClass=14)
    assert smb3structs.FILE_POSITION_INFORMATION(asked(14))["CurrentByteOffset"] == 9
    assert inner.setInfo(tree, file, inputBlob=(2).to_bytes(4, "little"), fileInfoClass=16)
    assert smb3structs.FILE_MODE_INFORMATION(asked(16))["Mode"] == 0
    assert smb3structs.FILE_ALIGNMENT_INFORMATION(asked(17))["AlignmentRequirement"] == 0
    refused(lambda: asked(21), 0xC0000034)
    assert asked(22) == struct.pack("<IIQQ", 0, 14, 4, 4096) + "::$DATA".encode("utf-16-le")
    folder = inner.create(tree, "", 0x81, 7, 1, 1, 0)
    assert inner.queryInfo(tree, folder, fileInfoClass=22) == b"", "a directory has streams"
    it.closeFile(tree, folder)
    assert asked(11, 2)[:8] == b"\0\2\0\0\0\x10\0\0"
    refused(lambda: inner.setInfo(tree, file, inputBlob=b"\0" * 7 + b"\x80", fileInfoClass=14), 0xC000000D)
    it.closeFile(tree, file)
    it.deleteFile(SHARE, "iclass")


def marks(it):
    """A directory that its last open leaves marked and full stays, without its mark (MS-FSA 2.1.5.5 leaves the case open). Until then it takes
    no name. impacket keeps opens by their names, so the second one of the directory has another case."""
    pending, tree, inner = 0xC0000056, it.connectTree(SHARE), it._SMBConnection
    marking = inner.create(tree, "imark", 0x110081, 7, 0x1001, 2, 0)  # it deletes on close, and makes the directory
    kept = inner.create(tree, "IMARK", 0x110081, 7, 1, 1, 0)
    for name in ("imark\\a", "iother"):
        it.putFile(SHARE, name, io.BytesIO(b"text").read)
    it.closeFile(tree, marking)
    refused(lambda: it.createFile(tree, "imark\\b"), pending)
    refused(lambda: it.openFile(tree, "imark\\a"), pending)
    refused(lambda: it.rename(SHARE, "iother", "imark\\b"), pending)
    refused(lambda: it.listPath(SHARE, "imark\\*"), pending)
    assert "a".encode("utf-16-le") in inner.queryDirectory(tree, kept, maxBufferSize=65536)
    it.closeFile(tree, kept)
    it.rename(SHARE, "iother", "imark\\b")
    assert sorted(entry.get_longname() for entry in it.listPath(SHARE, "imark\\*")) == [".", "..", "a", "b"]
    refused(lambda: it.deleteDirectory(SHARE, "imark"), 0xC0000101)
    it.closeFile(tree, inner.create(tree, "imark", 0x10000, 7, 0x1001, 1, 0))  # marked and full as its one open leaves
    for name in ("a", "b"):
        it.deleteFile(SHARE, f"imark\\{name}")
    it.deleteDirectory(SHARE, "imark")
    refused(lambda: it.listPath(SHARE, "imark\\*"), 0xC0000034)


def wrong_password():
    refused(lambda: connected().login(USER, PASSWORD + "x"), 0xC000006D)


def unknown_share(it):
    refused(lambda: it.connectTree("nowhere"), 0xC00000CC)


def check(name, call):
    try:
        call()
        print(f"ok impacket {KIND}: {name}", flush=True)
        return True
    except Exception as error:  # whatever a client meets is told
        print(f"FAILED impacket {KIND}: {name}: {error or repr(error)}", flush=True)
        return False


def main():
    kept = {}
    well = check("log on", lambda: kept.update(it=logged_on()))
    if well:
        it = kept["it"]
        for name, call in (("put and get", files), ("make, rename, list, delete", names), ("lock", locks), ("information classes", classes), ("a directory marked while it isn't empty", marks), ("an unknown share", unknown_share)):
            well = check(name, lambda: call(it)) and well
        well = check("log off", it.logoff) and well
    well = check("a wrong password", wrong_password) and well
    sys.exit(0 if well else 1)


if __name__ == "__main__":
    main()
