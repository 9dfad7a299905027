"""A logon as worked_logon.py writes it, and behind it a file that is created, written, read and closed, every byte of it."""
import wire_layouts as layouts
import worked_logon as worked
from session_formulas import utf16
from wire_contexts import create_chain, dh2q

FILE_ID = worked.FIRST_ID.to_bytes(8, "little") * 2


class WorkedFile(worked.Worked):
    """A worked logon, and behind it a file that is created, written, read and closed."""

    def said(self, kind, number, message, asked, told):
        """The request and the response of a command under a message id, by the values of their bodies."""
        out = []
        for side, flags, credits, value in (("request", 0, 512, asked), ("response", 1, 1, told)):
            name = f"{kind}_{side}"
            text = worked.header(number, message, flags, credits=credits, tree=1, session=self.session)
            out.append(self.guarded(name, text + layouts.FILE[name].spelled(value), side == "request"))
        return out

    def created(self):
        guid = worked.CREATE_NUMBER.to_bytes(8, "little") + worked.draw(0)[:8]
        asked = {"requested_oplock_level": 0, "impersonation_level": 2, "desired_access": 0x183, "file_attributes": 0}
        asked |= {"share_access": 0, "create_disposition": 2, "create_options": 0x40, "name": utf16("a.txt")}
        asked |= {"contexts": create_chain([(b"DH2Q", dh2q(0, 0, guid))])}
        now = self.start + 11
        times = dict.fromkeys(("creation_time", "last_access_time", "last_write_time", "change_time"), now)
        told = {"oplock_level": 0, "flags": 0, "create_action": 2, **times, "allocation_size": 0, "end_of_file": 0}
        told |= {"file_attributes": 0x20, "file_id": FILE_ID, "contexts": b""}
        place = {"offset": 0, "file_id": FILE_ID, "channel": 0, "remaining_bytes": 0, "flags": 0}
        gone = dict.fromkeys(times, 0) | {"flags": 0, "allocation_size": 0, "end_of_file": 0, "file_attributes": 0}
        return [
            *self.said("create", 5, 4, asked, told),
            *self.said("write", 9, 5, {**place, "payload": b"hello"}, {"count": 5, "remaining": 0}),
            *self.said("read", 8, 6, {**place, "length": 16, "minimum_count": 0}, {"data_remaining": 0, "payload": b"hello"}),
            *self.said("close", 6, 7, {"flags": 0, "file_id": FILE_ID}, gone),
        ]
