"""A plain client of the exchange, which looks at all that it keeps for each answer.

It was written from the rules of an SMB 3.1.1 client (MS-SMB2 3.2) and from this project's own on what waits for what, not
from the program. tools/plain-client.py writes scripts over it with what it answers.
"""

SUCCESS = 0
NO_MEMORY = 0xC0000017
OBJECT_NAME_NOT_FOUND = 0xC0000034
FILE_LOCK_CONFLICT = 0xC0000054
DISK_FULL = 0xC000007F
FILE_CLOSED = 0xC0000128
USER_SESSION_DELETED = 0xC0000203
DUPLICATE_OBJECTID = 0xC000022A
FILE_NOT_AVAILABLE = 0xC0000467

LAST_SEQUENCE = 32767
LAST_SESSION = 0xFFFFFFFF
CREDITS = 512
SLOTS = 64
NUMBERS = 16
LONGEST = 1048577
LONGEST_PATH = 1024

WRITES = ("write", "end", "time", "rename", "remove")
LOCKS = ("lock", "unlock")
# what a success says of an operation; of the others, that it is done
REPLIES = {"create": "action", "write": "count", "read": "content", "stat": "length", "list": "names"}


class Operation:
    """What is asked, and how far it has come. `create` is its own number where it is a create."""

    def __init__(self, number, kind, create, at=0, size=0, persist=False):
        self.number, self.kind, self.at, self.size, self.persist = number, kind, at, size, persist
        self.create = number if kind == "create" else create
        self.outcome = None
        self.went_out = False
        # what is outstanding: its channel, and whether it is the request to attach the open in the operation's place
        self.channel, self.attaching = None, False
        self.unanswered = False
        self.sequence = 0
        self.slot, self.slot_number = 0, 0

    def keeps_limits(self):
        if self.kind in ("read", "write"):
            return self.size <= LONGEST
        return self.size <= LONGEST_PATH if self.kind in ("create", "rename") else True

    def charge(self):
        """CreditCharge (3.1.5.2): one for each 65,536 bytes that are sent or asked for, and one where there are none."""
        weight = {"write": self.size, "read": self.size, "stat": 24, "list": 1048576}.get(self.kind, 0)
        return 1 if weight == 0 else (weight - 1) // 65536 + 1

    def overlaps(self, other):
        """Whether a byte is in both; a range of no bytes overlaps nothing."""
        if self.size == 0 or other.size == 0:
            return False
        return self.at < other.at + other.size and other.at < self.at + self.size


def waits_for(higher, lower):
    """Whether one waits for a lower one of the same open, as long as that is unsettled."""
    if "close" in (lower.kind, higher.kind):
        return True
    if higher.kind in WRITES and lower.kind in WRITES:
        return not (higher.kind == lower.kind == "write") or higher.overlaps(lower)
    if higher.kind == "read" and lower.kind == "write":
        return higher.overlaps(lower)
    if higher.kind in ("flush", "stat") and lower.kind == "write":
        return lower.size > 0
    if higher.kind in ("read", "flush", "stat") and lower.kind == "end":
        return True
    return higher.kind in LOCKS and lower.kind in LOCKS and higher.overlaps(lower)


class Slot:
    """A lock slot of an open: who took it last, in which session it was retried last, and whether it met DISK_FULL."""

    def __init__(self):
        self.user, self.retried, self.full = None, 0, False


class Open:
    """What a create's success gave: its id, and the session in which it was opened or attached last."""

    def __init__(self):
        self.file, self.session, self.closed = 0, 0, False
        self.slots = [Slot() for _ in range(SLOTS)]


class Client:
    def __init__(self):
        self.operations, self.opens = [], {}
        self.order, self.dialogs = [], []
        self.live, self.session, self.sessions, self.tree, self.sequence = False, 0, 0, 0, 0
        self.ready_channels = set()

    def operation(self, number):
        return self.operations[number - 1] if 0 < number <= len(self.operations) else None

    def create_of(self, op):
        return self.operations[op.create - 1]

    def unsettled(self):
        return [op for op in self.operations if op.outcome is None]

    # ---- a submit

    def submit(self, op):
        """Takes an operation where its number is the next one, its create was taken before, and it keeps the limits."""
        if op.number != len(self.operations) + 1 or not op.keeps_limits():
            return
        if op.kind != "create":
            create = self.operation(op.create)
            if create is None or create.kind != "create":
                return
        self.operations.append(op)
        if op.kind == "create":
            self.opens[op.number] = Open()
        self.give_up()

    # ---- opens

    def is_attached(self, op):
        """Whether its open was opened or attached in the session that lives."""
        return self.live and self.opens[op.create].session == self.sessions

    def has_gone(self, op):
        """Whether its create gives no open any more."""
        create = self.create_of(op)
        if create.outcome is None:
            return False
        if create.outcome[0] != "ok" or self.opens[op.create].closed:
            return True
        return not create.persist and not self.is_attached(op)

    def give_up(self):
        """What never went out settles where its create gives no open any more."""
        for op in self.unsettled():
            if op.kind != "create" and not op.went_out and self.has_gone(op):
                op.outcome = ("noopen", op.create)

    # ---- a push

    def goes_itself(self, op):
        return op.kind == "create" or self.is_attached(op)

    def may_go(self, op):
        if op.outcome is not None or op.channel is not None:
            return False
        if op.kind != "create":
            created = self.create_of(op).outcome
            if created is None or created[0] != "ok":
                return False
        lower = (other for other in self.operations[: op.number - 1] if other.create == op.create and other.kind != "create")
        return not any(other.outcome is None and waits_for(op, other) for other in lower)

    def cost(self, op):
        return op.charge() if self.goes_itself(op) else 1

    def held(self, channel):
        """The credits that a channel holds: each request asks for 512, and its reply gives back what it paid."""
        out = [op for op in self.operations if op.channel == channel]
        return CREDITS - sum(1 if op.attaching else op.charge() for op in out)

    def is_free(self, slot):
        """The last one that took it was answered with success or refused, so that its number is known to be passed."""
        user = slot.user
        in_use = user is not None and (user.outcome is None or user.outcome[0] not in ("ok", "refused"))
        return not in_use and slot.retried != self.sessions and not slot.full

    def take_slot(self, op):
        """Whether there was a slot to take: the least free one, under its next number."""
        for place, slot in enumerate(self.opens[op.create].slots, start=1):
            if self.is_free(slot):
                op.slot, op.slot_number = place, 0 if slot.user is None else (slot.user.slot_number + 1) % NUMBERS
                slot.user = op
                return True
        return False

    def push(self, channel, credits):
        """The lowest that may go out and is paid for goes out: (`sends` or `asks`, operation), or a word alone."""
        if channel not in self.ready_channels:
            return "closes all" if self.unsettled() else "done"
        for op in self.operations:
            if not self.may_go(op) or self.cost(op) > credits:
                continue
            if not self.goes_itself(op):
                op.channel, op.attaching = channel, True
                return "asks", op
            if op.kind in LOCKS and not op.went_out and not self.take_slot(op):
                op.outcome = ("noslot", op.create)
                continue
            if op.kind in LOCKS and op.went_out:
                self.opens[op.create].slots[op.slot - 1].retried = self.sessions
            op.went_out, op.channel, op.attaching, op.sequence = True, channel, False, self.sequence
            return "sends", op
        return "nothing" if self.unsettled() else "done"

    def is_replay(self, op):
        return op.unanswered and (op.kind == "create" or op.kind in WRITES)

    # ---- a reply

    def hear(self, channel, number, attaching, status, body=None, file=0):
        """A reply to an operation, or to the request to attach its open. A body is a word and what it says; None is no such one."""
        op = self.operation(number)
        if op is None or op.channel is None or op.channel != channel or op.attaching != attaching:
            return "nothing"
        op.channel = None
        if status == USER_SESSION_DELETED:
            self.end_session()
            return "closes all"
        if status == SUCCESS and attaching:
            self.opens[op.create].session = self.sessions
        elif status == SUCCESS:
            self.settle(op, told_by(op, body), file)
        else:
            self.hear_refusal(op, attaching, status)
        return "nothing"

    def hear_refusal(self, op, attaching, status):
        if op.kind in LOCKS and not attaching and status == DISK_FULL:
            self.opens[op.create].slots[op.slot - 1].full = True
        is_older = op.kind in WRITES and not attaching and op.sequence < self.sequence
        if not (is_older and status == FILE_NOT_AVAILABLE):
            self.settle(op, settled_by(op, attaching, status), 0)

    def settle(self, op, outcome, file):
        op.outcome = outcome
        self.order.append(op.number)
        if outcome[0] == "ok" and op.kind == "create":
            self.opens[op.number].file, self.opens[op.number].session = file, self.sessions
        if outcome[0] == "ok" and op.kind == "close":
            self.opens[op.create].closed = True
        self.give_up()

    # ---- channels and sessions

    def lose(self, op):
        """The reply of what is outstanding won't be taken; a lost request to attach leaves no unanswered copy."""
        if op.channel is not None and not op.attaching:
            op.unanswered = True
        op.channel = None

    def cut(self, channel):
        if channel not in self.ready_channels:
            return "nothing"
        if self.ready_channels == {channel} or self.sequence == LAST_SEQUENCE:
            self.end_session()
            return "ends"
        self.ready_channels.discard(channel)
        self.sequence += 1
        for op in self.operations:
            if op.channel == channel:
                self.lose(op)
        return "lost"

    def end_session(self):
        self.live = False
        self.ready_channels = set()
        for op in self.operations:
            self.lose(op)
        for op in self.unsettled():
            if op.went_out and not self.create_of(op).persist:
                op.outcome = ("unknown", "session-lost", self.sessions)
        self.give_up()

    def ready(self, channel, session, tree):
        """A channel that isn't ready becomes one of the session with this id, or the first one of a new session."""
        if self.live and session != self.session:
            return "apart"
        if not self.live:
            if session <= self.session or self.sessions == LAST_SESSION:
                return "apart"
            self.live, self.session, self.tree, self.sequence = True, session, tree, 0
            self.sessions += 1
        self.ready_channels.add(channel)
        return "ready"

    def refuse(self, channel, why):
        self.dialogs.append((channel, *why))

    def finish(self, why):
        for op in self.unsettled():
            op.outcome = ("unknown", *why)


def told_by(op, body):
    """How an operation settles by a success: with what it says, where it reads as this operation's."""
    if body is None or body[0] != REPLIES.get(op.kind, "done"):
        return "unknown", "status", SUCCESS
    return ("ok", *(value for value in body[1:] if value not in (".", "..")))


def settled_by(op, attaching, status):
    """How an operation settles by a status other than success. The first line that applies decides."""
    if not op.unanswered:
        return "refused", status
    if op.kind == "close" and status == (OBJECT_NAME_NOT_FOUND if attaching else FILE_CLOSED):
        return ("ok",)
    if (op.kind == "create" and status == DUPLICATE_OBJECTID) or (attaching and status == OBJECT_NAME_NOT_FOUND):
        return "unknown", "status", status
    if op.kind == "create" and status != NO_MEMORY:
        return "refused", status
    if op.kind in LOCKS and status not in (NO_MEMORY, DISK_FULL):
        return "refused", status
    if op.kind == "write" and status in (FILE_LOCK_CONFLICT, DISK_FULL):
        return "refused", status
    return "unknown", "status", status
