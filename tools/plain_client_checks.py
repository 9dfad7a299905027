"""Checks the plain client on answers that were worked by hand from the rules: what waits for what, and how all settles."""
from plain_client import DISK_FULL, DUPLICATE_OBJECTID, FILE_CLOSED, FILE_LOCK_CONFLICT, FILE_NOT_AVAILABLE, NO_MEMORY
from plain_client import OBJECT_NAME_NOT_FOUND, USER_SESSION_DELETED, Client, Operation, settled_by, waits_for

OTHER = 0xC0000022


def op(kind, at=0, size=0, unanswered=False):
    made = Operation(2, kind, 1, at, size)
    made.unanswered = unanswered
    return made


def waiting():
    """Rows: the lower one, the higher one, and whether the higher one waits."""
    rows = [
        ("write", 0, 4, "write", 3, 1, True), ("write", 0, 4, "write", 4, 1, False), ("write", 0, 0, "write", 0, 4, False),
        ("write", 2, 0, "write", 0, 4, False), ("write", 0, 1, "end", 0, 9, True), ("write", 0, 0, "end", 0, 9, True),
        ("write", 0, 1, "time", 0, 0, True), ("write", 0, 1, "rename", 0, 1, True), ("write", 0, 1, "remove", 0, 0, True),
        ("end", 0, 0, "write", 9, 1, True), ("time", 0, 0, "write", 9, 0, True), ("rename", 0, 1, "remove", 0, 0, True),
        ("write", 0, 4, "read", 3, 1, True), ("write", 0, 4, "read", 4, 1, False), ("write", 0, 4, "read", 3, 0, False),
        ("write", 0, 1, "flush", 0, 0, True), ("write", 0, 0, "flush", 0, 0, False), ("write", 0, 1, "stat", 0, 0, True),
        ("write", 0, 0, "stat", 0, 0, False), ("write", 0, 9, "list", 0, 0, False), ("write", 0, 9, "lock", 0, 9, False),
        ("end", 0, 0, "read", 0, 0, True), ("end", 0, 0, "flush", 0, 0, True), ("end", 0, 0, "stat", 0, 0, True),
        ("end", 0, 0, "list", 0, 0, False), ("end", 0, 0, "lock", 0, 1, False), ("time", 0, 0, "read", 0, 1, False),
        ("rename", 0, 1, "stat", 0, 0, False), ("remove", 0, 0, "flush", 0, 0, False), ("read", 0, 9, "write", 0, 9, False),
        ("flush", 0, 0, "write", 0, 9, False), ("lock", 0, 9, "write", 0, 9, False), ("lock", 0, 4, "lock", 3, 1, True),
        ("lock", 0, 4, "lock", 4, 1, False), ("lock", 0, 0, "lock", 0, 1, False), ("lock", 0, 4, "unlock", 0, 4, True),
        ("unlock", 0, 4, "lock", 3, 9, True), ("unlock", 0, 4, "unlock", 4, 4, False), ("lock", 0, 2**64 - 1, "lock", 2**64 - 2, 1, True),
        ("list", 0, 0, "close", 0, 0, True), ("lock", 0, 0, "close", 0, 0, True), ("close", 0, 0, "list", 0, 0, True),
        ("close", 0, 0, "lock", 0, 0, True), ("close", 0, 0, "close", 0, 0, True), ("close", 0, 0, "read", 0, 0, True),
    ]
    for kind, at, size, higher, higher_at, higher_size, waits in rows:
        assert waits_for(op(higher, higher_at, higher_size), op(kind, at, size)) == waits, (kind, at, size, higher, higher_at, higher_size)


def settling():
    """Rows: the operation, whether the reply is to the request to attach, its status, and how it settles with a copy unanswered."""
    rows = [
        ("create", False, OTHER, "refused"), ("create", False, NO_MEMORY, "unknown"), ("create", False, DUPLICATE_OBJECTID, "unknown"),
        ("create", False, OBJECT_NAME_NOT_FOUND, "refused"), ("lock", False, OTHER, "refused"), ("lock", False, NO_MEMORY, "unknown"),
        ("lock", False, DISK_FULL, "unknown"), ("unlock", False, FILE_LOCK_CONFLICT, "refused"), ("unlock", False, DISK_FULL, "unknown"),
        ("write", False, FILE_LOCK_CONFLICT, "refused"), ("write", False, DISK_FULL, "refused"), ("write", False, OTHER, "unknown"),
        ("write", False, FILE_NOT_AVAILABLE, "unknown"), ("end", False, DISK_FULL, "unknown"), ("read", False, OTHER, "unknown"),
        ("close", False, FILE_CLOSED, "ok"), ("close", False, OBJECT_NAME_NOT_FOUND, "unknown"), ("close", False, OTHER, "unknown"),
        ("close", True, OBJECT_NAME_NOT_FOUND, "ok"), ("close", True, FILE_CLOSED, "unknown"), ("close", True, OTHER, "unknown"),
        ("write", True, OBJECT_NAME_NOT_FOUND, "unknown"), ("lock", True, OBJECT_NAME_NOT_FOUND, "unknown"),
        ("write", True, OTHER, "unknown"), ("lock", True, OTHER, "refused"), ("lock", True, NO_MEMORY, "unknown"),
        ("write", True, DISK_FULL, "refused"), ("read", True, OBJECT_NAME_NOT_FOUND, "unknown"),
        ("stat", False, FILE_CLOSED, "unknown"), ("write", False, DUPLICATE_OBJECTID, "unknown"),
    ]
    for kind, attaching, status, word in rows:
        outcome = {"ok": ("ok",), "refused": ("refused", status), "unknown": ("unknown", "status", status)}[word]
        assert settled_by(op(kind, unanswered=True), attaching, status) == outcome, (kind, attaching, status)
        assert settled_by(op(kind), attaching, status) == ("refused", status), (kind, attaching, status)


def charges():
    for kind, size, charge in [
        ("write", 0, 1), ("write", 1, 1), ("write", 65536, 1), ("write", 65537, 2), ("write", 1048576, 16), ("write", 1048577, 17),
        ("read", 65537, 2), ("read", 0, 1), ("stat", 0, 1), ("list", 0, 16), ("create", 1, 1), ("lock", 10**9, 1), ("end", 10**9, 1),
    ]:
        assert op(kind, 0, size).charge() == charge, (kind, size)


def opened(persist, channels=(0, 1)):
    client = Client()
    for channel in channels:
        assert client.ready(channel, 5, 1) == "ready"
    client.submit(Operation(1, "create", 0, size=1, persist=persist))
    assert client.push(0, 512)[0] == "sends" and client.hear(0, 1, False, 0, ("action", 2), 9) == "nothing"
    assert client.operations[0].outcome == ("ok", 2) and client.opens[1].file == 9
    return client


def outcomes(client):
    return [made.outcome for made in client.operations[1:]]


def plain_opens():
    """A cut of one of two channels; the end of the session of a plain open; what comes behind it."""
    client = opened(False)
    client.submit(Operation(2, "write", 1, 0, 4))
    client.submit(Operation(3, "write", 1, 0, 4))
    assert client.push(0, 512)[1].number == 2 and client.push(0, 511) == "nothing"
    assert client.cut(0) == "lost" and client.sequence == 1
    word, sent = client.push(1, 512)
    assert (word, sent.number, sent.sequence, client.is_replay(sent)) == ("sends", 2, 1, True)
    assert client.hear(0, 2, False, 0, ("count", 4)) == "nothing" and client.hear(1, 2, True, 0, ("count", 4)) == "nothing"
    assert client.cut(0) == "nothing" and client.cut(1) == "ends"
    assert outcomes(client) == [("unknown", "session-lost", 1), ("noopen", 1)]
    client.submit(Operation(4, "read", 1, 0, 4))
    assert outcomes(client)[2] == ("noopen", 1) and client.push(0, 512) == "done"
    client.submit(Operation(5, "create", 0, size=1))
    assert client.push(0, 512) == "closes all"
    assert client.ready(0, 5, 1) == "apart" and client.ready(0, 6, 1) == "ready" and client.ready(1, 7, 1) == "apart"
    assert client.push(0, 0) == "nothing" and client.push(0, 1)[1].number == 5


def persistent_opens():
    """The open is attached before its operations go out in the next session, with replies to the request to attach it."""
    client = opened(True, (0,))
    for number, kind in ((2, "write"), (3, "close"), (4, "read")):
        client.submit(Operation(number, kind, 1, 0, 1))
    assert client.push(0, 512)[1].number == 2 and client.cut(0) == "ends" and outcomes(client) == [None] * 3
    assert client.ready(0, 6, 1) == "ready" and client.ready(1, 6, 1) == "ready"
    word, asked = client.push(0, 512)
    assert (word, asked.number) == ("asks", 2) and client.push(1, 512) == "nothing"
    assert client.hear(0, 2, False, 0, ("count", 1)) == "nothing" and client.hear(0, 2, True, 0) == "nothing"
    word, sent = client.push(1, 512)
    assert (word, sent.number, client.is_replay(sent)) == ("sends", 2, True) and client.hear(1, 2, False, FILE_LOCK_CONFLICT) == "nothing"
    assert client.push(0, 512)[1].number == 3 and client.cut(0) == "lost" and client.cut(1) == "ends"
    assert client.ready(0, 8, 1) == "ready" and client.push(0, 512)[0] == "asks"
    client.hear(0, 3, True, OBJECT_NAME_NOT_FOUND)
    assert outcomes(client) == [("refused", FILE_LOCK_CONFLICT), ("ok",), ("noopen", 1)] and client.order == [1, 2, 3]


def goes_again():
    """A write of an older sequence goes out again, without the replay flag; one of the client's own sequence is refused."""
    client = opened(False)
    client.submit(Operation(2, "write", 1, 0, 1))
    client.push(0, 512)
    client.cut(1)
    client.hear(0, 2, False, FILE_NOT_AVAILABLE)
    word, sent = client.push(0, 512)
    assert (word, sent.number, sent.sequence, client.is_replay(sent)) == ("sends", 2, 1, False)
    client.hear(0, 2, False, FILE_NOT_AVAILABLE)
    assert outcomes(client) == [("refused", FILE_NOT_AVAILABLE)]


def deleted():
    """A session that the server deleted: what was answered so has no unanswered copy of that."""
    client = opened(True)
    for number in (2, 3):
        client.submit(Operation(number, "write", 1, number, 1))
        client.push(0, 512)
    assert client.hear(0, 2, False, USER_SESSION_DELETED) == "closes all"
    assert [made.unanswered for made in client.operations] == [False, False, True] and not client.live


def bodies():
    """A success of another operation's body tells nothing; a listing's names are told without those of the directory itself."""
    client = opened(False)
    for number, kind, body, outcome in [
        (2, "list", ("names", ".", "..", "a"), ("ok", "a")), (3, "list", ("names", "."), ("ok",)), (4, "stat", ("length", 3), ("ok", 3)),
        (5, "stat", ("count", 3), ("unknown", "status", 0)), (6, "flush", ("done",), ("ok",)), (7, "flush", None, ("unknown", "status", 0)),
        (8, "read", ("content", "61"), ("ok", "61")), (9, "write", ("done",), ("unknown", "status", 0)),
    ]:
        client.submit(Operation(number, kind, 1, 0, 1))
        assert client.push(0, 512)[1].number == number
        client.hear(0, number, False, 0, body)
        assert outcomes(client)[-1] == outcome, (number, outcomes(client)[-1])


def slots():
    """A retried slot isn't used again in its session, nor one that met DISK_FULL at all, nor one whose last user is unknown."""
    client = opened(True)
    for number in (2, 3, 4):
        client.submit(Operation(number, "lock", 1, number, 1))
    assert [client.push(1, 512)[1].slot for _ in range(2)] == [1, 2]
    client.cut(1)
    assert [client.push(0, 512)[1].slot for _ in range(3)] == [1, 2, 3]
    client.hear(0, 2, False, 0, ("done",))
    client.hear(0, 3, False, DISK_FULL)
    client.hear(0, 4, False, DISK_FULL)
    assert outcomes(client) == [("ok",), ("unknown", "status", DISK_FULL), ("refused", DISK_FULL)]
    client.submit(Operation(5, "unlock", 1, 2, 1))
    assert client.push(0, 512)[1].slot == 4
    client.cut(0)
    client.ready(0, 9, 1)
    client.push(0, 512)
    client.hear(0, 5, True, 0)
    client.submit(Operation(6, "lock", 1, 9, 1))
    word, sent = client.push(0, 512)
    assert (sent.number, sent.slot, sent.slot_number) == (5, 4, 0)
    word, sent = client.push(0, 512)
    assert (sent.number, sent.slot, sent.slot_number) == (6, 1, 1)


def check():
    for part in (waiting, settling, charges, plain_opens, persistent_opens, goes_again, deleted, bodies, slots):
        part()
