"""A server in memory, to try the check `kills` itself: it has to find nothing wrong with it, and each of its faults.

`FAULTS` are what a server does that loses: its last acknowledged change, a lock, a part of a write, a persistent open.
"""
import copy
import random
import struct

from hostile_client import NAME_NOT_FOUND, UNLOCK, Closed, Opened, Refused
from hostile_compactions import Overwriter
from hostile_kills import CLIENTS, State
from hostile_server import Failed, expect

FAULTS = ("forgets a change", "forgets a lock", "tears a write", "forgets an open", "keeps a removed file")


class Model:
    """What is on the disk of the server, and which operation is the last one before it is killed."""

    def __init__(self, chance, fault):
        self.chance, self.fault = chance, fault
        self.files, self.opens, self.folders, self.last_id = {}, {}, set(), 0
        self.left, self.before, self.removed = 0, None, {}

    def start(self, operations):
        """A start: opens that aren't persistent are gone, and marked files with them."""
        self.left = operations
        self.opens = {key: held for key, held in self.opens.items() if held["persistent"]}
        self.spoil()

    def spoil(self):
        if self.fault == "forgets a change" and self.before is not None:
            self.files = self.before
        if self.fault == "keeps a removed file":
            self.files = self.removed | self.files
        for held in self.opens.values():
            if self.fault == "forgets a lock":
                held["locks"] = dict(list(held["locks"].items())[1:])
        if self.fault == "forgets an open" and self.opens:
            self.opens.pop(min(self.opens))

    def act(self, change, acknowledged=True):
        """One operation: the kill comes before it, behind it, or not at all."""
        self.left -= 1
        if self.left < 0:
            if self.left == -1 and self.chance.random() < 0.5:
                change()
            raise Closed("killed")
        before = copy.deepcopy(self.files)
        done = change()
        self.before = before if before != self.files else self.before if acknowledged else None
        return done


class ModelClient:
    """The calls of the client that the check uses."""

    def __init__(self, model):
        self.model = model

    def make_folder(self, name):
        self.model.act(lambda: self.model.folders.add(name))

    def create(self, path, disposition=3, **persistent):
        return self.model.act(lambda: self.opened(path, disposition, **persistent))

    def opened(self, path, disposition, guid=None):
        model = self.model
        if disposition == 1 and path not in model.files:
            raise Refused(NAME_NOT_FOUND)
        model.files.setdefault(path, b"")
        model.last_id += 1
        file = struct.pack("<QQ", model.last_id, model.last_id)
        model.opens[file] = {"path": path, "persistent": guid is not None, "locks": {}, "marked": False, "guid": guid}
        return Opened(bytes(128) + file)

    def create_persistent(self, path, guid):
        return self.create(path, guid=guid)

    def attach(self, _, file, guid):
        def found():
            held = self.model.opens.get(file)
            if held is None or held["guid"] != guid:
                raise Refused(NAME_NOT_FOUND)
            return Opened(bytes(128) + file)
        return self.model.act(found)

    def changes(self, file, call):
        model = self.model

        def change():
            path = model.opens[file]["path"]
            model.files[path] = call(model.files[path])
        model.act(change)

    def write(self, file, at, data):
        if self.model.fault == "tears a write" and len(data) > 4000:
            data = data[:-1] + bytes([data[-1] ^ 1])
        self.changes(file, lambda old: old.ljust(at, b"\0")[:at] + data + old[at + len(data):])

    def set_end(self, file, length):
        self.changes(file, lambda old: old[:length].ljust(length, b"\0"))

    def rename(self, file, path):
        def change():
            held = self.model.opens[file]
            self.model.files[path] = self.model.files.pop(held["path"])
            held["path"] = path
        self.model.act(change)

    def remove(self, file):
        """The server's start closes it too."""
        def change():
            path = self.model.opens[file]["path"]
            self.model.removed = {path: self.model.files.pop(path)}
            self.model.opens[file]["marked"] = True
        self.model.act(change)

    def close_file(self, file):
        self.model.act(lambda: self.model.opens.pop(file), acknowledged=False)

    def lock(self, file, at, count, flags=0):
        def change():
            own = self.model.opens[file]["locks"]
            if flags & UNLOCK:
                if at not in own:
                    raise Refused(0xC000007E)
                del own[at]
                return
            path = self.model.opens[file]["path"]
            if any(at in held["locks"] for held in self.model.opens.values() if held["path"] == path):
                raise Refused(0xC0000055)
            own[at] = count
        self.model.act(change)

    def listed(self, folder):
        if not folder:
            return self.model.act(lambda: sorted(self.model.folders))
        return self.model.act(lambda: [path.split("\\")[1] for path in self.model.files if path.startswith(folder + "\\")])

    def whole(self, path):
        return self.model.act(lambda: self.model.files.get(path))


def lived(state, model, operations):
    """One client's work up to the kill."""
    model.start(operations)
    client = ModelClient(model)
    try:
        state.reattach(client)
        while True:
            state.step(client)
    except Closed:
        return


def rounds(seed, fault, count, made=State):
    """What the check finds in so many kills, or None."""
    chance = random.Random(seed)
    state, model = made(0, seed), Model(chance, fault)
    for _ in range(count):
        try:
            lived(state, model, chance.choice((0, 1, 2, 3, 5, 10, 40)))
            model.start(10**9)
            state.verify(ModelClient(model))
        except (Failed, Refused) as error:
            return error
    return None


def kills():
    """The check finds nothing in a right server, and each fault within some hundred kills."""
    found = []
    for seed in range(CLIENTS * 10):
        error = rounds(seed, "", 200)
        expect(error is None, f"the check found {error} in a right server, with seed {seed}")
    expect(rounds(0, "", 20, Overwriter) is None, "the check found something in a right server under large writes")
    for fault in FAULTS:
        missed = [seed for seed in range(5) if rounds(seed, fault, 300) is None]
        expect(not missed, f"the check missed a server that {fault}, with seeds {missed}")
        expect(rounds(0, fault, 300, Overwriter) is not None, f"the check missed a server that {fault}, under large writes")
        found.append(fault)
    return f"ok model: {CLIENTS * 10} runs of 200 kills of a right server, and a server that {', that '.join(found)}"
