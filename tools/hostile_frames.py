"""The check of tools/hostile-run.py that sends mutated frames: raw ones, and ones that are signed or sealed rightly behind the mutation."""
import struct
import threading
import time

import hostile_client as smb
import session_formulas as f
from hostile_client import Closed, Refused, Wrong, framed, header
from hostile_server import ANNA, BERT, LOG, SIGNED_ALONE, USERS, Failed, check, expect, mebibytes
from session_formulas import utf16
from worked_logon import CLIENT_FLAGS, create_context, padded

WORDS = (0, 1, 7, 8, 0x3F, 0x40, 0x41, 0x7F, 0x80, 0xFF, 0x100, 0x7FFF, 0x8000, 0xFFFF, 0x10000, 0x7FFFFFFF, 0x80000000, 0xFFFFFFFF,
         1 << 32, (1 << 63) - 1, 1 << 63, (1 << 64) - 1)
FRAMES = 40  # of one connection
KINDS = ("raw", "signed", "sealed")


def simple(size):
    return struct.pack("<HH", size, 0)


def set_info(file, kind, data):
    return struct.pack("<HBBIHHI", 33, 1, kind, len(data), 96, 0, 0) + file + data


def corpus(file, folder, chance):
    """Bodies that are right, with their commands: what is mutated."""
    return files_corpus(file, chance) + questions_corpus(file, folder, chance) + others_corpus(file, folder)


def files_corpus(file, chance):
    durable = create_context(b"DH2Q", struct.pack("<II8x", 0, 2) + chance.randbytes(16))
    name, folder, moved = f"m{chance.randrange(50)}", f"d{chance.randrange(9)}", utf16(f"m{chance.randrange(50)}")
    return [
        (smb.CREATE, smb.create_body(name, smb.ACCESS, 7, 3, 0x40, b"")),
        (smb.CREATE, smb.create_body(name, smb.ACCESS, 7, 3, 0x40, durable)),
        (smb.CREATE, smb.create_body(folder, smb.ACCESS, 7, 3, 1, create_context(b"MxAc", b""))),
        (smb.CLOSE, struct.pack("<HHI", 24, 1, 0) + file), (smb.FLUSH, struct.pack("<HHI", 24, 0, 0) + file),
        (smb.READ, smb.read_body(file, 0, 4096)), (smb.WRITE, smb.write_body(file, 10, chance.randbytes(50))),
        (smb.LOCK, smb.lock_body(file, 5, 5, 0x12, 0x11)), (smb.LOCK, smb.lock_body(file, 5, 5, 4)),
        (smb.SET_INFO, set_info(file, 20, struct.pack("<Q", chance.randrange(5000)))), (smb.SET_INFO, set_info(file, 4, bytes(40))),
        (smb.SET_INFO, set_info(file, 10, struct.pack("<B7xQI", 1, 0, len(moved)) + moved)), (smb.SET_INFO, set_info(file, 13, b"\1")),
    ]


def questions_corpus(file, folder, chance):
    return [
        (smb.IOCTL, smb.ioctl_body(b"\xff" * 16, 0x001401FC)), (smb.IOCTL, smb.ioctl_body(b"\xff" * 16, 0x00060194)),
        (smb.QUERY_DIRECTORY, smb.query_directory_body(folder, "*")),
        (smb.QUERY_DIRECTORY, smb.query_directory_body(folder, "m?*1", 37, 1)),
        (smb.QUERY_INFO, smb.query_info_body(file, 1, chance.choice((4, 5, 6, 18, 34)))),
        (smb.QUERY_INFO, smb.query_info_body(file, 2, chance.choice((1, 3, 4, 5, 7)))),
    ]


def others_corpus(file, folder):
    path, token = utf16("\\\\127.0.0.1\\data"), f.init_token(f.mech_list(f.NTLM_OID), f.type1(CLIENT_FLAGS))
    greeting = struct.pack("<HHHHI", 36, 1, 3, 0, 0x1C) + bytes(16) + struct.pack("<IHHHH", 104, 0, 0, 0x311, 0)
    return [
        (smb.ECHO, simple(4)), (smb.CANCEL, simple(4)), (smb.TREE_DISCONNECT, simple(4)), (smb.LOGOFF, simple(4)),
        (smb.NEGOTIATE, greeting),
        (smb.CHANGE_NOTIFY, struct.pack("<HHI", 32, 0, 100) + folder + bytes(8)),
        (smb.OPLOCK_BREAK, struct.pack("<HBBI", 24, 0, 0, 0) + file),
        (smb.TREE_CONNECT, struct.pack("<HHHH", 9, 0, 72, len(path)) + path),
        (smb.SESSION_SETUP, struct.pack("<HBBIIHHQ", 25, 0, 1, 0, 0, 88, len(token), 0) + token),
    ]


def mutated(data, chance, most=4):
    """Some bytes are changed, put in, left out, doubled, or replaced by numbers at limits."""
    data = bytearray(data)
    for _ in range(chance.randint(1, most)):
        how, at = chance.randrange(8), chance.randrange(len(data) + 1)
        if how == 0 and data:
            data[at % len(data)] ^= 1 << chance.randrange(8)
        elif how == 1 and data:
            data[at % len(data)] = chance.choice((0, 1, 0x7F, 0x80, 0xFF, chance.randrange(256)))
        elif how in (2, 3):
            size, word = chance.choice((2, 4, 8)), chance.choice(WORDS)
            place = at & ~1
            data[place:place + size] = (word % (1 << 8 * size)).to_bytes(size, "little")
        elif how == 4:
            del data[at:at + chance.choice((1, 2, 8, 1000))]
        elif how == 5:
            data[at:at] = chance.randbytes(chance.choice((1, 2, 8, 200)))
        elif how == 6:
            data[at:at] = data[max(0, at - chance.choice((4, 16, 64))):at]
        else:
            del data[at:]
    return bytes(data)


class Attacker:
    """A client that sends mutated frames of one kind; it comes from a new address with each connection."""

    def __init__(self, server, kind, seed, random_type):
        self.server, self.kind, self.chance = server, kind, random_type(seed)
        self.client, self.left, self.sent, self.links, self.answered, self.ends = None, 0, 0, 0, 0, 0

    def source(self):
        return "127.%d.%d.%d" % (self.chance.randint(20, 250), self.chance.randint(1, 250), self.chance.randint(1, 250))

    def connect(self):
        """Where the kind is raw some connections have no session."""
        self.client = smb.Client(self.server.port, self.source(), timeout=20)
        self.links, self.left = self.links + 1, FRAMES
        self.file = self.folder = bytes(16)
        if self.kind == "raw" and self.chance.randrange(3) == 0:
            return
        self.client.negotiate()
        if self.kind == "raw" and self.chance.randrange(3) == 0:
            return
        self.client.log_on(*ANNA).connect_tree("data")
        for _ in range(3):  # what another one removed may be in the way
            try:
                self.file = self.client.create(f"m{self.chance.randrange(50)}").file
                self.folder = self.client.create("", access=0x81, disposition=1, options=1).file
                return
            except Refused:
                pass

    def message(self):
        """A request, or a chain of some, mutated before it is signed or sealed."""
        client, chance = self.client, self.chance
        bodies = chance.choices(corpus(self.file, self.folder, chance), k=chance.choice((1, 1, 1, 2, 3)))
        parts = []
        for place, (command, body) in enumerate(bodies):
            last = place + 1 == len(bodies)
            body = body if last else padded(body)
            flags = chance.choice((0, smb.RELATED)) if place else 0
            chained = 0 if last else 64 + len(body)
            front = header(command, client.took(), 1, flags, client.tree, client.session, chained=chained)
            parts.append(front + body)
        if self.kind == "raw":
            return self.raw(parts)
        broken = chance.randrange(len(parts))
        parts[broken] = self.body_mutated(parts[broken])
        if self.kind == "signed":
            return framed(b"".join(client.signed(part) if len(part) >= 64 else part for part in parts))
        return framed(client.sealed(b"".join(parts)))

    def body_mutated(self, part):
        """Mostly behind the header, so that the message comes to the checks of its command; sometimes in it."""
        if self.chance.randrange(5):
            return part[:64] + mutated(part[64:], self.chance)
        return mutated(part, self.chance)

    def raw(self, parts):
        """Mutated behind signing and sealing, the frame's length too."""
        client, whole = self.client, b"".join(parts)
        if client.keys is not None and self.chance.randrange(2):
            whole = client.sealed(whole) if self.chance.randrange(2) else b"".join(map(client.signed, parts))
        data = mutated(whole, self.chance)
        if self.chance.randrange(10) == 0:
            return mutated(framed(data), self.chance, 2)
        return framed(data)

    def send(self):
        """One frame, and behind it an ECHO that has to be answered, where the connection isn't ended."""
        if self.client is None or self.left == 0:
            self.close()
            self.connect()
        self.left -= 1
        self.sent += 1
        try:
            text = self.message()
            self.client.send_bytes(text)
            self.hear(text)
        except Closed:
            self.ends += 1
            self.close()

    def hear(self, text):
        """A frame that announces more than it has swallows what comes next, so its connection is given up."""
        client = self.client
        announced = int.from_bytes(text[:4], "big")
        if len(text) < 4 or announced != len(text) - 4:
            return self.close()
        number, body = client.took(), simple(4)
        message = header(smb.ECHO, number, session=client.session) + body
        client.send_frame(client.guarded(message) if client.keys else message)
        try:
            while number not in client.heard:
                client.hear()
            client.heard.clear()
            self.answered += 1
            return None
        except (Wrong, KeyError, struct.error):  # a mutated frame may be answered with anything
            return self.close()

    def close(self):
        if self.client:
            self.client.close()
        self.client = None


def attack(server, kind, count, seed, random_type, kept):
    attacker = Attacker(server, kind, seed, random_type)
    try:
        while attacker.sent < count:
            attacker.send()
    except (Refused, TimeoutError, OSError) as error:
        attacker.error = error
    attacker.close()
    kept.append(attacker)


class Witness:
    """Another user's file, which nobody else may open, and its bytes."""

    def __init__(self, server):
        self.client, self.rounds = server.client(BERT), 0
        self.file, self.data = self.client.create("witness", shared=0).file, b""

    def look(self):
        more = b"%08d" % self.rounds
        self.client.write(self.file, len(self.data), more)
        self.data, self.rounds = self.data + more, self.rounds + 1
        if self.rounds % 20 == 0:
            expect(self.client.read_all(self.file, len(self.data) + 1) == self.data, "a file that nobody else may open has other bytes")


def attacked(run, server, kind, count):
    """So many frames of one kind, by two attackers, while a witness looks."""
    witness, kept, workers = Witness(server), [], []
    for number in range(2):
        words = (server, kind, count // 2, f"{run.seed} {kind} {number}", type(run.random), kept)
        workers.append(threading.Thread(target=attack, args=words, daemon=True))
        workers[-1].start()
    while any(worker.is_alive() for worker in workers):
        server.expect_alive(f"under {kind} frames")
        witness.look()
        time.sleep(0.02)
    witness.look()
    for attacker in kept:
        error = getattr(attacker, "error", None)
        if error is not None:
            raise Failed(f"under {kind} frames, behind {attacker.sent}, a client met {error!r}")
    return kept, witness


@check("frames", "counts")
def frames(run):
    """100,000 frames mutated by the seed, raw, signed and sealed: the process goes on, another user's file is untouched and comes back."""
    count, seen = run.count(100000, 6000) // 3, []
    for kind in KINDS:
        settings = LOG.format(level="error") + (SIGNED_ALONE if kind == "signed" else "") + USERS
        server = run.server(settings)
        before = server.resident()
        kept, witness = attacked(run, server, kind, count)
        rise, sent = server.resident() - before, sum(attacker.sent for attacker in kept)
        client, _ = server.client_within(5)
        client.close()
        server.kill()
        server = server.again()
        expect(server.client(BERT).whole("witness") == witness.data, "behind a start a file that nobody else opened has other bytes")
        links, ends = sum(attacker.links for attacker in kept), sum(attacker.ends for attacker in kept)
        answered = sum(attacker.answered for attacker in kept)
        run.counted(f"{kind} frames", sent)
        seen.append(f"{sent} {kind} in {links} connections, {answered} with an answer behind them, {ends} ended by the server, "
                    f"{mebibytes(rise)} more")
        server.kill()
    return "; ".join(seen)
