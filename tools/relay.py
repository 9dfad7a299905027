#!/usr/bin/env python3
"""A relay of SMB's frames between clients and one server, which loses connections: tools/relay.py PORT SERVER_PORT [--slot N] [--every N]
[--from N] [--how WORD] [--seed N] [--times N]

It takes connections at PORT of the loopback and passes frames (MS-SMB2 2.1) on to SERVER_PORT. Each connection has a slot: the least that
no other has. In the slot of --slot (1, the second) it cuts both sides at every N-th frame, up or down, counted from frame --from (1) of
the first connection there and on over those that follow; --times of them at most, for ever without. WORD is what becomes of that frame:
`before` (it is lost), `half` (half of its bytes go on), `after` (it arrives, and what answers it is lost) or `any` (by the seed). Without
--every nothing is cut. A line tells each connection's end. As a module: `Relay` (run-over-relay.py has its caller)."""
import argparse
import contextlib
import random
import socket
import struct
import threading
import time

HOST = "127.0.0.1"
WAYS = ("before", "half", "after")


def frame_of(stream):
    """a whole frame with its length in front, or what came of it before the end"""
    data = bytearray()
    want = 4
    while len(data) < want:
        got = stream.recv(min(want - len(data), 1 << 20))
        if not got:
            break
        data += got
        if want == 4 and len(data) == 4:
            want += struct.unpack(">I", data)[0] & 0xFFFFFF
    return bytes(data), len(data) == want


class Crossing:
    """A connection through the relay: the client's side and the server's."""

    def __init__(self, relay, slot, client):
        self.relay, self.slot, self.client, self.server = relay, slot, client, None
        self.closed, self.frames, self.why = False, 0, "its ends closed it"

    def close(self, why=None):
        with self.relay.lock:
            if self.closed:
                return
            self.closed = True
            self.why = why or self.why
        for side in (self.client, self.server):
            if side is not None:
                # so that a side that is being read wakes up, and what was written still arrives
                with contextlib.suppress(OSError):
                    side.shutdown(socket.SHUT_RDWR)
                side.close()
        self.relay.gone(self)

    def pass_on(self, taken, given):
        try:
            while True:
                frame, whole = frame_of(taken)
                if not whole:
                    if frame:
                        given.sendall(frame)
                    break
                self.frames += 1
                how = self.relay.fate(self.slot)
                if how == "before":
                    return self.close("cut before a frame")
                if how == "half":
                    given.sendall(frame[:len(frame) // 2])
                    return self.close("cut in a frame")
                given.sendall(frame)
                if how == "after":
                    return self.close("cut behind a frame")
        except OSError:
            pass
        return self.close()

    def run(self):
        self.server = self.relay.reach(self)
        if self.server is None:
            return self.close("the relay ends")
        up = threading.Thread(target=self.pass_on, args=(self.client, self.server), daemon=True)
        up.start()
        self.pass_on(self.server, self.client)
        return up.join()


class Relay:
    """Passes frames on until `end`. `fate` is asked at each frame with its slot: None, or the way in which the connection is cut there.
    While it is held, connections are taken and wait; all that stood are closed."""

    def __init__(self, server_port, fate, port=0, tell=None):
        self.server_port, self.fate, self.tell = server_port, self.one_by_one(fate), tell or (lambda line: None)
        self.lock, self.up, self.ended = threading.RLock(), threading.Event(), False
        self.up.set()
        self.crossings, self.count, self.cuts = {}, 0, 0
        self.socket = socket.create_server((HOST, port))
        self.port = self.socket.getsockname()[1]
        threading.Thread(target=self.accept, daemon=True).start()

    def one_by_one(self, fate):
        def asked(slot):
            with self.lock:
                how = fate(slot)
                self.cuts += how is not None
                return how
        return asked

    def accept(self):
        while not self.ended:
            try:
                client, _ = self.socket.accept()
            except OSError:
                return
            client.setsockopt(socket.IPPROTO_TCP, socket.TCP_NODELAY, 1)
            with self.lock:
                slot = next(n for n in range(len(self.crossings) + 1) if n not in self.crossings)
                crossing = self.crossings[slot] = Crossing(self, slot, client)
                self.count += 1
            threading.Thread(target=crossing.run, daemon=True).start()

    def reach(self, crossing):
        """a connection to the server, once it is there"""
        while not self.ended and not crossing.closed:
            self.up.wait(1)
            if not self.up.is_set():
                continue
            try:
                server = socket.create_connection((HOST, self.server_port))
            except OSError:
                time.sleep(0.01)
                continue
            server.setsockopt(socket.IPPROTO_TCP, socket.TCP_NODELAY, 1)
            return server
        return None

    def gone(self, crossing):
        with self.lock:
            if self.crossings.get(crossing.slot) is crossing:
                del self.crossings[crossing.slot]
        self.tell(f"connection in slot {crossing.slot}: {crossing.frames} frames, {crossing.why}")

    def hold(self):
        """The server is about to go: all connections are closed, and those that come wait."""
        self.up.clear()
        with self.lock:
            standing = list(self.crossings.values())
        for crossing in standing:
            crossing.close("the server goes")

    def go_on(self):
        self.up.set()

    def end(self):
        self.ended = True
        self.socket.close()
        self.hold()


def every(slot, count, first=1, how="any", seed=0, times=None):
    """A fate: in this slot each `count`-th frame from the `first` on is where the connection is cut."""
    chance, seen, done = random.Random(seed), 0, 0

    def fate(where):
        nonlocal seen, done
        if where != slot or (times is not None and done >= times):
            return None
        seen += 1
        if seen < first or (seen - first) % count != 0:
            return None
        done += 1
        return chance.choice(WAYS) if how == "any" else how
    return fate


def main():
    parser = argparse.ArgumentParser(usage=__doc__)
    parser.add_argument("port", type=int)
    parser.add_argument("server_port", type=int)
    parser.add_argument("--slot", type=int, default=1)
    parser.add_argument("--every", type=int)
    parser.add_argument("--from", type=int, default=1, dest="first")
    parser.add_argument("--how", choices=(*WAYS, "any"), default="any")
    parser.add_argument("--seed", type=int, default=0)
    parser.add_argument("--times", type=int)
    said = parser.parse_args()
    fate = (lambda slot: None) if said.every is None else every(said.slot, said.every, said.first, said.how, said.seed, said.times)
    Relay(said.server_port, fate, said.port, lambda line: print(line, flush=True))
    with contextlib.suppress(KeyboardInterrupt):
        threading.Event().wait()


if __name__ == "__main__":
    main()
