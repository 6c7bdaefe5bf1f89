#!/usr/bin/env python3
"""A crowd of TCP peers that only occupy the places of a daemon, for tests/links.py.

The class `Crowd` runs it as `python3 tests/crowds.py KIND ADDRESS COUNT`, and ends it. Each peer connects again as soon
as the daemon has closed its connection. KIND is one of

    slow     COUNT connections; each sends a frame that never gets complete, one byte a second
    heads    the same, but each connection sends the first 64 bytes of the frame at once
    garbage  COUNT connections; each sends a byte of garbage every 50 ms
    silent   at most COUNT connections, opened as fast as possible: the oldest one is closed for each new one
    brief    connections that are closed as soon as they are open; COUNT is not used

It prints a line when the first COUNT connections are open.
"""

import contextlib
import os
import random
import resource
import selectors
import socket
import struct
import subprocess
import sys
import time
from typing import Callable, Dict, Iterator, List, Optional

HERE = os.path.dirname(os.path.abspath(__file__))
TOP = os.path.dirname(HERE)
sys.path[:0] = [HERE, f"{TOP}/tools"]

import frames

SECONDS_BETWEEN_BYTES, SECONDS_BETWEEN_GARBAGE = 1.0, 0.05
SECONDS_TO_GATHER, SAID_AT_ONCE = 20, 64
SEED = 9929
# with this option a closed connection leaves its port free at once; otherwise the system keeps the port for a minute
AT_ONCE = struct.pack("ii", 1, 0)


def frame_without_end() -> bytes:
    """Returns the head of a frame with the greatest length, and the first bytes of its body."""
    head = bytearray(frames.request_now("CLst", 1, b"", None)[: frames.HEAD_BYTES])
    head[24:28] = frames.FRAME_BYTES.to_bytes(4, "big")
    return bytes(head).ljust(frames.FRAME_BYTES, b"\0")


class Opener:
    """Opens connections to one address, and closes them so that their ports are free immediately."""

    def __init__(self, address: str) -> None:
        self.address = address
        self.opened = 0

    def connect(self) -> Optional[socket.socket]:
        """Returns a connection, or None if the daemon accepts none."""
        peer = socket.socket(socket.AF_INET, socket.SOCK_STREAM)
        peer.settimeout(1)
        peer.setsockopt(socket.SOL_SOCKET, socket.SO_LINGER, AT_ONCE)
        try:
            peer.connect((self.address, frames.PORT))
        except OSError:
            peer.close()
            return None
        peer.setblocking(False)
        self.opened += 1
        return peer


class Senders:
    """Connections that send a byte now and then. Each is opened again when it was closed."""

    def __init__(self, opener: Opener, count: int, pause: float, content: Callable[[], bytes], first: int = 1) -> None:
        self.opener, self.count, self.pause, self.content, self.first = opener, count, pause, content, first
        self.ready = selectors.DefaultSelector()
        self.rest: Dict[socket.socket, bytes] = {}
        # for each connection the part of a second in which it sends, so that they do not all send at the same time
        self.wheel: List[List[socket.socket]] = [[] for _ in range(20)]

    def begin(self) -> None:
        """Opens one more connection and sends its first bytes."""
        peer = self.opener.connect()
        if peer is None:
            return
        self.ready.register(peer, selectors.EVENT_READ)
        self.rest[peer] = self.content()
        self.send(peer, self.first)
        self.wheel[self.opener.opened % len(self.wheel)].append(peer)

    def send(self, peer: socket.socket, count: int = 1) -> None:
        """Sends the next bytes of a connection."""
        rest = self.rest[peer]
        with contextlib.suppress(OSError):
            peer.send(rest[:count])
        self.rest[peer] = rest[count:]

    def end(self, peer: socket.socket) -> None:
        """Removes a connection."""
        self.ready.unregister(peer)
        del self.rest[peer]
        peer.close()

    def hear(self, seconds: float) -> None:
        """Opens again those connections that are closed within this time."""
        for key, _ in self.ready.select(seconds):
            gone = True
            with contextlib.suppress(BlockingIOError, OSError):
                gone = not key.fileobj.recv(65_536)
            if gone:
                self.end(key.fileobj)
        while len(self.rest) < self.count:
            before = self.opener.opened
            self.begin()
            if self.opener.opened == before:
                return

    def turn(self, place: int) -> None:
        """Sends a byte on each connection whose time has come, and listens to the others until the next time."""
        self.wheel[place] = [peer for peer in self.wheel[place] if peer in self.rest]
        for peer in self.wheel[place]:
            self.send(peer)
        until = time.monotonic() + self.pause / len(self.wheel)
        while (left := until - time.monotonic()) > 0:
            self.hear(left)

    def run(self) -> Iterator[None]:
        """Continues forever, and yields after each turn."""
        while True:
            for place in range(len(self.wheel)):
                self.turn(place)
                yield


def silent(opener: Opener, count: int) -> Iterator[None]:
    """Opens connections as fast as possible, and leaves the last ones open, up to this many."""
    kept: List[socket.socket] = []
    while True:
        peer = opener.connect()
        if peer is not None:
            kept.append(peer)
        if len(kept) > count:
            kept.pop(0).close()
        yield


def brief(opener: Opener) -> Iterator[None]:
    """Opens connections as fast as possible, and closes each."""
    while True:
        peer = opener.connect()
        if peer is not None:
            peer.close()
        yield


def turns_of(kind: str, opener: Opener, count: int) -> Iterator[None]:
    """Returns the turns of a crowd of this kind."""
    chance = random.Random(SEED)
    if kind == "slow":
        return Senders(opener, count, SECONDS_BETWEEN_BYTES, frame_without_end).run()
    if kind == "heads":
        return Senders(opener, count, SECONDS_BETWEEN_BYTES, frame_without_end, SAID_AT_ONCE).run()
    if kind == "garbage":
        return Senders(opener, count, SECONDS_BETWEEN_GARBAGE, lambda: bytes(chance.choices(range(256), k=64))).run()
    return silent(opener, count) if kind == "silent" else brief(opener)


class Crowd:
    """A crowd in its own process, in a `with` block, which begins when all connections are open."""

    def __init__(self, kind: str, address: str, count: int) -> None:
        self.words = [sys.executable, os.path.abspath(__file__), kind, address, str(count)]

    def __enter__(self) -> "Crowd":
        self.process = subprocess.Popen(self.words, stdout=subprocess.PIPE)
        if not self.process.stdout.readline():
            self.__exit__()
            raise OSError("a crowd did not come together")
        return self

    def __exit__(self, *_: object) -> None:
        self.process.kill()
        self.process.wait()
        self.process.stdout.close()


def main(words: List[str]) -> int:
    kind, address, count = words[0], words[1], int(words[2])
    limit = resource.getrlimit(resource.RLIMIT_NOFILE)[1]
    resource.setrlimit(resource.RLIMIT_NOFILE, (limit, limit))
    opener, begun, is_there = Opener(address), time.monotonic(), False
    for _ in turns_of(kind, opener, count):
        if is_there:
            continue
        if opener.opened >= count:
            is_there = True
            print("there", flush=True)
        elif time.monotonic() > begun + SECONDS_TO_GATHER:
            return 1
    return 0


if __name__ == "__main__":
    sys.exit(main(sys.argv[1:]))
