"""Links over TCP to a daemon, as a client opens them, for tests/links.py and bench/links.py.

It is imported by those, and not run by itself.
"""

import contextlib
import itertools
import os
import socket
import threading
import time

import frames

SECONDS_TO_ANSWER = 20

numbers = itertools.count(1)


class Closed(Exception):
    """The daemon closed the link, or has not accepted it."""


class Link:
    """One link to the daemon at this address, in a `with` block."""

    def __init__(self, address, key=None, local=None, room=None, rate=None):
        self.address, self.key = address, key
        # the bytes that are read per second, and the bytes that were read so far
        self.rate, self.begun, self.taken = rate, time.monotonic(), 0
        self.socket = socket.socket(socket.AF_INET6 if ":" in address else socket.AF_INET)
        self.socket.settimeout(SECONDS_TO_ANSWER)
        self.socket.setsockopt(socket.IPPROTO_TCP, socket.TCP_NODELAY, 1)
        if room is not None:
            self.socket.setsockopt(socket.SOL_SOCKET, socket.SO_RCVBUF, room)
        if local is not None:
            self.socket.setsockopt(socket.SOL_SOCKET, socket.SO_REUSEADDR, 1)
            self.socket.bind(local)
        try:
            self.socket.connect((address, frames.PORT))
        except BaseException:
            self.socket.close()
            raise

    def __enter__(self):
        return self

    def __exit__(self, *_):
        self.socket.close()

    def receive(self, count):
        """Reads exactly this many bytes, in whatever parts they come, and no faster than this link allows."""
        came = bytearray()
        while len(came) < count:
            try:
                more = self.socket.recv(count - len(came))
            except ConnectionResetError:
                more = b""
            if not more:
                raise Closed(f"after {len(came)} of {count} bytes")
            came += more
            self.taken += len(more)
            if self.rate:
                time.sleep(max(0, self.begun + self.taken / self.rate - time.monotonic()))
        return bytes(came)

    def frame(self):
        """Returns the next frame, by the length in its head."""
        head = self.receive(frames.HEAD_BYTES)
        return head + self.receive(frames.Head.read(head).length - frames.HEAD_BYTES)

    def request(self, letters="CLst", body=b""):
        """Returns a request, and its number."""
        number = next(numbers)
        return number, frames.request_now(letters, number, body, self.key)

    def ask(self, letters="CLst", body=b"", cut=None, pause=0.001):
        """Returns the reply to a request that is sent whole, or in two pieces that are cut at this place."""
        number, request = self.request(letters, body)
        if cut is None:
            self.socket.sendall(request)
        else:
            self.socket.sendall(request[:cut])
            time.sleep(pause)
            self.socket.sendall(request[cut:])
        return self.reply(letters, number)

    def reply(self, letters, number):
        """Returns the next frame, which must answer this request."""
        frame = self.frame()
        head = frames.Head.read(frame)
        if (head.cmd, head.request) != (frames.code(frames.ANSWER_TO[letters]), number):
            raise ValueError(f"{letters} {number} is answered by {head}")
        return frame

    def ends(self, seconds):
        """Returns whether the daemon closes the link within this time. Bytes that arrive before are ignored."""
        end = time.monotonic() + seconds
        while time.monotonic() < end:
            self.socket.settimeout(max(0.001, end - time.monotonic()))
            try:
                if not self.socket.recv(1 << 20):
                    return True
            except ConnectionResetError:
                return True
            except socket.timeout:
                return False
        return False


@contextlib.contextmanager
def links(count, address, key=None):
    """Opens this many links."""
    with contextlib.ExitStack() as stack:
        yield [stack.enter_context(Link(address, key)) for _ in range(count)]


def open_files(process):
    """Returns how many files a process has open."""
    return len(os.listdir(f"/proc/{process}/fd"))


class Busy:
    """Sixteen links that ask for lists without a pause, in a `with` block."""

    def __init__(self, address, key=None, count=16):
        self.address, self.key, self.count = address, key, count
        self.answered = 0
        self.ended = threading.Event()
        self.wrong = []

    def run(self, link):
        try:
            with link:
                while not self.ended.is_set():
                    link.ask()
                    self.answered += 1
        except (Closed, OSError, ValueError) as why:
            if not self.ended.is_set():
                self.wrong.append(f"{type(why).__name__}: {why}")

    def __enter__(self):
        opened = [Link(self.address, self.key) for _ in range(self.count)]
        self.threads = [threading.Thread(target=self.run, args=(link,), daemon=True) for link in opened]
        for thread in self.threads:
            thread.start()
        return self

    def __exit__(self, *_):
        self.ended.set()
        for thread in self.threads:
            thread.join()
