"""Starts boothd for the Python programs here, waits until it answers, and always ends it.

It is imported by tools/demo.py and the programs in tests/ and bench/, and not run by itself. Each daemon has its own
lock and directory, and mostly its own address. Programs that share one of them take turns.
"""

import contextlib
import fcntl
import os
import signal
import socket
import subprocess
import sys
import tempfile
import time

import frames

# (a start takes long on a busy machine; a daemon that ends is noticed at once)
SECONDS_TO_START = 30

TOP = os.path.dirname(os.path.dirname(os.path.abspath(__file__)))

# the lock file of boothd without -l
LOCK = "/var/run/booth.lock"

# hints for boothd's messages
HINTS = {
    "already running": "another boothd holds its lock: end that one first",
    "cannot open": "its port or its directory of records is in use, or this machine does not have the address",
}


def built_program(name="boothd"):
    """Returns the path of this proved program's last build, or `None` if it was not built."""
    # (make build and rt leave a program in different directories)
    paths = [f"{TOP}/out/{name}", f"{TOP}/crates/{name}/out/{name}"]
    built = [path for path in paths if os.access(path, os.X_OK)]
    return max(built, key=os.path.getmtime, default=None)


def own_addresses():
    """Returns loopback addresses at which probably no other program uses the port.

    All of 127.0.0.0/8 is loopback, so each server can have its own address.
    """
    high, low = divmod(os.getpid() % 65_536, 256)
    return (f"127.{high}.{low}.{last}" for last in range(2, 255))


def exit_code(status):
    """Returns the exit code of an ended child, or the negative number of the signal that ended it."""
    return os.WEXITSTATUS(status) if os.WIFEXITED(status) else -os.WTERMSIG(status)


def end_by_signals():
    """Makes SIGTERM and SIGHUP leave every `with` block, so that the programs which were started there are ended."""
    for number in (signal.SIGTERM, signal.SIGHUP):
        signal.signal(number, lambda *_: sys.exit(1))


@contextlib.contextmanager
def turn(name):
    """Yields a `with` block that only one of these programs can be in at a time. The others wait."""
    # (locks the directory itself, which leaves no file behind, and which boothd does not look at)
    folder = os.open(os.path.dirname(LOCK), os.O_RDONLY)
    try:
        try:
            fcntl.flock(folder, fcntl.LOCK_EX | fcntl.LOCK_NB)
        except BlockingIOError:
            print(f"{name}: waits for another run that starts boothd here", flush=True)
            fcntl.flock(folder, fcntl.LOCK_EX)
        yield
    finally:
        os.close(folder)


def written(file):
    """Returns what programs have written to this file, without a seek: the programs share the file's position."""
    return os.pread(file.fileno(), os.fstat(file.fileno()).st_size, 0)


class NotServing(Exception):
    """The program ended by itself, or did not answer in time."""


class Server:
    """A program that answers at this address and port. The `with` block begins with its first answer.

    `key` seals the requests to it. It prints its log only if `logs` is set before the block, and writes a journal to
    the path `journal` if that is set. `prepare` is called in the new process.
    """

    logs = False
    journal = None
    prepare = None

    def __init__(self, words, address, port=frames.PORT, key=None):
        self.words = words
        self.address = address
        self.port = port
        self.key = key

    def __enter__(self):
        self.printed = tempfile.TemporaryFile()
        streams = {"stdin": subprocess.DEVNULL, "stdout": self.printed, "stderr": self.printed}
        switches = {"BOOTH_LOG": "on" if self.logs else "off", "BOOTH_JOURNAL": self.journal or ""}
        self.process = subprocess.Popen(
            self.words, env={**os.environ, **switches}, preexec_fn=self.prepare, **streams
        )
        try:
            self.await_answer()
        except BaseException:
            self.end()
            raise
        return self

    def __exit__(self, fault, *_):
        status = self.process.poll()
        self.end()
        # (the answer may have come from another program at this port)
        if fault is None and status not in (None, -signal.SIGTERM):
            raise self.ended_by_itself(status)

    def end(self):
        """Ends the program at once, if it has not ended."""
        self.process.kill()
        self.process.wait()

    def said(self):
        """Returns what the program has printed, on both streams."""
        return written(self.printed)

    def ended_by_itself(self, status):
        said = self.said().decode(errors="replace").strip()
        hint = next((hint for text, hint in HINTS.items() if said.endswith(f": {text}")), None)
        story = f"the program ended by itself with status {status}"
        return NotServing(story + (f"\n{said}" if said else "") + (f"\n({hint})" if hint else ""))

    def await_answer(self):
        started = time.monotonic()
        family = socket.AF_INET6 if ":" in self.address else socket.AF_INET
        with socket.socket(family, socket.SOCK_DGRAM) as asker:
            asker.settimeout(0.05)
            asker.connect((self.address, self.port))
            while time.monotonic() < started + SECONDS_TO_START:
                try:
                    asker.send(frames.request_now("CLst", 0, key=self.key))
                    asker.recv(frames.FRAME_BYTES)
                    return
                except ConnectionRefusedError:
                    # (nobody listens until the program has opened its socket)
                    time.sleep(0.001)
                except socket.timeout:
                    pass
                status = self.process.poll()
                if status is not None:
                    raise self.ended_by_itself(status)
        raise NotServing(f"the program gave no answer within {SECONDS_TO_START} seconds")


def boothd(program, path, address, port=frames.PORT, key=None, options=()):
    """Returns the daemon with this configuration and address, and with these additional options."""
    words = [program, "daemon", "-c", path, "-s", address, *options]
    return Server(words, address, port, key)
