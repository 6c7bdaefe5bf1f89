#!/usr/bin/env python3
"""Tries to write a row to the local PostgreSQL again and again, and records each try. It runs inside a machine.

tests/machine_writers.py runs it as `machine_writer.py SITE SOCKET LOG`, as the server's user. Each line of the log is a
try. It has the times at which the try was sent and answered (in seconds of the clock that all machines here share), the
number of the row, and `ok` or the cause of the failure. The program itself speaks PostgreSQL's protocol, so a try
starts no process.
"""

import socket
import struct
import sys
import time
from typing import Optional, Tuple

SECONDS_BETWEEN = 0.05
SECONDS_TO_ANSWER = 1.0


class Refused(Exception):
    """The server refused a statement; the text has the cause."""


class Session:
    """A connection to the server, as the role with the name of the system's user."""

    def __init__(self, path: str) -> None:
        self.socket = socket.socket(socket.AF_UNIX, socket.SOCK_STREAM)
        self.socket.settimeout(SECONDS_TO_ANSWER)
        self.socket.connect(path)
        words = b"user\0postgres\0database\0postgres\0application_name\0machine_writer\0\0"
        self.socket.sendall(struct.pack(">II", len(words) + 8, 196_608) + words)
        self.until_ready()

    def exactly(self, count: int) -> bytes:
        """Reads exactly this many bytes."""
        parts = b""
        while len(parts) < count:
            more = self.socket.recv(count - len(parts))
            if not more:
                raise Refused("the connection was closed")
            parts += more
        return parts

    def message(self) -> Tuple[bytes, bytes]:
        """Reads one message of the server."""
        kind, length = struct.unpack(">cI", self.exactly(5))
        return kind, self.exactly(length - 4)

    def until_ready(self) -> None:
        """Reads messages until the server is ready, and raises its refusal."""
        refused: Optional[str] = None
        while True:
            kind, content = self.message()
            if kind == b"E":
                fields = dict((part[:1], part[1:]) for part in content.split(b"\0") if part)
                refused = f"{fields.get(b'C', b'').decode()} {fields.get(b'M', b'').decode(errors='replace')}"
                if fields.get(b"V") in (b"FATAL", b"PANIC"):
                    raise Refused(refused)
            elif kind == b"R" and content != b"\0\0\0\0":
                raise Refused("the server asks for a password")
            elif kind == b"N" and b"C01000" in content:
                # (the server ended the wait of a commit for its peer)
                refused = "not replicated"
            elif kind == b"Z":
                if refused is not None:
                    raise Refused(refused)
                return

    def run(self, sql: str) -> None:
        """Runs a statement."""
        words = sql.encode() + b"\0"
        self.socket.sendall(struct.pack(">cI", b"Q", len(words) + 4) + words)
        self.until_ready()


def main(site: str, path: str, log: str) -> None:
    """Tries to write until the process is ended."""
    number = int(time.time() * 1000) * 1000
    session: Optional[Session] = None
    with open(log, "a", encoding="utf-8", buffering=1) as file:
        while True:
            number += 1
            sent = time.monotonic()
            try:
                if session is None:
                    session = Session(path)
                session.run(f"INSERT INTO booth_rows (site, number) VALUES ('{site}', {number})")
                ended = "ok"
            except (Refused, OSError) as why:
                ended = str(why).replace("\n", " ")
                if session is not None:
                    session.socket.close()
                session = None
            answered = time.monotonic()
            file.write(f"{sent:.4f} {answered:.4f} {number} {ended}\n")
            time.sleep(max(0, sent + SECONDS_BETWEEN - answered))


if __name__ == "__main__":
    main(*sys.argv[1:])
