#!/usr/bin/env python3
"""A small store over HTTP that refuses the writes of a ticket's old holder, as an example of a fence.

Run it as `python3 examples/fenced_store.py DIRECTORY ADDRESS PORT`. It has no passwords, so try it on loopback.

    curl -X PUT --data-binary @FILE -H "Booth-Ticket: db8" -H "Booth-Term: 5" http://127.0.0.1:8080/NAME
    curl http://127.0.0.1:8080/NAME

The store remembers the greatest term of each ticket that a write has shown. It refuses a smaller one with the status
412, and accepts an equal one: a lease is renewed within its term. The term is on the disk before the data is written,
and one lock covers the comparison and the write. With `--unfenced` it also accepts writes without a term, as a store
without a fence does, which shows what the fence is for.
"""

import argparse
import contextlib
import os
import re
import sys
import threading
from http.server import BaseHTTPRequestHandler, ThreadingHTTPServer
from typing import Callable, Dict, Optional, Tuple

# the allowed names of tickets and objects, which become names of files
NAME = re.compile(r"[A-Za-z0-9_-][A-Za-z0-9_.-]{0,62}")
# terms have 32 bits; a holder's is never 0
TERM = re.compile(r"[0-9]{1,10}")
MOST_BYTES = 1 << 20


class Refused(Exception):
    """The request is refused; `status` is the HTTP status, and the text is the cause."""

    def __init__(self, status: int, why: str) -> None:
        super().__init__(why)
        self.status = status


def write_durably(path: str, data: bytes) -> None:
    """Replaces a file so that a crash leaves the old content or the new one, and returns when it is on the disk."""
    folder = os.path.dirname(path)
    with open(f"{path}.new", "wb") as file:
        file.write(data)
        file.flush()
        os.fsync(file.fileno())
    os.replace(f"{path}.new", path)
    opened = os.open(folder, os.O_RDONLY)
    try:
        os.fsync(opened)
    finally:
        os.close(opened)


class Store:
    """Objects in a directory, and the greatest term of each ticket."""

    def __init__(self, directory: str, unfenced: bool = False) -> None:
        self.objects = os.path.join(directory, "objects")
        self.terms = os.path.join(directory, "terms")
        self.unfenced = unfenced
        self.writes = 0
        self.greatest: Dict[str, int] = {}
        self.lock = threading.Lock()
        for folder in (self.objects, self.terms):
            os.makedirs(folder, exist_ok=True)
        for ticket in os.listdir(self.terms):
            # (a file with the ending .new was left incomplete by a crash)
            if not ticket.endswith(".new"):
                with open(os.path.join(self.terms, ticket), encoding="ascii") as file:
                    self.greatest[ticket] = int(file.read())

    def pass_fence(self, ticket: str, term: int) -> None:
        """Remembers a greater term, and refuses a smaller one."""
        greatest = self.greatest.get(ticket, 0)
        if term < greatest:
            raise Refused(412, f"term {term} of ticket {ticket} is below {greatest}, which a later holder has shown")
        if term > greatest:
            write_durably(os.path.join(self.terms, ticket), b"%d\n" % term)
            self.greatest[ticket] = term

    def put(self, name: str, data: bytes, ticket: Optional[str], term: Optional[str]) -> int:
        """Writes an object, and returns the number of this write among all that were accepted."""
        if NAME.fullmatch(name) is None or name.endswith(".new"):
            raise Refused(400, f"bad name: {name!r}")
        with self.lock:
            if ticket is None and term is None:
                if not self.unfenced:
                    raise Refused(400, "a write needs the headers Booth-Ticket and Booth-Term")
            else:
                self.pass_fence(*as_shown(ticket, term))
            write_durably(os.path.join(self.objects, name), data)
            self.writes += 1
            return self.writes

    def get(self, name: str) -> bytes:
        """Returns an object."""
        if NAME.fullmatch(name) is None or name.endswith(".new"):
            raise Refused(400, f"bad name: {name!r}")
        try:
            with open(os.path.join(self.objects, name), "rb") as file:
                return file.read()
        except FileNotFoundError:
            raise Refused(404, f"no object {name}") from None


def as_shown(ticket: Optional[str], term: Optional[str]) -> Tuple[str, int]:
    """Returns the ticket and the term that a write shows. No holder has the term 0."""
    if ticket is None or NAME.fullmatch(ticket) is None or ticket.endswith(".new"):
        raise Refused(400, f"bad Booth-Ticket: {ticket!r}")
    if term is None or TERM.fullmatch(term) is None or not 0 < int(term) < 1 << 32:
        raise Refused(400, f"bad Booth-Term: {term!r} is not the term of a lease: a term is 1 to 4294967295")
    return ticket, int(term)


class Handler(BaseHTTPRequestHandler):
    """One request to the store of the server."""

    protocol_version = "HTTP/1.1"
    # (a client that hangs occupies a thread no longer than this, in seconds)
    timeout = 60

    def answer(self, work: Callable[[], bytes]) -> None:
        """Does the work of a request, and answers with its result or with the cause of a refusal."""
        try:
            status, body = 200, work()
        except Refused as why:
            status, body = why.status, f"{why}\n".encode()
        except OSError as why:
            status, body = 500, f"the store failed: {why}\n".encode()
        with contextlib.suppress(ConnectionError):  # (the client may have closed the connection)
            self.send_response(status)
            self.send_header("Content-Length", str(len(body)))
            self.end_headers()
            self.wfile.write(body)

    def written(self) -> int:
        """Reads the body of a request, writes it, and returns the number of the write."""
        length = self.headers.get("Content-Length", "")
        if not length.isdigit() or int(length) > MOST_BYTES:
            self.close_connection = True
            raise Refused(400, f"bad Content-Length: {length!r} is not a number from 0 to {MOST_BYTES}")
        data = self.rfile.read(int(length))
        if len(data) < int(length):
            self.close_connection = True
            raise Refused(400, f"the body ended after {len(data)} of {length} bytes")
        shown = self.headers.get("Booth-Ticket"), self.headers.get("Booth-Term")
        return self.server.store.put(self.path[1:], data, *shown)  # type: ignore[attr-defined]

    def do_PUT(self) -> None:
        """Writes an object."""
        self.answer(lambda: b"%d\n" % self.written())

    def do_GET(self) -> None:
        """Returns an object."""
        self.answer(lambda: self.server.store.get(self.path[1:]))  # type: ignore[attr-defined]

    def log_message(self, format: str, *args: object) -> None:
        """Logs nothing."""


def main() -> None:
    """Serves until a signal ends it."""
    parser = argparse.ArgumentParser(description="A store that refuses the writes of a ticket's old holder.")
    parser.add_argument("--unfenced", action="store_true", help="accept writes without a term too")
    parser.add_argument("directory", metavar="DIRECTORY")
    parser.add_argument("address", metavar="ADDRESS")
    parser.add_argument("port", metavar="PORT", type=int)
    options = parser.parse_args()
    try:
        server = ThreadingHTTPServer((options.address, options.port), Handler)
        server.store = Store(options.directory, options.unfenced)  # type: ignore[attr-defined]
    except (OSError, ValueError) as why:
        sys.exit(f"fenced_store.py: cannot serve {options.directory} at {options.address}:{options.port}: {why}")
    print(f"serves at {options.address}:{server.server_port}", flush=True)
    server.serve_forever()


if __name__ == "__main__":
    main()
