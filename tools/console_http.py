"""A small HTTP server for the console: it answers GET and HEAD, and no client can hold it up.

It is imported by tools/console_serving.py, and not run by itself. Each connection has one request, a limited time and
a limited size. Only a limited number of connections is served at the same time; others get the status 503 at once.
"""

import contextlib
import http.server
import io
import ipaddress
import socket
import socketserver
import sys
import threading
import time
from typing import Any, NamedTuple, Tuple

from wording import plain

# connections at the same time
MOST_REQUESTS = 16
# how long a request may take to arrive, and its answer to be sent, in seconds; and the size of a request's head
SECONDS_TO_ASK, SECONDS_TO_ANSWER = 5.0, 10.0
HEAD_BYTES = 8192
# what is read and thrown away after a request that is refused, so that its client can read the answer
REST_BYTES, SECONDS_OF_REST = 65_536, 0.5
# the least time between two lines on standard error, in seconds
SECONDS_BETWEEN_LINES = 60.0
METHODS = "GET, HEAD"
TEXT = "text/plain; charset=utf-8"
# what a browser may do with the answers: nothing is loaded from anywhere, no script runs, and no other page embeds them
POLICY = "default-src 'none'; style-src 'sha256-{style}'; base-uri 'none'; form-action 'none'; frame-ancestors 'none'"
HEADERS = {
    "Cache-Control": "no-store",
    "X-Content-Type-Options": "nosniff",
    "X-Frame-Options": "DENY",
    "Referrer-Policy": "no-referrer",
    "Cross-Origin-Resource-Policy": "same-origin",
}
BUSY = b"HTTP/1.0 503 Service Unavailable\r\nContent-Type: text/plain\r\nRetry-After: 2\r\n\r\ntoo many requests\n"


class Reply(NamedTuple):
    """An answer: its status, the type of its content, and the content. `style` is the hash of a page's style."""

    status: int
    kind: str
    text: str
    style: str = ""


class Handler(http.server.BaseHTTPRequestHandler):
    """Serves one connection, which has one request."""

    server_version, sys_version = "booth-console", ""
    server: "Server"

    def handle(self) -> None:
        """Reads one request and answers it."""
        self.close_connection = True
        with contextlib.suppress(OSError):
            head = self.head()
            self.rfile.close()
            self.rfile, whole = io.BytesIO(head), head.endswith((b"\r\n\r\n", b"\n\n"))
            self.raw_requestline = self.rfile.readline()
            self.connection.settimeout(SECONDS_TO_ANSWER)
            if not head:
                return
            if not whole:
                status = 431 if len(head) >= HEAD_BYTES else 408
                self.requestline, self.command = "", "GET"
                self.send_error(status, "the head of the request is not whole")
            elif self.parse_request():
                self.answer()

    def head(self) -> bytes:
        """Returns what arrives of the request's head within the limits of time and size."""
        came, end = b"", time.monotonic() + SECONDS_TO_ASK
        while len(came) < HEAD_BYTES and b"\r\n\r\n" not in came and b"\n\n" not in came:
            self.connection.settimeout(max(0.001, end - time.monotonic()))
            try:
                more = self.connection.recv(HEAD_BYTES - len(came))
            except socket.timeout:
                break
            if not more:
                break
            came += more
        # (what comes after the head is not used)
        ends = [came.find(mark) + len(mark) for mark in (b"\r\n\r\n", b"\n\n") if mark in came]
        return came[: min(ends)] if ends else came

    def answer(self) -> None:
        """Answers a request that was read."""
        if self.command not in ("GET", "HEAD"):
            self.send_error(405, f"only {METHODS} are allowed: nothing here changes anything")
            self.drain()
            return
        if not self.server.may_be_asked_as(self.headers.get("Host")):
            self.send_error(403, "the Host header names another machine: use this machine's address or localhost")
            return
        path, _, query = self.path.partition("?")
        try:
            reply = self.server.console.reply(path, query)
        except Exception as why:  # pylint: disable=broad-except
            # (a fault in one answer must not end the others)
            self.server.complain(f"{type(why).__name__}: {why}")
            reply = Reply(500, TEXT, "the answer could not be made: the console's log has the cause\n")
        self.send(reply)

    def send(self, reply: Reply) -> None:
        """Sends an answer, without its content after HEAD."""
        content = reply.text.encode("utf-8", "backslashreplace")
        self.server.console.counts(reply.status)
        self.send_response(reply.status)
        self.send_header("Content-Type", reply.kind)
        self.send_header("Content-Length", str(len(content)))
        policy = POLICY if reply.style else POLICY.replace("style-src 'sha256-{style}'; ", "")
        self.send_header("Content-Security-Policy", policy.replace("{style}", reply.style))
        for name, value in HEADERS.items():
            self.send_header(name, value)
        if reply.status == 405:
            self.send_header("Allow", METHODS)
        self.end_headers()
        if self.command != "HEAD":
            self.wfile.write(content)

    def send_error(self, code: int, message: Any = None, explain: Any = None) -> None:
        """Sends a refusal as a line of text."""
        # (of a request that is not understood, the version is not known)
        self.request_version = "HTTP/1.0"
        self.send(Reply(int(code), TEXT, plain(str(message or explain or "refused")) + "\n"))

    def drain(self) -> None:
        """Reads a part of what the client still sends."""
        with contextlib.suppress(OSError):
            self.connection.shutdown(socket.SHUT_WR)
            end, left = time.monotonic() + SECONDS_OF_REST, REST_BYTES
            while left > 0 and time.monotonic() < end:
                self.connection.settimeout(max(0.001, end - time.monotonic()))
                came = len(self.connection.recv(left))
                left -= came or left

    def log_message(self, format: str, *args: Any) -> None:  # pylint: disable=redefined-builtin
        """Logs no request: the metrics count them."""


class Server(socketserver.ThreadingMixIn, http.server.HTTPServer):
    """Listens at one address, and serves a limited number of connections at the same time."""

    daemon_threads, block_on_close = True, False
    allow_reuse_address = True
    request_queue_size = 64

    def __init__(self, place: Tuple[str, int], console: Any) -> None:
        self.address_family = socket.AF_INET6 if ":" in place[0] else socket.AF_INET
        self.console = console
        self.is_local = ipaddress.ip_address(place[0]).is_loopback
        self.slots = threading.BoundedSemaphore(MOST_REQUESTS)
        self.complained = -SECONDS_BETWEEN_LINES
        super().__init__(place, Handler)

    def server_bind(self) -> None:
        """Binds the socket, without a question to the name servers."""
        socketserver.TCPServer.server_bind(self)
        self.server_name, self.server_port = self.server_address[:2]  # type: ignore[assignment]

    def place(self) -> str:
        """Returns the address and the port as they stand in a URL."""
        host, port = self.server_address[:2]
        return f"[{host!s}]:{port}" if ":" in str(host) else f"{host!s}:{port}"

    def may_be_asked_as(self, host: Any) -> bool:
        """Returns whether a request may have this Host header.

        At a loopback address only an address, localhost or this machine's name is allowed. Otherwise a web page of
        another name, whose address was changed to this one, could read the answers in an operator's browser.
        """
        if host is None or not self.is_local:
            return True
        name = host.strip().rsplit(":", 1)[0] if not host.strip().endswith("]") else host.strip()
        with contextlib.suppress(ValueError):
            ipaddress.ip_address(name.strip("[]"))
            return True
        return name.lower() in ("localhost", socket.gethostname().lower())

    def process_request(self, request: Any, client_address: Any) -> None:
        """Serves a connection in a thread of its own, or refuses it if too many are served."""
        if self.slots.acquire(blocking=False):
            try:
                super().process_request(request, client_address)
                return
            except BaseException:
                self.slots.release()
                raise
        self.console.counts(503)
        with contextlib.suppress(OSError):
            request.setblocking(False)
            request.send(BUSY)
        self.shutdown_request(request)

    def process_request_thread(self, request: Any, client_address: Any) -> None:
        """Serves a connection, and then makes room for another one."""
        try:
            super().process_request_thread(request, client_address)
        finally:
            self.slots.release()

    def handle_error(self, request: Any, client_address: Any) -> None:
        """Logs the cause of a failure in one line."""
        why = sys.exc_info()[1]
        self.complain(f"{type(why).__name__}: {why}")

    def complain(self, text: str) -> None:
        """Logs a line, at most one each minute."""
        now = time.monotonic()
        if now - self.complained >= SECONDS_BETWEEN_LINES:
            self.complained = now
            print(f"booth-status: {plain(text)}", file=sys.stderr, flush=True)
