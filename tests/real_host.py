"""A real host in its own process, which makes the calls that a test sends to it.

It is imported by the programs in tests/, and not run by itself.
"""

import subprocess
from typing import IO, Dict, NamedTuple, Optional, Union

from checks import Wrong, need
from row_driver import Session

TICKET = b"ticket-db8"
# the file of a ticket's record: the ticket's name in hexadecimal
FILE = TICKET.hex() + ".rec"

LOOPBACK, OTHER_LOOPBACK, THIRD_LOOPBACK, LOOPBACK_6 = "127.0.0.1", "127.0.0.2", "127.0.0.3", "::1"

# the ports to try, one after another
PORTS = range(19_829, 20_129)


class Peer(NamedTuple):
    """An address and a port."""

    address: str
    port: int


class Came(NamedTuple):
    """A datagram that arrived."""

    peer: Peer
    content: bytes


def hexed(text: str) -> str:
    """Returns a text in hexadecimal, or `-` if it is empty."""
    return text.encode().hex() or "-"


def plain(term: int, until: Optional[int] = None) -> str:
    """Returns the words of a record of version 2 with this term, and a lease of it until then if there is one."""
    lease = "- -" if until is None else f"{term} {until}"
    return f"2 {term} {lease} - - - - 0"


def first(term: int) -> str:
    """Returns the words of a record of version 1 with this term."""
    return f"1 {term} - - - - - - 0"


class Host:
    """A real host, which runs in its own process."""

    def __init__(
        self,
        folder: str,
        environ: Optional[Dict[str, str]] = None,
        errors: Union[int, IO[bytes]] = subprocess.DEVNULL,
    ) -> None:
        self.session = Session("host", folder=folder, environ=environ, errors=errors)

    def __enter__(self) -> "Host":
        return self

    def __exit__(self, *_: object) -> None:
        self.session.end()

    def open(self, local: str = "-", port: int = 0, records: str = "", conf: str = "") -> bool:
        """Opens it at an address and a port."""
        return self.session.say(f"open {local} {port} {hexed(records)} {hexed(conf)}") == "ok"

    def open_somewhere(self, local: str, records: str = "") -> Peer:
        """Opens it at the first port that is free."""
        for port in PORTS:
            if self.open(local, port, records):
                return Peer(local, port)
        raise Wrong("no port is free")

    def next(self, wait: int) -> str:
        """Waits for an event for at most this many milliseconds."""
        return self.session.say(f"next {wait}")

    def heard(self, wait: int = 5000) -> Came:
        """Returns the next datagram."""
        word, *given = self.next(wait).split(" ")
        if word != "datagram":
            raise Wrong(f"nothing came: {word}")
        address, port, content = given
        return Came(Peer(address, int(port)), bytes.fromhex(content.replace("-", "")))

    def send(self, to: Peer, content: bytes) -> bool:
        """Sends a datagram."""
        return self.session.say(f"send {to.address} {to.port} {content.hex() or '-'}") == "ok"

    def kept(self) -> str:
        """Returns the record of the ticket, `none` or `failed`."""
        return self.session.say(f"kept {TICKET.hex()}")

    def keep(self, record: str) -> bool:
        """Writes a record of the ticket."""
        return self.session.say(f"keep {TICKET.hex()} {record}") == "ok"

    def now(self) -> int:
        """Reads the clock."""
        return int(self.session.say("now"))

    def lock(self, path: str) -> str:
        """Takes a lock. Returns `got`, `taken` or `failed`."""
        return self.session.say(f"lock {hexed(path)}")

    def read(self, path: str) -> Optional[bytes]:
        """Returns the bytes of a file, or None if it is not read."""
        answer = self.session.say(f"read {hexed(path)}")
        return None if answer in ("failed", "no-memory") else bytes.fromhex(answer.replace("-", ""))

    def start(self, number: int, handler: str, expires: int = 1_700_000_600) -> bool:
        """Starts the handler of a job of the ticket, whose lease ends in this second."""
        words = f"start {number} {TICKET.hex()} {hexed(handler)} 192.168.201.100 {expires}"
        return self.session.say(words) == "ok"

    def run_beside(self) -> None:
        """Has programs with the argument `renew` run at the same time as others."""
        self.session.say("beside")

    def err(self, text: str) -> bool:
        """Writes to standard error."""
        return self.session.say(f"err {hexed(text)}") == "ok"

    def notify(self, text: str) -> None:
        """Sends a text to the service manager."""
        self.session.say(f"notify {hexed(text)}")

    def beat(self) -> None:
        """Reports to the service manager that turns continue, if a report is due."""
        self.session.say("beat")

    def expect(self, member: str) -> None:
        """Gives a member its own socket at each place that is opened from now on."""
        self.session.say(f"expect {member}")

    def await_clock(self, records: str) -> None:
        """Waits for the clock of a directory of records."""
        self.session.say(f"await {hexed(records)}")


def carried(one: Host, other: Host, at: Peer, content: bytes) -> Peer:
    """Sends bytes from one host to another, which must receive them. Returns whom it received them from."""
    need(one.send(at, content), "it is not sent")
    came = other.heard()
    need(came.content == content, "other bytes came")
    return came.peer

