"""Reads a configuration, in the form of booth.conf(5), for programs that ask its members.

Only boothd decides whether a configuration is valid. It is imported by booth-status, booth-record and the tests, and
not run by itself.
"""

import ipaddress
import os
import re
import stat
from typing import List, NamedTuple, Optional, Tuple

import frames
import wording

FOLDER = "/etc/booth"
TEXT_BYTES = 16_777_216
KEY_FILE_BYTES = 1_048_576
DEFAULTS = "__default__"

# blanks, a key, `=`, and a value in quotes or bare; then blanks and a comment, or the end
LINE = re.compile(
    r"""[ \t\r]*([A-Za-z0-9_-]+)[ \t\r]*=[ \t\r]*"""
    r"""(?:(?:"([^"]*)"|'([^']*)')[ \t\r]*(?:\#.*)?|([^"'# \t\r].*?)(?:[ \t\r]+(?:\#.*)?)?)"""
)
EMPTY = re.compile(r"[ \t\r]*(?:#.*)?")
VALUE = re.compile(r"[\t -~]*")
NUMBER = re.compile(r"[0-9]{1,10}")
SECONDS = 10_000_000

# each number with its range, and the value if no line has one
NUMBERS = {
    "port": (1, 65_535, frames.PORT),
    "maxtimeskew": (1, SECONDS, 600),
    "expire": (1, SECONDS, 600),
    "acquire-after": (0, SECONDS, 0),
    "timeout": (1, SECONDS, 5),
    "retries": (3, 100, 10),
    "renewal-freq": (1, SECONDS, None),
}
HASHES = ["sha1", "sha256"]
MODES = {"auto": False, "AUTO": False, "manual": True, "MANUAL": True}
YES = {"no": False, "NO": False, "yes": True, "YES": True}
OF_FILE = {"port", "maxtimeskew", "authfile", "authfile-old", "authhash", "transport", "debug"}
OF_FILE |= {f"{who}-{what}" for who in ("site", "arbitrator") for what in ("user", "group")}
OF_TICKET = {"expire", "acquire-after", "timeout", "retries", "renewal-freq"}
OF_TICKET |= {"weights", "mode", "attr-prereq", "before-acquire-handler", "steady"}


class Unreadable(Exception):
    """A file that cannot be read, or that is not a configuration or a key. The text has the file and the cause."""

    def __str__(self):
        return wording.plain(super().__str__())


class Member(NamedTuple):
    role: str
    address: str


class Ticket(NamedTuple):
    """A ticket with its times, in seconds."""

    name: str
    is_manual: bool
    expire: int
    after: int
    timeout: int
    retries: int
    renewal: float
    handler: Optional[str]
    # the weights of the members, in their order; a missing one counts as 0
    weights: Tuple[int, ...] = ()
    is_steady: bool = False

    def promise(self):
        """Returns how long a member keeps a promise, and how long it votes in no election after a first start."""
        guard = (2 + 2 * self.expire * 1000 // 999) / 1000
        return self.expire + self.after + guard


class Configuration(NamedTuple):
    path: str
    members: List[Member]
    tickets: List[Ticket]
    port: int
    skew: int
    authfile: Optional[str]
    authfile_old: Optional[str] = None
    authhash: str = HASHES[0]

    def key_files(self):
        """Returns the files of the keys. Without the first one, the other has no effect."""
        paths = [] if self.authfile is None else [self.authfile, self.authfile_old]
        return [path for path in paths if path is not None]

    def key(self):
        """Returns the keys as a ring, or `None` if the file names none."""
        keys = [key_of(path) for path in self.key_files()]
        return frames.Ring(*keys, hash=self.authhash) if keys else None


def path_of(word):
    """Returns the path for an argument of `-c`: a path with a slash, or a name in /etc/booth."""
    if "/" in word:
        return word
    return f"{FOLDER}/{word}" if word.endswith(".conf") else f"{FOLDER}/{word}.conf"


def bytes_of(path, most):
    """Returns the first `most` bytes of a regular file. Does not open any other kind of file, which could block."""
    try:
        handle = os.open(path, os.O_RDONLY | os.O_NONBLOCK | os.O_CLOEXEC)
        with os.fdopen(handle, "rb") as file:
            if not stat.S_ISREG(os.fstat(handle).st_mode):
                raise Unreadable(f"cannot read {path}: it is no regular file")
            return file.read(most)
    except OSError as why:
        raise Unreadable(f"cannot read {path}: {why.strerror}") from why
    except ValueError as why:
        raise Unreadable(f"cannot read {path}: {why}") from why


def key_of(path):
    """Returns the key in this file."""
    try:
        return frames.key_in(bytes_of(path, KEY_FILE_BYTES))
    except ValueError as why:
        raise Unreadable(f"{path}: {why}") from why


def weight_of(text: str) -> int:
    """Returns one of the weights of a ticket, 0 if it is not valid. (boothd refuses such a weight.)"""
    return int(text) if NUMBER.fullmatch(text.strip()) else 0


class Reading:
    """The values of the lines that were read so far."""

    def __init__(self, path):
        self.path = path
        self.members = []
        self.top = {}
        self.defaults = {}
        self.tickets = []
        # the section to which the next keys of a ticket belong, or `None` before the first ticket
        self.section = None

    def take(self, number, line):
        found = LINE.fullmatch(line)
        if found is None or not VALUE.fullmatch(value := found[2] or found[3] or found[4] or ""):
            if EMPTY.fullmatch(line):
                return
            raise self.fault(number, "syntax")
        self.set(number, found[1], value)

    def set(self, number, key, value):
        if key in ("site", "arbitrator"):
            self.members.append(Member(key, self.address(number, key, value)))
        elif key == "ticket":
            self.section = self.defaults if value == DEFAULTS else {}
            if value != DEFAULTS:
                self.tickets.append((value, self.section))
        elif key in OF_TICKET and self.section is None:
            raise self.fault(number, "misplaced key")
        elif key in OF_TICKET | OF_FILE:
            section = self.section if key in OF_TICKET else self.top
            section[key] = self.value(number, key, value)
        else:
            raise self.fault(number, "unknown key")

    def address(self, number, key, value):
        try:
            # (an address must not have a zone)
            return str(ipaddress.ip_address(value.replace("%", " ")))
        except ValueError as why:
            raise self.fault(number, f"bad value for {key}") from why

    def value(self, number, key, value):
        if key == "mode" and value in MODES:
            return MODES[value]
        if key == "steady" and value in YES:
            return YES[value]
        if key == "authhash" and value in HASHES:
            return value
        if key in NUMBERS and NUMBER.fullmatch(value):
            least, most, _ = NUMBERS[key]
            if least <= int(value) <= most:
                return int(value)
        if key in ("mode", "steady", "authhash") or key in NUMBERS:
            raise self.fault(number, f"bad value for {key}")
        return value

    def fault(self, number, what):
        return Unreadable(f"{self.path}: line {number}: {what}")

    def ticket(self, name, section):
        """Returns the ticket of a section, with the values of `__default__` and the program's defaults."""
        said = {**{key: default for key, (_, _, default) in NUMBERS.items()}, **self.defaults, **section}
        expire = said["expire"]
        renewal = expire / 2 if said["renewal-freq"] is None else said["renewal-freq"]
        times = (expire, said["acquire-after"], said["timeout"], said["retries"], renewal)
        weights = tuple(map(weight_of, said["weights"].split(","))) if "weights" in said else ()
        handler = said.get("before-acquire-handler")
        return Ticket(name, said.get("mode", False), *times, handler, weights, said.get("steady", False))


def read(path):
    """Returns the configuration in this file."""
    text = bytes_of(path, TEXT_BYTES + 1)
    if len(text) > TEXT_BYTES:
        raise Unreadable(f"{path}: too large")
    reading = Reading(path)
    for number, line in enumerate(text.decode("latin-1").split("\n"), 1):
        reading.take(number, line)
    tickets = [reading.ticket(name, section) for name, section in reading.tickets]
    if not any(member.role == "site" for member in reading.members):
        raise Unreadable(f"{path}: no site")
    if not tickets:
        raise Unreadable(f"{path}: no ticket")
    top = reading.top
    port, skew = top.get("port", frames.PORT), top.get("maxtimeskew", NUMBERS["maxtimeskew"][2])
    keys = top.get("authfile"), top.get("authfile-old"), top.get("authhash", HASHES[0])
    return Configuration(path, reading.members, tickets, port, skew, *keys)
