"""Reads a daemon's answers, in the form of docs/PROTOCOL.md: checks a datagram, and returns its lines as values.

It is imported by tools/ask.py and by the modules of booth-status, and not run by itself.
"""

import ipaddress
import re
from typing import Dict, List, NamedTuple, Optional

import frames

HELD = re.compile(rb"([!-~]{1,63}) (none|[0-9a-f.:]+) (\d{1,20})")
DROPPED = re.compile(rb"dropped" + rb" (\d{1,20})" * 8)
PEER = re.compile(rb"(site|arbitrator) ([0-9a-f.:]+)" + rb" (\d{1,20})" * 4)
# the faults for which a datagram is dropped, in the order of the counters
FAULTS = ["frame", "nomac", "badmac", "old", "stranger", "self", "ticket", "leader"]


# how many parts a list may have, and the result of each part except the last
PARTS = 32
MORE = frames.code("More")
# the size of a socket's buffer: all parts of a list may arrive at once
ROOM = 2 * PARTS * frames.FRAME_BYTES


class BadReply(Exception):
    """The reply has another form, or does not answer this request."""


class Held(NamedTuple):
    """A ticket in a member's list: its owner or `None`, and the second in which the lease ends or 0."""

    ticket: str
    owner: Optional[str]
    end: int


class Peer(NamedTuple):
    """A member's counters about another member. `last` is the second in which it last heard from it, or 0."""

    role: str
    address: str
    last: int
    received: int
    sent: int
    errors: int


class Counts(NamedTuple):
    """A member's counters: the datagrams that it dropped, by their fault, and those about each other member."""

    dropped: Dict[str, int]
    peers: List[Peer]


class Parts:
    """The parts of a list that have arrived. If a part arrives twice, the first one counts."""

    def __init__(self):
        self.came = {}

    def take(self, head, body):
        if head.options < PARTS:
            self.came.setdefault(head.options, (head.result != MORE, body))

    def text(self):
        """Returns the text of the whole list, or `None` if a part is missing."""
        texts = []
        for number in range(PARTS):
            is_last, body = self.came.get(number, (True, None))
            if body is None:
                return None
            texts.append(body)
            if is_last:
                return b"".join(texts)
        return None


def read_reply(reply, letters, request, address, key, *, result=0):
    """Returns the head and the body of a correct reply. If `result` is `None`, any result is accepted.

    The reply to `CLst` is a part of the list, with any number. Raises `BadReply` for any other datagram.
    """
    least = frames.HEAD_BYTES + (frames.AUTH_BYTES if key else 0)
    if len(reply) < least:
        raise BadReply(f"it has {len(reply)} bytes, fewer than the {least} of a reply without a body")
    head = frames.Head.read(reply)
    body = reply[frames.HEAD_BYTES : len(reply) - least + frames.HEAD_BYTES]
    is_list = letters == "CLst"
    wanted = head.result if result is None or is_list and head.result == MORE else result
    options = head.options if is_list else 0
    due = frames.reply_due(letters, request, address, body, key, wanted, clock=head, options=options)
    for name, found, right in zip(head._fields, head, frames.Head.read(due)):
        if found != right:
            name = "from" if name == "sender" else name
            raise BadReply(f"its field {name} is {found:#010x}, and not {right:#010x}")
    if key and reply[: -frames.AUTH_BYTES] == due[: -frames.AUTH_BYTES]:
        is_right = frames.is_sealed(key, reply)
    else:
        is_right = reply == due
    if not is_right:
        raise BadReply("its MAC is not of this key")
    if head.usecs % 1000 or head.usecs >= 1_000_000:
        raise BadReply(f"its field usecs is {head.usecs}, which is not a whole number of milliseconds below a second")
    return head, body


def lines_of(text):
    """Returns the lines of a text. Raises `BadReply` if the last line has no end."""
    *lines, rest = text.split(b"\n")
    if rest:
        raise BadReply("its last line has no line end")
    return lines


def fields_of(form, line):
    """Returns the fields of a line. Raises `BadReply` if the line has another form."""
    found = form.fullmatch(line)
    if not found:
        raise BadReply(f"a line of its text has the wrong form: {line!r}")
    return [field.decode("ascii") for field in found.groups()]


def address_of(text):
    """Returns the address in its usual form."""
    try:
        return str(ipaddress.ip_address(text))
    except ValueError as why:
        raise BadReply(f"it names {text}, which is not an address") from why


def held_in(text):
    """Returns the tickets in the answer to `CLst`."""
    held = []
    for line in lines_of(text):
        name, owner, end = fields_of(HELD, line)
        held.append(Held(name, None if owner == "none" else address_of(owner), int(end)))
    return held


def counts_in(text):
    """Returns the counters in the answer to `Peer`."""
    first, *others = lines_of(text) or [b""]
    dropped = dict(zip(FAULTS, map(int, fields_of(DROPPED, first))))
    peers = []
    for line in others:
        role, address, *numbers = fields_of(PEER, line)
        peers.append(Peer(role, address_of(address), *map(int, numbers)))
    return Counts(dropped, peers)
