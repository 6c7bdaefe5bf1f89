"""Computes what a member does with a datagram according to docs/PROTOCOL.md: its first fault, or that it is accepted.

It is imported by the programs in tests/, and not run by itself. It shares nothing with crates/, and
stands beside the tables written manually: for datagrams that nobody has read.
"""

import re
from typing import NamedTuple, Optional

import frames
from frames import AUTH, AUTH_BYTES, BODY_OF, HEAD_BYTES, Head, member_id

# the eight faults, in the order of the counters
FRAME, NOMAC, BADMAC, OLD, STRANGER, SELF, TICKET, LEADER = range(8)

LETTERS = {frames.code(letters): letters for letters in BODY_OF}
LEADERS_ALONE = ["RVot", "HrtB", "UpdE"]

NAME = re.compile(rb"[!-~]{1,63}\0+")
NO_NAME = re.compile(rb"\0{64}")
VALUE = re.compile(rb"[ -~]{0,127}\0+")
TEXT = re.compile(rb"[ -~\n]{0,16384}")


class Station(NamedTuple):
    """A daemon: its address, the other members in the order of the file as (role, address), and what else decides its
    answers.
    """

    address: str
    others: tuple = (("site", "192.168.202.100"), ("arbitrator", "192.168.203.100"))
    tickets: tuple = (b"ticket-db8",)
    key: Optional[bytes] = None
    skew: int = 600
    port: int = frames.PORT
    is_site: bool = True

    def sites(self):
        others = [address for role, address in self.others if role == "site"]
        return [self.address, *others] if self.is_site else others

    def member(self, number):
        """Returns the address of the member with this id, or None."""
        members = [self.address, *(address for _, address in self.others)]
        return next((address for address in members if member_id(address) == number), None)


class Parts(NamedTuple):
    """A frame, parsed."""

    letters: str
    head: Head
    body: bytes


def split(datagram):
    """Returns the parts of a frame, or None if the datagram is not a frame."""
    if not HEAD_BYTES <= len(datagram) <= frames.FRAME_BYTES:
        return None
    head = Head.read(datagram)
    letters = LETTERS.get(head.cmd)
    if (head.magic, head.version) != (frames.MAGIC, frames.VERSION) or letters is None:
        return None
    is_attribute = BODY_OF[letters] == frames.ATTRIBUTE
    auth_bytes = AUTH_BYTES if head.opts & AUTH else 0
    if head.length != len(datagram) or len(datagram) < HEAD_BYTES + auth_bytes:
        return None
    if head.opts & ~AUTH != (frames.ATTR if is_attribute else 0):
        return None
    body = datagram[HEAD_BYTES : len(datagram) - auth_bytes]
    return Parts(letters, head, body) if has_form(letters, body) else None


def has_form(letters, body):
    """Returns whether the bytes are a body of this command."""
    kind = BODY_OF[letters]
    if kind == frames.BARE:
        return not body
    if kind == frames.TEXT:
        return bool(TEXT.fullmatch(body))
    if len(body) != (76 if kind == frames.TICKET else 256) or not NAME.fullmatch(body[:64]):
        return False
    if kind == frames.TICKET:
        return True
    attribute = NO_NAME if letters == "ALst" else NAME
    return bool(attribute.fullmatch(body[64:128]) and VALUE.fullmatch(body[128:]))


def verdict(station, datagram, seconds):
    """Returns the number of the datagram's first fault, or its parts if it is accepted. `seconds` is the daemon's
    clock.
    """
    parts = split(datagram)
    if parts is None:
        return FRAME
    letters, head, body = parts
    if station.key is not None:
        if not head.opts & AUTH:
            return NOMAC
        before, part = datagram[:-AUTH_BYTES], datagram[-AUTH_BYTES:]
        hash_id = int.from_bytes(part[:4], "big")
        # (a MAC by SHA-1 leaves the last four bytes unused)
        size = AUTH_BYTES if hash_id == 3 else AUTH_BYTES - 4
        if frames.auth_part(station.key, before, hash_id)[:size] != part[:size]:
            return BADMAC
        if head.secs + station.skew < seconds:
            return OLD
    if letters in frames.ANSWER_TO:
        return STRANGER if head.sender else parts
    sender = station.member(head.sender)
    if letters not in frames.MEMBERS_SAY or sender is None:
        return STRANGER
    if sender == station.address:
        return SELF
    if body[:64].rstrip(b"\0") not in station.tickets:
        return TICKET
    leader = int.from_bytes(body[64:68], "big")
    if leader != frames.NO_ONE and leader not in map(member_id, station.sites()):
        return LEADER
    if letters in LEADERS_ALONE and leader != head.sender:
        return LEADER
    return parts
