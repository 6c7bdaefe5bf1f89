"""Booth's frames, written from docs/PROTOCOL.md, for the Python programs of this repository.

It is imported by the programs in tools/ and tests/, and not run by itself. It shares nothing with crates/, so an error
there is not repeated here.
"""

import hmac
import ipaddress
import struct
import time
import zlib
from typing import NamedTuple, Optional

PORT = 9929
NO_ONE = 0xFFFFFFFF
MAGIC = 0x5F1BA08C
VERSION = 0x00010003
HEAD_BYTES = 48
FRAME_BYTES = 16_460
AUTH_BYTES = 28
KEY_BYTES = range(8, 65)

# the bits of opts
AUTH = 1
ATTR = 4

# the body of each command
BARE, TICKET, ATTRIBUTE, TEXT = range(4)
BODY_OF = {
    **dict.fromkeys(["CLst", "Peer"], BARE),
    **dict.fromkeys(["CTkt", "CGnt", "CRvk"], TICKET),
    **dict.fromkeys(["ASet", "AGet", "ADel", "ALst"], ATTRIBUTE),
    **dict.fromkeys(["RLst", "RPer", "RALs"], TEXT),
    **dict.fromkeys(["RTkt", "RGnt", "RRvk"], TICKET),
    "RAtr": ATTRIBUTE,
    **dict.fromkeys(["Stat", "MIdx", "RVot", "VtFr", "HrtB", "Ack."], TICKET),
    **dict.fromkeys(["UpdE", "Revk", "RJC!"], TICKET),
}

# the command that answers each command of a client
ANSWER_TO = {
    **{"CLst": "RLst", "CTkt": "RTkt", "Peer": "RPer", "CGnt": "RGnt", "CRvk": "RRvk", "ALst": "RALs"},
    **dict.fromkeys(["ASet", "AGet", "ADel"], "RAtr"),
}
MEMBERS_SAY = ["Stat", "MIdx", "RVot", "VtFr", "HrtB", "Ack.", "UpdE", "Revk", "RJC!"]

LAYOUT = struct.Struct(">12I")


def code(letters):
    """Returns the number of a command, a result or a reason: its four ASCII letters in network order."""
    return int.from_bytes(letters.encode("ascii"), "big")


LIST = code("CLst")


def member_id(address):
    """Returns the id of the member at this address: the CRC-32 of its 4 or 16 bytes."""
    return zlib.crc32(ipaddress.ip_address(address).packed)


class Head(NamedTuple):
    """The twelve fields of a frame's header, in their order. `sender` is the field `from`."""

    opts: int = 0
    secs: int = 0
    usecs: int = 0
    magic: int = MAGIC
    version: int = VERSION
    sender: int = 0
    length: int = HEAD_BYTES
    cmd: int = LIST
    request: int = 0
    options: int = 0
    reason: int = 0
    result: int = 0

    def spelled(self):
        return LAYOUT.pack(*self)

    @classmethod
    def read(cls, frame):
        """Returns the head of a frame of at least 48 bytes."""
        return cls(*LAYOUT.unpack_from(frame))

    def millis(self):
        """Returns the sender's clock, in milliseconds since 1970."""
        return self.secs * 1000 + self.usecs // 1000


def numbers(*values):
    """Returns the bytes of these numbers: four bytes each, the most significant byte first."""
    return struct.pack(f">{len(values)}I", *values)


def field(text, size):
    """Returns the field of a name or a value: its bytes, and then zeros to the end, at least one."""
    assert len(text) < size and 0 not in text
    return text.ljust(size, b"\0")


def ticket_body(ticket, leader, term, valid_for):
    return field(ticket, 64) + numbers(leader, term, valid_for)


def attribute_body(ticket, name, value):
    """Returns the body of an attribute. The name is empty in a request for a list of attributes."""
    return field(ticket, 64) + field(name, 64) + field(value, 128)


def frame(letters, body=b"", auth=b"", **fields):
    """Returns the frame of this command with this body, and with this authentication part if it is not empty.

    `fields` are the fields of the head that differ from their defaults.
    """
    opts = (AUTH if auth else 0) | (ATTR if BODY_OF[letters] == ATTRIBUTE else 0)
    length = HEAD_BYTES + len(body) + len(auth)
    return Head(opts=opts, length=length, cmd=code(letters), **fields).spelled() + body + auth


def key_in(text):
    """Returns the key in a key file's bytes. If the file is text, the blanks at its ends are removed."""
    if all(byte in range(0x09, 0x0E) or byte in range(0x20, 0x7F) for byte in text):
        text = text.strip(b"\t\n\v\f\r ")
    if len(text) not in KEY_BYTES:
        raise ValueError(f"a key of {len(text)} bytes, and not of 8 to 64")
    return text


# the number of each hash in an authentication part
HASH_IDS = {"sha1": 2, "sha256": 3}


class Ring(NamedTuple):
    """The keys of a member. It seals with the first key and this hash, and accepts frames that either key sealed."""

    first: bytes
    old: Optional[bytes] = None
    hash: str = "sha1"

    def keys(self):
        return [self.first] if self.old is None else [self.first, self.old]


def ring_of(key):
    """Returns the ring of a key, which seals with SHA-1. A ring or `None` is returned unchanged."""
    return key if key is None or isinstance(key, Ring) else Ring(key)


def auth_part(key, before, hash_id=2):
    """Returns the authentication part after these bytes: the hash id and 24 bytes of the MAC (SHA-1: 20, and zeros)."""
    code = hmac.digest(key, before, "sha256" if hash_id == 3 else "sha1")
    return numbers(hash_id) + code[:24].ljust(24, b"\0")


def is_sealed(key, signed):
    """Returns whether one of the ring's keys has sealed this frame, with either hash."""
    before, auth = signed[:-AUTH_BYTES], signed[-AUTH_BYTES:]
    return any(auth == auth_part(one, before, hash_id) for one in ring_of(key).keys() for hash_id in HASH_IDS.values())


def sealed(key, letters, body=b"", **fields):
    """Returns the frame of this command, with its MAC if there is a key."""
    ring = ring_of(key)
    if ring is None:
        return frame(letters, body, **fields)
    before = frame(letters, body, bytes(AUTH_BYTES), **fields)[:-AUTH_BYTES]
    return before + auth_part(ring.first, before, HASH_IDS[ring.hash])


def clock_fields(millis=None):
    """Returns the clock fields of a head for a time in milliseconds since 1970, or for now."""
    secs, rest = divmod(time.time_ns() // 1_000_000 if millis is None else millis, 1000)
    return {"secs": secs, "usecs": rest * 1000}


def request_now(letters, request, body=b"", key=None, **fields):
    """Returns the frame of a client's request, with the current time."""
    return sealed(key, letters, body, request=request, **{**clock_fields(), **fields})


def reply_due(letters, request, address, body=b"", key=None, result=0, *, clock, options=0):
    """Returns the answer of the member at this address to a request. `letters` is the request's command; `clock` is a
    head whose time the answer gets.

    `options` is the number of a list's part.
    """
    fields = {"secs": clock.secs, "usecs": clock.usecs, "sender": member_id(address), "options": options}
    return sealed(key, ANSWER_TO[letters], body, request=request, result=result, **fields)
