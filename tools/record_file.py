"""Reads record files, in the form of docs/RECORDS.md: their slots, and which one is in force.

Version 1 has slots at 0 and at 64. Version 2, which also has the member's promises, has slots at 128 and at 256. It is
imported by booth-record and the tests, and not run by itself. It writes nothing and reads no clock.
"""

import struct
from typing import List, NamedTuple, Optional

# the end of the last slot's record; a shorter file is read as if zeros followed
FILE_BYTES = 336
OPEN = 1
NUMBER_AT, BODY_AT = 8, 16

# the end of a manual ticket's lease in a record, in milliseconds: it stands for no end
NO_END = 2**62

# the flags of version 2
HAS_LEASE, HAS_BOUND, HAS_PROMISE = 1, 2, 4


class Torn(Exception):
    """A valid slot has no record in it; the text is the cause."""


class Layout(NamedTuple):
    """The place of a slot, and the form of its record."""

    place: int
    version: int
    form: struct.Struct


# version, term, flag, the lease's term and end; zeros
FIRST_FORM = struct.Struct(">IIIIQQ")
# version, term, flags, the lease's term and end; the site that the member has voted for; the promise's member, its
# term, zeros and its end; until when the member abstains from elections; zeros
SECOND_FORM = struct.Struct(">IIIIQIIIIQQQ")
LAYOUTS = (
    Layout(0, 1, FIRST_FORM),
    Layout(64, 1, FIRST_FORM),
    Layout(128, 2, SECOND_FORM),
    Layout(256, 2, SECOND_FORM),
)


# a file of version 2 without a lease, a promise or an abstention, whose only slot has the number 1
NOTHING_PLEDGED = bytes(128) + bytes([OPEN]) + bytes(7) + struct.pack(">QI", 1, 2) + bytes(60)


class Lease(NamedTuple):
    """A lease. `until` is in milliseconds since 1970 on the member's clock, as all times here."""

    term: int
    until: int


class Promise(NamedTuple):
    """A promise. `to` is the id of the member that received it."""

    to: int
    term: int
    until: int


class Record(NamedTuple):
    """The record of a ticket. A record of version 1 has no vote and no promise, and `abstain` is 0."""

    version: int
    term: int
    lease: Optional[Lease]
    bound: Optional[int] = None
    promise: Optional[Promise] = None
    abstain: int = 0


class Slot(NamedTuple):
    """A slot of the file. A closed slot is not valid and has no record. `why` is the cause if an open slot is torn."""

    place: int
    version: int
    is_open: bool
    number: int
    record: Optional[Record]
    why: str = ""


def first_record(fields):
    """Returns the record of version 1 with these fields."""
    _, term, flag, lease_term, until, zeros = fields
    if flag not in (0, 1):
        raise Torn(f"its flag is {flag}, neither 0 nor 1")
    if zeros or not flag and (lease_term or until):
        raise Torn("a field that must be 0 is not")
    return Record(1, term, Lease(lease_term, until) if flag else None)


def second_record(fields):
    """Returns the record of version 2 with these fields."""
    _, term, flags, lease_term, lease_until, bound, to, promise_term, zero, promise_until, abstain, zeros = fields
    if flags > HAS_LEASE | HAS_BOUND | HAS_PROMISE:
        raise Torn(f"its flags are {flags}, more than 7")
    parts = {HAS_LEASE: (lease_term, lease_until), HAS_BOUND: (bound,), HAS_PROMISE: (to, promise_term, promise_until)}
    if zero or zeros or any(any(values) for flag, values in parts.items() if not flags & flag):
        raise Torn("a field that must be 0 is not")
    return Record(
        2,
        term,
        Lease(lease_term, lease_until) if flags & HAS_LEASE else None,
        bound if flags & HAS_BOUND else None,
        Promise(to, promise_term, promise_until) if flags & HAS_PROMISE else None,
        abstain,
    )


def slot_at(layout, content):
    """Returns the slot with this layout."""
    is_open = content[layout.place] == OPEN
    number = int.from_bytes(content[layout.place + NUMBER_AT : layout.place + BODY_AT], "big")
    fields = layout.form.unpack_from(content, layout.place + BODY_AT)
    if not is_open:
        return Slot(layout.place, layout.version, False, number, None)
    try:
        if fields[0] != layout.version:
            raise Torn(f"its version is {fields[0]}, and not {layout.version}")
        record = first_record(fields) if layout.version == 1 else second_record(fields)
    except Torn as why:
        return Slot(layout.place, layout.version, True, number, None, str(why))
    return Slot(layout.place, layout.version, True, number, record)


def slots_in(content) -> List[Slot]:
    """Returns the slots of a file with these bytes, in their order."""
    whole = content[:FILE_BYTES].ljust(FILE_BYTES, b"\0")
    return [slot_at(layout, whole) for layout in LAYOUTS]


def in_force(slots):
    """Returns the slot in force, or `None` if the file has no record or is torn."""
    if any(slot.why for slot in slots):
        return None
    # (of slots with equal numbers, max returns the first)
    return max((slot for slot in slots if slot.record), key=lambda slot: slot.number, default=None)
