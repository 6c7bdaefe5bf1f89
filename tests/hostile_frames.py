"""Datagrams that a member of a cluster with a key may meet: of every command, whole, repeated, mutated and forged.

It is imported by tests/hostile.py, and not run by itself. An attacker who repeats datagrams of others has only two
kinds with the right MAC: requests of clients, and messages of members from an earlier term. None of these datagrams may
move a ticket.
"""

import random
import time
from typing import NamedTuple, Optional

import frames
import gate
from frames import ANSWER_TO, BODY_OF, FRAME_BYTES, MEMBERS_SAY, NO_ONE, attribute_body, member_id, sealed, ticket_body

OTHER_KEY = b"not-the-key-of-this-cluster"
# in seconds: one time that is further behind than a clock may be, and one that is not
SECONDS_OLD, SECONDS_LATE = 100_000, 100
# (the holder's term is greater than the terms in these messages)
EARLIER_TERMS = (0, 1)
MOST_UDP_BYTES = 65_507
NAMES = [b"name-%d" % number for number in range(80)]
REASONS = [0, *map(frames.code, ("Admn", "Hndl", "Splt", "JAcq"))]


class Foe(NamedTuple):
    """A datagram with its expected effect: the counter that rises, the member for which it counts, or the answer."""

    datagram: bytes
    counter: Optional[int] = None
    member: Optional[str] = None
    answer: Optional[tuple] = None


class Foes:
    """Makes datagrams for the daemon at this station, with this seed."""

    def __init__(self, station, seed):
        self.station = station
        self.chance = random.Random(seed)
        self.seconds = int(time.time())
        self.sites = [address for role, address in station.others if role == "site"]
        self.others = [address for _, address in station.others]

    def made(self, count):
        """Returns this many different datagrams."""
        ways = [self.whole, self.whole, self.forged, self.unsigned, self.old, self.foreign, self.flipped, self.flipped]
        ways += [self.cut, self.longer, self.overwritten]
        commands = [*BODY_OF]
        foes = []
        for number in range(count):
            letters = commands[number % len(commands)]
            way = self.oversized if number % 128 == 127 else self.chance.choice(ways)
            foes.append(self.judged(way(letters)))
        return foes

    def judged(self, datagram):
        """Returns the datagram with its effect by docs/PROTOCOL.md."""
        found = gate.verdict(self.station, datagram, self.seconds)
        if isinstance(found, int):
            return Foe(datagram, counter=found)
        if found.letters in ANSWER_TO:
            return Foe(datagram, answer=(ANSWER_TO[found.letters], found.head.request))
        return Foe(datagram, member=self.station.member(found.head.sender))

    # ---- what a client or a member may have sent

    def clock(self):
        # (a clock may be ahead by any time)
        ahead = self.chance.choice([0, 0, 0, 0, 10**9])
        secs = self.seconds - self.chance.randrange(SECONDS_LATE) + ahead
        return {"secs": secs, "usecs": self.chance.randrange(1000) * 1000}

    def fields(self, letters):
        """Returns the fields of a head, except for the clock, and a body."""
        chance, ticket = self.chance, self.station.tickets[0]
        request = chance.randrange(2**31)
        if letters in MEMBERS_SAY:
            # (an arbitrator cannot be a leader)
            sender = chance.choice(self.sites if letters in gate.LEADERS_ALONE else self.others)
            leader = member_id(sender) if letters in gate.LEADERS_ALONE else chance.choice([NO_ONE, member_id(self.sites[0])])
            body = ticket_body(ticket, leader, chance.choice(EARLIER_TERMS), chance.choice([0, 1, 600, 2**32 - 1]))
            return {"sender": member_id(sender), "options": chance.randrange(6), "reason": chance.choice(REASONS)}, body
        return {"request": request, "options": chance.randrange(8), "sender": 0}, self.client_body(letters)

    def client_body(self, letters):
        chance, ticket = self.chance, self.station.tickets[0]
        kind = BODY_OF[letters]
        if kind == frames.BARE:
            return b""
        if kind == frames.TEXT:
            return b"%s none 0\n" % ticket
        if kind == frames.TICKET:
            # (a client with the key may release the ticket: the key allows this)
            named = b"other" if letters == "CRvk" else ticket
            return ticket_body(named, NO_ONE, 0, 0)
        name = b"" if letters == "ALst" else chance.choice(NAMES)
        value = b"" if letters == "ALst" else b"v" * chance.randrange(20)
        return attribute_body(chance.choice([ticket, ticket, b"other"]), name, value)

    def whole(self, letters):
        """Returns a frame with the right MAC."""
        fields, body = self.fields(letters)
        return sealed(self.station.key, letters, body, **fields, **self.clock())

    # ---- what others make of it

    def forged(self, letters):
        """Returns a frame with another key's MAC, or with the MAC of another frame."""
        if self.chance.random() < 0.5:
            fields, body = self.fields(letters)
            return sealed(OTHER_KEY, letters, body, **fields, **self.clock())
        return self.whole(letters)[: -frames.AUTH_BYTES] + self.whole(letters)[-frames.AUTH_BYTES :]

    def unsigned(self, letters):
        """Returns a frame without a MAC."""
        fields, body = self.fields(letters)
        return frames.frame(letters, body, **fields, **self.clock())

    def old(self, letters):
        """Returns a frame that was sent long ago."""
        fields, body = self.fields(letters)
        return sealed(self.station.key, letters, body, **fields, secs=self.seconds - SECONDS_OLD)

    def foreign(self, letters):
        """Returns a frame with the right MAC whose sender, ticket or leader is not allowed."""
        chance = self.chance
        fields, body = self.fields(letters)
        what = chance.randrange(3)
        if what == 0 or letters not in MEMBERS_SAY:
            fields["sender"] = chance.choice([1, NO_ONE, member_id("10.0.0.1"), member_id(self.station.address)])
        elif what == 1:
            body = frames.field(chance.choice([b"other", b"ticket", b"Ticket-db8"]), 64) + body[64:]
        else:
            body = body[:64] + frames.numbers(chance.choice([0, 7, member_id(self.others[-1])])) + body[68:]
        return sealed(self.station.key, letters, body, **fields, **self.clock())

    def flipped(self, letters):
        """Returns a frame with a flipped bit."""
        made = bytearray(self.whole(letters))
        made[self.chance.randrange(len(made))] ^= 1 << self.chance.randrange(8)
        return bytes(made)

    def cut(self, letters):
        whole = self.whole(letters)
        return whole[: self.chance.randrange(len(whole))]

    def longer(self, letters):
        return self.whole(letters) + bytes(self.chance.choice((1, 4, 28, 76)))

    def overwritten(self, letters):
        """Returns a frame whose end is overwritten with random bytes."""
        whole = self.whole(letters)
        keep = self.chance.randrange(len(whole))
        return whole[:keep] + self.chance.randbytes(len(whole) - keep)

    def oversized(self, letters):
        """Returns a datagram longer than the longest frame; its head may have this length or not."""
        length = MOST_UDP_BYTES if self.chance.random() < 0.02 else FRAME_BYTES + self.chance.randrange(1, 400)
        made = bytearray(self.whole(letters).ljust(length, b"\0"))
        if self.chance.random() < 0.5:
            made[24:28] = frames.numbers(length)
        return bytes(made)
