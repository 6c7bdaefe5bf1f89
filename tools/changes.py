"""Computes which counters rose since the last look, and remembers who held a ticket.

It is imported by the modules of booth-status, and not run by itself.
"""

from typing import Dict, NamedTuple, Optional

from lists import Counts, Peer


class Rise(NamedTuple):
    """By how much the counters of another member rose."""

    received: int
    sent: int
    errors: int


class Change(NamedTuple):
    """How a member's counters changed. The counters of a member that restarted count from 0."""

    restarted: bool
    dropped: Dict[str, int]
    peers: Dict[str, Rise]


class Holding(NamedTuple):
    """The last holder of a ticket, the second in which its lease ends, and whether it released the ticket."""

    owner: str
    end: Optional[int]
    gave_back: bool = False


class Memory(NamedTuple):
    """The results of earlier looks: the counters of members by their addresses, and the holders of tickets."""

    counts: Dict[str, Counts]
    held: Dict[str, Holding]


def counters(peer):
    return peer.received, peer.sent, peer.errors


def rise(before, now):
    return Rise(*(late - early for early, late in zip(counters(before), counters(now))))


def change_of(before, now):
    """Returns how these counters changed."""
    old, new = {peer.address: peer for peer in before.peers}, {peer.address: peer for peer in now.peers}
    pairs = [(count, now.dropped[fault]) for fault, count in before.dropped.items()]
    pairs += [pair for name in old.keys() & new.keys() for pair in zip(counters(old[name]), counters(new[name]))]
    restarted = any(late < early for early, late in pairs)
    if restarted or old.keys() != new.keys():
        old = {name: Peer("", name, 0, 0, 0, 0) for name in new}
    dropped = {fault: count - (0 if restarted else before.dropped[fault]) for fault, count in now.dropped.items()}
    return Change(restarted, dropped, {name: rise(old[name], new[name]) for name in new})


def since(before, answers):
    """Returns how the counters of each member with earlier counters changed, by its address."""
    changed = {}
    for answer in answers:
        address = answer.member.address
        if before and answer.counts and address in before.counts:
            changed[address] = change_of(before.counts[address], answer.counts)
    return changed


def remembered(before: Optional[Memory], answers, held: Dict[str, Holding]) -> Memory:
    """Returns the memory after this look, with these holders. Members that are silent keep their earlier counters."""
    counts, known = before or Memory({}, {})
    new = {answer.member.address: answer.counts for answer in answers if answer.counts}
    return Memory({**counts, **new}, {**known, **held})
