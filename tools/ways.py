"""Finds broken network paths between two members, from the counters of both.

A takeover needs the paths between a site that holds nothing and the other members. Nobody uses these paths for days:
such a site sends something when it starts, and then only when it acquires a ticket. The module is imported by
tools/judging.py, and not run by itself.
"""

from problems import WARNING, Problem
from wording import span

# the path counts as broken after this many lost messages in a row
LOST_IN_TURN = 3
# in seconds: how much longer than a lease a holder may be silent, because `last` is a whole second
SLACK = 2


class End:
    """The counters of one member about another one."""

    def __init__(self, answer, peer, change, limit):
        self.address = answer.member.address
        self.peer = peer
        self.rise = change.peers.get(peer.address) if change else None
        self.age = answer.clock - peer.last if peer.last else None
        # a holder renews in this time, in seconds, or None if it holds nothing
        self.limit = limit


def limit_of(configuration, answer):
    """Returns the shortest lease that the member holds, or `None`."""
    held = {held.ticket for held in answer.held or () if held.owner == answer.member.address}
    automatic = (ticket for ticket in configuration.tickets if not ticket.is_manual)
    return min((ticket.expire for ticket in automatic if ticket.name in held), default=None)


def what_fails(sender, hearer):
    """Returns since when the hearer has received nothing from the sender, as text, or `None` if the path works."""
    if sender.peer.sent and not hearer.peer.received:
        return "since it started"
    # a holder sends something, and gets answers, at least once in a lease
    limits = [limit for limit in (sender.limit, hearer.limit) if limit is not None]
    if limits and hearer.age is not None and hearer.age > min(limits) + SLACK:
        return f"for {span(hearer.age)}"
    if sender.rise and hearer.rise and sender.rise.sent >= LOST_IN_TURN and not hearer.rise.received:
        return f"{sender.rise.sent} messages since the last look"
    return None


def problems(configuration, answers, changed):
    """Yields each pair of members of which one receives nothing from the other."""
    told = {}
    for answer in answers:
        for peer in answer.counts.peers if answer.counts else ():
            address = answer.member.address
            limit = limit_of(configuration, answer)
            told[address, peer.address] = End(answer, peer, changed.get(address), limit)
    for (one, other), first in told.items():
        second = told.get((other, one))
        if second is None or one > other:
            continue
        there, back = what_fails(first, second), what_fails(second, first)
        if there and back:
            text = f"{one} and {other} receive nothing from each other ({back}; {there})"
            yield Problem(WARNING, "no-way", text, one, other)
        elif there or back:
            deaf, heard, how = (second, first, there) if there else (first, second, back)
            text = f"{deaf.address}: receives nothing from {heard.address} ({how})"
            text += f", which heard from it {span(heard.age or 0)} ago"
            yield Problem(WARNING, "one-way", text, deaf.address, heard.address)
