"""Computes when another site may take a ticket over, and which site is next, by the rules in docs/PROTOCOL.md.

It is imported by tools/judging.py, and not run by itself. It asks no other program and reads no clock.
"""

import math
from typing import List, NamedTuple, Optional

from changes import Holding
from configuration import Configuration, Ticket
from looking import Answer
from problems import CRITICAL, WARNING, Problem
from wording import date, span

# in seconds: how late a renewal may be seen, by the rounding of ends and the time on the network
SLACK = 3


class Takeover(NamedTuple):
    """The next takeover of a ticket. After `free_at`, in whole seconds since 1970, no promise prevents it.

    `next` is the first of the other sites that answer, or `None`. `is_due` is true if a renewal did not come in time.
    """

    free_at: int
    next: Optional[str]
    is_due: bool


def places(conf: Configuration, ticket: Ticket) -> List[str]:
    """Returns the sites in the order in which they take the ticket over: by their weight, and then as in the file."""
    weights = dict(enumerate(ticket.weights))
    sites = [(-weights.get(place, 0), place) for place, each in enumerate(conf.members) if each.role == "site"]
    return [conf.members[place].address for _, place in sorted(sites)]


def after(conf: Configuration, ticket: Ticket, held: Holding, answers: List[Answer], is_due: bool) -> Takeover:
    """Returns the takeover after this lease, which has an end."""
    assert held.end is not None
    there = {answer.member.address for answer in answers if answer.held is not None}
    others = (site for site in places(conf, ticket) if site != held.owner and site in there)
    # (a promise lasts as long as a lease, acquire-after and the guard)
    return Takeover(math.ceil(held.end - ticket.expire + ticket.promise()), next(others, None), is_due)


def members_now(answers: List[Answer], moment: float) -> float:
    """Returns the time by the members' clocks at this time of this machine's clock: their lists use their clocks."""
    ahead = sorted(answer.ahead for answer in answers if answer.ahead is not None)
    return moment + ahead[len(ahead) // 2] if ahead else moment


def is_late(ticket: Ticket, left: float) -> bool:
    """Returns whether a renewal is late, if the lease has so many seconds left."""
    tries = ticket.timeout * (2 if ticket.handler is None else ticket.retries + 1)
    return left < ticket.expire - ticket.renewal - tries - SLACK


def told(takeover: Optional[Takeover], now: float) -> str:
    """Returns when the ticket is free and which site is next, as the end of a message; an empty text if unknown."""
    if takeover is None:
        return ""
    when = date(takeover.free_at)
    day, _, clock = when.partition(" ")
    when = clock if clock and date(now).startswith(day) else when
    unless = "" if takeover.is_due else ", unless it renews its lease"
    if takeover.next is None:
        return f": free at {when}, and no other site answers{unless}"
    return f": free at {when}, {takeover.next} is next{unless}"


def is_given_back(held: Holding, now: float) -> bool:
    """Returns whether the holder released the ticket, if nobody holds it now."""
    return held.gave_back or held.end is not None and held.end > now + SLACK


def of_free(name: str, held: Optional[Holding], takeover: Optional[Takeover], now: float) -> Problem:
    """Returns the problem of an automatic ticket that nobody holds. `held` is its last holder."""
    if held is None or held.end is None:
        return Problem(WARNING, "free", f"{name}: nobody holds it", ticket=name)
    text = f"{name}: nobody holds it, and {held.owner} "
    if takeover is None:
        text += "released it"
    elif takeover.free_at > now:
        text += f"held it until {date(held.end)}{told(takeover, now)}"
    else:
        text += f"held it until {date(held.end)}: free for {span(now - takeover.free_at)}, but not taken over"
    return Problem(CRITICAL, "free", text, ticket=name)


def of_late(name: str, owner: str, left: float, takeover: Optional[Takeover], now: float) -> Problem:
    """Returns the problem of a holder that answers, but has not renewed its lease in time."""
    text = f"{name}: its holder {owner} did not renew the lease in time, and holds it for {span(left)} more"
    return Problem(WARNING, "unrenewed", text + told(takeover, now), owner, ticket=name)
