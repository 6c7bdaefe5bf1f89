"""The table of booth-status: the members, the tickets according to each member, and the problems.

It is imported by booth-status, and not run by itself.
"""

import looking
from judging import counted
from problems import WORDS
from service_problems import shown
from wording import aligned, date, span

STATES = {looking.NO_DAEMON: "no daemon", looking.PARTLY: "in part"}


def members(view):
    """Returns a row for each member: its answer, how long ago each other member heard from it, and what it dropped."""
    numbers = {answer.member.address: str(place) for place, answer in enumerate(view.answers, 1)}
    ages = heard(view)
    hearers = (f"BY {number}" for number in numbers.values())
    rows = [("#", "MEMBER", "", "ANSWER", "CLOCK", *hearers, "DROPPED", "UNSENT")]
    for answer in view.answers:
        address = answer.member.address
        by = ["-" if other == address else ages.get((address, other), "?") for other in numbers]
        names = (numbers[address], answer.member.role, address)
        rows.append((*names, *answered(answer), *by, *dropped(answer, numbers)))
    return aligned(rows)


def heard(view):
    """Returns how long ago each member last heard from each other one, by the addresses of the other one and itself."""
    ages = {}
    for answer in view.answers:
        for peer in answer.counts.peers if answer.counts else ():
            ages[peer.address, answer.member.address] = span(answer.clock - peer.last) if peer.last else "never"
    return ages


def answered(answer):
    """Returns how a member answered, and how far its clock is ahead of this machine's."""
    state = STATES.get(answer.state, answer.state)
    if answer.took is None:
        return state, "?"
    # (+ 0.0 turns -0.0 into 0.0)
    ahead = f"{round(answer.ahead, 1) + 0.0:+.1f} s"
    return f"{answer.took * 1000:.1f} ms" if answer.state == looking.ANSWERS else state, ahead


def dropped(answer, numbers):
    """Returns what a member dropped, and what it could not send; `-` stands for nothing."""
    if answer.counts is None:
        return "?", "?"
    faults = ", ".join(f"{fault} {count}" for fault, count in answer.counts.dropped.items() if count)
    failed = [(peer.errors, numbers.get(peer.address, peer.address)) for peer in answer.counts.peers if peer.errors]
    return faults or "-", ", ".join(f"{errors} to {number}" for errors, number in failed) or "-"


def tickets(view):
    """Returns a row for each ticket, and one more for each different view that members have of it."""
    numbers = {answer.member.address: str(place) for place, answer in enumerate(view.answers, 1)}
    there = [answer.member.address for answer in view.answers if answer.held is not None]
    # (the column of services is left out if no service follows a ticket on this machine)
    services = {name: shown(service) for name, service in view.here.services.items()}
    if view.here.cluster is not None:
        services.update({name: service.shown() for name, service in view.here.cluster.services.items()})
    rows = [("TICKET", "MODE", "HOLDER", "LEFT", "UNTIL (UTC)", "SEEN BY", *(["SERVICE"] if services else []))]
    for ticket_view in view.tickets:
        name, mode = ticket_view.ticket.name, "manual" if ticket_view.ticket.is_manual else "auto"
        service = [services.get(name, shown(None))] if services else []
        if not ticket_view.seen:
            rows.append((name, mode, "?", "-", "-", "none", *service))
        for seen in ticket_view.seen:
            left = "-" if seen.left is None else f"{max(0, seen.left):.0f} s"
            until = date(seen.end) if seen.end else "-"
            by = "all" if sorted(seen.members) == sorted(there) else " ".join(numbers[each] for each in seen.members)
            rows.append((name, mode, seen.owner or "none", left, until, by, *service))
            name, mode, service = "", "", [""] * len(service)
    return aligned(rows)


def table(view):
    """Returns all lines of the table."""
    lines = [f"{view.path} at {date(view.moment)} UTC", "", *members(view), "", *tickets(view), ""]
    if view.problems:
        lines += [*aligned([(WORDS[problem.severity], problem.text) for problem in view.problems]), ""]
    return [*lines, ": ".join(counted(view))]
