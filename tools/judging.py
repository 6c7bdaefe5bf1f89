"""Judges the answers of the members: who holds each ticket according to each member, and which problems there are.

It is imported by booth-status and the tests, and not run by itself. It asks no other program and reads no clock.
"""

from typing import Dict, List, NamedTuple, Optional, Tuple

import changes
import lists
import looking
import pacemaker_status
import service_problems
import takeovers
import ways
from changes import Holding
from configuration import Configuration, Ticket
from problems import CRITICAL, NOTICE, WARNING, Problem
from services import Here
from takeovers import Takeover
from wording import date, several, span

# in seconds: how far apart two members' ends of one lease may be, by the rounding and the time on the network
SAME_END = 3

# the greatest number of problems in the line of `-b`, which has the worst problems first
MOST_IN_A_LINE = 8
# the kinds of problems that may be brief: they are shown only if a second look finds them too
FLEETING = {"two-owners", "differ", "ends-differ", "free", "unrenewed", "one-way", "no-way"}
FLEETING |= {"service-down", "no-follower", "service-unknown", "unheld", "rule-late", "agent-down", "no-guard"}
# the kinds of problems that a lost datagram may cause
LOST = {looking.SILENT, looking.NO_DAEMON, looking.UNREACHABLE, looking.PARTLY, looking.BAD}
LOST |= {"silent-owner", "no-majority"}


class Seen(NamedTuple):
    """A holder according to some members, with the lease's end, and the seconds left by the first member's clock."""

    owner: Optional[str]
    end: Optional[int]
    left: Optional[float]
    members: List[str]


class TicketView(NamedTuple):
    """The holder of a ticket according to each member that answers: the owner's own view first, no holder last."""

    ticket: Ticket
    seen: List[Seen]

    def owners(self):
        """Returns the members that list themselves as the holder."""
        return [seen.owner for seen in self.seen if seen.owner in seen.members]

    def owner(self):
        """Returns the holder, if all members that name a holder name the same one."""
        named = {seen.owner for seen in self.seen if seen.owner}
        return named.pop() if len(named) == 1 else None

    def holding(self) -> Optional[Holding]:
        """Returns the only holder that members name, with the latest end that they name."""
        owner = self.owner()
        ends = [seen.end for seen in self.seen if seen.owner and seen.end]
        return None if owner is None else Holding(owner, max(ends, default=None))

    def is_free(self) -> bool:
        """Returns whether members list the ticket, and none of them names a holder."""
        return bool(self.seen) and not any(seen.owner for seen in self.seen)


class View(NamedTuple):
    """The result of a look. `moment` is when it ended, in seconds since 1970, and `took` how long it lasted."""

    path: str
    moment: float
    took: float
    answers: List[looking.Answer]
    tickets: List[TicketView]
    changed: dict
    problems: List[Problem]
    # the possible takeover of each ticket, by its name; and the services of this machine
    takeovers: Dict[str, Takeover]
    here: Here
    # the current or last holder of each ticket
    held: Dict[str, Holding]

    def status(self):
        return max((problem.severity for problem in self.problems), default=NOTICE)


def listed(answers: List[looking.Answer]) -> Dict[str, List[Tuple[looking.Answer, lists.Held]]]:
    """Returns each line of the members' lists, with its member's answer, by the name of the ticket."""
    found: Dict[str, List[Tuple[looking.Answer, lists.Held]]] = {}
    for answer in answers:
        for held in answer.held or ():
            found.setdefault(held.ticket, []).append((answer, held))
    return found


def views_of(ticket: Ticket, lines: List[Tuple[looking.Answer, lists.Held]]) -> TicketView:
    """Returns the views of the members on this ticket, from their lines about it."""
    rows = []
    for answer, held in lines:
        left = held.end - answer.clock if held.end else None
        rows.append((held.owner, held.end or None, left, answer.member.address))
    rows.sort(key=lambda row: (row[0] is None, row[0] != row[3]))
    seen = []
    for owner, end, left, address in rows:
        alike = (each for each in seen if each.owner == owner and is_same_end(each.left, left))
        found = next(alike, None)
        if found is None:
            seen.append(Seen(owner, end, left, [address]))
        else:
            found.members.append(address)
    # (views with the same owner are next to each other)
    order = [each.owner for each in seen]
    return TicketView(ticket, sorted(seen, key=lambda each: order.index(each.owner)))


def is_same_end(one, other):
    if one is None or other is None:
        return one is other
    return abs(one - other) <= SAME_END


def judged(configuration, answers, moment, took, before=None, may_be_free=(), here=Here()):
    """Returns the view of these answers. `before` has the results of earlier looks, and `here` the services here."""
    lines = listed(answers)
    tickets = [views_of(ticket, lines.get(ticket.name, [])) for ticket in configuration.tickets]
    changed = changes.since(before, answers)
    now = takeovers.members_now(answers, moment)
    held = held_last(tickets, before, now)
    due = takeovers_of(configuration, tickets, answers, held, now)
    problems = [
        *of_members(configuration, answers),
        *of_files(configuration, answers),
        *of_clocks(configuration, answers),
        *of_changes(configuration, answers, changed, moment),
        *ways.problems(configuration, answers, changed),
    ]
    for view in tickets:
        name = view.ticket.name
        is_held_here = here.site is not None and here.site in (view.owner(), *view.owners())
        problems += of_ticket(view, answers, may_be_free, held.get(name), due.get(name), now)
        problems += service_problems.problems(here, view.ticket, is_held_here)
        if here.cluster is not None:
            left = next((seen.left for seen in view.seen if seen.owner == here.site), None)
            problems += pacemaker_status.of_ticket(here.cluster, view.ticket, is_held_here, left)
    if here.cluster is not None:
        problems += pacemaker_status.of_site(here.cluster)
    problems.sort(key=lambda problem: -problem.severity)
    return View(configuration.path, moment, took, answers, tickets, changed, problems, due, here, held)


def held_last(tickets: List[TicketView], before: Optional[changes.Memory], now: float) -> Dict[str, Holding]:
    """Returns the current or last holder of each ticket, as far as it is known."""
    held = dict(before.held) if before else {}
    for view in tickets:
        name, holding = view.ticket.name, view.holding()
        if holding is not None:
            held[name] = holding
        elif name in held and view.is_free() and takeovers.is_given_back(held[name], now):
            held[name] = held[name]._replace(gave_back=True)
    return held


def takeovers_of(
    configuration: Configuration,
    tickets: List[TicketView],
    answers: List[looking.Answer],
    held: Dict[str, Holding],
    now: float,
) -> Dict[str, Takeover]:
    """Returns the possible takeovers: of tickets whose holder is silent or did not renew, or whose lease is over."""
    silent, due = {answer.member.address for answer in answers if answer.held is None}, {}
    for view in tickets:
        name, holding = view.ticket.name, held.get(view.ticket.name)
        if view.ticket.is_manual or holding is None or holding.end is None or holding.gave_back:
            continue
        is_late = takeovers.is_late(view.ticket, holding.end - now)
        if view.is_free() or view.owner() is not None and (is_late or holding.owner in silent):
            due[name] = takeovers.after(configuration, view.ticket, holding, answers, is_late or view.is_free())
    return due


def confirmed(first, second):
    """Returns the second view, without brief problems that the first view does not have."""
    known = {same_in(problem) for problem in first.problems}
    stays = [each for each in second.problems if each.kind not in FLEETING | LOST or same_in(each) in known]
    return second._replace(problems=stays)


def same_in(problem):
    """Returns the identity of a problem across looks. A member may fail to answer in a different way each time."""
    kind = "lost" if problem.kind in LOST else problem.kind
    return kind, problem.member, problem.other, problem.ticket


def is_fleeting(view):
    """Returns whether the view has problems that a second look must confirm."""
    return any(problem.kind in FLEETING for problem in view.problems)


def of_members(configuration, answers):
    """Yields the members that do not answer, or not correctly."""
    there = [answer for answer in answers if answer.counts or answer.held is not None]
    if 2 * len(there) <= len(answers):
        text = f"only {len(there)} of {len(answers)} members answer, which is no majority"
        yield Problem(CRITICAL, "no-majority", text)
    said = {
        looking.SILENT: lambda answer: f"is silent{heard_by_others(answer, answers)}",
        looking.NO_DAEMON: lambda answer: f"no daemon listens at port {configuration.port}",
        looking.UNREACHABLE: lambda answer: f"cannot be reached: {answer.why}",
        looking.PARTLY: lambda answer: f"answers in part: {answer.why}",
        looking.BAD: lambda answer: f"its answer is not valid: {answer.why}",
    }
    for answer in answers:
        if answer.state in said:
            text = f"{answer.member.address}: {said[answer.state](answer)}"
            yield Problem(WARNING, answer.state, text, answer.member.address)


def heard_by_others(answer, answers):
    """Returns which other member last received something from a silent member, as text."""
    ages = []
    for other in answers:
        for peer in other.counts.peers if other.counts else ():
            if peer.address == answer.member.address and peer.last:
                ages.append((other.clock - peer.last, other.member.address))
    return f"; {min(ages)[1]} heard from it {span(min(ages)[0])} ago" if ages else ""


def of_files(configuration, answers):
    """Yields the members whose list or peers differ from this configuration."""
    names = [ticket.name for ticket in configuration.tickets]
    for answer in answers:
        address, told = answer.member.address, []
        if answer.held is not None and [held.ticket for held in answer.held] != names:
            told.append(difference("ticket", names, [held.ticket for held in answer.held]))
        others = [member for member in configuration.members if member != answer.member]
        if answer.counts and [(peer.role, peer.address) for peer in answer.counts.peers] != others:
            wanted = [" ".join(member) for member in others]
            told.append(difference("member", wanted, [f"{peer.role} {peer.address}" for peer in answer.counts.peers]))
        if told:
            yield Problem(CRITICAL, "other-file", f"{address}: runs another configuration: {'; '.join(told)}", address)


def difference(what, wanted, found):
    """Returns how two lists of names differ, as text."""
    lacks, more = [each for each in wanted if each not in found], [each for each in found if each not in wanted]
    told = [f"it lacks the {several(what, lacks)}"] if lacks else []
    told += [f"it has the additional {several(what, more)}"] if more else []
    return " and ".join(told) or f"its {what}s are in another order"


def of_clocks(configuration, answers):
    """Yields a problem if there is a key, and members drop each other's frames because their clocks differ too much."""
    timed = sorted((answer.ahead, answer.member.address) for answer in answers if answer.ahead is not None)
    if configuration.authfile and timed and timed[-1][0] - timed[0][0] > configuration.skew:
        (behind, slow), (ahead, fast) = timed[0], timed[-1]
        text = f"{slow}: its clock is {span(ahead - behind)} behind the clock of {fast}, more than maxtimeskew"
        yield Problem(WARNING, "clock", text, slow, fast)


def of_changes(configuration, answers, changed, moment):
    """Yields the counters that rose since the last look, and the members that restarted."""
    wait = max(ticket.promise() for ticket in configuration.tickets)
    for answer in answers:
        change, address = changed.get(answer.member.address), answer.member.address
        if change is None:
            continue
        if change.restarted:
            until = date(moment + wait)
            text = f"{address}: restarted since the last look"
            text += f"; without records of version 2 it votes in no election until {until}"
            yield Problem(NOTICE, "restarted", text, address)
        rose = ", ".join(f"{fault} {count}" for fault, count in change.dropped.items() if count)
        if rose:
            text = f"{address}: dropped datagrams since the last look: {rose}"
            yield Problem(WARNING, "dropped", text, address)
        for other, peer in change.peers.items():
            if peer.errors:
                text = f"{address}: could not send {peer.errors} datagrams to {other} since the last look"
                yield Problem(WARNING, "send-errors", text, address, other)


def of_ticket(view, answers, may_be_free, held, takeover, now):
    """Yields the problems of a ticket's holder. `held` is the last holder, and `takeover` the possible takeover."""
    name, owners = view.ticket.name, view.owners()
    silent = {answer.member.address for answer in answers if answer.held is None}
    named = sorted({seen.owner for seen in view.seen if seen.owner})
    if len(owners) > 1:
        yield Problem(CRITICAL, "two-owners", f"{name}: held at {len(owners)} sites: {', '.join(owners)}", ticket=name)
    elif len({seen.owner for seen in view.seen}) > 1:
        told = "; ".join(f"{seen.owner or 'nobody'} according to {', '.join(seen.members)}" for seen in view.seen)
        yield Problem(WARNING, "differ", f"{name}: members name different holders: {told}", ticket=name)
    elif len(view.seen) > 1:
        first, other = view.seen[0], min(view.seen[1:], key=lambda seen: seen.left or 0)
        apart = (first.left or 0) - (other.left or 0)
        how = f"{span(round(abs(apart)))} {'before' if apart > 0 else 'after'} the end at {first.members[0]}"
        text = f"{name}: the end of its lease at {', '.join(other.members)} is {how}"
        yield Problem(WARNING, "ends-differ", text, ticket=name)
    if view.is_free() and not view.ticket.is_manual and name not in may_be_free:
        yield takeovers.of_free(name, held, takeover, now)
    for owner in named:
        if owner in silent:
            text = f"{name}: its holder {owner} does not answer{takeovers.told(takeover, now)}"
            yield Problem(WARNING, "silent-owner", text, owner, ticket=name)
        elif takeover is not None:
            yield takeovers.of_late(name, owner, held.end - now, takeover, now)


def counted(view):
    """Returns the status as a word, and how many members answer and how many tickets are held."""
    word = {NOTICE: "OK", WARNING: "WARNING", CRITICAL: "CRITICAL"}[view.status()]
    there = sum(answer.state == looking.ANSWERS for answer in view.answers)
    held = sum(view_of_one.owner() is not None for view_of_one in view.tickets)
    return word, f"{there} of {len(view.answers)} members answer, {held} of {len(view.tickets)} tickets are held"


def in_one_line(view):
    """Returns the line for a monitor: the status, and the worst problems."""
    word, count = counted(view)
    told = [problem.text for problem in view.problems if problem.severity > NOTICE]
    if len(told) > MOST_IN_A_LINE:
        told[MOST_IN_A_LINE:] = [f"and {len(told) - MOST_IN_A_LINE} more"]
    return f"BOOTH {word}: {'; '.join(told) or count}"
