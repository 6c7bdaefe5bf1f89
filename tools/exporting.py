"""The output of booth-status for programs: a JSON document, and metrics for Prometheus.

booth-status(8) specifies both forms. It is imported by booth-status, and not run by itself.
"""

import json
from types import MappingProxyType
from typing import Any, Dict, Iterable, Iterator, List, Mapping, Optional, Tuple

import looking
from judging import TicketView, View, listed
from lists import Held
from pacemaker_status import ClusterService
from problems import NOTICE, WORDS
from service_problems import seconds_to_kill, shown
from service_state import RUNNING
from services import Service
from takeovers import Takeover

# the version of the document: a new field does not change it, any other change raises it
VERSION = 1


def seconds(number):
    """Returns a number of seconds, rounded to milliseconds."""
    # (+ 0.0 turns -0.0 into 0.0)
    return None if number is None else round(number, 3) + 0.0


def of_member(answer, changed):
    """Returns a member with its counters and its list."""
    change = changed.get(answer.member.address)
    return {
        "role": answer.member.role,
        "address": answer.member.address,
        "answer": answer.state,
        "why": answer.why or None,
        "seconds_to_answer": seconds(answer.took),
        "clock_ahead_seconds": seconds(answer.ahead),
        "started_anew": change.restarted if change else None,
        "dropped": answer.counts.dropped if answer.counts else None,
        "dropped_more": change.dropped if change else None,
        "peers": [of_peer(answer, peer, change) for peer in answer.counts.peers] if answer.counts else None,
        "tickets": [of_held(answer, held) for held in answer.held] if answer.held is not None else None,
    }


def of_peer(answer, peer, change):
    rise = change.peers.get(peer.address) if change else None
    return {
        **peer._asdict(),
        "last": peer.last or None,
        "last_seconds_ago": seconds(answer.clock - peer.last) if peer.last else None,
        "more": rise._asdict() if rise else None,
    }


def of_held(answer, held):
    left = seconds(max(0, held.end - answer.clock)) if held.end else None
    return {"name": held.ticket, "owner": held.owner, "until": held.end or None, "seconds_left": left}


def of_service(service: Optional[Service]) -> Optional[Dict[str, Any]]:
    """Returns the service of a ticket on this machine, or `None` if no service follows it here."""
    if service is None:
        return None
    told = {"shown": shown(service), "follower": service.lives, "why": service.why or None}
    state = service.state
    return {
        **told,
        "state": state and state.service,
        "seconds": state and seconds(service.now - state.since),
        "paused": state and state.is_paused,
        "failed_starts": state and state.failed_starts,
        "until": (state.ends or None) if state else None,
        "seconds_to_kill": seconds(seconds_to_kill(service)),
    }


def of_cluster(service: Optional[ClusterService]) -> Optional[Dict[str, Any]]:
    """Returns the service of a ticket that this site's Pacemaker runs, or `None`."""
    if service is None:
        return None
    told = {"shown": service.shown(), "nodes": service.nodes, "whole": service.is_whole, "granted": service.granted}
    return {**told, "standby": service.standby, "seconds_to_end": seconds(service.left)}


def of_takeover(takeover: Optional[Takeover]) -> Optional[Dict[str, Any]]:
    """Returns the possible takeover of a ticket, or `None`."""
    return takeover and {"free_at": takeover.free_at, "next": takeover.next, "due": takeover.is_due}


def of_ticket(view, whole):
    seen = []
    for each in view.seen:
        left = None if each.left is None else seconds(max(0, each.left))
        seen.append({"owner": each.owner, "until": each.end, "seconds_left": left, "members": each.members})
    name, mode = view.ticket.name, "manual" if view.ticket.is_manual else "auto"
    told = {"name": name, "mode": mode, "owner": view.owner(), "owners": view.owners(), "seen": seen}
    told["takeover"] = of_takeover(whole.takeovers.get(name))
    told["service"] = of_service(whole.here.services.get(name))
    cluster = whole.here.cluster.services.get(name) if whole.here.cluster else None
    return {**told, "cluster": of_cluster(cluster)}


def of_problem(problem):
    return {**problem._asdict(), "severity": WORDS[problem.severity]}


def document(view: View, line: str, more: Mapping[str, Any] = MappingProxyType({})) -> str:
    """Returns the whole view as one line of JSON. `more` has further fields."""
    told = {
        "version": VERSION,
        "configuration": view.path,
        "time": seconds(view.moment),
        "seconds": seconds(view.took),
        "status": view.status(),
        "summary": line,
        "members": [of_member(answer, view.changed) for answer in view.answers],
        "site": view.here.site,
        "tickets": [of_ticket(ticket, view) for ticket in view.tickets],
        "problems": [of_problem(problem) for problem in view.problems],
        **more,
    }
    return json.dumps(told)


# ---- metrics

HELP = {
    "booth_status": ("gauge", "0 if all is well, 1 with a warning, 2 if something is critical"),
    "booth_look_time_seconds": ("gauge", "When the look ended, in seconds since 1970"),
    "booth_look_seconds": ("gauge", "How long the look took"),
    "booth_problems": ("gauge", "How many problems there are of a severity"),
    "booth_member_up": ("gauge", "1 if the member answers for its tickets and its peers"),
    "booth_member_clock_ahead_seconds": ("gauge", "How far the member's clock is ahead of this machine's"),
    "booth_member_answer_seconds": ("gauge", "How long the member took to answer"),
    "booth_member_dropped_total": ("counter", "Datagrams that the member dropped, by their fault"),
    "booth_peer_received_total": ("counter", "Messages of another member that the member accepted"),
    "booth_peer_sent_total": ("counter", "Messages that the member sent to another one"),
    "booth_peer_errors_total": ("counter", "Messages that the member could not send to another one"),
    "booth_peer_last_seconds_ago": ("gauge", "How long ago the member last heard from another one"),
    "booth_ticket_held": ("gauge", "1 if the members that answer name one holder of the ticket"),
    "booth_ticket_owners": ("gauge", "How many sites hold the ticket by their own lists"),
    "booth_ticket_views": ("gauge", "How many different views of the ticket the members that answer have"),
    "booth_ticket_holder": ("gauge", "1 for the holder according to a member"),
    "booth_ticket_left_seconds": ("gauge", "How long the lease still runs according to a member"),
    "booth_ticket_takeover_seconds": ("gauge", "In how long another site may take over if it is not renewed"),
    "booth_ticket_problem": ("gauge", "1 for a warning about the ticket, 2 if it is critical, by the kind of problem"),
    "booth_member_problem": ("gauge", "1 for a warning about the member, 2 if it is critical, by the kind of problem"),
    "booth_follower_up": ("gauge", "1 if a follower of the ticket runs on this machine"),
    "booth_service_running": ("gauge", "1 if the service of the ticket runs on this machine"),
    "booth_service_state": ("gauge", "1 for the state of the ticket's service on this machine"),
    "booth_service_state_seconds": ("gauge", "For how long the service has been in that state"),
    "booth_service_paused": ("gauge", "1 if the service is paused on this machine"),
    "booth_service_failed_starts": ("gauge", "How many starts of the service in a row have failed on this machine"),
    "booth_service_kill_seconds": ("gauge", "In how long the service is killed, unless the lease is renewed"),
    "booth_records_unwritten": ("gauge", "How many files the daemon here could not write when it last tried"),
    "booth_console_looks_total": ("counter", "How many times the console looked at the members"),
    "booth_console_requests_total": ("counter", "HTTP requests that the console answered, by their status"),
}


def quoted(value):
    return '"' + value.replace("\\", "\\\\").replace('"', '\\"').replace("\n", "\\n") + '"'


def sample(name, value, **labels):
    """Returns a metric's name and its line."""
    shown = ",".join(f"{label}={quoted(text)}" for label, text in labels.items())
    return name, f"{name}{{{shown}}} {value}" if shown else f"{name} {value}"


def samples_of_member(answer):
    member = answer.member.address
    yield sample("booth_member_up", int(answer.state == looking.ANSWERS), member=member, role=answer.member.role)
    if answer.took is not None:
        yield sample("booth_member_clock_ahead_seconds", seconds(answer.ahead), member=member)
        yield sample("booth_member_answer_seconds", round(answer.took, 6), member=member)
    if answer.counts is None:
        return
    for fault, count in answer.counts.dropped.items():
        yield sample("booth_member_dropped_total", count, member=member, fault=fault)
    for peer in answer.counts.peers:
        labels = {"member": member, "peer": peer.address}
        yield sample("booth_peer_received_total", peer.received, **labels)
        yield sample("booth_peer_sent_total", peer.sent, **labels)
        yield sample("booth_peer_errors_total", peer.errors, **labels)
        if peer.last:
            yield sample("booth_peer_last_seconds_ago", seconds(answer.clock - peer.last), **labels)


def samples_of_ticket(view: TicketView, lines: List[Tuple[looking.Answer, Held]]) -> Iterator[Tuple[str, str]]:
    """Yields the samples of a ticket, from the members' lines about it."""
    name = view.ticket.name
    yield sample("booth_ticket_held", int(view.owner() is not None), ticket=name)
    yield sample("booth_ticket_owners", len(view.owners()), ticket=name)
    yield sample("booth_ticket_views", len(view.seen), ticket=name)
    for answer, held in lines:
        if held.owner:
            labels = {"ticket": name, "member": answer.member.address, "holder": held.owner}
            yield sample("booth_ticket_holder", 1, **labels)
            if held.end:
                yield sample("booth_ticket_left_seconds", seconds(max(0, held.end - answer.clock)), **labels)


def samples_of_service(service: Service) -> Iterator[Tuple[str, str]]:
    """Yields the samples of one service of this machine."""
    name, state = service.ticket, service.state
    if service.lives is not None:
        yield sample("booth_follower_up", int(service.lives), ticket=name)
    if state is None:
        return
    yield sample("booth_service_running", int(state.service == RUNNING), ticket=name)
    yield sample("booth_service_state", 1, ticket=name, state=state.service)
    yield sample("booth_service_state_seconds", seconds(service.now - state.since), ticket=name)
    yield sample("booth_service_paused", int(state.is_paused), ticket=name)
    yield sample("booth_service_failed_starts", state.failed_starts, ticket=name)
    left = seconds_to_kill(service)
    if left is not None:
        yield sample("booth_service_kill_seconds", seconds(left), ticket=name)


def samples_of_problems(view: View) -> Iterator[Tuple[str, str]]:
    """Yields the problems of tickets, and those of members alone, the worst one of each kind."""
    worst: Dict[Tuple[str, str, str], int] = {}
    for problem in view.problems:
        about, name = ("ticket", problem.ticket) if problem.ticket is not None else ("member", problem.member)
        if name is not None and problem.severity > NOTICE:
            key = about, name, problem.kind
            worst[key] = max(problem.severity, worst.get(key, NOTICE))
    for (about, name, kind), severity in worst.items():
        yield sample(f"booth_{about}_problem", severity, **{about: name, "kind": kind})


def metrics(view: View, more: Iterable[Tuple[str, str]] = ()) -> str:
    """Returns the text for Prometheus, in which the lines of each metric are together. `more` has further samples."""
    samples = [
        sample("booth_status", view.status()),
        sample("booth_look_time_seconds", seconds(view.moment)),
        sample("booth_look_seconds", seconds(view.took)),
    ]
    for severity, word in WORDS.items():
        count = sum(problem.severity == severity for problem in view.problems)
        samples.append(sample("booth_problems", count, severity=word))
    samples += [each for answer in view.answers for each in samples_of_member(answer)]
    lines = listed(view.answers)
    for ticket in view.tickets:
        samples += samples_of_ticket(ticket, lines.get(ticket.ticket.name, []))
    for name, takeover in view.takeovers.items():
        left = seconds(max(0, takeover.free_at - view.moment))
        samples.append(sample("booth_ticket_takeover_seconds", left, ticket=name))
    samples += samples_of_problems(view)
    samples += [each for service in view.here.services.values() for each in samples_of_service(service)]
    return printed([*samples, *more])


def printed(samples: Iterable[Tuple[str, str]]) -> str:
    """Returns the text of these samples."""
    by_name: Dict[str, Dict[str, str]] = {}
    for name, line in samples:
        # (a member may list a ticket or a peer twice, but Prometheus refuses a text with the same labels twice)
        by_name.setdefault(name, {}).setdefault(line.rpartition(" ")[0], line)
    lines: List[str] = []
    for name, (kind, what) in HELP.items():
        found = by_name.get(name)
        lines += [f"# HELP {name} {what}", f"# TYPE {name} {kind}", *found.values()] if found else []
    return "\n".join(lines) + "\n"
