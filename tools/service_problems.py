"""The services of this machine in the table of booth-status, and their problems.

It is imported by the modules of booth-status, and not run by itself. It asks no other program and reads no clock.
"""

from typing import Iterator, Optional

from configuration import Ticket
from problems import CRITICAL, WARNING, Problem
from service_state import ENDED, FAILED, KILLING, RUNNING, STARTING, STOPPED, STOPPING, State
from services import Here, Service
from wording import count, span

# states that have another name in the table
SHOWN = {RUNNING: "running here"}
NO_FOLLOWER, PAUSED, UNKNOWN = "no follower", "paused", "unknown"
# states in which the service starts or ends
CHANGES = (STARTING, STOPPING, KILLING)
# states in which a part of the service may run
RUNS = (STARTING, RUNNING, STOPPING, KILLING)


def shown(service: Optional[Service]) -> str:
    """Returns the table's entry for a service."""
    if service is None:
        return "-"
    if service.lives is False:
        return NO_FOLLOWER
    if service.state is None:
        return UNKNOWN
    if service.state.is_paused:
        return PAUSED
    return SHOWN.get(service.state.service, service.state.service)


def seconds_to_kill(service: Service) -> Optional[float]:
    """Returns in how many seconds the switch kills the service without a renewal, or `None` if no end is armed."""
    state = service.state
    return None if state is None or not state.kill_at else max(0.0, state.kill_at - service.now)


def problems(here: Here, ticket: Ticket, is_held_here: bool) -> Iterator[Problem]:
    """Yields the problems of a ticket's service. `is_held_here` is whether this site holds the ticket."""
    name = ticket.name
    service = here.services.get(name)
    if service is None:
        return
    if service.why:
        yield Problem(WARNING, "service-unknown", f"{name}: {service.why}", here.site, ticket=name)
    yield from of_follower(here, service, is_held_here)
    if service.state is None:
        return
    state = service.state
    if state.is_paused:
        runs = "runs" if state.service in RUNS else "does not run"
        text = f"{name}: its service is paused here, and {runs}: booth-service resume {name}"
        yield Problem(WARNING, "paused", text, here.site, ticket=name)
    if state.service == FAILED:
        yield Problem(CRITICAL, "service-failed", failed(service), here.site, ticket=name)
    elif is_held_here and not state.is_paused and is_down(state, service.now, ticket):
        yield Problem(CRITICAL, "service-down", down(service), here.site, ticket=name)


def is_down(state: State, now: float, ticket: Ticket) -> bool:
    """Returns whether the service is down: it has ended, or its start or stop takes longer than a lease."""
    return state.service in (STOPPED, ENDED) or state.service in CHANGES and now - state.since > ticket.expire


def down(service: Service) -> str:
    """Returns the message about a service that is down although this site holds the ticket."""
    state, name = service.state, service.ticket
    assert state is not None
    lasts = span(service.now - state.since)
    if state.service == ENDED:
        text = f"{name}: this site holds it, but its service ended by itself, as was seen {lasts} ago"
        return f"{text}: systemctl restart booth-follow@{name} starts it again"
    text = f"{name}: this site holds it, but its service has been {state.service} for {lasts}"
    return text if service.lives is False else f"{text}: journalctl -u booth-follow@{name} has the cause"


def of_follower(here: Here, service: Service, is_held_here: bool) -> Iterator[Problem]:
    """Yields the problem if no follower of the ticket runs."""
    if service.lives is not False:
        return
    name, start = service.ticket, f"systemctl start booth-follow@{service.ticket}"
    if service.state is not None and service.state.service in RUNS:
        left = seconds_to_kill(service)
        killed = "" if left is None else f", and is killed in {span(left)}"
        text = f"{name}: no follower runs, but its service runs here{killed}: {start}"
    elif is_held_here:
        text = f"{name}: this site holds it, but no follower runs: {start}"
    elif service.has_unit:
        # (a unit that is stopped and disabled was disabled on purpose)
        text = f"{name}: no follower runs here, so nothing starts its service if this site gets it: {start}"
        yield Problem(WARNING, "no-follower", text, here.site, ticket=name)
        return
    else:
        return
    yield Problem(CRITICAL, "no-follower", text, here.site, ticket=name)


def failed(service: Service) -> str:
    """Returns the message about a service that failed to start."""
    state, name = service.state, service.ticket
    assert state is not None
    text = f"{name}: its service failed to start here, {count(state.failed_starts, 'time')} in a row"
    if state.failed_until > service.now:
        text += f", and handler-follow refuses the ticket for {span(state.failed_until - service.now)} more"
    return f"{text}: booth-service clear {name}"
