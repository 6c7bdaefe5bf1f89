"""Checks the times of a configuration, and the units of this machine, for services that follow their ticket.

It is imported by tools/checking.py, and not run by itself. It changes nothing.
"""

import os
import shlex
import subprocess
from typing import Dict, Iterator, List, Optional

import configuration
import services
from configuration import Configuration, Ticket
from problems import NOTICE, WARNING, Problem
from wording import several

# in seconds: after this time systemd restarts a daemon or follower that ended (RestartSec), and each start takes this
# long
RESTART, START = 1, 1
# in seconds: a follower asks its daemon at this interval, and then arms an end within this time
LIST, ARM = 1, 1
# in seconds: how long systemd may take to answer
QUESTION = 3.0
UNIT_PROGRAM = "follow-unit"
# the answers of `systemctl is-enabled` for a unit that the system starts at boot
ENABLED = ("enabled", "enabled-runtime")


def problems(conf: Configuration) -> Iterator[Problem]:
    """Yields the problems of services that follow a ticket: their times, and their units here."""
    units = services.Units().answer(QUESTION)
    followed = followed_here(conf, units)
    yield from restarts(conf, followed)
    for name in followed:
        yield from enabled(name)


def followed_here(conf: Configuration, units: Optional[Dict[str, bool]]) -> List[str]:
    """Returns the tickets that are followed on this machine, or are set up for it."""
    found = set(services.followed(conf, units))
    for ticket in conf.tickets:
        name = ticket.name
        if services.is_file_name(name) and os.path.exists(f"{configuration.FOLDER}/follow/{name}.env"):
            if services.is_of(conf, name) and not ticket.is_manual:
                found.add(name)
    return [ticket.name for ticket in conf.tickets if ticket.name in found]


# ---- times


def restarts(conf: Configuration, followed: List[str]) -> Iterator[Problem]:
    """Yields tickets whose lease or service may end during a restart of daemon or follower."""
    daemon, both = RESTART + START, RESTART + START + LIST + ARM + LIST
    others = []
    for ticket in conf.tickets:
        left = ticket.expire - ticket.renewal
        if ticket.is_manual:
            continue
        if left <= daemon:
            text = f"{ticket.name}: when a renewal starts, the lease has {left:g} s left"
            text += f", but a restart of the daemon takes {daemon} s, and can end the lease"
            yield Problem(WARNING, "restart", text, ticket=ticket.name)
            continue
        room = left - margin_of(ticket)
        if room < both and ticket.name in followed:
            text = f"{ticket.name}: the margin of its service begins {room:g} s after the start of a renewal"
            text += f", but a restart of daemon and follower takes {both} s, and can stop the service"
            yield Problem(WARNING, "restart", text, ticket=ticket.name)
        elif room < both:
            others.append(ticket.name)
    if others:
        text = f"if a service follows {several('ticket', others)}, a restart of daemon and follower can stop it"
        text += f": the restart takes {both} s, more than the time between a renewal and the margin"
        yield Problem(NOTICE, "restart", text)


def margin_of(ticket: Ticket) -> float:
    """Returns a service's margin in seconds: the one of its options, or half of what a lease has at its renewal."""
    margin = (ticket.expire - ticket.renewal) / 2
    words = (services.variable_of(ticket.name, "OPTIONS") or "").split()
    for option, value in zip(words, words[1:]):
        if option == "-m" and configuration.NUMBER.fullmatch(value):
            margin = int(value)
    return margin


# ---- units


def unit_of(ticket: str) -> Optional[str]:
    """Returns the unit that follows the ticket here, or `None` if another program is used."""
    command = services.variable_of(ticket, "PROGRAM")
    if command is None:
        return f"{ticket}.service"
    try:
        program, *words = shlex.split(command)
    except ValueError:
        return None
    return words[0] if os.path.basename(program) == UNIT_PROGRAM and len(words) == 1 else None


def enabled(ticket: str) -> Iterator[Problem]:
    """Yields a problem if the system itself starts the unit at boot, as far as systemd answers."""
    unit = unit_of(ticket)
    if unit is not None and state_of(unit) in ENABLED:
        text = f"{ticket}: {unit} is enabled, so the system starts it at boot, whoever holds the ticket"
        yield Problem(WARNING, "enabled", f"{text}: systemctl disable {unit}", ticket=ticket)


def state_of(unit: str) -> str:
    """Returns systemd's answer about the unit's start at boot, or an empty text."""
    found = services.systemctl()
    if found is None:
        return ""
    streams = {"stdin": subprocess.DEVNULL, "stdout": subprocess.PIPE, "stderr": subprocess.DEVNULL}
    try:
        done = subprocess.run([found, "is-enabled", unit], timeout=QUESTION, check=False, **streams)
    except (OSError, subprocess.TimeoutExpired):
        return ""
    return done.stdout.decode("ascii", "replace").strip()
