"""Finds the services that follow a ticket of a configuration on this machine: their states, and their followers.

It is imported by booth-status, and not run by itself. tools/service_problems.py judges what it finds.
"""

import contextlib
import ipaddress
import os
import re
import shutil
import socket
import subprocess
from typing import Dict, Iterator, List, NamedTuple, Optional

import configuration
import pacemaker_status
import service_state
from configuration import Configuration, Member, Unreadable
from service_state import State

# the directories with systemctl, in addition to PATH
PLACES = "/usr/bin:/bin:/usr/sbin:/sbin"
UNIT = re.compile(r"booth-follow@(.+)\.service")
# states of a unit whose follower runs, starts or stops
LIVE = ("active", "activating", "reloading", "deactivating")
# the options of booth-follow that have a value
VALUED = ("-c", "-s", "-d", "-e", "-m", "-k")
PROGRAM = "booth-follow"


class Service(NamedTuple):
    """A service on this machine. `now` is the time since the boot, in seconds."""

    ticket: str
    # `None` if the follower has not run in this boot, or if the state cannot be read; `why` then has the cause
    state: Optional[State]
    why: str
    # whether a follower runs, or `None` if that is unknown
    lives: Optional[bool]
    # whether systemd lists a unit of the follower, as it does for an enabled one
    has_unit: bool
    now: float


class Here(NamedTuple):
    """The site of this machine, if it is known, and its services by their tickets."""

    site: Optional[str] = None
    services: Dict[str, Service] = {}
    # the Pacemaker cluster of this machine, if it has leases
    cluster: Optional[pacemaker_status.ClusterSite] = None


def systemctl() -> Optional[str]:
    """Returns the path of systemctl, or `None`."""
    return shutil.which("systemctl", path=f"{os.environ.get('PATH', '')}{os.pathsep}{PLACES}")


class Units:
    """A question to systemd about the followers' units, which runs while the members are asked."""

    def __init__(self) -> None:
        found = systemctl()
        words = "list-units --all --full --plain --no-legend --no-pager booth-follow@*.service".split()
        streams = {"stdin": subprocess.DEVNULL, "stdout": subprocess.PIPE, "stderr": subprocess.DEVNULL}
        self.process: Optional["subprocess.Popen[bytes]"] = None
        self.pacemaker = pacemaker_status.Asked()
        if found is not None:
            with contextlib.suppress(OSError):
                self.process = subprocess.Popen([found, *words], **streams)

    def answer(self, seconds: float) -> Optional[Dict[str, bool]]:
        """Returns whether each ticket's follower runs, after at most `seconds`; `None` if systemd does not answer."""
        if self.process is None:
            return None
        try:
            said, _ = self.process.communicate(timeout=seconds)
        except subprocess.TimeoutExpired:
            self.process.kill()
            self.process.communicate()
            return None
        return units_in(said.decode("ascii", "backslashreplace")) if self.process.returncode == 0 else None


def units_in(text: str) -> Dict[str, bool]:
    """Returns whether each ticket's follower runs, from a list of units."""
    lives = {}
    for line in text.splitlines():
        # (older versions of systemd print a mark before a failed unit)
        fields = [field for field in line.split() if field not in ("*", "●", "\\u25cf")]
        found = UNIT.fullmatch(fields[0]) if len(fields) >= 4 else None
        if found and fields[1] != "not-found":
            # (a unit that waits for its restart has no follower)
            lives[found[1]] = fields[2] in LIVE and not fields[3].startswith("auto-restart")
    return lives


def followers() -> Optional[List[str]]:
    """Returns the tickets of the follower processes here, or `None` if the processes of others are hidden."""
    if not os.path.exists("/proc/1/cmdline"):
        return None
    found = []
    for number in filter(str.isdigit, os.listdir("/proc")):
        with contextlib.suppress(OSError):
            with open(f"/proc/{number}/cmdline", "rb") as file:
                words = file.read(service_state.FILE_BYTES).decode("ascii", "backslashreplace").split("\0")
            if os.path.basename(words[0]) == PROGRAM:
                found += followed_by(words[1:])
    return found


def followed_by(words: List[str]) -> List[str]:
    """Returns the ticket on a command line of booth-follow, in a list, or an empty list."""
    rest = iter(words)
    for word in rest:
        if word in VALUED:
            next(rest, None)
        elif word and not word.startswith("-"):
            return [word]
    return []


def lives_here(ticket: str, units: Optional[Dict[str, bool]], processes: Optional[List[str]]) -> Optional[bool]:
    """Returns whether a follower of the ticket runs, in a unit or without one; `None` if unknown."""
    if units is not None and units.get(ticket):
        return True
    if processes is not None:
        return ticket in processes
    # (processes are hidden, so only systemd can tell)
    return None if units is None else False


def cluster_of(conf: Configuration) -> str:
    """Returns the name of the cluster in the units."""
    return os.path.basename(conf.path).rsplit(".conf", 1)[0]


def variable(name: str, path: str) -> Optional[str]:
    """Returns a variable in a file below `FOLDER`, or `None` if it is missing or the file cannot be read."""
    try:
        return service_state.variable_in(f"{configuration.FOLDER}/{path}.env", name) or None
    except Unreadable:
        return None


def variable_of(ticket: str, name: str) -> Optional[str]:
    """Returns a variable of the unit that follows this ticket."""
    return variable(name, f"follow/{ticket}") if is_file_name(ticket) else None


def is_file_name(ticket: str) -> bool:
    """Returns whether files can have the ticket's name. If not, no service can follow the ticket."""
    return not ticket.startswith(".") and "/" not in ticket


def is_of(conf: Configuration, ticket: str) -> bool:
    """Returns whether the unit that follows this ticket belongs to this configuration's cluster."""
    return (variable_of(ticket, "CLUSTER") or "booth") == cluster_of(conf)


def is_own(address: str) -> bool:
    """Returns whether this machine has the address."""
    family = socket.AF_INET6 if ":" in address else socket.AF_INET
    try:
        with socket.socket(family, socket.SOCK_DGRAM) as own:
            own.bind((address, 0))
    except OSError:
        return False
    return True


def spelled(address: Optional[str]) -> Optional[str]:
    """Returns an address in the spelling of configurations, or `None` if the text is not an address."""
    with contextlib.suppress(ValueError):
        return address and str(ipaddress.ip_address(address))
    return None


def own_site(conf: Configuration, tickets: List[str]) -> Optional[str]:
    """Returns this machine's site: from ADDRESS= of the units, or the only site whose address this machine has."""
    sites = [member.address for member in conf.members if member.role == "site"]
    named = [variable("ADDRESS", cluster_of(conf)), *(variable_of(ticket, "ADDRESS") for ticket in tickets)]
    for found in (set(map(spelled, named)) & set(sites), set(filter(is_own, sites))):
        if len(found) == 1:
            return found.pop()
    return None


class Own(NamedTuple):
    """The member that this machine is: from the file of its unit, or by the machine's addresses."""

    named: Optional[str]
    members: List[Member]

    def member(self) -> Optional[Member]:
        """Returns the member, or `None` if it is not known."""
        return self.members[0] if len(self.members) == 1 else None


def own_member(conf: Configuration) -> Own:
    """Returns which member this machine is."""
    named = spelled(variable("ADDRESS", cluster_of(conf)))
    if named is not None:
        return Own(named, [member for member in conf.members if member.address == named])
    return Own(None, [member for member in conf.members if is_own(member.address)])


def followed(conf: Configuration, units: Optional[Dict[str, bool]]) -> Iterator[str]:
    """Yields the tickets of the configuration that are followed here: those with a state in this boot, or a unit."""
    folder = service_state.folder()
    states = set()
    with contextlib.suppress(OSError):
        states = set(os.listdir(folder))
    for ticket in conf.tickets:
        is_here = f"{ticket.name}.state" in states or ticket.name in (units or {})
        if is_here and not ticket.is_manual and is_file_name(ticket.name) and is_of(conf, ticket.name):
            yield ticket.name


def look(conf: Configuration, asked: Units, seconds: float) -> Here:
    """Returns the services on this machine. Waits at most `seconds` for systemd and for Pacemaker."""
    units = asked.answer(seconds)
    cluster = asked.pacemaker.answer(conf, seconds)
    ruled = cluster.services if cluster else {}
    # (Pacemaker runs these services, so its answer counts)
    tickets = [ticket for ticket in followed(conf, units) if ticket not in ruled]
    if not tickets:
        return Here(cluster.address, {}, cluster) if cluster else Here()
    processes = followers()
    services = {}
    for ticket in tickets:
        state, why = None, ""
        try:
            state = service_state.read(ticket)
        except Unreadable as fault:
            why = str(fault)
        lives = lives_here(ticket, units, processes)
        services[ticket] = Service(ticket, state, why, lives, ticket in (units or {}), service_state.since_boot())
    return Here(cluster and cluster.address or own_site(conf, tickets), services, cluster)
