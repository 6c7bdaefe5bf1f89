"""The cluster that `booth-setup init` makes: its configuration, which boothd checks, and its key.

It is imported by booth-setup, and not run by itself.
"""

import ipaddress
import os
import re
import tempfile
from typing import Dict, List, NamedTuple, Optional, Sequence, Tuple

import checking
import configuration
import frames
from problems import CRITICAL, WARNING
from setup_bundle import Bundle, Postgresql
from setup_steps import Failed, content_of

# a name that can be the name of a file, of a unit's instance and of a ticket
NAME = re.compile(r"[A-Za-z0-9_][A-Za-z0-9:_.-]{0,62}")
UNIT = re.compile(r"[A-Za-z0-9_][A-Za-z0-9:_.@\\-]*\.[a-z]+")
DEFAULT_NAME = "booth"
KEY_BYTES = 64
# the order of the keys in the file
TIMES = ("expire", "acquire-after", "timeout", "retries", "renewal-freq")
# the times of the example two-sites.conf; the default of renewal-freq is half of expire
DEFAULT_TIMES = {"expire": 60, "acquire-after": 30, "timeout": 3, "retries": 3}
FEWEST_SITES = 2
# the handler that refuses the ticket while the service fails to start at this site, so that another site takes it over
HANDLER = "/usr/share/booth-proved/handler-follow"


class Wishes(NamedTuple):
    """The arguments of `init`."""

    name: str
    sites: Sequence[str]
    arbitrators: Sequence[str]
    tickets: Sequence[str]
    times: Dict[str, int]
    port: int
    has_journal: bool
    hands_over: bool
    postgresql: Optional[str]
    postgresql_options: Tuple[str, ...]


def bundle_of(wishes: Wishes, root: str) -> Bundle:
    """Returns the requested cluster, with the key that exists already or a new one."""
    if not NAME.fullmatch(wishes.name):
        raise Failed(f"{wishes.name!r} cannot be the name of a cluster: allowed are letters, digits, '_-.:', 63 bytes")
    if len(wishes.sites) < FEWEST_SITES:
        raise Failed(f"a ticket needs at least two sites: give each with --site ({len(wishes.sites)} found)")
    if not wishes.tickets:
        raise Failed("a cluster needs a ticket: give it with --ticket")
    units = units_of(wishes.tickets)
    key = key_of(root + key_path(wishes.name))
    bundle = Bundle(wishes.name, text_of(wishes, list(units)), key, units, wishes.has_journal)
    return bundle._replace(postgresql=postgresql_of(wishes, units))


def units_of(tickets: Sequence[str]) -> Dict[str, str]:
    """Returns the unit of each ticket, from texts of the form `TICKET` or `TICKET=UNIT`."""
    units: Dict[str, str] = {}
    for each in tickets:
        ticket, named, unit = each.partition("=")
        if not NAME.fullmatch(ticket):
            raise Failed(f"--ticket {each}: a name has letters, digits, '_', '-', '.' and ':', and at most 63 bytes")
        if ticket in units:
            raise Failed(f"--ticket {ticket} is named twice")
        if named and not UNIT.fullmatch(unit):
            raise Failed(f"--ticket {each}: {unit!r} is not the name of a systemd unit, such as db8.service")
        units[ticket] = unit if named else f"{ticket}.service"
    return units


def postgresql_of(wishes: Wishes, units: Dict[str, str]) -> Optional[Postgresql]:
    """Returns the PostgreSQL server under a ticket, from a text of the form `SERVER` or `TICKET=SERVER`."""
    if wishes.postgresql is None:
        return None
    if wishes.name != DEFAULT_NAME:
        raise Failed(f"--postgresql works only for the cluster {DEFAULT_NAME}, and this one is {wishes.name}")
    ticket, named, server = wishes.postgresql.partition("=")
    if not named:
        ticket, server = next(iter(units)), wishes.postgresql
        if len(units) > 1:
            raise Failed(f"--postgresql {server}: give the ticket too, for example {ticket}={server}")
    if ticket not in units:
        raise Failed(f"--postgresql {wishes.postgresql}: there is no --ticket {ticket}")
    if not server:
        raise Failed(f"--postgresql {wishes.postgresql}: names no server")
    return Postgresql(ticket, server, wishes.postgresql_options)


def address_of(option: str, text: str) -> str:
    """Returns an address in its usual form."""
    try:
        # (an address must not have a zone)
        return str(ipaddress.ip_address(text.replace("%", " ")))
    except ValueError as why:
        raise Failed(f"{option} {text}: is not an IP address, such as 192.0.2.10 (names are not resolved)") from why


def text_of(wishes: Wishes, tickets: Sequence[str]) -> str:
    """Returns the configuration."""
    members = [("site", each) for each in wishes.sites] + [("arbitrator", each) for each in wishes.arbitrators]
    lines = [
        "# Written by booth-setup init. All members must have the same file.",
        f"authfile   = {key_path(wishes.name)}",
        "authhash   = sha256",
    ]
    if wishes.port != frames.PORT:
        lines.append(f"port       = {wishes.port}")
    lines += [f'{role:10} = "{address_of(f"--{role}", address)}"' for role, address in members]
    times = {**DEFAULT_TIMES, **wishes.times}
    for ticket in tickets:
        lines += ["", f'ticket = "{ticket}"']
        lines += [f"  {key:13} = {times[key]}" for key in TIMES if key in times]
        lines.append(f"  {'steady':13} = yes")
        if wishes.hands_over:
            lines.append(f"  before-acquire-handler = {HANDLER}")
    return "\n".join(lines) + "\n"


def conf_path(name: str) -> str:
    """Returns the path of a cluster's configuration."""
    return f"{configuration.FOLDER}/{name}.conf"


def key_path(name: str) -> str:
    """Returns the path of a cluster's key."""
    return f"{configuration.FOLDER}/authkey" if name == DEFAULT_NAME else f"{configuration.FOLDER}/{name}.authkey"


def key_of(path: str) -> bytes:
    """Returns the key in a file if the file exists, or a new key."""
    there = content_of(path)
    if there is None:
        return os.urandom(KEY_BYTES)
    try:
        frames.key_in(there)
    except ValueError as why:
        raise Failed(f"{path}: has {why}") from why
    return there


def check(bundle: Bundle) -> Tuple[configuration.Configuration, List[str]]:
    """Returns the configuration of a bundle, and warnings about it. Raises `Failed` if the configuration is refused."""
    path = conf_path(bundle.name)
    with tempfile.TemporaryDirectory(prefix="booth-setup-") as folder:
        tried = f"{folder}/{os.path.basename(path)}"
        with open(tried, "w", encoding="utf-8") as file:
            file.write(bundle.text)
        found = list(checking.verdict(tried, bundle.text.encode()))
        try:
            conf = configuration.read(tried)._replace(path=path)
        except configuration.Unreadable as why:
            raise Failed(str(why).replace(tried, path)) from why
        found += [*checking.defaults(conf), *checking.families(conf), *checking.times(conf, checking.SYNC_MILLIS)]
    bad = [problem.text.replace(tried, path) for problem in found if problem.severity == CRITICAL]
    if bad:
        raise Failed("; ".join(bad))
    return conf, [problem.text for problem in found if problem.severity == WARNING]
