"""Sets this machine up as a member of a cluster: the files, the daemon's unit, and the follower of each ticket.

It is imported by booth-setup, and not run by itself.
"""

import glob
import math
import os
import socket
from typing import List, NamedTuple, Optional, Tuple

import key_file
import setup_cluster
from configuration import FOLDER, Configuration
from setup_bundle import Bundle
from setup_steps import Failed, File, Steps, content_of, run

UNITS_FOLDER = "/etc/systemd/system"
RECORDS_FOLDER = "/var/lib/booth"
SHARE = "/usr/share/booth-proved"
JOURNAL = "booth@.service.d/journal.conf"
# the daemon prints a line with the system's message, and then one of its own
LINES_OF_A_CAUSE = 2
# in seconds: how much longer than the silence after a first start an operator waits before a grant
SLACK = 3


class Member(NamedTuple):
    """This machine as a member: the cluster, its parsed configuration, and this machine's address in it."""

    bundle: Bundle
    conf: Configuration
    address: str
    root: str
    keeps_records: bool

    def is_site(self) -> bool:
        """Returns whether this member can hold tickets."""
        return any((member.role, member.address) == ("site", self.address) for member in self.conf.members)

    def daemon(self) -> str:
        """Returns the unit of the daemon."""
        return f"booth@{self.bundle.name}.service"

    def followed(self) -> List[str]:
        """Returns the tickets whose service is a unit that a follower starts and stops here."""
        postgresql = self.bundle.postgresql
        left_out = postgresql.ticket if postgresql else None
        return [name for name in self.bundle.units if self.is_site() and name != left_out]


def fault_of(address: str) -> Optional[str]:
    """Returns the system's message if no program on this machine can listen at an address, or `None`."""
    family = socket.AF_INET6 if ":" in address else socket.AF_INET
    try:
        with socket.socket(family, socket.SOCK_DGRAM) as tried:
            tried.bind((address, 0))
    except OSError as why:
        return why.strerror
    return None


def own_address(conf: Configuration, asked: Optional[str], root: str) -> str:
    """Returns this machine's address as a member: the requested one, or the only member's address that it has."""
    members = [member.address for member in conf.members]
    if asked is not None:
        if asked not in members:
            raise Failed(f"{asked} is not a member: the members are {', '.join(members)}")
        fault = None if root else fault_of(asked)
        if fault is not None:
            raise Failed(f"{asked} is not an address of this machine: {fault}")
        return asked
    here = [] if root else [each for each in members if fault_of(each) is None]
    if len(here) != 1:
        found = f"{' and '.join(here)} are addresses" if here else f"none of {', '.join(members)} is an address"
        raise Failed(f"{found} of this machine: give this member's address with --address")
    return here[0]


def daemons_user(root: str) -> Tuple[int, int]:
    """Returns the numbers of the user and the group that the daemon runs as."""
    path = f"{root}/etc/passwd"
    for line in (content_of(path) or b"").decode(errors="replace").splitlines():
        fields = line.split(":")
        if fields[0] == key_file.DAEMON and len(fields) > 3:
            return int(fields[2]), int(fields[3])
    raise Failed(f"{path} has no user {key_file.DAEMON}: install the package, or run systemd-sysusers booth.conf")


def files_of(member: Member) -> List[File]:
    """Returns the files of a member, in the order in which they are written."""
    bundle, root = member.bundle, member.root
    files = [
        File(setup_cluster.conf_path(bundle.name), bundle.text.encode()),
        File(setup_cluster.key_path(bundle.name), bundle.key, 0o600, daemons_user(root)),
        File(f"{FOLDER}/{bundle.name}.env", address_file(member)),
    ]
    if bundle.has_journal and content_of(f"{root}{UNITS_FOLDER}/{JOURNAL}") is None:
        files.append(File(f"{UNITS_FOLDER}/{JOURNAL}", shared("journal.conf")))
    for ticket in member.followed():
        text = environment_of(member, ticket)
        if text:
            files.append(File(f"{FOLDER}/follow/{ticket}.env", text.encode()))
        unit = bundle.units[ticket]
        if unit != f"{ticket}.service":
            drop_in = f"# Written by booth-setup.\n[Unit]\nBefore={unit}\n"
            files.append(File(f"{UNITS_FOLDER}/booth-follow@{ticket}.service.d/unit.conf", drop_in.encode()))
    return files


def address_file(member: Member) -> bytes:
    """Returns the file with the member's address: the units' variable, and the one of booth and geostore.

    A file of an older version lacks the second variable, and stays so.
    """
    there = content_of(f"{member.root}{FOLDER}/{member.bundle.name}.env")
    is_older = there is not None and b"BOOTH_ADDRESS=" not in there
    names = ("ADDRESS",) if is_older else ("ADDRESS", "BOOTH_ADDRESS")
    return "".join(f"{name}={member.address}\n" for name in names).encode()


def environment_of(member: Member, ticket: str) -> str:
    """Returns the variables of a ticket's follower that differ from the defaults in its unit."""
    bundle, unit = member.bundle, member.bundle.units[ticket]
    lines = []
    if bundle.name != setup_cluster.DEFAULT_NAME:
        lines += [f"CLUSTER={bundle.name}\n", f"ADDRESS={member.address}\n"]
    if unit != f"{ticket}.service":
        lines.append(f"PROGRAM={share()}/follow-unit {unit}\n")
    return "".join(lines)


def share() -> str:
    """Returns the directory of the package's programs: this module's directory if it is installed there."""
    here = os.path.dirname(os.path.realpath(__file__))
    return here if os.path.exists(f"{here}/follow-unit") else SHARE


def shared(name: str) -> bytes:
    """Returns the content of a file of the package."""
    here = os.path.dirname(os.path.realpath(__file__))
    places = (f"{here}/{name}", f"{here}/../packaging/{name}")
    found = next((content for content in map(content_of, places) if content is not None), None)
    if found is None:
        raise Failed(f"{here}/{name} is missing: install the package again")
    return found


def refuse(member: Member, files: List[File]) -> None:
    """Raises `Failed` if a step would overwrite a file, or would start with the records of another cluster."""
    others = []
    for file in files:
        there = content_of(member.root + file.path)
        if there is not None and not is_alike(there, file):
            others.append(file.path)
    if others:
        exist, them = ("exists", "it") if len(others) == 1 else ("exist", "them")
        raise Failed(
            f"{', '.join(others)} {exist} already, with other content: move {them} away if nothing needs {them}"
        )
    records = f"{RECORDS_FOLDER}/{member.bundle.name}"
    is_new = content_of(member.root + setup_cluster.conf_path(member.bundle.name)) is None
    if is_new and not member.keeps_records and glob.glob(f"{glob.escape(member.root + records)}/*.rec"):
        raise Failed(
            f"{records} has records of an earlier cluster, with promises that this member must keep: if they are this "
            "cluster's records, add --keep-records; otherwise read RECORDS.md before you move them away"
        )


def is_alike(there: bytes, file: File) -> bool:
    """Returns whether a file has the wanted content. An environment may have additional variables."""
    if file.path.endswith(".env"):
        return set(file.content.splitlines()) <= set(there.splitlines())
    return there == file.content


def set_up(member: Member, steps: Steps) -> None:
    """Sets this machine up. If a step fails, the steps before it are undone."""
    files = files_of(member)
    refuse(member, files)
    try:
        for file in files:
            # (an environment with additional variables stays unchanged)
            if content_of(member.root + file.path) is not None:
                steps.note(f"{file.path} has this content already")
            else:
                steps.write(file)
        start_daemon(member, steps)
        for ticket in member.followed():
            start_follower(member, ticket, steps)
    except BaseException:
        steps.undo()
        if not member.root and not steps.only_shows:
            run("systemctl", "daemon-reload", seconds=60)
        raise


def start_daemon(member: Member, steps: Steps) -> None:
    """Enables and starts the daemon, unless it runs."""
    unit = member.daemon()
    if member.root:
        steps.systemctl("enable", unit, undo=("disable", unit))
        return
    steps.systemctl("daemon-reload")
    if says("is-enabled", unit) == "enabled" and says("is-active", unit) == "active":
        steps.note(f"{unit} is enabled, and runs")
        return
    try:
        steps.systemctl("enable", "--now", unit, undo=("disable", "--now", unit))
    except Failed as why:
        cause = cause_of(unit)
        # (the unit was enabled before the start failed)
        run("systemctl", "disable", "--now", unit, seconds=60)
        raise Failed(f"{why} {cause}(journalctl -u {unit} has more)") from why


def cause_of(unit: str) -> str:
    """Returns the daemon's last lines in the journal, which say why it does not start."""
    told = run("journalctl", "-u", unit, "-b", "-n", "20", "-o", "cat", "-p", "err")
    lines = [line.strip() for line in told.out.splitlines() if line.strip()]
    # (systemd's own lines add nothing; each try of a start prints the same lines of the daemon)
    causes = [line for line in lines if not line.startswith(("Failed to start", "-- "))][-LINES_OF_A_CAUSE:]
    return f"{'; '.join(dict.fromkeys(causes))} " if causes else ""


def start_follower(member: Member, ticket: str, steps: Steps) -> None:
    """Starts the follower of the ticket's unit. If the service runs, the follower is only enabled."""
    unit, follower = member.bundle.units[ticket], f"booth-follow@{ticket}.service"
    if member.root:
        steps.systemctl("enable", follower, undo=("disable", follower))
        return
    if run("systemctl", "cat", unit).status != 0:
        steps.note(f"there is no {unit} here: install it, then run systemctl enable --now {follower}")
        return
    if says("is-enabled", unit).startswith("enabled"):
        steps.note(f"the system must not start {unit} at boot, since its follower starts it:")
        steps.systemctl("disable", unit, undo=("enable", unit))
    if says("is-active", follower) == "active":
        steps.note(f"{follower} runs")
    elif says("is-active", unit) == "active":
        steps.systemctl("enable", follower, undo=("disable", follower))
        steps.note(
            f"{unit} keeps running. Its follower would stop it now, since nobody holds the ticket. At the site that "
            f"gets the ticket, run systemctl start {follower} after the grant, which restarts {unit}. Elsewhere, run "
            "it now."
        )
    else:
        steps.systemctl("enable", "--now", follower, undo=("disable", "--now", follower))


def says(question: str, unit: str) -> str:
    """Returns systemctl's answer about a unit, for example `enabled` or `active`."""
    return run("systemctl", question, unit).out.strip()


def silence(conf: Configuration) -> int:
    """Returns how many seconds after the last member's first start a ticket can be granted."""
    automatic = [ticket for ticket in conf.tickets if not ticket.is_manual]
    return max((math.ceil(ticket.promise()) + SLACK for ticket in automatic), default=SLACK)
