"""The setup of a site that is a Pacemaker cluster, and its removal.

It is imported by booth-pacemaker, and not run by itself. Each step is printed before it is done.
"""

import contextlib
import os
import pwd
import time
from typing import List, NamedTuple, Optional, Tuple

import configuration
import pacemaker_cib
import pacemaker_margin
import pacemaker_plan
from configuration import Configuration, Ticket, Unreadable
from pacemaker_asking import QUESTION, Ran, ran
from pacemaker_cib import Cib, Times
from pacemaker_plan import AgentWish, Step, Wish

GUARD = "booth-lease-guard.service"
UNITS, RUN = "/etc/systemd/system", "/run/booth-site"
DROP_IN = "booth-pacemaker.conf"
MARK = ".booth-site"
# in seconds: how long a step may take, and a step that stops a service
STEP, STOP = 30.0, 540.0


class Choices(NamedTuple):
    """The arguments of the command line."""

    conf: str
    ticket: str
    resources: Tuple[str, ...]
    margin: Optional[int]
    stop: Optional[int]
    agent: bool
    address: Optional[str]
    records: Optional[str]
    behind: Tuple[str, ...]
    is_shared: bool
    is_local: bool
    dry_run: bool


def say(text: str) -> None:
    """Prints a line about a step."""
    print(text, flush=True)


def cib_now() -> Cib:
    """Returns the cluster's CIB. Raises `Unreadable` if the cluster does not answer."""
    done = ran(QUESTION, "cibadmin", "--query")
    if done.status != 0:
        raise Unreadable(f"cannot read the CIB: cibadmin: {done.why()}")
    try:
        return pacemaker_cib.parsed(done.printed.encode())
    except ValueError as why:
        raise Unreadable(f"cannot read the CIB: {why}") from why


def carry_out(steps: List[Step], dry_run: bool, limit: float = STEP) -> None:
    """Does these steps, or only prints them. Raises `Unreadable` at the first step that fails."""
    for step in steps:
        say(f"{'would ' if dry_run else ''}{step.what}")
        if dry_run:
            say(f"    {' '.join(step.words)}")
            continue
        done = ran(limit, *step.words)
        if done.status != 0:
            raise Unreadable(f"{step.what}: {step.words[0]}: {done.why()}")


class Setup:
    """The setup of one ticket at this site, done from this node."""

    def __init__(self, choices: Choices) -> None:
        self.choices = choices
        path = configuration.path_of(choices.conf)
        self.conf: Configuration = configuration.read(path)
        self.path = os.path.abspath(path)
        self.name = os.path.basename(path).rsplit(".conf", 1)[0]
        self.ticket = self.ticket_of(choices.ticket)
        self.cib = cib_now()

    def ticket_of(self, name: str) -> Ticket:
        """Returns the ticket to set up. Raises `Unreadable` if this ticket cannot be set up."""
        ticket = next((each for each in self.conf.tickets if each.name == name), None)
        if ticket is None:
            raise Unreadable(f"{self.conf.path} has no ticket {name}")
        if ticket.is_manual:
            raise Unreadable(f"ticket {name} is manual, so it has no lease that ends")
        if not pacemaker_cib.TICKET.fullmatch(name):
            raise Unreadable(f"a CIB cannot name the ticket {name}: letters, digits, '.', '-' and '_' are allowed")
        return ticket

    def check_resources(self) -> None:
        """Refuses resources that do not exist, or that a guard cannot end."""
        for name in self.choices.resources:
            element = self.cib.named.get(name)
            if element is None:
                raise Unreadable(f"the cluster has no resource {name}")
            if element.tag == "bundle":
                raise Unreadable(f"a guard cannot end the bundle {name}: run its container with a systemd unit instead")
            for primitive in self.cib.primitives(name):
                if primitive.standard not in ("ocf", "systemd", "service", "lsb"):
                    kind = primitive.standard or "no"
                    raise Unreadable(f"a guard cannot end {primitive.id}: its agent has the standard {kind}")

    def times(self) -> Times:
        """Returns the times of the lease. Raises `Unreadable` if the margin does not fit into it."""
        choices = self.choices
        stop = choices.stop or pacemaker_margin.longest_stop(self.cib, list(choices.resources))
        try:
            need = pacemaker_margin.Need(pacemaker_margin.corosync(), stop)
        except pacemaker_margin.Unknown as why:
            raise Unreadable(str(why)) from why
        times = Times(self.ticket.expire, choices.margin or need.least(), stop)
        fault = pacemaker_margin.fault(self.ticket, times, need)
        if fault:
            raise Unreadable(f"{self.ticket.name}: {fault}")
        say(f"{self.ticket.name}: a margin of {times.margin} s: {need.spelled()}; --stop and --margin change it")
        lasting = pacemaker_margin.lasting(self.ticket, times, need)
        if self.ticket.expire < lasting:
            text = "the service stops for some seconds if the daemon's node dies, even at another node"
            say(f"note: with expire = {self.ticket.expire} {text}; with {lasting} it keeps running")
        return times

    def is_granted(self) -> bool:
        """Returns whether Pacemaker's ticket is granted now."""
        words = ["--ticket", self.ticket.name, "--get-attr", "granted", "--default", "false"]
        return ran(QUESTION, "crm_ticket", *words).printed.strip() == "true"

    def carry_out(self) -> None:
        """Sets the site up."""
        choices = self.choices
        self.check_resources()
        times = self.times()
        granted = self.is_granted()
        # (if the ticket is granted already, the resources keep running for the length of a lease)
        end = pacemaker_cib.end_at(time.time() + times.longest()) if granted else pacemaker_cib.CLOSED
        try:
            changes = pacemaker_plan.steps(self.cib, Wish(self.ticket.name, choices.resources, times, end))
        except ValueError as why:
            raise Unreadable(str(why)) from why
        carry_out(changes, choices.dry_run)
        self.see_to_node()
        self.see_to_agent()

    # ---- this node

    def is_run_by_agent(self) -> bool:
        """Returns whether the daemon runs on this node as a resource."""
        return os.path.exists(f"{RUN}/{self.name}/env")

    def see_to_node(self) -> None:
        """Starts the guard on this node, and has only the agent start daemon and follower."""
        changes = []
        if ran(QUESTION, "systemctl", "is-active", GUARD).status != 0 or not is_enabled(GUARD):
            changes.append(Step("start the guard on this node", ("systemctl", "enable", "--now", GUARD)))
        carry_out(changes, self.choices.dry_run)
        if not self.choices.agent and not pacemaker_plan.agents(self.cib, self.path, self.name):
            return
        units = [f"booth-follow@{self.ticket.name}.service", f"booth@{self.name}.service"]
        for unit in units:
            self.leave_to_agent(unit)

    def leave_to_agent(self, unit: str) -> None:
        """Makes the agent the only program that starts a unit on this node."""
        text = f"# only the resource agent starts this unit\n[Unit]\nConditionPathExists={RUN}/{self.name}/env\n"
        path = f"{UNITS}/{unit}.d/{DROP_IN}"
        runs = ran(QUESTION, "systemctl", "is-active", unit).status == 0 and not self.is_run_by_agent()
        changes = []
        if runs or is_enabled(unit):
            now = ("--now",) if runs else ()
            changes.append(Step(f"disable {unit} here: only the agent starts it", ("systemctl", "disable", *now, unit)))
        carry_out(changes, self.choices.dry_run, STOP)
        if read(path) != text:
            say(f"{'would ' if self.choices.dry_run else ''}write {path}")
            if not self.choices.dry_run:
                os.makedirs(os.path.dirname(path), exist_ok=True)
                with open(path, "w", encoding="ascii") as file:
                    file.write(text)
                carry_out([Step("reload systemd", ("systemctl", "daemon-reload"))], False)

    # ---- the agent

    def see_to_agent(self) -> None:
        """Makes the daemon's resource if it was requested, and adds the ticket to it."""
        known = pacemaker_plan.agents(self.cib, self.path, self.name)
        if not known and not self.choices.agent:
            text = "the daemon is not a resource: --agent makes it one, which moves if its node dies"
            say(f"note: {text}")
            return
        choices = self.choices
        is_local = choices.is_local or bool(known) and pacemaker_plan.is_local(known[0])
        before = pacemaker_plan.parameter(known[0], "tickets").split() if known else []
        tickets = before if self.ticket.name in before else [*before, self.ticket.name]
        if is_local:
            self.see_to_own_records(pacemaker_plan.parameter(known[0], "records") if known else "")
        else:
            self.see_to_records(bool(known))
        if choices.behind:
            missing = [name for name in choices.behind if name not in self.cib.named]
            if missing:
                raise Unreadable(f"the cluster has no resource {missing[0]}")
        wish = AgentWish(self.path, self.name, choices.address, choices.records, choices.behind, is_local)
        carry_out(pacemaker_plan.agent_steps(self.cib, wish, tickets), choices.dry_run)

    def see_to_records(self, is_known: bool) -> None:
        """Marks the directory of the records, if it has no mark. Refuses one that cannot move with the agent."""
        folder = self.choices.records or f"/var/lib/booth/{self.name}"
        if os.path.exists(f"{folder}/{MARK}") or is_known and not self.choices.records:
            return
        if not os.path.isdir(folder):
            raise Unreadable(f"{folder} does not exist: mount the records' storage on this node, and run this again")
        if not self.choices.is_shared and os.stat(folder).st_dev == os.stat("/").st_dev:
            text = f"{folder} is on this node's own disk, and records that do not move with the daemon become stale"
            raise Unreadable(f"{text}: mount storage there that moves with the resource, or add --shared")
        self.mark(folder)

    def see_to_own_records(self, known: str) -> None:
        """Makes and marks this node's own directory of the records, if it has no mark."""
        folder = self.choices.records or known or f"/var/lib/booth/{self.name}"
        if os.path.exists(f"{folder}/{MARK}"):
            return
        if not os.path.isdir(folder):
            say(f"{'would ' if self.choices.dry_run else ''}make {folder}")
            if not self.choices.dry_run:
                os.makedirs(folder, mode=0o700)
        self.mark(folder)

    def mark(self, folder: str) -> None:
        """Marks a directory as that of the records, and gives it to the daemon's user."""
        say(f"{'would ' if self.choices.dry_run else ''}mark {folder} as the place of the records")
        if self.choices.dry_run:
            return
        with open(f"{folder}/{MARK}", "w", encoding="ascii") as file:
            file.write("0 none\n")
        with contextlib.suppress(KeyError):
            user = pwd.getpwnam("booth")
            os.chown(folder, user.pw_uid, user.pw_gid)
            os.chmod(folder, 0o700)


def read(path: str) -> str:
    """Returns the text of a file, or an empty text if it is missing."""
    try:
        with open(path, encoding="utf-8") as file:
            return file.read()
    except FileNotFoundError:
        return ""


def is_enabled(unit: str) -> bool:
    """Returns whether the system starts a unit at boot."""
    done: Ran = ran(QUESTION, "systemctl", "is-enabled", unit)
    return done.printed.strip() in ("enabled", "enabled-runtime")


def remove(conf: str, ticket: str, with_ticket: bool, dry_run: bool) -> None:
    """Undoes the setup of a ticket."""
    path = os.path.abspath(configuration.path_of(conf))
    name = os.path.basename(path).rsplit(".conf", 1)[0]
    cib = cib_now()
    changes = []
    for agent in pacemaker_plan.agents(cib, path, name):
        left = [each for each in pacemaker_plan.parameter(agent, "tickets").split() if each != ticket]
        changes += pacemaker_plan.retold(agent, left)
    changes += pacemaker_plan.removal(cib, ticket, with_ticket)
    if not cib.tickets() - {ticket} and is_enabled(GUARD):
        changes.append(Step("stop the guard on this node", ("systemctl", "disable", "--now", GUARD)))
    carry_out(changes, dry_run)
    drop_in = f"{UNITS}/booth-follow@{ticket}.service.d/{DROP_IN}"
    if os.path.exists(drop_in):
        say(f"{'would ' if dry_run else ''}remove {drop_in}")
        if not dry_run:
            os.unlink(drop_in)
            carry_out([Step("reload systemd", ("systemctl", "daemon-reload"))], False)
    if not with_ticket and pacemaker_plan.found(cib, "rsc_ticket", f"{pacemaker_plan.TICKET}.{ticket}") is not None:
        say(f"note: the resources still depend on Pacemaker's ticket {ticket}, or they would start at each site")
