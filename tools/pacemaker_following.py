"""The actions of follow-pacemaker, booth-follow's program at a site that is a Pacemaker cluster.

It is imported by follow-pacemaker, and not run by itself. The cluster has a rule for each ticket: Pacemaker itself
stops the ticket's resources at the rule's end. This module sets the end before it grants Pacemaker's ticket, and at
each renewal. It closes the end when it revokes the ticket.
"""

import calendar
import contextlib
import os
import re
import sys
import time
from typing import List, Tuple

import lease_holding
import pacemaker_asking
import pacemaker_cib
import pacemaker_clocks
from pacemaker_asking import Ran, ran
from pacemaker_cib import CLOSED, Lease

USAGE = "usage: follow-pacemaker check|renew KILL_MS|start|stop|kill, or clock RECORDS, adopt CONF RECORDS"
DONE, FAILED, BAD_WORDS, NOT_RUNNING = 0, 1, 2, 3
# in seconds: how long a change at a renewal may take; each other change; a stop if no end is armed; a kill; the least
# time for a stop or a kill; and the pause between two looks at the cluster
RENEW_LIMIT, CHANGE_LIMIT, STOP_SECONDS, KILL_SECONDS, LEAST, PAUSE = 2.0, 5.0, 300.0, 25.0, 3.0, 0.4
# in seconds: how long the daemon may take to list its tickets, and how much longer than the margin an adopted lease
# must last
LIST_LIMIT, ENOUGH = 2.0, 3.0
# in seconds: how long a new follower waits for a renewal by its daemon if the end of the rule has passed
RENEWED = 4.0
# in seconds: how much longer than it is a lease may look in a list, which has whole seconds
ROUNDED = 2.0
CLOCK_BYTES, BOOT_ID = 60, "/proc/sys/kernel/random/boot_id"
LISTED = re.compile(r"ticket: ([^,]+), leader: ([^,]+)(?:, expires: (\S+ \S+))?.*")


class Failed(Exception):
    """A failure. The exit status reports it to booth-follow, and the text is logged."""


def say(priority: int, ticket: str, text: str) -> None:
    """Prints a line, for the journal with its priority."""
    mark = f"<{priority}>" if "JOURNAL_STREAM" in os.environ else ""
    with contextlib.suppress(OSError):
        print(f"{mark}follow-pacemaker: {ticket}: {text}", file=sys.stderr, flush=True)


def end_path(ticket: str) -> str:
    """Returns the path of the file from which a new follower reads the armed end."""
    return os.environ.get("BOOTH_FOLLOW_END") or f"/run/booth-follow/{ticket}.end"


class Site:
    """The ticket at this site, and the directory of its daemon's records, if that is known."""

    def __init__(self, ticket: str, left: float, cib: str, records: str = "") -> None:
        self.ticket, self.cib, self.records = ticket, cib, records
        # the armed end, in seconds since the boot; 0 if there is none
        self.until = time.clock_gettime(time.CLOCK_BOOTTIME) - pacemaker_asking.elapsed() + left if left > 0 else 0.0

    def left(self) -> float:
        """Returns the seconds that are left until the armed end."""
        return self.until - time.clock_gettime(time.CLOCK_BOOTTIME) if self.until else 0.0

    # ---- the rule

    def found(self) -> List[Lease]:
        """Returns the leases of this ticket in this node's CIB file. Only a setup changes which leases there are."""
        try:
            with open(self.cib, "rb") as file:
                leases = pacemaker_cib.parsed(file.read()).leases()
        except (OSError, ValueError) as why:
            raise Failed(f"cannot read {self.cib}: {why}") from why
        return [lease for lease in leases if lease.ticket == self.ticket]

    def leases(self) -> List[Lease]:
        """Returns the leases of this ticket. Raises `Failed` if there is none."""
        mine = self.found()
        if not mine:
            raise Failed(f"the CIB has no rule for its lease: run booth-pacemaker setup {self.ticket} RESOURCE..")
        return mine

    def set_end(self, lease: Lease, end: str, limit: float) -> Ran:
        """Sets the end of a lease's rule."""
        name = lease.end_id()
        words = ["--xpath", f"//date_expression[@id='{name}']"]
        return ran(limit, "cibadmin", "--modify", *words, "--xml-text", f'<date_expression id="{name}" start="{end}"/>')

    def end_of(self, lease: Lease) -> float:
        """Returns the current end of a lease's rule in the cluster, in seconds since 1970."""
        done = ran(CHANGE_LIMIT, "cibadmin", "--query", "--xpath", f"//date_expression[@id='{lease.end_id()}']")
        if done.status != 0:
            raise Failed(f"cannot read the end of its rule: {done.why()}")
        found = re.search(r'\bstart="([^"]*)"', done.printed)
        try:
            return pacemaker_cib.seconds_of(found[1] if found else "")
        except ValueError as why:
            raise Failed(f"the end of its rule is not a date: {done.printed.strip()}") from why

    # ---- the words

    def renew(self) -> None:
        """Sets the end. Computes it from the time that is left and the wall clock, which Pacemaker's rule reads."""
        leases = self.leases()
        for lease in leases:
            self.see_to_length(lease)
        if self.records:
            # (before the end is set: a crash between the two leaves a clock that seems farther ahead, never less)
            pacemaker_clocks.note(self.records, daemon_clock(self.records) - time.time())
        for lease in leases:
            left = min(self.left() - lease.times.margin, float(lease.times.longest()))
            done = self.set_end(lease, pacemaker_cib.end_at(time.time() + left), RENEW_LIMIT)
            if done.status != 0:
                raise Failed(f"cannot set the new end, so the last one stays in force: cibadmin: {done.why()}")

    def see_to_length(self, lease: Lease) -> None:
        """Refuses a lease that is shorter than its margin, or longer than a lease can be."""
        left, times = self.left(), lease.times
        if left - times.margin < 1:
            raise Failed(f"sets no end: the lease has only {left:.1f} s left, and its margin is {times.margin} s")
        if left > times.expire + ROUNDED:
            raise Failed(
                f"sets no end: the daemon lists a lease of {left:.1f} s, but the ticket was set up with an expire of "
                f"{times.expire} s. Either the daemon's clock is behind the clock of its records, until the daemon has "
                f"renewed the lease. Or expire was raised: then run booth-pacemaker setup {self.ticket} "
                f"{' '.join(lease.resources)}"
            )

    def start(self) -> None:
        """Grants Pacemaker's ticket, if the end of the rule is ahead."""
        for lease in self.leases():
            if self.end_of(lease) <= time.time():
                raise Failed("the end of its rule has passed, so Pacemaker's ticket is not granted")
        done = ran(CHANGE_LIMIT, "crm_ticket", "--ticket", self.ticket, "--grant", "--force")
        if done.status != 0:
            raise Failed(f"cannot grant Pacemaker's ticket: crm_ticket: {done.why()}")
        self.mark(True)

    def mark(self, is_granted: bool) -> None:
        """Writes a file while Pacemaker's ticket must be granted, or removes it. The agent's monitor reads it."""
        path = f"{end_path(self.ticket)}.granted"
        with contextlib.suppress(OSError):
            if is_granted:
                with open(path, "w", encoding="ascii"):
                    pass
            else:
                os.unlink(path)

    def is_granted(self) -> bool:
        """Returns whether Pacemaker's ticket is granted."""
        words = ["--ticket", self.ticket, "--get-attr", "granted", "--default", "false"]
        done = ran(CHANGE_LIMIT, "crm_ticket", *words)
        granted = done.printed.strip()
        if done.status != 0 or granted not in ("true", "false"):
            raise Failed(f"cannot read whether Pacemaker's ticket is granted: crm_ticket: {done.why()}")
        return granted == "true"

    def check(self) -> int:
        """Returns the status of whether Pacemaker's ticket is granted. Fails if it is, but its end has passed."""
        if not self.is_granted():
            return NOT_RUNNING
        if any(self.end_of(lease) <= time.time() for lease in self.leases()):
            raise Failed("Pacemaker's ticket is granted, but the end of its rule has passed")
        return DONE

    def over(self, seconds: float) -> None:
        """Revokes the ticket, closes the rule, and waits until none of the ticket's resources runs at this site."""
        until = time.monotonic() + max(LEAST, seconds)
        # (before the revoke: whoever finds the ticket revoked, and then still the mark, knows that it was lost)
        self.mark(False)
        revoked = ran(CHANGE_LIMIT, "crm_ticket", "--ticket", self.ticket, "--revoke", "--force")
        leases = self.leases()
        closed = [self.set_end(lease, CLOSED, CHANGE_LIMIT) for lease in leases]
        faults = [f"crm_ticket: {revoked.why()}"] if revoked.status != 0 else []
        faults += [f"cibadmin: {done.why()}" for done in closed if done.status != 0]
        if revoked.status != 0 and len(faults) > 1:
            raise Failed(f"Pacemaker takes no order: the rule and the guards end the service: {'; '.join(faults)}")
        if faults:
            say(4, self.ticket, f"one of two ways to end the service failed, the other worked: {'; '.join(faults)}")
        self.wait(leases, until)

    def wait(self, leases: List[Lease], until: float) -> None:
        """Waits until the resources of these leases have ended, and for nothing else in the cluster."""
        looks, why = 0, ""
        while True:
            try:
                seen = pacemaker_asking.seen(max(LEAST, min(CHANGE_LIMIT, until - time.monotonic())))
                why = self.what_runs(leases, seen)
            except ValueError as fault:
                why = str(fault)
            # (two looks, because a start that was ordered just before the revoke may be listed late)
            looks = 0 if why else looks + 1
            if looks > 1:
                return
            if time.monotonic() >= until:
                raise Failed(f"the service is not known to have ended: {why or 'only one look has shown it'}")
            pacemaker_asking.pause(PAUSE)

    def what_runs(self, leases: List[Lease], seen: pacemaker_asking.Seen) -> str:
        """Returns which resources of these leases may still run, or an empty text if none does."""
        for lease in leases:
            names = [primitive.id for primitive in lease.primitives]
            if not seen.are_over(names, lease.is_promoted):
                nodes = seen.where(names, lease.is_promoted)
                at = f" at {', '.join(nodes)}" if nodes else ""
                return f"{', '.join(lease.resources)} may run{at}"
        return ""


# ---- before a daemon


def see_to_clock(site: Site, folder: str) -> None:
    """Refuses to start a daemon if this node's wall clock is behind the clock of the last daemon."""
    if pacemaker_clocks.is_kept(site.records):
        return
    late = pacemaker_clocks.late(site.found(), pacemaker_clocks.noted(site.records), lease_holding.now(), folder)
    if late is not None:
        # (Pacemaker keeps only some 120 bytes of an agent's message)
        until = time.strftime("%H:%M:%S", time.gmtime(late.until))
        text = f"this node's clock is at least {late.seconds:.0f} s behind the last daemon's, so none starts"
        raise Failed(f"{text} before {until} UTC: set it, then crm_resource --cleanup")


# ---- before a follower


def daemon_clock(records: str) -> float:
    """Returns the daemon's clock now, in seconds since 1970: the time since the boot and the daemon's offset."""
    path = os.path.join(records, "booth.clock")
    try:
        with open(path, "rb") as file, open(BOOT_ID, "rb") as boot:
            kept, own = file.read(CLOCK_BYTES + 1), boot.read(36)
    except OSError as why:
        raise Failed(f"cannot read the daemon's clock: {why}") from why
    if len(kept) != CLOCK_BYTES or kept[24:] != own:
        raise Failed(f"{path} is from another boot: no daemon has started on this node since its boot")
    return time.clock_gettime(time.CLOCK_BOOTTIME) + int.from_bytes(kept[8:16], "big") / 1000


def listed(ticket: str, conf: str, address: str) -> Tuple[str, float]:
    """Returns the holder of the ticket in the daemon's list, and the lease's end by the daemon's clock.

    The holder is an empty text if the daemon does not answer.
    """
    done = ran(LIST_LIMIT, "booth", "list", "-c", conf, "-s", address)
    for line in done.printed.splitlines() if done.status == 0 else ():
        found = LISTED.fullmatch(line)
        if found and found[1] == ticket:
            end = calendar.timegm(time.strptime(found[3], "%Y-%m-%d %H:%M:%S")) if found[3] else 0
            return found[2], float(end)
    return "", 0.0


def may_be_set(end: float, until: float) -> bool:
    """Returns whether a new follower still waits for a renewal: the rule's end is ahead, or has passed, and was not
    closed, and the clock is before `until`.
    """
    return end > time.time() or end > pacemaker_cib.seconds_of(CLOSED) and time.monotonic() < until


def adopt(site: Site, path: str, conf: str, records: str) -> None:
    """Writes the armed end for a new follower, after the daemon has renewed the lease and the rule has the new end.

    Until then the resources run under the rule's old end. If that end has passed, they have ended, and Pacemaker starts
    them again under the new end, since its ticket is still granted. If the daemon does not renew the lease, or another
    site holds the ticket, or the rule is closed, nothing is written, and the follower stops the service. A lease that
    is longer than a lease can be was not renewed by this daemon: the daemon's clock is behind the clock of its records.
    """
    site.mark(False)
    with contextlib.suppress(FileNotFoundError):
        os.unlink(path)
    leases, address = site.leases(), os.environ.get("ADDRESS", "")
    if not site.is_granted():
        return
    margin, is_told, until = max(lease.times.margin for lease in leases), False, time.monotonic() + RENEWED
    while may_be_set(min(site.end_of(lease) for lease in leases), until):
        holder, end = listed(site.ticket, conf, address)
        if holder not in ("", address):
            return
        left = end - daemon_clock(records) if holder else 0.0
        if left > leases[0].times.expire + ROUNDED:
            if not is_told:
                say(4, site.ticket, f"this daemon has not yet renewed the listed lease of {left:.0f} s: waits for that")
            is_told = True
        elif left > margin + ENOUGH:
            site.until = time.clock_gettime(time.CLOCK_BOOTTIME) + left
            site.renew()
            os.makedirs(os.path.dirname(path), mode=0o755, exist_ok=True)
            with open(f"{path}.new", "w", encoding="ascii") as file:
                file.write(f"{int(daemon_clock(records) + site.left())}\n")
            os.replace(f"{path}.new", path)
            site.mark(True)
            return
        pacemaker_asking.pause(PAUSE)


def number_in(name: str, default: float) -> float:
    """Returns a number from the environment, or `default`."""
    text = os.environ.get(name, "")
    return float(text) if text.isdigit() and len(text) < 16 else default


def did(words: List[str], site: Site) -> int:
    """Runs a word with its arguments, and returns the status."""
    word, left = words[0], site.left()
    if word == "check":
        return site.check()
    if word == "renew":
        site.renew()
    elif word == "start":
        site.start()
    elif word == "stop":
        patience = number_in("STOP_SECONDS", STOP_SECONDS)
        site.over(min(left, patience) if left > 0 else patience)
    elif word == "kill":
        site.over(min(left, KILL_SECONDS) if left > 0 else KILL_SECONDS)
    elif word == "clock":
        see_to_clock(site, os.environ.get("BOOTH_GUARD_RUN") or lease_holding.FOLDER)
    else:
        adopt(site, end_path(site.ticket), *words[1:])
    return DONE


def main(words: List[str]) -> int:
    """Returns the exit status of a run with these arguments."""
    counts = {"check": 1, "start": 1, "stop": 1, "kill": 1, "renew": 2, "clock": 2, "adopt": 3}
    ticket = os.environ.get("BOOTH_TICKET", "")
    if not words or counts.get(words[0]) != len(words) or not pacemaker_cib.TICKET.fullmatch(ticket):
        print(USAGE if ticket else f"{USAGE}: booth-follow runs it, and sets BOOTH_TICKET", file=sys.stderr)
        return BAD_WORDS
    left = number_in("BOOTH_TICKET_LEFT", 0) / 1000
    records = words[-1] if words[0] in ("clock", "adopt") else os.environ.get("BOOTH_RECORDS", "")
    try:
        return did(words, Site(ticket, left, os.environ.get("BOOTH_CIB") or pacemaker_asking.CIB, records))
    except (Failed, OSError) as why:
        if words[0] == "clock":
            # (the agent prints this line as its own reason)
            print(why, file=sys.stderr)
        else:
            say(4, ticket, f"{words[0]}: {why}")
        return FAILED
