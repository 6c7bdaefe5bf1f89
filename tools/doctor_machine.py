"""The doctor's questions about this machine: its clock, daemon, disk, followers, handlers and watchdog.

It is imported by tools/doctor.py, and not run by itself.
"""

import glob
import os
import pwd
import re
import statistics
import stat
import time
from typing import Dict, Iterator, List, Optional, Tuple

import checking
import follow_checks
import key_file
import service_problems
import services
from configuration import Ticket
from doctor_cluster import Case
from doctor_finding import OK, UNKNOWN, Finding, of_problem, printed, seconds_in, shown_by_systemd
from pacemaker_status import ClusterSite
from problems import CRITICAL, NOTICE, WARNING
from wording import count, listed, span

RECORDS = "/var/lib/booth"
TIMESYNC = "/run/systemd/timesync"
CHRONY_FILES = ("/etc/chrony/chrony.conf", "/etc/chrony.conf", "/etc/chrony/conf.d/*.conf", "/etc/chrony.d/*.conf")
WATCHDOGS = "/dev/watchdog*"
# a clock that runs within this many parts in a million keeps the guarantee; chrony may correct faster unless it is told
MOST_SLEW, CHRONY_SLEW = 1000.0, 83_333.333
# a clock that is further off than this is not right yet, in seconds
MOST_OFFSET = 0.1
# the part of a disk, and of its files, that must be free; and a record's size with room to spare
LEAST_FREE, LEAST_BYTES, LEAST_RECORDS = 0.05, 64 * 1024 * 1024, 1_000_000
# how many syncs are measured, with how many bytes, for how long at most in seconds
SYNCS, SYNC_BYTES, SECONDS_OF_SYNCS = 20, 512, 3.0
NO_SYSTEMD = "systemd does not answer"


# ---- the clock


def of_clock(case: Case) -> Iterator[Finding]:
    """Is the wall clock set by a program, and can that program make it run too fast or too slow?"""
    tracking = printed(["chronyc", "-n", "-c", "tracking"])
    fields = (tracking or "").split(",")
    if len(fields) >= 14:
        yield from of_chrony(fields)
    elif os.path.isdir(TIMESYNC):
        if os.path.exists(f"{TIMESYNC}/synchronized"):
            text = "systemd-timesyncd has set the clock, but it may step it at any time"
            yield Finding(WARNING, text, "use chrony, with `makestep 1 3` and `maxslewrate 500`")
        else:
            text = "systemd-timesyncd has not set the clock"
            yield Finding(CRITICAL, text, "timedatectl timesync-status; use chrony")
    else:
        text = "neither chrony nor systemd-timesyncd answers, so nothing sets the clock"
        yield Finding(CRITICAL, text, "install and start chrony")


def of_chrony(fields: List[str]) -> Iterator[Finding]:
    """Yields what chrony says: its fields are those of `chronyc -c tracking`."""
    leap = fields[13].strip()
    try:
        offset, rate = float(fields[4]), float(fields[7])
    except ValueError:
        yield Finding(UNKNOWN, "chronyc answers in another form")
        return
    if leap == "Not synchronised":
        text = "chrony has no source, so the clock is not set"
        yield Finding(CRITICAL, text, "chronyc sources; correct the servers in chrony.conf")
    elif abs(offset) > MOST_OFFSET:
        do = "wait, or chronyc makestep before the daemon's first start"
        yield Finding(WARNING, f"the clock is {abs(offset):.3f} s off, and chrony corrects it", do)
    else:
        told = f"{abs(offset) * 1000:.3f} ms off, {abs(rate):.1f} parts in a million corrected"
        yield Finding(OK, f"chrony has set the clock: {told}")
    slew = slew_rate()
    if slew > MOST_SLEW:
        text = f"chrony may correct the clock by {slew:,.0f} parts in a million"
        text += f", but the guarantee holds up to {MOST_SLEW:,.0f}"
        yield Finding(WARNING, text, "set `maxslewrate 500` in chrony.conf, and restart chrony")


def slew_rate() -> float:
    """Returns how fast chrony may correct the clock by its files, in parts in a million."""
    rate = CHRONY_SLEW
    for pattern in CHRONY_FILES:
        for path in sorted(glob.glob(pattern)):
            try:
                with open(path, encoding="utf-8", errors="replace") as file:
                    found = re.findall(r"^\s*maxslewrate\s+([0-9.]+)", file.read(1_000_000), re.M)
            except OSError:
                continue
            rate = float(found[-1]) if found else rate
    return rate


# ---- the daemon


def of_daemon(case: Case) -> Iterator[Finding]:
    """Does the daemon's unit run, start at boot, and run the installed program?"""
    unit = f"booth@{case.cluster}.service"
    names = ["ActiveState", "SubState", "UnitFileState", "NRestarts", "MainPID", "LoadState"]
    told = shown_by_systemd(names, unit)
    if case.here().cluster is not None:
        yield Finding(OK, "Pacemaker runs the daemon of this site: booth-pacemaker check")
        return
    if told is None or told.get("LoadState") != "loaded":
        why = NO_SYSTEMD if told is None else f"systemd has no unit {unit}"
        yield Finding(UNKNOWN, f"{why}, so it is unknown whether the daemon runs and starts at boot")
        return
    state = told.get("ActiveState", "")
    if state != "active":
        do = f"systemctl start {unit}; journalctl -u {unit} -n 20"
        yield Finding(CRITICAL, f"{unit} is {state or 'unknown'}", do)
        return
    if told.get("UnitFileState") not in ("enabled", "enabled-runtime", "static"):
        yield Finding(WARNING, f"{unit} does not start at boot", f"systemctl enable {unit}")
    restarts = told.get("NRestarts", "0")
    if restarts.isdigit() and int(restarts):
        text = f"{unit}: systemd restarted it {count(int(restarts), 'time')} since its start"
        yield Finding(WARNING, text, f"journalctl -u {unit} has the cause")
    program = program_of(told.get("MainPID", ""))
    if program.endswith(" (deleted)"):
        text = "the daemon runs a program that was replaced since"
        yield Finding(WARNING, text, f"systemctl restart {unit}, at one member after another")
    yield Finding(OK, f"{unit} runs" + ("" if program else "; only root can see whether it runs the installed program"))


def program_of(process: str) -> str:
    """Returns the file that a process runs, or an empty text without the right to see it."""
    try:
        return os.readlink(f"/proc/{int(process)}/exe")
    except (OSError, ValueError):
        return ""


# ---- the disk


def folder_of(case: Case) -> str:
    """Returns the folder of the records: the one of the unit, or else the default, or the one above it if that folder
    cannot be seen.
    """
    told = shown_by_systemd(["ExecStart"], f"booth@{case.cluster}.service") or {}
    named = re.search(r" -d (/\S+)", told.get("ExecStart", ""))
    if named:
        return named[1]
    folder = f"{RECORDS}/{case.cluster}"
    return folder if os.path.isdir(folder) else RECORDS


def of_disk(case: Case) -> Iterator[Finding]:
    """Has the disk of the records room, and does it take writes?"""
    folder = folder_of(case)
    about = os.statvfs(folder)
    free, part = about.f_bavail * about.f_frsize, about.f_bavail / max(1, about.f_blocks)
    files = about.f_favail / about.f_files if about.f_files else 1.0
    if about.f_flag & os.ST_RDONLY:
        yield Finding(CRITICAL, f"{folder}: its file system takes no writes", "dmesg; mount it for writing")
    if free < LEAST_BYTES or part < LEAST_FREE:
        text = f"{folder}: {free // 1_000_000} MB are free ({part:.0%})"
        yield Finding(CRITICAL if free < LEAST_RECORDS else WARNING, text, "make room: df")
    if files < LEAST_FREE:
        yield Finding(WARNING, f"{folder}: {files:.0%} of its files are free", "make room: df -i")
    if free >= LEAST_BYTES and part >= LEAST_FREE and files >= LEAST_FREE and not about.f_flag & os.ST_RDONLY:
        yield Finding(OK, f"{folder}: {free // 1_000_000} MB are free ({part:.0%})")


def of_sync(case: Case) -> Iterator[Finding]:
    """Does the disk sync fast enough for the times of the tickets?"""
    folder = folder_of(case)
    try:
        times = syncs_in(folder)
    except OSError as why:
        text = f"{folder}: the time of a sync was not measured: {why.strerror}"
        yield Finding(UNKNOWN, text, "run it as root or as the user booth")
        return
    middle, longest = statistics.median(times) * 1000, max(times) * 1000
    told = f"{folder}: a sync takes {middle:.2f} ms, the longest of {len(times)} took {longest:.2f} ms"
    automatic = [ticket for ticket in case.conf.tickets if not ticket.is_manual]
    found = [each for each in checking.times(case.conf, max(middle, 0.001)) if each.kind == "syncs"]
    yield from map(of_problem, found)
    limit = min((write_limit(ticket) for ticket in automatic), default=None)
    if limit is not None and 3 * longest > limit:
        text = f"{told}, and a write of three may take {limit:.0f} ms"
        yield Finding(WARNING, text, "use a faster disk, or raise expire and renewal-freq (SIZING.md)")
    elif not any(each.severity > NOTICE for each in found):
        allowed = "" if limit is None else f"; a write of three may take {limit:.0f} ms"
        yield Finding(OK, told + allowed)


def write_limit(ticket: Ticket) -> float:
    """Returns how long a write of this ticket's record may take, in milliseconds."""
    return (ticket.expire - ticket.renewal) / 3 * 1000


def syncs_in(folder: str) -> List[float]:
    """Returns how long some syncs take, in seconds, of a file without a name in this folder."""
    handle = os.open(folder, os.O_TMPFILE | os.O_RDWR | os.O_CLOEXEC, 0o600)
    try:
        os.write(handle, bytes(SYNC_BYTES))
        os.fsync(handle)
        times, began = [], time.monotonic()
        while len(times) < SYNCS and time.monotonic() < began + SECONDS_OF_SYNCS:
            start = time.monotonic()
            os.pwrite(handle, os.urandom(SYNC_BYTES), 0)
            os.fdatasync(handle)
            times.append(time.monotonic() - start)
        return times
    finally:
        os.close(handle)


# ---- services


def of_followers(case: Case) -> Iterator[Finding]:
    """Does a follower run for each ticket whose service is set up here?"""
    here = case.here()
    if here.cluster is not None:
        yield from of_resources(here.cluster)
        return
    names = follow_checks.followed_here(case.conf, services.Units().answer(follow_checks.QUESTION))
    for ticket in case.conf.tickets:
        service = here.services.get(ticket.name)
        if service is None and ticket.name in names:
            text = f"{ticket.name}: a file sets its service up here, but no follower has run"
            yield Finding(WARNING, text, f"systemctl enable --now booth-follow@{ticket.name}")
        if service is None:
            continue
        found = list(service_problems.problems(here, ticket, case.is_held_here(ticket.name)))
        yield from map(of_problem, found)
        if not found:
            lives = "its follower runs" if service.lives else "whether its follower runs is unknown"
            told = f"{ticket.name}: {service_problems.shown(service)}, and {lives}"
            yield Finding(OK if service.lives else UNKNOWN, told)
        for problem in follow_checks.enabled(ticket.name):
            yield of_problem(problem)
    if not here.services and not names:
        yield Finding(OK, "no service follows a ticket on this machine")


def of_resources(cluster: ClusterSite) -> Iterator[Finding]:
    """Yields the services that Pacemaker runs. (Its problems are answers about the members.)"""
    for name, service in cluster.services.items():
        yield Finding(OK, f"{name}: Pacemaker runs it: {service.shown()}")
    if not cluster.services:
        why = cluster.why or "no ticket has a lease"
        yield Finding(UNKNOWN, f"the services that Pacemaker runs here are unknown: {why}", "booth-pacemaker check")


def of_restarts(case: Case) -> Iterator[Finding]:
    """Do daemon and follower restart faster than a lease or a margin ends?"""
    waits: Dict[str, Optional[float]] = {}
    followers = [f"booth-follow@{name}.service" for name in case.here().services]
    for unit in [f"booth@{case.cluster}.service", *followers]:
        told = shown_by_systemd(["RestartUSec", "Restart", "LoadState"], unit)
        if told is None:
            yield Finding(UNKNOWN, f"{NO_SYSTEMD}, so RestartSec= is unknown")
            return
        if told.get("LoadState") != "loaded":
            continue
        waits[unit] = seconds_in(told.get("RestartUSec", ""))
        if told.get("Restart") != "always":
            text = f"{unit}: has Restart={told.get('Restart')}"
            yield Finding(CRITICAL, text, f"systemctl edit {unit}: Restart=always")
    slow = {unit: wait for unit, wait in waits.items() if wait is not None and wait > follow_checks.RESTART}
    found = list(follow_checks.restarts(case.conf, list(case.here().services)))
    yield from (of_problem(each) for each in found if each.severity > NOTICE)
    automatic = [ticket for ticket in case.conf.tickets if not ticket.is_manual]
    shortest = min((ticket.expire - ticket.renewal for ticket in automatic), default=float("inf"))
    for unit, wait in slow.items():
        text, do = f"{unit} waits {wait:g} s before a restart", f"systemctl edit {unit}: RestartSec=1"
        if wait + follow_checks.START >= shortest:
            yield Finding(CRITICAL, f"{text}, but a lease has {shortest:g} s left when its renewal starts", do)
        else:
            yield Finding(WARNING, f"{text}, and --check counts with {follow_checks.RESTART} s", do)
    if not waits:
        yield Finding(UNKNOWN, f"systemd has no unit booth@{case.cluster}, so RestartSec= is unknown")
    elif not slow and not any(each.severity > NOTICE for each in found):
        yield Finding(OK, f"{listed(list(waits))}: RestartSec= and the tickets' times fit")


def of_handlers(case: Case) -> Iterator[Finding]:
    """Can the daemon run each handler?"""
    own = case.own.member()
    if own is not None and own.role != "site":
        yield Finding(OK, "not needed: an arbitrator runs no handler")
        return
    handlers = {ticket.handler: ticket.name for ticket in case.conf.tickets if ticket.handler}
    for command, ticket in handlers.items():
        path = (command.split() or [command])[0]
        faults = faults_of_handler(path)
        for fault in faults:
            do = "until then this site is granted no ticket with this handler, and renews none"
            yield Finding(CRITICAL, f"{ticket}: its handler {fault}", do)
        if not faults:
            yield Finding(OK, f"{ticket}: its handler {path} can be run")
    if not handlers:
        yield Finding(OK, "no ticket has a handler")


def faults_of_handler(path: str) -> List[str]:
    """Returns what the daemon cannot run of a handler, which is a program or a directory of programs."""
    paths = [path]
    try:
        if os.path.isdir(path):
            paths = [f"{path}/{name}" for name in sorted(os.listdir(path)) if not name.startswith(".")]
    except OSError as why:
        return [f"{path}: {why.strerror}"]
    faults = {each: fault_of_program(each) for each in paths}
    return [f"{each}: {fault}" for each, fault in faults.items() if fault]


def fault_of_program(path: str) -> str:
    """Returns why the daemon's user cannot run a program, or an empty text."""
    try:
        about = os.stat(path)
    except OSError as why:
        return why.strerror or str(why)
    if not stat.S_ISREG(about.st_mode):
        return "is no regular file"
    groups: Tuple[int, ...] = ()
    user = None
    try:
        user = pwd.getpwnam(key_file.DAEMON)
        groups = tuple(os.getgrouplist(key_file.DAEMON, user.pw_gid))
    except KeyError:
        pass
    if user is not None and about.st_uid == user.pw_uid:
        may_run = about.st_mode & stat.S_IXUSR
    elif about.st_gid in groups:
        may_run = about.st_mode & stat.S_IXGRP
    else:
        may_run = about.st_mode & stat.S_IXOTH
    return "" if may_run else f"the user {key_file.DAEMON} may not run it (mode {stat.S_IMODE(about.st_mode):04o})"


def of_watchdog(case: Case) -> Iterator[Finding]:
    """Does a hardware watchdog reset this machine if its kernel or systemd hangs?"""
    if not case.here().services:
        yield Finding(OK, "not needed: no service follows a ticket on this machine")
        return
    told = shown_by_systemd(["RuntimeWatchdogUSec"])
    if told is None:
        yield Finding(UNKNOWN, f"{NO_SYSTEMD}, so it is unknown whether a hardware watchdog is set")
        return
    wait = seconds_in(told.get("RuntimeWatchdogUSec", "0"))
    if not glob.glob(WATCHDOGS):
        text = "this machine has no watchdog that resets it if systemd or the kernel hangs"
        yield Finding(WARNING, text, "modprobe softdog, and booth-follow(8), LIMITS")
    elif not wait:
        do = "set RuntimeWatchdogSec= in /etc/systemd/system.conf, less than the kill time"
        yield Finding(WARNING, "systemd does not use the hardware watchdog", do)
    else:
        yield Finding(OK, f"systemd uses the hardware watchdog, {span(wait)}")
