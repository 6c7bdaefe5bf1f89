"""Clusters whose members write journals, and the output of `boothd audit` about these after the members were killed.

It is imported by the programs in tests/, and not run by itself.
"""

import contextlib
import glob
import math
import os
import shutil
import subprocess
import time
from typing import NamedTuple

import journal_file
from journal_changes import Roster, holdings, silent_starts
from members import Cluster, Times, wait_for
from serving import own_addresses

# in seconds: the limits for an audit, and for each step in which a cluster is set up
SECONDS_OF_AUDIT, PATIENCE = 60, 30
# in seconds: how much further than the silence of a first start, and than a promise, the clocks are set ahead
MARGIN = 5
FAULTS = ("syntax", "differs", "record", "unsent")
# the files that a handler of tests/handler_stories.py leaves
NOTES = ("ran", "descriptors", "pid")
KEY = b"a-key-of-the-cluster"
TIMES = Times()
# the silence of a first start, and how far the clocks are behind before it, in seconds
SILENT = math.ceil(TIMES.abstention()) + MARGIN
BEHIND = 8 * SILENT
SHIFT = """
#define _GNU_SOURCE
#include <fcntl.h>
#include <stdlib.h>
#include <sys/syscall.h>
#include <time.h>
#include <unistd.h>

int clock_gettime(clockid_t clock, struct timespec *time)
{
    int status = (int)syscall(SYS_clock_gettime, clock, time);
    char text[32] = "";
    int moves = clock == CLOCK_REALTIME || clock == CLOCK_BOOTTIME;
    int file = status == 0 && moves ? open(getenv("BOOTH_CLOCKS_SHIFT"), O_RDONLY) : -1;
    if (file >= 0) {
        if (read(file, text, sizeof text - 1) > 0)
            time->tv_sec += atol(text);
        close(file);
    }
    return status;
}
"""


class Misjudged(Exception):
    """An audit gave another result than it must, or a cluster's members acted wrongly."""


class LeftOut(Exception):
    """This machine does not allow what a check needs."""


def require(holds, why):
    if not holds:
        raise Misjudged(why)


class Audit(NamedTuple):
    """The outcome of a run of the auditor: its status, its standard output and its standard error."""

    status: int
    printed: str
    said: str

    def passes(self):
        return self.status == 0 and not self.said

    def fault(self, paths):
        """Returns the place of the refused journal, the line or None, and the fault; or None if there is no fault."""
        for place, path in enumerate(paths):
            begin = f"boothd: {path}: "
            if self.status != 1 or self.printed or not self.said.startswith(begin) or not self.said.endswith("\n"):
                continue
            rest = self.said[len(begin) : -1]
            if rest == "member":
                return place, None, rest
            words = rest.split(" ")
            if len(words) == 3 and words[0] == "line" and words[1][:-1].isdigit() and words[1].endswith(":"):
                return (place, int(words[1][:-1]), words[2]) if words[2] in FAULTS else None
        return None

    def told(self, paths):
        """Returns the result of the audit: a fault, the printed lines if the journals pass, or None."""
        return self.printed if self.passes() else self.fault(paths)


def can_audit(program):
    """Returns whether this program has the command `audit`."""
    if program is None or not os.access(program, os.X_OK):
        return False
    done = subprocess.run([program, "audit", "--help"], capture_output=True, timeout=SECONDS_OF_AUDIT)
    return done.returncode == 0


def audit(program, conf, paths):
    """Returns the auditor's result for these journals."""
    words = [program, "audit", "-c", conf, *paths]
    done = subprocess.run(words, stdin=subprocess.DEVNULL, capture_output=True, text=True, timeout=SECONDS_OF_AUDIT)
    return Audit(done.returncode, done.stdout, done.stderr)


@contextlib.contextmanager
def clocks(folder):
    """Returns a function that sets the clocks of all programs that are started in the block ahead, by a number of
    seconds.
    """
    if shutil.which("cc") is None:
        raise LeftOut("there is no cc, so no clock can be put forward")
    source, library, shift = (os.path.join(folder, name) for name in ("clocks.c", "clocks.so", "clocks"))
    with open(source, "w", encoding="ascii") as file:
        file.write(SHIFT)
    subprocess.run(["cc", "-shared", "-fPIC", "-O1", "-o", library, source], check=True)

    def put(seconds):
        if time.clock_gettime(time.CLOCK_BOOTTIME) + seconds < 1:
            raise LeftOut("this machine was started a moment ago, so no clock can be put back")
        with open(shift + ".new", "w", encoding="ascii") as file:
            file.write(str(seconds))
        os.rename(shift + ".new", shift)

    put(0)
    os.environ.update(LD_PRELOAD=library, BOOTH_CLOCKS_SHIFT=shift)
    try:
        yield put
    finally:
        del os.environ["LD_PRELOAD"], os.environ["BOOTH_CLOCKS_SHIFT"]


def holds_and_gives_back(member, ticket):
    """Has the member acquire the ticket and release it."""
    name = ticket.decode()
    taken = wait_for(lambda: member.about("CGnt", ticket) in ("ok", "Asyn"), PATIENCE)
    require(taken, f"no grant of {name} is taken")
    has_lease = lambda: (record := member.record(ticket)) is not None and record.until is not None
    require(wait_for(has_lease, PATIENCE), f"{name} is not held")
    require(wait_for(lambda: member.about("CRvk", ticket) == "ok", PATIENCE), f"{name} is not revoked")
    require(wait_for(lambda: not has_lease(), PATIENCE), f"{name} is not given back")


def live_through(cluster):
    """Has each member write a record of each automatic ticket, by the rules, and then ends all members, so that they
    answer at once when they start again. The clocks are behind at first, and are set ahead over the silence of a first
    start. Afterwards they are right, and no promise from that time is in force.
    """
    silent = math.ceil(cluster.times.abstention()) + MARGIN
    keys = [member.key for member in cluster.members]
    with clocks(cluster.folder) as put:
        put(-2 * silent)
        for member in cluster.members:
            member.key = cluster.key
        cluster.start()
        put(-silent)
        for ticket in cluster.tickets:
            holds_and_gives_back(cluster.members[0], ticket)
            knows = lambda: all(member.record(ticket) for member in cluster.members)
            require(wait_for(knows, PATIENCE), f"a member keeps no record of {ticket.decode()}")
        for member, key in zip(cluster.members, keys):
            member.kill()
            member.key = key


class AuditedCluster(Cluster):
    """A cluster whose members write journals. If its program can audit, the audit must accept these journals. In
    other clusters `remember` writes records that no journal has. So the members of this cluster go through their first
    start, if they can.
    """

    def __init__(self, program, *words, **more):
        super().__init__(program, *words, **more)
        self.has_auditor = can_audit(program)
        # the fault that an audit must find in the journals, or `None` if they must pass
        self.refused = None
        for member in self.members:
            member.journals = True

    def remember(self):
        if self.has_auditor and shutil.which("cc"):
            live_through(self)
            # (the first grant is no part of a story)
            for path in (path for name in NOTES for path in glob.glob(os.path.join(self.folder, f"{name}.*"))):
                os.remove(path)
            return
        super().remember()
        self.refused = "record"

    def roster(self):
        members = tuple((member.role, member.address) for member in self.members)
        return Roster(members, (*self.tickets, *self.manual), self.key)

    def of_one_file(self):
        """Returns the audit of the members that had one configuration all the time, and how many members had several.
        """
        groups, several = {}, 0
        for member in self.members:
            if len(member.confs) == 1 and os.path.exists(member.journal):
                groups.setdefault(*member.confs, []).append(member)
            several += len(member.confs) > 1
        return groups, several

    def judged(self, refused=None):
        """Returns a sentence about the results of the audits, with the fault that they must find, if there is one."""
        if not self.has_auditor:
            return "not checked, since boothd has no auditor: what the journals say"
        groups, several = self.of_one_file()
        told = [self.judged_by(conf, members, len(groups) + several > 1, refused or self.refused)
                for conf, members in groups.items()]
        left = f"; {several} changed their file, and are not audited" if several else ""
        return f"journals: {'; '.join(told) or 'none'}{left}"

    def judged_by(self, conf, members, has_others, refused):
        """Returns the same for the members that had this configuration."""
        paths = [member.journal for member in members]
        found = audit(self.program, conf, paths)
        if found.passes():
            require(refused is None, f"journals pass that have to be refused with {refused}: {paths}")
            texts = [content(path) for path in paths]
            leases, silent = holdings(self.roster(), texts), silent_starts(self.roster(), paths, texts)
            due = leases + silent
            require(found.printed == due, f"the audit of {paths} printed {found.printed}, and not {due}")
            lines = sum(len(journal_file.lines_of(text)) for text in texts)
            told = f", and {silent.count(chr(10))} reads in silent starts" if silent else ""
            return f"{len(paths)} pass, with {lines} lines and {leases.count(chr(10))} leases{told}"
        fault = found.fault(paths)
        # (the messages of members with another file arrive, but their journals are not audited together with these)
        taken = (refused,) if refused else ("unsent",) if has_others else ()
        require(fault is not None and fault[2] in taken, f"the audit of {paths} left {found}, {shown_at(paths, fault)}")
        return f"{members[fault[0]].role} refused with {fault[2]}, as it has to be"


def content(path):
    with open(path, "rb") as file:
        return file.read()


def shown_at(paths, fault):
    """Returns the lines around a fault, for the reader of a report."""
    if fault is None or fault[1] is None:
        return ""
    lines = journal_file.lines_of(content(paths[fault[0]]))
    return str([line[:200] for line in lines[max(0, fault[1] - 5) : fault[1] + 2]])


# ---- clusters whose clocks are put forward


class Journals(NamedTuple):
    """The journals of a cluster: the program that wrote them, its configuration, what judges them, their paths and
    their texts.
    """

    program: str
    folder: str
    conf: str
    roster: Roster
    paths: list
    texts: list

    def found(self, paths):
        return audit(self.program, self.conf, paths)


@contextlib.contextmanager
def cluster_in(boothd, folder, **more):
    """Makes a cluster with a key, whose clocks are behind. Returns it, and a function that sets its clocks ahead by a
    number of seconds.
    """
    addresses = own_addresses()
    with AuditedCluster(boothd, folder, addresses, times=TIMES, key=KEY, **more) as cluster, clocks(folder) as put:
        shift = [-BEHIND]
        put(shift[0])

        def forward(seconds):
            shift[0] += seconds
            require(shift[0] <= 0, "the clocks are put beyond the right time")
            put(shift[0])

        cluster.spare = list(addresses)[-1]
        yield cluster, forward


def is_granted(member):
    taken = wait_for(lambda: member.about("CGnt") in ("ok", "Asyn"), PATIENCE)
    require(taken and wait_for(lambda: (record := member.record()) and record.until, PATIENCE), "no grant")


def is_renewed(member, forward):
    until = member.record().until
    forward(TIMES.renewal)
    require(wait_for(lambda: member.record().until > until, PATIENCE), "no renewal")


def ended(cluster, *members):
    """Kills all members. Returns the journals of these members, or of all members."""
    members = members or cluster.members
    for member in members:
        member.kill()
    paths = [member.journal for member in members]
    texts = [content(path) for path in paths]
    return Journals(cluster.program, cluster.folder, cluster.conf, cluster.roster(), paths, texts)
