"""Checks a configuration before it is copied to the members: by boothd, and for problems that no daemon can see.

It is imported by booth-status, and not run by itself. It changes nothing, here or at a member.
"""

import ipaddress
import json
import os
import re
import shutil
import subprocess
import sys
import tempfile

import configuration
import follow_checks
import key_file
import looking
import pacemaker_checks
from problems import CRITICAL, NOTICE, WARNING, WORDS, Problem
from wording import aligned, count, listed, span

# addresses for documentation, which no member has; there are more of them than members
NO_MEMBERS = [f"192.0.2.{last}" for last in range(1, 255)]
SECONDS_OF_VERDICT = 10
# the version of the JSON document
VERSION = 1

# a write of a record takes three syncs, and a renewal writes two records: the holder's own promise, and its lease
RECORDS_OF_A_RENEWAL = 2
SYNCS = 3 * RECORDS_OF_A_RENEWAL
SYNC_MILLIS = 10
# the part of its time that a daemon may spend on syncs
MOST_OF_TIME = 0.5


def status_of(options):
    """Prints the problems, and returns the status."""
    path = configuration.path_of(options.check)
    text = configuration.bytes_of(path, configuration.TEXT_BYTES)
    found, conf = list(verdict(path, text)), None
    try:
        conf = configuration.read(path)
        found += [*defaults(conf), *families(conf), *times(conf, options.sync or SYNC_MILLIS), *key_file.problems(conf)]
        found += follow_checks.problems(conf)
        found += pacemaker_checks.of_configuration(conf)
        if options.members:
            found += of_members(conf, options.timeout)
    except configuration.Unreadable as why:
        if not any(problem.kind == "refused" for problem in found):
            found.append(Problem(CRITICAL, "refused", str(why)))
    found.sort(key=lambda problem: -problem.severity)
    show(path, conf, found, options)
    return max((problem.severity for problem in found), default=NOTICE)


def show(path, conf, found, options):
    """Prints the problems in the requested form."""
    status = max((problem.severity for problem in found), default=NOTICE)
    word = {NOTICE: "OK", WARNING: "WARNING", CRITICAL: "CRITICAL"}[status]
    told = "; ".join(problem.text for problem in found if problem.severity > NOTICE)
    counted = f"{count(len(conf.members), 'member')}, {count(len(conf.tickets), 'ticket')}" if conf else "it is refused"
    line = f"BOOTH {word}: {path}: {told or counted}"
    if options.json:
        problems = [{**problem._asdict(), "severity": WORDS[problem.severity]} for problem in found]
        told = {"version": VERSION, "configuration": path, "status": status, "summary": line, "problems": problems}
        print(json.dumps(told))
    elif options.brief:
        print(line)
    else:
        lines = aligned([(WORDS[problem.severity], problem.text) for problem in found]) if found else []
        print("\n".join([*lines, f"{word}: {path}: {counted}"]))


# ---- the program's verdict


def program():
    """Returns the path of boothd: in the directory of this program, or else on the PATH."""
    beside = os.path.join(os.path.dirname(os.path.realpath(sys.argv[0])), "boothd")
    return beside if os.access(beside, os.X_OK) else shutil.which("boothd")


def verdict(path, text):
    """Yields boothd's refusal of the file. It is run with no member's address, so it ends before it opens anything."""
    boothd = program()
    if boothd is None:
        text = "boothd did not check the file: it is neither in the directory of this program nor on the PATH"
        yield Problem(WARNING, "no-verdict", text)
        return
    address = next((each for each in NO_MEMBERS if each.encode() not in text), NO_MEMBERS[0])
    with tempfile.TemporaryDirectory(prefix="booth-status-") as folder:
        words = [boothd, "daemon", "-c", path, "-s", address, "-n", "1"]
        words += ["-l", f"{folder}/lock", "-d", f"{folder}/records"]
        try:
            streams = {"stdin": subprocess.DEVNULL, "stdout": subprocess.DEVNULL, "stderr": subprocess.PIPE}
            done = subprocess.run(words, **streams, timeout=SECONDS_OF_VERDICT, check=False)
        except subprocess.TimeoutExpired:
            yield Problem(WARNING, "no-verdict", f"boothd did not end within {SECONDS_OF_VERDICT} seconds")
            return
        except OSError as why:
            yield Problem(WARNING, "no-verdict", f"cannot run {boothd}: {why.strerror}")
            return
    said = done.stderr.decode("ascii", "backslashreplace").splitlines()
    # (the line after the refusal has its cause)
    if said[:1] != [f"boothd: {address} is not a member"]:
        refusal = "; ".join(re.sub("^boothd: ", "", line) for line in said)
        yield Problem(CRITICAL, "refused", refusal or f"boothd ended with status {done.returncode}, without a message")


# ---- what is in the file


def defaults(conf):
    """Yields tickets whose name looks like the section of the defaults."""
    for ticket in conf.tickets:
        if re.fullmatch("_*defaults?_*", ticket.name.lower()):
            text = f"{ticket.name}: is a ticket, so its settings do not apply to other tickets"
            text += f": the section of the defaults is {configuration.DEFAULTS}"
            yield Problem(CRITICAL, "defaults", text, ticket=ticket.name)


def families(conf):
    """Yields members that cannot reach each other or need two IP versions, and addresses that are no member's."""
    addresses = {member.address: ipaddress.ip_address(member.address) for member in conf.members}
    for text, address in addresses.items():
        unfit = (
            ("link-local, which needs a zone", address.version == 6 and address.is_link_local),
            ("a multicast address", address.is_multicast),
            ("the unspecified address", address.is_unspecified),
        )
        for what, holds in unfit:
            if holds:
                yield Problem(CRITICAL, "address", f"{text}: no member can listen at this address: it is {what}", text)
    split = (
        (WARNING, "have IPv4 and IPv6 addresses: each machine needs both", lambda address: address.version == 4),
        (CRITICAL, "with loopback and other addresses cannot reach each other", lambda address: address.is_loopback),
    )
    for level, what, test in split:
        one = [text for text, address in addresses.items() if test(address)]
        other = [text for text in addresses if text not in one]
        if one and other:
            yield Problem(level, "families", f"members {what}: {listed(one)}; {listed(other)}")
    if conf.port < 1024:
        yield Problem(WARNING, "port", f"port {conf.port} is below 1024, where booth@.service cannot listen")


def times(conf, sync_millis):
    """Yields tickets whose times leave too little room for a lost message, for a handler, or for the disk."""
    automatic = [ticket for ticket in conf.tickets if not ticket.is_manual]
    for ticket in automatic:
        room = ticket.expire - ticket.renewal
        if room <= ticket.timeout:
            text = f"{ticket.name}: when a renewal starts, the lease has {room:g} s left"
            text += f", but the second try comes {ticket.timeout} s later: one lost message can end the lease"
            yield Problem(WARNING, "tries", text, ticket=ticket.name)
        longest = ticket.timeout * (ticket.retries + 1)
        if ticket.handler and longest >= room:
            text = f"{ticket.name}: its handler may take {longest} s, but when it starts, the lease has {room:g} s left"
            text += ": a slow handler loses the lease"
            yield Problem(WARNING, "handler", text, ticket=ticket.name)
    if automatic:
        yield from syncs(automatic, sync_millis)


def syncs(automatic, sync_millis):
    """Yields a problem if the disk is too slow for the renewals of all tickets at the same time at one site."""
    one = SYNCS * sync_millis / 1000
    together, part = one * len(automatic), sum(one / ticket.renewal for ticket in automatic)
    counted = f"{count(len(automatic), 'ticket')}, {SYNCS} syncs a renewal of {sync_millis:g} ms each"
    taken = f"the renewals of all tickets take {together:.1f} s on the disk"
    tightest = min(automatic, key=lambda ticket: ticket.expire - ticket.renewal)
    room = tightest.expire - tightest.renewal
    quickest = min(automatic, key=lambda ticket: ticket.timeout)
    if part >= 1 or together >= room:
        text = f"{taken}, but the lease of {tightest.name} has {room:g} s left then ({counted})"
        yield Problem(CRITICAL, "syncs", text, ticket=tightest.name)
    elif part > MOST_OF_TIME or together >= quickest.timeout:
        text = f"{taken}, longer than the timeout of {quickest.name}, so members send requests again ({counted})"
        yield Problem(WARNING, "syncs", text, ticket=quickest.name)


# ---- what runs already


def of_members(conf, seconds):
    """Yields members that do not answer, and clocks that differ too much from this machine's."""
    try:
        key = conf.key()
    except configuration.Unreadable as why:
        yield Problem(WARNING, "not-asked", f"the members were not asked: {why}")
        return
    for answer in looking.look(conf, key, seconds):
        address = answer.member.address
        if answer.state not in (looking.ANSWERS, looking.PARTLY):
            why = f": {answer.why}" if answer.why else ""
            yield Problem(WARNING, answer.state, f"{address}: does not answer{why}", address)
        if answer.ahead is not None and abs(answer.ahead) > conf.skew:
            how = "ahead of" if answer.ahead > 0 else "behind"
            text = f"{address}: its clock is {span(abs(answer.ahead))} {how} this machine's, more than maxtimeskew"
            yield Problem(CRITICAL if conf.authfile else WARNING, "clock", text, address)
