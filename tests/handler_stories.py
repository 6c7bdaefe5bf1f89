"""Clusters whose ticket has a handler, or is granted manually.

It is imported by tests/cluster.py, and not run by itself.
"""

import os
import subprocess
import time

from checks import need
from members import MANUAL, SECONDS_OF_BOOTH, Ran, now, wait_for
from show_stories import shown_by
from stories import BY_HAND, NAME, PATIENCE, grants, is_held_by, passed, says, slack, story

# the handler of a site: it records each run and its descriptors, and then prints, sleeps or fails if a file says so
HANDLER = """#!/bin/sh
cd {folder}
echo "$BOOTH_TICKET $BOOTH_TICKET_EXPIRES $1" >> "ran.$BOOTH_LOCAL"
echo "$BOOTH_TICKET_EXPIRES ${{BOOTH_TICKET_TERM-none}}" >> "terms.$BOOTH_LOCAL"
ls -l "/proc/$$/fd" > "descriptors.$BOOTH_LOCAL"
echo $$ > "pid.$BOOTH_LOCAL"
if [ -e "prints.$BOOTH_LOCAL" ]; then set -e; echo checking; echo checking >&2; fi
[ ! -e "fails.$BOOTH_LOCAL" ] || exit 3
[ ! -e "sleeps.$BOOTH_LOCAL" ] || exec sleep "$(cat "sleeps.$BOOTH_LOCAL")"
"""
# a daemon whose standard streams are closed, and a daemon whose standard error is closed
CLOSED = """#!/bin/sh
exec {program} "$@" <&- >&- 2>&-
"""
SILENT = """#!/bin/sh
exec {program} "$@" 2>&-
"""


def script(path, text):
    with open(path, "w", encoding="ascii") as file:
        file.write(text)
    os.chmod(path, 0o755)
    return path


def handler_in(folder):
    """Returns the setting that names the handler, which is made in this folder."""
    return f'before-acquire-handler = "{script(folder + "/check", HANDLER.format(folder=folder))} db8"\n'


class Handler:
    """The handler of a member, by the files in the cluster's folder."""

    def __init__(self, cluster, member):
        self.path = lambda name: os.path.join(cluster.folder, f"{name}.{member.address}")

    def read(self, name):
        try:
            with open(self.path(name), encoding="ascii") as file:
                return file.read()
        except OSError:
            return ""

    def set(self, name, text=""):
        with open(self.path(name), "w", encoding="ascii") as file:
            file.write(text)

    def clear(self, name):
        os.remove(self.path(name))

    def runs(self):
        """Returns for each run of the handler the ticket, the end of the lease, and the last argument."""
        return [line.split() for line in self.read("ran").splitlines()]

    def terms(self):
        """Returns the terms that the handler got before an acquisition, and those before a renewal."""
        told = [line.split() for line in self.read("terms").splitlines()]
        return [term for end, term in told if end == "0"], [term for end, term in told if end != "0"]

    def is_running(self):
        return os.path.exists(f"/proc/{self.read('pid').strip()}")


def answered_meanwhile(member, asker):
    """Asks for the list until this run of booth has ended. Returns the longest time of an answer."""
    longest, end = 0, time.monotonic() + SECONDS_OF_BOOTH
    while asker.poll() is None:
        asked = time.monotonic()
        need(asked < end, "a grant that waits does not end")
        need(member.ask("CLst") is not None, "a list is not answered while the handler runs")
        longest = max(longest, time.monotonic() - asked)
        time.sleep(0.01)
    return longest


@story
def sites_with_a_handler(cluster):
    """a cluster whose ticket has a handler"""
    times = cluster.times
    one, two, arbitrator = cluster.members
    first, second = Handler(cluster, one), Handler(cluster, two)
    cluster.remember()
    one.start(cluster.program, cluster.conf)
    two.start(script(cluster.folder + "/closed", CLOSED.format(program=cluster.program)), cluster.conf)
    arbitrator.start(cluster.program, cluster.conf)
    before = one.record()
    first.set("fails")
    second.set("prints")
    says(one, ("grant", "-w", NAME), 1, "booth: handler failed\n")
    found = first.runs(), one.record()
    need(found == ([[NAME, "0", "db8"]], before), f"ran {found[0]}, kept {found[1]}")
    passed("if the handler fails, a grant is refused, no record is written and no vote is requested")
    first.clear("fails")

    first.set("sleeps", "2")
    asked = now()
    words = [cluster.client, "grant", "-w", NAME, "-c", cluster.conf, "-s", one.address]
    with subprocess.Popen(words, stdin=subprocess.DEVNULL, stdout=subprocess.PIPE, text=True) as asker:
        try:
            longest = answered_meanwhile(one, asker)
            printed = asker.communicate(timeout=SECONDS_OF_BOOTH)[0]
        finally:
            asker.kill()
    need((asker.returncode, printed) == (0, f"ticket {NAME} granted\n"), "the grant failed")
    need(now() - asked > 2, "the grant did not wait for its handler")
    need(longest < slack(), f"a list took {longest:.2f} s")
    first.clear("sleeps")
    passed(f"a handler that runs delays the grant, and no list ({longest * 1000:.0f} ms at most)")

    end, ends = now() + 2 * times.expire, set()
    while now() < end:
        record = one.record()
        need(record is not None and record.holds(now()), "the lease ended though its handler does not fail")
        ends.add(int(record.until))
        time.sleep(0.02)
    told = {int(run[1]) for run in first.runs()[2:]}
    need(told and told <= ends, f"the handler was told {told}, and leases ended at {ends}")
    passed(f"each renewal waits for the handler, which gets the end of the lease ({len(told)} renewals)")

    held = one.record()
    first.set("fails")
    in_a_renewal = times.renewal + times.timeout + slack()
    need(wait_for(lambda: one.record().until is None, in_a_renewal), "the lease is kept")
    given_back = now()
    need(wait_for(lambda: is_held_by(cluster, two), PATIENCE), "the other site did not take over")
    took = now() - given_back
    need(took < 3 * times.timeout + slack(), f"the other site took over after {took:.1f} s")
    need(not second.runs()[0][1].strip("0"), f"{second.runs()}")
    passed(f"if the handler begins to fail, the site releases the lease, and the other site takes over ({took:.1f} s)")
    for handler in (first, second):
        kept_out = handler.read("descriptors")
        need(kept_out and not any(word in kept_out for word in ("socket", "records", "lock", "journal")), kept_out)
    passed("a handler gets no file or socket of its daemon, and can print even if the daemon's streams are closed")

    second.set("sleeps", "30")
    need(wait_for(lambda: len(second.runs()) > 1, times.renewal + slack()), "no renewal started the handler")
    last = two.record()
    time.sleep(max(0, last.until + 0.1 - now()))
    need(two.record() == last and two.shown() != two.address, "a lease is renewed whose handler runs on")
    need(second.is_running(), "the handler was ended before it was started again")
    second.clear("sleeps")
    pid = second.read("pid")
    says(two, ("grant", "-w", NAME), 0, f"ticket {NAME} granted\n")
    need(not os.path.exists(f"/proc/{pid.strip()}"), "the handler that ran on runs still")
    passed("if the handler runs on, the lease ends, and the handler is ended before its next start")


@story
def a_handler_and_the_term_of_its_lease(cluster):
    """a cluster whose handler gets the term of the lease"""
    one, handler = cluster.members[0], Handler(cluster, cluster.members[0])
    in_a_renewal = cluster.times.renewal + slack()
    cluster.remember()
    cluster.start()
    grants(cluster, 0)
    first = shown_by(one)["term"]
    need(wait_for(lambda: handler.terms()[1], in_a_renewal), "no renewal started the handler")
    # (on a loaded machine the first round may fail, and then the handler is asked again)
    acquired, renewed = handler.terms()
    told = set(acquired) == {"0"} and renewed == [f"{first}"]
    need(told, f"the lease of term {first}, and told {acquired}, {renewed}")
    passed("a handler gets the term 0 before an acquisition, and before a renewal the term that booth shows")

    one.kill()
    one.start(cluster.program, cluster.conf)
    # (a daemon that was restarted renews first with a new term)
    shown = wait_for(lambda: (term := shown_by(one)["term"]) not in (None, first) and term, in_a_renewal)
    need(shown, "the lease has no new term")
    before = handler.terms()[1]
    need(wait_for(lambda: len(handler.terms()[1]) > len(before), in_a_renewal), "no renewal started the handler")
    need(len(before) > 1 and set(before) == {f"{first}"}, f"the lease of term {first}, and told {before}")
    last = handler.terms()
    need(last == (acquired, [*before, f"{shown}"]), f"the lease of term {shown}, and told {last}")
    passed(f"after a restart it gets the term of the lease on the disk, {first}, and then that of the new one, {shown}")


def lists_by_hand(cluster, owner):
    """Checks that `booth list` at every running member shows this owner of the manual ticket, and no end of its lease.
    """
    address = owner.address if owner else "none"
    text = f"ticket: {NAME}, leader: none\nticket: {BY_HAND}, leader: {address}\n"
    for member in cluster.members:
        heard = lambda: member.booth("list") == Ran(0, text, "")
        need(wait_for(heard, PATIENCE), f"{member.address} lists {member.booth('list')}, and not {address}")


@story
def a_manual_ticket(cluster):
    """a cluster with a ticket that is granted manually"""
    one, two, arbitrator = cluster.members
    cluster.start()
    says(one, ("revoke", BY_HAND), 1, "booth: ticket is not granted\n")
    says(one, ("grant", BY_HAND), 0, f"ticket {BY_HAND} granted\n")
    record = one.record(MANUAL)
    need(record.term == 1 and record.holds(now()), f"the record is {record}")
    lists_by_hand(cluster, one)
    passed("a manual ticket is granted at once, with its record on the disk, and listed by every member")
    says(one, ("grant", "-C", BY_HAND), 0, f"ticket {BY_HAND} granted\n")
    says(two, ("grant", BY_HAND), 1, "booth: ticket is granted elsewhere\n")
    says(arbitrator, ("grant", "-F", BY_HAND), 1, "booth: invalid argument\n")
    says(one, ("grant", "-F", NAME), 1, "booth: invalid argument\n")
    passed("it is not granted elsewhere without force, which is for manual tickets at sites alone")

    for member in (one, arbitrator):
        member.kill()
        member.start(cluster.program, cluster.conf)
    lists_by_hand(cluster, one)
    says(one, ("grant", BY_HAND), 0, f"ticket {BY_HAND} granted\n")
    need(one.record(MANUAL) == record, "the record changed")
    passed("its owner is one after a restart, and a member that starts hears who owns it")

    says(two, ("grant", "-F", BY_HAND), 0, f"ticket {BY_HAND} granted\n")
    need(all(member.record(MANUAL).holds(now()) for member in (one, two)), "one of the two does not hold")
    need(wait_for(lambda: arbitrator.shown(MANUAL) == two.address, PATIENCE), "the arbitrator lists another")
    need(one.shown(MANUAL) == one.address and two.shown(MANUAL) == two.address, "an owner lists another")
    passed("with force another site gets it too, both hold it, and each lists itself")

    says(one, ("revoke", BY_HAND), 0, f"ticket {BY_HAND} revoked\n")
    need(one.record(MANUAL).until is None, "the revoked lease is kept")
    need(arbitrator.shown(MANUAL) == two.address, "another's revocation is taken for the owner's")
    says(arbitrator, ("revoke", BY_HAND), 0, f"ticket {BY_HAND} revoked\n")
    need(two.record(MANUAL).until is None, "the revoked lease is kept")
    lists_by_hand(cluster, None)
    passed("each releases it by itself, or after a revoke at a member that lists it")


@story
def a_manual_ticket_that_asks(cluster):
    """a cluster with a ticket that is granted manually and has a handler"""
    one, two, arbitrator = cluster.members
    first, second = Handler(cluster, one), Handler(cluster, two)
    cluster.start()
    first.set("fails")
    says(one, ("grant", "-w", BY_HAND), 1, "booth: handler failed\n")
    need(first.runs() == [[BY_HAND, "0", "db8"]] and one.record(MANUAL) is None, f"ran {first.runs()}")
    says(arbitrator, ("grant", BY_HAND), 1, "booth: invalid argument\n")
    passed("if the handler fails, a manual grant is refused, and no record is written")
    first.clear("fails")

    first.set("sleeps", "2")
    asked = now()
    says(one, ("grant", BY_HAND), 0, f"grant of {BY_HAND} requested\n")
    for command in ("grant", "revoke"):
        says(one, (command, BY_HAND), 1, "booth: busy\n")
    need(one.record(MANUAL) is None, "a record is kept while the handler runs")
    need(wait_for(lambda: one.record(MANUAL) is not None, PATIENCE), "nothing is kept behind the handler")
    need(now() - asked > 2 and one.record(MANUAL).holds(now()), "it did not wait for its handler")
    lists_by_hand(cluster, one)
    passed("a manual grant waits for its handler, and meanwhile another grant or a revoke is refused")

    one.kill()
    one.start(cluster.program, cluster.conf)
    says(one, ("grant", "-w", BY_HAND), 0, f"ticket {BY_HAND} granted\n")
    says(one, ("revoke", BY_HAND), 0, f"ticket {BY_HAND} revoked\n")
    need(len(first.runs()) == 2, f"ran {first.runs()}")
    lists_by_hand(cluster, None)
    passed("a restart of the owner, a grant to the owner and a revoke do not run the handler")

    second.set("sleeps", "30")
    asked, due = now(), cluster.times.timeout * (cluster.times.retries + 1)
    says(two, ("grant", "-w", BY_HAND), 1, "booth: handler failed\n")
    took = now() - asked
    need(due - 0.5 < took < due + 2 * slack() and two.record(MANUAL) is None, f"refused after {took:.2f} s")
    second.clear("sleeps")
    pid = second.read("pid")
    says(two, ("grant", "-w", BY_HAND), 0, f"ticket {BY_HAND} granted\n")
    need(not os.path.exists(f"/proc/{pid.strip()}"), "the handler that ran on runs still")
    lists_by_hand(cluster, two)
    passed(f"a handler that is too slow has failed ({took:.1f} s), and is ended before the next start")


@story
def a_manual_ticket_that_asks_a_silent_site(cluster):
    """a cluster with a ticket that is granted manually, at a site whose standard error is closed"""
    one = cluster.members[0]
    first = Handler(cluster, one)
    first.set("prints")
    one.start(script(cluster.folder + "/silent", SILENT.format(program=cluster.program)), cluster.conf)
    says(one, ("grant", "-w", BY_HAND), 0, f"ticket {BY_HAND} granted\n")
    need(first.runs() == [[BY_HAND, "0", "db8"]] and one.record(MANUAL).holds(now()), f"ran {first.runs()}")
    first.set("fails")
    says(one, ("revoke", BY_HAND), 0, f"ticket {BY_HAND} revoked\n")
    says(one, ("grant", "-w", BY_HAND), 1, "booth: handler failed\n")
    passed("if a handler prints and succeeds, the ticket is granted; if it prints and fails, the grant is refused")
