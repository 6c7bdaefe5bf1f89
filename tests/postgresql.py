#!/usr/bin/env python3
"""Checks follow-postgresql and booth-postgresql against docs/POSTGRESQL.md, with two real servers on this machine.

Run it as root, as `python3 tests/postgresql.py`. It takes a minute or two, prints a line for each story, and ends all
programs that it started. Its status is 1 if a story failed, and 77 if PostgreSQL or another program is missing, which
it names. Each story continues from the one before. All the time a writer at each site tries to write, and no two sites
may accept writes at the same moment.
"""

import os
import subprocess
import sys
import time
from typing import Callable, Dict, List

HERE = os.path.dirname(os.path.abspath(__file__))
sys.path[:0] = [HERE, f"{HERE}/../tools"]

import machine_writers
from checks import Wrong, need
from machine_writers import Try
from postgresql_sites import (
    MANUAL,
    NAME,
    OWNER,
    PYTHON,
    SOCKETS,
    TICKET,
    UNIT,
    WATCH,
    Ended,
    Pair,
    Site,
    await_that,
    missing,
)
from serving import end_by_signals

NOT_HERE = 77
KEPT = "/var/lib/booth-postgresql"
LONG_AGO = 7200
PASSWORDS = f"/etc/booth/postgresql/{NAME}.pgpass"

Story = Callable[[Pair], None]
stories: List[Story] = []


def story(function: Story) -> Story:
    """Adds a story, whose docstring is the sentence that it checks."""
    stories.append(function)
    return function


def refused(done: Ended, text: str) -> None:
    """Checks that a run was refused with this text."""
    need(done.status == 1 and text in done.printed, f"not refused with {text!r}: {done}")


def write(site: Site, first: int, last: int) -> None:
    """Writes rows with these numbers."""
    rows = f"SELECT '{site.name}', n FROM generate_series({first}, {last}) n"
    need(site.ask(f"INSERT INTO booth_rows {rows} RETURNING 1"), f"{site.name} takes no rows")


def postmaster(site: Site) -> str:
    """Returns the first process of the site's server."""
    return site.must("head", "-n1", f"{site.data}/postmaster.pid")


def promote(site: Site) -> None:
    """Runs `start`, and sets the follower's state to a running service."""
    site.tell("starting")
    done = site.word("start")
    need(done.status == 0 and site.is_primary(), f"{site.name} is not promoted: {done}")
    site.tell("running")


def demote(site: Site, word: str = "stop") -> float:
    """Runs `stop` or `kill`, checks that no primary runs afterwards, and returns how long the run took."""
    site.tell("stopping")
    done = site.word(word)
    need(done.status == 0 and not site.is_primary(), f"{site.name}: {word}: {done}")
    site.tell("stopped")
    await_that(f"{site.name} is a standby", site.is_standby)
    need(site.word("check").status == 3, f"{site.name}: a standby is checked as something else")
    return done.took


def turn_off(site: Site) -> None:
    """Ends the server and the unit that watches it, as if the machine were off."""
    site.must("systemctl", "stop", WATCH)
    site.run("pkill", "-KILL", "-x", "postgres")
    site.must("systemctl", "stop", UNIT)
    site.tell("stopped")


def turn_on(site: Site) -> None:
    """Starts both again."""
    site.must("systemctl", "start", UNIT, WATCH)
    await_that(f"{site.name} answers", lambda: site.ask("SELECT 1"))


# ---- set up


@story
def setup_refuses(pair: Pair) -> None:
    """setup refuses what it cannot do, prints the cause, and writes nothing then"""
    one, two = pair.sites
    for site in pair.sites:
        site.make_server()
    refused(one.set_up("--primary", ticket=MANUAL), "is manual")
    refused(one.set_up("--primary", ticket="none"), "has no ticket none")
    refused(one.set_up("--primary"), "must be restarted once, for listen_addresses, and has no unit")
    refused(two.set_up("--standby"), "is missing: copy it from the primary's site")
    need(not os.path.exists(f"{one.root}/etc/booth/postgresql"), "it wrote something")
    for site in pair.sites:
        with open(f"{site.data}/postgresql.conf", "a", encoding="utf-8") as file:
            file.write(f"listen_addresses = '{site.address}'\n")
        site.control("restart")


@story
def a_pair_is_set_up(pair: Pair) -> None:
    """the primary continues to run, the other server becomes a copy of it, and a second setup changes nothing"""
    one, two = pair.sites
    before = postmaster(one)
    one.ask(machine_writers.TABLE)
    write(one, 1, 10)
    done = one.set_up("--primary", "-n")
    need(done.status == 0 and "would write" in done.printed, f"a dry run: {done}")
    need(not os.path.exists(f"{one.root}/etc/booth/postgresql"), "a dry run wrote something")
    done = one.set_up("--primary")
    need(done.status == 0 and one.is_primary() and postmaster(one) == before, f"setup --primary: {done}")
    again = one.set_up("--primary")
    need(again.status == 0 and "\nwrite " not in f"\n{again.printed}", f"a second run: {again}")
    two.write(PASSWORDS, one.read(PASSWORDS), 0o600)
    refused(two.set_up("--standby"), f"a server that {UNIT} did not start runs on")
    two.control("stop")
    done = two.set_up("--standby")
    need(done.status == 0 and two.streams() and two.rows() == one.rows(), f"setup --standby: {done}")
    need(os.path.exists(f"{two.data}.booth-old/PG_VERSION"), "what it had is gone")
    for site in pair.sites:
        path = f"/run/writer-{site.name}"
        # (the server's user may not read this folder)
        with open(f"{HERE}/machine_writer.py", encoding="utf-8") as file:
            words = [PYTHON, "-c", file.read(), site.name, f"{SOCKETS}/.s.PGSQL.{site.port}", path]
        site.must("install", "-o", OWNER, "/dev/null", path)
        as_owner = ["setpriv", "--reuid", OWNER, "--regid", OWNER, "--init-groups"]
        subprocess.Popen(site.entering(*as_owner, *words), stdin=subprocess.DEVNULL, env=site.environment())


# ---- the words


@story
def check_and_stop_before_a_follower(pair: Pair) -> None:
    """check distinguishes a primary, a standby and no server; stop demotes a primary that no unit started"""
    one, two = pair.sites
    need((one.word("check").status, two.word("check").status) == (0, 3), "check of a primary and of a standby")
    before = postmaster(two)
    need(two.word("stop").status == 0 and two.word("kill").status == 0 and postmaster(two) == before, "a standby ends")
    demote(one)
    two.must("systemctl", "stop", UNIT)
    need(two.word("check").status == 3, "check where no server runs")
    turn_on(two)


@story
def start_promotes(pair: Pair) -> None:
    """start promotes within the remaining time, and at one site only; check reports an unknown state as such"""
    one, two = pair.sites
    done = one.word("start", left=900)
    need(done.status == 1 and "leaves no time" in done.printed and one.is_standby(), f"a start without time: {done}")
    promote(one)
    need(one.word("check").status == 0, "check of what was promoted")
    write(one, 11, 20)
    await_that("the standby has the rows", lambda: 20 in two.rows())
    refused(two.word("start"), f"{one.address} runs a primary")
    need(two.is_standby(), "a second site is promoted")
    first = postmaster(one)
    one.must("kill", "-STOP", first)
    need(one.word("check").status == 1, "check of a server that does not answer")
    one.must("kill", "-CONT", first)


@story
def stop_and_takeover(pair: Pair) -> None:
    """after a stop the other site has every row, and the former primary follows it without a rewind"""
    one, two = pair.sites
    write(one, 21, 30)
    demote(one)
    promote(two)
    need({*range(1, 31)} <= two.rows(), "rows are lost by a stop")
    write(two, 31, 40)
    await_that("the former primary has the rows", lambda: 40 in one.rows())
    need("diverged" not in one.told(), f"it was rewound: {one.told()}")


@story
def kill_of_what_hangs(pair: Pair) -> None:
    """kill ends a stopped server (SIGSTOP) at once; the other site is promoted after it has got the missing data"""
    one, two = pair.sites
    one.must("systemctl", "stop", UNIT)
    write(two, 41, 50)
    two.must("kill", "-STOP", postmaster(two))
    took = demote(two, "kill")
    need(took < 5, f"a kill took {took:.1f} s")
    turn_on(one)
    promote(one)
    need({*range(1, 51)} <= one.rows(), "rows are lost by a kill")
    await_that("the former primary follows", two.streams)


@story
def what_ended_by_itself_is_started_again(pair: Pair) -> None:
    """a primary that ends by itself is noticed within seconds, and its follower starts it again; no row is lost"""
    one, two = pair.sites
    follower = f"booth-follow@{TICKET}.service"
    one.write(f"/etc/systemd/system/{follower}", "[Service]\nExecStart=/bin/sleep 1000\n")
    write(one, 51, 60)
    one.must("kill", "-KILL", postmaster(one))
    took = await_that("its follower is started", lambda: one.run("systemctl", "is-active", follower).status == 0)
    need(took < 5 and "the primary ended by itself" in one.told(), f"it took {took:.1f} s, and says {one.told()}")
    need(one.word("check").status == 3, "a primary that ended is checked as one")
    demote(one)
    promote(one)
    need({*range(1, 61)} <= one.rows(), "rows are lost by a crash")
    await_that("the standby follows", lambda: two.streams() and 60 in two.rows())


# ---- a former primary


@story
def alone_it_is_not_promoted(pair: Pair) -> None:
    """if no site answers, a server that may lack data is not promoted until an operator accepts that"""
    one, two = pair.sites
    await_that("it is noted that it follows", lambda: not os.path.exists(f"{two.root}{KEPT}/{NAME}.former"))
    turn_off(two)
    write(one, 71, 80)
    # (the site's lease gets later terms while the server runs and afterwards, and is not lost; then it is lost, and
    # another site may have had a primary)
    for term, seconds in ((11, 60.0), (14, 2.5)):
        one.hold(term, seconds)
        await_that("the later term is noted", lambda term=term: one.read(f"{KEPT}/{NAME}.former") == f"{term}\n", 5)
        if one.is_primary():
            demote(one)
    one.must("booth-postgresql", "may-promote", NAME)
    time.sleep(3)
    one.hold(17, 60)
    refused(one.word("start"), "no peer answers, and since this server was the primary")
    turn_off(one)
    turn_on(two)
    step = two.read(f"{KEPT}/{NAME}.in-step")
    two.write(f"{KEPT}/{NAME}.in-step", f"{int(step) - LONG_AGO}\n")
    refused(two.word("start"), "s ago, more than 3600 s")
    os.unlink(f"{two.root}{KEPT}/{NAME}.in-step")
    refused(two.word("start"), "this server never had all data of a primary")
    two.must("booth-postgresql", "accept", NAME)
    promote(two)
    need(80 not in two.rows(), "it has rows that it cannot have")
    write(two, 81, 90)


@story
def a_former_primary_is_rewound(pair: Pair) -> None:
    """a former primary with more data than the new one is rewound, and loses that data"""
    one, two = pair.sites
    turn_on(one)
    await_that("the former primary follows", one.streams)
    await_that("it has the rows", lambda: 90 in one.rows())
    need(80 not in one.rows(), "it has rows that were dropped")
    need("bytes of its log are dropped" in one.told() and "pg_rewind" in one.told(), f"it says: {one.told()}")


@story
def what_cannot_be_rewound_is_copied(pair: Pair) -> None:
    """if pg_rewind fails, data are copied only if setup allowed that, and the old data stay in another folder"""
    one, two = pair.sites
    demote(two)
    turn_off(two)
    one.must("booth-postgresql", "accept", NAME)
    promote(one)
    write(one, 1000, 5000)
    turn_off(one)
    turn_on(two)
    two.must("booth-postgresql", "accept", NAME)
    promote(two)
    # (the unit may stop its server before that answers once)
    one.must("systemctl", "start", UNIT, WATCH)
    await_that("it says what is needed", lambda: "setup was run without --allow-basebackup" in one.told())
    need(not one.ask("SELECT 1") and one.word("start").status == 1, "it goes on with other data")
    done = one.set_up("--standby", "--allow-basebackup")
    need(done.status == 0, f"setup again: {done}")
    await_that("it is copied, and follows", one.streams)
    need(1000 not in one.rows() and os.path.exists(f"{one.data}.booth-old/PG_VERSION"), "what it had is not beside it")


@story
def half_rebuilt_data_are_not_started(pair: Pair) -> None:
    """half rebuilt data start no server, and settings that an operator wrote are removed before a start"""
    one, _ = pair.sites
    one.must("systemctl", "stop", WATCH)
    one.must("systemctl", "stop", UNIT)
    one.write(f"{KEPT}/{NAME}.rebuilding", "changing nobody\n")
    need(one.run("systemctl", "start", UNIT).status == 1 and not one.ask("SELECT 1"), "half rebuilt data are started")
    refused(one.word("start"), "are being rewound or copied")
    need(one.word("stop").status == 0, "a stop of what is rebuilt")
    os.unlink(f"{one.root}{KEPT}/{NAME}.rebuilding")
    turn_on(one)
    one.ask("ALTER SYSTEM SET primary_conninfo = 'host=192.0.2.1'")
    one.must("systemctl", "restart", UNIT)
    await_that("it follows the sites of its configuration", one.streams)


@story
def synchronous_loses_nothing(pair: Pair) -> None:
    """with --synchronous a takeover loses no confirmed write, and writes wait while the other site is away"""
    one, two = pair.sites
    for site, kind in ((two, "--primary"), (one, "--standby")):
        done = site.set_up(kind, "--synchronous", "--allow-basebackup")
        need(done.status == 0, f"setup --synchronous: {done}")
    state = "SELECT sync_state FROM pg_stat_replication"
    await_that("the standby is a synchronous one", lambda: two.ask(state) in ("sync", "quorum"))
    began = time.monotonic()
    time.sleep(2)
    await_that("it was in step", lambda: one.read(f"{KEPT}/{NAME}.in-step"))
    turn_off(two)
    promote(one)
    taken = {each.number for each in tries(two) if each.is_taken and each.sent > began}
    need(len(taken) > 10, f"{len(taken)} writes were taken")
    need(taken <= one.rows(), f"{len(taken - one.rows())} of {len(taken)} writes are lost")
    began = time.monotonic()
    time.sleep(1.5)
    need(not any(each.is_taken and each.sent > began for each in tries(one)), "a write did not wait for the other site")
    turn_on(two)
    await_that("writes are taken again", lambda: any(each.is_taken and each.sent > began for each in tries(one)))


@story
def it_is_taken_from_under_its_ticket(pair: Pair) -> None:
    """remove ends the connection between a server and its ticket; the server continues to run in its role"""
    _, two = pair.sites
    two.must("booth-postgresql", "remove", NAME)
    need(two.is_standby(), "the server does not run on")
    refused(two.word("check"), "booth-postgresql setup writes it")


# ---- all of it


def tries(site: Site) -> List[Try]:
    """Returns the attempts that the writer of a site has logged."""
    lines = site.read(f"/run/writer-{site.name}").split("\n")[:-1]
    return [machine_writers.parsed(line) for line in lines if line.count(" ") >= 3]


def never_two(pair: Pair) -> None:
    """the two sites never accepted writes at the same moment"""
    noted: Dict[str, List[Try]] = {site.name: tries(site) for site in pair.sites}
    found = machine_writers.figures(noted, 0.0, time.monotonic())
    need(found.taken > 0 and found.seconds_at_two == 0, f"{found}")


def passes(each: Story, pair: Pair) -> bool:
    """Runs a story, and returns whether it went as it must."""
    begun = time.monotonic()
    try:
        each(pair)
    except (Wrong, OSError, ValueError, subprocess.TimeoutExpired) as why:
        print(f"FAILED  {each.__doc__}: {why}", flush=True)
        for site in pair.sites:
            for unit in (WATCH, UNIT):
                print("".join(f"  {site.name}: {line}\n" for line in site.told(unit).splitlines()[-12:]), end="")
        return False
    print(f"ok      {each.__doc__} ({time.monotonic() - begun:.1f} s)", flush=True)
    return True


def main() -> int:
    """Runs the stories until one fails, and returns the status."""
    end_by_signals()
    lacks = missing()
    if lacks:
        print(f"postgresql: not tried here, for want of {', '.join(lacks)}")
        return NOT_HERE
    begun, pair = time.monotonic(), Pair()
    try:
        told = 0
        for each in (*stories, never_two):
            if not passes(each, pair):
                break
            told += 1
    finally:
        pair.close()
    print(f"postgresql: {told} of {len(stories) + 1} passed, in {time.monotonic() - begun:.1f} s")
    return 0 if told == len(stories) + 1 else 1


if __name__ == "__main__":
    sys.exit(main())
