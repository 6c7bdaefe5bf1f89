#!/usr/bin/env python3
"""Checks services that follow a ticket of three real boothd: they start if it is held, and stop before its lease ends.

Run it as `python3 tests/follow.py [BOOTHD BOOTH BOOTH-FOLLOW]`, by default those that `make build` leaves. It takes
less than a minute, prints a line for each check, ends all that it started, and has the status 1 if a check failed.
If a program is not built it checks nothing, with status 0.

The services of both sites write a line with its time into one file, ten times a second, and no two sites' lines may
overlap.
"""

import contextlib
import functools
import io
import multiprocessing
import os
import signal
import subprocess
import sys
import time

HERE = os.path.dirname(os.path.abspath(__file__))
TOP = os.path.dirname(HERE)
sys.path[:0] = [HERE, f"{TOP}/tools"]

import frames
from checks import Wrong, need
from following import Services
from members import TICKET, Cluster, Times, now, wait_for
from scratch import scratch
from serving import built_program, end_by_signals, own_addresses
from stories import PATIENCE, grants, passed, slack

TIMES = Times(expire=10)
# (the times leave room between the margin and a renewal for the time in which the key is read again)
LONG_TIMES = Times(expire=20, renewal=8)
# the margin is 5 s: a service is stopped up to 5 s after its lease was renewed, if no later end is armed
HALF_TIMES = Times(expire=20, renewal=10)
# the default margin and kill time of the first times
MARGIN, KILL = 2.5, 1.25
# how long a stopped service stays stopped, in seconds
PAUSE = 5
KEY, NEW_KEY = b"a-key-of-the-cluster", b"the-next-key-of-the-cluster"
NAME = TICKET.decode()

stories = []


def story(function):
    stories.append(function)
    return function


def times_of(function):
    """Returns the times of the cluster of a story."""
    return {a_key_that_is_changed: LONG_TIMES, a_renewal_that_fails_once: HALF_TIMES}.get(function, TIMES)


def begun(cluster, services):
    """Starts members that answer at once, a follower at each site, and the ticket at the first site, whose service
    runs.
    """
    one, two, _ = cluster.members
    cluster.remember()
    cluster.start()
    for site in (one, two):
        services.follow(site)
    grants(cluster, 0)
    need(services.await_up(one, PAUSE + PATIENCE), "the service does not start where the ticket is held")
    need(not services.is_up(two), "the service starts where the ticket is not held")
    return one, two


def stops_in_time(services, site, until, margin=MARGIN):
    """Checks that the site's service stops by itself before the end of its lease, and not before the margin begins."""
    need(services.await_down(site, until - now() + PATIENCE), "the service runs on")
    last = max(spell.last for spell in services.spells() if spell.site == site.address)
    _, listed = services.runs(site)[-1]
    need(last < until, f"the service wrote {last - until:.3f} s after the lease's end")
    need(listed <= until, f"a list told an end {listed - until:.3f} s after the lease's")
    # (the last line may be as old as the interval between lines, and late on a busy machine)
    need(listed - margin - 0.5 < last, f"the service stopped {listed - last:.3f} s before the end that was listed")
    return until - last


@story
def key_and_a_holder_that_is_killed(cluster, services):
    """a holder's daemon that is killed"""
    one, two = begun(cluster, services)
    passed("a service starts only at the site that holds its ticket; each answer is signed")
    first = one.record().term
    need(services.started_with(one) == first, f"term {first} is started with {services.started_with(one)}")
    one.kill()
    killed, until = now(), one.record().until
    left = stops_in_time(services, one, until)
    passed(f"if no member answers, it is stopped {left:.2f} s before the lease's end")
    need(services.await_up(two, until - now() + PATIENCE), "the other site's service does not start")
    died, ended = now() - killed, now() - until
    passed(f"the other site's service is up {died:.2f} s after the holder's death, {ended:.2f} s after the lease's end")
    term = services.started_with(two)
    need(first < term == two.record().term, f"after term {first} term {two.record().term} is started with {term}")
    passed(f"each program gets the term of its site's lease: {first}, and then {term}")
    one.start(cluster.program, cluster.conf)
    time.sleep(2)
    need(not services.is_up(one), "it is started where the ticket is not held any more")
    passed("the first site's service stays stopped when its daemon is back")


@story
def ends_of_a_lease(cluster, services):
    """a holder that renews its lease while nothing else happens"""
    one, _ = begun(cluster, services)
    armed = lambda: sum(word == "renew" for word, _ in services.runs(one))
    before, renewals = armed(), 4
    time.sleep(renewals * TIMES.renewal)
    # (each answer shows an end that is a millisecond or so later, so there may be one run more now and then)
    runs = armed() - before
    need(renewals - 1 <= runs <= renewals + 2, f"{runs} ends were armed in the time of {renewals} renewals")
    passed(f"an end is armed for each renewal of the lease, and not for each answer: {runs} in the time of {renewals}")


@story
def a_way_that_is_cut(cluster, services):
    """a holder that is cut off from the others"""
    one, two = begun(cluster, services)
    others = cluster.members[1:]
    for member in others:
        member.server.process.send_signal(signal.SIGSTOP)
    until = one.record().until
    left = stops_in_time(services, one, until)
    need(one.shown() == one.address or now() > until, "the holder lists another")
    passed(f"without renewals the service is stopped {left:.2f} s before the lease's end, although this site is listed")
    for member in others:
        member.server.process.send_signal(signal.SIGCONT)
    up = wait_for(lambda: services.is_up(one) or services.is_up(two), PATIENCE)
    need(up, "no service starts once the way is back")
    passed("a service is started again once the others are back")


@story
def a_daemon_that_stands_still_and_a_slow_stop(cluster, services):
    """a holder's daemon that stands still, and a service that stops slowly"""
    one, two = begun(cluster, services)
    services.set("slow", one, "0.4")
    one.server.process.send_signal(signal.SIGSTOP)
    until = one.record().until
    left = stops_in_time(services, one, until)
    # (if the machine has no processor for it, no stop is done in time)
    is_killed = "kill" in services.words(one)
    need(not is_killed or slack() > KILL, f"it was run with {services.words(one)}")
    need(services.await_up(two, until - now() + PATIENCE), "the other site's service does not start")
    passed(f"the follower waits for a stop of 0.4 s, which is over {left:.2f} s before the lease's end")
    one.server.process.send_signal(signal.SIGCONT)
    time.sleep(2)
    need(not services.is_up(one), "the service is started by what the daemon listed before it heard the others")
    passed("if a daemon continues after its lease has ended, no service starts")


@story
def a_stop_that_hangs(cluster, services):
    """a service whose stop never ends"""
    one, two = begun(cluster, services)
    services.set("hangs", one)
    one.kill()
    until = one.record().until
    left = stops_in_time(services, one, until, KILL)
    words = services.words(one)
    need(words[-2:] == ["stop", "kill"], f"it was run with {words}")
    need(services.await_up(two, until - now() + PATIENCE), "the other site's service does not start")
    passed(f"if a stop hangs, the service is killed {left:.2f} s before the lease's end")


@story
def a_follower_that_is_killed(cluster, services):
    """a follower that is killed, and one that knows no end after it"""
    one, _ = begun(cluster, services)
    first = services.process(one)
    services.kill(one)
    time.sleep(1)
    need(services.process(one) == first, "the service ended with its follower")
    passed("if a follower is killed, its service runs on, and its end is armed")
    runs = len(services.words(one))
    services.follow(one)
    need(wait_for(lambda: len(services.words(one)) > runs, PATIENCE), "the program is not run")
    need(services.words(one)[runs] == "stop", f"the next one begins with {services.words(one)[runs]}")
    is_new = lambda: services.process(one) not in (None, first)
    need(wait_for(is_new, PAUSE + PATIENCE), "the service is not started anew")
    at_one = lambda: [spell for spell in services.spells() if spell.site == one.address]
    need(wait_for(lambda: len(at_one()) > 1, PATIENCE), "the service writes nothing")
    one_by_one = at_one()
    need(len(one_by_one) == 2 and one_by_one[1].first - one_by_one[0].last >= PAUSE, f"the service ran {one_by_one}")
    passed("the next follower finds it running, stops it first, and starts it again after the pause")


@story
def a_service_that_is_taken_over(cluster, services):
    """a follower that is killed, and one that takes the service over"""
    one, two = begun(cluster, services)
    first = services.process(one)
    services.kill(one)
    ends = lambda: [end for _, end in services.runs(one)]
    services.follow(one, takes_over=True)
    need(wait_for(lambda: "check" in services.words(one), PATIENCE), "the service is not looked for")
    last = max(ends())
    need(wait_for(lambda: max(ends()) > last, TIMES.expire), "no later end is armed")
    time.sleep(TIMES.expire)
    need(services.process(one) == first, "the service was not left running")
    need(services.words(one) == ["stop", "start", "check"], f"it was run with {services.words(one)}")
    passed("the next follower finds it running, and takes it over without a stop")
    services.kill(one)
    one.kill()
    until = one.record().until
    services.follow(one, takes_over=True)
    left = stops_in_time(services, one, until)
    passed(f"a follower that receives no list stops the adopted service {left:.2f} s before the lease's end")
    need(services.await_up(two, until - now() + PATIENCE), "the other site's service does not start")


def restarted(cluster, services, member):
    """Restarts the holder's daemon. Returns the term of the service's start, and a later one of the lease."""
    first = services.started_with(member)
    member.kill()
    member.start(cluster.program, cluster.conf)
    later = wait_for(lambda: member.record().term > first and member.record().term, TIMES.expire)
    need(later, f"after a restart the lease has term {member.record().term}, and it had {first}")
    return first, later


@story
def a_daemon_that_is_restarted(cluster, services):
    """a holder's daemon that is restarted"""
    one, _ = begun(cluster, services)
    process = services.process(one)
    first, later = restarted(cluster, services, one)
    is_handed = lambda: any(int(term) >= later for _, _, _, term in services.run_lines(one))
    need(wait_for(is_handed, TIMES.expire), f"no run is handed term {later}: {services.run_lines(one)}")
    time.sleep(PAUSE)
    need(services.process(one) == process, f"the service was not left running: {services.said()}")
    need(services.words(one) == ["stop", "start"], f"it was run with {services.words(one)}")
    passed(f"a service runs on with term {first} after its daemon restarts, although its lease then has term {later}")


@story
def a_service_that_is_restarted_for_a_term(cluster, services):
    """a holder's daemon that is restarted, with --restart-on-term"""
    services.options = ("--restart-on-term",)
    one, _ = begun(cluster, services)
    first, later = restarted(cluster, services, one)
    restarts = ["stop", "start", "stop", "start"]
    is_restarted = wait_for(lambda: services.words(one)[:4] == restarts, PAUSE + PATIENCE)
    need(is_restarted, f"it was run with {services.words(one)}")
    need(services.started_with(one) >= later, f"term {later} is started with {services.started_with(one)}")
    need(services.await_up(one, PATIENCE), "the service is not up")
    time.sleep(TIMES.expire)
    # (on a loaded machine a renewal may fail, and then the lease has one more term)
    terms = services.terms(one)
    need(terms == sorted(set(terms)), f"it was started with the terms {terms}")
    restarts = services.words(one)
    passed(f"a service that was started with term {first} is restarted for each later term: {terms[1:]}")
    need(b"its lease has another term than at its start" in services.said(), f"no line tells why: {services.said()}")
    services.kill(one)
    services.follow(one, takes_over=True)
    # (the answer with the term may arrive before the check has written its line, and then the check is ended)
    adopted = [*restarts, "stop", "start"]
    without_checks = lambda: [word for word in services.words(one) if word != "check"]
    is_restarted = wait_for(lambda: without_checks()[: len(adopted)] == adopted, PAUSE + PATIENCE)
    need(is_restarted, f"it was run with {services.words(one)}")
    adopts = b"checks whether the service, which an earlier follower left running"
    need(adopts in services.said(), f"it was not adopted: {services.said()}")
    passed("the next follower does not know the term of its start, and restarts it too")


@story
def an_end_that_cannot_be_armed(cluster, services):
    """a service for which no later end can be armed"""
    one, two = begun(cluster, services)
    services.set("unarmed", one)
    until = services.runs(one)[-1][1]
    need(services.await_down(one, TIMES.expire + PATIENCE), "the service runs on")
    last = max(spell.last for spell in services.spells() if spell.site == one.address)
    need(last < until, f"the service wrote {last - until:.3f} s after the end that was armed")
    passed(f"if no end can be armed for a renewal, the service is stopped {until - last:.2f} s before the last end")
    need(not services.is_up(two), "the other site's service starts while the lease is renewed")
    os.remove(services.path("unarmed", one))
    need(services.await_up(one, PAUSE + PATIENCE), "it is not started once an end can be armed")


@story
def a_renewal_that_fails_once(cluster, services):
    """a service for which a later end can be armed only at the second try"""
    one, _ = begun(cluster, services)
    first, until = services.process(one), services.runs(one)[-1][1]
    renewals = lambda: [end for word, end in services.runs(one) if word == "renew"]
    before = len(renewals())
    services.set("once", one)
    failed = wait_for(lambda: not os.path.exists(services.path("once", one)), HALF_TIMES.renewal + PATIENCE)
    need(failed, "no later end is to be armed")
    failed_at = now()
    need(wait_for(lambda: len(renewals()) > before + 1, PATIENCE), f"it is not tried again: {services.runs(one)}")
    again = now() - failed_at
    time.sleep(max(0.0, until - now()) + 1)
    need(services.process(one) == first, f"the service was not left running: {services.said()}")
    need(services.words(one) == ["stop", "start"], f"it was run with {services.words(one)}")
    passed(f"a failed renewal is run again {again:.2f} s later, and the service runs on beyond the earlier end")


@story
def a_ticket_that_is_moved(cluster, services):
    """a move, with the service stopped first"""
    one, two = begun(cluster, services)
    services.kill(one)
    need(services.run(one, "stop") == 0 and not services.is_up(one), "the service is not stopped")
    ran = one.booth("move", "-w", NAME, two.address)
    need((ran.status, ran.said) == (0, ""), f"the move: {ran}")
    need(services.await_up(two, PAUSE + PATIENCE), "the service does not start where the ticket is moved to")
    services.follow(one)
    ran = two.booth("revoke", NAME)
    need(ran.status == 0, f"the revoke: {ran}")
    revoked = now()
    need(services.await_down(two, PATIENCE), "the service runs on after a revoke")
    passed(f"the service follows a move, and is stopped {now() - revoked:.2f} s after a revoke")


@story
def a_move_beside_a_follower(cluster, services):
    """a move on a machine on which a follower of the ticket lives"""
    one, two = begun(cluster, services)
    with scratch("booth-test-") as folder, followed_in(folder):
        told = f"booth: a follower of ticket {NAME} runs here: booth-switchover {NAME} {two.address} "
        before = one.record()
        for words in ((NAME, two.address), ("-w", NAME, two.address)):
            ran = one.booth("move", *words)
            need(ran.status == 1 and ran.said.startswith(told), f"the move: {ran}")
        need(one.record().term == before.term and services.is_up(one), "it changed something")
        passed("it does nothing, and names booth-switchover")
        services.kill(one)
        need(services.run(one, "stop") == 0 and not services.is_up(one), "the service is not stopped")
        ran = one.booth("move", "--force", "-w", NAME, two.address)
        need((ran.status, ran.said) == (0, ""), f"the move: {ran}")
        need(services.await_up(two, PAUSE + PATIENCE), "the service does not start where the ticket is moved to")
        passed("with -f the move is made")
        before = two.record()
        with open(f"{folder}/{NAME}.paused", "w", encoding="ascii"):
            ran = one.booth("move", NAME, two.address)
        need((ran.status, ran.said) == (0, "") and two.record().term == before.term, f"the move: {ran}")
        os.remove(f"{folder}/{NAME}.paused")
        services.kill(two)
        ran = one.booth("move", NAME, two.address)
        need((ran.status, ran.said) == (0, "") and services.is_up(two), f"the move: {ran}")
        passed("it does not refuse if the follower is paused or ended, and changes nothing if the site has the ticket")
    need(services.run(two, "stop") == 0, "the service is not stopped")


@contextlib.contextmanager
def followed_in(folder):
    """The files of the followers stand in this folder, in which the ticket's service has one."""
    with open(f"{folder}/{NAME}.state", "w", encoding="ascii") as file:
        file.write("service=running\n")
    os.environ["BOOTH_FOLLOW_RUN"] = folder
    try:
        yield
    finally:
        del os.environ["BOOTH_FOLLOW_RUN"]


@story
def a_key_that_is_changed(cluster, services):
    """a key that is changed in its steps, each with the daemons of all members, while a service runs"""
    one, _ = begun(cluster, services)
    first = services.process(one)
    for ring in (frames.Ring(KEY, NEW_KEY), frames.Ring(NEW_KEY, KEY), frames.Ring(NEW_KEY)):
        cluster.file("booth.conf", ring)
        for member in cluster.members:
            member.kill()
            member.key = ring
            member.start(cluster.program, cluster.conf)
            time.sleep(1)
        time.sleep(2)
    time.sleep(LONG_TIMES.expire)
    said = services.said()
    need(services.process(one) == first, f"the service was not left running: {said}")
    need(services.words(one) == ["stop", "start"], f"it was run with {services.words(one)}")
    need(b"the keys are read again" in said, f"no line tells of the keys: {said}")
    passed("a follower reads its keys again if its daemon has others; its service runs on in each step of the change")


# ---- what is refused

# words, and what is said of them
REFUSALS = [
    ("none {program}", "cannot follow ticket none: the configuration has no such ticket"),
    ("-m 4 {name} {program}", f"cannot follow ticket {NAME}: the margin is too long for its expire and renewal-freq"),
    ("-m 2 -k 2 {name} {program}", f"cannot follow ticket {NAME}: the time of a kill is not below the margin"),
    ("-m 0 {name} {program}", "bad number"),
    ("-k 4294967296 {name} {program}", "bad number"),
    ("a/b\x7f {program}", "bad ticket"),
]


def words_are_refused(program, folder):
    """words that do not fit, and a clock that no daemon kept in this boot, are refused, each with its cause"""
    records = f"{folder}/records"
    os.makedirs(records)
    with Cluster("", folder, ("127.0.0.1", "127.0.0.2", "127.0.0.3"), times=TIMES) as cluster:

        def is_told(text, *words, site="127.0.0.1"):
            base = [program, "-c", cluster.conf, "-s", site, "-d", records]
            done = subprocess.run([*base, *words], capture_output=True, text=True, timeout=PATIENCE)
            # (tests/causes.py looks at the line with the cause behind it)
            want = (1, "", f"booth-follow: {text}")
            need((done.returncode, done.stdout, done.stderr.split("\n")[0]) == want, f"{words}: {done}")

        keep_clock(records)
        for words, text in REFUSALS:
            is_told(text, *words.format(name=NAME, program="/bin/false").split())
        is_told("bad program", NAME, " ")
        is_told(f"cannot follow ticket {NAME}: no site has this address", NAME, "/bin/false", site="127.0.0.3")
        unkept = "cannot read the clock of the records: no daemon wrote its clock there since the boot"
        keep_clock(records, boot=b"0" * 36)
        is_told(unkept, NAME, "/bin/false")
        os.remove(f"{records}/booth.clock")
        is_told(unkept, NAME, "/bin/false")


def this_boot():
    with open("/proc/sys/kernel/random/boot_id", "rb") as file:
        return file.read(36)


def keep_clock(records, boot=None):
    """Writes the clock that a daemon of a boot would keep: its version, its offset, a reading, and the boot's id."""
    offset = int((time.time() - time.clock_gettime(time.CLOCK_BOOTTIME)) * 1000)
    with open(f"{records}/booth.clock", "wb") as file:
        file.write(b"".join(number.to_bytes(8, "big") for number in (1, offset, 0)) + (boot or this_boot()))


# ---- the runs


def outcome(place, programs):
    """Returns whether the story at this place passes, in a cluster of its own, and the lines that it printed."""
    function, printed, passes = stories[place], io.StringIO(), False
    with contextlib.redirect_stdout(printed), scratch("booth-follow-") as folder:
        try:
            key = KEY if "key" in function.__name__ else None
            with Cluster(programs[0], folder, own_addresses(), times=times_of(function), client=programs[1], key=key) as cluster:
                with Services(programs[2], cluster) as services:
                    function(cluster, services)
                    need(not services.overlaps(), f"two services overlapped: {services.overlaps()}")
                    need(not cluster.watch.wrong, f"two held at one moment: {cluster.watch.wrong[:3]}")
                    said = services.said().splitlines()
                strange = [line for line in said if not line.startswith(b"booth-follow: ")]
                need(said and not strange, f"the followers said {strange or said}")
            passed(f"no two services overlapped ({function.__doc__})")
            passes = True
        except Exception as why:  # (whatever it is, the other stories are told)
            print(f"FAILED  {function.__doc__}: {type(why).__name__}: {why}")
    return passes, printed.getvalue()


def checked(check, *arguments):
    """Runs a check. Returns whether it passes."""
    try:
        check(*arguments)
    except Wrong as why:
        print(f"FAILED  {check.__doc__}: {why}", flush=True)
        return False
    passed(check.__doc__)
    return True


def run(programs):
    """Runs all stories at the same time, since they mostly wait. Prints how many failed."""
    failed, started = 0, time.monotonic()
    with scratch("booth-refused-") as folder:
        failed += not checked(words_are_refused, programs[2], folder)
    with multiprocessing.get_context("fork").Pool(len(stories)) as pool:
        for passes, printed in pool.imap_unordered(functools.partial(outcome, programs=programs), range(len(stories))):
            print(printed, end="", flush=True)
            failed += not passes
        pool.close()
        pool.join()
    took, all_checks = time.monotonic() - started, len(stories) + 1
    print(f"follow: {all_checks - failed} passed, {failed} failed, in {took:.1f} s ({programs[2]})")
    return failed


def main(words):
    end_by_signals()
    programs = words if len(words) == 3 else [built_program(name) for name in ("boothd", "booth", "booth-follow")]
    if None in programs:
        print("follow: skipped, since boothd, booth or booth-follow is not built: run make build")
        return 0
    programs = [os.path.abspath(program) for program in programs]
    for program in programs:
        if not os.access(program, os.X_OK):
            sys.exit(f"follow.py: cannot run {program}")
    return 1 if run(programs) else 0


if __name__ == "__main__":
    sys.exit(main(sys.argv[1:]))
