#!/usr/bin/env python3
"""Checks booth-lease-guard against booth-lease-guard(8).

Run it as `python3 tests/lease_guard.py [WORD..]`, which runs the stories whose name has one of the words, or all. It
needs no Pacemaker and nothing that is built: stand-ins on PATH note what is called (tests/pacemaker_room.py). It takes
less than a minute, prints a line for each story, and has the status 1 if one failed.
"""

import concurrent.futures
import contextlib
import os
import re
import signal
import subprocess
import sys
import time
from typing import Iterator, List

HERE = os.path.dirname(os.path.abspath(__file__))
sys.path[:0] = [HERE, f"{HERE}/../tools"]

import lease_holding
import pacemaker_cib
from checks import need
from lease_daemons import DaemonWatch
from lease_holding import Ends, Now
from pacemaker_room import CLONE, CLOSED, GROUP, PACKAGING, PRIMITIVE, SLACK, TEMPLATE, UNIT, Room, Story, date, same
from scratch import scratch

# a guard acts 1 s after an end of these times, and resets the machine 3 s after it
TIMES = "expire=20 margin=4 stop=1"
stories: List[Story] = []


def story(function: Story) -> Story:
    """Adds a story to the list of stories."""
    stories.append(function)
    return function


@contextlib.contextmanager
def guard(room: Room, last: str = "") -> Iterator["subprocess.Popen[bytes]"]:
    """A guard runs in this block."""
    words = [f"{PACKAGING}/booth-lease-guard", "--cib", f"{room.folder}/cib.xml"]
    given = room.environment({"LAST_RESORT": last or f"{room.folder}/bin/reset"})
    with open(f"{room.folder}/told", "ab") as told:
        process = subprocess.Popen(words, env=given, stdin=subprocess.DEVNULL, stdout=told, stderr=told)
        try:
            yield process
        finally:
            process.send_signal(signal.SIGCONT)
            process.terminate()
            process.wait(10)


def lease_begins(room: Room, seconds: float, times: str = TIMES) -> None:
    """The running guard sees the begin of a lease that ends this far ahead; the resource runs."""
    room.until(lambda: "guards svc" in room.text("told"), SLACK, "the guard reads the CIB")
    room.put("svc", "0\n")
    room.cib(PRIMITIVE, ["svc"], date(seconds), times)


def has_called(room: Room, text: str) -> bool:
    """Returns whether a stand-in was called with these words."""
    return any(text in call for call in room.calls())


# ---- what runs beyond its end


@story
def what_runs_beyond_its_end_is_stopped(room: Room) -> None:
    """a resource that runs beyond its end is stopped by its agent, a grace after the end and not earlier"""
    room.cib(PRIMITIVE, ["svc"], CLOSED, TIMES)
    with guard(room):
        lease_begins(room, 3)
        took = room.until(lambda: room.text("svc") == "7\n", 4 + SLACK, "svc is stopped")
        need(took > 2.9, f"it was stopped after {took} s")
        need("svc is running here" in room.text("told"), room.text("told"))
        time.sleep(1)
    same([call for call in room.calls() if "force-stop" in call].__len__(), 1, "stops of what is stopped")
    need(not room.calls("reset"), "the machine was reset")


@story
def a_renewal_leaves_it_running(room: Room) -> None:
    """a later end in the CIB leaves a resource running, and an earlier end that a stop sets gives the stop its time"""
    room.put("svc", "0\n")
    room.cib(PRIMITIVE, ["svc"], date(2), TIMES)
    with guard(room):
        room.until(lambda: "guards svc" in room.text("told"), SLACK, "the end is read")
        room.cib(PRIMITIVE, ["svc"], date(6), TIMES)
        time.sleep(4)
        same(room.text("svc"), "0\n", "the resource after a renewal")
        room.cib(PRIMITIVE, ["svc"], CLOSED, TIMES)
        time.sleep(0.7)
        same(room.text("svc"), "0\n", "the resource while Pacemaker stops it")
        room.until(lambda: room.text("svc") == "7\n", 4 + SLACK, "svc is stopped at the end that was told")


@story
def each_kind_is_ended(room: Room) -> None:
    """a unit, a template's unit, each primitive of a group and a clone are ended, and promoted instances are demoted"""
    for resources, refs in ((UNIT, ["svc"]), (TEMPLATE, ["svc"])):
        room.put("db8.service", "active\n")
        room.cib(resources, refs, date(-1), TIMES)
        with guard(room):
            room.until(lambda: not room.text("db8.service"), SLACK, "the unit is stopped")
    room.put("svc", "0\n")
    room.put("two", "0\n")
    room.cib(GROUP, ["all"], date(-1), TIMES)
    with guard(room):
        room.until(lambda: room.text("svc") + room.text("two") == "7\n7\n", SLACK, "the group is stopped")
    room.put("pg", "8\n")
    room.cib(CLONE, ["pg-clone"], date(-1), TIMES, "promoted")
    with guard(room):
        room.until(lambda: room.text("pg") == "0\n", SLACK, "the clone is demoted")
        time.sleep(0.5)
    need(not has_called(room, "pg --force-stop"), "a demoted resource was stopped")
    room.put("pg", "8\n")
    room.put("pg.demote.fails")
    with guard(room):
        room.until(lambda: room.text("pg") == "7\n", SLACK, "what cannot be demoted is stopped")


@story
def a_unit_that_does_not_stop_is_killed(room: Room) -> None:
    """a unit whose stop fails is killed"""
    room.put("db8.service", "active\n")
    room.put("db8.service.stop.fails")
    room.cib(UNIT, ["svc"], date(-1), TIMES)
    with guard(room):
        room.until(lambda: not room.text("db8.service"), SLACK, "the unit is killed")
    need(has_called(room, "systemctl kill --signal=SIGKILL db8.service"), room.text("calls"))


# ---- the last resort


@story
def what_cannot_be_ended_resets_the_machine(room: Room) -> None:
    """a stop that hangs or fails resets the machine once, before the lease ends"""
    for fault in ("svc.stop.hangs", "svc.stop.fails"):
        room.drop("calls", "told", "svc", "svc.stop.hangs")
        room.put(fault)
        room.cib(PRIMITIVE, ["svc"], CLOSED, TIMES)
        with guard(room):
            lease_begins(room, 2)
            took = room.until(lambda: bool(room.calls("reset")), 5 + SLACK, "the machine is reset")
            need(took > 3.9, f"it was reset after {took} s")
            time.sleep(1)
            same(len(room.calls("reset")), 1, "resets")
        need("the machine is reset" in room.text("told"), room.text("told"))


@story
def unknown_counts_as_running(room: Room) -> None:
    """a resource whose state is unknown is stopped, and the machine is reset if the lease's end was still ahead"""
    room.put("svc", "1\n")
    room.cib(PRIMITIVE, ["svc"], date(-1), TIMES)
    with guard(room):
        room.until(lambda: room.text("svc") == "7\n", SLACK, "it is stopped")
    room.put("svc.check.hangs")
    room.put("svc.stop.fails")
    room.drop("told")
    with guard(room):
        lease_begins(room, 4)
        room.until(lambda: bool(room.calls("reset")), 8 + SLACK, "the machine is reset")


@story
def nothing_is_reset_without_a_way(room: Room) -> None:
    """with LAST_RESORT=none the guard reports that it can do nothing more, and continues"""
    room.put("svc.stop.fails")
    room.cib(PRIMITIVE, ["svc"], CLOSED, TIMES)
    with guard(room, "none"):
        lease_begins(room, 2)
        room.until(lambda: "nothing more can be done" in room.text("told"), 5 + SLACK, "it is said")
        room.drop("svc.stop.fails")
        room.until(lambda: room.text("svc") == "7\n", SLACK, "it is stopped all the same")
    done = room.call("booth-lease-guard", LAST_RESORT="other")
    need(done.status == 1 and "LAST_RESORT must be one of" in done.printed, f"{done}")


# ---- the file and the clocks


@story
def a_file_that_cannot_be_read_leaves_the_ends(room: Room) -> None:
    """if the CIB is torn or missing, the known ends stay in force"""
    room.put("svc", "0\n")
    room.cib(PRIMITIVE, ["svc"], date(3), TIMES)
    with guard(room):
        room.until(lambda: "guards svc" in room.text("told"), SLACK, "the end is read")
        room.put("cib.xml", "<cib><configuration>")
        room.until(lambda: "it is not a CIB" in room.text("told"), SLACK, "it is told")
        room.drop("cib.xml")
        room.until(lambda: room.text("svc") == "7\n", 4 + SLACK, "svc is stopped")


@story
def a_guard_that_comes_back_holds_the_same(room: Room) -> None:
    """a guard that is killed and started again has each end as before"""
    room.put("svc", "0\n")
    room.cib(PRIMITIVE, ["svc"], date(4), TIMES)
    with guard(room) as first:
        room.until(lambda: "guards svc" in room.text("told"), SLACK, "the end is read")
        before = room.text("run/ends.json")
        first.kill()
        first.wait(5)
    with guard(room):
        time.sleep(1)
        same(room.text("run/ends.json"), before, "the ends")
        room.until(lambda: room.text("svc") == "7\n", 5 + SLACK, "svc is stopped")


@story
def an_end_that_the_wall_clock_denies_is_closed(room: Room) -> None:
    """if an end has passed while this node's wall clock is before it, the end is closed in the CIB"""
    # (a lease of these times has an end 2 s ahead at most)
    room.cib(PRIMITIVE, ["svc"], CLOSED, "expire=6 margin=4 stop=1")
    with guard(room):
        lease_begins(room, 600, "expire=6 margin=4 stop=1")
        room.until(lambda: room.end() == CLOSED, 4 + SLACK, "the end is closed")
        room.until(lambda: room.text("svc") == "7\n", SLACK, "svc is stopped")
        closed = "this node's wall clock is before it: closes it in the CIB"
        room.until(lambda: closed in room.text("told"), SLACK, "it is said")
    need("s ahead by the wall clock, counts for only 2.0 s" in room.text("told"), room.text("told"))


def lease(end: float, times: str = TIMES) -> pacemaker_cib.Lease:
    """Returns a lease whose end is at this second of the wall clock."""
    found = pacemaker_cib.times_of(times)
    assert found is not None
    return pacemaker_cib.Lease("db8", False, pacemaker_cib.end_at(end), found, ("svc",), ())


@story
def ends_stand_on_the_time_since_the_boot(room: Room) -> None:
    """an end counts from its reading, at most the longest lease ahead, even if the wall clock is stepped then"""
    ends = Ends(f"{room.folder}/run")
    wall = 1_790_000_000.0
    ends.take([lease(wall + 10)], Now(100.0, wall), wall)
    at = lambda: ends.held["booth-lease.db8"].at
    same(at(), 110.0, "the end")
    for step in (-3600, 3600):
        ends.take([lease(wall + 10)], Now(105.0, wall + 5 + step), wall)
        same(at(), 110.0, f"the end after a step of {step} s")
    ends.take([lease(wall + 3600)], Now(108.0, wall + 8), wall)
    same(at(), 124.0, "an end that is too far ahead")
    ends.take([lease(wall + 9)], Now(109.0, wall + 9), wall)
    same(at(), 124.0, "an end that was told stands")
    ends.take([lease(wall + 9)], Now(125.0, wall + 9), wall)
    ends.take([lease(wall + 12)], Now(126.0, wall + 26), wall)
    same(at(), 112.0, "an end that is over")
    told = ends.take([], Now(127.0, wall), wall)
    same(told, ["db8: its lease is no longer in the CIB, so it is not guarded"], "gone")


@story
def the_clock_that_set_an_end_is_kept(room: Room) -> None:
    """the guard remembers how far the clock that set the last end is ahead, also after a close and after a restart"""
    folder, key, wall = f"{room.folder}/run", "booth-lease.db8", 1_790_000_000.0
    kept = lambda: lease_holding.told_of(lease_holding.kept_in(folder)[key])
    ends = Ends(folder)
    ends.take([lease(0)], Now(99.0, wall - 1), wall)
    same(kept(), None, "a lease that had no end")
    ends.take([lease(wall + 36)], Now(100.0, wall), wall)
    first = lease_holding.Told(pacemaker_cib.end_at(wall + 36), wall + 36 - 16 - 100.0)
    same(kept(), first, "an end that is 20 s farther ahead than any can be")
    ends.take([lease(0)], Now(110.0, wall + 10), wall)
    same((ends.held[key].lease.end, kept()), (CLOSED, first), "a lease that was closed")
    for clocks in (Now(111.0, wall + 11), Now(112.0, wall - 50)):
        ends = Ends(folder)
        ends.take([lease(0)], clocks, wall)
        same(kept(), first, "what the next guard knows")
    ends.take([lease(wall + 40)], Now(130.0, wall + 30), wall)
    same(kept(), lease_holding.Told(pacemaker_cib.end_at(wall + 40), wall + 40 - 16 - 130.0), "another end")
    for row in (["1970-01-01 00:00:00Z", 1.0, True], [1, 2, 3, 4, 5], None):
        same(lease_holding.told_of(row), None, f"{row}")


@story
def a_file_from_before_the_boot_tells_no_end(room: Room) -> None:
    """the first reading of a boot ignores ends in a file of an earlier boot, whatever the wall clock is"""
    wall = 1_790_000_000.0
    rows = [
        (wall - 5, 8.0, "written 5 s ago"),
        (wall - 200, 0.0, "written before the boot"),
        (wall + 50, 0.0, "written by a clock that was ahead"),
        (wall - 12, 4.0, "a lease that was written 12 s ago"),
    ]
    for written, left, what in rows:
        room.drop("run/ends.json")
        ends = Ends(f"{room.folder}/run")
        need(ends.is_first, "another reading was found")
        ends.take([lease(wall + (8 if left else 60) if left != 4.0 else wall + 99)], Now(100.0, wall), written)
        same(ends.held["booth-lease.db8"].at, 100.0 + left, what)
    need(not Ends(f"{room.folder}/run").is_first, "the reading was not kept")


@story
def a_daemon_that_does_not_reach_the_cluster_is_stopped(room: Room) -> None:
    """if the end was neither renewed nor closed when the lease was over, only the ticket's daemon is stopped"""
    os.makedirs(f"{room.folder}/sites/booth")
    room.put("sites/booth/tickets", "db8 mail\n")
    room.put("list", "ticket: mail, leader: none\nticket: db8, leader: 192.0.2.10, expires: 2026-12-01 02:00:00\n")
    path, os.environ["PATH"] = os.environ["PATH"], f"{room.folder}/bin:{os.environ['PATH']}"
    ends, told, wall = Ends(f"{room.folder}/run"), [], 1_790_000_000.0
    watch = DaemonWatch(ends, lambda _, text: told.append(text), f"{room.folder}/sites")
    ends.take([lease(wall + 10)], Now(100.0, wall), wall)
    ends.take([lease(wall + 20)], Now(105.0, wall + 5), wall)
    # (boot, whether the daemon runs as the agent started it, whether this site is listed as the holder; what is told)
    rows = [(100.0, 1, 1, 0), (144.0, 1, 1, 0), (146.0, 1, 0, 0), (162.0, 1, 1, 1), (163.0, 0, 1, 0), (900.0, 1, 1, 0)]
    for boot, runs, holds, tells in rows:
        room.put("sites/booth/env", f"ADDRESS=192.0.2.{1 if holds else 2}0\n") if runs else room.drop("sites/booth/env")
        told.clear()
        watch.look(Now(boot, wall))
        if tells:
            room.until(lambda: bool(told), SLACK, f"it is told at {boot}")
        time.sleep(0.5)
        same(len(told), tells, f"what is told at {boot}: {told}")
    os.environ["PATH"] = path
    need(has_called(room, "systemctl stop booth-follow@db8.service booth-follow@mail.service booth@booth.service"), "")
    ends.take([lease(0)], Now(150.0, wall), wall)
    need(not watch.is_late("db8", Now(900.0, wall)), "an end that was closed")
    need(not watch.is_late("other", Now(900.0, wall)), "a ticket without a lease")


@story
def times_leave_room_for_the_reset(room: Room) -> None:
    """with each margin, the guard acts and resets the machine before the lease itself ends"""
    for margin in range(4, 120):
        for stop in range(0, 100, 7):
            times = pacemaker_cib.Times(600, margin, stop)
            need(times.grace() < times.fence() < margin, f"{times}")
    need(lease_holding.FOLDER.startswith("/run/"), "the ends outlive a boot")


@story
def a_look_changes_nothing(room: Room) -> None:
    """--look prints each end and each resource, and ends with 1 if a state is unknown"""
    room.put("svc", "0\n")
    room.cib(GROUP, ["all"], date(-50), TIMES)
    done = room.call("booth-lease-guard", "--cib", f"{room.folder}/cib.xml", "--look")
    need(done.status == 0 and "  svc: running\n  two: stopped\n" in done.printed, f"{done}")
    room.put("two", "1\n")
    done = room.call("booth-lease-guard", "--cib", f"{room.folder}/cib.xml", "--look")
    need(done.status == 1 and "  two: unknown\n" in done.printed, f"{done}")
    need(not re.search("force-stop|cibadmin", room.text("calls")), room.text("calls"))
    done = room.call("booth-lease-guard", "--cib", "/nowhere", "--look")
    need(done.status == 1 and "cannot read /nowhere: " in done.printed, f"{done}")


# ---- the runs


def outcome(told: Story) -> bool:
    """Returns whether a story passes, in its own room."""
    with scratch("booth-guard-") as folder:
        begun = time.monotonic()
        try:
            told(Room(folder))
        except Exception as why:  # (whatever it is, the other stories are told)
            print(f"FAILED  {told.__doc__}: {type(why).__name__}: {why}", flush=True)
            return False
        print(f"ok      {told.__doc__} ({time.monotonic() - begun:.1f} s)", flush=True)
        return True


def main(words: List[str]) -> int:
    """Runs the stories, or those whose name has one of the words."""
    begun = time.monotonic()
    chosen = [each for each in stories if not words or any(word in each.__name__ for word in words)]
    # (most of their time they wait)
    with concurrent.futures.ThreadPoolExecutor(4) as pool:
        outcomes = list(pool.map(outcome, chosen))
    failed = outcomes.count(False)
    print(f"lease_guard: {len(outcomes) - failed} passed, {failed} failed, in {time.monotonic() - begun:.1f} s")
    return 1 if failed else 0


if __name__ == "__main__":
    sys.exit(main(sys.argv[1:]))
