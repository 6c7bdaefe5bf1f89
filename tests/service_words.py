#!/usr/bin/env python3
"""Checks each argument of follow-service, and the programs around it, against HANDLERS.md and booth-follow(8).

Run it as `python3 tests/service_words.py [WORD..]`. It runs the stories whose name has one of the words, or all
stories. It needs neither systemd nor built programs: stand-ins on PATH record each call (tests/service_room.py). It
takes less than a minute, prints a line for each story, and has the status 1 if one failed.
"""

import concurrent.futures
import fcntl
import os
import re
import signal
import subprocess
import sys
import time
from typing import List

HERE = os.path.dirname(os.path.abspath(__file__))
sys.path[:0] = [HERE, f"{HERE}/../tools"]

import service_around
from checks import Wrong, need
from scratch import scratch
from service_room import ENDS, KILL, LEFT, PACKAGING, SLACK, TICKET, UNIT, Room, Story, same, since_boot, stories, story

TIMER = f"booth-end-{TICKET}-{ENDS}.timer"


# ---- words and the program


@story
def words_are_taken_from_the_end(room: Room) -> None:
    """unknown words, and names that no file can have, are refused with a line"""
    behind = ["", "start", "/bin/true go", "/bin/true renew", "renew 5", "/bin/true stop 5", "/bin/true renew -5"]
    for words in behind:
        done = room.call("follow-service", TICKET, *words.split())
        need(done.status == 2 and done.printed.startswith("usage:"), f"{words}: {done}")
    for ticket in ("", "a/b", ".", "..", ".hidden"):
        done = room.call("follow-service", ticket, "/bin/true", "stop")
        need(done.status == 2 and "no file" in done.printed, f"{ticket!r}: {done}")
    # (the program's arguments look like arguments of follow-service)
    done = room.call("follow-service", TICKET, room.program, "renew", "5", "stop")
    need(done.status == 0 and room.text("ran").startswith("renew 5 stop "), f"{done}, {room.text('ran')}")


@story
def the_program_has_what_a_handler_has(room: Room) -> None:
    """the program gets its arguments, the word and the variables, but not the notify socket of the follower's unit"""
    socket = {"NOTIFY_SOCKET": "/run/none", "WATCHDOG_USEC": "3000000", "WATCHDOG_PID": "1"}
    done = room.word("stop", BOOTH_LOCAL="192.0.2.10", BOOTH_CONF_NAME="booth", AS_POSTGRES="x y", **socket)
    same(done.status, 0, done.printed)
    given = dict(line.split("=", 1) for line in room.text("environment").splitlines() if "=" in line)
    for name, text in (("BOOTH_TICKET", TICKET), ("BOOTH_LOCAL", "192.0.2.10"), ("AS_POSTGRES", "x y")):
        same(given[name], text, name)
    need(not set(socket) & set(given), "the program can speak for the follower's unit")
    (run,) = room.ran()
    same((run.word, run.more, run.expires), ("stop", [], ENDS), "the run")
    need(0 < run.left <= LEFT, f"{run.left} ms are left of {LEFT}")
    # (in the same way as the unit)
    room.put("jobs", f"7 {UNIT} stop running\n")
    done = room.by_unit("ended", CLUSTER="other", ADDRESS="192.0.2.11", BOOTH_CONF_PATH="")
    same(done.status, 0, done.printed)
    given = dict(line.split("=", 1) for line in room.text("environment").splitlines() if "=" in line)
    same(given["BOOTH_CONF_PATH"], "/etc/booth/other.conf", "the configuration")
    same((given["BOOTH_LOCAL"], given["BOOTH_CONF_NAME"]), ("192.0.2.11", "other"), "the site")


@story
def a_run_that_is_killed_ends_its_program(room: Room) -> None:
    """if the follower ends a run by SIGKILL, the run's program ends with it"""
    for name in ("stop.hangs", "stop.pid"):
        room.put(name)
    words = [f"{PACKAGING}/follow-service", TICKET, room.program, "fast", "stop"]
    with subprocess.Popen(words, env=room.environment({}), stdin=subprocess.DEVNULL) as run:
        until = time.monotonic() + 10
        while not room.text("stop.pid") and time.monotonic() < until:
            time.sleep(0.02)
        run.kill()
    pid = int(room.text("stop.pid"))
    until = time.monotonic() + 5
    while os.path.exists(f"/proc/{pid}") and time.monotonic() < until:
        time.sleep(0.02)
    if os.path.exists(f"/proc/{pid}"):
        os.kill(pid, signal.SIGKILL)
        raise Wrong("its program runs on")
    same(room.state()["service"], "stopping", "the state")


# ---- check


@story
def check_passes_the_status_on(room: Room) -> None:
    """a check returns the program's status, counts as running if that is 0, and is bounded"""
    done = room.word("check")
    need(done.status == 1 and "no end is armed" in done.printed and not room.words(), f"without an armed end: {done}")
    room.word("renew", str(KILL))
    for status in (3, 1, 0):
        room.put("check.status", str(status))
        same(room.word("check").status, status, "the check")
        state = room.state()
        same((state["word"], state["status"]), ("check", str(status)), "the last run")
        same(state["service"], "stopped" if status else "running", f"the state after {status}")
    # (a renewal comes between the check of the end and the check of the timers)
    room.put("swaps", f"{ENDS} {ENDS + 9}\n")
    same(room.word("check").status, 0, "a check beside a renewal")
    room.put("check.hangs")
    done = room.word("check")
    need(done.status not in (0, 3) and 4 < done.took < 5 + SLACK, f"a check that hangs: {done}")


# ---- renew


@story
def renew_arms_the_switch(room: Room) -> None:
    """a renewal arms a timer that runs the switch at the end less the kill's time, and writes the end and the state"""
    before, clock = since_boot(), int(time.monotonic() * 1000)
    done = room.word("renew", str(KILL), BOOTH_LOCAL="192.0.2.10", BOOTH_CONF_NAME="booth")
    same((done.status, done.printed), (0, ""), "the renewal")
    same(room.timers(), [TIMER], "the timers")
    words = room.text(f"timers/{room.timer_files()[0]}").splitlines()
    after = int(re.fullmatch(r"--on-active=(\d+)ms", next(word for word in words if word.startswith("--on-active")))[1])
    need(0 < after <= LEFT - KILL, f"it fires after {after} ms")
    # (systemd started at 1 s of its clock)
    at = [int(found) for found in re.findall(r"--on-startup=(\d+)ms", " ".join(words))]
    due = clock + LEFT - KILL - 1000
    is_due = due - 20 <= at[0] <= due + 3000 and at[1:] == [at[0] + 500, at[0] + 2000]
    need(is_due, f"it fires at {at}, and not at {due}")
    need({"--timer-property=AccuracySec=100ms", "--setenv=BOOTH_LOCAL=192.0.2.10"} <= set(words), f"{words}")
    behind = words[words.index("--") + 1 :]
    same(behind, [f"{PACKAGING}/follow-service", TICKET, room.program, "fast", "switch", str(ENDS)], "what it runs")
    same(room.armed(), f"{ENDS}\n", "the end")
    state = room.state()
    said = [state[key] for key in ("service", "ends", "word", "status")]
    same(said, ["stopped", str(ENDS), "renew", "0"], "the state")
    kill_at, end_at = float(state["kill_at"]), float(state["end_at"])
    need(abs(end_at - kill_at - KILL / 1000) < 0.011, f"{kill_at} and {end_at}")
    need(before - 0.02 <= end_at - LEFT / 1000 <= before + 3, f"the end at {end_at}, begun at {before}")
    same((room.words(), room.leftovers()), ("", []), "runs of the program, and files that are left")


@story
def renew_replaces_the_switch(room: Room) -> None:
    """a later end is armed before the earlier is removed, an equal end has another name, other timers stay"""
    for name in ("booth-end-db80-5.timer", "booth-end-db8\\x2d1-5.timer", "booth-end-db8-x.timer"):
        room.put(f"timers/{name}")
    room.word("renew", str(KILL))
    room.drop("calls")
    same(room.word("renew", str(KILL), ends=ENDS + 5).status, 0, "the renewal")
    calls = room.calls()
    armed = next(place for place, call in enumerate(calls) if call.startswith("systemd-run"))
    gone = next(place for place, call in enumerate(calls) if call.startswith(f"systemctl stop {TIMER[:-6]}-"))
    need(armed < gone, f"the calls {calls}")
    same(room.armed(), f"{ENDS + 5}\n", "the end")
    same(room.word("renew", str(KILL), ends=ENDS + 5).status, 0, "the same end")
    mine = [name for name in room.timers() if name.startswith("booth-end-db8-1")]
    same(mine, [f"booth-end-db8-{ENDS + 5}.timer"], "the timers")
    same(len(room.timers()), 4, "the timers of all tickets")
    same(room.word("renew", str(KILL), ticket="db8-1", ends=ENDS).status, 0, "a name with a hyphen")
    need(f"booth-end-db8\\x2d1-{ENDS}.timer" in room.timers(), f"the timers {room.timers()}")
    need("booth-end-db8\\x2d1-5.timer" not in room.timers() and mine[0] in room.timers(), f"the timers {room.timers()}")


@story
def renew_that_fails_changes_nothing(room: Room) -> None:
    """a renewal that fails, hangs, has no time or was overtaken by a stop leaves the earlier end in force"""
    room.begun()

    def is_refused(why: str, **more: str) -> None:
        done = room.word("renew", str(KILL), ends=ENDS + 5, **more)
        need(done.status == 1 and done.printed, f"{why}: {done}")
        same((room.armed(), room.timers(), room.state()["ends"]), (f"{ENDS}\n", [TIMER], str(ENDS)), why)

    for name in ("run.fails", "run.hangs", "run.released"):
        room.put(name)
        is_refused(name)
        # (the same end again, as after a renewal that was too slow: timers after the armed one stay)
        same(room.word("renew", str(KILL)).status, 1, name)
        same((room.armed(), room.timers()), (f"{ENDS}\n", [TIMER]), f"the same end, {name}")
        room.drop(name)
    room.put("renew.status", "7")
    is_refused("the program refuses", RENEWS="yes")
    room.put("renew.hangs")
    is_refused("the program hangs", RENEWS="yes")
    room.drop("renew.hangs", "renew.status")
    same(room.word("renew", str(KILL), ends=ENDS + 5, left=KILL).status, 1, "no time is left")
    same(room.word("renew", str(KILL), ends=ENDS + 5, left=0).status, 1, "nothing is left")
    same(room.armed(), f"{ENDS}\n", "the end")
    room.put("up_since")
    room.drop("run/.up_since")
    is_refused("systemd does not say when it began")
    room.put("up_since", "1000000\n")
    room.put("systemctl.hangs")
    done = room.word("renew", str(KILL), ends=ENDS + 5)
    need(done.status == 1 and done.took < 10 + SLACK, f"a systemd that hangs: {done}")
    room.drop("systemctl.hangs")
    room.drop("ran")
    same(room.word("renew", str(KILL), ends=ENDS + 9, RENEWS="yes").status, 0, "the program renews")
    run = room.ran()[0]
    same((run.word, run.more, run.expires), ("renew", [str(KILL)], ENDS + 9), "the program's run")


# ---- start, stop, kill


@story
def starts_need_an_armed_end(room: Room) -> None:
    """a start without an armed end runs nothing, and does not count as a failed start"""
    done = room.word("start")
    need(done.status == 1 and "no end is armed" in done.printed, f"{done}")
    room.word("renew", str(KILL))
    room.drop(f"timers/{room.timer_files()[0]}")
    done = room.word("start")
    need(done.status == 1 and "no end is armed" in done.printed, f"the timer is gone: {done}")
    same((room.words(), room.state()["failed_starts"]), ("", "0"), "the runs, and the starts that failed")


@story
def starts_that_fail_count(room: Room) -> None:
    """failed starts are counted; after N in a row the state is failed once the remaining processes are stopped"""
    room.word("renew", str(KILL))
    room.put("start.status", "5")
    for number, service in ((1, "stopped"), (2, "stopped"), (3, "failed")):
        same(room.word("start").status, 5, f"start {number}")
        state = room.state()
        said = [state[key] for key in ("service", "failed_starts", "status")]
        same(said, ["starting", str(number), "5"], f"after {number}")
        same(room.word("stop").status, 0, "a stop")
        same(room.state()["service"], service, f"after stop {number}")
        room.word("renew", str(KILL))
    need(590 < float(room.state()["failed_until"]) - since_boot() <= 600, f"{room.state()}")
    same(room.word("kill").status, 0, "a kill")
    same(room.state()["service"], "failed", "after a kill")


@story
def a_service_that_failed_is_left_so(room: Room) -> None:
    """a failed service is not started before a renewal was due; before the next start the state shows that it starts"""
    more = {"FAILED_STARTS": "1", "FAILED_SECONDS": "2"}
    room.word("renew", str(KILL), **more)
    room.put("start.status", "5")
    room.word("start", **more)
    room.word("stop", **more)
    room.word("renew", str(KILL), **more)
    room.drop("ran", "start.status")
    with concurrent.futures.ThreadPoolExecutor() as pool:
        begun = time.monotonic()
        start = pool.submit(room.word, "start", **more)
        time.sleep(1)
        same((room.words(), room.state()["service"]), ("", "failed"), "the start waits")
        while room.state()["service"] == "failed" and time.monotonic() - begun < SLACK:
            time.sleep(0.05)
        same((room.words(), room.state()["service"]), ("", "starting"), "it says that it starts")
        same(start.result().status, 0, "the start")
    need(3 < time.monotonic() - begun < 4 + SLACK, "it waited for another time")
    state = room.state()
    same((state["service"], state["failed_starts"], state["failed_until"]), ("running", "0", "0.00"), "the state")
    # after booth-service clear, a start waits no longer, however long a renewal takes
    room.put("booth.conf", f"ticket = {TICKET}\n expire = 100\n renewal-freq = 60\n")
    room.put("start.status", "5")
    room.word("start", FAILED_STARTS="1")
    room.word("stop", FAILED_STARTS="1")
    room.word("renew", str(KILL))
    with concurrent.futures.ThreadPoolExecutor() as pool:
        begun = time.monotonic()
        start = pool.submit(room.word, "start", FAILED_STARTS="1")
        time.sleep(0.5)
        same(room.call("booth-service", "clear", TICKET).status, 0, "to clear it")
        same(start.result().status, 5, "the start")
    need(time.monotonic() - begun < SLACK, "it waits on once it is cleared")


@story
def stops_and_kills_release_the_end(room: Room) -> None:
    """a stop and a kill with status 0 remove the end and the switch; with another status both stay"""
    for word, meanwhile in (("stop", "stopping"), ("kill", "killing")):
        room.begun()
        same(room.state()["service"], "running", "the state")
        room.put(f"{word}.status", "4")
        same(room.word(word).status, 4, word)
        found = (room.state()["service"], room.armed(), room.timers())
        same(found, (meanwhile, f"{ENDS}\n", [TIMER]), f"a {word} that fails")
        room.drop(f"{word}.status")
        same(room.word(word).status, 0, word)
        state = room.state()
        same((state["service"], state["ends"], state["kill_at"]), ("stopped", "0", "0.00"), f"the state after a {word}")
        same((room.armed(), room.timers()), (None, []), f"the end after a {word}")


@story
def a_renewal_runs_beside_a_start(room: Room) -> None:
    """a renewal during a start and a stop overwrites nothing that either of them writes"""
    room.word("renew", str(KILL))
    for word in ("start", "stop"):
        room.put(f"{word}.slow")
    for word, wanted in (("start", ("running", ENDS + 1)), ("stop", ("stopped", 0))):
        with concurrent.futures.ThreadPoolExecutor() as pool:
            slow = pool.submit(room.word, word)
            time.sleep(0.2)
            same(room.word("renew", str(KILL), ends=ENDS + 1).status, 0, f"a renewal beside a {word}")
            same(slow.result().status, 0, word)
        state = room.state()
        same((state["service"], int(state["ends"])), wanted, f"the state after a {word}")
    same((room.armed(), room.timers()), (None, []), "the end after the stop")
    with open(f"{room.run_folder}/.{TICKET}.lock", "ab") as lock, concurrent.futures.ThreadPoolExecutor() as pool:
        fcntl.flock(lock, fcntl.LOCK_EX)
        kill = pool.submit(room.word, "kill")
        time.sleep(0.8)
        need(not kill.done(), "the state is changed while another run changes it")
        fcntl.flock(lock, fcntl.LOCK_UN)
        same(kill.result().status, 0, "the run once the other one is over")


@story
def a_start_that_is_overtaken_says_nothing(room: Room) -> None:
    """if a kill overtakes a start, the start does not write that the service runs"""
    room.word("renew", str(KILL))
    room.put("start.slow")
    with concurrent.futures.ThreadPoolExecutor() as pool:
        slow = pool.submit(room.word, "start")
        time.sleep(0.2)
        same(room.by_unit(f"switch {ENDS}").status, 0, "the switch")
        slow.result()
    same((room.state()["service"], room.armed()), ("stopped", None), "the state")


@story
def a_pause_starts_nothing(room: Room) -> None:
    """a paused service is not started, but it is stopped and killed as usual"""
    room.put(f"units/{UNIT}", "active\n")
    done = room.call("booth-service", "pause", TICKET)
    same(done.status, 0, done.printed)
    room.word("renew", str(KILL))
    done = room.word("start")
    need(done.status == 0 and "paused" in done.printed, f"{done}")
    same((room.words(), room.state()["service"]), ("", "stopped"), "what ran")
    for word in ("stop", "kill"):
        same(room.word(word).status, 0, word)
    same(room.words(), "stop kill", "what ran")
    need("paused    yes" in room.call("booth-service", "show", TICKET).printed, "it is not shown")
    room.drop("calls")
    done = room.call("booth-service", "resume", TICKET)
    need(done.status == 0 and f"systemctl try-restart {UNIT}" in room.calls(), f"{done}, {room.calls()}")
    room.begun()
    same(room.call("booth-service", "resume", TICKET).status, 0, "a second one")


# ---- before and after the follower


@story
def a_follower_that_comes_back_leaves_it_running(room: Room) -> None:
    """if the follower restarts or crashes, the service runs on; if the follower is stopped, so is the service"""
    for jobs, words in (("", ""), (f"7 {UNIT} restart running\n", ""), (f"7 {UNIT} stop running\n", "stop")):
        room.begun()
        room.put("jobs", f"5 other.service stop running\n{jobs}")
        same(room.by_unit("ended").status, 0, f"after {jobs!r}")
        same(room.words(), words, f"what ran after {jobs!r}")
        same(room.armed(), None if words else f"{ENDS}\n", f"the end after {jobs!r}")
        room.drop("jobs")
    room.begun()
    room.put("jobs.fails")
    same(room.by_unit("ended").status, 0, "where systemd does not say it")
    same((room.words(), room.armed()), ("stop", None), "what ran where systemd does not say it")


@story
def what_no_switch_ends_is_stopped(room: Room) -> None:
    """after a crash a service without a switch, or one that was being stopped, is stopped"""
    room.begun()
    room.drop(f"timers/{room.timer_files()[0]}")
    same((room.by_unit("ended").status, room.words()), (0, "stop"), "without a switch")
    room.begun()
    room.put("stop.status", "1")
    room.word("stop")
    room.drop("stop.status", "ran")
    same((room.by_unit("ended").status, room.words()), (0, "stop"), "in the middle of a stop")
    room.drop("ran")
    same((room.by_unit("ended").status, room.words()), (0, ""), "where it is stopped")


@story
def a_stop_after_the_follower_has_a_limit(room: Room) -> None:
    """after the follower's end a stop that hangs or fails is followed by a kill, within the remaining time"""
    room.put("jobs", f"7 {UNIT} stop running\n")
    room.begun()
    room.put("stop.status", "1")
    same((room.by_unit("ended").status, room.words()), (0, "stop kill"), "a stop that fails")
    room.put("stop.hangs")
    for more, least, words in ((8000, 0.5, ("stop kill",)), (700, 0, ("stop kill", "kill"))):
        same(room.word("renew", "5000", left=5000 + more).status, 0, "a renewal")
        same(room.word("start", left=5000 + more).status, 0, "a start")
        room.drop("ran")
        done = room.by_unit("ended")
        need(done.status == 0 and least < done.took < SLACK, f"{more} ms before the switch: {done}")
        need(room.words() in words, f"{more} ms before the switch it ran {room.words()}")
    room.begun()
    done = room.by_unit("ended", STOP_SECONDS="1")
    need(done.took < SLACK and room.words() == "stop kill", f"with STOP_SECONDS=1: {done}, {room.words()}")
    room.begun()
    room.put("kill.status", "1")
    done = room.by_unit("ended", STOP_SECONDS="1")
    need(done.status != 0 and room.words() == "stop kill kill kill", f"kills that fail: {done}, {room.words()}")
    same((room.state()["service"], room.armed()), ("killing", f"{ENDS}\n"), "the state after kills that fail")


@story
def a_first_start_of_a_boot_stops(room: Room) -> None:
    """the first start of a boot stops the service, within the configuration's margin, and no later start does"""
    room.put("stop.hangs")
    done = room.by_unit("begin")
    # (with expire 10 and renewal-freq 7)
    need(done.status == 0 and 1.2 < done.took < SLACK and room.words() == "stop kill", f"{done}, {room.words()}")
    room.drop("ran", "stop.hangs")
    same((room.by_unit("begin").status, room.words()), (0, ""), "a second one")
    room.begun()
    same((room.by_unit("begin").status, room.words()), (0, ""), "one that finds an end")
    for name in ("db8.end", "db8.state"):
        os.remove(f"{room.run_folder}/{name}")
    room.put("stop.hangs")
    done = room.by_unit("begin", OPTIONS="-k 1 -m 3", BOOTH_CONF_PATH="/nowhere")
    need(2.8 < done.took < SLACK, f"a margin of the options: {done}")


@story
def margins_are_read_as_the_daemon_does(room: Room) -> None:
    """the default margin is that of the ticket, of __default__, or of a file without either"""
    rows = [
        ("ticket = __default__\nexpire = 4\nticket = other\nexpire = 900\nticket = 'db8' # x\n", 1),
        ("ticket = \"db8\"\n expire=6 # seconds\n  renewal-freq = \"4\"\nticket = a\nexpire=800\n", 1),
        ("ticket = __default__\nrenewal-freq = 8\nticket = db8\n expire = 10\n", 1),
    ]
    room.put("stop.hangs")
    for text, seconds in rows:
        room.put("booth.conf", f"site = 127.0.0.1\n{text}")
        room.drop("run/db8.state")
        done = room.by_unit("begin")
        need(seconds - 0.2 < done.took < seconds + SLACK, f"{text!r}: {done}")


# ---- the switch


@story
def the_switch_kills(room: Room) -> None:
    """the switch kills until a kill succeeds, and does nothing if a later end is armed"""
    room.begun()
    same((room.by_unit(f"switch {ENDS - 5}").status, room.words()), (0, ""), "an earlier switch")
    same(room.armed(), f"{ENDS}\n", "the end after an earlier switch")
    room.put("kill.status", "1")
    with concurrent.futures.ThreadPoolExecutor() as pool:
        switch = pool.submit(room.by_unit, f"switch {ENDS}")
        while len(room.words().split()) < 2 and not switch.done():
            time.sleep(0.05)
        room.drop("kill.status")
        done = switch.result()
    words = room.words().split()
    need(done.status == 0 and len(words) > 1 and set(words) == {"kill"}, f"{done}, {words}")
    same((room.state()["service"], room.armed(), room.timers()), ("stopped", None, []), "the state")
    room.drop("ran")
    same((room.by_unit(f"switch {ENDS}").status, room.words()), (0, "kill"), "where no end is known")


# ---- the runs


def outcome(told: Story) -> bool:
    """Returns whether a story passes, in its own room."""
    with scratch("booth-words-") as folder:
        begun = time.monotonic()
        try:
            told(Room(folder))
        except Exception as why:  # (whatever it is, the other stories are told)
            print(f"FAILED  {told.__doc__}: {type(why).__name__}: {why}", flush=True)
            return False
        print(f"ok      {told.__doc__} ({time.monotonic() - begun:.1f} s)", flush=True)
        return True


def main(words: List[str]) -> int:
    """Runs the stories, or those whose name has one of the words."""
    begun = time.monotonic()
    all_stories = stories + service_around.stories
    chosen = [each for each in all_stories if not words or any(word in each.__name__ for word in words)]
    # (the stories mostly wait)
    with concurrent.futures.ThreadPoolExecutor(4) as pool:
        outcomes = list(pool.map(outcome, chosen))
    failed = outcomes.count(False)
    print(f"service_words: {len(outcomes) - failed} passed, {failed} failed, in {time.monotonic() - begun:.1f} s")
    return 1 if failed else 0


if __name__ == "__main__":
    sys.exit(main(sys.argv[1:]))
