"""Stories of the programs around follow-service: the handler, follow-unit, clock-wait, and the times of the unit.

It is imported by tests/service_words.py, and not run by itself.
"""

import os
import re
import time
from typing import List

from checks import need
from service_room import ENDS, KILL, PACKAGING, SLACK, TICKET, UNIT, Room, Story, same, since_boot
from shells import read

stories: List[Story] = []


def story(function: Story) -> Story:
    """Adds a story to the list of stories."""
    stories.append(function)
    return function


@story
def the_handler_refuses_what_failed(room: Room) -> None:
    """the handler refuses while the state is failed, until the time is over or the state is cleared"""
    handler = lambda: room.call("handler-follow", BOOTH_TICKET=TICKET)
    same((handler().status, handler().printed), (0, ""), "where nothing is known")
    room.word("renew", str(KILL))
    room.put("start.status", "1")
    room.word("start", FAILED_STARTS="1", FAILED_SECONDS="8")
    same(handler().status, 0, "before what it left is stopped")
    room.word("stop", FAILED_STARTS="1")
    done = handler()
    need(done.status == 1 and TICKET in done.printed and "booth-service clear" in done.printed, f"{done}")
    shown = room.call("booth-service", "show", TICKET)
    need(shown.status == 0 and "failed" in shown.printed, f"{shown}")
    until = float(room.state()["failed_until"])
    time.sleep(max(0, until - since_boot() + 0.1))
    same(handler().status, 0, "once its time is over")
    room.word("renew", str(KILL))
    room.word("start", FAILED_STARTS="1")
    room.word("stop", FAILED_STARTS="1")
    same(handler().status, 1, "once it failed again")
    same(room.call("booth-service", "clear", TICKET).status, 0, "to clear it")
    same((handler().status, room.state()["failed_starts"]), (0, "0"), "once it is cleared")


@story
def units_are_checked_stopped_and_killed(room: Room) -> None:
    """follow-unit reports whether the unit runs; stop and kill succeed only when none of its processes is left"""
    unit = "db8.service"
    rows = [("active", 0), ("reloading", 0), ("inactive", 3), ("failed", 3)]
    rows += [("activating", 1), ("deactivating", 1), ("", 1)]
    for state, status in rows:
        room.put(f"units/{unit}", f"{state}\n")
        same(room.call("follow-unit", unit, "check").status, status, f"a unit that is {state}")
    room.put("systemctl.fails")
    same(room.call("follow-unit", unit, "check").status, 1, "where systemd does not answer")
    room.drop("systemctl.fails")
    lease = {"BOOTH_TICKET": TICKET, "BOOTH_TICKET_TERM": "7", "BOOTH_TICKET_EXPIRES": "90"}
    same(room.call("follow-unit", unit, "start", **lease).status, 0, "a start")
    told = "BOOTH_TICKET_TERM=7\nBOOTH_TICKET_EXPIRES=90\n"
    same(room.text(f"run/{TICKET}.lease"), told, "what the unit may know of the lease")
    done = room.call("follow-unit", unit, "start", **{**lease, "BOOTH_FOLLOW_RUN": "/dev/null"})
    need(done.status == 1 and "is not started" in done.printed, f"a lease that cannot be written: {done}")
    same(room.call("follow-unit", unit, "stop").status, 0, "a stop")
    room.put("stop.fails")
    same(room.call("follow-unit", unit, "stop").status, 1, "a stop that fails")
    room.drop("stop.fails")
    room.put(f"units/{unit}", "active\n")
    room.drop("calls")
    same(room.call("follow-unit", unit, "kill").status, 0, "a kill")
    asked = [call for call in room.calls() if " show " not in call]
    wanted = [f"--no-block stop {unit}", f"kill --signal=SIGKILL {unit}", f"is-active {unit}"]
    same(asked, [f"systemctl {words}" for words in wanted], "the calls of a kill")
    room.put(f"units/{unit}", "active\n")
    room.put("kill.hangs")
    done = room.call("follow-unit", unit, "kill")
    need(done.status == 1 and "has not ended" in done.printed, f"a kill that does nothing: {done}")
    same(room.call("follow-unit", unit, "go").status, 2, "another word")


@story
def the_first_start_of_a_boot_waits_for_the_clock(room: Room) -> None:
    """clock-wait waits at most its time and reports that; it waits for nothing after the first start of a boot"""
    given = {"BOOTH_BOOT_ID": f"{room.folder}/boot", "BOOTH_TIMESYNC": f"{room.folder}/timesync", "CLOCK_SECONDS": "1"}
    boot = "0123abcd-" * 4
    room.put("boot", f"{boot}\n")
    os.makedirs(f"{room.folder}/records")
    wait = lambda: room.call("clock-wait", "booth", f"{room.folder}/records", **given)
    done = wait()
    is_told = done.status == 0 and "neither chrony" in done.printed
    need(is_told and done.took < SLACK, f"nothing keeps the clock: {done}")
    room.put("chrony")
    done = wait()
    need(done.status == 0 and "waits until chrony" in done.printed and "gives up after 1 s" in done.printed, f"{done}")
    room.put("chrony.right")
    same((wait().status, wait().printed), (0, ""), "where the clock is right")
    room.drop("chrony.right", "chrony")
    os.makedirs(f"{room.folder}/timesync")
    need("gives up" in wait().printed, "systemd-timesyncd is not waited for")
    room.put("timesync/synchronized")
    same(wait().printed, "", "where systemd-timesyncd has set it")
    room.drop("timesync/synchronized")
    with open(f"{room.folder}/records/booth.clock", "wb") as file:
        file.write(bytes(24) + boot.encode())
    same(wait().printed, "", "a later start of the boot")


@story
def times_of_the_unit_fit(room: Room) -> None:
    """the unit gives the steps before and after the follower their time, and restarts soon"""
    unit = read(f"{PACKAGING}/booth-follow@.service")
    value = lambda key: re.search(rf"^{key}=(.*)$", unit, re.M)[1]
    limits = dict(re.findall(r"\b([A-Z]+_LIMIT)=(\d+)", read(f"{PACKAGING}/follow-service")))
    stop = int(re.search(r"STOP_SECONDS=(\d+)", unit)[1])
    most = stop + 3 * int(limits["KILL_LIMIT"]) + 6 * int(limits["LONG_LIMIT"])
    for key in ("TimeoutStartSec", "TimeoutStopSec"):
        need(most < int(value(key)), f"{key} is {value(key)}, and a stop and its kills may take {most}")
    same((value("Type"), value("NotifyAccess"), value("RestartSec")), ("notify", "main", "1"), "the unit")
    need(1 < int(value("WatchdogSec")) <= 3, f"WatchdogSec is {value('WatchdogSec')}")
    need("chrony" not in unit and "network-online" not in unit and "\nAfter=" not in unit, "the unit waits for others")


def await_service(room: Room, wanted: str, what: str) -> None:
    """Waits until the state of the service is this one."""
    until = time.monotonic() + SLACK
    while room.state()["service"] != wanted and time.monotonic() < until:
        time.sleep(0.05)
    same(room.state()["service"], wanted, what)


@story
def what_ended_by_itself_is_told(room: Room) -> None:
    """a renewal checks the service; the state then shows that it ended by itself, and later that it runs again"""
    room.begun()
    for number, (status, wanted) in enumerate((("0", "running"), ("1", "running"), ("3", "ended"), ("1", "ended"))):
        room.put("check.status", status)
        room.drop("ran")
        done = room.word("renew", str(KILL), ends=ENDS + 5 * number)
        need(done.status == 0 and not done.printed, f"a renewal beside a check of {status}: {done}")
        until = time.monotonic() + SLACK
        while room.words() != "check" and time.monotonic() < until:
            time.sleep(0.05)
        time.sleep(0.3)
        state = room.state()
        same((room.words(), state["service"], state["word"]), ("check", wanted, "renew"), f"a check of {status}")
    shown = room.call("booth-service", "show", TICKET)
    need(shown.status == 0 and "service   ended for " in shown.printed, f"{shown}")
    # (a service that ended keeps its switch, since its unit may start it again)
    room.put("jobs", f"7 {UNIT} restart waiting\n")
    room.drop("ran")
    done = room.by_unit("ended")
    need(done.status == 0 and "runs on" in done.printed and not room.words(), f"after the follower: {done}")
    room.put("check.status", "0")
    room.word("renew", str(KILL), ends=ENDS + 50)
    await_service(room, "running", "a service that runs again")
    # a check that ends after a stop writes nothing, and a renewal does not wait for a check
    room.put("check.status", "3")
    room.put("check.slow")
    done = room.word("renew", str(KILL), ends=ENDS + 55)
    need(done.status == 0 and done.took < 2, f"a renewal beside a slow check: {done}")
    room.word("stop")
    time.sleep(2.5)
    same(room.state()["service"], "stopped", "after a stop beside a look")
    room.drop("ran")
    room.word("renew", str(KILL), ends=ENDS + 60)
    time.sleep(0.5)
    same(room.words(), "", "the runs for a service that is stopped")
