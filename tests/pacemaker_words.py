#!/usr/bin/env python3
"""Checks each argument of follow-pacemaker against booth-pacemaker(8).

Run it as `python3 tests/pacemaker_words.py [WORD..]`, which runs the stories whose name has one of the words, or all.
It needs no Pacemaker and nothing that is built: stand-ins on PATH note what is called (tests/pacemaker_room.py). It
takes less than a minute, prints a line for each story, and has the status 1 if one failed.
"""

import concurrent.futures
import json
import os
import sys
import threading
import time
from typing import List

HERE = os.path.dirname(os.path.abspath(__file__))
sys.path[:0] = [HERE, f"{HERE}/../tools"]

import pacemaker_asking
import pacemaker_cib
from checks import need
from pacemaker_room import CLONE, CLOSED, GROUP, PRIMITIVE, TICKET, Ended, Room, Story, date, same
from scratch import scratch

TIMES = "expire=60 margin=10 stop=2"
LEFT = 30_000
stories: List[Story] = []


def story(function: Story) -> Story:
    """Adds a story to the list of stories."""
    stories.append(function)
    return function


def word(room: Room, *words: str, left: int = LEFT, **more: str) -> Ended:
    """Runs follow-pacemaker with a word, as the follower does."""
    told = {"BOOTH_TICKET": TICKET, "BOOTH_TICKET_LEFT": str(left), "BOOTH_CIB": f"{room.folder}/cib.xml", **more}
    return room.call("follow-pacemaker", *words, **told)


def at_site(room: Room, end: str = CLOSED) -> None:
    """A site whose ticket has one resource."""
    room.cib(PRIMITIVE, ["svc"], end, TIMES)


@story
def words_are_refused(room: Room) -> None:
    """other words, and a run without a ticket, are refused with a line that has the cause"""
    for words in ([], ["other"], ["renew"], ["start", "now"], ["adopt", "booth"], ["clock"]):
        done = word(room, *words)
        need(done.status == 2 and done.printed.startswith("usage: "), f"{words}: {done}")
    for ticket in ("", "a/b", "a'b", "x" * 64):
        need(word(room, "stop", BOOTH_TICKET=ticket).status == 2, f"the ticket {ticket!r}")


@story
def a_renewal_sets_the_end(room: Room) -> None:
    """a renewal sets the end to the remaining time less the margin, by the wall clock, and grants nothing"""
    at_site(room)
    before = time.time()
    done = word(room, "renew", "5000")
    same((done.status, done.printed), (0, ""), "the renewal")
    end = pacemaker_cib.seconds_of(room.end())
    need(before + 19 - 1 <= end <= time.time() + 20, f"the end is {end - before:.1f} s ahead")
    need(not room.calls("crm_ticket"), room.text("calls"))
    # another one is as long, so the end grows
    time.sleep(1.1)
    same(word(room, "renew", "5000", left=LEFT).status, 0, "the next one")
    need(pacemaker_cib.seconds_of(room.end()) > end, room.end())


@story
def a_renewal_that_fails_leaves_the_end(room: Room) -> None:
    """if too little time is left, there is no rule, or the CIB refuses, a renewal fails and leaves the end"""
    at_site(room)
    done = word(room, "renew", "5000", left=10_500)
    need(done.status == 1 and "its margin is 10 s" in done.printed, f"{done}")
    room.put("cibadmin.fails")
    done = word(room, "renew", "5000")
    need(done.status == 1 and "Connection to the CIB failed" in done.printed, f"{done}")
    room.drop("cibadmin.fails")
    room.put("cibadmin.hangs")
    done = word(room, "renew", "5000")
    need(done.status == 1 and "did not end within 2 s" in done.printed and done.took < 8, f"{done}")
    same(room.end(), CLOSED, "the end")
    done = word(room, "renew", "5000", BOOTH_TICKET="other")
    need(done.status == 1 and "booth-pacemaker setup other RESOURCE.." in done.printed, f"{done}")
    room.drop("cib.xml")
    done = word(room, "renew", "5000")
    need(done.status == 1 and "No such file" in done.printed, f"{done}")


@story
def a_granted_ticket_is_marked(room: Room) -> None:
    """a start leaves a file that the ticket must be granted, and a stop removes it before it revokes"""
    at_site(room, date(20))
    told = {"BOOTH_FOLLOW_END": f"{room.folder}/db8.end"}
    mark = f"{room.folder}/db8.end.granted"
    same((word(room, "start", **told).status, os.path.exists(mark)), (0, True), "after a start")
    room.put("ticket.fails")
    word(room, "stop", **told)
    same(os.path.exists(mark), False, "after a stop whose revoke fails")


@story
def a_start_grants_behind_an_end_alone(room: Room) -> None:
    """a start grants Pacemaker's ticket only if the rule's end has not passed"""
    at_site(room)
    done = word(room, "start")
    need(done.status == 1 and "has passed, so Pacemaker's ticket is not granted" in done.printed, f"{done}")
    need(not room.calls("crm_ticket"), room.text("calls"))
    at_site(room, date(20))
    same(word(room, "start").status, 0, "the start")
    same(room.calls("crm_ticket"), [f"crm_ticket --ticket {TICKET} --grant --force"], "the grant")
    room.put("ticket.fails")
    same(word(room, "start").status, 1, "a grant that fails")
    room.drop("ticket.fails")
    room.put("ticket.hangs")
    done = word(room, "start")
    need(done.status == 1 and "crm_ticket did not end within 5 s" in done.printed, f"{done}")


@story
def a_check_looks_at_both(room: Room) -> None:
    """a check has status 0 for a granted ticket whose end has not passed, 3 for a revoked one, and otherwise 1"""
    rows = [("true", date(20), 0), ("true", CLOSED, 1), ("false", date(20), 3), ("", date(20), 1)]
    for granted, end, status in rows:
        at_site(room, end)
        room.put("granted", granted)
        same(word(room, "check").status, status, f"granted {granted!r}, end {end}")
    room.put("ticket.fails")
    same(word(room, "check").status, 1, "a check that fails")


@story
def a_stop_waits_for_its_own_resources(room: Room) -> None:
    """a stop revokes, closes the rule, and waits only for the resources of this ticket"""
    at_site(room, date(20))
    room.put("resources", "svc\nother\n")
    room.put("other.role", "Started")
    room.put("svc.role", "Started")
    room.put("stays")
    threading.Timer(2, lambda: room.put("svc.role", "Stopped")).start()
    done = word(room, "stop")
    need(done.status == 0 and done.took > 2, f"{done}")
    same(room.calls("crm_ticket"), [f"crm_ticket --ticket {TICKET} --revoke --force"], "the ticket")
    same(room.end(), CLOSED, "the end")
    need("--wait" not in room.text("calls"), room.text("calls"))


@story
def a_stop_ends_with_what_is_left(room: Room) -> None:
    """if a resource does not stop, a stop and a kill end with 1 within the remaining time, or within STOP_SECONDS"""
    room.put("svc.role", "Started")
    room.put("stays")
    for words, left, more in (("stop", 4000, {}), ("kill", 4000, {}), ("stop", 0, {"STOP_SECONDS": "4"})):
        at_site(room, date(20))
        done = word(room, words, left=left, **more)
        need(done.status == 1 and "svc may run at a1" in done.printed and done.took < 12, f"{words}: {done}")
        same(room.end(), CLOSED, f"the end after {words}")


@story
def either_way_ends_it(room: Room) -> None:
    """if the revoke hangs, the rule ends the service, and if the rule cannot be closed, the revoke; one must work"""
    at_site(room, date(20))
    room.put("svc.role", "Stopped")
    room.put("ticket.hangs")
    done = word(room, "stop")
    need(done.status == 0 and "one of two ways" in done.printed and room.end() == CLOSED, f"{done}")
    room.put("cibadmin.fails")
    done = word(room, "stop")
    need(done.status == 1 and "the guards end the service" in done.printed, f"{done}")
    room.drop("ticket.hangs")
    done = word(room, "stop")
    need(done.status == 0 and "one of two ways" in done.printed, f"{done}")
    room.put("mon.fails")
    done = word(room, "stop", left=3000)
    need(done.status == 1 and "crm_mon" in done.printed, f"{done}")


@story
def what_the_cluster_does_is_told_apart(room: Room) -> None:
    """a resource that starts, is promoted or is not listed still runs; promoted instances end by a demotion"""
    lines = [
        ('<resource id="svc" role="Stopped" active="false"/>', True, True),
        ('<resource id="svc" role="Stopped" active="false" pending="Starting"/>', False, False),
        ('<resource id="svc" role="Started" active="true" pending="Stopping"/>', False, True),
        ('<resource id="svc:0" role="Promoted" active="true"/>', False, False),
        ('<resource id="svc:1" role="Unpromoted" active="true"/>', False, True),
        ('<resource id="svc:1" role="Unpromoted" active="true" pending="Promoting"/>', False, False),
        ('<resource id="other" role="Stopped" active="false"/>', False, False),
    ]
    for line, is_over, is_demoted in lines:
        seen = pacemaker_asking.seen_in(f"<pacemaker-result><resources>{line}</resources></pacemaker-result>")
        same((seen.are_over(["svc"], False), seen.are_over(["svc"], True)), (is_over, is_demoted), line)
    cib = pacemaker_cib.parsed(f"<cib><resources>{GROUP}{CLONE}</resources></cib>".encode())
    same([each.id for each in cib.primitives("all")], ["svc", "two"], "the primitives of a group")
    same((cib.is_promotable("pg-clone"), cib.is_promotable("all")), (True, False), "promotable")


with open("/proc/sys/kernel/random/boot_id", "rb") as own_boot:
    BOOT = own_boot.read(36)


def clock_file(room: Room, offset: float, boot: bytes = BOOT) -> None:
    """The daemon's clock is this many seconds ahead of the time since the boot, in this boot or in another one."""
    with open(f"{room.folder}/booth.clock", "wb") as file:
        file.write((1).to_bytes(8, "big") + round(offset * 1000).to_bytes(8, "big") + bytes(8) + boot)


def of_daemon() -> float:
    """Returns how far the wall clock is ahead of the time since the boot."""
    return time.time() - time.clock_gettime(time.CLOCK_BOOTTIME)


@story
def a_lease_is_no_longer_than_any(room: Room) -> None:
    """a renewal with a lease longer than expire is refused, and one with exactly expire sets no later end"""
    at_site(room)
    done = word(room, "renew", "5000", left=99_000)
    told = "set up with an expire of 60 s. Either the daemon's clock is behind"
    need(done.status == 1 and told in done.printed, f"{done}")
    same(room.end(), CLOSED, "the end")
    same(word(room, "renew", "5000", left=61_900).status, 0, "a lease that was listed in whole seconds")
    need(pacemaker_cib.seconds_of(room.end()) <= time.time() + 50, room.end())


@story
def a_renewal_notes_the_clock(room: Room) -> None:
    """a renewal first notes how far the daemon's clock is ahead of the wall clock, and then sets the end"""
    for ahead, noted in ((0.0, ""), (40.0, "40.0"), (40.2, "40.0"), (-3.0, "-3.0"), (0.0, "0.0")):
        at_site(room)
        clock_file(room, of_daemon() + ahead)
        same(word(room, "renew", "5000", BOOTH_RECORDS=room.folder).status, 0, f"the renewal with {ahead} s")
        need(room.end() != CLOSED, "no end was set")
        found = room.text(".booth-clock").strip()
        near = not noted and not found or bool(noted and found) and abs(float(found) - float(noted)) < 0.3
        need(near, f"{found} and not {noted}")
    at_site(room)
    clock_file(room, of_daemon() + 40)
    os.mkdir(f"{room.folder}/.booth-clock.new")
    done = word(room, "renew", "5000", BOOTH_RECORDS=room.folder)
    need(done.status == 1 and "Is a directory" in done.printed and room.end() == CLOSED, f"{done}")
    room.drop("booth.clock")
    need(word(room, "renew", "5000", BOOTH_RECORDS=room.folder).status == 1, "a renewal without the daemon's clock")


def guard_holds(room: Room, end: str, clock: float) -> None:
    """The guard first read an end when the wall clock that set it was this far ahead of the time since the boot."""
    room.put("run/ends.json", json.dumps({"booth-lease.db8": [CLOSED, 0.0, False, end, clock]}))


@story
def a_clock_that_is_behind_is_refused(room: Room) -> None:
    """while the wall clock is behind the last daemon's, no daemon starts, until the lease is over by it too"""
    # (the end ahead of the wall clock here, what the guard knows of the clock that set it, the note; the status)
    rows = [
        (45.0, None, "", 0, "an end that was set just now by a clock that is right"),
        (5.0, None, "", 0, "one that was set before"),
        (55.0, None, "", 1, "one that is farther ahead than any can be"),
        (45.0, 40.0, "", 1, "a guard that read it when it was 40 s farther ahead than any can be"),
        (45.0, 0.8, "", 0, "a guard that read it 0.8 s farther ahead"),
        (45.0, 40.0, "-40", 0, "a wall clock that was stepped ahead of the daemon's"),
        (45.0, 0.0, "40", 1, "a daemon's clock that stayed ahead of a wall clock which was stepped back"),
        (45.0, -40.0, "40", 0, "the same, and the wall clock here was not stepped"),
        (-50.0, -40.0, "", 0, "a clock that is ahead of the one that set the end"),
        (-5.0, 40.0, "", 1, "an end that is over, of a lease that may last by the last daemon's clock"),
        (-60.0, 40.0, "", 1, "a lease that the daemon may have renewed without an end in the CIB"),
        (-95.0, 40.0, "", 0, "a lease that is over by both clocks"),
        (-95.0, 40.0, "40", 1, "a lease that lasts by the last daemon's clock, with its note"),
    ]
    for ahead, clock, noted, status, what in rows:
        room.drop("run/ends.json", ".booth-clock")
        at_site(room, date(ahead) if clock is None else CLOSED)
        if clock is not None:
            guard_holds(room, date(ahead), of_daemon() + clock)
        if noted:
            room.put(".booth-clock", f"{noted}\n")
        done = word(room, "clock", room.folder, left=0)
        is_said = done.printed.startswith("this node's clock is at least ") and " s behind the last" in done.printed
        need((done.status, is_said) == (status, bool(status)), f"{what}: {done}")
    clock_file(room, of_daemon(), b"x" * 36)
    same(word(room, "clock", room.folder, left=0).status, 1, "a daemon of another boot")
    clock_file(room, of_daemon())
    same(word(room, "clock", room.folder, left=0).status, 0, "a daemon that goes on with its clock")


@story
def what_a_clock_cannot_tell(room: Room) -> None:
    """with a bad note or an unreadable CIB no daemon starts; a ticket without a lease does not prevent a start"""
    at_site(room)
    room.put(".booth-clock", "x\n")
    done = word(room, "clock", room.folder, left=0)
    need(done.status == 1 and ".booth-clock has no number of seconds, but 'x" in done.printed, f"{done}")
    room.drop(".booth-clock")
    same(word(room, "clock", room.folder, left=0).status, 0, "an end that is closed")
    same(word(room, "clock", room.folder, left=0, BOOTH_TICKET="other").status, 0, "a ticket without a lease")
    room.drop("cib.xml")
    same(word(room, "clock", room.folder, left=0).status, 1, "no CIB")


def adopts(room: Room, **more: str) -> Ended:
    """Runs the step before a follower, which writes the file db8.end."""
    given = {"BOOTH_FOLLOW_END": f"{room.folder}/db8.end", "ADDRESS": "192.0.2.10", **more}
    return word(room, "adopt", "/run/booth.conf", room.folder, left=0, **given)


def lists(room: Room, holder: str, seconds: float) -> None:
    """The daemon lists a holder whose lease lasts this long; its clock is 1000 s ahead of the time since the boot."""
    end = time.gmtime(1000 + time.clock_gettime(time.CLOCK_BOOTTIME) + seconds)
    until = time.strftime(", expires: %Y-%m-%d %H:%M:%S", end) if seconds else ""
    room.put("list", f"ticket: mail, leader: none\nticket: db8, leader: {holder}{until}\n")


@story
def a_follower_that_begins_finds_the_end(room: Room) -> None:
    """adopt waits until the daemon has renewed, sets the rule's end by that lease, and arms it by the daemon's clock"""
    room.put("granted", "true")
    at_site(room, date(30))
    lists(room, "192.0.2.10", 11)
    done = adopts(room)
    need(done.status == 1 and "cannot read the daemon's clock" in done.printed, f"{done}")
    clock_file(room, 1000)
    threading.Timer(2, lambda: lists(room, "192.0.2.10", 50)).start()
    done = adopts(room)
    need(done.status == 0 and done.took > 1.5, f"{done}")
    end = int(room.text("db8.end")) - 1000 - time.clock_gettime(time.CLOCK_BOOTTIME)
    need(50 - 20 < end <= 50, f"the armed end is {end} s ahead")
    ahead = pacemaker_cib.seconds_of(room.end()) - time.time()
    need(40 - 20 < ahead <= 40, f"the rule's end is {ahead} s ahead")


@story
def a_follower_waits_for_a_renewal(room: Room) -> None:
    """adopt ignores a lease longer than the longest possible: the daemon's clock is behind that of its records"""
    room.put("granted", "true")
    at_site(room, date(30))
    clock_file(room, 1000)
    lists(room, "192.0.2.10", 95)
    threading.Timer(2, lambda: lists(room, "192.0.2.10", 50)).start()
    done = adopts(room)
    need(done.status == 0 and done.took > 1.5 and "daemon has not yet renewed the listed" in done.printed, f"{done}")
    same(done.printed.count("renewed"), 1, "the lines")
    need(int(room.text("db8.end")) - 1000 - time.clock_gettime(time.CLOCK_BOOTTIME) <= 50, room.text("db8.end"))


@story
def a_follower_that_begins_finds_nothing(room: Room) -> None:
    """adopt writes nothing if the ticket is revoked or elsewhere, the rule is closed, or no renewal follows its end"""
    clock_file(room, 1000)
    rows = [("false", date(30), "192.0.2.10", 50), ("true", date(30), "192.0.2.20", 50), ("true", date(30), "none", 0)]
    rows += [("true", date(4), "192.0.2.10", 11), ("true", date(-3), "192.0.2.10", 11)]
    rows += [("true", CLOSED, "192.0.2.10", 50), ("true", date(-3), "192.0.2.20", 50)]
    for granted, end, holder, lasts in rows:
        room.put("granted", granted)
        room.put("db8.end", "1\n")
        at_site(room, end)
        lists(room, holder, lasts)
        done = adopts(room)
        need(done.status == 0 and not room.text("db8.end"), f"{granted}, {end}, {holder}, {lasts}: {done}")
        same(room.end(), end, f"the rule's end: {granted}, {end}, {holder}, {lasts}")


@story
def a_follower_that_begins_after_the_end(room: Room) -> None:
    """adopt sets a new end after the rule's end has passed, once the daemon has renewed the lease"""
    room.put("granted", "true")
    at_site(room, date(-3))
    clock_file(room, 1000)
    lists(room, "192.0.2.10", 11)
    threading.Timer(2, lambda: lists(room, "192.0.2.10", 50)).start()
    done = adopts(room)
    need(done.status == 0 and done.took > 1.5, f"{done}")
    end = int(room.text("db8.end")) - 1000 - time.clock_gettime(time.CLOCK_BOOTTIME)
    need(50 - 20 < end <= 50, f"the armed end is {end} s ahead")
    ahead = pacemaker_cib.seconds_of(room.end()) - time.time()
    need(40 - 20 < ahead <= 40, f"the rule's end is {ahead} s ahead")


def outcome(told: Story) -> bool:
    """Returns whether a story passes, in its own room."""
    with scratch("booth-pacemaker-") as folder:
        begun = time.monotonic()
        try:
            told(Room(folder))
        except Exception as why:  # (whatever it is, the other stories are told)
            print(f"FAILED  {told.__doc__}: {type(why).__name__}: {why}", flush=True)
            return False
        print(f"ok      {told.__doc__} ({time.monotonic() - begun:.1f} s)", flush=True)
        return True


def main(words: List[str]) -> int:
    """Runs the stories, or those whose name has one of the words."""
    begun = time.monotonic()
    chosen = [each for each in stories if not words or any(word in each.__name__ for word in words)]
    # (most of their time they wait)
    with concurrent.futures.ThreadPoolExecutor(4) as pool:
        outcomes = list(pool.map(outcome, chosen))
    failed = outcomes.count(False)
    print(f"pacemaker_words: {len(outcomes) - failed} passed, {failed} failed, in {time.monotonic() - begun:.1f} s")
    return 1 if failed else 0


if __name__ == "__main__":
    sys.exit(main(sys.argv[1:]))
