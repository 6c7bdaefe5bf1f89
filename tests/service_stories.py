"""The output of booth-status about services that follow a ticket on its machine, with arranged states and units.

It is imported by tests/status.py, and not run by itself. One story runs follow-service of the package, which writes the
files that booth-status reads. The other stories write these files of booth-follow(8) themselves.
"""

import contextlib
import os
import re
import signal
import subprocess
import time
from typing import Any, Dict, Iterator, List, Optional, Tuple

import configuration
import service_state
from checks import need
from look_stories import NONE_DROPPED, Three, all_of, well
from service_room import ENDS, KILL, LEFT, Room
from status_runs import (
    critical,
    document,
    metrics_of,
    require_problems,
    require_same,
    run_apart,
    sample,
    status,
    story,
    tables_of,
    warning,
)

# a stand-in for systemctl: it lists the units of a file, and reads from another file whether a unit starts at boot
SYSTEMCTL = """#!/bin/sh
[ ! -e {folder}/hangs ] || exec sleep 100
[ ! -e {folder}/fails ] || exit 1
case $1 in
  list-units) cat {folder}/units ;;
  is-enabled) cat {folder}/start."$2" 2>/dev/null || {{ echo not-found; exit 4; }} ;;
  *) exit 9 ;;
esac
"""
LIVE, GONE = "loaded active running", "loaded inactive dead"
# a PATH with a shell and without systemctl, for programs that are run by their own path
NOWHERE = "/nonexistent"


class Machine:
    """A machine that is arranged in a folder: states of services, variables of units, and the answers of systemd."""

    def __init__(self, folder: str, site: Optional[str] = None) -> None:
        self.folder = folder
        self.run, self.etc, self.bin = (os.path.join(folder, name) for name in ("run", "etc", "bin"))
        for place in (self.run, f"{self.etc}/follow", self.bin):
            os.makedirs(place)
        self.put("bin/systemctl", SYSTEMCTL.format(folder=folder))
        os.chmod(f"{self.bin}/systemctl", 0o755)
        self.put("units")
        if site:
            self.put("etc/booth.env", f"ADDRESS={site}\n")

    def put(self, name: str, text: str = "") -> None:
        """Writes a file."""
        with open(os.path.join(self.folder, name), "w", encoding="utf-8") as file:
            file.write(text)

    def drop(self, *names: str) -> None:
        """Removes these files, if they exist."""
        for name in names:
            if os.path.lexists(os.path.join(self.folder, name)):
                os.remove(os.path.join(self.folder, name))

    def unit(self, state: Optional[str], ticket: str = "web") -> None:
        """Makes systemd list only the follower of this ticket, in this state; or none."""
        self.put("units", f"booth-follow@{ticket}.service {state} What has a service follow\n" if state else "")

    def state(
        self, service: Optional[str], ticket: str = "web", *, paused: bool = False, lasts: float = 42, **said: float
    ) -> None:
        """Sets the service to this state, as if since this many seconds; the times in `said` count from now."""
        self.drop(f"run/{ticket}.state", f"run/{ticket}.paused")
        if paused:
            self.put(f"run/{ticket}.paused")
        if service is None:
            return
        now = service_state.since_boot()
        times = {key: now + said[key] for key in ("end_at", "kill_at", "failed_until") if key in said}
        times["since"] = now - lasts
        lines = [f"service={service}", f"failed_starts={said.get('failed_starts', 0)}", f"ends={said.get('ends', 0)}"]
        lines += [f"{key}={value:.2f}" for key, value in times.items()]
        self.put(f"run/{ticket}.state", "".join(f"{line}\n" for line in [*lines, "word=start", "status=0"]))

    @contextlib.contextmanager
    def here(self, path: Optional[str] = None) -> Iterator[None]:
        """Programs that run in this block see the arranged machine."""
        before, kept = dict(os.environ), configuration.FOLDER
        os.environ["BOOTH_FOLLOW_RUN"] = self.run
        os.environ["PATH"] = f"{self.bin}:/usr/bin:/bin" if path is None else path
        configuration.FOLDER = self.etc
        try:
            yield
        finally:
            configuration.FOLDER = kept
            os.environ.clear()
            os.environ.update(before)


def arranged(folder: str, **more: Any) -> Tuple[Three, Machine]:
    """Arranges three members of the cluster booth, and the machine of the first one."""
    three = Three(folder, name="booth", **more)
    return three, Machine(folder, three.one)


def texts(told: Dict[str, Any]) -> List[str]:
    """Returns the text of each problem."""
    return [each["text"] for each in told["problems"]]


def says(told: Dict[str, Any], form: str) -> None:
    """Checks that the text of the worst problem has this form."""
    need(re.fullmatch(form, texts(told)[0]), f"{texts(told)[0]!r}, and not {form!r}")


def table_of(three: Three) -> Tuple[List[List[str]], int]:
    """Returns the rows of the tickets in the table, and the status."""
    ran = status("-c", three.path)
    need(not ran.said, ran.said)
    return tables_of(ran.printed)[2], ran.status


@story
def each_state_of_a_service(folder):
    """the column of services has each state, and a problem of it is reported at the holder and elsewhere"""
    three, machine = arranged(folder)
    one, two, _ = three.addresses
    down, gone = critical("service-down", one, ticket="web"), critical("no-follower", one, ticket="web")
    idle, paused = warning("no-follower", one, ticket="web"), warning("paused", one, ticket="web")
    failed = critical("service-failed", one, ticket="web")
    # each row: the state, whether it is paused, the unit, the shown word, and the problems at the holder and elsewhere
    cases = [
        ("running", False, LIVE, "running here", [], []),
        ("starting", False, LIVE, "starting", [], []),
        ("stopping", False, LIVE, "stopping", [], []),
        ("killing", False, LIVE, "killing", [], []),
        ("stopped", False, LIVE, "stopped", [down], []),
        ("ended", False, LIVE, "ended", [down], []),
        ("ended", True, LIVE, "paused", [paused], [paused]),
        ("stopped", True, LIVE, "paused", [paused], [paused]),
        ("running", True, LIVE, "paused", [paused], [paused]),
        ("failed", False, LIVE, "failed", [failed], [failed]),
        ("running", False, GONE, "no follower", [gone], [gone]),
        ("running", False, None, "no follower", [gone], [gone]),
        ("running", False, "loaded activating auto-restart", "no follower", [gone], [gone]),
        ("running", False, "loaded activating start-pre", "running here", [], []),
        ("running", False, "loaded failed failed", "no follower", [gone], [gone]),
        ("stopped", False, GONE, "no follower", [down, gone], [idle]),
        ("ended", False, GONE, "no follower", [down, gone], [idle]),
        # (the follower was stopped and disabled)
        ("stopped", False, None, "no follower", [down, gone], []),
        (None, False, GONE, "no follower", [gone], [idle]),
        (None, False, LIVE, "unknown", [], []),
    ]
    with machine.here():
        for holder, place in ((one, 0), (two, 1)):
            with well(three, held=three.held(holder, two, left=3000)):
                for state, is_paused, unit, shown, *wanted in cases:
                    machine.state(state, paused=is_paused)
                    machine.unit(unit)
                    told = document("-c", three.path)
                    require_problems(told, *wanted[place])
                    found = told["site"], told["tickets"][0]["service"]["shown"]
                    require_same(found, (one, shown), f"{state}, {unit}: ")
        machine.state("running")
        machine.unit(LIVE)
        with well(three):
            rows, result = table_of(three)
    require_same([row[-1] for row in rows], ["SERVICE", "running here", "-"])
    require_same(result, 0)


@story
def what_is_said_of_a_service(folder):
    """each problem of a service has its begin, its end, and a remedy"""
    three, machine = arranged(folder)
    one = three.one
    with machine.here(), well(three, held=three.held(one, one)):
        machine.unit(LIVE)
        machine.state("stopped")
        down = "web: this site holds it, but its service has been"
        says(document("-c", three.path), rf"{down} stopped for 4\d s: journalctl -u booth-follow@web has the cause")
        machine.state("ended")
        ended = "web: this site holds it, but its service ended by itself, as was seen 4\\d s ago"
        says(document("-c", three.path), rf"{ended}: systemctl restart booth-follow@web starts it again")
        # (for longer than a lease)
        machine.state("starting", lasts=130)
        says(document("-c", three.path), f"{down} starting for 2 min: journalctl -u booth-follow@web has the cause")
        machine.state("running", kill_at=30, paused=True)
        says(document("-c", three.path), "web: its service is paused here, and runs: booth-service resume web")
        machine.state("failed", failed_starts=3, failed_until=500)
        refused = "web: its service failed to start here, 3 times in a row"
        refuses = f"{refused}, and handler-follow refuses the ticket for 8 min more"
        says(document("-c", three.path), f"{refuses}: booth-service clear web")
        machine.state("failed", failed_starts=3, failed_until=-1)
        says(document("-c", three.path), f"{refused}: booth-service clear web")
        machine.unit(GONE)
        machine.state("running", kill_at=30)
        killed = r"web: no follower runs, but its service runs here, and is killed in [12]\d s"
        says(document("-c", three.path), f"{killed}: systemctl start booth-follow@web")
        machine.unit(LIVE)
        machine.put("run/web.state", "since=many\n")
        told = document("-c", three.path)
        require_problems(told, warning("service-unknown", one, ticket="web"))
        says(told, f"web: {machine.run}/web.state, or the file of its end, is not a state of a service: .*")
        require_same(told["tickets"][0]["service"]["shown"], "unknown")


@story
def services_for_programs(folder):
    """the document and the metrics have each value of a service, and the problems of a ticket by their kinds"""
    three, machine = arranged(folder)
    one = three.one
    machine.unit(LIVE)
    machine.state("running", kill_at=20, end_at=25, ends=1_790_000_000, failed_starts=2, paused=True)
    with machine.here(), well(three):
        told = document("-c", three.path)
        samples = metrics_of(status("-c", three.path, "-m", "-").printed)
        machine.state(None)
        machine.unit(None)
        without = document("-c", three.path)
        bare = metrics_of(status("-c", three.path, "-m", "-").printed)
    found = told["tickets"][0]["service"]
    need(42 <= found.pop("seconds") <= 60 and 2 <= found.pop("seconds_to_kill") <= 20, str(found))
    wanted = {"shown": "paused", "follower": True, "why": None, "state": "running", "paused": True, "failed_starts": 2}
    require_same(found, {**wanted, "until": 1_790_000_000})
    require_same(told["tickets"][1]["service"], None)
    values = {"running": 1, "paused": 1, "failed_starts": 2}
    for name, value in values.items():
        require_same(sample(samples, f"booth_service_{name}", ticket="web"), value, f"{name} is ")
    require_same(sample(samples, "booth_service_state", ticket="web", state="running"), 1)
    require_same(sample(samples, "booth_follower_up", ticket="web"), 1)
    require_same(sample(samples, "booth_ticket_problem", ticket="web", kind="paused"), 1)
    need(42 <= sample(samples, "booth_service_state_seconds", ticket="web") <= 60, "since when")
    need(2 <= sample(samples, "booth_service_kill_seconds", ticket="web") <= 20, "when it is killed")
    require_same((without["site"], without["tickets"][0]["service"]), (None, None))
    left = [name for name, _ in bare if re.match("booth_(service|follower|ticket_problem)", name)]
    require_same((left, one in str(told["site"])), ([], True))


@story
def what_follow_service_writes(folder):
    """booth-status shows the state that follow-service writes through a service's starts, a pause and its stops"""
    three, machine = arranged(folder)
    os.makedirs(f"{folder}/room")
    room = Room(f"{folder}/room")
    machine.run = room.run_folder
    machine.unit(LIVE)

    def word(*words, **more):
        return room.word(*words, ticket="web", **more).status

    def shown():
        with machine.here(), well(three):
            return document("-c", three.path)["tickets"][0]["service"]

    require_same(word("renew", str(KILL)), 0)
    require_same(word("start"), 0)
    found = shown()
    most = (LEFT - KILL) / 1000
    require_same((found["shown"], found["until"], found["state"]), ("running here", ENDS, "running"))
    need(0 <= found["seconds_to_kill"] <= most and 0 <= found["seconds"] <= 30, str(found))
    require_same(room.call("booth-service", "pause", "web").status, 0)
    require_same(shown()["shown"], "paused")
    room.drop("run/web.paused")
    require_same(word("stop"), 0)
    found = shown()
    require_same((found["shown"], found["until"], found["seconds_to_kill"]), ("stopped", None, None))
    room.put("start.status", "1")
    require_same((word("renew", str(KILL)), word("start", FAILED_STARTS="1")), (0, 1))
    require_same(word("stop", FAILED_STARTS="1"), 0)
    found = shown()
    require_same((found["shown"], found["failed_starts"]), ("failed", 1))


@story
def whose_services_are_looked_at(folder):
    """services of another cluster, manual tickets and states with other names are left out; the unit's site is used"""
    three, machine = arranged(folder)
    one, two, _ = three.addresses
    machine.unit(LIVE)
    with machine.here(), well(three):
        machine.state("stopped")
        machine.put("etc/follow/web.env", "CLUSTER=other\n")
        require_problems(document("-c", three.path))
        machine.put("etc/follow/web.env", f'ADDRESS="{two}"\n')
        machine.drop("etc/booth.env")
        told = document("-c", three.path)
        require_same((told["site"], problems(told)), (two, []))
        # (the machine has all these addresses, and nothing says which site it is)
        machine.drop("etc/follow/web.env")
        told = document("-c", three.path)
        require_same((told["site"], problems(told), told["tickets"][0]["service"]["state"]), (None, [], "stopped"))
        machine.state(None)
        machine.unit(None)
        machine.state("stopped", "db")
        machine.state("stopped", "mail")
        require_same([row[-1] for row in table_of(three)[0]], ["SEEN BY", "all", "all"])


def problems(told: Dict[str, Any]) -> List[str]:
    """Returns the kinds of the problems."""
    return [each["kind"] for each in told["problems"]]


@contextlib.contextmanager
def follower_of(ticket: str) -> Iterator[None]:
    """Runs a process with the name and the arguments of a follower in this block."""
    words = ["booth-follow", "-c", "sleep 100; :", ticket, "a-program"]
    with subprocess.Popen(words, executable="/bin/sh", start_new_session=True) as process:
        try:
            yield
        finally:
            os.killpg(process.pid, signal.SIGKILL)


@story
def a_follower_without_systemd(folder):
    """if systemd does not answer, or has no such unit, a follower that runs as a process is found"""
    three, machine = arranged(folder)
    machine.state("running")
    gone = critical("no-follower", three.one, ticket="web")

    def lives() -> Optional[bool]:
        told = document("-c", three.path, "-t", 1)
        require_problems(told, *([] if told["tickets"][0]["service"]["follower"] else [gone]))
        return told["tickets"][0]["service"]["follower"]

    with machine.here(), well(three):
        for fault in ("fails", "hangs", None):
            if fault:
                machine.put(fault)
            began = time.monotonic()
            require_same(lives(), False, f"where it {fault}: ")
            need(time.monotonic() - began < 4, "it waits for systemd")
            with follower_of("web"):
                require_same(lives(), True, f"with a process, where it {fault}: ")
            with follower_of("webs"):
                require_same(lives(), False, f"with another's process, where it {fault}: ")
            machine.drop("fails", "hangs")
    with machine.here(path=NOWHERE), well(three):
        ran = run_apart("booth-status", "-b", "-c", three.path, env={**os.environ})
    need(ran.status in (0, 2) and not ran.said, str(ran))


def of_web(told: Dict[str, Any]) -> str:
    """Returns the text about the silent holder of this ticket."""
    return next(each["text"] for each in told["problems"] if (each["kind"], each["ticket"]) == ("silent-owner", "web"))


@story
def when_a_takeover_comes(folder):
    """for a holder that is silent or did not renew, the report has when the ticket is free, and which site is next"""
    three = Three(folder, more="acquire-after = 30\n")
    one, two, third = three.addresses
    held = three.held(one, two)
    # (the lease's end, acquire-after, and a guard of 0.122 s, rounded up to whole seconds)
    free = three.now + 50 + 30 + 1
    when = time.strftime("%H:%M:%S", time.gmtime(free))
    with all_of([three.fake(two, held), three.fake(third, held)]):
        told = document("-c", three.path, "-t", 0.8)
        samples = metrics_of(status("-c", three.path, "-t", 0.8, "-m", "-").printed)
    require_problems(told, warning("no-daemon", one), warning("silent-owner", one, ticket="web"))
    until = re.escape(f"web: its holder {one} does not answer: free at ") + r"(\d{4}-\d\d-\d\d )?" + when
    need(re.fullmatch(f"{until}, {two} is next, unless it renews its lease", of_web(told)), of_web(told))
    require_same(told["tickets"][0]["takeover"], {"free_at": free, "next": two, "due": False})
    need(40 <= sample(samples, "booth_ticket_takeover_seconds", ticket="web") <= 81, "in how long")
    # (a lease of 60 s that is renewed each 30 s, with tries 5 s apart, has more than 17 s left at any time)
    late = three.held(one, two, left=14)
    with all_of([three.fake(two, late), three.fake(third, late)]):
        told = document("-c", three.path, "-t", 0.8)
    need(of_web(told).endswith(f", {two} is next"), of_web(told))
    with well(three, held=late):
        told = document("-c", three.path)
    require_problems(told, warning("unrenewed", one, ticket="web"))
    late = rf"web: its holder {one} did not renew the lease in time, and holds it for \d+ s more"
    says(told, f"{late}: free at .*, {two} is next")
    with all_of([three.fake(third, held)]):
        told = document("-c", three.path, "-t", 0.8)
    need("and no other site answers" in of_web(told), of_web(told))


@story
def who_takes_over_first(folder):
    """the site with the greatest weight is next; with equal weights the one that comes earlier in the file"""
    for weights, wanted in (("", 0), ("weights = 1,5,9,2\n", 3), ("weights = 0,0,9,1\n", 3), ("weights = 3,3\n", 0)):
        three = Three(folder, more=weights)
        fourth = three.third.rsplit(".", 1)[0] + ".250"
        with open(three.path, encoding="ascii") as file:
            text = file.read()
        with open(three.path, "w", encoding="ascii") as file:
            file.write(text.replace("ticket = web", f"site = {fourth}\nticket = web"))
        members = [*three.addresses, fourth]
        held = three.held(three.two, three.one)
        fakes = [three.fake(three.one, held), three.fake(three.third, held)]
        with all_of([*fakes, three.fake(fourth, held, [NONE_DROPPED])]):
            told = document("-c", three.path, "-t", 0.8)
        require_same(told["tickets"][0]["takeover"]["next"], members[wanted], f"{weights!r}: ")


@story
def a_ticket_that_was_held(folder):
    """with a state, a ticket that was held is critical until it is held again, with the time at which it is free"""
    three = Three(folder)
    one, two, _ = three.addresses
    state = os.path.join(folder, "state")
    free = critical("free", ticket="web")

    def looked(held, *words):
        with well(three, held=held):
            return document("-c", three.path, "-s", state, *words)

    require_problems(looked(three.held(None, two)), warning("free", ticket="web"))
    # (the ticket is free a second after this lease)
    require_problems(looked(three.held(one, two, left=-1), "-t", 1), warning("unrenewed", one, ticket="web"))
    until = time.strftime("%Y-%m-%d %H:%M:%S", time.gmtime(three.now - 1))
    for _ in range(2):
        told = looked(three.held(None, two))
        require_problems(told, free)
        when = rf"(at .*, {two} is next|for \d s, but not taken over)"
        says(told, f"web: nobody holds it, and {one} held it until {until}: free {when}")
    require_problems(looked(three.held(None, two), "-f", "web"))
    require_problems(looked(three.held(two, two)))
    told = looked(three.held(None, two))
    require_problems(told, free)
    says(told, f"web: nobody holds it, and {two} released it")
    require_same(told["tickets"][0]["takeover"], None)
    # (the state file of an older booth-status has no holders)
    with open(state, encoding="ascii") as file:
        text = file.read()
    with open(state, "w", encoding="ascii") as file:
        file.write(re.sub(r', "held": .*', "}", text))
    require_problems(looked(three.held(None, two)), warning("free", ticket="web"))
