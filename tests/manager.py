#!/usr/bin/env python3
"""Checks what systemd reads from boothd and booth-follow: lines with priorities, and notifications.

Run it as `python3 tests/manager.py [BOOTHD BOOTH-FOLLOW]`. By default the programs are those that `make build` leaves.
It takes some ten seconds, prints a line for each check, ends all programs that it started, and has the status 1 if a
check failed. If a program is not built it checks nothing, with status 0.

No daemon answers booth-follow: it runs its program with `stop`, and continues.
"""

import contextlib
import os
import signal
import subprocess
import sys
import time
from typing import Callable, Dict, IO, Iterator, List, Optional, Tuple

HERE = os.path.dirname(os.path.abspath(__file__))
sys.path[:0] = [HERE, f"{HERE}/../tools"]

from checks import Wrong, need
from follow import NAME, TIMES, keep_clock
from host_handlers import content, write_script
from host_lines import Manager, manager, surroundings
from members import Cluster
from scratch import scratch
from serving import built_program, end_by_signals, own_addresses
from stories import PATIENCE, passed

# the additional time for a line that comes once a second, in seconds: a busy machine may have no processor for it
LATE = 10


class Place:
    """A configuration of three members in a folder, and the address of the first."""

    def __init__(self, folder: str, conf: str, address: str) -> None:
        self.folder = folder
        self.conf = conf
        self.address = address
        self.errors = f"{folder}/errors"

    @contextlib.contextmanager
    def running(self, words: List[str], journal: bool, **variables: str) -> Iterator["subprocess.Popen[bytes]"]:
        """Yields a program that runs with these variables of systemd. Its standard error may be the journal's."""
        with open(self.errors, "wb") as errors:
            environ = surroundings(**variables, **(stream_of(errors) if journal else {}))
            streams = {"stdin": subprocess.DEVNULL, "stdout": subprocess.DEVNULL, "stderr": errors}
            process = subprocess.Popen(words, env={**environ, "BOOTH_LOG": "on"}, cwd=self.folder, **streams)
        try:
            yield process
        finally:
            process.kill()
            process.wait()

    def lines(self, count: int) -> List[str]:
        """Returns the lines on standard error, once there are this many."""
        end = time.monotonic() + PATIENCE
        while content(self.errors).count("\n") < count and time.monotonic() < end:
            time.sleep(0.02)
        return content(self.errors).splitlines()

    def daemon(self, program: str) -> List[str]:
        """Returns the command of the first member's daemon."""
        places = ["-l", f"{self.folder}/lock", "-d", f"{self.folder}/own"]
        return [program, "daemon", "-c", self.conf, "-s", self.address, *places]

    def follower(self, program: str) -> List[str]:
        """Returns the command of a follower at the first member, whose daemon has written its clock and does not run.
        """
        records = f"{self.folder}/records"
        os.makedirs(records, exist_ok=True)
        keep_clock(records)
        return [program, "-c", self.conf, "-s", self.address, "-d", records, NAME, f"{self.folder}/program"]


def stream_of(errors: IO[bytes]) -> Dict[str, str]:
    """Returns the name of this file in the form in which systemd names the file that the journal reads."""
    own = os.fstat(errors.fileno())
    return {"JOURNAL_STREAM": f"{own.st_dev}:{own.st_ino}"}


def daemon_lines(programs: Tuple[str, str], place: Place) -> None:
    """a daemon's lines have their priority in the journal, and its name elsewhere"""
    for journal, begins, ready in ((True, "<6>", "<6>"), (False, "boothd: ", "boothd: ")):
        with place.running(place.daemon(programs[0]), journal):
            told = place.lines(2)
        begin, *others = told or ["nothing"]
        need(begin.startswith(f"{begins}begins: version ") and others == [f"{ready}ready, tickets: 1"], f"{told}")


def daemon_failures(programs: Tuple[str, str], place: Place) -> None:
    """a daemon that does not start prints the cause with the priority of a failure"""
    refusals = {"1.2.3": "bad site\n<3>-s ", "127.0.0.9": "127.0.0.9 is not a member\n<3>members of "}
    for address, text in refusals.items():
        lock = ["-l", f"{place.folder}/lock"]
        with place.running([programs[0], "daemon", "-c", place.conf, *lock, "-s", address], True) as process:
            need(process.wait(PATIENCE) == 1, "another status")
        need(content(place.errors).startswith(f"<3>{text}"), content(place.errors))


def told_until(systemd: Manager, text: str) -> List[str]:
    """Returns the notifications of the service manager up to this text."""
    told: List[str] = []
    while text not in told:
        told.append(systemd.told())
    return told


def follower_notices(programs: Tuple[str, str], place: Place) -> None:
    """a follower notifies the state of its service, that it is ready, and then each second that its turns continue"""
    for body in ("exit 0", "exec sleep 1000"):
        write_script(f"{place.folder}/program", body)
        with manager(f"{place.folder}/m") as systemd:
            with place.running(place.follower(programs[1]), False, NOTIFY_SOCKET=f"{place.folder}/m"):
                first, *others = told_until(systemd, "READY=1")
                need(first.startswith("STATUS=") and others == ["READY=1"], f"with {body}: {first}, {others}")
                told_until(systemd, "WATCHDOG=1")
                began = time.monotonic()
                told = told_until(systemd, "WATCHDOG=1") + told_until(systemd, "WATCHDOG=1")
                took = time.monotonic() - began
                need(1.5 < took < 2 + LATE, f"{told} in {took:.1f} s")
                others = [text for text in told if text != "WATCHDOG=1" and not text.startswith("STATUS=")]
                need(not others, f"with {body}: {others}")
        os.remove(f"{place.folder}/m")


def follower_lines(programs: Tuple[str, str], place: Place) -> None:
    """a follower's lines have their priority in the journal, and its name elsewhere"""
    write_script(f"{place.folder}/program", "exit 0")
    for journal, begins in ((True, "<"), (False, "booth-follow: ")):
        with place.running(place.follower(programs[1]), journal):
            told = place.lines(2)
        need(len(told) > 1 and all(line.startswith(begins) for line in told), f"{told}")
        need(journal or not any("<" in line for line in told), f"{told}")


def stopped_follower(programs: Tuple[str, str], place: Place) -> None:
    """a stopped follower (SIGSTOP) notifies nothing, and notifies again once it continues"""
    write_script(f"{place.folder}/program", "exit 0")
    with manager(f"{place.folder}/m") as systemd:
        with place.running(place.follower(programs[1]), False, NOTIFY_SOCKET=f"{place.folder}/m") as process:
            told_until(systemd, "WATCHDOG=1")
            process.send_signal(signal.SIGSTOP)
            time.sleep(0.3)
            systemd.all_told()
            time.sleep(2.2)
            need(systemd.all_told() == [], "it is told something")
            process.send_signal(signal.SIGCONT)
            told_until(systemd, "WATCHDOG=1")


def follower_failures(programs: Tuple[str, str], place: Place) -> None:
    """a follower that cannot start is never ready, and prints the cause with the priority of a failure"""
    words = place.follower(programs[1])
    os.remove(f"{place.folder}/records/booth.clock")
    with manager(f"{place.folder}/m") as systemd:
        with place.running(words, True, NOTIFY_SOCKET=f"{place.folder}/m") as process:
            need(process.wait(PATIENCE) == 1, "another status")
        need(systemd.all_told() == [], "it is told something")
    unkept = "<3>cannot read the clock of the records: no daemon wrote its clock there since the boot\n"
    need(content(place.errors) == unkept, content(place.errors))


CHECKS: Tuple[Callable[[Tuple[str, str], Place], None], ...] = (
    daemon_lines,
    daemon_failures,
    follower_notices,
    follower_lines,
    stopped_follower,
    follower_failures,
)


def run(programs: Tuple[str, str]) -> int:
    """Runs each check in its own folder, and returns how many failed."""
    failed = 0
    addresses = own_addresses()
    for check in CHECKS:
        with scratch("booth-manager-") as folder:
            with Cluster("", folder, [next(addresses) for _ in range(3)], times=TIMES) as cluster:
                place = Place(folder, cluster.conf, cluster.members[0].address)
                try:
                    check(programs, place)
                    passed(check.__doc__)
                except (Wrong, OSError, subprocess.SubprocessError) as why:
                    failed += 1
                    print(f"FAILED  {check.__doc__}: {type(why).__name__}: {why}", flush=True)
    print(f"manager: {len(CHECKS) - failed} passed, {failed} failed ({programs[1]})")
    return failed


def main(words: List[str]) -> int:
    """Returns the status."""
    end_by_signals()
    built: List[Optional[str]] = [built_program("boothd"), built_program("booth-follow")]
    found = words if len(words) == 2 else built
    programs = [os.path.abspath(program) for program in found if program is not None]
    if len(programs) != 2:
        print("manager: skipped, since boothd or booth-follow is not built: run make build")
        return 0
    return 1 if run((programs[0], programs[1])) else 0


if __name__ == "__main__":
    sys.exit(main(sys.argv[1:]))
