"""The guard of booth-lease-guard: reads the ends of leases, stops each resource that runs here after the end of its
lease, and resets the machine if a stop fails.

It is imported by booth-lease-guard, and not run by itself. A thread of its own reads the CIB, so the guard acts in time
even if the disk hangs.
"""

import contextlib
import ctypes
import os
import socket
import sys
import threading
from typing import Dict, List, NamedTuple, Optional

import lease_holding
import pacemaker_asking
import pacemaker_cib
from lease_daemons import DaemonWatch
from lease_ending import Hands, Round, ran
from lease_holding import Ends, Held, Now
from pacemaker_asking import GUARD_ATTRIBUTE
from pacemaker_cib import Lease

# in seconds: the time between two looks at the file, the time between two looks at an ended lease, and how long the CIB
# may stay unread before a line reports it
TURN, AGAIN, UNREAD = 0.2, 30.0, 60.0
# in seconds: the least step of the wall clock that is logged, and the time between two tries to close an end
STEP, CLOSE_AGAIN = 0.5, 5.0
# in seconds: how long a stop may take if the end had passed when it was first read: no lease depends on this stop
LENIENT = 60.0
# in seconds: how long the stop is left to Pacemaker in that case, for example after a setup of running resources
GENTLE = 5.0
# in seconds: how long the program of LAST_RESORT may take
LAST_LIMIT = 30.0
# in seconds: how often the guard announces itself to the cluster, and how long that and its removal may take
ANNOUNCE, ANNOUNCE_LIMIT, TAKE_BACK_LIMIT = 30.0, 5.0, 2.0
RB_AUTOBOOT = 0x01234567
RESORTS = ("reboot", "sysrq", "watchdog", "none")


def say(priority: int, text: str) -> None:
    """Prints a line, for the journal with its priority: 3 an error, 4 a warning, 5 a notice, 6 any other line."""
    mark = f"<{priority}>" if "JOURNAL_STREAM" in os.environ else "booth-lease-guard: "
    with contextlib.suppress(OSError, ValueError):
        print(f"{mark}{text}", file=sys.stderr, flush=True)


class Written(NamedTuple):
    """The leases that were read from the CIB's file, and the wall clock time at which the file was written."""

    leases: List[Lease]
    at: float


class Reader(threading.Thread):
    """Reads the CIB's file each time that it has changed."""

    def __init__(self, path: str) -> None:
        super().__init__(daemon=True)
        self.path = path
        self.mark: Optional[tuple] = None
        self.found: Optional[Written] = None
        self.looked = threading.Event()
        # the time since the boot at the last successful look
        self.last = lease_holding.now().boot
        self.why = ""

    def run(self) -> None:
        """Looks again and again."""
        while True:
            self.look()
            self.looked.set()
            pacemaker_asking.pause(TURN)

    def look(self) -> None:
        """Looks at the file once. If it cannot be read, the earlier result stays."""
        try:
            state = os.stat(self.path)
            mark = (state.st_mtime_ns, state.st_ino, state.st_size)
            if mark != self.mark:
                with open(self.path, "rb") as file:
                    leases = pacemaker_cib.parsed(file.read()).leases()
                self.found, self.mark = Written(leases, state.st_mtime), mark
        except (OSError, ValueError) as why:
            self.tell(str(why))
            return
        self.last = lease_holding.now().boot
        self.tell("")

    def tell(self, why: str) -> None:
        """Logs once why the file cannot be read, and once that it can be read again."""
        if why and why != self.why:
            say(4, f"cannot read {self.path}: {why}: the known ends stay in force")
        elif self.why and not why:
            say(5, f"{self.path} can be read again")
        self.why = why


class Announcer(threading.Thread):
    """Announces in the cluster that a guard runs on this node, for booth-status. The guard waits for no answer."""

    def run(self) -> None:
        """Repeats the announcement, since Pacemaker forgets it when it restarts."""
        while True:
            ran(ANNOUNCE_LIMIT, "attrd_updater", "--name", GUARD_ATTRIBUTE, "--update", "on")
            pacemaker_asking.pause(ANNOUNCE)

    def end(self) -> None:
        """Removes the announcement."""
        ran(TAKE_BACK_LIMIT, "attrd_updater", "--name", GUARD_ATTRIBUTE, "--delete")


class LastResort:
    """The action on the machine if a resource cannot be ended: LAST_RESORT in the unit's environment."""

    def __init__(self, way: str, device: str) -> None:
        self.way, self.device = way, -1
        if way == "watchdog":
            self.device = os.open(device, os.O_WRONLY | os.O_CLOEXEC)
        self.is_used = False

    def feed(self) -> None:
        """Feeds the hardware watchdog, so that it does not reset the machine."""
        if self.device >= 0 and not self.is_used:
            with contextlib.suppress(OSError):
                os.write(self.device, b"\0")

    def release(self) -> None:
        """Stops the hardware watchdog, because this program ends on purpose."""
        if self.device >= 0 and not self.is_used:
            with contextlib.suppress(OSError):
                os.write(self.device, b"V")

    def use(self) -> None:
        """Resets the machine."""
        self.is_used = self.way != "none"
        if self.way in ("none", "watchdog"):
            return
        if self.way not in RESORTS:
            threading.Thread(target=self.run_program, daemon=True).start()
            return
        if self.way == "reboot":
            # (a system call, because the start of a program could hang on the disk)
            ctypes.CDLL(None, use_errno=True).reboot(RB_AUTOBOOT)
            say(3, f"cannot reboot: {os.strerror(ctypes.get_errno())}: tries sysrq")
        try:
            with open("/proc/sysrq-trigger", "w", encoding="ascii") as file:
                file.write("b")
        except OSError as why:
            say(3, f"sysrq cannot reset the machine: {why.strerror}")

    def run_program(self) -> None:
        """Runs the operator's program."""
        done = ran(LAST_LIMIT, self.way)
        say(3, f"{self.way} ended with status {done.status}: {done.said}")


class Notifier:
    """Reports to systemd that the guard is ready, and that it still makes turns."""

    def __init__(self) -> None:
        self.path = os.environ.pop("NOTIFY_SOCKET", "")

    def tell(self, text: str) -> None:
        """Sends a text to systemd, if systemd asked for reports."""
        if not self.path:
            return
        name = "\0" + self.path[1:] if self.path.startswith("@") else self.path
        with contextlib.suppress(OSError), socket.socket(socket.AF_UNIX, socket.SOCK_DGRAM) as sock:
            sock.setblocking(False)
            sock.sendto(text.encode(), name)


class Guard:
    """The guard of all leases on this node."""

    def __init__(self, reader: Reader, ends: Ends, hands: Hands, last: LastResort) -> None:
        self.reader, self.ends, self.hands, self.last = reader, ends, hands, last
        self.rounds: Dict[str, Round] = {}
        # by the key of a lease: when its last round began, and when the guard last tried to close its end
        self.began: Dict[str, float] = {}
        self.closed: Dict[str, float] = {}
        self.read: Optional[Written] = None
        self.clocks: Optional[Now] = None
        self.is_told_unread = False
        self.daemons = DaemonWatch(ends, say)

    def turn(self, clocks: Now) -> None:
        """Does what is due now."""
        if not self.reader.is_alive():
            raise RuntimeError("the thread that reads the CIB's file has ended")
        self.watch_clocks(clocks)
        if self.reader.found is not self.read:
            self.read = self.reader.found
            assert self.read is not None
            for text in self.ends.take(self.read.leases, clocks, self.read.at):
                say(5, text)
        self.watch_reading(clocks)
        for key, held in list(self.ends.held.items()):
            if clocks.boot >= held.at + held.lease.times.grace():
                self.see_to(key, held, clocks)
        self.daemons.look(clocks)
        self.last.feed()

    def watch_clocks(self, clocks: Now) -> None:
        """Logs a step of the wall clock. It moves no known end."""
        if self.clocks is not None:
            step = clocks.wall - self.clocks.wall - (clocks.boot - self.clocks.boot)
            if abs(step) > STEP:
                say(4, f"the wall clock was stepped by {step:.1f} s: this moves no known end")
        self.clocks = clocks

    def watch_reading(self, clocks: Now) -> None:
        """Logs once that the file could not be read for a long time."""
        unread = clocks.boot - self.reader.last > UNREAD
        if unread and not self.is_told_unread:
            say(3, f"{self.reader.path} was not read for {UNREAD:.0f} s: the known ends stay in force")
        self.is_told_unread = unread

    def see_to(self, key: str, held: Held, clocks: Now) -> None:
        """Ends the resources of a lease on this node, after the end of the lease and its grace."""
        if not held.was_ahead and clocks.boot < held.since + GENTLE:
            return
        self.see_to_rule(key, held, clocks)
        known = self.rounds.get(key)
        if known is None or known.held.lease.end != held.lease.end:
            deadline = held.at + held.lease.times.fence() if held.was_ahead else clocks.boot + LENIENT
            self.begin(key, held, clocks, deadline)
        elif known.is_done():
            # (a resource that is started afterwards is stopped by the rule, or by this later look)
            if clocks.boot > self.began[key] + AGAIN:
                self.begin(key, held, clocks, 0.0)
        elif clocks.boot >= known.deadline and not known.gave_up:
            known.gave_up = True
            self.give_up(known, clocks)

    def begin(self, key: str, held: Held, clocks: Now, deadline: float) -> None:
        """Begins a round of looks and stops."""
        times = held.lease.times
        least = clocks.boot + times.fence() - times.grace()

        def is_over() -> bool:
            now = self.ends.held.get(key)
            return now is not None and lease_holding.now().boot >= now.at

        self.began[key] = clocks.boot
        self.rounds[key] = Round(held, self.hands, max(deadline, least), is_over)

    def give_up(self, known: Round, clocks: Now) -> None:
        """Resets the machine, if the end was ahead when it was first read, or if a resource was seen to run here."""
        held = known.held
        what = ", ".join(known.remains())
        when = f"{clocks.boot - held.at:.1f} s after its end" if held.was_ahead else "and has no lease"
        text = f"{held.lease.ticket}: {what} cannot be ended, {when}"
        if not held.was_ahead and not known.saw_one:
            say(3, f"{text}: the machine is not reset, since nothing shows that the resource runs here")
            return
        way = self.last.way
        say(3, f"{text}: {'nothing more can be done' if way == 'none' else f'the machine is reset ({way})'}")
        self.last.use()

    def see_to_rule(self, key: str, held: Held, clocks: Now) -> None:
        """Closes a passed end that is still ahead by this node's wall clock, which Pacemaker's rule reads."""
        if clocks.boot < self.closed.get(key, 0.0) + CLOSE_AGAIN:
            return
        with contextlib.suppress(ValueError):
            if pacemaker_cib.seconds_of(held.lease.end) > clocks.wall:
                self.closed[key] = clocks.boot
                threading.Thread(target=self.hands.close, args=(held,), daemon=True).start()


def run(guard: Guard, notifier: Notifier) -> None:
    """Runs the guard until a signal ends it."""
    guard.reader.start()
    # (if the disk hangs at the start, the guard begins without the CIB)
    guard.reader.looked.wait(5)
    guard.turn(lease_holding.now())
    notifier.tell("READY=1")
    announcer = Announcer(daemon=True)
    announcer.start()
    try:
        while True:
            pacemaker_asking.pause(TURN)
            guard.turn(lease_holding.now())
            notifier.tell("WATCHDOG=1")
    finally:
        announcer.end()
