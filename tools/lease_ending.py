"""Checks and ends resources on this node without Pacemaker's daemons: by their agents, and by systemd.

It is imported by booth-lease-guard, and not run by itself. Each program that it runs has a time limit.
"""

import os
import threading
import time
from typing import Callable, List, NamedTuple, Optional

import pacemaker_asking
import pacemaker_cib
from lease_holding import Held
from pacemaker_cib import Primitive

# the states of a resource on this node; an unknown state counts as running
STOPPED, RUNS, PROMOTED, UNKNOWN = "stopped", "running", "promoted", "unknown"
# exit statuses of `crm_resource --force-check`: the agent is not installed (5) or the resource does not run (7); the
# resource runs; it is promoted
STOPPED_STATUSES, RUNS_STATUS, PROMOTED_STATUS = (5, 7), 0, 8
# exit statuses of `--force-demote` after which nothing is promoted: the resource is demoted, or does not run
DEMOTED_STATUSES = (0, 7)
# in seconds: the longest time of a check and of a change of the CIB, the pause between two tries of a stop, and the
# least time that a stop gets
LOOK_LIMIT, CLOSE_LIMIT, PAUSE, LEAST = 3.0, 5.0, 0.5, 0.5
# the part of the remaining time that a unit gets for its own stop, before its processes are killed
PART_OF_STOP = 0.6

Say = Callable[[int, str], None]


class Ran(NamedTuple):
    """The result of a program: its status, or `None` after a timeout or a failed start, and what it printed."""

    status: Optional[int]
    # the last line that was printed, and the whole standard output
    said: str
    whole: str
    took: float


def ran(limit: float, *words: str, cib: str = "") -> Ran:
    """Runs a program, and kills it with SIGKILL after `limit` seconds."""
    begun = time.monotonic()
    more = {"CIB_file": cib} if cib else {}
    done = pacemaker_asking.ran(limit, *words, is_tied=False, **more)
    lines = f"{done.printed}\n{done.complained}".strip().splitlines()
    return Ran(done.status, lines[-1] if lines else "", done.printed, time.monotonic() - begun)


class Hands:
    """The guard's actions on this node, with the CIB's file and the folder of the package's own programs."""

    def __init__(self, cib: str, folder: str, say: Say) -> None:
        self.cib, self.say = cib, say
        self.follow_unit = os.path.join(folder, "follow-unit")

    def look(self, primitive: Primitive) -> str:
        """Returns the state of a resource on this node."""
        unit = primitive.unit()
        if unit is not None:
            return {0: RUNS, 3: STOPPED}.get(ran(LOOK_LIMIT, self.follow_unit, unit, "check").status, UNKNOWN)
        status = ran(LOOK_LIMIT, "crm_resource", "--force-check", "--resource", primitive.id, cib=self.cib).status
        if status in STOPPED_STATUSES:
            return STOPPED
        return {RUNS_STATUS: RUNS, PROMOTED_STATUS: PROMOTED}.get(status, UNKNOWN)

    def end(self, primitive: Primitive, is_promoted: bool, limit: float) -> bool:
        """Stops or demotes a resource within `limit` seconds. Returns whether this is known to have succeeded."""
        unit = primitive.unit()
        if unit is not None:
            stop = self.tried(primitive, max(LEAST, limit * PART_OF_STOP), self.follow_unit, unit, "stop")
            left = max(LEAST, limit - stop.took)
            return stop.status == 0 or self.tried(primitive, left, self.follow_unit, unit, "kill").status == 0
        words = ["crm_resource", "--resource", primitive.id]
        if is_promoted:
            demote = self.tried(primitive, max(LEAST, limit / 2), *words, "--force-demote", "--force")
            if demote.status in DEMOTED_STATUSES:
                return True
            limit = max(LEAST, limit - demote.took)
        return self.tried(primitive, limit, *words, "--force-stop").status == 0

    def tried(self, primitive: Primitive, limit: float, *words: str) -> Ran:
        """Runs a program that ends a resource, and logs the result."""
        done = ran(limit, *words, cib=self.cib)
        told = f"status {done.status}" if done.status is not None else done.said
        what = " ".join([os.path.basename(words[0]), *words[1:]])
        self.say(5 if done.status == 0 else 4, f"{primitive.id}: {what}: {told}, after {done.took:.2f} s")
        return done

    def close(self, held: Held) -> None:
        """Sets the end in the CIB to the past, unless the CIB has another end by now."""
        name, end = held.lease.end_id(), held.lease.end
        words = ["--xpath", f"//date_expression[@id='{name}' and @start='{end}']"]
        words += ["--xml-text", f'<date_expression id="{name}" start="{pacemaker_cib.CLOSED}"/>']
        done = ran(CLOSE_LIMIT, "cibadmin", "--modify", *words)
        told = "closes it in the CIB" if done.status == 0 else f"cibadmin: {done.said or f'status {done.status}'}"
        self.say(4, f"{held.lease.ticket}: its end has passed, but this node's wall clock is before it: {told}")


class Round:
    """One round of checks and stops of all resources of an ended lease on this node, each in a thread of its own."""

    def __init__(self, held: Held, hands: Hands, deadline: float, is_over: Callable[[], bool]) -> None:
        self.held, self.hands, self.deadline, self.is_over = held, hands, deadline, is_over
        self.left = {primitive.id: UNKNOWN for primitive in held.lease.primitives}
        # whether a resource was seen to run here: if not, a failed stop may concern a resource that does not run
        self.saw_one = False
        self.gave_up = False
        for primitive in held.lease.primitives:
            threading.Thread(target=self.work_on, args=(primitive,), daemon=True).start()

    def is_done(self) -> bool:
        """Returns whether no resource of the lease runs here, or the lease has another end."""
        return not self.left

    def remains(self) -> List[str]:
        """Returns the resources that are not known to have ended."""
        return sorted(self.left)

    def work_on(self, primitive: Primitive) -> None:
        """Ends one resource, and continues after any exception."""
        while True:
            try:
                self.work(primitive)
            except Exception as why:  # (the stop is tried again, until the machine is reset)
                self.hands.say(3, f"{self.held.lease.ticket}: {primitive.id}: {type(why).__name__}: {why}")
                pacemaker_asking.pause(PAUSE)
            else:
                self.left.pop(primitive.id, None)
                return

    def work(self, primitive: Primitive) -> None:
        """Tries to end one resource, until it has ended or its lease has another end."""
        lease, tells = self.held.lease, True
        while self.is_over():
            state = self.hands.look(primitive)
            if state == STOPPED or lease.is_promoted and state == RUNS:
                break
            self.saw_one = self.saw_one or state != UNKNOWN
            if not self.is_over():
                break
            if tells:
                after = time.clock_gettime(time.CLOCK_BOOTTIME) - self.held.at
                when = f"{after:.1f} s after its end" if self.held.was_ahead else "without a lease"
                self.hands.say(4, f"{lease.ticket}: {primitive.id} is {state} here {when}")
                tells = False
            left = self.deadline - time.clock_gettime(time.CLOCK_BOOTTIME)
            if self.hands.end(primitive, lease.is_promoted and state != RUNS, max(LEAST, left)):
                self.hands.say(5, f"{lease.ticket}: {primitive.id} has ended")
                break
            pacemaker_asking.pause(PAUSE)
