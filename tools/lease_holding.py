"""The ends of leases that this node knows. Each is converted to the time since the boot when it is read.

It is imported by booth-lease-guard and follow-pacemaker, and not run by itself. A later step of the wall clock moves no
known end.
"""

import contextlib
import json
import os
import time
from typing import Dict, Iterable, List, NamedTuple, Optional

import pacemaker_cib
from pacemaker_cib import Lease

FOLDER = "/run/booth-lease-guard"
# in seconds: how far ahead of the wall clock the time of a file that was just written may be
JUST = 1.0


class Told(NamedTuple):
    """The last end of a lease, and a lower bound of how far the wall clock that set it is ahead of this boot's time.

    When an end is set, it is at most `Times.longest` ahead of that wall clock. The bound is tightest when the end is
    read for the first time. A lease that was closed afterwards keeps both values.
    """

    end: str
    clock: float


class Held(NamedTuple):
    """A known end of a lease. `at` is the time of the end, in seconds since the boot."""

    lease: Lease
    at: float
    # whether the end was ahead when it was read, and when it was read, in seconds since the boot
    was_ahead: bool
    since: float
    told: Optional[Told] = None


class Now(NamedTuple):
    """The two clocks, in seconds: the time since the boot, and the wall clock."""

    boot: float
    wall: float


def now() -> Now:
    """Reads the two clocks."""
    return Now(time.clock_gettime(time.CLOCK_BOOTTIME), time.time())


def kept_in(folder: str) -> Dict[str, List[object]]:
    """Returns what a guard of this boot saved about each lease. Raises `OSError` or `ValueError` if it cannot."""
    with open(os.path.join(folder, "ends.json"), encoding="utf-8") as file:
        return {str(key): list(values) for key, values in dict(json.load(file)).items()}


def told_of(kept: Optional[List[object]]) -> Optional[Told]:
    """Returns the last end in what was saved about a lease, or `None` if it is missing."""
    if kept is None or len(kept) < 5 or not isinstance(kept[3], str) or not isinstance(kept[4], float):
        return None
    return Told(kept[3], kept[4])


class Ends:
    """The known ends of leases. A file saves them for a restart of the guard."""

    def __init__(self, folder: str) -> None:
        self.path = os.path.join(folder, "ends.json")
        self.held: Dict[str, Held] = {}
        # what an earlier guard of this boot knew, by the lease's key: the end, its time, and whether it was ahead
        self.kept: Dict[str, List[object]] = {}
        # whether no guard has read a CIB since the boot
        self.is_first = True
        with contextlib.suppress(OSError, ValueError):
            self.kept = kept_in(folder)
            self.is_first = False

    def take(self, leases: Iterable[Lease], clocks: Now, written: float) -> List[str]:
        """Takes over these leases, whose file was written at this wall clock time. Returns the lines to log."""
        told, found = [], {lease.key(): lease for lease in leases}
        for key, lease in found.items():
            before = self.held.get(key)
            if before is not None and before.lease.end == lease.end:
                self.held[key] = before._replace(lease=lease)
                continue
            try:
                held = self.begun(key, lease, clocks, written)
            except ValueError:
                told.append(f"{lease.ticket}: its end in the CIB is not a date: {lease.end!r}: the known end stays")
                continue
            told += self.said_of(held, before, clocks)
            if before is not None and before.at > max(held.at, clocks.boot):
                # a known end stays: a stop sets an earlier end, and until the known end Pacemaker carries out that stop
                held = held._replace(at=before.at, was_ahead=True)
            former = before.told if before is not None else told_of(self.kept.get(key))
            self.held[key] = held._replace(told=self.last(lease, former, clocks))
        for key in set(self.held) - set(found):
            told.append(f"{self.held.pop(key).lease.ticket}: its lease is no longer in the CIB, so it is not guarded")
        self.is_first = False
        self.kept = {}
        self.save()
        return told

    def last(self, lease: Lease, former: Optional[Told], clocks: Now) -> Optional[Told]:
        """Returns the last end of a lease. `former` is the last end that was known before."""
        if lease.end == pacemaker_cib.CLOSED or former is not None and former.end == lease.end:
            return former
        return Told(lease.end, pacemaker_cib.seconds_of(lease.end) - lease.times.longest() - clocks.boot)

    def begun(self, key: str, lease: Lease, clocks: Now, written: float) -> Held:
        """Returns the known end of a lease whose end has changed or is new."""
        end, at, was_ahead = (self.kept.get(key) or [None, None, False])[:3]
        if end == lease.end and isinstance(at, float):
            return Held(lease, at, bool(was_ahead), clocks.boot)
        left = min(pacemaker_cib.seconds_of(lease.end) - clocks.wall, float(lease.times.longest()))
        if self.is_first:
            # a file that was written before this boot, or with a clock ahead of this one, cannot have an end ahead
            age = clocks.wall - written
            is_of_boot = -JUST <= age <= clocks.boot
            left = min(left, lease.times.longest() - age) if is_of_boot else min(left, 0.0)
        return Held(lease, clocks.boot + left, left > 0, clocks.boot)

    def said_of(self, held: Held, before: Optional[Held], clocks: Now) -> List[str]:
        """Returns the lines to log about an end that was just read."""
        lease, left = held.lease, held.at - clocks.boot
        ahead = pacemaker_cib.seconds_of(lease.end) - clocks.wall
        if before is None:
            names = ", ".join(lease.resources)
            return [f"{lease.ticket}: guards {names}; its end {'has passed' if left <= 0 else f'is in {left:.1f} s'}"]
        if ahead > left + 1:
            return [f"{lease.ticket}: its end, {ahead:.0f} s ahead by the wall clock, counts for only {left:.1f} s"]
        if ahead <= 0 and lease.end != pacemaker_cib.CLOSED:
            return [f"{lease.ticket}: its new end was {-ahead:.1f} s in the past by this node's wall clock"]
        return []

    def save(self) -> None:
        """Saves the ends for the next guard of this boot. If this fails, that guard reads the ends from the CIB."""
        with contextlib.suppress(OSError):
            os.makedirs(os.path.dirname(self.path), mode=0o755, exist_ok=True)
            with open(f"{self.path}.new", "w", encoding="utf-8") as file:
                json.dump({key: self.row(held) for key, held in self.held.items()}, file)
            os.replace(f"{self.path}.new", self.path)

    def row(self, held: Held) -> List[object]:
        """Returns what is saved about a lease."""
        return [held.lease.end, held.at, held.was_ahead, *(held.told or ())]
