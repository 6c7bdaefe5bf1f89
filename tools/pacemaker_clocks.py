"""Checks whether a daemon that starts on this node would hold a lease for too long.

It is imported by follow-pacemaker and booth-pacemaker, and not run by itself. A daemon that moves to another node
takes its clock from the wall clock there. Its records have the end of the lease by the clock of the last daemon. If the
wall clock is behind that clock, the lease becomes longer. A node knows two things about the last daemon's clock:

- The end in the CIB was set by the wall clock of the last daemon's node. It is at most `Times.longest` ahead of that
  wall clock. The guard saves what it knew when it first read the end (lease_holding.Told).
- The file NOTE in the directory of the records has how far the daemon's clock was ahead of that wall clock.
"""

import contextlib
import os
from typing import Iterable, Iterator, List, NamedTuple, Optional, Tuple

import lease_holding
import pacemaker_cib
from lease_holding import Now
from pacemaker_cib import CLOSED, Lease

NOTE = ".booth-clock"
# in seconds: how far the clocks of nodes may differ, and by how much a difference must change before it is written
# again
MOST, CHANGED = 1.0, 0.5
# in seconds: how long after a lease's end a daemon may have renewed it without setting an end, until its guard stops
# the daemon (lease_daemons). This includes a second for the rounding of ends to whole seconds.
UNSEEN = 21.0
BOOT_ID, ID_BYTES = "/proc/sys/kernel/random/boot_id", 36


class Late(NamedTuple):
    """A wall clock that is at least `seconds` behind the last daemon's clock.

    By that daemon's clock each lease is over at `until`, in seconds since 1970.
    """

    seconds: float
    until: float


def note(records: str, ahead: float) -> None:
    """Writes to NOTE how far the daemon's clock is ahead of the wall clock, if this has changed."""
    if abs(noted(records) - ahead) < CHANGED:
        return
    path = os.path.join(records, NOTE)
    with open(f"{path}.new", "w", encoding="ascii") as file:
        file.write(f"{ahead:.1f}\n")
        file.flush()
        os.fsync(file.fileno())
    os.replace(f"{path}.new", path)


def noted(records: str) -> float:
    """Returns how far the last daemon's clock was ahead of its wall clock. Raises `OSError` if NOTE cannot be read."""
    with contextlib.suppress(FileNotFoundError):
        with open(os.path.join(records, NOTE), encoding="ascii", errors="replace") as file:
            text = file.read(40)
        try:
            return float(text)
        except ValueError as why:
            raise OSError(f"{os.path.join(records, NOTE)} has no number of seconds, but {text!r}") from why
    return 0.0


def is_kept(records: str, boot_id: str = BOOT_ID) -> bool:
    """Returns whether a daemon that starts here continues with its own clock from earlier in this boot."""
    with contextlib.suppress(OSError):
        with open(os.path.join(records, "booth.clock"), "rb") as file, open(boot_id, "rb") as own:
            return file.read()[-ID_BYTES:] == own.read(ID_BYTES)
    return False


def ends_of(leases: Iterable[Lease], folder: str, clocks: Now) -> Iterator[Tuple[float, float]]:
    """Yields the latest end of each lease, and how far the clock that set its end is ahead of this boot's, at least."""
    kept = {}
    with contextlib.suppress(OSError, ValueError):
        kept = lease_holding.kept_in(folder)
    for lease in leases:
        more = lease.times.margin + lease.times.expire + UNSEEN
        told = lease_holding.told_of(kept.get(lease.key()))
        with contextlib.suppress(ValueError):
            if told is not None:
                yield pacemaker_cib.seconds_of(told.end) + more, told.clock
            if lease.end != CLOSED:
                end = pacemaker_cib.seconds_of(lease.end)
                yield end + more, end - lease.times.longest() - clocks.boot


def behind(ends: Iterable[Tuple[float, float]], clocks: Now) -> float:
    """Returns how far this node's wall clock is behind the one that set the last ends, at least; 0 or less if not."""
    return max((clock for _, clock in ends), default=0.0) - (clocks.wall - clocks.boot)


def late(leases: List[Lease], ahead: float, clocks: Now, folder: str = lease_holding.FOLDER) -> Optional[Late]:
    """Returns how far this node's wall clock is behind, or `None` if it is not, or if each lease is over anyway."""
    ends = list(ends_of(leases, folder, clocks))
    if not ends:
        return None
    seconds = behind(ends, clocks) + ahead
    until = max(end for end, _ in ends) + ahead
    return Late(seconds, until) if seconds > MOST and clocks.wall < until else None
