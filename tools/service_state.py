"""The state of a service that follows its ticket at this site, as follow-service writes it.

It is imported by booth-switchover and booth-status, and not run by itself. booth-follow(8) has the files.
"""

import os
import time
from typing import NamedTuple, Optional

import configuration

FOLDER = "/run/booth-follow"
FILE_BYTES = 65_536
STOPPED, STARTING, RUNNING, ENDED = "stopped", "starting", "running", "ended"
STOPPING, KILLING, FAILED = "stopping", "killing", "failed"
# states in which no part of the service runs
OVER = (STOPPED, FAILED)


class State(NamedTuple):
    """The state of a service in this boot. Times are seconds since the boot; `ends` is by the daemon's clock."""

    service: str
    since: float = 0.0
    ends: int = 0
    end_at: float = 0.0
    kill_at: float = 0.0
    failed_starts: int = 0
    failed_until: float = 0.0
    word: str = ""
    status: str = ""
    is_paused: bool = False
    # the end that the next follower reads, or `None` if there is no file with an end
    armed: Optional[int] = None


def folder() -> str:
    """Returns the folder of the states. Tests set another one."""
    return os.environ.get("BOOTH_FOLLOW_RUN") or FOLDER


def since_boot() -> float:
    """Returns the time since the boot of this machine, in seconds."""
    return time.clock_gettime(time.CLOCK_BOOTTIME)


def text_of(path: str) -> Optional[str]:
    """Returns the text of a file in the folder, or `None` if it is missing."""
    if not os.path.lexists(path):
        return None
    return configuration.bytes_of(path, FILE_BYTES).decode("ascii", "backslashreplace")


def variable_in(path: str, name: str) -> Optional[str]:
    """Returns the last value of a variable in a file of NAME=VALUE lines, as systemd reads them, or `None`."""
    if not os.path.exists(path):
        return None
    value = None
    for line in configuration.bytes_of(path, FILE_BYTES).decode("utf-8", "replace").splitlines():
        key, found, text = line.strip().partition("=")
        if found and key == name:
            value = text.strip().strip("\"'")
    return value


def read(ticket: str) -> Optional[State]:
    """Returns the state of this ticket's service, or `None` if the follower has not run in this boot.

    Raises `Unreadable` if a file has another form than follow-service writes.
    """
    path = os.path.join(folder(), f"{ticket}.state")
    text = text_of(path)
    if text is None:
        return None
    said = dict(line.split("=", 1) for line in text.splitlines() if "=" in line)
    ends = text_of(os.path.join(folder(), f"{ticket}.end"))
    try:
        return State(
            said["service"],
            *(kind(said.get(key) or 0) for key, kind in KINDS.items()),
            said.get("word", ""),
            said.get("status", ""),
            os.path.lexists(os.path.join(folder(), f"{ticket}.paused")),
            None if ends is None else int(ends),
        )
    except (KeyError, ValueError) as why:
        raise configuration.Unreadable(f"{path}, or the file of its end, is not a state of a service: {why}") from why


# the numbers of a state, in its order
KINDS = {"since": float, "ends": int, "end_at": float, "kill_at": float, "failed_starts": int, "failed_until": float}
