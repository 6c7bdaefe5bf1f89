"""Looks at all members and at the services of this machine, and returns one view.

It is imported by booth-status and tools/console_serving.py, and not run by itself.
"""

import time
from typing import Optional, Sequence

import frames
import judging
import looking
import services
from changes import Memory
from configuration import Configuration
from judging import View

# the part of the time for the first look, and the pause before the second one in seconds
PART_OF_FIRST = 0.55
PAUSE = 0.3
# how long to wait for systemd after the members' answers: at least this many seconds, or this part of the look's time
SYSTEMD, PART_OF_SYSTEMD = 0.1, 0.2


def view(
    conf: Configuration, key: Optional[frames.Ring], seconds: float, before: Optional[Memory], may_be_free: Sequence[str]
) -> View:
    """Returns a view of the members within a time limit. A second look confirms problems that may be brief."""
    started = time.monotonic()
    first = once(conf, key, before, may_be_free, seconds * PART_OF_FIRST, started)
    if not judging.is_fleeting(first):
        return first
    time.sleep(min(PAUSE, seconds / 10))
    left = seconds - (time.monotonic() - started)
    return judging.confirmed(first, once(conf, key, before, may_be_free, left, started))


def once(
    conf: Configuration,
    key: Optional[frames.Ring],
    before: Optional[Memory],
    may_be_free: Sequence[str],
    limit: float,
    started: float,
) -> View:
    """Returns the view of one look."""
    # (systemd is asked at the same time as the members)
    asked, limit = services.Units(), max(0.001, limit)
    answers = looking.look(conf, key, limit)
    here = services.look(conf, asked, max(SYSTEMD, limit * PART_OF_SYSTEMD))
    return judging.judged(conf, answers, time.time(), time.monotonic() - started, before, may_be_free, here)
