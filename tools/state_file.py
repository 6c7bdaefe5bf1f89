"""The files that booth-status writes, each as a whole: the state with the results of its last look, and others.

It is imported by booth-status, and not run by itself.
"""

import json
import os
import time

from changes import Holding, Memory
from configuration import Unreadable, bytes_of
from lists import Counts, Peer

FORM = "booth-status state 1"
STATE_BYTES = 4_194_304


def load(path, configuration):
    """Returns the results of the last look at this configuration in the file, or `None` if the file does not exist.

    Any other file is refused, so booth-status never overwrites it.
    """
    if not os.path.lexists(path):
        return None
    try:
        told = json.loads(bytes_of(path, STATE_BYTES))
        if told["form"] != FORM:
            raise ValueError("another form")
        if told["configuration"] != os.path.abspath(configuration.path):
            other = told["configuration"]
            raise Unreadable(f"{path}: is the state of {other}: use another file for this configuration")
        peers = {name: [Peer(*peer) for peer in counts["peers"]] for name, counts in told["members"].items()}
        counts = {name: Counts(counts["dropped"], peers[name]) for name, counts in told["members"].items()}
        # (an earlier version of booth-status did not store holders)
        holders = told.get("held", {})
        held = {name: Holding(str(owner), end and int(end), bool(gave)) for name, (owner, end, gave) in holders.items()}
        return Memory(counts, held)
    except (ValueError, TypeError, KeyError, AttributeError) as why:
        raise Unreadable(f"{path}: is not a state of booth-status: name another file, or remove it") from why


def save(path, configuration, memory):
    """Writes the results of looks into this file."""
    told = {"form": FORM, "configuration": os.path.abspath(configuration.path)}
    told["members"] = {name: {"dropped": each.dropped, "peers": each.peers} for name, each in memory.counts.items()}
    names = {ticket.name for ticket in configuration.tickets}
    told["held"] = {name: each for name, each in memory.held.items() if name in names}
    write_whole(path, json.dumps(told) + "\n")


def write_whole(path, text):
    """Replaces a file: a reader sees the old text or the new one, never a part."""
    new = f"{path}.{os.getpid()}.{time.time_ns()}"
    try:
        handle = os.open(new, os.O_WRONLY | os.O_CREAT | os.O_EXCL | os.O_CLOEXEC, 0o644)
        try:
            with os.fdopen(handle, "w", encoding="utf-8") as file:
                file.write(text)
            os.replace(new, path)
        except BaseException:
            os.unlink(new)
            raise
    except (OSError, ValueError) as why:
        raise Unreadable(f"cannot write {path}: {getattr(why, 'strerror', None) or why}") from why
