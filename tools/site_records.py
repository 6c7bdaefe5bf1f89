"""The records of a Pacemaker site whose nodes have a directory each: `records_mode=local` of the resource agent.

It is imported by site-records and the tests, and not run by itself. A node has the last records only if its own daemon
was the last one of the site. Any other node starts with silent records (record_silence): they have no lease, and their
term is greater than each term that the site used.
"""

import contextlib
import os
from typing import Iterable, List, Set

import configuration
import record_silence
from configuration import Unreadable
from record_silence import ABOVE, Refused

ENDING = ".rec"
# a file that a silent record replaced
LAST = ".last"


def names_in(directory: str) -> List[str]:
    """Returns the names of the record files in a directory."""
    try:
        return sorted(name for name in os.listdir(directory) if name.endswith(ENDING))
    except OSError as why:
        raise Refused(f"cannot read {directory}: {why.strerror}") from why


def greatest(directory: str) -> int:
    """Returns the greatest term in the directory's records, 0 if it has none."""
    kept = (record_silence.greatest_kept(os.path.join(directory, name)) for name in names_in(directory))
    return max((term for term in kept if term is not None), default=0)


def silent_term(known: int, seconds: int) -> int:
    """Returns the term of new silent records: the seconds since 1970, or more after a greater term.

    All members together use fewer terms than one per second, so the seconds are above each term that was used, unless a
    clock was wrong. Then the known terms show that.
    """
    return seconds if seconds > known else known + ABOVE


def tickets_in(paths: Iterable[str]) -> Set[str]:
    """Returns the tickets of those configurations that exist and can be read. Raises `Unreadable` if none can."""
    found: Set[str] = set()
    faults: List[Unreadable] = []
    is_read = False
    for path in paths:
        try:
            found |= {ticket.name for ticket in configuration.read(path).tickets}
            is_read = True
        except Unreadable as why:
            faults.append(why)
    if not is_read:
        raise faults[0] if faults else Refused("no configuration is named")
    return found


def set_aside(folder: int, name: str) -> None:
    """Keeps a copy of a file under the name that ends in LAST."""
    record_silence.require_plain(folder, name)
    with contextlib.suppress(FileNotFoundError):
        os.unlink(f"{name}{LAST}", dir_fd=folder)
    os.link(name, f"{name}{LAST}", src_dir_fd=folder, dst_dir_fd=folder, follow_symlinks=False)


def put(folder: int, name: str, content: bytes) -> None:
    """Puts these bytes in the place of a file. At each moment the name has the whole old file or the whole new one."""
    record_silence.write_new(folder, f"{name}.new", content)
    if record_silence.exists(folder, name):
        set_aside(folder, name)
    os.rename(f"{name}.new", name, src_dir_fd=folder, dst_dir_fd=folder)


def silence(directory: str, tickets: Set[str], is_all: bool, known: int, seconds: int) -> int:
    """Writes silent records, and returns the greatest term in the directory afterwards.

    With `is_all` each ticket gets one, and the records of other tickets are removed. Without, only tickets that have no
    record get one. `known` is the greatest known term of the site. Raises `Unreadable` if a file cannot be read or
    written, or if a daemon runs with the directory.
    """
    with record_silence.locked(directory) as folder:
        term = silent_term(max(known, greatest(directory)), seconds)
        record_silence.require_term(term, None)
        wanted = {os.path.basename(record_silence.path_in(directory, ticket)) for ticket in tickets}
        there = set(names_in(directory))
        for name in sorted(there - wanted if is_all else ()):
            set_aside(folder, name)
            os.unlink(name, dir_fd=folder)
        for name in sorted(wanted if is_all else wanted - there):
            put(folder, name, record_silence.silent_record(term))
        os.fsync(folder)
        return greatest(directory)
