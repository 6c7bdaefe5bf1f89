"""Writes a silent record, from which a member can start that lost its own record (docs/RECORDS.md).

It is imported by booth-record and the tests, and not run by itself. A silent record is of version 1 and has no lease.
So the daemon that reads it knows of no promise, and votes for nobody until any promise that it may have made is over.
The record's term must be at least as great as every term that the member has used. Otherwise a late message of a
term that it used would count again.
"""

import contextlib
import fcntl
import json
import os
import shutil
import stat
import struct
import subprocess
import time
from typing import Iterator, List, NamedTuple, Optional, Tuple

import configuration
import record_file
import wording
from configuration import Unreadable

# the greatest term that is written: a daemon uses terms up to 4,294,967,294, and later losses of records need some too
GREATEST_TERM = 4_000_000_000
# how far the new term is above each known term: a member hardly used that many since, as each costs it a write
ABOVE = 1_000_000
# the limit for the answer of one member, in seconds
SECONDS_TO_ANSWER = 10
# the directories of booth, in addition to PATH
PLACES = "/usr/sbin:/usr/bin:/sbin:/bin"
MODE = 0o600
KEPT_NAMES = 1_000


class Refused(Unreadable):
    """No record was written; the text is the cause."""


class Told(NamedTuple):
    """The greatest term in the members' answers about a ticket, and each member that did not answer, with the cause."""

    term: int
    unasked: List[str]


class Silence(NamedTuple):
    """The record that was written, and the path of the file before it, if there was one."""

    path: str
    term: int
    kept: Optional[str]


def silent_record(term: int) -> bytes:
    """Returns the bytes of a silent record with this term: the slot at 0 is valid and has the number 1, no other is."""
    head = bytes([record_file.OPEN]) + bytes(7) + struct.pack(">Q", 1)
    return head + record_file.FIRST_FORM.pack(1, term, 0, 0, 0, 0)


def path_in(directory: str, ticket: str) -> str:
    """Returns the path of a ticket's record."""
    name = ticket.encode("utf-8", "surrogateescape")
    if not 0 < len(name) < 64 or not all(0x21 <= byte <= 0x7E for byte in name) or b"/" in name:
        raise Refused(f"{ticket!r} is not a ticket's name: 1 to 63 printing ASCII characters without / and blanks")
    return os.path.join(directory, f"{name.hex()}.rec")


# ---- the known terms


def greatest_kept(path: str) -> Optional[int]:
    """Returns the greatest term in the valid slots of the file at this path, or None if it has none or is missing."""
    if not os.path.lexists(path):
        return None
    slots = record_file.slots_in(configuration.bytes_of(path, record_file.FILE_BYTES))
    return max((slot.record.term for slot in slots if slot.record), default=None)


def term_told(booth: str, conf: str, address: str, ticket: str) -> int:
    """Asks a member for the term of its lease. Returns 0 if it does not hold the ticket."""
    words = [booth, "show", "-j", "-c", conf, "-s", address, ticket]
    try:
        done = subprocess.run(
            words, stdin=subprocess.DEVNULL, capture_output=True, timeout=SECONDS_TO_ANSWER, check=False
        )
    except subprocess.TimeoutExpired as why:
        raise Refused(f"no answer within {SECONDS_TO_ANSWER} s") from why
    if done.returncode != 0:
        lines = done.stderr.decode(errors="backslashreplace").strip().splitlines()
        raise Refused("; ".join(lines) or f"status {done.returncode}")
    try:
        return int(json.loads(done.stdout)["term"] or 0)
    except (ValueError, KeyError, TypeError) as why:
        raise Refused(f"its answer is not as booth(8) has it: {why}") from why


def told_by_members(conf: str, ticket: str) -> Told:
    """Returns the greatest term in the answers of the members, and each member that does not answer."""
    booth = shutil.which("booth", path=f"{os.environ.get('PATH', '')}{os.pathsep}{PLACES}")
    if booth is None:
        raise Refused("the program booth is not installed, so no member can be asked: name a term")
    greatest, unasked = 0, []
    for member in configuration.read(conf).members:
        try:
            greatest = max(greatest, term_told(booth, conf, member.address, ticket))
        except Refused as why:
            unasked.append(f"{member.address}: {why}")
    return Told(greatest, unasked)


def new_term(kept: Optional[int], told: int, seconds: int) -> int:
    """Returns the term of a record if the operator named none: the seconds since 1970, or more after a greater term.

    Each term costs a member the write of a record, so it used far fewer than one per second since 1970.
    """
    known = max(kept or 0, told)
    return max(seconds, known + ABOVE)


def require_term(term: int, kept: Optional[int]) -> None:
    """Refuses a term that a silent record must not have."""
    if not 1 <= term <= GREATEST_TERM:
        raise Refused(f"the term is {term}: it must be 1 to {GREATEST_TERM}")
    if kept is not None and term < kept:
        raise Refused(f"the term is {term}, and the file before has {kept}: a term must not fall")


# ---- files


@contextlib.contextmanager
def locked(directory: str) -> Iterator[int]:
    """Yields the open directory, with the locks that a daemon takes: no daemon runs meanwhile, and none starts."""
    try:
        folder = os.open(directory, os.O_RDONLY | os.O_DIRECTORY | os.O_CLOEXEC)
    except OSError as why:
        raise Refused(f"cannot open {directory}: {why.strerror}") from why
    try:
        owner = os.fstat(folder)
        lock = os.open("booth.lock", os.O_RDWR | os.O_CREAT | os.O_NOFOLLOW | os.O_CLOEXEC, MODE, dir_fd=folder)
        try:
            if os.fstat(lock).st_uid != owner.st_uid:
                os.fchown(lock, owner.st_uid, owner.st_gid)
            for handle in (lock, folder):
                fcntl.flock(handle, fcntl.LOCK_EX | fcntl.LOCK_NB)
            yield folder
        finally:
            os.close(lock)
    except BlockingIOError as why:
        raise Refused(f"a daemon runs with the records in {directory}: stop it first") from why
    except OSError as why:
        raise Refused(f"cannot write in {directory}: {why.strerror}") from why
    finally:
        os.close(folder)


def free_name(folder: int, name: str) -> str:
    """Returns the name followed by a number, for which no file exists. The daemon does not read such a file."""
    for number in range(1, KEPT_NAMES):
        kept = f"{name}.{number}"
        if not exists(folder, kept):
            return kept
    raise Refused(f"{name}.1 to {name}.{KEPT_NAMES - 1} exist: remove what is not needed")


def exists(folder: int, name: str) -> bool:
    """Returns whether the directory has this name."""
    try:
        os.stat(name, dir_fd=folder, follow_symlinks=False)
    except FileNotFoundError:
        return False
    return True


def require_plain(folder: int, name: str) -> None:
    """Raises `Refused` if a name is not that of a regular file."""
    if not stat.S_ISREG(os.stat(name, dir_fd=folder, follow_symlinks=False).st_mode):
        raise Refused(f"{name} is not a regular file")


def write_new(folder: int, name: str, content: bytes) -> None:
    """Writes a file with the directory's owner. It is on the disk when this returns."""
    owner = os.fstat(folder)
    handle = os.open(name, os.O_WRONLY | os.O_CREAT | os.O_TRUNC | os.O_NOFOLLOW | os.O_CLOEXEC, MODE, dir_fd=folder)
    with os.fdopen(handle, "wb") as file:
        os.fchown(file.fileno(), owner.st_uid, owner.st_gid)
        file.write(content)
        file.flush()
        os.fsync(file.fileno())


def replace(folder: int, name: str, content: bytes) -> Optional[str]:
    """Replaces a file by one with these bytes. Returns the new name of the old file, if there was one.

    At each moment, also after a crash, the name belongs to the whole old file or to the whole new one.
    """
    new, kept = f"{name}.new", None
    write_new(folder, new, content)
    if exists(folder, name):
        require_plain(folder, name)
        kept = free_name(folder, name)
        os.link(name, kept, src_dir_fd=folder, dst_dir_fd=folder, follow_symlinks=False)
        os.fsync(folder)
    os.rename(new, name, src_dir_fd=folder, dst_dir_fd=folder)
    os.fsync(folder)
    return kept


# ---- the command


def silence(directory: str, ticket: str, conf: str, term: Optional[int]) -> Tuple[Silence, List[str]]:
    """Writes the silent record of a ticket. Returns it, and a line for each member that did not answer."""
    path = path_in(directory, ticket)
    with locked(directory) as folder:
        kept = greatest_kept(path)
        unasked: List[str] = []
        if term is None:
            told = told_by_members(conf, ticket)
            term, unasked = new_term(kept, told.term, int(time.time())), told.unasked
        require_term(term, kept)
        old = replace(folder, os.path.basename(path), silent_record(term))
    return Silence(path, term, old and os.path.join(directory, old)), unasked


def lines(done: Silence, ticket: str) -> List[str]:
    """Returns the lines about what was done, and what the operator must do next."""
    said = [f"{wording.plain(done.path)}: a silent record of {ticket}, term {done.term}"]
    if done.kept:
        said.append(f"the file before it is {wording.plain(done.kept)}")
    said.append("Before you start the daemon: end what runs under this ticket here, and wait as RECORDS.md says")
    return said
