#!/usr/bin/env python3
"""Calls the real host: datagrams on loopback, files, the clock, records, locks, handlers, and what it prints where.

Run it as `python3 tests/host.py`, over what the gate leaves at crates/trials/out/trials. It takes half a minute, prints
a line for each check, and has the status 1 if one failed.
"""

import contextlib
import os
import subprocess
import sys
import time
from typing import Iterator, List

TOP = os.path.dirname(os.path.dirname(os.path.abspath(__file__)))
sys.path.insert(0, f"{TOP}/tests")

from checks import Wrong, need
from host_handlers import CHECKS as HANDLER_CHECKS
from host_lines import CHECKS as LINE_CHECKS
from host_peers import CHECKS as PEER_CHECKS
from real_host import FILE, LOOPBACK, Host, first, plain
from row_driver import Unplayed
from scratch import scratch

# an hour in milliseconds
HOUR = 3_600_000


def mode(path: str) -> int:
    """Returns the mode of a file: who may read, write and run it."""
    return os.stat(path).st_mode & 0o777


def content(path: str) -> bytes:
    """Returns the bytes of a file."""
    with open(path, "rb") as file:
        return file.read()


@contextlib.contextmanager
def opened(folder: str, records: str = "") -> Iterator[Host]:
    """Yields a host without an address that stores its records in this directory."""
    with Host(folder) as host:
        need(host.open(records=records), "it is not opened")
        yield host


def waited(host: Host) -> "tuple[str, float]":
    """Returns the result of a wait of 100 ms, and how many milliseconds it took."""
    started = time.monotonic()
    return host.next(100), (time.monotonic() - started) * 1000


def a_next_waits_its_time(folder: str) -> None:
    """`next` waits as long as it must, also if it fails. (The system's timer may be some milliseconds off.)"""
    with Host(folder) as host:
        answer, took = waited(host)
        need(answer == "failed" and took >= 80, f"unopened: {answer}, {took} ms")
    with opened(folder) as host:
        answer, took = waited(host)
        need(answer == "quiet" and took >= 80, f"opened: {answer}, {took} ms")


def a_file_is_read_whole(folder: str) -> None:
    """The host reads a file without bytes, a file of one piece and a file of several pieces."""
    with Host(folder) as host:
        for content in (b"", b'site="127.0.0.1"\n', b"x" * 4096 + b"y" + b"x" * 4902 + b"z"):
            with open(f"{folder}/file", "wb") as file:
                file.write(content)
            need(host.read("file") == content, f"{len(content)} bytes")


def no_other_file_is_read(folder: str) -> None:
    """The host refuses a file that is too long, a missing file, a directory and a device."""
    with open(f"{folder}/long", "wb") as file:
        file.truncate((1 << 30) + 1)
    with Host(folder) as host:
        for path in ("long", "missing", ".", "/dev/null"):
            need(host.read(path) is None, path)


def the_clock_tells_milliseconds_since_1970(folder: str) -> None:
    """The clock returns the milliseconds since 1970, and it runs."""
    with Host(folder) as host:
        system = int(time.time() * 1000)
        one = host.now()
        time.sleep(0.003)
        two = host.now()
        need(system <= one + 1 and one < system + 60_000, f"{one} at {system}")
        need(one % 1000 != 0 or two % 1000 != 0, "it tells whole seconds alone")
        need(one < two, f"{two} after {one}")


def a_kept_record_is_read_by_another_host(folder: str) -> None:
    """A second host reads the record that a first one wrote, with a lease and without."""
    with opened(folder, "records") as host:
        need(host.kept() == "none", "nothing was kept")
    for record in (plain(7), plain(7, 1_600_000)):
        with opened(folder, "records") as host:
            need(host.keep(record), "it is not kept")
        with opened(folder, "records") as host:
            need(host.kept() == record, record)


def a_commit_byte_before_no_record_is_a_failure(folder: str) -> None:
    """If a slot has a commit byte and no record, reading fails. Without the commit byte the slot counts as empty."""
    with opened(folder, "records") as host:
        for commit, answer in ((0, "none"), (1, "failed")):
            with open(f"{folder}/records/{FILE}", "wb") as file:
                file.write(bytes([commit]) + bytes(63))
            need(host.kept() == answer, f"commit byte {commit}: {host.kept()}")


def slot(number: int, version: int, term: int) -> bytes:
    """Returns an open slot with a record of this version and term, followed by these bytes."""
    fields = (number.to_bytes(8, "big"), version.to_bytes(4, "big"), term.to_bytes(4, "big"))
    return (b"\1" + bytes(7) + b"".join(fields)).ljust(64 if version == 1 else 128, b"\0")


def the_next_record_goes_into_the_other_slot(folder: str) -> None:
    """A file of 64 bytes is from a version with one slot. The next records go into the two slots of version 2,
    alternately.
    """
    with opened(folder, "records") as host:
        path = f"{folder}/records/{FILE}"
        with open(path, "wb") as file:
            file.write(slot(1, 1, 7))
        need(host.kept() == first(7), "the old record")
        old = slot(1, 1, 7).ljust(128, b"\0")
        # (the file ends with the last record, which has 80 bytes with its number)
        second, third = slot(2, 2, 8), slot(3, 2, 9)[:80]
        for term, slots in ((8, second[:80]), (9, second + third), (10, slot(4, 2, 10) + third)):
            need(host.keep(plain(term)) and host.kept() == plain(term), f"term {term}")
            need(content(path) == old + slots, f"the file of term {term}")


def the_slot_of_the_next_record_is_closed_ahead(folder: str) -> None:
    """A call that may wait, and in which nothing arrives, closes the slot of the next record. The record and the rest
    of the file are unchanged.
    """
    path = f"{folder}/records/{FILE}"
    with Host(folder) as host, Host(folder) as other:
        peer = host.open_somewhere(LOOPBACK, "records")
        need(other.open(LOOPBACK) and host.keep(plain(8)) and host.keep(plain(9)), "it is not kept")
        older, last = bytes(128) + slot(1, 2, 8), slot(2, 2, 9)[:80]
        need(host.next(0) == "quiet" and content(path) == older + last, "a call that may not wait")
        need(other.send(peer, b"x" * 48) and host.heard().content == b"x" * 48, "a datagram that waits")
        need(content(path) == older + last, "a call that brings a datagram")
        need(host.next(5000) == "quiet", "a call in which nothing comes")
        need(content(path) == bytes(128) + b"\0" + slot(1, 2, 8)[1:] + last, "the slot is not closed")
        need(host.kept() == plain(9) and host.keep(plain(10)) and host.kept() == plain(10), "the next record")
        need(content(path) == bytes(128) + slot(3, 2, 10) + last, "it is in another slot")


def a_file_that_changed_is_not_prepared(folder: str) -> None:
    """A call that may wait does not make a file that is gone, and does not change a torn file. The next write of it
    reports its own result.
    """
    path, torn = f"{folder}/records/{FILE}", b"\1" + bytes(63)
    with opened(folder, "records") as host:
        need(host.keep(plain(8)) and host.keep(plain(9)), "it is not kept")
        os.remove(path)
        need(host.next(5000) == "quiet" and not os.path.exists(path), "one that is gone")
        need(host.keep(plain(10)) and host.keep(plain(11)), "the next one")
        with open(path, "wb") as file:
            file.write(torn)
        need(host.next(5000) == "quiet" and content(path) == torn, "one that is torn")
        need(not host.keep(plain(12)), "it is kept in a torn file")


def records_are_made_for_their_owner(folder: str) -> None:
    """Only their owner can use the directory, its lock and a record's file."""
    with opened(folder, "records") as host:
        need(mode(f"{folder}/records") == 0o700, "the directory")
        need(mode(f"{folder}/records/booth.lock") == 0o600, "the lock")
        need(host.keep(plain(1)), "it is not kept")
        need(mode(f"{folder}/records/{FILE}") == 0o600, "the record")


def a_directory_that_was_there_is_kept_in(folder: str) -> None:
    """The host uses a directory that exists, and leaves its mode unchanged. (Whoever runs this as root can read
    everything.)
    """
    os.makedirs(f"{folder}/above/records")
    os.chmod(f"{folder}/above/records", 0o755)
    os.chmod(f"{folder}/above", 0o311)
    with opened(folder, "above/records") as host:
        need(host.keep(plain(1)), "it is not kept")
    with opened(folder, "above/records") as host:
        need(host.kept() == plain(1), "it is not read")
    need(mode(f"{folder}/above/records") == 0o755, "another mode")
    os.chmod(f"{folder}/above", 0o755)


def a_record_that_has_no_place_is_a_failure(folder: str) -> None:
    """A write fails if the host is not open, or has no directory."""
    with Host(folder) as host:
        need(not host.keep(plain(1)) and host.kept() == "failed", "it is not open")
    with opened(folder) as host:
        need(not host.keep(plain(1)) and host.kept() == "failed", "it has no directory")


def a_directory_of_records_has_one_host(folder: str) -> None:
    """A second host cannot open a directory of records until the first one ends. The first host may open it again."""
    with Host(folder) as second:
        with opened(folder, "records"):
            need(not second.open(records="records"), "two hosts")
        for _ in range(2):
            need(second.open(records="records"), "the first one is gone")


def a_directory_without_its_lock_file_has_one_host(folder: str) -> None:
    """A second host cannot open the directory even if the lock file is removed, and another one is made, while the
    first host runs.
    """
    with Host(folder) as second:
        with opened(folder, "records"):
            os.remove(f"{folder}/records/booth.lock")
            need(not second.open(records="records"), "the file is gone")
            need(not second.open(records="records"), "another file is there")
        need(second.open(records="records"), "the first one is gone")


def a_directory_that_cannot_be_is_not_opened(folder: str) -> None:
    """The host refuses a directory if a file has its name, or if the directory above it is missing."""
    open(f"{folder}/file", "wb").close()
    with Host(folder) as host:
        for records in ("file", "missing/below"):
            need(not host.open(records=records), records)


def a_lock_is_held_by_one_host(folder: str) -> None:
    """A second host cannot take the lock. The first host may ask for it again. A lock file that is left over is no
    lock.
    """
    with Host(folder) as second:
        with Host(folder) as host:
            need(host.lock("lock") == "got" and mode(f"{folder}/lock") == 0o600, "the first")
            need(second.lock("lock") == "taken", "the second")
            need(host.lock("lock") == "got", "the first again")
        need(second.lock("lock") == "got", "the first is gone")


def a_lock_that_cannot_be_is_a_failure(folder: str) -> None:
    """A lock fails if its directory is missing, and if the host holds another lock already."""
    with Host(folder) as host:
        need(host.lock("missing/lock") == "failed", "no directory")
        need(host.lock("one") == "got" and host.lock("other") == "failed", "one lock is held")


def a_lock_is_of_a_regular_file(folder: str) -> None:
    """The host refuses a named pipe as a lock: opening one to which nobody writes would wait for ever."""
    os.mkfifo(f"{folder}/pipe")
    os.makedirs(f"{folder}/records/booth.lock")
    with Host(folder) as host:
        for path in ("pipe", ".", "/dev/null"):
            need(host.lock(path) == "failed", path)
        need(not host.open(records="records"), "the lock of a directory of records")


def a_record_is_kept_in_a_regular_file(folder: str) -> None:
    """A link to a file of zeros, a pipe and a directory cannot be the file of a record; the same file in the place
    itself can, and has no record.
    """
    with opened(folder, "records") as host:
        path = f"{folder}/records/{FILE}"
        with open(f"{folder}/records/zeros", "wb") as file:
            file.write(bytes(64))
        for kind, make in (("pipe", os.mkfifo), ("directory", os.mkdir), ("link", lambda at: os.symlink("zeros", at))):
            make(path)
            need(host.kept() == "failed" and not host.keep(plain(1)), kind)
            os.rename(path, f"{folder}/records/{kind}")


def kept_clock(folder: str) -> bytes:
    """Returns the content of the clock file of a directory."""
    with open(f"{folder}/records/booth.clock", "rb") as file:
        kept = file.read()
    need(len(kept) == 60 and kept[:8] == (1).to_bytes(8, "big"), f"{len(kept)} bytes")
    return kept


def is_opened(folder: str, kept: bytes) -> bool:
    """Returns whether a host opens the directory with this clock."""
    with open(f"{folder}/records/booth.clock", "wb") as file:
        file.write(kept)
    with Host(folder) as host:
        return host.open(records="records")


def with_number(kept: bytes, at: int, number: int) -> bytes:
    """Returns the bytes with a number of eight bytes at a place."""
    return kept[:at] + number.to_bytes(8, "big") + kept[at + 8 :]


def number_at(kept: bytes, at: int) -> int:
    """Returns the number of eight bytes at a place."""
    return int.from_bytes(kept[at : at + 8], "big")


def a_clock_goes_on_in_its_boot_and_starts_again_in_another(folder: str) -> None:
    """In the same boot the clock continues, and in another boot it starts again. Its file has the offset at byte 8, and
    the latest reading at byte 16.
    """
    with opened(folder, "records") as host:
        reading = host.now()
    clock = kept_clock(folder)
    need(is_opened(folder, with_number(clock, 8, number_at(clock, 8) + HOUR)), "an hour ahead of the wall clock")
    with opened(folder, "records") as host:
        need(HOUR <= host.now() - reading < HOUR + 60_000, "an hour later")
    other = bytearray(kept_clock(folder))
    other[59] ^= 1
    need(not is_opened(folder, bytes(other)), "in another boot the wall clock is behind")
    need(is_opened(folder, with_number(bytes(other), 16, reading)), "it is not behind")
    need(abs(number_at(kept_clock(folder), 8) - number_at(clock, 8)) <= 2, "the offset")
    need(not is_opened(folder, clock[:59]), "a byte is missing")


def a_start_that_was_told_another_time_is_refused(folder: str) -> None:
    """A start fails if it was given another time: the directory's clock is a minute ahead of the wall clock, in the
    same boot.
    """
    with opened(folder, "records"):
        pass
    clock = kept_clock(folder)
    with open(f"{folder}/records/booth.clock", "wb") as file:
        file.write(with_number(clock, 8, number_at(clock, 8) + 60_000))
    with Host(folder) as told:
        told.now()
        need(not told.open(records="records"), "it was told another time")
    with Host(folder) as asked:
        asked.await_clock("records")
        reading = asked.now()
        need(asked.open(records="records") and 0 <= asked.now() - reading < 60_000, "it waited for the clock")


CHECKS = (
    a_next_waits_its_time,
    a_file_is_read_whole,
    no_other_file_is_read,
    the_clock_tells_milliseconds_since_1970,
    a_kept_record_is_read_by_another_host,
    a_commit_byte_before_no_record_is_a_failure,
    the_next_record_goes_into_the_other_slot,
    the_slot_of_the_next_record_is_closed_ahead,
    a_file_that_changed_is_not_prepared,
    records_are_made_for_their_owner,
    a_directory_that_was_there_is_kept_in,
    a_record_that_has_no_place_is_a_failure,
    a_directory_of_records_has_one_host,
    a_directory_without_its_lock_file_has_one_host,
    a_directory_that_cannot_be_is_not_opened,
    a_lock_is_held_by_one_host,
    a_lock_that_cannot_be_is_a_failure,
    a_lock_is_of_a_regular_file,
    a_record_is_kept_in_a_regular_file,
    a_clock_goes_on_in_its_boot_and_starts_again_in_another,
    a_start_that_was_told_another_time_is_refused,
)


def main() -> int:
    """Runs each check in a directory of its own, and returns the status."""
    wrong: List[str] = []
    for check in CHECKS + PEER_CHECKS + HANDLER_CHECKS + LINE_CHECKS:
        name = check.__name__.replace("_", " ")
        with scratch("booth-host-") as folder:
            try:
                check(folder)
                print(f"ok: {name}", flush=True)
            except (Wrong, Unplayed, OSError, subprocess.SubprocessError) as why:
                wrong.append(name)
                print(f"FAILED: {name}: {why}", flush=True)
    return 1 if wrong else 0


if __name__ == "__main__":
    sys.exit(main())
