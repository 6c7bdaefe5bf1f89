#!/usr/bin/env python3
"""Kills a stream of record writes with SIGKILL at any time, and reads what is left; fills the disk, and empties it.

Run it as `python3 tests/records.py [PROGRAM]`. PROGRAM is `trials`, by default at crates/trials/out/trials, where rt
leaves it. It takes a minute at most, prints a line for each check, and has the status 1 if one failed. If `trials` is
not built it checks nothing, and has the status 77. It fills a disk only if it can mount a small tmpfs.

`trials keeps DIRECTORY COUNT` uses only the real host. It prints the record that it reads, and each one that it has
written.
"""

import contextlib
import os
import random
import resource
import signal
import subprocess
import sys
import time

TOP = os.path.dirname(os.path.dirname(os.path.abspath(__file__)))
sys.path[:0] = [f"{TOP}/tests", f"{TOP}/tools"]

from checks import Wrong, need
from scratch import scratch
from serving import end_by_signals

PROGRAM = f"{TOP}/crates/trials/out/trials"
FILE = b"ticket-db8".hex() + ".rec"

# the exit status if nothing was checked
NOTHING_CHECKED = 77
KILLS, SECONDS = 2_000, 20
# in seconds: the longest time of a run, in addition to twice the time of a run with one write; a run makes some writes
# in it
LONGEST = 0.02
# at least one of 20 kills must come after a write of a record
KILLS_OF_ONE_KEEP = 20
# the limit for a run that ends by itself, in seconds
SECONDS_OF_A_RUN = 60
SEED = 9929


def slot(number, version, term):
    """Returns an open slot with a record of this version and term, without a lease or a pledge, followed by these
    bytes.
    """
    fields = (number.to_bytes(8, "big"), version.to_bytes(4, "big"), term.to_bytes(4, "big"))
    return (b"\1" + bytes(7) + b"".join(fields)).ljust(64 * version, b"\0")


def said(output):
    """Returns the term that a run read, and the terms that it wrote, by its output."""
    lines = [line.split() for line in output.decode("ascii").split("\n")[:-1]]
    read = [int(term) for word, term in lines if word == "read"]
    return read[0] if read else None, [int(term) for word, term in lines if word == "kept"]


def run(program, directory, count, **more):
    """Returns the output of a run to its end, and its status."""
    done = subprocess.run([program, "keeps", directory, str(count)], capture_output=True, timeout=SECONDS_OF_A_RUN, **more)
    return *said(done.stdout), done.returncode


def killed(program, directory, seconds):
    """Returns the output of a run that was killed after this many seconds."""
    words = [program, "keeps", directory, "1000000"]
    with subprocess.Popen(words, stdout=subprocess.PIPE, stderr=subprocess.DEVNULL) as process:
        try:
            time.sleep(seconds)
        finally:
            process.kill()
        return said(process.stdout.read())


def longest_of_three(program, directory):
    """Returns how long a run with one write takes at most here, in seconds: the longest of three runs after a first
    one.
    """
    took = []
    for number in range(4):
        started = time.monotonic()
        need(run(program, directory, 1) == (number, [number + 1], 0), "a run of one keep")
        took.append(time.monotonic() - started)
    return max(took[1:])


def kills_leave_the_last_record_or_the_next(program, folder):
    """A killed run leaves the last record or the next one. Each run continues after the end of the one before."""
    chance = random.Random(SEED)
    longest = LONGEST + 2 * longest_of_three(program, os.path.join(folder, "timed"))
    directory, last, keeps, in_flight, met = os.path.join(folder, "killed"), 0, 0, 0, 0
    started, done = time.monotonic(), 0
    while done < KILLS and time.monotonic() < started + SECONDS:
        read, kept = killed(program, directory, chance.uniform(0, longest))
        done += 1
        if read is None:
            continue
        need(read in (last, last + 1), f"term {read} was read after {last} was kept (kill {done})")
        need(kept == list(range(read + 1, read + 1 + len(kept))), f"{kept} after {read}")
        in_flight += read == last + 1
        keeps += len(kept)
        met += bool(kept)
        last = kept[-1] if kept else read
    read, _, status = run(program, directory, 0)
    need(status == 0 and read in (last, last + 1), f"term {read} was read after {last} was kept")
    told = f"{done} kills in {time.monotonic() - started:.0f} s, up to {longest * 1000:.0f} ms after a start: "
    told += f"{met} of them after a keep, {keeps} keeps, {in_flight} records in flight"
    need(met * KILLS_OF_ONE_KEEP >= done, f"too few came after a keep: {told}")
    return told


def a_record_that_cannot_be_kept_leaves_the_old_one(program, folder):
    """The old record stays if the file may not grow beyond its first slot, in either version: no other record can be
    written then.
    """
    for name, content in (("old", slot(1, 1, 7)), ("short", bytes(128) + slot(1, 2, 7))):
        directory = os.path.join(folder, name)
        os.mkdir(directory)
        with open(os.path.join(directory, FILE), "wb") as file:
            file.write(content)

        def keep_it_short(size=len(content)):
            signal.signal(signal.SIGXFSZ, signal.SIG_IGN)
            resource.setrlimit(resource.RLIMIT_FSIZE, (size, size))

        need(run(program, directory, 1, preexec_fn=keep_it_short) == (7, [], 1), "a keep that fails")
        need(run(program, directory, 0) == (7, [], 0), "the old record is read")
        need(run(program, directory, 2) == (7, [8, 9], 0), "the next keep")
        need(run(program, directory, 0) == (9, [], 0), "it is read")
    return "and the next keep goes on"


def a_file_of_version_1_is_read_and_its_slots_stay(program, folder):
    """A file of version 1 is read. The next records go into the slots of version 2, with the following numbers, and the
    old slots stay.
    """
    directory = os.path.join(folder, "version-1")
    os.mkdir(directory)
    path, old = os.path.join(directory, FILE), slot(3, 1, 4) + slot(2, 1, 3)
    with open(path, "wb") as file:
        file.write(old)
    need(run(program, directory, 2) == (4, [5, 6], 0), "two keeps over it")
    with open(path, "rb") as file:
        content = file.read()
    need(content[:128] == old, "the slots of version 1 stay")
    numbers = [int.from_bytes(content[at + 8 : at + 16], "big") for at in (128, 256) if content[at] == 1]
    need(numbers == [4, 5], f"the numbers of version 2 are {numbers}")
    need(run(program, directory, 0) == (6, [], 0), "the last one is read")
    return "and the next keeps go behind them"


@contextlib.contextmanager
def small_disk(folder):
    """Yields a file system of two pages, or None if this user may not mount one."""
    place = os.path.join(folder, "small")
    os.mkdir(place)
    words = ["mount", "-t", "tmpfs", "-o", "size=8k", "tmpfs", place]
    try:
        mounted = subprocess.run(words, stderr=subprocess.DEVNULL).returncode == 0
    except OSError:
        mounted = False
    try:
        yield place if mounted else None
    finally:
        if mounted:
            # (the file system goes as soon as no program uses it)
            subprocess.run(["umount", "-l", place], check=False)


def a_full_disk_keeps_nothing_until_there_is_room(program, folder):
    """On a disk without room for the record's page nothing is written, until there is room."""
    with small_disk(folder) as place:
        if place is None:
            return "not checked: this user may not mount a small tmpfs"
        directory, rest = os.path.join(place, "records"), os.path.join(place, "rest")
        need(run(program, directory, 0) == (0, [], 0), "an empty directory")
        with open(rest, "wb", buffering=0) as file:
            with contextlib.suppress(OSError):
                while file.write(bytes(4096)):
                    pass
        for _ in range(2):
            need(run(program, directory, 1) == (0, [], 1), "a keep on a full disk fails")
        os.remove(rest)
        need(run(program, directory, 3) == (0, [1, 2, 3], 0), "the next keep")
        need(run(program, directory, 0) == (3, [], 0), "it is read")
    return "and then keeps"


def a_torn_file_is_refused(program, folder):
    """The host refuses a torn file, which no write can leave, and writes nothing to it."""
    directory = os.path.join(folder, "torn")
    os.mkdir(directory)
    path, torn = os.path.join(directory, FILE), slot(2, 1, 7) + b"\1" + bytes(47)
    with open(path, "wb") as file:
        file.write(torn)
    need(run(program, directory, 1) == (None, [], 1), "a run over it")
    with open(path, "rb") as file:
        need(file.read() == torn, "its bytes stay")
    return "its bytes stay"


CHECKS = (
    a_record_that_cannot_be_kept_leaves_the_old_one,
    a_file_of_version_1_is_read_and_its_slots_stay,
    a_full_disk_keeps_nothing_until_there_is_room,
    a_torn_file_is_refused,
    kills_leave_the_last_record_or_the_next,
)


def main(words):
    end_by_signals()
    program = os.path.abspath(words[0] if words else PROGRAM)
    if not os.access(program, os.X_OK):
        print(f"tests/records.py: {program} is not built, so nothing was checked")
        return NOTHING_CHECKED
    wrong = 0
    with scratch("booth-records-") as folder:
        for check in CHECKS:
            name = check.__name__.replace("_", " ")
            try:
                print(f"ok: {name}: {check(program, folder)}", flush=True)
            except (Wrong, subprocess.TimeoutExpired) as why:
                wrong = 1
                print(f"WRONG: {name}: {why}", flush=True)
    return wrong


if __name__ == "__main__":
    sys.exit(main(sys.argv[1:]))
