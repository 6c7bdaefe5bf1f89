#!/usr/bin/env python3
"""Has daemons write journals, kills them at any time, and puts other things in the place of the file.

Run it as `python3 tests/journal.py [BOOTHD]`, by default what `make build` leaves. It takes a minute at most, prints a
line for each check, ends all that it started, and has the status 1 if a check failed. If boothd is not built it
checks nothing, with status 0. What this machine has no program for is left out with a line.

The lines are read by tools/journal_file.py, and the records by tools/record_file.py: neither asks the daemon.
"""

import contextlib
import fcntl
import os
import random
import resource
import shutil
import signal
import socket
import stat
import struct
import subprocess
import sys
import threading
import time

HERE = os.path.dirname(os.path.abspath(__file__))
sys.path[:0] = [HERE, f"{HERE}/../tools"]

import frames
import journal_file
import record_file
from checks import Wrong, need
from members import TICKET, Cluster, Times, wait_for
from scratch import scratch
from serving import NotServing, built_program, end_by_signals, own_addresses

TIMES = Times()
LOST = "is not written any more"
# the size at which a file of the daemon ends if the disk counts as full, in bytes
ROOM = 8192
# in seconds, for the kills during writes of records: the least time of such a write, and the latest time of a kill
# after a start
KILLS, SLOW_MS, LATEST = 60, 8, 0.25
# at least one of 20 kills must interrupt a write of a record
KILLS_OF_ONE_CUT = 20
SEED = 9929
SLOW = """
#define _GNU_SOURCE
#include <sys/syscall.h>
#include <time.h>
#include <unistd.h>

int fdatasync(int file)
{
    struct timespec time = {0, SLOW_MS * 1000000L};
    nanosleep(&time, 0);
    return (int)syscall(SYS_fdatasync, file);
}
"""


class LeftOut(Exception):
    """This machine does not allow what a check needs."""


@contextlib.contextmanager
def cluster_in(boothd, folder):
    """Yields a cluster whose members write journals, and may answer immediately."""
    with Cluster(boothd, folder, own_addresses(), times=TIMES) as cluster:
        for member in cluster.members:
            member.journals = True
        cluster.remember()
        yield cluster


def content(path):
    with open(path, "rb") as file:
        return file.read()


def is_held(cluster):
    """Has the first site acquire the ticket. Returns whether it did."""
    one = cluster.members[0]
    granted = one.about("CGnt")
    need(wait_for(lambda: cluster.shown_by_all() == one.address, 10), f"a grant is told {granted}: {one.printed()}")


def spelled(digits):
    """Returns the record in these digits."""
    fields = record_file.SECOND_FORM.unpack(bytes.fromhex(digits))
    return record_file.second_record(fields)


def kept_by(entries):
    """Returns the records that the ticket's keeps wrote, each with its answer."""
    name = TICKET.decode()
    keeps = (entry for entry in entries if entry.kind == "keep" and entry.call["ticket"] == name)
    return [(spelled(entry.call["hex"]), entry.answer) for entry in keeps]


def record_of(member):
    """Returns the record that is in force in a member's file."""
    slot = record_file.in_force(record_file.slots_in(content(member.record_path())))
    return slot and slot.record


def starts(entries):
    """Returns the number of starts: each start opens its socket once."""
    return sum(entry.kind == "open" for entry in entries)


def sent_to(entries, address):
    return {journal_file.bytes_of(entry.call["hex"]) for entry in entries if entry.call.get("address") == address}


def a_journal_says_what_a_cluster_did(folder, boothd):
    """Each line is a journal's line; each message that a member received was sent by another; and the last keep is on
    the disk.
    """
    with cluster_in(boothd, folder) as cluster:
        cluster.start()
        is_held(cluster)
        one = cluster.members[0]
        first = one.record()
        need(wait_for(lambda: one.record().until > first.until, 2 * TIMES.renewal), "a renewal")
        time.sleep(0.5)
        for member in cluster.members:
            member.kill()
        said = {member.address: journal_file.read(member.journal) for member in cluster.members}
        heard = 0
        for member in cluster.members:
            entries = said[member.address]
            begin = [entry.kind for entry in entries[:3]]
            need(begin == ["now", "open", "kept"], f"{member.address} begins with {begin}")
            need(entries[1].call["address"] == member.address, "the address that it opens")
            need(kept_by(entries)[-1] == (record_of(member), "ok"), f"the last keep of {member.address}")
            need(stat.S_IMODE(os.stat(member.journal).st_mode) == 0o600, "others may open the journal")
            for other in said.keys() - {member.address}:
                came = [entry.came for entry in entries if entry.came.get("address") == other]
                sent = sent_to(said[other], member.address)
                need(all(journal_file.bytes_of(each["hex"]) in sent for each in came), "what nobody sent was heard")
                heard += len(came)
        need(heard > 0, "members heard one another")
    lines = sum(len(entries) for entries in said.values())
    return f"{lines} calls of three members, {heard} datagrams among them"


def a_start_goes_on_behind_the_last_line(folder, boothd):
    """An existing journal is continued; the text after its last line end was torn, and is cut off."""
    with cluster_in(boothd, folder) as cluster:
        one = cluster.members[0]
        cluster.start(0)
        one.kill()
        for torn in (b"", b"keep tick", b"now\n17957", b"x" * 20_000):
            before = content(one.journal)
            whole = before[: before.rfind(b"\n") + 1]
            with open(one.journal, "ab") as file:
                file.write(torn)
            kept = torn[: torn.rfind(b"\n") + 1]
            cluster.start(0)
            one.kill()
            after = content(one.journal)
            need(after.startswith(whole + kept + b"now\n"), f"behind {torn[:20]}: {after[len(whole):][:60]}")
        need(starts(journal_file.read(one.journal)) == 5, "five starts")
    return "through four starts, two of them behind a torn line"


def another_file_is_left_as_it_is(folder, boothd):
    """The daemon serves without a journal, and one line reports this."""
    with cluster_in(boothd, folder) as cluster:
        one = cluster.members[0]
        away = os.path.join(folder, "away")
        makers = {
            "text": lambda path: open(path, "wb").write(b"a key\n"),
            "line without an end": lambda path: open(path, "wb").write(b"now" + bytes(9)),
            "pipe": os.mkfifo,
            "directory": os.mkdir,
            "path that is not there": lambda path: os.symlink(os.path.join(away, "none"), path),
        }
        for kind, make in makers.items():
            make(one.journal)
            before = content(one.journal) if os.path.isfile(one.journal) else None
            cluster.start(0)
            wait_for(lambda: LOST.encode() in one.printed(), 5)
            told = one.printed().decode().count(LOST)
            need(told == 1 and one.counts(), f"a {kind} as the journal is told {told} times: {one.printed()}")
            one.kill()
            after = content(one.journal) if os.path.isfile(one.journal) else None
            need(after == before, f"a {kind} as the journal is written")
            os.rename(one.journal, f"{one.journal} {kind}")
        cluster.start(0)
        one.kill()
        with open(one.journal, "rb") as file:
            fcntl.flock(file, fcntl.LOCK_EX)
            before = content(one.journal)
            cluster.start(0)
            wait_for(lambda: LOST.encode() in one.printed(), 5)
            need("another process writes it" in one.printed().decode(), f"a second writer: {one.printed()}")
            one.kill()
            need(content(one.journal) == before, "two write one journal")
    return "a text, a line without an end, a pipe, a directory, a broken link, and another daemon's journal"


def keep_files_short():
    signal.signal(signal.SIGXFSZ, signal.SIG_IGN)
    resource.setrlimit(resource.RLIMIT_FSIZE, (ROOM, ROOM))


def a_full_disk_ends_the_journal_alone(folder, boothd):
    """The daemon continues to renew; nothing more is written to the journal, and the next start cuts off the torn line.
    """
    with cluster_in(boothd, folder) as cluster:
        one = cluster.members[0]
        one.prepare = keep_files_short
        cluster.start()
        is_held(cluster)
        need(wait_for(lambda: LOST.encode() in one.printed(), 60), "the journal is full")
        size = os.path.getsize(one.journal)
        until = one.record().until
        need(wait_for(lambda: one.record().until > until, 3 * TIMES.renewal), "it renews no more")
        told = one.printed().decode().count(LOST)
        need((told, os.path.getsize(one.journal)) == (1, size), f"told {told} times, {size} bytes: {one.printed()}")
        one.kill()
        journal_file.entries_of(content(one.journal))
        one.prepare = None
        cluster.start(0)
        one.kill()
        need(starts(journal_file.read(one.journal)) == 2, "it is written again")
    return f"at {size} bytes"


@contextlib.contextmanager
def slow_disk(folder):
    """Makes each sync of a file take longer, in programs that are started in the block."""
    if shutil.which("cc") is None:
        raise LeftOut("there is no cc")
    source, library = os.path.join(folder, "slow.c"), os.path.join(folder, "slow.so")
    with open(source, "w", encoding="ascii") as file:
        file.write(SLOW.replace("SLOW_MS", str(SLOW_MS)))
    subprocess.run(["cc", "-shared", "-fPIC", "-O1", "-o", library, source], check=True)
    os.environ["LD_PRELOAD"] = library
    try:
        yield
    finally:
        del os.environ["LD_PRELOAD"]


def ask_on(member, ended):
    """Grants and revokes a member's ticket again and again, whatever the answers are."""
    body = frames.ticket_body(TICKET, frames.NO_ONE, 0, 0)
    with socket.socket(socket.AF_INET, socket.SOCK_DGRAM) as asker:
        number = 0
        while not ended.wait(0.01):
            number += 1
            request = frames.request_now("CRvk" if number % 2 else "CGnt", number, body)
            with contextlib.suppress(OSError):
                asker.sendto(request, (member.address, frames.PORT))


def may_be_kept(entries):
    """Returns the records that the file may have after these calls, and whether the last keep was interrupted. A start
    reads one of these records, and from then on only that one is possible. The same holds after a keep that was done. A
    keep that failed or was interrupted adds its record.
    """
    may, is_cut = [record_file.Record(2, 0, None)], False
    for entry in entries:
        if entry.call.get("ticket") != TICKET.decode():
            continue
        is_cut = entry.kind == "keep" and entry.answer is None
        if entry.kind == "keep":
            kept = spelled(entry.call["hex"])
            may = [kept] if entry.answer == "ok" else [*may, kept]
        elif entry.kind == "kept" and "hex" in entry.came:
            found = spelled(entry.came["hex"])
            need(found in may, f"line {entry.line}: a start finds {found}, and not one of {may}")
            may = [found]
    return may, is_cut


def what_is_kept_was_said(member, kill):
    """Checks that the record on the disk is one that the journal has. Returns whether the last write was interrupted.
    """
    may, is_cut = may_be_kept(journal_file.read(member.journal))
    record = record_of(member)
    need(record in may, f"kill {kill}: {record} is kept, and not one of {may}")
    return is_cut


def a_daemon_that_is_killed_within_a_keep_has_said_it(folder, boothd):
    """The line of a keep is written before the keep: no record is on the disk that the journal does not have."""
    chance = random.Random(SEED)
    with slow_disk(folder), cluster_in(boothd, os.path.join(folder, "cluster")) as cluster:
        cluster.start()
        one, ended, cut = cluster.members[0], threading.Event(), 0
        asker = threading.Thread(target=ask_on, args=(one, ended), daemon=True)
        asker.start()
        try:
            for kill in range(1, KILLS + 1):
                time.sleep(chance.uniform(0, LATEST))
                one.kill()
                cut += what_is_kept_was_said(one, kill)
                cluster.start(0)
        finally:
            ended.set()
            asker.join()
        keeps = len(kept_by(journal_file.read(one.journal)))
    told = f"{KILLS} kills, {keeps} keeps, {cut} of them cut"
    need(cut * KILLS_OF_ONE_CUT >= KILLS, f"too few came within a keep: {told}")
    return told


CHECKS = (
    a_journal_says_what_a_cluster_did,
    a_start_goes_on_behind_the_last_line,
    another_file_is_left_as_it_is,
    a_full_disk_ends_the_journal_alone,
    a_daemon_that_is_killed_within_a_keep_has_said_it,
)


def main(words):
    end_by_signals()
    boothd = os.path.abspath(words[0]) if words else built_program()
    if boothd is None or not os.access(boothd, os.X_OK):
        print("tests/journal.py: boothd is not built, so nothing is checked")
        return 0
    wrong = 0
    for check in CHECKS:
        name = check.__name__.replace("_", " ")
        with scratch("booth-journal-") as folder:
            try:
                print(f"ok: {name}: {check(folder, boothd)}", flush=True)
            except LeftOut as why:
                print(f"tests/journal.py: {name}: not checked: {why}", flush=True)
            except (Wrong, NotServing, OSError, struct.error, journal_file.BadLine, subprocess.SubprocessError) as why:
                wrong = 1
                print(f"WRONG: {name}: {why}", flush=True)
    return wrong


if __name__ == "__main__":
    sys.exit(main(sys.argv[1:]))
