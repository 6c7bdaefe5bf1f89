"""Checks `boothd audit` with journals of an incident, and with a long journal, for tests/audit.py.

It is imported by tests/audit.py, and not run by itself. Each check is given the program and a folder of its own.
"""

import os
import random
import socket
import subprocess
import sys
import threading
import time

import frames
import journal
import journal_changes
import journal_file
import record_silence
from auditing import (
    KEY,
    PATIENCE,
    SILENT,
    TIMES,
    AuditedCluster,
    LeftOut,
    audit,
    cluster_in,
    content,
    ended,
    is_granted,
    is_renewed,
    require,
)
from members import TICKET, wait_for
from serving import own_addresses

SEED = 9929
KILLS = 60
# at least one of 20 kills must interrupt a write of a record
KILLS_OF_ONE_CUT = 20
# a long journal: its number of lines; one of ten turns answers a client; and the limits of an audit of it
LINES, TURNS_OF_ONE_LIST = 1_000_000, 10
LINES_A_SECOND, TIMES_ITS_BYTES = 200_000, 4
# an audit may miss its limits by this part on a machine that does other work
TENTH = 0.1
# runs a program, and writes its CPU time in seconds and its peak memory in kilobytes to a file
MEASURES = """\
import resource, subprocess, sys
status = subprocess.call(sys.argv[2:])
used = resource.getrusage(resource.RUSAGE_CHILDREN)
with open(sys.argv[1], "w", encoding="ascii") as file:
    file.write(f"{used.ru_utime + used.ru_stime} {used.ru_maxrss}")
sys.exit(status)
"""


def line_of(path, holds):
    """Returns the first entry of a journal, from the last start on, for which this holds."""
    return next(entry for entry in reversed(journal_file.read(path)) if holds(entry))


def names(found, paths, place, line, fault):
    told = found.fault(paths)
    require(told == (place, line, fault), f"due is line {line} of {place + 1}: {fault}; it left {found}")


def another_member_in_the_file(boothd, folder):
    """a member whose file has another arbitrator is found at the first send to it"""
    with cluster_in(boothd, folder) as (cluster, _):
        two, arbitrator = cluster.members[1:]
        other = os.path.join(folder, "other.conf")
        with open(cluster.conf, encoding="ascii") as file, open(other, "w", encoding="ascii") as copy:
            copy.write(file.read().replace(f'"{arbitrator.address}"', f'"{cluster.spare}"'))
        cluster.start(0, 2)
        two.start(boothd, other)
        time.sleep(0.5)
        good = ended(cluster)
    sends = [entry for entry in journal_file.read(two.journal) if entry.call.get("address") == cluster.spare]
    require(sends, "it sent nothing to the other arbitrator")
    names(good.found(good.paths), good.paths, 1, sends[0].line, "differs")
    for conf, paths in ((cluster.conf, [good.paths[0], good.paths[2]]), (other, [two.journal])):
        found = audit(boothd, conf, paths)
        fault = found.fault(paths)
        require(found.passes() or fault and fault[2] == "unsent", f"by its own file: {found}")
    return f"line {sends[0].line}; by its own file each passes but for what others sent"


def other_times_in_the_file(boothd, folder):
    """a member whose file has other times is found at its first keep or earlier"""
    with cluster_in(boothd, folder) as (cluster, forward):
        one, two, _ = cluster.members
        other = os.path.join(folder, "other.conf")
        with open(cluster.conf, encoding="ascii") as file, open(other, "w", encoding="ascii") as copy:
            copy.write(file.read().replace(f"expire = {TIMES.expire}\n", f"expire = {TIMES.expire - 1}\n"))
        cluster.start(0, 2)
        two.start(boothd, other)
        forward(SILENT)
        is_granted(one)
        require(wait_for(two.record, PATIENCE), "it keeps nothing")
        good = ended(cluster)
    first = next(entry.line for entry in journal_file.read(two.journal) if entry.kind == "keep")
    found = good.found(good.paths)
    fault = found.fault(good.paths)
    require(fault and fault[0] == 1 and fault[1] <= first and fault[2] == "differs", f"it left {found}")
    return f"line {fault[1]}, its first keep being at {first}"


def a_record_that_is_not_the_last(boothd, folder):
    """a record that was restored from a copy is found, and a record that an arbitrator lost is no fault"""
    with cluster_in(boothd, folder) as (cluster, forward):
        one, two, arbitrator = cluster.members
        cluster.start()
        forward(SILENT)
        is_granted(one)
        require(wait_for(lambda: two.record() and arbitrator.record(), PATIENCE), "no promise is kept")
        before = content(two.record_path())
        is_renewed(one, forward)
        require(wait_for(lambda: content(two.record_path()) != before, PATIENCE), "no other promise is kept")
        for member in (two, arbitrator):
            member.kill()
        with open(two.record_path(), "wb") as file:
            file.write(before)
        os.remove(arbitrator.record_path())
        cluster.start(1, 2)
        good = ended(cluster)
    line = first_read(good.paths[1])
    names(good.found(good.paths), good.paths, 1, line, "record")
    turned = [good.paths[0], good.paths[2], good.paths[1]]
    names(good.found(turned), turned, 2, line, "record")
    return f"at line {line}"


def first_read(path):
    """The line of the record that the last start of a journal read, or of `none`."""
    return line_of(path, lambda entry: entry.kind == "kept").line + 1


def silent_starts_are_told(boothd, folder):
    """an arbitrator without its record, or a site with a silent one, is reported; a site without a record is a fault"""
    with cluster_in(boothd, folder) as (cluster, forward):
        one, two, arbitrator = cluster.members
        cluster.start()
        forward(SILENT)
        is_granted(one)
        require(wait_for(lambda: two.record() and arbitrator.record(), PATIENCE), "no promise is kept")
        for member in (two, arbitrator):
            member.kill()
        term = two.record().term + record_silence.ABOVE
        with open(two.record_path(), "wb") as file:
            file.write(record_silence.silent_record(term))
        os.remove(arbitrator.record_path())
        cluster.start(1, 2)
        good = ended(cluster)
        told = [(good.paths[1], term), (good.paths[2], 0)]
        due = "".join(f"{path}: line {first_read(path)}: silent: {TICKET.decode()}, term {at}\n" for path, at in told)
        require(journal_changes.silent_starts(good.roster, good.paths, good.texts) == due, "tests/journal_changes.py")
        due = journal_changes.holdings(good.roster, good.texts) + due
        found = good.found(good.paths)
        require(found.passes() and found.printed == due, f"due is {due}, and it left {found}")
        os.remove(two.record_path())
        cluster.start(1)
        good = ended(cluster)
    line = first_read(good.paths[1])
    names(good.found(good.paths), good.paths, 1, line, "record")
    return f"a site without its record at line {line}"


def a_frame_that_nobody_sent(boothd, folder):
    """a forged message that was made with the key is found; one that was made without it has no effect"""
    with cluster_in(boothd, folder) as (cluster, _):
        one, two, _ = cluster.members
        cluster.start()
        body = frames.ticket_body(TICKET, frames.NO_ONE, 0, 0)
        sender = frames.member_id(two.address)
        fields = {"sender": sender, **frames.clock_fields()}
        forged = [frames.sealed(key, "Stat", body, **fields) for key in (b"not-that-key-but-another", KEY)]
        with socket.socket(socket.AF_INET, socket.SOCK_DGRAM) as asker:
            for frame in forged:
                asker.sendto(frame, (one.address, frames.PORT))
        dropped, _ = one.counts()
        require(sum(dropped) > 0, "the one without the key is let in")
        good = ended(cluster)
    heard = line_of(one.journal, lambda entry: entry.came.get("hex") == forged[1].hex()).line + 1
    names(good.found(good.paths), good.paths, 0, heard, "unsent")
    return f"line {heard}"


def kills_within_keeps_leave_journals(boothd, folder):
    """the journal of a daemon that was killed at any moment passes; an interrupted keep has no answer in it"""
    chance, place = random.Random(SEED), os.path.join(folder, "cluster")
    os.makedirs(place)
    with AuditedCluster(boothd, place, own_addresses(), times=TIMES) as cluster:
        cluster.remember()
        if cluster.refused:
            raise LeftOut("no clock can be put forward here, so the members have records that no journal says")
        with journal.slow_disk(folder):
            cluster.start()
            one, over, cut = cluster.members[0], threading.Event(), 0
            asker = threading.Thread(target=journal.ask_on, args=(one, over), daemon=True)
            asker.start()
            try:
                for _ in range(KILLS):
                    time.sleep(chance.uniform(0, journal.LATEST))
                    one.kill()
                    last = journal_file.read(one.journal)[-1]
                    cut += last.kind == "keep" and last.answer is None
                    cluster.start(0)
            finally:
                over.set()
                asker.join()
    told = cluster.judged()
    told = f"{KILLS} kills, {cut} of them within a keep; {told}"
    require(cut * KILLS_OF_ONE_CUT >= KILLS, f"too few came within a keep: {told}")
    return told


# ---- a long journal


def list_turn(reading, number, address):
    """Returns the lines of a turn that answers a client: nobody holds the ticket."""
    request = frames.sealed(KEY, "CLst", request=number, **frames.clock_fields(reading))
    clock = frames.Head(**frames.clock_fields(reading))
    reply = frames.reply_due("CLst", number, address, b"%s none 0\n" % TICKET, KEY, clock=clock)
    came = f"data {address} 40000 {request.hex()}"
    return ["next", came, "now", str(reading), f"send {address} 40000 {reply.hex()}", "ok"]


def long_journal(begin, address):
    """Returns the whole turns of a journal, and then turns without an arrival and ten list requests a second, up to
    this many lines.
    """
    lines = journal_file.lines_of(begin)
    lines = lines[: len(lines) - 1 - lines[::-1].index("next")]
    reading = max(int(line) for line in lines if line.isdigit())
    number = 0
    while len(lines) < LINES:
        number += 1
        reading += 100
        if number % TURNS_OF_ONE_LIST:
            lines += ["next", "quiet", "now", str(reading)]
        else:
            lines += list_turn(reading, number, address)
    return lines


def run_measured(words, folder):
    """Runs a program. Returns its outcome, its CPU time in seconds, and its peak memory in bytes."""
    path = os.path.join(folder, "measured")
    # (a process starts with the peak memory of the one that started it: this process is large, and that one is small)
    starter = [sys.executable, "-IS", "-c", MEASURES, path, *words]
    done = subprocess.run(starter, stdin=subprocess.DEVNULL, capture_output=True, text=True)
    with open(path, encoding="ascii") as file:
        seconds, kilobytes = map(float, file.read().split())
    return done.returncode, done.stdout, done.stderr, seconds, int(kilobytes) * 1024


def a_long_journal_is_quick(boothd, folder):
    """a journal of a million lines passes within the limits of time and memory"""
    with cluster_in(boothd, folder) as (cluster, _):
        arbitrator = cluster.members[2]
        arbitrator.start(boothd, cluster.conf)
        time.sleep(0.5)
        good = ended(cluster, arbitrator)
    lines = long_journal(good.texts[0], arbitrator.address)
    path = os.path.join(folder, "long")
    with open(path, "wb") as file:
        size = file.write(journal_changes.text_of(lines))
    started = time.monotonic()
    status, printed, said, seconds, peak = run_measured([boothd, "audit", "-c", cluster.conf, path], folder)
    took = time.monotonic() - started
    require((status, printed, said) == (0, "", ""), f"status {status}, {printed[:200]}, {said}")
    told = f"{len(lines)} lines, {size} bytes: {took:.2f} s, {len(lines) / seconds:,.0f} a second of processor time"
    told += f", {peak >> 20} MiB at most, {peak / size:.2f} times the journal's bytes"
    require(len(lines) / seconds >= LINES_A_SECOND * (1 - TENTH), f"too slow: {told}")
    require(peak <= TIMES_ITS_BYTES * (1 + TENTH) * size, f"too much memory: {told}")
    return told


CHECKS = (
    another_member_in_the_file,
    other_times_in_the_file,
    a_record_that_is_not_the_last,
    silent_starts_are_told,
    a_frame_that_nobody_sent,
    kills_within_keeps_leave_journals,
    a_long_journal_is_quick,
)
