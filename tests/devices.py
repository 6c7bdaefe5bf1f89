#!/usr/bin/env python3
"""Steps the wall clock of running daemons, silences their neighbours, and replaces their files by files of other kinds.

Run it as `python3 tests/devices.py [BOOTHD [TRIALS]]`. By default the programs are those that `make build` and the gate
leave. It takes 40 seconds at most, prints a line for each check, ends all programs that it started, and has the status
1 if a check failed. It prints a line about each check that this machine does not allow, or has no program for.

Only the daemons see the steps of the wall clock, by a library that replaces a function of the C library (LD_PRELOAD).
"""

import contextlib
import os
import re
import shutil
import subprocess
import sys
import time

HERE = os.path.dirname(os.path.abspath(__file__))
TOP = os.path.dirname(HERE)
sys.path[:0] = [HERE, f"{TOP}/tools"]

from checks import Wrong, need
from members import Cluster, Member, Times, now, remember, wait_for
from scratch import scratch
from serving import NotServing, built_program, end_by_signals, own_addresses

RECORD = b"ticket-db8".hex() + ".rec"
CLOCK = "booth.clock"
# the limit for a run that ends by itself, in seconds
SECONDS_OF_A_RUN = 10
TIMES = Times(expire=8, timeout=1, retries=3, renewal=5)
HOUR_MS = 3_600_000
# how far the wall clock is stepped, in seconds; the line that the daemon prints about it; and how long the lease is
# watched, which is beyond its end except for the last step
STEPS = (
    (-60, "ms behind the daemon's clock", TIMES.expire + 1),
    (30, "ms ahead of the daemon's clock", TIMES.expire + 1),
    (0, "agrees with the daemon's clock", 1),
)
# a network of its own, with the last numbers of its silent members
NET, SILENT = "10.99.0", range(3, 11)
TICKETS, SECONDS_OF_SILENCE = 60, 8
# the argument of a run in such a network, and its status if the network cannot be made
WITHIN, NOT_CHECKED = "within", 77
SHIFT = """
#define _GNU_SOURCE
#include <fcntl.h>
#include <stdlib.h>
#include <sys/syscall.h>
#include <time.h>
#include <unistd.h>

int clock_gettime(clockid_t clock, struct timespec *time)
{
    int status = (int)syscall(SYS_clock_gettime, clock, time);
    char text[32] = "";
    int file = status == 0 && clock == CLOCK_REALTIME ? open(getenv("BOOTH_WALL_SHIFT"), O_RDONLY) : -1;
    if (file >= 0) {
        if (read(file, text, sizeof text - 1) > 0)
            time->tv_sec += atol(text);
        close(file);
    }
    return status;
}
"""

# a library that puts a pipe in the place of the lock after the check of the lock
SWAP = """
#define _GNU_SOURCE
#include <stdio.h>
#include <stdlib.h>
#include <string.h>
#include <sys/stat.h>
#include <sys/syscall.h>
#include <unistd.h>

int statx(int folder, const char *restrict path, int flags, unsigned mask, struct statx *restrict found)
{
    int status = (int)syscall(SYS_statx, folder, path, flags, mask, found);
    if (status == 0 && strcmp(path, getenv("BOOTH_LOCK")) == 0)
        rename(getenv("BOOTH_PIPE"), path);
    return status;
}
"""


class LeftOut(Exception):
    """This machine does not allow what a check needs."""


def run_keeps(keeps, directory, count=0):
    """Returns the status of a run, its standard output and its standard error."""
    if keeps is None:
        raise LeftOut("trials is not built")
    how = {"stdin": subprocess.DEVNULL, "capture_output": True, "text": True, "timeout": SECONDS_OF_A_RUN}
    done = subprocess.run([keeps, "keeps", directory, str(count)], **how)
    return done.returncode, done.stdout, done.stderr


def what_is_no_regular_file_is_refused(folder, keeps, **_):
    """A file of another kind in the place of a record or of the clock file is refused. A pipe to which nobody writes
    delays nothing.
    """
    directory, away = os.path.join(folder, "kinds"), os.path.join(folder, "away")
    need(run_keeps(keeps, directory, 1)[0] == 0, "a run in a new directory")
    makers = {"pipe": os.mkfifo, "directory": os.mkdir, "link": lambda path: os.symlink(away, path)}
    for name, refusal in ((RECORD, "cannot read the record of ticket"), (CLOCK, "cannot read the clock of the records")):
        path = os.path.join(directory, name)
        os.rename(path, away)
        for kind, make in makers.items():
            make(path)
            status, _, said = run_keeps(keeps, directory, 1)
            is_refused = status == 1 and refusal in said and "it is no regular file" in said
            need(is_refused, f"a {kind} as {name}: {status}, {said}")
            os.rename(path, os.path.join(folder, f"{name}-{kind}"))
        os.rename(away, path)
    need(run_keeps(keeps, directory)[:2] == (0, "read 1\n"), "the record is read again")
    return "a pipe, a directory and a link, as a record and as the clock"


def number_at(clock, at):
    return int.from_bytes(clock[at : at + 8], "big")


def a_boot_takes_the_wall_clock_anew(folder, keeps, **_):
    """In a new boot the daemon takes the wall clock, if it is not behind the time that the daemon had reached before.
    """
    directory = os.path.join(folder, "boots")
    path = os.path.join(directory, CLOCK)
    need(run_keeps(keeps, directory)[0] == 0, "a run in a new directory")

    def run_with(clock):
        with open(path, "wb") as file:
            file.write(clock)
        status, _, said = run_keeps(keeps, directory)
        with open(path, "rb") as file:
            return status, said, file.read()

    with open(path, "rb") as file:
        first = file.read()
    off = number_at(first, 8) + int(time.clock_gettime(time.CLOCK_BOOTTIME) * 1000) - int(now() * 1000)
    need(len(first) == 60 and abs(off) <= 5, f"{len(first)} bytes, {off} ms off the wall clock")
    ahead = first[:8] + (number_at(first, 8) + HOUR_MS).to_bytes(8, "big") + first[16:]
    status, _, kept = run_with(ahead)
    need(status == 0 and kept[8:16] == ahead[8:16], "the offset of this boot stays")
    other = kept[:24] + kept[24:].replace(kept[24:25], b"x")
    status, said, _ = run_with(other)
    need(status == 1 and "behind a reading that was reached before" in said, f"a reading ahead: {status}, {said}")
    status, _, anew = run_with(other[:16] + first[16:24] + other[24:])
    need(status == 0 and abs(number_at(anew, 8) - number_at(first, 8)) <= 5, "it is taken anew")
    need(anew[24:] == first[24:], "by the id of this boot")
    for name, clock in (("short", first[:59]), ("long", first + b"\0"), ("of another version", b"\1" + first[1:])):
        status, said, left = run_with(clock)
        is_refused = status == 1 and "booth.clock has no valid content" in said and left == clock
        need(is_refused, f"a file that is {name}: {said}")
    return "its own boot keeps it, and a file that is no clock is refused and stays"


def built_library(folder, name, text):
    """Returns a library of this source, whose functions replace those of the C library if LD_PRELOAD names it."""
    if shutil.which("cc") is None:
        raise LeftOut("there is no cc")
    source, library = (os.path.join(folder, f"{name}.{kind}") for kind in ("c", "so"))
    with open(source, "w", encoding="ascii") as file:
        file.write(text)
    subprocess.run(["cc", "-shared", "-fPIC", "-O1", "-o", library, source], check=True)
    return library


def a_pipe_in_the_place_of_a_lock_holds_up_nobody(folder, boothd, **_):
    """A pipe that takes the lock's place between the check of the lock and its opening delays nobody. (As root, a
    status command waited without end.)
    """
    if boothd is None:
        raise LeftOut("boothd is not built")
    lock, pipe = os.path.join(folder, "lock"), os.path.join(folder, "pipe")
    with open(lock, "wb"):
        os.mkfifo(pipe)
    environ = {"LD_PRELOAD": built_library(folder, "swap", SWAP), "BOOTH_LOCK": lock, "BOOTH_PIPE": pipe}
    how = {"stdin": subprocess.DEVNULL, "capture_output": True, "text": True, "timeout": SECONDS_OF_A_RUN}
    done = subprocess.run([boothd, "status", "-l", lock], env={**os.environ, **environ}, **how)
    need(not os.path.exists(pipe), "the pipe was not put in its place")
    said = f"boothd: {lock}: it is no regular file\nboothd: cannot lock {lock}\n"
    found = (done.returncode, done.stdout, done.stderr)
    need(found == (1, "", said), f"status, printed, said: {found}")
    return "the lock is refused"


@contextlib.contextmanager
def wall_clock(folder):
    """Yields a function that steps the wall clock of all programs that are started in the block."""
    library, shift = built_library(folder, "shift", SHIFT), os.path.join(folder, "shift")

    def step(seconds):
        with open(shift + ".new", "w", encoding="ascii") as file:
            file.write(str(seconds))
        os.rename(shift + ".new", shift)

    step(0)
    os.environ.update(LD_PRELOAD=library, BOOTH_WALL_SHIFT=shift)
    try:
        yield step
    finally:
        del os.environ["LD_PRELOAD"], os.environ["BOOTH_WALL_SHIFT"]


def said_of(member, words):
    """Returns the lines of a member that have these words."""
    return [line for line in member.printed().decode().splitlines() if words in line]


def is_told(line, seconds):
    """Returns whether a line reports this step, except for rounding."""
    amount = re.search(r"is (\d+) ms", line)
    return abs(int(amount.group(1)) - 1000 * abs(seconds)) <= 2 if amount else seconds == 0


def steps_of_the_wall_clock_do_not_touch_a_lease(folder, boothd, **_):
    """The holder's clock steps back and forth; its daemon continues to renew and reports each step once, and no other
    site holds.
    """
    if boothd is None:
        raise LeftOut("boothd is not built")
    with wall_clock(folder) as step, Cluster(boothd, folder, own_addresses(), times=TIMES) as cluster:
        cluster.remember()
        cluster.start()
        one = cluster.members[0]
        granted = one.about("CGnt")
        shown = wait_for(lambda: cluster.shown_by_all() == one.address, 10)
        need(shown, f"a grant is told {granted}: {one.printed()}")
        for seconds, words, looks in STEPS:
            step(seconds)
            end = time.monotonic() + looks
            told = wait_for(lambda: said_of(one, words), 3)
            need(told and is_told(told[0], seconds), f"a step to {seconds} s: {one.printed()}")
            while time.monotonic() < end:
                need(one.record().holds(now()), f"after a step to {seconds} s it renews no more")
                time.sleep(0.1)
            need(cluster.shown_by_all() == one.address, f"after a step to {seconds} s others list another")
            need(len(said_of(one, words)) == 1, f"it is told again: {one.printed()}")
        step(-60)
        one.kill()
        one.start(boothd, cluster.conf)
        need(wait_for(lambda: said_of(one, "ms behind"), 3), f"a start tells nothing: {one.printed()}")
        until = one.record().until
        renewed = wait_for(lambda: one.record().until > until, TIMES.expire)
        need(renewed and one.record().holds(now()), f"a start with a wall clock that was set: {one.printed()}")
        need(not cluster.watch.wrong and cluster.watch.is_looking(), f"two held: {cluster.watch.wrong[:3]}")
    return "it renews through steps of -60 s, +90 s and -30 s, each told once, and through a start behind one"


def ip(*words):
    try:
        done = subprocess.run(["ip", *words], capture_output=True, text=True, check=False)
    except OSError:
        raise LeftOut("there is no ip") from None
    if done.returncode != 0:
        raise LeftOut(f"ip {' '.join(words)}: {done.stderr.strip()}")


def file_of_silent_members(folder):
    """Returns a file with a site, a live arbitrator, and silent members, with many tickets that nobody can be granted.
    """
    lines = [f'site = "{NET}.1"', f'arbitrator = "{NET}.2"', *(f'site = "{NET}.{last}"' for last in SILENT)]
    for number in range(TICKETS):
        lines += [f'ticket = "t{number}"', *TIMES.text().splitlines()]
    path = os.path.join(folder, "silent.conf")
    with open(path, "w", encoding="ascii") as file:
        file.write("\n".join(lines) + "\n")
    return path


@contextlib.contextmanager
def live_member(boothd, folder, path):
    """Yields the arbitrator, in its own network, with a cable to this one."""
    places = ["-l", f"{folder}/live.lock", "-d", f"{folder}/live"]
    words = [boothd, "daemon", "-c", path, "-s", f"{NET}.2", *places]
    # (it waits for its end of the cable)
    waits = ["unshare", "-n", "sh", "-c", 'read go; exec "$@"', "sh"]
    with subprocess.Popen([*waits, *words], stdin=subprocess.PIPE) as live:
        try:
            time.sleep(0.3)
            ip("link", "add", "near", "type", "veth", "peer", "name", "far", "netns", str(live.pid))
            ip("addr", "add", f"{NET}.1/24", "dev", "near")
            ip("link", "set", "near", "up")
            within = ["nsenter", "-t", str(live.pid), "-n", "ip"]
            subprocess.run([*within, "addr", "add", f"{NET}.2/24", "dev", "far"], check=True)
            subprocess.run([*within, "link", "set", "far", "up"], check=True)
            live.stdin.write(b"go\n")
            live.stdin.close()
            yield
        finally:
            live.kill()


def within_a_network(boothd, folder):
    """Does the work of `silent_neighbours_cost_a_live_one_nothing`, in a network that is empty so far."""
    ip("link", "set", "lo", "up")
    path = file_of_silent_members(folder)
    tickets = [b"t%d" % number for number in range(TICKETS)]
    member = Member("site", f"{NET}.1", os.path.join(folder, "site"))
    for directory in (member.records, os.path.join(folder, "live")):
        remember(directory, tickets)
    with live_member(boothd, folder, path):
        try:
            member.start(boothd, path)
            waits, end = [], time.monotonic() + SECONDS_OF_SILENCE
            while time.monotonic() < end:
                asked = time.monotonic()
                _, by_address = member.counts()
                waits.append(time.monotonic() - asked)
                time.sleep(0.02)
            said = member.printed().decode()
        finally:
            member.kill()
    _, sent, errors = by_address[f"{NET}.2"]
    silent = [by_address[f"{NET}.{last}"] for last in SILENT]
    to_silent, failed = (sum(each[place] for each in silent) for place in (1, 2))
    told = f"{sent} sent to the live one, {errors} failed; {to_silent} to {len(silent)} silent ones, {failed} failed; "
    told += f"the slowest answer took {max(waits) * 1000:.0f} ms"
    need(sent > TICKETS and errors == 0, f"{told}; {said}")
    return told


def silent_neighbours_cost_a_live_one_nothing(folder, boothd, **_):
    """On a network with one live member, the live member is served although the other addresses do not answer."""
    if boothd is None:
        raise LeftOut("boothd is not built")
    words = ["unshare", "-n", sys.executable, os.path.abspath(__file__), WITHIN, boothd, folder]
    done = subprocess.run(words, capture_output=True, text=True, check=False)
    if done.returncode == NOT_CHECKED or "unshare" in done.stderr:
        raise LeftOut((done.stdout + done.stderr).strip())
    need(done.returncode == 0, (done.stdout + done.stderr).strip())
    return done.stdout.strip()


def run_within(boothd, folder):
    """Returns the status of a run in its own network."""
    try:
        print(within_a_network(boothd, folder))
        return 0
    except LeftOut as why:
        print(why)
        return NOT_CHECKED
    except (Wrong, NotServing, OSError, subprocess.SubprocessError) as why:
        print(why)
        return 1


CHECKS = (
    what_is_no_regular_file_is_refused,
    a_pipe_in_the_place_of_a_lock_holds_up_nobody,
    a_boot_takes_the_wall_clock_anew,
    steps_of_the_wall_clock_do_not_touch_a_lease,
    silent_neighbours_cost_a_live_one_nothing,
)


def main(words):
    end_by_signals()
    if words[:1] == [WITHIN]:
        return run_within(*words[1:])
    paths = [os.path.abspath(word) for word in words] + [None] * 2
    programs = {"boothd": paths[0] or built_program(), "keeps": paths[1] or built_program("trials")}
    wrong = 0
    for check in CHECKS:
        name = check.__name__.replace("_", " ")
        with scratch("booth-devices-") as folder:
            try:
                print(f"ok: {name}: {check(folder, **programs)}", flush=True)
            except LeftOut as why:
                print(f"tests/devices.py: {name}: not checked: {why}", flush=True)
            except (Wrong, NotServing, OSError, subprocess.SubprocessError) as why:
                wrong = 1
                print(f"WRONG: {name}: {why}", flush=True)
    return wrong


if __name__ == "__main__":
    sys.exit(main(sys.argv[1:]))
