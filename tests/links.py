#!/usr/bin/env python3
"""Checks the streams of the proved boothd against docs/PROTOCOL.md, over real links on loopback.

Run it as `python3 tests/links.py [BOOTHD [CONNECTIONS]]`. BOOTHD is by default the one that `make build` leaves. The
flood of connections ends after 15 seconds, or, if CONNECTIONS is given, after this number. The test takes a minute,
prints a line for each check with what it measured, ends all programs that it started, and has the status 1 if a check
failed. If boothd is not built it checks nothing, with status 0.
"""

import itertools
import os
import socket
import statistics
import subprocess
import sys
import threading
import time

HERE = os.path.dirname(os.path.abspath(__file__))
sys.path[:0] = [HERE, f"{HERE}/../tools"]

import frames
import lists
from checks import Wrong, need
from crowds import Crowd
from link_leases import CHECKS as LEASES
from members import Member, now, wait_for
from scratch import scratch
from serving import NotServing, built_program, end_by_signals, own_addresses
from tcp_links import SECONDS_TO_ANSWER, Closed, Link, links, open_files

LINKS = 16
SECONDS_OF_FLOOD = 15
# by docs/PROTOCOL.md: how long an answered link keeps its place if another peer waits for one, in seconds
SECONDS_IDLE = 2
# the crowds of clients that want places and ask for nothing, each with its size; and how many requests of other clients
# must be answered at the same time, and how soon
CROWDS = (("slow", 16), ("slow", 1_000), ("heads", 16), ("heads", 1_000), ("garbage", 16), ("garbage", 200))
CROWDS += (("silent", 300), ("brief", 100))
ASKS, SECONDS_IN_A_CROWD, SECONDS_BETWEEN_ASKS = 50, 1.0, 0.02
# the additional time on a busy machine, in seconds
SLACK = 10
# how fast a slow reader reads
BYTES_A_SECOND = 100_000
# with 64 tickets a list has 4.6 kB; 112 requests for it at once have half a megabyte of answers
TICKETS, PARTS = 64, 112
# the number of long lists that each quick link gets
LISTS_EACH = 2
# the longest list: names of 63 bytes, and an owner whose address takes 39. The owner is named by messages, and does not
# run
LONG_TICKETS, LONG_OWNER, LONG_PARTS = 4_096, "2001:db8:1111:2222:3333:4444:5555:6666", 29
# the number of messages between two checks that they arrived, and how long the leases in them last, in seconds
TOLD_AT_ONCE, SECONDS_HELD = 128, 2**31
# how much the daemon's memory may grow for a client that does not read its answers, in bytes: the queued answers, and
# some more
BYTES_MORE = 3 << 20
# how long the daemon waits for a datagram, in seconds, and the number of requests that arrive during such waits
SECONDS_OF_WAIT, REQUESTS_APART = 0.1, 20


class LongList:
    """A daemon with 4,096 tickets, whose list is as long as a list can be while leases end in this century."""

    def __init__(self, program, folder, address, other):
        self.address, self.lines = address, []
        names = [f"ticket-{number:04}-{'x' * 51}" for number in range(LONG_TICKETS)]
        conf = os.path.join(folder, "long.conf")
        with open(conf, "w", encoding="ascii") as file:
            file.write(f'site = "{address}"\nsite = "{LONG_OWNER}"\narbitrator = "{other}"\n')
            file.writelines(f'ticket = "{name}"\n' for name in names)
        self.member = Member("site", address, os.path.join(folder, "long"))
        self.member.start(program, conf)
        try:
            self.tell([name.encode() for name in names])
        except BaseException:
            self.member.kill()
            raise

    def tell(self, names):
        """Sends the daemon a claim of the other site for each ticket, as that site would."""
        owner, until = frames.member_id(LONG_OWNER), int(now()) + SECONDS_HELD
        with socket.socket(socket.AF_INET, socket.SOCK_DGRAM) as teller:
            teller.connect((self.address, frames.PORT))
            for place, name in enumerate(names, 1):
                body = frames.ticket_body(name, owner, 1, SECONDS_HELD)
                teller.send(frames.request_now("UpdE", 0, body, sender=owner))
                if place % TOLD_AT_ONCE == 0:
                    self.member.ask("Peer")
        self.lines = [(name, LONG_OWNER.encode(), until) for name in names]

    def is_whole(self, text):
        """Returns whether the text has a line of each ticket, with its owner and an end within about a second of the
        claimed one.
        """
        found = [line.split(b" ") for line in text.splitlines()]
        fits = lambda line, due: line[:2] == list(due[:2]) and abs(int(line[2]) - due[2]) < 2 * SECONDS_TO_ANSWER
        return len(found) == len(self.lines) and all(map(fits, found, self.lines))

    def list_of(self, link, number):
        """Returns the text of the list that answers this request, joined from its parts, and how many parts there are.
        """
        parts = lists.Parts()
        for count in itertools.count(1):
            part = link.reply("CLst", number)
            parts.take(frames.Head.read(part), part[frames.HEAD_BYTES :])
            if (text := parts.text()) is not None:
                return text, count


class Scene:
    """A daemon with many tickets, whose other members do not run."""

    def __init__(self, program, folder, address, others, connections):
        self.program, self.folder = program, folder
        self.connections = connections
        self.address = address
        self.conf = os.path.join(folder, "many.conf")
        text = f'site = "{address}"\nsite = "{others[0]}"\narbitrator = "{others[1]}"\n'
        text += "".join(f'ticket = "ticket-{number:03}-{"x" * 52}"\n' for number in range(TICKETS))
        with open(self.conf, "w", encoding="ascii") as file:
            file.write(text)
        self.member = Member("site", address, os.path.join(folder, "many"))
        self.member.start(program, self.conf)
        self.files_at_rest = self.files()

    def process(self):
        return self.member.server.process.pid

    def files(self):
        return open_files(self.process())


# ---- the checks: each gives what it measured


def every_cut_is_one(scene):
    """a frame that is cut at any place is answered like a whole one"""
    asked = [("CLst", b""), ("Peer", b""), ("CGnt", frames.ticket_body(b"no-such", frames.NO_ONE, 0, 0))]
    asked.append(("ALst", frames.attribute_body(b"no-such", b"", b"")))
    cuts = [(letters, body, cut) for letters, body in asked for cut in range(1, frames.HEAD_BYTES + len(body))]
    with links(LINKS, scene.address) as opened:
        whole = {letters: bodies(opened[0].ask(letters, body)) for letters, body in asked}
        wrong = []

        def cut_at(link, mine):
            for letters, body, cut in mine:
                if bodies(link.ask(letters, body, cut)) != whole[letters] and letters != "Peer":
                    wrong.append((letters, cut))

        threads = [threading.Thread(target=cut_at, args=(link, cuts[place::LINKS])) for place, link in enumerate(opened)]
        for thread in threads:
            thread.start()
        for thread in threads:
            thread.join()
    need(not wrong, f"these are answered in another way: {wrong[:3]}")
    return f"{len(cuts)} cuts of {len(asked)} frames, over {LINKS} links"


def bodies(frame):
    """Returns the common part of two replies to one request: the result and the body."""
    return frames.Head.read(frame).result, frame[frames.HEAD_BYTES :]


def sixteen_at_once(scene):
    """sixteen links at the same time are each answered, with lists that are cut at different places"""
    with links(LINKS, scene.address) as opened:
        asked = [[link.request() for _ in range(PARTS)] for link in opened]
        for half in (slice(0, 700), slice(700, None)):
            for link, requests in zip(opened, asked):
                link.socket.sendall(b"".join(request for _, request in requests)[half])
        got = [link.reply("CLst", number) for link, requests in zip(opened, asked) for number, _ in requests]
    need(len({bodies(frame) for frame in got}) == 1, "two lists differ")
    return f"{len(got)} lists of {len(got[0])} bytes"


def a_slow_reader_gets_all(scene):
    """a reader of 100 kB a second receives half a megabyte of lists whole, all requested at once"""
    with Link(scene.address, room=8192, rate=BYTES_A_SECOND) as link:
        begun, requests = time.monotonic(), [link.request() for _ in range(PARTS)]
        link.socket.sendall(b"".join(request for _, request in requests))
        got = [link.reply("CLst", number) for number, _ in requests]
        took = time.monotonic() - begun
    need(len({bodies(frame) for frame in got}) == 1, "two lists differ")
    return f"{sum(map(len, got))} bytes in {took:.1f} s"


def long_lists(scene):
    """a list of 29 parts arrives whole over sixteen links at once, and also at a reader of 100 kB a second"""
    address, other = itertools.islice((each for each in own_addresses() if each != scene.address), 20, 22)
    long = LongList(scene.program, scene.folder, address, other)
    wrong, got = [], []

    def ask(link, times):
        try:
            for _ in range(times):
                number, request = link.request()
                link.socket.sendall(request)
                text, count = long.list_of(link, number)
                need(count == LONG_PARTS and long.is_whole(text), f"a list of {count} parts and {len(text)} bytes")
                got.append(len(text))
        except (Wrong, Closed, OSError, ValueError) as why:
            wrong.append(f"{type(why).__name__}: {why}")

    try:
        with Link(address, room=8192, rate=BYTES_A_SECOND) as slow, links(LINKS - 1, address) as opened:
            begun = time.monotonic()
            threads = [threading.Thread(target=ask, args=(slow, 1))]
            threads += [threading.Thread(target=ask, args=(link, LISTS_EACH)) for link in opened]
            for thread in threads:
                thread.start()
            for thread in threads:
                thread.join()
            took = time.monotonic() - begun
    finally:
        long.member.kill()
    need(not wrong, f"{wrong[:3]}")
    return f"{len(got)} lists of {max(got)} bytes, the slow one in {took:.1f} s"


def who_reads_nothing_waits(scene):
    """a peer that continues to ask and reads nothing is no longer read, and others are served"""
    with Link(scene.address, room=4096) as deaf, Link(scene.address) as other:
        many = b"".join(deaf.request()[1] for _ in range(85))
        deaf.socket.settimeout(0.5)
        before, sent, is_read = resident(scene.process()), 0, True
        while is_read and sent < 64 << 20:
            try:
                sent += deaf.socket.send(many)
            except socket.timeout:
                is_read = False
            other.ask()
        more = resident(scene.process()) - before
        need(not is_read, f"{sent} bytes are read")
        need(more <= BYTES_MORE, f"the daemon has {more} bytes more")
    return f"{sent} bytes of requests, and {max(0, more) >> 10} KiB more"


def the_port_of_daemons_is_refused(scene):
    """a connection from the daemons' port is closed immediately, without an answer"""
    local = next(address for address in own_addresses() if address != scene.address)
    with Link(scene.address, local=(local, frames.PORT)) as link:
        try:
            link.ask()
        except (Closed, BrokenPipeError):
            return ""
    raise Wrong("it is answered")


def who_is_idle_makes_room(scene):
    """if sixteen links are idle, a waiting peer gets the place of the one that has been idle longest"""
    with links(LINKS, scene.address) as opened:
        for link in opened:
            link.ask()
            # (the daemon distinguishes two moments only if they are a millisecond apart)
            time.sleep(0.01)
        # (from now on the second link is idle longest)
        opened[0].ask()
        begun = time.monotonic()
        with Link(scene.address) as late:
            late.ask()
            took = time.monotonic() - begun
            need(opened[1].ends(SLACK), "the link that is idle longest is open")
            late.ask()
        for link in opened[2:] + opened[:1]:
            link.ask()
    need(SECONDS_IDLE / 2 < took < SECONDS_IDLE + SLACK, f"it is answered after {took:.1f} s")
    return f"after {took:.1f} s"


def asked_in_a_crowd(scene):
    """Returns how long a new peer waits for its answer, in seconds. If its connection is closed, it connects again, as
    a client does.
    """
    time.sleep(SECONDS_BETWEEN_ASKS)
    begun, why = time.monotonic(), None
    while (left := begun + SECONDS_IN_A_CROWD - time.monotonic()) > 0:
        try:
            with Link(scene.address) as link:
                link.socket.settimeout(left)
                link.ask()
            return time.monotonic() - begun
        except (Closed, ConnectionError) as closed:
            why = closed
    raise Wrong(f"it is closed again and again: {why}")


def crowds_keep_nobody_out(scene):
    """a new peer is answered within a second, 50 of 50 times, while each kind of crowd only occupies places"""
    told = []
    for kind, count in CROWDS:
        took = []
        with Crowd(kind, scene.address, count):
            for number in range(ASKS):
                try:
                    took.append(asked_in_a_crowd(scene))
                except (Closed, OSError) as why:
                    raise Wrong(f"{count} {kind}: ask {number + 1}: {type(why).__name__}: {why}") from why
        need(max(took) <= SECONDS_IN_A_CROWD, f"{count} {kind}: it is answered after {max(took):.1f} s")
        told.append(f"{count} {kind} {max(took) * 1000:.0f}")
    return f"at the latest after so many ms: {', '.join(told)}"


def who_was_answered_keeps_its_place(scene):
    """a link that was answered shortly before keeps its place while a crowd connects"""
    with Crowd("heads", scene.address, 200), Link(scene.address) as link:
        begun, count = time.monotonic(), 0
        while time.monotonic() < begun + 2 * SECONDS_IDLE:
            link.ask()
            count += 1
            time.sleep(SECONDS_IDLE / 3)
    return f"through {count} asks"


def connections_leave_nothing(scene):
    """connections one after another leave the daemon's open files and memory unchanged"""
    begun, count = time.monotonic(), 0
    # (with one address the system would run out of ports, since it keeps each used port for a while)
    sources = itertools.cycle(list(own_addresses())[100:])
    while count < scene.connections if scene.connections else time.monotonic() < begun + SECONDS_OF_FLOOD:
        with Link(scene.address, local=(next(sources), 0)) as link:
            # (a quarter of the links ask, a quarter close in the middle of a frame, and half close at once)
            if count % 4 == 0:
                link.ask()
            elif count % 4 == 1:
                link.socket.sendall(link.request()[1][:30])
        count += 1
    rest = scene.files_at_rest
    need(wait_for(lambda: scene.files() == rest, SLACK), f"it has {scene.files()} open files, and had {rest}")
    with Link(scene.address) as link:
        link.ask()
    return f"{count} connections in {time.monotonic() - begun:.1f} s"


def a_request_ends_the_wait(scene):
    """a request over a link ends the wait for datagrams: it is answered long before the wait's own end"""
    took = []
    with Link(scene.address) as link:
        for _ in range(REQUESTS_APART):
            # (by then the daemon waits for a datagram)
            time.sleep(0.03)
            begun = time.monotonic()
            link.ask()
            took.append(time.monotonic() - begun)
    median = statistics.median(took)
    need(median < SECONDS_OF_WAIT / 4, f"the median of {len(took)} is {median * 1000:.0f} ms")
    return f"the median of {len(took)} is {median * 1000:.1f} ms"


def the_port_is_bound_once_and_again(scene):
    """a daemon does not start if the TCP port is in use, but does so at once after a daemon with open links"""
    address = next(each for each in itertools.islice(own_addresses(), 60, None) if each != scene.address)
    folder = os.path.join(scene.folder, "again")
    conf = os.path.join(scene.folder, "again.conf")
    with open(conf, "w", encoding="ascii") as file:
        file.write(f'site = "{address}"\nticket = "again"\n')
    member = Member("site", address, folder)
    with socket.socket(socket.AF_INET) as other:
        other.bind((address, frames.PORT))
        other.listen()
        try:
            member.start(scene.program, conf)
        except NotServing as why:
            need("cannot open" in str(why), f"it says {why}")
        else:
            member.kill()
            raise Wrong("it starts")
    member.start(scene.program, conf)
    try:
        with Link(address) as link:
            link.ask()
            member.kill()
            begun = time.monotonic()
            member.start(scene.program, conf)
            took = time.monotonic() - begun
        with Link(address) as link:
            link.ask()
    finally:
        member.kill()
    return f"again after {took * 1000:.0f} ms"


def the_example_prints(scene):
    """the client in examples/ prints the list"""
    words = [sys.executable, f"{HERE}/../examples/list_over_tcp.py", scene.address]
    ran = subprocess.run(words, capture_output=True, timeout=SLACK)
    with Link(scene.address) as link:
        due = link.ask()[frames.HEAD_BYTES :]
    need(ran.stdout == due and ran.returncode == 0, f"it prints {ran.stdout[:80]}, and says {ran.stderr}")
    held = lists.held_in(due) if due else []
    return f"{len(list(held))} tickets"


def resident(process):
    """Returns how many bytes a process has in memory."""
    with open(f"/proc/{process}/statm", encoding="ascii") as file:
        return int(file.read().split()[1]) * os.sysconf("SC_PAGE_SIZE")


CHECKS = [
    every_cut_is_one,
    sixteen_at_once,
    who_reads_nothing_waits,
    the_port_of_daemons_is_refused,
    who_is_idle_makes_room,
    a_request_ends_the_wait,
    the_port_is_bound_once_and_again,
    crowds_keep_nobody_out,
    who_was_answered_keeps_its_place,
    the_example_prints,
]


def passes(check, scene):
    """Returns whether the check of this scene, or of this program, passes. Prints its line."""
    begun = time.monotonic()
    try:
        told = check(scene)
    except (Wrong, Closed, NotServing, OSError, ValueError, subprocess.TimeoutExpired) as why:
        print(f"FAILED  {check.__doc__}: {type(why).__name__}: {why}", flush=True)
        return False
    told = f": {told}" if told else ""
    print(f"ok      {check.__doc__}{told} ({time.monotonic() - begun:.1f} s)", flush=True)
    return True


def run(program, connections):
    """Runs the checks. Prints how many failed."""
    begun, passed = time.monotonic(), []
    with scratch("booth-links-") as folder:
        address, *others = list(own_addresses())[:3]
        scene = Scene(program, folder, address, others, connections)
        try:
            passed += [passes(check, scene) for check in CHECKS]
            run_lease = lambda check: passed.append(passes(check, program))
            leases = [threading.Thread(target=run_lease, args=(check,)) for check in LEASES]
            for lease in leases:
                lease.start()
            meanwhile = (a_slow_reader_gets_all, long_lists, connections_leave_nothing)
            passed += [passes(check, scene) for check in meanwhile]
            for lease in leases:
                lease.join()
        finally:
            scene.member.kill()
    failed = len(passed) - sum(passed)
    print(f"links: {sum(passed)} passed, {failed} failed, in {time.monotonic() - begun:.1f} s ({program})")
    return failed


def main(words):
    end_by_signals()
    program = words[0] if words else built_program()
    if program is None:
        print("links: skipped, since boothd is not built: run make build")
        return 0
    if not os.access(program, os.X_OK):
        sys.exit(f"links.py: cannot run {program}")
    return 1 if run(os.path.abspath(program), int(words[1]) if len(words) > 1 else None) else 0


if __name__ == "__main__":
    sys.exit(main(sys.argv[1:]))
