"""The base of the checks of tests/loopback.py: the program, its daemons, and the clients that ask them.

It is imported by the programs in tests/, and not run by itself.
"""

import contextlib
import copy
import itertools
import os
import re
import socket
import subprocess
import time

import frames
import gate
from checks import Wrong, need
from frames import Head, request_now
from gate import Station
from serving import NotServing, boothd, own_addresses

# (this limit is for a busy machine; on any other machine the answer comes at once)
SECONDS_TO_ANSWER, SECONDS_TO_END = 20, 30
MOST_UDP_BYTES = 65_507

KEY = b"secret-key"
# the first words of a refusal after which the host prints its own line with the cause
NOT_HAD = (b"cannot open", b"cannot lock ", b"cannot read ")
# the commands of members that name an owner and ask for nothing
TELL_STATE = ("Stat", "MIdx", "RJC!", "UpdE")
# the result of each request about something that does not exist
NOT_HERE = frames.code("IArg")
# the most attributes of a ticket
NAMES = 64

checks = []


def check(function):
    """Adds a function to the list of checks. Its docstring is the sentence that it checks."""
    checks.append(function)
    return function


def shown(datagram):
    return datagram.hex(" ", -4)


class Counts:
    """The counters that a daemon must have so far. At its start it asks all others for each ticket's state."""

    def __init__(self, station):
        self.station = station
        self.others = station.others
        self.drops = [0] * 8
        # by address: the number of accepted frames, and the second in which the last one was sent, or 0
        self.accepted = {address: 0 for _, address in self.others}
        self.seen = {address: 0 for _, address in self.others}
        # by address: the number of messages for this member
        self.said = {address: len(station.tickets) for _, address in self.others}

    def copy(self):
        other = copy.copy(self)
        other.drops, other.accepted = [*self.drops], {**self.accepted}
        other.seen, other.said = {**self.seen}, {**self.said}
        return other

    def let_in(self, address, since):
        """Counts one more accepted frame of this member, which the daemon reads in this second or later."""
        self.accepted[address] += 1
        self.seen[address] = since

    def says(self, *addresses):
        """Counts one more message to each of these members, or to all."""
        for address in addresses or self.said:
            self.said[address] += 1

    def sent_and_failed(self, address, told):
        """Returns the two counters of a member. Every IPv4 loopback address can send to every other. From a loopback
        address in IPv4 the system sends to no other IPv4 address; if either address is of IPv6, that depends on the
        machine.
        """
        reaches = address.startswith("127.")
        if not reaches and ":" in self.station.address + address and sum(map(int, told)) == self.said[address]:
            return " ".join(told)
        return f"{self.said[address]} 0" if reaches else f"0 {self.said[address]}"

    def peers_due(self, text):
        """Returns the text of the list of members, with those seconds that another text has."""
        lines = ["dropped " + " ".join(map(str, self.drops))]
        told = [line.split()[2:] for line in text.decode(errors="replace").split("\n")[1:]]
        told = [words if all(map(str.isdecimal, words)) else [] for words in told]
        for (role, address), words in itertools.zip_longest(self.others, told[: len(self.others)]):
            # (the daemon read it between that second and this one)
            first = self.seen[address]
            is_near = words and first and first <= int(words[0]) <= time.time()
            seconds = words[0] if is_near else first
            ends = self.sent_and_failed(address, words[2:] if words else [])
            lines.append(f"{role} {address} {seconds} {self.accepted[address]} {ends}")
        return "".join(line + "\n" for line in lines).encode()


class Shown:
    """The holder that a daemon must list for a ticket that it has not granted itself."""

    def __init__(self):
        self.owner, self.first, self.valid_for = "none", 0, 0

    def hears(self, station, parts, since):
        """Updates the holder for an accepted message, by "What members send" in docs/PROTOCOL.md, while the daemon
        votes for nobody.
        """
        leader, _, seconds = (int.from_bytes(parts.body[at : at + 4], "big") for at in (64, 68, 72))
        owner, sender = station.member(leader), station.member(parts.head.sender)
        tells = parts.letters in TELL_STATE and owner not in (None, station.address)
        if tells and seconds:
            self.owner = owner
            self.first, self.valid_for = since + seconds, seconds
        gives_up = parts.letters == "Revk" and parts.head.reason != frames.code("Splt")
        if gives_up and self.owner == sender:
            self.__init__()

    def copy(self):
        return copy.copy(self)

    def seconds(self, came):
        """Returns the remaining seconds of the lease: those in the text that arrived, if they are possible."""
        # (the message arrived in that second or later, and a started second counts as a whole one)
        least = self.first - time.time()
        return came if self.first and least <= came <= self.valid_for else self.valid_for

    def line(self, ticket, came):
        """Returns the line of a list, with the second that another line has, if that is possible."""
        words = came.split()[2:3]
        last = time.time() + self.valid_for
        is_near = self.first and words and words[0].isdigit() and self.first <= int(words[0]) <= last
        end = int(words[0]) if is_near else self.first
        return b"%s %s %d\n" % (ticket, self.owner.encode(), end)


def is_answered(parts):
    """Returns whether the sender of an accepted message is answered, while the daemon agrees to nothing."""
    number = parts.head.options
    return parts.letters == "Stat" or (parts.letters, number != 0) in (("RVot", False), ("HrtB", True))


class Served:
    """The expected state of a daemon that serves."""

    def __init__(self, server, station):
        self.server = server
        self.station = station
        self.counts = Counts(station)
        self.shown = [Shown() for _ in station.tickets]
        # the tickets that clients have granted, each in its first term
        self.asked = set()
        # the attributes of each ticket, by the ticket's name
        self.attributes = {ticket: {} for ticket in station.tickets}

    def lists_due(self):
        """Returns the expected list for a list that arrived."""
        tickets = [(ticket, shown.copy()) for ticket, shown in zip(self.station.tickets, self.shown)]

        def due(text):
            lines = text.split(b"\n")
            lines += [b""] * len(tickets)
            return b"".join(shown.line(ticket, line) for (ticket, shown), line in zip(tickets, lines))

        return due

    def stands_due(self, body):
        """Returns the result and the body of an answer about a ticket's state; a function returns the expected body."""
        ticket = body[:64].rstrip(b"\0")
        if ticket not in self.station.tickets:
            return NOT_HERE, body[:64] + frames.numbers(frames.NO_ONE, 0, 0)
        shown = self.shown[self.station.tickets.index(ticket)].copy()
        leader = frames.NO_ONE if shown.owner == "none" else frames.member_id(shown.owner)

        def due(came):
            return body[:64] + frames.numbers(leader, 0, shown.seconds(int.from_bytes(came[72:76], "big")))

        return 0, due

    def hears(self, parts, since):
        """Checks that a member's frame is accepted."""
        sender = self.station.member(parts.head.sender)
        self.counts.let_in(sender, since)
        self.shown[self.station.tickets.index(parts.body[:64].rstrip(b"\0"))].hears(self.station, parts, since)
        if is_answered(parts):
            self.counts.says(sender)

    def ticket_answer(self, letters, body):
        """Returns the answer to a grant or a revocation, if no other member is known to hold."""
        ticket = body[:64].rstrip(b"\0")
        if ticket not in self.station.tickets:
            return NOT_HERE, body[:64] + frames.numbers(frames.NO_ONE, 0, 0)
        term = 1 if ticket in self.asked else 0
        result = "Busy" if term else "Tidl"
        if letters == "CGnt" and not self.station.is_site:
            result = "IArg"
        elif letters == "CGnt" and not term:
            result, term = "Asyn", 1
            self.asked.add(ticket)
            self.counts.says()
        return frames.code(result), body[:64] + frames.numbers(frames.NO_ONE, term, 0)

    def attribute_answer(self, letters, body):
        """Returns the answer to a request about an attribute. A name that is set again keeps its place."""
        ticket, name, value = (field.rstrip(b"\0") for field in (body[:64], body[64:128], body[128:]))
        if not self.station.is_site or ticket not in self.attributes:
            return NOT_HERE, b"" if letters == "ALst" else body
        pairs = self.attributes[ticket]
        if letters == "ALst":
            return 0, b"".join(b"%s %s\n" % pair for pair in pairs.items())
        if letters == "ASet":
            if name not in pairs and len(pairs) == NAMES:
                return frames.code("Busy"), body
            pairs[name] = value
            return 0, body
        if name not in pairs:
            return frames.code("NAtr"), body
        if letters == "ADel":
            del pairs[name]
            return 0, body
        return 0, body[:128] + frames.field(pairs[name], 128)

    def answer(self, letters, body):
        """Returns the result and the body, in the form of Asker.takes, that answer a request with this command."""
        if letters == "CLst":
            return 0, self.lists_due()
        if letters == "CTkt":
            return self.stands_due(body)
        if letters == "Peer":
            return 0, self.counts.copy().peers_due
        if letters in ("CGnt", "CRvk"):
            return self.ticket_answer(letters, body)
        return self.attribute_answer(letters, body)


class Room:
    """The program, a folder for its files, and addresses for its daemons."""

    def __init__(self, program, folder):
        self.program = program
        self.folder = folder
        self.addresses = own_addresses()
        self.address = next(self.addresses)
        self.numbers = itertools.count(1)

    def file(self, text, name="booth.conf"):
        path = os.path.join(self.folder, name)
        with open(path, "wb") as file:
            file.write(text)
        return path

    def station(self, **fields):
        """Returns the daemon to which most checks send requests."""
        return Station(self.address, **fields)

    def configuration(self, station):
        """Returns a configuration with these values."""
        lines = [b'ticket = "%s"' % ticket for ticket in station.tickets]
        others = (b'%s = "%s"' % (role.encode(), who.encode()) for role, who in station.others)
        lines[:0] = [b'site = "%s"' % station.address.encode(), *others]
        if station.port != frames.PORT:
            lines.append(b"port = %d" % station.port)
        if station.key is not None:
            lines.append(b"authfile = " + self.file(station.key, "key").encode())
        return b"\n".join(lines)

    @contextlib.contextmanager
    def serving(self, station=None, text=None, options=None):
        """Yields a daemon with this file and these additional options, which prints nothing while it serves. Without
        options it has its own lock and directory, without a record.
        """
        station = station or self.station()
        options = self.own_places(f"places-{next(self.numbers)}") if options is None else options
        path = self.file(self.configuration(station) if text is None else text)
        where = station.address, station.port
        server = boothd(self.program, path, *where, station.key, options)
        try:
            with server:
                yield Served(server, station)
        except NotServing as why:
            raise Wrong(why) from None
        said = server.said()
        need(not said, f"a daemon that was to serve printed {said}")

    def own_places(self, name):
        """Returns the options of a daemon with its own lock and directory."""
        return ["-l", f"{self.folder}/{name}.lock", "-d", f"{self.folder}/{name}"]

    def words(self, path, address=None):
        return ["daemon", "-c", path, "-s", address or self.address]

    def ended(self, words):
        """Returns the status, standard output and standard error of a run that ends by itself."""
        quiet = {**os.environ, "BOOTH_LOG": "off"}
        how = {"stdin": subprocess.DEVNULL, "capture_output": True, "timeout": SECONDS_TO_END, "env": quiet}
        try:
            ran = subprocess.run([self.program, *words], **how)
        except subprocess.TimeoutExpired:
            raise Wrong(f"a run with {words} did not end") from None
        return ran.returncode, ran.stdout, ran.stderr

    def refuses(self, words, said, what=None):
        """Checks that a run with these arguments has status 1, and prints this on standard error. At most one line with
        its cause may come before, for a file that cannot be opened, locked or read; tests/causes.py checks that line.
        """
        status, out, err = self.ended(words)
        due = re.escape(b"boothd: " + said + b"\n") + rb"(boothd: [ -~]+\n)?"
        if said.startswith(NOT_HAD):
            due = rb"boothd: [^\n]+: [^\n]+\n" + due
        is_refused = status == 1 and not out and re.fullmatch(due, err)
        need(is_refused, f"{what or words} gave {status}, {out} and {err}, and not {due}")


def begun_second():
    """Returns the current second, when it has also begun for a clock that is slightly behind, and when enough of it is
    left for datagrams and their answers.
    """
    part = time.time() % 1
    if part > 0.7:
        time.sleep(1.05 - part)
    elif part < 0.05:
        time.sleep(0.05 - part)
    return int(time.time())


class Asker:
    """A client's socket, connected to one daemon."""

    def __init__(self, daemon, address=None):
        station = daemon.station
        self.daemon, self.station, self.key = daemon, station, station.key
        is_v6 = ":" in station.address
        self.socket = socket.socket(socket.AF_INET6 if is_v6 else socket.AF_INET, socket.SOCK_DGRAM)
        self.socket.bind((address or ("::1" if is_v6 else "127.0.0.1"), 0))
        self.numbers = itertools.count(1_000_000)

    def __enter__(self):
        return self

    def __exit__(self, *_):
        self.socket.close()

    def send(self, datagram):
        self.socket.sendto(datagram, (self.station.address, self.station.port))

    def receive(self, seconds=SECONDS_TO_ANSWER):
        """Returns the next datagram, or None if none arrives in time."""
        self.socket.settimeout(seconds)
        try:
            came, sender = self.socket.recvfrom(MOST_UDP_BYTES)
        except socket.timeout:
            return None
        who = (self.station.address, self.station.port)
        need(sender[:2] == who, f"a datagram came from {sender}")
        return came

    def takes(self, letters, request, body=b"", result=0, what="a request"):
        """Checks that the next datagram answers this request with this command and this body, or with the body that a
        function returns for the text that arrived. Returns the daemon's clock in it, in ms.
        """
        came = self.receive()
        need(came is not None, f"{what} has no reply")
        need(len(came) >= frames.HEAD_BYTES, f"{what} is answered by {shown(came)}")
        clock = Head.read(came)
        if callable(body):
            end = len(came) - (frames.AUTH_BYTES if self.key else 0)
            body = body(came[frames.HEAD_BYTES : end])
        address = self.station.address
        due = frames.reply_due(letters, request, address, body, self.key, result, clock=clock)
        need(came == due, f"{what} is answered by {shown(came)}, and not {shown(due)}")
        is_whole = clock.usecs < 1_000_000 and clock.usecs % 1000 == 0
        need(is_whole, f"{what} is answered with usecs {clock.usecs}")
        return clock.millis()

    def asks(self, letters, body=b"", what=None, request=None, **fields):
        """Checks that a request has the expected answer, with the daemon's current clock."""
        what = what or letters
        request = next(self.numbers) if request is None else request
        before = time.time_ns() // 1_000_000
        self.send(request_now(letters, request, body, self.key, **fields))
        result, due = self.daemon.answer(letters, body)
        clock = self.takes(letters, request, due, result, what)
        after = time.time_ns() // 1_000_000
        # (the daemon's clock is the sum of the time since the boot and an offset, each in whole milliseconds)
        is_now = before - 1 <= clock <= after + 1
        need(is_now, f"{what} is answered at {clock}, outside {before} to {after}")

    def is_dropped(self, datagram, kind, what):
        """Checks that this datagram has no reply, and raises only this counter, by one."""
        self.send(datagram)
        self.daemon.counts.drops[kind] += 1
        self.asks("Peer", what=f"Peer after {what}")

    def is_heard(self, datagram, what):
        """Checks that this datagram of a member has no reply here, is counted, and reaches its ticket."""
        since = begun_second()
        self.send(datagram)
        self.daemon.hears(gate.split(datagram), since)
        self.asks("Peer", what=f"Peer after {what}")
        self.asks("CLst", what=f"CLst after {what}")
        self.asks("CTkt", gate.split(datagram).body, what=f"CTkt after {what}")

    def meets(self, datagrams):
        """Checks that each of these datagrams is dropped, counted or answered as tests/gate.py says."""
        since, counts, answers = begun_second(), self.daemon.counts, []
        for datagram in datagrams:
            self.send(datagram)
            found = gate.verdict(self.station, datagram, since)
            if isinstance(found, int):
                counts.drops[found] += 1
            elif found.letters in frames.ANSWER_TO:
                answer = self.daemon.answer(found.letters, found.body)
                answers.append((found, answer, shown(datagram)))
            else:
                self.daemon.hears(found, since)
        for found, (result, due), what in answers:
            self.takes(found.letters, found.head.request, due, result, what)
        self.asks("Peer", what="Peer after " + ", ".join(map(shown, datagrams)))

    def is_quiet(self):
        came = self.receive(seconds=0.05)
        need(came is None, f"a datagram came unasked: {came}")
