"""A cluster of real daemons on loopback: each has an address, a lock and a directory of its own.

It is imported by tools/demo.py, tests/cluster.py and tests/hostile.py, and not run by itself. It reads who holds a
ticket from the members' record files and the clock, and does not trust a daemon's own answer.
"""

import os
import socket
import subprocess
import threading
import time
from typing import NamedTuple, Optional

import frames
import lists
import record_file
from serving import NotServing, boothd

TICKET = b"ticket-db8"
# a ticket that is granted manually, in a cluster that has one
MANUAL = b"by-hand"

# (for a running daemon; if no daemon listens, the system reports this at once)
SECONDS_TO_ANSWER = 10
# how long booth may take: it waits 5 seconds for an answer, and again if it is sent on to another member
SECONDS_OF_BOOTH = 15
SECONDS_BETWEEN_LOOKS = 0.01


class Times(NamedTuple):
    """The times of the cluster's ticket, in seconds. They leave room for a renewal on a busy machine."""

    expire: int = 8
    timeout: int = 1
    retries: int = 3
    renewal: int = 5

    def guard(self):
        """Returns how much longer than a lease other members wait, because clocks drift."""
        return (2 + 2 * self.expire * 1_000_000 // 999_000) / 1000

    def abstention(self):
        """Returns how long a member that started without a record votes in no election."""
        return self.expire + self.guard()

    def text(self):
        """Returns the settings in the form of the configuration."""
        names = ("expire", "timeout", "retries", "renewal-freq")
        return "".join(f"{name} = {value}\n" for name, value in zip(names, self))


class Record(NamedTuple):
    """A record on disk. `until` is the lease's end in seconds since 1970, or `None` without a lease."""

    term: int
    until: Optional[float]

    def holds(self, moment):
        return self.until is not None and moment < self.until


def now():
    """Returns the time by this machine's clock, which every member of the cluster reads."""
    return time.time()


class Answer(NamedTuple):
    """A daemon's answer to a client: the letters of the result, or `ok`, and the body."""

    result: str
    body: bytes


class Ran(NamedTuple):
    """The exit status of a client, and what it printed on standard output and on standard error."""

    status: int
    printed: str
    said: str


def run_booth(client, conf, words):
    """Runs a client, booth or geostore, with this configuration."""
    streams = {"stdin": subprocess.DEVNULL, "capture_output": True, "text": True}
    done = subprocess.run([client, *words, "-c", conf], timeout=SECONDS_OF_BOOTH, **streams)
    return Ran(done.returncode, done.stdout, done.stderr)


def letters_of(number):
    return number.to_bytes(4, "big").decode("ascii") if number else "ok"


def path_in(directory, ticket):
    """Returns the path of a ticket's record."""
    return os.path.join(directory, ticket.hex() + ".rec")


def remember(directory, tickets):
    """Makes a directory with a record of version 2 of each ticket, so a member that starts from it votes at once."""
    os.makedirs(directory, mode=0o700, exist_ok=True)
    for ticket in tickets:
        with open(path_in(directory, ticket), "wb") as file:
            file.write(record_file.NOTHING_PLEDGED)


class Member:
    """One daemon of the cluster, running or not.

    It prints its log if `logs` is set before it starts, and writes a journal if `journals` is set.
    """

    logs = False
    journals = False
    prepare = None

    def __init__(self, role, address, folder, key=None, client=None, geostore=None):
        self.role = role
        self.address = address
        self.folder = folder
        self.key = key
        self.client = client
        self.store = geostore
        self.conf = None
        # all configurations that it was started with
        self.confs = set()
        self.server = None
        self.records = os.path.join(folder, "records")
        self.journal = os.path.join(folder, "journal")
        os.makedirs(folder)

    def start(self, program, conf):
        """Starts the daemon, and waits for its first answer."""
        places = ("-l", os.path.join(self.folder, "lock"), "-d", self.records)
        server = boothd(program, conf, self.address, key=self.key, options=places)
        server.logs = self.logs
        server.journal = self.journal if self.journals else None
        server.prepare = self.prepare
        server.__enter__()
        self.server = server
        self.conf = conf
        self.confs.add(conf)

    def is_running(self):
        return self.server is not None and self.server.process.poll() is None

    def kill(self):
        """Ends the daemon as a crash does, with SIGKILL."""
        if self.server is not None:
            self.server.end()
            self.server = None

    def printed(self):
        """Returns what the running daemon has printed."""
        return self.server.said() if self.server else b""

    def record_path(self, ticket=TICKET):
        return path_in(self.records, ticket)

    def record(self, ticket=TICKET):
        """Returns the ticket's record on disk, or `None` if there is none."""
        try:
            with open(self.record_path(ticket), "rb") as file:
                slot = record_file.in_force(record_file.slots_in(file.read(record_file.FILE_BYTES)))
        except OSError:
            return None
        if slot is None:
            return None
        lease = slot.record.lease
        return Record(slot.record.term, lease.until / 1000 if lease else None)

    def booth(self, *words):
        """Runs booth against this daemon, with the daemon's configuration."""
        return run_booth(self.client, self.conf, [*words, "-s", self.address])

    def geostore(self, command, *words, ticket=TICKET):
        """Runs geostore against this daemon, for the attributes of a ticket."""
        words = [command, "-t", ticket.decode(), *words]
        return run_booth(self.store, self.conf, [*words, "-s", self.address])

    def ask(self, letters, body=b""):
        """Returns the daemon's answer to this request, or `None` if it does not answer in time."""
        number = time.time_ns() // 1000 % 2**32
        family = socket.AF_INET6 if ":" in self.address else socket.AF_INET
        parts = lists.Parts()
        with socket.socket(family, socket.SOCK_DGRAM) as asker:
            asker.settimeout(SECONDS_TO_ANSWER)
            asker.setsockopt(socket.SOL_SOCKET, socket.SO_RCVBUF, lists.ROOM)
            asker.connect((self.address, frames.PORT))
            try:
                asker.send(frames.request_now(letters, number, body, self.key))
                while parts.text() is None:
                    came = asker.recv(frames.FRAME_BYTES)
                    head = frames.Head.read(came)
                    end = len(came) - (frames.AUTH_BYTES if self.key else 0)
                    if (head.request, head.cmd) != (number, frames.code(frames.ANSWER_TO[letters])):
                        return None
                    parts.take(head, came[frames.HEAD_BYTES : end])
            except OSError:
                return None
        return Answer(letters_of(head.result), parts.text())

    def about(self, letters, ticket=TICKET):
        """Returns the result of a client's request about a ticket, for example a grant."""
        answer = self.ask(letters, frames.ticket_body(ticket, frames.NO_ONE, 0, 0))
        return answer and answer.result

    def shown(self, ticket=TICKET):
        """Returns the owner's address in this member's list, or `None` if the list has none."""
        answer = self.ask("CLst")
        lines = answer.body.split(b"\n") if answer else []
        for line in lines:
            name, _, rest = line.partition(b" ")
            if name == ticket:
                owner = rest.split(b" ")[0].decode()
                return None if owner == "none" else owner
        return None

    def counts(self):
        """Returns the daemon's counters: the drops by kind, and (received, sent, errors) by address."""
        answer = self.ask("Peer")
        if answer is None:
            raise NotServing(f"{self.address} does not answer with its counters")
        first, *others = answer.body.decode().splitlines()
        by_address = {}
        for line in others:
            _, address, _, *numbers = line.split()
            by_address[address] = tuple(map(int, numbers))
        return list(map(int, first.split()[1:])), by_address


class Watch(threading.Thread):
    """Looks at the records repeatedly, and notes each time at which two members held a lease."""

    def __init__(self, members):
        super().__init__(daemon=True)
        self.members = members
        self.wrong = []
        self.looks = 0
        self.ended = threading.Event()

    def holders(self):
        """Returns the holders, from records that were equal at two looks, and so were in force between them."""
        before = [member.record() for member in self.members]
        moment = now()
        after = [member.record() for member in self.members]
        return [
            member.address
            for member, first, last in zip(self.members, before, after)
            if first is not None and first == last and first.holds(moment)
        ]

    def run(self):
        while not self.ended.wait(SECONDS_BETWEEN_LOOKS):
            holders = self.holders()
            self.looks += 1
            if len(holders) > 1:
                self.wrong.append((now(), holders))

    def is_looking(self):
        """Returns whether it has looked and still looks. (After a failed look the thread has ended.)"""
        return self.looks > 0 and self.is_alive()

    def end(self):
        self.ended.set()
        self.join()


class Cluster:
    """Two sites and an arbitrator with one configuration. They are killed when the `with` block ends.

    `settings` are lines of the configuration for each ticket, after its times. The tickets in `manual` are manual, and
    have the lines `by_hand`.
    """

    def __init__(
        self,
        program,
        folder,
        addresses,
        times=Times(),
        key=None,
        tickets=(TICKET,),
        client=None,
        geostore=None,
        settings="",
        manual=(),
        by_hand="",
    ):
        self.program = program
        self.client = client
        self.folder = folder
        self.settings = settings
        self.times = times
        self.key = key
        self.tickets = tickets
        self.manual = manual
        self.by_hand = by_hand
        roles = ("site", "site", "arbitrator")
        self.members = [
            Member(role, address, os.path.join(folder, address), key, client, geostore)
            for role, address in zip(roles, addresses)
        ]
        self.conf = self.file("booth.conf", key)

    def file(self, name, key):
        """Writes a configuration of this cluster with this key or ring, and returns its path."""
        text = "".join(f'{member.role} = "{member.address}"\n' for member in self.members)
        if key is not None:
            text += self.key_lines(name, frames.ring_of(key))
        text += "".join(f'ticket = "{name.decode()}"\n{self.times.text()}{self.settings}' for name in self.tickets)
        text += "".join(f'ticket = "{name.decode()}"\nmode = manual\n{self.by_hand}' for name in self.manual)
        path = os.path.join(self.folder, name)
        with open(path, "w", encoding="ascii") as file:
            file.write(text)
        return path

    def key_lines(self, name, ring):
        """Writes the key files of a ring, and returns the lines that name them."""
        lines = "" if ring.hash == "sha1" else f"authhash = {ring.hash}\n"
        for word, key in zip(("authfile", "authfile-old"), ring.keys()):
            path = os.path.join(self.folder, f"{name}.{word}")
            with open(path, "wb") as file:
                file.write(key)
            lines += f'{word} = "{path}"\n'
        return lines

    def start(self, *places):
        for place in places or range(len(self.members)):
            self.members[place].start(self.program, self.conf)

    def remember(self):
        """Gives each member a record of version 2 of each automatic ticket, before it starts."""
        for member in self.members:
            remember(member.records, self.tickets)

    def __enter__(self):
        self.watch = Watch(self.members)
        self.watch.start()
        return self

    def __exit__(self, *_):
        for member in self.members:
            member.kill()
        self.watch.end()

    def shown_by_all(self):
        """Returns the owner that every running member lists, or `None` if they differ or list none."""
        shown = {member.shown() for member in self.members if member.is_running()}
        return shown.pop() if len(shown) == 1 else None


def wait_for(what, seconds):
    """Returns the first true result of the function, or `None` if there is none within that many seconds."""
    end = time.monotonic() + seconds
    while time.monotonic() < end:
        found = what()
        if found:
            return found
        time.sleep(SECONDS_BETWEEN_LOOKS)
    return None

