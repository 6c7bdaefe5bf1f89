"""One look at all members: asks all of them for list and peers at once, and ends within a time limit.

It is imported by booth-status and the tests, and not run by itself. It ignores datagrams that are not answers.
"""

import errno
import os
import secrets
import selectors
import socket
import time
from typing import List, NamedTuple, Optional

import frames
import lists
from configuration import Member

# the two requests
LIST, PEERS = "CLst", "Peer"
# the request of each answer's command
ASKED = {frames.code(frames.ANSWER_TO[letters]): letters for letters in (LIST, PEERS)}
# how often a request is sent in a look, because datagrams may be lost
TRIES = 4

# how a member answered
ANSWERS, PARTLY, SILENT, NO_DAEMON, UNREACHABLE, BAD = "answers", "partly", "silent", "no-daemon", "unreachable", "bad"


class Answer(NamedTuple):
    """The answers of one member. `held` and `counts` are `None` if that answer is missing.

    `why` is the cause of a failure. `clock` is the member's clock, in seconds since 1970, and `ahead` is how far it is
    ahead of this machine's. `took` is how long the first answer took. The three are `None` without an answer.
    """

    member: Member
    state: str
    why: str = ""
    held: Optional[List[lists.Held]] = None
    counts: Optional[lists.Counts] = None
    clock: Optional[float] = None
    ahead: Optional[float] = None
    took: Optional[float] = None


class Asking:
    """The requests to one member. Each request has a random number, which nobody can guess."""

    def __init__(self, member, port, key):
        self.member = member
        self.key = key
        # the received parts of each requested list, by the number of the request
        self.lists = {}
        self.wanted = {LIST, PEERS}
        self.came = {}
        self.times = {}
        self.state = SILENT
        self.why = ""
        self.sent = None
        family = socket.AF_INET6 if ":" in member.address else socket.AF_INET
        self.socket = socket.socket(family, socket.SOCK_DGRAM)
        self.socket.setblocking(False)
        self.socket.setsockopt(socket.SOL_SOCKET, socket.SO_RCVBUF, lists.ROOM)
        # (connected, so that only this member's datagrams are received, and the system reports if nobody listens)
        self.attempt(lambda: self.socket.connect((member.address, port)))

    def attempt(self, call):
        """Returns the result of a call. An error of the system ends the requests to this member."""
        try:
            return call()
        except BlockingIOError:
            return None
        except OSError as why:
            refused = why.errno == errno.ECONNREFUSED
            self.state, self.why = NO_DAEMON if refused else UNREACHABLE, os.strerror(why.errno)
            self.wanted = set()
            return None

    def send(self):
        """Sends the requests that have no answer yet."""
        self.sent = time.time()
        number = secrets.randbits(32)
        self.lists[number] = lists.Parts()
        for letters in sorted(self.wanted):
            request = frames.request_now(letters, number, key=self.key)
            self.attempt(lambda request=request: self.socket.send(request))

    def take_all(self):
        """Handles each datagram that has arrived."""
        while self.wanted:
            datagram = self.attempt(lambda: self.socket.recv(frames.FRAME_BYTES + 1))
            if datagram is None:
                return
            self.take(datagram, time.time())

    def take(self, datagram, now):
        """Handles the answer to one of the requests, and ignores any other datagram."""
        head = frames.Head.read(datagram.ljust(frames.HEAD_BYTES, b"\0"))
        letters = ASKED.get(head.cmd)
        is_short = len(datagram) < frames.HEAD_BYTES
        if not is_short and (letters not in self.wanted or head.request not in self.lists):
            return
        try:
            if self.key and not is_short and not head.opts & frames.AUTH:
                raise lists.BadReply("it has no MAC, so that member has no key")
            head, body = lists.read_reply(datagram, letters or LIST, head.request, self.member.address, self.key)
            body = self.listed(head, body) if letters == LIST else body
            if body is None:
                return
            self.came[letters] = (lists.held_in if letters == LIST else lists.counts_in)(body)
        except lists.BadReply as why:
            self.state, self.why = BAD, str(why)
            return
        self.times.setdefault("took", now - self.sent)
        self.times.setdefault("clock", head.millis() / 1000)
        # (assumes that the member read its clock in the middle of that time)
        self.times.setdefault("ahead", head.millis() / 1000 - (now + self.sent) / 2)
        self.wanted.discard(letters)

    def listed(self, head, body):
        """Returns the text of the list when this part completes it, or `None`."""
        parts = self.lists[head.request]
        parts.take(head, body)
        return parts.text()

    def answer(self):
        """Returns all that this member answered."""
        if len(self.came) == 2:
            self.state, self.why = ANSWERS, ""
        elif self.came:
            missing = "list" if PEERS in self.came else "peers"
            self.state, self.why = PARTLY, self.why or f"no answer to {missing}"
        return Answer(self.member, self.state, self.why, self.came.get(LIST), self.came.get(PEERS), **self.times)


def unopened(member, why):
    """Returns the answer for a member for which this machine could open no socket."""
    return Answer(member, UNREACHABLE, os.strerror(why.errno))


def look(configuration, key, seconds):
    """Returns an answer for each member, in their order, after at most so many seconds."""
    started = time.monotonic()
    askings, answers = [], {}
    with selectors.DefaultSelector() as selector:
        for member in configuration.members:
            try:
                asking = Asking(member, configuration.port, key)
            except OSError as why:
                answers[member] = unopened(member, why)
                continue
            askings.append(asking)
            selector.register(asking.socket, selectors.EVENT_READ, asking)
        ask_all(askings, selector, started, seconds)
    for asking in askings:
        asking.socket.close()
        answers[asking.member] = asking.answer()
    return [answers[member] for member in configuration.members]


def ask_all(askings, selector, started, seconds):
    """Sends the requests of all members several times, and handles the answers."""
    for turn in range(TRIES):
        for asking in askings:
            if asking.wanted:
                asking.send()
        until = started + seconds * (turn + 1) / TRIES
        while any(asking.wanted for asking in askings):
            # (datagrams that have arrived are handled even after the time: this process itself may have been delayed)
            left = until - time.monotonic()
            for ready, _ in selector.select(max(0, left)):
                ready.data.take_all()
                if not ready.data.wanted:
                    selector.unregister(ready.fileobj)
            if left <= 0:
                break
