"""Plays a cluster of three members in simulated time: two sites and an arbitrator, all three run by the proved driver.

It is imported by the tests of schedules, and not run by itself. All members have the same exact clock. A member acts at
once when a message arrives, when a client asks it, and at its deadline. A message takes DELAY ms, unless a test sets
another delay. It is lost if sender and receiver are cut off from one another, or if the receiver is stopped. A member
that starts again has the record that it wrote last. The records show who holds the ticket.
"""

import heapq
from typing import Callable, Dict, Iterator, List, NamedTuple, Optional, Tuple

import rule_words
from row_driver import Session, Trouble
from row_ticket import Keep, Send, port_of, printed_act
from rule_words import Message, Record, Seat

MEMBERS = ("S1", "S2", "AR")
SITES = MEMBERS[:2]
# how long a message takes, in ms
DELAY = 1
CLIENT = 77
NOTHING = Record(2, 0)


class Kept(NamedTuple):
    """A record that a member wrote, and when, in ms."""

    time: int
    member: str
    record: Record


class Ticket:
    """The ticket at one member, as the proved driver plays it."""

    def __init__(self, seat: Seat, program: str) -> None:
        self.seat = seat
        self.session = Session("ticket", program)
        self.record = NOTHING
        self.is_up = False
        self.deadline: Optional[int] = None

    def start(self, now: int) -> None:
        """Starts the member from its record."""
        self.session.say(f"open 0 {rule_words.start(now, self.seat, self.record)}")
        self.is_up = True
        self.look(now)

    def stop(self) -> None:
        """Stops the member. Its record stays."""
        self.is_up = False
        self.deadline = None

    def look(self, now: int) -> None:
        """Reads the deadline."""
        due = self.session.say(f"look {now}").split(" ")[1]
        self.deadline = None if due == "-" else int(due)

    def call(self, now: int, name: str, given: str) -> List[object]:
        """Makes a call, and returns its actions."""
        answer = self.session.say(f"{name} {now} 1 - 0 0 0{given}")
        self.look(now)
        return [printed_act(line) for line in answer.split("\n") if line]


class Cluster:
    """The three members, the messages on their way between them, and the records that they wrote."""

    def __init__(self, program: str, is_steady: bool, renewal: int, delay: Callable[[], int] = lambda: DELAY) -> None:
        seats = [rule_words.seat_of(place, len(MEMBERS), is_steady)._replace(renewal=renewal) for place in range(3)]
        self.tickets = {name: Ticket(seat, program) for name, seat in zip(MEMBERS, seats)}
        self.now = 0
        self.delay = delay
        self.cuts: Dict[Tuple[str, str], bool] = {}
        self.events: List[Tuple[int, int, Callable[[], None]]] = []
        self.count = 0
        self.kept: List[Kept] = []

    # ---- what may happen

    def start(self, name: str) -> None:
        """Starts a member."""
        self.tickets[name].start(self.now)

    def stop(self, name: str) -> None:
        """Stops a member."""
        self.tickets[name].stop()

    def cut(self, one: str, other: str, is_cut: bool = True) -> None:
        """Cuts two members off from one another, or connects them again."""
        self.cuts[one, other] = self.cuts[other, one] = is_cut

    def ask(self, name: str, word: str) -> None:
        """Sends a client's request to a member: `grant` or `revoke`."""
        if self.tickets[name].is_up:
            self.call(name, word, f" {port_of(CLIENT)} {CLIENT} 0")

    # ---- time

    def at(self, time: int, event: Callable[[], None]) -> None:
        """Adds an event at this time."""
        self.count += 1
        heapq.heappush(self.events, (time, self.count, event))

    def run_to(self, end: int) -> None:
        """Plays all events and deadlines until this time."""
        while True:
            due = min((each.deadline, name) for name, each in self.due())[:2] if any(self.due()) else None
            first = self.events[0][0] if self.events else None
            if due is not None and max(due[0], self.now) <= end and (first is None or due[0] < first):
                self.now = max(due[0], self.now)
                self.call(due[1], "due", "")
            elif first is not None and first <= end:
                self.now = max(first, self.now)
                heapq.heappop(self.events)[2]()
            else:
                self.now = end
                return

    def due(self) -> Iterator[Tuple[str, Ticket]]:
        """Returns the members that have a deadline."""
        return ((name, each) for name, each in self.tickets.items() if each.deadline is not None)

    def call(self, name: str, word: str, given: str) -> None:
        """Makes a call of a member, writes its record, and sends its messages."""
        ticket = self.tickets[name]
        for act in ticket.call(self.now, word, given):
            if isinstance(act, Keep):
                ticket.record = act.record
                self.kept.append(Kept(self.now, name, act.record))
            elif isinstance(act, Send) and act.place is not None:
                self.send(name, MEMBERS[act.place], act.message)

    def send(self, sender: str, receiver: str, message: Message) -> None:
        """Sends a message, unless the two members are cut off from one another."""
        def arrives() -> None:
            if self.tickets[receiver].is_up and not self.cuts.get((sender, receiver)):
                self.call(receiver, "hear", f" {MEMBERS.index(sender)} {message.words()}")

        if not self.cuts.get((sender, receiver)):
            self.at(self.now + self.delay(), arrives)

    def end(self) -> None:
        """Ends the drivers."""
        for each in self.tickets.values():
            each.session.end()


# ---- who held the ticket


class Holding(NamedTuple):
    """A time in which a site holds the ticket, in ms."""

    site: str
    begin: int
    end: int


def holdings(kept: List[Kept]) -> List[Holding]:
    """Returns who held the ticket by the records: from a lease's write to its end, or to the site's next record."""
    held = []
    for site in SITES:
        own = [each for each in kept if each.member == site]
        for place, each in enumerate(own):
            until = each.record.lease_until
            after = own[place + 1].time if place + 1 < len(own) else None
            if until is not None and until > each.time:
                held.append(Holding(site, each.time, until if after is None else min(until, after)))
    return sorted((each for each in held if each.begin < each.end), key=lambda each: (each.begin, each.end))


def spans(held: List[Holding]) -> List[Holding]:
    """Returns the holdings, and joins successive holdings of the same site into one. Raises `Trouble` if two sites held
    the ticket at the same time.
    """
    joined: List[Holding] = []
    for each in held:
        last = joined[-1] if joined else None
        if last is not None and each.begin < last.end and each.site != last.site:
            raise Trouble(f"two sites hold the ticket at {each.begin} ms: {last} and {each}")
        if last is not None and each.site == last.site and each.begin <= last.end:
            joined[-1] = last._replace(end=max(last.end, each.end))
        else:
            joined.append(each)
    return joined
