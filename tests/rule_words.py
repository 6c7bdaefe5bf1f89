"""The form of the stories about the rules of tickets, and the form of the proved driver for them.

It is imported by the modules that play rows, and not run by itself. A message has nine numbers in the order of their
frame: sender, command, request, options, reason, result, leader, term and seconds. A record is its term, and then the
term and the end of its lease if it has one. Its pledges follow, in this order: `bound` and the member that it voted
for; `promise`, the member, the term and the end; `abstain` and the time until when it abstains. `first` precedes a
record of version 1.
"""

import os
import re
from typing import Callable, Dict, List, NamedTuple, Optional, Tuple

from frames import NO_ONE, code
from row_driver import Driver, Trouble, Unplayed

TOP = os.path.dirname(os.path.dirname(os.path.abspath(__file__)))

# the members of all stories: two sites and an arbitrator
MEMBERS = {"S1": 1, "S2": 2, "AR": 3, "none": NO_ONE}
TICKET = b"ticket-db8"
# the time between two renewals in ms, if a story names no other
RENEWAL = 300_000


def moment(word: str) -> int:
    """Returns a decimal number of 64 bits."""
    if not re.fullmatch("[0-9]+", word) or int(word) >= 1 << 64:
        raise Trouble(f"no number: {word}")
    return int(word)


def number(word: str) -> int:
    """Returns a member's id, the number of four letters, or a number of 32 bits."""
    if word in MEMBERS:
        return MEMBERS[word]
    if re.fullmatch("[A-Z][!-~]{3}", word):
        return code(word)
    if moment(word) >= 1 << 32:
        raise Trouble(f"no number of 32 bits: {word}")
    return moment(word)


def optional(word: str) -> Optional[int]:
    """Returns a number that the driver printed, or None for `-`."""
    return None if word == "-" else moment(word)


def dashed(value: Optional[int]) -> str:
    """Returns a number in the driver's form, or `-` for None."""
    return "-" if value is None else str(value)


def member_name(member: Optional[int]) -> str:
    """Returns the name of a member, or its number."""
    names = {member_id: name for name, member_id in MEMBERS.items()}
    return "none" if member is None else names.get(member, str(member))


def letters(value: int) -> str:
    """Returns the four letters of a number, if it spells four letters, otherwise the number."""
    spelled = value.to_bytes(4, "big")
    is_code = 65 <= spelled[0] <= 90 and all(33 <= byte <= 126 for byte in spelled)
    return spelled.decode() if is_code else str(value)


class Record(NamedTuple):
    """A record. A field that it does not have is None."""

    version: int
    term: int
    lease_term: Optional[int] = None
    lease_until: Optional[int] = None
    bound: Optional[int] = None
    promise_to: Optional[int] = None
    promise_term: Optional[int] = None
    promise_until: Optional[int] = None
    abstain: int = 0

    def words(self) -> str:
        """Returns the nine words of the driver's form."""
        return " ".join(dashed(field) for field in self)

    def __str__(self) -> str:
        text = {1: "first ", 2: ""}.get(self.version, f"version {self.version} ") + str(self.term)
        if self.lease_term is not None:
            text += f" {self.lease_term} {self.lease_until}"
        if self.bound is not None:
            text += f" bound {member_name(self.bound)}"
        if self.promise_to is not None:
            text += f" promise {member_name(self.promise_to)} {self.promise_term} {self.promise_until}"
        return text + (f" abstain {self.abstain}" if self.abstain else "")


RECORD = re.compile(
    r"(first )?(\d+)(?: (\d+) (\d+))?(?: bound (\S+))?(?: promise (\S+) (\d+) (\d+))?(?: abstain (\d+))?")


def record(text: str) -> Record:
    """Returns the record of a text."""
    found = RECORD.fullmatch(text)
    if found is None:
        raise Trouble(f"no record: {text}")
    first, term, *rest, abstain = found.groups()
    if first and any(rest[2:]):
        raise Trouble(f"a record of version 1 pledges nothing: {text}")
    fields = [None if word is None else number(word) if place not in (1, 5) else moment(word)
              for place, word in enumerate(rest)]
    return Record(1 if first else 2, number(term), *fields, moment(abstain or "0"))


def printed_record(words: List[str]) -> Record:
    """Returns the record that the driver printed as nine words."""
    if len(words) != len(Record._fields):
        raise Trouble(f"the driver printed no record: {words}")
    return Record(*(optional(word) for word in words))


class Message(NamedTuple):
    """A message of the ticket."""

    auth: int
    secs: int
    usecs: int
    sender: int
    command: int
    request: int
    options: int
    reason: int
    result: int
    leader: int
    term: int
    seconds: int
    ticket: bytes = TICKET

    def words(self) -> str:
        """Returns the twelve words of the driver's form."""
        return " ".join(str(field) for field in self[:12])

    def __str__(self) -> str:
        text = (f"{member_name(self.sender)} {letters(self.command)} {self.request} {self.options} "
                f"{letters(self.reason)} {letters(self.result)} {member_name(self.leader)} {self.term} {self.seconds}")
        known = (0, 0, 0, TICKET)
        given = (*self[:3], self.ticket)
        return text if given == known else f"{text} (auth {self.auth}, time {self.secs} {self.usecs}, {self.ticket!r})"


def message(text: str, auth: int = 0, secs: int = 0, usecs: int = 0) -> Message:
    """Returns the message of nine words."""
    words = text.split(" ")
    if len(words) != 9:
        raise Trouble(f"no message: {text}")
    return Message(auth, secs, usecs, *(number(word) for word in words))


def printed_message(words: List[str]) -> Message:
    """Returns the message that the driver printed: twelve numbers and the ticket's name in hexadecimal."""
    if len(words) != len(Message._fields):
        raise Trouble(f"the driver printed no message: {words}")
    return Message(*(moment(word) for word in words[:12]), bytes.fromhex(words[12]))


class Say(NamedTuple):
    """A rule's message: to the client, to all members, or to a set of members, which are the bits of a number."""

    whom: str
    message: Message

    def __str__(self) -> str:
        return f"{self.whom} {self.message}"


def say(text: str) -> Say:
    """Returns the message in a text."""
    whom, _, rest = text.partition(" ")
    if whom not in ("asker", "all"):
        moment(whom)
    return Say(whom, message(rest))


def printed_say(words: List[str]) -> Say:
    """Returns the message in a line of the driver."""
    return Say(words[0], printed_message(words[1:]))


class Seat(NamedTuple):
    """A member's place among the members of its cluster, whether it follows the steady rules, and the time between two
    renewals in ms.
    """

    place: int
    members: int
    is_site: bool = True
    rank: int = 0
    is_steady: bool = False
    renewal: int = RENEWAL

    def words(self) -> str:
        """Returns the driver's words."""
        seat = (self.place + 1, self.place, self.members, int(self.is_site), self.rank)
        return " ".join(map(str, (*seat, int(self.is_steady), self.renewal)))


def seat_of(place: int, members: int, is_steady: bool = False) -> Seat:
    """Returns the seat of a member of the stories: two sites, and arbitrators."""
    return Seat(place, members, place < 2, 1 if place == 1 else 0, is_steady)


def start(now: int, seat: Seat, kept: Optional[Record]) -> str:
    """Returns the driver's words of a start."""
    return f"{now} {seat.words()} {kept.words() if kept else '-'}"


class Story(NamedTuple):
    """A story: the lines of its head, the first of which is its sentence, and the blocks after them."""

    head: List[str]
    blocks: List[str]


def without_comment(text: str) -> str:
    """Returns a file of rows without the comment at its head, which it must have."""
    comment, _, rest = text.partition("\n\n")
    if not all(line.startswith("# ") or line == "#" for line in comment.split("\n")):
        raise Trouble("the file does not begin with a comment")
    return rest.rstrip("\n")


def stories(text: str) -> List[Story]:
    """Returns the stories of a file: each begins with `## `, and blank lines separate its blocks."""
    found = []
    for block in without_comment(text).split("\n\n"):
        if block.startswith("## "):
            found.append(Story(block[3:].split("\n"), []))
        elif found and block:
            found[-1].blocks.append(block)
        else:
            raise Trouble(f"no story has this block: {block}")
    if not found:
        raise Trouble("the file has no story")
    return found


def parts(folder: str) -> Dict[str, List[str]]:
    """Returns the parts that the stories of a folder share: the blocks of each part, by its name, which is followed by
    `: `.
    """
    with open(f"{TOP}/tests/rows/rules/{folder}/parts.txt", encoding="utf-8") as file:
        found = {}
        for part in stories(file.read()):
            name, colon, _ = part.head[0].partition(": ")
            if not colon or name in found:
                raise Trouble(f"no part, or a second one of its name: {part.head[0]}")
            found[name] = (["\n".join(part.head[1:])] if part.head[1:] else []) + part.blocks
        return found


class Step(NamedTuple):
    """A row of a story: the driver's line, if it has one, and the comparison. `compared` gets the answer of the line,
    or the last answer, and the answer before that. It returns the given and the wanted value.
    """

    story: str
    row: str
    line: Optional[str]
    compared: Callable[[List[str], List[str]], Tuple[object, object]]


def compare(step: Step, answer: List[str], before: List[str]) -> List[str]:
    """Returns the fault of a step."""
    try:
        given, wanted = step.compared(answer, before)
    except Trouble as trouble:
        return [f"{step.story}: {step.row}\n    {trouble}"]
    if given == wanted:
        return []
    return [f"{step.story}: {step.row}\n    wanted {wanted}\n    but is {given}"]


def play(player: str, steps: List[Step], driver: Driver) -> Tuple[int, List[str]]:
    """Plays the steps, and returns how many there are, and their faults."""
    answers = iter(driver.play(player, [step.line for step in steps if step.line is not None]))
    wrong: List[str] = []
    answer: List[str] = []
    before: List[str] = []
    for step in steps:
        if step.line is not None:
            before, answer = answer, next(answers)
        wrong += compare(step, answer, before)
    return len(steps), wrong if steps else ["no row"]


def checked(player: str, steps_of: Callable[[str], List[Step]], text: str, driver: Driver) -> Tuple[int, List[str]]:
    """Plays the rows of a file, from which `steps_of` makes steps."""
    try:
        return play(player, steps_of(text), driver)
    except (Trouble, Unplayed) as trouble:
        return 0, [str(trouble)]
