r"""A service that follows its ticket, and a planned move, step by step: the action after each reading.

It is imported by tests/rows.py, and not run by itself. A file of rows has these lines:

    # TEXT                     a comment
    conf                       the configuration of the rows is below it, indented
    * SENTENCE                 what the rows below it show
    follow MARGIN KILL PAUSE LEFT
                               begins a service: its times in ms, and the end that an earlier follower left, or `-`
    move wait|once START       begins a move of the ticket ticket-db8 to the second member: whether it waits for
                               outcomes, and its first reading
    READING CAME : DONE        a step: the reading, the event before it, and the action
    choose EXPIRE RENEWAL MARGIN KILL : MARGIN KILL PAUSE
                               the times that fit a ticket with these times, in seconds
    margins TICKET ADDRESS MARGIN KILL : MARGIN KILL PAUSE
                               the times of a service of a configured ticket at a site, in ms

CAME is `-` if there is no event. The events of a service are the lists `here UNTIL`, which shows this site, and
`elsewhere`; `end RUN done` and `end RUN failed`; and `stop`, the request to end. The event of a move is a reply of the
first site: its command, request, result, and the member that it names as the owner.

The action of a service is `-`, `leave`, or `check`, `renew`, `start`, `stop` or `kill` with the number of the run and
an end. The action of a move is `nothing`, `revoke REQUEST`, `forward PLACE REQUEST` for a revoke that is redirected,
`grant REQUEST`, or its end. A time that is not given is `-`. Instead of the times a line may have the cause for which
there are none.
"""

from typing import Dict, List, NamedTuple, Tuple

from row_driver import Driver, Trouble
from run_frames import TICKET, code_of, frame_of
from run_hosts import hexadecimal

FAULTS = {
    **{"no ticket": "NoTicket", "no site": "NotSite", "by hand": "IsManual"},
    **{"margin too long": "MarginTooLong", "kill too long": "KillTooLong", "kill too short": "KillTooShort"},
}

# whether a move waits for outcomes, as the driver is told
WAITS = {"wait": "1", "once": "0"}


class Row(NamedTuple):
    """A line for the player, and its expected answer: none, or a text."""

    place: str
    text: str
    player: str
    line: str
    wanted: str


def millis(word: str) -> str:
    """Returns the milliseconds of a number of seconds with at most three decimal places."""
    whole, _, part = word.partition(".")
    return word if word == "-" else str(int(whole) * 1000 + int(part.ljust(3, "0")))


def margins(wanted: str, scale: bool) -> str:
    """Returns the answer for margins or their fault."""
    if wanted in FAULTS:
        return f"fault {FAULTS[wanted]}"
    words = [millis(word) if scale else word for word in wanted.split(" ")]
    if len(words) != 3:
        raise Trouble(f"no margins: {wanted}")
    return " ".join(["margins", *words])


def news(came: str) -> str:
    """Returns a service's news, in the driver's form."""
    if came == "-":
        return "nothing"
    words = came.split(" ")
    return f"{words[2]} {words[1]}" if words[0] == "end" else came


def reply(came: str) -> str:
    """Returns the frame that arrived at a move."""
    if came == "-":
        return came
    command, request, result, leader = came.split(" ")
    body = f"{leader} 0 0" if command in ("RRvk", "RGnt") else "= ''"
    return hexadecimal(frame_of(f"S1 {command} {request} 0 {result} {body}"))


def done_text(answer: str) -> str:
    """Returns an action in the form of the rows."""
    word, _, rest = answer.partition(" ")
    return f"{word} {code_of(int(rest))}" if word in ("refused", "stranded") else answer


class Reader:
    """Reads the rows of a file."""

    def __init__(self) -> None:
        self.conf: List[str] = []
        # the line that is read, with its number
        self.line = ""
        self.sentence = ""
        self.player = ""
        self.rows: List[Row] = []

    def configuration(self) -> str:
        """Returns the configuration as a word."""
        return hexadecimal("".join(f"{line}\n" for line in self.conf).encode())

    def add(self, player: str, line: str, wanted: str) -> None:
        """Adds a row."""
        if not self.sentence:
            raise Trouble(f"no sentence: {self.line}")
        self.rows.append(Row(self.sentence, self.line, player, line, wanted))

    def begin(self, first: str, rest: str) -> None:
        """Begins a service or a move."""
        self.player = {"follow": "follows", "move": "moves"}[first]
        start = f"new {rest}"
        if first == "move":
            wait, _, reading = rest.partition(" ")
            start = f"new {self.configuration()} {TICKET} 1 {WAITS[wait]} {reading}"
        self.add(self.player, start, "")

    def take(self, line: str) -> None:
        """Handles a line."""
        first, _, rest = line.partition(" ")
        asked, found, wanted = rest.partition(" : ")
        if first == "*":
            self.sentence, self.player = rest, ""
        elif first in ("follow", "move"):
            self.begin(first, rest)
        elif not found:
            raise Trouble(f"no row: {line}")
        elif first == "choose":
            self.add("follows", " ".join([first, *(millis(word) for word in asked.split(" "))]), margins(wanted, True))
        elif first == "margins":
            self.add("follows", f"{first} {self.configuration()} {asked}", margins(wanted, False))
        elif self.player == "follows":
            self.add(self.player, f"step {int(first)} {news(asked)}", "nothing" if wanted == "-" else wanted)
        elif self.player == "moves":
            self.add(self.player, f"step {int(first)} {reply(asked)}", wanted)
        else:
            raise Trouble(f"no row: {line}")

    def read(self, text: str) -> List[Row]:
        """Returns the rows of a text."""
        below = False
        for number, line in enumerate(text.split("\n"), 1):
            self.line = f"line {number}: {line}"
            if below and line.startswith("  "):
                self.conf.append(line[2:])
                continue
            below = line == "conf"
            if line and not below and not line.startswith("#"):
                self.take(line)
        if not any(row.wanted for row in self.rows):
            raise Trouble("no rows")
        return self.rows


def check(text: str, driver: Driver) -> Tuple[int, List[str]]:
    """Plays the rows of a file. Returns how many there are, and their faults."""
    rows = Reader().read(text)
    answers: Dict[str, List[List[str]]] = {}
    for player in {row.player for row in rows}:
        answers[player] = driver.play(player, [row.line for row in rows if row.player == player])
    wrong = []
    for row in rows:
        answer = answers[row.player].pop(0)
        if [done_text(line) for line in answer] != ([row.wanted] if row.wanted else []):
            wrong.append(f"{row.place} {row.text}, and it was: {answer}")
    return sum(1 for row in rows if row.wanted), wrong
