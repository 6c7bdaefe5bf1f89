"""Attributes, a pool of lists and a timer: single calls, one after another.

It is imported by tests/rows.py, and not run by itself. A file of rows has these lines:

    # TEXT                     a comment
    * SENTENCE                 what the rows below it show
    attributes TICKETS         begins with the attributes of this number of tickets
    pool NODES LISTS           begins with a pool of these numbers of nodes and of lists
    timer SLOTS                begins with a timer of this number of slots
    CALL : ANSWER              a call and its answer; without ` : ` the answer is empty
    each FIRST LAST CALL : ANSWER
                               the same for each number from FIRST to LAST, which replaces `##` as two digits

The calls of attributes are `set TICKET NAME "VALUE"` (`done`, or `full`), `get TICKET NAME` (`"VALUE"`, or `none`),
`delete TICKET NAME` (`done`, or `none`), `list TICKET` (each line in quotes), and `holds TICKET GRANT KIND NAME IS
"VALUE"` (`yes` or `no`). The last one asks whether a prerequisite allows a grant. GRANT and KIND are `manual` or
`auto`, and the prerequisite is for grants of KIND; IS is `eq` or `ne`. `"X*N"` stands for the character X, N times.

The calls of a pool are `push LIST ITEM` (`at NODE`, or `full ITEM`), `pop LIST` (the item, or `-`), `count LIST`,
`spare`, `holds NODE`, `remove NODE` and `replace NODE ITEM` (the item that was there, or `gone`), and `after NODE`
(the next node of its list, or `-`). A node is the number of its push, from 0 on.

The calls of a timer are `set SLOT DEADLINE`, `clear SLOT`, and `due READING` (the next slot that is due, or `-`).
"""

import re
from typing import List, NamedTuple, Tuple

from row_driver import Driver, Trouble

PLAYERS = {"attributes": "attributes", "pool": "pools", "timer": "timers"}
FLAGS = {"manual": "1", "auto": "0", "eq": "1", "ne": "0"}


class Row(NamedTuple):
    """A line for the player, and its answer."""

    text: str
    player: str
    line: str
    wanted: List[str]


def bytes_of(quoted: str) -> bytes:
    """Returns the bytes of a text in quotes."""
    many = re.fullmatch(r'"(.)\*(\d+)"', quoted)
    return (many[1] * int(many[2]) if many else quoted[1:-1]).encode()


def spelled(call: str) -> str:
    """Returns a call in the form that the driver reads."""
    words = []
    for word in re.findall(r'"[^"]*"|\S+', call):
        words.append((bytes_of(word).hex() or "-") if word.startswith('"') else FLAGS.get(word, word))
    return " ".join(words)


def answer_of(call: str, wanted: str) -> List[str]:
    """Returns the lines with which the driver answers a call."""
    quoted = re.findall(r'"[^"]*"', wanted)
    if call.startswith("list "):
        lines = b"".join(bytes_of(each) + b"\n" for each in quoted)
        return [lines.hex() or "-"]
    if quoted:
        return [f"value {bytes_of(quoted[0]).hex() or '-'}"]
    return [{"yes": "1", "no": "0"}.get(wanted, wanted)]


class Reader:
    """Reads the rows of a file."""

    def __init__(self) -> None:
        self.sentence = ""
        self.player = ""
        self.rows: List[Row] = []

    def call(self, text: str, call: str, wanted: str) -> None:
        """Adds a call."""
        if not self.sentence or not self.player:
            raise Trouble(f"no sentence, or nothing has begun: {text}")
        # (a call that sets or clears a slot is answered by an empty line, and `new` by no line)
        due = answer_of(call, wanted) if wanted else [] if call.startswith("new ") else [""]
        self.rows.append(Row(f"{self.sentence}: {text}", self.player, spelled(call), due))

    def take(self, line: str) -> None:
        """Handles a line."""
        first, _, rest = line.partition(" ")
        if first == "*":
            self.sentence, self.player = rest, ""
        elif first in PLAYERS:
            self.player = PLAYERS[first]
            self.call(line, f"new {rest}", "")
        else:
            call, _, wanted = line.partition(" : ")
            numbers = range(1)
            if first == "each":
                low, high, call = rest.partition(" : ")[0].split(" ", 2)
                numbers = range(int(low), int(high) + 1)
            for number in numbers:
                self.call(line, call.replace("##", f"{number:02}"), wanted)


def check(text: str, driver: Driver) -> Tuple[int, List[str]]:
    """Plays the rows of a file. Returns how many there are, and their faults."""
    reader = Reader()
    for line in text.split("\n"):
        if line and not line.startswith("#"):
            reader.take(line)
    wrong = []
    for player in sorted({row.player for row in reader.rows}):
        rows = [row for row in reader.rows if row.player == player]
        answers = driver.play(player, [row.line for row in rows])
        wrong += [f"{row.text}, and it was: {found}" for row, found in zip(rows, answers) if found != row.wanted]
    return sum(1 for row in reader.rows if row.wanted), wrong
