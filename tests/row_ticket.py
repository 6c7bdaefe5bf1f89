"""Plays the stories of whole tickets: tests/rows/rules/ticket/.

A story has a sentence, lines that explain it if needed, its ticket, and its turns, which are separated by blank lines.
A ticket is `steady` if it follows the steady rules, a member, `of` and the number of members, `by hand` if it is
manual, and `from` and its stored record. It starts at 0.

The first line of a call is `at`, the time, and one of these: `grant` or `revoke` with its options (from client 77, or
from another one after ` of `); `from` and a member's message; `over`, a job and its status; or `due`. The lines below
are the actions that the ticket must take: `keep` and the record; `start`, the job and the lease's end in seconds;
`send`, the receiver and the message. A `keep` or a `start` that ends with `failed` fails. If the first action is such a
`keep`, each write of the call fails, otherwise each write after the first one.

Every other turn is one line: `ready yes` or `ready no`; `job` and the number of the next job; `second` and another
ticket, which is used from then on; `due` or `owner`, which check the deadline or the shown holder; `as` and names,
which play these parts of parts.txt. `each`, words and `: ` before a turn play it once for each word, which replaces
`$`. Before the ticket they play the whole story in this way. `10..72` stands for the numbers from 10 to 72.
"""

import re
from typing import Callable, Dict, List, NamedTuple, Optional, Tuple, Union

import rule_words
from row_driver import Driver, Trouble
from rule_words import (
    Message, Record, Step, Story, dashed, member_name, message, moment, number, optional, printed_message,
    printed_record, record)

# the address of all clients of the stories; each client has its own port
CLIENT = bytes([192, 168, 201, 9])


class Keep(NamedTuple):
    """A record is written, or the write fails."""

    record: Record
    ok: bool

    def __str__(self) -> str:
        return f"keep {self.record}" + ("" if self.ok else " failed")


class Start(NamedTuple):
    """A handler is started, or cannot be started."""

    job: int
    expires: int
    ok: bool

    def __str__(self) -> str:
        return f"start {self.job} {self.expires}" + ("" if self.ok else " failed")


class Send(NamedTuple):
    """A message is sent: to the member at a place, or to a client."""

    place: Optional[int]
    address: bytes
    port: int
    message: Message

    def __str__(self) -> str:
        to = f"client at port {self.port}" if self.place is None else member_name(self.place + 1)
        return f"send {to}: {self.message}"


Act = Union[Keep, Start, Send]


class Acts(tuple):
    """The actions of a call."""

    def __str__(self) -> str:
        return "; ".join(str(act) for act in self) or "nothing"


def port_of(client: int) -> int:
    """Returns the port of a client, which is identified by the number of its requests."""
    return client % 60_000


def act(line: str) -> Act:
    """Returns the action in a line."""
    found = re.fullmatch(r"(keep|start) (.*?)( failed)?", line)
    if found and found[1] == "keep":
        return Keep(record(found[2]), not found[3])
    if found:
        job, expires = found[2].split(" ")
        return Start(moment(job), moment(expires), not found[3])
    found = re.fullmatch(r"send (client )?(\S+): (.*)", line)
    if found is None:
        raise Trouble(f"no act: {line}")
    if found[1]:
        return Send(None, CLIENT, port_of(number(found[2])), message(found[3]))
    return Send(number(found[2]) - 1, b"", 0, message(found[3]))


def printed_act(line: str) -> Act:
    """Returns the action in a line of the driver."""
    words = line.split(" ")
    kind, how = words[0], words[1] if len(words) > 1 else ""
    if kind == "keep" and how in ("ok", "failed"):
        return Keep(printed_record(words[2:]), how == "ok")
    if kind == "start" and how in ("ok", "failed") and len(words) == 4:
        return Start(moment(words[2]), moment(words[3]), how == "ok")
    if kind == "send" and how == "member":
        return Send(moment(words[2]), b"", 0, printed_message(words[3:]))
    if kind == "send" and how == "client":
        return Send(None, bytes.fromhex(words[2]), moment(words[3]), printed_message(words[4:]))
    raise Trouble(f"the driver printed no act: {line}")


def opened(text: str) -> str:
    """Returns the opening of a ticket in the driver's form."""
    found = re.fullmatch(r"(steady )?(\S+) of (\d+)( by hand)?(?: from (.*))?", text)
    if found is None:
        raise Trouble(f"no ticket: {text}")
    steady, who, members, manual, kept = found.groups()
    seat = rule_words.seat_of(number(who) - 1, number(members), bool(steady))
    start = rule_words.start(0, seat, record(kept) if kept else None)
    return f"{int(bool(manual))} {start}"


def status(word: str) -> int:
    """Returns the status of a handler."""
    if word != "-1" and moment(word) > 255:
        raise Trouble(f"no status: {word}")
    return int(word)


def call(text: str) -> Tuple[str, str]:
    """Returns the driver's word for a call, and its arguments."""
    name, _, rest = text.partition(" ")
    if name in ("grant", "revoke"):
        options, _, client = rest.partition(" of ")
        asker = number(client or "77")
        return name, f" {port_of(asker)} {asker} {number(options)}"
    if name == "from":
        heard = message(rest)
        return "hear", f" {max(heard.sender - 1, 0)} {heard.words()}"
    if name == "over":
        job, _, ended = rest.partition(" ")
        return name, f" {moment(job)} {status(ended)}"
    if text == "due":
        return name, ""
    raise Trouble(f"no call: {text}")


class Stage:
    """The steps of one story, and further arguments of its calls."""

    def __init__(self, story: str, opening: str) -> None:
        self.story = story
        self.ready = 1
        self.job: Optional[int] = None
        self.steps: List[Step] = []
        self.silent(opening, f"open {opened(opening)}")

    def add(self, row: str, line: str, compared: Callable[[List[str], List[str]], Tuple[object, object]]) -> None:
        """Adds a step."""
        self.steps.append(Step(self.story, row, line, compared))

    def silent(self, row: str, line: str) -> None:
        """Adds a step whose answer has no line."""
        self.add(row, line, lambda answer, _: (answer, []))

    def acts(self, turn: str, now: int, text: str, lines: List[str]) -> None:
        """Adds a call with its actions."""
        wanted = [act(line) for line in lines]
        failed = [isinstance(made, Keep) and not made.ok for made in wanted]
        hands = (failed[:1] == [True], any(failed), any(isinstance(made, Start) and not made.ok for made in wanted))
        name, given = call(text)
        line = f"{name} {now} {self.ready} {dashed(self.job)} {' '.join(str(int(fails)) for fails in hands)}{given}"
        self.add(turn, line, lambda answer, _: (Acts(map(printed_act, answer)), Acts(wanted)))

    def looks(self, row: str, now: int, wanted: List[Optional[int]], places: slice) -> None:
        """Adds a look at the deadline, or at the shown owner and end."""
        def compared(answer: List[str], _before: List[str]) -> Tuple[object, object]:
            words = answer[0].split(" ")
            if len(answer) != 1 or len(words) != 4 or words[0] != "look":
                raise Trouble(f"the driver showed nothing: {answer}")
            return [optional(word) for word in words[1:]][places], wanted

        self.add(row, f"look {now}", compared)

    def owner(self, row: str, text: str) -> None:
        """Adds a look at the shown owner."""
        found = re.fullmatch(r"(\d+): (?:nobody|(\S+) until (\d+))", text)
        if found is None:
            raise Trouble(f"nobody is shown so: {row}")
        wanted = [None, None] if found[2] is None else [number(found[2]), moment(found[3])]
        self.looks(row, moment(found[1]), wanted, slice(1, 3))

    def turn(self, turn: str) -> None:
        """Adds a turn."""
        row, *lines = turn.split("\n")
        word, _, rest = row.partition(" ")
        found = re.fullmatch(r"(\d+) (.+)", rest) if word == "at" else None
        if found:
            self.acts(turn, moment(found[1]), found[2], lines)
        elif lines:
            raise Trouble(f"a turn that is no call has one line: {turn}")
        elif row in ("ready yes", "ready no"):
            self.ready = int(rest == "yes")
        elif word == "job":
            self.job = moment(rest)
        elif word == "second":
            self.silent(row, f"second {opened(rest)}")
        elif word == "due":
            self.looks(row, 0, [None if rest == "never" else moment(rest)], slice(0, 1))
        elif word == "owner":
            self.owner(row, rest)
        else:
            raise Trouble(f"no turn: {row}")


def words_of(text: str) -> List[str]:
    """Returns the words of `each`, and the numbers of a range."""
    found = re.fullmatch(r"(\d+)\.\.(\d+)", text)
    return [str(one) for one in range(int(found[1]), int(found[2]) + 1)] if found else text.split(" ")


def each(text: str, behind: str) -> List[Tuple[str, str]]:
    """Returns the text after `each`, if it begins with that, and the lines after it, once with each of the words;
    otherwise both once.
    """
    if not text.startswith("each "):
        return [(text, behind)]
    words, colon, rest = text[len("each "):].partition(": ")
    if not colon or "$" not in rest + behind:
        raise Trouble(f"no word stands for `$`: {text}")
    return [(rest.replace("$", word), behind.replace("$", word)) for word in words_of(words)]


def turns_of(block: str, parts: Dict[str, List[str]]) -> List[str]:
    """Returns the turns of a block: one, those of the parts that it names, or one for each word."""
    if not block.startswith("as "):
        return [turn for turn, _ in each(block, "")]
    names = block[len("as "):].split(", ")
    unknown = [name for name in names if name not in parts]
    if unknown:
        raise Trouble(f"no part: {unknown}")
    return [turn for name in names for turn in parts[name]]


def steps_of_story(story: Story, parts: Dict[str, List[str]]) -> List[Step]:
    """Returns the steps of a story, once for each word that it is played with."""
    if len(story.head) < 2 or not story.blocks:
        raise Trouble(f"nothing is told: {story.head}")
    steps = []
    for opening, turns in each(story.head[-1], "\n\n".join(story.blocks)):
        stage = Stage(story.head[0], opening)
        for block in turns.split("\n\n"):
            for turn in turns_of(block, parts):
                stage.turn(turn)
        steps += stage.steps
    return steps


def steps_of(text: str) -> List[Step]:
    """Returns the steps of a file."""
    parts = rule_words.parts("ticket")
    return [step for story in rule_words.stories(text) for step in steps_of_story(story, parts)]


def check(text: str, driver: Driver) -> Tuple[int, List[str]]:
    """Plays a file's stories, and returns how many rows there are, and their faults."""
    return rule_words.checked("ticket", steps_of, text, driver)
