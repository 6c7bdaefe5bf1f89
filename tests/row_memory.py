r"""Hosts in memory, and hosts over them that log, write a journal or serve links: the answers and records of each call.

It is imported by tests/rows.py, and not run by itself. A file of rows has these lines:

    # TEXT                a comment
    * SENTENCE            what the rows below it show
    part NAME             names the indented lines below it; `as NAME` inserts them
    over KIND ..          makes a host: `memory`, `quiet`, `logged LINES`, `journaled BYTES APPENDS` or `streamed`. Its
                          contents are below it, indented
    CALL : ANSWER         a call of the host, and its answer. Each line that the host logs is below it, indented
    told                  all that the host has recorded so far, its calls or its journal, is below it, indented
    untold                from now on the host records no calls
    add STEP              adds a step to the script; `forget` removes the steps that were used
    again KIND .. : COUNT makes the same calls over a host of this kind, which must give the same answers. This host
                          records the first COUNT lines
    heads                 each beginning of the recorded journal must be a journal
    faults                the texts of the faults of a host are below it, indented
    links SCRIPT => DONE  a host over links: what arrives on them, and the results of its calls

The contents of a host are `first MS`, `file PATH TEXT`, `fails CALL ..`, `room COUNT`, `record TICKET RECORD` and
`step MS FAILS ARRIVAL`. tests/row_runs.py describes RECORD, and tests/stream_data.py describes DATA.
An arrival is `quiet`, `failure`, `handler JOB STATUS` or `datagram ADDRESS PORT DATA`.
Calls are `open LOCAL PORT RECORDS CONF`, `next WAIT`, `now`, `send ADDRESS PORT DATA`, `kept TICKET`, `keep TICKET
RECORD`, `start NUMBER TICKET HANDLER LOCAL EXPIRES`, `read PATH`, `lock PATH`, `out TEXT` and `err TEXT`.

A script has an event for each wait: `open LINK PORT`, `bytes LINK DATA`, `end LINK`, `quiet` or `fail`. `|` and a
number say how many bytes a write accepts after it. The script of the host below is quiet, and its sends fail. DONE
has a word for each call: `quiet`, `stop` or `failed` for a wait; `a4000` for a frame of 48 bytes with the mark a from
port 4000; `sent:4000` or `unsent:4000` for 48 bytes that are sent to that port.
"""

import re
from typing import Dict, List, NamedTuple, Tuple

from row_driver import Driver, Trouble
from row_runs import Line, lines_of
from run_frames import bytes_of, text_of
from run_hosts import FAILS, hexadecimal, record
from stream_data import stream_of

KINDS = ["memory", "quiet", "logged", "journaled", "streamed"]
MAKING = ["first", "file", "fails", "room", "record", "step"]
CLIENT = "127.0.0.1"


class Played(NamedTuple):
    """A line for a player, where it comes from, and the expected answer."""

    place: str
    player: str
    text: str
    wanted: List[str]


def texts(words: str) -> str:
    """Returns texts in the driver's form."""
    return " ".join(hexadecimal(bytes_of(word)) for word in words.split(" "))


def with_data(text: str, words: int) -> str:
    """Returns the words; the last word, after this many others, is data."""
    parts = text.split(" ", words)
    return " ".join([*parts[:words], hexadecimal(stream_of(parts[words]))])


def arriving(text: str) -> str:
    """Returns an arrival in the driver's form."""
    return with_data(text, 3) if text.startswith("datagram ") else text


def made_of(line: str) -> List[str]:
    """Returns the driver's lines for the contents of a host."""
    first, _, rest = line.partition(" ")
    if first not in MAKING:
        raise Trouble(f"no such line: {line}")
    if first == "file":
        path, _, text = rest.partition(" ")
        return [f"give file {texts(path)} {hexadecimal(bytes_of(text))}"]
    if first == "record":
        ticket, _, text = rest.partition(" ")
        return [f"give record {ticket} {record(text)}"]
    if first == "fails":
        return [f"give fails {call}" for call in rest.split(" ")]
    return [f"give step {step(rest)}" if first == "step" else f"give {line}"]


def step(text: str) -> str:
    """Returns a step in the driver's form."""
    reading, fails, arrival = text.split(" ", 2)
    if fails != "-" and not set(fails.split(",")) <= set(FAILS):
        raise Trouble(f"no calls that fail: {text}")
    return f"{int(reading)} {fails} {arriving(arrival)}"


def call(text: str) -> str:
    """Returns a call in the driver's form."""
    first, _, rest = text.partition(" ")
    words = rest.split(" ")
    if first == "open":
        return " ".join([first, *words[:2], texts(" ".join(words[2:]))])
    if first == "send":
        return f"{first} {with_data(rest, 2)}"
    if first == "keep":
        return f"{first} {texts(words[0])} {record(' '.join(words[1:]))}"
    if first == "start":
        return " ".join([first, words[0], texts(" ".join(words[1:3])), *words[3:]])
    if first in ("kept", "read", "lock"):
        return f"{first} {texts(rest)}"
    if first in ("out", "err"):
        return f"{first} {hexadecimal(bytes_of(rest))}"
    if first == "next" or text == "now":
        return text
    raise Trouble(f"no such call: {text}")


def answer_of(asked: str, text: str) -> str:
    """Returns the answer of a call in the driver's form."""
    first = asked.partition(" ")[0]
    if first == "next":
        return arriving(text)
    if first == "kept" and text not in ("none", "failed"):
        return record(text)
    if first == "read" and text not in ("failed", "no-memory"):
        return hexadecimal(bytes_of(text))
    return text


def told_call(text: str) -> str:
    """Returns a recorded call, followed by its answer."""
    asked, found, answer = text.partition(" : ")
    if not found or asked.partition(" ")[0] not in ("now", "send"):
        raise Trouble(f"no such call: {text}")
    return f"{call(asked)} {answer}"


def text_of_lines(lines: List[str]) -> bytes:
    """Returns the text of these lines."""
    return "".join(f"{line}\n" for line in lines).encode()


class Reader:
    """Reads the rows of a file."""

    def __init__(self) -> None:
        self.parts: Dict[str, List[str]] = {}
        self.sentence = ""
        self.place = ""
        self.played: List[Played] = []
        # the lines that make the host, its kind, its calls with their answers, and its messages
        self.given: List[str] = []
        self.kind = ""
        self.calls: List[Tuple[str, str]] = []
        self.told: List[str] = []
        self.count = 0

    def play(self, text: str, wanted: List[str], player: str = "") -> None:
        """Adds a line for this player, or for the player of the host's kind."""
        self.played.append(Played(self.place, player or self.kind.partition(" ")[0], text, wanted))

    def row(self, text: str, wanted: List[str]) -> None:
        """Adds a line that is a row."""
        self.count += 1
        self.play(text, wanted)

    def resolved(self, lines: List[str]) -> List[str]:
        """Returns the lines, with each part inserted."""
        unknown = [line for line in lines if line.startswith("as ") and line[3:] not in self.parts]
        if unknown:
            raise Trouble(f"no such part: {unknown}")
        return [one for line in lines for one in (self.parts[line[3:]] if line.startswith("as ") else [line])]

    def make(self, kind: str, given: List[str]) -> None:
        """Makes a host."""
        if kind.partition(" ")[0] not in KINDS:
            raise Trouble(f"{self.place}: no such host")
        self.given, self.kind, self.calls, self.told = given, kind, [], []
        for line in [*given, " ".join(["over", *kind.split(" ")[1:]])]:
            self.play(line, [])

    def ask(self, asked: str, answer: str, logged: List[str]) -> None:
        """Plays a call, and compares its log lines if the host has a log."""
        if not self.kind:
            raise Trouble(f"{self.place} is behind no host")
        self.calls.append((call(asked), answer_of(asked, answer)))
        self.row(self.calls[-1][0], [self.calls[-1][1]])
        if self.kind.startswith("logged "):
            self.told += logged
            self.play("told", [hexadecimal(text_of_lines([line])) for line in self.told])
        elif logged:
            raise Trouble(f"{self.place}: the host does not log")

    def tell(self, lines: List[str]) -> None:
        """Compares all calls that the host has recorded."""
        self.told = lines
        if self.kind in ("memory", "quiet"):
            self.row("told", [told_call(line) for line in lines])
        elif self.kind.startswith("journaled "):
            self.row("told", [hexadecimal(text_of_lines(lines))])
        else:
            raise Trouble(f"{self.place}: no such host")

    def repeat(self, kind: str, count: int) -> None:
        """Makes the host and its calls again over another kind of host, which records this many of the lines."""
        given, calls, told = self.given, self.calls, self.told
        if not kind.startswith("journaled ") or not 0 <= count <= len(told):
            raise Trouble(f"{self.place}: no such host")
        self.make(kind, given)
        for asked, answer in calls:
            self.play(asked, [answer])
        self.row("told", [hexadecimal(text_of_lines(told[:count]))])
        self.calls, self.told = calls, told

    def heads(self) -> None:
        """Checks whether each first part of the journal is a journal."""
        text = text_of_lines(self.told)
        if not text:
            raise Trouble(f"{self.place}: no journal")
        self.count += 1
        for end in range(len(text) + 1):
            self.play(f"journal {hexadecimal(text[:end])}", ["journal"], "texts")

    def links(self, script: str, done: str) -> None:
        """Plays the calls of a host over links."""
        steps = [link_step(line) for line in script.split("; ")]
        below = ["give first 5", "give fails send", *["give step 7 send quiet"] * len(steps)]
        self.make("streamed", [*steps, *below])
        for word in done.split(" "):
            self.row(*link_call(word))

    def take(self, line: Line) -> None:
        """Handles a line."""
        first, _, rest = line.text.partition(" ")
        below = self.resolved(line.below)
        self.place = f"line {line.number}: {self.sentence} {line.text}"
        asked, found, answer = line.text.partition(" : ")
        if first == "part":
            self.parts[rest] = below
        elif first == "*" and not below:
            self.sentence, self.kind = rest, ""
        elif not self.sentence:
            raise Trouble(f"{self.place}: no sentence")
        elif first == "over":
            self.make(rest, [line for one in below for line in made_of(one)])
        elif line.text == "told":
            self.tell(below)
        elif line.text == "faults":
            self.count += 1
            self.play("faults", below, "texts")
        elif first == "again" and found and not below:
            self.repeat(asked[len("again "):], int(answer))
        elif found:
            self.ask(asked, answer, below)
        else:
            self.take_short(first, rest, below)

    def take_short(self, first: str, rest: str, below: List[str]) -> None:
        """Handles a line without an answer."""
        if below:
            raise Trouble(f"{self.place} has lines below it")
        if first == "links":
            script, _, done = rest.partition(" => ")
            self.links(script, done)
        elif first == "untold" and self.kind in ("memory", "quiet"):
            self.row("told", ["untold"])
        elif first == "heads":
            self.heads()
        elif first == "add":
            self.play(f"add {step(rest)}", [])
        elif first == "forget":
            self.play("forget", [])
        else:
            raise Trouble(f"{self.place}: no row")


def link_step(line: str) -> str:
    """Returns the arrivals at links in the driver's form."""
    event, _, takes = line.partition(" | ")
    first, _, rest = event.partition(" ")
    link, _, what = rest.partition(" ")
    takes = takes or "100000"
    if first == "open":
        return f"link {takes} open {link} {CLIENT} {what}"
    if first == "bytes":
        return f"link {takes} bytes {link} {hexadecimal(stream_of(what))}"
    return f"link {takes} {'failure' if event == 'fail' else event}"


def link_call(word: str) -> Tuple[str, List[str]]:
    """Returns a call of a host over links, and its answer."""
    first, _, port = word.partition(":")
    if first in ("sent", "unsent"):
        return f"send {CLIENT} {port} {'07' * 48}", ["ok" if first == "sent" else "failed"]
    if word in ("quiet", "stop", "failed"):
        return "next 100", [word]
    if not re.fullmatch(r"[a-z]\d+", word):
        raise Trouble(f"no such call: {word}")
    return "next 100", [f"datagram {CLIENT} {word[1:]} {stream_of(f'48:{word[0]}').hex()}"]


def shown(lines: List[str]) -> List[str]:
    """Returns the lines of an answer as they are printed. If a line has only hexadecimal digits, its text is returned.
    """
    return [text_of(bytes.fromhex(line)) if re.fullmatch("([0-9a-f]{2}){8,}", line) else line for line in lines]


def check(text: str, driver: Driver) -> Tuple[int, List[str]]:
    """Plays the rows of a file. Returns how many there are, and their faults."""
    reader = Reader()
    for line in lines_of(text):
        reader.take(line)
    if not reader.count:
        raise Trouble("no rows")
    wrong = []
    for player in sorted({played.player for played in reader.played}):
        lines = [played for played in reader.played if played.player == player]
        for played, answer in zip(lines, driver.play(player, [one.text for one in lines])):
            if answer != played.wanted:
                was = f"{shown(played.wanted)}, and it was: {shown(answer)}"
                wrong.append(f"{played.place} {played.text[:80]}: {was}"[:3000])
    return reader.count, wrong
