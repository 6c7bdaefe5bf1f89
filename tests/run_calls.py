"""The calls of a run as text, from what the player `runs` answers.

It is imported by the programs in tests/, and not run by itself. tests/row_runs.py says what the texts are.
"""

import re
from typing import List, NamedTuple

from row_driver import Trouble
from run_frames import CLIENT, MEMBERS, code_of, frame_text, member_of, text_of

# the names of addresses
NAMES = {**{address: name for name, address in MEMBERS.items()}, CLIENT[0]: "client", "-": "any"}

# a letter for each call
LETTERS = {
    **{"open": "o", "next": "x", "now": "n", "send": "s", "read": "r", "lock": "l"},
    **{"kept": "k", "keep": "w", "start": "j", "out": "p", "err": "e"},
}

RECORD_WORDS = 9


class Run(NamedTuple):
    """A run: the driver's line of each call, a letter for each call, the last printed text, and the end."""

    lines: List[str]
    letters: str
    last: str
    outcome: str
    status: str

    def text(self) -> str:
        """Returns all calls and the end."""
        calls = [call_text(line) for line in self.lines]
        return "".join(f"{line}\n" for line in [*calls, f"ends {self.outcome} {self.status}"])

    def end(self) -> str:
        """Returns the letters of the calls, the status, the outcome, and the last printed text or `-`."""
        return f"{self.letters} {self.status} {self.outcome} {self.last}"


def data_of(word: str) -> bytes:
    """Returns the bytes of a word of the driver's protocol."""
    return b"" if word == "-" else bytes.fromhex(word)


def address_text(word: str) -> str:
    """Returns the name of an address, or the address if it has none."""
    return NAMES.get(word, word)


def record_text(words: List[str]) -> str:
    """Returns the text of a record: its term, and then its other fields."""
    version, term, lease_term, lease_until, bound, to, promised, until, abstain = words
    parts = {"1": ["first"], "2": []}[version] + [term]
    if lease_term != "-":
        parts += [lease_term, lease_until]
    if bound != "-":
        parts += ["bound", member_of(int(bound))]
    if to != "-":
        parts += ["promise", member_of(int(to)), promised, until]
    if abstain != "0":
        parts += ["abstain", abstain]
    return " ".join(parts)


def next_text(words: List[str]) -> str:
    """Returns the text for the arrival at the end of a wait."""
    if words in (["quiet"], ["stop"], ["failed"]):
        return words[0]
    if words[0] == "handler":
        _, job, status = words
        return f"job {job} over: {status}"
    _, address, port, data = words
    return f"{address_text(address)}:{port}: {arrived_text(data_of(data))}"


def arrived_text(data: bytes) -> str:
    """Returns the text of a datagram that arrived: that of its frame, or `# ` and its bytes if it is not a frame."""
    try:
        return frame_text(data)
    except Trouble:
        return f"# {data.hex()}"


def start_text(words: List[str]) -> str:
    """Returns the text of a handler's start."""
    number, ticket, handler, local, expires, done = words
    return f"{number} at {address_text(local)} until {expires} {ticket} {text_of(data_of(handler))}{done_text(done)}"


def done_text(word: str) -> str:
    """Returns the text that follows a call's: ` failed`, or nothing."""
    return {"ok": "", "failed": " failed", "got": "", "taken": " not got"}[word]


def call_text(line: str) -> str:
    """Returns the text of a call."""
    name, *words = line.split(" ")
    if name == "now":
        (reading,) = words
        return f"now {reading}"
    if name == "next":
        return f"next {words[0]} {next_text(words[1:])}"
    if name == "kept":
        ticket, *kept = words
        return f"kept {ticket} {kept[0] if len(kept) == 1 else record_text(kept)}"
    if name == "start":
        return f"start {start_text(words)}"
    *words, done = words
    if name == "keep":
        return f"keep {words[0]} {record_text(words[1:])}{done_text(done)}"
    if name == "send":
        address, port, data = words
        return f"send {address_text(address)}:{port}: {frame_text(data_of(data))}{done_text(done)}"
    if name == "open":
        local, port, records, conf = words
        place = f"{text_of(data_of(records))} {text_of(data_of(conf))}"
        return f"open {address_text(local)}:{port} {place}{done_text(done)}"
    (data,) = words
    if name not in ("read", "lock", "out", "err"):
        raise Trouble(f"no call: {line}")
    return f"{name} {text_of(data_of(data))}{done_text(done)}"


def last_text(line: str) -> str:
    """Returns the text that the last call printed, or `-`."""
    name, *words = line.split(" ")
    return text_of(data_of(words[0])) if name in ("out", "err") else "-"


def outcome_text(text: str) -> str:
    """Returns an outcome, with the letters of the result for a refusal."""
    found = re.fullmatch(r"(Refused|Stranded)\((\d+)\)", text)
    return f"{found[1]} {code_of(int(found[2]))}" if found else text


def run_of(answer: List[str]) -> Run:
    """Returns the run in this answer."""
    if not answer or not answer[-1].startswith("ends "):
        raise Trouble(f"no end: {answer}")
    *lines, end = answer
    _, status, outcome = end.split(" ", 2)
    if lines and lines[-1] == "untold":
        name, turns, records = lines[-2].split(" ")
        if name != "turns" or len(lines) != 2:
            raise Trouble(f"not untold: {answer}")
        return Run([], f"untold {turns} {records}", "-", outcome_text(outcome), status)
    letters = "".join(LETTERS[line.split(" ")[0]] for line in lines)
    last = last_text(lines[-1]) if lines else "-"
    return Run(lines, letters, last, outcome_text(outcome), status)
