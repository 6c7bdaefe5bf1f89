"""Reads files of rows, and the bytes and fields that rows give.

A row is `KIND: GIVEN => WANTED`, or `KIND: GIVEN` if nothing is wanted beyond it. A line that begins with `## ` is the
sentence that the rows below it show. Other lines with `#` are comments. A line that begins with `| ` continues the row
above it by one line of text.

It is imported by the modules in tests/ that check rows, and not run by itself.
"""

import re
from typing import Callable, Dict, List, NamedTuple, Tuple

from row_driver import Driver, Unplayed

ROW = re.compile(r"([A-Za-z0-9][A-Za-z0-9 -]*):(?: (.*?))?(?: => (.*))?")
ESCAPE = re.compile(rb"\\(x[0-9a-f]{2}|[tnr0\\]|)", re.DOTALL)
PLAIN = {b"t": b"\t", b"n": b"\n", b"r": b"\r", b"0": b"\0", b"\\": b"\\"}


class Malformed(Exception):
    """A row that cannot be read."""


class Row(NamedTuple):
    """A row, with the lines of text that continue it. `wanted` is empty if the row has no `=>`."""

    line: int
    sentence: str
    kind: str
    given: str
    wanted: str
    text: List[str]

    def fault(self, why: str) -> str:
        """Returns a line with the fault of this row."""
        return f"line {self.line} ({self.sentence}): {self.kind}: {self.given[:60]}: {why}"


def rows_of(text: str) -> List[Row]:
    """Returns the rows of a file. Raises `Malformed` if there is none, or if a line is not a row."""
    rows: List[Row] = []
    sentence = ""
    for number, line in enumerate(text.split("\n"), 1):
        if line.startswith("## "):
            sentence = line[3:]
        elif line.startswith("|") and rows:
            rows[-1].text.append(line[2:])
        elif line and not line.startswith("#"):
            found = ROW.fullmatch(line)
            if found is None or not sentence:
                raise Malformed(f"line {number} is no row below a sentence: {line}")
            kind, given, wanted = found.groups()
            rows.append(Row(number, sentence, kind, given or "", wanted or "", []))
    if not rows:
        raise Malformed("there is no row")
    return rows


def unescaped(text: str) -> bytes:
    """Returns the bytes of a text, in which `\\t`, `\\n`, `\\r`, `\\0`, `\\\\` and `\\x7f` stand for bytes."""

    def byte(found: "re.Match[bytes]") -> bytes:
        word = found[1]
        if not word:
            raise Malformed(f"no escape: {text}")
        return bytes([int(word[1:], 16)]) if len(word) == 3 else PLAIN[word]

    return ESCAPE.sub(byte, text.encode())


def bytes_of(text: str) -> bytes:
    """Returns the bytes of a text, or after `# ` those of its hexadecimal words; `0b*20` is twenty times 0b."""
    if text != "#" and not text.startswith("# "):
        return unescaped(text)
    found = b""
    for word in text[1:].split():
        digits, _, times = word.partition("*")
        found += bytes.fromhex(digits) * int(times or "1")
    return found


def hexadecimal(data: bytes) -> str:
    """Returns bytes in the driver's form."""
    return data.hex() or "-"


def fields_of(text: str, names: str) -> Dict[str, str]:
    """Returns the fields in `NAME VALUE, NAME VALUE`. Each name must be one of these."""
    found = dict(part.split(" ", 1) for part in text.split(", ")) if text else {}
    if not set(found) <= set(names.split()):
        raise Malformed(f"a field is none of {names}: {text}")
    return found


def told(rows: List[Row]) -> Dict[str, List[str]]:
    """Returns the two lines with which the driver reports each fault, from the texts in a file's rows `told`."""
    return {row.given: [f"fault {row.given.split(' ')[-1]}", row.wanted] for row in rows if row.kind == "told"}


def differences(row: Row, answer: List[str], wanted: List[str]) -> List[str]:
    """Returns a line if an answer differs from the wanted one, otherwise none."""
    if answer == wanted:
        return []
    pairs = [pair for pair in zip(answer, wanted) if pair[0] != pair[1]]
    if not pairs:
        return [row.fault(f"{len(answer)} lines in place of {len(wanted)}")]
    return [row.fault(f"{pairs[0][0][:200]} in place of {pairs[0][1][:200]}")]


Play = Tuple[str, List[str]]
Plays = Callable[["Row", List["Row"]], List[Play]]


def check_rows(text: str, driver: Driver, player: str, plays: Dict[str, Plays]) -> Tuple[int, List[str]]:
    """Plays a file's rows with this player, and returns how many there are, and their faults. `plays` has a function
    for each kind of row: it returns the driver's lines, each with the wanted answer. Rows `told` and `let` have texts
    that other rows use, and are played with those: the text of a fault must be the wanted one of some row.
    """
    try:
        rows = rows_of(text)
        played = [(row, play) for row in rows if row.kind not in ("told", "let") for play in plays[row.kind](row, rows)]
        answers = driver.play(player, [line for _, (line, _) in played])
    except (KeyError, ValueError, Malformed, Unplayed) as fault:
        return 0, [f"{type(fault).__name__}: {fault}"]
    wrong = [line for (row, play), answer in zip(played, answers) for line in differences(row, answer, play[1])]
    met = {tuple(wanted[start : start + 2]) for _, (_, wanted) in played for start in range(len(wanted))}
    idle = [key for key, lines in told(rows).items() if tuple(lines) not in met]
    return len(rows), wrong + [f"no row meets the fault {key}" for key in idle]
