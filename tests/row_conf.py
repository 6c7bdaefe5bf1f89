"""Plays rows about texts of the configuration: their first faults, and their contents.

If a text is a configuration, the driver prints it, and a copy of it: the two are equal, and say the same again when
the printed text is read.

It is imported by tests/rows.py, and not run by itself.
"""

import ipaddress
import zlib
from typing import Dict, List, NamedTuple, Tuple

from row_driver import Driver, Unplayed
from row_text import Malformed, Row, fields_of, hexadecimal, rows_of, unescaped

# each fault by the words of a row, with the fields of these words
FAULTS = {
    "large": "TooLarge",
    "no site": "NoSite",
    "no ticket": "NoTicket",
    "syntax": "Syntax {{ line: {} }}",
    "repeated": "Repeated {{ line: {} }}",
    "unknown": "UnknownKey {{ line: {} }}",
    "misplaced": "Misplaced {{ line: {} }}",
    "late": "DefaultLate {{ line: {} }}",
    "many": "TooMany {{ line: {} }}",
    "bad": "BadValue {{ line: {}, key: KeyNo({}) }}",
    "retry": "RetryTime {{ ticket: {} }}",
    "renewal": "Renewal {{ ticket: {} }}",
    "clash": "IdClash {{ first: {}, second: {} }}",
}


class Text(NamedTuple):
    """A text of a row, with the words of its first fault, or `none`."""

    row: Row
    data: bytes
    fault: str


# ---- the texts of rows


def block(row: Row) -> bytes:
    """Returns the lines below a row."""
    return b"".join(unescaped(line) + b"\n" for line in row.text)


def lines_of(text: str) -> bytes:
    """Returns the bytes of lines with ` / ` between them."""
    return unescaped(text).replace(b" / ", b"\n")


def before(row: Row, rows: List[Row]) -> bytes:
    """Returns the lines before each text of this row's sentence."""
    found = [block(one) for one in rows if one.kind == "before" and one.sentence == row.sentence]
    return b"".join(found)


def counted(row: Row) -> bytes:
    """Returns `BEFORE | COUNT times FORM$ |AFTER`: lines with a number in place of `$`, counted from 0."""
    start, _, rest = row.given.partition(" | ")
    form, _, end = rest.partition(" |")
    count, _, line = form.partition(" times ")
    if not line.endswith("$"):
        raise Malformed(row.fault("no form"))
    numbered = b"".join(unescaped(line[:-1]) + b"%d\n" % number for number in range(int(count)))
    return lines_of(start) + b"\n" + numbered + lines_of(end)


def long(row: Row) -> bytes:
    """Returns `COUNT times LINE`, with this many `x` in place of `$`."""
    count, _, line = row.given.partition(" times ")
    return unescaped(line).replace(b"$", b"x" * int(count))


def full(_row: Row) -> bytes:
    """Returns 4,096 tickets, each with the longest lines that a ticket can have by the defaults."""
    prereqs = b"".join(b"attr-prereq=manual %063d ne %0127d\n" % (number, number) for number in range(8))
    times = b"expire=10000000\nacquire-after=10000000\ntimeout=99009\nretries=100\nrenewal-freq=9999999\n"
    weights = b"weights=" + b",".join([b"1000000000"] * 16) + b"\n"
    start = b"site=10.0.0.1\nticket=__default__\nmode=manual\nsteady=yes\n" + times + weights
    handler = b"before-acquire-handler=" + b"h" * 255 + b"\n"
    return start + handler + prereqs + b"".join(b"ticket=%063d\n" % number for number in range(4096))


TEXTS = {
    "text": lambda row: lines_of(row.given),
    "counted": counted,
    "long": long,
    "block": block,
    "full": full,
}


# ---- what the driver tells


def fault_line(words: str) -> str:
    """Returns the driver's line for a fault."""
    kind, *numbers = [words] if words in FAULTS else words.split(" ")
    return "fault " + FAULTS[kind].format(*numbers + ["0"] * (len(numbers) < 2))


def member_line(place: int, words: str) -> str:
    role, address = words.split(" ")
    return f"{role} {zlib.crc32(ipaddress.ip_address(address).packed)} {place}"


def ticket_line(place: int, words: str) -> str:
    """Returns the driver's line for `NAME MODE, expire MS, after MS, .., retries COUNT, promise MS, ranks RANKS`."""
    called, _, others = words.partition(", ")
    name, mode = called.split(" ")
    found = fields_of(others, "expire after timeout renewal retries promise ranks")
    times = " ".join(found[field] for field in ("expire", "after", "timeout", "renewal", "retries", "promise"))
    return f"ticket {name.encode().hex()} {mode} {times} {place} {found['ranks']}"


def said(row: Row) -> List[str]:
    """Returns the driver's lines for the values below a row."""
    found: Dict[str, List[str]] = {}
    for line in row.text:
        key, _, value = line.partition(": ")
        found.setdefault(key, []).append(value)
    paths = [f"{key} {hexadecimal(unescaped(value)) if value != 'none' else ''}".rstrip()
             for key in ("authfile", "authfile-old") for value in found.pop(key)]
    file = found.pop("file")
    members = [member_line(place, words) for place, words in enumerate(found.pop("member"))]
    tickets = [ticket_line(place, words) for place, words in enumerate(found.pop("ticket"))]
    if found or len(file) != 1 or len(paths) != 2:
        raise Malformed(row.fault(f"no values: {[*found]}"))
    return [*file, *paths, *members, *tickets]


def printed_by(answer: List[str]) -> bytes:
    """Returns the printed text of a configuration."""
    return bytes.fromhex(answer[-2].partition("printed ")[2])


def texts_of(rows: List[Row]) -> List[Text]:
    """Returns the texts of all rows except those rows that are about the one above."""
    return [Text(row, before(row, rows) + TEXTS[row.kind](row), row.wanted) for row in rows if row.kind in TEXTS]


def judge(rows: List[Row], driver: Driver) -> List[str]:
    """Plays each text, and its printed form, and returns the faults."""
    texts = texts_of(rows)
    answers = driver.play("conf", [hexadecimal(text.data) for text in texts])
    wrong = []
    for text, answer in zip(texts, answers):
        wrong += [text.row.fault(why) for why in faults_of(text, answer)]
    if wrong:
        return wrong
    read = [(text.row, answer) for text, answer in zip(texts, answers) if text.fault == "none"]
    again = driver.play("conf", [printed_by(answer).hex() for _, answer in read])
    why = "the printed text says something else"
    wrong = [row.fault(why) for (row, one), other in zip(read, again) if one != other]
    return wrong + values(rows, {row.line: answer for row, answer in read})


def faults_of(text: Text, answer: List[str]) -> List[str]:
    """Returns the faults of the answer to a text."""
    if text.fault != "none":
        return [] if answer == [fault_line(text.fault)] else [f"{answer[0][:100]} in place of {fault_line(text.fault)}"]
    if len(answer) < 4 or answer[-1] != answer[-2].replace("printed", "copied"):
        return [f"{answer[0][:100]} in place of a configuration and its copy"]
    return []


def values(rows: List[Row], answers: Dict[int, List[str]]) -> List[str]:
    """Compares the values, the printed text and its length with those that rows want for the text above them."""
    wrong, answer = [], []
    for row in rows:
        answer = answers.get(row.line, answer)
        if row.kind == "printed" and printed_by(answer) != block(row):
            wrong.append(row.fault("another text is printed"))
        if row.kind == "says" and answer[:-2] != said(row):
            wrong.append(row.fault(f"{answer[:-2]} in place of {said(row)}"))
        size = f"{len(printed_by(answer))}, {len(answer) - 6}" if row.kind == "length" else ""
        if size != (row.given if row.kind == "length" else ""):
            wrong.append(row.fault(f"{size} bytes and tickets"))
    return wrong


def check(text: str, driver: Driver) -> Tuple[int, List[str]]:
    """Plays a file's rows, and returns how many there are, and their faults."""
    try:
        rows = rows_of(text)
        unknown = {row.kind for row in rows} - {*TEXTS, "before", "printed", "says", "length"}
        if unknown:
            raise Malformed(f"no such rows: {unknown}")
        return len(rows), judge(rows, driver)
    except (KeyError, ValueError, IndexError, Malformed, Unplayed) as fault:
        return 0, [f"{type(fault).__name__}: {fault}"]
