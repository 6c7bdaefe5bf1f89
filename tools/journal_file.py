"""Reads a member's journal, in the form of docs/JOURNAL.md: each call of its daemon, and the answer.

It is imported by the tests, and not run by itself. It checks only the form, and knows no rule of the protocol.
"""

import ipaddress
import re
from typing import List, NamedTuple, Optional

DATAGRAM_BYTES = 16_461
NAME = r"[\x21-\x7E]{1,63}"
NUMBER = r"(?:0|[1-9][0-9]*)"
HEX = r"(?:-|(?:[0-9a-f]{2})+)"
CALLS = {
    "now": re.compile("now"),
    "open": re.compile(r"open (?P<address>\S+)"),
    "next": re.compile("next"),
    "send": re.compile(rf"send (?P<address>\S+) (?P<port>{NUMBER}) (?P<hex>{HEX})"),
    "kept": re.compile(rf"kept (?P<ticket>{NAME})"),
    "keep": re.compile(rf"keep (?P<ticket>{NAME}) (?P<hex>{HEX})"),
    "job": re.compile(rf"job (?P<number>{NUMBER}) (?P<ticket>{NAME}) (?P<expires>{NUMBER})"),
}
DONE = re.compile("ok|fail")
ANSWERS = {
    "now": re.compile(NUMBER),
    "open": DONE,
    "next": re.compile(
        rf"quiet|stop|fail|handler {NUMBER} (?:-?[1-9][0-9]*|0)"
        rf"|data (?P<address>\S+) (?P<port>{NUMBER}) (?P<hex>{HEX})"
    ),
    "send": DONE,
    "kept": re.compile(rf"none|fail|(?P<hex>{HEX})"),
    "keep": DONE,
    "job": DONE,
}
RECORD_BYTES = (32, 64)


class BadLine(Exception):
    """A line with another form than a journal's line. Its number counts from 1."""

    def __init__(self, number, line):
        super().__init__(f"line {number}: {line!r}")
        self.number = number


class Entry(NamedTuple):
    """A call and its answer, which is `None` if it is missing. `line` is the number of the call's line."""

    line: int
    kind: str
    call: dict
    answer: Optional[str]
    came: dict


def bytes_of(text):
    return b"" if text == "-" else bytes.fromhex(text)


def is_address(text):
    try:
        return str(ipaddress.ip_address(text)) == text
    except ValueError:
        return False


def are_fields(kind, fields):
    """Returns whether the fields of a call or an answer are in their ranges."""
    address, port, digits = fields.get("address"), fields.get("port"), fields.get("hex")
    if address is not None and not is_address(address) and (kind, address) != ("open", "-"):
        return False
    if kind in ("kept", "keep") and digits is not None and len(bytes_of(digits)) not in RECORD_BYTES:
        return False
    return port is None or int(port) < 2**16


def read_call(line):
    """Returns the kind and the fields of a call's line, or `None` if the line is not a call."""
    kind = line.split(" ")[0]
    found = CALLS[kind].fullmatch(line) if kind in CALLS else None
    return (kind, found.groupdict()) if found and are_fields(kind, found.groupdict()) else None


def read_answer(kind, line):
    """Returns the fields of an answer's line, or `None` if the line is not an answer to such a call."""
    found = ANSWERS[kind].fullmatch(line)
    if not found or not are_fields(kind, found.groupdict()):
        return None
    digits = found.groupdict().get("hex")
    if kind == "next" and digits is not None and len(bytes_of(digits)) > DATAGRAM_BYTES:
        return None
    return {name: value for name, value in found.groupdict().items() if value is not None}


def lines_of(data):
    """Returns the lines of a journal. The text after the last line end is left out, because its append was torn."""
    return data.decode("latin-1").split("\n")[:-1]


def entries_of(data) -> List[Entry]:
    """Returns the calls of a journal, in order. Only the last call before a `now` or the end may lack its answer."""
    entries, asked = [], None
    for number, line in enumerate(lines_of(data), 1):
        if asked is not None:
            at, kind, call = asked
            came = read_answer(kind, line)
            if came is None and line != "now":
                raise BadLine(number, line)
            entries.append(Entry(at, kind, call, line if came is not None else None, came or {}))
            asked = None
            if came is not None:
                continue
        said = read_call(line)
        if said is None:
            raise BadLine(number, line)
        asked = (number, *said)
    if asked is not None:
        entries.append(Entry(asked[0], asked[1], asked[2], None, {}))
    return entries


def read(path):
    """Returns the calls of the journal at this path."""
    with open(path, "rb") as file:
        return entries_of(file.read())
