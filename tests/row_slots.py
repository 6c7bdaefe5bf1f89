"""Plays rows about a record file, which is opened over a disk in memory.

A file is written as its slots of version 1, separated by `, `, and after ` / ` its slots of version 2. `/ ` begins a
file that has only slots of version 2, and `nothing` is the empty file. A slot is the commit byte, the number and the
term of a record. A word may follow: `held` if the record has a lease of this term; `noted` if the bytes that nobody
reads are not zero; `cut` if the slot ends with its record; `bare` if the record has no version; `other` if it has the
other version; `behind` if a byte after the parts of the record is set.

It is imported by tests/rows.py, and not run by itself.
"""

from typing import Dict, List, Tuple

from row_driver import Driver
from row_text import Malformed, Play, Plays, Row, check_rows, hexadecimal, told

# the places of the two slots of version 2, and the length of a slot of each version, in bytes
SECOND_STARTS = (128, 256)
LENGTHS = {1: 64, 2: 80}
UNTIL = 1_600_000
MANY = 100
SOME_BYTES = (0, 1, 2, 0x7F, 0x80, 0xFF)


# ---- files and records


def slot(version: int, words: str) -> bytes:
    """Returns the bytes of a slot."""
    commit, number, term, *marks = words.split(" ")
    found = bytearray(80)
    found[0] = int(commit)
    found[8:16] = int(number).to_bytes(8, "big")
    found[19], found[23] = version, int(term)
    length = LENGTHS[version]
    if marks == ["noted"]:
        found[1:8] = b"\xa5" * 7
        found[48:] = b"\xa5" * 32 if version == 1 else found[48:]
    elif marks == ["cut"] and version == 1:
        length = 48
    elif marks == ["held"]:
        found[27:32] = bytes([1]) + int(term).to_bytes(4, "big")
        found[32:40] = UNTIL.to_bytes(8, "big")
    elif marks == ["bare"]:
        found[19] = 0
    elif marks == ["other"]:
        found[19] = 3 - version
    elif marks == ["behind"]:
        found[47 if version == 1 else 79] = 1
    elif marks:
        raise Malformed(f"no mark: {words}")
    return bytes(found[:length])


def file_of(text: str) -> bytes:
    """Returns the bytes of a file."""
    if text == "nothing":
        return b""
    old, _, new = f" {text}".partition(" / ") if "/ " in text else (text, "", "")
    found = b"".join(slot(1, words) for words in old.strip().split(", ")) if old.strip() else b""
    for start, words in zip(SECOND_STARTS, new.split(", ") if new else []):
        found = found.ljust(start, b"\0") + slot(2, words)
    return found


def record_words(text: str) -> str:
    """Returns the words with which the driver is given the record of `TERM`, `TERM held` or `TERM first`."""
    term, _, mark = text.partition(" ")
    if mark not in ("", "held", "first"):
        raise Malformed(f"no record: {text}")
    return f"{1 if mark == 'first' else 2} {term} " + (f"{term} {UNTIL}" if mark == "held" else "-")


def record_shown(text: str) -> str:
    """Returns how the driver shows such a record, or `none`."""
    if text == "none":
        return "None"
    version, term, *lease = record_words(text).split(" ")
    shown = f"Some(Lease {{ term: {lease[0]}, until: {lease[1]} }})" if lease != ["-"] else "None"
    fields = f"version: {version}, term: {term}, lease: {shown}, bound: None, promise: None, abstain: 0"
    return f"Some(Record {{ {fields} }})"


def lines(held: str, data: bytes, read: str) -> List[str]:
    """Returns what is wanted of a file that is open: what it holds, its bytes, and what a new open reads in them."""
    return [f"holds {record_shown(held)}", f"bytes {hexadecimal(data)}", f"reads {record_shown(read)}"]


# ---- rows


def opening(row: Row, _rows: List[Row]) -> List[Play]:
    """A file, perhaps behind the number of calls of its disk that pass, and what it is read as, `torn` or `failed`."""
    calls, _, file = row.given.partition("; ") if "; " in row.given else (MANY, "", row.given)
    data = file_of(file)
    faulty = [f"{row.wanted} {hexadecimal(data)}"] if row.wanted in ("torn", "failed") else None
    return [(f"open {calls} {hexadecimal(data)}", faulty or lines(row.wanted, data, row.wanted))]


def put(row: Row, _rows: List[Row]) -> List[Play]:
    """A record that is put into the file of the row above, and the file that is left."""
    held = row.given.replace(" first", "")
    return [(f"put {record_words(row.given)}", lines(held, file_of(row.wanted), held))]


def preparation(row: Row, _rows: List[Row]) -> List[Play]:
    """A prepare of the file of the row above: the record that it holds before and after, and the file that is left."""
    return [("prepare", lines(row.given, file_of(row.wanted), row.given))]


def failure(row: Row, rows: List[Row]) -> List[Play]:
    """`put RECORD`, `prepare` or `reopen` that fails: the fault, what the file holds, its slots, and what they are read as."""
    fault, held, file, read = row.wanted.split("; ")
    what, _, record = row.given.partition(" ")
    line = f"put {record_words(record)}" if record else what
    return [(line, [*told(rows)[f"{what} {fault}"], *lines(held, file_of(file), read)])]


def one_byte(row: Row, _rows: List[Row]) -> List[Play]:
    """A file with each byte at a place, what it is read as, and what with the byte 1 there."""
    place, file = row.given.split("; ")
    others, at_one = row.wanted.split("; ")
    plays = []
    for byte in range(256):
        data = bytearray(file_of(file))
        data[int(place)] = byte
        read = at_one if byte == 1 else others
        plays.append((f"open {MANY} {data.hex()}", lines(read, bytes(data), read)))
    return plays


def two_bytes(row: Row, _rows: List[Row]) -> List[Play]:
    """A file with some bytes at each of these places and at the one behind it, and what each is read as."""
    places, file = row.given.split("; ")
    start, _, end = places.partition(" to ")
    whole = file_of(file).ljust(SECOND_STARTS[0] + LENGTHS[2], b"\0")
    plays = []
    for place in range(int(start), int(end) + 1):
        for first in SOME_BYTES:
            for second in (*SOME_BYTES, *whole[place + 1 : place + 2]):
                data = bytearray(whole)
                data[place : place + 2] = bytes([first, second])[: len(whole) - place]
                plays.append((f"open {MANY} {data.hex()}", lines(row.wanted, bytes(data), row.wanted)))
    return plays


PLAYS: Dict[str, Plays] = {
    "open": opening,
    "put": put,
    "prepare": preparation,
    "fails": failure,
    "each byte": one_byte,
    "two bytes": two_bytes,
}


def check(text: str, driver: Driver) -> Tuple[int, List[str]]:
    """Plays a file's rows, and returns how many there are, and what is wrong with some."""
    return check_rows(text, driver, "slots", PLAYS)
