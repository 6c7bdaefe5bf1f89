"""Plays rows about names, addresses and times, and about the spellings of frames and of records.

It is imported by tests/rows.py, and not run by itself.
"""

import ipaddress
import zlib
from typing import Dict, List, Optional, Tuple

import frames
from row_driver import Driver
from row_text import Malformed, Play, Plays, Row, bytes_of, check_rows, fields_of, hexadecimal, told

# the commands whose letters are no name in Rattle
NAMES = {"Ack.": "Ack", "RJC!": "Rjc"}
NOT_SIGNED = frames.numbers(2) + bytes(24)


def fault_of(row: Row, rows: List[Row], of: str) -> Optional[List[str]]:
    """Returns the two lines of the fault that a row wants, from the file's texts for this kind of fault."""
    name = row.wanted.partition("fault ")[2]
    return told(rows)[f"{of} {name}"] if name else None


# ---- names, values, addresses, paths and times


def address_lines(row: Row, printed: str) -> List[str]:
    """Returns the wanted lines of an address that is read: Python computes its bytes and its id."""
    packed = ipaddress.ip_address(row.given).packed
    return [f"{packed.hex()} {zlib.crc32(packed)} {printed}"]


def address(row: Row, rows: List[Row]) -> List[Play]:
    """A text, and the printed form of its address."""
    wanted = fault_of(row, rows, "address") or address_lines(row, row.wanted)
    return [(f"address {hexadecimal(bytes_of(row.given))}", wanted)]


def address_field(row: Row, _rows: List[Row]) -> List[Play]:
    """An address in its one spelling, and its id or its bytes."""
    packed = ipaddress.ip_address(row.given).packed
    given = zlib.crc32(packed) if row.kind == "id" else packed.hex()
    wanted = int(row.wanted, 16) if row.kind == "id" else row.wanted
    if given != wanted:
        raise Malformed(row.fault(f"Python has {given}"))
    return [(f"address {hexadecimal(bytes_of(row.given))}", address_lines(row, row.given))]


def kept(row: Row, rows: List[Row]) -> List[Play]:
    """Bytes that are accepted unchanged, or the fault."""
    data = hexadecimal(bytes_of(row.given))
    wanted = [f"{row.kind} {data}"] if row.wanted == "kept" else fault_of(row, rows, row.kind)
    return [(f"{row.kind} {data}", wanted or [])]


def plain(row: Row, _rows: List[Row]) -> List[Play]:
    """A line in the driver's form, and the one line of its answer."""
    return [(f"{row.kind} {row.given}", [row.wanted])]


def constants(row: Row, rows: List[Row]) -> List[Play]:
    """Returns the numbers and the bytes that are constants, and the texts of two faults without bytes."""
    found = fields_of(row.wanted, "members text frame auth nobody name value")
    numbers = [found["members"], found["text"], found["frame"], found["auth"], str(int(found["nobody"], 16))]
    texts = [line for key in ("constants TermSpent", "constants Torn") for line in told(rows)[key]]
    return [("constants", [" ".join([*numbers, found["name"], found["value"]]), *texts])]


# ---- frames


def name_of(letters: str) -> str:
    return NAMES.get(letters, letters)


def command(row: Row, _rows: List[Row]) -> List[Play]:
    """A command, its body, its sender and receiver, and the command that answers it."""
    body, direction, answer = row.wanted.split(" ")
    shown = "None" if answer == "none" else f"Some({name_of(answer)})"
    code = frames.code(row.given)
    return [(f"command {code}", [f"command {name_of(row.given)}", f"{code} {body} {direction}", f"answer {shown}"])]


def body_line(kind: int, body: bytes) -> str:
    """Returns the line of a frame's body, by the layout in tools/frames.py."""

    def text(start: int, size: int) -> str:
        return hexadecimal(body[start : start + size].split(b"\0")[0])

    if kind == frames.TICKET:
        numbers = (int.from_bytes(body[at : at + 4], "big") for at in (64, 68, 72))
        return " ".join(["ticket", text(0, 64), *map(str, numbers)])
    if kind == frames.ATTRIBUTE:
        return f"attribute {text(0, 64)} {text(64, 64)} {text(128, 128)}"
    return f"{'text' if kind == frames.TEXT else 'bare'} {hexadecimal(body)}"


def frame_lines(datagram: bytes) -> List[str]:
    """Returns the wanted lines of a frame that is read: the fields that tools/frames.py reads, and its spelling again.
    """
    head = frames.Head.read(datagram)
    letters = head.cmd.to_bytes(4, "big").decode()
    signed = head.opts & frames.AUTH
    end = len(datagram) - (frames.AUTH_BYTES if signed else 0)
    numbers = [signed, head.secs, head.usecs, head.sender, head.request, head.options, head.reason, head.result]
    body = body_line(frames.BODY_OF[letters], datagram[frames.HEAD_BYTES : end])
    again = datagram[:end] + (NOT_SIGNED if signed else b"")
    return [f"command {name_of(letters)}", " ".join(map(str, numbers)), body, f"spelled {again.hex()}"]


def made(row: Row, rows: List[Row]) -> bytes:
    """Returns the frame that tools/frames.py makes for `row` from the fields that `let` rows of the file define."""
    given = {name: value for let in rows if let.kind == "let" for name, value in [let.given.split(" ", 1)]}
    letters, _, auth = row.given.partition(" ")
    head = {name: int(given[name], 16) for name in "secs usecs sender request options reason result".split()}
    numbers = (int(given[name], 16) for name in ("leader", "term", "valid_for"))
    ticket, name, value = (bytes_of(given[field]) for field in ("ticket", "name", "value"))
    bodies = {
        frames.BARE: b"",
        frames.TICKET: frames.ticket_body(ticket, *numbers),
        frames.ATTRIBUTE: frames.attribute_body(ticket, b"" if letters == "ALst" else name, value),
        frames.TEXT: bytes_of(given["text"]),
    }
    return frames.frame(letters, bodies[frames.BODY_OF[letters]], NOT_SIGNED if auth else b"", **head)


def frame(row: Row, rows: List[Row]) -> List[Play]:
    """A command, with or without an authentication part, and the bytes of its frame with the fields of the file."""
    datagram = bytes_of(" ".join(row.text))
    if datagram != made(row, rows):
        raise Malformed(row.fault("tools/frames.py spells another frame"))
    return [(f"frame {datagram.hex()}", frame_lines(datagram))]


def frame_named(rows: List[Row], name: str) -> bytes:
    return next(bytes_of(" ".join(row.text)) for row in rows if row.kind == "frame" and row.given == name)


def signed(row: Row, rows: List[Row]) -> List[Play]:
    """A frame of the file, a number and a hash, and the frame with both in its authentication part."""
    named, number, part = row.given.split(", ")
    datagram, plain_frame = bytes_of(" ".join(row.text)), frame_named(rows, named)
    line = f"signed {int(number, 16)} {bytes_of(part).hex()} {plain_frame.hex()}"
    return [(f"frame {datagram.hex()}", frame_lines(datagram)), (line, [f"spelled {datagram.hex()}"])]


def changed(rows: List[Row], given: str) -> bytes:
    """Returns the frame of `FRAME; WHAT: LENGTH, COUNT at PLACE to BYTE`, filled up with `x` if it is longer."""
    named, _, change = given.partition("; ")
    length, *runs = change.partition(": ")[2].split(", ")
    size = int(length)
    datagram = bytearray(frame_named(rows, named)[:size].ljust(size, b"x"))
    datagram[24:28] = frames.numbers(size)[: max(0, size - 24)]
    for run in runs:
        count, _, place, _, byte = run.split(" ")
        datagram[int(place) : int(place) + int(count)] = bytes.fromhex(byte) * int(count)
    return bytes(datagram[:size])


def change(row: Row, rows: List[Row]) -> List[Play]:
    """A changed frame of the file, and its fault, or `none`."""
    datagram = changed(rows, row.given)
    wanted = frame_lines(datagram) if row.wanted == "none" else told(rows)[f"frame {row.wanted}"]
    return [(f"frame {hexadecimal(datagram)}", wanted)]


# ---- records


def record_line(fields: Dict[str, str]) -> str:
    """Returns the line of a record with these fields."""

    lease = bound = promise = "None"
    if "lease" in fields:
        lease = "Some(Lease {{ term: {}, until: {} }})".format(*fields["lease"].split(" "))
    if "bound" in fields:
        bound = f"Some(MemberId({int(fields['bound'], 16)}))"
    if "promise" in fields:
        to, term, until = fields["promise"].split(" ")
        promise = f"Some(Promise {{ to: MemberId({int(to, 16)}), term: {term}, until: {until} }})"
    start = f"Record {{ version: {fields['version']}, term: {fields['term']}, lease: {lease}, bound: {bound}"
    return f"{start}, promise: {promise}, abstain: {fields.get('abstain', 0)} }}"


def record_parts(row: Row) -> Tuple[str, Dict[str, str]]:
    name, _, fields = row.given.partition("; ")
    return name, fields_of(fields, "version term lease bound promise abstain")


def record(row: Row, _rows: List[Row]) -> List[Play]:
    """A record's name and its fields, with its bytes below them."""
    data = bytes_of(" ".join(row.text)).hex()
    fields = record_parts(row)[1]
    again = [f"spelled {data}"] if fields["version"] == "2" else []
    return [(f"record {data}", [f"record {record_line(fields)}", *again])]


def record_change(row: Row, rows: List[Row]) -> List[Play]:
    """A record's name, a place and the byte there, or this many of its bytes, and the fault."""
    name, *changes = row.given.split(", ")
    whole = next(bytes_of(" ".join(one.text)) for one in rows if one.kind == "record" and record_parts(one)[0] == name)
    data = bytearray(whole)
    for one in changes:
        what, *numbers = one.split(" ")
        if what == "cut":
            data = data[: int(numbers[0])]
        elif what == "longer":
            data += bytes(int(numbers[0]))
        else:
            data[int(what)] = int(numbers[0])
    return [(f"record {hexadecimal(bytes(data))}", told(rows)[f"record {row.wanted}"])]


PLAYS: Dict[str, Plays] = {
    "address": address,
    "id": address_field,
    "octets": address_field,
    "name": kept,
    "value": kept,
    "path": kept,
    "text": kept,
    "times": plain,
    "constants": constants,
    "command": command,
    "frame": frame,
    "signed": signed,
    "change": change,
    "record": record,
    "record change": record_change,
}


def check(text: str, driver: Driver) -> Tuple[int, List[str]]:
    """Plays a file's rows, and returns how many there are, and their faults."""
    return check_rows(text, driver, "bytes", PLAYS)
