"""Plays rows about the gate of a member, the seal, and the MACs under both.

A datagram is the signed frame of the file with edits. They apply in their order, with `, ` between them:

    PLACE BYTES            replaces the bytes from a place on by these, in hexadecimal
    from WHO, leader WHO   sets the sender, and the leader in the body
    command LETTERS        sets the command
    ticket NAME            sets the first bytes of the ticket's name
    secs NUMBER            sets the seconds of the sender's clock
    sign                   adds the MAC of `secret-key` by SHA-1, which Python's hmac makes
    hash KEY HASH          adds the hash that the row `let` of the file has for a key and a hash
    flip PLACE             flips the last bit of a byte
    cut SIZE, fill SIZE    cuts the datagram, and fills it up with letters `x`
    add BYTES              adds bytes at the end
    NAME                   makes the edits of the row `let` with this name

`unchanged` means that there is no edit. The driver judges and seals with a key ring and with a copy of it, and both
must give the same answers.

It is imported by tests/rows.py, and not run by itself.
"""

import hashlib
import hmac
from typing import Dict, List, Tuple

import frames
from row_driver import Driver
from row_text import Malformed, Play, Plays, Row, bytes_of, check_rows, hexadecimal, told

WHO = {
    "sender": frames.member_id("192.168.201.100"),
    "me": frames.member_id("192.168.202.100"),
    "arbitrator": frames.member_id("192.168.203.100"),
    "unknown": 0x01020304,
    "client": 0,
    "none": frames.NO_ONE,
}
BITS = [1, 2, 4, 8, 16, 32, 64, 128]
PLAIN, WHOLE = 124, 152
# 2023-11-14 22:13:20.999, when the frames are sent, and 600 seconds later
NOW = 1_700_000_000_999
LATER = 1_700_000_600_999
KEY = b"secret-key"
KEYED = f"ring sha1 {KEY.hex()} -"
UNKEYED = "ring -"


# ---- datagrams


def let(rows: List[Row], name: str) -> str:
    """Returns the text of a row `let` with this name."""
    return next(row.wanted for row in rows if row.kind == "let" and row.given == name)


def put(frame: bytearray, place: int, new: bytes) -> None:
    if place + len(new) > len(frame):
        raise Malformed(f"no place {place} for {len(new)} bytes")
    frame[place : place + len(new)] = new


def edit(frame: bytearray, rows: List[Row], one: str) -> None:
    """Makes an edit."""
    what, _, more = one.partition(" ")
    if what.isdigit():
        put(frame, int(what), bytes_of(f"# {more}"))
    elif what in ("from", "leader"):
        put(frame, 20 if what == "from" else 112, frames.numbers(WHO[more]))
    elif what in ("command", "ticket"):
        put(frame, 28 if what == "command" else 48, more.encode())
    elif what == "secs":
        put(frame, 4, frames.numbers(int(more)))
    elif what == "sign":
        put(frame, PLAIN + 4, hmac.digest(KEY, bytes(frame[:PLAIN]), "sha1"))
    elif what == "hash":
        put(frame, PLAIN + 4, bytes.fromhex(let(rows, more)))
    elif what == "flip":
        frame[int(more)] ^= 1
    elif what == "cut":
        del frame[int(more) :]
    elif what == "fill":
        frame.extend(b"x" * (int(more) - len(frame)))
    elif what == "add":
        frame.extend(bytes_of(f"# {more}"))
    else:
        edit_all(frame, rows, let(rows, one))


def edit_all(frame: bytearray, rows: List[Row], edits: str) -> None:
    for one in edits.split(", ") if edits != "unchanged" else []:
        edit(frame, rows, one)


def edited(rows: List[Row], edits: str) -> bytes:
    """Returns the file's signed frame with edits."""
    frame = next(bytearray(bytes_of(" ".join(row.text))) for row in rows if row.kind == "signed frame")
    if len(frame) != WHOLE or frame[PLAIN:] != frames.auth_part(KEY, bytes(frame[:PLAIN])):
        raise Malformed("the frame is not signed as Python does it")
    edit_all(frame, rows, edits)
    return bytes(frame)


def ring_line(words: str) -> str:
    """Returns the driver's line for the ring of `HASH KEY`, possibly with a second key, or for `-`."""
    hash_name, *keys = words.split(" ")
    if hash_name == "-":
        return UNKEYED
    given = [key.encode().hex() for key in keys]
    return " ".join(["ring", hash_name, *given, *["-"] * (2 - len(given))])


def judged(rows: List[Row], ring: str, frame: bytes, fault: str, me: str = "me", now: int = NOW) -> List[Play]:
    """Plays a datagram at the gate of a member with this ring: the answers of the ring and of its copy."""
    verdict = ["admitted"] if fault == "taken" else told(rows)[f"gate {fault}"]
    return [(ring, []), (f"gate {WHO[me]} {now} {hexadecimal(frame)}", verdict * 2)]


# ---- rows at the gate


def conf(row: Row, _rows: List[Row]) -> List[Play]:
    """Returns the configuration of each gate of the file."""
    return [(f"conf {''.join(line + chr(10) for line in row.text).encode().hex()}", [])]


def signed_frame(row: Row, rows: List[Row]) -> List[Play]:
    """The signed frame itself."""
    return judged(rows, KEYED, edited(rows, "unchanged"), row.wanted)


def keyed(row: Row, rows: List[Row]) -> List[Play]:
    """A datagram, for a gate with the key."""
    return judged(rows, KEYED, edited(rows, row.given), row.wanted)


def unkeyed(row: Row, rows: List[Row]) -> List[Play]:
    """A datagram, for a gate without a key."""
    return judged(rows, UNKEYED, edited(rows, row.given), row.wanted)


def there(row: Row, rows: List[Row]) -> List[Play]:
    """A datagram at the first site, with the key and without it."""
    frame = edited(rows, row.given)
    return [play for ring in (KEYED, UNKEYED) for play in judged(rows, ring, frame, row.wanted, "sender")]


def cuts(row: Row, rows: List[Row]) -> List[Play]:
    """The same for a datagram that is cut to each of these sizes."""
    sizes, edits = row.given.split("; ")
    start, _, end = sizes.partition(" to ")
    frame = edited(rows, edits)
    lengths = range(int(start), int(end) + 1)
    rings = (KEYED, UNKEYED)
    return [play for n in lengths for ring in rings for play in judged(rows, ring, frame[:n], row.wanted, "sender")]


def age(row: Row, rows: List[Row]) -> List[Play]:
    """A datagram 600 seconds later with the key; without a key it is accepted."""
    frame = edited(rows, row.given)
    return judged(rows, KEYED, frame, row.wanted, now=LATER) + judged(rows, UNKEYED, frame, "taken", now=LATER)


def ringed(row: Row, rows: List[Row]) -> List[Play]:
    """A ring, and a datagram."""
    ring, _, edits = row.given.partition("; ")
    return judged(rows, ring_line(ring), edited(rows, edits), row.wanted)


def name_fault(frame: bytes) -> str:
    """Returns the fault of a frame with another name: it is not a name, or the MAC is wrong."""
    name, _, rest = frame[48:112].partition(b"\0")
    is_name = 0 < len(name) < 64 and all(0x21 <= byte <= 0x7E for byte in name) and not any(rest)
    return "BadMac" if is_name else "Frame(Name)"


def flips(row: Row, rows: List[Row]) -> List[Play]:
    """Each of these bits of each of these bytes is flipped, one at a time."""
    places, which, ring, edits = row.given.split("; ")
    start, _, end = places.partition(" to ")
    word, _, number = which.partition(" ")
    bits = {"all": BITS, "only": [bit for bit in BITS if str(bit) == number]}.get(word, [])
    bits = [bit for bit in BITS if str(bit) != number] if word == "but" else bits
    if not bits:
        raise Malformed(row.fault("no bits"))
    plays = []
    for place in range(int(start), int(end or start) + 1):
        for bit in bits:
            frame = bytearray(edited(rows, edits))
            frame[place] ^= bit
            fault = name_fault(bytes(frame)) if row.wanted == "Frame(Name) or BadMac" else row.wanted
            plays += judged(rows, ring_line(ring), bytes(frame), fault)
    return plays


def said(row: Row, rows: List[Row]) -> List[Play]:
    """Plays `SIZE; COMMAND from WHO leader WHO`, for a member without a key."""
    size, _, words = row.given.partition("; ")
    letters, _, sender, _, leader = words.split(" ")
    edits = f"0 00000000, 24 {int(size):08x}, command {letters}, from {sender}, leader {leader}, cut {size}"
    return judged(rows, UNKEYED, edited(rows, edits), row.wanted)


def command_frame(rows: List[Row], letters: str, size: int) -> bytes:
    """Returns the frame of a command, from a client or from the sender. The frame names ticket-db8. It names the sender
    as the leader, or has an attribute of `size`. It has no authentication part.
    """
    frame = bytearray(edited(rows, "36 00000000, cut 48"))
    put(frame, 28, letters.encode())
    if letters in frames.ANSWER_TO:
        put(frame, 20, frames.numbers(WHO["client"]))
    body = {
        0: b"",
        76: frames.ticket_body(b"ticket-db8", WHO["sender"], 0, 0),
        256: frames.attribute_body(b"ticket-db8", b"" if letters == "ALst" else b"size", b""),
    }[size]
    return bytes(frame) + body


def command(row: Row, rows: List[Row]) -> List[Play]:
    """A command, the bytes of its body and its MAC: with the MAC and with a key, with the MAC and without a key, and
    without both.
    """
    letters, size, mac = row.given.split(" ")
    frame = command_frame(rows, letters, int(size))
    attribute = frames.ATTR if size == "256" else 0

    def spelled(auth: bytes) -> bytes:
        made = bytearray(frame + auth)
        put(made, 0, frames.numbers(attribute | (frames.AUTH if auth else 0)))
        put(made, 24, frames.numbers(len(made)))
        return bytes(made)

    whole, plain = spelled(frames.numbers(2) + bytes.fromhex(mac) + bytes(4)), spelled(b"")
    cases = [(KEYED, whole), (UNKEYED, whole), (KEYED, plain), (UNKEYED, plain)]
    faults = row.wanted.split(", ")
    return [play for case, fault in zip(cases, faults) for play in judged(rows, *case, fault)]


# ---- the seal, and MACs


def seal(row: Row, rows: List[Row]) -> List[Play]:
    """A ring, a time and the contents of a datagram, and the datagram that is sealed then."""
    ring, now, edits = row.given.split("; ")
    sealed = f"sealed {edited(rows, row.wanted).hex()}"
    return [(ring_line(ring), []), (f"seal {now} {edited(rows, edits).hex()}", [sealed, sealed])]


def mac_lines(key: bytes, message: bytes) -> List[str]:
    """Returns the line of both MACs, which Python computes."""
    return [f"{hmac.digest(key, message, 'sha1').hex()} {hmac.digest(key, message, 'sha256').hex()}"]


def mac(row: Row, _rows: List[Row]) -> List[Play]:
    """A key and a message, and the MAC by the hash that the row names."""
    key, message = (bytes_of(part) for part in row.given.split("; "))
    if hmac.digest(key, message, row.kind) != bytes_of(f"# {row.wanted}"):
        raise Malformed(row.fault("Python has another MAC"))
    return [(f"mac {key.hex()} {hexadecimal(message)}", mac_lines(key, message))]


def key_file(row: Row, rows: List[Row]) -> List[Play]:
    """The bytes of a key file, and the MAC of an empty message under the intended key, or the fault."""
    file = bytes_of(row.given)
    line = f"mac {hexadecimal(file)} -"
    if row.wanted.startswith("fault "):
        return [(line, told(rows)[f"key {row.wanted[6:]}"])]
    key = frames.key_in(file)
    if hmac.digest(key, b"", "sha1") != bytes_of(f"# {row.wanted}"):
        raise Malformed(row.fault("Python has another MAC"))
    return [(line, mac_lines(key, b""))]


def digest(row: Row, _rows: List[Row]) -> List[Play]:
    """A message and its SHA-1."""
    message = bytes_of(row.given)
    wanted = bytes_of(f"# {row.wanted}").hex()
    if hashlib.sha1(message).hexdigest() != wanted:
        raise Malformed(row.fault("Python has another digest"))
    return [(f"digest {hexadecimal(message)}", [f"digest {wanted}"])]


PLAYS: Dict[str, Plays] = {
    "conf": conf,
    "signed frame": signed_frame,
    "keyed": keyed,
    "unkeyed": unkeyed,
    "there": there,
    "cuts": cuts,
    "age": age,
    "ring": ringed,
    "flips": flips,
    "said": said,
    "command": command,
    "seal": seal,
    "sha1": mac,
    "sha256": mac,
    "key": key_file,
    "digest": digest,
}


def check(text: str, driver: Driver) -> Tuple[int, List[str]]:
    """Plays a file's rows, and returns how many there are, and their faults."""
    return check_rows(text, driver, "gate", PLAYS)
