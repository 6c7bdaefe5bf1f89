"""Converts the lines of stories to calls in the form of the driver's player `runs`, and back.

It is imported by the programs in tests/, and not run by itself. Its frames are made by tools/frames.py, so the expected
bytes of a story do not come from crates/.

`S1`, `S2` and `AR` are the members of the configurations, and `client` is the client. A frame has one of these forms:

    SENDER COMMAND REQUEST OPTIONS REASON RESULT TICKET LEADER TERM SECONDS   a frame of a ticket
    SENDER COMMAND REQUEST OPTIONS REASON RESULT @ TICKET NAME VALUE          of an attribute; - is no NAME
    SENDER COMMAND REQUEST OPTIONS REASON RESULT = TEXT                       of a text, in which / ends a line
    SENDER COMMAND REQUEST OPTIONS REASON RESULT                              without a body
    # HEX ..                                                                  all its bytes

A record is its term, and then the term and the end of its lease if it has one. Its pledges follow, in this order:
`bound` and the member that it voted for; `promise`, the member, the term and the end; `abstain` and the time until when
it abstains. `first` precedes a record of version 1.
"""

from typing import Dict, List, Optional, Tuple

import frames
from row_driver import Trouble

Peer = Tuple[str, int]
PEERS: Dict[str, Peer] = {
    "S1": ("192.168.201.100", frames.PORT),
    "S2": ("192.168.202.100", frames.PORT),
    "AR": ("192.168.203.100", frames.PORT),
    "client": ("192.168.209.1", 4000),
}
MEMBERS = ["S1", "S2", "AR"]
MOST = 0xFFFFFFFF


def hexed(data: bytes) -> str:
    """Returns bytes in the driver's form: in hexadecimal, or `-` if there are none."""
    return data.hex() or "-"


def parted(line: str, separator: str) -> Tuple[str, str]:
    """Returns the texts before and after the first of these separators."""
    before, found, behind = line.partition(separator)
    if not found:
        raise Trouble(f"{line!r} has no {separator!r}")
    return before, behind


def peer_of(name: str) -> Peer:
    """Returns the address and the port of this member, or of the client."""
    if name not in PEERS:
        raise Trouble(f"nobody is {name!r}")
    return PEERS[name]


def number_of(word: str, most: int = MOST) -> int:
    """Returns a number: the id of a member, four letters, or digits."""
    if word in MEMBERS:
        return frames.member_id(PEERS[word][0])
    if word == "none":
        return frames.NO_ONE
    if len(word) == 4 and "A" <= word[0] <= "Z":
        return frames.code(word)
    if not (word.isascii() and word.isdigit() and int(word) <= most):
        raise Trouble(f"{word!r} is no number")
    return int(word)


def body_of(text: str, numbers: List[str]) -> bytes:
    """Returns the body of a frame, from the words after its six numbers."""
    kind, _, rest = text.partition(" ")
    if kind == "=":
        return rest.replace("/", "\n").encode()
    if kind == "@":
        ticket, named = parted(rest, " ")
        name, _, value = named.partition(" ")
        return frames.attribute_body(ticket.encode(), b"" if name == "-" else name.encode(), value.encode())
    if not numbers:
        return b""
    ticket, leader, term, seconds = numbers
    return frames.ticket_body(ticket.encode(), number_of(leader), number_of(term), number_of(seconds))


def frame_of(text: str, millis: int, key: Optional[bytes] = None) -> bytes:
    """Returns the frame of this text with this clock, sealed with the key if there is one."""
    if text.startswith("#"):
        return bytes.fromhex(text[1:])
    words = text.split(" ")
    head, rest = words[:6], words[6:]
    is_whole = rest[:1] in ([], ["="], ["@"]) or len(rest) == 4
    if len(head) < 6 or head[1] not in frames.BODY_OF or not is_whole:
        raise Trouble(f"{text!r} is no frame")
    sender, request, options, reason, result = (number_of(word) for word in head[:1] + head[2:])
    clock = {"secs": min(millis // 1000, MOST), "usecs": millis % 1000 * 1000}
    fields = {"sender": sender, "request": request, "options": options, "reason": reason, "result": result}
    return frames.sealed(key, head[1], body_of(" ".join(rest), rest), **clock, **fields)


def split_off(text: str, word: str) -> Tuple[str, List[str]]:
    """Returns the text before this word, and the words after it, if there are any."""
    before, _, behind = text.partition(f" {word} ")
    return before, behind.split(" ") if behind else []


def member_word(word: str) -> str:
    """Returns the word for a member of a record, by the member's id."""
    return str(number_of(word))


def record_of(text: str) -> str:
    """Returns a record in the driver's form."""
    version, text = (1, text[6:]) if text.startswith("first ") else (2, text)
    text, abstain = split_off(text, "abstain")
    text, promise = split_off(text, "promise")
    text, bound = split_off(text, "bound")
    term, *lease = text.split(" ")
    sizes = (len(lease), len(bound), len(promise), len(abstain))
    if any(size not in allowed for size, allowed in zip(sizes, [(0, 2), (0, 1), (0, 3), (0, 1)])):
        raise Trouble(f"{text!r} is no record")
    words = [str(version), term, *(lease or "--"), member_word(bound[0]) if bound else "-"]
    words += [member_word(promise[0]), *promise[1:]] if promise else "---"
    return " ".join(words + (abstain or ["0"]))


def said_record(words: List[str]) -> str:
    """Returns a record of the driver in the form of a story."""
    version, term, lease_term, until, bound, to, promised, end, abstain = words
    names = {member_word(member): member for member in MEMBERS}
    text = f"{'first ' if version == '1' else ''}{term}"
    text += "" if lease_term == "-" else f" {lease_term} {until}"
    text += "" if bound == "-" else f" bound {names.get(bound, bound)}"
    text += "" if to == "-" else f" promise {names.get(to, to)} {promised} {end}"
    return text + ("" if abstain == "0" else f" abstain {abstain}")


def call_of(line: str, millis: int, key: Optional[bytes]) -> str:
    """Returns the call in a story's line, in a turn with this clock, in the form that the driver prints."""
    said, failed = (line[:-7], "failed") if line.endswith(" failed") else (line, "ok")
    kind, rest = parted(said, " ")
    if kind == "send":
        to, frame = parted(rest, ": ")
        return "send {} {} {} {}".format(*peer_of(to), hexed(frame_of(frame, millis, key)), failed)
    if kind == "keep":
        ticket, record = parted(rest, " ")
        return f"keep {ticket} {record_of(record)} {failed}"
    if kind == "start":
        job, handler = parted(rest, ": ")
        number, ticket, local, expires = job.split(" ")
        return f"start {number} {ticket} {hexed(handler.encode())} {local} {expires} {failed}"
    raise Trouble(f"{line!r} is no call")


def said_body(letters: str, body: bytes) -> str:
    """Returns the body of a frame in the form of a story."""
    form = frames.BODY_OF.get(letters)
    texts = [part.rstrip(b"\0").decode(errors="replace") for part in (body[:64], body[64:128], body[128:])]
    if form == frames.TEXT:
        return f" = {body.decode(errors='replace')}".replace("\n", "/") if body else ""
    if form == frames.ATTRIBUTE:
        return f" @ {texts[0]} {texts[1] or '-'} {texts[2]}".rstrip()
    if form == frames.TICKET:
        numbers = [int.from_bytes(body[at:at + 4], "big") for at in (64, 68, 72)]
        return f" {texts[0]} {' '.join(map(name_of, numbers))}"
    return ""


def name_of(number: int) -> str:
    """Returns a number in the form of a story."""
    names = {frames.NO_ONE: "none", **{number_of(member): member for member in MEMBERS}}
    spelled = number.to_bytes(4, "big")
    letters = spelled.decode() if 0x41 <= spelled[0] <= 0x5A and spelled.isascii() else str(number)
    return names.get(number, letters)


def said_frame(data: bytes) -> str:
    """Returns a frame in the form of a story, without its clock and its seal."""
    if len(data) < frames.HEAD_BYTES:
        return f"# {data.hex()}"
    head = frames.Head.read(data)
    letters = name_of(head.cmd)
    body = data[frames.HEAD_BYTES:-frames.AUTH_BYTES] if head.opts & frames.AUTH else data[frames.HEAD_BYTES:]
    words = [head.sender, head.cmd, head.request, head.options, head.reason, head.result]
    return f"{' '.join(map(name_of, words))}{said_body(letters, body)}"


def said(call: str) -> str:
    """Returns a call that the driver printed in the form of a story, if it is a call of a turn."""
    kind, *words = call.split(" ")
    failed = " failed" if words and words[-1] == "failed" else ""
    if kind == "send":
        names = {peer: name for name, peer in PEERS.items()}
        peer = (words[0], int(words[1]))
        data = b"" if words[2] == "-" else bytes.fromhex(words[2])
        return f"send {names.get(peer, peer)}: {said_frame(data)}{failed}"
    if kind == "keep":
        return f"keep {words[0]} {said_record(words[1:-1])}{failed}"
    if kind == "start":
        number, ticket, handler, local, expires, _ = words
        return f"start {number} {ticket} {local} {expires}: {bytes.fromhex(handler).decode()}{failed}"
    return call

