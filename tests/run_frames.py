"""Frames as text, and the bytes of a frame from its text, by docs/PROTOCOL.md.

It is imported by the programs in tests/, and not run by itself. tests/row_runs.py says what the texts are.
"""

import re
from typing import List

import frames
from row_driver import Trouble

# the members of the rows' configurations, by the names that stand for them
MEMBERS = {"S1": "192.168.201.100", "S2": "192.168.202.100", "AR": "192.168.203.100"}

# the address and the port of a client or a stranger
CLIENT = ("127.0.0.1", 4000)

# an id that is of no member
STRANGER = 0x01020304

IDS = {name: frames.member_id(address) for name, address in MEMBERS.items()}
IDS.update(none=frames.NO_ONE, stranger=STRANGER)

TICKET = "ticket-db8"

# an empty text
NOTHING = "''"


def bytes_of(text: str) -> bytes:
    r"""Returns the bytes of a text: `$` is a line end, `\hh` is a byte, `''` is no byte, and `# ` comes before
    hexadecimal digits.
    """
    if text.startswith("# "):
        return bytes.fromhex(text[2:])
    if text == NOTHING:
        return b""
    return re.sub(rb"\\([0-9a-f]{2})", lambda found: bytes.fromhex(found[1].decode()), text.replace("$", "\n").encode())


def letter_of(byte: int) -> str:
    """Returns the text for a byte."""
    if byte == 10:
        return "$"
    return chr(byte) if 32 <= byte < 127 and byte not in b"$\\" else f"\\{byte:02x}"


def text_of(data: bytes) -> str:
    """Returns the text for these bytes."""
    text = "".join(letter_of(byte) for byte in data)
    return text.replace("'", "\\27") if text == NOTHING else text or NOTHING


def code_of(number: int) -> str:
    """Returns the four letters of a command, a reason or a result, or its number if it has none."""
    letters = number.to_bytes(4, "big")
    return text_of(letters) if all(33 <= letter < 127 for letter in letters) else str(number)


def member_of(number: int) -> str:
    """Returns the name of the member with this id, `-` for 0, or the number."""
    names = [name for name, known in IDS.items() if known == number]
    return names[0] if names else str(number) if number else "-"


def number_of(word: str) -> int:
    """Returns the number that a word of a row stands for: the id of a member or of nobody, the letters of a command or
    a result, or digits.
    """
    if word == "client":
        return 0
    if word in IDS:
        return IDS[word]
    return frames.code(word) if re.fullmatch(r"[A-Z]...", word) else int(word)


def frame_of(text: str) -> bytes:
    """Returns the frame of this text, which was sent at 0: sender, command, request, options, result, and its body."""
    opts = 0
    if " = " in text:
        head, said = text.split(" = ", 1)
        body = bytes_of(said)
    elif " long " in text:
        head, count = text.split(" long ")
        body = b"a" * int(count)
    elif " of " in text:
        head, said = text.split(" of ")
        ticket, name, value = (said.split(" ", 2) + [NOTHING])[:3]
        body = frames.attribute_body(bytes_of(ticket), bytes_of(name), bytes_of(value))
        opts = frames.ATTR
    else:
        words = text.split(" ")
        head, body = " ".join(words[:5]), frames.ticket_body(TICKET.encode(), *(number_of(word) for word in words[5:]))
    sender, cmd, request, options, result = (number_of(word) for word in head.split(" "))
    length = frames.HEAD_BYTES + len(body)
    fields = dict(sender=sender, cmd=cmd, request=request, options=options, result=result)
    return frames.Head(opts=opts, length=length, **fields).spelled() + body


def name_in(field: bytes) -> str:
    """Returns the text of a name's or a value's field, in which only zeros follow the text."""
    name = field.rstrip(b"\0")
    if 0 in name or name == field:
        raise Trouble(f"no field: {field.hex()}")
    return text_of(name)


def ticket_in(body: bytes) -> List[str]:
    """Returns the body of a ticket's frame as the words of a row: its name, the leader, the term and the seconds."""
    if len(body) != 76:
        raise Trouble(f"no ticket: {body.hex()}")
    leader, term, seconds = (int.from_bytes(body[at:at + 4], "big") for at in (64, 68, 72))
    return [name_in(body[:64]), member_of(leader), str(term), str(seconds)]


def attribute_in(body: bytes) -> List[str]:
    """Returns the body of an attribute's frame as the words of a row: its ticket, its name and its value."""
    if len(body) != 256:
        raise Trouble(f"no attribute: {body.hex()}")
    return [name_in(body[:64]), name_in(body[64:128]), name_in(body[128:])]


def body_in(letters: str, body: bytes) -> List[str]:
    """Returns the body of a frame as the words of a row."""
    kind = frames.BODY_OF.get(letters, frames.TICKET)
    if kind == frames.ATTRIBUTE:
        return attribute_in(body)
    if kind == frames.TEXT:
        return [text_of(body)]
    if kind == frames.TICKET:
        return ticket_in(body)
    if body:
        raise Trouble(f"{letters} has a body: {body.hex()}")
    return []


def auth_in(auth: bytes) -> List[str]:
    """Returns an authentication part as the words of a row; it has a MAC by SHA-1 and zeros, or a longer one by
    SHA-256.
    """
    kind, mac = int.from_bytes(auth[:4], "big"), auth[4:]
    if kind == 2 and not any(mac[20:]):
        return ["mac", mac[:20].hex()]
    if kind == 3:
        return ["long", "mac", mac.hex()]
    raise Trouble(f"no authentication part: {auth.hex()}")


def frame_text(data: bytes) -> str:
    """Returns the text of a frame: command, sender, its clock, request, options, reason, result, body and MAC."""
    if len(data) < frames.HEAD_BYTES:
        raise Trouble(f"no frame: {data.hex()}")
    head, letters = frames.Head.read(data), code_of(frames.Head.read(data).cmd)
    auth = frames.AUTH_BYTES if head.opts & frames.AUTH else 0
    bits = frames.ATTR if frames.BODY_OF.get(letters) == frames.ATTRIBUTE else 0
    whole = (head.magic, head.version, head.length) == (frames.MAGIC, frames.VERSION, len(data))
    if not whole or head.opts & ~frames.AUTH != bits or head.usecs % 1000 or len(data) < frames.HEAD_BYTES + auth:
        raise Trouble(f"no frame: {data.hex()}")
    words = [letters, "of", member_of(head.sender), "at", str(head.millis()), str(head.request), str(head.options)]
    words += [code_of(head.reason), code_of(head.result)]
    end = len(data) - auth
    words += body_in(letters, data[frames.HEAD_BYTES:end])
    return " ".join(words + (auth_in(data[end:]) if auth else []))
