"""The lines that make a host in memory for the player `runs`, from the lines of rows.

It is imported by the programs in tests/, and not run by itself. tests/row_runs.py says what the lines are.
"""

from typing import Dict, List

import row_driver
from row_driver import Trouble
from run_frames import CLIENT, MEMBERS, bytes_of, frame_of, number_of

# a configuration of two sites, an arbitrator and a ticket
GOOD = """\
site="192.168.201.100"
site="192.168.202.100"
arbitrator="192.168.203.100"
ticket="ticket-db8"
"""

# a list request without a key, request 1, sent at 1,700,000,000 seconds
REQUEST = (
    "# 00000000 6553f100 00000000 5f1ba08c 00010003 00000000 00000030 434c7374 "
    "00000001 00000000 00000000 00000000"
)

# the files of each host, by the words that stand for them
PATHS = {"file": "/etc/booth.conf", "key": "/k", "old": "/old"}

FAILS = ["send", "keep", "start", "out"]


def hexadecimal(data: bytes) -> str:
    """Returns bytes as one hexadecimal word of the driver's protocol."""
    return data.hex() or "-"


def datagram(name: str, data: bytes) -> str:
    """Returns the arrival of a datagram from this member, client or unknown sender."""
    if name not in [*MEMBERS, "client", "stranger"]:
        raise Trouble(f"no sender: {name}")
    address, port = (MEMBERS[name], 9929) if name in MEMBERS else CLIENT
    return f"datagram {address} {port} {hexadecimal(data)}"


def arrival(comes: str) -> str:
    """Returns the arrival in a step's text."""
    first, _, rest = comes.partition(" ")
    if first == "nothing" or first == "failure":
        return {"nothing": "quiet", "failure": "failure"}[comes]
    if first == "ends":
        return f"handler {rest}"
    if first == "list":
        return datagram("client", bytes_of(REQUEST))
    if first == "bytes":
        return datagram("client", bytes_of(rest))
    return datagram(first, frame_of(comes))


def step(line: str) -> str:
    """Returns the step of a line: the reading and the arrival, after the names of the calls that fail."""
    fails, found, rest = line.partition(": ")
    if not found or " " in fails:
        fails, rest = "", line
    if fails and fails not in FAILS:
        raise Trouble(f"no call that fails: {line}")
    reading, _, comes = rest.partition(" ")
    return f"step {int(reading)} {fails or '-'} {arrival(comes)}"


def record(text: str) -> str:
    """Returns the words of a record, from its text as `record_text` of tests/run_calls.py prints it."""
    version, text = (1, text[len("first "):]) if text.startswith("first ") else (2, text)
    text, _, abstain = text.partition(" abstain ")
    text, _, promise = text.partition(" promise ")
    text, _, bound = text.partition(" bound ")
    term, lease_term, lease_until = (text.split(" ") + ["-", "-"])[:3]
    to, promise_term, until = promise.split(" ") if promise else ("-", "-", "-")
    words = [str(version), term, lease_term, lease_until, str(number_of(bound)) if bound else "-"]
    words += [str(number_of(to)) if promise else "-", promise_term, until, abstain or "0"]
    return " ".join(words)


def hinder(text: str) -> str:
    """Returns the line of a further failure: of a ticket's record, of a member as a peer, or of a path."""
    kind, _, what = text.partition(" ")
    if kind == "peer":
        return f"hinder peer {MEMBERS[what]} 9929"
    return f"hinder {kind} {what if kind == 'ticket' else hexadecimal(bytes_of(what))}"


def host_lines(lines: List[str]) -> List[str]:
    """Returns the driver's lines that make the host of these lines."""
    files: Dict[str, bytes] = {"/etc/booth.conf": GOOD.encode(), "/k": b"", "/old": b""}
    made = []
    for line in lines:
        first, _, rest = line.partition(" ")
        if first in PATHS:
            files[PATHS[first]] = bytes_of(rest)
        elif first == "more":
            files["/etc/booth.conf"] += bytes_of(rest)
        elif first == "fails":
            made += [f"fails {call}" for call in rest.split(" ")]
        elif first in ("first", "room", "quiet"):
            made.append(line)
        elif first == "record":
            ticket, _, text = rest.partition(" ")
            made.append(f"record {ticket} {record(text)}")
        elif first == "hinder":
            made.append(hinder(rest))
        else:
            made.append(step(line))
    return [f"file {hexadecimal(path.encode())} {hexadecimal(text)}" for path, text in files.items()] + made


def run_line(program: str, words: List[str]) -> str:
    """Returns the line that runs this program with these arguments."""
    return row_driver.run_line(program, [bytes_of(word) for word in words])
