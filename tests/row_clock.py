"""Plays rows of a daemon's clock.

A story begins with `# ` and a sentence. Each of its lines is a call, ` => ` and the answer. A letter names a boot, and
times are in milliseconds. `begin BOOT KEPT SINCE WALL` starts the clock. KEPT is the content of the clock's file:
`nothing`; `kept`, what the clock wrote last; `BOOT OFFSET REACHED`; or `bytes` and bytes in hexadecimal. The other
calls are those of `crates/booth_step_rows/src/clock.rt`.

It is imported by `rows.py`, and not run by itself.
"""

import struct
from typing import List, Tuple

from row_driver import Driver, Trouble

VERSION = 1


def boot_id(letter: str) -> bytes:
    """Returns the id of a boot, which has 36 characters."""
    return letter.encode() * 36


def spelling(boot: str, offset: str, reached: str) -> str:
    """Returns the bytes of a clock file in hexadecimal digits: 60 bytes, with numbers in network order."""
    return (struct.pack(">QQQ", VERSION, int(offset), int(reached)) + boot_id(boot)).hex()


def line_of(call: str, kept: str) -> str:
    """Returns the driver's line of a call."""
    word, *given = call.split(" ")
    if word != "begin":
        return call
    boot, since, wall = given[0], given[-2], given[-1]
    which = given[1:-2]
    if which == ["nothing"]:
        told = "-"
    elif which == ["kept"]:
        told = kept
    elif which[0] == "bytes":
        told = which[1]
    elif len(which) == 3:
        told = spelling(*which)
    else:
        raise Trouble(f"no kept clock: {call}")
    return f"begin {boot_id(boot).hex()} {told} {since} {wall}"


def shown(call: str, answer: str) -> str:
    """Returns an answer in the form of a row."""
    if call != "kept":
        return answer
    version, offset, reached = struct.unpack(">QQQ", bytes.fromhex(answer)[:24])
    boot = bytes.fromhex(answer)[24:].decode()
    if version != VERSION or boot != boot[0] * 36:
        raise Trouble(f"a kept clock of another form: {answer}")
    return f"{boot[0]} {offset} {reached}"


def play(story: str, driver: Driver) -> Tuple[int, List[str]]:
    """Plays a story from its start to each of its lines. Returns how many lines it has, and the faults."""
    head, *rows = story.strip("\n").split("\n")
    lines: List[str] = []
    wrong, kept = [], "-"
    for row in rows:
        call, arrow, wanted = row.partition(" => ")
        if not arrow:
            raise Trouble(f"{head}: {row}")
        lines.append(line_of(call, kept))
        answer = driver.play("clock", lines)[-1][0]
        kept = answer if call == "kept" else kept
        if shown(call, answer) != wanted:
            wrong.append(f"{head}: {call} => {shown(call, answer)}, and not {wanted}")
    return len(rows), wrong


def check(text: str, driver: Driver) -> Tuple[int, List[str]]:
    """Plays each story of a file, and returns how many rows there are, and the faults."""
    stories = [story for story in text.split("\n\n") if not story.startswith("##")]
    done = [play(story, driver) for story in stories]
    return sum(count for count, _ in done), [line for _, wrong in done for line in wrong]
