#!/usr/bin/env python3
"""Checks the lines that the built programs print about a refusal: the refusal and its cause.

Run it as `python3 tests/causes.py [FOLDER [WORD]]`. FOLDER has the programs, and is out/ by default. With WORD only the
rows run whose sentences have this word. It prints a line for each file of tests/rows/causes/, and has the status 1 if a
row differs. If the programs are not built it checks nothing, with status 0.

A file has groups of rows. A group begins with a sentence after `* `, and has these lines:

    | TEXT                  a line of the configuration; without such a line the configuration is CONFIGURATION
    key TEXT                the content of the key file, with \\x7f and \\n for bytes
    env NAME=VALUE          a variable of the environment
    answer RESULT HOLDER N  the answer of the member at {a} to each request: its result, the holder that it names or
                            `-`, and the seconds that its lease has left
    run PROGRAM WORDS       a run, as a shell reads it. Below it, `1 TEXT` is the first line that it must print, without
                            the name of the program, `2 TEXT` is the second line, `2 -` means that there is none, and
                            `0` means that the run prints no error

{a}, {b} and {c} stand for addresses of this machine, {conf} and {key} for the paths of the files, {good} for a file
with a key, and {folder} for the directory with all these files and the clock of a daemon.
"""

import glob
import os
import shlex
import socket
import subprocess
import sys
import threading
import time
from typing import Dict, List, NamedTuple, Optional, Tuple

HERE = os.path.dirname(os.path.abspath(__file__))
sys.path[:0] = [HERE, f"{HERE}/../tools"]

import frames
from row_text import unescaped
from scratch import scratch
from serving import TOP, end_by_signals, own_addresses

ROWS = f"{TOP}/tests/rows/causes"
CONFIGURATION = [
    'site = "{a}"',
    'site = "{b}"',
    'arbitrator = "{c}"',
    'ticket = "db8"',
    "  expire = 60",
    "  acquire-after = 30",
    "  timeout = 3",
    "  retries = 3",
    "  attr-prereq = manual maintenance ne yes",
    'ticket = "web"',
    "  mode = manual",
]
SECONDS_OF_RUN = 30
SUCCESS = "Done"


class Malformed(Exception):
    """A file of rows that cannot be read."""


class Group:
    """The lines above runs: files, the environment, and the answers of a member."""

    def __init__(self, sentence: str) -> None:
        self.sentence = sentence
        self.conf: List[str] = []
        self.key: Optional[str] = None
        self.env: Dict[str, str] = {}
        self.answer: Optional[Tuple[str, str, int]] = None


class Row(NamedTuple):
    """A run, the number of its line, and the lines that it must print."""

    line: int
    group: Group
    words: List[str]
    wanted: List[str]


def rows_of(text: str) -> List[Row]:
    """Returns the rows of a file."""
    rows: List[Row] = []
    group = Group("")
    for number, line in enumerate(text.splitlines(), 1):
        kind, _, rest = line.partition(" ")
        if not line or kind == "#":
            continue
        if kind == "*":
            group = Group(rest)
        elif kind == "|":
            group.conf.append(rest)
        elif kind == "key":
            group.key = rest
        elif kind == "env":
            name, _, value = rest.partition("=")
            group.env[name] = value
        elif kind == "answer":
            result, holder, seconds = rest.split(" ")
            group.answer = (result, holder, int(seconds))
        elif kind == "run":
            rows.append(Row(number, group, shlex.split(rest), []))
        elif kind in ("0", "1", "2") and rows:
            if (kind, rest) != ("2", "-") and kind != "0":
                rows[-1].wanted.append(rest)
        else:
            raise Malformed(f"line {number}: {line}")
    return rows


class Member:
    """A member, in a `with` block, that answers every request of a client in the same way."""

    def __init__(self, address: str, result: str, holder: Optional[str], seconds: int) -> None:
        self.address, self.seconds = address, seconds
        self.result = 0 if result == SUCCESS else frames.code(result)
        self.holder = frames.NO_ONE if holder is None else frames.member_id(holder)
        self.socket = socket.socket(socket.AF_INET, socket.SOCK_DGRAM)
        self.socket.bind((address, frames.PORT))
        self.thread = threading.Thread(target=self.serve, daemon=True)

    def __enter__(self) -> "Member":
        self.thread.start()
        return self

    def __exit__(self, *_: object) -> None:
        with socket.socket(socket.AF_INET, socket.SOCK_DGRAM) as last:
            last.sendto(b"", (self.address, frames.PORT))
        self.thread.join()
        self.socket.close()

    def body(self, letters: str, request: bytes) -> bytes:
        """Returns the body of an answer: the request's own, with the holder, or an empty list."""
        if letters in ("CLst", "Peer", "ALst"):
            return b""
        body = request[frames.HEAD_BYTES :]
        if letters in ("CGnt", "CRvk"):
            return body[:64] + frames.numbers(self.holder, 3, self.seconds)
        return body

    def serve(self) -> None:
        """Answers requests until an empty datagram arrives."""
        while True:
            request, asker = self.socket.recvfrom(frames.FRAME_BYTES + 1)
            if not request:
                return
            head = frames.Head.read(request)
            letters = head.cmd.to_bytes(4, "big").decode("ascii")
            body = self.body(letters, request)
            reply = frames.reply_due(letters, head.request, self.address, body, result=self.result, clock=head)
            self.socket.sendto(reply, asker)


def keep_clock(folder: str) -> None:
    """Writes the clock file that a daemon of this boot would write: its version, its offset, a reading, and the boot's
    id.
    """
    with open("/proc/sys/kernel/random/boot_id", "rb") as file:
        boot = file.read(36)
    offset = int((time.time() - time.clock_gettime(time.CLOCK_BOOTTIME)) * 1000)
    with open(f"{folder}/booth.clock", "wb") as file:
        file.write(b"".join(number.to_bytes(8, "big") for number in (1, offset, 0)) + boot)


class Room:
    """The programs, a folder for files, and addresses of this machine."""

    def __init__(self, programs: str, folder: str) -> None:
        self.programs, self.folder = programs, folder
        addresses = own_addresses()
        self.names = {name: next(addresses) for name in "abc"}
        self.names.update(conf=f"{folder}/booth.conf", key=f"{folder}/authkey", good=f"{folder}/good", folder=folder)
        with open(self.names["good"], "wb") as file:
            file.write(b"a-good-key\n")
        keep_clock(folder)

    def filled(self, text: str) -> str:
        """Replaces the names of addresses and paths in a text."""
        for name, value in self.names.items():
            text = text.replace("{%s}" % name, value)
        return text

    def write(self, group: Group) -> None:
        """Writes the files of a group."""
        lines = group.conf or CONFIGURATION
        with open(self.names["conf"], "wb") as file:
            file.write(b"".join(unescaped(self.filled(line)) + b"\n" for line in lines))
        with open(self.names["key"], "wb") as file:
            file.write(unescaped(group.key or ""))

    def environment(self, group: Group) -> Dict[str, str]:
        """Returns the environment of a run."""
        env = {name: value for name, value in os.environ.items() if not name.startswith("BOOTH_")}
        env.update((name, self.filled(value)) for name, value in group.env.items())
        return env

    def run(self, row: Row) -> Tuple[int, str]:
        """Returns the status of a run, and what it printed on standard error."""
        program, *words = [self.filled(word) for word in row.words]
        done = subprocess.run(
            [f"{self.programs}/{program}", *words], stdin=subprocess.DEVNULL, capture_output=True, text=True,
            timeout=SECONDS_OF_RUN, env=self.environment(row.group), check=False,
        )  # fmt: skip
        return done.returncode, done.stderr

    def fault(self, row: Row) -> Optional[str]:
        """Returns what is wrong with a run, if anything is."""
        self.write(row.group)
        if row.group.answer is None:
            status, said = self.run(row)
        else:
            result, holder, seconds = row.group.answer
            holder_at = None if holder == "-" else self.filled(holder)
            with Member(self.names["a"], result, holder_at, seconds):
                status, said = self.run(row)
        wanted = "".join(f"{row.words[0]}: {self.filled(line)}\n" for line in row.wanted)
        if said == wanted and (status == 1) == bool(wanted):
            return None
        return f"line {row.line} ({row.group.sentence}): status {status}, said {said!r}, and not {wanted!r}"


def check(path: str, room: Room, word: str) -> bool:
    """Runs the rows of a file, prints the results, and returns whether all runs printed what their rows have."""
    with open(path, encoding="utf-8") as file:
        rows = [row for row in rows_of(file.read()) if word in row.group.sentence]
    faults = [fault for fault in map(room.fault, rows) if fault is not None]
    print(f"{'FAILED' if faults else 'ok'}  {os.path.basename(path)}: {len(rows)} rows", flush=True)
    for fault in faults:
        print(f"  {fault}", flush=True)
    return not faults


def main(words: List[str]) -> int:
    """Runs all files, and returns the status."""
    programs = os.path.abspath(words[0]) if words else f"{TOP}/out"
    if not os.access(f"{programs}/boothd", os.X_OK):
        print("causes: skipped, since boothd is not built: run make build")
        return 0
    with scratch("causes-") as folder:
        room = Room(programs, folder)
        done = [check(path, room, words[1] if len(words) > 1 else "") for path in sorted(glob.glob(f"{ROWS}/*.txt"))]
    return 0 if done and all(done) else 1


if __name__ == "__main__":
    end_by_signals()
    sys.exit(main(sys.argv[1:]))
