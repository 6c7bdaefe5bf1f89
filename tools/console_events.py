"""The last events of a cluster for the console: from the log of this machine's daemon, and from the console's looks.

It is imported by tools/console_serving.py, and not run by itself. It needs the right to read the system's journal,
which the group systemd-journal has.
"""

import collections
import contextlib
import json
import os
import re
import subprocess
import threading
from typing import Deque, Dict, Iterator, List, NamedTuple, Optional, Tuple

import service_problems
import showing
from judging import View
from problems import WARNING, Problem
from services import PLACES
from wording import plain

# where an event was found
LOG, LOOK = "log", "look"
# how many events are kept of each kind, and how many lines one reading takes
MOST_EVENTS = 100
MOST_LINES = 500
# how long one reading may take, in seconds, and how many bytes of it are used
SECONDS_TO_READ = 3.0
MOST_BYTES = 4_194_304
MOST_TEXT = 400
# whose lines are shown
DAEMON, SYSTEMD, CLOCK_WAIT = "boothd", "systemd", "clock-wait"
# the lines about writes to the disk: the first three begin a failure, and the last two end it
UNKEPT = re.compile(r"cannot keep the record of ticket (\S+): (.*)")
CLOCK_UNKEPT = re.compile(r"cannot write the time that the clock has reached: (.*)")
READ_ONLY = re.compile(r"(.*): its file system takes no writes, so this member votes for nobody")
KEPT = re.compile(r"the record of ticket (\S+) is kept again")
CLOCK_KEPT = "the time that the clock has reached is written again"
BEGINS, STARTS = "begins: version ", "Starting "
# the key of the clock's file, and of the whole directory, among the tickets (no ticket has a blank in its name)
CLOCK_FILE, DIRECTORY = "the clock's file", "the directory of records"


class Event(NamedTuple):
    """An event, with its time in seconds since 1970. `source` is `LOG` or `LOOK`."""

    moment: float
    source: str
    text: str


class Log:
    """The log of this machine's daemon, which systemd keeps. Each reading takes the lines that are new."""

    def __init__(self, unit: str) -> None:
        self.unit = unit
        self.events: Deque[Event] = collections.deque(maxlen=MOST_EVENTS)
        # what the daemon could not write when it last tried, with the cause
        self.unwritten: Dict[str, str] = {}
        self.cursor: Optional[str] = None
        # why the log cannot be read, or an empty text
        self.why = "it was not read yet"

    def read(self) -> None:
        """Takes the new lines."""
        words = ["journalctl", "--quiet", "--no-pager", "--output=json", f"--lines={MOST_LINES}", f"--unit={self.unit}"]
        words += [f"--after-cursor={self.cursor}"] if self.cursor else []
        try:
            printed, said, status = output_of(words)
        except OSError as why:
            self.why = f"cannot run journalctl: {why.strerror}"
            return
        self.why = "" if status == 0 else plain(f"journalctl ended with status {status}: {said}")
        if status:
            # (a journal that was removed has no such place any more)
            self.cursor = None
        for line in printed.splitlines():
            # (the last line may be cut)
            with contextlib.suppress(ValueError, TypeError, KeyError, AttributeError):
                self.take(json.loads(line))

    def take(self, entry: Dict[str, object]) -> None:
        """Takes an entry of the journal."""
        moment, text = int(str(entry["__REALTIME_TIMESTAMP"])) / 1_000_000, text_of(entry.get("MESSAGE"))
        self.cursor, who = str(entry["__CURSOR"]), entry.get("SYSLOG_IDENTIFIER")
        # (systemd takes the name before the colon off the message)
        if who == DAEMON or text.startswith(f"{DAEMON}: "):
            text = text[len(DAEMON) + 2 :] if text.startswith(f"{DAEMON}: ") else text
            self.judge(text)
        elif who not in (SYSTEMD, CLOCK_WAIT):
            # (a message of a handler)
            return
        elif text.startswith(STARTS):
            # (with BOOTH_LOG=off the daemon does not log that it begins)
            self.unwritten.clear()
        if text:
            self.events.append(Event(moment, LOG, text))

    def judge(self, text: str) -> None:
        """Notes what the daemon cannot write, or can write again."""
        for form, key in ((UNKEPT, None), (CLOCK_UNKEPT, CLOCK_FILE), (READ_ONLY, DIRECTORY)):
            found = form.fullmatch(text)
            if found:
                self.unwritten[key or found[1]] = found[found.re.groups] if key != DIRECTORY else "it takes no writes"
        found = KEPT.fullmatch(text)
        if found:
            self.unwritten.pop(found[1], None)
            self.unwritten.pop(DIRECTORY, None)
        if text == CLOCK_KEPT:
            self.unwritten.pop(CLOCK_FILE, None)
        if text.startswith(BEGINS):
            # (the new daemon logs its own failures)
            self.unwritten.clear()

    def problems(self) -> Iterator[Problem]:
        """Yields a problem if the daemon here could not write a record when it last tried."""
        if not self.unwritten:
            return
        name, why = next(iter(self.unwritten.items()))
        ticket = None if name in (CLOCK_FILE, DIRECTORY) else name
        what = f"{name}: the daemon here cannot write its record" if ticket else f"the daemon here cannot write {name}"
        more = f", and {len(self.unwritten) - 1} more files" if len(self.unwritten) > 1 else ""
        yield Problem(WARNING, "unwritten", f"{what}: {why}{more}: df, df -i, dmesg", ticket=ticket)


def output_of(words: List[str]) -> Tuple[str, str, int]:
    """Returns what a program prints on both streams, as far as it is used, and its status."""
    given = {**os.environ, "PATH": f"{os.environ.get('PATH', '')}{os.pathsep}{PLACES}", "LC_ALL": "C"}
    streams = {"stdin": subprocess.DEVNULL, "stdout": subprocess.PIPE, "stderr": subprocess.STDOUT}
    with subprocess.Popen(words, env=given, **streams) as process:
        end = threading.Timer(SECONDS_TO_READ, process.kill)
        end.start()
        try:
            assert process.stdout is not None
            data = process.stdout.read(MOST_BYTES)
            if len(data) == MOST_BYTES:
                process.kill()
            status = process.wait()
        finally:
            end.cancel()
    printed = data.decode("utf-8", "replace")
    said = next((line for line in printed.splitlines() if not line.startswith("{")), "it printed no cause")
    return printed, said[:MOST_TEXT], status


def text_of(message: object) -> str:
    """Returns a message as text. The journal has a message with unprintable bytes as a list of numbers."""
    if isinstance(message, list):
        message = bytes(each & 0xFF for each in message).decode("utf-8", "replace")
    return plain(message.strip())[:MOST_TEXT] if isinstance(message, str) else ""


class Changes:
    """The events between two looks: members that fall silent or answer again, holders, and services here."""

    def __init__(self) -> None:
        self.events: Deque[Event] = collections.deque(maxlen=MOST_EVENTS)
        self.known: Dict[Tuple[str, str], str] = {}

    def take(self, view: View) -> None:
        """Takes a look. The first one has no event."""
        now, is_first = states_in(view), not self.known
        for key, state in now.items():
            if not is_first and self.known.get(key, state) != state:
                self.events.append(Event(view.moment, LOOK, f"{key[0]} {key[1]}: {state}"))
        self.known.update(now)


def states_in(view: View) -> Dict[Tuple[str, str], str]:
    """Returns the state of each member, ticket and service, as far as this look has found it."""
    states = {answer.member.address: answer.state for answer in view.answers}
    found = {("member", address): showing.STATES.get(state, state) for address, state in states.items()}
    for ticket in view.tickets:
        owner = ticket.owner()
        if owner is not None or ticket.is_free():
            found["ticket", ticket.ticket.name] = f"held by {owner}" if owner else "nobody holds it"
    for name, service in view.here.services.items():
        found["service", name] = service_problems.shown(service)
    if view.here.cluster is not None:
        found.update({("service", name): each.shown() for name, each in view.here.cluster.services.items()})
    return found


def last(events: List[Event], most: int) -> List[Event]:
    """Returns the last of these events, the newest first."""
    return sorted(events, key=lambda event: event.moment, reverse=True)[:most]
