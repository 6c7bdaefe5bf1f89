"""The steps of booth-switchover: stops a service through its follower, moves the ticket, and starts the follower again.

It is imported by booth-switchover, and not run by itself. A failure is undone as far as possible, and its message says
which site holds the ticket.
"""

import argparse
import ipaddress
import os
import shutil
import signal
import subprocess
import sys
import time
from typing import Callable, List, NamedTuple, Optional

import configuration
import looking
import service_state

# the exit statuses: the other site has the ticket; the holder is unchanged; neither, or the follower does not run
MOVED, UNCHANGED, ELSEWHERE = 0, 1, 2

# in seconds: how long a look at the members may take; a question to systemd; and a stop or a start of the follower,
# which its unit limits to 480
LOOK, QUESTION, FOLLOWER = 3.0, 5.0, 540.0
# in seconds: the interval and the longest time of the checks whether the service is stopped
PAUSE, SETTLE = 0.1, 5.0
# the directories of the programs, in addition to PATH
PLACES = "/usr/local/sbin:/usr/sbin:/usr/bin:/sbin:/bin"


class Refused(Exception):
    """The move was refused before anything was changed; the text is the cause."""


class Ran(NamedTuple):
    """The exit status of a program, or `None` after a timeout, and what it printed."""

    status: Optional[int]
    said: str

    def why(self) -> str:
        """Returns why the program failed: its output, its status or the timeout."""
        ended = "it did not end in time" if self.status is None else f"its status is {self.status}"
        return self.said or ended


def why_silent(answers: List[looking.Answer], address: str) -> str:
    """Returns why a member did not answer, if this is known, in parentheses after a blank."""
    found = next((answer for answer in answers if answer.member.address == address), None)
    if found is None:
        return ""
    hints = {
        looking.NO_DAEMON: "no daemon listens there",
        looking.SILENT: f"no answer within {LOOK:g} s: is it up, is its port open, its key the same, its clock right?",
    }
    why = ": ".join(part for part in (hints.get(found.state, ""), found.why) if part)
    return f" ({why})" if why else ""


def program(name: str) -> str:
    """Returns the path of a program."""
    places = f"{os.environ.get('PATH', '')}{os.pathsep}{PLACES}"
    found = shutil.which(name, path=places)
    if found is None:
        raise Refused(f"the program {name} is not in {places}")
    return found


def ran(seconds: float, *words: str) -> Ran:
    """Runs a program for at most `seconds` seconds."""
    try:
        streams = {"stdin": subprocess.DEVNULL, "stdout": subprocess.PIPE, "stderr": subprocess.STDOUT}
        done = subprocess.run(words, timeout=seconds, check=False, **streams)
    except subprocess.TimeoutExpired:
        return Ran(None, "")
    lines = done.stdout.decode(errors="backslashreplace").strip().splitlines()
    return Ran(done.returncode, "; ".join(lines))


def say(text: str) -> None:
    """Prints a line about a step."""
    print(text, flush=True)


def complain(text: str) -> None:
    """Prints a line about a failure."""
    print(f"booth-switchover: {text}", file=sys.stderr, flush=True)


def address_of(text: str, what: str) -> str:
    """Returns the address in its usual form."""
    try:
        return str(ipaddress.ip_address(text))
    except ValueError as why:
        raise Refused(f"{what} {text!r} is not an IP address") from why


def own_address(ticket: str, conf_path: str) -> str:
    """Returns this site's address, from the environment of the follower's unit."""
    cluster = os.path.basename(conf_path).rsplit(".conf", 1)[0]
    paths = [f"{configuration.FOLDER}/follow/{ticket}.env", f"{configuration.FOLDER}/{cluster}.env"]
    for path in paths:
        found = service_state.variable_in(path, "ADDRESS")
        if found:
            return found
    raise Refused(f"neither {paths[0]} nor {paths[1]} has ADDRESS=: give this site's address with -s")


class Switchover:
    """The move of one ticket from this site to another one."""

    def __init__(self, options: argparse.Namespace) -> None:
        self.conf_path = configuration.path_of(options.conf)
        self.conf = configuration.read(self.conf_path)
        self.key = self.conf.key()
        self.ticket = options.ticket
        self.unit = f"booth-follow@{self.ticket}.service"
        self.seconds = options.timeout
        self.own = address_of(options.site or self.own_address(), "this site's address")
        self.to = address_of(options.to, "SITE")
        self.systemctl, self.booth = program("systemctl"), program("booth")

    # ---- the current state

    def own_address(self) -> str:
        """Returns this site's address, if the command line has none."""
        return own_address(self.ticket, self.conf_path)

    def check_words(self) -> None:
        """Refuses a move that the arguments or the configuration make impossible."""
        tickets = {ticket.name: ticket for ticket in self.conf.tickets}
        if self.ticket not in tickets:
            raise Refused(f"{self.conf_path} has no ticket {self.ticket}")
        if tickets[self.ticket].is_manual:
            raise Refused(f"ticket {self.ticket} is manual, so no service follows it: use booth move instead")
        sites = [member.address for member in self.conf.members if member.role == "site"]
        for address in (self.own, self.to):
            if address not in sites:
                raise Refused(f"{address} is not a site of {self.conf_path}, which has the sites {', '.join(sites)}")
        if self.own == self.to:
            raise Refused(f"{self.to} is this site: name another site")

    def answers(self) -> List[looking.Answer]:
        """Returns the current answers of the members."""
        return looking.look(self.conf, self.key, LOOK)

    def holder_by(self, answer: looking.Answer) -> Optional[str]:
        """Returns the holder of the ticket according to this member; `None` for nobody."""
        return next((held.owner for held in answer.held or [] if held.ticket == self.ticket), None)

    def answer_of(self, answers: List[looking.Answer], address: str) -> Optional[looking.Answer]:
        """Returns the answer of this member if it has a list, or `None`."""
        return next((each for each in answers if each.member.address == address and each.held is not None), None)

    def is_moved_already(self) -> bool:
        """Returns whether the other site holds the ticket already. Refuses if the move is not possible."""
        answers = self.answers()
        own, other = self.answer_of(answers, self.own), self.answer_of(answers, self.to)
        if own is None:
            raise Refused(f"the daemon of this site, {self.own}, does not answer{why_silent(answers, self.own)}")
        holder = self.holder_by(own)
        if holder == self.to:
            return True
        if holder is None:
            raise Refused(f"nobody holds ticket {self.ticket}: booth grant -w -s {self.to} {self.ticket} grants it")
        if holder != self.own:
            raise Refused(f"ticket {self.ticket} is held by {holder}: run this there")
        if other is None:
            why = why_silent(answers, self.to)
            raise Refused(f"{self.to} does not answer, so it could not take the ticket{why}")
        live = sum(answer.held is not None for answer in answers)
        if 2 * live <= len(answers):
            silent = [answer.member.address for answer in answers if answer.held is None]
            raise Refused(
                f"only {live} of {len(answers)} members answer, so no majority could grant the ticket; no answer came "
                f"from {', '.join(silent)}"
            )
        return False

    def check_follower(self) -> None:
        """Refuses if no follower runs that could stop the service."""
        found = ran(QUESTION, self.systemctl, "is-active", self.unit)
        if found.status != 0:
            state = found.said or "unknown"
            raise Refused(f"{self.unit} is {state}, and not active: stop the service yourself, then use booth move")

    # ---- the steps

    def stop(self) -> Optional[str]:
        """Stops the follower, which stops the service. Returns why this failed, or `None`."""
        begun = time.monotonic()
        done = ran(FOLLOWER, self.systemctl, "stop", self.unit)
        if done.status != 0:
            return f"systemctl stop {self.unit}: {done.why()}"
        until = time.monotonic() + SETTLE
        while True:
            try:
                state = service_state.read(self.ticket)
            except configuration.Unreadable as why:
                return str(why)
            if state is not None and state.service in service_state.OVER and state.armed is None:
                say(f"the service of {self.ticket} is stopped, after {time.monotonic() - begun:.1f} s")
                return None
            if time.monotonic() > until:
                return f"its service is {'in an unknown state' if state is None else state.service}, and not stopped"
            time.sleep(PAUSE)

    def start(self) -> bool:
        """Starts the follower again. Returns whether it runs."""
        done = ran(FOLLOWER, self.systemctl, "start", self.unit)
        if done.status != 0:
            complain(f"{self.unit} does not start ({done.why()}), so no service follows the ticket here: start it")
        return done.status == 0

    def ask(self, *words: str) -> Ran:
        """Runs booth with these arguments, for as long as a move may take."""
        command, *rest = words
        return ran(self.seconds, self.booth, command, "-w", "-c", self.conf_path, "-s", self.own, *rest)

    def holder(self) -> Optional[str]:
        """Returns the site that lists itself as the holder. The lists of other members do not count."""
        for answer in self.answers():
            if self.holder_by(answer) == answer.member.address:
                return answer.member.address
        return None

    def move(self) -> Optional[str]:
        """Moves the ticket, and grants it to this site again if the move fails. Returns the holder afterwards."""
        done = self.ask("move", self.ticket, self.to)
        if done.status == 0:
            return self.to
        complain(f"booth move: {done.why()}")
        holder = self.holder()
        if holder is None:
            done = self.ask("grant", self.ticket)
            if done.status != 0:
                complain(f"booth grant: {done.why()}")
            holder = self.holder()
        return holder

    def carry_out(self) -> int:
        """Makes the move, and returns the status."""
        self.check_words()
        if self.is_moved_already():
            say(f"ticket {self.ticket} is held by {self.to} already: nothing is changed")
            return MOVED
        self.check_follower()
        holder, why = self.own, None
        try:
            say(f"stops the service of {self.ticket}")
            why = self.stop()
            if why is None:
                holder = self.move()
        except BaseException as cause:  # (also a signal: any site may hold the ticket, and the follower finds out)
            where = f"booth list -s {self.to} shows which site holds ticket {self.ticket}"
            complain(f"interrupted ({type(cause).__name__}): {where}")
            self.start()
            return ELSEWHERE
        return self.told(holder, why)

    def told(self, holder: Optional[str], why: Optional[str]) -> int:
        """Starts the follower again, prints which site holds the ticket, and returns the status."""
        runs = self.start()
        if why is not None:
            complain(f"{why}: ticket {self.ticket} was not moved, and is held by {self.own}")
            return UNCHANGED if runs else ELSEWHERE
        if holder == self.to:
            say(f"ticket {self.ticket} moved to {self.to}")
            return MOVED if runs else ELSEWHERE
        if holder == self.own:
            starts = ", where its service is started again" if runs else ""
            complain(f"ticket {self.ticket} was not moved, and is held by {self.own}{starts}")
            return UNCHANGED if runs else ELSEWHERE
        grant = f"booth grant -w -s {self.to} {self.ticket}"
        where = f"is held by {holder}" if holder else f"is held by nobody, as far as members answer: {grant}"
        complain(f"ticket {self.ticket} was not moved to {self.to}, and {where}")
        return ELSEWHERE


def run(options: argparse.Namespace, made: Callable[[argparse.Namespace], Switchover] = Switchover) -> int:
    """Makes a switchover with these options by `made`, runs it, and returns the status."""
    # (a signal leaves each block as an interrupt does, so the follower is started again)
    for number in (signal.SIGTERM, signal.SIGHUP):
        signal.signal(number, lambda *_: sys.exit(ELSEWHERE))
    try:
        return made(options).carry_out()
    except Refused as why:
        complain(f"{why}; nothing was done")
        return UNCHANGED
