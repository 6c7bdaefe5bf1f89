#!/usr/bin/env python3
"""Checks the order of the steps of booth-switchover, and what it undoes.

Run it as `python3 tests/switchover.py [WORD..]`. It runs the stories whose name has one of the words, or all stories.
Members, booth and systemctl are stand-ins, so it needs no built programs. It takes less than a minute, prints a line
for each story, and has the status 1 if one failed.
"""

import contextlib
import itertools
import os
import signal
import stat
import subprocess
import sys
import time
from typing import Callable, Dict, Iterator, List, NamedTuple, Tuple

HERE = os.path.dirname(os.path.abspath(__file__))
TOP = os.path.dirname(HERE)
sys.path[:0] = [HERE, f"{TOP}/tools"]

from checks import need
from fake_members import FakeMember
from scratch import scratch
from serving import own_addresses

PORT = 20_000 + os.getpid() % 10_000
ADDRESSES = own_addresses()
UNIT = "booth-follow@db8.service"

# the stand-ins for booth and systemctl: each records its calls, and reads from files what to do
STAND_INS = {
    "booth": """
for word in "$@"; do last=$word; done
[ ! -e "$1.hangs" ] || sleep 100
[ ! -e "$1.moves" ] || cat "$1.moves" >holder
if [ -e "$1.fails" ]; then cat "$1.fails"; exit 1; fi
[ "$1" = move ] && echo "$last" >holder
[ "$1" = grant ] && cat own >holder
exit 0
""",
    # the cluster of a Pacemaker site: its ticket, and its resource, which stops in standby
    "crm_ticket": """
[ ! -e ticket.fails ] || { echo 'no connection' >&2; exit 102; }
case " $* " in
  *" --standby "*) echo true >standby; [ -e stays ] || echo Stopped >role ;;
  *" --activate "*) echo false >standby ;;
esac
""",
    "crm_mon": """
[ ! -e mon.fails ] || exit 102
role=$(cat role)
case $role in Stopped) active=false ;; *) active=true ;; esac
echo "<pacemaker-result><resources><resource id='svc' role='$role' active='$active'/></resources><tickets>"
echo "<ticket id='db8' status='$(cat status)' standby='$(cat standby)'/></tickets></pacemaker-result>"
""",
    "systemctl": """
case $1 in
  is-active) cat active; grep -q '^active$' active ;;
  stop)
    [ ! -e stop.fails ] || exit 1
    if [ ! -e stop.leaves ]; then rm -f state/db8.end; echo service=stopped >state/db8.state; fi
    ;;
  start) [ ! -e start.fails ] || exit 1 ;;
esac
""",
}


class Ended(NamedTuple):
    """The outcome of a run: its status, and what it printed."""

    status: int
    printed: str


class Member(FakeMember):
    """A member that names the current holder."""

    def __init__(self, room: "Room", address: str) -> None:
        others = [each for each in room.addresses if each != address]
        peers = ["dropped 0 0 0 0 0 0 0 0"] + [f"{room.roles[each]} {each} {int(time.time())} 7 8 0" for each in others]
        super().__init__(address, PORT, [], peers)
        self.room = room

    def answers(self, request: bytes) -> List[bytes]:
        """Returns the datagrams that are sent to the client that asks this."""
        self.texts["CLst"] = [f"db8 {self.room.text('holder').strip()} {int(time.time()) + 50}", "hand none 0"]
        return super().answers(request)


class Room:
    """A folder with a configuration of three members, stand-ins and a service that runs at the first one."""

    def __init__(self, folder: str) -> None:
        self.folder = folder
        self.one, self.two, self.third = self.addresses = list(itertools.islice(ADDRESSES, 3))
        self.roles: Dict[str, str] = dict(zip(self.addresses, ("site", "site", "arbitrator")))
        os.makedirs(f"{folder}/bin")
        os.makedirs(f"{folder}/state")
        for name, text in STAND_INS.items():
            self.put(f"bin/{name}", f"#!/bin/sh\ncd {folder} || exit 9\necho \"{name} $*\" >>calls\n{text}")
            os.chmod(f"{folder}/bin/{name}", stat.S_IRWXU)
        members = "".join(f"{role} = {address}\n" for address, role in self.roles.items())
        self.put("booth.conf", f"port = {PORT}\n{members}ticket = db8\nexpire = 60\nticket = hand\nmode = manual\n")
        said = {"holder": self.one, "own": self.one, "active": "active", "state/db8.end": "1790000000"}
        for name, text in said.items():
            self.put(name, f"{text}\n")
        self.put("state/db8.state", "service=running\nends=1790000000\n")

    def put(self, name: str, text: str = "") -> None:
        """Writes a file of the room."""
        with open(f"{self.folder}/{name}", "w", encoding="utf-8") as file:
            file.write(text)

    def text(self, name: str) -> str:
        """Returns the text of a file of the room, empty if it is missing."""
        try:
            with open(f"{self.folder}/{name}", encoding="utf-8") as file:
                return file.read()
        except FileNotFoundError:
            return ""

    def started(self, *words: str) -> "subprocess.Popen[str]":
        """Returns a running switchover with these arguments."""
        path = {"PATH": f"{self.folder}/bin:{os.environ['PATH']}", "BOOTH_FOLLOW_RUN": f"{self.folder}/state"}
        path["BOOTH_CIB"] = f"{self.folder}/cib.xml"
        command = [f"{TOP}/packaging/booth-switchover", "-c", f"{self.folder}/booth.conf", "-s", self.one, *words]
        streams = {"stdin": subprocess.DEVNULL, "stdout": subprocess.PIPE, "stderr": subprocess.STDOUT}
        return subprocess.Popen(command, env={**os.environ, **path}, text=True, **streams)

    def run(self, *words: str) -> Ended:
        """Returns the outcome of a switchover with these arguments."""
        with self.started(*words) as switchover:
            printed, _ = switchover.communicate(timeout=60)
        return Ended(switchover.returncode, printed)

    def calls(self) -> str:
        """Returns the calls that change something, in order: the first words of each."""
        kept = [call for call in self.text("calls").splitlines() if " is-active " not in call]
        kept = [call.replace(" --ticket db8", "") for call in kept if not call.startswith("crm_mon")]
        return ", ".join(" ".join(call.split()[:2]) for call in kept)

    def is_cluster(self) -> None:
        """Makes this site a Pacemaker cluster whose ticket is granted."""
        self.put(
            "cib.xml",
            "<cib><configuration><resources><primitive id='svc' class='ocf' type='Service'/></resources><constraints>"
            "<rsc_location id='booth-lease.db8'><resource_set id='s'><resource_ref id='svc'/></resource_set>"
            "<rule id='r'><date_expression id='booth-lease-end.db8' start='2026-12-01 02:00:00Z'/></rule>"
            "</rsc_location></constraints></configuration></cib>",
        )
        for name, text in (("role", "Started"), ("status", "granted"), ("standby", "false")):
            self.put(name, f"{text}\n")

    @contextlib.contextmanager
    def members(self, *silent: str) -> Iterator[None]:
        """Lets all members except these answer in this block."""
        with contextlib.ExitStack() as stack:
            for address in self.addresses:
                if address not in silent:
                    stack.enter_context(Member(self, address))
            yield


Story = Callable[[Room], None]
stories: List[Story] = []


def story(function: Story) -> Story:
    """Adds a story to the list of stories."""
    stories.append(function)
    return function


def ends_with(room: Room, status: int, text: str, calls: str, *words: str) -> str:
    """Checks that a switchover to the second site ends with this status, this text as its last line, and these calls.
    """
    done = room.run("-t", "2", *(words or ("db8", room.two)))
    lines = done.printed.strip().splitlines()
    need(done.status == status and lines and text in lines[-1], f"{done}, and not {status} with {text!r}")
    need(room.calls() == calls, f"it called {room.calls()!r}, and not {calls!r}")
    return done.printed


ALL = "systemctl stop, booth move, systemctl start"


@story
def moves_in_order(room: Room) -> None:
    """the service is stopped before the move, and the follower started after it"""
    with room.members():
        printed = ends_with(room, 0, f"ticket db8 moved to {room.two}", ALL)
    need("is stopped, after" in printed, printed)
    moved = next(call for call in room.text("calls").splitlines() if call.startswith("booth move"))
    need(moved == f"booth move -w -c {room.folder}/booth.conf -s {room.one} db8 {room.two}", moved)


@story
def what_is_there_is_left(room: Room) -> None:
    """a ticket that the other site already has stays there"""
    room.put("holder", f"{room.two}\n")
    with room.members():
        ends_with(room, 0, "already: nothing is changed", "")


@story
def what_cannot_be_moved_is_refused(room: Room) -> None:
    """a move that is not possible is refused before anything is stopped"""
    with room.members():
        rows: List[Tuple[str, str, str]] = [
            ("none", room.two, "has no ticket none"),
            ("hand", room.two, "is manual"),
            ("db8", room.third, "is not a site"),
            ("db8", "192.0.2.77", "is not a site"),
            ("db8", "elsewhere", "is not an IP address"),
            ("db8", room.one, "is this site"),
        ]
        for ticket, to, text in rows:
            ends_with(room, 1, text, "", ticket, to)
        for holder, text in (("none", "nobody holds"), (room.third, "is held by")):
            room.put("holder", f"{holder}\n")
            ends_with(room, 1, text, "")
        room.put("holder", f"{room.one}\n")
        room.put("active", "failed\n")
        room.put("calls")
        done = room.run("db8", room.two)
        need(done.status == 1 and "and not active" in done.printed and not room.calls(), f"{done}")
    with room.members(room.two):
        ends_with(room, 1, "does not answer, so it could not take the ticket", "")
    with room.members(room.one):
        ends_with(room, 1, "the daemon of this site", "")
    need(room.run("db8").status == 1, "a site that is missing")


@story
def a_service_that_does_not_stop_stays(room: Room) -> None:
    """a service whose stop is not confirmed is not moved, and its follower runs again"""
    with room.members():
        room.put("stop.leaves")
        ends_with(room, 1, f"was not moved, and is held by {room.one}", "systemctl stop, systemctl start")
        os.remove(f"{room.folder}/stop.leaves")
        room.put("stop.fails")
        room.put("calls")
        ends_with(room, 1, f"was not moved, and is held by {room.one}", "systemctl stop, systemctl start")


@story
def a_move_that_is_refused_is_undone(room: Room) -> None:
    """after a refused move the ticket stays and the service starts; a site that lost the ticket gets it back"""
    with room.members():
        room.put("move.fails", "ticket is not granted\n")
        printed = ends_with(room, 1, f"is held by {room.one}, where its service is started again", ALL)
        need("booth move: ticket is not granted" in printed, printed)
        room.put("calls")
        room.put("move.moves", "none\n")
        back = "systemctl stop, booth move, booth grant, systemctl start"
        ends_with(room, 1, f"is held by {room.one}, where its service is started again", back)
        room.put("calls")
        room.put("grant.fails", "busy\n")
        grant = f"booth grant -w -s {room.two} db8"
        printed = ends_with(room, 2, f"is held by nobody, as far as members answer: {grant}", back)
        need("booth grant: busy" in printed, printed)


@story
def a_move_without_an_answer_is_looked_for(room: Room) -> None:
    """after a move without an answer the members are asked who holds the ticket"""
    with room.members():
        room.put("move.fails", "no reply\n")
        room.put("move.moves", f"{room.two}\n")
        ends_with(room, 0, f"ticket db8 moved to {room.two}", ALL)
        for name in ("move.fails", "move.moves"):
            os.remove(f"{room.folder}/{name}")
        for name, text in (("holder", f"{room.one}\n"), ("calls", ""), ("move.hangs", ""), ("state/db8.end", "1\n")):
            room.put(name, text)
        ends_with(room, 1, f"is held by {room.one}, where its service is started again", ALL)


@story
def a_follower_that_does_not_start_is_told(room: Room) -> None:
    """a follower that does not run again is reported, with status 2"""
    with room.members():
        room.put("start.fails")
        printed = ends_with(room, 2, f"ticket db8 moved to {room.two}", ALL)
        need(f"{UNIT} does not start" in printed, printed)


@story
def a_signal_leaves_a_follower(room: Room) -> None:
    """after a signal in the middle of a move the follower runs again"""
    room.put("move.hangs")
    with room.members(), room.started("-t", "50", "db8", room.two) as switchover:
        until = time.monotonic() + 20
        while "booth move" not in room.text("calls") and time.monotonic() < until:
            time.sleep(0.05)
        switchover.send_signal(signal.SIGTERM)
        printed, _ = switchover.communicate(timeout=20)
    need(switchover.returncode == 2 and "interrupted" in printed, f"{switchover.returncode}: {printed}")
    need(room.calls() == ALL, room.calls())


CLUSTER_ALL = "crm_ticket --standby, booth move, crm_ticket --revoke, crm_ticket --activate"


@story
def a_cluster_is_moved_by_standby(room: Room) -> None:
    """at a Pacemaker site the standby stops the service, and ends once Pacemaker's ticket is revoked"""
    room.is_cluster()
    with room.members():
        printed = ends_with(room, 0, f"ticket db8 moved to {room.two}", CLUSTER_ALL)
        need("is stopped, after" in printed, printed)
    moved = next(call for call in room.text("calls").splitlines() if call.startswith("booth move"))
    need(" -f " in moved, moved)
    need(room.text("standby") == "false\n", "the ticket stays in standby")


@story
def a_cluster_that_is_not_moved_has_its_service_back(room: Room) -> None:
    """if a move at a Pacemaker site is refused, the standby ends, and nothing is revoked"""
    room.is_cluster()
    with room.members():
        room.put("move.fails", "ticket is not granted\n")
        back = "crm_ticket --standby, booth move, crm_ticket --activate"
        ends_with(room, 1, f"is held by {room.one}, where its service is started again", back)
        room.put("calls")
        room.put("ticket.fails")
        ends_with(room, 2, f"was not moved, and is held by {room.one}", "crm_ticket --standby, crm_ticket --activate")


@story
def a_cluster_that_could_not_be_moved_is_refused(room: Room) -> None:
    """at a Pacemaker site nothing is done in a standby, without the ticket, or if Pacemaker does not answer"""
    room.is_cluster()
    with room.members():
        room.put("standby", "true\n")
        ends_with(room, 1, "is in standby already", "")
        room.put("standby", "false\n")
        room.put("status", "revoked\n")
        ends_with(room, 1, "is not granted here", "")
        room.put("mon.fails")
        ends_with(room, 1, "this site's cluster does not answer", "")


def outcome(told: Story) -> bool:
    """Returns whether a story passes, in its own room."""
    with scratch("booth-switchover-") as folder:
        try:
            told(Room(folder))
        except Exception as why:  # (whatever it is, the other stories are told)
            print(f"FAILED  {told.__doc__}: {type(why).__name__}: {why}", flush=True)
            return False
    print(f"ok      {told.__doc__}", flush=True)
    return True


def main(words: List[str]) -> int:
    """Runs the stories, or those whose name has one of the words."""
    chosen = [each for each in stories if not words or any(word in each.__name__ for word in words)]
    outcomes = [outcome(each) for each in chosen]
    print(f"switchover: {outcomes.count(True)} passed, {outcomes.count(False)} failed")
    return 1 if False in outcomes else 0


if __name__ == "__main__":
    sys.exit(main(sys.argv[1:]))
