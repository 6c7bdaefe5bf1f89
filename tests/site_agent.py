#!/usr/bin/env python3
"""Checks the resource agent of a site, and site-keep, against booth-pacemaker(8).

Run it as `python3 tests/site_agent.py [WORD..]`, which runs the stories whose name has one of the words, or all. It
needs no Pacemaker and nothing that is built: stand-ins on PATH note what is called, and the agent's folders lie in a
room. It takes less than a minute, prints a line for each story, and has the status 1 if one failed.
"""

import concurrent.futures
import os
import stat
import struct
import subprocess
import sys
import time
from typing import Callable, List, NamedTuple

HERE = os.path.dirname(os.path.abspath(__file__))
TOP = os.path.dirname(HERE)
sys.path[:0] = [HERE, f"{HERE}/../tools"]

import record_file
from checks import need
from scratch import scratch

CONF = 'site = "192.0.2.10"\nsite = 198.51.100.10 # b\narbitrator = 203.0.113.9\n'
CONF += 'authfile = "{room}/key"\nticket = db8\n'
# the exit statuses of the agent: success, an error, a missing program, a missing setting, not running
SUCCESS, GENERIC, INSTALLED, CONFIGURED, STOPPED = 0, 1, 5, 6, 7

STAND_INS = {
    "systemctl": """
last=; for word in "$@"; do last=$word; done
case " $* " in
  *" is-active "*) cat "units/$last" 2>/dev/null || echo inactive ;;
  *" start "*)
    [ ! -e "$last.fails" ] || exit 0
    before=$(sed -n 's/^ExecStartPre=+//p' "run/systemd/system/$last.d/booth-site.conf")
    sh -c "$before" || exit 0
    echo active >"units/$last" ;;
  *SubState*) cat waits 2>/dev/null || { grep -q active "units/$last" 2>/dev/null && echo running; } ;;
  *LoadState*) cat load 2>/dev/null || echo loaded ;;
  *" stop "*) [ ! -e "$last.stays" ] || exit 1; shift; for each; do rm -f "units/$each"; done ;;
  *NRestarts*) case $last in booth-follow@*) cat restarts 2>/dev/null || echo 0 ;; *) echo 5 ;; esac ;;
esac
""",
    "boothd": """
for word; do case $last in -c) conf=$word ;; -s) site=$word ;; esac; last=$word; done
if grep -q bad "$conf"; then echo "boothd: $conf: line 1: syntax"; else echo "boothd: $site is not a member"; fi
echo "boothd: the cause"
exit 1
""",
    "booth": "[ ! -e silent ] && [ \"$(cat units/booth@booth.service 2>/dev/null)\" = active ]\n",
    "crm_attribute": """
[ ! -e cib.fails ] || { echo 'Connection refused'; exit 102; }
last=; name=; new=
for word; do case $last in --name) name=$word ;; --update) new=$word ;; esac; last=$word; done
if [ "$new" ]; then [ ! -e cib.full ] || exit 1; echo "$new" >"cib/$name"; exit; fi
[ -e "cib/$name" ] || { echo 'No such device or address' >&2; exit 105; }
cat "cib/$name"
""",
    "crm_node": "cat node\n",
    "crm_ticket": "[ ! -e cib.fails ] || exit 102\ncat granted 2>/dev/null || echo false\n",
    "ip": "cat addresses\n",
    "journalctl": "echo 'boothd: cannot open'\n",
    "chown": "exit 0\n",
    # (the owners are those of the package's users)
    "install": """
set -- "$@" --
while [ "$1" != -- ]; do
  case $1 in -o | -g) shift 2 ;; *) set -- "$@" "$1"; shift ;; esac
done
shift
exec /usr/bin/install "$@"
""",
}
# a stand-in for follow-pacemaker, which the agent asks whether the wall clock allows a start of the daemon
CLOCK = """#!/bin/sh
cd {room} || exit 9
echo "follow-pacemaker $BOOTH_TICKET $*" >>calls
[ ! -e late ] || { echo "this node's clock is late" >&2; exit 1; }
"""
FUNCTIONS = """
OCF_SUCCESS=0 OCF_ERR_GENERIC=1 OCF_ERR_UNIMPLEMENTED=3 OCF_ERR_INSTALLED=5 OCF_ERR_CONFIGURED=6 OCF_NOT_RUNNING=7
ocf_exit_reason() { echo "ocf-exit-reason:$*" >&2; }
ocf_log() { echo "log: $*" >&2; }
"""


class Ended(NamedTuple):
    """The outcome of a run: its status, and what it printed."""

    status: int
    printed: str


class Room:
    """A node of a site: its folders, its units, and the cluster's properties."""

    def __init__(self, folder: str) -> None:
        self.folder = folder
        for name in ("bin", "share", "units", "cib", "records", "run", "lib"):
            os.makedirs(f"{folder}/{name}")
        for name, text in STAND_INS.items():
            note = f"""cd {folder} || exit 9\nprintf '%s\\n' "{name} $*" >>calls\n"""
            self.executable(f"bin/{name}", f"#!/bin/sh\n{note}{text}")
        self.executable("share/follow-pacemaker", CLOCK.replace("{room}", folder))
        self.executable("share/site-records", f"#!/bin/sh\nexec {sys.executable} {TOP}/packaging/site-records \"$@\"\n")
        for source, target in (("boothd.ocf", "agent"), ("site-keep", "share/site-keep")):
            with open(f"{TOP}/packaging/{source}", encoding="utf-8") as file:
                text = file.read()
            for word, place in (("@SBIN@", "bin"), ("@SHARE@", "share"), ("/run/", "run/"), ("/var/lib/", "lib/")):
                text = text.replace(word, f"{folder}/{place}")
            self.executable(target, text)
        self.put("lib/ocf-shellfuncs", FUNCTIONS)
        self.put("booth.conf", CONF.format(room=folder))
        self.put("key", "0123456789abcdef")
        self.put("records/.booth-site", "0 none\n")
        self.put("cib/booth-lease.db8", "expire=60 margin=10 stop=2\n")
        self.put("node", "a1\n")
        self.put("addresses", "2: eth0 inet 192.0.2.10/24 scope global eth0\n3: eth0 inet6 fe80::1/64 scope link\n")

    def put(self, name: str, text: str = "") -> None:
        """Writes a file of the room."""
        with open(f"{self.folder}/{name}", "w", encoding="utf-8") as file:
            file.write(text)

    def executable(self, name: str, text: str) -> None:
        """Writes a program into the room."""
        self.put(name, text)
        os.chmod(f"{self.folder}/{name}", stat.S_IRWXU)

    def text(self, name: str) -> str:
        """Returns the text of a file of the room, empty if it is missing."""
        try:
            with open(f"{self.folder}/{name}", encoding="utf-8") as file:
                return file.read()
        except FileNotFoundError:
            return ""

    def drop(self, *names: str) -> None:
        """Removes those files of the room that exist."""
        for name in names:
            if os.path.exists(f"{self.folder}/{name}"):
                os.remove(f"{self.folder}/{name}")

    def action(self, name: str, **more: str) -> Ended:
        """Runs the agent with an action."""
        said = {"config": f"{self.folder}/booth.conf", "records": f"{self.folder}/records", "tickets": "db8", **more}
        given = {f"OCF_RESKEY_{key}": value for key, value in said.items()}
        path = {"PATH": f"{self.folder}/bin:{os.environ['PATH']}", "OCF_FUNCTIONS_DIR": f"{self.folder}/lib"}
        streams = {"stdin": subprocess.DEVNULL, "stdout": subprocess.PIPE, "stderr": subprocess.STDOUT}
        words = [f"{self.folder}/agent", name]
        done = subprocess.run(words, env={**os.environ, **path, **given}, text=True, timeout=90, check=False, **streams)
        return Ended(done.returncode, done.stdout)

    def ends(self, action: str, status: int, text: str = "", **more: str) -> str:
        """Raises an error if an action ends with another status, or without this text."""
        done = self.action(action, **more)
        need(done.status == status and text in done.printed, f"{action}: {done}, and not {status} with {text!r}")
        return done.printed


Story = Callable[[Room], None]
stories: List[Story] = []


def story(function: Story) -> Story:
    """Adds a story to the list of stories."""
    stories.append(function)
    return function


@story
def starts_and_stops_units(room: Room) -> None:
    """a start runs the daemon and the followers with drop-ins, a monitor sees them, and a stop ends them"""
    room.ends("monitor", STOPPED)
    room.ends("stop", SUCCESS)
    room.ends("start", SUCCESS)
    room.ends("monitor", SUCCESS)
    calls = room.text("calls")
    need("systemctl --no-block start booth@booth.service" in calls, calls)
    need("systemctl --no-block start booth-follow@db8.service" in calls, calls)
    daemon = room.text("run/systemd/system/booth@booth.service.d/booth-site.conf")
    need(f"-c {room.folder}/run/booth-site/booth/booth.conf -s ${{ADDRESS}}" in daemon, daemon)
    need(f"ReadWritePaths={room.folder}/records" in daemon and "\nExecStart=\n" in daemon, daemon)
    follower = room.text("run/systemd/system/booth-follow@db8.service.d/booth-site.conf")
    need("-m 10 -k 5 db8 " in follower and "follow-pacemaker adopt " in follower, follower)
    need("\nExecStopPost=\n" in follower, follower)
    need("ADDRESS=192.0.2.10\nCLUSTER=booth\n" in room.text("run/booth-site/booth/env"), "the environment")
    room.ends("monitor", GENERIC, "it runs with the tickets 'db8', and not 'db8 mail'", tickets="db8 mail")
    room.ends("start", SUCCESS)
    for restarts, status in ((2, SUCCESS), (4, SUCCESS), (7, GENERIC), (8, SUCCESS), (0, SUCCESS)):
        room.put("restarts", f"{restarts}\n")
        room.ends("monitor", status, "" if status == SUCCESS else "booth-follow@db8 ends again and again")
    room.put("units/booth-follow@db8.service", "failed\n")
    room.ends("monitor", GENERIC, "booth-follow@db8 is failed")
    room.put("silent")
    room.ends("monitor", GENERIC, "the daemon at 192.0.2.10 does not answer")
    room.ends("stop", SUCCESS)
    room.ends("monitor", STOPPED)
    need(not room.text("run/booth-site/booth/env"), "a unit may be started by itself")


@story
def a_follower_that_does_not_start_is_told(room: Room) -> None:
    """no daemon starts if systemd can start no follower, and a start fails if a follower ends, but waits for nothing"""
    room.put("load", "masked\n")
    room.ends("start", GENERIC, "booth-follow@db8 is masked, so no daemon starts")
    need("start booth@booth" not in room.text("calls"), "a daemon was started")
    room.drop("load")
    for state in ("auto-restart\n", "failed\n"):
        room.put("waits", state)
        room.ends("start", GENERIC, "booth-follow@db8 ended at its start: boothd: cannot open")
        room.ends("stop", SUCCESS)
    room.put("waits", "start-pre\n")
    begun = time.monotonic()
    room.ends("start", SUCCESS)
    need(time.monotonic() - begun < 30, "it waited for long")


@story
def a_lost_ticket_is_seen(room: Room) -> None:
    """the monitor fails if Pacemaker's ticket is revoked although its follower has granted it and not revoked it"""
    room.ends("start", SUCCESS)
    os.makedirs(f"{room.folder}/run/booth-follow")
    room.ends("monitor", SUCCESS)
    room.put("run/booth-follow/db8.end.granted")
    room.ends("monitor", GENERIC, "Pacemaker has lost its ticket db8")
    room.put("cib.fails")
    room.ends("monitor", SUCCESS)
    room.drop("cib.fails")
    room.put("granted", "true\n")
    room.ends("monitor", SUCCESS)
    room.ends("stop", SUCCESS)
    need(not os.path.exists(f"{room.folder}/run/booth-follow/db8.end.granted"), "the mark stays")


@story
def systemd_reads_drop_ins_once(room: Room) -> None:
    """systemd reads the drop-ins again only if they differ"""
    for margin, reloads in ((10, 1), (10, 1), (12, 2)):
        room.put("cib/booth-lease.db8", f"expire=60 margin={margin} stop=2\n")
        room.ends("start", SUCCESS)
        room.ends("stop", SUCCESS)
        found = room.text("calls").count("systemctl daemon-reload")
        need(found == reloads, f"{found} reloads with a margin of {margin}")


@story
def a_bad_file_takes_nothing(room: Room) -> None:
    """if a file becomes invalid or is deleted, the last good copy is used, and nothing that works is ended"""
    room.ends("validate-all", SUCCESS)
    room.ends("start", SUCCESS)
    copy = room.text("run/booth-site/booth/booth.conf")
    need(f"authfile = {room.folder}/run/booth-site/booth/authfile\n" in copy, copy)
    room.put("booth.conf", f"bad\n{CONF.format(room=room.folder)}")
    room.ends("monitor", SUCCESS)
    room.ends("validate-all", CONFIGURED, "line 1: syntax")
    room.ends("stop", SUCCESS)
    room.ends("start", SUCCESS, "is refused: the daemon starts with the copy of the last start")
    need(room.text("run/booth-site/booth/booth.conf") == copy, "the copy was changed")
    room.ends("stop", SUCCESS)
    for name in ("booth.conf", "authfile"):
        room.drop(f"run/booth-site/booth/{name}")
    room.ends("start", CONFIGURED, "line 1: syntax")


@story
def stale_records_are_refused(room: Room) -> None:
    """each start raises the generation in records and CIB, and records of an older one are refused"""
    for generation in (1, 2):
        room.ends("start", SUCCESS)
        room.ends("stop", SUCCESS)
        need(room.text("records/.booth-site") == f"{generation} a1\n", room.text("records/.booth-site"))
        need(room.text("cib/booth-generation.booth") == f"{generation} a1\n", room.text("cib/booth-generation.booth"))
    # another daemon ran on a2 since, over other records
    room.put("cib/booth-generation.booth", "3 a2\n")
    printed = room.ends("start", GENERIC, "but the last daemon had 3 (on a2): they are stale")
    need("records of generation 2 (a1)" in printed, printed)
    need(room.text("records/.booth-site") == "2 a1\n", "the records' generation was raised")
    # a start that was cut off between the two
    room.put("records/.booth-site", "4 a2\n")
    room.ends("start", SUCCESS)
    need(room.text("cib/booth-generation.booth") == "5 a1\n", room.text("cib/booth-generation.booth"))


class Node:
    """A node of a site whose nodes have records of their own, in a room that all nodes share."""

    def __init__(self, room: Room, name: str) -> None:
        self.room, self.name = room, name
        os.makedirs(f"{room.folder}/{name}")
        room.put(f"{name}/.booth-site", "0 none\n")

    def run(self, status: int = SUCCESS, text: str = "") -> str:
        """Starts the daemon on this node, looks at it once, and stops it."""
        own = {"records": f"{self.room.folder}/{self.name}", "records_mode": "local"}
        self.room.put("node", f"{self.name}\n")
        printed = self.room.ends("start", status, text, **own)
        if status == SUCCESS:
            self.room.ends("monitor", SUCCESS, **own)
            self.room.ends("stop", SUCCESS, **own)
        return printed

    def path(self, ticket: str = "db8") -> str:
        """Returns the path of a record."""
        return f"{self.room.folder}/{self.name}/{ticket.encode().hex()}.rec"

    def write(self, term: int, ticket: str = "db8") -> None:
        """Writes a record with a promise, as a daemon does."""
        kept = record_file.SECOND_FORM.pack(2, term, 4, 0, 0, 0, 7, term, 0, 9_000, 0, 0)
        with open(self.path(ticket), "wb") as file:
            file.write(bytes(128) + bytes([1]) + bytes(7) + struct.pack(">Q", 4) + kept)

    def record(self, ticket: str = "db8") -> record_file.Record:
        """Returns the record in force."""
        with open(self.path(ticket), "rb") as file:
            return record_file.in_force(record_file.slots_in(file.read())).record


@story
def records_of_each_node_are_silent_elsewhere(room: Room) -> None:
    """with records on each node a daemon keeps its own, and one at another node starts silent with a greater term"""
    one, two = Node(room, "a1"), Node(room, "a2")
    begun = int(time.time())
    need("starts silent" in one.run(), "the first daemon of the site")
    first = one.record()
    need(first == record_file.Record(1, first.term, None) and begun <= first.term <= time.time(), f"{first}")
    need(room.text("cib/booth-term.booth") == f"{first.term}\n", room.text("cib/booth-term.booth"))
    one.write(first.term + 5)
    need("silent" not in one.run(), "the same node")
    need((one.record().term, one.record().promise.to) == (first.term + 5, 7), f"{one.record()}")
    need(room.text("cib/booth-term.booth") == f"{first.term + 5}\n", "the monitor notes the term")
    # the clock of the first node was ahead by a year
    ahead = int(time.time()) + 31_536_000
    one.write(ahead)
    one.run()
    need("the last daemon ran at a1: this one starts silent" in two.run(), "another node")
    need(two.record() == record_file.Record(1, ahead + 1_000_000, None), f"{two.record()}")
    two.write(ahead + 1_000_003)
    two.write(9, "mail")
    two.run()
    need(two.record().promise is not None and two.record("mail").term == 9, "the records of the second node")
    # back at the first one, whose records are old
    need("the last daemon ran at a2: this one starts silent" in one.run(), "back at the first node")
    need(one.record() == record_file.Record(1, ahead + 2_000_003, None), f"{one.record()}")
    need(room.text("a1/.booth-site") == room.text("cib/booth-generation.booth") == "6 a1\n", room.text("a1/.booth-site"))


@story
def a_ticket_without_a_record_is_silent(room: Room) -> None:
    """a ticket that has no record on a node gets a silent one, and records of other tickets do not stay elsewhere"""
    one, two = Node(room, "a1"), Node(room, "a2")
    one.run()
    room.put("booth.conf", f"{CONF.format(room=room.folder)}ticket = mail\n")
    one.write(3, "old")
    one.write(7)
    one.run()
    need(one.record().term == 7 and one.record("mail").version == 1, "the records of the first node")
    need(one.record("old").term == 3, "a ticket that the file lacks")
    two.run()
    one.run()
    need(one.record().version == 1 and not os.path.exists(one.path("old")), "back at the first node")
    need(os.path.exists(f"{one.path('old')}.last"), "the old record is kept aside")


@story
def silent_records_that_fail_start_nothing(room: Room) -> None:
    """no daemon starts if the records cannot be made silent, or the CIB does not take their term"""
    one = Node(room, "a1")
    room.put("cib/booth-term.booth", "x\n")
    one.run(GENERIC, "the greatest term in the CIB (x) is not a number")
    room.put("cib/booth-term.booth", "3999999999\n")
    one.run(GENERIC, "cannot write silent records: the term is 4000999999: it must be 1 to 4000000000")
    room.drop("cib/booth-term.booth")
    room.put("cib.full")
    one.run(GENERIC, "cannot write the greatest term into the CIB")
    room.drop("cib.full")
    os.makedirs(one.path("mail"))
    one.run(GENERIC, "cannot write silent records: ")
    os.rmdir(one.path("mail"))
    os.remove(f"{room.folder}/a1/.booth-site")
    one.run(GENERIC, "not set up here")
    need("start booth@booth" not in room.text("calls"), "a daemon was started")


@story
def a_late_clock_starts_nothing(room: Room) -> None:
    """a node whose wall clock is behind that of the last daemon starts no daemon, and does not raise the generation"""
    room.put("late")
    room.ends("start", GENERIC, "ocf-exit-reason:this node's clock is late")
    need(room.text("records/.booth-site") == "0 none\n", room.text("records/.booth-site"))
    need("start booth@booth" not in room.text("calls"), "a daemon was started")
    room.drop("late", "calls")
    room.ends("start", SUCCESS)
    need(f"follow-pacemaker db8 clock {room.folder}/records\n" in room.text("calls"), room.text("calls"))
    follower = room.text("run/systemd/system/booth-follow@db8.service.d/booth-site.conf")
    need(f'\nEnvironment="BOOTH_RECORDS={room.folder}/records"\n' in follower, follower)


@story
def what_cannot_be_told_starts_nothing(room: Room) -> None:
    """without the marker, the CIB's answer or a valid number, no daemon starts"""
    room.put("cib.fails")
    room.ends("start", GENERIC, "cannot read the records' generation in the CIB")
    room.drop("cib.fails")
    room.put("cib.full")
    room.ends("start", GENERIC, "cannot write the records' generation into the CIB")
    room.drop("cib.full")
    for text in ("x a1\n", "\n"):
        room.put("records/.booth-site", text)
        room.ends("start", GENERIC, "is not a number")
    room.drop("records/.booth-site")
    room.ends("start", GENERIC, "is missing: the records' storage is not mounted")
    need("start booth@booth" not in room.text("calls"), "a daemon was started")


@story
def parameters_are_looked_at(room: Room) -> None:
    """unknown modes of records, addresses that this node lacks, and tickets without a lease are refused with a reason"""
    room.ends("start", CONFIGURED, "records_mode must be shared or local, and is other", records_mode="other")
    room.ends("start", CONFIGURED, "mail has no lease in the CIB", tickets="db8 mail")
    room.ends("start", INSTALLED, "is missing or cannot be read", config="/nowhere/booth.conf")
    room.put("addresses", "2: eth0 inet 192.0.2.10/24\n2: eth0 inet 198.51.100.10/24\n")
    room.ends("start", CONFIGURED, "addresses of several sites")
    room.ends("start", SUCCESS, address="198.51.100.10")
    room.ends("stop", SUCCESS)
    room.put("addresses", "2: eth0 inet 192.0.2.100/24\n")
    room.ends("start", GENERIC, "this node has no address of a site line")


@story
def a_daemon_that_does_not_start_is_told(room: Room) -> None:
    """if a daemon ends again and again, the start fails with its message, and a stop clears what is left"""
    room.put("booth@booth.service.fails")
    begun = time.monotonic()
    room.ends("start", GENERIC, "does not answer: boothd: cannot open")
    need(time.monotonic() - begun < 40, "it waited for long")
    room.ends("stop", SUCCESS)
    room.drop("booth@booth.service.fails")
    room.ends("start", SUCCESS)
    room.put("booth@booth.service.stays")
    room.ends("stop", GENERIC, "has not ended")


@story
def it_tells_what_it_is(room: Room) -> None:
    """the agent's meta-data is an XML document, and other actions are refused"""
    import xml.etree.ElementTree as ElementTree

    printed = room.ends("meta-data", SUCCESS)
    root = ElementTree.fromstring(printed)
    actions = {each.get("name") for each in root.iter("action")}
    need(actions == {"start", "stop", "monitor", "meta-data", "validate-all"}, f"{actions}")
    names = {each.get("name") for each in root.iter("parameter")}
    need({"config", "address", "tickets", "records", "records_mode"} <= names, f"{names}")
    room.ends("promote", 3)


def outcome(told: Story) -> bool:
    """Returns whether a story passes, in its own room."""
    with scratch("booth-agent-") as folder:
        begun = time.monotonic()
        try:
            told(Room(folder))
        except Exception as why:  # (whatever it is, the other stories are told)
            print(f"FAILED  {told.__doc__}: {type(why).__name__}: {why}", flush=True)
            return False
        print(f"ok      {told.__doc__} ({time.monotonic() - begun:.1f} s)", flush=True)
        return True


def main(words: List[str]) -> int:
    """Runs the stories, or those whose name has one of the words."""
    begun = time.monotonic()
    chosen = [each for each in stories if not words or any(word in each.__name__ for word in words)]
    # (most of their time they wait)
    with concurrent.futures.ThreadPoolExecutor(4) as pool:
        outcomes = list(pool.map(outcome, chosen))
    failed = outcomes.count(False)
    print(f"site_agent: {len(outcomes) - failed} passed, {failed} failed, in {time.monotonic() - begun:.1f} s")
    return 1 if failed else 0


if __name__ == "__main__":
    sys.exit(main(sys.argv[1:]))
