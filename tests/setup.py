#!/usr/bin/env python3
"""Checks that booth-setup sets up members as in OPERATING.md, refuses what it must not touch, and undoes a failure.

Run it as `python3 tests/setup.py`, in some seconds. A stand-in for systemctl records its calls. Most runs write below a
directory of their own (--root). The runs that start units write into a mount namespace; they are left out if this
machine allows none. It prints a line for each story, and has the status 1 if one failed.
"""

import contextlib
import os
import re
import shutil
import stat
import subprocess
import sys
from typing import Callable, Dict, List, NamedTuple, Optional

HERE = os.path.dirname(os.path.abspath(__file__))
TOP = os.path.dirname(HERE)
sys.path[:0] = [HERE, f"{TOP}/tools"]

import setup_bundle
from checks import Wrong, need
from scratch import scratch
from serving import built_program
from shells import read

PROGRAM = f"{TOP}/packaging/booth-setup"
ONE, TWO, THIRD = "192.0.2.10", "198.51.100.10", "203.0.113.10"
CLUSTER = ("--site", ONE, "--site", TWO, "--arbitrator", THIRD)
CONF = f"""\
# Written by booth-setup init. All members must have the same file.
authfile   = /etc/booth/authkey
authhash   = sha256
site       = "{ONE}"
site       = "{TWO}"
arbitrator = "{THIRD}"

ticket = "db8"
  expire        = 60
  acquire-after = 30
  timeout       = 3
  retries       = 3
  steady        = yes
"""
# a stand-in for systemctl: it records each call, fails for what a file says, and answers about units by files
SYSTEMCTL = """#!/bin/sh
room={room}
echo "$*" >>"$room/calls"
fails=$(cat "$room/fails" 2>/dev/null) || fails='no such call'
case "$*" in *"$fails"*) echo 'Failed to do it: it was told so.' >&2; exit 1 ;; esac
case $1 in
  is-active | is-enabled | cat) grep -q "^$1\\$" "$room/units/$2" 2>/dev/null || exit 3
    case $1 in is-active) echo active ;; is-enabled) echo enabled ;; esac ;;
esac
"""
JOURNALCTL = """#!/bin/sh
echo 'Failed to start booth@booth.service - Ticket manager of the cluster booth.'
echo 'socket at 192.0.2.10, port 9929: Address already in use (os error 98)'
echo 'cannot open'
"""
SERVER = """#!/bin/sh
echo "$*" >>{room}/server-calls
case $* in *--primary*)
  mkdir -p /etc/booth/postgresql && umask 077
  echo '*:*:*:booth_replication:secret' >/etc/booth/postgresql/15-main.pgpass ;;
esac
[ ! -e {room}/server-fails ] || exit 1
"""
# runs a command in a namespace, with another folder as /etc, and with this address
INSIDE = """\
set -e
mount --bind "$1/etc" /etc
ip addr add "$2/32" dev lo
ip link set lo up
shift 2
exec "$@"
"""


class Ran(NamedTuple):
    """The outcome of a run: its status, and what it printed."""

    status: int
    out: str
    err: str


class Room:
    """A directory with a stand-in for systemctl, and with the roots of the members."""

    def __init__(self, folder: str) -> None:
        self.folder = folder
        os.makedirs(f"{folder}/bin")
        os.makedirs(f"{folder}/units")
        for name, text in (("systemctl", SYSTEMCTL), ("journalctl", JOURNALCTL), ("booth-postgresql", SERVER)):
            self.program(f"bin/{name}", text.format(room=folder) if name != "journalctl" else text)
        self.program("bin/booth-setup", read(PROGRAM).replace('"../tools"', f'"{TOP}/tools"'))
        boothd = built_program()
        self.path = ":".join([f"{folder}/bin", *([os.path.dirname(boothd)] if boothd else []), os.environ["PATH"]])

    def program(self, name: str, text: str) -> None:
        """Writes a program."""
        with open(f"{self.folder}/{name}", "w", encoding="utf-8") as file:
            file.write(text)
        os.chmod(file.name, 0o755)

    def write(self, name: str, text: str = "") -> None:
        """Writes a file that a stand-in reads."""
        with open(f"{self.folder}/{name}", "w", encoding="utf-8") as file:
            file.write(text)

    def root(self, name: str) -> str:
        """Returns the root of a machine that has the daemon's user, with the user and group ids of this process."""
        path = f"{self.folder}/{name}"
        if not os.path.isdir(path):
            os.makedirs(f"{path}/etc")
            with open(f"{path}/etc/passwd", "w", encoding="ascii") as file:
                file.write(f"root:x:0:0::/:/bin/sh\nbooth:x:{os.getuid()}:{os.getgid()}::/:/bin/sh\n")
        return path

    def run(self, *words: str, root: str = "") -> Ran:
        """Runs booth-setup below a root."""
        return self.call([f"{self.folder}/bin/booth-setup", *words, *(["--root", self.root(root)] if root else [])])

    def inside(self, machine: str, address: str, *words: str) -> Ran:
        """Runs booth-setup in its own mount and network namespace, as on a machine that has that address."""
        space = ["unshare", "--mount", "--net", "sh", "-c", INSIDE, "sh", self.root(machine), address]
        return self.call([*space, f"{self.folder}/bin/booth-setup", *words])

    def call(self, words: List[str]) -> Ran:
        """Runs a command with the stand-ins, within a limit of time."""
        done = subprocess.run(
            words, stdin=subprocess.DEVNULL, capture_output=True, text=True, timeout=60, check=False, cwd=self.folder,
            env={**os.environ, "PATH": self.path},
        )  # fmt: skip
        return Ran(done.returncode, done.stdout, done.stderr)

    def calls(self) -> List[str]:
        """Returns the calls of systemctl since the last look, without the path of the root."""
        path = f"{self.folder}/calls"
        found = read(path).splitlines() if os.path.exists(path) else []
        with contextlib.suppress(FileNotFoundError):
            os.unlink(path)
        return [re.sub(r"--root=\S+ ", "", line) for line in found]

    def tree(self, name: str) -> Dict[str, bytes]:
        """Returns the files and the directories of a root, each file with its content and its mode."""
        found: Dict[str, bytes] = {}
        for at, folders, names in os.walk(self.root(name)):
            for each in names:
                path = f"{at}/{each}"
                with open(path, "rb") as file:
                    mode = stat.S_IMODE(os.stat(path).st_mode)
                    found[os.path.relpath(path, self.root(name))] = f"{mode:o} ".encode() + file.read()
            found.update({os.path.relpath(f"{at}/{each}", self.root(name)): b"" for each in folders})
        return found


Story = Callable[[Room], Optional[str]]


def begun(room: Room, root: str = "one", *more: str) -> Ran:
    """Sets the first member up below a root, and returns what the setup printed."""
    done = room.run("init", *CLUSTER, "--ticket", "db8", "--address", ONE, *more, root=root)
    need(done.status == 0 and not done.err, f"init: status {done.status}, {done.err}")
    return done


def bundle_of(room: Room, root: str = "one") -> str:
    """Returns the path of the bundle that a first member has written."""
    return f"{room.root(root)}/etc/booth/booth.bundle"


def init_writes_what_an_operator_would(room: Room) -> None:
    """init writes configuration, key, address, drop-in and bundle, and enables the daemon and the follower"""
    begun(room)
    there = room.tree("one")
    need(there["etc/booth/booth.conf"] == b"644 " + CONF.encode(), f"{there['etc/booth/booth.conf']!r}")
    key = there["etc/booth/authkey"]
    need(key.startswith(b"600 ") and len(key) == 68, f"the key: {key[:4]!r}, {len(key) - 4} bytes")
    env = f"644 ADDRESS={ONE}\nBOOTH_ADDRESS={ONE}\n".encode()
    need(there["etc/booth/booth.env"] == env, f"{there['etc/booth/booth.env']!r}")
    drop_in = there["etc/systemd/system/booth@.service.d/journal.conf"]
    need(drop_in == b"644 " + read(f"{TOP}/packaging/journal.conf").encode(), f"the drop-in: {drop_in!r}")
    need(there["etc/booth/booth.bundle"].startswith(b"600 booth-setup bundle, version 1\n"), "the bundle")
    wanted = ["enable booth@booth.service", "enable booth-follow@db8.service"]
    need((calls := room.calls()) == wanted, f"systemctl {calls}")


def join_does_the_same(room: Room) -> None:
    """join gives another site and an arbitrator the same files, each with its own address"""
    begun(room)
    room.calls()
    first = room.tree("one")
    for name, address in (("two", TWO), ("third", THIRD)):
        done = room.run("join", bundle_of(room), address, root=name)
        need(done.status == 0 and not done.err, f"join: status {done.status}, {done.err}")
        there = room.tree(name)
        env = there.pop("etc/booth/booth.env")
        need(env == f"644 ADDRESS={address}\nBOOTH_ADDRESS={address}\n".encode(), f"{env!r}")
        alike = {path: content for path, content in first.items() if not path.endswith(("booth.env", ".bundle"))}
        need(there == alike, f"{name}: {sorted(set(there) ^ set(alike))} are not at both")
        followers = ["enable booth-follow@db8.service"] if name == "two" else []
        need((calls := room.calls()) == ["enable booth@booth.service", *followers], f"{name}: systemctl {calls}")


def dry_runs_change_nothing(room: Room) -> None:
    """-n prints the configuration and each step, and changes nothing"""
    before = room.tree("one")
    done = room.run("init", *CLUSTER, "--ticket", "db8", "--address", ONE, "-n", root="one")
    need(done.status == 0 and room.tree("one") == before, f"status {done.status}, {done.err}")
    lines = ('    site       = "192.0.2.10"', "would write /etc/booth/authkey", "would run systemctl enable booth@booth")
    for line in lines:
        need(line in done.out, f"it does not print {line!r}: {done.out}")
    begun(room)
    done = room.run("join", bundle_of(room), TWO, "-n", root="two")
    need(done.status == 0 and set(room.tree("two")) == {"etc", "etc/passwd"}, f"{done.status}, {room.tree('two')}")


def runs_again_change_nothing(room: Room) -> None:
    """a run with the same arguments changes nothing, and an environment file of another form stays unchanged"""
    begun(room)
    # (the file has more variables, or only the one that an earlier version wrote)
    for first in (f"ADDRESS={ONE}\nBOOTH_ADDRESS={ONE}\n", f"ADDRESS={ONE}\n"):
        with open(f"{room.root('one')}/etc/booth/booth.env", "w", encoding="ascii") as file:
            file.write(f"{first}CLOCK_SECONDS=20\n")
        before = room.tree("one")
        begun(room)
        need(room.tree("one") == before, f"a second run changed something beside {first!r}")


def names_and_units_may_differ(room: Room) -> None:
    """the follower's environment and its drop-in have another cluster's name and another unit"""
    done = room.run(
        "init", "--name", "east", *CLUSTER, "--ticket", "web=apache2.service", "--address", ONE, "--no-journal",
        root="one",
    )  # fmt: skip
    need(done.status == 0, done.err)
    there = {name: content.decode() for name, content in room.tree("one").items() if not name.endswith("key")}
    env = there["etc/booth/follow/web.env"]
    wanted = f"644 CLUSTER=east\nADDRESS={ONE}\nPROGRAM=/usr/share/booth-proved/follow-unit apache2.service\n"
    need(env == wanted, f"web.env: {env!r}")
    drop_in = there["etc/systemd/system/booth-follow@web.service.d/unit.conf"]
    need(drop_in.endswith("[Unit]\nBefore=apache2.service\n"), f"the drop-in: {drop_in!r}")
    need("authfile   = /etc/booth/east.authkey\n" in there["etc/booth/east.conf"], there["etc/booth/east.conf"])
    need("etc/systemd/system/booth@.service.d" not in there, "there is a drop-in of the journal")


def failures_are_undone(room: Room) -> None:
    """whichever step fails, nothing is left of the earlier steps, and the cause is named"""
    before = room.tree("one")
    for step in ("enable booth@booth", "enable booth-follow@db8"):
        room.write("fails", step)
        done = room.run("init", *CLUSTER, "--ticket", "db8", "--address", ONE, root="one")
        need(done.status == 1 and "it was told so" in done.err, f"{step}: status {done.status}, {done.err}")
        need(room.tree("one") == before, f"{step}: left {sorted(set(room.tree('one')) - set(before))}")
    need("disable booth@booth.service" in room.calls(), "the daemon was not disabled again")


def nothing_is_written_over(room: Room) -> None:
    """a file with other content, records of an earlier cluster, and another bundle are named, and left unchanged"""
    files = ("booth.conf", "booth.env")
    for name in files:
        path = f"{room.root('one')}/etc/booth/{name}"
        os.makedirs(os.path.dirname(path), exist_ok=True)
        with open(path, "w", encoding="ascii") as file:
            file.write("# mine\n")
        before = room.tree("one")
        done = room.run("init", *CLUSTER, "--ticket", "db8", "--address", ONE, root="one")
        is_named = f"/etc/booth/{name} exists already" in done.err
        need(done.status == 1 and is_named and room.tree("one") == before, f"{name}: {done.status}, {done.err}")
        os.unlink(path)
    records = f"{room.root('one')}/var/lib/booth/booth"
    os.makedirs(records)
    with open(f"{records}/646238.rec", "wb"):
        pass
    done = room.run("init", *CLUSTER, "--ticket", "db8", "--address", ONE, root="one")
    need(done.status == 1 and "has records of an earlier cluster" in done.err, f"{done.status}, {done.err}")
    begun(room, "one", "--keep-records")
    with open(f"{room.root('two')}/etc/another", "wb") as other:
        other.write(b"a key of another cluster")
    os.makedirs(f"{room.root('two')}/etc/booth")
    os.rename(other.name, f"{room.root('two')}/etc/booth/authkey")
    done = room.run("join", bundle_of(room), TWO, root="two")
    need(done.status == 1 and "/etc/booth/authkey exists already" in done.err, f"{done.status}, {done.err}")
    os.unlink(f"{room.root('two')}/etc/booth/authkey")
    done = room.run("init", *CLUSTER, "--ticket", "web", "--address", ONE, "--bundle", bundle_of(room), root="two")
    need(done.status == 1 and "as the bundle of another cluster" in done.err, f"{done.status}, {done.err}")


def arguments_are_refused(room: Room) -> None:
    """each invalid argument is refused, with its value and the allowed ones"""
    db8 = ("--ticket", "db8", "--address", ONE)
    rows = [
        (("--site", ONE, *db8), "at least two sites"),
        ((*CLUSTER, "--address", ONE), "needs a ticket"),
        ((*CLUSTER, *db8, "--ticket", "db8"), "--ticket db8 is named twice"),
        ((*CLUSTER, "--ticket", "a b"), "letters, digits"),
        ((*CLUSTER, "--ticket", "db8=other"), "'other' is not the name of a systemd unit"),
        ((*CLUSTER, *db8, "--name", "../x"), "cannot be the name of a cluster"),
        (("--site", "alpha", "--site", TWO, *db8), "--site alpha: is not an IP address"),
        ((*CLUSTER, "--ticket", "db8", "--address", "192.0.2.99"), "192.0.2.99 is not a member"),
        ((*CLUSTER, "--ticket", "db8"), "give this member's address with --address"),
        ((*CLUSTER, *db8, "--retries", "2"), "'2' is not a whole number from 3 to 100"),
        ((*CLUSTER, *db8, "--expire", "soon"), "'soon' is not a whole number from 1 to"),
        ((*CLUSTER, *db8, "--restart"), "--restart needs --postgresql"),
        ((*CLUSTER, *db8, "--postgresql", "web=15/main", "--ticket", "x"), "there is no --ticket web"),
        ((*CLUSTER, *db8, "--bundle", f"{room.folder}/none/b"), "does not exist"),
    ]
    if built_program():
        rows.append(((*CLUSTER, *db8, "--expire", "10", "--timeout", "9"), "do not fit renewal-freq"))
    for words, text in rows:
        done = room.run("init", *words, root="one")
        need(done.status == 1 and text in done.err, f"{' '.join(words)}: status {done.status}, {done.err}")
        need(set(room.tree("one")) == {"etc", "etc/passwd"}, f"{' '.join(words)}: it left {sorted(room.tree('one'))}")
    os.unlink(f"{room.root('one')}/etc/passwd")
    done = room.run("init", *CLUSTER, *db8, root="one")
    need(done.status == 1 and "has no user booth" in done.err, f"without the user: {done.err}")


def bundles_are_checked(room: Room) -> None:
    """a bundle that is cut, changed, of another version, of another form, or readable by others is refused"""
    begun(room)
    with open(bundle_of(room), "rb") as file:
        whole = file.read()
    head, _, rest = whole.partition(b"\n")
    rows = [
        (whole[:-1], 0o600, "its checksum is wrong"),
        (whole.replace(TWO.encode(), b"198.51.100.11"), 0o600, "its checksum is wrong"),
        (b"booth-setup bundle, version 2\n" + rest, 0o600, "version 2, but this booth-setup reads version 1"),
        (b"hello\n", 0o600, "is not a bundle of booth-setup"),
        (b"", 0o600, "is not a bundle of booth-setup"),
        (whole, 0o640, "its mode 0640 allows others to read it"),
    ]
    read_again = setup_bundle.of_document({**json_of(rest), "postgresql": None})
    need(setup_bundle.spelled(read_again) == whole, "a bundle is spelled in two ways")
    for content, mode, text in rows:
        path = f"{room.folder}/tried"
        with open(path, "wb") as file:
            file.write(content)
        os.chmod(path, mode)
        done = room.run("join", path, TWO, root="two")
        need(done.status == 1 and text in done.err, f"{text}: status {done.status}, {done.err}")
        need(set(room.tree("two")) == {"etc", "etc/passwd"}, f"{text}: it left {sorted(room.tree('two'))}")
    done = room.run("join", f"{room.folder}/none", TWO, root="two")
    need(done.status == 1 and "No such file or directory" in done.err, done.err)
    done = room.run("join", bundle_of(room), "192.0.2.99", root="two")
    need(done.status == 1 and "192.0.2.99 is not a member" in done.err, done.err)


def json_of(rest: bytes) -> Dict[str, object]:
    """Returns the document in a bundle, which comes after its checksum."""
    import json

    return json.loads(rest.partition(b"\n")[2])


def documents_name_commands_that_are_taken(room: Room) -> None:
    """booth-setup accepts each of its commands that a document has"""
    found = []
    for name in ("README.md", "docs/OPERATING.md", "docs/POSTGRESQL.md"):
        text = read(f"{TOP}/{name}").replace("\\\n", " ")
        found += re.findall(r"^ {4,}(?:# )?booth-setup init (.*?)(?:  +#.*)?$", text, re.M)
    need(found, "no document names booth-setup init")
    for number, words in enumerate(found):
        asked = [each for each in words.split() if each != "-n"]
        if "--postgresql" in asked:
            at = asked.index("--postgresql")
            options = ("--restart", "--allow-basebackup")
            asked = [each for each in (*asked[:at], *asked[at + 2 :]) if each not in options]
        done = room.run("init", *asked, "--address", ONE, root=f"documents-{number}")
        need(done.status == 0, f"booth-setup init {words}: status {done.status}, {done.err}")


# ---- on a machine


def has_namespaces() -> bool:
    """Returns whether this machine allows mount and network namespaces."""
    if not shutil.which("unshare") or not shutil.which("ip"):
        return False
    probe = subprocess.run(["unshare", "--mount", "--net", "true"], capture_output=True, check=False, timeout=20)
    return probe.returncode == 0


def units_are_started(room: Room) -> Optional[str]:
    """on a machine it finds its own address, starts daemon and follower, and does not stop a running service"""
    if not has_namespaces():
        return "this machine gives no namespaces"
    for unit, states in (("db8.service", "cat\n"), ("web.service", "cat\nis-active\nis-enabled\n")):
        room.write(f"units/{unit}", states)
    words = ("init", *CLUSTER, "--ticket", "db8", "--ticket", "web", "--ticket", "none")
    done = room.inside("one", ONE, *words)
    need(done.status == 0, f"status {done.status}, {done.err}")
    asked = [call for call in room.calls() if not call.startswith(("is-", "cat"))]
    wanted = ["daemon-reload", "enable --now booth@booth.service", "enable --now booth-follow@db8.service"]
    wanted += ["disable web.service", "enable booth-follow@web.service"]
    need(asked == wanted, f"systemctl {asked}")
    for line in ("web.service keeps running.", "there is no none.service here", f"booth grant -w -s {ONE} db8"):
        need(line in done.out, f"it does not print {line!r}: {done.out}")
    done = room.inside("two", "192.0.2.77", "join", bundle_of(room), TWO)
    need(done.status == 1 and f"{TWO} is not an address of this machine" in done.err, f"{done.status}, {done.err}")
    room.write("fails", "enable --now booth@booth")
    done = room.inside("two", TWO, "join", bundle_of(room), TWO)
    need(done.status == 1 and "Address already in use" in done.err, f"{done.status}, {done.err}")
    need(set(room.tree("two")) == {"etc", "etc/passwd"}, f"it left {sorted(room.tree('two'))}")
    return None


def servers_are_set_up(room: Room) -> Optional[str]:
    """with --postgresql the bundle has the password of the servers, and no follower is started"""
    if not has_namespaces():
        return "this machine gives no namespaces"
    words = ("init", *CLUSTER, "--ticket", "db8", "--postgresql", "15/main", "--restart", "--allow-basebackup")
    room.write("server-fails")
    done = room.inside("one", ONE, *words)
    need(done.status == 1 and "run this command again" in done.err, f"{done.status}, {done.err}")
    os.unlink(f"{room.folder}/server-fails")
    done = room.inside("one", ONE, *words)
    need(done.status == 0, f"status {done.status}, {done.err}")
    done = room.inside("two", TWO, "join", bundle_of(room), TWO)
    need(done.status == 0, f"status {done.status}, {done.err}")
    done = room.inside("third", THIRD, "join", bundle_of(room), THIRD)
    need(done.status == 0, f"status {done.status}, {done.err}")
    asked = read(f"{room.folder}/server-calls").splitlines()
    primary = f"setup db8 15/main --primary --address {ONE} --restart --allow-basebackup"
    need(asked == [primary] * 2 + [f"setup db8 15/main --standby --address {TWO} --allow-basebackup"], f"{asked}")
    path = "etc/booth/postgresql/15-main.pgpass"
    need(room.tree("one")[path] == room.tree("two")[path] and path not in room.tree("third"), "the password")
    need(not any("booth-follow" in call for call in room.calls()), "a follower was started")
    return None


def options_of_the_guide_fit_its_times(_: Room) -> None:
    """the margin and the kill time that OPERATING.md names fit its cluster, by the rules of booth-follow(8)"""
    text = read(f"{TOP}/docs/OPERATING.md")
    expire = int(re.findall(r"booth-setup init .* --expire (\d+)", text)[0])
    margin, kill = map(int, re.findall(r"`OPTIONS=-m (\d+) -k (\d+)`", text)[0])
    watchdog = int(re.findall(r"`RuntimeWatchdogSec=(\d+)`", text)[0])
    need(expire / 2 + 2 + margin <= expire, f"a margin of {margin} does not fit expire = {expire}")
    need(max(1, watchdog) < kill < margin, f"a watchdog of {watchdog}, a kill time of {kill}, a margin of {margin}")


def firewall_rules_of_the_drill_are_accepted(_: Room) -> Optional[str]:
    """nft accepts the rules that OPERATING.md has for the drill"""
    if not has_namespaces() or not shutil.which("nft"):
        return "this machine has no nft, or gives no namespaces"
    text = read(f"{TOP}/docs/OPERATING.md")
    (rules,), (end,) = re.findall(r"^ +(nft '.*?')$", text, re.S | re.M), re.findall(r"`(nft delete [^`]+)`", text)
    words = ["unshare", "--net", "sh", "-ec", f"{rules}\n{end}"]
    done = subprocess.run(words, capture_output=True, text=True, check=False, timeout=20)
    need(done.returncode == 0, done.stderr)
    return None


STORIES: List[Story] = [
    init_writes_what_an_operator_would,
    join_does_the_same,
    dry_runs_change_nothing,
    runs_again_change_nothing,
    names_and_units_may_differ,
    failures_are_undone,
    nothing_is_written_over,
    arguments_are_refused,
    bundles_are_checked,
    documents_name_commands_that_are_taken,
    units_are_started,
    servers_are_set_up,
    options_of_the_guide_fit_its_times,
    firewall_rules_of_the_drill_are_accepted,
]


def told(story: Story) -> str:
    """Runs a story in its own room, and returns the result."""
    with scratch("booth-setup-test-") as folder:
        try:
            left_out = story(Room(folder))
        except (Wrong, OSError, subprocess.TimeoutExpired) as why:
            print(f"FAILED  {story.__doc__}: {why}", flush=True)
            return "failed"
    print(f"left out  {story.__doc__}: {left_out}" if left_out else f"ok      {story.__doc__}", flush=True)
    return "left out" if left_out else "passed"


def main() -> int:
    """Runs each story, and returns the exit status."""
    outcomes = [told(story) for story in STORIES]
    print("setup: " + ", ".join(f"{outcomes.count(each)} {each}" for each in ("passed", "left out", "failed")))
    return 1 if "failed" in outcomes else 0


if __name__ == "__main__":
    sys.exit(main())
