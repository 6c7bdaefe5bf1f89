"""The answers of booth-status --doctor on arranged machines: each question, well and not well.

It is imported by tests/status.py, and not run by itself.
"""

import contextlib
import json
import os
import re
import socket
import threading
from typing import Callable, Dict, Iterator, List, Tuple

import doctor_machine
import pacemaker_status
from checks import need
from fake_members import FakeMember
from look_stories import PORT, Three, all_of, well
from service_stories import GONE, LIVE, Machine
from status_runs import refuses, require_same, status, story

KEY = b"a-key-of-the-cluster"
NOBODY = 65_534
# what stands for systemctl: the properties of each unit and of systemd itself are in files
SYSTEMCTL = """#!/bin/sh
case $1 in
  list-units) cat {folder}/units ;;
  is-enabled) echo disabled; exit 1 ;;
  show) cat "{folder}/show.${{3:-systemd}}" 2>/dev/null || echo LoadState=not-found ;;
  *) exit 9 ;;
esac
"""
# fields of `chronyc -n -c tracking`, as chrony 4.3 prints them: the fifth is the offset, the eighth the frequency, and
# the last one the state
TRACKING = "C0000201,192.0.2.1,3,1796133361.7,{offset},0.000012,0.000034,-12.345,0.001,0.02,0.01,0.002,64.2,{leap}"
WELL = "ActiveState=active\nSubState=running\nUnitFileState=enabled\nNRestarts=0\nMainPID=0\nLoadState=loaded\n"
UNIT = WELL + "RestartUSec=1s\nRestart=always\n"


class Arranged(Machine):
    """A machine of the first member of three, on which all is well."""

    def __init__(self, folder: str, three: Three) -> None:
        super().__init__(folder, three.one)
        self.put("bin/systemctl", SYSTEMCTL.format(folder=folder))
        os.makedirs(f"{folder}/records/booth")
        os.makedirs(f"{folder}/chrony")
        self.restore(three)

    def restore(self, three: Three) -> None:
        """Arranges the machine so that all is well."""
        if os.path.exists(f"{self.folder}/away"):
            os.rename(f"{self.folder}/away", f"{self.folder}/records")
        self.put("etc/booth.env", f"ADDRESS={three.one}\n")
        self.program("boothd", "echo 'boothd: '$5' is not a member' >&2; exit 1")
        self.clock()
        self.put("chrony/chrony.conf", "server 192.0.2.1 iburst\nmakestep 1 3\nmaxslewrate 500\n")
        for name in ("booth@booth.service", "booth-follow@web.service"):
            self.put(f"show.{name}", UNIT)
        self.put("show.systemd", "RuntimeWatchdogUSec=10s\n")
        self.put("dev-watchdog0")
        self.unit(LIVE)
        self.state("running")

    def program(self, name: str, text: str) -> None:
        """Puts a program of the shell on the PATH."""
        self.put(f"bin/{name}", f"#!/bin/sh\n{text}\n")
        os.chmod(f"{self.bin}/{name}", 0o755)

    def clock(self, offset: str = "0.000042", leap: str = "Normal") -> None:
        """Sets the answer of chronyc."""
        self.program("chronyc", f"echo {TRACKING.format(offset=offset, leap=repr(leap))}")

    @contextlib.contextmanager
    def seen(self) -> Iterator[None]:
        """The doctor sees this machine in this block."""
        names = {"RECORDS": "records", "CHRONY_FILES": None, "WATCHDOGS": "dev-watchdog*", "TIMESYNC": "timesync"}
        kept = {name: getattr(doctor_machine, name) for name in names}
        for name, path in names.items():
            setattr(doctor_machine, name, f"{self.folder}/{path}" if path else (f"{self.folder}/chrony/*.conf",))
        try:
            with self.here():
                yield
        finally:
            for name, value in kept.items():
                setattr(doctor_machine, name, value)


@contextlib.contextmanager
def listening(addresses: List[str]) -> Iterator[None]:
    """Each of these addresses accepts connections over TCP in this block."""
    with contextlib.ExitStack() as stack:
        for address in addresses:
            server = stack.enter_context(socket.create_server((address, PORT)))
            server.settimeout(20)
            threading.Thread(target=accept, args=(server,), daemon=True).start()
        yield


def accept(server: socket.socket) -> None:
    """Accepts connections until the socket is closed."""
    with contextlib.suppress(OSError):
        while True:
            server.accept()[0].close()


def keyed(folder: str) -> Tuple[Three, str]:
    """Three members with a key that only its owner can read."""
    path = os.path.join(folder, "authkey")
    with open(path, "wb") as file:
        file.write(KEY)
    os.chmod(path, 0o600)
    return Three(folder, authfile=f"authfile = {path}\n", name="booth"), path


def answers(path: str, *words: str) -> Tuple[int, Dict[str, List[Tuple[str, str]]]]:
    """The status of the doctor, and its answers to each question: the word, and the text with what to do."""
    ran = status("--doctor", "-c", path, "-j", *words)
    need(not ran.said, ran.said)
    told = json.loads(ran.printed)
    require_same((told["version"], told["status"]), (1, ran.status))
    found: Dict[str, List[Tuple[str, str]]] = {}
    for each in told["answers"]:
        text = f"{each['text']}: {each['do']}" if each["do"] else each["text"]
        found.setdefault(each["question"], []).append((each["answer"], text))
    return ran.status, found


def worst(found: Dict[str, List[Tuple[str, str]]], question: str) -> Tuple[str, str]:
    """The worst answer to a question."""
    order = ["ok", "unknown", "warning", "problem"]
    return max(found[question], key=lambda answer: order.index(answer[0]))


@story
def a_machine_on_which_all_is_well(folder):
    """the doctor answers each question in a line, and its status is 0 if all is well"""
    three, path = keyed(folder)
    machine = Arranged(folder, three)
    with machine.seen(), well(three, key=KEY), listening(list(three.addresses)):
        result, found = answers(three.path)
        ran, brief = status("--doctor", "-c", three.path), status("--doctor", "-b", "-c", three.path)
    names = ["configuration", "member", "key", "clock", "daemon", "members", "tcp", "fragments", "disk", "sync"]
    names += ["followers", "restart", "handler", "watchdog"]
    require_same(list(found), names)
    bad = {name: worst(found, name) for name in names if worst(found, name)[0] in ("warning", "problem")}
    # (the directory of a test may be on a disk that is nearly full)
    bad.pop("disk", None)
    require_same(bad, {})
    require_same(worst(found, "member"), ("ok", f"this machine is the site {three.one}"))
    require_same(worst(found, "configuration"), ("ok", f"{three.path}: boothd accepts it, 3 members, 2 tickets"))
    clock = "chrony has set the clock: 0.042 ms off, 12.3 parts in a million corrected"
    require_same(worst(found, "clock"), ("ok", clock))
    require_same(worst(found, "followers"), ("ok", "web: running here, and its follower runs"))
    require_same(worst(found, "watchdog"), ("ok", "systemd uses the hardware watchdog, 10 s"))
    need(worst(found, "fragments")[0] == "unknown" and "--members" in worst(found, "fragments")[1], str(found))
    lines = [line.split() for line in ran.printed.splitlines()]
    require_same([line[1] for line in lines if line and line[0] in ("ok", "unknown")][:5], names[:5])
    need(lines[-1][0] in ("OK:", "WARNING:") and brief.printed.startswith("BOOTH "), str(lines[-1]))
    # (without the user booth here, it is unknown too whether the daemon can read the key)
    counts = ": 14 questions, 0 problems, [01] warnings?, (1 answer|2 answers) unknown$"
    need(re.search(counts, ran.printed.rstrip()), ran.printed)
    require_same(brief.printed.count("\n"), 1)


def faults(machine: Arranged, path: str) -> List[Tuple[Callable[[], object], str, str, str]]:
    """What is changed on a machine with this key, and the question, the word and the text that come of it."""
    unit, follower, folder = "show.booth@booth.service", "show.booth-follow@web.service", machine.folder
    return [
        (lambda: machine.clock(leap="Not synchronised"), "clock", "problem", "chrony has no source"),
        (lambda: machine.clock(offset="-0.25"), "clock", "warning", "the clock is 0.250 s off"),
        (lambda: machine.put("chrony/chrony.conf", "makestep 1 3\n"), "clock", "warning", "83,333 parts in a million"),
        (lambda: machine.program("chronyc", "exit 1"), "clock", "problem", "neither chrony nor systemd-timesyncd"),
        (lambda: machine.put("etc/booth.env", "ADDRESS=192.0.2.9\n"), "member", "problem",
         "192.0.2.9, which is no member"),
        (lambda: os.chmod(path, 0o644), "key", "problem", "its mode 0644 allows others to read or write it"),
        (lambda: machine.put(unit, UNIT.replace("ActiveState=active", "ActiveState=failed")), "daemon", "problem",
         "booth@booth.service is failed: systemctl start booth@booth.service"),
        (lambda: machine.put(unit, UNIT.replace("=enabled", "=disabled")), "daemon", "warning",
         "does not start at boot"),
        (lambda: machine.put(unit, UNIT.replace("NRestarts=0", "NRestarts=3")), "daemon", "warning",
         "restarted it 3 times"),
        (lambda: machine.drop(unit), "daemon", "unknown", "systemd has no unit booth@booth.service"),
        (lambda: machine.put(unit, UNIT.replace("RestartUSec=1s", "RestartUSec=40s")), "restart", "problem",
         "waits 40 s before a restart, but a lease has 30 s left"),
        (lambda: machine.put(follower, UNIT.replace("RestartUSec=1s", "RestartUSec=5s")), "restart", "warning",
         "booth-follow@web.service waits 5 s before a restart"),
        (lambda: machine.put(unit, UNIT.replace("Restart=always", "Restart=no")), "restart", "problem",
         "has Restart=no"),
        (lambda: machine.unit(GONE), "followers", "problem", "no follower runs, but its service runs here"),
        (lambda: machine.state("ended"), "followers", "problem", "web: this site holds it, but its service ended"),
        (lambda: machine.put("show.systemd", "RuntimeWatchdogUSec=0\n"), "watchdog", "warning",
         "does not use the hardware"),
        (lambda: machine.drop("dev-watchdog0"), "watchdog", "warning", "no watchdog"),
        (lambda: machine.program("boothd", "echo 'boothd: no: bad value' >&2; exit 1"), "configuration", "problem",
         "no: bad value"),
        (lambda: os.rename(f"{folder}/records", f"{folder}/away"), "sync", "unknown", "No such file or directory"),
    ]


@story
def what_the_doctor_finds(folder):
    """the doctor finds what is wrong with each question, says what to do, and has the status of the worst"""
    three, path = keyed(folder)
    machine = Arranged(folder, three)
    with well(three, key=KEY), listening(list(three.addresses)):
        for change, question, word, text in faults(machine, path):
            os.chmod(path, 0o600)
            machine.restore(three)
            change()
            with machine.seen():
                result, found = answers(three.path)
            said = worst(found, question)
            need(said[0] == word and text in said[1], f"{question}: {said}, and not {word} with {text!r}")
            need(result >= {"problem": 2, "warning": 1}.get(word, 0), f"{question}: the status is {result}")


@story
def what_the_doctor_finds_at_members(folder):
    """the doctor names members that do not answer or accept no connection, and handlers that cannot be run"""
    three = Three(folder, name="booth", more=f"before-acquire-handler = {folder}/handler\n")
    machine = Arranged(folder, three)
    machine.put("handler", "#!/bin/sh\n")
    members = [three.fake(three.one), three.fake(three.two)]
    with machine.seen(), all_of(members), listening([three.one, three.third]):
        result, found = answers(three.path)
        require_same(result, 2)
        require_same(worst(found, "members"), ("warning", f"{three.third}: no daemon listens at port {PORT}"))
        refused = f"no connection to port {PORT} at {three.two} (Connection refused)"
        need(worst(found, "tcp")[1].startswith(refused), str(found["tcp"]))
        require_same(worst(found, "key")[0], "warning")
        need(f"{folder}/handler: the user booth may not run it" in worst(found, "handler")[1], str(found["handler"]))
        os.chmod(f"{folder}/handler", 0o755)
        require_same(worst(answers(three.path)[1], "handler"), ("ok", f"web: its handler {folder}/handler can be run"))
        os.remove(f"{folder}/handler")
        os.makedirs(f"{folder}/handler/inner")
        text = worst(answers(three.path)[1], "handler")[1]
        need("inner: is no regular file" in text, text)
    missing = os.path.join(folder, "none.conf")
    ran = status("--doctor", "-c", missing)
    require_same((ran.status, ran.printed.splitlines()[0].split()[:2]), (2, ["problem", "configuration"]))
    text = "--doctor allows only --conf, --members, --timeout, --brief and --json"
    refuses("booth-status", ["--doctor", "-w"], text, 3)


@story
def a_user_who_cannot_read_the_key(folder):
    """without the key the doctor answers all that does not need it, and says why the rest is unknown"""
    three, path = keyed(folder)
    machine = Arranged(folder, three)
    with machine.seen(), well(three, key=KEY), listening(list(three.addresses)):
        os.remove(path)
        _, found = answers(three.path)
    why = f"cannot be found out: cannot read {path}: No such file or directory"
    require_same(worst(found, "members"), ("unknown", why))
    require_same(worst(found, "followers"), ("ok", "web: running here, and its follower runs"))
    known = ("configuration", "member", "clock", "daemon", "tcp", "sync", "restart", "handler", "watchdog")
    require_same({name: worst(found, name)[0] for name in known}, dict.fromkeys(known, "ok"))


@contextlib.contextmanager
def instead(name: str, value: object) -> Iterator[None]:
    """The doctor uses this value in place of its own in this block."""
    kept = getattr(doctor_machine, name)
    setattr(doctor_machine, name, value)
    try:
        yield
    finally:
        setattr(doctor_machine, name, kept)


@story
def a_disk_that_is_full_or_slow(folder):
    """the doctor reports a disk with little room, and one whose syncs are too slow for the tickets' times"""
    three = Three(folder, name="booth")
    machine = Arranged(folder, three)
    with machine.seen(), well(three):
        with instead("LEAST_BYTES", 10**30):
            word, text = worst(answers(three.path)[1], "disk")
            need(word == "warning" and text.endswith("make room: df") and " MB are free (" in text, text)
        with instead("LEAST_BYTES", 10**30), instead("LEAST_RECORDS", 10**30):
            require_same(worst(answers(three.path)[1], "disk")[0], "problem")
        # of a lease of 60 s, 30 s are left at its renewal, so a write may take 10 s: three syncs of 3.33 s each
        with instead("syncs_in", lambda _: [0.01] * 19 + [3.4]):
            word, text = worst(answers(three.path)[1], "sync")
            longest = "the longest of 20 took 3400.00 ms, and a write of three may take 10000 ms"
            need(word == "warning" and longest in text, text)
        with instead("syncs_in", lambda _: [0.01] * 19 + [3.3]):
            require_same(worst(answers(three.path)[1], "sync")[0], "ok")
        # a renewal takes six syncs: with 5 s each these are the 30 s that are left
        with instead("syncs_in", lambda _: [5.0] * 20):
            word, text = worst(answers(three.path)[1], "sync")
            need(word == "problem" and "the renewals of all tickets take 30.0 s on the disk" in text, text)


class Walled(FakeMember):
    """A member behind a firewall that drops fragments."""

    def answers(self, request):
        return [] if len(request) > 1500 else super().answers(request)


@story
def fragments_that_do_not_arrive(folder):
    """the doctor names members at which a datagram of 16 KB does not arrive"""
    three = Three(folder, name="booth")
    members = [Walled(each, PORT, three.held(three.one, three.two), three.peers(each)) for each in three.addresses]
    with Arranged(folder, three).seen(), all_of(members):
        _, found = answers(three.path, "--members")
    text = f"a datagram of 16460 bytes does not arrive at {', '.join(three.addresses)}"
    do = "let IP fragments through each firewall on the way, for long lists"
    require_same(worst(found, "fragments"), ("warning", f"{text}: {do}"))


@story
def a_user_who_may_only_ask_pacemaker(folder):
    """a user who may not read the file of the CIB, but may ask Pacemaker for it, sees the same"""
    if os.geteuid() != 0:
        return "only root can give up its rights"
    os.chmod(folder, 0o755)
    machine = Machine(folder)
    machine.put("cib.xml", "<cib/>")
    os.chmod(f"{folder}/cib.xml", 0o600)
    machine.put("bin/cibadmin", "#!/bin/sh\n[ \"$*\" = '--query --local' ] && echo '<cib asked=\"yes\"/>'\n")
    os.chmod(f"{folder}/bin/cibadmin", 0o755)
    with machine.here():
        found = [as_user(user, lambda: pacemaker_status.cib_in(f"{folder}/cib.xml")) for user in (0, NOBODY)]
    require_same([each.strip() for each in found], [b"<cib/>", b'<cib asked="yes"/>'])
    return None


def as_user(user: int, call: Callable[[], bytes]) -> bytes:
    """What a call returns in a process of its own, which gave up its rights for those of this user."""
    reader, writer = os.pipe()
    child = os.fork()
    if child == 0:
        try:
            os.setuid(user)
            os.write(writer, call())
        except BaseException as why:
            os.write(writer, repr(why).encode())
        finally:
            os._exit(0)
    os.close(writer)
    with os.fdopen(reader, "rb") as file:
        said = file.read()
    os.waitpid(child, 0)
    return said
