"""Checks booth-status --check: the verdict of the program, and the problems that a test wrote into a configuration.

It is imported by tests/status.py, and not run by itself.
"""

import os
import pwd
import re
import socket

import follow_checks
import key_file
from checks import need
from look_stories import KEY, PORT, Three, all_of, well
from service_stories import Machine
from serving import built_program
from status_runs import TOP, document, first_text, problems_of, require_same, run_apart, story

ROOT = 0
# the members of a file without faults; most stories add a key
PLAIN = "site = 192.0.2.10\nsite = 198.51.100.10\narbitrator = 203.0.113.10\n"
TICKET = "ticket = db8\n"


def key_in(folder, content=KEY, mode=0o600):
    path = os.path.join(folder, "authkey")
    with open(path, "wb") as file:
        file.write(content)
    os.chmod(path, mode)
    return path


class Checked:
    """Checks texts with a boothd of this folder: a program that prints what a test needs, or the real program."""

    def __init__(self, folder, says="boothd: $5 is not a member\nboothd: members of $3: ..."):
        self.path = os.path.join(folder, "checked.conf")
        self.programs = os.path.join(folder, "programs")
        os.makedirs(self.programs, exist_ok=True)
        with open(f"{self.programs}/boothd", "w", encoding="ascii") as file:
            file.write("#!/bin/sh\n" + "".join(f'echo "{line}" >&2\n' for line in says.split("\n")) + "exit 1\n")
        os.chmod(f"{self.programs}/boothd", 0o755)

    def of(self, text, *words, programs=None):
        """Returns the JSON document of a check of this text."""
        with open(self.path, "w", encoding="ascii") as file:
            file.write(text)
        os.environ["PATH"], before = f"{programs or self.programs}:/usr/bin:/bin", os.environ["PATH"]
        try:
            return document("--check", self.path, *words)
        finally:
            os.environ["PATH"] = before

    def kinds(self, text, *words, **more):
        """Returns the severity, the kind, and the ticket or address of each problem, except problems of a user that
        this machine does not have.
        """
        told = self.of(text, *words, **more)
        found = {(severity, kind, ticket or member) for severity, kind, member, _, ticket in problems_of(told)}
        return {each for each in found if each[1] != "key-owner"}


@story
def a_file_without_faults(folder):
    """a file without faults has status 0 in each form, and a file that cannot be read has status 3"""
    checked = Checked(folder)
    text = f"{PLAIN}authfile = {key_in(folder)}\n{TICKET}"
    need(checked.kinds(text) == set(), f"{checked.of(text)}")
    env = {**os.environ, "PATH": f"{checked.programs}:/usr/bin:/bin"}
    line = f"OK: {checked.path}: 3 members, 1 ticket\n"
    for words, printed in ((["-b"], f"BOOTH {line}"), ([], line)):
        ran = run_apart("booth-status", "--check", checked.path, *words, env=env)
        need(ran.status == 0 and ran.printed.endswith(printed) and not ran.said, str(ran))
    ran = run_apart("booth-status", "--check", f"{folder}/none.conf", env=env)
    said = f"booth-status: cannot read {folder}/none.conf: No such file or directory\n"
    require_same((ran.status, ran.printed, ran.said), (3, "", said))
    require_same(sorted(os.listdir(folder)), ["authkey", "checked.conf", "programs"])


@story
def the_verdict_of_the_program(folder):
    """refusals of boothd are printed with its words; if boothd is missing, this is reported"""
    text = f"{PLAIN}authfile = {key_in(folder)}\n{TICKET}"
    told = Checked(folder, says="boothd: ./x.conf: line 7: repeated\nboothd: once alone").of(text)
    require_same((told["status"], first_text(told)), (2, "./x.conf: line 7: repeated; once alone"))
    os.makedirs(f"{folder}/empty")
    unasked, refused = ("warning", "no-verdict", None), ("critical", "refused", None)
    require_same(Checked(folder).kinds(text, programs=f"{folder}/empty"), {unasked})
    require_same(Checked(folder).kinds(text + "expire = 0\n", programs=f"{folder}/empty"), {unasked, refused})
    boothd = built_program()
    if boothd is None:
        return
    real, checked = os.path.dirname(boothd), Checked(folder)
    need(checked.kinds(text, programs=real) == set(), "the real one refuses a good file")
    for more, said in (
        ("expire = 0\n", f"{checked.path}: line 6: bad value for expire"),
        ("expire = 7\nexpire = 8\n", f"{checked.path}: line 7: repeated"),
        ("expire = 60\nrenewal-freq = 60\n", f"{checked.path}: ticket db8: renewal-freq is not below expire"),
    ):
        told = checked.of(text + more, programs=real)
        # (tests/causes.py checks the line with the cause)
        require_same((told["problems"][0]["kind"], first_text(told).partition("; ")[0]), ("refused", said))
    require_same(sorted(os.listdir(folder)), ["authkey", "checked.conf", "empty", "programs"])


@story
def what_is_in_the_file(folder):
    """wrong defaults, addresses of different families, a port that is too low, and times that leave no room"""
    checked, key = Checked(folder), f"authfile = {key_in(folder)}\n"
    many = "".join(f"ticket = t{number}\nexpire = 12\ntimeout = 1\nretries = 3\n" for number in range(64))
    handler, short = "before-acquire-handler = /bin/true\n", "timeout = 1\nretries = 3\n"
    # (for all tickets that a service here does not follow)
    late = ("notice", "restart", None)
    cases = [
        (PLAIN + key + "ticket = __defaults__\nexpire = 60\n" + TICKET, {("critical", "defaults", "__defaults__")}),
        (PLAIN + key + "ticket = __default__\nexpire = 120\n" + TICKET, set()),
        (PLAIN + key + TICKET + "ticket = defaultroute\n", set()),
        ("site = 192.0.2.10\nsite = 2001:db8::1\n" + key + TICKET, {("warning", "families", None)}),
        ("site = 2001:db8::2\nsite = 2001:db8::1\n" + key + TICKET, set()),
        ("site = 127.0.0.1\nsite = 192.0.2.10\n" + key + TICKET, {("critical", "families", None)}),
        ("site = ::1\nsite = 127.0.0.1\n" + key + TICKET, {("warning", "families", None)}),
        ("site = fe80::1\nsite = 2001:db8::1\n" + key + TICKET, {("critical", "address", "fe80::1")}),
        ("site = 224.0.0.9\nsite = 192.0.2.10\n" + key + TICKET, {("critical", "address", "224.0.0.9")}),
        ("site = 0.0.0.0\nsite = 192.0.2.10\n" + key + TICKET, {("critical", "address", "0.0.0.0")}),
        (PLAIN + key + "port = 929\n" + TICKET, {("warning", "port", None)}),
        (PLAIN + key + TICKET + "expire = 62\nrenewal-freq = 57\n", {("warning", "tries", "db8"), late}),
        (PLAIN + key + TICKET + "expire = 63\nrenewal-freq = 57\n", {late}),
        # (a lease has 10 s left at its renewal, and 9 s in the next row; half of that is the margin; a restart takes 5
        # s)
        (PLAIN + key + TICKET + "expire = 70\nrenewal-freq = 60\n", set()),
        (PLAIN + key + TICKET + "expire = 69\nrenewal-freq = 60\n", {late}),
        (PLAIN + key + TICKET + short + "expire = 11\nrenewal-freq = 8\n", {late}),
        (PLAIN + key + TICKET + short + "expire = 10\nrenewal-freq = 8\n", {("warning", "restart", "db8")}),
        (PLAIN + key + TICKET + "mode = manual\nexpire = 62\nrenewal-freq = 57\n", set()),
        (PLAIN + key + TICKET + handler + "expire = 110\nrenewal-freq = 56\n", {("warning", "handler", "db8")}),
        (PLAIN + key + TICKET + handler + "expire = 112\nrenewal-freq = 56\n", set()),
        # 64 renewals of six syncs of 10 ms take 3.84 s: more than a timeout, less than the 6 s that a lease runs on
        (PLAIN + key + many, {("warning", "syncs", "t0"), late}),
        (PLAIN + TICKET, {("warning", "no-key", None)}),
    ]
    for text, wanted in cases:
        require_same(checked.kinds(text), wanted, f"{text!r}: ")
    # (at 16 ms a sync the renewals take 6.144 s, at 2.5 ms 0.96 s, and at 5.5 ms 2.112 s, while a lease has 2 s left)
    longer = many.replace("expire = 12", "expire = 14\nrenewal-freq = 12")
    too_long = ("critical", "syncs", "t0")
    restarts = {("warning", "restart", f"t{number}") for number in range(64)}
    cases = ((many, 16, {too_long, late}), (many, 2.5, {late}), (longer, 5.5, {too_long, *restarts}))
    for text, millis, wanted in cases:
        require_same(checked.kinds(PLAIN + key + text, "--sync", millis), wanted, f"syncs of {millis} ms: ")


def owned_by_another(folder, checked):
    """Checks whether the daemon's user can read the key, and who else can. Here that user is one that every machine
    has.
    """
    user, other = pwd.getpwnam("nobody"), pwd.getpwnam("daemon")
    path = key_in(folder)
    before, key_file.DAEMON = key_file.DAEMON, user.pw_name
    try:
        for owner, group, mode, wanted in (
            (user.pw_uid, user.pw_gid, 0o600, set()),
            (user.pw_uid, other.pw_gid, 0o200, {("critical", "key-owner")}),
            (ROOT, ROOT, 0o600, {("critical", "key-owner")}),
            (ROOT, user.pw_gid, 0o640, set()),
            (other.pw_uid, user.pw_gid, 0o640, {("warning", "key-owner")}),
            (user.pw_uid, other.pw_gid, 0o640, {("warning", "key-mode")}),
        ):
            os.chown(path, owner, group)
            os.chmod(path, mode)
            told = problems_of(checked.of(f"{PLAIN}authfile = {path}\n{TICKET}"))
            require_same({(severity, kind) for severity, kind, *_ in told}, wanted, f"{owner}:{group} {mode:o}: ")
    finally:
        key_file.DAEMON = before
        os.chown(path, ROOT, ROOT)


@story
def the_file_of_the_key(folder):
    """the key's file exists, has a key, and can be read only by the daemon's user"""
    checked = Checked(folder)
    daemon = next((each for each in pwd.getpwall() if each.pw_name == "booth"), None)
    if os.geteuid() == ROOT:
        owned_by_another(folder, checked)
    cases = [
        (KEY, 0o600, set()),
        (KEY, 0o400, set()),
        (KEY, 0o640, {("warning", "key-mode")}),
        (KEY, 0o644, {("critical", "key-mode")}),
        (KEY, 0o660, {("critical", "key-mode")}),
        (b"seven77", 0o600, {("critical", "key")}),
        (b"k" * 65, 0o600, {("critical", "key")}),
    ]
    for content, mode, wanted in cases:
        path = key_in(folder, content, mode)
        if daemon and os.geteuid() == ROOT:
            # (the group is not that of the daemon's user)
            os.chown(path, daemon.pw_uid, ROOT)
        found = {(severity, kind) for severity, kind, _ in checked.kinds(f"{PLAIN}authfile = {path}\n{TICKET}")}
        need(found == wanted, f"{content} with mode {mode:o}: {found}")
    for path in (f"{folder}/no-key", folder):
        found = checked.kinds(f"{PLAIN}authfile = {path}\n{TICKET}")
        need(found == {("critical", "key", None)}, f"{path}: {found}")
    told = problems_of(checked.of(f"{PLAIN}authfile = {key_in(folder)}\n{TICKET}"))
    owner = {(severity, kind) for severity, kind, *_ in told}
    # (the user booth cannot read a key of root; without this user the check cannot know)
    due = ("critical", "key-owner") if daemon and os.geteuid() == ROOT else ("notice", "key-owner")
    need(owner == {due} or daemon and os.geteuid() != ROOT, f"{owner}")


@story
def the_members_of_the_file(folder):
    """--members reports who does not answer, and whose clock differs from this machine's by more than maxtimeskew"""
    checked = Checked(folder)
    path = key_in(folder)
    for authfile, key, severity in ((f"authfile = {path}\n", KEY, "critical"), ("", None, "warning")):
        three = Three(folder, authfile=authfile, skew=20)
        one, two, third = three.addresses
        with open(three.path, encoding="ascii") as file:
            text = file.read()
        with all_of([three.fake(one, key=key), three.fake(two, key=key, ahead=-40)]):
            with socket.socket(socket.AF_INET, socket.SOCK_DGRAM) as silent:
                silent.bind((third, PORT))
                found = checked.kinds(text, "--members", "-t", "0.5")
        keyless = set() if key else {("warning", "no-key", None)}
        require_same(found, keyless | {(severity, "clock", two), ("warning", "silent", third)})
        with well(three, key=key, ahead=15):
            require_same(checked.kinds(text, "--members"), keyless)


@story
def what_follows_a_ticket_here(folder):
    """a service here survives a restart of daemon and follower, and its unit does not start by itself"""
    for name in ("booth", "booth-follow"):
        with open(f"{TOP}/packaging/{name}@.service", encoding="utf-8") as file:
            seconds = re.search(r"^RestartSec=(\d+)$", file.read(), re.M)
        require_same(seconds and int(seconds[1]), follow_checks.RESTART, f"RestartSec of {name}@: ")
    machine, checked = Machine(folder), Checked(folder)
    checked.path = os.path.join(folder, "booth.conf")
    text = f"{PLAIN}authfile = {key_in(folder)}\n{TICKET}"
    short = f"{text}expire = 69\nrenewal-freq = 60\n"
    late, enabled = ("warning", "restart", "db8"), ("warning", "enabled", "db8")
    unit = "/usr/share/booth-proved/follow-unit"
    # each row: the file's text, the follower's unit and its variables, the units that the system starts, and the
    # problems
    cases = [
        (short, None, None, {}, {("notice", "restart", None)}),
        (short, "loaded inactive dead", None, {}, {late}),
        (short, None, "", {}, {late}),
        (short, None, "OPTIONS=-m 4 -k 2\n", {}, set()),
        (short, None, "OPTIONS=-k 2 -m 5\n", {}, {late}),
        (text, None, "OPTIONS=-m 296\n", {}, {late}),
        (short, None, "CLUSTER=other\n", {"db8.service": "enabled"}, {("notice", "restart", None)}),
        (text, None, None, {"db8.service": "enabled"}, set()),
        (text, "loaded active running", None, {"db8.service": "enabled"}, {enabled}),
        (text, None, "", {"db8.service": "disabled"}, set()),
        (text, None, "", {"db8.service": "static"}, set()),
        (text, None, f"PROGRAM={unit} web.service\n", {"db8.service": "enabled"}, set()),
        (text, None, f'PROGRAM="{unit} web.service"\n', {"web.service": "enabled-runtime"}, {enabled}),
        (text, None, "PROGRAM=/usr/bin/other web.service\n", {"web.service": "enabled"}, set()),
    ]
    for lines, follower, variables, starts, wanted in cases:
        machine.unit(follower, "db8")
        machine.drop("etc/follow/db8.env", "start.db8.service", "start.web.service")
        if variables is not None:
            machine.put("etc/follow/db8.env", variables)
        for name, start in starts.items():
            machine.put(f"start.{name}", f"{start}\n")
        with machine.here():
            found = checked.kinds(lines, programs=f"{checked.programs}:{machine.bin}")
        require_same(found, wanted, f"{follower}, {variables}, {starts}: ")
    machine.put("fails")
    with machine.here():
        found = checked.kinds(text, programs=f"{checked.programs}:{machine.bin}")
    require_same(found, set(), "where systemd does not answer: ")
