#!/usr/bin/env python3
"""Checks that the installed files agree with the programs: manual pages, completion, service, package.

Run it as `python3 tests/installed.py` after `make build`. It installs into a directory of its own and
removes that again; it prints a line for each check, says what it had to leave out for lack of a tool,
and has the status 1 if a check failed.
"""

import os
import re
import shutil
import signal
import stat
import subprocess
import sys
import threading

HERE = os.path.dirname(os.path.abspath(__file__))
TOP = os.path.dirname(HERE)
sys.path[:0] = [HERE, f"{TOP}/tools"]

from checks import Wrong, need
from completions import completion_joins_addresses, completion_offers
from installed_package import (
    package_comes_and_goes,
    package_has_no_fault,
    package_is_the_same_each_time,
    package_is_whole,
    package_lists_what_is_linked,
    package_says_what_is_not_proved,
)
from installed_pages import (
    page,
    pages_are_well_formed_for_groff,
    pages_are_well_formed_for_mandoc,
    pages_have_all_keys,
    pages_have_all_options,
    pages_have_all_texts,
)
from installed_parts import NEEDRESTART, PROGRAMS, SERVICES, files_below, make, on_loopback
from installed_tools import TOOLS, pages_have_all_options_of_tools, run_alone
from installed_units import console_is_confined, unit_is_confined, unit_is_sound, unit_waits_for_an_answer
from scratch import scratch
from serving import built_program, end_by_signals, turn
from shells import read, run

# the programs that units, followers, daemons and resources run
HELPERS = ("follow-service", "follow-unit", "follow-postgresql", "follow-pacemaker", "handler-follow", "clock-wait")
HELPERS += ("site-keep", "site-records", "service-runnable", "arbitrator-ready")
# the names of the resource agent
AGENTS = ("booth/boothd", "pacemaker/booth-site")
# the units without instances
PLAIN_SERVICES = ("booth-lease-guard.service", "booth-arbitrator.service", "booth-console.service")
# the documents for operators
DOCUMENTS = ("OPERATING.md", "MONITORING.md", "CHANGES.md", "SIZING.md", "MANUAL-TICKETS.md", "HANDLERS.md")
DOCUMENTS += ("SECURITY.md",)
# the files for a monitor
MONITORS = ("prometheus-rules.yml", "grafana-dashboard.json", "nagios.cfg")
MONITORS += ("booth-metrics.service", "booth-metrics.timer")
# documents for developers of Booth, which are not installed
DEVELOPER_DOCS = ("ARCHITECTURE.md", "DECISIONS.md", "DEFINITIONS.md")
# the limit for the commands of the first cluster, in seconds
SECONDS_OF_A_WALK = 120


def installs_and_uninstalls(room):
    """make install puts everything below DESTDIR, and make uninstall removes it"""
    make("install", f"DESTDIR={room}/root", "PREFIX=/usr")
    there = files_below(f"{room}/root")
    named = [f"usr/sbin/{name}" for name in (*PROGRAMS, *TOOLS, "booth-keygen")]
    named += [f"usr/share/man/man8/{name}.8" for name in (*PROGRAMS, *TOOLS, "booth-keygen")]
    named += ["usr/share/man/man5/booth.conf.5"]
    named += [f"usr/share/bash-completion/completions/{name}" for name in (*PROGRAMS, *TOOLS)]
    named += [f"usr/share/doc/booth-proved/{name}" for name in DOCUMENTS]
    named += [f"usr/share/doc/booth-proved/examples/{name}" for name in (*MONITORS, "manual.conf", "fence.sql")]
    named += [f"usr/share/doc/booth-proved/console-{name}.png" for name in ("good", "cut", "service-down")]
    named += [f"usr/lib/systemd/system/{name}" for name in (*SERVICES, *PLAIN_SERVICES)]
    named += [f"usr/lib/ocf/resource.d/{name}" for name in AGENTS]
    named += ["usr/share/booth-proved/journal.conf", "usr/share/booth-proved/timeline.py"]
    named += [f"usr/share/doc/booth-proved/{name}" for name in ("AUDIT.md", "JOURNAL.md", "incident.svg")]
    named += [NEEDRESTART, *(f"usr/share/booth-proved/{name}" for name in HELPERS)]
    for name in (*named, "usr/lib/sysusers.d/booth.conf"):
        need(name in there, f"{name} is missing")
    for name in (*DEVELOPER_DOCS, "decisions"):
        packed = [path for path in there if path.startswith(f"usr/share/doc/booth-proved/{name}")]
        need(not packed, f"a document for developers is installed: {packed}")
    installed = read(f"{room}/root/usr/share/doc/booth-proved/README.md")
    need(installed == read(f"{TOP}/README.md"), "the installed README.md is not the one at the top")
    version = re.search(r"^VERSION := (\S+)$", read(f"{TOP}/Makefile"), re.M)[1]
    for program, commands in PROGRAMS.items():
        done = run(f"{room}/root/usr/sbin/{program}", *commands[:1], "--version")
        told = (done.returncode, done.stdout, done.stderr)
        need(told == (0, f"{program} {version}\n", ""), f"the installed {program}: {told}")
    run_alone(f"{room}/root/usr/sbin")
    done = run(sys.executable, "-IB", f"{room}/root/usr/share/booth-proved/timeline.py", "/dev/null", cwd="/")
    need(done.returncode == 0 and done.stdout.startswith("<?xml"), f"the installed timeline.py: {done.stderr}")
    need(files_below(f"{room}/root") == there, "to run them left a file")
    replaced = [f"lib/systemd/system/{name}" for name in (*SERVICES, *PLAIN_SERVICES)]
    replaced += [*(f"lib/ocf/resource.d/{name}" for name in AGENTS), "share/booth-proved/site-keep"]
    for name in replaced:
        unit = read(f"{room}/root/usr/{name}")
        need(not re.search("@[A-Z]+@", unit), f"{name} has a word that is not replaced")
    for name in HELPERS:
        need(os.access(f"{room}/root/usr/share/booth-proved/{name}", os.X_OK), f"{name} is no program")
    state = {**os.environ, "BOOTH_FOLLOW_RUN": f"{room}/state"}
    os.makedirs(state["BOOTH_FOLLOW_RUN"])
    with open(f"{room}/state/db8.state", "w", encoding="ascii") as file:
        file.write("service=failed\nfailed_starts=3\n")
    done = run(f"{room}/root/usr/sbin/booth-service", "clear", "db8", env=state)
    is_cleared = done.returncode == 0 and "service=stopped" in read(f"{room}/state/db8.state")
    need(is_cleared, f"the installed booth-service: {done.stderr}")
    shutil.copytree(f"{room}/root", f"{room}/kept")
    make("uninstall", f"DESTDIR={room}/root", "PREFIX=/usr")
    need(not files_below(f"{room}/root"), f"left: {files_below(f'{room}/root')}")


def texts_name_their_own_place(room):
    """below another PREFIX the pages and documents name the documents there, and the unit the program there"""
    make("install", f"DESTDIR={room}/elsewhere", "PREFIX=/usr/local")
    found = {}
    for name in files_below(f"{room}/elsewhere"):
        if re.search(r"\.(md|5|8|service)$", name):
            text = read(f"{room}/elsewhere/{name}")
            found[name] = re.findall(r"(/[a-z/]+)/(?:share/(?:doc/)?booth-proved|sbin/booth(?:d|-follow))\b", text)
    wrong = {name: places for name, places in found.items() if set(places) - {"/usr/local"}}
    need(not wrong, f"these name another place: {wrong}")
    for name in ("man/man8/boothd.8", "man/man5/booth.conf.5", "doc/booth-proved/OPERATING.md"):
        need(found[f"usr/local/share/{name}"], f"{name} names no document")
    for name in SERVICES:
        need(found[f"usr/local/lib/systemd/system/{name}"], f"{name} names no program")


def keys_are_made_once(room):
    """booth-keygen makes 64 bytes that only their owner can read, and overwrites nothing"""
    key = f"{room}/authkey"
    done = run(f"{TOP}/packaging/booth-keygen", key)
    need(done.returncode == 0, done.stderr)
    with open(key, "rb") as file:
        first = file.read()
    mode = stat.S_IMODE(os.stat(key).st_mode)
    need((len(first), mode) == (64, 0o600), f"{len(first)} bytes, mode {mode:o}")
    done = run(f"{TOP}/packaging/booth-keygen", key)
    need(done.returncode == 1 and "exists already" in done.stderr, f"status {done.returncode}: {done.stderr}")
    with open(key, "rb") as file:
        need(file.read() == first, "the key was changed")
    os.symlink(f"{room}/nowhere", f"{room}/link")
    done = run(f"{TOP}/packaging/booth-keygen", f"{room}/link")
    need(done.returncode == 1 and "exists already" in done.stderr, f"a link to nothing: {done.stderr}")
    done = run(f"{TOP}/packaging/booth-keygen", f"{room}/none/key")
    need(done.returncode == 1 and "cannot create it" in done.stderr, f"a directory that is missing: {done.stderr}")


def keys_are_given(room):
    """booth-keygen as root makes the daemon's user the owner of the key, if that user exists"""
    # (stand-ins for id and chown: the machine seems to have the user, and the calls are recorded)
    os.makedirs(f"{room}/stand-ins")
    for name, text in (("id", '[ "$1" = booth ] || echo 0'), ("chown", f'echo "$*" >"{room}/given"')):
        with open(f"{room}/stand-ins/{name}", "w", encoding="ascii") as file:
            file.write(f"#!/bin/sh\n{text}\n")
        os.chmod(file.name, 0o755)
    path = {**os.environ, "PATH": f"{room}/stand-ins:{os.environ['PATH']}"}
    done = run(f"{TOP}/packaging/booth-keygen", f"{room}/key-to-give", env=path)
    need(done.returncode == 0, done.stderr)
    need(read(f"{room}/given") == f"-h booth: {room}/key-to-give\n", f"it was given so: {read(f'{room}/given')}")


def examples_are_served(room):
    """a daemon serves each example, and the one in booth.conf(5), with addresses and a key of this machine"""
    names = [name for name in sorted(os.listdir(f"{TOP}/examples")) if name.endswith(".conf")]
    need({"two-sites.conf", "weights.conf", "manual.conf", "booth.conf"} <= set(names), f"there are {names}")
    os.makedirs(f"{room}/examples")
    in_page = re.search(r"^\.Sh EXAMPLES\n.*?^\.Bd.*?\n(.*?)^\.Ed", page("booth.conf.5"), re.M | re.S)
    need(in_page, "booth.conf(5) has no example")
    with open(f"{room}/page.conf", "w", encoding="utf-8") as file:
        file.write(in_page[1])
    for path in (*(f"{TOP}/examples/{name}" for name in names), f"{room}/page.conf"):
        name = os.path.basename(path)
        # (an address that is in no example is refused only after the whole file was read)
        words = [built_program(), "daemon", "-l", f"{room}/{name}.lock", "-d", f"{room}/{name}.records", "-n", "3"]
        done = run(*words, "-c", path, "-s", "10.255.255.1")
        need(done.stderr.startswith("boothd: 10.255.255.1 is not a member\n"), f"{name}: {done.stderr.strip()}")
        conf, address = on_loopback(path, f"{room}/examples")
        done = run(*words, "-c", conf, "-s", address, env={**os.environ, "BOOTH_LOG": "off"})
        told = done.returncode, done.stdout + done.stderr
        need(told == (0, ""), f"{name}: status {done.returncode}, {done.stderr}")


def walked(text, room):
    """Runs each command of the indented lines that begin with $, and checks that it prints the lines that follow."""
    steps = []
    for line in text.splitlines():
        if line.startswith("    $ "):
            steps.append((line[6:], []))
        elif line.startswith("    ") and steps:
            steps[-1][1].append(line[4:])
        elif line.startswith("## A cluster at several"):
            break
    need(steps, "OPERATING.md has no commands")
    folder = f"{room}/walk"
    os.makedirs(folder)
    with subprocess.Popen(
        ["bash"], cwd=folder, stdin=subprocess.PIPE, stdout=subprocess.PIPE, stderr=subprocess.DEVNULL, text=True,
        env={**os.environ, "PATH": f"{room}/kept/usr/sbin:{os.environ['PATH']}"}, start_new_session=True,
    ) as shell:
        # (all programs that it starts are in its process group, whose number stays in use until the shell is waited
        # for)
        end = lambda: os.killpg(shell.pid, signal.SIGKILL)
        bound = threading.Timer(SECONDS_OF_A_WALK, end)
        bound.start()
        try:
            for command, wanted in steps:
                command = command.replace("/usr/share/doc/booth-proved", f"{room}/kept/usr/share/doc/booth-proved")
                shell.stdin.write(f"{command}\necho end-of-step\n")
                shell.stdin.flush()
                got = list(step_lines(shell))
                need(got == wanted, f"{command}: {got} in place of {wanted}")
        finally:
            bound.cancel()
            end()


def step_lines(shell):
    """Yields the lines that a step prints."""
    for line in shell.stdout:
        if line == "end-of-step\n":
            return
        yield line.rstrip("\n")
    raise Wrong("the shell ended")


def first_cluster_is_as_written(room):
    """the first cluster of docs/OPERATING.md prints the lines that the document shows"""
    # (the example has fixed addresses and a fixed port)
    with turn("installed"):
        walked(read(f"{TOP}/docs/OPERATING.md"), room)


CHECKS = [
    pages_have_all_keys,
    pages_have_all_options,
    pages_have_all_options_of_tools,
    pages_have_all_texts,
    pages_are_well_formed_for_mandoc,
    pages_are_well_formed_for_groff,
    installs_and_uninstalls,
    texts_name_their_own_place,
    unit_is_sound,
    unit_is_confined,
    console_is_confined,
    keys_are_made_once,
    keys_are_given,
    unit_waits_for_an_answer,
    completion_offers,
    completion_joins_addresses,
    package_is_the_same_each_time,
    package_says_what_is_not_proved,
    package_is_whole,
    package_lists_what_is_linked,
    package_has_no_fault,
    package_comes_and_goes,
    examples_are_served,
    first_cluster_is_as_written,
]


def outcome(check, room):
    """Returns whether a check passed, failed or was left out."""
    try:
        left_out = check(room)
    except (Wrong, OSError, subprocess.TimeoutExpired) as why:
        print(f"FAILED  {check.__doc__}: {why}", flush=True)
        return "failed"
    if left_out:
        print(f"left out  {check.__doc__}: {left_out}", flush=True)
        return "left out"
    print(f"ok      {check.__doc__}", flush=True)
    return "passed"


def main():
    end_by_signals()
    if built_program() is None:
        print("installed: boothd is not built (make build), so nothing is checked")
        return 0
    with scratch("booth-installed-") as room:
        outcomes = [outcome(check, room) for check in CHECKS]
    print("installed: " + ", ".join(f"{outcomes.count(each)} {each}" for each in ("passed", "left out", "failed")))
    return 1 if "failed" in outcomes else 0


if __name__ == "__main__":
    sys.exit(main())
