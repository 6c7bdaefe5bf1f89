"""Checks the programs in Python and shell: their pages, and that they run from another place. For tests/installed.py.

It is imported by tests/installed.py, and not run by itself. tests/status.py has what they show.
"""

import json
import os
import re

from checks import need
from records import slot
from shells import read, run

TOP = os.path.dirname(os.path.dirname(os.path.abspath(__file__)))
# the programs that are written in Python or for the shell: they are there even if nothing is built
TOOLS = ("booth-status", "booth-record", "booth-switchover", "booth-postgresql", "booth-setup", "booth-service")
TOOLS += ("booth-pacemaker", "booth-lease-guard")
# the greatest number of lines of each help; those of three programs list the options of a setup, and booth-status has
# four uses
LINES_OF_HELP = 24
MOST_LINES = {"booth-postgresql": 36, "booth-setup": 37, "booth-pacemaker": 30, "booth-status": 26}


def pages_have_all_options_of_tools(room):
    """the page of each program that is not proved has the options of its help, and each help fits a screen"""
    version = re.search(r"^VERSION := (\S+)$", read(f"{TOP}/Makefile"), re.M)[1]
    for name in TOOLS:
        path = f"{TOP}/packaging/{name}"
        done = run(path, "--help")
        need(done.returncode == 0 and not done.stderr, f"{name} --help: status {done.returncode}, {done.stderr}")
        lines = done.stdout.splitlines()
        longest = max(map(len, lines))
        most = MOST_LINES.get(name, LINES_OF_HELP)
        need(len(lines) <= most and longest <= 80, f"{name}: its help has {len(lines)} lines of up to {longest}")
        told = {word for line in lines for word in re.findall(r"(?:^ +|, )(--?[A-Za-z][a-z-]*)", line[:28])}
        items = re.findall(r"^\.It (Fl .*)$", read(f"{TOP}/man/{name}.8"), re.M)
        in_page = {"-" + word for item in items for word in re.findall(r"Fl (-?[A-Za-z][a-z-]*)", item)}
        need(told and told == in_page, f"{name}: {sorted(told ^ in_page)} is not in both")
        done = run(path, "--version")
        need(done.stdout == f"{name} {version}\n", f"{name} --version: {done.stdout}")


def run_alone(folder):
    """Checks that the tools in this folder run without the repository, from another directory."""
    for name in TOOLS:
        is_moved = not any(place in read(f"{folder}/{name}") for place in ("../tools", "\nSHARE=.\n"))
        need(is_moved, f"the installed {name} names the repository")
        done = run(f"{folder}/{name}", "--version", cwd="/", env={"PATH": "/usr/bin"})
        need(done.returncode == 0 and not done.stderr, f"the installed {name}: {done.stderr}")


def tools_look(folder, conf, room):
    """Checks that the installed tools show a daemon that holds nothing and has no majority, and a record file."""
    done = run(f"{folder}/booth-status", "-b", "-t", "20", "-c", conf)
    need(done.returncode == 2 and "1 of 3 members answer" in done.stdout, f"booth-status: {done.stdout}{done.stderr}")
    done = run(f"{folder}/booth-status", "--check", conf, "-j")
    kinds = {problem["kind"] for problem in json.loads(done.stdout)["problems"]}
    # (the users of this machine decide who may own the key)
    need(kinds <= {"key-owner", "no-key"} and not done.stderr, f"--check: {done.stdout}{done.stderr}")
    path = f"{room}/{b'ticket-db8'.hex()}.rec"
    with open(path, "wb") as file:
        file.write(slot(1, 1, 7))
    done = run(f"{folder}/booth-record", "-c", conf, path)
    need(done.returncode == 0 and "\nterm      7\n" in done.stdout, f"booth-record: {done.stdout}{done.stderr}")
