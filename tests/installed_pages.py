"""Checks the manual pages: the keys, options and texts of the programs, and their form. For tests/installed.py.

It is imported by tests/installed.py, and not run by itself.
"""

import os
import re
import shutil

from checks import need
from installed_parts import PROGRAMS, TOP
from serving import built_program
from shells import read, run


def page(name):
    """Returns a manual page without its macros' escapes."""
    return read(f"{TOP}/man/{name}").replace("\\-", "-")


def pages():
    """Returns the paths of the manual pages."""
    return [f"{TOP}/man/{name}" for name in sorted(os.listdir(f"{TOP}/man"))]


def pages_have_all_keys(room):
    """booth.conf(5) has each key of the program, and no other"""
    table = read(f"{TOP}/crates/booth_conf/src/keys.rt")
    keys = set(re.findall(r'Row::(?:file|ticket)\(\s*\d+,\s*"([^"]+)"', table))
    text = page("booth.conf.5")
    told = set(re.findall(r"^\.It Ic ([a-z-]+) Ns =", text, re.M))
    told |= set(re.findall(r"^\.Ic ([a-z-]+) [,.]$", text.partition("have no effect:")[2].partition(".Sh")[0], re.M))
    need(keys, "no key was found in the program")
    need(keys <= told, f"not in the page: {sorted(keys - told)}")
    need(told <= keys, f"only in the page: {sorted(told - keys)}")


def pages_have_all_options(room):
    """each program's page has each option of its help, and no other"""
    for program, commands in PROGRAMS.items():
        path = built_program(program)
        if path is None:
            continue
        told = set()
        for words in [[command] for command in commands] or [[]]:
            done = run(path, *words, "--help")
            need(done.returncode == 0, f"{program} {' '.join(words)} --help: status {done.returncode}")
            told |= set(re.findall(r"^ +(-[A-Za-z])\b", done.stdout, re.M))
        text = page(f"{program}.8")
        items = set(re.findall(r"^\.It Fl ([A-Za-z])", text, re.M))
        need({f"-{letter}" for letter in items} == told, f"{program}: {sorted(told)} and {sorted(items)}")
        for command in commands:
            need(re.search(rf"^\.Cm {command}$", text, re.M), f"{program}.8 has no synopsis of {command}")


def said_in(crate, name):
    """Returns the texts in a crate's file that are printed on standard error."""
    source = re.sub(r"\\\n\s*", "", read(f"{TOP}/crates/{crate}/src/{name}"))
    return {text.strip() for text in re.findall(r'b"([^"]+)"', source)}


def pages_have_all_texts(room):
    """each text with which a program refuses something is in a page"""
    daemon, clients, follower = page("boothd.8"), page("booth.8") + page("geostore.8"), page("booth-follow.8")
    refusals = said_in("booth_tools", "refusals.rt")
    need("prerequisite not met" in refusals, f"no refusal was found in the program, but {sorted(refusals)}")
    missing = [text for text in refusals if not re.search(rf"^\.It (?:ticket NAME )?{re.escape(text)}", clients, re.M)]
    need(not missing, f"not in booth.8 or geostore.8: {missing}")
    texts = said_in("booth_outcomes", "texts.rt") - {"line", "ticket"}
    faults = {text for text in texts if re.fullmatch("[a-z_ -]+", text)}
    need("misplaced key" in faults, f"no fault was found in the program, but {sorted(faults)}")
    # (booth.conf(5) describes faults of a ticket's times in other words)
    faults -= {"renewal-freq is not below expire", "timeout and retries do not fit renewal-freq"}
    words = {"bad ticket", "bad name", "bad value", "is not a site"}
    follows = {"bad program", "cannot follow ticket"}
    source = read(f"{TOP}/crates/booth_outcomes/src/texts.rt")
    causes = set(re.findall(r'FollowFault::\w+ => "([^"]+)"', source))
    need(len(causes) == 6, f"the causes for which no ticket is followed: {sorted(causes)}")
    missing = [text for text in faults - words - follows if text not in daemon]
    missing += [text for text in words if text not in clients]
    missing += [text for text in follows | causes if text not in follower]
    need(not missing, f"not in the pages: {missing}")


def pages_are_well_formed_for_mandoc(room):
    """mandoc finds no fault in the manual pages"""
    if not shutil.which("mandoc"):
        return "mandoc is not here"
    done = run("mandoc", "-T", "lint", "-W", "warning", *pages())
    need(not done.stdout + done.stderr, done.stdout + done.stderr)
    return None


def pages_are_well_formed_for_groff(room):
    """groff finds no fault in the manual pages"""
    if not shutil.which("groff"):
        return "groff is not here"
    done = run("groff", "-mdoc", "-ww", "-z", *pages())
    need(not done.stderr, done.stderr)
    return None
