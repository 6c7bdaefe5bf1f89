#!/usr/bin/env python3
"""Refuses each allocation of a daemon in turn, and compares the end of each run with a stored table.

Run it as `python3 tests/allocations.py [TRIALS]`. TRIALS is by default crates/trials/out/trials, where the gate leaves
the proved program. It runs `boothd daemon` over a host in memory that stores nothing (`trials play runs`), once for
each allocation of the whole run, and refuses this allocation. Each run must end as tests/allocations.txt says. The
status is 1 if one does not, and 77 if nothing was checked because there is no C compiler.

The driver that plays the run allocates too, before the daemon's first allocation and after its last one. So the table
begins with the first allocation whose refusal ends the daemon, and ends with the last one.
"""

import itertools
import os
import subprocess
import sys
from typing import Dict, List, Optional, Tuple

TOP = os.path.dirname(os.path.dirname(os.path.abspath(__file__)))
sys.path.insert(0, f"{TOP}/tests")

from row_driver import PROGRAM, run_line
from scratch import scratch

TABLE = f"{TOP}/tests/allocations.txt"
NOTHING_CHECKED = 77
SECONDS_OF_A_RUN = 20

CONF = """site="192.168.201.100"
site="192.168.202.100"
arbitrator="192.168.203.100"
ticket="ticket-db8"
authfile = /k
"""
KEY = b"secret-key"
WORDS = ["daemon", "-c", "/etc/booth.conf", "-s", "192.168.201.100"]
# nothing arrives five times, and then the end arrives: so a daemon that serves makes six turns, the last one with the
# end
STEPS = 5

# the possible ends of a run in which one allocation was refused
DRIVER, OUT_OF_MEMORY, SERVES, OTHER = "the driver's own", "out of memory", "serves", "other"


def script() -> bytes:
    """Returns the lines of the run."""
    files = {"/etc/booth.conf": CONF.encode(), "/k": KEY}
    lines = [f"file {path.encode().hex()} {content.hex()}" for path, content in files.items()]
    lines += ["room 0", "first 5000"]
    lines += [f"step {6000 + step} - quiet" for step in range(STEPS)]
    lines.append(run_line("boothd", [word.encode() for word in WORDS]))
    return "".join(f"{line}\n" for line in lines).encode()


def run(program: str, shim: str, refused: int) -> Tuple[str, int, int]:
    """Returns what a run printed with this allocation refused, its status, and how many allocations it made."""
    read, write = os.pipe()
    env: Dict[str, str] = {**os.environ, "LD_PRELOAD": shim, "REFUSE_AT": str(refused), "REFUSE_COUNT": str(write)}
    with os.fdopen(read) as counts:
        try:
            how = {"stdout": subprocess.PIPE, "env": env, "pass_fds": [write], "timeout": SECONDS_OF_A_RUN}
            done = subprocess.run([program, "play", "runs"], input=script(), **how)
        finally:
            os.close(write)
        count = counts.read()
    return done.stdout.decode(), done.returncode, int(count or 0)


def how_it_ended(printed: str, status: int) -> str:
    """Returns how a run ended."""
    lines = printed.split("\n")
    ends = [line for line in lines if line.startswith("ends ")]
    turns = [line for line in lines if line.startswith("turns ")]
    if not ends:
        is_told = status != 0 or any(line == "! out of memory" for line in lines)
        return DRIVER if is_told else OTHER
    if ends == ["ends 1 OutOfMemory"] and turns == ["turns 0 0"]:
        return OUT_OF_MEMORY
    return SERVES if ends == ["ends 0 Done"] and turns == [f"turns {STEPS + 1} 0"] else OTHER


def of_the_daemon(ends: List[str]) -> List[str]:
    """Returns how runs end when one of the daemon's own allocations is refused, from the first that ends the run to the
    last.
    """
    its = [place for place, end in enumerate(ends) if end == OUT_OF_MEMORY]
    return ends[its[0] : its[-1] + 1] if its else []


def table_of(ends: List[str]) -> List[str]:
    """Returns the lines of a table: the first and the last allocation of a range, and how the run ends if one is
    refused.
    """
    lines, first = [], 1
    for end, group in itertools.groupby(ends):
        last = first + len(list(group)) - 1
        lines.append(f"{first} {end}" if last == first else f"{first} to {last} {end}")
        first = last + 1
    return lines


def stored() -> List[str]:
    """Returns the lines of the stored table, without its comments."""
    with open(TABLE, encoding="utf-8") as file:
        return [line for line in file.read().split("\n") if line and not line.startswith("#")]


def built(folder: str) -> Optional[str]:
    """Returns the path of the library that refuses allocations, or None if there is no C compiler."""
    path = f"{folder}/refusing.so"
    words = ["cc", "-O1", "-shared", "-fPIC", "-fno-builtin", "-o", path, f"{TOP}/tests/refusing.c"]
    try:
        subprocess.run(words, check=True)
    except FileNotFoundError:
        return None
    return path


def main(words: List[str]) -> int:
    """Makes the runs, prints their table if it differs from the stored one, and returns the status."""
    program = os.path.abspath(words[0] if words else PROGRAM)
    with scratch("booth-allocations-") as folder:
        shim = built(folder)
        if shim is None:
            print("tests/allocations.py: there is no C compiler, so nothing was checked")
            return NOTHING_CHECKED
        printed, status, count = run(program, shim, 0)
        if how_it_ended(printed, status) != SERVES or count == 0:
            print(f"FAILED: with all its memory it ends with status {status}: {printed}")
            return 1
        ends = of_the_daemon([how_it_ended(*run(program, shim, refused)[:2]) for refused in range(1, count + 1)])
    found = table_of(ends)
    if found != stored():
        print("FAILED: another table:\n" + "\n".join(found))
        return 1
    print(f"ok: {len(ends)} allocations of the daemon, each refused in turn")
    return 0


if __name__ == "__main__":
    sys.exit(main(sys.argv[1:]))
