#!/usr/bin/env python3
"""Runs every bench of this folder, one after another, and prints one table with all their results.

Run it as `python3 bench/all.py [--write] [NAME..]` on an idle machine, with the programs that `make build` and the gate
leave. NAME is the name of a bench, for example `links`. Without a name all benches run, in some 15 minutes. With
--write the table replaces the one in bench/README.md. The status is 1 if a mark is missed by more than a tenth, or if a
bench failed.
"""

import json
import os
import platform
import re
import subprocess
import sys
import tempfile
import time

HERE = os.path.dirname(os.path.abspath(__file__))
TOP = os.path.dirname(HERE)
sys.path[:0] = [HERE, f"{TOP}/tools"]

from rows import NOTES, Row, table
from serving import end_by_signals

# the name of each bench, and what it measures, as the table names it; the quick ones come first
BENCHES = {
    "run": "one daemon",
    "turn": "one turn",
    "seals": "sealed frames",
    "links": "links",
    "journals": "journals",
    "records": "record writes",
    "backlog": "the backlog",
    "promises": "promises",
    "clients": "clients",
    "moves": "moves",
    "status": "booth-status",
    "timer": "the timer",
    "simulation": "the simulation",
    "tickets": "a cluster",
    "follow": "a service",
    "followers": "many services",
    "thousands": "thousands",
}
README = f"{HERE}/README.md"
# the place of the table in this file, between two lines
PLACE = re.compile(r"(<!-- figures -->\n).*?(<!-- end of figures -->\n)", re.S)


def rows_of(name, folder):
    """Runs a bench, shows its output, and returns its rows and whether it succeeded."""
    notes = os.path.join(folder, name)
    started = time.monotonic()
    print(f"\n== bench/{name}.py", flush=True)
    ran = subprocess.run([sys.executable, f"{HERE}/{name}.py"], env={**os.environ, NOTES: notes})
    print(f"== {time.monotonic() - started:.0f} s, status {ran.returncode}", flush=True)
    if not os.path.exists(notes):
        return [Row("nothing was measured", f"status {ran.returncode}")], False
    with open(notes, encoding="utf-8") as file:
        return [Row(*json.loads(line)) for line in file], ran.returncode == 0


def machine(load):
    """Returns the machine on which the table was measured."""
    kernel = f"Linux {platform.release()}"
    loads = f"a load of {load:.1f} before and {os.getloadavg()[0]:.1f} after"
    with open("/proc/cpuinfo", encoding="utf-8") as file:
        names = (line.partition(":")[2].strip() for line in file if line.startswith("model name"))
        model = next(names, platform.machine())
    return f"{time.strftime('%Y-%m-%d')}, {os.cpu_count()} processors ({model}), {kernel}, {loads}."


def written(text):
    """Writes the table into its place in the README."""
    with open(README, encoding="utf-8") as file:
        before = file.read()
    after, count = PLACE.subn(lambda found: found[1] + text + found[2], before)
    if count != 1:
        sys.exit(f"all.py: {README} has no place for the table")
    with open(README, "w", encoding="utf-8") as file:
        file.write(after)


def main(words):
    end_by_signals()
    is_written = "--write" in words
    names = [word for word in words if word != "--write"] or list(BENCHES)
    unknown = [name for name in names if name not in BENCHES]
    if unknown:
        sys.exit(f"all.py: no bench is named {unknown[0]}: {', '.join(BENCHES)}")
    if is_written and names != list(BENCHES):
        sys.exit("all.py: --write needs all benches: give no names")
    load, lines, is_well = os.getloadavg()[0], [], True
    with tempfile.TemporaryDirectory(prefix="booth-bench-") as folder:
        for name in names:
            rows, ended_well = rows_of(name, folder)
            is_well &= ended_well
            lines += [(BENCHES[name], *row[:3], row.met()) for row in rows]
    text = "\n".join([machine(load), "", *table([("Of", "What", "Value", "Mark", "Met"), *lines])]) + "\n"
    print(f"\n{text}", end="")
    if is_written:
        written(text)
    return 0 if is_well else 1


if __name__ == "__main__":
    sys.exit(main(sys.argv[1:]))
