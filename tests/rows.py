#!/usr/bin/env python3
"""Plays every row below tests/rows/ with the proved driver, and compares its answers.

Run it as `python3 tests/rows.py [PROGRAM [FILE ..]]`, PROGRAM being the built `trials`, which rt leaves at
crates/trials/out/trials. It prints a line for each file, and has the status 1 if a row differs.
"""

import importlib
import os
import sys
from typing import List

TOP = os.path.dirname(os.path.dirname(os.path.abspath(__file__)))
sys.path.insert(0, f"{TOP}/tools")

from row_driver import PROGRAM, Driver, Trouble, Unplayed

ROWS = f"{TOP}/tests/rows"


def files() -> List[str]:
    """Returns the path of each file of rows."""
    found = (os.path.join(where, name) for where, _, names in os.walk(ROWS) for name in names)
    return sorted(path for path in found if path.endswith(".rows"))


def check(path: str, driver: Driver) -> bool:
    """Plays a file's rows, prints the results, and returns whether every row passed. The folder's name is that of the
    module that plays it: `row_NAME.py` has `check(text, driver)`, which returns how many rows there are, and their
    faults.
    """
    module = importlib.import_module("row_" + os.path.basename(os.path.dirname(path)))
    name = os.path.relpath(path, ROWS)
    try:
        with open(path, encoding="utf-8") as file:
            count, wrong = module.check(file.read(), driver)
    except (Trouble, Unplayed) as why:
        print(f"FAILED  {name}: {why}", flush=True)
        return False
    if count == 0 and not wrong:
        wrong = ["there is no row"]
    print(f"{'FAILED' if wrong else 'ok'}  {name}: {count} rows", flush=True)
    for line in wrong:
        print(f"  {line}", flush=True)
    return not wrong


def main(words: List[str]) -> int:
    """Plays the named files, or all."""
    driver = Driver(os.path.abspath(words[0] if words else PROGRAM))
    done = [check(path, driver) for path in words[1:] or files()]
    return 0 if done and all(done) else 1


if __name__ == "__main__":
    sys.exit(main(sys.argv[1:]))
