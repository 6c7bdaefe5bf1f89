#!/usr/bin/env python3
"""Causes faults on three booted machines with PostgreSQL under a ticket, and checks that one site at most takes writes.

Run it as root, as `python3 tests/machines.py [--package FILE] [--gate] [--list] [SCENARIO ..]`. It boots two sites and
an arbitrator, and sets them up from the package as the documents say. The package is FILE, by default
out/booth-proved_*.deb. Each site has a writer. For each scenario the test prints four things: how long two sites took
writes at the same time, which must be 0 s; how long no site did; how many accepted writes are lost; and what the
scenario itself found. Its status is 1 if a scenario failed, and 77 if the machines cannot be booted here, with a line
about the cause.

The machines and their image are below /var/tmp/booth-machines. The image is made once, in some minutes.
"""

import argparse
import glob
import os
import shutil
import signal
import subprocess
import sys
import tempfile
import time
import traceback
from typing import List, Optional

HERE = os.path.dirname(os.path.abspath(__file__))
TOP = os.path.dirname(HERE)
sys.path[:0] = [HERE, f"{TOP}/tools"]

import booted
import machine_console
import machine_sites
import machine_writers
from booted import Image, NoImage, NotBooted
from machine_scenarios import SCENARIOS, Scenario
from machine_sites import Unlike, World

NOT_HERE = 77
# (whose scenario is among SCENARIOS once it is imported)
assert machine_console


def words(arguments: List[str]) -> argparse.Namespace:
    """Reads the command line."""
    parser = argparse.ArgumentParser(description="Faults on booted machines.")
    parser.add_argument("--package")
    parser.add_argument("--gate", action="store_true", help="the scenarios that the gate runs")
    parser.add_argument("--list", action="store_true", help="print the scenarios")
    parser.add_argument("--keep", action="store_true", help="leave the machines' files")
    parser.add_argument("scenario", nargs="*")
    options = parser.parse_args(arguments)
    unknown = [name for name in options.scenario if name not in SCENARIOS]
    if unknown:
        parser.error(f"no scenario {unknown[0]}: --list prints them")
    return options


def package_of(options: argparse.Namespace) -> Optional[str]:
    """Returns the package to test, or nothing if there is none."""
    if options.package:
        return str(options.package)
    built = sorted(glob.glob(f"{TOP}/out/booth-proved_*.deb"))
    return built[-1] if built else None


def run(world: World, each: Scenario) -> bool:
    """Runs a scenario, prints the result, and returns whether it went as it must."""
    faults: List[str] = []
    began = settled = time.monotonic()
    told: Optional[str] = None
    try:
        holder = world.settle()
        began = time.monotonic()
        told = each.story(world, holder)
    except (Unlike, NotBooted, subprocess.TimeoutExpired) as why:
        faults.append(str(why))
    try:
        if faults:
            world.repair()
        world.settle()
        settled = time.monotonic()
        time.sleep(1)
    except (Unlike, NotBooted) as why:
        faults.append(str(why))
    now = time.monotonic()
    found = machine_writers.figures(world.writers.tries(), began, now)
    lost = lost_writes(world, began, now)
    if found.seconds_at_two > 0:
        faults.append(f"two sites took writes, and {found.commits_at_two} of them")
    if found.seconds_without > each.most_without:
        faults.append(f"no site took writes for more than {each.most_without:.0f} s")
    print(
        f"{'FAILED ' if faults else 'ok     '}{each.name}: {found.seconds_at_two:.1f} s at two sites, "
        f"{found.seconds_without:.1f} s at none, {lost} of {found.taken} writes lost, "
        f"settled after {settled - began:.1f} s"
        + (f", {told}" if told else "")
        + "".join(f"\n       {fault}" for fault in faults),
        flush=True,
    )
    return not faults


def lost_writes(world: World, began: float, ended: float) -> str:
    """Returns how many writes that were accepted between two moments are not at the primary."""
    holder = world.holder()
    return "?" if holder is None else str(world.writers.lost(began, ended, world.rows(holder)))


def try_all(package: str, chosen: List[Scenario], keeps: bool, image: Image) -> bool:
    """Runs these scenarios on their own machines over an image, and returns whether all went as they must."""
    folder = tempfile.mkdtemp(prefix="machines-", dir=booted.FOLDER)
    began = time.monotonic()
    try:
        with machine_sites.worlds(package, folder, image=image) as world:
            print(f"three machines are set up after {time.monotonic() - began:.0f} s", flush=True)
            results = [run(world, each) for each in chosen]
            print(f"{sum(results)} of {len(results)} scenarios in {time.monotonic() - began:.0f} s", flush=True)
            return all(results)
    finally:
        if keeps:
            print(f"the machines' files: {folder}")
        else:
            shutil.rmtree(folder, ignore_errors=True)


def main(arguments: List[str]) -> int:
    """Does what the arguments ask for, and returns the status."""
    options = words(arguments)
    if options.list:
        for each in SCENARIOS.values():
            print(f"{each.name}{' (gate)' if each.is_for_gate else ''}: {each.title()}")
        return 0
    chosen = [SCENARIOS[name] for name in options.scenario] or [
        each for each in SCENARIOS.values() if each.is_for_gate or not options.gate
    ]
    image = next((each.image for each in chosen if each.image is not booted.POSTGRESQL), booted.POSTGRESQL)
    lacks = booted.missing(image)
    package = package_of(options)
    if package is None or not os.path.isfile(package):
        lacks.append(f"the package {package or 'out/booth-proved_*.deb (make deb)'}")
    if lacks:
        print(f"machines: not tried here, for want of {', '.join(lacks)}")
        return NOT_HERE
    assert package is not None
    try:
        booted.make_image(image)
    except (NoImage, subprocess.TimeoutExpired) as why:
        print(f"machines: not tried here, since {why}")
        return NOT_HERE
    try:
        return 0 if try_all(package, chosen, options.keep, image) else 1
    except (NotBooted, Unlike) as why:
        print(f"FAILED machines: {why}")
        return 1
    except Exception:
        traceback.print_exc()
        return 1


if __name__ == "__main__":
    # (the machines are ended in each case)
    signal.signal(signal.SIGTERM, lambda *_: sys.exit(1))
    sys.exit(main(sys.argv[1:]))
