#!/usr/bin/env python3
"""Causes faults in two real Pacemaker clusters and an arbitrator, and checks that the service runs at one site only.

Run it as root, as `python3 tests/clusters.py [--package FILE] [--set-up NAME] [--phases N] [--phase PART] [--gate]
[--list] [--keep] [SCENARIO ..]`. It boots two sites of two nodes each and an arbitrator, sets them up from the package
(out/booth-proved_*.deb if none is named), and has a service at each site that notes when it runs. For each scenario it
prints for how long the service ran at two sites, which must be 0 s, for how long it ran nowhere, and where it runs now.
An infinity sign follows a time that lasted as long as was watched. With `--phases N` each fault comes N times, each
time in another phase of the renewal; with `--phase PART` too, N times in this one. Its status is 1 if a scenario
failed, and 77 if the machines cannot be booted here, which it says.

The machines and their image are below /var/tmp/booth-machines. The image is made once, in some minutes. The limit
fs.inotify.max_user_instances is raised to 1024 and stays so.
"""

import argparse
import contextlib
import glob
import os
import shutil
import signal
import subprocess
import sys
import tempfile
import time
import traceback
from typing import Iterator, List, NamedTuple, Optional, Tuple

HERE = os.path.dirname(os.path.abspath(__file__))
TOP = os.path.dirname(HERE)
sys.path[:0] = [HERE, f"{TOP}/tools"]

import booted
import cluster_setups
import cluster_world
import cluster_writers
from booted import Machine, NoImage, NotBooted
from cluster_faults import Run
from cluster_scenarios import SCENARIOS, Scenario
from cluster_setups import SetUp
from cluster_world import Site, Unlike, World
from cluster_writers import Figures

NOT_HERE = 77
# how often a scenario is tried whose fault does not come
TRIES = 3
FAILURES = (Unlike, NotBooted, subprocess.TimeoutExpired, OSError)


def words(arguments: List[str]) -> argparse.Namespace:
    """Reads the command line."""
    parser = argparse.ArgumentParser(description="Faults on two Pacemaker clusters.")
    parser.add_argument("--package")
    parser.add_argument("--set-up", choices=sorted(cluster_setups.SET_UPS), default="package")
    parser.add_argument("--phases", type=int, default=1, help="in how many phases of the renewal each fault comes")
    parser.add_argument("--phase", type=float, help="the part of a renewal's period at which every fault comes")
    parser.add_argument("--gate", action="store_true", help="the scenarios that the gate runs")
    parser.add_argument("--list", action="store_true", help="print the scenarios")
    parser.add_argument("--keep", action="store_true", help="leave the machines' files")
    parser.add_argument("scenario", nargs="*")
    options = parser.parse_args(arguments)
    unknown = [name for name in options.scenario if name not in SCENARIOS]
    if unknown:
        parser.error(f"no scenario {unknown[0]}: --list prints them")
    if options.phases < 1:
        parser.error("--phases is 1 or more")
    if options.phase is not None and not 0 <= options.phase < 1:
        parser.error("--phase is from 0 to less than 1")
    return options


def package_of(options: argparse.Namespace) -> Optional[str]:
    """Returns the package to test, or nothing if there is none."""
    if options.package:
        return str(options.package)
    built = sorted(glob.glob(f"{TOP}/out/booth-proved_*.deb"))
    return built[-1] if built else None


class Outcome(NamedTuple):
    """The result of a run of a scenario, and whether it went as it must."""

    scenario: Scenario
    figures: Figures
    is_well: bool


def run(world: World, set_up: SetUp, each: Scenario) -> Outcome:
    """Runs a scenario, prints the result, and returns it. If something failed before the fault was injected, the fault
    was not tested: then the scenario runs again.
    """
    for tries_left in reversed(range(TRIES)):
        began = time.monotonic()
        faults, told = tell(world, set_up, each)
        at_two = cluster_writers.figures(nodes_of(world), began, time.monotonic(), time.monotonic()).at_two
        if not faults or world.is_faulty or at_two > 0 or tries_left == 0:
            break
        print(f"       {each.name} is tried again, since its fault has not come: {faults[0]}", flush=True)
    if world.watched <= world.began:
        faults.append("the fault was not watched")
        world.watched = time.monotonic()
    holder: Optional[Site] = None
    try:
        holder = settled(world, set_up)
        world.wait(1)
    except FAILURES as why:
        faults.append(str(why))
    found = cluster_writers.figures(nodes_of(world), world.began, world.watched, time.monotonic())
    if found.at_two > 0 or at_two > 0:
        faults.append("two sites ran the service")
    most = max(each.most_without, set_up.most_without) * world.slowness
    if found.at_none > most:
        faults.append(f"no site ran the service for more than {most:.0f} s")
    said = [f"now at {holder.name if holder else 'no site'}", *([told] if told else [])]
    said += [f"all takes {world.slowness:.1f} times as long here"] if world.slowness > 1 else []
    show(world, each, found, said, faults)
    return Outcome(each, found, not faults)


def show(world: World, each: Scenario, found: Figures, said: List[str], faults: List[str]) -> None:
    """Prints the result of a run of a scenario."""
    print(
        f"{'FAILED ' if faults else 'ok     '}{each.name} (phase {world.phase:.2f}, at {moment(world.began)}): "
        + f"{spelled(found)}, "
        + ", ".join([f"watched for {world.watched - world.began:.0f} s", *said])
        + "".join(f"\n       {fault}" for fault in faults),
        flush=True,
    )


def moment(at: float) -> str:
    """Returns a moment of this machine's clock since the boot as text, by its wall clock, as in the machines' logs."""
    return time.strftime("%H:%M:%S", time.gmtime(time.time() - time.monotonic() + at))


def tell(world: World, set_up: SetUp, each: Scenario) -> Tuple[List[str], Optional[str]]:
    """Injects a fault once, and returns what failed, and the scenario's text."""
    world.is_faulty = False
    world.began = world.watched = time.monotonic()
    try:
        site = settled(world, set_up)
        world.see_how_slow()
        return [], each.story(Run(world, set_up, site))
    except FAILURES as why:
        return [str(why)], None


def nodes_of(world: World) -> List[List[Machine]]:
    """Returns the nodes of each site."""
    return [site.nodes for site in world.sites]


def settled(world: World, set_up: SetUp) -> Site:
    """Returns the site that runs the service once everything runs. If needed, all machines are booted first."""
    try:
        world.boot(world.machines.values())
        return set_up.settle(world)
    except FAILURES as why:
        print(f"       all machines boot again, since {why}", flush=True)
        world.reset()
        return set_up.settle(world, 2 * cluster_world.PATIENCE)


def spelled(found: Figures) -> str:
    """Returns figures as text."""
    said = f"{lasting(found.at_two, found.at_two_to_the_end)} at two sites, "
    said += f"{lasting(found.at_none, found.at_none_to_the_end)} at none"
    return said + (f", {found.at_two_nodes:.1f} s at two nodes of a site" if found.at_two_nodes > 0.2 else "")


def lasting(seconds: float, is_to_the_end: bool) -> str:
    """Returns a time as text, with a sign if it lasted as long as the watch."""
    return f"{seconds:.1f} s{' ∞' if is_to_the_end else ''}"


def row(outcomes: List[Outcome]) -> str:
    """Returns the row of a table for all runs of a scenario."""
    nowhere = sorted(each.figures.at_none for each in outcomes)
    least, most = f"{nowhere[0]:.1f}", f"{nowhere[-1]:.1f}"
    at_two = max(outcomes, key=lambda each: each.figures.at_two).figures
    endless = " ∞" if any(each.figures.at_none_to_the_end for each in outcomes) else ""
    return (
        f"| {outcomes[0].scenario.title()} | {len(outcomes)} | {lasting(at_two.at_two, at_two.at_two_to_the_end)} | "
        f"{least if least == most else f'{least} to {most}'} s{endless} | {sum(each.is_well for each in outcomes)} |"
    )


def phases_of(options: argparse.Namespace) -> List[float]:
    """Returns the parts of a renewal's period at which each fault comes."""
    if options.phase is not None:
        return [options.phase] * options.phases
    return [(number + 0.5) / options.phases for number in range(options.phases)]


def try_all(set_up: SetUp, chosen: List[Scenario], phases: List[float], keeps: bool) -> bool:
    """Runs these scenarios on their own machines, and returns whether all went as they must."""
    began = time.monotonic()
    rows, well, count = [], 0, len(chosen) * len(phases)
    try:
        with set_up_world(set_up, keeps) as world:
            print(f"two clusters are set up ({set_up.name}) after {time.monotonic() - began:.0f} s", flush=True)
            for each in chosen:
                outcomes = []
                for world.phase in phases:
                    outcomes.append(run(world, set_up, each))
                rows.append(row(outcomes))
                well += sum(outcome.is_well for outcome in outcomes)
            return well == count
    finally:
        print("\n".join(["| Fault | Runs | At two sites | Nowhere | Went well |", "|---|---|---|---|---|", *rows]))
        print(f"{well} of {count} runs in {time.monotonic() - began:.0f} s", flush=True)


@contextlib.contextmanager
def set_up_world(set_up: SetUp, keeps: bool) -> Iterator[World]:
    """Yields machines that are set up. If one of the machines did not boot, it tries a second time."""
    for tries_left in (1, 0):
        folder = tempfile.mkdtemp(prefix="clusters-", dir=booted.FOLDER)
        try:
            with cluster_world.worlds(folder, set_up.addresses()) as world:
                try:
                    set_up.set_up(world)
                except FAILURES as why:
                    if tries_left == 0:
                        raise
                    print(f"       all is set up again, since {why}", flush=True)
                else:
                    yield world
                    return
        finally:
            if keeps:
                print(f"the machines' files: {folder}")
            else:
                shutil.rmtree(folder, ignore_errors=True)


def main(arguments: List[str]) -> int:
    """Does what the arguments ask for, and returns the status."""
    options = words(arguments)
    if options.list:
        for each in SCENARIOS.values():
            print(f"{each.name}{' (gate)' if each.is_for_gate else ''}: {each.title()}")
        return 0
    lacks = booted.missing(cluster_world.CLUSTERS)
    package = package_of(options)
    if package is None or not os.path.isfile(package):
        lacks.append(f"the package {package or 'out/booth-proved_*.deb (make deb)'}")
    if lacks:
        print(f"clusters: not tried here, for want of {', '.join(lacks)}")
        return NOT_HERE
    assert package is not None
    chosen = [SCENARIOS[name] for name in options.scenario] or [
        each for each in SCENARIOS.values() if each.is_for_gate or not options.gate
    ]
    for each in [each for each in chosen if each.program and shutil.which(each.program) is None]:
        print(f"       {each.name}: not tried here, for want of {each.program}")
        chosen.remove(each)
    try:
        booted.make_image(cluster_world.CLUSTERS)
    except (NoImage, subprocess.TimeoutExpired) as why:
        print(f"clusters: not tried here, since {why}")
        return NOT_HERE
    try:
        set_up = cluster_setups.SET_UPS[options.set_up](package)
        return 0 if try_all(set_up, chosen, phases_of(options), options.keep) else 1
    except FAILURES as why:
        print(f"FAILED clusters: {why}")
        return 1
    except Exception:
        traceback.print_exc()
        return 1


if __name__ == "__main__":
    # (what was booted is ended in each case)
    signal.signal(signal.SIGTERM, lambda *_: sys.exit(1))
    sys.exit(main(sys.argv[1:]))
