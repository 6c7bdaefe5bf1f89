"""A wall clock of its own for the programs of a node.

It is imported by tests/cluster_scenarios.py, and not run by itself. Machines here share one wall clock, and no
namespace of Linux has another one. So the units that read it run with a library there (tests/cluster_clock.c):
Pacemaker, the guard, the daemon and its follower. The clocks since the boot stay true.
"""

import contextlib
import os
import subprocess
from typing import Iterator

from booted import Machine
from cluster_faults import Run
from cluster_setups import DAEMON, FOLLOWER
from cluster_world import FAULTS, Unlike

HERE = os.path.dirname(os.path.abspath(__file__))
UNITS = ("pacemaker.service", "booth-lease-guard.service", DAEMON, FOLLOWER)
COMPILER = "cc"
LIBRARY, CLOCK = "/usr/local/lib/cluster_clock.so", f"{FAULTS}/clock"
DROP_IN = f"[Service]\nEnvironment=LD_PRELOAD={LIBRARY} CLUSTER_CLOCK={CLOCK}\n"
SECONDS_TO_BUILD = 60


def step(node: Machine, seconds: int) -> None:
    """Sets the wall clock of a node, as seen by its units, this many seconds from the true time."""
    # (a reader sees the old text or the new one)
    node.write(f"{CLOCK}.new", f"{seconds:+d}\n")
    os.rename(f"{node.root}{CLOCK}.new", node.root + CLOCK)


def build(node: Machine) -> None:
    """Copies the library into a node. Raises `Unlike` if it cannot be built."""
    words = [COMPILER, "-O2", "-shared", "-fPIC", "-o", node.root + LIBRARY, f"{HERE}/cluster_clock.c"]
    done = subprocess.run(words, capture_output=True, timeout=SECONDS_TO_BUILD, check=False)
    if done.returncode != 0:
        raise Unlike(f"{COMPILER} builds no clock: {done.stderr.decode(errors='replace').strip()}")


@contextlib.contextmanager
def own_clock(run: Run, node: Machine, seconds: int = 0) -> Iterator[None]:
    """Gives a node its own wall clock for a while, this far from the true time. The node boots before and after."""
    paths = [f"/etc/systemd/system/{unit}.d/zz-clock.conf" for unit in UNITS]
    build(node)
    step(node, seconds)
    for path in paths:
        node.write(path, DROP_IN)
    boot_again(run, node)
    try:
        run.set_up.settle_at(run.world, run.site)
        yield
    finally:
        for path in paths:
            node.remove(path)
        boot_again(run, node)


def boot_again(run: Run, node: Machine) -> None:
    """Cuts the power of a node, and boots it once its cluster has missed it: else Pacemaker may lose its tickets."""
    node.lose_power()
    other = run.site.other(node)
    run.world.await_that(f"{node.name} is missed", lambda: not other.is_up() or is_missed(run, node))
    run.world.boot([node])


def is_missed(run: Run, node: Machine) -> bool:
    """Returns whether the other node of the site lists this one as gone."""
    look = run.site.look(run.site.other(node))
    return look is not None and node.name not in look.online
