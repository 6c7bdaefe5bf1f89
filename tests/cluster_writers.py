"""The notes of a ticket's services at the nodes of two sites: when the service ran where, at two sites, and nowhere.

It is imported by tests/clusters.py, and not run by itself. A service is a writer (tests/cluster_writer.py) that an
agent or a unit runs. A ticket has one of each.
"""

import os
import time
from typing import Dict, Iterable, List, NamedTuple, Tuple

from booted import Machine

KINDS = ("agent", "unit")
# between two lines of a writer that ran on, and since the last line of one that runs
SECONDS_OF_A_GAP = 0.5
SECONDS_OF_A_LINE = 0.1
BYTES_OF_LAST_LINES = 200

Spell = Tuple[float, float]


class Figures(NamedTuple):
    """For how long the service ran at two sites, nowhere, and at two nodes of a site; and whether it ran at the end."""

    at_two: float
    at_two_to_the_end: bool
    at_none: float
    at_none_to_the_end: bool
    at_two_nodes: float


def log_of(kind: str) -> str:
    """Returns the path of the log in which the writer of a kind notes that it runs."""
    return f"/var/log/booth-test-{kind}.log"


def moments(machine: Machine, kind: str) -> List[float]:
    """Returns the moments at which the writer of a kind ran at a machine, in the order of its lines."""
    # (the last line may be half written, and one at the loss of power too)
    found = []
    for line in machine.read(log_of(kind)).split("\n")[:-1]:
        try:
            found.append(float(line))
        except ValueError:
            continue
    return found


def runs(machine: Machine, kind: str) -> bool:
    """Returns whether the writer of a kind runs at a machine."""
    try:
        with open(machine.root + log_of(kind), "rb") as file:
            file.seek(max(0, os.fstat(file.fileno()).st_size - BYTES_OF_LAST_LINES))
            lines = file.read().decode(errors="replace").split("\n")[:-1]
        return bool(lines) and time.monotonic() - float(lines[-1]) < SECONDS_OF_A_GAP
    except (FileNotFoundError, ValueError):
        return False


def spells(times: List[float]) -> List[Spell]:
    """Returns the periods in which a writer ran."""
    found: List[Spell] = []
    for each in times:
        if found and each - found[-1][1] < SECONDS_OF_A_GAP:
            found[-1] = (found[-1][0], each + SECONDS_OF_A_LINE)
        else:
            found.append((each, each + SECONDS_OF_A_LINE))
    return found


def joined(many: Iterable[Spell]) -> List[Spell]:
    """Returns periods that cover the same moments, in order, no two of which overlap or touch."""
    found: List[Spell] = []
    for begin, end in sorted(many):
        if found and begin <= found[-1][1]:
            found[-1] = (found[-1][0], max(found[-1][1], end))
        else:
            found.append((begin, end))
    return found


def common(one: List[Spell], other: List[Spell]) -> List[Spell]:
    """Returns the periods that are common to both."""
    both = [(max(a[0], b[0]), min(a[1], b[1])) for a in one for b in other]
    return joined(each for each in both if each[0] < each[1])


def within(many: Iterable[Spell], begin: float, end: float) -> List[Spell]:
    """Returns the parts of these periods that lie between two moments."""
    return common(joined(many), [(begin, end)])


def seconds(many: Iterable[Spell]) -> float:
    """Returns the total length of these periods in seconds."""
    return sum(end - begin for begin, end in many)


def longest_gap(many: List[Spell], begin: float, end: float) -> Spell:
    """Returns the longest period between two moments that these do not cover."""
    edges = [begin, *(edge for each in within(many, begin, end) for edge in each), end]
    gaps = [(edges[at], edges[at + 1]) for at in range(0, len(edges), 2)]
    return max(gaps, key=lambda each: each[1] - each[0])


def figures(sites: List[List[Machine]], begin: float, watched: float, end: float) -> Figures:
    """Returns the figures of the writers between `begin` and `end`; time without a service is counted from `begin` to
    `watched`.
    """
    ran = {
        (at, machine.name, kind): spells(moments(machine, kind))
        for at, site in enumerate(sites)
        for machine in site
        for kind in KINDS
    }
    at_site: Dict[int, List[Spell]] = {at: [] for at in range(len(sites))}
    of_kind: Dict[str, List[Spell]] = {kind: [] for kind in KINDS}
    for (at, _, kind), many in ran.items():
        at_site[at] += many
        of_kind[kind] += many
    at_two = within(common(joined(at_site[0]), joined(at_site[1])), begin, end)
    gaps = [longest_gap(joined(of_kind[kind]), begin, watched) for kind in KINDS]
    gap = max(gaps, key=lambda each: each[1] - each[0])
    nodes = sum(seconds(within(each, begin, end)) for each in at_two_nodes(ran))
    return Figures(
        seconds(at_two),
        any(each[0] <= watched - SECONDS_OF_A_GAP <= each[1] for each in at_two),
        gap[1] - gap[0] if gap[1] - gap[0] > 2 * SECONDS_OF_A_LINE else 0.0,
        gap[1] >= watched - SECONDS_OF_A_GAP and gap[1] - gap[0] > SECONDS_OF_A_GAP,
        nodes,
    )


def at_two_nodes(ran: Dict[Tuple[int, str, str], List[Spell]]) -> List[List[Spell]]:
    """Returns the periods in which a writer ran at two nodes of one site."""
    keys = sorted(ran)
    pairs = [
        (one, other) for one in keys for other in keys if one[1] < other[1] and (one[0], one[2]) == (other[0], other[2])
    ]
    return [common(ran[one], ran[other]) for one, other in pairs]
