"""Writers at each site, and their notes: whether two sites took writes at the same time, and how long no site did.

It is imported by tests/machines.py, and not run by itself.
"""

import os
import time
from typing import Dict, List, NamedTuple, Set, Tuple

from booted import Machine

HERE = os.path.dirname(os.path.abspath(__file__))
PROGRAM, LOG = "/usr/local/lib/machine_writer.py", "/var/log/machine_writer"
SOCKET = "/run/postgresql/.s.PGSQL.5432"
BYTES_OF_LAST_LINES = 2000
SECONDS_SINCE_A_WRITE = 0.5
UNIT = "machine-writer.service"
UNIT_TEXT = f"""\
[Unit]
DefaultDependencies=no
StartLimitIntervalSec=0
[Service]
User=postgres
ExecStartPre=+/bin/sh -c 'touch {LOG}; chown postgres {LOG}'
ExecStart=/usr/bin/python3 {PROGRAM} {{}} {SOCKET} {LOG}
Restart=always
RestartSec=1
[Install]
WantedBy=multi-user.target
"""
TABLE = "CREATE TABLE IF NOT EXISTS booth_rows (site text, number bigint, at timestamptz DEFAULT clock_timestamp())"


class Try(NamedTuple):
    """An attempt of a writer to write a row; `why` is the cause of a failure."""

    sent: float
    answered: float
    number: int
    is_taken: bool
    why: str


class Figures(NamedTuple):
    """The figures of the attempts of several sites."""

    seconds_at_two: float
    commits_at_two: int
    seconds_without: float
    taken: int


def parsed(line: str) -> Try:
    """Returns the attempt in a line."""
    sent, answered, number, why = line.rstrip("\n").split(" ", 3)
    return Try(float(sent), float(answered), int(number), why == "ok", why)


def spells(tries: List[Try]) -> List[Tuple[float, float]]:
    """Returns the periods in which a site accepted every write: from the begin of the first to the end of the last."""
    found: List[Tuple[float, float]] = []
    goes_on = False
    for each in tries:
        if each.is_taken and goes_on:
            found[-1] = (found[-1][0], each.answered)
        elif each.is_taken:
            found.append((each.sent, each.answered))
        goes_on = each.is_taken
    return found


def overlap(one: List[Tuple[float, float]], other: List[Tuple[float, float]]) -> float:
    """Returns the total time in which periods of both sites overlap."""
    return sum(max(0.0, min(a[1], b[1]) - max(a[0], b[0])) for a in one for b in other)


def figures(tries: Dict[str, List[Try]], begin: float, end: float) -> Figures:
    """Returns the figures of the attempts between two moments."""
    within = {
        site: [each for each in all_of if begin <= each.sent and each.answered <= end] for site, all_of in tries.items()
    }
    runs = {site: spells(all_of) for site, all_of in within.items()}
    at_two, commits = 0.0, 0
    sites = sorted(runs)
    for number, site in enumerate(sites):
        for other in sites[number + 1 :]:
            at_two += overlap(runs[site], runs[other])
            commits += min(inside(within[site], runs[other]), inside(within[other], runs[site]))
    taken = sorted((each.sent, each.answered) for all_of in within.values() for each in all_of if each.is_taken)
    last, without = begin, 0.0
    for sent, answered in taken:
        without = max(without, sent - last)
        last = max(last, answered)
    return Figures(at_two, commits, max(without, end - last), len(taken))


def inside(tries: List[Try], runs: List[Tuple[float, float]]) -> int:
    """Returns how many writes a site accepted during periods of the other one."""
    taken = [each for each in tries if each.is_taken]
    return sum(1 for each in taken if any(run[0] <= each.sent and each.answered <= run[1] for run in runs))


class Writers:
    """A writer at each of these machines. It runs from each boot on until the end of a shutdown, as a unit."""

    def __init__(self, sites: List[Machine]) -> None:
        self.sites = sites
        with open(f"{HERE}/machine_writer.py", encoding="utf-8") as file:
            text = file.read()
        for site in sites:
            site.write(PROGRAM, text)
            site.write(f"/etc/systemd/system/{UNIT}", UNIT_TEXT.format(site.name))

    def begin(self, site: Machine) -> None:
        """Starts the writer of a machine, now and at each boot."""
        site.must("systemctl", "daemon-reload")
        site.must("systemctl", "enable", "--now", UNIT)

    def tries(self) -> Dict[str, List[Try]]:
        """Returns the attempts of each site so far."""
        found = {}
        for site in self.sites:
            # (the last line may be incomplete)
            lines = site.read(LOG).split("\n")[:-1]
            found[site.name] = [parsed(line) for line in lines if line.count(" ") >= 3]
        return found

    def takes(self, site: Machine) -> bool:
        """Returns whether the machine's server accepted the last write, at most half a second ago."""
        try:
            with open(site.root + LOG, "rb") as file:
                file.seek(max(0, os.fstat(file.fileno()).st_size - BYTES_OF_LAST_LINES))
                lines = file.read().decode(errors="replace").split("\n")[:-1]
        except FileNotFoundError:
            return False
        last = [parsed(line) for line in lines[-1:] if line.count(" ") >= 3]
        return bool(last) and last[0].is_taken and time.monotonic() - last[0].answered < SECONDS_SINCE_A_WRITE

    def lost(self, begin: float, end: float, present: Set[int]) -> int:
        """Returns how many writes between two moments were accepted and are not among these rows."""
        every = [each for all_of in self.tries().values() for each in all_of if each.is_taken]
        taken = [each for each in every if begin <= each.sent and each.answered <= end]
        return sum(1 for each in taken if each.number not in present)
