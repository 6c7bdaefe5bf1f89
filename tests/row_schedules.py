"""Plays schedules of three members, with and without the steady rules: tests/rows/rules/schedules/.

A schedule begins with `## ` and a sentence. Its first line is the time between two renewals and the end of the
schedule, in seconds: `renewal 300, until 2000`. The lines `at`, the time in seconds, and an event follow. An event is
`grant` or `revoke` and a site; `stop` or `start` and a member; `cut` or `join` and a member, or two members. The
members start at 0, with records that bind them to nothing.

The last lines say what must happen: `otherwise: ` without the steady rules, and `steady: ` with them. `held` means that
from the first grant on somebody always holds the ticket. `lost at` and a second give each time from which on nobody
holds the ticket. After this time comes the next holder, `S1 from` and a second, or `nobody` if no site holds the ticket
until the end. `S2 asks 1 term` is the number of terms in which a site starts an election. `S2 asks 10 terms or more` is
the least number. Times are whole seconds.
"""

import re
from typing import List, Tuple

import rule_words
from row_driver import Driver, Trouble
from ticket_cluster import MEMBERS, Cluster, Holding, holdings, spans

EVENT = re.compile(r"at (\d+(?:\.\d+)?) (grant|revoke|stop|start|cut|join) (S1|S2|AR)(?: (S1|S2|AR))?")
HEAD = re.compile(r"renewal (\d+), until (\d+)")


def ms(seconds: str) -> int:
    """Returns a time in ms."""
    return round(float(seconds) * 1000)


def plan(cluster: Cluster, line: str) -> None:
    """Adds the event of a line."""
    found = EVENT.fullmatch(line)
    if found is None:
        raise Trouble(f"no event: {line}")
    time, word, name, other = found.groups()
    others = [other] if other else [each for each in MEMBERS if each != name]

    def happens() -> None:
        if word in ("grant", "revoke"):
            cluster.ask(name, word)
        elif word == "start":
            cluster.start(name)
        elif word == "stop":
            cluster.stop(name)
        else:
            for each in others:
                cluster.cut(name, each, word == "cut")

    cluster.at(ms(time), happens)


def played(lines: List[str], is_steady: bool, program: str) -> Tuple[Cluster, int]:
    """Returns the cluster after the schedule, and its end in ms."""
    head = HEAD.fullmatch(lines[0])
    if head is None:
        raise Trouble(f"no head of a schedule: {lines[0]}")
    cluster = Cluster(program, is_steady, ms(head[1]))
    try:
        for name in MEMBERS:
            cluster.start(name)
        for line in lines[1:]:
            plan(cluster, line)
        cluster.run_to(ms(head[2]))
    finally:
        cluster.end()
    return cluster, ms(head[2])


def asked(cluster: Cluster, site: str) -> int:
    """Returns in how many terms a site started an election: it voted for itself in these terms."""
    own = MEMBERS.index(site) + 1
    return len({each.record.term for each in cluster.kept if each.member == site and each.record.bound == own})


def described(held: List[Holding], end: int) -> str:
    """Returns what happened, in the form of a schedule's last lines."""
    if not held:
        return "nobody"
    said = []
    at = held[0].end
    for after in held[1:]:
        if after.begin > at:
            said.append(f"lost at {at // 1000}, {after.site} from {after.begin // 1000}")
        at = max(at, after.end)
    if at < end:
        said.append(f"lost at {at // 1000}, nobody")
    return ", ".join(said) or "held"


def faults(cluster: Cluster, end: int, wanted: str) -> List[str]:
    """Returns a fault for each thing that must happen and did not."""
    wrong = []
    said = wanted.split("; ")
    for each in said:
        found = re.fullmatch(r"(S1|S2) asks (\d+) terms?( or more)?", each)
        if found is None:
            happened = described(spans(holdings(cluster.kept)), end)
            if happened != each:
                wrong.append(f"wanted {each}, and not {happened}")
            continue
        count = asked(cluster, found[1])
        if count < int(found[2]) or (found[3] is None and count > int(found[2])):
            wrong.append(f"wanted {each}, and not {count}")
    return wrong


def check(text: str, driver: Driver) -> Tuple[int, List[str]]:
    """Plays a file, and returns how many rows it has, and the faults."""
    count, wrong = 0, []
    for story in rule_words.stories(text):
        sentence, *lines = story.head
        events = [line for line in lines if not line.startswith(("otherwise: ", "steady: "))]
        wanted = [line.partition(": ") for line in lines if line.startswith(("otherwise: ", "steady: "))]
        if not wanted:
            raise Trouble(f"nothing must happen: {sentence}")
        for kind, _, what in wanted:
            count += 1
            cluster, end = played(events, kind == "steady", driver.program)
            wrong += [f"{sentence}: {kind}: {each}" for each in faults(cluster, end, what)]
    return count, wrong
