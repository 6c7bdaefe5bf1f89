#!/usr/bin/env python3
"""Holds the fences in examples/ to docs/HANDLERS.md: by the lease's term they refuse late writes of a paused holder.

Run it as `python3 tests/fencing.py [BOOTHD BOOTH BOOTH-FOLLOW]`, by default those that `make build` leaves. It
takes a minute, prints a line for each check, ends all that it started, and has the status 1 if a check failed. If a
program is not built it checks no cluster; if PostgreSQL is missing, only the store in examples/; it says so.

The last story has two sites, whose services write to each store twice: once with the term of the lease, and once
without it. The holder's daemon, follower and service are stopped by SIGSTOP until the other site has taken over. Then
the service continues first. Without the term the store accepts its late writes; with the term it accepts none.
"""

import contextlib
import os
import signal
import sys
import time
from typing import Callable, Dict, Iterator, List, NamedTuple, Optional

HERE = os.path.dirname(os.path.abspath(__file__))
sys.path[:0] = [HERE, f"{HERE}/../tools"]

from checks import need
from fencing_stores import Postgres, Store, postgres_lacks
from following import Services
from members import TICKET, Cluster, Member, Times, now, wait_for
from scratch import scratch
from serving import built_program, end_by_signals, own_addresses
from stories import PATIENCE, grants, passed

TIMES = Times(expire=10)
NAME = TICKET.decode()
# in seconds: how long a service writes before it is paused, and after it continues
SECONDS_OF_WRITES = 2.0

# the requests to the store of examples/, in this order: the ticket, the term, and the status of the answer
SHOWN = [
    ("db8", "3", 200),
    ("db8", "3", 200),
    ("db8", "5", 200),
    ("db8", "4", 412),
    ("db8", "5", 200),
    ("web", "1", 200),
    ("db8", "0", 400),
    ("db8", "4294967296", 400),
    ("db8", "-1", 400),
    ("../db8", "6", 400),
    ("db8", "4294967295", 200),
    ("db8", "6", 412),
]


def store_refuses(folder: str) -> None:
    """the store accepts a term that is no smaller than each earlier one of the ticket, also after a restart"""
    with Store(folder) as store:
        for ticket, term, status in SHOWN:
            answer = store.ask("PUT", "register", f"{ticket} {term}", ticket=ticket, term=term)
            need(answer.status == status, f"ticket {ticket}, term {term}: {answer}")
        need(store.ask("GET", "register").text == "db8 4294967295", "the last accepted write is not what it has")
        need(store.ask("PUT", "register", "late").status == 400, "a write without a term is accepted")
        need(store.ask("PUT", "../terms/db8", "1", ticket="db8", term="4294967295").status == 400, "a path is accepted")
    with Store(folder) as store:
        answer = store.ask("PUT", "register", "late", ticket="db8", term="7")
        told = "term 7 of ticket db8 is below 4294967295, which a later holder has shown"
        need((answer.status, answer.text) == (412, told), f"after a restart: {answer}")


def postgres_refuses(server: Postgres) -> None:
    """PostgreSQL accepts a term that is no smaller than each earlier one of the ticket, for every kind of write"""
    insert = "INSERT INTO fenced (site, count) VALUES ('one', {})"
    for count, (term, is_taken) in enumerate([("3", True), ("3", True), ("5", True), ("4", False), ("5", True)]):
        status, printed = server.run("-c", insert.format(count), ticket="db8", term=term)
        need((status == 0) == is_taken, f"term {term}: {printed}")
    rows = server.rows("fenced")
    need([count for _, count in rows] == [0, 1, 2, 4], f"it has {rows}")
    told = "term 4 of ticket db8 is below 5, which a later holder has shown"
    for sql in (insert.format(9), "UPDATE fenced SET count = 9", "DELETE FROM fenced", "TRUNCATE fenced"):
        status, printed = server.run("-c", sql, ticket="db8", term="4")
        need(status != 0 and told in printed, f"{sql}: {printed}")
        for shown in ({}, {"ticket": "db8", "term": "0"}, {"ticket": "db8", "term": "x"}, {"term": "6"}):
            status, printed = server.run("-c", sql, **shown)
            need(status != 0 and "this session shows no term" in printed, f"{sql} with {shown}: {printed}")
    need(server.rows("fenced") == rows, "a refused write changed a row")
    done = server.run("-c", insert.format(5), ticket="web", term="1")
    need(done[0] == 0, f"another ticket's term is compared with it: {done[1]}")


# ---- a holder that is paused


class Line(NamedTuple):
    """A write of a service: its number, whether the store accepted it, and the store's number for it or the reason."""

    count: int
    is_taken: bool
    text: str


class Scene:
    """Two sites whose services write to the same stores."""

    def __init__(self, cluster: Cluster, services: Services) -> None:
        self.cluster = cluster
        self.services = services
        self.one, self.two, _ = cluster.members

    def lines(self, member: Member, target: str) -> List[Line]:
        """Returns the writes of a site's service to a target."""
        try:
            with open(self.services.path("answers", member), encoding="utf-8") as file:
                # (the last one may be half written)
                rows = [line.split(" ", 3) for line in file.read().split("\n")[:-1]]
        except OSError:
            rows = []
        return [Line(int(count), word == "ok", text) for kind, count, word, text in rows if kind == target]

    def await_writes(self, member: Member, targets: List[str], more: int = 1) -> None:
        """Waits until a site's service has had this many more answers from each target."""
        before = {target: len(self.lines(member, target)) for target in targets}
        has_more = lambda: all(len(self.lines(member, target)) >= before[target] + more for target in targets)
        need(wait_for(has_more, PATIENCE), f"the service of {member.address} does not write: {self.services.said()}")

    def signal(self, member: Member, number: int, service: Optional[int]) -> None:
        """Signals a site's daemon and follower, and the group of its service if one is given."""
        if service is not None:
            os.killpg(service, number)
        for process in (self.services.followers[member.address], member.server.process):
            process.send_signal(number)


def pauses(scene: Scene, targets: List[str]) -> float:
    """Pauses the holder until the other site writes, and then lets its service continue. Returns when the other site
    began.
    """
    one, two = scene.one, scene.two
    service = scene.services.process(one)
    need(service is not None, "the holder's service does not run")
    scene.signal(one, signal.SIGSTOP, service)
    until = one.record().until
    need(scene.services.await_up(two, until - now() + PATIENCE), "the other site's service does not start")
    scene.await_writes(two, targets)
    os.killpg(service, signal.SIGCONT)
    # (it waits for two answers from each target: the first one may be about a write before the pause)
    scene.await_writes(one, targets, 3)
    scene.signal(one, signal.SIGCONT, None)
    need(scene.services.await_down(one, PATIENCE), "the old holder's follower does not end its service")
    time.sleep(SECONDS_OF_WRITES)
    need(scene.services.is_up(two), "the new holder's service has ended")
    return now() - until


def order_in(scene: Scene, target: str) -> List[str]:
    """Returns the site of each write that a target accepted, in the order in which it accepted them."""
    taken = [
        (int(line.text), member.address)
        for member in (scene.one, scene.two)
        for line in scene.lines(member, target)
        if line.is_taken
    ]
    return [site for _, site in sorted(taken)]


def is_kept(scene: Scene, store: Store, server: Optional[Postgres]) -> None:
    """Checks that the stores have every write that the new holder had confirmed, and no later write of the old holder.
    """
    two = scene.two.address
    last = store.ask("GET", "fenced").text
    need(last.startswith(f"{two} "), f"the store has {last!r}")
    if server is None:
        return
    told = {line.count for line in scene.lines(scene.two, "sql") if line.is_taken}
    rows = [(site, count) for site, count in server.rows("fenced") if site in (scene.one.address, scene.two.address)]
    lost = told - {count for site, count in rows if site == two}
    need(not lost, f"rows of the new holder are lost: {sorted(lost)[:3]}")
    sites = [site for site, _ in rows]
    need(sites == sorted(sites, key=lambda site: site == two), "rows of the old holder stand behind them")


def judge(scene: Scene, target: str) -> None:
    """Checks a target's promise: with the term, no write of the old holder comes after a write of the new one."""
    one, two = scene.one.address, scene.two.address
    order = order_in(scene, target)
    need(one in order and two in order, f"{target}: only these wrote: {set(order)}")
    late = order[order.index(two) :].count(one)
    refused = [line for line in scene.lines(scene.one, target) if not line.is_taken]
    lost = [line for line in scene.lines(scene.two, target) if not line.is_taken]
    need(not lost, f"{target}: writes of the new holder are refused: {lost[:2]}")
    if target.startswith("!"):
        need(late > 0 and not refused, f"{target}: no late write is taken without the term, so this shows nothing")
        passed(f"{target[1:]} without the term takes {late} writes of the old holder after the new one's first write")
        return
    need(late == 0, f"{target}: {late} writes of the old holder behind the new one's first")
    need(refused and all("a later holder has shown" in line.text for line in refused), f"{target}: {refused}")
    passed(f"{target} with the term refuses {len(refused)} late writes, and takes all {order.count(two)} of the other")


@contextlib.contextmanager
def scene_of(programs: List[str], folder: str, targets: Dict[str, str]) -> Iterator[Scene]:
    """Yields a cluster and its followers, whose services write to these targets."""
    words = " ".join(f"'{target}'" for target in targets.values())
    work = f'exec {sys.executable} {HERE}/fenced_writer.py "$0" {NAME} "answers.$0" {words.replace(chr(39), chr(34))}'
    with Cluster(programs[0], folder, own_addresses(), times=TIMES, client=programs[1]) as cluster:
        with Services(programs[2], cluster, work=work) as services:
            try:
                yield Scene(cluster, services)
            finally:
                for member in cluster.members[:2]:
                    with contextlib.suppress(OSError, KeyError, TypeError, AttributeError):
                        os.killpg(services.process(member), signal.SIGCONT)


def paused_holder(programs: List[str], folder: str, store: Store, server: Optional[Postgres]) -> None:
    """if a paused holder continues after its lease, its late writes are refused, and the new holder loses none"""
    targets = {"store": f"store:{store.url('fenced')}", "!store": f"!store:{store.url('plain')}"}
    if server is not None:
        targets["sql"] = f"sql:{server.options()} fenced"
        targets["!sql"] = f"!sql:{server.options()} plain"
    with scene_of(programs, folder, targets) as scene:
        scene.cluster.remember()
        scene.cluster.start()
        for site in (scene.one, scene.two):
            scene.services.follow(site)
        grants(scene.cluster, 0)
        need(scene.services.await_up(scene.one, PATIENCE), "the service does not start where the ticket is held")
        scene.await_writes(scene.one, list(targets), 3)
        pauses(scene, list(targets))
        for target in targets:
            judge(scene, target)
        is_kept(scene, store, server)


# ---- the runs


def checked(what: str, check: Callable[..., None], *arguments: object) -> int:
    """Runs a check, and returns 1 if it fails."""
    try:
        check(*arguments)
    except Exception as why:  # (whatever it is, the others are run)
        print(f"FAILED  {what}: {type(why).__name__}: {why}", flush=True)
        return 1
    passed(what)
    return 0


def run(programs: Optional[List[str]], folder: str) -> int:
    """Runs all checks, and returns how many failed."""
    failed = checked(store_refuses.__doc__, store_refuses, f"{folder}/alone")
    lacks = postgres_lacks()
    with contextlib.ExitStack() as open_stores:
        store = open_stores.enter_context(Store(f"{folder}/store", "--unfenced"))
        server = None
        if lacks:
            print(f"fencing: PostgreSQL is not tested: {', '.join(lacks)} is missing")
        else:
            server = open_stores.enter_context(Postgres(f"{folder}/postgres"))
            failed += checked(postgres_refuses.__doc__, postgres_refuses, server)
        if programs is None:
            print("fencing: no cluster is tested, since boothd, booth or booth-follow is not built: run make build")
        else:
            failed += checked(paused_holder.__doc__, paused_holder, programs, f"{folder}/cluster", store, server)
    return failed


def main(words: List[str]) -> int:
    """Runs the checks with these programs, or with those that were built."""
    end_by_signals()
    built = words if len(words) == 3 else [built_program(name) for name in ("boothd", "booth", "booth-follow")]
    programs = None if None in built else [os.path.abspath(program) for program in built]
    started = time.monotonic()
    # (a path of a socket has at most 107 bytes)
    with scratch("booth-fence-") as folder:
        failed = run(programs, folder)
    print(f"fencing: {failed} failed, in {time.monotonic() - started:.1f} s")
    return 1 if failed else 0


if __name__ == "__main__":
    sys.exit(main(sys.argv[1:]))
