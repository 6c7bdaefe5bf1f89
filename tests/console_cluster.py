"""The console of booth-status about real clusters: a good one, one with a cut path, one whose service is down.

It is imported by tests/console.py, and not run by itself. The services are states that are arranged on this machine.
"""

import contextlib
import json
import os
import time
from typing import Iterator, Optional, Sequence

from checks import need
from console_browser import browser, colours, picture, rgb
from console_runs import Logged, Page, Served, served
from cut_ways import CannotCut, cut
from members import TICKET, Cluster, Times
from serving import own_addresses
from service_stories import LIVE
from status_runs import in_time, metrics_of, require_same, sample, status
from stories import grants

KEY = b"a-key-of-the-cluster"
NAME = TICKET.decode()
# of the ticket in a test, and in a picture of the documents
SHORT, LONG = Times(10, 1, 3, 5), Times(40, 3, 3, 15)
PICTURES = ("console-good.png", "console-cut.png", "console-service-down.png")
# the members of the pictures
PICTURED = ("127.0.2.10", "127.0.51.10", "127.0.113.10")
# the size of a picture for the documents, and the most bytes of one
WIDTH, HEIGHT, MOST_BYTES = 1120, 800, 150_000


class Site:
    """A real cluster, the machine of its first site, and the console there."""

    def __init__(self, cluster: Cluster, machine: Logged, console: Served) -> None:
        self.cluster, self.machine, self.console = cluster, machine, console
        self.logged = 0

    def page(self) -> Page:
        """Returns the page of a new look, with the log of the first member's daemon."""
        lines = self.cluster.members[0].printed().decode().splitlines()
        for line in lines[self.logged :]:
            self.machine.log(time.time(), line)
        self.logged = len(lines)
        self.console.looks_anew()
        return self.console.page()

    def kinds(self) -> list:
        """Returns the kinds of the problems that a new look finds."""
        return [row[1] for row in self.page().rows("Problems")]

    def url(self, query: str = "?refresh=0") -> str:
        """Returns the address of the page."""
        return f"http://{self.console.server.place()}/{query}"


@contextlib.contextmanager
def site_of(program: str, folder: str, times: Times, places: Sequence[str]) -> Iterator[Site]:
    """A cluster of which the first site holds the ticket and runs its service."""
    os.mkdir(f"{folder}/cluster")
    with Cluster(program, f"{folder}/cluster", places, times=times, key=KEY) as cluster:
        cluster.members[0].logs = True
        cluster.remember()
        cluster.start()
        grants(cluster, 0)
        machine = Logged(folder, cluster.members[0].address)
        machine.unit(LIVE, NAME)
        machine.state("running", NAME, lasts=3, kill_at=times.expire)
        with machine.here(), served(cluster.conf) as console:
            yield Site(cluster, machine, console)


def shows_a_good_cluster(site: Site) -> None:
    """The page names the holder and the end that the record on disk has."""
    holder = site.cluster.members[0]

    def same_as_the_record():
        before, page = holder.record(), site.page()
        web = page.rows("Tickets")[0]
        until = time.strftime("%Y-%m-%d %H:%M:%S", time.gmtime(before.until))
        require_same((web[0], web[2], web[4], web[-1]), (NAME, holder.address, until, "running here"))
        require_same(page.rows("Problems"), [])

    in_time(same_as_the_record)
    samples = metrics_of(site.console.get("/metrics"))
    require_same(sample(samples, "booth_ticket_held", ticket=NAME), 1)
    require_same(site.console.ask("/healthz").status, 200)
    events = [row[2] for row in site.page().rows("Last events")]
    need(any("gains the lease of term" in each for each in events), str(events))


@contextlib.contextmanager
def cut_off(site: Site) -> Iterator[None]:
    """In this block the holder and the arbitrator receive nothing from each other, and the page shows it."""
    one, _, third = site.cluster.members
    with cut(one, third), cut(third, one):
        wait = site.cluster.times.expire + 4
        began = time.monotonic()
        while "no-way" not in site.kinds():
            need(time.monotonic() < began + wait + 30, f"no path is missing: {site.kinds()}")
            time.sleep(0.2)
        yield


def shows_a_cut(site: Site) -> None:
    """Each of the two is marked in the row of the other one."""
    rows = site.page().rows("Members")
    need(rows[0][5].startswith("✖") and rows[2][3].startswith("✖"), str(rows))
    need(not rows[1][3].startswith("✖") and not rows[0][4].startswith("✖"), str(rows))


def shows_a_service_that_is_down(site: Site) -> None:
    """The service of the held ticket has ended, which is critical."""
    site.machine.state("ended", NAME, lasts=20)

    def down():
        require_same(site.kinds(), ["service-down"])

    in_time(down)
    require_same(site.console.ask("/healthz").status, 503)


def fragments_arrive(site: Site) -> None:
    """The doctor's datagram of 16 KB is counted by each daemon as one that is no frame, and nothing else is."""
    before = [member.counts()[0] for member in site.cluster.members]
    told = json.loads(status("--doctor", "--members", "-j", "-c", site.cluster.conf).printed)
    found = [each for each in told["answers"] if each["question"] == "fragments"]
    text = "a datagram of 16460 bytes arrives at 3 members"
    require_same(found, [{"question": "fragments", "answer": "ok", "text": text, "do": None}])
    after = [member.counts()[0] for member in site.cluster.members]
    require_same(after, [[each[0] + 1, *each[1:]] for each in before])


def is_drawn(site: Site, folder: str, dark: bool) -> None:
    """Chromium draws the page with its style, and finds nothing that its rules forbid."""
    path = f"{folder}/page.png"
    # (a small one, since Python unpacks it)
    picture(site.url(), path, 700, 420, dark)
    found = colours(path)
    ground, bar = ("#14171a", "#3f8a5e") if dark else ("#fbfbfa", "#4c9a6c")
    need({rgb(ground), rgb(bar)} <= found, f"dark: {dark}: the style is not applied")
    os.remove(path)


def run(program: str, folder: str) -> Optional[str]:
    """the page of a real cluster: its holder, a path that is cut, a service that is down; as Chromium draws it"""
    left_out = None
    own = own_addresses()
    with site_of(program, folder, SHORT, [next(own) for _ in range(3)]) as site:
        shows_a_good_cluster(site)
        if browser() is None:
            left_out = "Chromium is not here"
        else:
            is_drawn(site, folder, dark=False)
            is_drawn(site, folder, dark=True)
        try:
            with cut_off(site):
                shows_a_cut(site)
        except CannotCut as why:
            left_out = f"no path can be cut: {why}"
        in_time(lambda: require_same(site.kinds(), []))
        shows_a_service_that_is_down(site)
        fragments_arrive(site)
    return left_out


def pictures(program: str, scratch: str, folder: str) -> None:
    """Writes the pictures of the documents into a folder."""
    with site_of(program, scratch, LONG, PICTURED) as site:
        paths = [os.path.join(folder, name) for name in PICTURES]
        in_time(lambda: require_same(site.kinds(), []))
        site.page()
        picture(site.url(), paths[0], WIDTH, HEIGHT)
        with cut_off(site):
            site.machine.state("running", NAME, lasts=44, kill_at=22)
            site.console.looks_anew()
            picture(site.url(), paths[1], WIDTH, HEIGHT)
        in_time(lambda: require_same(site.kinds(), []))
        shows_a_service_that_is_down(site)
        picture(site.url(), paths[2], WIDTH, HEIGHT)
    for path in paths:
        need(os.path.getsize(path) <= MOST_BYTES, f"{path} has {os.path.getsize(path)} bytes")
        print(f"{path}: {os.path.getsize(path)} bytes")
