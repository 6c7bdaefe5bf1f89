"""The console of booth-status: one page, metrics and JSON about the cluster, over HTTP. See booth-status(8).

It is imported by booth-status, and not run by itself. It changes nothing, here or at a member. All requests share one
look, which is repeated after some seconds, so many browsers ask the members no more often than one does.
"""

import ipaddress
import signal
import sys
import threading
import time
from collections import Counter
from typing import Any, Iterator, List, NamedTuple, Optional, Tuple

import changes
import configuration
import console_http
import console_page
import exporting
import judging
import problems
import services
import state_file
import takeovers
import viewing
from configuration import Configuration, Unreadable
from console_events import Changes, Event, Log, last
from console_http import Reply
from console_style import HASH
from wording import plain

DEFAULT = "127.0.0.1:9930"
# the least time between two looks, and the longest one without a request, in seconds
PAUSE, LONGEST_PAUSE = 2.0, 60.0
# counters are compared with those of a look that is at most this old, in seconds
WINDOW = 60.0
# the least time between two of those looks, and between two writes of the state file, in seconds
STEP, STATE_PAUSE = 2.0, 10.0
EVENTS_ON_PAGE = 30
# how long the end of the program waits for a look, in seconds
SECONDS_TO_END = 10.0
TEXT, JSON = "text/plain; charset=utf-8", "application/json"
METRICS, PAGE = "text/plain; version=0.0.4; charset=utf-8", "text/html; charset=utf-8"


class Look(NamedTuple):
    """The result of a look, or why there is none. `at` is by the clock of this process, which no step changes."""

    at: float
    moment: float
    conf: Optional[Configuration] = None
    view: Optional[judging.View] = None
    why: str = ""
    events: Tuple[Event, ...] = ()
    why_no_log: str = ""


class Looks:
    """The looks at the cluster, at most one each `pause` seconds, shared by all requests."""

    def __init__(self, options: Any) -> None:
        self.path = configuration.path_of(options.conf)
        self.seconds, self.pause = options.timeout, PAUSE if options.watch is None else options.watch
        self.may_be_free, self.state = options.may_be_free, options.state
        conf = configuration.read(self.path)
        conf.key()
        memory = state_file.load(self.state, conf) if self.state else None
        # the results of the looks of the last `WINDOW` seconds, the oldest first
        self.memories: List[Tuple[float, Optional[changes.Memory]]] = [(time.monotonic(), memory)]
        self.log, self.changes = Log(f"booth@{services.cluster_of(conf)}.service"), Changes()
        self.lock = threading.Lock()
        self.last: Optional[Look] = None
        self.count = 0
        # when the state file was written
        self.saved = float("-inf")

    def latest(self) -> Look:
        """Returns the last look, or a new one if it is too old. Only one request at a time makes a new one."""
        with self.lock:
            if self.last is None or time.monotonic() >= self.last.at + self.pause:
                self.last = self.made()
            return self.last

    def made(self) -> Look:
        """Looks at the members, and at the log of the daemon here."""
        self.count += 1
        try:
            conf = configuration.read(self.path)
            free = [ticket.name for ticket in conf.tickets if ticket.name in self.may_be_free]
            view = viewing.view(conf, conf.key(), self.seconds, self.before(), free)
            self.log.read()
            self.remember(view)
            view = with_problems(view, [*self.log.problems(), *self.unsaved(conf)])
            self.changes.take(view)
        except Unreadable as why:
            return Look(time.monotonic(), time.time(), why=str(why))
        except Exception as why:  # pylint: disable=broad-except
            # (whatever it is, the next look may succeed)
            return Look(time.monotonic(), time.time(), why=plain(f"{type(why).__name__}: {why}"))
        told = tuple(last([*self.log.events, *self.changes.events], EVENTS_ON_PAGE))
        return Look(time.monotonic(), view.moment, conf, view, "", told, self.log.why)

    def before(self) -> Optional[changes.Memory]:
        """Returns the counters of about a minute ago, with the holders of the last look."""
        earlier, newest = self.memories[0][1], self.memories[-1][1]
        return earlier and newest and earlier._replace(held=newest.held)

    def remember(self, view: judging.View) -> None:
        """Keeps the result of a look in memory."""
        memory = changes.remembered(self.memories[-1][1], view.answers, view.held)
        now, (newest, _) = time.monotonic(), self.memories[-1]
        if len(self.memories) > 1 and now - newest < STEP:
            self.memories[-1] = newest, memory
        else:
            self.memories.append((now, memory))
        # (the oldest one is the last look before the window, so counters are compared over the whole window)
        while len(self.memories) > 2 and self.memories[1][0] <= now - WINDOW:
            self.memories.pop(0)
        if self.memories[0][1] is None:
            self.memories.pop(0)

    def unsaved(self, conf: Configuration) -> Iterator[problems.Problem]:
        """Writes the newest results into the state file, if there is one, and yields a problem if that fails."""
        memory, now = self.memories[-1][1], time.monotonic()
        if self.state is None or memory is None or now < self.saved + STATE_PAUSE:
            return
        try:
            state_file.save(self.state, conf, memory)
            self.saved = now
        except Unreadable as why:
            # (a full disk must not end the console)
            yield problems.Problem(problems.WARNING, "unsaved", str(why))


def with_problems(view: judging.View, more: List[problems.Problem]) -> judging.View:
    """Returns the view with more problems, the worst first."""
    found = sorted([*view.problems, *more], key=lambda problem: -problem.severity)
    return view._replace(problems=found)


class Console:
    """Answers each path with what the last look found."""

    def __init__(self, looks: Looks) -> None:
        self.looks = looks
        self.statuses: "Counter[int]" = Counter()
        self.lock = threading.Lock()
        self.routes = {"/": self.page, "/metrics": self.metrics, "/status.json": self.document, "/healthz": self.health}

    def reply(self, path: str, query: str) -> Reply:
        """Returns the answer to a request for this path."""
        route = self.routes.get(path)
        if route is None:
            return Reply(404, TEXT, f"nothing is here: see {' '.join(self.routes)}\n")
        return route(self.looks.latest(), query)

    def counts(self, status: int) -> None:
        """Counts an answer with this status."""
        with self.lock:
            self.statuses[status] += 1

    def page(self, look: Look, query: str) -> Reply:
        """Returns the page for operators."""
        if look.view is None or look.conf is None:
            return Reply(503, PAGE, console_page.failed(look.why, query), HASH)
        due = due_of(look.conf, look.view)
        text = console_page.page(look.conf, look.view, due, look.events, look.why_no_log, query)
        return Reply(200, PAGE, text, HASH)

    def metrics(self, look: Look, _: str) -> Reply:
        """Returns the metrics for Prometheus."""
        if look.view is None:
            return Reply(503, TEXT, f"{look.why}\n")
        more = [exporting.sample("booth_console_looks_total", self.looks.count)]
        # (without the scrape that this answers)
        with self.lock:
            statuses = sorted(self.statuses.items())
        for status, count in statuses:
            more.append(exporting.sample("booth_console_requests_total", count, code=str(status)))
        if not look.why_no_log:
            more.append(exporting.sample("booth_records_unwritten", len(self.looks.log.unwritten)))
        return Reply(200, METRICS, exporting.metrics(look.view, more))

    def document(self, look: Look, _: str) -> Reply:
        """Returns the JSON document, with the last events."""
        if look.view is None:
            return Reply(503, TEXT, f"{look.why}\n")
        events = [{**event._asdict(), "moment": exporting.seconds(event.moment)} for event in look.events]
        more = {"events": [{"time": each.pop("moment"), **each} for each in events], "no_log": look.why_no_log or None}
        return Reply(200, JSON, exporting.document(look.view, judging.in_one_line(look.view), more) + "\n")

    def health(self, look: Look, _: str) -> Reply:
        """Returns the line for a monitor, with status 503 if something is critical or nothing was checked."""
        if look.view is None:
            return Reply(503, TEXT, f"BOOTH UNKNOWN: {look.why}\n")
        status = 503 if look.view.status() >= problems.CRITICAL else 200
        return Reply(status, TEXT, judging.in_one_line(look.view) + "\n")


def due_of(conf: Configuration, view: judging.View) -> dict:
    """Returns the takeover of each held ticket if its lease is not renewed, and the takeovers that are due."""
    due = {}
    for ticket in conf.tickets:
        holding = view.held.get(ticket.name)
        if holding is not None and holding.end is not None and not ticket.is_manual and not holding.gave_back:
            due[ticket.name] = takeovers.after(conf, ticket, holding, view.answers, False)
    return {**due, **view.takeovers}


def place_of(text: str) -> Tuple[str, int]:
    """Returns the address and the port of a text such as 127.0.0.1:9930 or [::1]:9930. Raises `ValueError`."""
    address, found, port = text.rpartition(":")
    if address.startswith("[") and address.endswith("]"):
        address = str(ipaddress.IPv6Address(address[1:-1]))
    elif found:
        address = str(ipaddress.IPv4Address(address))
    if not found or not configuration.NUMBER.fullmatch(port) or not 0 < int(port) < 65_536:
        raise ValueError(f"{text!r} is not ADDRESS:PORT")
    return address, int(port)


def look_regularly(looks: Looks) -> None:
    """Looks once in a while without a request too, so that the console knows who held a ticket before."""
    while True:
        if looks.last is None or time.monotonic() >= looks.last.at + LONGEST_PAUSE:
            looks.latest()
        time.sleep(STEP)


def status_of(options: Any) -> int:
    """Serves until a signal ends the program, and returns the status."""
    looks = Looks(options)
    try:
        server = console_http.Server(options.serve, Console(looks))
    except OSError as why:
        raise Unreadable(f"cannot listen at {options.serve[0]} port {options.serve[1]}: {why.strerror}") from why
    for number in (signal.SIGTERM, signal.SIGINT):
        signal.signal(number, lambda *_: sys.exit(0))
    threading.Thread(target=look_regularly, args=(looks,), daemon=True).start()
    print(f"booth-status: serves http://{server.place()}/ about {looks.path}", flush=True)
    try:
        with server:
            server.serve_forever()
    finally:
        # (so that no look is interrupted while it writes the state file)
        looks.lock.acquire(timeout=SECONDS_TO_END)
    return 0
