"""The console's page: problems, tickets, services, members and the last events, as HTML.

It is imported by tools/console_serving.py, and not run by itself. Each state has a word besides its colour.
"""

from typing import Dict, Iterable, List, Optional, Sequence, Set, Tuple
from urllib.parse import parse_qs

import console_style
import judging
import looking
import showing
from configuration import Configuration, Ticket
from console_events import LOG, Event
from console_markup import Child, Markup, element, joined
from judging import Seen, TicketView, View
from problems import CRITICAL, NOTICE, WARNING, WORDS
from service_problems import seconds_to_kill, shown
from services import Service, cluster_of, own_member
from takeovers import Takeover
from wording import date, listed, span

# the page loads itself again after so many seconds, unless the query says otherwise
REFRESH, MOST_REFRESH = 5, 3600
# how many rows of a table are shown; /status.json has all
MOST_ROWS = 200
# members up to this number have a column each for who hears them
MOST_COLUMNS = 12
MARKS = {NOTICE: ("good", "●"), WARNING: ("warn", "▲"), CRITICAL: ("bad", "✖")}
STATES = {NOTICE: "OK", WARNING: "WARNING", CRITICAL: "CRITICAL"}
SOURCES = {LOG: "log here"}
# services that are as they should be
CALM = ("running here", "stopped", "-")
# the class of a row, and its cells
Row = Tuple[Optional[str], Sequence[Child]]
# two members, of which the second one does or does not hear the first one
Pair = Tuple[str, str]


def refresh_of(query: str) -> int:
    """Returns after how many seconds the page loads itself again, or 0."""
    text = parse_qs(query, max_num_fields=20).get("refresh", [""])[0] if len(query) < 200 else ""
    return min(int(text), MOST_REFRESH) if text.isascii() and text.isdigit() and len(text) < 6 else REFRESH


def framed(title: str, refresh: int, *parts: Child) -> str:
    """Returns a whole page."""
    head = [element("meta", charset="utf-8")]
    head.append(element("meta", name="viewport", content="width=device-width, initial-scale=1"))
    if refresh:
        head.append(element("meta", http_equiv="refresh", content=refresh))
    head += [element("title", title), element("style", Markup(console_style.STYLE))]
    top = element("html", element("head", *head), element("body", *parts), lang="en")
    return f"<!DOCTYPE html>\n{top}\n"


def failed(why: str, query: str) -> str:
    """Returns the page if nothing was checked."""
    told = element("p", mark(CRITICAL, "nothing was checked"), ": ", element("span", why, class_="mono"))
    return framed("UNKNOWN: Booth", refresh_of(query), element("h1", "Booth"), told)


def page(
    conf: Configuration,
    view: View,
    due: Dict[str, Takeover],
    events: Sequence[Event],
    why_no_log: str,
    query: str,
) -> str:
    """Returns the page for a look. `due` has the takeovers, if no lease is renewed."""
    refresh, word = refresh_of(query), STATES[view.status()]
    sections = [
        problems_of(view),
        tickets_of(view, due),
        services_of(view),
        members_of(view),
        events_of(events, why_no_log),
    ]
    title = f"{word}: Booth {cluster_of(conf)}"
    return framed(title, refresh, header(conf, view, refresh), element("main", *sections), footer())


def mark(severity: int, text: str, more: str = "") -> Markup:
    """Returns a text with the sign and the colour of a severity."""
    kind, sign = MARKS[severity]
    return element("span", f"{sign} {text}", class_=f"state {kind}{more}")


def header(conf: Configuration, view: View, refresh: int) -> Markup:
    """Returns the line with the state of the whole."""
    word, counted = judging.counted(view)
    own = own_member(conf).member()
    here = f", at the {own.role} {own.address}" if own else ""
    if refresh:
        loads = [f"loads again each {refresh} s: ", element("a", "stop", href="/?refresh=0")]
    else:
        loads = ["stopped: ", element("a", "continue", href="/")]
    return element(
        "header",
        element("h1", "Booth ", element("small", f"cluster {cluster_of(conf)}{here}")),
        mark(view.status(), word, " pill"),
        element("p", counted),
        element("p", f"{date(view.moment)} UTC, ", *loads),
    )


def section(title: str, note: str, *parts: Child) -> Markup:
    """Returns a part of the page."""
    heading = element("h2", title, " ", element("small", note)) if note else element("h2", title)
    return element("section", heading, *parts)


def table(titles: Sequence[str], rows: Sequence[Row], most: int = MOST_ROWS) -> Markup:
    """Returns a table. A row is its class and its cells; the first cell names the row."""
    head = element("thead", element("tr", *(element("th", title, scope="col") for title in titles)))
    body = []
    for kind, cells in rows[:most]:
        first, *others = cells
        named = [element("th", first, scope="row")]
        for title, cell in zip(titles[1:], others):
            named.append(cell if is_cell(cell) else element("td", cell, data_label=title))
        body.append(element("tr", *named, class_=kind))
    parts = [element("div", element("table", head, element("tbody", *body)), class_="scroll")]
    if len(rows) > most:
        more = f"and {len(rows) - most} more: "
        parts.append(element("p", more, element("a", "/status.json", href="/status.json"), class_="soft"))
    return joined(parts)


def is_cell(cell: Child) -> bool:
    """Returns whether this is a cell of a table already."""
    return isinstance(cell, Markup) and cell.startswith("<td")


def number(text: str, title: str, kind: str = "num") -> Markup:
    """Returns a cell with a number."""
    return element("td", text, class_=kind, data_label=title)


def problems_of(view: View) -> Markup:
    """Returns the problems, the worst first."""
    if not view.problems:
        return section("Problems", "", element("p", mark(NOTICE, "none")))
    rows = []
    for problem in view.problems:
        kind = MARKS[problem.severity][0] if problem.severity > NOTICE else None
        severity = mark(problem.severity, WORDS[problem.severity])
        rows.append((kind, (severity, element("span", problem.kind, class_="mono"), text_of(problem.text))))
    note = "booth-status(8), PROBLEMS, says what each kind means and what to do"
    return section("Problems", note, table(("Severity", "Kind", "What was found"), rows))


def text_of(text: str) -> Markup:
    """Returns a text that may have long words."""
    return element("span", text, class_="where")


# ---- tickets


def tickets_of(view: View, due: Dict[str, Takeover]) -> Markup:
    """Returns the tickets: those with a problem first."""
    services = {name: shown(service) for name, service in view.here.services.items()}
    if view.here.cluster is not None:
        services.update({name: each.shown() for name, each in view.here.cluster.services.items()})
    worst: Dict[Optional[str], int] = {}
    for problem in view.problems:
        worst[problem.ticket] = max(problem.severity, worst.get(problem.ticket, NOTICE))
    titles = ["Ticket", "Mode", "Holder", "Lease", "Until (UTC)", "Seen by", "Takeover (UTC)"]
    titles += ["Service here"] if services else []
    ordered = sorted(view.tickets, key=lambda each: -worst.get(each.ticket.name, NOTICE))
    rows: List[Row] = []
    for each in ordered[: MOST_ROWS + 1]:
        name = each.ticket.name
        severity = worst.get(name, NOTICE)
        kind = MARKS[severity][0] if severity > NOTICE else None
        service = services.get(name, "-") if services else None
        rows += [(kind, cells) for cells in rows_of(each, view, due.get(name), service)]
    held = sum(each.owner() is not None for each in view.tickets)
    note = f"{held} of {len(view.tickets)} are held; the mark in a bar is where the next renewal is due"
    return section("Tickets", note, table(titles, rows))


def rows_of(
    each: TicketView, view: View, takeover: Optional[Takeover], service: Optional[str]
) -> Iterable[Sequence[Child]]:
    """Yields a row of cells for each different view that members have of a ticket."""
    ticket = each.ticket
    name, mode = ticket.name, "manual" if ticket.is_manual else "auto"
    more = [] if service is None else [service]
    told = takeover_of(ticket, takeover, view, each)
    if not each.seen:
        yield name, mode, mark(WARNING, "unknown"), "-", "-", "no member", told, *more
    everyone = sorted(answer.member.address for answer in view.answers if answer.held is not None)
    for seen in each.seen:
        by = "all" if sorted(seen.members) == everyone else listed(seen.members)
        holder: Child = element("span", seen.owner, class_="mono") if seen.owner else mark(WARNING, "nobody")
        if not seen.owner and ticket.is_manual:
            holder = "nobody"
        until = number(date(seen.end) if seen.end else "-", "Until (UTC)")
        yield name, mode, holder, lease(ticket, seen), until, text_of(by), told, *more
        told, more = "", [""] * len(more)


def lease(ticket: Ticket, seen: Seen) -> Child:
    """Returns the time that is left of a lease, as a bar and as text."""
    if seen.left is None:
        return "no end" if seen.owner and ticket.is_manual else "-"
    left = max(0.0, seen.left)
    part, renewal = min(1.0, left / ticket.expire), 1 - ticket.renewal / ticket.expire
    kind = "bar over" if left <= 0 else "bar late" if is_late(ticket, left) else "bar"
    text = f"{left:.0f} s of {ticket.expire} s"
    bar = element(
        "svg",
        element("rect", class_="rest", width=100, height=6),
        element("rect", class_="left", width=f"{part * 100:.1f}", height=6),
        element("line", x1=f"{renewal * 100:.1f}", x2=f"{renewal * 100:.1f}", y1=0, y2=6),
        class_=kind,
        viewBox="0 0 100 6",
        preserveAspectRatio="none",
        aria_hidden="true",
    )
    return joined([bar, f"{text}, renewal late" if kind == "bar late" else text])


def is_late(ticket: Ticket, left: float) -> bool:
    """Returns whether a renewal was due before, and its first tries should have succeeded."""
    return left < ticket.expire - ticket.renewal - 2 * ticket.timeout


def takeover_of(ticket: Ticket, takeover: Optional[Takeover], view: View, each: TicketView) -> Child:
    """Returns when another site may take a ticket over, and which one is the first."""
    if takeover is None:
        return "by an operator" if ticket.is_manual else "-"
    clock = date(takeover.free_at)
    when = clock.partition(" ")[2] if clock[:10] == date(view.moment)[:10] else clock
    first = element("span", takeover.next, class_="mono") if takeover.next else "no other site answers"
    is_due = ticket.name in view.takeovers or each.is_free()
    if is_due:
        return joined([mark(WARNING, f"due after {when}"), ": ", first])
    return element("span", f"if not renewed, after {when}: ", first, class_="soft")


# ---- services, members, events


def services_of(view: View) -> Markup:
    """Returns the services that follow a ticket on this machine."""
    rows: List[Row] = []
    down = {each.ticket for each in view.problems if each.severity == CRITICAL and each.member == view.here.site}
    for name, service in view.here.services.items():
        rows.append(("bad" if name in down else None, (name, *service_cells(service, name in down))))
    if view.here.cluster is not None:
        for name, each in view.here.cluster.services.items():
            state = mark(CRITICAL if name in down else NOTICE, each.shown())
            ends = f"{span(max(0, each.left))}" if each.left != float("inf") else "-"
            rows.append(("bad" if name in down else None, (name, state, "-", "Pacemaker", "-", ends)))
    if not rows:
        text = "No service follows a ticket on this machine."
        return section("Services of this site", "", element("p", text, class_="soft"))
    titles = ("Ticket", "State", "For", "Follower", "Failed starts", "Killed, if not renewed, in")
    return section("Services of this site", "", table(titles, rows))


def service_cells(service: Service, is_down: bool) -> Sequence[Child]:
    """Returns the cells of a service, without its ticket."""
    text = shown(service)
    severity = CRITICAL if is_down else NOTICE if text in CALM else WARNING
    follower = {True: "runs", False: mark(CRITICAL, "none"), None: "unknown"}[service.lives]
    state = service.state
    lasts = span(service.now - state.since) if state else "-"
    left = seconds_to_kill(service)
    starts = str(state.failed_starts) if state else "-"
    cells = (number(lasts, "For"), follower, number(starts, "Failed starts"))
    killed = number("-" if left is None else f"{left:.0f} s", "Killed, if not renewed, in")
    return (mark(severity, text), *cells, killed)


def members_of(view: View) -> Markup:
    """Returns the members: how each answers, its clock, and who hears it."""
    numbers = {answer.member.address: str(place) for place, answer in enumerate(view.answers, 1)}
    ages = showing.heard(view)
    cut = {(each.member, each.other) for each in view.problems if each.kind in ("one-way", "no-way")}
    cut |= {(each.other, each.member) for each in view.problems if each.kind == "no-way"}
    is_wide = len(view.answers) <= MOST_COLUMNS
    titles = ["Member", "Answer", "Clock"]
    titles += [f"Heard by {each}" for each in numbers.values()] if is_wide else ["Heard by"]
    titles += ["Dropped", "Not sent"]
    rows = []
    for answer in view.answers:
        kind = None if answer.state == looking.ANSWERS else "warn"
        rows.append((kind, member_cells(answer, numbers, ages, cut, is_wide)))
    note = "how long ago each member last heard from another one; sites without a ticket are silent for days"
    return section("Members", note, table(titles, rows))


def member_cells(
    answer: looking.Answer, numbers: Dict[str, str], ages: Dict[Pair, str], cut: Set[Pair], is_wide: bool
) -> Sequence[Child]:
    """Returns the cells of a member."""
    address = answer.member.address
    name = joined([f"{numbers[address]} {answer.member.role} ", element("span", address, class_="mono")])
    state, ahead = showing.answered(answer)
    told = number(state, "Answer") if answer.state == looking.ANSWERS else mark(WARNING, state)
    heard = []
    for other, place in numbers.items():
        text = "-" if other == address else ages.get((address, other), "?")
        is_cut = (other, address) in cut
        heard.append((place, f"✖ {text}" if is_cut else text, is_cut))
    if is_wide:
        cells = [number(text, f"Heard by {place}", "num cut" if is_cut else "num") for place, text, is_cut in heard]
    else:
        cells = [text_of(", ".join(f"{place}: {text}" for place, text, _ in heard if text != "-"))]
    return (name, told, number(ahead, "Clock"), *cells, *showing.dropped(answer, numbers))


def events_of(events: Sequence[Event], why_no_log: str) -> Markup:
    """Returns the last events, the newest first."""
    parts: List[Child] = []
    if events:
        rows = []
        for event in events:
            where = number(SOURCES.get(event.source, "this page's looks"), "Source", "num soft")
            rows.append((None, (date(event.moment), where, text_of(event.text))))
        parts.append(table(("Time (UTC)", "Source", "Event"), rows))
    else:
        parts.append(element("p", "None was found.", class_="soft"))
    if why_no_log:
        parts.append(element("p", f"The log of the daemon here is not shown: {why_no_log}", class_="soft"))
    return section("Last events", "from the log of this machine's daemon, and from this page's looks", *parts)


def footer() -> Markup:
    """Returns the end of the page."""
    links = [element("a", path, href=path) for path in ("/metrics", "/status.json", "/healthz")]
    text = "Nothing here changes anything. Times are by the clocks of the machines. "
    return element("footer", element("p", text, joined(links, " ")))
