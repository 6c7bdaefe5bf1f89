#!/usr/bin/env python3
"""Draws who held which ticket when, as an SVG: a row for each ticket and site, time across, overlaps in red.

    python3 timeline.py [FILE] >PICTURE

FILE has the lines that `boothd audit` prints, `ticket NAME, site ADDRESS, from FROM until UNTIL`, in milliseconds
since 1970; without FILE they are read from standard input. Lines of silent starts, `PATH: line N: silent: NAME, term
TERM`, are left out. Any other line is refused by its number, with status 1. Lines of one site are joined if they touch.
There is an overlap if two sites have a line of one ticket at the same clock reading, each by its own clock. If no lease
was released and nothing broke, an overlap is at most as long as the two clocks differ, plus the longest time from the
clock reading of a turn to a write of the same turn. Then the sites never held the ticket at the same time.
"""

import os
import re
import signal
import sys
import time
from html import escape
from typing import List, NamedTuple, Optional

NUMBER = r"(0|[1-9][0-9]{0,19})"
LINE = re.compile(rf"ticket ([\x21-\x7E]{{1,63}}), site ([0-9a-f.:]{{2,45}}), from {NUMBER} until {NUMBER}")
SILENT = re.compile(rf".{{0,255}}: line {NUMBER}: silent: [\x21-\x7E]{{1,63}}, term {NUMBER}")
NUMBERS = 2**64
# a manual ticket's lease has no end; a time from the year 10000 on is not shown as a date
NO_END = 253_402_300_800_000
HOUR = 3_600_000

WIDTH, ROW, BAR, EDGE, BELOW = 960, 26, 14, 24, 34
LETTER = 7.0
# the least room between two marks of the axis
MARK_ROOM = 90
# the possible steps between marks, in milliseconds; the last ones are whole days
STEPS = [1, 2, 5, 10, 20, 50, 100, 200, 500, *(each * 1000 for each in (1, 2, 5, 10, 15, 30))]
STEPS += [each * 60_000 for each in (1, 2, 5, 10, 15, 30)] + [each * HOUR for each in (1, 2, 3, 6, 12)]
STEPS += [each * 24 * HOUR for each in (1, 2, 5, 10, 30, 90, 365, 3650, 36500, 365_000)]
STYLE = """\
.paper { fill: #ffffff; }
text { font: 12px sans-serif; fill: #1c1c1c; }
.mark { font-size: 11px; fill: #555555; }
.grid { stroke: #d8d8d8; }
.rule { stroke: #9a9a9a; }
.held { fill: #2f6db3; }
.both { fill: #d1242f; stroke: #7d0a12; }
.turn { stroke: #ffffff; stroke-opacity: 0.7; }
@media (prefers-color-scheme: dark) {
  .paper { fill: #14171c; }
  text { fill: #ececec; }
  .mark { fill: #a9afb8; }
  .grid { stroke: #30353d; }
  .rule { stroke: #6d747f; }
  .held { fill: #5f9fe3; }
  .both { fill: #ff5c5c; stroke: #ffd0d0; }
  .turn { stroke: #14171c; }
}
"""


class BadLine(Exception):
    """A line that is not a holding. Its number counts from 1."""


class Holding(NamedTuple):
    """A lease of a ticket at a site, in milliseconds since 1970. It is in force before `until`, but not at `until`."""

    ticket: str
    site: str
    start: int
    until: int


class Span(NamedTuple):
    start: int
    until: int


class Row(NamedTuple):
    """One ticket at one site: when the site held it, when another site held it too, and when each lease began."""

    ticket: str
    site: str
    held: List[Span]
    both: List[Span]
    starts: List[int]


# ---- reading


def holding_in(line) -> Optional[Holding]:
    """Returns the holding in a line, or `None`."""
    found = LINE.fullmatch(line)
    if found is None:
        return None
    ticket, site, *numbers = found.groups()
    start, until = map(int, numbers)
    return Holding(ticket, site, start, until) if max(start, until) < NUMBERS else None


def holdings_in(text) -> List[Holding]:
    """Returns the holdings in the lines of a text, in their order."""
    lines = text.split("\n")
    if lines[-1] == "":
        lines.pop()
    holdings = []
    for number, line in enumerate(lines, 1):
        if SILENT.fullmatch(line):
            continue
        holding = holding_in(line)
        if holding is None:
            shown = line if len(line) <= 60 else f"{line[:60]}..."
            raise BadLine(f"line {number}: not a holding: {shown!r}")
        holdings.append(holding)
    return holdings


# ---- who held when


def joined(spans) -> List[Span]:
    """Returns the spans in order of time, with those that touch joined into one."""
    whole: List[Span] = []
    for span in sorted(span for span in spans if span.start < span.until):
        if whole and span.start <= whole[-1].until:
            whole[-1] = Span(whole[-1].start, max(whole[-1].until, span.until))
        else:
            whole.append(span)
    return whole


def common(one, other) -> List[Span]:
    """Returns when both hold. Each argument has joined spans."""
    found, at, place = [], 0, 0
    while at < len(one) and place < len(other):
        start, until = max(one[at].start, other[place].start), min(one[at].until, other[place].until)
        if start < until:
            found.append(Span(start, until))
        if one[at].until < other[place].until:
            at += 1
        else:
            place += 1
    return found


def rows_of(holdings) -> List[Row]:
    """Returns the rows: the tickets in the order of their first lines, and the sites of each ticket likewise."""
    sites: dict = {}
    for holding in holdings:
        sites.setdefault(holding.ticket, {}).setdefault(holding.site, []).append(holding)
    rows = []
    for ticket, by_site in sites.items():
        held = {site: joined(Span(each.start, each.until) for each in all_of) for site, all_of in by_site.items()}
        for site, all_of in by_site.items():
            others = [span for other, spans in held.items() if other != site for span in spans]
            both = common(held[site], joined(others))
            starts = sorted(each.start for each in all_of if each.start < each.until)
            rows.append(Row(ticket, site, held[site], both, starts))
    return rows


# ---- the axis


def moment(millis, shape="%Y-%m-%d %H:%M:%S"):
    """Returns a time as a date in UTC, or as its number from the year 10000 on."""
    if millis >= NO_END:
        return str(millis)
    return time.strftime(shape, time.gmtime(millis // 1000))


def length_of(millis):
    """Returns a duration in its two largest units."""
    units = (("d", 24 * HOUR), ("h", HOUR), ("min", 60_000), ("s", 1000), ("ms", 1))
    parts = []
    for name, size in units:
        count, millis = divmod(millis, size)
        if count or parts:
            parts.append(f"{count} {name}")
        if len(parts) == 2:
            break
    return " ".join(part for part in parts if not part.startswith("0 ")) or "0 ms"


def shown_span(rows) -> Span:
    """Returns the time that is drawn: all leases, but only the beginning of a lease without an end."""
    spans = [span for row in rows for span in row.held]
    moments = [each for span in spans for each in span if each < NO_END]
    if not moments:
        first = min((span.start for span in spans), default=0)
        return Span(first, first + HOUR)
    first, last = min(moments), max(moments)
    if any(span.until >= NO_END for span in spans):
        last += max(HOUR, (last - first) // 10)
    margin = (last - first) // 50 + 1
    return Span(max(0, first - margin), last + margin)


class Axis:
    """The axis of time: it converts a time to a place on the picture."""

    def __init__(self, span, left):
        self.span = span
        self.left = left
        self.right = WIDTH - EDGE

    def at(self, millis):
        inside = min(max(millis, self.span.start), self.span.until) - self.span.start
        return self.left + (self.right - self.left) * inside / (self.span.until - self.span.start)

    def step(self):
        """Returns the shortest time between marks for which there is room."""
        most = max(1, int((self.right - self.left) / MARK_ROOM))
        whole = self.span.until - self.span.start
        return next((step for step in STEPS if whole <= step * most), whole)

    def marks(self):
        """Returns the times of the marks, each with its text, and with the date if it differs from the last mark's."""
        step, day, marks = self.step(), None, []
        shape = "%H:%M" if step >= 60_000 else "%H:%M:%S"
        for millis in range(-(-self.span.start // step) * step, self.span.until + 1, step):
            date = moment(millis, "%Y-%m-%d")
            clock = "" if step >= 24 * HOUR or millis >= NO_END else moment(millis, shape)
            clock += f".{millis % 1000:03}" if clock and step < 1000 else ""
            marks.append((millis, clock or date, date if clock and date != day else ""))
            day = date
        return marks


# ---- the picture


def box(kind, axis, span, top, title):
    """Returns a bar with the text that is shown under a pointer. A bar without an end reaches the picture's edge."""
    left = axis.at(span.start)
    right = WIDTH if span.until >= NO_END else axis.at(span.until)
    size = f'x="{left:.1f}" y="{top}" width="{max(right - left, 1):.1f}" height="{BAR}"'
    return f'<rect class="{kind}" {size}><title>{escape(title)}</title></rect>'


def told_of(row, span, what):
    end = "without an end" if span.until >= NO_END else f"until {moment(span.until)} UTC"
    return f"{row.ticket} {what} {row.site} from {moment(span.start)} {end}"


def drawn_row(row, axis, top):
    """Returns one row: its leases, above them the overlaps with other sites, and the beginning of each renewal."""
    middle = top + BAR / 2
    parts = [f'<text x="{EDGE}" y="{middle + 4:.0f}">{escape(row.ticket)} at {escape(row.site)}</text>']
    parts += [box("held", axis, span, top, told_of(row, span, "at")) for span in row.held]
    parts += [box("both", axis, span, top, told_of(row, span, "at another site and at")) for span in row.both]
    # (only if there is room between the beginnings)
    if 0 < len(row.starts) * 4 < axis.right - axis.left:
        lines = (f"M{axis.at(start):.1f} {top}v{BAR}" for start in row.starts)
        parts.append(f'<path class="turn" d="{"".join(lines)}"/>')
    return parts


def drawn_axis(axis, top, bottom):
    """Returns the axis below the rows, with a vertical line for each mark, and dates where they change."""
    parts = [f'<path class="rule" d="M{axis.left:.1f} {bottom}H{axis.right:.1f}"/>']
    for millis, clock, date in axis.marks():
        across = axis.at(millis)
        parts.append(f'<path class="grid" d="M{across:.1f} {top}V{bottom}"/>')
        for down, text in ((15, clock), (29, date)):
            if text:
                place = f'x="{across:.1f}" y="{bottom + down}" text-anchor="middle"'
                parts.append(f'<text class="mark" {place}>{text}</text>')
    return parts


def heading(rows):
    """Returns the picture's title."""
    if not rows:
        return "No holdings"
    both: dict = {}
    for row in rows:
        both.setdefault(row.ticket, []).extend(row.both)
    spans = [span for each in both.values() for span in joined(each)]
    if not spans:
        return "No ticket has a lease at two sites at the same reading of their clocks"
    endless = any(span.until >= NO_END for span in spans)
    known = sum(span.until - span.start for span in spans if span.until < NO_END)
    whole = "without an end" if endless else f"{length_of(known)} in all"
    count = sum(map(bool, both.values()))
    tickets = "1 ticket has" if count == 1 else f"{count} tickets have"
    return f"In red: {tickets} a lease at two sites at the same reading of their clocks, {whole}"


def picture(holdings) -> str:
    """Returns the SVG of these holdings."""
    rows = rows_of(holdings)
    longest = max((len(row.ticket) + len(row.site) + 4 for row in rows), default=0)
    axis = Axis(shown_span(rows), min(EDGE + longest * LETTER, WIDTH * 0.6))
    top = EDGE + ROW
    bottom = top + ROW * len(rows)
    said = escape(heading(rows))
    parts = ['<?xml version="1.0" encoding="UTF-8"?>']
    size = f'width="{WIDTH}" height="{bottom + BELOW + EDGE // 2}" viewBox="0 0 {WIDTH} {bottom + BELOW + EDGE // 2}"'
    parts.append(f'<svg xmlns="http://www.w3.org/2000/svg" {size} role="img">')
    parts += [f"<title>{said}</title>", f"<style>\n{STYLE}</style>"]
    parts += ['<rect class="paper" width="100%" height="100%"/>', f'<text x="{EDGE}" y="{EDGE}">{said}</text>']
    parts += drawn_axis(axis, top - ROW / 4, bottom) if rows else []
    for number, row in enumerate(rows):
        parts += drawn_row(row, axis, top + ROW * number)
    return "\n".join([*parts, "</svg>"]) + "\n"


def main(words):
    if len(words) > 1 or words[:1] in (["-h"], ["--help"]):
        print(__doc__.strip(), file=sys.stderr if len(words) > 1 else sys.stdout)
        return 1 if len(words) > 1 else 0
    signal.signal(signal.SIGPIPE, signal.SIG_DFL)
    name = words[0] if words else "standard input"
    try:
        if words:
            with open(words[0], "rb") as file:
                text = file.read()
        else:
            text = sys.stdin.buffer.read()
        sys.stdout.write(picture(holdings_in(text.decode("latin-1"))))
        sys.stdout.flush()
    except BadLine as why:
        print(f"timeline: {name}: {why}", file=sys.stderr)
        return 1
    except OSError as why:
        print(f"timeline: {name}: {os.strerror(why.errno) if why.errno else why}", file=sys.stderr)
        return 1
    return 0


if __name__ == "__main__":
    sys.exit(main(sys.argv[1:]))
