#!/usr/bin/env python3
"""Checks the drawings of tools/timeline.py: with random leases, with each kind of line, and without a line.

Run it as `python3 tests/timeline.py`. It takes some seconds, prints a line for each check, and has the status 1 if a
check failed. The test itself computes, moment by moment, when two sites hold a ticket; the tool has another method.
"""

import os
import random
import re
import subprocess
import sys
import xml.etree.ElementTree as trees

TOP = os.path.dirname(os.path.dirname(os.path.abspath(__file__)))
sys.path.insert(0, f"{TOP}/tools")

import timeline
from checks import Wrong, need

PROGRAM = f"{TOP}/tools/timeline.py"
SEED, DRAWN, MOMENTS = 9929, 300, 40
# (a cluster of a month: this many renewals of this many tickets)
TICKETS, RENEWALS, SECONDS = 64, 500, 20
SVG = "{http://www.w3.org/2000/svg}"


def run(text, *words):
    """Returns the status, the picture and the standard error of a run over these lines."""
    done = subprocess.run([sys.executable, PROGRAM, *words], input=text.encode(), capture_output=True, timeout=SECONDS)
    return done.returncode, done.stdout.decode(), done.stderr.decode()


def line(ticket, site, start, until):
    return f"ticket {ticket}, site {site}, from {start} until {until}\n"


def shapes(text):
    """Returns the bars of a picture, as (kind, left edge, width, title), and its texts."""
    root = trees.fromstring(text)
    bars = [each for each in root.iter(f"{SVG}rect") if each.get("class") in ("held", "both")]
    told = [(each.get("class"), float(each.get("x")), float(each.get("width")), each[0].text) for each in bars]
    return told, [each.text for each in root.iter(f"{SVG}text")]


def holders(holdings, ticket, moment):
    return {each.site for each in holdings if each.ticket == ticket and each.start <= moment < each.until}


def covers(spans, moment):
    return any(span.start <= moment < span.until for span in spans)


def red_is_where_two_sites_hold():
    """at each moment, a row has a bar if its site holds, and the bar is red if another site holds too"""
    chance, red = random.Random(SEED), 0
    for _ in range(DRAWN):
        holdings = []
        for _ in range(chance.randrange(8)):
            start, until = chance.randrange(MOMENTS), chance.randrange(MOMENTS)
            holdings.append(timeline.Holding(chance.choice("tu"), f"127.0.0.{chance.randrange(3)}", start, until))
        for row in timeline.rows_of(holdings):
            for moment in range(MOMENTS):
                sites = holders(holdings, row.ticket, moment)
                need(covers(row.held, moment) == (row.site in sites), f"{row} at {moment}: {holdings}")
                both = row.site in sites and len(sites) > 1
                need(covers(row.both, moment) == both, f"{row} at {moment}: {holdings}")
                red += both
    return f"{DRAWN} pictures, {red} moments in red"


def the_incident_is_the_picture_of_the_page():
    """the picture in docs/AUDIT.md is drawn from the lines of that document"""
    with open(f"{TOP}/docs/AUDIT.md", encoding="utf-8") as file:
        incident = file.read().split("## An incident")[1]
    text = "".join(f"{found}\n" for found in re.findall(r"^ +(ticket .* until [0-9]+)$", incident, re.M))
    status, drawn, said = run(text)
    with open(f"{TOP}/docs/incident.svg", encoding="utf-8") as file:
        need((status, drawn, said) == (0, file.read(), ""), f"status {status}, {said}: draw docs/incident.svg anew")
    bars, texts = shapes(drawn)
    need([kind for kind, *_ in bars] == ["held", "both", "held", "both"], f"the bars are {bars}")
    need("16:35" in texts and "2026-11-25" in texts, f"the axis says {texts}")
    return texts[0]


def what_is_no_line_is_refused():
    """a line that is not a holding is refused with its number, and nothing is drawn"""
    good = line("db8", "10.0.0.1", 1000, 2000)
    bad = (
        "ticket db8, site 10.0.0.1, from 1000 until",
        "ticket db8, site 10.0.0.1, from 01 until 2000",
        "ticket db8, site 10.0.0.1, from 1000 until 18446744073709551616",
        "ticket db 8, site 10.0.0.1, from 1000 until 2000",
        "ticket db8, site 10.0.0.1, from -1 until 2000",
        "ticket db8, site 10.0.0.1, from 1000 until 2000 ",
        "",
        "boothd: a.journal: line 13: differs",
        "x" * 10_000,
    )
    for each in bad:
        status, drawn, said = run(good + each + "\n" + good)
        begins = f"timeline: standard input: line 2: not a holding: {each[:60]!r}"[:-1]
        need((status, drawn) == (1, "") and said.startswith(begins), f"{each[:80]!r}: {status}, {said}")
        need(said.count("\n") == 1 and len(said) < 200, f"it says {said[:300]}")
    status, drawn, said = run("", "/no/such/file")
    due = (1, "", "timeline: /no/such/file: No such file or directory\n")
    need((status, drawn, said) == due, f"{status}, {said}")
    status, drawn, said = run("", "one", "two")
    need(status == 1 and not drawn and "timeline.py [FILE]" in said, f"two files: {status}, {said}")
    return f"{len(bad)} lines"


def nothing_is_a_picture_too():
    """an empty input gives a picture without a row, and so does a lease that was over when it was found"""
    for text, row in (("", None), (line("db8", "::1", 2000, 1000), "db8 at ::1")):
        status, drawn, said = run(text)
        bars, texts = shapes(drawn)
        need((status, said, bars) == (0, "", []), f"status {status}, {said}, {bars}")
        need(row is None or row in texts, f"the texts are {texts}")
    return None


def silent_starts_are_left_out():
    """lines of silent starts change no picture, and a line that is nearly one is refused"""
    lease = line("db8", "::1", 1000, 2000)
    for place in ("c.journal: line 32: silent: db8, term 0", "/a: b: line 6: silent: a,b, term 4000000000"):
        need(run(f"{lease}{place}\n") == run(lease), f"{place!r} changes the picture")
    for other in ("a: line 0x: silent: db8, term 0", "a: line 32: record", "line 2: silent: db8, term 0"):
        status, drawn, said = run(f"{lease}{other}\n")
        need((status, drawn) == (1, "") and "line 2: " in said, f"{other!r}: status {status}, {said}")
    return None


def all_that_a_line_may_have_is_drawn():
    """names of any letters, leases without an end, the greatest numbers, and times of one millisecond are drawn"""
    name = "<&\"'],site>"
    endless = line("by-hand", "10.0.0.1", 1_795_622_400_000, 2**62)
    endless += line("by-hand", "10.0.0.2", 1_795_622_460_000, 2**62)
    cases = {
        "a name": line(name, "10.0.0.1", 1, 2),
        "no end": endless,
        "the greatest": line("t", "10.0.0.1", 2**64 - 2, 2**64 - 1),
        "from the first to the greatest": line("t", "10.0.0.1", 0, 2**64 - 1) + line("t", "10.0.0.2", 5, 9),
        "from the first": line("t", "10.0.0.1", 0, 253_402_300_799_999),
        "a millisecond": line("t", "10.0.0.1", 1_795_622_400_000, 1_795_622_400_001),
    }
    for kind, text in cases.items():
        status, drawn, said = run(text)
        bars, texts = shapes(drawn)
        need((status, said) == (0, "") and bars, f"{kind}: {status}, {said}")
        within = all(0 <= left and 1 <= width and left + width <= timeline.WIDTH + 1 for _, left, width, _ in bars)
        need(within and all(each for each in texts), f"{kind}: {bars}, {texts}")
    _, drawn, _ = run(cases["a name"])
    need(f"{name} at 10.0.0.1" in shapes(drawn)[1], "the name is another")
    _, drawn, _ = run(endless)
    bars, texts = shapes(drawn)
    red = [told for kind, _, _, told in bars if kind == "both"]
    need(len(red) == 2 and all(told.endswith("without an end") for told in red), f"in red: {red}")
    need(texts[0].endswith("without an end"), f"it says {texts[0]}")
    return None


def axes_are_readable():
    """an axis has at least two marks, which do not overlap, whatever time it shows"""
    first = 1_795_622_400_123
    for length in [1, 7, 100, 5_000, 59_999, *(3_600_000 * 3**power for power in range(14))]:
        axis = timeline.Axis(timeline.Span(first, first + length), 200)
        places = [axis.at(millis) for millis, _, _ in axis.marks()]
        apart = [after - before for before, after in zip(places, places[1:])]
        need(1 <= len(places) <= 9 and all(each >= timeline.MARK_ROOM - 1 for each in apart), f"{length}: {places}")
        need(len(places) > 1 or length < 2, f"{length} ms have the marks {places}")
    return None


def a_month_is_drawn_soon():
    """renewals of a month are drawn within seconds, as one bar for each site"""
    text = []
    for ticket in range(TICKETS):
        for number in range(RENEWALS):
            start = 1_795_622_400_000 + number * 300_000
            text.append(line(f"t{ticket}", f"10.0.0.{1 + (number > RENEWALS // 2)}", start, start + 600_000))
    status, drawn, said = run("".join(text))
    bars, _ = shapes(drawn)
    need((status, said, len(bars)) == (0, "", 4 * TICKETS), f"status {status}, {said}, {len(bars)} bars")
    return f"{len(text)} lines"


CHECKS = (
    red_is_where_two_sites_hold,
    the_incident_is_the_picture_of_the_page,
    what_is_no_line_is_refused,
    nothing_is_a_picture_too,
    silent_starts_are_left_out,
    all_that_a_line_may_have_is_drawn,
    axes_are_readable,
    a_month_is_drawn_soon,
)


def main():
    wrong = 0
    for check in CHECKS:
        try:
            told = check()
            print(f"ok      {check.__doc__}" + (f": {told}" if told else ""), flush=True)
        except (Wrong, OSError, ValueError, LookupError, trees.ParseError, subprocess.TimeoutExpired) as why:
            wrong += 1
            print(f"FAILED  {check.__doc__}: {type(why).__name__}: {why}", flush=True)
    print(f"timeline: {len(CHECKS) - wrong} passed, {wrong} failed")
    return 1 if wrong else 0


if __name__ == "__main__":
    sys.exit(main())
