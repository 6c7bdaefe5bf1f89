"""How booth-status reads a configuration: the lines, defaults and faults of booth.conf(5).

It is imported by tests/status.py, and not run by itself.
"""

import os

import configuration
import frames
import refusals
from checks import need
from status_runs import require_same, story

MEMBERS = "site = 192.0.2.10\narbitrator = 192.0.2.11\n"
# the values of a ticket without keys: expire, acquire-after, timeout, retries, renewal-freq, no handler, not steady
TABLE = (600, 0, 5, 10, 300, None, (), False)
FIRST, OLD = b"the-first-key", b"the-key-before"


def read(folder, text):
    """Returns the configuration in this text, or the refusal without the file's name."""
    path = os.path.join(folder, "read.conf")
    with open(path, "wb") as file:
        file.write(text if isinstance(text, bytes) else text.encode("latin-1"))
    try:
        return configuration.read(path)
    except configuration.Unreadable as why:
        return str(why).replace(f"{path}: ", "")


def tickets_of(folder, text):
    found = read(folder, MEMBERS + text)
    need(not isinstance(found, str), f"{text!r}: {found}")
    return [(ticket.name, ticket.is_manual, *ticket[2:]) for ticket in found.tickets]


@story
def lines_and_quotes_are_read(folder):
    """a line is read with its blanks, quotes and comment, as booth.conf(5) has them"""
    lines = ["ticket=db8", " ticket\t= db8 # a comment", 'ticket = "db8"# one', "ticket = 'db8'\r", "ticket = db8 #"]
    for line in [*lines, "# x\n\nticket=db8  "]:
        require_same(tickets_of(folder, line), [("db8", False, *TABLE)], f"{line!r}: ")
    require_same(tickets_of(folder, "ticket = a#b\nticket = '#c'\nticket = \"it's\"")[0][0], "a#b")
    text = 'site="192.0.2.10"\nsite=2001:DB8:0::1\nport=1024\nauthfile = "/a b"\nmaxtimeskew = 20\nticket=a\n'
    found = read(folder, text)
    members = [("site", "192.0.2.10"), ("site", "2001:db8::1")]
    require_same((found.members, found.port, found.authfile, found.skew), (members, 1024, "/a b", 20))
    found = read(folder, MEMBERS + "ticket = a\nport = 9000\ntransport = UDP\ndebug = 1\nsite-user = x\n")
    require_same((found.port, found.authfile, found.skew), (9000, None, 600))


@story
def defaults_are_inherited(folder):
    """a ticket has its own values, otherwise those of __default__, otherwise those of booth.conf(5)"""
    defaults = "ticket = __default__\nexpire = 120\nretries = 5\nmode = manual\nsteady = yes\n"
    text = f"{defaults}ticket = one\nticket = two\nexpire = 60\nmode = auto\nsteady = no\nrenewal-freq = 45\n"
    text += "acquire-after = 9\ntimeout = 2\nbefore-acquire-handler = /bin/true x\nweights = 1,2\nattr-prereq = 'auto a eq b'\n"
    of_two = ("two", False, 60, 9, 2, 5, 45, "/bin/true x", (1, 2), False)
    require_same(tickets_of(folder, text), [("one", True, 120, 0, 5, 5, 60, None, (), True), of_two])
    require_same(tickets_of(folder, "ticket = one\nexpire = 7"), [("one", False, 7, 0, 5, 10, 3.5, None, (), False)])
    # expire and acquire-after, and a guard of 2 ms and 2/999 of expire, rounded down: 1203 ms of 600 s
    promise = read(folder, MEMBERS + "ticket = one\nacquire-after = 15").tickets[0].promise()
    need(abs(promise - 616.203) < 1e-9, f"a promise of {promise} s")


# (this reader checks the values of these keys only; boothd alone judges the others)
@story
def keys_are_a_ring(folder):
    """the ring has the keys of the configuration's files, with its hash; without the first file there is no ring"""
    paths = [os.path.join(folder, name) for name in ("first.key", "old.key")]
    for path, key in zip(paths, (FIRST, OLD)):
        with open(path, "wb") as file:
            file.write(key)
    first, old = f"authfile = {paths[0]}\n", f"authfile-old = {paths[1]}\n"
    for lines, ring in (
        (first, frames.Ring(FIRST)),
        (first + old, frames.Ring(FIRST, OLD)),
        (old + first + "authhash = sha256\n", frames.Ring(FIRST, OLD, "sha256")),
        (old + "authhash = sha256\n", None),
        ("", None),
    ):
        require_same(read(folder, f"{MEMBERS}ticket = a\n{lines}").key(), ring, f"{lines!r}: ")
    ring = frames.Ring(FIRST, OLD)
    for key, is_taken in ((FIRST, True), (OLD, True), (b"of-another-cluster", False)):
        for by in ("sha1", "sha256"):
            request = frames.request_now("CLst", 1, key=frames.Ring(key, hash=by))
            require_same(frames.is_sealed(ring, request), is_taken, f"{key} and {by}: ")


JUDGED = [b"port", b"maxtimeskew", b"authhash", b"site", b"arbitrator", b"mode"]
JUDGED += [b"expire", b"acquire-after", b"timeout", b"retries", b"renewal-freq"]


@story
def faults_are_told_with_their_lines(folder):
    """if boothd refuses a line, key or value that this reader looks at, this reader refuses it with the same words"""
    file = refusals.FILE.replace(b"@", b"127.0.0.9")
    cases = [(file + line, "line 5: syntax") for line in refusals.SYNTAX]
    cases += [(file + line, "line 5: unknown key") for line in refusals.UNKNOWN]
    cases += [(key + b" = 1\n" + file, "line 1: misplaced key") for key in refusals.TICKETS_ALONE]
    for key in JUDGED:
        text = [file + b"%s = %s\n" % (key, value) for value in refusals.BAD[key]]
        cases += [(each, f"line 5: bad value for {key.decode()}") for each in text]
    cases += [(text, what.decode()) for text, what in refusals.WHOLE if what in (b"no site", b"no ticket")]
    for text, fault in cases:
        require_same(read(folder, text), fault, f"{text!r}: ")
    require_same(read(folder, b"#" * 16_777_217), "too large")
    found = read(folder, refusals.RICH.replace(b"@", b"127.0.0.9"))
    members = [("site", "127.0.0.9"), ("site", "192.168.202.100"), ("arbitrator", "2001:db8::c0a8:cb64")]
    require_same((found.members, found.port, found.skew, found.authfile), (members, 9929, 700, None))
    times = [(ticket.name, ticket.expire, ticket.timeout, ticket.retries, ticket.renewal) for ticket in found.tickets]
    require_same(times, [("ticket-db8", 600, 9, 5, 60), ("t#2", 61, 9, 5, 55), ('the"last', 600, 9, 5, 60)])
