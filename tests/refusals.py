"""Checks which arguments, files and keys a daemon accepts, and how it refuses others.

It is imported by tests/loopback.py, and not run by itself.
"""

import contextlib
import fcntl
import itertools
import os
import socket
import stat
import subprocess

import frames
from checks import need
from gate import Station
from room import SECONDS_TO_END, Asker, check
from serving import LOCK, TOP

# a file that a daemon serves, line by line; @ stands for this machine's address
FILE = b"""site = "@"
site = "192.168.202.100"
arbitrator = "192.168.203.100"
ticket = "ticket-db8"
"""
SITE = b"site = 10.0.0.1\n"
TICKET = b"ticket = t\n"
LEAST = SITE + TICKET

MOST_BYTES = 16_777_216

USAGE = (
    b"usage: boothd COMMAND [OPTIONS], with the command daemon, status, sim or audit;"
    b" see --help behind it, and boothd(8)"
)

# (these two addresses have the same CRC-32)
CLASHING = "192.168.202.100", "2001:db8::a283:e2c0"

SYNTAX = [
    *(b"x", b"=", b"= 1", b"port", b"port =", b"port 1", b"port: 1", b"a b = 1", b'"port" = 1'),
    *(b'port = "1', b"port = '1", b"port = \"1'", b'port = "1" x', b'port = "1"x', b'port = "1""'),
    *(b"port = #", b"port = # 1", b"port = 1\0", b"port = \x7f", b"port = 1\x0b", b"po\xe9rt = 1"),
    *(b'port = "\xe9"', b"port\0 = 1", b"\xef\xbb\xbfport = 1", b"p.ort = 1", b"port = \r"),
]
UNKNOWN = [b"expires = 3", b"Site = 10.0.0.2", b"tickets = x", b"sit = 10.0.0.2", b"- = 1"]
TICKETS_ALONE = b"""expire acquire-after timeout retries renewal-freq weights before-acquire-handler
    attr-prereq mode""".split()
BAD = {
    b"port": [b"0", b"65536", b"00000000001", b"+1", b"-1", b"1.0", b"0x1", b"1 2", b"1#", b'""'],
    b"transport": [b"TCP", b"Udp", b"sctp", b'""'],
    b"authfile": [b'""', b"/" * 256],
    b"authfile-old": [b'""', b"/" * 256],
    b"authhash": [b"md5", b"SHA1", b"Sha256", b"sha512", b'""'],
    b"maxtimeskew": [b"0", b"10000001", b"600s"],
    b"debug": [b"x" * 256],
    b"site-user": [b"x" * 256],
    b"site": [b"localhost", b"10.0.0", b"10.0.0.1.1", b"010.0.0.2", b"10.0.0.256", b"10.0.0.2:9929",
              b"fe80::1%lo", b"[::1]", b":::", b"1::2::3", b"12345::", b'""', b'"10.0.0.2 "'],
    b"arbitrator": [b"10.0.0.300", b"::10.0.0", b"1:2:3:4:5:6:7:8:9", b"1:2:3:4:5:6:7::8"],
    b"ticket": [b"a b", b"x" * 64, b'""', b"a\tb"],
    b"expire": [b"0", b"10000001", b"600s", b"x", b"600000000000"],
    b"acquire-after": [b"10000001", b"-1"],
    b"timeout": [b"0", b"10000001"],
    b"retries": [b"2", b"101"],
    b"renewal-freq": [b"0", b"10000001"],
    b"weights": [b"1,,2", b",1", b"1,", b"1 2", b"1000000001", b"-1", b",".join([b"1"] * 17)],
    b"before-acquire-handler": [b'""', b'"  "', b"x" * 256],
    b"attr-prereq": [b"auto a eq", b"auto a eq b c", b"both a eq b", b"auto a lt b", b'""',
                     b"auto a eq " + b"x" * 128, b"auto " + b"x" * 64 + b" eq b"],
    b"mode": [b"Manual", b"both", b'""'],
}
REPEATED = [
    *(b"site = 192.168.202.100", b"site = 192.168.203.100", b"arbitrator = '192.168.202.100'"),
    *(b"ticket = ticket-db8", b"port = 1\nport = 1", b"debug = 1\ndebug = 2"),
    *(b"authhash = sha1\nauthhash = sha1", b"authfile-old = /a\nauthfile-old = /b"),
    *(b"expire = 9\nexpire = 9", b"mode = auto\nmode = auto", b"weights = 1\nweights = 1"),
    b"site = ::1\nsite = 0:0:0:0:0:0:0:1",
]

# files without a faulty line, each with the fault of the whole file
WHOLE = [
    (b"", b"no site"),
    (b"\n# nothing\n", b"no site"),
    (b"arbitrator = 10.0.0.1\nticket = t\n", b"no site"),
    (SITE, b"no ticket"),
    (SITE + b"ticket = __default__\nexpire = 9\n", b"no ticket"),
    (LEAST + b"site = 255.255.255.255\n", b"member ids clash"),
    (TICKET + b"".join(b"site = %s\n" % who.encode() for who in CLASHING), b"member ids clash"),
    (LEAST + b"expire = 9\nrenewal-freq = 9\n", b"ticket t: renewal-freq is not below expire"),
    (LEAST + b"renewal-freq = 600\n", b"ticket t: renewal-freq is not below expire"),
    (LEAST + b"timeout = 28\n", b"ticket t: timeout and retries do not fit renewal-freq"),
    (SITE + b"ticket = __default__\ntimeout = 28\nticket = a\ntimeout = 27\nticket = b\n",
     b"ticket b: timeout and retries do not fit renewal-freq"),
    (SITE + b"ticket = a\ntimeout = 28\nticket = b\nrenewal-freq = 600\n",
     b"ticket a: timeout and retries do not fit renewal-freq"),
]

# a file that uses each form of the grammar
RICH = b"""\r
   # a comment of any bytes: \x00\x01\xff "'=\r
transport\t=\t'udp'\r
debug = "it's # no comment"   # but this is one
site-user=""
site-group = a#b #c
maxtimeskew = 0000000700
site = @ # this machine
\x20\tsite\t\x20=\t\x20"192.168.202.100"\t\x20
ticket = '__default__'
  expire = "600"
\ttimeout=9
  retries = 5
  renewal-freq = 60 # above timeout * (retries + 1)
# renewal-freq = 1
arbitrator = "2001:DB8::192.168.203.100" ##
ticket = "ticket-db8"
  weights = 1 , 2,3 ,\t4
  mode = auto
  acquire-after = 0
port = 9929
ticket = t#2
  mode = AUTO
  renewal-freq = 55
  expire = 61
ticket = 'the"last'"""


def here(room, text):
    return text.replace(b"@", room.address.encode())


def is_faulty(room, text, what, shown=None):
    """Checks that the daemon refuses this file with this fault, whichever member's address it gets."""
    path = room.file(here(room, text))
    said = b"%s: %s" % (path.encode(), what)
    room.refuses(room.words(path), said, what=f"the file {shown or text}")


def is_read(room, text, shown=None):
    """Checks that the file has no fault: the daemon refuses only the address."""
    words = room.words(room.file(here(room, text)), "10.9.9.9")
    room.refuses(words, b"10.9.9.9 is not a member", what=f"the file {shown or text}")


@check
def no_command(room):
    """words without a command have a usage line and status 1"""
    good = room.words(room.file(LEAST))
    wrong = [[], [""], ["Daemon", *good[1:]], ["client", *good], ["--Help"], ["-v"], ["version"]]
    # arguments that are not valid UTF-8
    for words in (*wrong, [b"\xff"], [*good[:2], b"/\xff", *good[3:]]):
        room.refuses(words, USAGE)


@check
def untaken_words(room):
    """arguments that a command does not accept are reported only on standard error, with status 1"""
    good = room.words(room.file(LEAST))
    wrong = [
        *(good[:count] for count in range(1, len(good))),
        *([*good, *more] for more in (["more"], good[1:3], good[3:], ["--", "-n"], ["-n"])),
        ["daemon", "--conf", *good[2:]],
        [*good[:3], "--site", good[4]],
        ["status", *good[1:]],
        ["status", "-l"],
    ]
    for words in wrong:
        status, out, err = room.ended(words)
        is_told = (status, out) == (1, b"") and err.startswith(b"error: ")
        need(is_told, f"{words} gave status {status}, {out} and {err}")


def told_in_page(first):
    """Returns the block of man/boothd.8 that begins with this line, as the page shows it."""
    with open(f"{TOP}/man/boothd.8", "rb") as file:
        lines = file.read().splitlines()
    block = itertools.takewhile(lambda line: line != b".Ed", lines[lines.index(first) :])
    return b"\n".join(block).replace(b"\\-", b"-") + b"\n"


@check
def help_and_version(room):
    """help and version are printed only on standard output, with status 0, and man/boothd.8 has that help"""
    commands = told_in_page(b"Usage: boothd COMMAND [OPTIONS]")
    for words in (["help"], ["--help"], ["-h"], ["--help", "daemon"]):
        status, out, err = room.ended(words)
        need((status, out, err) == (0, commands, b""), f"{words} gave status {status}, {out} and {err}")
    for word in ("--version", "-V"):
        status, out, err = room.ended([word])
        need((status, out, err) == (0, b"boothd 0.2.0\n", b""), f"{word} gave status {status}, {out} and {err}")
    lock = b"[default: /var/run/booth.lock]"
    for command, pieces in (
        ("daemon", (b"-c", b"[default: booth]", b"-s", b"-l", lock, b"-d",
                    b"[default: /var/lib/booth]", b"-n", b"boothd(8)")),
        ("status", (b"-l", lock, b"boothd(8)")),
    ):
        status, out, err = room.ended([command, "--help"])
        need((status, err) == (0, b""), f"help of {command} gave status {status} and {err}")
        missing = [piece for piece in pieces if piece not in out]
        need(not missing, f"help of {command} does not name {missing}")
        status, out, err = room.ended([command, "--version"])
        need((status, out, err) == (0, b"boothd 0.2.0\n", b""), f"the version is {out}")
    told = told_in_page(b"Runs the daemon of one member, in the foreground.")
    need(room.ended(["daemon", "-h"])[1] == told, "man/boothd.8 tells other options")


@check
def bad_words(room):
    """an argument of a wrong form is reported: first the address, then number and paths"""
    path = room.file(LEAST)
    no_address = ("", "localhost", "127.0.0", "127.0.0.256", "127.0.0.01", "127.0.0.1 ", "::1%lo")
    no_number = ("", "0", "007", "+1", "1 ", "0x1", str(2**62 + 1), str(2**64 + 1))
    no_conf = ("./" + "x" * 254, "x" * 240)
    for address in (*no_address, "[::1]", "::1::", "1:2:3:4:5:6:7"):
        words = ["daemon", "-c", no_conf[0], "-l", "", "-n", "0", "-s", address]
        room.refuses(words, b"bad site")
    good = ["daemon", "-s", "::1"]
    for number in no_number:
        room.refuses([*good, "-c", no_conf[0], "-l", "", "-n", number], b"bad number")
    for option in ("-l", "-d"):
        for each in ("", "./" + "x" * 254):
            room.refuses([*good, "-c", no_conf[0], option, each], b"bad path")
    for each in no_conf:
        room.refuses([*good, "-c", each], b"bad configuration")
    room.refuses([*good, "-c", path, "-l", "./" + "x" * 253], b"::1 is not a member")


@check
def named_files(room):
    """a configuration without a slash is looked up in /etc/booth"""
    for words, named in (
        (["-c", "no-such"], b"no-such.conf"),
        (["-cno-such.conf"], b"no-such.conf"),
        (["-c=no-such.x"], b"no-such.x.conf"),
    ):
        room.refuses(["daemon", "-s", "::1", *words], b"cannot read /etc/booth/" + named)


@check
def unread_file(room):
    """a file that cannot be read is named, with status 1"""
    for path in (f"{room.folder}/missing", room.folder, "./" + "x" * 253, "/"):
        room.refuses(room.words(path), b"cannot read %s" % path.encode())


@check
def faulty_lines(room):
    """the first faulty line of a file is reported with its number and its fault"""
    default_late = b"__default__ must come first"
    prereqs = b"".join(b"attr-prereq = auto a eq %d\n" % number for number in range(9))
    sites = b"".join(b"site = 10.0.0.%d\n" % number for number in range(17))
    tickets = b"".join(b"ticket = t%d\n" % number for number in range(4_097))
    # lines after the file of four lines, each with its number and the expected fault
    after = [
        *((line, 5, b"syntax") for line in SYNTAX),
        *((line, 5, b"unknown key") for line in UNKNOWN),
        *((line, 5 + line.count(b"\n"), b"repeated") for line in REPEATED),
        (b"ticket = __default__", 5, default_late),
        (prereqs, 13, b"too many"),
        # files with two faults: the earlier line counts, and within a line the first fault
        (b"\n\nx\nexpires = 3\nport = 0", 7, b"syntax"),
        (b"\n\nexpires = 3\nport = 0\nx", 7, b"unknown key"),
        (b"# x\nport = 0\nticket = ticket-db8", 6, b"bad value for port"),
    ]
    for lines, number, what in after:
        is_faulty(room, FILE + lines, b"line %d: %s" % (number, what))
    for key, values in BAD.items():
        for value in values:
            line = b"%s = %s\n" % (key, value)
            is_faulty(room, FILE + line, b"line 5: bad value for " + key)
    alone = [
        *((key + b" = 1\n" + FILE, 1, b"misplaced key") for key in TICKETS_ALONE),
        (sites, 17, b"too many"),
        (SITE + tickets, 4_098, b"too many"),
        (SITE + b"ticket = __default__\n" + prereqs, 11, b"too many"),
        (SITE + b"ticket = __default__\nticket = __default__\n", 3, b"repeated"),
        (SITE + b"ticket = __default__\nexpire = 9\nexpire = 9\n", 4, b"repeated"),
        (FILE + b"ticket = __default__\nticket = __default__\n", 5, default_late),
        (FILE.replace(b"\n", b"\r\n") + b"\r\n\r\nx\r\n", 7, b"syntax"),
        (b"\n" * 99_999 + b"x", 100_000, b"syntax"),
    ]
    for text, number, what in alone:
        is_faulty(room, text, b"line %d: %s" % (number, what), text[:200])


@check
def faulty_files(room):
    """a fault of the whole file is reported when no line has one, with the ticket's name"""
    need(len(set(map(frames.member_id, CLASHING))) == 1, "the test's two ids differ")
    for text, what in WHOLE:
        is_faulty(room, text, what)
        is_faulty(room, text + b"x", b"line %d: syntax" % (text.count(b"\n") + 1))
    is_faulty(room, b"#".ljust(MOST_BYTES + 1, b"#"), b"too large", "of # alone")
    is_faulty(room, b"x".ljust(MOST_BYTES + 1, b"\n"), b"too large", "of line ends")


@check
def most_files(room):
    """files at their limits are read: bytes, members, tickets, names, digits, prerequisites"""
    sites = b"".join(b"site = 10.0.0.%d\n" % number for number in range(16))
    tickets = b"".join(b"ticket = t%d\n" % number for number in range(4_096))
    prereqs = b"".join(b"attr-prereq = auto a eq %s\n" % (b"x" * 127) for _ in range(8))
    many = sites + b"ticket = __default__\n" + prereqs + tickets + b"weights = " + b"1," * 15 + b"1"
    is_read(room, many.ljust(MOST_BYTES, b"\n"), "of 16 members and 4,096 tickets")
    for line in (
        *(b"port = 65535", b"port = 0000000001", b"maxtimeskew = 0010000000"),
        *(b"debug = " + b"x" * 255, b"before-acquire-handler = " + b"x" * 255),
        *(b"ticket = " + b"x" * 63, b"expire = 10000000\nretries = 100\ntimeout = 49504"),
        *(b"timeout = 27", b"weights = 1000000000", b"mode = MANUAL"),
        *(b"attr-prereq = ' auto  a\tne b '", b"site = 116.101.115.116", b"site = ::"),
        *(b"site = ::ffff:10.0.0.1", b"arbitrator = 1:2:3:4:5:6:7::"),
    ):
        is_read(room, LEAST + line)


@check
def rich_file(room):
    """comments, blanks, quotes, bare values, CR, tabs, defaults and all keys are read as meant"""
    others = (("site", "192.168.202.100"), ("arbitrator", "2001:db8::c0a8:cb64"))
    tickets = (b"ticket-db8", b"t#2", b'the"last')
    station = room.station(others=others, tickets=tickets, skew=700)
    with room.serving(station, here(room, RICH)) as daemon, Asker(daemon) as asker:
        asker.asks("CLst")
        asker.asks("Peer")


@check
def not_a_member(room):
    """an address of no member is reported in its usual spelling, before the key file is read"""
    path = room.file(LEAST + b"mode = manual\nauthfile = /missing")
    for word, written in (
        ("10.0.0.2", "10.0.0.2"),
        ("FE80:0::01", "fe80::1"),
        ("::ffff:10.0.0.1", "::ffff:a00:1"),
        ("0:0:0:0:0:0:0:0", "::"),
        ("1:0:0:2:0:0:0:3", "1:0:0:2::3"),
        ("2001:db8:0:1:1:1:1:1", "2001:db8:0:1:1:1:1:1"),
    ):
        room.refuses(room.words(path, word), b"%s is not a member" % written.encode())


@check
def each_kind_is_served(room):
    """tickets of each kind are served, with handlers and prerequisites that are their own or the defaults"""
    handler, mode, prereq = b"before-acquire-handler", b"mode = manual\n", b"attr-prereq = auto a eq b\n"
    line, default = handler + b" = /bin/true\n", b"ticket = __default__\n"
    others = FILE + line + b"ticket = t\n" + mode
    one = room.station()
    two = room.station(tickets=(*one.tickets, b"t"))
    for station, text in (
        (one, FILE + mode),
        (one, FILE + prereq + line),
        (one, FILE + mode + prereq + line),
        (two, others),
        (two, others + line),
        (one, default + line + FILE + mode),
        (one, default + mode + FILE + b"mode = auto\n" + line),
    ):
        with room.serving(station, here(room, text)) as daemon, Asker(daemon) as asker:
            asker.asks("CLst")
    missing = b"%s/missing" % room.folder.encode()
    with open(f"{TOP}/examples/booth.conf", "rb") as file:
        example = room.file(file.read().replace(b"/etc/booth/authkey", missing), "example.conf")
    room.refuses(room.words(example, "192.0.2.10"), b"cannot read " + missing)


def with_key(room, path):
    return room.file(here(room, FILE) + b"authfile = '%s'\n" % path.encode())


@check
def bad_keys(room):
    """a key that cannot be read, or is too short or too long, is reported"""
    for text, what in (
        (b"", b"key too short"),
        (b"1234567", b"key too short"),
        (b"   1234567   \n\n", b"key too short"),
        (b"\x0b" * 20, b"key too short"),
        (b"\xff" * 7, b"key too short"),
        (b"k" * 65, b"key too long"),
        (b"\xff" * 60 + b"     ", b"key too long"),
        (b"k" * 100_000, b"key too long"),
    ):
        path = with_key(room, room.file(text, "key"))
        room.refuses(room.words(path), what, what=f"the key {text[:80]}")
    for path in (f"{room.folder}/missing", room.folder):
        words = room.words(with_key(room, path))
        room.refuses(words, b"cannot read %s" % path.encode())


@check
def already_running(room):
    """one daemon has a lock, and a second daemon is refused after it has read its own files"""
    places = room.own_places("running")
    with room.serving(options=places) as daemon, Asker(daemon) as asker:
        words = daemon.server.words[1:]
        room.refuses(words, b"already running")
        # (and at another address)
        other = room.file(LEAST.replace(b"10.0.0.1", b"127.0.0.1"), "other.conf")
        room.refuses([*room.words(other, "127.0.0.1"), *places], b"already running")
        missing = f"{room.folder}/missing"
        room.refuses([*room.words(missing), *places], b"cannot read %s" % missing.encode())
        room.refuses([*room.words(other, "10.0.0.1"), *places], b"10.0.0.1 is not a member")
        short = with_key(room, room.file(b"x", "key"))
        room.refuses([*room.words(short), *places], b"key too short")
        asker.asks("CLst")
        asker.asks("Peer")
    # (the lock file is left behind, but is no lock)
    with room.serving(options=places) as daemon, Asker(daemon) as asker:
        asker.asks("CLst")


@check
def two_daemons(room):
    """two daemons run on one machine with two locks and two directories, and only then"""
    first, second = room.own_places("first"), room.own_places("second")
    station = Station(next(room.addresses))
    with room.serving(options=first) as daemon, Asker(daemon) as asker:
        with room.serving(station, options=second) as other, Asker(other) as another:
            another.asks("CLst")
            asker.asks("CLst")
        words = room.words(room.file(room.configuration(station), "other.conf"), station.address)
        room.refuses([*words, *second[:2], *first[2:]], b"cannot open")
        room.refuses([*words, *first[:2], *second[2:]], b"already running")
        asker.asks("CLst")


@contextlib.contextmanager
def locked(path):
    """Yields the lock of this file, held by this test."""
    with open(path, "rb") as file:
        fcntl.flock(file, fcntl.LOCK_EX | fcntl.LOCK_NB)
        yield


def is_locked(path):
    """Returns whether another program holds the lock of this file."""
    try:
        with locked(path):
            return False
    except FileNotFoundError:
        return False
    except BlockingIOError:
        return True


def may_open(path):
    """Returns whether this user may open a lock file, or make it if it is missing."""
    return os.access(path, os.R_OK) if os.path.exists(path) else os.access(os.path.dirname(path), os.W_OK)


@contextlib.contextmanager
def left_as_it_was(path):
    """Checks after the `with` block that a file which did not exist before does not exist either."""
    was_there = os.path.exists(path)
    try:
        yield
    finally:
        if not was_there and os.path.exists(path):
            os.remove(path)


@check
def status(room):
    """status prints whether a daemon holds the lock, and its exit status shows it too"""
    running = (0, b"booth daemon is running\n", b"")
    stopped = (7, b"booth daemon is not running\n", b"")
    options = room.own_places("looked")
    look = ["status", *options[:2]]
    need(room.ended(look) == stopped, "a daemon is said to run before it was started")
    with room.serving(options=options) as daemon, Asker(daemon) as asker:
        need(room.ended(look) == running, "a daemon that runs is not said to run")
        # (no daemon of this test uses the default lock, but a daemon of this machine may)
        if may_open(LOCK):
            with left_as_it_was(LOCK):
                usual = running if is_locked(LOCK) else stopped
                need(room.ended(["status"]) == usual, "a daemon is said to hold the lock of no other")
        asker.asks("CLst")
    need(room.ended(look) == stopped, "a daemon is said to run after its end")
    missing = f"{room.folder}/missing/lock"
    room.refuses(["status", "-l", missing], b"cannot lock %s" % missing.encode())


@check
def counted_turns(room):
    """a daemon with a number of turns ends by itself with status 0, and prints nothing"""
    words = room.words(room.file(here(room, FILE)))
    came = room.ended([*words, *room.own_places("counted"), "-n", "2"])
    need(came == (0, b"", b""), f"a daemon of two turns gave {came}")


@check
def port_in_use(room):
    """a port in use, and an address of another machine, cannot be opened"""
    # (no machine has this address, which is reserved for documents)
    path, elsewhere = room.file(here(room, FILE) + b"site = 192.0.2.1\n"), "192.0.2.1"
    places = room.own_places("port")
    with socket.socket(socket.AF_INET, socket.SOCK_DGRAM) as holder:
        holder.bind((room.address, frames.PORT))
        room.refuses([*room.words(path), *places], b"cannot open")
    room.refuses([*room.words(path, elsewhere), *places], b"cannot open")
    with room.serving(options=places) as daemon, Asker(daemon) as asker:
        asker.asks("CLst")


def mode(path):
    return stat.S_IMODE(os.stat(path).st_mode)


@check
def own_lock_files(room):
    """only its user can open the lock files and directory that it makes: who opens a lock file can hold its lock"""
    places = room.own_places("locks")
    paths = places[1], f"{places[3]}/booth.lock"
    with room.serving(options=places):
        for path in paths:
            need(mode(path) == 0o600, f"{path} has the mode {mode(path):o}")
        need(mode(places[3]) == 0o700, f"the directory of records has the mode {mode(places[3]):o}")
    # directories that exist keep their modes
    for path in (*paths, places[3]):
        os.chmod(path, 0o750)
    with room.serving(options=places):
        for path in (*paths, places[3]):
            need(mode(path) == 0o750, f"the mode of {path} was changed to {mode(path):o}")


@check
def one_daemon_for_records(room):
    """if another program has the directory of the records, nothing is opened"""
    places = room.own_places("taken")
    with room.serving(options=places):
        pass
    path = room.file(here(room, FILE) + SITE)
    with locked(f"{places[3]}/booth.lock"):
        room.refuses([*room.words(path), *places], b"cannot open")
    with room.serving(options=places) as daemon, Asker(daemon) as asker:
        asker.asks("CLst")


@check
def special_files(room):
    """a file that is not a regular file is neither read nor locked, and the daemon does not wait for its bytes"""
    pipe = os.path.join(room.folder, "pipe")
    os.mkfifo(pipe)
    words = room.words(room.file(here(room, FILE), "special.conf"))
    for path in (pipe, room.folder + "/.", "/dev/null"):
        room.refuses(room.words(path), b"cannot read %s" % path.encode())
        room.refuses(room.words(with_key(room, path)), b"cannot read %s" % path.encode())
        room.refuses([*words, "-l", path], b"cannot lock %s" % path.encode())
        room.refuses(["status", "-l", path], b"cannot lock %s" % path.encode())


@check
def unread_standard_error(room):
    """if nobody reads standard error, the run still has its status"""
    unread, into = os.pipe()
    os.close(unread)
    streams = {"stdin": subprocess.DEVNULL, "stdout": subprocess.DEVNULL, "stderr": into}
    ran = subprocess.run([room.program, "stop"], timeout=SECONDS_TO_END, **streams)
    os.close(into)
    need(ran.returncode == 1, f"the run had status {ran.returncode}")


@check
def closed_standard_error(room):
    """if standard error is closed, its lines are lost, and are not written into the lock file"""
    path, places = room.file(here(room, FILE) + SITE), room.own_places("closed")
    streams = {"stdin": subprocess.DEVNULL, "stdout": subprocess.DEVNULL, "timeout": SECONDS_TO_END}
    with socket.socket(socket.AF_INET, socket.SOCK_DGRAM) as holder:
        holder.bind((room.address, frames.PORT))
        words = [room.program, *room.words(path), *places]
        ran = subprocess.run(words, preexec_fn=lambda: os.close(2), **streams)
    need(ran.returncode == 1, f"the run had status {ran.returncode}")
    need(os.path.getsize(places[1]) == 0, "something was written into the lock file")
