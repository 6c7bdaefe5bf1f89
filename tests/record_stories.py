"""The output of booth-record about record files of both versions, whole and torn.

The files are written here byte by byte from docs/RECORDS.md. The module is imported by tests/status.py, and not run by
itself.
"""

import fcntl
import os
import shutil
import stat
import struct
import time

import frames
import record_silence
from checks import need
from records import slot
from status_runs import record, refuses, require_same, story

# 2026-11-27 12:00:00 UTC, which docs/RECORDS.md has as 1a21ce06e00, and the end of the promise there
NOON, LATER = 0x1A21CE06E00, 0x1A21CE072B3
ONE, TWO = "192.168.201.100", "192.168.202.100"
NAME = b"ticket-db8".hex() + ".rec"
# the example of docs/RECORDS.md, from the slot at 80 on
EXAMPLE = """\
0100 0000 0000 0000 0000 0000 0000 0005 0000 0002 0000 0002 0000 0007 0000 0002
0000 01a2 1ce0 6e00 d085 f484 d085 f484 0000 0002 0000 0000 0000 01a2 1ce0 72b3
0000 01a2 1cb2 abf3 0000 0000 0000 0000 0000 0000 0000 0000 0000 0000 0000 0000
0000 0000 0000 0000 0000 0000 0000 0000 0000 0000 0000 0000 0000 0000 0000 0000
0000 0000 0000 0000 0000 0000 0000 0004 0000 0002 0000 0002 0000 0006 0000 0000
0000 0000 0000 0000 d085 f484 d085 f484 0000 0002 0000 0000 0000 01a2 1ce0 72b3
0000 01a2 1cb2 abf3 0000 0000 0000 0000"""

HEAD = ["", "SLOT", "VERSION", "COMMIT", "NUMBER", "RECORD"]


def first(number, term, lease=None, *, commit=1, version=1, flag=None, zeros=0):
    """Returns the 64 bytes of a slot of version 1; what must be otherwise is given."""
    flag = (1 if lease else 0) if flag is None else flag
    body = struct.pack(">IIIIQQ", version, term, flag, *(lease or (0, 0)), zeros)
    return (bytes([commit]) + bytes(7) + number.to_bytes(8, "big") + body).ljust(64, b"\0")


def second(number, term, lease=None, bound=None, promise=None, abstain=0, **other):
    """Returns the 128 bytes of a slot of version 2; what must be otherwise is given."""
    has = (lease is not None) + 2 * (bound is not None) + 4 * (promise is not None)
    to, promise_term, promise_until = promise or (0, 0, 0)
    fields = (other.get("version", 2), term, other.get("flags", has), *(lease or (0, 0)), bound or 0)
    last = (to, promise_term, other.get("zero", 0), promise_until, abstain, other.get("zeros", 0))
    body = struct.pack(">IIIIQI", *fields) + struct.pack(">IIIQQQ", *last)
    return (bytes([other.get("commit", 1)]) + bytes(7) + number.to_bytes(8, "big") + body).ljust(128, b"\0")


def shown(folder, content, *words, name=NAME):
    """Returns the status, the fields by their names, and the rows of the table of slots."""
    path = os.path.join(folder, name)
    with open(path, "wb") as file:
        file.write(content)
    ran = record(path, *words)
    need(not ran.said, ran.said)
    with open(path, "rb") as file:
        need(file.read() == content, "the file was written")
    top, *lines = ran.printed.splitlines()
    need(top == path, top)
    start = next(place for place, line in enumerate(lines) if line.split()[:1] == ["SLOT"])
    fields = []
    for line in lines[:start]:
        label, text = line[:8].strip(), line[8:].strip()
        if label:
            fields.append([label, text])
        else:
            fields[-1].append(text)
    places = [lines[start].index(word) if word else 0 for word in HEAD] + [None]
    rows = [[line[one:two].strip() for one, two in zip(places, places[1:])] for line in lines[start:]]
    need(rows[0] == HEAD, f"{rows[0]}")
    return ran.status, {label: texts for label, *texts in fields}, rows[1:]


def ago(millis):
    """Returns the texts that may say how long ago this time was: now, a second later, and two seconds later. Each is in
    the largest unit of which two or more have passed.
    """
    seconds = int(time.time() - millis / 1000)
    unit, size = next(each for each in (("d", 86_400), ("h", 3600), ("min", 60), ("s", 1)) if seconds >= 2 * each[1])
    return [f"{(seconds + more) // size} {unit}" for more in (0, 1, 2)]


@story
def the_example_of_the_page(folder):
    """the example of RECORDS.md is printed as the page explains it"""
    status, fields, rows = shown(folder, bytes(128) + bytes.fromhex(EXAMPLE))
    for label, end in (("lease", NOON), ("promise", LATER)):
        over = [f"by this machine's clock it ended {span} ago" for span in ago(end)]
        need(fields[label][1] in over, f"{fields[label]}")
    promise = "until 2026-11-27 12:00:01.203 UTC"
    wanted = {
        "ticket": ["ticket-db8"],
        "in force": ["slot 80, number 5, version 2"],
        "term": ["2"],
        "lease": ["of term 2, until 2026-11-27 12:00:00.000 UTC", fields["lease"][1]],
        "bound": ["to member d085f484"],
        "promise": [f"to member d085f484, of term 2, {promise}", fields["promise"][1]],
        "abstains": ["until 2026-11-27 11:10:01.203 UTC"],
    }
    require_same((status, fields), (0, wanted))
    slots = [["", place, "1", "no", "0", "not valid"] for place in ("00", "40")]
    lease = "lease until 2026-11-27 12:00:00.000 UTC"
    slots.append(["*", "80", "2", "yes", "5", f"term 2, {lease}, promise {promise}"])
    require_same(rows, [*slots, ["", "100", "2", "no", "4", "not valid"]])


@story
def files_of_the_first_version(folder):
    """files of version 1: empty, of one slot, of equal numbers, closed, of a lease that runs, and of a manual ticket"""
    soon = (int(time.time()) + 7200) * 1000 + 1
    nothing = "nothing: no slot is valid, so the file has no record"
    endless, greatest = "no end, as for a manual ticket", 2**64 - 1
    cases = [
        (b"", nothing, {}),
        (first(9, 4, commit=0), nothing, {}),
        (first(9, 4, commit=2) + first(3, 3), "slot 40, number 3", {"term": "3", "lease": "none"}),
        (slot(1, 1, 7), "slot 00, number 1", {"term": "7", "lease": "none"}),
        (first(6, 1) + first(6, 2), "slot 00, number 6", {"term": "1", "lease": "none"}),
        (first(6, 1) + first(greatest, 2)[:48], f"slot 40, number {greatest}", {"term": "2", "lease": "none"}),
        (first(1, 5, (4, soon)), "slot 00, number 1", {"lease": f"of term 4, until {moment(soon)}"}),
        (first(1, 5, (5, 2**62)), "slot 00, number 1", {"lease": f"of term 5, until {endless}"}),
        (first(1, 5, (5, greatest)), "slot 00, number 1", {"lease": f"of term 5, until @{greatest // 1000}.615 UTC"}),
    ]
    for content, force, more in cases:
        status, fields, rows = shown(folder, content)
        found = {label: fields.get(label, [None])[0] for label in more}
        force = force if force == nothing else f"{force}, version 1"
        require_same((status, fields["in force"], found), (0, [force], more), f"{content[:64].hex()}: ")
        require_same([row[1] for row in rows], ["00", "40"])
    status, fields, _ = shown(folder, first(1, 5, (4, soon)))
    spans = [f"by this machine's clock it runs for {span} more" for span in ("119 min", "2 h")]
    need(fields["lease"][1] in spans, f"{fields}")
    unknown = "unknown: the file's name is not HEX.rec, with the ticket's name in hexadecimal"
    for name in ("record", "74.txt", "zz.rec", ".rec", "20.rec"):
        require_same(shown(folder, slot(1, 1, 7), name=name)[1]["ticket"], [unknown], f"{name}: ")


def moment(millis):
    return time.strftime("%Y-%m-%d %H:%M:%S", time.gmtime(millis // 1000)) + f".{millis % 1000:03} UTC"


@story
def files_of_the_second_version(folder):
    """files of version 2: a record with and without its parts, beside old slots, and members by their addresses"""
    conf = os.path.join(folder, "a.conf")
    with open(conf, "w", encoding="ascii") as file:
        file.write(f"site = {ONE}\nsite = {TWO}\nticket = ticket-db8\n")
    one, two = (frames.member_id(each) for each in (ONE, TWO))
    whole = second(6, 1, (1, 1_600_000), one, (two, 1, 1_601_203), 601_203)
    old = (first(5, 2, (2, NOON)) + first(4, 2)).ljust(128, b"\0")
    status, fields, rows = shown(folder, old + whole)
    over = [f"by this machine's clock it ended {span} ago" for span in ago(1_600_000)]
    need(fields.pop("lease") == ["of term 1, until 1970-01-01 00:26:40.000 UTC", over[0]], f"{fields}")
    until = "until 1970-01-01 00:26:41.203 UTC"
    require_same(fields.pop("promise"), [f"to member {two:08x}, of term 1, {until}", over[0]])
    wanted = {"ticket": ["ticket-db8"], "in force": ["slot 80, number 6, version 2"], "term": ["1"]}
    wanted.update(bound=[f"to member {one:08x}"], abstains=["until 1970-01-01 00:10:01.203 UTC"])
    need((status, fields) == (0, wanted), f"{status}, {fields}")
    told = "term 1, lease until 1970-01-01 00:26:40.000 UTC, promise until 1970-01-01 00:26:41.203 UTC"
    require_same([row[:2] for row in rows], [["", "00"], ["", "40"], ["*", "80"]])
    require_same(rows[2][2:], ["2", "yes", "6", told])
    _, fields, _ = shown(folder, old + whole, "-c", conf)
    need(fields["bound"] == [f"to {ONE}"] and fields["promise"][0].startswith(f"to {TWO}, of term 1,"), f"{fields}")
    bare = bytes(128) + second(1, 3, commit=0) + second(2, 9)
    status, fields, rows = shown(folder, bare)
    wanted = {"ticket": ["ticket-db8"], "in force": ["slot 100, number 2, version 2"], "term": ["9"], "lease": ["none"]}
    wanted.update(bound=["to nobody"], promise=["none"], abstains=["no"])
    need((status, fields) == (0, wanted), f"{status}, {fields}")
    require_same([row[1] for row in rows], ["00", "40", "80", "100"])
    require_same(rows[2][5], "not valid")
    # (an older program wrote this file again: of the four numbers the greatest is in force, and of equal ones the
    # first)
    beside = bytes(64) + second(7, 2)
    newest = bytes(128) + second(7, 1) + second(8, 1)
    for content, force in ((first(8, 1) + beside, "00"), (first(7, 1) + beside, "00"), (newest, "100")):
        _, fields, _ = shown(folder, content)
        need(fields["in force"][0].startswith(f"slot {force}, "), f"{fields}")


@story
def torn_files(folder):
    """a file with a valid slot that has no record in it is refused, whichever slot it is, and the cause is named"""
    fine, pad = first(9, 1), bytes(64)
    not_zero = "a field that must be 0 is not"
    cases = [
        (slot(2, 1, 7) + b"\1" + bytes(47), "40", "its version is 0, and not 1"),
        (first(1, 1, version=2) + fine, "00", "its version is 2, and not 1"),
        (fine + first(1, 1, flag=2), "40", "its flag is 2, neither 0 nor 1"),
        (fine + first(1, 1, (1, 5), flag=0), "40", not_zero),
        (fine + first(1, 1, (1, 0), flag=0), "40", not_zero),
        (fine + first(1, 1, zeros=1), "40", not_zero),
        (fine + pad + second(1, 1, version=1), "80", "its version is 1, and not 2"),
        (fine + pad + second(1, 1, flags=8), "80", "its flags are 8, more than 7"),
        (fine + pad + second(1, 1, (1, 5), flags=6), "80", not_zero),
        (fine + pad + second(1, 1, None, 4, flags=0), "80", not_zero),
        (fine + pad + second(1, 1, None, None, (0, 0, 1), flags=0), "80", not_zero),
        (fine + pad + bytes(128) + second(1, 1, zero=1), "100", not_zero),
        (fine + pad + second(1, 1) + second(3, 1, zeros=1), "100", not_zero),
        (bytes(128) + b"\1", "80", "its version is 0, and not 2"),
    ]
    for content, place, why in cases:
        status, fields, rows = shown(folder, content)
        nothing = f"nothing: slot {place} is torn, so the daemon refuses the file"
        require_same((status, fields), (1, {"ticket": ["ticket-db8"], "in force": [nothing]}), f"{content.hex()}: ")
        require_same([row[5] for row in rows if row[1] == place], [f"torn: {why}"])
        need(not any(row[0] for row in rows), "a slot of a torn file is in force")
    status, fields, _ = shown(folder, first(1, 1, version=3) + first(1, 1, version=3))
    need(fields["in force"] == ["nothing: slots 00, 40 are torn, so the daemon refuses the file"], f"{fields}")


@story
def several_files(folder):
    """of several files each is printed, and the status is that of the worst; what cannot be read is said"""
    good, torn, none = (os.path.join(folder, name) for name in (NAME, "61.rec", "62.rec"))
    for path, content in ((good, slot(1, 1, 7)), (torn, slot(2, 1, 7) + b"\1" + bytes(47))):
        with open(path, "wb") as file:
            file.write(content)
    fifo = os.path.join(folder, "63.rec")
    os.mkfifo(fifo)
    need(record(good, good).status == 0, "two good files")
    ran = record(good, torn)
    need(ran.status == 1 and ran.printed.count("in force") == 2 and not ran.said, str(ran))
    ran = record(torn, none, fifo, good)
    said = [f"cannot read {none}: No such file or directory", f"cannot read {fifo}: it is no regular file"]
    said = "".join(f"booth-record: {line}\n" for line in said)
    require_same((ran.status, ran.said, ran.printed.count("in force")), (2, said, 2))
    refuses("booth-record", [], "the following arguments are required: FILE", 2)
    # names with letters that control a terminal, or that are no valid text
    for name, printed in ((b"64\x1b[31m\n.rec", r"64\x1b[31m\n.rec"), (b"65\xff.rec", r"65\udcff.rec")):
        path = os.path.join(os.fsencode(folder), name)
        ran = record(os.fsdecode(path))
        said = f"booth-record: cannot read {folder}/{printed}: No such file or directory\n"
        require_same((ran.status, ran.said, ran.printed), (2, said, ""))
        os.link(good, path)
        ran = record(os.fsdecode(path))
        need(ran.status == 0 and ran.printed.startswith(f"{folder}/{printed}\n"), str(ran))
    refuses("booth-record", ["-c", none, good], f"cannot read {none}: No such file or directory", 2)


def silent(folder, term, ticket="web", *more):
    """Returns a run of booth-record silence with this term."""
    return record("silence", *more, *([] if term is None else [term]), ticket, folder)


@story
def silent_records(folder):
    """a silent record has the bytes of docs/RECORDS.md and its directory's owner, and the old file stays beside it"""
    path, next_steps = os.path.join(folder, "776562.rec"), "Before you start the daemon: end what runs"
    ran = silent(folder, 41)
    said = f"{path}: a silent record of web, term 41\n{next_steps}"
    need(ran.status == 0 and not ran.said and said in ran.printed, str(ran))
    with open(path, "rb") as file:
        require_same(file.read(), first(1, 41)[:48])
    require_same(stat.S_IMODE(os.stat(path).st_mode), 0o600)
    ran = silent(folder, 43)
    need(ran.status == 0 and f"the file before it is {path}.1\n" in ran.printed, str(ran))
    with open(f"{path}.1", "rb") as file:
        require_same(file.read(), first(1, 41)[:48])
    for term, why in (
        (42, "the term is 42, and the file before has 43: a term must not fall"),
        (0, "the term is 0: it must be 1 to 4000000000"),
        (4_000_000_001, "the term is 4000000001: it must be 1 to 4000000000"),
    ):
        refuses("booth-record", ["silence", term, "web", folder], why, 2)
    # (a torn file does not prevent this, and the greatest term of its valid slots counts)
    with open(path, "wb") as file:
        file.write(first(2, 50) + b"\1" + bytes(63) + second(9, 60) + second(8, 61))
    why = "the term is 60, and the file before has 61: a term must not fall"
    refuses("booth-record", ["silence", "60", "web", folder], why, 2)
    require_same(silent(folder, 61).status, 0)
    names = sorted(name for name in os.listdir(folder) if name.startswith("776562"))
    require_same(names, ["776562.rec", "776562.rec.1", "776562.rec.2"])


@story
def silence_is_refused(folder):
    """no silent record is written if a daemon runs, if there is no directory or no ticket's name, or of other words"""
    none, usage = os.path.join(folder, "none"), "booth-record silence [-c CONF] [TERM] TICKET DIR"
    refuses("booth-record", ["silence", "7", "web", none], f"cannot open {none}: No such file or directory", 2)
    why = "'no name' is not a ticket's name: 1 to 63 printing ASCII characters without / and blanks"
    refuses("booth-record", ["silence", "7", "no name", folder], why, 2)
    for words, why in (
        (["silence", "web"], "the following arguments are required: DIR"),
        (["silence", "x", "web", folder], "argument TERM: 'x' is not a term: a whole number is needed"),
    ):
        ran = record(*words)
        require_same((ran.status, ran.printed, ran.said), (2, "", f"booth-record: {why}\nUsage: {usage}\n"))
    for locked in (folder, os.path.join(folder, "booth.lock")):
        handle = os.open(locked, os.O_RDONLY)
        fcntl.flock(handle, fcntl.LOCK_EX)
        why = f"a daemon runs with the records in {folder}: stop it first"
        refuses("booth-record", ["silence", "7", "web", folder], why, 2)
        os.close(handle)
    os.symlink("/dev/null", os.path.join(folder, "776562.rec"))
    path = os.path.join(folder, "776562.rec")
    refuses("booth-record", ["silence", "7", "web", folder], f"cannot read {path}: it is no regular file", 2)
    need(not [name for name in os.listdir(folder) if name.endswith((".1", ".new"))], "a file is left")


@story
def terms_that_nobody_names(folder):
    """without a term it is the seconds since 1970, or a million above the greatest that is known"""
    for kept, told, seconds, term in (
        (None, 0, 1_800_000_000, 1_800_000_000),
        (7, 9, 1_800_000_000, 1_800_000_000),
        (None, 1_800_000_000, 1_800_000_000, 1_801_000_000),
        (1_900_000_000, 3, 1_800_000_000, 1_901_000_000),
    ):
        require_same(record_silence.new_term(kept, told, seconds), term)
    conf = os.path.join(folder, "a.conf")
    with open(conf, "w", encoding="ascii") as file:
        file.write('site = "192.0.2.1"\nticket = "web"\n')
    begun = int(time.time())
    ran = silent(folder, None, "web", "-c", conf)
    said = "booth-record: cannot ask 192.0.2.1: " if shutil.which("booth") else "the program booth is not installed"
    need(said in ran.said, str(ran))
    if shutil.which("booth"):
        term = int(ran.printed.split("term ")[1].split("\n")[0])
        need(begun <= term <= time.time(), f"the term is {term}")
