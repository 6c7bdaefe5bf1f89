"""The output of booth-status about members with arranged answers: each line, field and sample in each form.

It is imported by tests/status.py, and not run by itself.
"""

import contextlib
import itertools
import os
import re
import time

import frames
from checks import need
from fake_members import FakeMember
from serving import own_addresses
from status_runs import (
    SECONDS_OF_PYTHON,
    critical,
    document,
    first_text,
    metrics_of,
    problems_of,
    require_problems,
    require_same,
    run_apart,
    status,
    story,
    warning,
)

PORT = 20_000 + os.getpid() % 10_000
KEY = b"a-key-of-the-cluster"
NONE_DROPPED = "dropped 0 0 0 0 0 0 0 0"
FAULTS = ("frame", "nomac", "badmac", "old", "stranger", "self", "ticket", "leader")

# (a story that runs again takes the addresses that are free by then)
ADDRESSES = itertools.cycle(own_addresses())


class Three:
    """Two sites and an arbitrator with arranged answers; the ticket `web` is automatic, and `db` is manual."""

    def __init__(self, folder, addresses=None, authfile="", skew=600, name=None, more=""):
        self.one, self.two, self.third = self.addresses = addresses or [next(ADDRESSES) for _ in range(3)]
        self.path = os.path.join(folder, f"{name or self.one}.conf")
        with open(self.path, "w", encoding="ascii") as file:
            file.write(f"port = {PORT}\nsite = {self.one}\nsite = {self.two}\narbitrator = {self.third}\n{authfile}")
            file.write(f"maxtimeskew = {skew}\n")
            file.write(f"ticket = web\nexpire = 60\ntimeout = 5\nretries = 3\n{more}ticket = db\nmode = manual\n")
        self.now = int(time.time())

    def roles(self):
        return dict(zip(self.addresses, ("site", "site", "arbitrator")))

    def peers(self, of, dropped=NONE_DROPPED, **said):
        """Returns the lines of this member's answer: `said` has its counters of the others, by their names here."""
        names = {"one": self.one, "two": self.two, "third": self.third}
        lines = [dropped]
        for name, address in names.items():
            if address != of:
                ago, *counts = said.get(name, (2, 7, 8, 0))
                last = self.now - ago if ago is not None else 0
                lines.append(" ".join(map(str, (self.roles()[address], address, last, *counts))))
        return lines

    def held(self, web=None, db=None, left=50):
        web_line = f"web {web} {self.now + left}" if web else "web none 0"
        return [web_line, f"db {db or 'none'} 0"]

    def fake(self, address, held=None, peers=None, **more):
        held = self.held(self.one, self.two) if held is None else held
        return FakeMember(address, PORT, held, self.peers(address) if peers is None else peers, **more)


@contextlib.contextmanager
def all_of(members):
    """Lets each of these members answer in this block."""
    with contextlib.ExitStack() as stack:
        for member in members:
            stack.enter_context(member)
        yield


def well(three, **more):
    """Arranges three members without a problem."""
    return all_of([three.fake(address, **more) for address in three.addresses])


def date(seconds):
    return time.strftime("%Y-%m-%d %H:%M:%S", time.gmtime(seconds))


@story
def every_line_of_the_table(folder):
    """the table has each arranged member, ticket and problem, line by line"""
    three = Three(folder)
    one, two, third = three.addresses
    members = [
        three.fake(one),
        three.fake(two, three.held(one, one), three.peers(two, "dropped 0 0 4 0 0 0 0 12", third=(200, 5, 6, 3))),
        three.fake(third, three.held(None, two), three.peers(third, two=(7300, 1, 1, 0)), ahead=-3),
    ]
    with all_of(members):
        ran = status("-c", three.path)
    lines = ran.printed.splitlines()
    # (these values change from run to run: the time of an answer, ages of some seconds, and the date of the look)
    moving = [(r"\d+\.\d ms", "N ms"), (r"[+-]0\.\d s", "+S s"), (r"-(2\.[5-9]|3\.[0-4]) s", "-3.S s")]
    moving += [(r"(?<![.\d])([1-5]?\d) s\b", "S s"), (r"at \d{4}-.* UTC$", "at DATE")]
    for form, shown in moving:
        lines = [re.sub(form, shown, line) for line in lines]
    rows = [re.split(" {2,}", line) for line in lines]
    differ = "members name different holders"
    wanted = [
        [f"{three.path} at DATE"],
        [""],
        ["#", "MEMBER", "ANSWER", "CLOCK", "BY 1", "BY 2", "BY 3", "DROPPED", "UNSENT"],
        ["1", "site", one, "N ms", "+S s", "-", "S s", "S s", "-", "-"],
        ["2", "site", two, "N ms", "+S s", "S s", "-", "2 h", "badmac 4, leader 12", "3 to 3"],
        ["3", "arbitrator", third, "N ms", "-3.S s", "S s", "3 min", "-", "-", "-"],
        [""],
        ["TICKET", "MODE", "HOLDER", "LEFT", "UNTIL (UTC)", "SEEN BY"],
        ["web", "auto", one, "S s", date(three.now + 50), "1 2"],
        ["", "none", "-", "-", "3"],
        ["db", "manual", two, "-", "-", "1 3"],
        ["", one, "-", "-", "2"],
        [""],
        ["warning", f"web: {differ}: {one} according to {one}, {two}; nobody according to {third}"],
        ["warning", f"db: {differ}: {two} according to {one}, {third}; {one} according to {two}"],
        [""],
        ["WARNING: 3 of 3 members answer, 1 of 2 tickets are held"],
    ]
    require_same((ran.status, ran.said, len(rows)), (1, "", len(wanted)))
    for found, due in zip(rows, wanted):
        require_same(found, due, "the line ")


def about(value, low, high):
    return value is not None and low <= value <= high


FIELDS = "version configuration time seconds status summary members site tickets problems".split()


def due_member(three, address, never, web, until):
    """Returns the due part of the document for a member, without values that depend on the moment. `never` are the
    members that one never heard from; `web` and `until` are its list's values of that ticket.
    """
    peers = []
    for other in three.addresses:
        if other != address:
            last, counts = (None, (0, 0, 3)) if (address, other) == never else (three.now - 2, (7, 8, 0))
            names = dict(zip(("received", "sent", "errors"), counts))
            peers.append({"role": three.roles()[other], "address": other, "last": last, **names, "more": None})
    tickets = [{"name": "web", "owner": web, "until": until}, {"name": "db", "owner": three.two, "until": None}]
    due = {"role": three.roles()[address], "address": address, "answer": "answers", "why": None, "started_anew": None}
    return {**due, "dropped": dict.fromkeys(FAULTS, 0), "dropped_more": None, "peers": peers, "tickets": tickets}


def without_moments(found, ahead):
    """Returns a member of the document without the values that depend on the moment, if each is in its range."""
    need(about(found.pop("seconds_to_answer"), 0, 3), "seconds_to_answer")
    need(about(found.pop("clock_ahead_seconds"), ahead - 1, ahead + 1), "clock_ahead_seconds")
    for peer in found["peers"]:
        ago = peer.pop("last_seconds_ago")
        need(ago is None if peer["last"] is None else about(ago, ahead + 2, ahead + 30), f"{peer}: {ago} s ago")
    for held in found["tickets"]:
        left = held.pop("seconds_left")
        need(left is None if held["until"] is None else about(left, 10, 50), f"{held}: {left} s left")
    return found


def in_parts(answer):
    """Returns the list of this answer with a part for each line: the second part first, and the first one twice. Other
    answers stay.
    """
    head = frames.Head.read(answer)
    if head.cmd != frames.code("RLst"):
        return [answer]
    lines = answer[frames.HEAD_BYTES :].splitlines(keepends=True)
    fields = {"secs": head.secs, "usecs": head.usecs, "sender": head.sender, "request": head.request}
    results = [frames.code("More")] * (len(lines) - 1) + [0]
    first, second = (
        frames.sealed(None, "RLst", line, options=number, result=result, **fields)
        for number, (line, result) in enumerate(zip(lines, results))
    )
    return [second, first, first]


@story
def a_list_in_parts_is_one(folder):
    """a list that arrives in parts is shown like a list in one datagram"""
    three = Three(folder)
    one, two, third = three.addresses
    with all_of([three.fake(one, meddle=in_parts), three.fake(two), three.fake(third)]):
        ran = status("-c", three.path)
    require_same((ran.status, ran.said), (0, ""))
    told = [line.split() for line in ran.printed.splitlines()]
    need(not any("partly" in line for line in told), ran.printed)


@story
def every_field_of_the_document(folder):
    """the JSON document has each arranged field"""
    three = Three(folder)
    one, two, third = three.addresses
    of_two = three.peers(two, third=(None, 0, 0, 3))
    # (a lease's end is shown by the clock of the member that reports it)
    members = [three.fake(one), three.fake(two, three.held(None, two), of_two)]
    members.append(three.fake(third, three.held(one, two, 59), ahead=9))
    with all_of(members):
        told = document("-c", three.path, "-t", "3")
    require_same(list(told), FIELDS, "its fields are ")
    require_same((told["configuration"], told["status"]), (three.path, 1))
    need(about(told["time"], three.now, three.now + 30) and about(told["seconds"], 0, 3), "the look's time")
    arranged = {one: (0, one, three.now + 50), two: (0, None, None), third: (9, one, three.now + 59)}
    for found, (address, (ahead, web, until)) in zip(told["members"], arranged.items()):
        require_same(without_moments(found, ahead), due_member(three, address, (two, third), web, until))
    web, db = told["tickets"]
    require_same([seen.pop("seconds_left") is None for seen in web["seen"]], [False, True])
    seen = [{"owner": one, "until": three.now + 50, "members": [one, third]}]
    seen.append({"owner": None, "until": None, "members": [two]})
    unknown = {"takeover": None, "service": None, "cluster": None}
    require_same(web, {"name": "web", "mode": "auto", "owner": one, "owners": [one], "seen": seen, **unknown})
    seen = [{"owner": two, "until": None, "seconds_left": None, "members": [two, one, third]}]
    require_same(db, {"name": "db", "mode": "manual", "owner": two, "owners": [two], "seen": seen, **unknown})
    require_same(told["site"], None)
    # (the second member has sent nothing to the third, and received nothing from it)
    require_problems(told, warning("differ", ticket="web"), warning("one-way", two, third))
    require_same(told["summary"], f"BOOTH WARNING: {'; '.join(problem['text'] for problem in told['problems'])}")


def due_samples(three, answering):
    """Returns the due samples of two members that answer and one that does not, by their names and labels."""
    one, two, third = three.addresses
    pairs = [(each, other) for each in answering for other in three.addresses if other != each]
    due = [("booth_status", 1, {})]
    for word, count in (("critical", 0), ("warning", 1), ("notice", 0)):
        due.append(("booth_problems", count, {"severity": word}))
    for each, role in three.roles().items():
        due.append(("booth_member_up", int(each != third), {"member": each, "role": role}))
    # (nobody listens at the third)
    due.append(("booth_member_problem", 1, {"member": third, "kind": "no-daemon"}))
    for each, counts in ((one, [0] * 8), (two, range(1, 9))):
        for fault, count in zip(FAULTS, counts):
            due.append(("booth_member_dropped_total", count, {"member": each, "fault": fault}))
    for name, count in (("received", 7), ("sent", 8), ("errors", 0)):
        due += [(f"booth_peer_{name}_total", count, {"member": each, "peer": other}) for each, other in pairs]
    for ticket, holder in (("web", one), ("db", two)):
        due += [(f"booth_ticket_{name}", 1, {"ticket": ticket}) for name in ("held", "owners", "views")]
        labels = {"ticket": ticket, "holder": holder}
        due += [("booth_ticket_holder", 1, {**labels, "member": each}) for each in answering]
    return {(name, frozenset(labels.items())): value for name, value, labels in due}


def moving_samples(three, answering):
    """Returns the samples that depend on the moment, with their ranges."""
    due = [("booth_look_time_seconds", (three.now, three.now + 30), {}), ("booth_look_seconds", (0, 3), {})]
    for each in answering:
        due.append(("booth_member_clock_ahead_seconds", (-1, 1), {"member": each}))
        due.append(("booth_member_answer_seconds", (0, 3), {"member": each}))
        due.append(("booth_ticket_left_seconds", (10, 50), {"ticket": "web", "member": each, "holder": three.one}))
        others = (other for other in three.addresses if other != each)
        due += [("booth_peer_last_seconds_ago", (2, 30), {"member": each, "peer": other}) for other in others]
    return {(name, frozenset(labels.items())): ends for name, ends, labels in due}


@story
def every_sample_of_the_metrics(folder):
    """the metrics have each arranged sample, in a file that is written whole"""
    three = Three(folder)
    one, two, _ = three.addresses
    path = os.path.join(folder, "booth.prom")
    held = three.held(one, two)
    with all_of([three.fake(one, held), three.fake(two, held, three.peers(two, "dropped 1 2 3 4 5 6 7 8"))]):
        ran = status("-c", three.path, "-m", path)
        require_same((ran.status, ran.printed, ran.said), (1, "", ""))
        with open(path, encoding="ascii") as file:
            found = metrics_of(file.read())
        printed = metrics_of(status("-c", three.path, "-m", "-").printed)
    require_same(set(printed), set(found), "-m - prints ")
    require_same([name for name in os.listdir(folder) if "prom" in name], ["booth.prom"])
    for key, (low, high) in moving_samples(three, (one, two)).items():
        value = found.pop(key, None)
        need(about(value, low, high), f"{key} is {value}")
    due = due_samples(three, (one, two))
    need(found == due, f"{sorted(map(str, found.items() ^ due.items()))}")


@story
def one_line_and_its_status(folder):
    """each form has status 0 if there is no problem, and the one line has the counts"""
    three = Three(folder)
    with well(three):
        lines = [status("-c", three.path, *words) for words in (["-b"], [], ["-j"], ["-m", "-"])]
    need([ran.status for ran in lines] == [0, 0, 0, 0], f"{lines}")
    need(lines[0].printed == "BOOTH OK: 3 of 3 members answer, 2 of 2 tickets are held\n", lines[0].printed)
    need(lines[1].printed.endswith("\n\nOK: 3 of 3 members answer, 2 of 2 tickets are held\n"), lines[1].printed)
    with well(three, held=three.held(None, None)):
        free = status("-b", "-c", three.path)
        fine = status("-b", "-c", three.path, "-f", "web")
    need((free.status, free.printed) == (1, "BOOTH WARNING: web: nobody holds it\n"), str(free))
    need((fine.status, fine.printed) == (0, "BOOTH OK: 3 of 3 members answer, 0 of 2 tickets are held\n"), str(fine))
    many = [f"t{number}" for number in range(12)]
    with open(three.path, "a", encoding="ascii") as file:
        file.writelines(f"ticket = {name}\n" for name in many)
    with well(three, held=three.held(three.one) + [f"{name} none 0" for name in many]):
        ran = status("-b", "-c", three.path)
    told = "; ".join(f"{name}: nobody holds it" for name in many[:8])
    require_same((ran.status, ran.printed), (1, f"BOOTH WARNING: {told}; and 4 more\n"))


@story
def a_look_ends_in_its_time(folder):
    """a look ends within its time, even if members are silent, flood it with other datagrams, or do not exist"""
    three = Three(folder)
    one, two, third = three.addresses

    def junk(answer):
        # (datagrams with another number, with another command, and with random bytes; and no answer at all)
        other = bytearray(answer)
        other[35] ^= 1
        return [bytes(other), frames.request_now("CGnt", 1, frames.ticket_body(b"web", 0, 0, 0))] * 50

    with all_of([three.fake(one), three.fake(two, meddle=junk), three.fake(third, meddle=lambda answer: [])]):
        for seconds in (0.3, 1.0):
            ran = run_apart("booth-status", "-b", "-c", three.path, "-t", seconds)
            need(ran.took < seconds + SECONDS_OF_PYTHON, f"it took {ran.took:.1f} s of {seconds}")
        told = document("-c", three.path, "-t", 1)
    need(told["seconds"] <= 1.2, f"the look took {told['seconds']} s")
    silent = [warning("silent", two), warning("silent", third), warning("silent-owner", two, ticket="db")]
    require_problems(told, critical("no-majority"), *silent)
    text = next(each["text"] for each in told["problems"] if each["member"] == third)
    need(re.fullmatch(re.escape(f"{third}: is silent; {one} heard from it ") + r"\d+ s ago", text), text)
    told = document("-c", three.path)
    require_problems(told, critical("no-majority"), *(warning("no-daemon", each) for each in three.addresses))
    require_same([each["answer"] for each in told["members"]], ["no-daemon"] * 3)
    need(told["seconds"] < 1, f"the look took {told['seconds']} s")
    # half of the members is no majority
    with open(three.path, encoding="ascii") as file:
        text = file.read().replace(f"arbitrator = {third}\n", "")
    with open(three.path, "w", encoding="ascii") as file:
        file.write(text)
    peers = [line for line in three.peers(one) if third not in line]
    with all_of([three.fake(one, three.held(one, one), peers)]):
        require_problems(document("-c", three.path), critical("no-majority"), warning("no-daemon", two))


@story
def a_lost_datagram_is_asked_for_again(folder):
    """a member whose first answers are lost is asked again, and answers"""
    three = Three(folder)
    one, two, third = three.addresses
    seen = []

    def lose_two(answer):
        seen.append(answer)
        return [answer] if len(seen) > 2 else []

    with all_of([three.fake(one), three.fake(two, meddle=lose_two), three.fake(third)]):
        told = document("-c", three.path)
    need(told["status"] == 0 and len(seen) == 4, f"{told['summary']}, after {len(seen)} answers")


@story
def what_is_no_answer_is_told(folder):
    """a malformed or not authentic answer is ignored, with the cause; one of two answers is a part"""
    path = os.path.join(folder, "a-key")
    with open(path, "wb") as file:
        file.write(KEY)
    three = Three(folder, authfile=f"authfile = {path}\n")
    one, two, third = three.addresses

    def without_mac(answer):
        head = frames.Head.read(answer)
        bare = head._replace(opts=0, length=head.length - frames.AUTH_BYTES)
        return [bare.spelled() + answer[frames.HEAD_BYTES : -frames.AUTH_BYTES]]

    def other_mac(answer):
        return [answer[:-5] + bytes([answer[-5] ^ 1]) + answer[-4:]]

    def no_number(answer):
        head = frames.Head.read(answer)
        body = answer[frames.HEAD_BYTES : -frames.AUTH_BYTES].replace(b" 0 ", b" x ")
        before = head._replace(length=len(body) + 76).spelled() + body
        return [before + frames.auth_part(KEY, before)]

    cases = [
        (without_mac, "it has no MAC, so that member has no key"),
        (other_mac, "its MAC is not of this key"),
        (no_number, "a line of its text has the wrong form: b'dropped x 0 x 0 x 0 x 0'"),
        (lambda answer: [answer[:40]], "it has 40 bytes, fewer than the 76 of a reply without a body"),
        (lambda answer: [answer[:20] + b"\0\0\0\1" + answer[24:]], "its field from is 0x00000001, and not "),
    ]
    for meddle, why in cases:
        with all_of([three.fake(one, key=KEY), three.fake(two, key=KEY), three.fake(third, key=KEY, meddle=meddle)]):
            told = document("-c", three.path, "-t", 0.8)
        kind = "partly" if meddle is no_number else "bad"
        require_problems(told, warning(kind, third))
        found = told["members"][2]
        need(found["answer"] == kind and found["why"].startswith(why), f"{found['answer']}: {found['why']}")
    listless = FakeMember(third, PORT, None, three.peers(third), key=KEY)
    with all_of([three.fake(one, key=KEY), three.fake(two, key=KEY), listless]):
        told = document("-c", three.path, "-t", 0.8)
    require_same(first_text(told), f"{third}: answers in part: no answer to list")


@story
def who_holds_a_ticket_is_compared(folder):
    """two owners, other holders and other ends are reported; different roundings of one lease's end are not"""
    three = Three(folder)
    one, two, third = three.addresses

    def looked(*held):
        with all_of([three.fake(each, lines) for each, lines in zip(three.addresses, held)]):
            return document("-c", three.path)

    held = three.held
    told = looked(held(one, one), held(one, two), held(one, one))
    require_problems(told, critical("two-owners", ticket="db"))
    require_same(first_text(told), f"db: held at 2 sites: {one}, {two}")
    require_same((told["tickets"][1]["owners"], told["tickets"][1]["owner"], told["status"]), ([one, two], None, 2))
    require_problems(looked(held(one, one), held(two, one), held(one, one)), critical("two-owners", ticket="web"))
    require_problems(looked(held(one, one), held(one, None), held(one, one)), warning("differ", ticket="db"))
    require_problems(looked(held(one, one, 50), held(one, one, 52), held(one, one, 48)))
    told = looked(held(one, one, 50), held(one, one, 50), held(one, one, 20))
    require_problems(told, warning("ends-differ", ticket="web"))
    require_same(first_text(told), f"web: the end of its lease at {third} is 30 s before the end at {one}")


@story
def another_configuration_is_told(folder):
    """a member with other tickets, other members or another order of them is reported to have another configuration"""
    three = Three(folder)
    one, two, third = three.addresses
    held, peers = three.held(one, two), three.peers(third)
    other_role = f"it lacks the member site {two} and it has the additional member arbitrator {two}"
    cases = [
        (held + ["more none 0"], peers, "it has the additional ticket more"),
        (held[:1], peers, "it lacks the ticket db"),
        (held[::-1], peers, "its tickets are in another order"),
        (held, peers[:2], f"it lacks the member site {two}"),
        (held, [*peers[:2], peers[2].replace("site", "arbitrator")], other_role),
        (held, [peers[0], peers[2], peers[1]], "its members are in another order"),
    ]
    for held_there, lines, text in cases:
        with all_of([three.fake(one), three.fake(two), three.fake(third, held_there, lines)]):
            told = document("-c", three.path)
        need(critical("other-file", third) in problems_of(told), told["summary"])
        require_same(first_text(told), f"{third}: runs another configuration: {text}")
