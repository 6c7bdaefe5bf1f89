"""Checks the output of booth-status about real clusters: each line, field and sample against the records on disk.

It is imported by tests/status.py, and not run by itself. All clusters start at once, from records of version 2.
"""

import contextlib
import os
import re
import signal
import socket
import time

import frames
from checks import need
from cut_ways import CannotCut, cut
from members import MANUAL, TICKET, Cluster, Times, remember, wait_for
from service_stories import Machine
from serving import boothd, own_addresses
from status_runs import (
    SECONDS_OF_PYTHON,
    SECONDS_TO_BE_SO,
    critical,
    document,
    first_text,
    in_time,
    metrics_of,
    notice,
    record,
    require_problems,
    require_same,
    run_apart,
    sample,
    shows,
    status,
    tables_of,
    warning,
)
from stories import grants

KEY, OTHER_KEY = b"a-key-of-the-cluster", b"another-key-than-that"
NAME, BY_HAND = TICKET.decode(), MANUAL.decode()
FAULTS = ("frame", "nomac", "badmac", "old", "stranger", "self", "ticket", "leader")
# a port that no other test has at ::1
V6_PORT = 30_000 + os.getpid() % 10_000
FORCED = 1
HELD_LINE = "OK: 3 of 3 members answer, 1 of 2 tickets are held"


class Clusters:
    """All clusters: started when the `with` block begins, and killed when it ends."""

    def __init__(self, program):
        self.program = program
        self.addresses = own_addresses()

    def make(self, stack, folder, name, **more):
        os.mkdir(f"{folder}/{name}")
        places = [next(self.addresses) for _ in range(3)]
        cluster = stack.enter_context(Cluster(self.program, f"{folder}/{name}", places, **more))
        # (what is looked at has the cluster's own file, whatever a member has)
        cluster.path = cluster.conf
        return cluster

    @contextlib.contextmanager
    def started(self, folder):
        with contextlib.ExitStack() as stack:
            # (the ways that are cut, or why none could be)
            self.cuts, self.uncut = stack.enter_context(contextlib.ExitStack()), None
            self.plain = self.make(stack, folder, "plain", manual=(MANUAL,))
            self.deaf = self.make(stack, folder, "deaf", key=KEY)
            self.mute = self.make(stack, folder, "mute", key=KEY)
            self.wrong = self.make(stack, folder, "wrong", key=KEY)
            self.other = self.make(stack, folder, "other")
            for cluster in (self.plain, self.deaf, self.mute):
                cluster.remember()
                cluster.start()
            self.wrong.start(0, 1)
            self.wrong.members[2].key = OTHER_KEY
            self.wrong.members[2].start(self.program, self.wrong.file("other.conf", OTHER_KEY))
            self.other.start(0, 1)
            self.other.tickets = (TICKET, b"more")
            self.other.members[2].start(self.program, self.other.file("other.conf", None))
            self.sixth = f"{folder}/v6.conf"
            with open(self.sixth, "w", encoding="ascii") as file:
                file.write(f"port = {V6_PORT}\nsite = ::1\nticket = {NAME}\n{Times().text()}")
            self.has_v6 = socket.has_ipv6 and os.path.exists("/proc/net/if_inet6")
            if self.has_v6:
                remember(f"{folder}/v6", [TICKET])
                places = ("-l", f"{folder}/v6.lock", "-d", f"{folder}/v6")
                stack.enter_context(boothd(self.program, self.sixth, "::1", V6_PORT, options=places))
            yield self


def addresses_of(cluster):
    return [member.address for member in cluster.members]


def three_that_just_started(clusters):
    """three members that just started hold nothing, which is not a fault if the ticket may be free"""
    cluster = clusters.plain
    one, two, third = addresses_of(cluster)
    told = shows(["-c", cluster.path], warning("free", ticket=NAME))
    free = {"owner": None, "until": None, "seconds_left": None}
    require_same(told["members"][2]["tickets"], [{"name": each, **free} for each in (NAME, BY_HAND)])

    def in_a_line(words, result, line):
        ran = run_apart("booth-status", "-b", "-c", cluster.path, *words)
        need((ran.status, ran.printed, ran.said) == (result, line, ""), str(ran))

    def in_the_table():
        tickets = tables_of(status("-c", cluster.path).printed)[2]
        wanted = [["TICKET", "MODE", "HOLDER", "LEFT", "UNTIL (UTC)", "SEEN BY"]]
        wanted += [[NAME, "auto", "none", "-", "-", "all"], [BY_HAND, "manual", "none", "-", "-", "all"]]
        require_same(tickets, wanted)

    in_time(lambda: in_a_line([], 1, f"BOOTH WARNING: {NAME}: nobody holds it\n"))
    held = "BOOTH OK: 3 of 3 members answer, 0 of 2 tickets are held\n"
    in_time(lambda: in_a_line(["-f", NAME], 0, held))
    in_time(in_the_table)


def a_wrong_key_at_one_member(clusters):
    """a member with another key is silent, and the others' counters rise; a member without a key is reported as such"""
    cluster = clusters.wrong
    one, two, third = cluster.members
    state, short = f"{cluster.folder}/state", ("-t", "0.8", "-f", NAME)
    look, silent = ("-c", cluster.path, *short), warning("silent", third.address)
    drops = lambda member: member.counts()[0][2]
    need(wait_for(lambda: drops(one) and drops(two), SECONDS_TO_BE_SO), "no frame of it was dropped")
    told = shows(look, silent, state=state)
    before = {member.address: told["members"][place]["dropped"]["badmac"] for place, member in enumerate((one, two))}

    def shown_in_the_table():
        least, row = drops(one), tables_of(status("-c", cluster.path, "-t", "0.8").printed)[1][1]
        lines = [f"badmac {count}" for count in range(least, drops(one) + 1)]
        need(row[-1] == "-" and row[-2] in lines, f"{row}")

    in_time(shown_in_the_table)
    third.kill()
    third.start(cluster.program, cluster.file("other.conf", OTHER_KEY))
    rose = lambda: all(drops(member) > before[member.address] for member in (one, two))
    need(wait_for(rose, SECONDS_TO_BE_SO), "no frame of the one that was started anew was dropped")
    told = shows(look, silent, *(warning("dropped", member.address) for member in (one, two)), state=state)
    text = next(each["text"] for each in told["problems"] if each["kind"] == "dropped")
    more = told["members"][0]["dropped"]["badmac"] - before[one.address]
    need(text == f"{one.address}: dropped datagrams since the last look: badmac {more}", text)
    silent = [warning("silent", member.address) for member in (one, two)]
    shows(("-c", f"{cluster.folder}/other.conf", *short), critical("no-majority"), *silent)
    third.kill()
    third.key = None
    third.start(cluster.program, cluster.file("none.conf", None))

    def shown_without_a_key():
        bad = document(*look)["members"][2]
        wanted = (third.address, "bad", "it has no MAC, so that member has no key")
        require_same((bad["address"], bad["answer"], bad["why"]), wanted)

    in_time(shown_without_a_key)


def members_with_different_files(clusters):
    """a member with another file is reported, with its additional ticket"""
    cluster = clusters.other
    third = cluster.members[2].address
    told = shows(["-c", cluster.path, "-f", NAME], critical("other-file", third))
    text = f"{third}: runs another configuration: it has the additional ticket more"
    require_same((first_text(told), told["status"]), (text, 2))


def two_clusters_that_hold(clusters):
    """two further clusters in which the first site holds the ticket; there is no problem until a link of each is cut"""
    for cluster in (clusters.deaf, clusters.mute):
        grants(cluster, 0, SECONDS_TO_BE_SO)
        shows(["-c", cluster.path])
    (one, _, third), (owner, _, cut_off) = clusters.deaf.members, clusters.mute.members
    try:
        clusters.cuts.enter_context(cut(one, third))
        clusters.cuts.enter_context(cut(cut_off, owner))
    except CannotCut as why:
        clusters.uncut = f"not checked: {why}"
    return clusters.uncut


def by_ipv6(clusters):
    """a site with an IPv6 address that is a majority alone is granted the ticket and shown"""
    if not clusters.has_v6:
        return "not checked: this machine has no IPv6"
    with socket.socket(socket.AF_INET6, socket.SOCK_DGRAM) as asker:
        asker.connect(("::1", V6_PORT))
        asker.send(frames.request_now("CGnt", 7, frames.ticket_body(TICKET, frames.NO_ONE, 0, 0)))
        asker.settimeout(SECONDS_TO_BE_SO)
        asker.recv(frames.FRAME_BYTES)
    told = shows(["-c", clusters.sixth])
    need(told["tickets"][0]["owners"] == ["::1"] and told["members"][0]["peers"] == [], str(told))
    row = tables_of(status("-c", clusters.sixth).printed)[1][1]
    need(row[:3] == ["1", "site", "::1"], f"{row}")
    return None


def a_ticket_that_is_held(clusters):
    """a held ticket is shown with the end on the holder's disk, in the table, the document and the metrics"""
    grants(clusters.plain, 0, SECONDS_TO_BE_SO)
    in_time(lambda: is_shown_as_held(clusters.plain))


def is_shown_as_held(cluster):
    one = cluster.members[0]
    before, counts = int(one.record().until), [member.counts() for member in cluster.members]
    told, ran = document("-c", cluster.path), status("-c", cluster.path)
    samples = metrics_of(status("-c", cluster.path, "-m", "-").printed)
    ends, later = (before, int(one.record().until)), [member.counts() for member in cluster.members]
    require_problems(told)
    ticket = told["tickets"][0]
    require_same((ticket["owners"], len(ticket["seen"])), ([one.address], 1))
    require_same(sorted(ticket["seen"][0]["members"]), sorted(addresses_of(cluster)))
    need(ticket["seen"][0]["until"] in ends, f"{ticket['seen'][0]['until']}, and not {ends}")
    members, (_, row, _), last = tables_of(ran.printed)[1:]
    require_same((row[:3], row[5], last, ran.status), ([NAME, "auto", one.address], "all", [[HELD_LINE]], 0))
    need(row[4] in [date(end) for end in ends] and re.fullmatch("[0-8] s", row[3]), f"{row}, and not {ends}")
    for place, member in enumerate(cluster.members):
        row_of_member(place, member, members[place + 1])
        left = sample(samples, "booth_ticket_left_seconds", ticket=NAME, member=member.address, holder=one.address)
        need(left is not None and 0 <= left <= cluster.times.expire + 1, f"{left} s left at {member.address}")
        require_same(sample(samples, "booth_member_up", member=member.address, role=member.role), 1)
        counts_between(member, told["members"][place], samples, counts[place], later[place])


def date(seconds):
    return time.strftime("%Y-%m-%d %H:%M:%S", time.gmtime(seconds))


def row_of_member(place, member, row):
    """The row of a member without problems."""
    require_same(row[:3], [str(place + 1), member.role, member.address])
    need(re.fullmatch(r"\d+\.\d ms", row[3]) and re.fullmatch(r"[+-]0\.[0-4] s", row[4]), f"{row}")
    require_same((row[5 + place], row[8:]), ("-", ["-", "-"]))
    need(all(re.fullmatch(r"\d+ s", age) for index, age in enumerate(row[5:8]) if index != place), f"{row}")


def counts_between(member, found, samples, early, late):
    """Each printed counter of a member lies between the values that the member printed before and after."""
    require_same((found["dropped"], early[0]), (dict(zip(FAULTS, early[0])), late[0]))
    for peer in found["peers"]:
        other = peer["address"]
        for place, name in enumerate(("received", "sent", "errors")):
            value = sample(samples, f"booth_peer_{name}_total", member=member.address, peer=other)
            low, high = early[1][other][place], late[1][other][place]
            where = f"{name} of {other} at {member.address}: {value}"
            need(low <= peer[name] <= high and low <= value <= high, where)


def records_of_a_cluster(clusters):
    """booth-record prints the record files of a running cluster, with the holder's lease, and that it is in force"""
    cluster = clusters.plain
    one = cluster.members[0]
    require_same(one.about("CGnt", MANUAL), "ok")
    in_time(lambda: records_are_printed(cluster, one))


def records_are_printed(cluster, one):
    before = one.record()
    ran = record("-c", cluster.path, one.record_path(), one.record_path(MANUAL))
    need(ran.status == 0 and not ran.said, str(ran))
    of_one, of_manual = ran.printed.split("\n\n")
    ends = [f"{date(each.until)}.{round(each.until * 1000) % 1000:03} UTC" for each in (before, one.record())]
    form = f"^lease +of term {before.term}, until (.*)\n +by this machine's clock it runs for [0-8] s more$"
    found = re.search(form, of_one, re.M)
    need(found and found[1] in ends and f"ticket    {NAME}\n" in of_one, f"{of_one}, and not {ends}")
    lease = "lease     of term 1, until no end, as for a manual ticket\n          by this machine's clock it runs\n"
    need(f"ticket    {BY_HAND}\n" in of_manual and lease in of_manual, of_manual)


def two_owners_of_a_manual_ticket(clusters):
    """a manual ticket that was granted with force at a second site has two owners, which is critical"""
    cluster = clusters.plain
    one, two, third = cluster.members
    require_same(one.about("CGnt", MANUAL), "ok")
    told = shows(["-c", cluster.path])
    require_same([told["tickets"][1][name] for name in ("owner", "mode")], [one.address, "manual"])
    with socket.socket(socket.AF_INET, socket.SOCK_DGRAM) as asker:
        asker.connect((two.address, frames.PORT))
        asker.settimeout(SECONDS_TO_BE_SO)
        asker.send(frames.request_now("CGnt", 7, frames.ticket_body(MANUAL, frames.NO_ONE, 0, 0), options=FORCED))
        asker.recv(frames.FRAME_BYTES)
    told = shows(["-c", cluster.path], critical("two-owners", ticket=BY_HAND))
    require_same(told["summary"], f"BOOTH CRITICAL: {BY_HAND}: held at 2 sites: {one.address}, {two.address}")
    # (the third believes who spoke last)
    wanted = [[BY_HAND, "manual", one.address, "-", "-", "1"], [two.address, "-", "-", "2 3"]]
    in_time(lambda: require_same(tables_of(status("-c", cluster.path).printed)[2][2:], wanted))
    # (if one of them gives it up, it knows of no other that holds it)
    require_same(one.about("CRvk", MANUAL), "ok")
    shows(["-c", cluster.path], warning("differ", ticket=BY_HAND))
    require_same(two.about("CRvk", MANUAL), "ok")
    shows(["-c", cluster.path])


def a_member_that_stopped_or_started(clusters):
    """a stopped member is silent, an ended one has no daemon, and a restarted one is reported"""
    cluster = clusters.plain
    one, two, third = cluster.members
    state = f"{cluster.folder}/state"
    look = ("-c", cluster.path, "-t", "0.8")
    shows(look, state=state)

    def is_silent():
        ran = run_apart("booth-status", "-b", *look)
        need(ran.status == 1 and ran.took < 0.8 + SECONDS_OF_PYTHON, str(ran))
        form = f"BOOTH WARNING: {third.address}: is silent; ({one.address}|{two.address}) heard from it \\d+ s ago\\n"
        need(re.fullmatch(form, ran.printed), ran.printed)

    def is_not_there():
        told = document(*look, "-s", state)
        require_problems(told, warning("no-daemon", third.address))
        need(told["seconds"] < 0.8 and told["members"][2]["peers"] is None, f"{told['seconds']} s")

    os.kill(third.server.process.pid, signal.SIGSTOP)
    try:
        shows(look, warning("silent", third.address), state=state)
        in_time(is_silent)
    finally:
        os.kill(third.server.process.pid, signal.SIGCONT)
    third.kill()
    in_time(is_not_there, state)
    third.start(cluster.program, cluster.conf)
    told = shows(look, notice("restarted", third.address), state=state)
    need(told["status"] == 0 and told["members"][2]["started_anew"] is True, str(told["members"][2]))
    # (a ticket without times of its own has the default ones: a promise of 600 s and 1.203 s)
    until = re.search("until (.*)$", told["problems"][0]["text"])[1]
    due = [date(told["time"] + 601.203 + more) for more in (-1, 0, 1)]
    need(until in due, f"{until}, and not {due[1]}")


def a_cut_link_of_a_holder(clusters):
    """a holder without answers, and a member that hears no holder, are reported after a lease's time"""
    one, _, third = clusters.deaf.members
    owner, _, cut_off = clusters.mute.members
    if clusters.uncut:
        return clusters.uncut
    mute, deaf = (["-c", cluster.path] for cluster in (clusters.mute, clusters.deaf))
    # a member that hears no renewal knows of no holder, and answers none
    shows(mute, warning("differ", ticket=NAME), warning("no-way", *sorted((owner.address, cut_off.address))))

    def none_at_the_third():
        rows = tables_of(status(*mute).printed)[2]
        require_same((rows[1][2::3], rows[2]), ([owner.address, "1 2"], ["none", "-", "-", "3"]))

    def told_as_one_way():
        told = document(*deaf)
        require_problems(told, warning("one-way", one.address, third.address))
        form = f"{one.address}: receives nothing from {third.address} \\(for \\d+ s\\), which heard from it \\d s ago"
        need(re.fullmatch(form, first_text(told)), first_text(told))

    def heard_long_ago():
        row = tables_of(status(*deaf).printed)[1][3]
        need(re.fullmatch(r"\d+ s", row[5]) and int(row[5].split()[0]) > Times().expire, f"{row}")

    in_time(none_at_the_third)
    in_time(told_as_one_way)
    in_time(heard_long_ago)
    clusters.cuts.close()
    for look in (mute, deaf):
        shows(look)
    return None


def the_way_that_a_takeover_needs(clusters):
    """if the link between two members that hold nothing failed at a start, it is reported although the holder renews"""
    cluster = clusters.deaf
    one, two, third = cluster.members
    try:
        with cut(two, third):
            third.kill()
            third.start(cluster.program, cluster.conf)
            told = shows(["-c", cluster.path], warning("one-way", third.address, two.address))
            text = first_text(told)
            form = f"{third.address}: receives nothing from {two.address} \\(since it started\\)"
            form += ", which heard from it \\d+ s ago"
            need(re.fullmatch(form, text), text)
            last = lambda: tables_of(status("-c", cluster.path).printed)[1][2][7]
            in_time(lambda: require_same(last(), "never"))
    except CannotCut as why:
        return f"not checked: {why}"
    third.kill()
    third.start(cluster.program, cluster.conf)
    shows(["-c", cluster.path])
    return None


def a_service_without_its_ticket(clusters):
    """a holder whose service is stopped is critical, and so is a ticket that was held and then revoked"""
    cluster = clusters.mute
    one = cluster.members[0]
    look, state = ["-c", cluster.path], f"{cluster.folder}/state"
    machine = Machine(f"{cluster.folder}/machine", one.address)
    machine.unit("loaded active running", NAME)
    with machine.here():
        machine.state("running", NAME)
        require_same(shows(look, state=state)["tickets"][0]["service"]["shown"], "running here")
        machine.state("stopped", NAME)
        shows(look, critical("service-down", one.address, ticket=NAME), state=state)
        require_same(one.about("CRvk"), "ok")
        told = shows(look, critical("free", ticket=NAME), state=state)
    require_same(first_text(told), f"{NAME}: nobody holds it, and {one.address} released it")


def a_takeover(clusters):
    """after the holder's end it shows when the ticket is free and which site is next, which takes it over then"""
    cluster = clusters.mute
    one, two, _ = cluster.members
    look, state = ["-c", cluster.path, "-t", "0.8"], f"{cluster.folder}/state"
    grants(cluster, 0, SECONDS_TO_BE_SO)
    # (a site that was granted it again is believed by all from its first renewal on)
    until = one.record().until
    need(wait_for(lambda: one.record().until > until, SECONDS_TO_BE_SO), "it is not renewed")
    shows(look, state=state)
    one.kill()
    told = document(*look, "-s", state)
    form = f"{NAME}: its holder {one.address} does not answer: free at .*, {two.address} is next.*"
    found = [each["text"] for each in told["problems"] if each["kind"] == "silent-owner"]
    need(found and re.fullmatch(form, found[0]), told["summary"])
    takeover, severities = told["tickets"][0]["takeover"], set()

    def is_taken():
        told = document(*look, "-s", state)
        severities.update(each["severity"] for each in told["problems"] if each["kind"] == "free")
        return told["tickets"][0]["owner"] == two.address

    need(wait_for(is_taken, SECONDS_TO_BE_SO), "it is not taken over")
    need(severities <= {"critical"}, f"while nobody held it: {severities}")
    # (it is free by whole seconds, rounded up)
    took = two.record().until - cluster.times.expire
    need(takeover["free_at"] - 1 <= took, f"taken over at {took}, and {takeover}")
    one.start(cluster.program, cluster.conf)
    shows(look, notice("restarted", one.address), state=state)


def nobody_held_twice(clusters):
    """no automatic ticket was held at two sites at the same moment during these stories"""
    for cluster in (clusters.plain, clusters.deaf, clusters.mute):
        require_same(cluster.watch.wrong[:3], [])


STORIES = (
    three_that_just_started,
    a_wrong_key_at_one_member,
    members_with_different_files,
    two_clusters_that_hold,
    by_ipv6,
    a_ticket_that_is_held,
    records_of_a_cluster,
    two_owners_of_a_manual_ticket,
    a_member_that_stopped_or_started,
    a_cut_link_of_a_holder,
    the_way_that_a_takeover_needs,
    a_service_without_its_ticket,
    a_takeover,
    nobody_held_twice,
)


def looks(program, folder):
    """Each story over the clusters, one after another, with what it left out."""
    clusters = Clusters(program)
    with clusters.started(folder):
        for story in STORIES:
            yield story, lambda story=story: story(clusters)
