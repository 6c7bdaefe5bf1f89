"""The doctor's questions about the configuration, the key, and the paths to the other members.

It is imported by tools/doctor.py, and not run by itself.
"""

import errno
import os
import selectors
import socket
import time
from typing import Dict, Iterator, Optional

import checking
import configuration
import frames
import key_file
import looking
import services
import viewing
from configuration import Configuration, Member, Unreadable
from doctor_finding import OK, PATIENCE, UNKNOWN, Finding, of_problem
from judging import View
from problems import CRITICAL, NOTICE, WARNING
from wording import count, listed

# in seconds: how long a member may take to accept a connection, and to count a datagram
CONNECT, COUNT, PAUSE = 2.0, 1.5, 0.1
# the largest datagram of the protocol; zeros are no frame, so a member drops it and counts it under `frame`
LARGE = bytes(frames.FRAME_BYTES)


class Case:
    """This machine and its configuration. The members are asked once, when a question first needs the answers."""

    def __init__(self, conf: Configuration, seconds: float, tries_fragments: bool) -> None:
        self.conf, self.seconds, self.tries_fragments = conf, seconds, tries_fragments
        self.cluster = services.cluster_of(conf)
        self.own = services.own_member(conf)
        self.asked: Optional[View] = None
        self.found: Optional[services.Here] = None

    def view(self) -> View:
        """Returns the view of all members. Raises `Unreadable` if the key cannot be read."""
        if self.asked is None:
            self.asked = viewing.view(self.conf, self.conf.key(), self.seconds, None, [])
        return self.asked

    def here(self) -> services.Here:
        """Returns the services of this machine, for which no key is needed."""
        if self.found is None:
            self.found = services.look(self.conf, services.Units(), PATIENCE)
        return self.found

    def is_held_here(self, ticket: str) -> bool:
        """Returns whether this machine's member holds the ticket, as far as the members can be asked."""
        own = self.own.member()
        try:
            views = [each for each in self.view().tickets if each.ticket.name == ticket]
        except Unreadable:
            return False
        return own is not None and any(own.address in (each.owner(), *each.owners()) for each in views)


def of_configuration(case: Case) -> Iterator[Finding]:
    """Does boothd accept the file, and can its members and tickets work?"""
    conf = case.conf
    with_text = configuration.bytes_of(conf.path, configuration.TEXT_BYTES)
    found = [*checking.verdict(conf.path, with_text), *checking.defaults(conf), *checking.families(conf)]
    yield from map(of_problem, found)
    if all(problem.severity <= NOTICE for problem in found):
        counted = f"{count(len(conf.members), 'member')}, {count(len(conf.tickets), 'ticket')}"
        yield Finding(OK, f"{conf.path}: boothd accepts it, {counted}")


def of_member(case: Case) -> Iterator[Finding]:
    """Which member is this machine?"""
    own, name = case.own, case.cluster
    file = f"{configuration.FOLDER}/{name}.env"
    member = own.member()
    cluster = case.here().cluster
    if cluster is not None and (member is None or member.address == cluster.address):
        is_here = ", and its address is here" if member is not None else ""
        yield Finding(OK, f"this machine is a node of the Pacemaker site {cluster.address or 'of this file'}{is_here}")
    elif own.named is not None and member is None:
        yield Finding(CRITICAL, f"{file} has ADDRESS={own.named}, which is no member", "set the address of this member")
    elif member is None and own.members:
        addresses = listed([each.address for each in own.members])
        text = f"this machine has the addresses of several members: {addresses}"
        yield Finding(UNKNOWN, text, f"set ADDRESS= in {file}")
    elif member is None:
        yield Finding(WARNING, "this machine has the address of no member", f"ip address; and set ADDRESS= in {file}")
    elif not services.is_own(member.address):
        text = f"this machine does not have the address {member.address} of {file}"
        yield Finding(CRITICAL, text, "ip address; set the address up, or correct ADDRESS=")
    else:
        yield Finding(OK, f"this machine is the {member.role} {member.address}")


def of_key(case: Case) -> Iterator[Finding]:
    """Is there a key, and can the daemon alone read it?"""
    found = list(key_file.problems(case.conf))
    yield from map(of_problem, found)
    if not found:
        yield Finding(OK, f"{listed(case.conf.key_files())}: the user {key_file.DAEMON} can read it, and others cannot")


def of_members(case: Case) -> Iterator[Finding]:
    """Do all members answer over UDP, with this file, this key and a clock like this one, and hear each other?"""
    view = case.view()
    own = case.own.member()
    # (problems of services are answers to another question)
    about_here = {"service-down", "service-failed", "service-unknown", "no-follower", "paused"}
    for problem in view.problems:
        if problem.kind not in about_here:
            do = "systemctl status booth@" + case.cluster if own and problem.member == own.address else ""
            is_own_gap = problem.kind in (looking.NO_DAEMON, looking.SILENT)
            yield of_problem(problem)._replace(do=do if is_own_gap else "")
    there = [answer for answer in view.answers if answer.state == looking.ANSWERS]
    if there:
        slowest = max(answer.took for answer in there)
        apart = max(abs(answer.ahead) for answer in there)
        told = f"{len(there)} of {len(view.answers)} members answer over UDP, within {slowest * 1000:.1f} ms"
        yield Finding(OK, f"{told}; their clocks are up to {apart:.1f} s from this machine's")


# ---- paths


def of_tcp(case: Case) -> Iterator[Finding]:
    """Do the members accept clients over TCP?"""
    refused = []
    for member, fault in connected(case.conf).items():
        if fault is not None:
            refused.append(f"{member.address} ({fault})")
    port = case.conf.port
    if refused:
        text = f"no connection to port {port} at {listed(refused)}"
        yield Finding(WARNING, text, f"open TCP port {port}: booth asks over TCP if UDP is flooded")
    else:
        yield Finding(OK, f"each member accepts a connection at port {port}")


def connected(conf: Configuration) -> Dict[Member, Optional[str]]:
    """Returns why no connection to a member was made, or `None` if one was; all members are tried at once."""
    faults: Dict[Member, Optional[str]] = {}
    end = time.monotonic() + CONNECT
    with selectors.DefaultSelector() as selector:
        for member in conf.members:
            family = socket.AF_INET6 if ":" in member.address else socket.AF_INET
            faults[member] = os.strerror(errno.ETIMEDOUT)
            try:
                link = socket.socket(family, socket.SOCK_STREAM)
            except OSError as why:
                faults[member] = why.strerror
                continue
            link.setblocking(False)
            result = link.connect_ex((member.address, conf.port))
            if result in (0, errno.EINPROGRESS):
                selector.register(link, selectors.EVENT_WRITE, member)
            else:
                faults[member] = os.strerror(result)
                link.close()
        while selector.get_map() and time.monotonic() < end:
            for key, _ in selector.select(max(0.0, end - time.monotonic())):
                result = key.fileobj.getsockopt(socket.SOL_SOCKET, socket.SO_ERROR)
                faults[key.data] = os.strerror(result) if result else None
                selector.unregister(key.fileobj)
                key.fileobj.close()
        for key in list(selector.get_map().values()):
            key.fileobj.close()
    return faults


def of_fragments(case: Case) -> Iterator[Finding]:
    """Does a datagram of 16 KB arrive at each member, in fragments?"""
    if not case.tries_fragments:
        text = "not tried: a try makes each member count one dropped datagram under `frame`"
        yield Finding(UNKNOWN, text, "booth-status --doctor --members")
        return
    before = counted(case)
    faults = sent(case.conf)
    end = time.monotonic() + COUNT
    missing = set(before)
    while missing and time.monotonic() < end:
        time.sleep(PAUSE)
        after = counted(case)
        missing = {address for address in missing if after.get(address, before[address]) == before[address]}
    for address, why in faults.items():
        yield Finding(WARNING, f"{address}: cannot send a datagram of {len(LARGE)} bytes: {why}")
    lost = sorted(missing - set(faults))
    if lost:
        text = f"a datagram of {len(LARGE)} bytes does not arrive at {listed(lost)}"
        yield Finding(WARNING, text, "let IP fragments through each firewall on the way, for long lists")
    unknown = [member.address for member in case.conf.members if member.address not in before]
    if unknown:
        yield Finding(UNKNOWN, f"{listed(unknown)}: does not answer, so it is unknown whether fragments arrive")
    if before and not lost and not faults:
        yield Finding(OK, f"a datagram of {len(LARGE)} bytes arrives at {count(len(before), 'member')}")


def counted(case: Case) -> Dict[str, int]:
    """Returns how many datagrams each member that answers has dropped because they are no frame."""
    answers = looking.look(case.conf, case.conf.key(), min(case.seconds, COUNT))
    return {each.member.address: each.counts.dropped["frame"] for each in answers if each.counts is not None}


def sent(conf: Configuration) -> Dict[str, str]:
    """Sends a large datagram to each member, and returns why it could not be sent, by the address."""
    faults = {}
    for member in conf.members:
        family = socket.AF_INET6 if ":" in member.address else socket.AF_INET
        try:
            with socket.socket(family, socket.SOCK_DGRAM) as sender:
                sender.sendto(LARGE, (member.address, conf.port))
        except OSError as why:
            faults[member.address] = why.strerror or str(why)
    return faults

