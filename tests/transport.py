#!/usr/bin/env python3
"""Checks how `booth` asks a member: by datagrams, over TCP, and by one after the other.

Run it as `python3 tests/transport.py [BOOTH [BOOTHD]]`. By default the programs are those that `make build` leaves. It
takes some half a minute, prints a line for each check with what it measured, ends all programs that it started, and has
the status 1 if a check failed. If a program is not built it checks nothing, with status 0.

Most members here are stand-ins: each accepts datagrams, or links, or both, and answers as docs/PROTOCOL.md says. The
last checks ask a real daemon, and the very last one asks it while others send it more datagrams than it can read.
"""

import os
import select
import signal
import socket
import subprocess
import sys
import threading
import time
from typing import Callable, Dict, Iterator, List, NamedTuple, Optional, Tuple

HERE = os.path.dirname(os.path.abspath(__file__))
sys.path[:0] = [HERE, f"{HERE}/../tools"]

import frames
from checks import Wrong, need
from members import TICKET, Member, remember
from scratch import scratch
from serving import NotServing, built_program, end_by_signals, own_addresses

KEY = b"a-key-of-the-cluster"
# by booth(8), in seconds: how long booth waits for a datagram before it asks over TCP, and for an answer in all
SECONDS_OF_SILENCE, SECONDS_OF_PATIENCE = 1.0, 5.0
# the additional time on a busy machine, in seconds
SLACK = 2.0
LINE = "ticket-db8 192.0.2.10 4102444800\n"
# the flood: its senders, its seconds, and the number of commands that are tried in it
SENDERS, SECONDS_OF_FLOOD, TRIES = 3, 12, 20


class Ran(NamedTuple):
    """The outcome of a run of booth: its status, its standard output and standard error, and how many seconds it took.
    """

    status: int
    printed: str
    said: str
    seconds: float


class FakeMember:
    """A member, in a `with` block, that answers each request for a list over the transports that it has. It counts what
    arrives, as datagrams and over links. Without `datagrams` it accepts datagrams and answers none; without `links` it
    refuses links; with `deaf` it accepts links, and answers nothing over them.
    """

    def __init__(self, address: str, datagrams: bool, links: bool, deaf: bool = False) -> None:
        self.address = address
        self.answers_datagrams = datagrams
        self.is_deaf = deaf
        self.datagrams: List[bytes] = []
        self.frames: List[bytes] = []
        self.socket = socket.socket(socket.AF_INET, socket.SOCK_DGRAM)
        self.socket.bind((address, frames.PORT))
        self.listener: Optional[socket.socket] = None
        if links:
            self.listener = socket.socket(socket.AF_INET, socket.SOCK_STREAM)
            self.listener.setsockopt(socket.SOL_SOCKET, socket.SO_REUSEADDR, 1)
            self.listener.bind((address, frames.PORT))
            self.listener.listen()
        self.stop_at, self.stop = socket.socketpair()
        self.thread = threading.Thread(target=self.serve, daemon=True)

    def __enter__(self) -> "FakeMember":
        self.thread.start()
        return self

    def __exit__(self, *_: object) -> None:
        self.stop.send(b".")
        self.thread.join()
        for each in (self.socket, self.listener, self.stop, self.stop_at):
            if each is not None:
                each.close()

    def answer(self, request: bytes) -> bytes:
        """Returns the answer to a request."""
        head = frames.Head.read(request)
        return frames.reply_due("CLst", head.request, self.address, LINE.encode(), key=KEY, clock=head)

    def serve(self) -> None:
        """Answers requests until the block ends."""
        links: Dict[socket.socket, bytes] = {}
        while True:
            watched = [self.stop_at, self.socket, *links] + ([self.listener] if self.listener else [])
            for each in select.select(watched, [], [])[0]:
                if each is self.stop_at:
                    for link in links:
                        link.close()
                    return
                if each is self.socket:
                    self.take_datagram()
                elif each is self.listener:
                    links[self.listener.accept()[0]] = b""
                else:
                    self.take_bytes(each, links)

    def take_datagram(self) -> None:
        """Counts a datagram, and answers it if datagrams are answered."""
        request, asker = self.socket.recvfrom(frames.FRAME_BYTES + 1)
        self.datagrams.append(request)
        if self.answers_datagrams:
            self.socket.sendto(self.answer(request), asker)

    def take_bytes(self, link: socket.socket, links: Dict[socket.socket, bytes]) -> None:
        """Answers a frame of a link when all its bytes have arrived."""
        more = link.recv(4096)
        if not more:
            del links[link]
            link.close()
            return
        links[link] += more
        request = links[link]
        if len(request) >= frames.HEAD_BYTES and len(request) == frames.Head.read(request).length:
            self.frames.append(request)
            links[link] = b""
            if not self.is_deaf:
                link.sendall(self.answer(request))


class Scene:
    """The programs, and files of a cluster at these addresses."""

    def __init__(self, booth: str, boothd: str, folder: str, addresses: Iterator[str]) -> None:
        self.booth, self.boothd, self.folder, self.addresses = booth, boothd, folder, addresses
        self.key = os.path.join(folder, "authkey")
        with open(self.key, "wb") as file:
            file.write(KEY)
        os.chmod(self.key, 0o600)

    def conf_of(self, address: str) -> str:
        """Writes the configuration of a cluster that has only this site, and returns its path."""
        path = os.path.join(self.folder, f"{address}.conf")
        with open(path, "w", encoding="ascii") as file:
            file.write(f'authfile = "{self.key}"\nsite = "{address}"\nticket = "{TICKET.decode()}"\n')
        return path

    def run(self, address: str, *words: str, transport: Optional[str] = None) -> Ran:
        """Runs booth with these arguments, at the member with this address."""
        env = {name: value for name, value in os.environ.items() if name != "BOOTH_TRANSPORT"}
        if transport is not None:
            env["BOOTH_TRANSPORT"] = transport
        began = time.monotonic()
        done = subprocess.run(
            [self.booth, *words, "-c", self.conf_of(address), "-s", address],
            stdin=subprocess.DEVNULL, capture_output=True, text=True, timeout=30, env=env, check=False,
        )  # fmt: skip
        return Ran(done.returncode, done.stdout, done.stderr, time.monotonic() - began)


# ---- the checks: each returns what it measured


def silent_member_is_asked_by_a_link(scene: Scene) -> str:
    """a request that no datagram answers is repeated over TCP a second later, once, with the same bytes"""
    with FakeMember(next(scene.addresses), datagrams=False, links=True) as member:
        ran = scene.run(member.address, "list")
    need(ran.status == 0 and "ticket-db8" in ran.printed, f"{ran}")
    need(len(member.datagrams) == 1 and member.frames == member.datagrams, "other requests came")
    need(SECONDS_OF_SILENCE <= ran.seconds < SECONDS_OF_SILENCE + SLACK, f"it took {ran.seconds:.2f} s")
    need(ran.said == "", f"it said {ran.said!r}")
    return f"{ran.seconds:.2f} s"


def answered_datagram_opens_no_link(scene: Scene) -> str:
    """a request that a datagram answers opens no link"""
    with FakeMember(next(scene.addresses), datagrams=True, links=True) as member:
        ran = scene.run(member.address, "list")
    need(ran.status == 0 and not member.frames and len(member.datagrams) == 1, f"{ran}")
    return f"{ran.seconds * 1000:.0f} ms"


def udp_opens_no_link(scene: Scene) -> str:
    """BOOTH_TRANSPORT=udp opens no link, and a missing answer is reported"""
    with FakeMember(next(scene.addresses), datagrams=False, links=True) as member:
        ran = scene.run(member.address, "list", transport="udp")
    need(ran.status != 0 and "no reply" in ran.said and not member.frames, f"{ran}")
    need(SECONDS_OF_PATIENCE <= ran.seconds < SECONDS_OF_PATIENCE + SLACK, f"it took {ran.seconds:.2f} s")
    return f"{ran.seconds:.2f} s"


def tcp_sends_no_datagram(scene: Scene) -> str:
    """BOOTH_TRANSPORT=tcp sends no datagram"""
    with FakeMember(next(scene.addresses), datagrams=True, links=True) as member:
        ran = scene.run(member.address, "list", transport="tcp")
    need(ran.status == 0 and len(member.frames) == 1 and not member.datagrams, f"{ran}")
    need(ran.seconds < SECONDS_OF_SILENCE, f"it took {ran.seconds:.2f} s")
    return f"{ran.seconds * 1000:.0f} ms"


def options_win(scene: Scene) -> str:
    """--tcp sends no datagram and --udp opens no link, at each side of the command, whatever BOOTH_TRANSPORT is"""
    for words, named in ((("--tcp", "list"), "udp"), (("list", "--tcp"), None)):
        with FakeMember(next(scene.addresses), datagrams=True, links=True) as member:
            ran = scene.run(member.address, *words, transport=named)
        need(ran.status == 0 and len(member.frames) == 1 and not member.datagrams, f"{words}: {ran}")
    for words, named in ((("--udp", "list"), "tcp"), (("client", "list", "--udp"), None)):
        with FakeMember(next(scene.addresses), datagrams=True, links=True) as member:
            ran = scene.run(member.address, *words, transport=named)
        need(ran.status == 0 and len(member.datagrams) == 1 and not member.frames, f"{words}: {ran}")
    return "4 runs"


def refused_link_is_told(scene: Scene) -> str:
    """if a member refuses links, BOOTH_TRANSPORT=tcp asks it by a datagram, and prints the cause"""
    with FakeMember(next(scene.addresses), datagrams=True, links=False) as member:
        ran = scene.run(member.address, "list", transport="tcp")
    need(ran.status == 0 and len(member.datagrams) == 1, f"{ran}")
    need(member.address in ran.said and "Connection refused" in ran.said, f"it said {ran.said!r}")
    return ran.said.strip()


def silence_has_its_reason(scene: Scene) -> str:
    """if a member does not answer, `no reply` is printed after the wait; a second line has the state of its TCP port"""
    told = []
    for links, reason in ((False, "refuses links over TCP too"), (True, "takes links over TCP, and does not answer")):
        with FakeMember(next(scene.addresses), datagrams=False, links=links, deaf=True) as member:
            ran = scene.run(member.address, "list")
        need(ran.status != 0 and len(member.datagrams) == 1, f"{ran}")
        need(SECONDS_OF_PATIENCE <= ran.seconds < SECONDS_OF_PATIENCE + SLACK, f"it took {ran.seconds:.2f} s")
        lines = ran.said.splitlines()
        need(lines[0] == "booth: no reply" and len(lines) == 2, f"it said {ran.said!r}")
        need(lines[1].startswith(f"booth: {member.address} {reason}"), f"it said {ran.said!r}")
        told.append(lines[1])
    return "; ".join(told)


def unknown_transport_is_refused(scene: Scene) -> str:
    """an unknown transport is refused, and no member is asked"""
    with FakeMember(next(scene.addresses), datagrams=True, links=True) as member:
        ran = scene.run(member.address, "list", transport="sctp")
    need(ran.status == 1 and not member.datagrams and not member.frames, f"{ran}")
    need("BOOTH_TRANSPORT" in ran.said, f"it said {ran.said!r}")
    return ran.said.strip()


def started(scene: Scene) -> Tuple[Member, str]:
    """Starts a real daemon that is a cluster alone, and returns it with its configuration."""
    address = next(scene.addresses)
    member = Member("site", address, os.path.join(scene.folder, address), key=KEY)
    remember(member.records, [TICKET])
    conf = scene.conf_of(address)
    member.start(scene.boothd, conf)
    return member, address


def real_daemon_answers_alike(scene: Scene) -> str:
    """a real daemon gives the same answers to list, peers, grant and revoke over TCP and by datagrams"""
    member, address = started(scene)
    try:
        told = {}
        for transport in ("udp", "tcp"):
            words = (("list",), ("peers",), ("grant", "-w", TICKET.decode()), ("revoke", "-w", TICKET.decode()))
            told[transport] = [scene.run(address, *each, transport=transport) for each in words]
    finally:
        member.kill()
    for one, other in zip(told["udp"], told["tcp"]):
        need(one.status == other.status == 0 and one.said == other.said, f"{one} and {other}")
    return ", ".join(f"{ran.seconds * 1000:.0f} ms" for ran in told["tcp"])


def flood(address: str, until: float) -> None:
    """Sends a daemon datagrams with a wrong MAC, as fast as one process can, until this moment."""
    request = bytearray(frames.request_now("CLst", 1, key=KEY))
    request[-1] ^= 1
    with socket.socket(socket.AF_INET, socket.SOCK_DGRAM) as sender:
        sender.connect((address, frames.PORT))
        while time.monotonic() < until:
            for _ in range(1000):
                try:
                    sender.send(request)
                except ConnectionRefusedError:
                    pass


def flooded_daemon_is_heard(scene: Scene) -> str:
    """while others send a daemon more datagrams than it can read, it answers each request for a list"""
    member, address = started(scene)
    senders: List[int] = []
    try:
        until = time.monotonic() + SECONDS_OF_FLOOD
        for _ in range(SENDERS):
            child = os.fork()
            if child == 0:
                flood(address, until)
                os._exit(0)
            senders.append(child)
        time.sleep(0.5)
        runs = [scene.run(address, "list", transport="tcp") for _ in range(TRIES)]
    finally:
        for child in senders:
            os.kill(child, signal.SIGKILL)
            os.waitpid(child, 0)
        member.kill()
    answered = [ran for ran in runs if ran.status == 0 and "ticket-db8" in ran.printed]
    need(len(answered) == TRIES, f"{len(answered)} of {TRIES} were answered: {[ran.said for ran in runs]}")
    longest = max(ran.seconds for ran in runs)
    need(longest < 3, f"one took {longest:.2f} s")
    return f"{TRIES} of {TRIES}, the longest in {longest:.2f} s"


CHECKS: List[Callable[[Scene], str]] = [
    silent_member_is_asked_by_a_link,
    answered_datagram_opens_no_link,
    udp_opens_no_link,
    tcp_sends_no_datagram,
    options_win,
    refused_link_is_told,
    silence_has_its_reason,
    unknown_transport_is_refused,
    real_daemon_answers_alike,
    flooded_daemon_is_heard,
]


def main(arguments: List[str]) -> int:
    """Runs all checks, and returns the status."""
    booth = arguments[0] if arguments else built_program("booth")
    boothd = arguments[1] if len(arguments) > 1 else built_program("boothd")
    if booth is None or boothd is None:
        print("transport: a program is not built, so nothing was checked")
        return 0
    failed = 0
    with scratch("transport-") as folder:
        scene = Scene(booth, boothd, folder, own_addresses())
        for check in CHECKS:
            try:
                print(f"ok     {check.__doc__}: {check(scene)}", flush=True)
            except (Wrong, NotServing, subprocess.TimeoutExpired) as why:
                failed += 1
                print(f"FAILED {check.__doc__}: {why}", flush=True)
    print(f"{len(CHECKS) - failed} of {len(CHECKS)} checks")
    return 1 if failed else 0


if __name__ == "__main__":
    end_by_signals()
    sys.exit(main(sys.argv[1:]))
