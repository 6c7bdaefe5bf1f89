"""Checks the real host's datagrams: from whom it receives, whom it reaches, in both families, and in which order."""

import contextlib
import socket
import struct
import time
from typing import Callable, Iterator, List, Tuple

from checks import need
from real_host import LOOPBACK, LOOPBACK_6, OTHER_LOOPBACK, THIRD_LOOPBACK, Host, Peer, carried, plain


def a_host_without_an_address_reaches_both_families(folder: str) -> None:
    """A host without an address sends 48 bytes to one family and receives 66 from it, and the same with the other."""
    with Host(folder) as client:
        need(client.open(), "it is not opened")
        for address in (LOOPBACK, LOOPBACK_6):
            with Host(folder) as daemon:
                at = daemon.open_somewhere(address)
                where = carried(client, daemon, at, b"\x51" * 48)
                need(where.address == address, f"from {where}")
                need(carried(daemon, client, where, b"\x52" * 66) == at, "back")


def a_port_is_opened_by_one_host(folder: str) -> None:
    """A second host cannot open the port, and cannot send."""
    with Host(folder) as first, Host(folder) as second:
        at = first.open_somewhere(LOOPBACK)
        need(not second.open(at.address, at.port), "two hosts")
        need(not second.send(at, b"x"), "nothing is open")


def check_pair(one: Host, address: str, two: Host, other_address: str) -> None:
    """Checks that two members send to one another, each at the address at which the other listens."""
    at_one, at_two = one.open_somewhere(address), two.open_somewhere(other_address)
    first = carried(one, two, at_two, b"\x51" * 48)
    need(first == carried(one, two, at_two, b"\x52" * 66), "from another port")
    need(first.address == other_address, f"from {first}")
    need(carried(two, one, at_one, b"\x53" * 66).address == address, "back")


def members_of_both_families_reach_one_another(folder: str) -> None:
    """A member on IPv4 and one on IPv6 reach one another."""
    with Host(folder) as one, Host(folder) as two:
        check_pair(one, LOOPBACK, two, LOOPBACK_6)


def a_member_that_moves_to_the_other_family_reaches_both(folder: str) -> None:
    """A host that is opened again at an address of the other family sends by its new sockets, and reaches members of
    both families.
    """
    with Host(folder) as one, Host(folder) as two:
        for address in (LOOPBACK, LOOPBACK_6):
            for other in (LOOPBACK, LOOPBACK_6):
                check_pair(one, address, two, other)


def check_quiet(host: Host, wait: int = 200) -> None:
    """Checks that nothing arrives for this many milliseconds."""
    answer = host.next(wait)
    need(answer == "quiet", answer)


def check_heard(host: Host, peer: Peer, content: bytes) -> None:
    """Checks that these bytes of this peer arrive, and nothing before them."""
    came = host.heard()
    need((came.peer, came.content) == (peer, content), f"{came} in place of {content!r} from {peer}")


def a_client_hears_the_peer_that_it_asked_alone(folder: str) -> None:
    """A client receives only from the peer that it asked: not from the same address with another port, and not from
    another address with the same port.
    """
    with Host(folder) as client, Host(folder) as daemon, Host(folder) as neighbour, Host(folder) as other:
        need(client.open(), "it is not opened")
        at = daemon.open_somewhere(LOOPBACK)
        where = carried(client, daemon, at, b"who has it?")
        need(neighbour.open_somewhere(LOOPBACK).port != at.port, "one port twice")
        need(other.open(OTHER_LOOPBACK, at.port), "the same port at another address")
        need(neighbour.send(where, b"another port") and other.send(where, b"another address"), "they are not sent")
        check_quiet(client)
        need(neighbour.send(where, b"another port") and daemon.send(where, b"nobody"), "they are not sent")
        check_heard(client, at, b"nobody")


def a_client_that_asks_another_peer_hears_that_one(folder: str) -> None:
    """A client that asks another peer, as for a redirected revoke, receives from that peer."""
    with Host(folder) as client, Host(folder) as first:
        need(client.open(), "it is not opened")
        at_first = first.open_somewhere(LOOPBACK)
        where = carried(client, first, at_first, b"give it back")
        need(first.send(where, b"another has it"), "it is not sent")
        check_heard(client, at_first, b"another has it")
        for address in (LOOPBACK, LOOPBACK_6):
            with Host(folder) as second:
                at = second.open_somewhere(address)
                now_at = carried(client, second, at, b"give it back")
                need(first.send(where, b"another has it"), "it is not sent")
                if now_at.address == LOOPBACK:
                    need(first.send(now_at, b"another has it"), "it is not sent")
                check_quiet(client)
                need(second.send(now_at, b"done"), "it is not sent")
                check_heard(client, at, b"done")


def a_client_that_nobody_hears_is_quiet(folder: str) -> None:
    """A client whose peer does not run yet reports no failure."""
    with Host(folder) as client:
        with Host(folder) as daemon:
            at = daemon.open_somewhere(LOOPBACK)
        need(client.open(), "it is not opened")
        for _ in range(3):
            need(client.send(at, b"who has it?"), "it is not sent")
            check_quiet(client)
        need(client.send(at, b"who has it?"), "it is not sent")
        with Host(folder) as daemon:
            need(daemon.open(at.address, at.port), "the daemon is not opened")
            where = carried(client, daemon, at, b"who has it?")
            need(daemon.send(where, b"nobody"), "it is not sent")
            # (the answer arrives at once, or after an error of the network about an earlier request)
            if client.next(5000) == "quiet":
                check_heard(client, at, b"nobody")


# more datagrams than a socket and the backlog have room for: the rest stays with the system
ROUNDS, EACH = 82, 200
# longer datagrams: there is no room for them after the 261st
LONG_ROUNDS, LONG_EACH, LONG_BYTES = 54, 5, 16_000


def check_load(folder: str, rounds: int, each: int, size: int, turn: Callable[[Host, Peer], bool]) -> None:
    """Sends datagrams to a member in rounds. The member does this after each round; all datagrams arrive in their
    order.
    """
    with Host(folder) as sender, Host(folder) as member:
        origin = sender.open_somewhere(LOOPBACK)
        at = member.open_somewhere(LOOPBACK, "records")
        count = 0
        for _ in range(rounds):
            for _ in range(each):
                need(sender.send(at, count.to_bytes(4, "big").ljust(size, b"\0")), f"{count} is not sent")
                count += 1
            need(turn(member, origin), "the member's turn")
        for place in range(count):
            check_heard(member, origin, place.to_bytes(4, "big").ljust(size, b"\0"))
        check_quiet(member, 0)


def keep(member: Host, _origin: Peer) -> bool:
    """Writes a record."""
    return member.keep(plain(1))


def send_many(member: Host, origin: Peer) -> bool:
    """Sends so many datagrams that the host reads some of them between the sends."""
    return all([member.send(origin, b"x") for _ in range(32)])


def all_that_comes_between_keeps_is_given_in_order(folder: str) -> None:
    """16,400 datagrams that arrive between writes are returned in their order."""
    check_load(folder, ROUNDS, EACH, 48, keep)


def all_that_comes_between_sends_is_given_in_order(folder: str) -> None:
    """16,400 datagrams that arrive between sends are returned in their order."""
    check_load(folder, ROUNDS, EACH, 48, send_many)


def the_backlog_has_a_bound_in_bytes(folder: str) -> None:
    """More bytes arrive than the backlog has room for."""
    check_load(folder, LONG_ROUNDS, LONG_EACH, LONG_BYTES, keep)


# a flood of one member: more than the backlog has room for, in rounds that the system has room for; then what another
# member sends meanwhile. Each of the two may fill half of the backlog, and what is over waits in the system.
FLOOD_ROUNDS, FLOOD_EACH, CALM_ROUNDS, CALM_EACH = 270, 64, 20, 20
HALF_OF_THE_BACKLOG = 8_192


@contextlib.contextmanager
def three_members(folder: str) -> Iterator[Tuple[Host, Peer, Host, Host]]:
    """Yields a host that stores records, its place, and two hosts that it expects, at the same port."""
    with Host(folder) as member, Host(folder) as other, Host(folder) as third:
        for address in (LOOPBACK, OTHER_LOOPBACK, THIRD_LOOPBACK):
            member.expect(address)
        at = member.open_somewhere(LOOPBACK, "records")
        need(other.open(OTHER_LOOPBACK, at.port) and third.open(THIRD_LOOPBACK, at.port), "the port is not free")
        yield member, at, other, third


def send_numbers(sender: Host, to: Peer, first: int, count: int) -> None:
    """Sends this many numbers, beginning with this one."""
    for number in range(first, first + count):
        need(sender.send(to, number.to_bytes(4, "big")), f"{number} is not sent")


def heard_numbers(member: Host) -> List[Tuple[str, int]]:
    """Returns the numbers that arrive until none arrives, each with the address of its sender."""
    found = []
    while True:
        word, *given = member.next(50).split(" ")
        if word != "datagram":
            need(word == "quiet", word)
            return found
        found.append((given[0], int(given[2], 16)))


def a_flood_of_one_member_leaves_the_others_their_room(folder: str) -> None:
    """The flood of one member fills only its part of the backlog, and the rest of it stays in the system. All datagrams
    of another member arrive.
    """
    with three_members(folder) as (member, at, flooding, other):
        for turn in range(FLOOD_ROUNDS):
            send_numbers(flooding, at, turn * FLOOD_EACH, FLOOD_EACH)
            need(member.keep(plain(1)), "it is not kept")
        for turn in range(CALM_ROUNDS):
            send_numbers(flooding, at, (FLOOD_ROUNDS + turn) * FLOOD_EACH, FLOOD_EACH)
            send_numbers(other, at, turn * CALM_EACH, CALM_EACH)
            need(member.keep(plain(1)), "it is not kept")
        heard = heard_numbers(member)
    calm = [number for address, number in heard if address == THIRD_LOOPBACK]
    need(calm == list(range(CALM_ROUNDS * CALM_EACH)), f"{len(calm)} of the calm one")
    flood = [number for address, number in heard if address == OTHER_LOOPBACK]
    need(flood[:HALF_OF_THE_BACKLOG] == list(range(HALF_OF_THE_BACKLOG)), f"{len(flood)} of the flooding one")
    first = next(place for place, (address, _) in enumerate(heard) if address == THIRD_LOOPBACK)
    need(first == HALF_OF_THE_BACKLOG, f"{first} came before the calm one")


def a_stranger_waits_behind_what_members_sent(folder: str) -> None:
    """If each member has a socket, the host reads a stranger's datagrams only after what members sent."""
    with three_members(folder) as (member, at, other, third), Host(folder) as stranger:
        stranger.open_somewhere(LOOPBACK)
        for sender in (stranger, other, third):
            send_numbers(sender, at, 0, 3)
        need(member.keep(plain(1)), "it is not kept")
        heard = [address for address, _ in heard_numbers(member)]
    need(sorted(heard[:6]) == [OTHER_LOOPBACK] * 3 + [THIRD_LOOPBACK] * 3, f"{heard}")
    need(heard[6:] == [LOOPBACK] * 3, f"{heard}")


# types and codes of ICMP (RFC 792): Linux gives a connected socket a failure for each, of five different kinds
NETWORK_ERRORS = ((12, 0), (3, 2), (3, 3), (3, 8), (3, 13))


def checksum(content: bytes) -> bytes:
    """Returns the checksum of a header with an even number of bytes (RFC 1071)."""
    total = sum(struct.unpack(f"!{len(content) // 2}H", content))
    total = (total >> 16) + (total & 0xFFFF)
    return struct.pack("!H", ~(total + (total >> 16)) & 0xFFFF)


def forge_error(kind: int, code: int, at: Peer, to: Peer) -> None:
    """Tells a host that one of its datagrams could not be delivered. Only root can do this."""
    ends = [socket.inet_aton(peer.address) for peer in (at, to)]
    ip = struct.pack("!BBHHHBBH4s4s", 0x45, 0, 28, 0, 0, 64, socket.IPPROTO_UDP, 0, *ends)
    datagram = ip[:10] + checksum(ip) + ip[12:] + struct.pack("!HHHH", at.port, to.port, 8, 0)
    error = struct.pack("!BBHI", kind, code, 0, 0) + datagram
    with socket.socket(socket.AF_INET, socket.SOCK_RAW, socket.IPPROTO_ICMP) as sender:
        sender.bind((to.address, 0))
        sender.sendto(error[:2] + checksum(error) + error[4:], (at.address, 0))


def a_forged_error_of_the_network_is_no_failure(folder: str) -> None:
    """After a forged error the host still receives from the member, and `next` does not fail. (Only root can check
    this.)
    """
    with three_members(folder) as (member, at, other, _):
        for kind, code in NETWORK_ERRORS:
            try:
                forge_error(kind, code, at, Peer(OTHER_LOOPBACK, at.port))
            except PermissionError:
                return
            time.sleep(0.01)
            check_quiet(member)
        send_numbers(other, at, 0, 1)
        need(heard_numbers(member) == [(OTHER_LOOPBACK, 0)], "the member is not heard")


CHECKS: Tuple[Callable[[str], None], ...] = (
    a_host_without_an_address_reaches_both_families,
    a_port_is_opened_by_one_host,
    members_of_both_families_reach_one_another,
    a_member_that_moves_to_the_other_family_reaches_both,
    a_client_hears_the_peer_that_it_asked_alone,
    a_client_that_asks_another_peer_hears_that_one,
    a_client_that_nobody_hears_is_quiet,
    all_that_comes_between_keeps_is_given_in_order,
    all_that_comes_between_sends_is_given_in_order,
    the_backlog_has_a_bound_in_bytes,
    a_flood_of_one_member_leaves_the_others_their_room,
    a_stranger_waits_behind_what_members_sent,
    a_forged_error_of_the_network_is_no_failure,
)
