"""Decides whether a standby may be promoted: it must have all data of the last primary, as far as this can be known.

It is imported by booth-postgresql, and not run by itself. The ticket guarantees that no other site runs a primary. It
does not guarantee that this site has the data of the last primary.
"""

import time
from typing import Optional

import postgresql_server as pg
from postgresql_server import Failed, Place, Server

# how long a standby that lacks data of a peer waits for them
SECONDS_TO_CATCH_UP = 20
PAUSE = 0.3


def lacks(own: Place, peer: Place) -> bool:
    """Returns whether the peer has data that this server does not have."""
    return (peer.timeline, peer.position) > (own.timeline, own.position)


def fault_of_peer(own: Place, address: str, peer: Place) -> Optional[str]:
    """Returns why a peer that answers forbids a promotion, now and later, or `None` if it does not."""
    if peer.system != own.system:
        return f"{address} has another database (system {peer.system}, here {own.system}): set one of them up again"
    if not peer.is_standby:
        return f"{address} runs a primary"
    return None


def ask_peers(server: Server, seconds: float) -> bool:
    """Waits until no peer that answers has more data than this server. Returns whether a peer answered.

    Raises `Failed` if a peer still has more data when the time is over.
    """
    end = time.monotonic() + min(seconds * 0.6, SECONDS_TO_CATCH_UP)
    while True:
        own = pg.place_of(server)
        if own is None:
            raise Failed("the local server does not answer with its timeline and position")
        ahead = []
        answers = pg.answered(server)
        for address, peer in answers:
            fault = fault_of_peer(own, address, peer)
            if fault is not None:
                raise Failed(fault)
            if lacks(own, peer):
                ahead.append((address, peer))
        if not ahead:
            return bool(answers)
        if time.monotonic() >= end:
            address, peer = ahead[0]
            raise Failed(
                f"{address} has data that are not here (timeline {peer.timeline}, "
                f"{pg.spelled_position(peer.position)}; here timeline {own.timeline}, "
                f"{pg.spelled_position(own.position)})"
            )
        time.sleep(PAUSE)


def fault_alone(server: Server, now: float) -> Optional[str]:
    """Returns why this server must not be promoted while no peer answers, or `None` if it may be."""
    if server.alone or pg.is_kept(server, "accepted"):
        return None
    before = pg.kept_value(server, "former")
    if before is not None:
        # as far as it knows, it was the last primary: another site can have been one only under a term between the two
        term = pg.lease_term(server)
        if before.isdigit() and term is not None and term <= int(before) + 1:
            return None
        return "no peer answers, and since this server was the primary, another site may have been the primary"
    stepped = pg.kept_value(server, "in-step")
    if stepped is None:
        return "no peer answers, and this server never had all data of a primary"
    try:
        late = now - float(stepped)
    except ValueError:
        return f"no peer answers, and {pg.kept_path(server.name, 'in-step')} has no time in it"
    if late > server.max_lag:
        since = f"this server last had all data of a primary {late:.0f} s ago"
        return f"no peer answers, and {since}, more than {server.max_lag} s (--max-lag)"
    return None


def may_promote(server: Server, seconds: float) -> None:
    """Checks that the server may be promoted, and records that it becomes the primary under the current lease.

    Raises `Failed` with the reason if the server must not be promoted.
    """
    if not ask_peers(server, seconds):
        fault = fault_alone(server, time.time())
        if fault is not None:
            raise Failed(
                f"{fault}: bring a peer back, or run booth-postgresql accept {server.name}, which may lose data"
            )
    term = pg.lease_term(server)
    pg.keep(server, "former", "unknown" if term is None else str(term))
    pg.forget(server, "accepted")
