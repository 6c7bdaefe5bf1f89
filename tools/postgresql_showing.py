"""Shows a server under Booth, and removes it from the control of its ticket.

It is imported by booth-postgresql, and not run by itself.
"""

import os
import time
from typing import List, Optional

import postgresql_server as pg
from postgresql_server import Place, Server

UNITS_FOLDER = "/etc/systemd/system"
FOLLOW_FOLDER = "/etc/booth/follow"
KEPT = {
    "primary": "its follower promoted it: a primary runs, or may run",
    "former": "it was the last primary, under the lease of term {}",
    "timeline": "it began timeline {}",
    "rebuilding": "its data are being rewound or copied ({})",
    "accepted": "the next promotion does not need a peer's answer",
}


def spelled(place: Optional[Place]) -> str:
    """Returns the role and the place of a server as text."""
    if place is None:
        return "does not answer"
    role = "standby" if place.is_standby else "primary"
    return f"{role}, timeline {place.timeline}, {pg.spelled_position(place.position)}, database {place.system}"


def lines(server: Server) -> List[str]:
    """Returns the lines that show a server."""
    own = pg.place_of(server)
    shown = [
        f"{server.name}: {server.data}, follows ticket {server.ticket}",
        f"  here           {spelled(own)}",
        *(f"  {address:13}  {spelled(pg.place_of(server, address))}" for address in server.peers),
    ]
    state = pg.follower_state(server).get("service")
    shown.append(f"  its follower   {f'reports the service as {state}' if state else 'reports nothing'}")
    if own is not None and own.is_standby:
        receiver = pg.psql(server, pg.spot(server), "SELECT status FROM pg_stat_wal_receiver")
        shown.append(f"  receives       {receiver or 'nothing'}")
    stepped = pg.kept_value(server, "in-step")
    if stepped and stepped.isdigit():
        shown.append(f"  was in step    {max(0, int(time.time()) - int(stepped))} s ago")
    for what, text in KEPT.items():
        value = pg.kept_value(server, what)
        if value is not None:
            shown.append(f"  noted          {text.format(value)}")
    return shown


def remove(server: Server) -> None:
    """Removes a server from the control of its ticket. Its data, settings and role stay, and it keeps running."""
    active = pg.units("is-active", f"booth-follow@{server.ticket}.service").out.strip()
    if active in ("active", "activating", "reloading", "deactivating"):
        raise pg.Failed(
            f"booth-follow@{server.ticket} is {active}: run systemctl disable --now booth-follow@{server.ticket} first"
        )
    pg.units("disable", "--now", f"booth-postgresql@{server.name}.service")
    for path in (f"{UNITS_FOLDER}/{server.unit}.d/booth.conf", f"{FOLLOW_FOLDER}/{server.ticket}.env"):
        if os.path.exists(path):
            os.unlink(path)
            print(f"removed {path}")
    for what in (*KEPT, "in-step"):
        pg.forget(server, what)
    os.unlink(pg.conf_path(server.name))
    print(f"removed {pg.conf_path(server.name)}")
    pg.units("daemon-reload")
    print(f"It starts as a standby while {server.data}/standby.signal exists: pg_ctl promote makes it a primary")
