"""Finds a PostgreSQL server on this machine, Debian's or a plain directory, and returns its values for Booth.

It is imported by booth-postgresql, and not run by itself.
"""

import glob
import os
import pwd
import re
import shutil
from typing import List, NamedTuple, Optional, Tuple

import configuration
import postgresql_server as pg
from postgresql_server import Failed, Server

DEBIAN_FOLDER = "/etc/postgresql"
BIN_FOLDERS = ("/usr/lib/postgresql/{}/bin", "/usr/pgsql-{}/bin")
DEBIAN_NAME = re.compile(r"(\d+)[/-](.+)")
OLDEST_VERSION = 13
DAEMON_FILE = f"{configuration.FOLDER}/booth.env"


class Found(NamedTuple):
    """A server that was found: where its configuration and its data are, and which programs run it."""

    name: str
    config_folder: str
    config: str
    bin: str
    unit: str
    is_unit_ours: bool
    owner: str


class Wishes(NamedTuple):
    """The arguments of the command line."""

    ticket: str
    cluster: str
    peers: Tuple[str, ...]
    address: Optional[str]
    name: Optional[str]
    unit: Optional[str]
    bin: Optional[str]
    port: Optional[int]
    role: str
    copies: bool
    alone: bool
    max_lag: int


def found(wishes: Wishes) -> Found:
    """Finds the server that the command line names: Debian's V/NAME or V-NAME, or the path of a directory."""
    if wishes.cluster.startswith("/"):
        return plain(wishes)
    parts = DEBIAN_NAME.fullmatch(wishes.cluster)
    if parts is None:
        raise Failed(f"{wishes.cluster!r} names no server: write V/NAME, as 15/main, or the path of a directory")
    version, cluster = parts[1], parts[2]
    folder = f"{DEBIAN_FOLDER}/{version}/{cluster}"
    if not os.path.isfile(f"{folder}/postgresql.conf"):
        known = sorted("/".join(path.split("/")[3:5]) for path in glob.glob(f"{DEBIAN_FOLDER}/*/*/postgresql.conf"))
        raise Failed(f"{folder}/postgresql.conf is missing: the servers here are {', '.join(known) or 'none'}")
    programs = wishes.bin or bin_of(version)
    unit = wishes.unit or f"postgresql@{version}-{cluster}.service"
    owner = pwd.getpwuid(os.stat(folder).st_uid).pw_name
    name = wishes.name or f"{version}-{cluster}"
    return Found(name, folder, f"{folder}/postgresql.conf", programs, unit, False, owner)


def plain(wishes: Wishes) -> Found:
    """Finds a server whose configuration is in its directory."""
    folder = wishes.cluster.rstrip("/")
    name = wishes.name or os.path.basename(folder)
    try:
        with open(f"{folder}/PG_VERSION", encoding="ascii") as file:
            version = file.read().strip()
        owner = pwd.getpwuid(os.stat(folder).st_uid).pw_name
    except OSError as why:
        raise Failed(f"{folder} is not the directory of a server: {why.strerror}: initdb makes one") from why
    unit = wishes.unit or f"postgresql-{name}.service"
    programs = wishes.bin or bin_of(version)
    return Found(name, folder, f"{folder}/postgresql.conf", programs, unit, wishes.unit is None, owner)


def bin_of(version: str) -> str:
    """Returns the directory of PostgreSQL's programs."""
    for form in BIN_FOLDERS:
        if os.access(f"{form.format(version)}/pg_ctl", os.X_OK):
            return form.format(version)
    path = shutil.which("pg_ctl")
    if path is None:
        raise Failed(f"pg_ctl of PostgreSQL {version} is not found: give its directory with --bin")
    return os.path.dirname(os.path.realpath(path))


def configured(at: Found, name: str) -> str:
    """Returns a parameter of the server's configuration, whether or not the server runs."""
    words = (f"{at.bin}/postgres", "-D", at.config_folder, "-C", name)
    done = pg.run(*pg.owner_words(at.owner), *words, seconds=10)
    if done.status != 0:
        raise Failed(f"postgres -C {name}: {(done.err.strip().splitlines() or ['it printed nothing'])[-1]}")
    return done.out.strip()


def own_address(wishes: Wishes) -> str:
    """Returns this site's address: that of the command line, or the daemon's."""
    if wishes.address is not None:
        return wishes.address
    try:
        with open(DAEMON_FILE, encoding="utf-8") as file:
            for line in file:
                if line.startswith("ADDRESS="):
                    return line[len("ADDRESS=") :].strip().strip("\"'")
    except OSError as why:
        raise Failed(f"cannot read {DAEMON_FILE}: {why.strerror}: give this site's address with --address") from why
    raise Failed(f"{DAEMON_FILE} has no ADDRESS=: give this site's address with --address")


def peers_of(wishes: Wishes, address: str) -> Tuple[str, ...]:
    """Returns the addresses of the other servers: those of the command line, or the other sites of booth.conf."""
    conf = configuration.read(configuration.path_of("booth"))
    named = [ticket for ticket in conf.tickets if ticket.name == wishes.ticket]
    if not named:
        raise Failed(f"{conf.path} has no ticket {wishes.ticket}")
    if named[0].is_manual:
        raise Failed(f"ticket {wishes.ticket} is manual: booth-follow follows only automatic tickets")
    if wishes.peers:
        return wishes.peers
    others = tuple(member.address for member in conf.members if member.role == "site" and member.address != address)
    if not others:
        raise Failed(f"{conf.path} has no other site: give the address of the other server with --peer")
    return others


def version_of(at: Found) -> int:
    """Returns the major version of the server's programs."""
    done = pg.run(f"{at.bin}/postgres", "--version", seconds=10)
    parts = re.search(r"(\d+)", done.out)
    if parts is None:
        raise Failed(f"{at.bin}/postgres --version ended with status {done.status}: {done.err.strip()}")
    if int(parts[1]) < OLDEST_VERSION:
        raise Failed(f"this server has version {parts[1]}, but version {OLDEST_VERSION} or later is needed")
    return int(parts[1])


def server_of(wishes: Wishes, at: Found) -> Server:
    """Returns the values of the server for Booth."""
    if not pg.NAME.fullmatch(at.name):
        raise Failed(f"{at.name!r} cannot be the server's name here: give another one with --name")
    version_of(at)
    data = configured(at, "data_directory") or at.config_folder
    sockets = configured(at, "unix_socket_directories").split(",")[0].strip()
    if not sockets:
        raise Failed("the server listens on no Unix socket: set unix_socket_directories")
    port = int(configured(at, "port"))
    address = own_address(wishes)
    is_debian = at.config_folder != data
    settings = f"{at.config_folder}/conf.d/booth.conf" if is_debian else f"{pg.CONF_FOLDER}/{at.name}.settings"
    return Server(
        name=at.name, ticket=wishes.ticket, cluster=wishes.cluster, data=data, bin=at.bin, unit=at.unit, owner=at.owner,
        socket=sockets, port=port, address=address, peers=peers_of(wishes, address), peer_port=wishes.port or port,
        role=wishes.role, passfile=f"{pg.CONF_FOLDER}/{at.name}.pgpass", settings=settings, config=at.config,
        copies=wishes.copies, alone=wishes.alone, max_lag=wishes.max_lag,
    )  # fmt: skip


def all_names() -> List[str]:
    """Returns the names of the servers that were set up."""
    return sorted(os.path.basename(path)[: -len(".conf")] for path in glob.glob(f"{pg.CONF_FOLDER}/*.conf"))
