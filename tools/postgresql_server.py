"""A PostgreSQL server under Booth: its values, the answers of it and its peers, and the notes about it.

It is imported by booth-postgresql, and not run by itself. Each command that it runs has a time limit.
"""

import os
import pwd
import re
import shlex
import subprocess
import time
from typing import Callable, Dict, List, NamedTuple, Optional, Sequence, Tuple

import record_file

CONF_FOLDER = "/etc/booth/postgresql"
KEPT_FOLDER = "/var/lib/booth-postgresql"
STATE_FOLDER = "/run/booth-follow"
RECORDS_FOLDER = "/var/lib/booth"
PROGRAM = "/usr/share/booth-proved/follow-postgresql"
NAME = re.compile(r"[A-Za-z0-9_][A-Za-z0-9_.-]{0,63}")
SECONDS_TO_ANSWER, SECONDS_OF_A_COMMAND = 3, 60
# the bytes of the log that one value of the upper half of a position counts, in names of log files too
SEGMENTS_BYTES = 2**32


class Failed(Exception):
    """The requested action failed; the text is the cause."""


class Server(NamedTuple):
    """The values of a server, from its file in `CONF_FOLDER`."""

    name: str
    ticket: str
    cluster: str
    data: str
    bin: str
    unit: str
    owner: str
    socket: str
    port: int
    address: str
    peers: Tuple[str, ...]
    peer_port: int
    role: str
    passfile: str
    settings: str
    config: str
    copies: bool
    alone: bool
    max_lag: int


class Place(NamedTuple):
    """The state of a server's log: its database, its timeline, its last position, and whether it is a standby."""

    system: str
    timeline: int
    position: int
    is_standby: bool


class Ended(NamedTuple):
    """The exit status of a command, or 124 after a timeout, and what the command printed."""

    status: int
    out: str
    err: str


# each name in the file, with its field
FIELDS = {
    "TICKET": "ticket", "CLUSTER": "cluster", "DATA": "data", "BIN": "bin", "UNIT": "unit", "OWNER": "owner",
    "SOCKET": "socket", "PORT": "port", "ADDRESS": "address", "PEERS": "peers", "PEER_PORT": "peer_port",
    "ROLE": "role", "PASSFILE": "passfile", "SETTINGS": "settings", "CONFIG": "config", "BASEBACKUP": "copies",
    "ALONE": "alone", "MAX_LAG": "max_lag",
}  # fmt: skip


def run(*words: str, seconds: float = SECONDS_OF_A_COMMAND, env: Optional[Dict[str, str]] = None) -> Ended:
    """Runs a command with a time limit, and returns how it ended."""
    try:
        done = subprocess.run(
            words, stdin=subprocess.DEVNULL, capture_output=True, timeout=seconds, check=False,
            env={**os.environ, "LC_ALL": "C", **(env or {})},
        )  # fmt: skip
    except subprocess.TimeoutExpired:
        return Ended(124, "", f"{words[0]} took more than {seconds:g} s")
    except OSError as why:
        return Ended(127, "", f"{words[0]}: {why.strerror}")
    return Ended(done.returncode, done.stdout.decode(errors="replace"), done.stderr.decode(errors="replace"))


def conf_path(name: str) -> str:
    """Returns the path of the file that has a server's values."""
    return f"{CONF_FOLDER}/{name}.conf"


def kept_path(name: str, what: str) -> str:
    """Returns the path of a note about a server. Notes stay across boots."""
    return f"{KEPT_FOLDER}/{name}.{what}"


def is_kept(server: Server, what: str) -> bool:
    """Returns whether there is such a note about the server."""
    return os.path.exists(kept_path(server.name, what))


def kept_value(server: Server, what: str) -> Optional[str]:
    """Returns the text of a note about a server, or `None` if there is no such note."""
    try:
        with open(kept_path(server.name, what), encoding="utf-8") as file:
            return file.read().strip()
    except OSError:
        return None


def write_whole(path: str, text: str, mode: int = 0o644, owner: Optional[Tuple[int, int]] = None) -> None:
    """Writes a file under a new name and renames it, so that nobody reads a part of it."""
    os.makedirs(os.path.dirname(path), mode=0o755, exist_ok=True)
    new = f"{path}.new"
    handle = os.open(new, os.O_WRONLY | os.O_CREAT | os.O_TRUNC, mode)
    with os.fdopen(handle, "w", encoding="utf-8") as file:
        os.fchmod(handle, mode)
        if owner is not None:
            os.fchown(handle, *owner)
        file.write(text)
        file.flush()
        os.fsync(handle)
    os.rename(new, path)


def keep(server: Server, what: str, text: str = "") -> None:
    """Writes a note about the server, which stays across boots."""
    write_whole(kept_path(server.name, what), f"{text}\n")


def forget(server: Server, what: str) -> None:
    """Removes a note about the server, if it exists."""
    try:
        os.unlink(kept_path(server.name, what))
    except FileNotFoundError:
        pass


def spelled(server: Server) -> str:
    """Returns the text of the file with a server's values, in a form that the shell can read too."""
    lines = ["# Written by booth-postgresql setup: run that again to change it.\n"]
    for name, field in FIELDS.items():
        value = getattr(server, field)
        if isinstance(value, bool):
            value = "yes" if value else "no"
        elif isinstance(value, tuple):
            value = " ".join(value)
        lines.append(f"{name}={shlex.quote(str(value))}\n")
    return "".join(lines)


def load(name: str) -> Server:
    """Reads the values of a server."""
    path = conf_path(name)
    if not NAME.fullmatch(name):
        raise Failed(f"{name!r} is not the name of a server: letters, digits, _, . and -, at most 64 characters")
    try:
        with open(path, encoding="utf-8") as file:
            lines = [line for line in file if line.strip() and not line.startswith("#")]
    except OSError as why:
        raise Failed(f"cannot read {path}: {why.strerror}: booth-postgresql setup writes it") from why
    found: Dict[str, str] = {}
    for line in lines:
        key, _, rest = line.partition("=")
        try:
            words = shlex.split(rest)
        except ValueError as why:
            raise Failed(f"{path}: {key}: {why}") from why
        found[key.strip()] = words[0] if words else ""
    lacking = [key for key in FIELDS if key not in found]
    if lacking:
        raise Failed(f"{path} lacks {', '.join(lacking)}: run booth-postgresql setup again")
    values = {FIELDS[key]: value for key, value in found.items() if key in FIELDS}
    try:
        return Server(
            name=name,
            **{field: values[field] for field in FIELDS.values() if field not in TYPED},  # type: ignore[arg-type]
            port=int(values["port"]),
            peer_port=int(values["peer_port"]),
            max_lag=int(values["max_lag"]),
            peers=tuple(values["peers"].split()),
            copies=values["copies"] == "yes",
            alone=values["alone"] == "yes",
        )
    except ValueError as why:
        raise Failed(f"{path}: {why}") from why


TYPED = ("port", "peer_port", "max_lag", "peers", "copies", "alone")


def owner_words(owner: str) -> Tuple[str, ...]:
    """Returns the prefix of a command that runs as this user, without root's HOME, in which libpq would read files."""
    group = str(pwd.getpwnam(owner).pw_gid)
    return ("env", "-u", "HOME", "setpriv", "--reuid", owner, "--regid", group, "--init-groups")


def as_owner(server: Server, *words: str, seconds: float, env: Optional[Dict[str, str]] = None) -> Ended:
    """Runs a command as the server's user."""
    return run(*owner_words(server.owner), *words, seconds=seconds, env=env)


def psql(server: Server, where: str, sql: str, seconds: float = SECONDS_TO_ANSWER) -> Optional[str]:
    """Returns a server's answer to a statement, or `None` if it does not answer in time."""
    words = (f"{server.bin}/psql", "-XAtqw", "-v", "ON_ERROR_STOP=1", "-d", where, "-c", sql)
    done = as_owner(server, *words, seconds=seconds, env={"PGCONNECT_TIMEOUT": "2"})
    return done.out.rstrip("\n") if done.status == 0 else None


def why_unanswered(server: Server, where: str) -> str:
    """Returns why a server does not answer: the message of psql."""
    words = (f"{server.bin}/psql", "-XAtqw", "-d", where, "-c", "SELECT 1")
    done = as_owner(server, *words, seconds=SECONDS_TO_ANSWER, env={"PGCONNECT_TIMEOUT": "2"})
    lines = [line.strip() for line in done.err.splitlines() if line.strip()]
    return " ".join(lines) if lines else f"psql ended with status {done.status}"


def spot(server: Server, peer: Optional[str] = None, replication: bool = False) -> str:
    """Returns the connection string by which libpq finds the local server, or the server of a peer."""
    if peer is None:
        words = {"host": server.socket, "port": str(server.port), "dbname": "postgres"}
    else:
        words = {"host": peer, "port": str(server.peer_port), "dbname": "postgres", "user": server.role}
        words["passfile"] = server.passfile
    if replication:
        words["replication"] = "yes"
        del words["dbname"]
    return " ".join(f"{key}={libpq_quoted(value)}" for key, value in words.items())


def libpq_quoted(value: str) -> str:
    """Returns a value in the quotes that libpq reads."""
    return "'" + value.replace("\\", "\\\\").replace("'", "\\'") + "'"


def position_of(text: str) -> int:
    """Returns the number of a position in the write-ahead log, for example of 0/3000148."""
    high, _, low = text.partition("/")
    return int(high, 16) * SEGMENTS_BYTES + int(low, 16)


def spelled_position(position: int) -> str:
    """Returns the text of a position."""
    return f"{position // SEGMENTS_BYTES:X}/{position % SEGMENTS_BYTES:X}"


def place_of(server: Server, peer: Optional[str] = None) -> Optional[Place]:
    """Returns the place of the local server or of a peer's server, or `None` if it does not answer."""
    told = psql(server, spot(server, peer, replication=True), "IDENTIFY_SYSTEM")
    recovers = psql(server, spot(server, peer), "SELECT pg_is_in_recovery()") if told else None
    if not told or recovers not in ("t", "f"):
        return None
    fields = told.split("|")
    return Place(fields[0], int(fields[1]), position_of(fields[2]), recovers == "t")


def history_of(server: Server, peer: Optional[str], timeline: int) -> Optional[List[Tuple[int, int]]]:
    """Returns where each ancestor of this timeline ended, the oldest first, or `None` if the server does not answer."""
    if timeline == 1:
        return []
    told = psql(server, spot(server, peer, replication=True), f"TIMELINE_HISTORY {timeline}")
    if told is None:
        return None
    found = re.findall(r"(?:^|\|)(\d+)\t([0-9A-F]+/[0-9A-F]+)", told, re.M)
    return [(int(line), position_of(position)) for line, position in found]


def processes(server: Server) -> List[int]:
    """Returns the server processes whose working directory is the data directory."""
    found = []
    for each in os.listdir("/proc"):
        if each.isdigit():
            try:
                if os.path.samefile(f"/proc/{each}/cwd", server.data):
                    program = os.path.basename(os.readlink(f"/proc/{each}/exe"))
                    if program.split(" ")[0] in ("postgres", "postmaster"):
                        found.append(int(each))
            except OSError:
                continue
    return found


def follower_state(server: Server) -> Dict[str, str]:
    """Returns the state that the follower of the server's ticket has written, or nothing if there is none."""
    try:
        with open(f"{STATE_FOLDER}/{server.ticket}.state", encoding="utf-8") as file:
            return dict(line.rstrip("\n").split("=", 1) for line in file if "=" in line)
    except OSError:
        return {}


def lease(server: Server) -> Optional[record_file.Lease]:
    """Returns the lease that this site holds according to the daemon's record, or `None`."""
    folder = f"{RECORDS_FOLDER}/{os.environ.get('BOOTH_CONF_NAME', 'booth')}"
    try:
        with open(f"{folder}/{server.ticket.encode().hex()}.rec", "rb") as file:
            slot = record_file.in_force(record_file.slots_in(file.read(record_file.FILE_BYTES)))
    except OSError:
        return None
    return None if slot is None or slot.record is None else slot.record.lease


def lease_term(server: Server) -> Optional[int]:
    """Returns the term of the lease that this site holds, or `None`."""
    held = lease(server)
    return None if held is None else held.term


def wait_until(check: Callable[[], bool], seconds: float, pause: float = 0.3) -> bool:
    """Calls `check` until it returns true or the time is over. Returns whether it was true."""
    end = time.monotonic() + seconds
    while not check():
        if time.monotonic() >= end:
            return False
        time.sleep(pause)
    return True


def conninfo(server: Server) -> str:
    """Returns the connection string by which a standby finds the server that it follows."""
    words = {
        "host": ",".join(server.peers), "port": str(server.peer_port), "user": server.role,
        "passfile": server.passfile, "application_name": server.address, "connect_timeout": "3",
    }  # fmt: skip
    if len(server.peers) > 1:
        words["target_session_attrs"] = "read-write"
    return " ".join(f"{key}={libpq_quoted(value)}" for key, value in words.items())


def units(*words: str, seconds: float = SECONDS_OF_A_COMMAND) -> Ended:
    """Runs systemctl."""
    return run("systemctl", *words, seconds=seconds)


def answered(server: Server) -> Sequence[Tuple[str, Place]]:
    """Returns each peer whose server answers, with its place."""
    return [(peer, place) for peer in server.peers for place in [place_of(server, peer)] if place is not None]
