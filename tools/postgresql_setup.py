"""Puts a PostgreSQL server under a ticket: the steps of `booth-postgresql setup`, each of which is printed.

It is imported by booth-postgresql, and not run by itself.
"""

import os
import pwd
import re
import secrets
import subprocess
import time
from typing import Callable, List, NamedTuple, Optional, Tuple

import configuration
import postgresql_rebuilding as rebuilding
import postgresql_server as pg
from postgresql_finding import Found, configured
from postgresql_server import Failed, Server

UNITS_FOLDER = "/etc/systemd/system"
FOLLOW_FOLDER = f"{configuration.FOLDER}/follow"
BEGIN, END = "# booth-postgresql: begin\n", "# booth-postgresql: end\n"
ONLY_HERE = ("", "localhost", "127.0.0.1", "::1", "localhost,::1", "127.0.0.1,::1")
# settings that a standby must have at least as high as its primary, or it does not start
AT_LEAST_AS_MANY = (
    "max_connections", "max_worker_processes", "max_wal_senders", "max_prepared_transactions",
    "max_locks_per_transaction",
)  # fmt: skip
LEAST_SENDERS = 5
SECONDS_TO_START = 300
PASSWORD_BYTES = 24

DROP_IN = f"""\
# Written by booth-postgresql setup.
[Service]
# this server always starts as a standby: the follower of ticket {{ticket}} promotes it
ExecStartPre=+{pg.PROGRAM} {{name}} standby
"""

UNIT = """\
# Written by booth-postgresql setup.
[Unit]
Description=PostgreSQL {name}
After=network.target

[Service]
User={owner}
ExecStart={bin}/postgres -D {data}
KillMode=mixed
KillSignal=SIGINT
TimeoutStartSec=infinity
TimeoutStopSec=1h
OOMScoreAdjust=-900

[Install]
WantedBy=multi-user.target
"""

RIGHTS = """\
SET synchronous_commit = local;
SET password_encryption = 'scram-sha-256';
DO $$ BEGIN
  IF NOT EXISTS (SELECT FROM pg_catalog.pg_roles WHERE rolname = '{role}') THEN CREATE ROLE {role}; END IF;
END $$;
ALTER ROLE {role} LOGIN REPLICATION PASSWORD '{password}';
GRANT EXECUTE ON FUNCTION pg_catalog.pg_ls_dir(text, boolean, boolean), pg_catalog.pg_stat_file(text, boolean),
  pg_catalog.pg_read_binary_file(text), pg_catalog.pg_read_binary_file(text, bigint, bigint, boolean) TO {role};
"""


class Choices(NamedTuple):
    """The choices of the command line that are not values of the server."""

    is_primary: bool
    restarts: bool
    is_synchronous: bool
    keeps: str
    only_shows: bool


class Steps:
    """Prints each step and then does it, or only prints it for a dry run."""

    def __init__(self, only_shows: bool) -> None:
        self.only_shows = only_shows

    def do(self, what: str, action: Callable[[], object]) -> None:
        """Prints a step, and does it unless this is a dry run."""
        print(f"would {what}" if self.only_shows else what, flush=True)
        if not self.only_shows:
            action()

    def units(self, *words: str) -> None:
        """Runs systemctl."""
        what = f"systemctl {' '.join(words)}"
        self.do(what, lambda: must(pg.units(*words, seconds=SECONDS_TO_START), what))

    def note(self, what: str) -> None:
        """Prints a line about something that needs no step."""
        print(what, flush=True)

    def file(self, path: str, text: str, mode: int = 0o644, owner: Optional[str] = None) -> bool:
        """Writes a file unless it has this text already. Returns whether it had another text."""
        try:
            with open(path, encoding="utf-8") as file:
                if file.read() == text:
                    self.note(f"{path} has this content already")
                    return False
        except OSError:
            pass
        ids = None if owner is None else (pwd.getpwnam(owner).pw_uid, pwd.getpwnam(owner).pw_gid)
        self.do(f"write {path}", lambda: pg.write_whole(path, text, mode, ids))
        return True


def settings_of(server: Server, at: Found, choices: Choices) -> str:
    """Returns the server's settings, for both roles: it may become a primary or a standby."""
    lines = [
        "# Written by booth-postgresql setup: run that again to change it.",
        f"primary_conninfo = {quoted(pg.conninfo(server))}",
        "recovery_target_timeline = 'latest'",
        "hot_standby = on",
        "# pg_rewind needs this to bring back a former primary",
        "wal_log_hints = on",
        f"wal_keep_size = '{choices.keeps}'",
        "# a shutdown waits this long for a peer that is gone; keep it below the margin minus the kill time",
        "wal_sender_timeout = '5s'",
        "wal_receiver_timeout = '5s'",
        "wal_receiver_status_interval = '1s'",
        "wal_retrieve_retry_interval = '1s'",
    ]
    if configured(at, "wal_level") == "minimal":
        lines.append("wal_level = 'replica'")
    if int(configured(at, "max_wal_senders")) < LEAST_SENDERS:
        lines.append(f"max_wal_senders = {LEAST_SENDERS}")
    if listens_here_alone(at) or "listen_addresses" in text_of(server.settings):
        lines.append("listen_addresses = '*'")
    if choices.is_synchronous:
        lines.append("synchronous_standby_names = '*'")
    return "\n".join(lines) + "\n"


def quoted(value: str) -> str:
    """Returns a value in the quotes of postgresql.conf."""
    return "'" + value.replace("\\", "\\\\").replace("'", "''") + "'"


def text_of(path: str) -> str:
    """Returns the text of a file, or an empty text if the file cannot be read."""
    try:
        with open(path, encoding="utf-8") as file:
            return file.read()
    except OSError:
        return ""


def listens_here_alone(at: Found) -> bool:
    """Returns whether the server listens only on addresses of this machine."""
    return configured(at, "listen_addresses").replace(" ", "") in ONLY_HERE


def access_of(server: Server) -> str:
    """Returns the lines of pg_hba.conf by which the sites' servers reach one another."""
    lines = [BEGIN]
    for what in ("postgres", "replication"):
        lines.append(f"local  {what}  {server.owner}  peer\n")
        for address in sorted({server.address, *server.peers}):
            lines.append(f"host   {what}  {server.role}  {address}/{128 if ':' in address else 32}  scram-sha-256\n")
    return "".join([*lines, END])


def with_access(text: str, server: Server) -> str:
    """Returns pg_hba.conf with the lines for the sites' servers at its beginning."""
    rest = re.sub(f"{BEGIN}.*?{END}", "", text, flags=re.S)
    return access_of(server) + rest


def needs_restart(server: Server) -> List[str]:
    """Returns the parameters for which the server must be restarted before another server can follow it."""
    sql = "SELECT name, setting FROM pg_settings WHERE name IN ('listen_addresses', 'wal_level', 'max_wal_senders')"
    told = dict(line.split("|", 1) for line in (pg.psql(server, pg.spot(server), sql) or "").splitlines())
    found = []
    if told.get("listen_addresses", "").replace(" ", "") in ONLY_HERE:
        found.append("listen_addresses")
    if told.get("wal_level") == "minimal":
        found.append("wal_level")
    if int(told.get("max_wal_senders", "0")) < LEAST_SENDERS:
        found.append("max_wal_senders")
    return found


def write_common(steps: Steps, server: Server, at: Found, choices: Choices) -> None:
    """Writes the files that a primary and a standby both have."""
    access_file = configured(at, "hba_file")
    steps.file(server.settings, settings_of(server, at, choices))
    if not server.settings.startswith(at.config_folder):
        line = f"include_if_exists = '{server.settings}'\n"
        text = text_of(at.config)
        if line not in text:
            steps.file(at.config, f"{text.rstrip()}\n{line}", 0o600, server.owner)
    if not choices.only_shows and configured(at, "wal_log_hints") != "on":
        raise Failed(f"{at.config} does not include {server.settings}: add include_dir = 'conf.d' to it")
    steps.file(access_file, with_access(text_of(access_file), server), 0o640, server.owner)
    steps.file(pg.conf_path(server.name), pg.spelled(server))


def write_units(steps: Steps, server: Server, at: Found) -> None:
    """Configures the unit to start a standby, the follower to run the server, and starts the unit that watches it."""
    if at.is_unit_ours:
        steps.file(f"{UNITS_FOLDER}/{server.unit}", UNIT.format(**server._asdict()))
    steps.file(f"{UNITS_FOLDER}/{server.unit}.d/booth.conf", DROP_IN.format(**server._asdict()))
    steps.do(f"make {pg.KEPT_FOLDER}", lambda: os.makedirs(pg.KEPT_FOLDER, mode=0o755, exist_ok=True))
    follow = f"{FOLLOW_FOLDER}/{server.ticket}.env"
    line = f"PROGRAM={pg.PROGRAM} {server.name}\n"
    others = [each for each in text_of(follow).splitlines(True) if not each.startswith("PROGRAM=")]
    steps.file(follow, "".join([*others, line]))
    steps.units("daemon-reload")
    if at.is_unit_ours:
        steps.units("enable", server.unit)
    # (restart: if the watching unit runs already, it has the old values)
    for word in ("enable", "restart"):
        steps.units(word, watch_of(server))


def watch_of(server: Server) -> str:
    """Returns the unit that watches the server."""
    return f"booth-postgresql@{server.name}.service"


def must(done: pg.Ended, what: str) -> None:
    """Raises `Failed` unless a command succeeded."""
    if done.status != 0:
        raise Failed(f"{what} ended with status {done.status}: {rebuilding.last_line(done.err)}")


def write_password(steps: Steps, server: Server) -> str:
    """Returns the password of the role. Makes one if its file is missing."""
    parts = text_of(server.passfile).strip().rsplit(":", 1)
    if len(parts) == 2:
        steps.note(f"{server.passfile} has the password of {server.role}")
        return parts[1]
    password = secrets.token_hex(PASSWORD_BYTES)
    steps.file(server.passfile, f"*:*:*:{server.role}:{password}\n", 0o600, server.owner)
    return password


def run_sql(server: Server, sql: str) -> None:
    """Runs statements at the local server, and raises `Failed` if one fails."""
    program = (f"{server.bin}/psql", "-XAtqw", "-v", "ON_ERROR_STOP=1", "-d", pg.spot(server))
    words = (*pg.owner_words(server.owner), *program)
    try:
        done = subprocess.run(words, input=sql, capture_output=True, text=True, timeout=SECONDS_TO_START, check=False)
    except subprocess.TimeoutExpired as why:
        raise Failed(f"the role {server.role} was not made within {SECONDS_TO_START} s") from why
    if done.returncode != 0:
        raise Failed(f"cannot make the role {server.role}: {rebuilding.last_line(done.stderr)}")


def set_up_primary(server: Server, at: Found, choices: Choices) -> None:
    """Puts a server that runs as the primary under the ticket. Restarts it only if this is needed and allowed."""
    steps = Steps(choices.only_shows)
    recovers = pg.psql(server, pg.spot(server), "SELECT pg_is_in_recovery()")
    if recovers is None:
        why = pg.why_unanswered(server, pg.spot(server))
        raise Failed(f"no server answers at {server.socket}, port {server.port}: {why}: systemctl start {server.unit}")
    if recovers == "t":
        raise Failed("this server is a standby: run setup --primary where the primary runs, and --standby here")
    restart = needs_restart(server)
    is_under = os.path.exists(f"{UNITS_FOLDER}/{server.unit}.d/booth.conf")
    if restart and at.is_unit_ours and not is_under:
        raise Failed(
            f"the server must be restarted once, for {', '.join(restart)}, and has no unit: set them manually, "
            "restart the server, and run setup again"
        )
    if restart and not choices.restarts and not is_under:
        raise Failed(f"the server must be restarted once, for {', '.join(restart)}: add --restart to allow this now")
    password = write_password(steps, server)
    write_common(steps, server, at, choices)
    if restart and not is_under:
        steps.note(f"these settings need a restart: {', '.join(restart)}")
        steps.units("restart", server.unit)
        if not choices.only_shows and not pg.wait_until(lambda: pg.place_of(server) is not None, SECONDS_TO_START):
            raise Failed(f"the server does not answer after its restart: see journalctl -u {server.unit}")
    else:
        steps.do("reload the server's settings", lambda: pg.psql(server, pg.spot(server), "SELECT pg_reload_conf()"))
    rights = RIGHTS.format(role=server.role, password=password)
    steps.do(f"make the role {server.role}, which may replicate and rewind", lambda: run_sql(server, rights))
    write_units(steps, server, at)
    steps.note(
        f"The primary keeps running. Copy {server.passfile} to {' and '.join(server.peers)},\n"
        f"run setup --standby there, and grant the ticket here. Then start the follower at each site:\n"
        f"systemctl enable --now booth-follow@{server.ticket}"
    )


def fault_of_password(server: Server) -> Optional[str]:
    """Returns why the password of the role cannot be used, or `None` if it can."""
    if not text_of(server.passfile).strip():
        return f"{server.passfile} is missing: copy it from the primary's site"
    return None


def check_sizes(server: Server, at: Found, address: str) -> List[str]:
    """Returns the settings that are too low for a standby of this primary, each with the primary's value."""
    names = ", ".join(f"'{name}'" for name in AT_LEAST_AS_MANY)
    sql = f"SELECT name, setting FROM pg_settings WHERE name IN ({names})"
    told = pg.psql(server, pg.spot(server, address), sql) or ""
    theirs = dict(line.split("|", 1) for line in told.splitlines())
    return [f"{name} = {value}" for name, value in theirs.items() if int(configured(at, name)) < int(value)]


def local_system(server: Server) -> Optional[str]:
    """Returns the identifier of the database in the directory, or `None`. No server needs to run."""
    done = pg.as_owner(server, f"{server.bin}/pg_controldata", "-D", server.data, seconds=10)
    parts = re.search(r"^Database system identifier: *(\d+)$", done.out, re.M)
    return parts[1] if parts else None


def set_up_standby(server: Server, at: Found, choices: Choices) -> None:
    """Makes the local server a standby of the primary. Its old data stay in `.booth-old`."""
    steps = Steps(choices.only_shows)
    fault = fault_of_password(server)
    if fault is not None:
        raise Failed(fault)
    owner = pwd.getpwnam(server.owner)
    what = f"make {server.passfile} readable for {server.owner} only"
    steps.do(what, lambda: give(server.passfile, owner.pw_uid, owner.pw_gid))
    if choices.only_shows and os.stat(server.passfile).st_uid != owner.pw_uid:
        steps.note(f"would then ask the primary as {server.owner}: the next steps depend on its answer")
        return
    address, place = primary_of(server)
    short = check_sizes(server, at, address)
    if short:
        raise Failed(f"a setting here is lower than at {address}: set at least {', '.join(short)} in {at.config}")
    write_common(steps, server, at, choices)
    system = local_system(server)
    # (a cloned machine has the same system identifier, but is not therefore a standby)
    is_standby = system == place.system and os.path.exists(f"{server.data}/standby.signal")
    if is_standby and not pg.is_kept(server, "rebuilding"):
        steps.note(f"{server.data} has the database of {address} already")
    else:
        fault = rebuilding.fault_of_copy(server)
        if fault is not None:
            raise Failed(fault)
        if at.is_unit_ours:
            steps.file(f"{UNITS_FOLDER}/{server.unit}", UNIT.format(**server._asdict()))
            steps.units("daemon-reload")
        steps.units("stop", watch_of(server), server.unit)
        steps.do(f"copy the data of {address} to {server.data}", lambda: copied(server, address))
    write_units(steps, server, at)
    steps.units("restart", server.unit)
    if not choices.only_shows and not pg.wait_until(lambda: is_streaming(server), 60):
        raise Failed(f"the standby does not receive the log of {address}: the server's own log has the cause")
    if not choices.only_shows:
        pg.keep(server, "in-step", str(int(time.time())))
    steps.note(
        f"The standby follows {address}. When the ticket is granted, start the follower here too:\n"
        f"systemctl enable --now booth-follow@{server.ticket}"
    )


def primary_of(server: Server) -> Tuple[str, pg.Place]:
    """Returns the peer that is the primary, with its place."""
    primaries = [(address, place) for address, place in pg.answered(server) if not place.is_standby]
    if not primaries:
        whys = [f"{peer}: {pg.why_unanswered(server, pg.spot(server, peer))}" for peer in server.peers]
        raise Failed(
            f"no primary answers {server.role} at port {server.peer_port}. Run setup --primary there first, with this "
            f"site's address as its peer, and open the port. {'; '.join(whys)}"
        )
    if len(primaries) > 1:
        raise Failed(f"several peers are primaries: {', '.join(address for address, _ in primaries)}")
    return primaries[0]


def give(path: str, user: int, group: int) -> None:
    """Sets the owner of a file, who alone may read and write it."""
    os.chown(path, user, group)
    os.chmod(path, 0o600)


def copied(server: Server, address: str) -> None:
    """Copies the data, and raises `Failed` if the copy fails."""
    if pg.processes(server):
        raise Failed(f"a server that {server.unit} did not start runs on {server.data}: stop it")
    reasons: List[str] = []
    if not rebuilding.copy(server, address, reasons.append):
        raise Failed("; ".join(reasons))
    for what in ("rebuilding", "timeline", "former"):
        pg.forget(server, what)


def is_streaming(server: Server) -> bool:
    """Returns whether the local standby receives the primary's log."""
    return pg.psql(server, pg.spot(server), "SELECT status FROM pg_stat_wal_receiver") == "streaming"
