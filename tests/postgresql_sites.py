"""Two sites with PostgreSQL on this machine, each with its own mounts and processes, and without systemd.

It is imported by tests/postgresql.py, and not run by itself. A site is a namespace of mounts and one of processes: its
/etc, /var/lib, /run and what it has of the package are its own, and it ends with this process. Both sites are on
loopback. tests/postgresql_units.py stands in for systemd there.
"""

import glob
import os
import shutil
import signal
import socket
import struct
import subprocess
import sys
import tempfile
import time
from typing import Callable, Dict, List, NamedTuple, Optional, Set

import record_file
from checks import Wrong, need

TOP = os.path.dirname(os.path.dirname(os.path.abspath(__file__)))
TICKET, MANUAL, NAME = "db8", "by-hand", "pg"
UNIT, WATCH = f"postgresql-{NAME}.service", f"booth-postgresql@{NAME}.service"
ADDRESSES = {"one": "127.0.0.2", "two": "127.0.0.3"}
OWNER = "postgres"
# the interpreter of the package's programs, which each user may run
PYTHON = "/usr/bin/python3"
NEEDED = ("unshare", "nsenter", "mount", "setpriv", "flock")
SECONDS_OF_A_COMMAND, PATIENCE = 60, 40
SOCKETS = "/run/postgresql"
CONF = f"""\
site       = "{ADDRESSES["one"]}"
site       = "{ADDRESSES["two"]}"
arbitrator = "127.0.0.4"
ticket = "{TICKET}"
  expire = 60
ticket = "{MANUAL}"
  mode = manual
"""
# the settings of the servers that differ from the defaults: small, and quick, because no test cuts the power
SETTINGS = f"""
unix_socket_directories = '{SOCKETS}'
shared_buffers = 16MB
fsync = off
log_min_messages = fatal
listen_addresses = ''
max_wal_size = 64MB
min_wal_size = 32MB
"""
# the site's /etc and programs are copies of this machine's; a write there goes to memory
ENTER = """
set -e
mount -t tmpfs tmpfs {folder}/over
for each in etc usr/sbin usr/share; do
  mkdir -p {folder}/over/$each/upper {folder}/over/$each/work
  mount -t overlay overlay /$each -o lowerdir=/$each,upperdir={folder}/over/$each/upper,workdir={folder}/over/$each/work
done
mount -t tmpfs tmpfs /var/lib
mount -t tmpfs tmpfs /run
install -d -o {owner} {sockets}
install -d /run/booth-follow /etc/booth /etc/systemd/system /usr/share/booth-proved
ln -sf {top}/packaging/booth-postgresql /usr/sbin/booth-postgresql
ln -sf {top}/packaging/follow-postgresql /usr/share/booth-proved/follow-postgresql
exec {python} {top}/tests/postgresql_units.py hold
"""


class Ended(NamedTuple):
    """The outcome of a command: its status, what it printed, and how long it took in seconds."""

    status: int
    printed: str
    took: float


def programs() -> Optional[str]:
    """Returns the directory of PostgreSQL's programs, of the latest installed version."""
    found = [path for path in glob.glob("/usr/lib/postgresql/*/bin") if os.access(f"{path}/pg_rewind", os.X_OK)]
    return max(found, key=lambda path: int(path.split("/")[4]), default=None)


def missing() -> List[str]:
    """Returns what is missing here to run two sites."""
    lacks = [name for name in NEEDED if shutil.which(name) is None]
    if not os.access(PYTHON, os.X_OK):
        lacks.append(PYTHON)
    if programs() is None:
        lacks.append("PostgreSQL's programs below /usr/lib/postgresql")
    if os.geteuid() != 0:
        return [*lacks, "the rights of root"]
    if not lacks:
        done = subprocess.run(["unshare", "--mount", "--pid", "--fork", "--mount-proc", "true"], check=False)
        lacks += ["namespaces of its own"] if done.returncode != 0 else []
    return lacks


def free_port() -> int:
    """Returns a port at which no program listens."""
    with socket.socket() as probe:
        probe.bind((ADDRESSES["one"], 0))
        return int(probe.getsockname()[1])


class Site:
    """A site: its processes, its files, and its server."""

    def __init__(self, folder: str, name: str, port: int) -> None:
        self.name, self.address, self.port = name, ADDRESSES[name], port
        self.folder, self.data = f"{folder}/{name}", f"{folder}/{name}/{NAME}"
        self.bin = programs() or ""
        for part in ("over", "bin"):
            os.makedirs(f"{self.folder}/{part}")
        self.write_program("systemctl", f'exec {sys.executable} {TOP}/tests/postgresql_units.py "$@"\n')
        script = ENTER.format(folder=self.folder, top=TOP, owner=OWNER, sockets=SOCKETS, python=sys.executable)
        # (the site's first process ends when this process ends)
        words = ["setpriv", "--pdeathsig", "KILL", "unshare", "--mount", "--pid", "--fork", "--kill-child"]
        words += ["--mount-proc", "sh", "-c", script]
        self.process = subprocess.Popen(words, stdin=subprocess.DEVNULL, stdout=subprocess.PIPE, env=self.environment())
        assert self.process.stdout is not None
        need(self.process.stdout.readline() == b"holds\n", f"the site {name} does not begin")
        with open(f"/proc/{self.process.pid}/task/{self.process.pid}/children", encoding="ascii") as file:
            self.first = int(file.read().split()[0])
        self.root = f"/proc/{self.first}/root"
        self.write("/etc/booth/booth.conf", CONF)
        self.write("/etc/booth/booth.env", f"ADDRESS={self.address}\n")
        with open(f"{TOP}/packaging/booth-postgresql@.service", encoding="utf-8") as file:
            self.write("/etc/systemd/system/booth-postgresql@.service", file.read().replace("@SBIN@", "/usr/sbin"))

    def environment(self) -> Dict[str, str]:
        """Returns the environment of the programs in the site."""
        return {"PATH": f"{self.folder}/bin:{os.environ['PATH']}:/usr/sbin:/sbin", "LC_ALL": "C.UTF-8"}

    def write_program(self, name: str, text: str) -> None:
        """Writes a program that is found before those of the machine."""
        path = f"{self.folder}/bin/{name}"
        with open(path, "w", encoding="utf-8") as file:
            file.write(f"#!/bin/sh\n{text}")
        os.chmod(path, 0o755)

    # ---- files and commands

    def write(self, path: str, text: str, mode: int = 0o644) -> None:
        """Writes a file of the site."""
        os.makedirs(os.path.dirname(self.root + path), exist_ok=True)
        with open(self.root + path, "w", encoding="utf-8") as file:
            file.write(text)
        os.chmod(self.root + path, mode)

    def read(self, path: str) -> str:
        """Returns the content of a file of the site, or an empty text if it is missing."""
        try:
            with open(self.root + path, encoding="utf-8", errors="replace") as file:
                return file.read()
        except FileNotFoundError:
            return ""

    def entering(self, *words: str) -> List[str]:
        """Returns the command that runs these words inside the site."""
        return ["nsenter", "-t", str(self.first), "-m", "-p", "--", *words]

    def run(self, *words: str, **more: str) -> Ended:
        """Runs a command in the site, with these additional variables."""
        begun = time.monotonic()
        done = subprocess.run(
            self.entering(*words),
            env={**self.environment(), **more},
            stdin=subprocess.DEVNULL,
            stdout=subprocess.PIPE,
            stderr=subprocess.STDOUT,
            timeout=SECONDS_OF_A_COMMAND,
            check=False,
        )
        return Ended(done.returncode, done.stdout.decode(errors="replace").strip(), time.monotonic() - begun)

    def must(self, *words: str, **more: str) -> str:
        """Runs a command that must succeed, and returns what it printed."""
        done = self.run(*words, **more)
        need(done.status == 0, f"{self.name}: {' '.join(words)}: status {done.status}: {done.printed}")
        return done.printed

    def as_owner(self, *words: str) -> str:
        """Runs a command as the server's user."""
        return self.must("setpriv", "--reuid", OWNER, "--regid", OWNER, "--init-groups", *words)

    def word(self, word: str, left: int = 30_000) -> Ended:
        """Runs the service's program with a word, as the follower does."""
        name = "/usr/share/booth-proved/follow-postgresql"
        return self.run(name, NAME, word, BOOTH_TICKET=TICKET, BOOTH_TICKET_LEFT=str(left))

    def tell(self, service: str) -> None:
        """Sets the state of the service that the follower reports."""
        self.write(f"/run/booth-follow/{TICKET}.state", f"service={service}\n")

    def hold(self, term: int, seconds: float) -> None:
        """Writes a record for the daemon: this site holds a lease with this term, which ends after this many seconds.
        """
        until = int((time.time() + seconds) * 1000)
        fields = (record_file.OPEN, 1, 2, term, record_file.HAS_LEASE, term, until, *[0] * 7)
        content = bytes(128) + struct.pack(">B7xQ" + record_file.SECOND_FORM.format[1:], *fields)
        path = f"{self.root}/var/lib/booth/booth/{TICKET.encode().hex()}.rec"
        os.makedirs(os.path.dirname(path), exist_ok=True)
        with open(path, "wb") as file:
            file.write(content)

    def set_up(self, *options: str, ticket: str = TICKET) -> Ended:
        """Runs `booth-postgresql setup`."""
        return self.run("booth-postgresql", "setup", ticket, self.data, "--wal-keep", "32MB", *options)

    def told(self, unit: str = WATCH) -> str:
        """Returns what a unit has printed."""
        return self.read(f"/run/units/{unit}.log")

    # ---- the server

    def make_server(self) -> None:
        """Makes a server that only its own machine can reach, as a first start does, and starts it without a unit."""
        os.makedirs(self.data)
        shutil.chown(self.folder, OWNER)
        shutil.chown(self.data, OWNER)
        self.as_owner(f"{self.bin}/initdb", "-D", self.data, "-A", "trust", "-N", "--no-instructions")
        with open(f"{self.data}/postgresql.conf", "a", encoding="utf-8") as file:
            file.write(f"{SETTINGS}port = {self.port}\n")
        self.control("start")

    def control(self, *words: str) -> None:
        """Starts or stops the server without its unit."""
        self.as_owner(f"{self.bin}/pg_ctl", "-D", self.data, "-l", f"{self.folder}/log", "-w", *words)

    def ask(self, sql: str) -> str:
        """Returns the server's answer, or nothing if it does not answer."""
        words = [f"{self.bin}/psql", "-XAtqw", "-h", SOCKETS, "-p", str(self.port), "-c", sql, "-d", "postgres"]
        done = self.run("timeout", "5", "setpriv", "--reuid", OWNER, "--regid", OWNER, "--init-groups", *words)
        return done.printed if done.status == 0 else ""

    def is_primary(self) -> bool:
        """Returns whether the server is a primary."""
        return self.ask("SELECT pg_is_in_recovery()") == "f"

    def is_standby(self) -> bool:
        """Returns whether the server is a standby that answers."""
        return self.ask("SELECT pg_is_in_recovery()") == "t"

    def streams(self) -> bool:
        """Returns whether the server receives the log of another one."""
        return self.ask("SELECT status FROM pg_stat_wal_receiver") == "streaming"

    def rows(self) -> Set[int]:
        """Returns the numbers of the server's rows."""
        return {int(each) for each in self.ask("SELECT number FROM booth_rows").split()}

    def close(self) -> None:
        """Ends each process of the site."""
        self.process.send_signal(signal.SIGKILL)
        self.process.communicate()


class Pair:
    """The two sites."""

    def __init__(self) -> None:
        self.scratch = tempfile.mkdtemp(prefix="booth-postgresql-")
        os.chmod(self.scratch, 0o755)
        port = free_port()
        self.sites: List[Site] = []
        try:
            for name in ADDRESSES:
                self.sites.append(Site(self.scratch, name, port))
            self.one, self.two = self.sites
        except BaseException:
            self.close()
            raise

    def close(self) -> None:
        """Ends both sites and removes their files."""
        for site in self.sites:
            site.close()
        shutil.rmtree(self.scratch, ignore_errors=True)


def await_that(what: str, check: Callable[[], object], seconds: float = PATIENCE) -> float:
    """Waits until a condition holds, and returns how long this took. Raises `Wrong` if it does not come to hold."""
    begun = time.monotonic()
    while not check():
        if time.monotonic() - begun > seconds:
            raise Wrong(f"{what}: not after {seconds:.0f} s")
        time.sleep(0.2)
    return time.monotonic() - begun
