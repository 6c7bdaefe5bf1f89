"""The stores of tests/fencing.py: the one in examples/, and PostgreSQL with the fence in examples/.

It is imported by tests/fencing.py, and not run by itself.
"""

import http.client
import os
import pwd
import shutil
import subprocess
import sys
from typing import Dict, List, NamedTuple, Optional, Tuple

from checks import Wrong, need
from postgresql_sites import OWNER, programs

TOP = os.path.dirname(os.path.dirname(os.path.abspath(__file__)))
STORE = f"{TOP}/examples/fenced_store.py"
SQL = f"{TOP}/examples/fence.sql"
SECONDS_OF_A_COMMAND = 60
# (both tables take the same rows, and only one of them uses the fence)
TABLES = """
CREATE TABLE plain (number serial, site text, count int);
CREATE TABLE fenced (LIKE plain INCLUDING ALL);
CREATE TRIGGER fence BEFORE INSERT OR UPDATE OR DELETE OR TRUNCATE ON fenced
    FOR EACH STATEMENT EXECUTE FUNCTION fenced();
"""
SETTINGS = "listen_addresses = ''\nfsync = off\nshared_buffers = 16MB\nunix_socket_directories = '{folder}'\n"


class Answer(NamedTuple):
    """The store's answer: the HTTP status, and the text."""

    status: int
    text: str


class Store:
    """The store in examples/, run in its own process in a `with` block."""

    def __init__(self, folder: str, *options: str) -> None:
        self.folder = folder
        self.options = options

    def __enter__(self) -> "Store":
        words = [sys.executable, STORE, *self.options, self.folder, "127.0.0.1", "0"]
        self.process = subprocess.Popen(words, stdin=subprocess.DEVNULL, stdout=subprocess.PIPE, text=True)
        assert self.process.stdout is not None
        line = self.process.stdout.readline()
        need(line.startswith("serves at 127.0.0.1:"), f"the store printed {line!r}")
        self.port = int(line.rpartition(":")[2])
        return self

    def __exit__(self, *_: object) -> None:
        self.process.kill()
        self.process.wait()

    def url(self, name: str) -> str:
        """Returns the URL of an object."""
        return f"http://127.0.0.1:{self.port}/{name}"

    def ask(self, method: str, name: str, body: Optional[str] = None, **shown: str) -> Answer:
        """Makes a request. `shown` has the ticket and the term that the request shows."""
        link = http.client.HTTPConnection("127.0.0.1", self.port, timeout=10)
        try:
            headers = {f"Booth-{word.title()}": text for word, text in shown.items()}
            link.request(method, f"/{name}", body=body, headers=headers)
            answer = link.getresponse()
            return Answer(answer.status, answer.read().decode().strip())
        finally:
            link.close()


class Postgres:
    """A server with the fence and two tables, in a `with` block. Its socket is in its folder."""

    def __init__(self, folder: str) -> None:
        self.folder = folder
        self.data = f"{folder}/data"
        self.bin = programs()
        # (PostgreSQL refuses to run as root)
        self.is_root = os.geteuid() == 0

    def as_owner(self, *words: str) -> List[str]:
        """Returns the command that runs this as the server's owner."""
        become = ["setpriv", "--reuid", OWNER, "--regid", OWNER, "--init-groups"] if self.is_root else []
        return [*become, *words]

    def must(self, *words: str) -> None:
        """Runs a program of PostgreSQL that must succeed."""
        command = self.as_owner(f"{self.bin}/{words[0]}", *words[1:])
        streams = {"stdin": subprocess.DEVNULL, "stdout": subprocess.DEVNULL, "stderr": subprocess.PIPE}
        done = subprocess.run(command, cwd=self.folder, timeout=SECONDS_OF_A_COMMAND, check=False, **streams)
        need(done.returncode == 0, f"{words[0]} ended with {done.returncode}: {done.stderr!r}")

    def __enter__(self) -> "Postgres":
        os.makedirs(self.folder)
        # (the folder of the test is its user's alone)
        os.chmod(os.path.dirname(self.folder), 0o755)
        if self.is_root:
            owner = pwd.getpwnam(OWNER)
            os.chown(self.folder, owner.pw_uid, owner.pw_gid)
        self.must("initdb", "-D", self.data, "-A", "trust", "-N", "--no-instructions", "-U", "fencing")
        with open(f"{self.data}/postgresql.conf", "a", encoding="utf-8") as file:
            file.write(SETTINGS.format(folder=self.folder))
        self.must("pg_ctl", "-D", self.data, "-l", f"{self.folder}/log", "-w", "start")
        done = self.run("-f", SQL)
        need(done[0] == 0, f"{SQL} is refused: {done[1]}")
        done = self.run("-c", TABLES)
        need(done[0] == 0, f"the tables are refused: {done[1]}")
        return self

    def __exit__(self, *_: object) -> None:
        self.must("pg_ctl", "-D", self.data, "-m", "immediate", "-w", "stop")

    def options(self) -> str:
        """Returns the options with which psql reaches the server."""
        return f"-h {self.folder} -U fencing -d postgres"

    def run(self, *words: str, **shown: str) -> Tuple[int, str]:
        """Runs psql with the term and ticket that its session shows, and returns its status and output."""
        settings = " ".join(f"-c booth.{name}={text}" for name, text in shown.items())
        env: Dict[str, str] = {**os.environ, "PGOPTIONS": settings}
        settings_of_psql = ["-v", "ON_ERROR_STOP=1", "-v", "VERBOSITY=terse"]
        command = ["psql", "-XqAt", *settings_of_psql, *self.options().split(), *words]
        streams = {"stdin": subprocess.DEVNULL, "stdout": subprocess.PIPE, "stderr": subprocess.STDOUT}
        done = subprocess.run(command, env=env, timeout=SECONDS_OF_A_COMMAND, text=True, check=False, **streams)
        return done.returncode, done.stdout.strip()

    def rows(self, table: str) -> List[Tuple[str, int]]:
        """Returns the rows of a table in the order of their writes: the site of each, and its number there."""
        status, printed = self.run("-c", f"SELECT site, count FROM {table} ORDER BY number")
        if status != 0:
            raise Wrong(f"cannot read {table}: {printed}")
        return [(site, int(count)) for site, count in (line.split("|") for line in printed.splitlines())]


def postgres_lacks() -> List[str]:
    """Returns what is missing for the tests with PostgreSQL."""
    lacks = [name for name in ("psql", "setpriv") if shutil.which(name) is None]
    if programs() is None:
        lacks.append("PostgreSQL's programs below /usr/lib/postgresql")
    return lacks
