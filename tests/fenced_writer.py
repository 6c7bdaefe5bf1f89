#!/usr/bin/env python3
"""The service of a site for tests/fencing.py: it writes to stores all the time, with and without the term of its lease.

Run it as `python3 tests/fenced_writer.py ADDRESS TICKET ANSWERS TARGET ..` with the variables that booth-follow
sets. It ends with status 1 if they have no term. Otherwise it writes to each target ten times a second, and appends
to the file ANSWERS a line for each write: the target, the write's number, and `ok` with the store's own number for
it or `refused` with the reason. A target is `store:URL` or `sql:OPTIONS TABLE`, where OPTIONS are those of psql; a
`!` before it leaves the term out.
"""

import os
import shlex
import subprocess
import sys
import time
import urllib.error
import urllib.request
from typing import Dict, NamedTuple

SECONDS_TO_ANSWER, SECONDS_OF_A_COMMAND = 5, 30
PAUSE = 0.1


class Lease(NamedTuple):
    """The site's address, and its lease of a ticket."""

    address: str
    ticket: str
    term: int


def put(url: str, lease: Lease, shown: bool, count: int) -> str:
    """Writes to the store, and returns its answer."""
    headers = {"Booth-Ticket": lease.ticket, "Booth-Term": str(lease.term)} if shown else {}
    data = f"{lease.address} {count}\n".encode()
    try:
        request = urllib.request.Request(url, data=data, headers=headers, method="PUT")
        with urllib.request.urlopen(request, timeout=SECONDS_TO_ANSWER) as answer:
            return f"ok {answer.read().decode().strip()}"
    except urllib.error.HTTPError as why:
        return f"refused {why.code} {why.read().decode().strip()}"
    except OSError as why:
        return f"failed {why}"


def insert(options: str, lease: Lease, shown: bool, count: int) -> str:
    """Writes a row by psql, and returns what it printed. The last of the options is the table."""
    *words, table = shlex.split(options)
    settings = {"PGOPTIONS": f"-c booth.ticket={lease.ticket} -c booth.term={lease.term}"} if shown else {}
    env: Dict[str, str] = {**os.environ, **settings}
    sql = f"INSERT INTO {table} (site, count) VALUES ('{lease.address}', {count}) RETURNING number"
    words = ["psql", "-XqAt", "-v", "VERBOSITY=terse", *words, "-c", sql]
    streams = {"stdin": subprocess.DEVNULL, "stdout": subprocess.PIPE, "stderr": subprocess.STDOUT}
    done = subprocess.run(words, env=env, text=True, check=False, timeout=SECONDS_OF_A_COMMAND, **streams)
    first = done.stdout.strip().partition("\n")[0]
    return f"{'ok' if done.returncode == 0 else 'refused'} {first}"


def write(target: str, lease: Lease, count: int) -> str:
    """Writes once to a target, and returns the line about this write."""
    kind, _, place = target.lstrip("!").partition(":")
    answer = {"store": put, "sql": insert}[kind](place, lease, not target.startswith("!"), count)
    return f"{target.partition(':')[0]} {count} {answer}\n"


def main(address: str, ticket: str, answers: str, *targets: str) -> int:
    """Writes until the process is ended."""
    lease = Lease(address, ticket, int(os.environ.get("BOOTH_TICKET_TERM", "0")))
    if lease.term == 0:
        print("fenced_writer.py: BOOTH_TICKET_TERM is 0", file=sys.stderr)
        return 1
    count = 0
    while True:
        count += 1
        for target in targets:
            with open(answers, "a", encoding="utf-8") as file:
                file.write(write(target, lease, count))
        time.sleep(PAUSE)


if __name__ == "__main__":
    sys.exit(main(*sys.argv[1:]))
