"""Services that follow their ticket on a cluster of real daemons: booth-follow at each site, and its program.

It is imported by tools/demo.py and programs in tests/ and bench/, and not run by itself. It reads which service runs
from one file, into which the services of all sites write, and does not trust booth-follow's own messages.
"""

import os
import signal
import subprocess
import tempfile
from typing import NamedTuple

from members import TICKET, wait_for
from serving import written

# The default work of a service: it writes a line with the time, its site ($0) and its process ten times a second, into
# one file for all sites.
WORK = 'while :; do echo "$(date +%s.%N) $0 $$"; sleep 0.1; done'
# The program of a service with this work. Files make it fail: a stop takes long or never ends, no end can be armed, or
# the next one cannot be armed. A file has the armed end until the service has ended.
SERVICE = """#!/bin/sh
cd {folder} || exit 1
site=$BOOTH_LOCAL
echo "$1 $BOOTH_TICKET $BOOTH_TICKET_EXPIRES ${{BOOTH_TICKET_TERM:-0}}" >>"runs.$site"
# (a zombie has an empty command line; a stop and a kill may run at the same time, so the file may be gone)
runs() {{ pid=$(cat "pid.$site" 2>/dev/null) && grep -q . "/proc/$pid/cmdline" 2>/dev/null; }}
case $1 in
  check) runs && exit 0; exit 3 ;;
  renew)
    [ ! -e "unarmed.$site" ] || exit 1
    ! rm "once.$site" 2>/dev/null || exit 1
    echo "$BOOTH_TICKET_EXPIRES" >"end.$site.new" && exec mv "end.$site.new" "end.$site"
    ;;
  start)
    [ ! -e "fails.$site" ] || exit 1
    runs && exit 0
    setsid sh -c 'echo $$ >"pid.$0"; {work}' "$site" \\
      </dev/null >>lines 2>&1 &
    n=0; while ! runs; do n=$((n + 1)); [ $n -lt 100 ] || exit 1; sleep 0.02; done
    ;;
  stop)
    [ ! -e "slow.$site" ] || sleep "$(cat "slow.$site")"
    [ ! -e "hangs.$site" ] || exec sleep 1000
    runs && kill "$pid" 2>/dev/null
    ;;
  kill) runs && kill -9 "$pid" 2>/dev/null ;;
esac
[ "$1" = start ] || {{ while runs; do sleep 0.01; done; rm -f "pid.$site" "end.$site"; }}
"""


class Spell(NamedTuple):
    """One process of the service: its site, and the times of its first and last line."""

    site: str
    first: float
    last: float


class Services:
    """The services of a ticket at a cluster's sites, and their followers. All of them end with the `with` block."""

    def __init__(self, program, cluster, options=(), ticket=TICKET, work=WORK):
        self.ticket = ticket.decode()
        self.program = program
        self.cluster = cluster
        self.options = options
        self.folder = os.path.join(cluster.folder, "services")
        os.makedirs(self.folder)
        self.script = os.path.join(self.folder, "service")
        with open(self.script, "w", encoding="ascii") as file:
            file.write(SERVICE.format(folder=self.folder, work=work))
        os.chmod(self.script, 0o755)
        self.followers = {}
        self.printed = tempfile.TemporaryFile()

    def path(self, name, member):
        return os.path.join(self.folder, f"{name}.{member.address}")

    def set(self, name, member, text=""):
        with open(self.path(name, member), "w", encoding="ascii") as file:
            file.write(text)

    def follow(self, member, takes_over=False):
        """Starts a follower of the ticket at this site. With `takes_over` it reads the end of an earlier follower."""
        env = dict(os.environ)
        if takes_over:
            env["BOOTH_FOLLOW_END"] = self.path("end", member)
        words = [self.program, "-c", self.cluster.conf, "-s", member.address, "-d", member.records, *self.options]
        streams = {"stdin": subprocess.DEVNULL, "stdout": self.printed, "stderr": self.printed}
        self.followers[member.address] = subprocess.Popen([*words, self.ticket, self.script], env=env, **streams)

    def said(self):
        """Returns what the followers have printed, on both streams."""
        return written(self.printed)

    def kill(self, member):
        """Kills a follower, as a crash does. Its service keeps running."""
        follower = self.followers.pop(member.address)
        follower.kill()
        follower.wait()

    def run(self, member, word):
        """Runs the service's program, as the unit does after a follower has ended."""
        told = {"BOOTH_LOCAL": member.address, "BOOTH_TICKET": self.ticket, "BOOTH_TICKET_EXPIRES": "0"}
        return subprocess.run([self.script, word], env={**os.environ, **told}, stdin=subprocess.DEVNULL).returncode

    def run_lines(self, member):
        """Returns the lines that the program wrote at a site: its word, the ticket, the end and the term."""
        try:
            with open(self.path("runs", member), encoding="ascii") as file:
                return [line.split() for line in file]
        except OSError:
            return []

    def runs(self, member):
        """Returns the words with which the program was run at a site, in order, each with its end."""
        return [(word, int(expires)) for word, _, expires, _ in self.run_lines(member)]

    def terms(self, member):
        """Returns the terms that the starts at a site received, in order."""
        return [int(term) for word, _, _, term in self.run_lines(member) if word == "start"]

    def started_with(self, member):
        """Returns the term that the last start at a site received, or `None` if there is none."""
        terms = self.terms(member)
        return terms[-1] if terms else None

    def words(self, member):
        """Returns the words with which the program was run at a site, except renewals, in order."""
        return [word for word, _ in self.runs(member) if word != "renew"]

    def lines(self):
        """Returns the lines of all services, in order: the time, the site and the process of each."""
        try:
            with open(os.path.join(self.folder, "lines"), encoding="ascii") as file:
                # (the last line may be incomplete)
                return [line.split() for line in file.read().split("\n")[:-1]]
        except OSError:
            return []

    def spells(self):
        """Returns the spell of each process of the service, in the order of their first lines."""
        found = {}
        for time, site, process in self.lines():
            at = float(time)
            first, last = found.get((site, process), (at, at))
            found[site, process] = (min(first, at), max(last, at))
        return sorted((Spell(site, *times) for (site, _), times in found.items()), key=lambda spell: spell.first)

    def overlaps(self):
        """Returns the pairs of consecutive processes that wrote at the same time."""
        spells = self.spells()
        return [(one, other) for one, other in zip(spells, spells[1:]) if other.first <= one.last]

    def process(self, member):
        """Returns the process of a site's service, or `None`."""
        try:
            with open(self.path("pid", member), encoding="ascii") as file:
                number = int(file.read())
            with open(f"/proc/{number}/cmdline", "rb") as words:
                return number if words.read() else None
        except (OSError, ValueError):
            return None

    def is_up(self, member):
        return self.process(member) is not None

    def await_up(self, member, seconds):
        return wait_for(lambda: self.is_up(member), seconds)

    def await_down(self, member, seconds):
        return wait_for(lambda: not self.is_up(member), seconds)

    def __enter__(self):
        return self

    def __exit__(self, *_):
        for follower in self.followers.values():
            follower.kill()
            follower.wait()
        for member in self.cluster.members:
            number = self.process(member)
            if number:
                os.kill(number, signal.SIGKILL)
