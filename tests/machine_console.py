"""The console and the doctor on booted machines, from the package: a scenario of tests/machines.py.

It is imported by tests/machines.py, and not run by itself.
"""

import json
import time
from typing import Any, Dict, Optional

from booted import Machine
from machine_scenarios import NONE, scenario
from machine_sites import PATIENCE, TICKET, UNIT, Unlike, World

CONSOLE = "booth-console.service"
# asks a path of the console, and prints the status and the content; the status is 000 while nobody listens there
ASK = """\
import sys, urllib.error, urllib.request
try:
    came = urllib.request.urlopen("http://127.0.0.1:9930" + sys.argv[1], timeout=20)
except urllib.error.HTTPError as why:
    came = why
except urllib.error.URLError as why:
    sys.exit(print("000", why.reason))
print(came.status, came.read().decode())
"""
# the questions of the doctor that must be answered well (a container has neither a clock program nor a watchdog)
WELL = ("configuration", "member", "key", "daemon", "members", "tcp", "fragments", "sync", "followers", "restart")
# how much memory the console may take, in bytes
MOST_MEMORY = 200_000_000


def asked(machine: Machine, path: str) -> str:
    """Returns what the console of a machine answers: the status, and the content; nothing if it does not answer."""
    done = machine.run("timeout", "30", "python3", "-c", ASK, path)
    return done.stdout.decode(errors="replace").strip() if done.returncode == 0 else ""


def document(machine: Machine) -> Dict[str, Any]:
    """Returns the console's document."""
    return json.loads(asked(machine, "/status.json").partition(" ")[2])


def kinds(machine: Machine) -> set:
    """Returns the kinds of the problems that a machine's console sees."""
    return {each["kind"] for each in document(machine)["problems"]}


def need(holds: object, what: str) -> None:
    """Raises `Unlike` if something does not hold."""
    if not holds:
        raise Unlike(what)


@scenario(NONE, gate=True)
def console(world: World, holder: Machine) -> Optional[str]:
    """The console runs at each member and shows the holder, the log and a cut, and the doctor answers its questions."""
    machines = list(world.machines.values())
    for machine in machines:
        began = time.monotonic()
        machine.must("systemctl", "start", CONSOLE)
        answers = lambda machine=machine: asked(machine, "/healthz")[:3] == "200"
        try:
            world.await_that(f"the console of {machine.name}", answers)
        except Unlike as why:
            said = f"{asked(machine, '/healthz')} {world.told(machine, CONSOLE, began)}"
            raise Unlike(f"{why}: {said.strip()}") from why
    told = document(holder)
    ticket = next(each for each in told["tickets"] if each["name"] == TICKET)
    need(ticket["owner"] == holder.address and told["site"] == holder.address, f"{holder.name}: {ticket}")
    need(ticket["service"]["shown"] == "running here", f"{holder.name}: {ticket['service']}")
    # (the daemon's user reads the daemon's log)
    need(told["no_log"] is None, f"{holder.name}: {told['no_log']}")
    events = [each["text"] for each in told["events"] if each["source"] == "log"]
    need(any(f"ticket {TICKET}: gains the lease of term" in each for each in events), f"{holder.name}: {events}")
    metrics = asked(holder, "/metrics")
    need(f'booth_service_running{{ticket="{TICKET}"}} 1' in metrics, metrics[-2000:])
    need("booth_records_unwritten 0" in metrics, metrics[-2000:])
    need("running here" in asked(holder, "/"), "the page has no service")
    for machine in machines:
        diagnosed(machine)
    shows_a_cut(world, holder)
    shows_a_server_that_is_down(world, holder)
    status = holder.must("cat", f"/proc/{world.pid(holder, CONSOLE)}/status")
    memory = int(status.partition("VmRSS:")[2].split()[0]) * 1024
    need(memory < MOST_MEMORY, f"the console takes {memory} bytes")
    restarts = holder.must("systemctl", "show", "-P", "NRestarts", CONSOLE).strip()
    need(restarts == "0", f"systemd restarted the console {restarts} times")
    return f"the console takes {memory / 1e6:.0f} MB"


def diagnosed(machine: Machine) -> None:
    """Checks that the doctor answers each question well that can be answered well in a container."""
    done = machine.run("booth-status", "--doctor", "--members", "-j")
    need(done.returncode in (0, 1, 2), f"{machine.name}: {done.stderr.decode(errors='replace')}")
    answers = json.loads(done.stdout)["answers"]
    wrong = [each for each in answers if each["question"] in WELL and each["answer"] not in ("ok", "warning")]
    need(not wrong, f"{machine.name}: {wrong}")
    need({each["question"] for each in answers} >= set(WELL), f"{machine.name}: {answers}")


def shows_a_cut(world: World, holder: Machine) -> None:
    """Disconnects the arbitrator until the holder's console shows that it is silent."""
    world.third.cut()
    try:
        world.await_that("the arbitrator is silent", lambda: {"silent", "unreachable"} & kinds(holder))
    finally:
        world.third.cut(False)
    world.await_that("the arbitrator answers", lambda: not {"silent", "unreachable"} & kinds(holder), PATIENCE)


def shows_a_server_that_is_down(world: World, holder: Machine) -> None:
    """Has the state of the service be that of one that ended, which is critical, and restores it."""
    path = f"/run/booth-follow/{TICKET}.state"

    def is_shown() -> bool:
        # (the follower writes its state again at the next renewal)
        holder.must("sed", "-i", "s/^service=running/service=ended/", path)
        return asked(holder, "/healthz").startswith("503 BOOTH CRITICAL")

    try:
        world.await_that("the service is down", is_shown, 20)
    finally:
        holder.must("sed", "-i", "s/^service=ended/service=running/", path)
    world.await_that("the service runs", lambda: asked(holder, "/healthz").startswith("200"), PATIENCE)
    need(holder.run("systemctl", "is-active", UNIT).stdout.decode().strip() == "active", f"{UNIT} does not run")
