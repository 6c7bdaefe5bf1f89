"""Faults of sites that are Pacemaker clusters, each with its expected effect.

It is imported by tests/clusters.py, and not run by itself. A scenario begins with a service that runs at the site which
holds the ticket. It prepares its fault, waits for a phase of the renewal, brings the fault about, watches what comes of
it, and takes the fault away. Then tests/clusters.py waits until all is whole again, and looks at what the writers
noted.
"""

import time
from typing import Callable, Dict, NamedTuple, Optional

from cluster_clocks import COMPILER, own_clock, step
from cluster_faults import (
    Run,
    again,
    apart,
    cut_off,
    ending,
    fault_file,
    fencing,
    hanging,
    no_start,
    standing_still,
)
from cluster_setups import AGENT, DAEMON, FOLLOWER, SECONDS_OF_A_STOP, await_cluster, place
from cluster_world import EXPIRE, TICKET, Unlike

# the service is not touched; it starts at the other node of the site, perhaps only once the daemon there has renewed
# the lease; it starts again once the agent's monitor has found that Pacemaker's ticket is lost; it starts at the other
# site
NONE, SHORT, LOST, LONG = 3.0, 20.0, 30.0, 2.0 * EXPIRE

Story = Callable[[Run], Optional[str]]


class Scenario(NamedTuple):
    """A fault with its name, whether the gate runs it, and the longest time for which the service may run nowhere. It
    may need a program of this machine.
    """

    name: str
    is_for_gate: bool
    most_without: float
    story: Story
    program: str

    def title(self) -> str:
        """Returns a description of the scenario."""
        return (self.story.__doc__ or "").strip().rstrip(".")


SCENARIOS: Dict[str, Scenario] = {}


def scenario(most_without: float, gate: bool = False, program: str = "") -> Callable[[Story], Story]:
    """Makes a function a scenario, with the function's name."""

    def add(story: Story) -> Story:
        name = story.__name__.replace("_", "-")
        SCENARIOS[name] = Scenario(name, gate, most_without, story, program)
        return story

    return add


# ---- nodes


@scenario(SHORT, gate=True)
def daemon_node_dies(run: Run) -> Optional[str]:
    """The node of the daemon and of the service loses its power."""
    node = run.place()
    run.await_phase()
    run.world.kill(node)
    run.watch()
    run.world.boot([node])
    return None


@scenario(SHORT)
def daemon_node_dies_service_elsewhere(run: Run) -> Optional[str]:
    """The node of the daemon loses its power, and the service runs at the other node."""
    node = run.place(service_with_daemon=False)
    run.await_phase()
    run.world.kill(node)
    run.watch()
    run.world.boot([node])
    return None


# (if the end passes during the delay of the device, Pacemaker tries the start again after `failure-timeout`)
@scenario(LONG)
def daemon_node_dies_with_fencing(run: Run) -> Optional[str]:
    """The node of the daemon and of the service loses its power, and the cluster has a fencing device."""
    node = run.place()
    with fencing(run):
        run.await_phase()
        run.world.kill(node)
        run.watch()
        run.world.boot([node])
    return None


@scenario(NONE)
def daemon_node_reboots(run: Run) -> Optional[str]:
    """The node of the daemon reboots, and the service runs at the other node."""
    node = run.place(service_with_daemon=False)
    run.await_phase()
    node.run("systemctl", "reboot", "--no-block")
    run.watch()
    return None


@scenario(SHORT)
def both_reboot(run: Run) -> Optional[str]:
    """The node of the daemon and of the service reboots."""
    node = run.place()
    run.await_phase()
    node.run("systemctl", "reboot", "--no-block")
    run.watch()
    return None


@scenario(SHORT)
def service_node_dies(run: Run) -> Optional[str]:
    """The node of the service loses its power, and the daemon is at the other node."""
    node = run.site.other(run.place(service_with_daemon=False))
    run.await_phase()
    run.world.kill(node)
    run.watch()
    run.world.boot([node])
    return None


@scenario(LOST)
def other_node_blinks(run: Run) -> Optional[str]:
    """The other node loses its power and rejoins before it is missed, so Pacemaker may lose its tickets."""
    node = run.site.other(run.place())
    run.await_phase()
    node.lose_power()
    run.world.boot([node])
    run.watch()
    return None


@scenario(LONG)
def site_dies(run: Run) -> Optional[str]:
    """Both nodes of the site lose their power."""
    run.place()
    run.await_phase()
    for node in run.site.nodes:
        run.world.kill(node)
    run.watch()
    run.world.boot(run.site.nodes)
    return None


# ---- processes


@scenario(LONG)
def daemon_does_not_start(run: Run) -> Optional[str]:
    """The daemon is killed, and fails to start at each node of the site."""
    node = run.place()
    run.await_phase()
    with no_start(run, node, DAEMON):
        run.watch()
    return None


@scenario(LONG)
def follower_does_not_start(run: Run) -> Optional[str]:
    """The follower is killed, and fails to start at each node of the site."""
    node = run.place()
    run.await_phase()
    with no_start(run, node, FOLLOWER):
        run.watch()
    return None


@scenario(LONG)
def follower_ends_at_its_start(run: Run) -> Optional[str]:
    """The follower is killed, and then ends at once at each start, at each node of the site."""
    node = run.place()
    run.await_phase()
    with ending(run, node, FOLLOWER):
        run.watch()
    return None


@scenario(LONG)
def hanging_ticket_command(run: Run) -> Optional[str]:
    """crm_ticket hangs at the site, which is then disconnected from the others."""
    run.place()
    run.await_phase()
    with hanging(run, "crm_ticket"), cut_off(run):
        run.watch()
    return None


@scenario(LONG)
def hanging_change_command(run: Run) -> Optional[str]:
    """cibadmin hangs at the site, which is then disconnected from the others."""
    run.place()
    run.await_phase()
    with hanging(run, "cibadmin"), cut_off(run):
        run.watch()
    return None


@scenario(LONG)
def pacemaker_stands_still(run: Run) -> Optional[str]:
    """All processes of Pacemaker are stopped at the site (SIGSTOP), which is then disconnected from the others."""
    run.place()
    run.await_phase()
    with cut_off(run), standing_still(run):
        run.watch()
    return None


@scenario(LONG)
def pacemaker_stands_still_and_renews(run: Run) -> Optional[str]:
    """All processes of Pacemaker are stopped at the site (SIGSTOP), which reaches the others and renews its lease."""
    run.place()
    run.await_phase()
    with standing_still(run):
        run.watch()
    return None


@scenario(LONG)
def pacemaker_is_stopped(run: Run) -> Optional[str]:
    """An operator stops Pacemaker at both nodes of the site."""
    run.place()
    run.await_phase()
    for node in run.site.nodes:
        node.must("systemctl", "stop", "--no-block", "pacemaker.service")
    run.watch()
    for node in run.site.nodes:
        node.must("systemctl", "start", "pacemaker.service", timeout=120)
    return None


# ---- networks


@scenario(LONG, gate=True)
def site_is_cut(run: Run) -> Optional[str]:
    """The site is disconnected from the others."""
    run.place()
    run.await_phase()
    with cut_off(run):
        run.watch()
    return None


@scenario(LONG)
def each_node_alone(run: Run) -> Optional[str]:
    """Each node of the site is disconnected from all others."""
    run.place()
    run.await_phase()
    for node in run.site.nodes:
        node.cut()
    try:
        run.watch()
    finally:
        for node in run.site.nodes:
            node.cut(False)
    return None


@scenario(SHORT)
def nodes_apart_with_fencing(run: Run) -> Optional[str]:
    """The nodes of the site lose contact with each other, both start the daemon, and fencing ends one of them."""
    run.place()
    with fencing(run):
        run.await_phase()
        with apart(run.site):
            run.watch()
    return None


@scenario(LONG)
def slow_start_and_cut(run: Run) -> Optional[str]:
    """Another resource begins a start of 90 s; then the site is disconnected from the others."""
    run.place()
    run.await_phase()
    role = ["crm_resource", "--resource", "slow", "--meta", "--set-parameter", "target-role", "--parameter-value"]
    run.site.must(*role, "Started")
    run.world.wait(1)
    with cut_off(run):
        run.watch()
    again(run, run.site.nodes)
    await_cluster(run.world, run.site)
    run.site.must(*role, "Stopped")
    return None


@scenario(LONG)
def hanging_stop_and_cut(run: Run) -> Optional[str]:
    """The site is disconnected from the others, and the service's stop hangs."""
    run.place()
    run.await_phase()
    with fault_file(run, "hanging-stop"), cut_off(run):
        run.watch()
    return None


@scenario(LONG)
def decider_dies_at_the_end(run: Run) -> Optional[str]:
    """The site is disconnected from the others, and the node that is the DC dies 1.5 s before the service's end."""
    look = run.site.look()
    if look is None:
        raise Unlike(f"the cluster of {run.site.name} does not answer")
    decider = run.site.node(look.dc)
    place(run.world, run.site, f"{TICKET}-all", AGENT, run.site.other(decider))
    run.await_phase()
    end = run.set_up.end(run.world, run.site)
    with cut_off(run):
        run.world.wait(max(0.0, end - 1.5 - time.time()))
        run.world.kill(decider)
        run.watch()
    run.world.boot([decider])
    return f"{decider.name} died 1.5 s before {time.strftime('%H:%M:%S', time.gmtime(end))}"


@scenario(LONG, program=COMPILER)
def wall_clock_steps(run: Run) -> Optional[str]:
    """The wall clock of the service's node steps back by 60 s for all programs, and the site is disconnected."""
    node = run.place()
    with own_clock(run, node):
        run.set_up.place_daemon(run.world, run.site, node)
        run.place()
        run.await_phase()
        step(node, -60)
        with cut_off(run):
            run.watch()
    return None


@scenario(LONG, program=COMPILER)
def late_clock_and_cut(run: Run) -> Optional[str]:
    """A node's clock is 40 s behind; the site is disconnected when the other node, with daemon and service, dies."""
    node = run.place()
    with own_clock(run, run.site.other(node), -40):
        run.set_up.place_daemon(run.world, run.site, node)
        run.place()
        run.await_phase()
        with cut_off(run):
            run.world.kill(node)
            run.watch()
            run.world.boot([node])
    return None


@scenario(LONG, program=COMPILER)
def clocks_step_back_and_cut(run: Run) -> Optional[str]:
    """The clocks of both nodes step back by 40 s; the site is disconnected when the node of daemon and service dies."""
    node = run.place()
    with own_clock(run, node), own_clock(run, run.site.other(node)):
        run.set_up.place_daemon(run.world, run.site, node)
        run.place()
        run.world.await_renewal(run.site)
        for each in run.site.nodes:
            step(each, -40)
        run.await_phase()
        with cut_off(run):
            run.world.kill(node)
            run.watch()
            run.world.boot([node])
    return None


# ---- operators


@scenario(SHORT, gate=True)
def move(run: Run) -> Optional[str]:
    """An operator moves the ticket to the other site."""
    run.place()
    run.await_phase()
    began = time.monotonic()
    run.set_up.move(run.world, run.site)
    took = time.monotonic() - began
    run.watch()
    return f"moved in {took:.1f} s"


@scenario(SHORT)
def move_with_a_slow_stop(run: Run) -> Optional[str]:
    """An operator moves the ticket to the other site, and the service's stop takes 4 s."""
    run.place()
    run.await_phase()
    with fault_file(run, "slow-stop", f"{SECONDS_OF_A_STOP - 2}\n"):
        began = time.monotonic()
        run.set_up.move(run.world, run.site)
        took = time.monotonic() - began
        run.watch()
    return f"moved in {took:.1f} s"
