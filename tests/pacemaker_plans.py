#!/usr/bin/env python3
"""Checks the changes of booth-pacemaker in a CIB, and the Pacemaker part of booth-status, against their manual pages.

Run it as `python3 tests/pacemaker_plans.py`. It needs no Pacemaker and nothing that is built: CIBs and what crm_mon
prints are arranged. It takes a second, prints a line for each story, and has the status 1 if one failed.
"""

import os
import sys
import xml.etree.ElementTree as ElementTree
from typing import Callable, Dict, List

HERE = os.path.dirname(os.path.abspath(__file__))
sys.path[:0] = [HERE, f"{HERE}/../tools"]

import pacemaker_asking
import pacemaker_checks
import pacemaker_cib
import pacemaker_fencing
import pacemaker_margin
import pacemaker_plan
import pacemaker_status
from checks import need
from configuration import Configuration, Member, Ticket
from lease_holding import Now
from pacemaker_cib import CLOSED, Cib, Times
from pacemaker_plan import AgentWish, Step, Wish
from pacemaker_room import CLONE, GROUP, date, same
from scratch import scratch

END = "2026-12-01 02:00:00Z"
TIMES = Times(60, 10, 2)
WISH = Wish("db8", ("all",), TIMES, CLOSED)
TICKET = Ticket("db8", False, 60, 0, 5, 10, 20.0, None)
MEMBERS = [Member("site", "192.0.2.10"), Member("site", "192.0.2.20")]
CONF = Configuration("/etc/booth/booth.conf", MEMBERS, [TICKET], 9929, 600, None)
stories: List[Callable[[], None]] = []


def story(function: Callable[[], None]) -> Callable[[], None]:
    """Adds a story to the list of stories."""
    stories.append(function)
    return function


def cib(resources: str = GROUP, constraints: str = "", config: str = "", status: str = "") -> Cib:
    """Returns a CIB with these parts."""
    text = f"<crm_config>{config}</crm_config><resources>{resources}</resources><constraints>{constraints}</constraints>"
    return pacemaker_cib.parsed(f"<cib><configuration>{text}</configuration>{status}</cib>".encode())


def after(before: str, steps: List[Step]) -> Cib:
    """Returns the CIB after steps that put constraints and the times into it."""
    elements, config = [], ""
    resources = ElementTree.fromstring(f"<resources>{before}</resources>")
    for step in steps:
        if step.words[1] == "--modify":
            changed = ElementTree.fromstring(step.words[-1])
            (there,) = [each for each in resources.iter(changed.tag) if each.get("id") == changed.get("id")]
            there.extend(changed)
        elif step.words[0] == "cibadmin":
            elements.append(step.words[-1])
        else:
            name, value = step.words[step.words.index("--name") + 1], step.words[-1]
            pair = f'<nvpair id="n" name="{name}" value="{value}"/>'
            config = f'<cluster_property_set id="s">{pair}</cluster_property_set>'
    return cib("".join(ElementTree.tostring(each, "unicode") for each in resources), "".join(elements), config)


@story
def a_setup_is_whole_and_may_be_repeated() -> None:
    """a setup writes times, rule and ticket, in this order, and a second setup changes nothing"""
    steps = pacemaker_plan.steps(cib(), WISH)
    same([step.words[0] for step in steps], ["crm_attribute", *["cibadmin"] * 3], "the commands")
    whole = after(GROUP, steps)
    (lease,) = whole.leases()
    same((lease.end, lease.times, lease.resources), (CLOSED, TIMES, ("all",)), "the lease")
    same([each.id for each in lease.primitives], ["svc", "two"], "the primitives")
    same(pacemaker_plan.steps(whole, WISH), [], "a second setup")
    # the end that is in force stays, whatever else changes
    moved = cib(GROUP, "".join(step.words[-1] for step in steps[2:]).replace(CLOSED, END))
    (rule,) = [step for step in pacemaker_plan.steps(moved, WISH._replace(resources=("svc",))) if "rule" in step.what]
    need(rule.words[1] == "--replace" and f'start="{END}"' in rule.words[-1], f"{rule}")


@story
def promoted_instances_have_a_lease_of_their_own() -> None:
    """a promotable clone gets a rule and a ticket for its promoted instances only"""
    resources = GROUP + CLONE
    whole = after(resources, pacemaker_plan.steps(cib(resources), WISH._replace(resources=("all", "pg-clone"))))
    same([(lease.key(), lease.resources) for lease in whole.leases()],
         [("booth-lease.db8", ("all",)), ("booth-promoted.db8", ("pg-clone",))], "the leases")  # fmt: skip
    rules = [each.get("role") for each in whole.root.iter("rule")]
    sets = [(each, inside) for each in whole.root.iter("rsc_ticket") for inside in each.findall("resource_set")]
    policies = [(each.get("loss-policy"), inside.get("role")) for each, inside in sets]
    same((rules, policies), ([None, "Promoted"], [("stop", None), ("demote", "Promoted")]), "their roles")


@story
def constraints_that_are_there_count() -> None:
    """an operator's own constraint on the ticket stays, and a constraint that ends nothing is refused"""
    own = '<rsc_ticket id="mine" rsc="all" ticket="db8" loss-policy="fence"/>'
    need(not any("depend" in step.what for step in pacemaker_plan.steps(cib(constraints=own), WISH)), "a second ticket")
    try:
        pacemaker_plan.steps(cib(constraints=own.replace("fence", "freeze")), WISH)
    except ValueError as why:
        need("loss-policy=freeze, which ends nothing" in str(why), str(why))
    else:
        need(False, "a constraint that freezes was taken")


@story
def a_removal_leaves_the_ticket() -> None:
    """a removal deletes rule and times, and deletes the ticket's constraint only if that is requested"""
    whole = after(GROUP, pacemaker_plan.steps(cib(), WISH))
    same([step.what for step in pacemaker_plan.removal(whole, "db8", False)],
         ["delete booth-lease.db8", "delete booth-retry.all", "delete the lease's times"], "a removal")  # fmt: skip
    same(len(pacemaker_plan.removal(whole, "db8", True)), 4, "the steps of a whole one")
    same(pacemaker_plan.removal(cib(), "db8", True), [], "of nothing")


@story
def failed_starts_are_tried_again() -> None:
    """Pacemaker tries a failed start again, after a time that the operator's own setting replaces"""
    (step,) = [step for step in pacemaker_plan.steps(cib(), WISH) if "again" in step.what]
    need("again 60 s" in step.what and 'name="failure-timeout" value="60s"' in step.words[-1], f"{step}")
    whole = after(GROUP, pacemaker_plan.steps(cib(), WISH))
    for expire, says in ((60, []), (90, ["90s"]), (5, ["30s"])):
        steps = pacemaker_plan.steps(whole, WISH._replace(times=Times(expire, 3, 1)))
        found = [step.words[-1] for step in steps if "again" in step.what]
        same([ElementTree.fromstring(each).find(".//nvpair").get("value") for each in found], says, f"{expire} s")
    for name in ("failure-timeout", "migration-threshold"):
        own = f'<meta_attributes id="own"><nvpair id="own-{name}" name="{name}" value="3"/></meta_attributes>'
        inside = GROUP.replace('<group id="all">', f'<group id="all">{own}')
        defaults = f"</crm_config><rsc_defaults>{own}</rsc_defaults><crm_config>"
        for known in (cib(inside), cib(config=defaults)):
            need(known.root.find(".//nvpair") is not None, "the setting is there")
            same([step.what for step in pacemaker_plan.steps(known, WISH) if "again" in step.what], [], name)
    # (another ticket's lease over the same resource keeps the time)
    both = after(GROUP, [*pacemaker_plan.steps(cib(), WISH), *pacemaker_plan.steps(cib(), WISH._replace(ticket="b"))[2:]])
    need(not any("retry" in step.what for step in pacemaker_plan.removal(both, "b", True)), "the other ticket's time")


@story
def an_agent_is_made_as_pcs_names_it() -> None:
    """the agent and its address are a group after its storage, named as by pcs; a known agent gets its tickets"""
    wish = AgentWish("/etc/booth/booth.conf", "booth", "192.0.2.10/24", "/srv/booth", ("fs",), False)
    steps = pacemaker_plan.agent_steps(cib(), wish, ["db8"])
    group = ElementTree.fromstring(steps[0].words[-1])
    same([each.get("id") for each in group.iter("primitive")], ["booth-booth-ip", "booth-booth-service"], "the group")
    same([step.words[1] for step in steps], ["--create", "--create", "--create", "--resource"], "the steps")
    need('with-rsc="fs"' in steps[1].words[-1] and 'first="fs"' in steps[2].words[-1], f"{steps}")
    known = cib(GROUP + steps[0].words[-1])
    agent = pacemaker_plan.agents(known, wish.path, "booth")[0]
    same(pacemaker_plan.parameter(agent, "tickets"), "db8", "its tickets")
    same(pacemaker_plan.agent_steps(known, wish, ["db8"]), [], "a second setup")
    same(pacemaker_plan.agent_steps(known, wish, ["db8", "mail"])[0].words[-1], "db8 mail", "another ticket")
    # (an agent that pcs made starts at once when it has records, so it has its tickets before)
    moved = pacemaker_plan.agent_steps(known, wish._replace(records="/srv/other"), ["db8", "mail"])
    same([step.words[-1] for step in moved], ["db8 mail", "/srv/other"], "another ticket and other records")
    own = wish._replace(behind=(), is_local=True)
    same([step.words[-1] for step in pacemaker_plan.agent_steps(known, own, ["db8"])], ["local"], "records of each node")
    (made,) = pacemaker_plan.agent_steps(cib(), own, ["db8"])
    fresh = cib(GROUP + made.words[-1])
    need(pacemaker_plan.is_local(pacemaker_plan.agents(fresh, wish.path, "booth")[0]), "a new agent")
    same(pacemaker_plan.agent_steps(fresh, own._replace(is_local=False), ["db8"]), [], "a setup on another node")


@story
def a_node_without_records_is_told() -> None:
    """with records on each node, a node that was not set up is reported, and no other one"""
    with scratch("booth-records-") as folder:
        wish = AgentWish(CONF.path, "booth", None, folder, (), True)
        for is_local, marked, says in ((True, False, 1), (True, True, 0), (False, False, 0)):
            (made,) = pacemaker_plan.agent_steps(cib(), wish._replace(is_local=is_local), ["db8"])
            if marked:
                with open(f"{folder}/.booth-site", "w", encoding="ascii") as file:
                    file.write("0 none\n")
            whole = after(GROUP + made.words[-1], pacemaker_plan.steps(cib(), WISH))
            found = [each for each in pacemaker_checks.of_agents(CONF, whole) if each.kind == "no-records"]
            same(len(found), says, f"local {is_local}, set up {marked}: {found}")
            if marked:
                os.remove(f"{folder}/.booth-site")


@story
def margins_are_held_to_corosync() -> None:
    """a margin is at least token, consensus, 2 s and the longest stop, and must fit into the lease"""
    wanted = pacemaker_margin.Need(pacemaker_margin.Corosync(3.0, 3.6), 2)
    same(wanted.least(), 11, "the least margin")
    same(pacemaker_margin.lasting(TICKET, Times(60, 11, 2), wanted), 44, "the least expire that outlives a node")
    short = "the margin is 10 s, but token 3 s, consensus 3.6 s"
    for expire, renewal, margin, text in ((60, 20.0, 11, ""), (60, 20.0, 10, short), (20, 10.0, 11, "are 23 s")):
        told = pacemaker_margin.fault(TICKET._replace(expire=expire, renewal=renewal), Times(expire, margin, 2), wanted)
        need(text in told if text else not told, f"{expire}, {renewal}, {margin}: {told!r}")
    stops = [("svc", "stop", "0", "1200"), ("svc", "stop", "1", "90000")]
    stops += [("two", "start", "0", "8000"), ("other", "stop", "0", "70000")]
    history = "".join(
        f'<lrm_resource id="{name}"><lrm_rsc_op operation="{word}" rc-code="{code}" exec-time="{took}"/></lrm_resource>'
        for name, word, code, took in stops
    )
    same(pacemaker_margin.longest_stop(cib(status=f"<status>{history}</status>"), ["all"]), 3, "the longest stop")
    same(pacemaker_margin.longest_stop(cib(), ["all"]), pacemaker_margin.NO_HISTORY, "without a history")


def device(name: str, values: Dict[str, str]) -> str:
    """Returns a fencing device with these parameters."""
    pairs = "".join(f'<nvpair id="{name}-{key}" name="{key}" value="{value}"/>' for key, value in values.items())
    attributes = f'<instance_attributes id="{name}-values">{pairs}</instance_attributes>'
    return f'<primitive id="{name}" class="stonith" type="fence_strip">{attributes}</primitive>'


@story
def two_nodes_need_unlike_delays() -> None:
    """two nodes that can fence each other need different delays: of their own devices, or by priority"""
    both = {"pcmk_host_list": "a1 a2"}
    one, other = {"pcmk_host_list": "a1"}, {"pcmk_host_map": "a2:plug2"}
    base, most = "pcmk_delay_base", "pcmk_delay_max"
    rows = [
        ([both], "", True),
        ([{}], "", True),
        ([{**both, base: "5s"}], "", True),
        ([{**both, most: "3s"}], "", True),
        ([{**both, base: "a1:0;a2:5s"}], "", False),
        ([{**both, base: "a1:5;a2:5s"}], "", True),
        ([{**both, base: "a1:100ms"}], "", False),
        ([{**one, base: "5s"}, other], "", False),
        ([{**one, base: "5s"}, {**other, base: "5s"}], "", True),
        ([{**one, "delay": "5"}, other], "", False),
        ([both], "15s", False),
        ([both], "0", True),
        ([], "", False),
    ]
    for devices, priority, is_wrong in rows:
        resources = "".join(device(f"strip{at}", each) for at, each in enumerate(devices))
        pair = f'<nvpair id="p" name="priority-fencing-delay" value="{priority}"/>' if priority else ""
        found = cib(resources, config=f'<cluster_property_set id="s">{pair}</cluster_property_set>')
        told = pacemaker_fencing.fault(found, ["a2", "a1"])
        same(bool(told), is_wrong, f"{devices}, {priority!r}: {told!r}")
        need(not told or "pcmk_delay_base='a1:0;a2:5s'" in told, told)
        need(("random number" in told) == (is_wrong and any(most in each for each in devices)), told)
        same(pacemaker_fencing.fault(found, ["a1", "a2", "a3"]), "", "three nodes")


@story
def a_clock_that_is_behind_is_told() -> None:
    """a node whose wall clock is behind the clock that set the last end is reported, and no other node"""
    wall = 1_790_000_000.0
    for ahead, says in ((50.0, 0), (20.0, 0), (49.0 + 40, 1), (-20.0, 0)):
        whole = after(GROUP, pacemaker_plan.steps(cib(), WISH._replace(end=pacemaker_cib.end_at(wall + ahead))))
        found = list(pacemaker_checks.of_clocks(whole, Now(100.0, wall), "/nowhere"))
        same([problem.kind for problem in found], ["clock-behind"] * says, f"an end {ahead} s ahead")
        need(not found or "at least 39 s behind" in found[0].text, f"{found}")
    same(list(pacemaker_checks.of_clocks(after(GROUP, pacemaker_plan.steps(cib(), WISH)), Now(1.0, wall), "/nowhere")),
         [], "a lease that is closed")  # fmt: skip


MON = """<pacemaker-result><summary><cluster_options stonith-enabled="{fencing}" maintenance-mode="false"/></summary>
<nodes><node name="a1" online="true"/><node name="a2" online="true"/></nodes><resources>
<resource id="booth-booth-service" role="{agent}" active="{up}"/><group id="all">
<resource id="svc" role="{role}" active="{active}"><node name="a2"/></resource>
<resource id="two" role="{role}" active="{active}"><node name="a2"/></resource></group></resources>
<node_attributes><node name="a1"><attribute name="booth-lease-guard" value="on"/></node>{guards}</node_attributes>
<tickets><ticket id="db8" status="granted" standby="{standby}"/></tickets></pacemaker-result>"""
GUARDS = '<node name="a2"><attribute name="booth-lease-guard" value="on"/></node>'
WELL = {"fencing": "true", "agent": "Started", "up": "true", "role": "Started", "active": "true", "guards": GUARDS}


def said(is_held: bool, lease_left: float, **more: str) -> List[str]:
    """Returns the problems if crm_mon prints this, and this site holds the ticket or does not."""
    wish = AgentWish("/etc/booth/booth.conf", "booth", "192.0.2.10/24", None, (), False)
    agent = pacemaker_plan.agent_steps(cib(), wish, ["db8"])[0].words[-1]
    whole = after(GROUP + agent, pacemaker_plan.steps(cib(), WISH._replace(end=date(30))))
    seen = pacemaker_asking.seen_in(MON.format(**{"standby": "false", **WELL, **more}))
    site = pacemaker_status.site_of(CONF, whole, seen)
    same(site.address, "192.0.2.10", "the site's address")
    problems = [*pacemaker_status.of_ticket(site, TICKET, is_held, lease_left), *pacemaker_status.of_site(site)]
    return [f"{problem.kind} {problem.severity}" for problem in problems]


@story
def a_cluster_is_judged() -> None:
    """each fault of a cluster is reported as a problem, and nothing else is"""
    down = {"role": "Stopped", "active": "false"}
    rows = [
        (True, {}, []),
        (False, down, []),
        (True, down, ["service-down 2"]),
        (False, {}, ["unheld 2"]),
        (True, {"standby": "true"}, ["paused 1"]),
        (True, {"guards": ""}, ["no-guard 2"]),
        (True, {"fencing": "false"}, ["no-fencing 1"]),
        (True, {"agent": "Stopped", "up": "false"}, ["agent-down 2"]),
    ]
    for is_held, more, problems in rows:
        same(said(is_held, 38.0, **more), problems, f"held {is_held}, {more}")
    same(said(True, 60.0), [], "a lease that was renewed just now")
    same(said(True, 75.0), ["rule-late 1"], "an end that is not renewed")


def main() -> int:
    """Runs the stories."""
    failed = 0
    for told in stories:
        try:
            told()
        except Exception as why:  # (whatever it is, the other stories are told)
            failed += 1
            print(f"FAILED  {told.__doc__}: {type(why).__name__}: {why}", flush=True)
        else:
            print(f"ok      {told.__doc__}", flush=True)
    print(f"pacemaker_plans: {len(stories) - failed} passed, {failed} failed")
    return 1 if failed else 0


if __name__ == "__main__":
    sys.exit(main())
