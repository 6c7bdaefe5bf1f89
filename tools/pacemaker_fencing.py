"""Checks whether both nodes of a two-node Pacemaker cluster may be fenced if they lose contact.

It is imported by booth-pacemaker and booth-status, and not run by itself. When the two nodes lose contact, each of them
has the quorum and fences the other one. Only if the delays of the two fencings differ, just one node is fenced.
"""

import re
import xml.etree.ElementTree as ElementTree
from typing import Collection, List

import pacemaker_plan
from pacemaker_asking import QUESTION, ran
from pacemaker_cib import Cib

PRIORITY = "priority-fencing-delay"
BASE, MOST, OLD = "pcmk_delay_base", "pcmk_delay_max", "delay"
UNITS = {"ms": 0.001, "msec": 0.001, "m": 60.0, "min": 60.0, "h": 3600.0, "hr": 3600.0}


def seconds_in(text: str) -> float:
    """Returns the seconds of a time in Pacemaker's spelling, or 0 if the text is not a time."""
    found = re.fullmatch(r"\s*(?:PT)?(\d+)\s*([A-Za-z]*)\s*", text)
    return int(found[1]) * UNITS.get(found[2].lower(), 1.0) if found else 0.0


def is_for(device: ElementTree.Element, node: str) -> bool:
    """Returns whether a device can fence a node, according to its parameters."""
    parts = re.split(r"[\s,;]+", pacemaker_plan.parameter(device, "pcmk_host_list"))
    parts += [part.partition(":")[0] for part in re.split(r"[\s;]+", pacemaker_plan.parameter(device, "pcmk_host_map"))]
    names = [part for part in parts if part]
    return not names or node in names


def delay(device: ElementTree.Element, node: str) -> float:
    """Returns how long a device waits at least before it fences a node."""
    text = pacemaker_plan.parameter(device, BASE)
    pairs = dict(part.split(":", 1) for part in re.split(r"[\s;]+", text) if ":" in part)
    base = pairs.get(node, "0") if pairs else text
    return seconds_in(base) + seconds_in(pacemaker_plan.parameter(device, OLD))


def fault(cib: Cib, nodes: Collection[str]) -> str:
    """Returns why both of two nodes may be fenced, or an empty text if the delays before their fencing differ."""
    devices: List[ElementTree.Element] = [each for each in cib.root.iter("primitive") if each.get("class") == "stonith"]
    if len(nodes) != 2 or not devices or seconds_in(cib.properties().get(PRIORITY, "")):
        return ""
    delays = [min((delay(each, node) for each in devices if is_for(each, node)), default=0.0) for node in nodes]
    if delays[0] != delays[1]:
        return ""
    text = "if its two nodes lose contact, both may be fenced, since the delays before their fencing are equal"
    if any(seconds_in(pacemaker_plan.parameter(each, MOST)) for each in devices):
        text += f" ({MOST} is a random number of whole seconds, which may be the same for both)"
    return f"{text}: set {BASE}='{sorted(nodes)[0]}:0;{sorted(nodes)[1]}:5s', or the property {PRIORITY}"


def is_two_node() -> bool:
    """Returns whether corosync allows one of two nodes to continue alone. No answer counts as no."""
    done = ran(QUESTION, "corosync-cmapctl", "-g", "runtime.votequorum.two_node")
    return done.status == 0 and re.search(r"= 1\s*$", done.printed) is not None
