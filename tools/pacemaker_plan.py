"""The changes of booth-pacemaker setup in a CIB: the elements, and the commands that write them.

It is imported by booth-pacemaker, and not run by itself. It asks no other program.
"""

import xml.etree.ElementTree as ElementTree
from typing import Dict, Iterator, List, NamedTuple, Optional, Tuple

import pacemaker_cib
from pacemaker_cib import CLOSED, LEASE, PROMOTED, Cib, Times

# the constraints by which resources, and promoted instances of resources, depend on Pacemaker's ticket
TICKET, PROMOTED_TICKET = "booth-ticket", "booth-ticket-promoted"
ROLE = "Promoted"
ENDS = ("stop", "fence", "demote")
# the meta attributes that let Pacemaker try a failed start again, and the least time before it does, in seconds
RETRY, LEAST_RETRY = "booth-retry", 30
RETRIES = ("failure-timeout", "migration-threshold")


class Step(NamedTuple):
    """A change: its description and its command."""

    what: str
    words: Tuple[str, ...]


class Wish(NamedTuple):
    """The requested setup: a ticket, its resources, its times, and the end of a new rule."""

    ticket: str
    resources: Tuple[str, ...]
    times: Times
    # the end in the past if the ticket is not granted
    end: str


def spelled(element: ElementTree.Element) -> str:
    """Returns an element as text."""
    return ElementTree.tostring(element, encoding="unicode")


def found(cib: Cib, tag: str, name: str) -> Optional[ElementTree.Element]:
    """Returns the element with this identifier, or `None`."""
    return next((each for each in cib.root.iter(tag) if each.get("id") == name), None)


def is_same(one: Optional[ElementTree.Element], other: ElementTree.Element) -> bool:
    """Returns whether two elements have the same content."""
    if one is None or one.tag != other.tag or one.attrib != other.attrib or len(one) != len(other):
        return False
    return all(is_same(*pair) for pair in zip(one, other))


def put(cib: Cib, scope: str, element: ElementTree.Element, what: str) -> Iterator[Step]:
    """Yields the step that writes this element into the CIB, or nothing if the CIB has it already."""
    there = found(cib, element.tag, element.get("id", ""))
    if not is_same(there, element):
        way = "--create" if there is None else "--replace"
        yield Step(what, ("cibadmin", way, "--scope", scope, "--xml-text", spelled(element)))


def kinds(cib: Cib, resources: Tuple[str, ...]) -> Dict[bool, List[str]]:
    """Returns the resources that are stopped at an end (`False`), and those that are demoted (`True`)."""
    parts: Dict[bool, List[str]] = {False: [], True: []}
    for resource in resources:
        parts[cib.is_promotable(resource)].append(resource)
    return parts


def set_of(parent: ElementTree.Element, name: str, resources: List[str], role: str = "") -> None:
    """Adds a set of resources to a constraint."""
    said = {"id": name, "role": role} if role else {"id": name}
    inside = ElementTree.SubElement(parent, "resource_set", said)
    for resource in resources:
        ElementTree.SubElement(inside, "resource_ref", {"id": resource})


def rule(cib: Cib, wish: Wish, is_promoted: bool, resources: List[str]) -> ElementTree.Element:
    """Returns the rule that ends these resources. An end that the CIB has already stays."""
    kind, ticket = (PROMOTED if is_promoted else LEASE), wish.ticket
    constraint = ElementTree.Element("rsc_location", {"id": f"{kind}.{ticket}"})
    set_of(constraint, f"{kind}-set.{ticket}", resources)
    said = {"id": f"{kind}-rule.{ticket}", "score": "-INFINITY", **({"role": ROLE} if is_promoted else {})}
    inside = ElementTree.SubElement(constraint, "rule", said)
    name = pacemaker_cib.end_id(ticket, is_promoted)
    before = found(cib, "date_expression", name)
    end = wish.end if before is None else before.get("start", CLOSED)
    ElementTree.SubElement(inside, "date_expression", {"id": name, "operation": "gt", "start": end})
    return constraint


def times(cib: Cib, wish: Wish) -> Iterator[Step]:
    """Yields the step that writes the lease's times, if they differ."""
    if cib.times(wish.ticket) == wish.times:
        return
    words = ("crm_attribute", "--type", "crm_config", "--set-name", pacemaker_cib.SET)
    name = f"{pacemaker_cib.TIMES}{wish.ticket}"
    text = wish.times.spelled()
    yield Step(f"write the lease's times: {text}", (*words, "--name", name, "--update", text))


def covered(cib: Cib, ticket: str, resources: List[str]) -> List[str]:
    """Returns the resources that the operator's own constraints make depend on the ticket.

    Raises `ValueError` if the loss policy of such a constraint ends nothing.
    """
    names, own = [], (f"{TICKET}.", f"{PROMOTED_TICKET}.")
    for constraint in cib.root.iter("rsc_ticket"):
        if constraint.get("ticket") != ticket or constraint.get("id", "").startswith(own):
            continue
        inside = [each.get("id", "") for each in constraint.iter("resource_ref")] + [constraint.get("rsc", "")]
        mine = [name for name in inside if name in resources]
        policy = constraint.get("loss-policy", "stop")
        if mine and policy not in ENDS:
            raise ValueError(f"the constraint {constraint.get('id')} has loss-policy={policy}, which ends nothing")
        names += mine
    return names


def tickets(cib: Cib, wish: Wish, is_promoted: bool, resources: List[str]) -> Iterator[Step]:
    """Yields the step that makes these resources depend on the ticket."""
    known = covered(cib, wish.ticket, resources)
    left = [each for each in resources if each not in known]
    if not left:
        return
    name = PROMOTED_TICKET if is_promoted else TICKET
    policy = "demote" if is_promoted else "stop"
    said = {"id": f"{name}.{wish.ticket}", "ticket": wish.ticket, "loss-policy": policy}
    constraint = ElementTree.Element("rsc_ticket", said)
    set_of(constraint, f"{name}-set.{wish.ticket}", left, ROLE if is_promoted else "")
    yield from put(cib, "constraints", constraint, f"make {', '.join(left)} depend on the ticket, loss-policy={policy}")


def has_own_retry(cib: Cib, resource: str) -> bool:
    """Returns whether the operator has said when Pacemaker tries this resource again after a failure."""
    places = list(cib.root.iter("rsc_defaults"))
    element = cib.named.get(resource)
    places += [] if element is None else element.iter()
    while element is not None:
        places.append(element)
        element = cib.parents.get(element)
    sets = {each.get("id"): each for place in places for each in place.findall("meta_attributes")}
    pairs = (pair for name, each in sets.items() if name != f"{RETRY}.{resource}" for pair in each.findall("nvpair"))
    return any(pair.get("name") in RETRIES for pair in pairs)


def retries(cib: Cib, wish: Wish) -> Iterator[Step]:
    """Yields the steps that have Pacemaker try a failed start again.

    A guard may end a resource in the middle of a start. Pacemaker takes that for a failed start, and without a time
    tries no other one on this node.
    """
    seconds = max(LEAST_RETRY, wish.times.expire)
    for resource in wish.resources:
        element = cib.named.get(resource)
        if element is None or has_own_retry(cib, resource):
            continue
        name, said = f"{RETRY}.{resource}", {"name": "failure-timeout", "value": f"{seconds}s"}
        outer = ElementTree.Element(element.tag, {"id": resource})
        inside = ElementTree.SubElement(outer, "meta_attributes", {"id": name})
        ElementTree.SubElement(inside, "nvpair", {"id": f"{RETRY}-time.{resource}", **said})
        if not is_same(found(cib, "meta_attributes", name), inside):
            text = f"have Pacemaker try {resource} again {seconds} s after a failed start"
            yield Step(text, ("cibadmin", "--modify", "--scope", "resources", "--xml-text", spelled(outer)))


def steps(cib: Cib, wish: Wish) -> List[Step]:
    """Returns all steps for the times, failed starts, the rule and the ticket, in this order."""
    changes = [*times(cib, wish), *retries(cib, wish)]
    for is_promoted, resources in kinds(cib, wish.resources).items():
        if not resources:
            continue
        what = "demote" if is_promoted else "stop"
        text = f"add a rule that {what}s {', '.join(resources)} at the lease's end"
        changes += put(cib, "constraints", rule(cib, wish, is_promoted, resources), text)
        changes += tickets(cib, wish, is_promoted, resources)
    return changes


def removal(cib: Cib, ticket: str, with_ticket: bool) -> List[Step]:
    """Returns the steps that undo a setup. The constraint on the ticket is removed only with `with_ticket`."""
    kinds_of = [("rsc_location", LEASE), ("rsc_location", PROMOTED)]
    kinds_of += [("rsc_ticket", TICKET), ("rsc_ticket", PROMOTED_TICKET)] if with_ticket else []
    changes = []
    for tag, kind in kinds_of:
        if found(cib, tag, f"{kind}.{ticket}") is not None:
            text = f'<{tag} id="{kind}.{ticket}"/>'
            changes.append(Step(f"delete {kind}.{ticket}", ("cibadmin", "--delete", "--xml-text", text)))
    others = {each for lease in cib.leases() if lease.ticket != ticket for each in lease.resources}
    own = {each: None for lease in cib.leases() if lease.ticket == ticket for each in lease.resources}
    for resource in own:
        if resource not in others and found(cib, "meta_attributes", f"{RETRY}.{resource}") is not None:
            text = f'<meta_attributes id="{RETRY}.{resource}"/>'
            changes.append(Step(f"delete {RETRY}.{resource}", ("cibadmin", "--delete", "--xml-text", text)))
    if cib.times(ticket) is not None:
        words = ("crm_attribute", "--type", "crm_config", "--set-name", pacemaker_cib.SET)
        name = f"{pacemaker_cib.TIMES}{ticket}"
        changes.append(Step("delete the lease's times", (*words, "--name", name, "--delete")))
    return changes


# ---- the agent


class AgentWish(NamedTuple):
    """The requested agent: its configuration, address and records, and the resources that it starts after."""

    path: str
    name: str
    address: Optional[str]
    records: Optional[str]
    behind: Tuple[str, ...]
    # whether each node has records of its own
    is_local: bool


def agents(cib: Cib, path: str, name: str) -> List[ElementTree.Element]:
    """Returns the resources that run the daemon of this configuration."""
    found_ones = []
    for primitive in cib.root.iter("primitive"):
        kind = (primitive.get("provider"), primitive.get("type"))
        if kind in (("booth", "boothd"), ("pacemaker", "booth-site")):
            if parameter(primitive, "config") in (path, name, f"{name}.conf") or not parameter(primitive, "config"):
                found_ones.append(primitive)
    return found_ones


def parameter(primitive: ElementTree.Element, name: str) -> str:
    """Returns a parameter of a resource, or an empty text if the resource lacks it."""
    pairs = (pair for each in primitive.findall("instance_attributes") for pair in each.findall("nvpair"))
    return next((pair.get("value", "") for pair in pairs if pair.get("name") == name), "")


def attributes(parent: ElementTree.Element, values: Dict[str, str]) -> None:
    """Adds parameters to a resource."""
    owner = parent.get("id", "")
    inside = ElementTree.SubElement(parent, "instance_attributes", {"id": f"{owner}-params"})
    for name, value in values.items():
        ElementTree.SubElement(inside, "nvpair", {"id": f"{owner}-params-{name}", "name": name, "value": value})


def operations(parent: ElementTree.Element, rows: Dict[str, Tuple[str, str]]) -> None:
    """Adds operations to a resource, each with its interval and timeout."""
    owner, inside = parent.get("id", ""), ElementTree.SubElement(parent, "operations")
    for name, (interval, timeout) in rows.items():
        said = {"id": f"{owner}-{name}-{interval}", "name": name, "interval": interval, "timeout": timeout}
        ElementTree.SubElement(inside, "op", said)


def agent_steps(cib: Cib, wish: AgentWish, tickets_of: List[str]) -> List[Step]:
    """Returns the steps that make the agent and the site's address, or that change the tickets of a known agent.

    The names are those that pcs uses.
    """
    known = agents(cib, wish.path, wish.name)
    if known:
        # (records, without which the daemon does not start, come last: so its first start has its tickets)
        return [*retold(known[0], tickets_of), *moved(known[0], wish.records), *made_local(known[0], wish.is_local)]
    group = ElementTree.Element("group", {"id": f"booth-{wish.name}-group"})
    if wish.address:
        said = {"id": f"booth-{wish.name}-ip", "class": "ocf", "provider": "heartbeat", "type": "IPaddr2"}
        primitive = ElementTree.SubElement(group, "primitive", said)
        address, _, bits = wish.address.partition("/")
        attributes(primitive, {"ip": address, **({"cidr_netmask": bits} if bits else {})})
        operations(primitive, {"monitor": ("10s", "20s")})
    said = {"id": f"booth-{wish.name}-service", "class": "ocf", "provider": "pacemaker", "type": "booth-site"}
    primitive = ElementTree.SubElement(group, "primitive", said)
    records = {"records": wish.records} if wish.records else {}
    mode = "local" if wish.is_local else "shared"
    attributes(primitive, {"config": wish.path, "records_mode": mode, **records, "tickets": " ".join(tickets_of)})
    operations(primitive, {"start": ("0s", "90s"), "stop": ("0s", "90s"), "monitor": ("10s", "20s")})
    # (this has Pacemaker try again later if the start failed at each node)
    meta = ElementTree.SubElement(primitive, "meta_attributes", {"id": f"booth-{wish.name}-service-meta"})
    said = {"id": f"booth-{wish.name}-service-meta-failure-timeout", "name": "failure-timeout", "value": "120s"}
    ElementTree.SubElement(meta, "nvpair", said)
    # (the group comes first, since the constraints name it; it is stopped until they exist)
    return [*held(group, wish), *behind(cib, wish), *let_go(wish)] if wish.behind else [created(group)]


def created(group: ElementTree.Element) -> Step:
    """Returns the step that makes the group."""
    text = "make the resource of the daemon, with its address"
    return Step(text, ("cibadmin", "--create", "--scope", "resources", "--xml-text", spelled(group)))


def held(group: ElementTree.Element, wish: AgentWish) -> Iterator[Step]:
    """Yields the step that makes the group, stopped until its constraints exist."""
    meta = ElementTree.SubElement(group, "meta_attributes", {"id": f"booth-{wish.name}-group-meta"})
    said = {"id": f"booth-{wish.name}-group-meta-target-role", "name": "target-role", "value": "Stopped"}
    ElementTree.SubElement(meta, "nvpair", said)
    yield created(group)


def let_go(wish: AgentWish) -> Iterator[Step]:
    """Yields the step that starts the group."""
    words = ("crm_resource", "--resource", f"booth-{wish.name}-group", "--meta", "--delete-parameter", "target-role")
    yield Step("start the daemon", words)


def behind(cib: Cib, wish: AgentWish) -> Iterator[Step]:
    """Yields the steps that run the group at the node of other resources, such as its storage, and after them."""
    group = f"booth-{wish.name}-group"
    for resource in wish.behind:
        role = {"with-rsc-role": ROLE} if cib.is_promotable(resource) else {}
        said = {"id": f"{group}-with-{resource}", "rsc": group, "with-rsc": resource, "score": "INFINITY", **role}
        together = ElementTree.Element("rsc_colocation", said)
        yield from put(cib, "constraints", together, f"run it at the node of {resource}")
        first = {"first-action": "promote", "then-action": "start"} if role else {}
        said = {"id": f"{group}-after-{resource}", "first": resource, "then": group, "kind": "Mandatory", **first}
        yield from put(cib, "constraints", ElementTree.Element("rsc_order", said), f"start it after {resource}")


def moved(primitive: ElementTree.Element, records: Optional[str]) -> Iterator[Step]:
    """Yields the step that sets an agent's directory of records, if one was requested and differs."""
    if records is None or parameter(primitive, "records") == records:
        return
    name = primitive.get("id", "")
    words = ("crm_resource", "--resource", name, "--set-parameter", "records", "--parameter-value", records)
    yield Step(f"set the directory of {name}'s records to {records}", words)


def is_local(primitive: ElementTree.Element) -> bool:
    """Returns whether an agent has records of its own on each node."""
    return parameter(primitive, "records_mode") == "local"


def made_local(primitive: ElementTree.Element, is_wanted: bool) -> Iterator[Step]:
    """Yields the step that gives each node records of its own, if that was requested and the agent has shared ones."""
    if is_wanted and not is_local(primitive):
        name = primitive.get("id", "")
        words = ("crm_resource", "--resource", name, "--set-parameter", "records_mode", "--parameter-value", "local")
        yield Step(f"give each node of {name} records of its own", words)


def retold(primitive: ElementTree.Element, tickets_of: List[str]) -> Iterator[Step]:
    """Yields the step that sets an agent's tickets, if they differ."""
    if parameter(primitive, "tickets").split() == tickets_of:
        return
    name, value = primitive.get("id", ""), " ".join(tickets_of)
    words = ["crm_resource", "--resource", name]
    words += ["--set-parameter", "tickets", "--parameter-value", value] if value else ["--delete-parameter", "tickets"]
    yield Step(f"set the tickets that {name} follows to: {value or 'none'}", tuple(words))
