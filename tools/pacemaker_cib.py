"""The leases in a CIB of Pacemaker: the rules that end resources, their times, and the primitives that they name.

It is imported by programs of the package, and not run by itself. It asks nobody and changes nothing. booth-pacemaker(8)
lists the elements.
"""

import calendar
import re
import time
import xml.etree.ElementTree as ElementTree
from typing import Dict, Iterator, List, NamedTuple, Optional, Set, Tuple

# The allowed characters of a CIB's identifiers. The part before the first full stop names the kind of an element.
TICKET = re.compile(r"[A-Za-z0-9_.-]{1,63}")
LEASE, PROMOTED = "booth-lease", "booth-promoted"
# the set of properties, and the prefix of the property with a ticket's times
SET, TIMES = "booth-lease", "booth-lease."
DATE = "%Y-%m-%d %H:%M:%SZ"
# an end that is in the past on every clock
CLOSED = "1970-01-01 00:00:00Z"
# in seconds: the time for a reset of the machine before the lease ends, and the time for one look at a resource
RESET, LOOK = 1.0, 1.0
LEAST_MARGIN = 4
SUFFIXES = (".service", ".socket", ".mount", ".timer", ".path")


class Times(NamedTuple):
    """The times of a lease in whole seconds: how long it lasts, its margin, and how long a stop may take."""

    expire: int
    margin: int
    stop: int

    def longest(self) -> int:
        """Returns how far ahead an end can be when it is written."""
        return max(0, self.expire - self.margin)

    def fence(self) -> float:
        """Returns how long after an end the guard resets the machine: the lease has not ended by then."""
        return max(0.5, self.margin - RESET)

    def grace(self) -> float:
        """Returns how long after an end the guard leaves the stop to Pacemaker."""
        return max(0.5, self.fence() - LOOK - self.stop)

    def kill(self) -> int:
        """Returns how long before the lease's end the follower kills the service."""
        return max(1, self.margin // 2)

    def spelled(self) -> str:
        """Returns the text of the times in the CIB."""
        return f"expire={self.expire} margin={self.margin} stop={self.stop}"


# the times of a lease for which the CIB has none
NO_TIMES = Times(600, 5, 1)


class Primitive(NamedTuple):
    """A resource that has an agent."""

    id: str
    standard: str
    type: str

    def unit(self) -> Optional[str]:
        """Returns the resource's systemd unit, or `None` if it is not a unit."""
        if self.standard not in ("systemd", "service"):
            return None
        return self.type if self.type.endswith(SUFFIXES) else f"{self.type}.service"


class Lease(NamedTuple):
    """A rule that ends resources: all of them, or only their promoted instances."""

    ticket: str
    is_promoted: bool
    end: str
    times: Times
    resources: Tuple[str, ...]
    primitives: Tuple[Primitive, ...]

    def key(self) -> str:
        """Returns the key of the lease, which no other lease has."""
        return f"{PROMOTED if self.is_promoted else LEASE}.{self.ticket}"

    def end_id(self) -> str:
        """Returns the identifier of the expression that has the end."""
        return end_id(self.ticket, self.is_promoted)


def end_id(ticket: str, is_promoted: bool = False) -> str:
    """Returns the identifier of the expression that has the end of this ticket's lease."""
    return f"{PROMOTED if is_promoted else LEASE}-end.{ticket}"


def seconds_of(end: str) -> float:
    """Returns an end in seconds since 1970. Raises `ValueError` if the text has another form than booth writes."""
    return float(calendar.timegm(time.strptime(end, DATE)))


def end_at(seconds: float) -> str:
    """Returns the text of an end, given in seconds since 1970 and rounded down."""
    return time.strftime(DATE, time.gmtime(int(seconds)))


def times_of(text: str) -> Optional[Times]:
    """Returns the times in a text, or `None` if it has another form."""
    said = dict(word.split("=", 1) for word in text.split() if "=" in word)
    try:
        return Times(int(said["expire"]), int(said["margin"]), int(said["stop"]))
    except (KeyError, ValueError):
        return None


class Cib:
    """A parsed CIB."""

    def __init__(self, root: ElementTree.Element) -> None:
        self.root = root
        self.parents: Dict[ElementTree.Element, ElementTree.Element] = {
            child: parent for parent in root.iter() for child in parent
        }
        self.named: Dict[str, ElementTree.Element] = {}
        for section in root.iter("resources"):
            for each in section.iter():
                name = each.get("id")
                if name and each.tag in ("primitive", "group", "clone", "master", "bundle"):
                    self.named[name] = each

    def primitives(self, resource: str) -> List[Primitive]:
        """Returns the primitives of a resource: itself, or the members of a group or a clone."""
        element = self.named.get(resource)
        return [] if element is None else [self.primitive(each) for each in element.iter("primitive")]

    def primitive(self, element: ElementTree.Element) -> Primitive:
        """Returns a primitive. Its agent may be in its template."""
        source = element
        template = element.get("template")
        for each in self.root.iter("template") if template else ():
            if each.get("id") == template:
                source = each
        return Primitive(element.get("id", ""), source.get("class", ""), source.get("type", ""))

    def is_promotable(self, resource: str) -> bool:
        """Returns whether a resource is a promotable clone."""
        element = self.named.get(resource)
        if element is None or element.tag == "master":
            return element is not None
        return element.tag == "clone" and self.meta(element, "promotable").lower() in ("true", "yes", "on", "1")

    def meta(self, element: ElementTree.Element, name: str) -> str:
        """Returns an element's own meta attribute, or an empty text if it has none."""
        pairs = (pair for attributes in element.findall("meta_attributes") for pair in attributes.findall("nvpair"))
        return next((pair.get("value", "") for pair in pairs if pair.get("name") == name), "")

    def properties(self) -> Dict[str, str]:
        """Returns the properties of the cluster."""
        pairs = (pair for each in self.root.iter("cluster_property_set") for pair in each.findall("nvpair"))
        return {pair.get("name", ""): pair.get("value", "") for pair in pairs}

    def times(self, ticket: str) -> Optional[Times]:
        """Returns the times of a ticket's lease, or `None` if the CIB has none."""
        return times_of(self.properties().get(f"{TIMES}{ticket}", ""))

    def leases(self) -> List[Lease]:
        """Returns the leases."""
        properties = self.properties()
        return [lease for each in self.root.iter("rsc_location") for lease in self.lease_in(each, properties)]

    def lease_in(self, constraint: ElementTree.Element, properties: Dict[str, str]) -> Iterator[Lease]:
        """Yields the lease of a constraint, if the constraint is a lease."""
        kind, dot, ticket = constraint.get("id", "").partition(".")
        if kind not in (LEASE, PROMOTED) or not dot:
            return
        is_promoted = kind == PROMOTED
        wanted = end_id(ticket, is_promoted)
        ends = [each.get("start", "") for each in constraint.iter("date_expression") if each.get("id") == wanted]
        resources = [each.get("id", "") for each in constraint.iter("resource_ref")]
        if constraint.get("rsc"):
            resources.append(constraint.get("rsc", ""))
        times = times_of(properties.get(f"{TIMES}{ticket}", "")) or NO_TIMES
        primitives = tuple(each for resource in resources for each in self.primitives(resource))
        for end in ends[:1]:
            yield Lease(ticket, is_promoted, end, times, tuple(resources), primitives)

    def tickets(self) -> Set[str]:
        """Returns the tickets that have a lease."""
        return {lease.ticket for lease in self.leases()}


def parsed(text: bytes) -> Cib:
    """Parses a CIB. Raises `ValueError` if the text is not XML."""
    try:
        return Cib(ElementTree.fromstring(text))
    except ElementTree.ParseError as why:
        raise ValueError(f"it is not a CIB: {why}") from why
