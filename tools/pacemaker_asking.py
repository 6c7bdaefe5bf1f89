"""Runs Pacemaker's commands for the programs of the package: each has a time limit, and ends with the program.

It is imported by programs of the package, and not run by itself.
"""

import ctypes
import os
import select
import subprocess
import time
import xml.etree.ElementTree as ElementTree
from typing import IO, Dict, Iterable, List, NamedTuple, Optional, Tuple

# the directories of the programs
PLACES = "/usr/local/sbin:/usr/local/bin:/usr/sbin:/usr/bin:/sbin:/bin"
CIB = "/var/lib/pacemaker/cib/cib.xml"
# in seconds: how long one question may take, and how long a killed program may take to end
QUESTION, GONE = 5.0, 1.0
# exit statuses of Pacemaker's programs if the requested object does not exist
NO_SUCH = (6, 105)
PR_SET_PDEATHSIG, SIGKILL = 1, 9
# actions after which a resource may run, although its role is still the old one
BEGINS = ("Starting", "Promoting", "Migrating", "Monitoring")
PROMOTED_ROLES = ("Promoted", "Master")
# the node attribute by which each guard announces itself
GUARD_ATTRIBUTE = "booth-lease-guard"
MON = ("crm_mon", "--one-shot", "--inactive", "--output-as=xml")


class Ran(NamedTuple):
    """The result of a program: its status, or `None` after a timeout or a failed start, and what it printed."""

    status: Optional[int]
    printed: str
    complained: str

    def why(self) -> str:
        """Returns why the program failed: its messages, or its status."""
        return self.complained.strip().replace("\n", "; ") or f"its status is {self.status}"


def pause(seconds: float) -> None:
    """Waits for `seconds`. (`select`, because the library that changes the wall clock in tests refuses a sleep.)"""
    select.select([], [], [], max(0.0, seconds))


def tie() -> None:
    """Has the kernel kill this process when its parent ends."""
    ctypes.CDLL(None).prctl(PR_SET_PDEATHSIG, SIGKILL)


def ran(limit: float, *words: str, is_tied: bool = True, **more: str) -> Ran:
    """Runs a program with the additional variables `more`, and kills it with SIGKILL after `limit` seconds.

    With `is_tied` it ends together with this process. A program that has threads must not use `is_tied`.
    """
    given = {**os.environ, "PATH": f"{os.environ.get('PATH', '')}:{PLACES}", "LC_ALL": "C", **more}
    # (its output goes into files, because its own children may keep running and would keep a pipe open)
    with open(os.memfd_create("printed"), "w+b") as printed, open(os.memfd_create("told"), "w+b") as told:
        streams = {"stdin": subprocess.DEVNULL, "stdout": printed, "stderr": told}
        try:
            process = subprocess.Popen(words, env=given, preexec_fn=tie if is_tied else None, **streams)
        except OSError as why:
            return Ran(None, "", f"cannot run {words[0]}: {why.strerror}")
        if not is_over(process, limit):
            process.kill()
            is_over(process, GONE)
            return Ran(None, text_of(printed), f"{words[0]} did not end within {limit:g} s")
        return Ran(process.returncode, text_of(printed), text_of(told))


def is_over(process: "subprocess.Popen[bytes]", limit: float) -> bool:
    """Waits at most `limit` seconds for a process. Returns whether it has ended."""
    until, step = time.monotonic() + limit, 0.002
    while process.poll() is None:
        left = until - time.monotonic()
        if left <= 0:
            return False
        pause(min(step, left))
        step = min(2 * step, 0.05)
    return True


def text_of(file: IO[bytes]) -> str:
    """Returns the text that was written into a file."""
    file.seek(0)
    return file.read().decode("utf-8", "backslashreplace")


class Instance(NamedTuple):
    """A resource in the output of crm_mon: its role, its pending action, and the nodes where it is active."""

    id: str
    role: str
    pending: str
    is_active: bool
    nodes: List[str]

    def primitive(self) -> str:
        """Returns the name of its primitive."""
        return self.id.partition(":")[0]

    def is_over(self, is_promoted: bool) -> bool:
        """Returns whether it neither runs nor starts, or, for a lease of promoted instances, is not promoted."""
        if self.pending in BEGINS:
            return False
        if is_promoted:
            return self.role not in PROMOTED_ROLES
        return self.role == "Stopped" and not self.is_active


class Seen(NamedTuple):
    """The state of the cluster in the output of crm_mon."""

    instances: List[Instance]
    # whether each node is online; the nodes whose state is unknown; and the nodes at which a guard has announced itself
    nodes: Dict[str, bool]
    unclean: List[str]
    guarded: List[str]
    # for each ticket of Pacemaker: whether it is granted, and whether it is in standby
    tickets: Dict[str, Tuple[bool, bool]]
    has_fencing: bool
    is_maintained: bool

    def are_over(self, primitives: Iterable[str], is_promoted: bool) -> bool:
        """Returns whether each of these primitives is listed, and has ended on each node."""
        for name in primitives:
            found = [each for each in self.instances if each.primitive() == name]
            if not found or not all(each.is_over(is_promoted) for each in found):
                return False
        return True

    def where(self, primitives: Iterable[str], is_promoted: bool) -> List[str]:
        """Returns the nodes where one of these primitives runs, or is promoted."""
        names, nodes = set(primitives), []
        for each in self.instances:
            if each.primitive() in names and each.is_active and not each.is_over(is_promoted):
                nodes += each.nodes
        return sorted(set(nodes))


def instance_of(element: ElementTree.Element) -> Instance:
    """Returns the instance in an element of crm_mon's output."""
    nodes = [node.get("name", "") for node in element.findall("node")]
    active = element.get("active") == "true"
    return Instance(element.get("id", ""), element.get("role", ""), element.get("pending", ""), active, nodes)


def seen_in(text: str) -> Seen:
    """Parses the output of crm_mon. Raises `ValueError` if it is not XML."""
    try:
        root = ElementTree.fromstring(text)
    except ElementTree.ParseError as why:
        raise ValueError(f"crm_mon did not print XML: {why}") from why
    section = root.find("resources")
    instances = [] if section is None else [instance_of(each) for each in section.iter("resource")]
    nodes = [each for section in root.findall("nodes") for each in section.findall("node")]
    options = root.find("summary/cluster_options")
    said = {} if options is None else options.attrib
    return Seen(
        instances,
        {node.get("name", ""): node.get("online") == "true" for node in nodes},
        [node.get("name", "") for node in nodes if node.get("unclean") == "true"],
        [node.get("name", "") for node in root.findall("node_attributes/node") if is_guarded(node)],
        {
            each.get("id", ""): (each.get("status") == "granted", each.get("standby") == "true")
            for each in root.findall("tickets/ticket")
        },
        said.get("stonith-enabled") == "true",
        said.get("maintenance-mode") == "true",
    )


def is_guarded(node: ElementTree.Element) -> bool:
    """Returns whether a node has the attribute of a guard."""
    return any(each.get("name") == GUARD_ATTRIBUTE for each in node.findall("attribute"))


def seen(limit: float = QUESTION) -> Seen:
    """Returns the state of the cluster now. Raises `ValueError` if crm_mon does not print it."""
    done = ran(limit, *MON)
    if done.status != 0:
        raise ValueError(f"crm_mon: {done.why()}")
    return seen_in(done.printed)


def elapsed() -> float:
    """Returns how long this process has run, in seconds."""
    with open("/proc/self/stat", encoding="ascii", errors="replace") as file:
        fields = file.read().rpartition(")")[2].split()
    began = int(fields[19]) / os.sysconf("SC_CLK_TCK")
    return time.clock_gettime(time.CLOCK_BOOTTIME) - began
