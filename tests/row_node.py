"""Plays the stories below tests/rows/node/: runs of the daemon, with the input and all calls of each turn.

It is imported by tests/rows.py, which plays its files. `stories_in.py` describes the form of texts in a file, and
`call_lines.py` the form of frames, records and calls.

A story begins with `# ` and a sentence. The last line of its first paragraph has its node: a member, ` of ` and the
name of a configuration; ` at ` and the clock, if it does not start at 0; and ` from ` and the record of each ticket,
or `none`, if there are records. Each other paragraph is a turn. Its first line is `at`, the clock in ms, and the
arrival: `quiet`, `failure`, `from` with the sender and its frame, or `over` with a job and its status. The next lines
are the calls that the turn must make. If a line ends with ` failed`, this call fails, and so does each other call of
its kind in the turn. A turn with `as` and names stands for the turns of these parts.

A received frame has the clock 0, and a sent frame has the clock of its turn. If the configuration has a key, both have
the clock of the turn and are signed with the key. This does not apply to a frame that is given with all its bytes.

A story of three members begins with `S1, S2, AR of`, and the record is that of the first. Each turn begins with its
member. In such a story `from` and a member without a frame is the first datagram on its way from that member.
`MEMBER loses from MEMBER` loses this datagram, and `nothing is under way` checks that no datagram is on its way.

Before the first turn the daemon starts: it reads its files, takes its lock, reads the clock, opens its socket and reads
each record. After the last turn `stop` arrives, and the daemon ends without another call.
"""

import re
from typing import Dict, Iterator, List, NamedTuple, Optional, Tuple

from call_lines import MEMBERS, PEERS, call_of, frame_of, hexed, number_of, parted, peer_of, record_of, said
from row_driver import Driver, Trouble, Unplayed, run_line
from stories_in import named_in, paragraphs, text_of, texts_in

PARTS = ["parts.txt", "frames.txt", "sealed_frames.txt"]
NODE = re.compile(r"(S1|S2|AR|S1, S2, AR) of (.+?)(?: at (\d+))?(?: from (.+))?")
CONFIGURATION = "/etc/booth.conf"
KEY_FILE = "/k"
KEY = b"secret-key"
KINDS = ["send", "keep", "start"]


class Turn(NamedTuple):
    """A turn of a member: its arrival, which kinds of its calls fail, and its calls, all in the driver's form."""

    head: str
    clock: int
    comes: str
    fails: str
    calls: List[str]


class Life(NamedTuple):
    """The start and the turns of one member."""

    member: str
    records: List[str]
    turns: List[Turn]


class Story(NamedTuple):
    """A story in its file."""

    name: str
    members: List[str]
    configuration: str
    start: int
    records: List[str]
    turns: List[str]

    def key(self) -> Optional[bytes]:
        """Returns the key of its members."""
        return KEY if f"authfile = {KEY_FILE}" in self.configuration else None

    def tickets(self) -> List[str]:
        """Returns the names of its tickets."""
        names = re.findall(r'^ticket="(.*)"$', self.configuration, re.MULTILINE)
        return [name for name in names if name != "__default__"]


class Texts(NamedTuple):
    """The texts that the stories share."""

    configurations: Dict[str, str]
    parts: Dict[str, str]


def shared_texts() -> Texts:
    """Reads the texts that the stories share."""
    return Texts(named_in("node", ["configurations.txt"]), named_in("node", PARTS))


def story_of(text: str, texts: Texts) -> Story:
    """Reads a story."""
    head, turns = paragraphs(text)
    node = NODE.fullmatch(head[-1])
    if not node or len(head) < 2:
        raise Trouble(f"{head[0]}: {head[-1]!r} is no node")
    members, configuration, start, records = node.groups()
    text = text_of(texts.configurations, configuration) + "\n"
    known = records.split(", ") if records else []
    return Story(head[0], members.split(", "), text, int(start or 0), known, list(spread(turns, texts.parts)))


def spread(turns: List[str], parts: Dict[str, str]) -> Iterator[str]:
    """Yields the turns of a story, including those of its parts."""
    for turn in turns:
        if not turn.startswith("as "):
            yield turn
            continue
        for name in turn[3:].split(", "):
            yield from text_of(parts, name).split("\n\n")


def arrival_of(comes: str, clock: int, key: Optional[bytes]) -> str:
    """Returns the arrival of a turn."""
    kind, _, rest = comes.partition(" ")
    if kind in ("quiet", "failure") and not rest:
        return kind
    if kind == "over":
        job, status = rest.split(" ")
        return f"handler {number_of(job)} {number_of(status, 255)}"
    if kind != "from":
        raise Trouble(f"{comes!r} does not come")
    sender, frame = parted(rest, ": ")
    return "datagram {} {} {}".format(*peer_of(sender), hexed(frame_of(frame, clock if key else 0, key)))


def turn_of(text: str, key: Optional[bytes], came: Optional[str] = None) -> Turn:
    """Reads a turn with this arrival, or else with the arrival in its first line."""
    head, *calls = text.split("\n")
    clock, comes = parted(head[3:], " ")
    if not head.startswith("at ") or not clock.isdigit():
        raise Trouble(f"{head!r} is no turn")
    failed = [kind for kind in KINDS if any(call.startswith(kind) and call.endswith(" failed") for call in calls)]
    said_calls = [call_of(call, int(clock), key) for call in calls]
    return Turn(head, int(clock), came or arrival_of(comes, int(clock), key), ",".join(failed) or "-", said_calls)


class Network:
    """The datagrams between three members that have not arrived: the receiver, the sender, and the bytes."""

    def __init__(self) -> None:
        self.under_way: List[Tuple[str, str, str]] = []

    def put(self, member: str, calls: List[str]) -> None:
        """Adds the messages that a member sends to the others."""
        for call in calls:
            kind, *words = call.split(" ")
            for other in MEMBERS:
                if kind == "send" and words[:2] == [PEERS[other][0], str(PEERS[other][1])]:
                    self.under_way.append((other, member, words[2]))

    def take(self, member: str, other: str) -> str:
        """Returns the bytes of the first datagram that has not arrived at a member from another one."""
        for place, (to, sender, _) in enumerate(self.under_way):
            if (to, sender) == (member, other):
                return self.under_way.pop(place)[2]
        raise Trouble(f"nothing is under way to {member} from {other}")


def shared_turn(text: str, network: Network, key: Optional[bytes]) -> Optional[Tuple[str, Turn]]:
    """Reads a turn of one of three members, or a line about datagrams that have not arrived."""
    if text == "nothing is under way":
        if network.under_way:
            raise Trouble(f"under way are {network.under_way}")
        return None
    member, rest = parted(text, " ")
    lost = re.fullmatch(r"loses from (S1|S2|AR)", rest)
    if lost:
        network.take(member, lost[1])
        return None
    handed = re.match(r"at \d+ from (S1|S2|AR)$", rest, re.MULTILINE)
    came = "datagram {} {} {}".format(*peer_of(handed[1]), network.take(member, handed[1])) if handed else None
    turn = turn_of(rest, key, came)
    network.put(member, turn.calls)
    return member, turn


def lives_of(story: Story) -> List[Life]:
    """Returns the start and the turns of each member of a story."""
    if len(story.members) == 1:
        return [Life(story.members[0], story.records, [turn_of(turn, story.key()) for turn in story.turns])]
    lives = {member: Life(member, [], []) for member in story.members}
    lives[story.members[0]].records.extend(story.records)
    network = Network()
    for text in story.turns:
        shared = shared_turn(text, network, story.key())
        if shared:
            lives[shared[0]].turns.append(shared[1])
    return list(lives.values())


def records_by_ticket(story: Story, life: Life) -> List[Tuple[str, str]]:
    """Returns the record of each ticket in the driver's form, or `none`."""
    tickets = story.tickets()
    records = life.records or ["none"] * len(tickets)
    if not tickets or len(records) != len(tickets):
        raise Trouble(f"{len(records)} records of {len(tickets)} tickets")
    return [(ticket, "none" if record == "none" else record_of(record)) for ticket, record in zip(tickets, records)]


def script_of(story: Story, life: Life, room: int) -> List[str]:
    """Returns the lines for the driver for a member's run."""
    lines = [f"file {hexed(CONFIGURATION.encode())} {hexed(story.configuration.encode())}"]
    if story.key():
        lines.append(f"file {hexed(KEY_FILE.encode())} {hexed(KEY)}")
    lines += [f"record {name} {record}" for name, record in records_by_ticket(story, life) if record != "none"]
    lines += [f"first {story.start}", f"room {room}"]
    lines += [f"step {turn.clock} {turn.fails} {turn.comes}" for turn in life.turns]
    words = ["daemon", "-c", CONFIGURATION, "-s", PEERS[life.member][0]]
    return lines + [run_line("boothd", [word.encode() for word in words])]


def start_of(story: Story, life: Life) -> List[str]:
    """Returns the calls of a daemon's start."""
    address, port = PEERS[life.member]
    configuration, records = hexed(CONFIGURATION.encode()), hexed(b"/var/lib/booth")
    calls = [f"read {configuration} ok"] + ([f"read {hexed(KEY_FILE.encode())} ok"] if story.key() else [])
    calls += [f"lock {hexed(b'/var/run/booth.lock')} got", f"now {story.start}"]
    calls.append(f"open {address} {port} {records} {configuration} ok")
    return calls + [f"kept {name} {record}" for name, record in records_by_ticket(story, life)]


def calls_of(story: Story, life: Life) -> List[Tuple[str, str]]:
    """Returns each line with which the driver must answer a member's run, and its turn."""
    lines = [("the start", call) for call in start_of(story, life)]
    for turn in life.turns:
        came = "failed" if turn.comes == "failure" else turn.comes
        lines += [(turn.head, call) for call in [f"next 100 {came}", f"now {turn.clock}", *turn.calls]]
    last = life.turns[-1].clock if life.turns else story.start
    return lines + [("the end", call) for call in ["next 100 stop", f"now {last}", "ends 0 Done"]]


def first_other(wanted: List[Tuple[str, str]], calls: List[str]) -> Optional[str]:
    """Returns the fault of the first call that differs from the wanted one, if there is one."""
    for place in range(max(len(wanted), len(calls))):
        turn, call = wanted[place] if place < len(wanted) else ("behind the end", "nothing")
        made = calls[place] if place < len(calls) else "nothing"
        if made != call:
            words = (call, made) if said(call) == said(made) else (said(call), said(made))
            return f"{turn}: not {words[0]!r} but {words[1]!r}"
    return None


def play(story: Story, driver: Driver) -> Iterator[str]:
    """Plays a story, and yields its faults."""
    for life in lives_of(story):
        wanted = calls_of(story, life)
        *made, run = driver.play("runs", script_of(story, life, len(wanted) + 100))
        if any(made):
            yield f"{story.name}: {life.member}: a line that is no run has an answer"
        other = first_other(wanted, run)
        if other:
            yield f"{story.name}: {life.member}: {other}"


def check(text: str, driver: Driver) -> Tuple[int, List[str]]:
    """Plays the stories of a file, and returns how many there are, and their faults."""
    try:
        texts, stories = shared_texts(), texts_in(text)
    except Trouble as fault:
        return 0, [str(fault)]
    wrong = [] if stories else ["no story"]
    for one in stories:
        try:
            wrong += play(story_of(one, texts), driver)
        except (Trouble, Unplayed, ValueError) as fault:
            wrong.append(f"{paragraphs(one)[0][0]}: {fault}")
    return len(stories), wrong
