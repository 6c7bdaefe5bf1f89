"""Changes of a journal's lines or bytes, and the expected result of an audit of each changed journal.

It is imported by tests/audit.py, and not run by itself. It asks no auditor. It has few rules of the protocol: which
datagrams are accepted (tests/gate.py, from docs/PROTOCOL.md), which clock reading a turn uses, and that each frame has
this reading. A changed journal passes, or is refused, or may do either. It is refused at the changed line or a later
one.

**Lines** (`form`) that are left out, doubled or swapped:

- The journal passes if a call only lost its answer, and this call is the last of its session. After it comes the end,
  or a start: `now`, and then `open`, another start or the end. This is so if the last line is left out, if the answer
  before a start is left out, and if the `now` of a start is doubled.
- Otherwise the journal is refused. The first later call that is not `now` is not demanded there, since a start must
  continue with `open`.
- A journal that is cut at its end passes. But other members may have received messages that it no longer has as sent.

**Calls** with their answers (`judged_call`) that are left out, doubled or swapped: the journal is refused, since this
call or the next one is not the demanded one. But the last call of a session may be missing, and a start may read its
clock twice.

**Digits** (`judged_digit`):

- In a call, or in a record that a start read: refused, since the rules demand each call exactly.
- In a clock reading: passes if each turn uses the same reading as before; refused if a turn that sends frames uses
  another one. Otherwise either, by the deadlines.
- In the sender of a datagram: passes if it was a member, since answers go to the member's own address; refused if a
  client was answered there in this turn. Otherwise either.
- In the bytes of a datagram: passes if it is accepted as the same message, or dropped for the same fault; refused if it
  was a client's request that was answered in this turn, and is dropped now. Otherwise either.
"""

import functools
import math
from typing import List, NamedTuple, Optional

import frames
import gate
import journal_file
import record_file

GREATEST = 2**62 - 1
# what counts as read if there is no record
NO_RECORD = record_file.FIRST_FORM.pack(1, 0, 0, 0, 0, 0).hex()
# the kind of a change of whole calls, with their answers
CALL = "call"


class Roster(NamedTuple):
    """The data by which journals are judged: members as (role, address), tickets, and the key."""

    members: tuple
    tickets: tuple
    key: Optional[bytes] = None
    skew: int = 600

    def station(self, address):
        others = tuple(member for member in self.members if member[1] != address)
        is_site = ("site", address) in self.members
        return gate.Station(address, others, self.tickets, self.key, self.skew, is_site=is_site)

    def address_of(self, number):
        return next((address for _, address in self.members if frames.member_id(address) == number), None)


class Change(NamedTuple):
    """A changed journal: the kind of change, its line (counted from 1), and the whole text."""

    kind: str
    line: int
    text: bytes


class Due(NamedTuple):
    """The expected result of an audit of a changed journal: one of these faults at a line from `first` to `last`; or,
    if it may pass, the lines that are printed for the journals.
    """

    faults: tuple = ()
    first: int = 0
    last: float = math.inf
    may_pass: bool = False

    def allows(self, line, fault):
        """Returns whether this fault of the changed journal is one of these. The fault of a whole journal has no line.
        """
        return fault in self.faults and (line is None or self.first <= line <= self.last)


VALID = Due(may_pass=True)


def fault_at(line, *faults):
    return Due(faults, line, line)


class Turn(NamedTuple):
    """A turn or a start: the place of its `next` or `now`, the reading that it uses, and the places of its actions."""

    at: int
    now: int
    used: int
    deeds: List[int]


def text_of(lines):
    return "".join(f"{line}\n" for line in lines).encode("latin-1")


# ---- changes


def left_out(lines):
    for at in range(len(lines)):
        yield Change("left out", at + 1, text_of(lines[:at] + lines[at + 1 :]))


def doubled(lines):
    for at in range(len(lines)):
        yield Change("doubled", at + 1, text_of(lines[: at + 1] + lines[at:]))


def swapped(lines):
    for at in range(len(lines) - 1):
        yield Change("swapped", at + 1, text_of(lines[:at] + [lines[at + 1], lines[at]] + lines[at + 2 :]))


def with_calls(kind, lines, put):
    """For each call that has an answer, and is followed by another such call: the text with these lines in place of the
    two.
    """
    entries = entries_of(text_of(lines))
    ends = [entry.line - 1 for entry in entries] + [len(lines)] * 2
    for entry, later, begin, middle, end in zip(entries, [*entries[1:], None], ends, ends[1:], ends[2:]):
        if entry.answer is None or later and later.answer is None:
            continue
        changed = lines[:begin] + put(lines[begin:middle], lines[middle:end]) + lines[end:]
        if changed != lines:
            yield Change(kind, entry.line, text_of(changed))


def calls_left_out(lines):
    return with_calls(CALL, lines, lambda one, two: two)


def calls_doubled(lines):
    return with_calls(CALL, lines, lambda one, two: one + one + two)


def calls_swapped(lines):
    return with_calls(CALL, lines, lambda one, two: two + one)


def digit_places(line):
    """Returns the places of digits in a line, including the letters of hexadecimal digits."""
    words, places, start = line.split(" "), [], 0
    for number, word in enumerate(words):
        # (hexadecimal is the last word, or the only one; names and calls are no such)
        is_hex = number == len(words) - 1 and len(word) > 16 and not set(word) - set("0123456789abcdef")
        digits = "0123456789abcdef" if is_hex else "0123456789"
        places += [start + at for at, letter in enumerate(word) if letter in digits]
        start += len(word) + 1
    return places


def other_digit(line, place, chance):
    letters = "0123456789abcdef" if line[place] in "abcdef" else "0123456789"
    return chance.choice([letter for letter in letters if letter != line[place]])


def with_a_digit(lines, chance, count=1):
    """For each line with digits: this many texts in which one of the digits is changed."""
    for at, line in enumerate(lines):
        places = digit_places(line)
        for place in chance.sample(places, min(count, len(places))):
            changed = line[:place] + other_digit(line, place, chance) + line[place + 1 :]
            yield Change("digit", at + 1, text_of(lines[:at] + [changed] + lines[at + 1 :]))


# ---- what lines say


@functools.lru_cache(maxsize=16)
def entries_of(text):
    """Returns the calls in a journal. A text that is given repeatedly is read once."""
    return tuple(journal_file.entries_of(text))


def strays_behind(entries, place):
    """Returns the place of the call that is not required after this interrupted one, or None: only a start may follow.
    """
    place += 1
    while place < len(entries) and entries[place].kind == "now":
        place += 1
        if place < len(entries) and entries[place].kind == "open":
            return None
    return place if place < len(entries) else None


def form(text) -> Due:
    """Returns the expected result for a text whose lines come from a journal, by their form."""
    try:
        entries = entries_of(text)
    except journal_file.BadLine as why:
        return fault_at(why.number, "syntax")
    cut = (place for place, entry in enumerate(entries) if entry.answer is None)
    strays = next((found for place in cut if (found := strays_behind(entries, place)) is not None), None)
    return VALID if strays is None else fault_at(entries[strays].line, "differs")


def named(entries, line):
    """Returns the kind of a line: the call, or the call whose answer it is."""
    entry = max((entry for entry in entries if entry.line <= line), key=lambda entry: entry.line)
    return entry.kind if entry.line == line else f"answer of {entry.kind}"


def is_start(entries, place):
    return entries[place].kind == "now" and place + 1 < len(entries) and entries[place + 1].kind == "open"


def turns_of(entries) -> List[Turn]:
    """Returns the starts and turns of a journal that passes, each with the reading in use."""
    turns, last = [], 0
    for place, entry in enumerate(entries):
        if entry.kind == "now" and entry.answer is not None:
            reading, starts = min(int(entry.answer), GREATEST), is_start(entries, place)
            last = reading if starts else max(last, reading)
            turns.append(Turn(place if starts else place - 1, place, last, []))
        elif turns and entry.kind not in ("next", "now"):
            turns[-1].deeds.append(place)
    return turns


def is_whole(roster, entries, start):
    """Returns whether a start opened its socket and read all records; otherwise it is not a session."""
    answers = [entries[place].answer for place in start.deeds[: 1 + len(roster.tickets)]]
    return len(answers) == 1 + len(roster.tickets) and None not in answers and "fail" not in answers


def lease_in(digits):
    """Returns the lease of a record in hexadecimal, or None."""
    content = bytes.fromhex(digits)
    if len(content) == record_file.FIRST_FORM.size:
        return record_file.first_record(record_file.FIRST_FORM.unpack(content)).lease
    return record_file.second_record(record_file.SECOND_FORM.unpack(content)).lease


def address_in(entries):
    """Returns the address that the starts of a journal open, or None if none opens one."""
    return next((entry.call["address"] for entry in entries if entry.kind == "open"), None)


def holdings(roster, texts):
    """Returns the lines that an audit prints for journals that pass."""
    lines = []
    all_of = [entries_of(text) for text in texts]
    for ticket in roster.tickets:
        for entries in all_of:
            for turn in turns_of(entries):
                if is_start(entries, turn.at) and not is_whole(roster, entries, turn):
                    continue
                for place in turn.deeds:
                    lines += held_by(entries[place], ticket.decode(), address_in(entries), turn.used)
    return "".join(lines)


def held_by(entry, ticket, address, reading):
    """Returns the line of a keep with a lease, or of a record with one that a start read."""
    digits = {"keep": entry.call.get("hex"), "kept": entry.came.get("hex")}.get(entry.kind)
    lease = lease_in(digits) if digits and entry.call["ticket"] == ticket else None
    return [f"ticket {ticket}, site {address}, from {reading} until {lease.until}\n"] if lease else []


def silent_starts(roster, paths, texts):
    """The lines that an audit prints after the leases, for journals that pass and whose files have these paths."""
    lines = []
    for path, text in zip(paths, texts):
        entries, may = entries_of(text), {}
        for turn in turns_of(entries):
            if is_start(entries, turn.at) and not is_whole(roster, entries, turn):
                continue
            for place in turn.deeds:
                lines += [f"{path}: {line}\n" for line in silent_read(entries[place], may)]
    return "".join(lines)


def silent_read(entry, may):
    """What is printed for a record that a start read and that is none of those which may have been written for each
    ticket. Those are changed as this call changes them.
    """
    if entry.kind not in ("kept", "keep"):
        return []
    ticket, before = entry.call["ticket"], may.get(entry.call["ticket"], [NO_RECORD])
    if entry.kind == "keep":
        may[ticket] = [entry.call["hex"]] + ([] if entry.answer == "ok" else before)
        return []
    found = entry.came.get("hex", NO_RECORD)
    may[ticket] = [found]
    # (in both forms the term follows the version)
    return [] if found in before else [f"line {entry.line + 1}: silent: {ticket}, term {int(found[8:16], 16)}"]


# ---- messages


@functools.lru_cache(maxsize=1 << 14)
def met(station, digits, used):
    """Returns the message in a datagram in hexadecimal digits, or the number of the fault for which the datagram is
    dropped.
    """
    return gate.verdict(station, journal_file.bytes_of(digits), used // 1000)


def sends_of(roster, entries):
    """Returns the messages that a journal sends, each without its signature."""
    size = frames.AUTH_BYTES if roster.key else 0
    sent = (journal_file.bytes_of(entry.call["hex"]) for entry in entries if entry.kind == "send")
    return {frame[: len(frame) - size] for frame in sent}


def first_unsent(roster, texts):
    """Returns the place of the first journal that heard a message that no journal sends, and the line; or None."""
    all_of = [entries_of(text) for text in texts]
    sent = {address_in(entries): sends_of(roster, entries) for entries in all_of}
    size = frames.AUTH_BYTES if roster.key else 0
    for place, entries in enumerate(all_of):
        station = roster.station(address_in(entries))
        for turn in turns_of(entries):
            came = entries[turn.at].came.get("hex")
            found = met(station, came, turn.used) if came else gate.FRAME
            if isinstance(found, int) or found.letters not in frames.MEMBERS_SAY:
                continue
            frame = journal_file.bytes_of(came)
            if frame[: len(frame) - size] not in sent.get(roster.address_of(found.head.sender), ()):
                return place, entries[turn.at].line + 1
    return None


# ---- what a changed call is


def judged_call(good, change) -> Due:
    """Returns the expected result if a call is left out, doubled or swapped with the next, each with its answer."""
    due = form(change.text)
    if due != VALID:
        return due
    entries = entries_of(good)
    place = next(place for place, entry in enumerate(entries) if entry.line == change.line)
    is_last = place + 1 == len(entries) or is_start(entries, place + 1)
    # (a clock reading that no turn demands counts as a start, and the next call does not continue a start)
    return Due(("differs",), change.line, change.line + 4, may_pass=is_last or is_start(entries, place))


# ---- what a changed digit is


def judged_digit(roster, good, changed, line) -> Due:
    """Returns the expected result if a digit of this line is changed."""
    due = form(changed)
    if due != VALID:
        return due
    before, after = entries_of(good), entries_of(changed)
    place = next(place for place, (old, new) in enumerate(zip(before, after)) if old != new)
    kind = before[place].kind
    if before[place].line == line:
        return Due(("differs", "member"), line) if kind == "open" else fault_at(line, "differs", "syntax")
    if kind == "kept":
        return fault_at(line, "record", "syntax")
    if kind == "now":
        return judged_reading(before, after, line)
    return judged_datagram(roster, before, after, place)


def judged_reading(before, after, line):
    """Returns the same if a reading of the clock is changed."""
    pairs = [(old, new) for old, new in zip(turns_of(before), turns_of(after)) if old.used != new.used]
    if not pairs:
        return VALID
    sends = any(before[place].kind == "send" for old, _ in pairs for place in old.deeds)
    return Due(("differs",), line) if sends else Due(("differs", "unsent"), line - 2, may_pass=True)


def judged_datagram(roster, before, after, place):
    """Returns the same if the arrived datagram, or the address that it came from, is changed."""
    old, new, line = before[place].came, after[place].came, before[place].line + 1
    either = Due(("differs", "unsent"), line, may_pass=True)
    if "hex" not in old:
        return either
    turn = next((turn for turn in turns_of(before) if turn.at == place), None)
    if turn is None:
        # (this turn has no reading: it is the last of its session)
        return VALID
    station = roster.station(address_in(before))
    was, now = met(station, old["hex"], turn.used), met(station, new["hex"], turn.used)
    # (a dropped datagram is counted by its fault)
    if isinstance(was, int) or was.letters in frames.MEMBERS_SAY:
        return VALID if now == was else either
    whom = {(before[deed].call.get("address"), before[deed].call.get("port")) for deed in turn.deeds}
    is_answered = (old["address"], old["port"]) in whom
    if old["hex"] == new["hex"] or isinstance(now, int):
        return Due(("differs",), line) if is_answered else either
    return VALID if now == was else either
