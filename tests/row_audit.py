"""Plays the audits below tests/rows/audit/: journals of members, and the result of `boothd audit`.

It is imported by tests/rows.py, which plays its files. `stories_in.py` describes the form of texts in a file. The first
word of a text's name is its kind:

`audits`: each row is one audit. It has the configuration, the parts of each journal, and the result. If the members
have a key, ` with ` and the key follow the configuration. ` and ` separates journals, and a comma separates the parts
of a journal; `nothing` is a journal without parts. If ` with ` OTHERS ` for ` DIGITS follows a part, OTHERS replaces
DIGITS in this part.

`edits`: the second line has the configuration and the journals. Each line of each journal is changed in four ways: it
is left out, doubled, swapped with the next one, or gets another last digit (one more if it is even, otherwise one
less). A row has the number of changed lines and the number of good results; or it has a change, the journal, the line
and the result. Without such a row the changed line must be the fault's line, or the line after it if it was doubled.

`cuts`: the second line has the configuration and the journals. Each journal is cut before each of its lines, and before
each line end. A row has a journal, the number of whole lines that it must keep for the rows after it, and the result if
it keeps fewer. The result after `else` holds if no row has another one.

A result is `good` and what is printed, or the fault with its journal and its line. A holding is `held` with the ticket,
the member, from when and until when; a silent start is `silent` with the journal, the line, the ticket and the term.
The output of `boothd audit` has this in words, and the whole output is compared, as are all its calls.

The journals `S1`, `S2` and `AR` are those of the three members of `run.txt`. The run is played as a story of
row_node.py, and its calls are written in the form of docs/JOURNAL.md, up to the one that stops the daemon.
"""

import re
from typing import Dict, Iterator, List, NamedTuple, Optional, Tuple

import row_node
from call_lines import hexed, parted
from record_file import FIRST_FORM, HAS_BOUND, HAS_LEASE, HAS_PROMISE, SECOND_FORM
from row_driver import Driver, Trouble, Unplayed, run_line
from stories_in import named_in, paragraphs, read_file, text_of, texts_in

FAULT = {"line": "syntax", "differs": "differs", "kept": "record", "unsent": "unsent"}
EDITS = ["left out", "doubled", "swapped", "digit"]


class Audit(NamedTuple):
    """An audit: the text of the configuration, the key of its members, and the journals."""

    configuration: str
    key: Optional[bytes]
    journals: List[str]

    def files(self) -> List[Tuple[str, bytes]]:
        """Returns the paths and the bytes of its files, in the order in which they are read."""
        found = [(row_node.CONFIGURATION, self.configuration.encode())]
        found += [] if self.key is None else [(row_node.KEY_FILE, self.key)]
        return found + [(path_of(place), journal.encode()) for place, journal in enumerate(self.journals)]

    def script(self) -> List[str]:
        """Returns the lines for the driver."""
        lines = [f"file {hexed(path.encode())} {hexed(data)}" for path, data in self.files()]
        words = ["audit", "-c", row_node.CONFIGURATION] + [path_of(place) for place in range(len(self.journals))]
        return lines + [run_line("boothd", [word.encode() for word in words])]

    def answer(self, result: str) -> List[str]:
        """Returns the lines that the driver must answer if this is the result of its run."""
        read = [f"read {hexed(path.encode())} ok" for path, _ in self.files()]
        kind, *reported = result.split(", ")
        if kind == "good":
            printed = "".join(self.printed(one) for one in reported)
            return read + [f"out {hexed(printed.encode())} ok", "ends 0 Done"]
        told, outcome = fault_of(kind)
        return read + [f"err {hexed(told.encode())} ok", f"ends 1 AuditBad({outcome})"]

    def printed(self, text: str) -> str:
        """Returns the line that is printed for a holding or a silent start."""
        word, *rest = text.split(" ")
        names = re.findall(r'^ticket="(.*)"$', self.configuration, re.MULTILINE)
        if word == "held":
            ticket, member, since, until = (int(number) for number in rest)
            site = re.findall(r'^(?:site|arbitrator)="(.*)"$', self.configuration, re.MULTILINE)[member]
            return f"ticket {names[ticket]}, site {site}, from {since} until {until}\n"
        if word == "silent":
            journal, line, ticket, term = (int(number) for number in rest)
            return f"{path_of(journal)}: line {line}: silent: {names[ticket]}, term {term}\n"
        raise Trouble(f"{text!r} is neither a holding nor a silent start")


class Shared(NamedTuple):
    """The parts that the audits share: configurations, and parts of journals, each of whole lines."""

    configurations: Dict[str, str]
    parts: Dict[str, str]

    def audit(self, configuration: str, journals: str) -> Audit:
        """Reads an audit."""
        name, _, key = configuration.partition(" with ")
        text = text_of(self.configurations, name) + "\n" + (f"authfile = {row_node.KEY_FILE}\n" if key else "")
        return Audit(text, key.encode() if key else None, [self.journal(one) for one in journals.split(" and ")])

    def journal(self, text: str) -> str:
        """Reads a journal."""
        names, _, change = text.partition(" with ")
        journal = "" if names == "nothing" else "".join(text_of(self.parts, name) for name in names.split(", "))
        if not change:
            return journal
        new, old = parted(change, " for ")
        if old not in journal:
            raise Trouble(f"the journal {names!r} has no {old}")
        return journal.replace(old, new, 1)


class Try(NamedTuple):
    """An audit, how a row calls it, and its result in the row."""

    name: str
    audit: Audit
    wanted: str


def path_of(place: int) -> str:
    """Returns the path of the journal at this place."""
    return f"/{place}.journal"


def fault_of(text: str) -> Tuple[str, str]:
    """Returns the text for a fault, and the outcome."""
    kind, *places = text.split(" ")
    if kind == "member" and len(places) == 1:
        return f"boothd: {path_of(int(places[0]))}: member\n", f"Member {{ journal: {places[0]} }}"
    if kind not in FAULT or len(places) != 2:
        raise Trouble(f"{text!r} is no result")
    journal, line = (int(place) for place in places)
    told = f"boothd: {path_of(journal)}: line {line}: {FAULT[kind]}\n"
    return told, f"{kind.capitalize()} {{ journal: {journal}, line: {line} }}"


def spelled_record(words: List[str]) -> str:
    """Returns the bytes of a driver's record, in hexadecimal digits."""
    if words[0] in ("none", "failed"):
        return "fail" if words[0] == "failed" else "none"
    numbers = (0 if word == "-" else int(word) for word in words)
    version, term, lease_term, until, bound, to, promised, end, abstain = numbers
    flags = [0 if words[place] == "-" else flag for place, flag in ((2, HAS_LEASE), (4, HAS_BOUND), (5, HAS_PROMISE))]
    if version == 1:
        return FIRST_FORM.pack(version, term, flags[0], lease_term, until, 0).hex()
    return SECOND_FORM.pack(version, term, sum(flags), lease_term, until, bound, to, promised, 0, end, abstain, 0).hex()


def journal_lines(call: str) -> List[str]:
    """Returns the journal's lines for a call that the driver printed."""
    kind, *words = call.split(" ")
    if kind in ("read", "lock", "out", "err", "ends"):
        return []
    done = {"ok": "ok", "failed": "fail"}.get(words[-1], "")
    if kind == "now":
        return ["now", words[0]]
    if kind == "next":
        return ["next", " ".join(["data", *words[2:]]) if words[1] == "datagram" else " ".join(words[1:])]
    if kind == "kept":
        return [f"kept {words[0]}", spelled_record(words[1:])]
    if kind == "keep":
        return [f"keep {words[0]} {spelled_record(words[1:-1])}", done]
    if kind in ("open", "send"):
        return [" ".join([kind, *words[:3 if kind == "send" else 1]]), done]
    raise Trouble(f"{call!r} is in no journal")


def journals_of(driver: Driver) -> Dict[str, str]:
    """Plays the run of three members, and returns their journals."""
    texts = row_node.shared_texts()
    story = row_node.story_of(texts_in(read_file("audit", "run.txt"))[0], texts)
    journals = {}
    for life in row_node.lives_of(story):
        wanted = row_node.calls_of(story, life)
        calls = driver.play("runs", row_node.script_of(story, life, len(wanted) + 100))[-1]
        other = row_node.first_other(wanted, calls)
        if other:
            raise Trouble(f"the run of {life.member}: {other}")
        lines = [line for call in calls[:-3] for line in journal_lines(call)]
        journals[life.member] = "".join(f"{line}\n" for line in lines)
    return journals


def audits(shared: Shared, _head: List[str], rows: List[str]) -> Iterator[Try]:
    """Yields the audits of rows."""
    for row in rows:
        configuration, rest = parted(row, ": ")
        journals, wanted = parted(rest, ": ")
        yield Try(row, shared.audit(configuration, journals), wanted)


def replaced(audit: Audit, place: int, journal: str) -> Audit:
    """Returns the audit with another journal at this place."""
    return audit._replace(journals=audit.journals[:place] + [journal] + audit.journals[place + 1:])


def changed_digit(line: str) -> Optional[str]:
    """Returns a line with another last digit, if it has one."""
    found = re.fullmatch(r"(.*)([0-9])([^0-9]*)", line)
    return found and f"{found[1]}{int(found[2]) ^ 1}{found[3]}"


def edited(edit: str, lines: List[str], at: int) -> Optional[List[str]]:
    """Returns the lines of a journal with this edit of the line at a place, if the edit is possible."""
    line, more = lines[at], lines[at + 1:]
    digit = changed_digit(line)
    if (edit == "swapped" and not more) or (edit == "digit" and digit is None):
        return None
    if edit == "swapped":
        return lines[:at] + [more[0], line] + more[1:]
    return lines[:at] + {"left out": [], "doubled": [line, line], "digit": [digit or ""]}[edit] + more


def rows_by_name(rows: List[str]) -> Dict[str, str]:
    """Returns the texts after the names in rows."""
    found = dict(parted(row, ": ") for row in rows)
    if len(found) != len(rows):
        raise Trouble("a name stands in two rows")
    return found


def edits_of(audit: Audit, edit: str) -> Iterator[Tuple[str, Audit, str]]:
    """Yields the name of each edit of this kind, its audit, and its result, unless a row has another result."""
    for place, journal in enumerate(audit.journals):
        lines = journal.splitlines()
        for at in range(len(lines)):
            changed = edited(edit, lines, at)
            if changed is not None:
                other = replaced(audit, place, "".join(f"{line}\n" for line in changed))
                fault = f"line {place} {at + 2 if edit == 'doubled' else at + 1}"
                yield f"{edit} {place} {at + 1}", other, fault


def edits(shared: Shared, head: List[str], rows: List[str]) -> Iterator[Try]:
    """Yields the audits of edits."""
    audit = shared.audit(*parted(head[1], ": "))
    wanted = rows_by_name(rows)
    for edit in EDITS:
        tries = [Try(name, other, wanted.pop(name, fault)) for name, other, fault in edits_of(audit, edit)]
        good = sum(one.wanted.startswith("good") for one in tries)
        if wanted.pop(edit, "") != f"{len(tries)} tried, {good} good":
            raise Trouble(f"{edit}: {len(tries)} tried, {good} good")
        yield from tries
    if wanted:
        raise Trouble(f"there are no such edits: {list(wanted)}")


def cuts(shared: Shared, head: List[str], rows: List[str]) -> Iterator[Try]:
    """Yields the audits of cuts."""
    audit = shared.audit(*parted(head[1], ": "))
    wanted = rows_by_name(rows)
    otherwise = wanted.pop("else")
    limits = [(*(int(word) for word in name.split(" ")), result) for name, result in wanted.items()]
    for place, journal in enumerate(audit.journals):
        ends = [at for at, byte in enumerate(journal) if byte == "\n"]
        for at in sorted({0, *ends, *(end + 1 for end in ends[:-1])}):
            lines = journal.count("\n", 0, at)
            results = [result for row_place, before, result in limits if row_place == place and lines < before]
            yield Try(f"journal {place} cut at {at}", replaced(audit, place, journal[:at]), (results or [otherwise])[0])


def played(tries: List[Try], driver: Driver) -> Iterator[str]:
    """Plays audits, and yields their faults."""
    answers = driver.play("runs", [line for one in tries for line in one.audit.script()])
    for one in tries:
        *made, run = answers[:len(one.audit.script())]
        answers = answers[len(one.audit.script()):]
        wanted = one.audit.answer(one.wanted)
        if any(made) or run != wanted:
            yield f"{one.name}: not {one.wanted!r}: {made} {[legible(line) for line in run]}"


def legible(call: str) -> str:
    """Returns a call that the driver printed, with its texts in letters."""
    kind, *words = call.split(" ")
    return f"{kind} {bytes.fromhex(words[0].strip('-')).decode()!r}" if kind in ("out", "err", "read") else call


def check(text: str, driver: Driver) -> Tuple[int, List[str]]:
    """Plays the audits of a file, and returns how many there are, and their faults."""
    parts = {name: f"{part}\n" for name, part in named_in("audit", ["parts.txt"]).items()}
    kinds = {"audits": audits, "edits": edits, "cuts": cuts}
    count, wrong = 0, []
    try:
        shared = Shared(named_in("audit", ["configurations.txt"]), {**parts, **journals_of(driver)})
        for one in texts_in(text):
            head, rest = paragraphs(one)
            tries = list(text_of(kinds, parted(head[0], ": ")[0])(shared, head, "\n".join(rest).split("\n")))
            count += len(tries)
            wrong += played(tries, driver)
    except (Trouble, Unplayed, ValueError, LookupError) as fault:
        wrong.append(str(fault))
    return count, wrong if count else wrong + ["no audit"]
