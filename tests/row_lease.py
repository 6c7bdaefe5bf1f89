"""Plays the stories of single members under the lease rules: tests/rows/rules/lease/.

A story has a sentence, the start of a core, and its lines. `S1 at 5` starts a core at 5, and `S1 at 5 with 1` starts it
from a record. `steady S1 at 5` starts one that follows the steady rules. `alone` means that the site is the only
member, and `15 of 16` that it is the site at place 15 of 16 members.

A line with a call is `at`, the time, the call with its arguments, and after `: ` the action that the core must return.
The calls are `hello`; `ask` and a reason; `hear` and a message; `kept` or `failed`, the result of the write that waits;
`tick`; `renew`; and `release` and a reason. If no term is left, the answer to `ask` is `spent`, and the whole view is
unchanged. `note` and the noted value, or `view`, is followed by fields that the view must have. `as` and names plays
the lines of these parts of parts.txt.

If blocks follow after blank lines, each is a separate ending: it is played after the lines of the story, with its own
core.
"""

import re
from typing import Dict, List, Tuple

import rule_words
from lease_answers import compared_fields, deed, printed_deed, printed_view
from row_driver import Driver, Trouble
from rule_words import Step, Story, message, moment, number

NOTES = {"asked": "asked", "job over": "over", "ask failed": "unasked", "handler failed": "unhandled",
         "unready": "unready"}
GIVEN_A_REASON = ("ask", "release")
PLAIN = ("hello", "tick", "renew")


def start(line: str) -> str:
    """Returns the driver's line of a start."""
    found = re.fullmatch(r"(steady )?(S1|S2|AR|alone|(\d+) of (\d+)) at (\d+)(?: with (.+))?", line)
    if found is None:
        raise Trouble(f"no start: {line}")
    steady, who, place, members, now, kept = found.groups()
    seat = rule_words.Seat(int(place or 0), int(members or 1), is_steady=bool(steady))
    if who in rule_words.MEMBERS:
        seat = rule_words.seat_of(number(who) - 1, 3, bool(steady))
    return f"start {rule_words.start(moment(now), seat, rule_words.record(kept) if kept else None)}"


def note(now: int, what: str) -> str:
    """Returns the driver's line of a note."""
    if what in NOTES:
        return f"{NOTES[what]} {now}"
    found = re.fullmatch(r"job started (\d+) (\S+)", what)
    if found is None:
        raise Trouble(f"nothing is noted so: {what}")
    return f"started {now} {moment(found[1])} {number(found[2])}"


def call(now: int, text: str) -> str:
    """Returns the driver's line of a call that has an action."""
    name, _, given = text.partition(" ")
    if name == "hear":
        heard = message(given)
        return f"hear {now} {heard.sender - 1} {heard.words()}"
    if name in GIVEN_A_REASON:
        return f"{name} {now} {number(given)}"
    if text in ("kept", "failed"):
        return f"kept {now} {int(text == 'kept')}"
    if text in PLAIN:
        return f"{name} {now}"
    raise Trouble(f"no call: {text}")


def compared_start(answer: List[str], _before: List[str]) -> Tuple[object, object]:
    """Compares the answer of a start, which is only a view."""
    printed_view(answer)
    return "started", "started"


def note_step(story: str, row: str, now: int, what: str, fields: str) -> Step:
    """Returns the step of a note, which has no action."""
    return Step(story, row, note(now, what), lambda answer, _: compared_fields(printed_view(answer), fields))


def call_step(story: str, row: str, now: int, text: str, did: str) -> Step:
    """Returns the step of a call, whose action is compared whole."""
    line = call(now, text)
    if did == "spent":
        return Step(story, row, line, lambda answer, before: (answer, ["spent"] + before[-2:]))

    def compared(answer: List[str], _before: List[str]) -> Tuple[object, object]:
        printed_view(answer[-2:])
        made = answer[:-2] + (["did nothing nothing"] if text == "hello" else [])
        return printed_deed(made), deed(did)

    return Step(story, row, line, compared)


def step(story: str, row: str) -> Step:
    """Returns the step of a line."""
    if row.startswith("view "):
        return Step(story, row, None, lambda answer, _: compared_fields(printed_view(answer[-2:]), row[len("view "):]))
    found = re.fullmatch(r"at (\d+) (note )?([^:]+): (.+)", row)
    if found is None:
        raise Trouble(f"no line of a story: {row}")
    now, noted, text, did = found.groups()
    if noted:
        return note_step(story, row, moment(now), text, did)
    return call_step(story, row, moment(now), text, did)


def steps_of_lines(story: str, lines: List[str], parts: Dict[str, List[str]]) -> List[Step]:
    """Returns the steps of lines, and of the parts that they name."""
    steps = []
    for line in lines:
        if not line.startswith("as "):
            steps.append(step(story, line))
            continue
        for name in line[len("as "):].split(", "):
            if name not in parts:
                raise Trouble(f"no part: {name}")
            steps += steps_of_lines(story, "\n".join(parts[name]).split("\n"), {})
    return steps


def steps_of_story(story: Story, parts: Dict[str, List[str]]) -> List[Step]:
    """Returns the steps of a story, once with each of its endings."""
    sentence, opening, *lines = story.head + [""] * (2 - len(story.head))
    steps = []
    for ending in story.blocks or [""]:
        rows = lines + (ending.split("\n") if ending else [])
        if not rows:
            raise Trouble(f"nothing is told: {sentence}")
        steps.append(Step(sentence, opening, start(opening), compared_start))
        steps += steps_of_lines(sentence, rows, parts)
    return steps


def steps_of(text: str) -> List[Step]:
    """Returns the steps of a file."""
    parts = rule_words.parts("lease")
    return [step for story in rule_words.stories(text) for step in steps_of_story(story, parts)]


def check(text: str, driver: Driver) -> Tuple[int, List[str]]:
    """Plays a file's stories, and returns how many rows there are, and their faults."""
    return rule_words.checked("core", steps_of, text, driver)
