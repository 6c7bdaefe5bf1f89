"""Plays the stories of manual tickets at one member: tests/rows/rules/manual/.

A story has a sentence, the record of its start or `new`, and its lines. A line is a call with the messages that the
member must send. The calls are `grant`, `again` and `revoke`, with the record that the member must write, or `none` if
no term is left; `kept` or `failed`, the result of that write; `hear` and a message; and `hello`. A line `knows` has the
knowledge of the first site between two calls: its record, whether it is sure of the record, and which other holder it
shows.
"""

from typing import List, NamedTuple, Optional, Tuple

import rule_words
from row_driver import Driver, Trouble
from rule_words import Record, Step, Story, message, number, optional, printed_record, printed_say, record, say

KEEPING = ("grant", "again", "revoke")
SAYING = {"kept": "kept 1", "failed": "kept 0", "hello": "hello"}


class Known(NamedTuple):
    """A member's knowledge between two calls."""

    term: int
    kept: Record
    sure: str
    owner: str
    shown: Optional[int]
    waits: str = "idle"


def known(text: str) -> Known:
    """Returns the knowledge in a text."""
    words = text.split(", ")
    if len(words) != 3 or words[1] not in ("sure", "unsure"):
        raise Trouble(f"nothing is known so: {text}")
    kept = record(words[0])
    owner = "other" if kept.lease_term is None else "owner"
    return Known(kept.term, kept, words[1], owner, None if words[2] == "none" else number(words[2]))


def printed_known(line: str) -> Known:
    """Returns the knowledge in a line of the driver."""
    words = line.split(" ")
    if len(words) != 15 or words[0] != "known":
        raise Trouble(f"the driver printed nothing that is known: {line}")
    kept, shown = printed_record(words[2:11]), optional(words[13])
    return Known(rule_words.moment(words[1]), kept, words[11], words[12], shown, words[14])


def printed_made(answer: List[str], word: str) -> Optional[List[str]]:
    """Returns the words for the result of a call, which is at most one line before the line of its knowledge."""
    printed_known(answer[-1])
    if len(answer) == 1:
        return None
    words = answer[0].split(" ")
    if len(answer) != 2 or words[0] != word:
        raise Trouble(f"the driver printed something else: {answer}")
    return words[1:]


def keeping(answer: List[str]) -> Optional[Record]:
    """Returns the record to write, or None if no term is left."""
    if answer[:-1] == ["spent"]:
        return None
    return printed_record(printed_made(answer, "keep") or [])


def saying(answer: List[str]) -> Optional[rule_words.Say]:
    """Returns the message to send, if there is one."""
    words = printed_made(answer, "say")
    return printed_say(words) if words else None


def keep_step(story: str, row: str, call: str, did: str) -> Step:
    """Returns the step of a call that has a record to write."""
    wanted = None if did == "none" else record(did)
    return Step(story, row, call, lambda answer, _: (keeping(answer), wanted))


def say_step(story: str, row: str, line: str, did: str) -> Step:
    """Returns the step of a call that sends one message or none."""
    wanted = None if did == "nothing" else say(did)
    return Step(story, row, line, lambda answer, _: (saying(answer), wanted))


def step(story: str, row: str) -> Step:
    """Returns the step of a line."""
    if row.startswith("knows "):
        wanted = known(row[len("knows "):])
        return Step(story, row, "look", lambda answer, _: ([printed_known(line) for line in answer], [wanted]))
    call, colon, did = row.partition(": ")
    if not colon:
        raise Trouble(f"no line of a story: {row}")
    if call in KEEPING:
        return keep_step(story, row, call, did)
    if call in SAYING:
        return say_step(story, row, SAYING[call], did)
    if call.startswith("hear "):
        return say_step(story, row, f"hear {message(call[len('hear '):], 1, 5, 6).words()}", did)
    raise Trouble(f"no call: {row}")


def steps_of_story(story: Story) -> List[Step]:
    """Returns the steps of a story."""
    sentence, opening, *lines = story.head + [""] * (2 - len(story.head))
    if story.blocks or not lines:
        raise Trouble(f"a story has its lines in one block: {sentence}")
    kept = None if opening == "new" else record(opening)
    line = f"start {rule_words.start(0, rule_words.seat_of(0, 3), kept)}"
    started = Step(sentence, opening, line, lambda answer, _: (len(answer), 1))
    return [started] + [step(sentence, row) for row in lines]


def steps_of(text: str) -> List[Step]:
    """Returns the steps of a file."""
    return [step for story in rule_words.stories(text) for step in steps_of_story(story)]


def check(text: str, driver: Driver) -> Tuple[int, List[str]]:
    """Plays a file's stories, and returns how many rows there are, and their faults."""
    return rule_words.checked("manual", steps_of, text, driver)
