"""Plays the tables about votes and numbers of the lease rules: tests/rows/rules/votes/.

A table is its sentence, the names of its columns, and its rows: what is given, `|`, and what is to follow.
"""

from typing import Callable, Dict, List, Tuple

import rule_words
from lease_answers import Deed, deed, printed_deed, printed_view, truth
from row_driver import Driver, Trouble
from row_lease import call, start
from rule_words import Step, Story, moment

# the moment of an election in the table of majorities
ELECTED = 1_000_000
# a moment at which a member abstains after its start, and that of its next deadline
ABSTAINS = 601_202
NEXT = 606_202


def made(answer: List[str]) -> Deed:
    """Returns the action in an answer of the driver. The last two lines of the answer have the view."""
    printed_view(answer[-2:])
    return printed_deed(answer[:-2])


def vote(place: int) -> str:
    """Returns the vote of the member at a place for the site at place 0 in its first term."""
    return f"hear {place + 1} VtFr 0 0 0 0 S1 1 0"


def keeps(story: str, row: str, line: str, wanted: bool) -> Step:
    """Returns the step of a call that writes a record, or none."""
    return Step(story, row, line, lambda answer, _: (made(answer).keep is not None, wanted))


def unseen(story: str, row: str, line: str) -> Step:
    """Returns the step of a call that only prepares what a row shows."""
    return Step(story, row, line, lambda answer, _: (bool(answer), True))


def majority(story: str, row: str, given: List[int], wanted: str) -> List[Step]:
    """Returns the steps of an election: only the last of this many answers gives a lease, or none does."""
    answered, members = given
    if not 0 < answered <= members:
        raise Trouble(f"so many cannot answer: {row}")
    steps = [unseen(story, row, start(f"0 of {members} at 0")), unseen(story, row, call(ELECTED, "ask Admn"))]
    calls = ["kept"] + [vote(place) for place in range(1, answered)]
    last = len(calls) - 1
    return steps + [keeps(story, row, call(ELECTED, text), count == last and truth(wanted) == 1)
                    for count, text in enumerate(calls)]


def asked_again(story: str, row: str, given: List[int], wanted: str) -> List[Step]:
    """Returns the steps of an election whose round is sent again to the members that have not answered."""
    members, place, votes = given
    calls = [(0, "hello"), (ABSTAINS, "ask Admn"), (ABSTAINS, "kept")]
    calls += [(ABSTAINS, vote(voter)) for voter in range(1, votes + 1)]
    me = place + 1
    said = deed(f"say {moment(wanted)} {me} RVot 0 0 Admn 0 {me} 1 0")
    steps = [unseen(story, row, start(f"{place} of {members} at 0"))]
    steps += [unseen(story, row, call(now, text)) for now, text in calls]
    return steps + [Step(story, row, call(NEXT, "tick"), lambda answer, _: (str(made(answer)), str(said)))]


def seconds(story: str, row: str, given: List[int], wanted: str) -> List[Step]:
    """Returns the step of a count of seconds."""
    until, now = given
    return [Step(story, row, f"seconds {until} {now}", lambda answer, _: (answer, [f"seconds {moment(wanted)}"]))]


def limits(story: str, row: str, _given: List[int], wanted: str) -> List[Step]:
    """Returns the step of a look at the last term and the last number."""
    return [Step(story, row, "limits", lambda answer, _: (answer, [f"limits {wanted}"]))]


TABLES: Dict[str, Callable[[str, str, List[int], str], List[Step]]] = {
    "answered members | majority": majority,
    "members place votes | asked again": asked_again,
    "moment now | seconds": seconds,
    "| last term, last number": limits,
}


def steps_of_table(story: Story) -> List[Step]:
    """Returns the steps of a table."""
    sentence, columns, *rows = story.head + [""] * (2 - len(story.head))
    if columns not in TABLES or story.blocks or not rows:
        raise Trouble(f"no table: {sentence}")
    count = len(columns.partition("|")[0].split())
    steps = []
    for row in rows:
        given, bar, wanted = row.partition("| ")
        numbers = [moment(word) for word in given.split()]
        if not bar or len(numbers) != count:
            raise Trouble(f"no row of this table: {row}")
        steps += TABLES[columns](sentence, row, numbers, wanted)
    return steps


def steps_of(text: str) -> List[Step]:
    """Returns the steps of a file."""
    return [step for story in rule_words.stories(text) for step in steps_of_table(story)]


def check(text: str, driver: Driver) -> Tuple[int, List[str]]:
    """Plays a file's tables, and returns how many calls they need, and their faults."""
    return rule_words.checked("core", steps_of, text, driver)
