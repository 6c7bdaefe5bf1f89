"""Plays runs of three members that exchange messages: tests/rows/rules/room/.

A run has a sentence and its lines. Each member starts at 0 and asks all others for their state; these first messages
are not delivered. A line is `at`, the time, and one of these:

- `ask`, a member, `for` and a reason;
- `due`, a member, `: `, and what its deadline requests and reports; a renewal begins at once;
- `hear all`: all messages arrive, and those that follow from them;
- `hear without` a member: the same, but the messages from and to this member are lost;
- `leader`, and the only member that leads by its written lease, or `nobody`;
- a member, `view`, and fields that its view must have.

A line that begins with `# ` is a comment on the next lines.

The driver plays whole scripts. So a member's calls are played again from its start whenever its next answer is needed.
"""

import re
from typing import List, NamedTuple, Tuple

import rule_words
from lease_answers import Deed, View, compared_fields, deed, printed_deed, printed_view
from row_driver import Driver, Trouble, Unplayed
from row_lease import start
from rule_words import Message, Say, Story, moment, number

NAMES = ["S1", "S2", "AR"]


class Letter(NamedTuple):
    """A message that was sent from one place to another and has not arrived."""

    sender: int
    to: int
    message: Message


def place_of(name: str) -> int:
    """Returns the place of a member."""
    if name not in NAMES:
        raise Trouble(f"nobody is {name}")
    return NAMES.index(name)


def places(said: Say, sender: int, asker: int) -> List[int]:
    """Returns the places to which a message is sent."""
    if said.whom == "asker":
        return [asker]
    if said.whom == "all":
        return [place for place in range(3) if place != sender]
    return [place for place in range(3) if int(said.whom) >> place & 1]


class Room:
    """The members' scripts, and the messages that have not arrived."""

    def __init__(self, driver: Driver) -> None:
        self.driver = driver
        self.scripts = [[start(f"{name} at 0")] for name in NAMES]
        self.views: List[View] = []
        self.letters: List[Letter] = []
        for place, name in enumerate(NAMES):
            self.views.append(printed_view(self.driver.play("core", self.scripts[place])[-1]))
            said = self.play(place, "hello 0", True)
            if said != deed(f"say all {name} Stat 0 0 0 0 none 0 0"):
                raise Trouble(f"{name} starts otherwise: {said}")

    def play(self, place: int, line: str, is_hello: bool = False) -> Deed:
        """Plays a member's next call."""
        self.scripts[place].append(line)
        answer = self.driver.play("core", self.scripts[place])[-1]
        self.views[place] = printed_view(answer[-2:])
        return printed_deed(answer[:-2] + (["did nothing nothing"] if is_hello else []))

    def finish(self, place: int, asker: int, now: int, made: Deed) -> str:
        """Answers each keep with success, sends the messages that follow, and returns the actions that follow."""
        while made.keep is not None:
            made = self.play(place, f"kept {now} 1")
        if made.say is not None:
            self.letters += [Letter(place, to, made.say.message) for to in places(made.say, place, asker)]
        return made.told

    def ask(self, now: int, name: str, reason: str) -> None:
        """Lets a member ask for votes."""
        place = place_of(name)
        self.finish(place, place, now, self.play(place, f"ask {now} {number(reason)}"))

    def due(self, now: int, name: str) -> Deed:
        """Runs the rule of a member's deadline, and the renewal that it requires."""
        place = place_of(name)
        made = self.play(place, f"tick {now}")
        want = made.want
        if want == "renewal":
            made = self.play(place, f"renew {now}")
        return Deed(want=want, told=self.finish(place, place, now, made))

    def settle(self, now: int, lost: List[int]) -> None:
        """Delivers all messages, and those that they cause, except messages from and to members that are disconnected.
        """
        for _ in range(100):
            if not self.letters:
                return
            letter = self.letters.pop(0)
            if letter.sender not in lost and letter.to not in lost:
                made = self.play(letter.to, f"hear {now} {letter.sender} {letter.message.words()}")
                self.finish(letter.to, letter.sender, now, made)
        raise Trouble(f"messages without end at {now}")

    def leaders(self, now: int) -> List[str]:
        """Returns the members that lead, according to their records and the lease in force."""
        return [name for name, view in zip(NAMES, self.views)
                if view.role == "leader" and view.kept.lease_until is not None and now < view.kept.lease_until]

    def act(self, now: int, text: str) -> Tuple[object, object]:
        """Carries out a line, and returns the given and the wanted value, if the line has one."""
        word, _, rest = text.partition(" ")
        if word == "ask" and " for " in rest:
            self.ask(now, *rest.split(" for "))
        elif word == "due" and ": " in rest:
            name, did = rest.split(": ")
            return str(self.due(now, name)), str(deed(did))
        elif word == "leader":
            return self.leaders(now), [] if rest == "nobody" else [NAMES[place_of(rest)]]
        elif text == "hear all":
            self.settle(now, [])
        elif text.startswith("hear without "):
            self.settle(now, [place_of(rest[len("without "):])])
        else:
            raise Trouble(f"nothing is done: {text}")
        return None, None

    def line(self, row: str) -> Tuple[object, object]:
        """Plays a line, and returns the given and the wanted value."""
        found = re.fullmatch(r"at (\d+) (.+)", row)
        if found:
            return self.act(moment(found[1]), found[2])
        name, view, fields = row.partition(" view ")
        if not view:
            raise Trouble(f"no line of a run: {row}")
        return compared_fields(self.views[place_of(name)], fields)


def check_run(story: Story, driver: Driver) -> Tuple[int, List[str]]:
    """Plays a run, and returns how many lines it has, and the first wrong line."""
    sentence, *lines = story.head
    rows = [line for line in lines if not line.startswith("# ")]
    if not rows or story.blocks:
        raise Trouble(f"a run has its lines in one block: {sentence}")
    room = Room(driver)
    for row in rows:
        given, wanted = room.line(row)
        if given != wanted:
            return len(rows), [f"{sentence}: {row}\n    wanted {wanted}\n    but is {given}"]
    return len(rows), []


def check(text: str, driver: Driver) -> Tuple[int, List[str]]:
    """Plays a file's runs, and returns how many rows there are, and their faults."""
    try:
        runs = [check_run(story, driver) for story in rule_words.stories(text)]
    except (Trouble, Unplayed) as trouble:
        return 0, [str(trouble)]
    return sum(count for count, _ in runs), [line for _, wrong in runs for line in wrong]
