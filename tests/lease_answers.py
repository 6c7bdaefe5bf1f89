"""Actions and views of the lease rules: their form in the stories, and their form in the answers of the proved driver.

It is imported by the modules that play rows, and not run by itself. An action (deed) is `nothing`, or several parts
with `, ` between them: `keep` and a record; `say`, the receivers and a message; `want`; and `told`. A view is given by
some of its fields.
"""

from typing import Dict, List, NamedTuple, Optional, Tuple

from row_driver import Trouble
from rule_words import (Record, Say, moment, number, optional, printed_record, printed_say, record, say)

WANTS = ("nothing", "renewal", "acquisition")
TOLD = ("nothing", "gained", "gained unsure", "round failed", "ask failed", "released", "release failed", "lost")
VIEW = ("term seen bound abstain sure force managed hello repeat repeat_reason repeat_term job reason due waiting "
        "to promised promise_until owner shown_until").split()
ROLES = ("follower", "working", "candidate", "leader")


class Deed(NamedTuple):
    """The action that a rule requires."""

    keep: Optional[Record] = None
    say: Optional[Say] = None
    want: str = "nothing"
    told: str = "nothing"

    def __str__(self) -> str:
        made = [("keep", self.keep), ("say", self.say), ("want", self.want), ("told", self.told)]
        return ", ".join(f"{kind} {what}" for kind, what in made if what not in (None, "nothing")) or "nothing"


def one_of(word: str, words: Tuple[str, ...]) -> str:
    """Returns the text if it is one of `allowed`."""
    if word not in words:
        raise Trouble(f"{word} is none of {words}")
    return word


def deed(text: str) -> Deed:
    """Returns the action that a text has."""
    if text == "nothing":
        return Deed()
    made: Dict[str, object] = {}
    for part in text.split(", "):
        kind, _, what = part.partition(" ")
        if kind in made:
            raise Trouble(f"two parts are of one kind: {text}")
        if kind == "keep":
            made[kind] = record(what)
        elif kind == "say":
            made[kind] = say(what)
        elif kind == "want":
            made[kind] = one_of(what, WANTS)
        elif kind == "told":
            made[kind] = one_of(what, TOLD)
        else:
            raise Trouble(f"no part of a deed: {part}")
    return Deed(**made)


def printed_deed(lines: List[str]) -> Deed:
    """Returns the action that the driver printed: first the record to write and the messages, if there are any, and
    then the rest.
    """
    keep, said = None, None
    lines = list(lines)
    if lines and lines[0].startswith("keep "):
        keep = printed_record(lines.pop(0).split(" ")[1:])
    if lines and lines[0].startswith("say "):
        said = printed_say(lines.pop(0).split(" ")[1:])
    words = lines[0].split(" ") if len(lines) == 1 else []
    if len(words) != 3 or words[0] != "did":
        raise Trouble(f"the driver printed no deed: {lines}")
    return Deed(keep, said, one_of(words[1], WANTS), one_of(words[2].replace("-", " "), TOLD))


class View(NamedTuple):
    """A view that the driver printed: its numbers by name, the kept record, the role, and whether a round is open."""

    numbers: Dict[str, Optional[int]]
    kept: Record
    role: str
    round: List[str]


def printed_view(lines: List[str]) -> View:
    """Returns the view that the driver printed as two lines."""
    if len(lines) != 2 or not lines[0].startswith("view ") or lines[1].split(" ")[0] != "round":
        raise Trouble(f"the driver printed no view: {lines}")
    words = lines[0].split(" ")[1:]
    fields, kept, role = words[:len(VIEW)], words[len(VIEW):-1], words[-1]
    if len(fields) != len(VIEW):
        raise Trouble(f"the driver printed no view: {lines}")
    numbers = {name: optional(word) for name, word in zip(VIEW, fields)}
    return View(numbers, printed_record(kept), one_of(role, ROLES), lines[1].split(" ")[1:])


def truth(word: str) -> int:
    """Returns 1 for `true` and 0 for `false`."""
    return int(one_of(word, ("false", "true")) == "true")



def several(text: str, count: int) -> Tuple[Optional[int], ...]:
    """Returns the `count` numbers of a text, or `count` times None if the text is `none`."""
    if text == "none":
        return (None,) * count
    words = text.split(" ")
    if len(words) != count:
        raise Trouble(f"not {count} words: {text}")
    return tuple(number(word) for word in words[:-1]) + (moment(words[-1]),)


def wanted_field(name: str, text: str) -> object:
    """Returns the value that a story has for a field."""
    if name == "kept":
        return record(text)
    if name == "role":
        return one_of(text, ROLES)
    if name == "promise":
        return several(text, 3)
    if name == "shown":
        return several(text, 2)
    if name in ("hello", "sure", "managed", "round"):
        return truth(text)
    if name in ("due", "job", "force", "abstain"):
        return None if text == "none" else moment(text)
    if name == "bound":
        return None if text == "none" else number(text)
    if name in ("term", "seen", "repeat", "reason"):
        return number(text)
    raise Trouble(f"no field of a view: {name}")


def given_field(view: View, name: str) -> object:
    """Returns the value of a field of a view that the driver printed."""
    if name == "kept":
        return view.kept
    if name == "role":
        return view.role
    if name == "promise":
        return tuple(view.numbers[field] for field in ("to", "promised", "promise_until"))
    if name == "shown":
        return tuple(view.numbers[field] for field in ("owner", "shown_until"))
    if name == "round":
        return int(bool(view.round))
    return view.numbers[name]


def compared_fields(view: View, text: str) -> Tuple[object, object]:
    """Returns the fields of a view that a story names: their values, and the wanted values."""
    named = [field.partition(" ") for field in text.split(", ")]
    wanted = [f"{name} {wanted_field(name, value)}" for name, _, value in named]
    return [f"{name} {given_field(view, name)}" for name, _, _ in named], wanted
