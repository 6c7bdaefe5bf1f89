#!/usr/bin/env python3
"""Checks that public functions have the names of their definitions.

Run it as `python3 tests/names.py`. It only reads the sources, in a second, and has the status 1 if a name is wrong.

Suppose that a clause of a public function says that its result equals a definition of its crate, or a field of this
definition. Then the function has the definition's name, or a word of it in any form (`print` and `printed`); or, if the
definition makes its value from another one, a name like `of_status` or `service_of`. OTHERS lists the exceptions with
their reasons.

document_names.py checks the files and titles that documents name.
"""

import glob
import os
import re
import sys

from document_names import counts, decisions, definitions

TOP = os.path.dirname(os.path.dirname(os.path.abspath(__file__)))

# functions whose name differs from their definition's, with the reason
OTHERS = {
    ("booth_clock", "encode", "spelling"): "a value encodes itself, and the bytes are its spelling",
    ("booth_rec", "encode", "spelling"): "a value encodes itself, and the bytes are its spelling",
    ("booth_rec", "bytes", "memory_seen"): "the bytes of a disk in memory are what a read would see",
    ("booth_conf", "is", "are_one"): "it is read between two keys: `key.is(other)`",
    ("booth_conf", "new", "summary"): "an empty draft is the summary of no entries",
    ("booth_conf", "new", "text_in"): "a spelled text is made of the text that spells it",
    ("booth_conf", "read", "form_in"): "it is read behind its type: a form reads the value of its kind",
    ("booth_conf", "read_line", "said"): "a line is read, and what it says is `said`",
    ("booth_keys", "of", "alone"): "it is read behind its type: `Ring::of(key)`, the ring of that key alone",
    ("booth_manual", "hello", "asks_state"): "tickets of both kinds have a hello; a manual one asks for the state",
    ("booth_manual", "kept", "finish"): "a keep's answer is handed back by `kept`, and finishes the rule that waits",
}

DEFINED = re.compile(r"^(?:abbrev |unfoldable )*pub (\w+) :", re.M)
PUBLIC = re.compile(r"^( *)pub fn (\w+)(.*?)^\1\{", re.M | re.S)
VALUE = re.compile(r"ensures(?: \w+)? \{ result(?:\.\w+)?\s+≡\s+(?:\((\w+)[^()]*\)((?:\.\w+)+)|\(?(\w+))")
FEWEST_ALIKE = 3


def defined(crate):
    """Returns the definitions of a crate."""
    names = set()
    for path in glob.glob(f"{TOP}/crates/{crate}/specs/**/*.antt", recursive=True):
        with open(path, encoding="utf-8") as file:
            names.update(DEFINED.findall(file.read()))
    return names


def values(crate):
    """Yields the public functions of a crate, each with the names of its results; the names of fields are unchanged."""
    known = defined(crate)
    for path in sorted(glob.glob(f"{TOP}/crates/{crate}/src/**/*.rt", recursive=True)):
        with open(path, encoding="utf-8") as file:
            text = file.read()
        for _, function, contract in PUBLIC.findall(text):
            cited = [
                (definition or inner, fields.rsplit(".", 1)[-1])
                for inner, fields, definition in VALUE.findall(contract)
                if (definition or inner) in known
            ]
            if len({definition for definition, _ in cited}) == 1:
                yield path, function, cited[0]


def are_alike(one, other):
    """Returns whether two words are forms of one word, as print and printed are."""
    short, long = sorted((one, other), key=len)
    return short == long or len(short) >= FEWEST_ALIKE and (short in long or short[:-1] == long[: len(short) - 1])


def bears(function, definition):
    """Returns whether the function has the definition's name."""
    if function == definition:
        return True
    if re.match(r"(of|from)_", function) and definition.endswith("_of"):
        return True
    return any(are_alike(one, other) for one in function.split("_") for other in definition.split("_"))


def main():
    wrong, met, seen = [], set(), 0
    for crate in sorted(os.listdir(f"{TOP}/crates")):
        for path, function, (definition, field) in values(crate):
            seen += 1
            if field == function or bears(function, definition):
                continue
            met.add((crate, function, definition))
            if (crate, function, definition) not in OTHERS:
                wrong.append(f"{os.path.relpath(path, TOP)}: `{function}` is `{definition}` by its contract")
    for crate, function, definition in sorted(set(OTHERS) - met):
        wrong.append(f"OTHERS: {crate} has no `{function}` that is `{definition}`")
    wrong += [*decisions(TOP), *counts(TOP), *definitions(TOP)]
    for line in wrong:
        print(line)
    print(f"{seen} functions, {len(met)} of them with another name than their definition, {len(wrong)} wrong")
    return 1 if wrong or not seen else 0


if __name__ == "__main__":
    sys.exit(main())
