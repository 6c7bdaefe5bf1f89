"""Reads files of stories: their texts, their parts and their configurations.

It is imported by the programs in tests/, and not run by itself. Blank lines separate the paragraphs of a file, and a
line that begins with blanks continues the line before it. The first paragraph says what the file shows; each of its
lines begins with `# `. A text begins with `# ` and its name. In a file of parts or of configurations `: ` and a
description follow the name; in a file of stories the name is the sentence of the story.

`[for FIRST to LAST: TEXT]` repeats the text for each of these numbers. The number replaces `{n}`, and with three digits
`{n:03}`. If a line end or a blank line comes before the text instead of the blank, it also separates the repetitions.
"""

import os
import re
from typing import Dict, List, Tuple, TypeVar

from row_driver import Trouble

Text = TypeVar("Text")
FOR = re.compile(r"\[for (\d+) to (\d+):( |\n\n|\n)([^\[\]]*)\]")


def repeated(match: "re.Match[str]") -> str:
    """Returns the texts that a `for` makes."""
    first, last, between, text = match.groups()
    return between.strip(" ").join(text.format(n=n) for n in range(int(first), int(last) + 1))


def whole(text: str) -> str:
    """Returns a file's text with the parts of each line put together."""
    return FOR.sub(repeated, re.sub(r"\n +", "", text.strip("\n")))


def texts_in(text: str) -> List[str]:
    """Returns the texts of a file, each of which begins with its name."""
    head, *texts = whole(text).split("\n\n# ")
    if not all(line.startswith("# ") for line in head.split("\n")):
        raise Trouble("the first paragraph does not say what the file shows")
    return texts


def named(text: str) -> Dict[str, str]:
    """Returns the texts of a file of parts or configurations by their names."""
    found: Dict[str, str] = {}
    for one in texts_in(text):
        head, _, rest = one.partition("\n")
        name, colon, _ = head.partition(": ")
        if not colon or name in found:
            raise Trouble(f"{head!r} does not begin with a new name and `: `")
        found[name] = rest
    return found


def read_file(folder: str, name: str) -> str:
    """Returns the content of this file of a folder of rows."""
    path = os.path.join(os.path.dirname(os.path.abspath(__file__)), "rows", folder, name)
    with open(path, encoding="utf-8") as file:
        return file.read()


def named_in(folder: str, names: List[str]) -> Dict[str, str]:
    """Returns the texts of these files of a folder of rows, by their names."""
    found: Dict[str, str] = {}
    for name in names:
        texts = named(read_file(folder, name))
        if set(texts) & set(found):
            raise Trouble(f"{name} has names of another file")
        found.update(texts)
    return found


def text_of(texts: Dict[str, Text], name: str) -> Text:
    """Returns the text with this name."""
    if name not in texts:
        raise Trouble(f"there is no text {name!r}")
    return texts[name]


def paragraphs(text: str) -> Tuple[List[str], List[str]]:
    """Returns the lines of a text's first paragraph, and its other paragraphs."""
    first, *rest = text.split("\n\n")
    return first.split("\n"), rest
