"""Checks files and titles in documents against the tree. It is imported by tests/names.py, and not run by itself.

The index of decisions must name each section of docs/decisions/ and no other. A table of docs/HEADLINE.md has the
number of lines of each file, and the number of its lines of definitions: these are not empty, no comments and no
imports. Each word in code in a row of docs/DEFINITIONS.md must be in the files that the row names.
"""

import glob
import os
import re

INDEXED = re.compile(r"\[([^\]]+)\]\(decisions/(\w+)\.md#([a-z0-9-]+)\)")
SECTION = re.compile(r"^## (.+)$", re.M)
TITLE = re.compile(r"^### (.+)$", re.M)
COUNTED = re.compile(r"^\| `(booth\w+/[\w/.]+)` \| (\d+) \|(?: (\d+) \|)?", re.M)
DEFINED = re.compile(r"^\| (.+?) \| .+ \| (`.+`) \|$")
IN_CODE = re.compile(r"`([^`]+)`")
# a line of a definition begins with neither of these
NO_DEFINITION = ("--", "use ")


def read(path: str) -> str:
    """Returns the text of a file."""
    with open(path, encoding="utf-8") as file:
        return file.read()


def anchor(title: str) -> str:
    """Returns the anchor of a heading."""
    return re.sub(r"[^a-z0-9 -]", "", title.lower()).replace(" ", "-")


def decisions(top: str) -> list[str]:
    """Returns the faults of the index of decisions, and of their titles."""
    wrong, there, titles = [], set(), set()
    for path in sorted(glob.glob(f"{top}/docs/decisions/*.md")):
        text, name = read(path), os.path.basename(path)[: -len(".md")]
        there.update((section, name, anchor(section)) for section in SECTION.findall(text))
        for title in TITLE.findall(text):
            if title in titles:
                wrong.append(f"docs/decisions/{name}.md: a second decision `{title}`")
            titles.add(title)
    indexed = set(INDEXED.findall(read(f"{top}/docs/DECISIONS.md")))
    wrong += [f"docs/DECISIONS.md: no section {name}.md, `{section}`" for section, name, _ in sorted(indexed - there)]
    wrong += [f"docs/DECISIONS.md lacks {name}.md, `{section}`" for section, name, _ in sorted(there - indexed)]
    return wrong if there else [*wrong, "docs/decisions has no section"]


def counts(top: str) -> list[str]:
    """Returns the files for which docs/HEADLINE.md has a wrong number of lines or of definitions."""
    wrong = []
    rows = COUNTED.findall(read(f"{top}/docs/HEADLINE.md"))
    for name, lines, definitions in rows:
        path = f"{top}/crates/{name}"
        if not os.path.exists(path):
            wrong.append(f"docs/HEADLINE.md: no file {name}")
            continue
        found = [line.strip() for line in read(path).splitlines()]
        defined = [line for line in found if line and not line.startswith(NO_DEFINITION)]
        if int(lines) != len(found) or (definitions and int(definitions) != len(defined)):
            wrong.append(f"docs/HEADLINE.md: {name} has {len(found)} lines, {len(defined)} of them definitions")
    return wrong if rows else ["docs/HEADLINE.md has no table of files"]


def definitions(top: str) -> list[str]:
    """Returns the words of docs/DEFINITIONS.md that the files of their row do not have."""
    wrong, crate, rows = [], "", 0
    for line in read(f"{top}/docs/DEFINITIONS.md").splitlines():
        if line.startswith("## "):
            crate = line[len("## ") :]
        row = DEFINED.match(line) if crate.startswith("booth_") else None
        if not row:
            continue
        rows += 1
        there, missing = "", []
        for name in IN_CODE.findall(row[2]):
            path = f"{top}/crates/{crate}/{name}" + ("" if name.endswith(".rt") else ".antt")
            if os.path.exists(path):
                there += read(path)
            else:
                missing.append(name)
        missing += [word for word in IN_CODE.findall(row[1]) if not re.search(rf"\b{word}\b", there)]
        wrong += [f"docs/DEFINITIONS.md: {crate} has no `{name}` where its row says" for name in missing]
    return wrong if rows else ["docs/DEFINITIONS.md has no row of a crate"]
