#!/usr/bin/env python3
"""Checks that the documents name only files and sections that exist, and that README.md and OPERATING.md stay short.

Run it as `python3 tests/documents.py`. It reads the tree in a second and prints each fault. Its status is 1 if there is
one.
"""

import os
import re
import sys
from typing import Dict, Iterator, List, Set

TOP = os.path.dirname(os.path.dirname(os.path.abspath(__file__)))
MOST_LINES_OF_README = 100
MOST_BYTES_OF_OPERATING = 20_000
# (folders that builds write; `OLD_TEXTS` has a text that names files of earlier versions)
SKIPPED_FOLDERS = {"out", "__pycache__"}
# the folders of the tree; a checkout may have others too
FOLDERS = [".ci", "bench", "crates", "docs", "examples", "man", "packaging", "tests", "tools"]
OLD_TEXTS = {"packaging/changelog"}
OPERATING = "docs/OPERATING.md"
NAMED_FILE = re.compile(r"`([\w.][\w./-]*\.(?:md|py|rt|antt|rows|svg|sh|edit)|man/[\w.-]+\.[58])`")
# a name with a variable part, such as `tests/row_NAME.py`
PATTERN = re.compile(r"[A-Z]{4}[A-Z_]*\.(?!md)")
BOLD, OPENING = re.compile(r"\*\*([^*]+)\*\*"), re.compile(r"^(\w+):", re.M)
# the name of a document in a manual page
DOCUMENT_IN_PAGE = re.compile(r"\b[A-Z][A-Z-]+\.md\b")
LINK = re.compile(r"\]\(([^)\s]+)\)")
# a file and one of its sections, and the same for a manual page: `boothd(8)`, "LOG"
SECTION_OF_DOCUMENT = re.compile(r"`?((?:\.\./)*\b[\w./-]+\.md)`?,\s+\\?[\"“]([^\"\\]+)\\?\"")
SECTION_IN_DOCUMENT = re.compile(r"\"([A-Z`][^\"]+)\"\s+in\s+`([\w./-]+\.md)`")
SECTION_OF_PAGE = re.compile(r"`([\w.-]+)\((\d)\)`,\s+\"([A-Z ]+)\"")
# a section of the same document: ("Section")
OWN_SECTION = re.compile(r"\(\"([A-Z`][^\"]+)\"\)")


def read(path: str) -> str:
    """Returns the text of a file of the tree, or an empty text if it is not a text."""
    with open(f"{TOP}/{path}", "rb") as file:
        return file.read().decode("utf-8", errors="replace")


def files() -> List[str]:
    """Returns the path of each file of the tree, relative to its top."""
    found = []
    for folder, folders, names in os.walk(TOP):
        folders[:] = FOLDERS if folder == TOP else sorted(set(folders) - SKIPPED_FOLDERS)
        found += [os.path.relpath(f"{folder}/{name}", TOP) for name in sorted(names)]
    return found


def endings(paths: List[str]) -> Set[str]:
    """Returns each ending of each path that begins at a part of the path."""
    parts = (path.split("/") for path in paths)
    return {"/".join(each[at:]) for each in parts for at in range(len(each))}


def prose(text: str) -> str:
    """Returns a document without its blocks of commands, and with each run of blanks as one blank."""
    lines = (line for line in text.splitlines() if not line.startswith("    "))
    return re.sub(r"\s+", " ", "\n".join(lines))


def sections(path: str) -> Set[str]:
    """Returns the headings of a document below its title. Outside OPERATING.md, a text may also name a place by words
    in bold, or by a word that begins a paragraph.
    """
    text = read(path)
    found = set(re.findall(r"^##+ (?:\d+\. )?(.+)$", text, re.M))
    if path != OPERATING:
        found.update(BOLD.findall(text) + OPENING.findall(text))
    return found


def find_document(name: str, near: str, paths: Set[str]) -> str:
    """Returns the path of the document that a text in the folder `near` names, or nothing if there is none."""
    for folder in (near, "docs", "crates", ""):
        path = os.path.normpath(os.path.join(folder, name))
        if path in paths:
            return path
    return ""


class Tree:
    """The files of the tree, and the headings of its documents."""

    def __init__(self) -> None:
        self.paths = files()
        self.known, self.endings = set(self.paths), endings(self.paths)
        self.documents = [path for path in self.paths if path.endswith(".md")]
        self.sections: Dict[str, Set[str]] = {path: sections(path) for path in self.documents}

    def link_faults(self, path: str) -> Iterator[str]:
        """Yields the links of a document whose target does not exist."""
        folder = os.path.dirname(path)
        for target in LINK.findall(read(path)):
            place = target.partition("#")[0]
            if place and "://" not in target and os.path.normpath(os.path.join(folder, place)) not in self.known:
                yield f"{path}: the link {target} leads nowhere"

    def name_faults(self, path: str) -> Iterator[str]:
        """Yields the files that a document or a manual page names and that do not exist."""
        folder = os.path.dirname(path)
        for name in (NAMED_FILE if path.endswith(".md") else DOCUMENT_IN_PAGE).findall(read(path)):
            is_there = name in self.endings or os.path.normpath(os.path.join(folder, name)) in self.known
            if not is_there and not PATTERN.search(name):
                yield f"{path}: there is no file {name}"

    def section_faults(self, path: str) -> Iterator[str]:
        """Yields the sections that a text names and that its target lacks."""
        text, folder = read(path), os.path.dirname(path)
        if ".md" not in text and "(8)" not in text:
            return
        text = prose(text) if path.endswith(".md") else re.sub(r"\s+", " ", text)
        named = SECTION_OF_DOCUMENT.findall(text)
        named += [(name, section) for section, name in SECTION_IN_DOCUMENT.findall(text)]
        for name, section in named:
            target = find_document(name, folder, self.known)
            if not target or section not in self.sections[target]:
                yield f"{path}: {name} has no section {section}"
        for name, number, section in SECTION_OF_PAGE.findall(text):
            page = f"man/{name}.{number}"
            if page not in self.known or not re.search(rf"^\.Sh {section}$", read(page), re.M):
                yield f"{path}: {page} has no section {section}"

    def own_faults(self, path: str) -> Iterator[str]:
        """Yields the sections that a document names in itself and lacks."""
        for section in OWN_SECTION.findall(prose(read(path))):
            if section not in self.sections[path]:
                yield f"{path} has no section {section} of its own"

    def faults(self) -> Iterator[str]:
        """Yields each fault of the documents, and each missing section that another text names."""
        for path in self.documents:
            yield from self.link_faults(path)
            yield from self.name_faults(path)
            yield from self.own_faults(path)
        for path in self.paths:
            if path.startswith("man/"):
                yield from self.name_faults(path)
            if path not in OLD_TEXTS:
                yield from self.section_faults(path)
        lines = len(read("README.md").splitlines())
        if lines > MOST_LINES_OF_README:
            yield f"README.md has {lines} lines, and {MOST_LINES_OF_README} are allowed"
        length = os.path.getsize(f"{TOP}/{OPERATING}")
        if length > MOST_BYTES_OF_OPERATING:
            yield f"{OPERATING} has {length} bytes, and {MOST_BYTES_OF_OPERATING} are allowed"


def main() -> int:
    """Prints the faults and how many documents were read, and returns the exit status."""
    tree = Tree()
    found = list(tree.faults())
    for fault in found:
        print(f"FAILED  {fault}")
    print(f"documents: {len(tree.documents)} read, {len(found)} faults")
    return 1 if found else 0


if __name__ == "__main__":
    sys.exit(main())
