"""The tally of a replayed journal: the reading in use, the holdings, the sends, and the first undemanded call.

It is imported by tests/rows.py, and not run by itself. A file of rows has these lines:

    # TEXT                     a comment
    conf NAME                  a configuration is below it, indented; its first line is a comment
    part NAME                  lines of a journal are below it, indented; the first line is a comment
    * SENTENCE                 what the rows below it show
    PLACE of CONF: PARTS: TALLY

PLACE is the index of the journal's member in the configuration, and PARTS are the parts of the journal, or `nothing`.
The tally has `last` with the reading in use; for each holding `held` with the ticket, the member, the beginning and the
end; for each send `sent` with the number of its bytes; and `strays` with the line of the first call that the rules did
not demand.
"""

from typing import Dict, List, Tuple

from row_driver import Driver, Trouble
from run_hosts import hexadecimal


def blocks_and_rows(text: str) -> Tuple[Dict[str, Dict[str, str]], List[str]]:
    """Returns the texts of a file by their kind and name, and its rows."""
    texts: Dict[str, Dict[str, str]] = {"conf": {}, "part": {}}
    rows: List[str] = []
    into: List[str] = []
    named: List[Tuple[str, str, List[str]]] = []
    sentence = ""
    for number, line in enumerate(text.split("\n"), 1):
        first, _, rest = line.partition(" ")
        if line.startswith("  "):
            into.append(line[2:])
        elif first in texts:
            into = []
            named.append((first, rest, into))
        elif first == "*":
            sentence = rest
        elif line and not line.startswith("#"):
            if not sentence:
                raise Trouble(f"line {number}: no sentence: {line}")
            rows.append(line)
    for kind, name, lines in named:
        texts[kind][name] = "".join(f"{line}\n" for line in lines if not line.startswith("#"))
    return texts, rows


def line_of(row: str, texts: Dict[str, Dict[str, str]]) -> Tuple[str, str]:
    """Returns the line that plays a row, and the wanted answer."""
    member, parts, wanted = row.split(": ")
    place, _, conf = member.partition(" of ")
    names = [] if parts == "nothing" else parts.split(", ")
    try:
        journal = "".join(texts["part"][name] for name in names)
        line = f"tally {hexadecimal(texts['conf'][conf].encode())} {int(place)} {hexadecimal(journal.encode())}"
    except KeyError as why:
        raise Trouble(f"no text {why}: {row}") from why
    return line, wanted.replace(",", "")


def check(text: str, driver: Driver) -> Tuple[int, List[str]]:
    """Plays the rows of a file. Returns how many there are, and their faults."""
    texts, rows = blocks_and_rows(text)
    played = [line_of(row, texts) for row in rows]
    answers = driver.play("tallies", [line for line, _ in played])
    wrong = [f"{row}, and it was: {answer}" for row, (_, due), answer in zip(rows, played, answers) if answer != [due]]
    return len(rows), wrong
