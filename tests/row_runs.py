r"""Whole runs of the programs: the input of a run, its calls of the host, its prints and its end.

It is imported by tests/rows.py, and not run by itself. A file of rows has these lines:

    # TEXT                a comment
    part NAME             names the indented lines below it; `as NAME` inserts them
    * SENTENCE            what the rows below it show
    run PROGRAM WORD ..   a command line, in which '' is an empty argument
    with                  the contents of the host are below it, indented
    calls                 each call of the run, and `ends OUTCOME STATUS`, are below it, indented
    end END               the end of the run: a letter for each call, the status, the outcome, and the last print or -
    pieces A|B|..         pieces of such an END, in their order
    : WORD .. | GIVEN ; GIVEN => END
                          one more run of the command line above, with these additional arguments and contents
    again WORD ..         a run with these arguments makes the same calls, and has the same end
    unlike HEAD | WORD .. => HEAD
                          a run with these arguments has another END; each END is given without its HEAD

`..` at the end of an expected text stands for any further text. A line that ends with `\` continues in the next line,
after the blanks there. {9 x} is the letter x nine times. In texts $ is the end of a line, \hh a byte, and '' nothing.

A host has the good configuration of tests/run_hosts.py, and the empty files /k and /old. Its contents are these lines:

    first MS              the clock's reading before the first step
    file TEXT             the configuration, at /etc/booth.conf; `more TEXT` adds text at its end
    key TEXT              the file /k; `old TEXT` is the file /old
    record TICKET RECORD  a stored record, in the form of the calls
    fails CALL ..         the calls that fail before the first step, or `taken` for locks that others hold
    room COUNT            the number of calls that the host records
    quiet                 no call of the host fails, whatever the lines say; a wait that fails brings nothing, and a
                          file that is missing is empty
    hinder ticket NAME    the record of this ticket cannot be read; also `hinder peer MEMBER` and `hinder path PATH`
    MS nothing            a step: the clock's reading and the arrival. `send: ` before it makes a send fail
    MS failure            the wait fails
    MS ends JOB STATUS    a handler ends
    MS list               a client's request for the list arrives
    MS bytes # HEX ..     these bytes of a client arrive
    MS WHO CMD REQUEST OPTIONS RESULT BODY
                          a frame arrives that was sent at 0. BODY is LEADER TERM SECONDS of the ticket ticket-db8,
                          `= TEXT`, `long COUNT` for a text of COUNT letters, or `of TICKET NAME VALUE`

A frame in calls is: command, `of` the sender, `at` its clock in ms, request, options, reason, result, the body, and the
MAC. Members are S1, S2 and AR. A record is its term, the lease's term and end, and `bound`, `promise` and `abstain`
with their values; `first` precedes a record of version 1. The END of a host that records no calls is `untold` with the
numbers of turns and of records.
"""

import re
from typing import Dict, Iterator, List, NamedTuple, Tuple

from row_driver import Driver, Trouble
from run_calls import Run, run_of
from run_hosts import host_lines, run_line

PROGRAMS = ["boothd", "booth", "geostore", "booth-follow"]


class Line(NamedTuple):
    """A line of a file, and the indented lines below it."""

    number: int
    text: str
    below: List[str]


class Row(NamedTuple):
    """A run: its command line, the contents of its host, and the lines with which it is compared."""

    number: int
    sentence: str
    program: str
    words: List[str]
    given: List[str]
    wanted: List[Line]


def repeated(text: str) -> str:
    """Returns the text with each letter repeated by its count."""
    return re.sub(r"\{(\d+) (\S)\}", lambda found: found[2] * int(found[1]), text)


def joined(text: str) -> Iterator[Tuple[int, str]]:
    """Yields each line with its number; a line that continues in the next one is joined with it."""
    whole, first = "", 0
    for number, line in enumerate(text.split("\n"), 1):
        if line.endswith(" "):
            raise Trouble(f"line {number} ends with a blank")
        first = first or number
        whole += line.lstrip(" ") if whole else line
        if whole.endswith("\\"):
            whole = whole[:-1]
            continue
        yield first, whole
        whole, first = "", 0
    if whole:
        raise Trouble("the last line does not end")


def lines_of(text: str) -> List[Line]:
    """Returns the lines of a file, without comments and empty lines."""
    lines: List[Line] = []
    for number, line in joined(text):
        if line.startswith("  ") and lines:
            lines[-1].below.append(repeated(line[2:]))
        elif line and not line.startswith("#"):
            lines.append(Line(number, repeated(line), []))
    return lines


def resolved(lines: List[str], parts: Dict[str, List[str]]) -> List[str]:
    """Returns the lines, with each part inserted."""
    return [one for line in lines for one in (parts[line[3:]] if line.startswith("as ") else [line])]


def words_of(text: str) -> List[str]:
    """Returns the arguments in a text."""
    return text.split(" ") if text else []


class Reader:
    """Reads the rows of a file."""

    def __init__(self) -> None:
        self.parts: Dict[str, List[str]] = {}
        self.sentence = ""
        self.rows: List[Row] = []
        # the command line that the lines below belong to, and how many rows it had
        self.head = Row(0, "", "", [], [], [])
        self.tabled = 0

    def close(self) -> None:
        """Ends a command line, which is itself a row if it has an expected result."""
        if self.head.wanted:
            self.rows.append(self.head)
        elif self.head.program and not self.tabled:
            raise Trouble(f"line {self.head.number}: nothing is expected")

    def begin(self, line: Line, rest: str) -> None:
        """Begins a command line."""
        self.close()
        program, _, words = rest.partition(" ")
        if program not in PROGRAMS or not self.sentence:
            raise Trouble(f"line {line.number}: {line.text}")
        self.head, self.tabled = Row(line.number, self.sentence, program, words_of(words), [], []), 0

    def add(self, line: Line) -> None:
        """Adds a row of the table below a command line."""
        asked, found, end = line.text[1:].partition(" => ")
        words, _, given = asked.partition("|")
        if not found:
            raise Trouble(f"line {line.number}: {line.text}")
        words_, given_ = words_of(words.strip()), given.strip().split(" ; ") if given.strip() else []
        wanted = [Line(line.number, f"end {end}", [])]
        row = self.head._replace(number=line.number, words=self.head.words + words_, given=self.head.given + given_)
        self.rows.append(row._replace(wanted=wanted))
        self.tabled += 1

    def take(self, line: Line) -> None:
        """Handles a line."""
        first, _, rest = line.text.partition(" ")
        if line.below and first not in ("part", "with", "calls"):
            raise Trouble(f"line {line.number} has lines below it")
        if first == "part":
            self.parts[rest] = resolved(line.below, self.parts)
        elif first == "*":
            self.close()
            self.sentence, self.head, self.tabled = rest, Row(0, "", "", [], [], []), 0
        elif first == "run":
            self.begin(line, rest)
        elif not self.head.program:
            raise Trouble(f"line {line.number} is behind no command line")
        elif first == "with" and not self.head.wanted and not self.tabled:
            self.head.given.extend(resolved(line.below, self.parts))
        elif first == ":":
            self.add(line)
        elif first in ("calls", "end", "pieces", "again", "unlike"):
            self.head.wanted.append(line._replace(below=resolved(line.below, self.parts)))
        else:
            raise Trouble(f"line {line.number}: {line.text}")


def rows_of(text: str) -> List[Row]:
    """Returns the rows of a file."""
    reader = Reader()
    for line in lines_of(text):
        reader.take(line)
    reader.close()
    if not reader.rows:
        raise Trouble("no rows")
    return reader.rows


def fits(text: str, wanted: str) -> bool:
    """Returns whether a text is the wanted one, or begins with it if the wanted text ends with `..`."""
    return text.startswith(wanted[:-2]) if wanted.endswith("..") else text == wanted


def has_pieces(text: str, pieces: List[str]) -> bool:
    """Returns whether these pieces are in a text, in their order."""
    for piece in pieces:
        _, found, text = text.partition(piece)
        if not found:
            return False
    return True


def behind(text: str, head: str) -> str:
    """Returns the text after its head."""
    if not text.startswith(head):
        raise Trouble(f"not {head}: {text}")
    return text[len(head):]


def others_of(row: Row) -> List[List[str]]:
    """Returns the arguments of the further runs that a row is compared with."""
    others = []
    for line in row.wanted:
        if line.text.startswith("again "):
            others.append(words_of(line.text[len("again "):]))
        if line.text.startswith("unlike "):
            others.append(words_of(line.text.partition(" | ")[2].partition(" => ")[0]))
    return others


def is_met(line: Line, run: Run, others: List[Run]) -> bool:
    """Returns whether a run fits this line. It uses the further run that the line is about."""
    first, _, rest = line.text.partition(" ")
    if first == "calls":
        wanted = "\n".join(line.below)
        return fits(run.text(), wanted if wanted.endswith("..") else wanted + "\n") and bool(line.below)
    if first == "end":
        return fits(run.end(), rest)
    if first == "pieces":
        return has_pieces(run.end(), rest.split("|"))
    other = others.pop(0)
    if first == "again":
        return other == run
    head, _, asked = rest.partition(" | ")
    return behind(run.end(), head) != behind(other.end(), asked.partition(" => ")[2])


def wrong(row: Row, runs: List[Run]) -> List[str]:
    """Returns the faults of a row with these runs."""
    run, *others = runs
    try:
        failed = [line for line in row.wanted if not is_met(line, run, others)]
        told = run.text() if any(line.text == "calls" for line in failed) else run.end()
    except Trouble as trouble:
        return [f"line {row.number}: {row.sentence} {trouble}"]
    return [f"line {line.number}: {row.sentence} It was: {told[:3000]}" for line in failed]


def check(text: str, driver: Driver) -> Tuple[int, List[str]]:
    """Plays the rows of a file. Returns how many there are, and their faults."""
    rows = rows_of(text)
    asked = [(row, words) for row in rows for words in [row.words, *others_of(row)]]
    lines = [line for row, words in asked for line in [*host_lines(row.given), run_line(row.program, words)]]
    answers = driver.play("runs", lines)
    told = [answer for line, answer in zip(lines, answers) if line.startswith("run ")]
    if any(answer for line, answer in zip(lines, answers) if not line.startswith("run ")):
        raise Trouble("a line that makes a host was answered")
    runs = iter([run_of(answer) for answer in told])
    return len(rows), [one for row in rows for one in wrong(row, [next(runs) for _ in range(1 + len(others_of(row)))])]
