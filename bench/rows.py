"""The rows of a bench's table: what was measured, its value, and its mark, if there is one.

The benches import this module. It prints their rows. For bench/all.py it also writes them to a file, which an
environment variable names.
"""

import json
import os
from typing import NamedTuple, Optional

# the environment variable that names the file for the rows
NOTES = "BOOTH_BENCH_ROWS"
WIDTHS = (64, 44, 24)


class Row(NamedTuple):
    """A row: what was measured, and the value and the mark as texts."""

    name: str
    value: str
    mark: str = ""
    # the value divided by the mark, or the mark divided by the value if the value must be greater; the mark is met if
    # this is at most 1
    part: Optional[float] = None

    def met(self):
        """Returns whether the mark is met: `yes`, `nearly` if it is missed by up to a tenth, or `NO`."""
        if self.part is None:
            return ""
        return "yes" if self.part <= 1 else "nearly" if self.part <= 1.1 else "NO"


def at_least(name, value, shown, mark):
    """Returns a row whose value must be at least the mark; `shown` is the value as a text."""
    return Row(name, shown, f"at least {mark}", mark / value)


def below(name, value, shown, mark, unit):
    """Returns a row whose value must be below the mark; `shown` is the value as a text."""
    return Row(name, shown, f"below {mark} {unit}".rstrip(), value / mark)


def all_of(name, count, total, shown=None):
    """Returns a row whose count must reach the total."""
    return Row(name, shown or f"{count:,} of {total:,}", "all", 0 if count == total else 2)


def noted(row):
    """Appends a row to the file that the environment variable names, if it is set. Returns the row."""
    path = os.environ.get(NOTES)
    if path:
        with open(path, "a", encoding="utf-8") as file:
            file.write(json.dumps(row) + "\n")
    return row


def told(rows):
    """Prints each row as soon as it is measured. Returns the status: 1 if a mark is missed by more than a tenth."""
    status = 0
    for row in map(noted, rows):
        words = [word.ljust(width) for word, width in zip(row[:3], WIDTHS)]
        print(f"{' '.join(words)} {row.met()}".rstrip(), flush=True)
        status |= row.met() == "NO"
    return int(status)


def table(rows):
    """Returns the lines of a table. Each row is a tuple of texts, and the first row has the names of the columns."""
    rows = list(rows)
    widths = [max(map(len, column)) for column in zip(*rows)]
    rows.insert(1, tuple("-" * width for width in widths))
    return ["| " + " | ".join(word.ljust(width) for word, width in zip(row, widths)) + " |" for row in rows]


def print_table(rows):
    """Prints all rows as one table. Returns the status as `told` does."""
    rows = [noted(row) for row in rows]
    print("\n".join(table([("What", "Value", "Mark", "Met")] + [(*row[:3], row.met()) for row in rows])))
    return int(any(row.met() == "NO" for row in rows))
