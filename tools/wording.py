"""The text forms of dates, durations and columns.

It is imported by the programs of the package and their modules, and not run by itself.
"""

import time

YEAR_10000 = 253_402_300_800
UNITS = (("d", 86_400), ("h", 3600), ("min", 60), ("s", 1))


def plain(text):
    """Returns the text with each unprintable character escaped. (A file's name may have ones that act on terminals.)"""
    return "".join(each if each.isprintable() else each.encode("unicode_escape").decode("ascii") for each in text)


def date(seconds):
    """Returns the date in UTC. If the year has more than four digits, returns the number of seconds."""
    if not 0 <= seconds < YEAR_10000:
        return f"@{int(seconds)}"
    return time.strftime("%Y-%m-%d %H:%M:%S", time.gmtime(seconds))


def span(seconds):
    """Returns a duration in the largest unit of which it has at least two."""
    whole = max(0, int(seconds))
    unit, size = next((each for each in UNITS if whole >= 2 * each[1]), UNITS[-1])
    return f"{whole // size} {unit}"


def aligned(rows):
    """Returns the rows as lines, with each column as wide as its widest field."""
    widths = [max(map(len, column)) for column in zip(*rows)]
    return ["  ".join(field.ljust(width) for field, width in zip(row, widths)).rstrip() for row in rows]


def count(number, what):
    """Returns a number with a noun, in the plural if needed."""
    return f"{number} {what}{'' if number == 1 else 's'}"


def listed(names, most=3):
    """Returns the first of these names, and how many more there are."""
    return ", ".join(names[:most]) + (f" and {len(names) - most} more" if len(names) > most else "")


def several(what, names):
    """Returns these names after a noun, as in `tickets a, b`."""
    return f"{what}{'s' if len(names) > 1 else ''} {listed(names)}"
