"""The check of a condition, which every program in tests/ uses.

It is imported by the programs in tests/, and not run by itself.
"""


class Wrong(Exception):
    """A check failed; the text has the finding."""


def need(holds: object, what: str) -> None:
    """Raises `Wrong` with this text if a condition is false."""
    if not holds:
        raise Wrong(what)
