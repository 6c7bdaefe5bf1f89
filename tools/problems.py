"""Problems of a cluster or of its configuration, with their severity.

It is imported by the modules of booth-status, and not run by itself.
"""

from typing import NamedTuple, Optional

# the severities, which are also the exit statuses of booth-status
NOTICE, WARNING, CRITICAL = 0, 1, 2
WORDS = {NOTICE: "notice", WARNING: "warning", CRITICAL: "critical"}


class Problem(NamedTuple):
    """A problem that an operator must know. booth-status(8) lists the kinds."""

    severity: int
    kind: str
    text: str
    member: Optional[str] = None
    other: Optional[str] = None
    ticket: Optional[str] = None
