"""An answer to a question of booth-status --doctor.

It is imported by the modules of the doctor, and not run by itself.
"""

import subprocess
from typing import Dict, List, NamedTuple, Optional

import services
from problems import CRITICAL, NOTICE, WARNING, Problem

# all is well, and what cannot be found out: neither changes the exit status
OK, UNKNOWN = NOTICE - 1, NOTICE
WORDS = {OK: "ok", UNKNOWN: "unknown", WARNING: "warning", CRITICAL: "problem"}
# in seconds: how long a program may take to answer
PATIENCE = 3.0


class Finding(NamedTuple):
    """An answer: what was found, and what to do."""

    severity: int
    text: str
    do: str = ""

    def told(self) -> str:
        """Returns both in one line."""
        return f"{self.text}: {self.do}" if self.do else self.text


def of_problem(problem: Problem) -> Finding:
    """Returns a problem of another check as an answer."""
    return Finding(problem.severity, problem.text)


def printed(words: List[str]) -> Optional[str]:
    """Returns what a program prints, or `None` if it fails, is missing, or does not answer in time."""
    streams = {"stdin": subprocess.DEVNULL, "stdout": subprocess.PIPE, "stderr": subprocess.DEVNULL}
    try:
        done = subprocess.run(words, timeout=PATIENCE, check=False, **streams)
    except (OSError, subprocess.TimeoutExpired):
        return None
    return done.stdout.decode("utf-8", "replace").strip() if done.returncode == 0 else None


def shown_by_systemd(names: List[str], unit: Optional[str] = None) -> Optional[Dict[str, str]]:
    """Returns these properties of a unit, or of systemd itself; `None` if systemd does not answer."""
    found = services.systemctl()
    said = found and printed([found, "show", f"--property={','.join(names)}", *([unit] if unit else [])])
    if not said:
        return None
    return dict(line.split("=", 1) for line in said.splitlines() if "=" in line)


def seconds_in(text: str) -> Optional[float]:
    """Returns a time span of systemd, as `1min 30s` or `100ms`, in seconds; `None` if it has another form."""
    units = {"us": 1e-6, "ms": 1e-3, "s": 1, "min": 60, "h": 3600, "d": 86_400, "w": 604_800}
    total = 0.0
    for word in text.split():
        number = word.rstrip("abcdefghijklmnopqrstuvwxyz")
        unit = word[len(number) :]
        try:
            total += float(number) * units[unit]
        except (ValueError, KeyError):
            return 0.0 if text == "0" else None
    return total if text else None
