#!/usr/bin/env python3
"""A stand-in for systemd in a site of tests/postgresql.py: it starts and stops the units in that site.

The site runs it as `systemctl`, and once as `postgresql_units.py hold`, which is the site's first process. It has the
commands that the package uses: start, stop, restart, enable, disable, is-active, is-failed, reset-failed and
daemon-reload. Of a unit it reads User=, ExecStartPre=, ExecStart= and KillSignal=. The output of a unit is in
UNITS/UNIT.log.
"""

import contextlib
import fcntl
import glob
import os
import pwd
import shlex
import signal
import subprocess
import sys
import time
from typing import Dict, Iterator, List

FOLDER = "/etc/systemd/system"
UNITS = "/run/units"
SECONDS_TO_STOP = 60
# the status of systemctl for a unit that is not active
NOT_ACTIVE = 3


def lines_of(unit: str) -> Iterator[str]:
    """Yields the lines of a unit, of its template if it has no file of its own, and of its drop-ins."""
    name, _, instance = unit.partition("@")
    instance = instance.rsplit(".", 1)[0]
    path = f"{FOLDER}/{unit}"
    if instance and not os.path.exists(path):
        path = f"{FOLDER}/{name}@.service"
    for each in [path, *sorted(glob.glob(f"{FOLDER}/{unit}.d/*.conf"))]:
        with open(each, encoding="utf-8") as file:
            yield from (line.strip().replace("%i", instance) for line in file)


def settings_of(unit: str) -> Dict[str, List[str]]:
    """Returns the values of each key of a unit."""
    found: Dict[str, List[str]] = {}
    for line in lines_of(unit):
        key, is_set, value = line.partition("=")
        if is_set and not line.startswith("#"):
            found.setdefault(key, []).append(value)
    return found


def pid_of(unit: str) -> int:
    """Returns the first process of a unit that was started and not stopped, or 0 if there is none."""
    try:
        with open(f"{UNITS}/{unit}.pid", encoding="ascii") as file:
            return int(file.read())
    except FileNotFoundError:
        return 0


def is_alive(pid: int) -> bool:
    """Returns whether a process runs."""
    try:
        with open(f"/proc/{pid}/stat", encoding="ascii", errors="replace") as file:
            return pid > 0 and file.read().rsplit(")", 1)[1].split()[0] not in "ZX"
    except OSError:
        return False


def has_failed(unit: str) -> bool:
    """Returns whether a start of the unit failed, or its process ended by itself."""
    return os.path.exists(f"{UNITS}/{unit}.failed") or pid_of(unit) > 0 and not is_alive(pid_of(unit))


def forget(unit: str) -> None:
    """Deletes the stored end of a unit."""
    for what in ("failed", "pid"):
        if what == "failed" or not is_alive(pid_of(unit)):
            with contextlib.suppress(FileNotFoundError):
                os.unlink(f"{UNITS}/{unit}.{what}")


def start(unit: str) -> int:
    """Starts a unit, and returns the status."""
    if is_alive(pid_of(unit)):
        return 0
    forget(unit)
    settings = settings_of(unit)
    with open(f"{UNITS}/{unit}.log", "ab") as log:
        streams = {"stdin": subprocess.DEVNULL, "stdout": log, "stderr": log}
        for words in settings.get("ExecStartPre", []):
            if subprocess.run(shlex.split(words.lstrip("+")), check=False, **streams).returncode != 0:
                with open(f"{UNITS}/{unit}.failed", "w", encoding="ascii"):
                    return 1
        user = pwd.getpwnam(settings.get("User", ["root"])[-1])
        more = {"user": user.pw_uid, "group": user.pw_gid, "extra_groups": [], "start_new_session": True, "cwd": "/"}
        process = subprocess.Popen(shlex.split(settings["ExecStart"][-1]), **streams, **more)
    with open(f"{UNITS}/{unit}.pid", "w", encoding="ascii") as file:
        file.write(str(process.pid))
    return 0


def stop(unit: str) -> int:
    """Stops a unit, and returns the status."""
    pid = pid_of(unit)
    if is_alive(pid):
        os.kill(pid, getattr(signal, settings_of(unit).get("KillSignal", ["SIGTERM"])[-1]))
        until = time.monotonic() + SECONDS_TO_STOP
        while is_alive(pid):
            if time.monotonic() > until:
                os.kill(pid, signal.SIGKILL)
            time.sleep(0.02)
    forget(unit)
    return 0


def act(command: str, unit: str) -> int:
    """Carries out a command about a unit, and returns the status."""
    if command in ("start", "stop", "restart"):
        with open(f"{UNITS}/{unit}.lock", "w", encoding="ascii") as lock:
            fcntl.flock(lock, fcntl.LOCK_EX)
            return (stop(unit) if command != "start" else 0) or (start(unit) if command != "stop" else 0)
    if command == "is-active":
        print("active" if is_alive(pid_of(unit)) else "failed" if has_failed(unit) else "inactive")
        return 0 if is_alive(pid_of(unit)) else NOT_ACTIVE
    if command == "is-failed":
        return 0 if has_failed(unit) else 1
    if command == "reset-failed":
        forget(unit)
        return 0
    raise SystemExit(f"systemctl: {command} of {unit}: this stand-in does not know that")


def main(words: List[str]) -> int:
    """Does what the arguments ask for, and returns the status."""
    options = [word for word in words if word.startswith("-")]
    command, *units = [word for word in words if word not in options]
    os.makedirs(UNITS, exist_ok=True)
    if command == "daemon-reload":
        return 0
    if command in ("enable", "disable"):
        if "--now" not in options:
            return 0
        command = "start" if command == "enable" else "stop"
    if "--no-block" in options:
        if os.fork() > 0:
            return 0
        # (the program that reads this output does not wait for the unit)
        nothing = os.open(os.devnull, os.O_RDWR)
        for stream in (0, 1, 2):
            os.dup2(nothing, stream)
    return max(act(command, unit) for unit in units)


def hold() -> None:
    """Waits for the processes that end in the site, as a first process must."""
    print("holds", flush=True)
    while True:
        try:
            os.wait()
        except ChildProcessError:
            time.sleep(0.05)


if __name__ == "__main__":
    if sys.argv[1:] == ["hold"]:
        hold()
    sys.exit(main(sys.argv[1:]))
