#!/usr/bin/env python3
"""Shows the demo of tools/demo.py with programs that are not proved: `rt try` builds them in a minute or two.

Run it as `make try`. `rt try -- ARGUMENTS` builds a program and runs it with these arguments, in a folder that it
removes. This program starts the daemon that way, with arguments with which it keeps running. The daemon's command line
names its file, which has all programs. This program copies the file, and then ends rt. It leaves no files behind, and
needs only the port 9929.
"""

import contextlib
import os
import shlex
import shutil
import signal
import subprocess
import sys
import tempfile
import time
from typing import Iterator, List, NamedTuple, Optional

import demo
from serving import end_by_signals

TOP = os.path.dirname(os.path.dirname(os.path.abspath(__file__)))
PROGRAMS = ("boothd", "booth", "booth-follow")
# how long a build may take on a busy machine
SECONDS_TO_BUILD = 1800
# the pause between two looks at the processes, in seconds
PAUSE = 0.1
# addresses at which no program listens
OWN, OTHER = "127.0.0.250", "127.0.0.251"
CONF = f"""\
site = "{OWN}"
site = "{OTHER}"
port = 9938
ticket = "ticket-db8"
"""


class Failed(Exception):
    """The build made no program; the text is the cause."""


class Build(NamedTuple):
    """A run of rt that builds the programs: the arguments of the daemon, and the process."""

    arguments: List[str]
    process: "subprocess.Popen[bytes]"


def parent_of(process: int) -> int:
    """Returns the parent of a process, or 0 if the process is gone."""
    try:
        with open(f"/proc/{process}/stat", "rb") as file:
            return int(file.read().rpartition(b")")[2].split()[1])
    except OSError:
        return 0


def is_below(process: int, ancestor: int) -> bool:
    """Returns whether a process is a descendant of another one."""
    while process > 1:
        process = parent_of(process)
        if process == ancestor:
            return True
    return False


def program_of(build: Build) -> Optional[List[str]]:
    """Returns the command of the built program without its arguments, or `None` if it does not run yet.

    It is the command line of a descendant of rt that ends with exactly these arguments. The last word of the command is
    the program's file; a loader may come before it.
    """
    count = len(build.arguments)
    for name in os.listdir("/proc"):
        if name.isdigit():
            with contextlib.suppress(OSError):
                with open(f"/proc/{name}/cmdline", encoding="utf-8", errors="replace") as file:
                    words = file.read().split("\0")[:-1]
                if words[count:] and words[-count:] == build.arguments and is_below(int(name), build.process.pid):
                    *before, path = words[:-count]
                    return [*before, os.path.join(os.readlink(f"/proc/{name}/cwd"), path)]
    return None


def copied(command: List[str], folder: str) -> List[str]:
    """Writes a script for each name, which runs a copy of the command's file, and returns the paths of the scripts."""
    *before, source = command
    paths = []
    files = os.path.join(folder, "files")
    os.makedirs(files)
    for name in PROGRAMS:
        # (the name of the file selects which program it is)
        file, path = os.path.join(files, name), os.path.join(folder, name)
        shutil.copyfile(source, file)
        with open(path, "w", encoding="utf-8") as script:
            script.write(f"#!/bin/sh\nexec {shlex.join([*before, file])} \"$@\"\n")
        for each in (path, file):
            os.chmod(each, 0o755)
        paths.append(path)
    return paths


def begin(arguments: List[str], folder: str) -> Build:
    """Starts a build."""
    words = ["rt", "try", "--seconds", str(SECONDS_TO_BUILD), "--", *arguments]
    with open(f"{folder}/rt.log", "wb") as log:
        process = subprocess.Popen(
            words, cwd=f"{TOP}/crates/boothd", stdin=subprocess.DEVNULL, stdout=log, stderr=log, start_new_session=True
        )
    return Build(arguments, process)


def end(build: Build) -> None:
    """Sends rt a signal to stop, and waits until it has removed its folder and ended the program."""
    with contextlib.suppress(ProcessLookupError):
        build.process.send_signal(signal.SIGTERM)
    try:
        build.process.wait(timeout=20)
    except subprocess.TimeoutExpired:
        with contextlib.suppress(ProcessLookupError):
            os.killpg(build.process.pid, signal.SIGKILL)
        build.process.wait()


def refuse_ended(build: Build, folder: str) -> None:
    """Raises `Failed` with what rt printed, if rt has ended without a program."""
    if build.process.poll() is None:
        return
    with open(f"{folder}/rt.log", encoding="utf-8", errors="replace") as file:
        lines = file.read().strip().splitlines() or ["it printed nothing"]
    said = "\n".join(lines[-5:])
    raise Failed(f"rt try in crates/boothd ended with status {build.process.returncode}:\n{said}")


def await_programs(build: Build, folder: str) -> List[str]:
    """Waits until the daemon runs, and returns the paths of the programs."""
    began = time.monotonic()
    while time.monotonic() < began + SECONDS_TO_BUILD:
        command = program_of(build)
        if command is not None:
            return copied(command, folder)
        refuse_ended(build, folder)
        time.sleep(PAUSE)
    raise Failed(f"rt try built no program in {SECONDS_TO_BUILD} s")


@contextlib.contextmanager
def built(folder: str) -> Iterator[demo.Programs]:
    """Builds the programs without a proof. They exist during the `with` block."""
    conf = f"{folder}/try.conf"
    with open(conf, "w", encoding="ascii") as file:
        file.write(CONF)
    place = ["-c", conf, "-s", OWN, "-l", f"{folder}/lock", "-d", f"{folder}/records"]
    build = begin(["daemon", *place], folder)
    try:
        paths = await_programs(build, folder)
    finally:
        end(build)
    yield demo.Programs(*paths)


def main() -> None:
    """Builds the programs and shows them."""
    end_by_signals()
    if shutil.which("rt") is None:
        sys.exit("try: the command rt is missing: install the Rattle kit (README.md says how)")
    print("builds boothd, booth and booth-follow without a proof, which takes a minute or two", flush=True)
    began = time.monotonic()
    with tempfile.TemporaryDirectory(prefix="booth-try-") as folder:
        try:
            with built(folder) as programs:
                print(f"built in {time.monotonic() - began:.0f} s. {NOT_PROVED}", flush=True)
                demo.run(programs)
        except Failed as why:
            sys.exit(f"try: {why}")
    print(NOT_PROVED, flush=True)


NOT_PROVED = "These programs are not proved: make run proves them, and shows the same."

if __name__ == "__main__":
    main()
