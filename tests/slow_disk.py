"""Disks that are slow for one program only, and counts of its syncs.

It is imported by tests/pressure.py, and not run by itself. A library replaces fsync and fdatasync of the C library
(LD_PRELOAD).
"""

import contextlib
import os
from typing import Dict, Optional

from checks import need
from devices import LeftOut, built_library
from real_host import plain
from row_driver import Session

# (each sync waits for the number of milliseconds in one file, and adds a byte to another)
SLOW = """
#define _GNU_SOURCE
#include <fcntl.h>
#include <stdlib.h>
#include <sys/syscall.h>
#include <time.h>
#include <unistd.h>

static int slow(int file, long call)
{
    char text[32] = "";
    const char *named = getenv("BOOTH_SLOW"), *noted = getenv("BOOTH_SYNCS");
    int told = named ? open(named, O_RDONLY | O_CLOEXEC) : -1;
    int notes = noted ? open(noted, O_WRONLY | O_APPEND | O_CREAT | O_CLOEXEC, 0600) : -1;
    if (told >= 0) {
        if (read(told, text, sizeof text - 1) > 0) {
            struct timespec wait = {atol(text) / 1000, atol(text) % 1000 * 1000000};
            nanosleep(&wait, 0);
        }
        close(told);
    }
    if (notes >= 0) {
        if (write(notes, "s", 1) < 0)
            _exit(1);
        close(notes);
    }
    return (int)syscall(call, file);
}

int fsync(int file) { return slow(file, SYS_fsync); }
int fdatasync(int file) { return slow(file, SYS_fdatasync); }
"""


def say_sync_takes(told: str, seconds: float) -> None:
    """Has each sync from now on take so long, for programs that read this file."""
    with open(told + ".new", "w", encoding="ascii") as file:
        file.write(str(int(seconds * 1000)))
    os.rename(told + ".new", told)


class SlowDisk:
    """A program whose syncs take as long as a file says."""

    def __init__(self, folder: str, program: str) -> None:
        self.told, self.program = os.path.join(folder, "slow"), os.path.join(folder, "slow-program")
        library = built_library(folder, "slow-syncs", SLOW)
        self.sync_takes(0)
        with open(self.program, "w", encoding="utf-8") as file:
            file.write(f'#!/bin/sh\nLD_PRELOAD={library} BOOTH_SLOW={self.told} exec {program} "$@"\n')
        os.chmod(self.program, 0o755)

    def sync_takes(self, seconds: float) -> None:
        """Makes each sync take this long from now on."""
        say_sync_takes(self.told, seconds)


def counted(folder: str, noted: str) -> Dict[str, str]:
    """Returns the environment of a program whose syncs are counted in this file, each by a byte."""
    return {**os.environ, "LD_PRELOAD": built_library(folder, "slow-syncs", SLOW), "BOOTH_SYNCS": noted}


class CountedHost:
    """A real host over a new directory of records, whose syncs are counted, and take as long as a file says."""

    def __init__(self, folder: str, trials: Optional[str]) -> None:
        if trials is None:
            raise LeftOut("trials is not built")
        self.noted, self.told, self.term = os.path.join(folder, "syncs"), os.path.join(folder, "slow"), 0
        say_sync_takes(self.told, 0)
        environ = {**counted(folder, self.noted), "BOOTH_SLOW": self.told}
        self.session = Session("host", trials, folder, environ)

    def __enter__(self) -> "CountedHost":
        self.of("open - 0 " + b"records".hex() + " -", "ok")
        return self

    def __exit__(self, *_: object) -> None:
        self.session.end()

    def count(self) -> int:
        """Returns how many syncs it made."""
        with contextlib.suppress(FileNotFoundError):
            return os.path.getsize(self.noted)
        return 0

    def of(self, call: str, wanted: str, seconds: float = 0) -> int:
        """Returns how many syncs this call made, of which each took so long. It must have the wanted answer."""
        say_sync_takes(self.told, seconds)
        before = self.count()
        answer = self.session.say(call)
        need(answer == wanted, f"{call}: {answer}")
        return self.count() - before

    def of_keep(self, ticket: bytes, seconds: float = 0) -> int:
        """Returns how many syncs the next keep of this ticket made."""
        self.term += 1
        return self.of(f"keep {ticket.hex()} {plain(self.term)}", "ok", seconds)

    def of_wait(self, millis: int, seconds: float = 0) -> int:
        """Returns how many syncs the host made in a wait of at most this many milliseconds, in which nothing arrived.
        """
        return self.of(f"next {millis}", "quiet", seconds)
