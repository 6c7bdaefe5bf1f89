"""The steps of booth-setup: each is printed and, except in a dry run, done. If a later step fails, it is undone.

It is imported by the modules of booth-setup, and not run by itself.
"""

import contextlib
import os
import signal
import subprocess
from typing import Callable, Iterator, List, NamedTuple, Optional, Tuple

from configuration import Unreadable

Action = Callable[[], object]
# a start of the daemon may wait three minutes for the clock, and then for an answer
SECONDS_TO_START, SECONDS_TO_ANSWER = 300, 10


class Failed(Unreadable):
    """The command failed; the text is the cause."""


class Ended(NamedTuple):
    """The exit status of a command (124 after a timeout, 127 if it did not start), and what it printed."""

    status: int
    out: str
    err: str


class File(NamedTuple):
    """A file to write. `owner` has the numbers of its user and group, or `None` for those of this process."""

    path: str
    content: bytes
    mode: int = 0o644
    owner: Optional[Tuple[int, int]] = None


def run(*words: str, seconds: float = SECONDS_TO_ANSWER) -> Ended:
    """Runs a command with a time limit, and returns how it ended."""
    try:
        done = subprocess.run(
            words, stdin=subprocess.DEVNULL, capture_output=True, timeout=seconds, check=False,
            env={**os.environ, "LC_ALL": "C"},
        )  # fmt: skip
    except subprocess.TimeoutExpired:
        return Ended(124, "", f"{words[0]} took more than {seconds:g} s")
    except OSError as why:
        return Ended(127, "", f"{words[0]}: {why.strerror}")
    return Ended(done.returncode, done.stdout.decode(errors="replace"), done.stderr.decode(errors="replace"))


def content_of(path: str) -> Optional[bytes]:
    """Returns the content of a file, or `None` if it does not exist. Raises `Failed` if it cannot be read."""
    try:
        with open(path, "rb") as file:
            return file.read()
    except FileNotFoundError:
        # (a dangling link occupies the name too)
        if os.path.islink(path):
            raise Failed(f"{path}: is a symbolic link to a file that does not exist") from None
        return None
    except OSError as why:
        raise Failed(f"cannot read {path}: {why.strerror}") from why


class Steps:
    """Prints each step, does it unless `only_shows` is set, and can undo the steps that were done."""

    def __init__(self, root: str, only_shows: bool) -> None:
        self.root, self.only_shows = root, only_shows
        self.done: List[Tuple[str, Action]] = []

    def note(self, text: str) -> None:
        """Prints a line about something that needs no step."""
        print(text, flush=True)

    def do(self, what: str, action: Action, undo: Optional[Tuple[str, Action]] = None) -> None:
        """Prints a step and does it. `undo` has the text and the action that undo it."""
        print(f"would {what}" if self.only_shows else what, flush=True)
        if not self.only_shows:
            action()
            if undo is not None:
                self.done.append(undo)

    def undo(self) -> None:
        """Undoes the steps that were done, the last one first, and prints each. Signals do not interrupt this."""
        for number in (signal.SIGTERM, signal.SIGHUP, signal.SIGINT):
            signal.signal(number, signal.SIG_IGN)
        while self.done:
            what, action = self.done.pop()
            try:
                action()
                told = f"undone: {what}"
            except (OSError, Failed) as why:
                told = f"not undone: {what}: {getattr(why, 'strerror', None) or why}"
            # (the terminal may have been closed)
            with contextlib.suppress(OSError):
                print(told, flush=True)

    def write(self, file: File) -> None:
        """Writes a file unless it has this content already. Raises `Failed` if a file with other content exists."""
        path = self.root + file.path
        there = content_of(path)
        if there == file.content:
            self.note(f"{file.path} has this content already")
            return
        if there is not None:
            raise Failed(f"{file.path} exists already, with other content")
        self.make_folder(os.path.dirname(path))
        self.do(f"write {file.path}", lambda: write_new(path, file), (f"write {file.path}", lambda: os.unlink(path)))

    def make_folder(self, path: str) -> None:
        """Makes a directory and its parents. They are removed again if a later step fails."""
        if self.only_shows or os.path.isdir(path):
            return
        self.make_folder(os.path.dirname(path))
        with translated(path):
            os.mkdir(path, 0o755)
        self.done.append((f"make {path}", lambda: os.rmdir(path)))

    def systemctl(self, *words: str, undo: Tuple[str, ...] = ()) -> None:
        """Runs systemctl as a step, with `--root` if there is a root."""
        undoing = (f"by systemctl {' '.join(undo)}", lambda: self.must_systemctl(*undo)) if undo else None
        self.do(f"run systemctl {' '.join(words)}", lambda: self.must_systemctl(*words), undoing)

    def must_systemctl(self, *words: str) -> None:
        """Runs systemctl, and raises `Failed` if it does not succeed."""
        below = (f"--root={self.root}",) if self.root else ()
        done = run("systemctl", *below, *words, seconds=SECONDS_TO_START)
        if done.status != 0:
            why = first_line(done.err) or f"it ended with status {done.status}"
            raise Failed(f"systemctl {' '.join(words)}: {why}")


@contextlib.contextmanager
def translated(path: str) -> Iterator[None]:
    """Turns system errors of a `with` block into `Failed`, with the path and the system's message."""
    try:
        yield
    except OSError as why:
        raise Failed(f"cannot write {path}: {why.strerror}") from why


def write_new(path: str, file: File) -> None:
    """Writes a new file as a whole. If a file of this name exists by now, fails and does not overwrite it."""
    new = f"{path}.new-{os.getpid()}"
    with translated(path):
        handle = os.open(new, os.O_WRONLY | os.O_CREAT | os.O_EXCL | os.O_NOFOLLOW | os.O_CLOEXEC, 0o600)
        try:
            with os.fdopen(handle, "wb") as out:
                if file.owner is not None:
                    os.fchown(handle, *file.owner)
                os.fchmod(handle, file.mode)
                out.write(file.content)
                out.flush()
                os.fsync(handle)
            os.link(new, path)
        finally:
            os.unlink(new)


def first_line(text: str) -> str:
    """Returns the first line of a text that is not blank, or an empty text."""
    return next((line.strip() for line in text.splitlines() if line.strip()), "")
