"""Checks the lines that the real host prints on standard error, and its reports to the service manager."""

import contextlib
import os
import socket
import time
from typing import Callable, Dict, Iterator, List, Tuple

from checks import need
from host_handlers import content, over, write
from real_host import Host

# the variables that systemd sets for a service
OF_SYSTEMD = ("JOURNAL_STREAM", "NOTIFY_SOCKET", "WATCHDOG_USEC")
NO_FILE = "No such file or directory (os error 2)"
NO_DIRECTORY = "Not a directory (os error 20)"
NO_REGULAR_FILE = "it is no regular file"
TEXTS = ("boothd: bad site\n", "error: one\n\nusage: two\n", "boothd: ends without a line feed")
UNRUN = f"cannot run the handler of ticket ticket-db8: {NO_FILE}\n"


def surroundings(**variables: str) -> Dict[str, str]:
    """Returns the environment, with only these of systemd's variables."""
    others = {name: value for name, value in os.environ.items() if name not in OF_SYSTEMD}
    return {**others, **variables}


def said(folder: str, journal: str) -> str:
    """Returns the host's lines about a missing program and about several texts. `{}` in a text stands for its standard
    error.
    """
    path = f"{folder}/said"
    with open(path, "wb") as errors:
        own = os.fstat(errors.fileno())
        stream = journal.format(f"{own.st_dev}:{own.st_ino}")
        environ = surroundings(JOURNAL_STREAM=stream) if stream else surroundings()
        with Host(folder, environ, errors) as host:
            need(host.open(), "it is not opened")
            need(not host.start(1, "/booth/missing"), "it is started")
            for text in TEXTS:
                need(host.err(text), "it is not written")
    return content(path)


def a_line_begins_with_the_programs_name(folder: str) -> None:
    """A line begins with the program's name if the journal does not read it: the variable is missing, or names another
    file.
    """
    wanted = f"boothd: {UNRUN}{''.join(TEXTS)}"
    for journal in ("", "1:2", "{}0", "{}:", "{}:1", ":", "no journal", "x" * 500):
        got = said(folder, journal)
        need(got == wanted, f"with {journal!r}: {got!r}")


def a_line_for_the_journal_begins_with_its_priority(folder: str) -> None:
    """Each line of a text for the journal begins with the priority, and none with the program's name."""
    got = said(folder, "{}")
    lines = "<3>bad site\n<3>error: one\n<3>usage: two\n<3>ends without a line feed\n"
    need(got == f"<3>{UNRUN}{lines}", repr(got))


def a_long_line_is_cut_for_the_journal_alone(folder: str) -> None:
    """A line for the journal is cut at 1,024 bytes, including its line end. Another line is not cut."""
    path, text = f"{folder}/said", "x" * 120
    for is_journal in (False, True):
        with open(path, "wb") as errors:
            own = os.fstat(errors.fileno())
            stream = f"{own.st_dev}:{own.st_ino}" if is_journal else "1:2"
            with Host(folder, surroundings(JOURNAL_STREAM=stream), errors) as host:
                need(host.err(text * 10 + "\n"), "it is not written")
        got = content(path)
        wanted = f"<3>{(text * 10)[:1020]}\n" if is_journal else f"{text * 10}\n"
        need(got == wanted, f"{len(got)} bytes")


class Manager:
    """A service manager's socket."""

    def __init__(self, name: str) -> None:
        self.socket = socket.socket(socket.AF_UNIX, socket.SOCK_DGRAM)
        self.socket.bind(name)
        self.socket.settimeout(5)

    def told(self) -> str:
        """Returns the next notification, which must arrive within five seconds."""
        return self.socket.recv(4096).decode()

    def all_told(self) -> List[str]:
        """Returns the notifications that have arrived and are not read yet."""
        told = []
        self.socket.settimeout(0)
        with contextlib.suppress(BlockingIOError):
            while True:
                told.append(self.told())
        self.socket.settimeout(5)
        return told


@contextlib.contextmanager
def manager(name: str) -> Iterator[Manager]:
    """Yields a service manager whose socket has this name. If the name begins with a zero byte, it is abstract."""
    made = Manager(name)
    with made.socket:
        yield made


def the_service_manager_is_told(folder: str) -> None:
    """The host notifies the service manager by a socket that is a file, also with the longest path, and by a socket
    with an abstract name.
    """
    long = f"{folder}/{'m' * (107 - len(folder) - 1)}"
    for name, variable in ((f"{folder}/m", f"{folder}/m"), (long, long), (f"\0{folder}", f"@{folder}")):
        with manager(name) as systemd, Host(folder, surroundings(NOTIFY_SOCKET=variable)) as host:
            host.notify("READY=1")
            host.notify("STATUS=it runs")
            told = [systemd.told(), systemd.told()]
            need(told == ["READY=1", "STATUS=it runs"], f"{variable}: {told}")


def nobody_is_told_without_a_socket(folder: str) -> None:
    """Without a socket the host notifies nobody, and prints no line about it."""
    path = f"{folder}/said"
    with open(path, "wb") as errors, Host(folder, surroundings(), errors) as host:
        host.notify("READY=1")
        host.beat()
    need(os.path.getsize(path) == 0, "something is said")


def turns_are_told_once_a_second(folder: str) -> None:
    """The host reports each second that it is alive, or twice within the watchdog's time if that is more often."""
    for usec, often in (("", 1), ("60000000", 1), ("400000", 0.2)):
        with manager(f"{folder}/{usec}m") as systemd:
            names = {"NOTIFY_SOCKET": f"{folder}/{usec}m", **({"WATCHDOG_USEC": usec} if usec else {})}
            with Host(folder, surroundings(**names)) as host:
                end, told = time.monotonic() + 2.5 * often, []
                while time.monotonic() < end:
                    host.beat()
                    told += systemd.all_told()
                    time.sleep(0.02)
        need(set(told) == {"WATCHDOG=1"} and len(told) in (2, 3), f"at {usec or 'no time'}: {told}")


def a_service_manager_that_cannot_be_told_is_said_once(folder: str) -> None:
    """The host prints one line if the manager ended, the socket is of another kind, or the manager reads nothing. The
    host never waits for the manager.
    """
    rows = (
        (f"{folder}/gone", NO_FILE),
        ("vsock:2:1", "NOTIFY_SOCKET names no socket"),
        (f"{folder}/{'m' * (107 - len(folder))}", "NOTIFY_SOCKET names no socket"),
        (f"{folder}/full", "Resource temporarily unavailable (os error 11)"),
    )
    path, started = f"{folder}/said", time.monotonic()
    with manager(f"{folder}/full"):
        for name, why in rows:
            with open(path, "wb") as errors, Host(folder, surroundings(NOTIFY_SOCKET=name), errors) as host:
                for _ in range(600):
                    host.notify("READY=1")
            got = content(path)
            need(got == f"trials: cannot notify the service manager: {why}\n", f"{name}: {got!r}")
    need(time.monotonic() - started < 30, "it is waited for")


def a_program_has_no_socket_of_the_host(folder: str) -> None:
    """A handler's program has only its three standard streams, even if a service manager is notified."""
    write(f"{folder}/script", "ls /proc/self/fd | wc -l >seen\n")
    with manager(f"{folder}/m"), Host(folder, surroundings(NOTIFY_SOCKET=f"{folder}/m")) as host:
        need(host.open(), "it is not opened")
        host.notify("READY=1")
        need(host.start(1, "/bin/sh script") and over(host) == (1, 0), "it is not run")
    need(content(f"{folder}/seen") == "4\n", "it has other files")


def a_refusal_has_the_systems_words(folder: str) -> None:
    """A refusal has the system's words if a file, a lock, a directory of records or a socket cannot be opened.
    (192.0.2.1 is reserved for documents.)
    """
    path = f"{folder}/said"
    os.mkfifo(f"{folder}/pipe")
    with open(path, "wb") as errors, Host(folder, surroundings(), errors) as host, Host(folder) as other:
        need(other.open(records="taken"), "it is not opened")
        for name in ("missing", "pipe"):
            need(host.read(name) is None, f"{name} is read")
            need(host.lock(f"{name}/lock") == "failed", f"{name}/lock is locked")
        need(host.lock("pipe") == "failed", "the pipe is locked")
        for records in ("missing/below", "pipe", "taken"):
            need(not host.open(records=records), f"{records} is opened")
        need(not host.open("192.0.2.1", 9929), "an address of another machine is opened")
    said = (
        ("missing", NO_FILE),
        ("missing/lock", NO_FILE),
        ("pipe", NO_REGULAR_FILE),
        ("pipe/lock", NO_DIRECTORY),
        ("pipe", NO_REGULAR_FILE),
        ("missing/below", NO_FILE),
        ("pipe", NO_DIRECTORY),
        ("taken", "its lock is held"),
        ("socket at 192.0.2.1, port 9929", "Cannot assign requested address (os error 99)"),
    )
    wanted = "".join(f"boothd: {what}: {why}\n" for what, why in said)
    got = content(path)
    need(got == wanted, repr(got))


CHECKS: Tuple[Callable[[str], None], ...] = (
    a_line_begins_with_the_programs_name,
    a_line_for_the_journal_begins_with_its_priority,
    a_long_line_is_cut_for_the_journal_alone,
    the_service_manager_is_told,
    nobody_is_told_without_a_socket,
    turns_are_told_once_a_second,
    a_service_manager_that_cannot_be_told_is_said_once,
    a_program_has_no_socket_of_the_host,
    a_refusal_has_the_systems_words,
)
