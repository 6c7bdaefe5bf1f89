"""Checks of the handlers that the real host runs: programs of this machine, and scripts that print what they saw."""

import contextlib
import os
import time
from typing import Callable, Iterator, Tuple

from checks import Wrong, need
from real_host import FILE, Host, plain

CONF = "/etc/booth/cluster-a.conf"
# when a lease ends, in milliseconds since 1970
UNTIL = 1_700_000_600_000
# the arguments of a job's program, and the arguments and the term that the program then gets together with others of
# its ticket
TERMS = [
    ("a renew 5 term=7", "a renew 5 7"),
    ("start term=4294967295", "start 4294967295"),
    ("term=3 start", "term=3 start 0"),
    ("start term=", "start term= 0"),
    ("start term=7x", "start term=7x 0"),
    ("start", "start 0"),
]
# a program that writes its process id to a file named by its arguments, and keeps running
RUNS_ON = 'echo $$ >"new" && mv new "$*.pid"; exec sleep 30'


@contextlib.contextmanager
def opened(folder: str) -> Iterator[Host]:
    """Yields an open host without records, with a configuration of this name."""
    with Host(folder) as host:
        need(host.open(conf=CONF), "it is not opened")
        yield host


def over(host: Host) -> "tuple[int, int]":
    """Returns the number and the status of the next job that ends, within ten seconds."""
    for _ in range(200):
        word, *given = host.next(50).split(" ")
        if word == "handler":
            number, status = map(int, given)
            return number, status
    raise Wrong("no job is over")


def status(folder: str, handler: str) -> int:
    """Runs a handler, and returns its status."""
    with opened(folder) as host:
        need(host.start(7, handler), "it is not started")
        number, ended = over(host)
        need(number == 7, f"job {number}")
        return ended


def write(path: str, text: str) -> None:
    """Writes a file."""
    with open(path, "w", encoding="ascii") as file:
        file.write(text)


def write_script(path: str, lines: str) -> None:
    """Writes a script that anyone may run."""
    write(path, f"#!/bin/sh\n{lines}\n")
    os.chmod(path, 0o755)


def content(path: str) -> str:
    """Returns what a script wrote."""
    with open(path, encoding="ascii") as file:
        return file.read()


def a_program_that_refuses_has_another_status(folder: str) -> None:
    """`cat` has the status 0 for a file that exists, and another status for a missing file."""
    write(f"{folder}/service", "runs\n")
    need(status(folder, "/bin/cat service") == 0, "it runs")
    need(status(folder, "/bin/cat missing") == 1, "it refuses")


def a_signal_counts_as_a_status(folder: str) -> None:
    """A program that a signal ends has the status 255."""
    write(f"{folder}/signal", "kill -TERM $$\n")
    need(status(folder, "/bin/sh signal") == 255, "another status")


def programs_of_a_directory_run_until_one_refuses(folder: str) -> None:
    """The programs of a directory run in the order of their names' bytes, until one refuses. Names that begin with a
    dot are skipped.
    """
    os.mkdir(f"{folder}/programs")
    for name in ("b", "a", "B"):
        write_script(f"{folder}/programs/{name}", f"echo {name} $1 >> order\nexit 0")
    write_script(f"{folder}/programs/.0", "echo .0 $1 >> order\nexit 9")
    need(status(folder, "programs  db8") == 0, "all agree")
    need(content(f"{folder}/order") == "B db8\na db8\nb db8\n", "another order")
    write_script(f"{folder}/programs/a", "exit 3")
    need(status(folder, "programs  db8") == 3, "one refuses")
    need(content(f"{folder}/order") == "B db8\na db8\nb db8\nB db8\n", "none is run behind it")


def a_directory_without_programs_refuses_nothing(folder: str) -> None:
    """A directory that has only a hidden file refuses nothing."""
    os.mkdir(f"{folder}/programs")
    write(f"{folder}/programs/.hidden", "")
    need(status(folder, "programs") == 0, "another status")


def a_program_knows_what_it_is_run_for(folder: str) -> None:
    """A program gets seven variables, its arguments, an empty standard input, and no other descriptor."""
    script = "env | grep '^BOOTH_' | sort > seen; echo $# $1 $2 >> seen; cat; ls /proc/self/fd | wc -l >> seen"
    write_script(f"{folder}/sees", script)
    need(status(folder, "sees\tone   two ") == 0, "another status")
    wanted = (
        "BOOTH_CONF_NAME=cluster-a\nBOOTH_CONF_PATH=/etc/booth/cluster-a.conf\nBOOTH_LOCAL=192.168.201.100\n"
        "BOOTH_TICKET=ticket-db8\nBOOTH_TICKET_EXPIRES=1700000600\nBOOTH_TICKET_LEFT=0\nBOOTH_TICKET_TERM=0\n"
        "2 one two\n4\n"
    )
    need(content(f"{folder}/seen") == wanted, content(f"{folder}/seen"))


def a_program_knows_how_long_its_lease_runs(folder: str) -> None:
    """A program gets the time that its lease has left when the program starts, by the host's clock. In a directory the
    second program gets less than the first.
    """
    os.mkdir(f"{folder}/programs")
    for name in ("1", "2"):
        write_script(f"{folder}/programs/{name}", "echo $BOOTH_TICKET_LEFT >>left; sleep 0.3")
    with opened(folder) as host:
        for number, expires in ((1, int(time.time()) + 60), (2, 0)):
            need(host.start(number, "programs", expires) and over(host) == (number, 0), "it is not run")
    told = content(f"{folder}/left").split()
    need(len(told) == 4, f"they are told {told}")
    first, second, *others = map(int, told)
    need(58_000 < first <= 60_000, f"{first} ms are left of a minute")
    need(250 <= first - second < 10_000, f"{first} ms are left, and then {second}")
    need(others == [0, 0], f"{others} ms are left of no lease")


def told_term(folder: str, host: Host, expires: int) -> int:
    """Returns the term that a handler gets if its lease ends in this second."""
    need(host.start(1, "./tells", expires) and over(host) == (1, 0), "it is not run")
    return int(content(f"{folder}/term"))


def check_terms(folder: str, host: Host, term: int, what: str) -> None:
    """Checks that a handler gets this term before a renewal, and none before an acquisition."""
    told = [told_term(folder, host, expires) for expires in (0, UNTIL // 1000)]
    need(told == [0, term], f"{what}: {told}")


def a_program_has_the_term_of_the_lease_that_was_kept_last(folder: str) -> None:
    """A program gets the term of the last lease even if its record was not written, and the lease's end only if it was
    written. Without a record it gets no term.
    """
    write_script(f"{folder}/tells", "echo $BOOTH_TICKET_TERM >term")
    path = f"{folder}/records/{FILE}"
    with Host(folder) as host:
        need(host.open(records="records", conf=CONF) and host.kept() == "none", "it is not opened")
        check_terms(folder, host, 0, "no record")
        for record, term in ((plain(7, UNTIL), 7), (f"2 9 8 {UNTIL} - - - - 0", 8), (plain(10), 0)):
            need(host.keep(record), f"{record} is not kept")
            check_terms(folder, host, term, record)
        need(host.keep(plain(11, UNTIL)), "it is not kept")
        os.rename(path, f"{folder}/aside")
        os.mkdir(path)
        need(not host.keep(plain(12)), "it is kept in a directory")
        check_terms(folder, host, 11, "the end of a lease is not kept")
        need(not host.keep(plain(13, UNTIL)), "it is kept in a directory")
        check_terms(folder, host, 13, "a lease is not kept")
        os.rmdir(path)
        os.rename(f"{folder}/aside", path)
    with Host(folder) as host:
        need(host.open(records="records", conf=CONF), "it is not opened again")
        check_terms(folder, host, 0, "nothing was read")
        need(host.kept() == plain(11, UNTIL), "another record")
        check_terms(folder, host, 11, "a record was read")


def process(folder: str, words: str) -> int:
    """Returns the process of the program that was started with these arguments, when it has written its id."""
    path = f"{folder}/{words}.pid"
    for _ in range(500):
        if os.path.exists(path):
            return int(content(path))
        time.sleep(0.01)
    raise Wrong(f"the program with {words} does not run")


def runs(process_id: int) -> bool:
    """Returns whether a process runs. An ended process is defunct until its parent waits for it."""
    try:
        with open(f"/proc/{process_id}/stat", "rb") as file:
            return file.read().rpartition(b")")[2].split()[0] not in (b"Z", b"X")
    except OSError:
        return False


def ends(process_id: int) -> bool:
    """Returns whether a process ends within five seconds."""
    for _ in range(500):
        if not runs(process_id):
            return True
        time.sleep(0.01)
    return False


def begun(folder: str, host: Host, number: int, words: str) -> int:
    """Starts a program with these arguments that keeps running, and returns its process."""
    need(host.start(number, f"./program {words}"), f"{words} is not started")
    return process(folder, words)


def a_program_of_a_word_runs_beside_another(folder: str) -> None:
    """With `run_beside`, a program with the word runs at the same time as one without it, and each ends a former
    program of its own kind. The word is the last argument that is no number.
    """
    write_script(f"{folder}/program", RUNS_ON)
    with opened(folder) as host:
        host.run_beside()
        start = begun(folder, host, 1, "a start")
        first = begun(folder, host, 2, "a renew 1")
        need(runs(start), "a renew ends a start")
        second = begun(folder, host, 3, "a renew 2")
        need(ends(first) and runs(start), "a renew ends the renew before it alone")
        stop = begun(folder, host, 4, "a renew stop")
        need(ends(start) and runs(second), "a stop ends the start alone")
        need(host.start(5, "/bin/true renew") and over(host) == (5, 0), "it is told how a renew ended")
        need(ends(second) and runs(stop), "it ends the one before it alone")
        need(host.start(6, "/bin/false") and over(host) == (6, 1) and ends(stop), "the other kind too")


def a_program_beside_others_has_the_term_of_its_lease(folder: str) -> None:
    """With `run_beside`, the last word `term=N` is no argument of the program, but its BOOTH_TICKET_TERM."""
    write_script(f"{folder}/program", 'echo "$* ${BOOTH_TICKET_TERM-none}" >said')
    with opened(folder) as host:
        need(host.start(1, "./program start term=7") and over(host) == (1, 0), "a handler")
        need(content(f"{folder}/said") == "start term=7 0\n", f"a handler said {content(f'{folder}/said')}")
        host.run_beside()
        for number, (words, said) in enumerate(TERMS, 2):
            need(host.start(number, f"./program {words}") and over(host) == (number, 0), words)
            need(content(f"{folder}/said") == f"{said}\n", f"{words}: {content(f'{folder}/said')}")


def without_such_a_word_each_ends_the_one_before(folder: str) -> None:
    """Without the word, each program ends the one before, as a daemon's handlers do."""
    write_script(f"{folder}/program", RUNS_ON)
    with opened(folder) as host:
        start = begun(folder, host, 1, "start")
        renew = begun(folder, host, 2, "renew 1")
        need(ends(start) and runs(renew), "a renew runs beside a start")
        need(host.start(3, "/bin/true") and over(host) == (3, 0) and ends(renew), "a renew runs on")


def a_program_is_not_waited_for(folder: str) -> None:
    """The host does not wait for a program: the ticket's next job ends it."""
    with opened(folder) as host:
        need(host.start(1, "/bin/sleep 30"), "it is not started")
        started = time.monotonic()
        need(host.next(50) == "quiet" and time.monotonic() - started < 5, "it is waited for")
        need(host.start(2, "/bin/true") and over(host) == (2, 0), "the second")
        time.sleep(0.1)
        need(host.next(1) == "quiet", "the first one is not told")
        need(host.start(3, "/bin/false") and over(host) == (3, 1), "the third")


def what_cannot_be_run_is_a_failure(folder: str) -> None:
    """A program that cannot be run is a failure. The host never looks for a program in PATH."""
    with Host(folder) as host:
        need(not host.start(1, "/bin/true"), "it is not open")
    write(f"{folder}/no-program", "exit 0\n")
    with opened(folder) as host:
        for handler in ("/booth/missing", "true", "no-program", " "):
            need(not host.start(1, handler), handler)


def a_later_program_that_cannot_be_run_ends_the_row(folder: str) -> None:
    """A later program that cannot be run ends the programs of a directory, with the status 255."""
    os.mkdir(f"{folder}/programs")
    write_script(f"{folder}/programs/1", "exit 0")
    write(f"{folder}/programs/2", "exit 0\n")
    with opened(folder) as host:
        need(host.start(1, "programs") and over(host) == (1, 255), "another end")


CHECKS: Tuple[Callable[[str], None], ...] = (
    a_program_that_refuses_has_another_status,
    a_signal_counts_as_a_status,
    programs_of_a_directory_run_until_one_refuses,
    a_directory_without_programs_refuses_nothing,
    a_program_knows_what_it_is_run_for,
    a_program_knows_how_long_its_lease_runs,
    a_program_has_the_term_of_the_lease_that_was_kept_last,
    a_program_of_a_word_runs_beside_another,
    a_program_beside_others_has_the_term_of_its_lease,
    without_such_a_word_each_ends_the_one_before,
    a_program_is_not_waited_for,
    what_cannot_be_run_is_a_failure,
    a_later_program_that_cannot_be_run_ends_the_row,
)
