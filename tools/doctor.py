"""Answers the questions that an operator asks first, from this machine alone. See booth-status(8), THE DOCTOR.

It is imported by booth-status, and not run by itself. It changes nothing that stays: it syncs a file without a name on
the disk of the records, and with --members it sends one large datagram to each member.
"""

import json
from typing import Any, Callable, Iterator, List, NamedTuple, Optional, Tuple

import configuration
import doctor_cluster
import doctor_machine
from configuration import Configuration, Unreadable
from doctor_finding import UNKNOWN, WORDS, Finding
from problems import CRITICAL, NOTICE, WARNING
from wording import aligned, count, plain

# the version of the JSON document
VERSION = 1


class Question(NamedTuple):
    """A question, and the function that answers it."""

    name: str
    ask: Callable[[doctor_cluster.Case], Iterator[Finding]]


QUESTIONS = [
    Question("configuration", doctor_cluster.of_configuration),
    Question("member", doctor_cluster.of_member),
    Question("key", doctor_cluster.of_key),
    Question("clock", doctor_machine.of_clock),
    Question("daemon", doctor_machine.of_daemon),
    Question("members", doctor_cluster.of_members),
    Question("tcp", doctor_cluster.of_tcp),
    Question("fragments", doctor_cluster.of_fragments),
    Question("disk", doctor_machine.of_disk),
    Question("sync", doctor_machine.of_sync),
    Question("followers", doctor_machine.of_followers),
    Question("restart", doctor_machine.of_restarts),
    Question("handler", doctor_machine.of_handlers),
    Question("watchdog", doctor_machine.of_watchdog),
]


def findings(conf: Configuration, seconds: float, tries_fragments: bool) -> List[Tuple[str, Finding]]:
    """Returns the answers to all questions, each with the question's name."""
    case, found = doctor_cluster.Case(conf, seconds, tries_fragments), []
    for question in QUESTIONS:
        try:
            answers = list(question.ask(case))
        except Unreadable as why:
            answers = [Finding(UNKNOWN, f"cannot be found out: {why}")]
        except OSError as why:
            answers = [Finding(UNKNOWN, plain(f"cannot be found out: {why.filename or 'system'}: {why.strerror}"))]
        found += [(question.name, answer) for answer in answers]
    return found


def severity_of(found: List[Tuple[str, Finding]]) -> int:
    """Returns the exit status of these answers."""
    return max((finding.severity for _, finding in found), default=NOTICE)


def status_of(options: Any) -> int:
    """Asks all questions, prints the answers, and returns the status."""
    path = configuration.path_of(options.conf)
    conf: Optional[Configuration] = None
    try:
        conf = configuration.read(path)
        found = findings(conf, options.timeout, options.members)
    except Unreadable as why:
        found = [("configuration", Finding(CRITICAL, str(why), "booth-setup(8) or booth.conf(5) says how to write it"))]
    show(path, found, options)
    return max(NOTICE, severity_of(found))


def counts_of(found: List[Tuple[str, Finding]]) -> str:
    """Returns how many questions, problems, warnings and unknown answers there are."""
    of = {severity: sum(each.severity == severity for _, each in found) for severity in (CRITICAL, WARNING, UNKNOWN)}
    told = [count(len({name for name, _ in found}), "question")]
    told += [count(of[CRITICAL], "problem"), count(of[WARNING], "warning")]
    return ", ".join([*told, f"{count(of[UNKNOWN], 'answer')} unknown"] if of[UNKNOWN] else told)


def show(path: str, found: List[Tuple[str, Finding]], options: Any) -> None:
    """Prints the answers in the requested form."""
    status = max(NOTICE, severity_of(found))
    word = {NOTICE: "OK", WARNING: "WARNING", CRITICAL: "CRITICAL"}[status]
    bad = [f"{name}: {finding.told()}" for name, finding in found if finding.severity > NOTICE]
    counted = counts_of(found)
    line = f"BOOTH {word}: {path}: {'; '.join(bad) or counted}"
    if options.json:
        answers = [
            {"question": name, "answer": WORDS[each.severity], "text": each.text, "do": each.do or None}
            for name, each in found
        ]
        told = {"version": VERSION, "configuration": path, "status": status, "summary": line, "answers": answers}
        print(json.dumps(told))
    elif options.brief:
        print(line)
    else:
        rows = [(WORDS[each.severity], name, each.told()) for name, each in found]
        print("\n".join([*aligned(rows), "", f"{word}: {path}: {counted}"]))

