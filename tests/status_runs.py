"""Runs booth-status and booth-record for the tests, and reads their output.

It is imported by tests/status.py and its stories, and not run by itself.
"""

import contextlib
import functools
import importlib.machinery
import importlib.util
import io
import json
import os
import re
import subprocess
import sys
import time
from typing import NamedTuple

from checks import Wrong, need
from serving import NotServing

TOP = os.path.dirname(os.path.dirname(os.path.abspath(__file__)))
SECONDS_OF_A_RUN = 30
# how long Python takes to start and to end on a busy machine, in seconds
SECONDS_OF_PYTHON = 3
# how long it may take on a busy machine until booth-status shows the expected state, in seconds
SECONDS_TO_BE_SO = 30
SECONDS_BETWEEN_TRIES = 0.1

stories = []


def require_same(found, wanted, what=""):
    need(found == wanted, f"{what}{found}, and not {wanted}")


def story(function):
    """Adds a function to the list of stories. Its docstring is the sentence that it checks."""
    stories.append(function)
    return function


class Ran(NamedTuple):
    """The outcome of a run. `took` is in seconds."""

    status: int
    printed: str
    said: str
    took: float


class Loaded:
    """The main function of a program whose file name is not a module's."""

    def __init__(self, name):
        loader = importlib.machinery.SourceFileLoader(name.replace("-", "_"), f"{TOP}/packaging/{name}")
        self.module = importlib.util.module_from_spec(importlib.util.spec_from_loader(loader.name, loader))
        loader.exec_module(self.module)

    def status(self, words):
        try:
            return self.module.main(words)
        except SystemExit as end:
            return end.code


@functools.lru_cache(None)
def loaded(name):
    return Loaded(name)


def run(name, *words):
    """Returns a run of booth-status or booth-record in this process, because starting Python a hundred times would be
    slow.
    """
    started, streams = time.monotonic(), [io.TextIOWrapper(io.BytesIO(), write_through=True) for _ in range(2)]
    with contextlib.redirect_stdout(streams[0]), contextlib.redirect_stderr(streams[1]):
        result = loaded(name).status([str(word) for word in words])
    return Ran(result, *(stream.buffer.getvalue().decode() for stream in streams), time.monotonic() - started)


def run_apart(name, *words, **more):
    """Returns the same in its own process, as an operator runs it."""
    started = time.monotonic()
    command = [sys.executable, "-IS", f"{TOP}/packaging/{name}", *map(str, words)]
    more.update(stdin=subprocess.DEVNULL, stdout=subprocess.PIPE, stderr=subprocess.PIPE, universal_newlines=True)
    done = subprocess.run(command, timeout=SECONDS_OF_A_RUN, check=False, **more)
    need("Traceback" not in done.stderr, done.stderr)
    return Ran(done.returncode, done.stdout, done.stderr, time.monotonic() - started)


def status(*words):
    return run("booth-status", *words)


def record(*words):
    return run("booth-record", *words)


def refuses(name, words, text, result):
    """Checks that a run prints nothing on standard output, and this on the first line of standard error."""
    ran = run(name, *words)
    wanted = (result, "", f"{name}: {text}")
    found = (ran.status, ran.printed, ran.said.split("\n")[0])
    require_same(found, wanted, f"{name} {' '.join(map(str, words))} left ")


def document(*words):
    """Returns the JSON document of a look, which has the same status as its run."""
    ran = status("-j", *words)
    need(ran.printed.count("\n") == 1 and not ran.said, f"--json printed {ran.printed}{ran.said}")
    told = json.loads(ran.printed)
    require_same((told["version"], told["status"]), (1, ran.status), "version and status are ")
    return told


def problems_of(told):
    """Returns the problems in a document, without the texts."""
    names = ("severity", "kind", "member", "other", "ticket")
    return {tuple(each[name] for name in names) for each in told["problems"]}


def critical(kind, member=None, other=None, ticket=None):
    return ("critical", kind, member, other, ticket)


def warning(kind, member=None, other=None, ticket=None):
    return ("warning", kind, member, other, ticket)


def notice(kind, member=None, other=None, ticket=None):
    return ("notice", kind, member, other, ticket)


def require_problems(told, *wanted):
    require_same(problems_of(told), set(wanted), f"{told['summary']}: problems ")


def in_time(check, state=None):
    """Returns the result of a check. A busy machine may be late: if the check fails, it is repeated for this many
    seconds, and then its last failure counts. A state file is restored before each repetition.
    """
    kept, end = content_of(state), time.monotonic() + SECONDS_TO_BE_SO
    while True:
        try:
            return check()
        except (Wrong, NotServing):
            if time.monotonic() > end:
                raise
        time.sleep(SECONDS_BETWEEN_TRIES)
        put_back(state, kept)


def content_of(path):
    """Returns the bytes of a file, or None if it is missing."""
    if path is None or not os.path.exists(path):
        return None
    with open(path, "rb") as file:
        return file.read()


def put_back(path, kept):
    """Restores the file."""
    if kept is not None:
        with open(path, "wb") as file:
            file.write(kept)
    elif path is not None and os.path.exists(path):
        os.remove(path)


def shows(look, *wanted, state=None):
    """Returns the document of a look with these arguments, once it has exactly these problems."""
    words = [*look, "-s", state] if state else look

    def check():
        told = document(*words)
        require_problems(told, *wanted)
        return told

    return in_time(check, state)


def first_text(told):
    """Returns the text of the worst problem."""
    return told["problems"][0]["text"]


def metrics_of(text):
    """Returns each sample of the metrics by its name and its labels, as Prometheus reads them, after the help and type
    of its name.
    """
    form = re.compile(r'([a-z_]+)(?:\{((?:[a-z_]+="(?:[^"\\\n]|\\.)*",?)*)\})? (-?[0-9.]+(?:e-?[0-9]+)?)')
    samples, known, place = {}, {}, None
    for line in text.splitlines():
        if line.startswith("# HELP "):
            place = line.split(" ")[2]
        elif line.startswith("# TYPE "):
            need(line.split(" ")[2] == place, f"the type of {line} has no help")
            known[place] = line.split(" ")[3]
        else:
            found = form.fullmatch(line)
            need(found and found[1] == place and place in known, f"no sample of {place}: {line}")
            labels = frozenset(re.findall(r'([a-z_]+)="((?:[^"\\]|\\.)*)"', found[2] or ""))
            need((place, labels) not in samples, f"twice: {line}")
            samples[place, labels] = float(found[3])
    return samples


def sample(samples, name, **labels):
    """Returns the value of a sample, or None if it is missing."""
    return samples.get((name, frozenset(labels.items())))


def tables_of(printed):
    """Returns the rows of each printed table, as lists of fields, without the header rows."""
    blocks = [block.splitlines() for block in printed.rstrip("\n").split("\n\n")]
    return [[re.split(r" {2,}", line.strip()) for line in block] for block in blocks]
