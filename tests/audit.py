#!/usr/bin/env python3
"""Checks `boothd audit` with journals that real clusters wrote: whole, changed by line, cut, joined, and forged.

Run it as `python3 tests/audit.py [--every-byte] [BOOTHD]`. BOOTHD is by default the one that `make build` leaves. It
takes half a minute, prints a line for each check, ends all programs that it started, and has the status 1 if a check
failed. If boothd is not built or has no command audit, only the rule about changes is checked, and the status is 77.
Journals are cut at three bytes of each line. With --every-byte they are cut at each byte, which takes two minutes more.

tests/journal_changes.py has the rule about changes. Without an auditor it computes whether a changed journal is still
valid, which line is named if it is not, and what an audit prints if it is.
"""

import concurrent.futures
import contextlib
import functools
import itertools
import os
import random
import re
import shutil
import struct
import subprocess
import sys
import tempfile
import threading
import time

HERE = os.path.dirname(os.path.abspath(__file__))
TOP = os.path.dirname(HERE)
sys.path[:0] = [HERE, f"{TOP}/tools"]

import audit_incidents
import journal
import journal_changes
import journal_file
from auditing import (
    PATIENCE,
    SILENT,
    LeftOut,
    Misjudged,
    audit,
    can_audit,
    cluster_in,
    content,
    ended,
    is_granted,
    is_renewed,
    require,
    shown_at,
)
from journal_changes import VALID
from members import wait_for
from serving import NotServing, built_program, end_by_signals
from shells import read, run

NOTHING_CHECKED = 77
SEED = 9929
EVERY_BYTE = "--every-byte"
# the number of audits at the same time, and the digits of a line that are changed, one at a time
AT_ONCE, DIGITS = 4, 4
# one byte more than a file may have
TOO_LARGE = 2**30 + 1
# the line in which the first start of a journal with one ticket has the answer to its read of the record
FIRST_READ = 6
# the sessions of the second site: its journal is rotated between them
SESSIONS = 3

# two sessions that were written manually, of which only the form is checked
BY_HAND = """\
now 1000 open_10.0.0.1 ok kept_db8 none next quiet now 1100 next quiet now 1200
now 1300 open_10.0.0.1 ok kept_db8 none next quiet now 1400"""
# for each kind of change: the lines after whose change the journal is still valid, and the lines after whose change a
# later call is the one that the rules do not demand
BY_HAND_DUE = (
    (journal_changes.left_out, {12, 14, 22, 24}, {8: 10}),
    (journal_changes.doubled, {1, 13, 15, 23}, {9: 12}),
    (journal_changes.swapped, set(), {}),
)


def the_rule_is_as_by_hand():
    """the rule for changed lines gives the results for a small journal that were worked out manually"""
    lines = [word.replace("_", " ") for word in BY_HAND.split()]
    for make, stay, found_later in BY_HAND_DUE:
        dues = {change.line: journal_changes.form(change.text) for change in make(lines)}
        found = {line for line, due in dues.items() if due == VALID}
        require(found == stay, f"{make.__name__}: lines {sorted(found)} leave a journal, and not {sorted(stay)}")
        differs = {line: due.first for line, due in dues.items() if "differs" in due.faults}
        require(differs == found_later, f"{make.__name__}: not demanded is {differs}, and not {found_later}")
    text = journal_changes.text_of(lines)
    for size in range(len(text) + 1):
        require(journal_changes.form(text[:size]) == VALID, f"cut at {size} bytes it is none")
    refused = journal_changes.form(journal_changes.text_of(lines[:6] + lines[7:]))
    require(refused == journal_changes.fault_at(7, "syntax"), f"a journal without its line 7: {refused}")
    return f"{len(lines)} lines, {len(text) + 1} cuts"


def good_journals(boothd, folder):
    """Returns the journals of members that live through a first start, a grant, renewals, a restart, and a revoke."""
    with cluster_in(boothd, folder) as (cluster, forward):
        one, two, _ = cluster.members
        cluster.start()
        forward(SILENT)
        is_granted(one)
        is_renewed(one, forward)
        require(wait_for(two.record, PATIENCE), "it keeps nothing")
        for _ in range(SESSIONS - 1):
            two.kill()
            two.start(boothd, cluster.conf)
        is_renewed(one, forward)
        require(wait_for(lambda: cluster.shown_by_all() == one.address, PATIENCE), "it is not listed by all")
        require(one.about("CRvk") == "ok", "no revocation")
        time.sleep(0.3)
        return ended(cluster)


# ---- changes of good journals


def whole_journals_pass(good):
    """the journals of a cluster pass, and each lease has its line"""
    found, due = good.found(good.paths), journal_changes.holdings(good.roster, good.texts)
    require(found.passes(), f"it left {found}, {shown_at(good.paths, found.fault(good.paths))}")
    require(found.printed == due and due.count("\n") >= 3, f"it prints {found.printed}, and not {due}")
    unsent = journal_changes.first_unsent(good.roster, good.texts)
    require(unsent is None, f"by tests/journal_changes.py {unsent} was not sent")
    drawn = run(sys.executable, f"{TOP}/tools/timeline.py", input=found.printed)
    row = f">{good.roster.tickets[0].decode()} at {good.roster.members[0][1]}</text>"
    is_drawn = row in drawn.stdout and 'class="held"' in drawn.stdout and 'class="both"' not in drawn.stdout
    require(is_drawn and not drawn.stderr, f"tools/timeline.py draws {drawn}")
    return f"{sum(len(text.splitlines()) for text in good.texts)} lines, {len(due.splitlines())} leases"


def some_of_the_journals(good):
    """journals pass in any order; if one is missing, the member that heard it is named; no journal is used twice"""
    for places in itertools.permutations(range(len(good.paths))):
        for count in range(1, len(places) + 1):
            paths, texts = ([each[place] for place in places[:count]] for each in (good.paths, good.texts))
            unsent, found = journal_changes.first_unsent(good.roster, texts), good.found(paths)
            due = (*unsent, "unsent") if unsent else journal_changes.holdings(good.roster, texts)
            require(found.told(paths) == due, f"{places[:count]}: due is {due}, and it left {found}")
            require(count < len(places) or not unsent, f"all of them: {due}")
        copy = os.path.join(good.folder, "copy")
        shutil.copyfile(paths[0], copy)
        found = good.found([*paths, copy])
        require(found.told([*paths, copy]) == (len(paths), None, "member"), f"one is taken twice: {found}")
    return None


def what_is_no_journal_is_said(good):
    """an unreadable file is reported, a text without lines passes, and another text is not a journal"""
    texts = {"empty": b"", "torn": b"now", "other": b"now\n1\nticket\n", "large": b""}
    paths = {name: os.path.join(good.folder, name) for name in texts}
    for name, text in texts.items():
        with open(paths[name], "wb") as file:
            file.write(text)
    os.truncate(paths["large"], TOO_LARGE)
    reasons = {
        os.path.join(good.folder, "none"): "No such file or directory (os error 2)",
        good.folder: "it is no regular file",
        paths["large"]: "it has more than 2^30 bytes",
    }
    for path, why in reasons.items():
        found = good.found([good.paths[0], path])
        said = f"boothd: {path}: {why}\nboothd: cannot read {path}\n"
        require(found == (1, "", said), f"{path}: {found}")
    os.remove(paths["large"])
    found = good.found([paths["empty"], paths["torn"]])
    require(found.passes() and not found.printed, f"texts without a line: {found}")
    found = good.found([paths["empty"], paths["other"]])
    require(found.fault([paths["empty"], paths["other"]]) == (1, 3, "syntax"), f"a text of another kind: {found}")
    for words in ([], [paths["empty"]] * 17):
        found = good.found(words)
        require(found.status == 1 and not found.printed and found.said.startswith("error: "), f"{len(words)}: {found}")
    return None


def another_key_is_found(good):
    """with a configuration that has another key or none, a journal is refused at its first send"""
    with open(good.conf, encoding="ascii") as file:
        text = file.read()
    other = os.path.join(good.folder, "other.key")
    with open(other, "wb") as file:
        file.write(b"another-key-than-that")
    sends = next(entry.line for entry in journal_changes.entries_of(good.texts[0]) if entry.kind == "send")
    for line in (f'authfile = "{other}"', ""):
        conf = os.path.join(good.folder, "other.conf")
        with open(conf, "w", encoding="ascii") as file:
            file.write(re.sub("^authfile = .*$", line, text, flags=re.M))
        found = audit(good.program, conf, good.paths)
        require(found.fault(good.paths) == (0, sends, "differs"), f"{line}: due is line {sends}, and it left {found}")
    return f"line {sends}"


def rotated_files_are_joined(good):
    """files of one member pass if they are joined as docs/AUDIT.md says, and are refused in another order"""
    entries, lines = journal_changes.entries_of(good.texts[1]), journal_file.lines_of(good.texts[1])
    starts = [entry.line - 1 for place, entry in enumerate(entries) if journal_changes.is_start(entries, place)]
    require(len(starts) == SESSIONS, f"it started {len(starts)} times")
    parts = [lines[begin:end] for begin, end in zip(starts, [*starts[1:], None])]
    room = os.path.join(good.folder, "rotated")
    os.makedirs(room)
    for name, part in zip(("booth.journal.2", "booth.journal.1", "booth.journal"), parts):
        with open(os.path.join(room, name), "wb") as file:
            file.write(journal_changes.text_of(part) + b"keep tick")
    recipe = re.search(r"^ {4}(for file in .*; done >a\.journal)$", read(f"{TOP}/docs/AUDIT.md"), re.M)
    require(recipe, "docs/AUDIT.md joins no files")
    subprocess.run(["sh", "-c", recipe[1]], cwd=room, check=True, timeout=PATIENCE)
    joined = content(os.path.join(room, "a.journal"))
    require(joined == good.texts[1], "the files are joined to another text")
    for order in ((1, 0, 2), (1, 2), (2, 1, 0)):
        text = journal_changes.text_of(line for part in order for line in parts[part])
        found, paths = audit_of(good, 1, text)
        require(found.fault(paths) == (1, FIRST_READ, "record"), f"the parts {order}: {found}")
    return f"{len(parts)} files"


def audit_of(good, place, text):
    """Returns the audit's output for the journals, with this one in place of another, and their paths."""
    folder = os.path.join(good.folder, f"changed-{threading.get_ident()}")
    os.makedirs(folder, exist_ok=True)
    paths = [*good.paths]
    paths[place] = os.path.join(folder, "journal")
    with open(paths[place], "wb") as file:
        file.write(text)
    return good.found(paths), paths


def whole_due(good, place, text):
    """Returns the expected result of an audit in which each journal is whole: a fault, or the printed lines."""
    texts = [*good.texts]
    texts[place] = text
    unsent = journal_changes.first_unsent(good.roster, texts)
    return (*unsent, "unsent") if unsent else journal_changes.holdings(good.roster, texts)


def due_of(good, place, change):
    if change.kind == "digit":
        return journal_changes.judged_digit(good.roster, good.texts[place], change.text, change.line)
    if change.kind == journal_changes.CALL:
        return journal_changes.judged_call(good.texts[place], change)
    return journal_changes.form(change.text)


def fits(good, place, change, due, told):
    """Returns whether the audit of a changed journal has the expected result, which is a fault or the printed lines."""
    if isinstance(told, tuple) and told[0] == place and due.allows(*told[1:]):
        return True
    return due.may_pass and told == whole_due(good, place, change.text)


def judge_change(good, work):
    """Returns which change was made, and what is wrong with the audit's result, or nothing."""
    place, change = work
    due = due_of(good, place, change)
    found, paths = audit_of(good, place, change.text)
    if fits(good, place, change, due, found.told(paths)):
        where = journal_changes.named(journal_changes.entries_of(good.texts[place]), change.line)
        return f"pass ({where})" if found.passes() else found.fault(paths)[2], None
    return None, f"journal {place + 1}, line {change.line} {change.kind}: due is {due}, and it left {found}"


def count_of(outcomes):
    kinds = sorted({kind for kind, _ in outcomes})
    return ", ".join(f"{sum(kind == each for kind, _ in outcomes)} {each}" for each in kinds)


def judged_all(good, works, judge):
    """Returns the outcomes of all these changes, several at the same time."""
    with concurrent.futures.ThreadPoolExecutor(AT_ONCE) as pool:
        outcomes = list(pool.map(functools.partial(judge, good), works))
    wrong = [why for _, why in outcomes if why is not None]
    require(not wrong, f"{len(wrong)} of {len(outcomes)} are judged wrong: {' | '.join(wrong[:5])}")
    return f"{len(outcomes)}: {count_of(outcomes)}"


def changes_are_judged(make, good):
    works = [(place, change) for place, text in enumerate(good.texts) for change in make(journal_file.lines_of(text))]
    return judged_all(good, works, judge_change)


def each_line_left_out(good):
    """if a line is left out of a journal, the journal is refused at that line, or is still valid"""
    return changes_are_judged(journal_changes.left_out, good)


def each_line_doubled(good):
    """if a line of a journal is doubled, the journal is refused at that line, or is still valid"""
    return changes_are_judged(journal_changes.doubled, good)


def each_line_swapped(good):
    """if a line of a journal is swapped with the next, the journal is refused at that line, or is still valid"""
    return changes_are_judged(journal_changes.swapped, good)


def each_call_left_out(good):
    """if a call and its answer are left out of a journal, the journal is refused there, or is still valid"""
    return changes_are_judged(journal_changes.calls_left_out, good)


def each_call_doubled(good):
    """if a call and its answer are doubled in a journal, the journal is refused there, or is still valid"""
    return changes_are_judged(journal_changes.calls_doubled, good)


def each_call_swapped(good):
    """if a call and its answer are swapped with the next, the journal is refused there, or is still valid"""
    return changes_are_judged(journal_changes.calls_swapped, good)


def each_digit_changed(good):
    """if a digit of a journal is changed, the journal is refused, or is still valid"""
    chance = random.Random(SEED)
    return changes_are_judged(lambda lines: journal_changes.with_a_digit(lines, chance, DIGITS), good)


def judge_cut(good, work):
    """Returns which journal was cut where, and what is wrong with the audit's result, or nothing."""
    place, size, due = work
    found, paths = audit_of(good, place, good.texts[place][:size])
    if found.told(paths) == due:
        return "pass" if found.passes() else found.fault(paths)[2], None
    return None, f"journal {place + 1}, cut at {size} bytes: due is {due}, and it left {found}"


def cuts_of(good, place, within):
    """Returns the places at which a journal is cut: so many within each line, and one after the last; each with the
    expected result.
    """
    size, due = 0, whole_due(good, place, b"")
    for line in good.texts[place].splitlines(keepends=True):
        yield from ((place, size + more, due) for more in within(line))
        size += len(line)
        due = whole_due(good, place, good.texts[place][:size])
    yield place, size, due


def judged_cuts(good, within):
    cuts = [cut for place in range(len(good.texts)) for cut in cuts_of(good, place, within)]
    return judged_all(good, cuts, judge_cut)


def cut_anywhere(good):
    """a cut journal passes as the journal of its whole lines; a member that heard a missing message is named"""
    chance = random.Random(SEED)
    return judged_cuts(good, lambda line: {0, chance.randrange(len(line)), len(line) - 1})


def cut_at_every_byte(good):
    """a journal that is cut at any byte passes as the journal of its whole lines"""
    return judged_cuts(good, lambda line: range(len(line)))


OF_GOOD = (
    whole_journals_pass,
    some_of_the_journals,
    what_is_no_journal_is_said,
    another_key_is_found,
    rotated_files_are_joined,
    each_line_left_out,
    each_line_doubled,
    each_line_swapped,
    each_call_left_out,
    each_call_doubled,
    each_call_swapped,
    each_digit_changed,
    cut_anywhere,
)
WRONG = (Misjudged, journal.Wrong, NotServing, OSError, LookupError, ValueError, TypeError, StopIteration, struct.error)


def passes(check, *words):
    """Runs a check, and prints its line. Returns whether it passed or was left out."""
    begun = time.monotonic()
    try:
        told = check(*words)
    except (LeftOut, journal.LeftOut) as why:
        print(f"audit: {check.__doc__}: not checked: {why}", flush=True)
        return True
    except (*WRONG, journal_file.BadLine, subprocess.SubprocessError) as why:
        print(f"FAILED  {check.__doc__}: {type(why).__name__}: {why}", flush=True)
        return False
    print(f"ok      {check.__doc__}: {told} ({time.monotonic() - begun:.1f} s)", flush=True)
    return True


@contextlib.contextmanager
def in_folder():
    folder = tempfile.mkdtemp(prefix="booth-audit-")
    try:
        yield folder
    finally:
        shutil.rmtree(folder, ignore_errors=True)


def checked_over_good(boothd, checks):
    """Returns the results of these checks over the journals of one cluster, or why there are no such journals."""
    with in_folder() as folder:
        made = []

        def a_good_cluster():
            """a cluster of three writes journals"""
            made.append(good_journals(boothd, folder))
            return f"{sum(map(len, made[0].texts))} bytes"

        results = [passes(a_good_cluster)]
        return results + [passes(check, good) for good in made for check in checks]


def main(words):
    end_by_signals()
    programs = [word for word in words if word != EVERY_BYTE]
    boothd = os.path.abspath(programs[0]) if programs else built_program()
    results = [passes(the_rule_is_as_by_hand)]
    if not can_audit(boothd):
        why = "boothd is not built" if boothd is None else f"{boothd} has no command audit"
        print(f"audit: no journal is audited, since {why}")
        return NOTHING_CHECKED if all(results) else 1
    results += checked_over_good(boothd, (*OF_GOOD, cut_at_every_byte) if EVERY_BYTE in words else OF_GOOD)
    for check in audit_incidents.CHECKS:
        with in_folder() as folder:
            results.append(passes(check, boothd, folder))
    print(f"audit: {sum(results)} passed, {results.count(False)} failed ({boothd})")
    return 0 if all(results) else 1


if __name__ == "__main__":
    sys.exit(main(sys.argv[1:]))
