"""The output of booth-status about network paths, clocks, counters and times, of members with arranged answers.

It is imported by tests/status.py, and not run by itself.
"""

import json
import os
import re
import signal
import subprocess
import sys
import threading

from checks import need
from look_stories import KEY, Three, all_of, date, well
from records import slot
from status_runs import (
    TOP,
    document,
    first_text,
    notice,
    refuses,
    require_problems,
    require_same,
    status,
    story,
    warning,
)


@story
def ways_that_carry_nothing(folder):
    """a link that works in one direction only is reported, by what both members count of each other"""
    three = Three(folder)
    one, two, third = three.addresses

    def looked(of_two, of_third, of_one=(2, 7, 8, 0), heard=(2, 7, 8, 0)):
        peers = [three.peers(one, third=of_one), three.peers(two, third=of_two)]
        peers.append(three.peers(third, two=of_third, one=heard))
        with all_of([three.fake(each, None, lines) for each, lines in zip(three.addresses, peers)]):
            return document("-c", three.path)

    # (last heard, received, sent, errors)
    told = looked((None, 0, 2, 0), (7000, 1, 3, 0))
    require_problems(told, warning("one-way", two, third))
    deaf = f"{two}: receives nothing from {third} (since it started), which heard from it 116 min ago"
    require_same(first_text(told), deaf)
    require_problems(looked((None, 0, 2, 0), (None, 0, 2, 0)), warning("no-way", two, third))
    # members that hold nothing may be silent for days
    require_problems(looked((90_000, 5, 6, 0), (90_000, 5, 6, 0)))
    # (within a lease of 60 s a holder is heard, and so is each member that answers it)
    told = looked((2, 7, 8, 0), (2, 7, 8, 0), of_one=(90, 5, 6, 0))
    require_problems(told, warning("one-way", one, third))
    text = first_text(told)
    deaf = f"{one}: receives nothing from {third} \\(for 9\\d s\\), which heard from it \\d s ago"
    need(re.fullmatch(deaf, text), text)
    told = looked((2, 7, 8, 0), (2, 7, 8, 0), of_one=(90, 5, 6, 0), heard=(80, 5, 6, 0))
    require_problems(told, warning("no-way", one, third))
    require_problems(looked((2, 7, 8, 0), (2, 7, 8, 0), of_one=(40, 5, 6, 0), heard=(40, 5, 6, 0)))


@story
def counters_that_rose(folder):
    """with a state it reports risen counters, restarted members, and links that lost messages since the last look"""
    three = Three(folder)
    one, two, third = three.addresses
    state = os.path.join(folder, "state")

    def looked(peers_of_two, peers_of_third=None):
        peers = (None, peers_of_two, peers_of_third)
        with all_of([three.fake(each, None, lines) for each, lines in zip(three.addresses, peers)]):
            return document("-c", three.path, "-s", state)

    told = looked(three.peers(two, dropped="dropped 9 0 4 0 0 0 0 0"))
    require_problems(told)
    require_same([told["members"][1][name] for name in ("dropped_more", "started_anew")], [None, None])
    of_two = three.peers(two, "dropped 9 0 6 0 0 0 0 1", third=(2, 9, 12, 5))
    told = looked(of_two, three.peers(third, two=(2, 11, 10, 0)))
    require_problems(told, warning("dropped", two), warning("send-errors", two, third))
    texts = [f"{two}: dropped datagrams since the last look: badmac 2, leader 1"]
    texts.append(f"{two}: could not send 5 datagrams to {third} since the last look")
    require_same([each["text"] for each in told["problems"]], texts)
    member = told["members"][1]
    require_same((member["dropped_more"]["badmac"], member["started_anew"]), (2, False))
    require_same(member["peers"][1]["more"], {"received": 2, "sent": 4, "errors": 5})
    # counters that stand still count as well again; of three or more messages of the third member none arrived
    dropped, third_lines = "dropped 9 0 6 0 0 0 0 1", three.peers(third, two=(2, 11, 10, 0))
    require_problems(looked(of_two, third_lines))
    told = looked(three.peers(two, dropped, third=(2, 10, 15, 5)), third_lines)
    require_problems(told, warning("one-way", third, two))
    need("(3 messages since the last look)" in told["summary"], told["summary"])
    # (counters fell, so the daemon was restarted: they count from 0)
    of_two = three.peers(two, "dropped 0 0 1 0 0 0 0 0", one=(2, 1, 1, 0), third=(2, 1, 1, 0))
    told = looked(of_two, three.peers(third, two=(2, 12, 11, 0)))
    require_problems(told, warning("dropped", two), notice("restarted", two))
    need(f"{two}: dropped datagrams since the last look: badmac 1" in told["summary"], told["summary"])
    text = next(each["text"] for each in told["problems"] if each["kind"] == "restarted")
    form = f"{two}: restarted since the last look; without records of version 2 it votes in no election until"
    found = re.fullmatch(f"{form} (.*)", text)
    # (a promise lasts expire, acquire-after and a guard; db has no times of its own: 600 s and 1.203 s)
    ends = [date(told["time"] + 601.203 + more) for more in (-1, 0, 1)]
    need(found and found[1] in ends, f"{text}, and not until {ends[1]}")


@story
def a_state_is_its_own(folder):
    """a state of another configuration, and a file that is not a state, are refused and not overwritten"""
    three, other = Three(folder), Three(folder)
    state = os.path.join(folder, "own-state")
    with well(three):
        need(status("-b", "-c", three.path, "-s", state).status == 0, "a first look")
    words = ["-b", "-c", other.path, "-s", state]
    why = f"{state}: is the state of {three.path}: use another file for this configuration"
    refuses("booth-status", words, why, 3)
    with open(state, encoding="ascii") as file:
        another = file.read().replace("booth-status state 1", "booth-status state 2")
    for text in ("", "no state\n", '{"form": 1}', "[]", json.dumps({"form": "booth-status state 1"}), another):
        with open(state, "w", encoding="ascii") as file:
            file.write(text)
        why = f"{state}: is not a state of booth-status: name another file, or remove it"
        refuses("booth-status", ["-c", three.path, "-s", state], why, 3)
        with open(state, encoding="ascii") as file:
            need(file.read() == text, "it was written over")
    nowhere = os.path.join(folder, "none", "state")
    why = f"cannot write {nowhere}: No such file or directory"
    with well(three):
        refuses("booth-status", ["-c", three.path, "-s", nowhere], why, 3)


@story
def clocks_with_a_key(folder):
    """with a key, clocks that differ by more than maxtimeskew are reported; without a key they are not"""
    path = os.path.join(folder, "key")
    with open(path, "wb") as file:
        file.write(KEY + b"\n")
    for authfile, key in ((f"authfile = {path}\n", KEY), ("", None)):
        three = Three(folder, authfile=authfile, skew=20)
        one, two, third = three.addresses
        fakes = [three.fake(each, key=key, ahead=ahead) for each, ahead in ((one, 0), (two, 15), (third, -15))]
        with all_of(fakes):
            told = document("-c", three.path)
        texts = [each["text"] for each in told["problems"] if each["kind"] == "clock"]
        require_same(len(texts), 1 if key else 0)
        form = f"{third}: its clock is (29|30|31) s behind the clock of {two}, more than maxtimeskew"
        need(all(re.fullmatch(form, text) for text in texts), f"{texts}")


@story
def what_is_so_for_a_moment(folder):
    """a problem that a second look does not find, for example while a ticket moves, is not reported"""
    three = Three(folder)
    one, two, third = three.addresses
    # (the second look finds that all is well, or finds another problem, which the first look did not have)
    for later in (three.held(one, two), three.held(one, None)):
        moving = three.fake(two, three.held(None, two))

        def move(answer, later=later, moving=moving):
            moving.texts["CLst"] = later
            return [answer]

        moving.meddle = move
        with all_of([three.fake(one), moving, three.fake(third)]):
            told = document("-c", three.path)
        require_problems(told)
        need(moving.asked == 4, f"it was asked {moving.asked} times")


@story
def a_watch_looks_again(folder):
    """a watch looks again and again, reports counters that rose, and ends with the status of its last look"""
    three = Three(folder)
    one, two, third = three.addresses
    restless = three.fake(two)

    def rise(answer):
        restless.texts["Peer"] = three.peers(two, dropped=f"dropped 0 0 {restless.asked} 0 0 0 0 0")
        return [answer]

    restless.meddle = rise
    command = [sys.executable, "-IS", f"{TOP}/packaging/booth-status", "-c", three.path, "-j", "-w", "0.05"]
    with all_of([three.fake(one), restless, three.fake(third)]):
        streams = {"stdout": subprocess.PIPE, "stderr": subprocess.PIPE, "universal_newlines": True}
        with subprocess.Popen(command, **streams) as process:
            bound = threading.Timer(60, process.kill)
            bound.start()
            looks = [json.loads(process.stdout.readline()) for _ in range(3)]
            process.send_signal(signal.SIGINT)
            said = process.communicate()[1]
            bound.cancel()
    require_problems(looks[0])
    require_problems(looks[1], warning("dropped", two))
    need(process.returncode in (1, 3) and not said, f"status {process.returncode}, {said}")


@story
def words_that_are_not_taken(folder):
    """invalid arguments, files and keys are refused with status 3, and each refusal names its cause"""
    three = Three(folder)
    bad, none = os.path.join(folder, "bad.conf"), os.path.join(folder, "none.conf")
    with open(bad, "w", encoding="ascii") as file:
        file.write("site = 192.0.2.1\nticket = web\nexpire = soon\n")
    keyless = Three(folder, authfile=f"authfile = {folder}/no-key\n")
    short_key = os.path.join(folder, "short")
    with open(short_key, "wb") as file:
        file.write(b"seven77\n")
    short = Three(folder, authfile=f"authfile = {short_key}\n")
    nan = "'nan' is not a number above 0 and up to 86400"
    no_prom = "'booth.txt' does not end with .prom, but the node exporter reads only such files"
    nowhere = f"{folder}/none/x.prom"
    cases = [
        (["-x"], "unrecognized arguments: -x"),
        (["-c"], "argument -c/--conf: expected one argument"),
        (["-t", "0"], f"argument -t/--timeout: {nan.replace('nan', '0')}"),
        (["-t", "nan"], f"argument -t/--timeout: {nan}"),
        (["-w", "soon"], f"argument -w/--watch: {nan.replace('nan', 'soon')}"),
        (["-b", "-j"], "--brief and --json exclude each other"),
        (["-m", "booth.txt"], f"argument -m/--metrics: {no_prom}"),
        (["--members"], "--members needs --check or --doctor"),
        (["--sync", "5"], "--sync needs --check"),
        (["--check", "x", "-w"], "--check allows only --members, --sync, --timeout, --brief and --json"),
        (["-c", none], f"cannot read {none}: No such file or directory"),
        (["-c", folder], f"cannot read {folder}: Is a directory"),
        (["-c", "no-such-name"], "cannot read /etc/booth/no-such-name.conf: No such file or directory"),
        (["-c", bad], f"{bad}: line 3: bad value for expire"),
        (["-c", three.path, "-f", "mail"], f"{three.path} has no ticket mail"),
        (["-c", keyless.path], f"cannot read {folder}/no-key: No such file or directory"),
        (["-c", short.path], f"{short_key}: a key of 7 bytes, and not of 8 to 64"),
        (["-c", three.path, "-m", nowhere, "-t", "0.2"], f"cannot write {nowhere}: No such file or directory"),
    ]
    for words, text in cases:
        refuses("booth-status", words, text, 3)


@story
def what_cannot_be_printed(folder):
    """if printing fails, or standard output is closed, only standard error has a line, and the status shows it"""
    three = Three(folder)
    record = os.path.join(folder, "61.rec")
    with open(record, "wb") as file:
        file.write(slot(1, 1, 7))
    look, said = ["booth-status", "-c", three.path], "cannot continue: No space left on device\n"
    cases = [
        (look, ">/dev/full", 3, f"booth-status: {said}"),
        (["booth-record", record], ">/dev/full", 2, f"booth-record: {said}"),
        (["booth-status", "--help"], ">/dev/full", 3, f"booth-status: {said}"),
        (look, ">&-", 0, ""),
        (["booth-record", record], ">&- <&-", 0, ""),
        (look, "| :", 0, ""),
    ]
    with well(three):
        for words, where, result, text in cases:
            command = " ".join([sys.executable, "-IS", f"{TOP}/packaging/{words[0]}", *words[1:]])
            shell = ["bash", "-c", f"{command} {where}; exit ${{PIPESTATUS[0]}}"]
            done = subprocess.run(shell, stdout=subprocess.PIPE, stderr=subprocess.PIPE, timeout=60, check=False)
            # (a program may notice or not that its reader is gone)
            found = done.returncode if where != "| :" or done.returncode not in (0, 3) else 0
            require_same((found, done.stderr.decode()), (result, text), f"{words[0]} {where}: ")
