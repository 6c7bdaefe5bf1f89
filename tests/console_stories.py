"""The console of booth-status about arranged members: each path, what it shows, and what it refuses.

It is imported by tests/console.py, and not run by itself.
"""

import base64
import hashlib
import http.client
import os
import socket
import subprocess
import sys
import threading
import time

import console_http
from checks import need
from console_runs import Logged, Page, served, story
from look_stories import Three, all_of, date, well
from serving import own_addresses
from service_stories import LIVE
from status_runs import TOP, document, in_time, metrics_of, refuses, require_same, sample

# 2026-11-27 11:59:48 and 12:14:50 UTC
FIRST, SECOND = 1_795_780_788, 1_795_781_690
SECONDS_OF_A_START = 20


@story
def every_path_answers(folder):
    """each path has its content, its type, and headers that forbid a browser everything but this page's style"""
    three = Three(folder)
    with well(three), served(three.path) as site:
        answers = {path: site.ask(path) for path in ("/", "/metrics", "/status.json", "/healthz")}
        told, missing = document("-c", three.path), site.ask("/favicon.ico")
        samples, page, found = metrics_of(answers["/metrics"].text), Page(answers["/"].text), site.document()
    types = {"/": "text/html", "/metrics": "text/plain; version=0.0.4", "/status.json": "application/json"}
    for path, answer in answers.items():
        require_same(answer.status, 200, f"{path}: ")
        need(answer.headers["content-type"].startswith(types.get(path, "text/plain")), f"{path}: {answer.headers}")
        require_same(answer.headers["content-length"], str(len(answer.text.encode())), f"{path}: ")
        require_same(answer.headers["cache-control"], "no-store", f"{path}: ")
        require_same(answer.headers["x-content-type-options"], "nosniff", f"{path}: ")
    digest = base64.b64encode(hashlib.sha256(page.style.encode()).digest()).decode()
    rules = "base-uri 'none'; form-action 'none'; frame-ancestors 'none'"
    policy = f"default-src 'none'; style-src 'sha256-{digest}'; {rules}"
    require_same(answers["/"].headers["content-security-policy"], policy)
    require_same(answers["/metrics"].headers["content-security-policy"], f"default-src 'none'; {rules}")
    require_same(answers["/healthz"].text, "BOOTH OK: 3 of 3 members answer, 2 of 2 tickets are held\n")
    require_same((missing.status, missing.text), (404, "nothing is here: see / /metrics /status.json /healthz\n"))
    # (the same document as that of -j, but for the moment, and with the events)
    moving = {"time", "seconds", "members", "tickets"}
    same = {key: value for key, value in told.items() if key not in moving}
    require_same({key: value for key, value in found.items() if key in same}, same)
    require_same(set(found) - set(told), {"events", "no_log"})
    require_same(sample(samples, "booth_ticket_holder", ticket="web", member=three.two, holder=three.one), 1)
    require_same(sample(samples, "booth_console_looks_total"), 1)


@story
def what_the_page_shows(folder):
    """the page has each ticket with its lease as a bar and its takeover, each member, and each service"""
    three, machine = Three(folder, name="booth"), Logged(folder)
    one, two, third = three.addresses
    machine.put("etc/booth.env", f"ADDRESS={one}\n")
    machine.unit(LIVE)
    machine.state("running", kill_at=30)
    with machine.here(), well(three, held=three.held(one, two, left=45)), served(three.path) as site:
        page = site.page()
        again = Page(site.get("/?refresh=0"))
    free = date(three.now + 45 + 1)[11:]
    web, by_hand = page.rows("Tickets")
    require_same(web[:3] + web[4:], ["web", "auto", one, date(three.now + 45), "all",
                                     f"if not renewed, after {free}: {two}", "running here"])
    need(web[3] in ("45 s of 60 s", "44 s of 60 s", "43 s of 60 s"), web[3])
    require_same(by_hand, ["db", "manual", two, "no end", "-", "all", "by an operator", "-"])
    # the bar is a hundred wide: the part of the lease that is left, and the renewal that is due at the half of it
    rest, left, line = page.named("rect")[0], page.named("rect")[1], page.named("line")[0]
    require_same((rest["width"], line["x1"], line["x2"]), ("100", "50.0", "50.0"))
    need(100 * 42 / 60 <= float(str(left["width"])) <= 100 * 45 / 60, str(left))
    service, = page.rows("Services of this site")
    require_same(service[:2] + service[3:5], ["web", "● running here", "runs", "0"])
    need(service[2] in ("42 s", "43 s", "44 s") and service[5] in ("30 s", "29 s", "28 s"), str(service))
    members = page.rows("Members")
    require_same([row[0] for row in members], [f"1 site {one}", f"2 site {two}", f"3 arbitrator {third}"])
    require_same([row[3] for row in members][0], "-")
    need(all(cell.endswith(" s") for cell in (members[0][4], members[1][3], members[2][3])), str(members))
    need(f"cluster booth, at the site {one}" in page.words, page.words)
    need("● none" in page.words and "3 of 3 members answer, 2 of 2 tickets are held" in page.words, page.words)
    # nothing is loaded from anywhere, nothing runs, and it loads itself again if one wants that
    require_same([name for name in ("script", "link", "img", "iframe", "form", "object") if page.named(name)], [])
    links = {attributes["href"] for attributes in page.named("a")}
    require_same(links, {"/?refresh=0", "/metrics", "/status.json", "/healthz"})
    loads = lambda page: [each.get("content") for each in page.named("meta") if each.get("http-equiv") == "refresh"]
    require_same((loads(page), loads(again)), (["5"], []))
    names = {each for _, attributes in page.elements for each in attributes}
    require_same([each for each in names if each.startswith(("on", "style", "src"))], [])


@story
def what_is_wrong_is_shown(folder):
    """problems come first with a word beside their colour, and the health is 503 if one is critical"""
    three, machine = Three(folder, name="booth"), Logged(folder)
    one, two, third = three.addresses
    machine.put("etc/booth.env", f"ADDRESS={one}\n")
    machine.unit(LIVE)
    machine.state("ended")
    deaf = three.peers(two, third=(None, 0, 9, 0))
    members = [three.fake(one), three.fake(two, peers=deaf), three.fake(third)]
    with machine.here(), all_of(members), served(three.path) as site:
        page, health = site.page(), site.ask("/healthz")
    found = page.rows("Problems")
    require_same([row[:2] for row in found], [["✖ critical", "service-down"], ["▲ warning", "one-way"]])
    need(found[0][2].startswith("web: this site holds it, but its service ended by itself"), found[0][2])
    require_same(page.rows("Tickets")[0][-1], "ended")
    require_same(page.rows("Services of this site")[0][1], "✖ ended")
    # the second member never heard from the third one
    require_same([row[4] for row in page.rows("Members")][2], "✖ never")
    require_same(health.status, 503)
    need(health.text.startswith("BOOTH CRITICAL: web: this site holds it"), health.text)
    with all_of([three.fake(one, three.held(None, None)), three.fake(two, three.held(None, None))]):
        with served(three.path) as site:
            page, health = site.page(), site.ask("/healthz")
    require_same([row[1] for row in page.rows("Problems")], ["no-daemon", "free"])
    require_same((page.rows("Tickets")[0][2], health.status), ("▲ nobody", 200))
    answers = {row[0]: row[1] for row in page.rows("Members")}
    require_same(answers[f"3 arbitrator {third}"], "▲ no daemon")


@story
def only_reading_is_allowed(folder):
    """GET and HEAD alone are answered, and at a loopback address no request that names another host"""
    three = Three(folder)
    with well(three), served(three.path) as site:
        got, head = site.ask("/healthz"), site.ask("/healthz", "HEAD")
        require_same((head.status, head.text), (200, ""))
        require_same(head.headers["content-length"], str(len(got.text)))
        for method in ("POST", "PUT", "DELETE", "PATCH", "OPTIONS", "TRACE", "CONNECT", "BREW"):
            refused = site.ask("/", method)
            require_same((refused.status, refused.headers.get("allow")), (405, "GET, HEAD"), f"{method}: ")
        hosts = {"evil.example": 403, "evil.example:9930": 403, "127.0.0.1.evil.example": 403, "": 403}
        hosts.update({"localhost": 200, "localhost:8080": 200, "127.0.0.1:1": 200, "[::1]:9930": 200, "192.0.2.1": 200})
        for host, status in hosts.items():
            require_same(site.ask("/healthz", Host=host).status, status, f"Host {host!r}: ")
        codes = metrics_of(site.get("/metrics"))
    require_same(sample(codes, "booth_console_requests_total", code="405"), 8)
    require_same(sample(codes, "booth_console_requests_total", code="403"), 4)


@story
def a_crowd_makes_one_look(folder):
    """forty requests at once ask each member as often as one does"""
    three = Three(folder)
    members = [three.fake(address) for address in three.addresses]
    with all_of(members), served(three.path, watch=30.0) as site:
        site.get("/healthz")
        asked = [member.asked for member in members]
        answers = []

        def asks():
            try:
                answers.append(site.ask("/metrics").status)
            except (OSError, http.client.HTTPException):
                # (the refusal may be lost with the connection)
                answers.append(503)

        threads = [threading.Thread(target=asks) for _ in range(40)]
        for thread in threads:
            thread.start()
        for thread in threads:
            thread.join()
        require_same([member.asked for member in members], asked)
    # (some may have been refused at once, since only a limited number is served at the same time)
    need(set(answers) <= {200, 503} and answers.count(200) >= console_http.MOST_REQUESTS, str(answers))


def raw(site, data, seconds=5.0, pause=0.0):
    """What the console sends to a client that sends these bytes, one after the other if there is a pause."""
    with socket.create_connection(site.place, timeout=seconds) as link:
        try:
            for piece in [data[at : at + 1] for at in range(len(data))] if pause else [data]:
                link.sendall(piece)
                time.sleep(pause)
            came = b""
            while more := link.recv(65_536):
                came += more
            return came
        except (ConnectionError, socket.timeout) as why:
            return type(why).__name__.encode()


@story
def no_client_holds_it_up(folder):
    """a slow client, a silent one, a large head and too many connections are ended, while others are served"""
    three = Three(folder)
    kept = console_http.SECONDS_TO_ASK
    console_http.SECONDS_TO_ASK = 0.6
    try:
        with well(three), served(three.path, watch=30.0) as site:
            site.get("/healthz")
            began = time.monotonic()
            drop = raw(site, b"GET /healthz HTTP/1.1\r\nHost: localhost\r\nX: " + b"y" * 100, pause=0.05)
            need(time.monotonic() - began < 5, "a slow client is not ended")
            need(b" 408 " in drop or b"Error" in drop, str(drop))
            need(raw(site, b"").startswith(b"") and time.monotonic() - began < 6, "a silent client is not ended")
            large = raw(site, b"GET / HTTP/1.1\r\n" + b"X: " + b"y" * 9000 + b"\r\n\r\n")
            need(b" 431 " in large.split(b"\n")[0] or b"Error" in large, str(large[:80]))
            need(b" 400 " in raw(site, b"GET / nonsense more\r\n\r\n").split(b"\n")[0], "nonsense")
            idle = [socket.create_connection(site.place) for _ in range(console_http.MOST_REQUESTS + 4)]
            in_time(lambda: need(b"too many requests" in raw(site, b""), "one too many is served"))
            for each in idle:
                each.close()
            in_time(lambda: site.get("/healthz"))
    finally:
        console_http.SECONDS_TO_ASK = kept


@story
def the_log_of_the_daemon(folder):
    """the page has the daemon's last events with their times, and says what the daemon cannot write to its disk"""
    three, machine = Three(folder, name="booth"), Logged(folder)
    gains = "ticket web: gains the lease of term 4 until 2026-11-27 12:09:48 UTC"
    machine.log(FIRST, f"boothd: {gains}")
    machine.log(FIRST + 1, "a message of a handler", SYSLOG_IDENTIFIER="handler")
    machine.log(FIRST - 9, "clock-wait: booth@booth: waits until chrony has set the clock, up to 180 s")
    machine.log(SECOND, "Stopped booth@booth.service.", SYSLOG_IDENTIFIER="systemd")
    with machine.here(), well(three), served(three.path) as site:
        rows = site.page().rows("Last events")
        require_same(rows, [["2026-11-27 12:14:50", "log here", "Stopped booth@booth.service."],
                            ["2026-11-27 11:59:48", "log here", gains],
                            ["2026-11-27 11:59:39", "log here",
                             "booth@booth: waits until chrony has set the clock, up to 180 s"]])
        require_same(sample(metrics_of(site.get("/metrics")), "booth_records_unwritten"), 0)
        machine.log(SECOND + 60, "boothd: cannot keep the record of ticket web: No space left on device (os error 28)")
        site.looks_anew()
        told = site.document()
        (problem,) = told["problems"]
        require_same((problem["kind"], problem["severity"], problem["ticket"]), ("unwritten", "warning", "web"))
        text = "web: the daemon here cannot write its record: No space left on device (os error 28): df, df -i, dmesg"
        require_same(problem["text"], text)
        require_same(sample(metrics_of(site.get("/metrics")), "booth_records_unwritten"), 1)
        require_same((told["events"][0]["time"], told["events"][0]["source"]), (SECOND + 60, "log"))
        machine.log(SECOND + 90, "boothd: the record of ticket web is kept again")
        site.looks_anew()
        require_same(site.document()["problems"], [])
        machine.log(SECOND + 91, "boothd: cannot write the time that the clock has reached: Read-only file system (os error 30)")
        full = "/var/lib/booth/booth: its file system takes no writes, so this member votes for nobody"
        machine.log(SECOND + 92, f"boothd: {full}")
        site.looks_anew()
        require_same(sample(metrics_of(site.get("/metrics")), "booth_records_unwritten"), 2)
        begins = f"begins: version 0.2.0, address {three.one}, port 9929, records /r, configuration /c"
        machine.log(SECOND + 99, f"boothd: {begins}")
        site.looks_anew()
        require_same(sample(metrics_of(site.get("/metrics")), "booth_records_unwritten"), 0)
        with open(f"{folder}/log.asked", encoding="utf-8") as file:
            asked = file.read().splitlines()
    need("--unit=booth@booth.service" in asked[0] and "--after-cursor" not in asked[0], asked[0])
    need("--after-cursor=8" in asked[-1] or "--after-cursor=7" in asked[-1], asked[-1])


@story
def a_log_that_cannot_be_read(folder):
    """if the log cannot be read, or journalctl hangs, the page says so and has all the rest"""
    three, machine = Three(folder, name="booth"), Logged(folder)
    with machine.here(), well(three), served(three.path) as site:
        machine.put("log.fails")
        why = "journalctl ended with status 1: No journal files were opened due to insufficient permissions."
        need(f"The log of the daemon here is not shown: {why}" in site.page().words, site.page().words)
        require_same(site.document()["no_log"], why)
        require_same(sample(metrics_of(site.get("/metrics")), "booth_records_unwritten"), None)
        machine.drop("log.fails")
        machine.put("log.hangs")
        site.looks_anew()
        began = time.monotonic()
        need("journalctl ended with status -9" in site.page().words, site.page().words)
        need(time.monotonic() - began < 10, "it waited too long")


@story
def what_changes_between_looks(folder):
    """the page notes members that fall silent and come back, and tickets that get another holder"""
    three = Three(folder)
    one, two, third = three.addresses
    with served(three.path, timeout=0.4) as site:
        with well(three):
            require_same([row[2] for row in site.page().rows("Last events")], [])
        with all_of([three.fake(one, three.held(two, two)), three.fake(two, three.held(two, two))]):
            site.looks_anew()
            found = {row[2] for row in site.page().rows("Last events")}
            require_same(found, {f"member {third}: no daemon", f"ticket web: held by {two}"})
        with well(three, held=three.held(None, two)):
            site.looks_anew()
            found = {row[2] for row in site.page().rows("Last events")}
            more = {f"member {third}: answers", "ticket web: nobody holds it"}
            need(more < found, str(found))
            # (it was held when the page looked before)
            free = [each["severity"] for each in site.document()["problems"] if each["kind"] == "free"]
            require_same(free, ["critical"])


@story
def counters_of_a_minute(folder):
    """counters that rose in the last minute are shown at each look, and holders are kept in the state file"""
    three, state = Three(folder), os.path.join(folder, "state")
    with served(three.path, state=state) as site:
        with well(three):
            site.get("/healthz")
        dropping = three.fake(three.one, peers=three.peers(three.one, "dropped 0 0 3 0 0 0 0 0"))
        with all_of([dropping, three.fake(three.two), three.fake(three.third)]):
            for _ in range(3):
                site.looks_anew()
                require_same([each["kind"] for each in site.document()["problems"]], ["dropped"])
    with well(three, held=three.held(None, three.two)), served(three.path, state=state) as site:
        need("free" in {each["kind"] for each in site.document()["problems"]}, "the holder is forgotten")
        require_same(site.document()["status"], 2)
    # (a full disk does not end it)
    nowhere = f"{folder}/none/state"
    with well(three), served(three.path, state=nowhere) as site:
        (problem,) = site.document()["problems"]
        require_same((problem["kind"], problem["severity"]), ("unsaved", "warning"))
        require_same(problem["text"], f"cannot write {nowhere}: No such file or directory")


@story
def a_file_that_is_changed(folder):
    """a configuration that is changed counts at the next look; while it cannot be read, each path says why"""
    three = Three(folder)
    with well(three), served(three.path) as site:
        site.get("/healthz")
        os.rename(three.path, f"{three.path}.old")
        site.looks_anew()
        why = f"cannot read {three.path}: No such file or directory"
        for path in ("/", "/metrics", "/status.json", "/healthz"):
            answer = site.ask(path)
            need(answer.status == 503 and why in answer.text, f"{path}: {answer.text}")
        os.rename(f"{three.path}.old", three.path)
        site.looks_anew()
        site.get("/healthz")


@story
def the_program_serves_and_ends(folder):
    """booth-status --serve prints its address, serves, and ends with status 0 at SIGTERM"""
    three, state, address = Three(folder), os.path.join(folder, "state"), next(own_addresses())
    words = [sys.executable, "-IS", f"{TOP}/packaging/booth-status", "-c", three.path, "-s", state]
    streams = {"stdin": subprocess.DEVNULL, "stdout": subprocess.PIPE, "stderr": subprocess.PIPE, "text": True}
    with well(three), subprocess.Popen([*words, "--serve", f"{address}:9930"], **streams) as process:
        try:
            line = process.stdout.readline()
            require_same(line, f"booth-status: serves http://{address}:9930/ about {three.path}\n")
            in_time(lambda: need(os.path.exists(state), "it has not looked yet"))
            # another one finds the port in use
            again = [*words, "--serve", f"{address}:9930"]
            done = subprocess.run(again, timeout=SECONDS_OF_A_START, check=False, **streams)
            why = f"booth-status: cannot listen at {address} port 9930: Address already in use\n"
            require_same((done.returncode, done.stderr), (3, why))
            process.terminate()
            said = process.communicate(timeout=SECONDS_OF_A_START)
        finally:
            process.kill()
    require_same((process.returncode, said), (0, ("", "")))
    refused = "argument --serve: {!r} is not ADDRESS:PORT or [ADDRESS]:PORT"
    for text in ("9930", "localhost:9930", "127.0.0.1", "127.0.0.1:0", "127.0.0.1:65536", "::1:9930", "127.0.0.1:http"):
        refuses("booth-status", ["--serve", text], refused.format(text), 3)
    refuses("booth-status", ["--serve", "[::1]:9930", "-j"],
            "--serve allows only --conf, --timeout, --watch, --state and --may-be-free", 3)
    both = ["--serve", "127.0.0.1:1", "--check", "x"]
    refuses("booth-status", both, "--serve, --doctor and --check exclude each other", 3)
    elsewhere = "cannot listen at 192.0.2.1 port 9930: Cannot assign requested address"
    refuses("booth-status", ["-c", three.path, "--serve", "192.0.2.1:9930"], elsewhere, 3)
