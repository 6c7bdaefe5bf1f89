"""The console of booth-status with texts of members, files and logs that hold markup, quotes and line ends.

It is imported by tests/console.py, and not run by itself.
"""

import json
import os

from checks import need
from console_runs import Logged, served, story
from look_stories import PORT, Three, all_of
from service_stories import LIVE
from status_runs import metrics_of, require_same

MARKUP = '<script>alert(1)</script><img/src="x"onerror=alert(2)>&lt;"\'`'
LINES = 'x"} 1\nbooth_status 0\n# HELP'
# a name of a ticket as boothd accepts it: printable, without a blank
NAME = "<svg/onload=alert(1)>'{}&amp;"


def is_harmless(page) -> None:
    """The page has only the elements of a page of the console, and no attribute that runs something."""
    allowed = set("html head meta title style body main header h1 h2 small p a span section div footer".split())
    allowed |= set("table thead tbody tr th td svg rect line".split())
    found = {name for name, _ in page.elements}
    need(found <= allowed, f"elements: {sorted(found - allowed)}")
    known = {"lang", "charset", "name", "content", "http-equiv", "class", "href", "scope", "data-label", "aria-hidden"}
    known |= {"viewbox", "preserveaspectratio", "width", "height", "x1", "x2", "y1", "y2"}
    names = {key for _, attributes in page.elements for key in attributes}
    need(names <= known, f"attributes: {sorted(names - known)}")
    links = {each["href"] for each in page.named("a")}
    need(links <= {"/", "/?refresh=0", "/metrics", "/status.json", "/healthz"}, str(links))


@story
def a_hostile_member(folder):
    """a member whose list and answers hold markup and line ends puts neither on the page nor a line into the metrics"""
    three = Three(folder)
    one, two, third = three.addresses
    listed = [f"web {one} {three.now + 50}", f"{NAME} none 0", "db none 0"]
    wrong = ["web <script>alert(1)</script> 7", "\x1b[31mweb\tnone\r 0", f'"}} 1\\nbooth_status{{}} 0 {MARKUP}']
    cases = [
        {"held": listed},
        {"held": wrong},
        {"held": [each.replace(" ", "\x00") for each in wrong]},
        {"peers": ["dropped 0 0 0 0 0 0 0 0", f"site {MARKUP} 0 0 0 0"]},
        {"peers": ["dropped <b>1</b> 0 0 0 0 0 0 0"]},
        # (if a sample occurs twice in a text, Prometheus refuses the whole text)
        {"held": [f"web {one} {three.now + 50}", f"web {one} {three.now + 51}", "db none 0"]},
        {"peers": ["dropped 0 0 0 0 0 0 0 0", *[f"site {one} {three.now} 1 2 3"] * 3]},
    ]
    before = None
    for case in cases:
        with all_of([three.fake(one), three.fake(two, **case), three.fake(third)]), served(three.path) as site:
            page, text, told = site.page(), site.get("/metrics"), site.document()
        is_harmless(page)
        need("alert(1)" not in text and MARKUP not in text, text)
        names = {name for name, _ in metrics_of(text)}
        before = before or names
        need(names <= before | {"booth_ticket_problem"}, str(names - before))
        kinds = {each["kind"] for each in told["problems"]}
        need(kinds & {"bad", "partly", "other-file"}, str(kinds))
    # (the page shows the member's answer as a text)
    with all_of([three.fake(one), three.fake(two, held=listed), three.fake(third)]), served(three.path) as site:
        need(NAME in site.page().words, site.page().words)


@story
def hostile_names_and_logs(folder):
    """names of tickets, states of services and lines of the log are texts on the page and values in the metrics"""
    machine, three = Logged(folder), Three(folder)
    path = os.path.join(folder, "booth.conf")
    name = NAME.replace("'", "")
    with open(path, "w", encoding="ascii") as file:
        file.write(f"port = {PORT}\nsite = {three.one}\nsite = {three.two}\narbitrator = {three.third}\n")
        file.write(f"ticket = '{name}'\nexpire = 60\nticket = 'a\"}} 1\\n'\nmode = manual\n")
    machine.put("etc/booth.env", f"ADDRESS={three.one}\n")
    machine.unit(LIVE, name)
    for ticket, service in ((name, MARKUP), ('a"} 1\\n', "running")):
        if "/" not in ticket:
            machine.put(f"run/{ticket}.state", f"service={service}\nsince=1\n")
    for text in (f"boothd: {MARKUP}", f"boothd: {LINES}", list(f"boothd: {MARKUP}\x1b\n".encode()), None, 7, {"a": 1}):
        machine.log(three.now, text)
    with open(f"{folder}/log", "a", encoding="utf-8") as file:
        file.write('no json\n[1]\n\n{"MESSAGE": "boothd: x"}\n')
    held = [f"{name} {three.one} {three.now + 50}", f'a"}}_1\\n {three.two} 0']
    with machine.here(), all_of([three.fake(each, held) for each in three.addresses]), served(path) as site:
        page, text = site.page(), site.get("/metrics")
        told = json.loads(site.get("/status.json"))
    is_harmless(page)
    need(name in page.words and MARKUP in page.words and 'x"} 1\\nbooth_status 0' in page.words, page.words)
    samples = metrics_of(text)
    require_same([each for each in samples if each[0] == "booth_status"], [("booth_status", frozenset())])
    need(any(("ticket", name) in labels for _, labels in samples), "the name is no label")
    require_same(told["tickets"][0]["name"], name)
