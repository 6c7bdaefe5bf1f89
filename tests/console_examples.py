"""The examples for monitors: each metric, label and kind that they name is one that booth-status exports.

It is imported by tests/console.py, and not run by itself. promtool, if it is here, checks the rules and their alerts.
"""

import json
import os
import re
import shutil
import subprocess
from typing import Dict, Iterator, List, Set, Tuple

from checks import need
from console_runs import Logged, served, story
from exporting import HELP
from look_stories import Three, all_of
from service_stories import GONE, LIVE
from status_runs import TOP, metrics_of, require_same, status

EXAMPLES = f"{TOP}/examples"
RULES, DASHBOARD = f"{EXAMPLES}/prometheus-rules.yml", f"{EXAMPLES}/grafana-dashboard.json"
# the labels that Prometheus itself adds, and its own metrics
ADDED_LABELS, OWN_METRICS = {"job", "instance"}, {"up"}
SELECTOR = re.compile(r"\b(booth_[a-z_]+|up)\b(?:\{([^}]*)\})?")
GROUPED = re.compile(r"\b(?:by|on) \(([^)]*)\)")
SECONDS_OF_PROMTOOL = 60


def exported(folder: str) -> Dict[str, Set[str]]:
    """The labels of each metric that booth-status exports, from looks at which everything is there to be exported."""
    three, machine = Three(folder, name="booth"), Logged(folder)
    one, two, third = three.addresses
    machine.put("etc/booth.env", f"ADDRESS={one}\n")
    machine.state("running", kill_at=20, end_at=25)
    samples = set()
    deaf = three.peers(two, third=(None, 0, 9, 0))
    looks = [
        (LIVE, lambda: [three.fake(one), three.fake(two, peers=deaf), three.fake(third)]),
        (GONE, lambda: [three.fake(one), three.fake(two), three.fake(third)]),
        (LIVE, lambda: [three.fake(two, three.held(one, None)), three.fake(third)]),
    ]
    for unit, members in looks:
        machine.unit(unit)
        with machine.here(), all_of(members()), served(three.path) as site:
            site.ask("/healthz")
            samples |= set(metrics_of(site.get("/metrics")))
    found: Dict[str, Set[str]] = {}
    for name, labels in samples:
        found.setdefault(name, set()).update(label for label, _ in labels)
    return found


def expressions() -> Iterator[Tuple[str, str]]:
    """Each expression of the examples, with its place."""
    with open(RULES, encoding="utf-8") as file:
        for number, line in enumerate(file, 1):
            if line.strip().startswith("expr:"):
                yield f"rules, line {number}", line.split(":", 1)[1].strip()
    with open(DASHBOARD, encoding="utf-8") as file:
        for panel in json.load(file)["panels"]:
            for target in panel["targets"]:
                yield f"dashboard, {panel['title']}", target["expr"]


def kinds() -> Set[str]:
    """The kinds of problems that booth-status(8) lists."""
    with open(f"{TOP}/man/booth-status.8", encoding="utf-8") as file:
        text = file.read().partition(".Sh PROBLEMS")[2].partition(".Sh THE CHECK")[0]
    return {kind for item in re.findall(r"^\.It (.*) \([0-2].*$", text, re.M) for kind in re.split(r"[ ,]+", item)}


@story
def names_of_the_examples(folder):
    """each metric, label and kind in the alert rules and in the dashboard is exported by that name"""
    labels, known, used = exported(folder), kinds(), set()
    # (each metric that has a help is exported in one of these looks, so none is named here that never comes)
    require_same(set(HELP) - set(labels), set())
    for place, text in expressions():
        names = set()
        for name, matchers in SELECTOR.findall(text):
            need(name in labels or name in OWN_METRICS, f"{place}: {name} is not exported")
            names |= labels.get(name, set())
            used.add(name)
            for label, value in re.findall(r'(\w+)\s*[=!]=?~?\s*"([^"]*)"', matchers):
                need(label in labels.get(name, set()) | ADDED_LABELS, f"{place}: {name} has no label {label}")
                wrong = set(value.split("|")) - known if label == "kind" else set()
                need(not wrong, f"{place}: booth-status(8) has no kind {wrong}")
        for group in GROUPED.findall(text):
            wrong = {each.strip() for each in group.split(",")} - names - ADDED_LABELS
            need(not wrong, f"{place}: no metric there has the labels {wrong}")
    need(len(used) > 20, f"only {sorted(used)} are used")


@story
def each_alert_names_its_labels(folder):
    """each alert has a severity, a summary and an action, and names only labels that its expression leaves"""
    with open(RULES, encoding="utf-8") as file:
        alerts = re.split(r"^      - alert: ", file.read(), flags=re.M)[1:]
    wanted = {"BoothNoMajority", "BoothTwoOwners", "BoothTicketFree", "BoothServiceDown", "BoothNoFollower"}
    wanted |= {"BoothClocksApart", "BoothDiskFailing", "BoothMemberSilent"}
    names = [each.split("\n")[0] for each in alerts]
    need(wanted <= set(names) and len(names) == len(set(names)), str(names))
    for text in alerts:
        name = text.split("\n")[0]
        need(re.search(r"labels: \{ severity: (critical|warning) \}", text), f"{name} has no severity")
        need("summary: " in text and "action: " in text, f"{name} does not say what to do")
        expression = re.search(r"expr: (.*)", text)[1]
        left = {label.strip() for group in GROUPED.findall(expression) for label in group.split(",")}
        left |= ADDED_LABELS if "up{" in expression else set()
        missing = set(re.findall(r"\$labels\.(\w+)", text)) - left
        need(not missing, f"{name} names {missing}, which its expression has not")


@story
def promtool_accepts_them(folder):
    """promtool accepts the rules and the metrics, and each alert fires on its written series and on no other"""
    program = shutil.which("promtool")
    if program is None:
        return "promtool is not here"
    shutil.copy(RULES, folder)
    shutil.copy(f"{TOP}/tests/console_alerts.yml", folder)
    three = Three(folder)
    with all_of([three.fake(address) for address in three.addresses]):
        text = status("-c", three.path, "-m", "-").printed
    runs: List[Tuple[List[str], str]] = [
        (["check", "rules", "prometheus-rules.yml"], ""),
        (["test", "rules", "console_alerts.yml"], ""),
        (["check", "metrics"], text),
    ]
    for words, given in runs:
        done = subprocess.run(
            [program, *words], cwd=folder, input=given, capture_output=True, text=True, timeout=SECONDS_OF_PROMTOOL,
            check=False,
        )  # fmt: skip
        require_same(done.returncode, 0, f"promtool {' '.join(words)}: {done.stdout}{done.stderr}")
    return None


@story
def commands_of_the_examples(folder):
    """the lines for Nagios and the timer run booth-status with options that it has, and systemd accepts the units"""
    three = Three(folder)
    with open(f"{EXAMPLES}/nagios.cfg", encoding="utf-8") as file:
        nagios = file.read()
    with open(f"{EXAMPLES}/booth-metrics.service", encoding="utf-8") as file:
        unit = file.read()
    form = r"^(?:command\[check_booth\]|ExecStart)=(?:.* )?/usr/sbin/booth-status (.*)$"
    commands = re.findall(form, nagios + unit, re.M)
    require_same(len(commands), 2)
    for command in commands:
        words = re.sub(r"/var/lib/[a-z/-]*/", f"{folder}/", command).split()
        with all_of([three.fake(address) for address in three.addresses]):
            ran = status("-c", three.path, *words)
        require_same((ran.status, ran.said), (0, ""), f"{command}: ")
    need(os.path.exists(f"{folder}/booth.prom") and os.path.exists(f"{folder}/booth.state"), str(os.listdir(folder)))
    # what check_http asks for is what the console answers
    with all_of([three.fake(address) for address in three.addresses]), served(three.path) as site:
        path = re.search(r"check_http .* -u (\S+)", nagios)[1]
        require_same(site.ask(path).status, 200)
    return systemd_accepts(folder, unit)


def systemd_accepts(folder, unit):
    """systemd accepts the units, with a program that is here."""
    if not shutil.which("systemd-analyze"):
        return "systemd-analyze is not here"
    shutil.copy(f"{EXAMPLES}/booth-metrics.timer", folder)
    with open(f"{folder}/booth-metrics.service", "w", encoding="utf-8") as file:
        file.write(unit.replace("/usr/sbin/booth-status", "/bin/true"))
    paths = [f"{folder}/booth-metrics.service", f"{folder}/booth-metrics.timer"]
    done = subprocess.run(
        ["systemd-analyze", "verify", "--man=no", *paths], capture_output=True, text=True, timeout=60, check=False
    )
    told = [line for line in (done.stdout + done.stderr).splitlines() if "booth" in line]
    require_same(told, [])
    return None
