"""Serves the console of booth-status for the tests, asks it by HTTP, and reads its page.

It is imported by tests/console.py and its stories, and not run by itself.
"""

import argparse
import contextlib
import http.client
import json
import os
import threading
from html.parser import HTMLParser
from typing import Any, Dict, Iterator, List, NamedTuple, Optional, Tuple

import console_serving
import console_http
from checks import need
from service_stories import Machine
from status_runs import require_same

stories = []
# what an answer may take, in seconds, on a busy machine
SECONDS_OF_AN_ANSWER = 20
# elements without an end
VOID = {"meta", "rect", "line"}
# what stands for journalctl: it prints the lines of a file, all of them or those behind the cursor, which is a number
JOURNALCTL = """#!/bin/sh
[ ! -e {folder}/log.hangs ] || exec sleep 100
[ ! -e {folder}/log.fails ] || {{ echo 'No journal files were opened due to insufficient permissions.' >&2; exit 1; }}
echo "$*" >>{folder}/log.asked
cursor=0
for word; do case $word in --after-cursor=*) cursor=${{word#*=}} ;; esac; done
tail -n "+$((cursor + 1))" {folder}/log
"""


def story(function):
    """Adds a function to the list of stories. Its docstring is the sentence that it checks."""
    stories.append(function)
    return function


class Answer(NamedTuple):
    """An answer by HTTP. The names of `headers` are in small letters."""

    status: int
    headers: Dict[str, str]
    text: str


class Served:
    """The console of a configuration in this process, at a port that the system chose."""

    def __init__(self, looks: console_serving.Looks, server: console_http.Server) -> None:
        self.looks, self.server = looks, server
        self.place = (str(server.server_address[0]), int(server.server_address[1]))

    def ask(self, path: str, method: str = "GET", **headers: str) -> Answer:
        """Returns the answer to a request."""
        link = http.client.HTTPConnection(*self.place, timeout=SECONDS_OF_AN_ANSWER)
        try:
            link.request(method, path, headers={key.replace("_", "-"): value for key, value in headers.items()})
            came = link.getresponse()
            return Answer(came.status, {k.lower(): v for k, v in came.getheaders()}, came.read().decode())
        finally:
            link.close()

    def get(self, path: str) -> str:
        """Returns the text at a path, which has the status 200."""
        answer = self.ask(path)
        require_same(answer.status, 200, f"{path}: {answer.text}: status ")
        return answer.text

    def document(self) -> Dict[str, Any]:
        """Returns what /status.json has."""
        return json.loads(self.get("/status.json"))

    def page(self) -> "Page":
        """Returns the page."""
        return Page(self.get("/"))

    def looks_anew(self) -> None:
        """Has the next request make a look."""
        if self.looks.last:
            self.looks.last = self.looks.last._replace(at=float("-inf"))


@contextlib.contextmanager
def served(path: str, **more: Any) -> Iterator[Served]:
    """The console serves in this block. `more` are options of booth-status."""
    options = {"conf": path, "timeout": 1.0, "watch": None, "state": None, "may_be_free": [], **more}
    looks = console_serving.Looks(argparse.Namespace(**options))
    with console_http.Server(("127.0.0.1", 0), console_serving.Console(looks)) as server:
        thread = threading.Thread(target=server.serve_forever, kwargs={"poll_interval": 0.02})
        thread.start()
        try:
            yield Served(looks, server)
        finally:
            server.shutdown()
            thread.join()


class Page(HTMLParser):
    """A page as a browser reads it: its elements, the text of each cell, and its rules for the browser."""

    def __init__(self, text: str) -> None:
        super().__init__()
        self.text = text
        self.elements: List[Tuple[str, Dict[str, Optional[str]]]] = []
        self.open: List[str] = []
        # the words of each table, row by row, after its heading
        self.tables: Dict[str, List[List[str]]] = {}
        self.heading, self.words, self.style = "", "", ""
        self.feed(text)
        self.close()
        need(not self.open, f"the page does not close {self.open}")

    def handle_starttag(self, tag: str, attrs: List[Tuple[str, Optional[str]]]) -> None:
        self.elements.append((tag, dict(attrs)))
        if tag not in VOID:
            self.open.append(tag)
        if tag == "h2":
            self.heading = ""
        if tag == "tr":
            self.tables.setdefault(self.heading, []).append([])
        if tag in ("td", "th"):
            self.tables[self.heading][-1].append("")

    def handle_startendtag(self, tag: str, attrs: List[Tuple[str, Optional[str]]]) -> None:
        self.elements.append((tag, dict(attrs)))

    def handle_endtag(self, tag: str) -> None:
        need(self.open and self.open[-1] == tag, f"the page closes {tag} in {self.open}")
        self.open.pop()

    def handle_data(self, data: str) -> None:
        if "style" in self.open:
            self.style += data
            return
        self.words += data
        if "h2" in self.open and "small" not in self.open:
            self.heading += data.strip()
        if "td" in self.open or "th" in self.open:
            self.tables[self.heading][-1][-1] += data

    def rows(self, heading: str) -> List[List[str]]:
        """Returns the cells of each row below the titles."""
        return [[" ".join(cell.split()) for cell in row] for row in self.tables.get(heading, [[]])[1:]]

    def named(self, tag: str) -> List[Dict[str, Optional[str]]]:
        """Returns the attributes of each element of this name."""
        return [attributes for name, attributes in self.elements if name == tag]


class Logged(Machine):
    """A machine that is arranged in a folder, with the log of its daemon."""

    def __init__(self, folder: str, site: Optional[str] = None) -> None:
        super().__init__(folder, site)
        self.put("bin/journalctl", JOURNALCTL.format(folder=folder))
        os.chmod(f"{self.bin}/journalctl", 0o755)
        self.lines = 0
        self.put("log")

    def log(self, moment: float, text: Any, **more: str) -> None:
        """Adds a line to the log, with its time in seconds since 1970."""
        self.lines += 1
        # (journald takes the name that a line begins with off, and stores it as the identifier)
        name, found, rest = text.partition(": ") if isinstance(text, str) else ("", "", "")
        given = {"MESSAGE": rest, "SYSLOG_IDENTIFIER": name} if found and " " not in name else {"MESSAGE": text}
        entry = {"__REALTIME_TIMESTAMP": str(int(moment * 1e6)), "__CURSOR": str(self.lines), **given, **more}
        with open(f"{self.folder}/log", "a", encoding="utf-8") as file:
            file.write(json.dumps(entry) + "\n")
