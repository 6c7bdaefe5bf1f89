"""A room without Pacemaker in which booth-lease-guard and follow-pacemaker are run: stand-ins on PATH note each call.

It is imported by tests/lease_guard.py and tests/pacemaker_words.py, and not run by itself. The stand-ins keep resources
and the CIB as files, and fail, hang or are late where a file says so.
"""

import os
import re
import stat
import subprocess
import time
from typing import Callable, Dict, Iterable, List, NamedTuple, Tuple

from checks import Wrong, need


TOP = os.path.dirname(os.path.dirname(os.path.abspath(__file__)))
PACKAGING = f"{TOP}/packaging"
TICKET = "db8"
CLOSED = "1970-01-01 00:00:00Z"
# in seconds: what a busy machine may take more
SLACK = 15.0

STAND_INS = {
    # of each resource a file of its name says `0` (it runs), `7` (it does not), `8` (it is promoted), or another status
    "crm_resource": """
name= ; what=
while [ $# -gt 0 ]; do
  case $1 in --resource) name=$2; shift ;; --force-*) what=$1 ;; esac
  shift
done
[ "$CIB_file" ] || { echo 'asks the daemons'; exit 99; }
case $what in
  --force-check)
    [ ! -e "$name.check.hangs" ] || exec sleep 100
    exit "$(cat "$name" 2>/dev/null || echo 7)" ;;
  --force-stop)
    [ ! -e "$name.stop.hangs" ] || exec sleep 100
    [ ! -e "$name.stop.fails" ] || exit 1
    echo 7 >"$name" ;;
  --force-demote)
    [ ! -e "$name.demote.fails" ] || exit 1
    echo 0 >"$name" ;;
esac
""",
    "systemctl": """
last=; for word in "$@"; do last=$word; done
case " $* " in
  *" is-active "*) cat "$last" 2>/dev/null || echo inactive ;;
  *" show "*) exit 0 ;;
  *" kill "*) rm -f "$last" ;;
  *" --no-block stop "*) exit 0 ;;
  *" stop "*) [ ! -e "$last.stop.fails" ] || exit 1; rm -f "$last" ;;
esac
""",
    "reset": "exit 0\n",
    "cibadmin": """
[ ! -e cibadmin.hangs ] || exec sleep 100
[ ! -e cibadmin.fails ] || { echo 'Connection to the CIB failed' >&2; exit 102; }
python3 {room}/bin/cib.py "$@"
""",
    "booth": "cat list\n",
    "crm_ticket": """
[ ! -e ticket.hangs ] || exec sleep 100
[ ! -e ticket.fails ] || exit 102
case " $* " in
  *" --grant "*) echo true >granted ;;
  *" --revoke "*)
    echo false >granted
    [ -e stays ] || for one in $(cat resources); do echo Stopped >"$one.role"; done ;;
  *" --get-attr "*) cat granted 2>/dev/null ;;
esac
""",
    "crm_mon": """
[ ! -e mon.hangs ] || exec sleep 100
[ ! -e mon.fails ] || exit 102
echo '<pacemaker-result><resources>'
for one in $(cat resources); do
  role=$(cat "$one.role" 2>/dev/null || echo Stopped)
  case $role in Stopped) active=false ;; *) active=true ;; esac
  echo "<resource id=\\"$one\\" role=\\"$role\\" active=\\"$active\\" orphaned=\\"false\\" managed=\\"true\\">"
  [ $active = false ] || echo '<node name="a1" id="1" cached="true"/>'
  echo '</resource>'
done
echo '</resources></pacemaker-result>'
""",
}
# what cibadmin does to the CIB's file: a query, and a change of an expression by its path
CIB_PY = r'''
import re, sys
words = sys.argv[1:]
value = lambda name: words[words.index(name) + 1]
text = open("cib.xml", encoding="utf-8").read()
ids = dict(re.findall(r"@(id|start)='([^']*)'", value("--xpath")))
found = re.search(r'<date_expression id="%s" operation="gt" start="([^"]*)"/>' % re.escape(ids["id"]), text)
if not found or ids.get("start", found[1]) != found[1]:
    sys.exit(105)
if "--query" in words:
    print(found[0])
    sys.exit(0)
new = re.search(r'start="([^"]*)"', value("--xml-text"))[1]
with open("cib.new", "w", encoding="utf-8") as file:
    file.write(text.replace(found[0], found[0].replace(found[1], new)))
import os
os.replace("cib.new", "cib.xml")
'''


class Ended(NamedTuple):
    """The outcome of a run: its status, what it printed, and how long it took in seconds."""

    status: int
    printed: str
    took: float


class Room:
    """A folder with stand-ins and a CIB."""

    def __init__(self, folder: str) -> None:
        self.folder = folder
        os.makedirs(f"{folder}/bin")
        os.makedirs(f"{folder}/run")
        for name, text in STAND_INS.items():
            note = f"""cd {folder} || exit 9\nprintf '%s\\n' "{name} $*" >>calls\n"""
            self.put(f"bin/{name}", f"#!/bin/sh\n{note}{text.replace('{room}', folder)}")
            os.chmod(f"{folder}/bin/{name}", stat.S_IRWXU)
        self.put("bin/cib.py", CIB_PY)
        self.put("resources", "svc\n")

    def put(self, name: str, text: str = "") -> None:
        """Writes a file of the room."""
        path = f"{self.folder}/{name}"
        with open(f"{path}.put", "w", encoding="utf-8") as file:
            file.write(text)
        os.replace(f"{path}.put", path)

    def drop(self, *names: str) -> None:
        """Removes those files of the room that exist."""
        for name in names:
            if os.path.exists(f"{self.folder}/{name}"):
                os.remove(f"{self.folder}/{name}")

    def text(self, name: str) -> str:
        """Returns the text of a file of the room, empty if it is missing."""
        try:
            with open(f"{self.folder}/{name}", encoding="utf-8") as file:
                return file.read()
        except FileNotFoundError:
            return ""

    def cib(self, resources: str, refs: Iterable[str], end: str, times: str, kind: str = "lease") -> None:
        """Writes the CIB, with one lease."""
        named = "".join(f'<resource_ref id="{each}"/>' for each in refs)
        self.put(
            "cib.xml",
            f"""<cib><configuration><crm_config><cluster_property_set id="booth-lease">
            <nvpair id="booth-lease-times.{TICKET}" name="booth-lease.{TICKET}" value="{times}"/></cluster_property_set>
            </crm_config><resources>{resources}</resources><constraints><rsc_location id="booth-{kind}.{TICKET}">
            <resource_set id="booth-{kind}-set.{TICKET}">{named}</resource_set>
            <rule id="booth-{kind}-rule.{TICKET}" score="-INFINITY">
            <date_expression id="booth-{kind}-end.{TICKET}" operation="gt" start="{end}"/></rule></rsc_location>
            </constraints></configuration></cib>""",
        )

    def end(self) -> str:
        """Returns the end in the CIB."""
        found = re.search(r'operation="gt" start="([^"]*)"', self.text("cib.xml"))
        need(found, "the CIB has no end")
        assert found is not None
        return found[1]

    def environment(self, more: Dict[str, str]) -> Dict[str, str]:
        """Returns the environment of a run."""
        given = {name: text for name, text in os.environ.items() if not name.startswith(("BOOTH_", "JOURNAL_"))}
        given["PATH"] = f"{self.folder}/bin:{os.environ['PATH']}"
        given["BOOTH_GUARD_RUN"] = given["BOOTH_FOLLOW_RUN"] = f"{self.folder}/run"
        return {**given, **more}

    def call(self, *words: str, **more: str) -> Ended:
        """Runs a program of the package with these arguments, and with these additional variables."""
        path, *rest = words
        begun = time.monotonic()
        streams = {"stdin": subprocess.DEVNULL, "stdout": subprocess.PIPE, "stderr": subprocess.STDOUT}
        words_of_run = [f"{PACKAGING}/{path}", *rest]
        done = subprocess.run(words_of_run, env=self.environment(more), text=True, timeout=60, check=False, **streams)
        return Ended(done.returncode, done.stdout, time.monotonic() - begun)

    def calls(self, *names: str) -> List[str]:
        """Returns the calls of these stand-ins, or of all."""
        found = self.text("calls").splitlines()
        return [call for call in found if not names or call.split()[0] in names]

    def until(self, holds: Callable[[], bool], seconds: float, what: str) -> float:
        """Waits until a condition holds, and returns how long this took."""
        begun = time.monotonic()
        while not holds():
            if time.monotonic() > begun + seconds:
                raise Wrong(f"not within {seconds:g} s: {what}; {self.text('told')[-600:]}")
            time.sleep(0.05)
        return time.monotonic() - begun


def date(seconds: float) -> str:
    """Returns an end this many seconds from now, by the wall clock."""
    return time.strftime("%Y-%m-%d %H:%M:%SZ", time.gmtime(int(time.time() + seconds)))


def same(found: object, wanted: object, what: str) -> None:
    """Raises an error if the two values differ."""
    need(found == wanted, f"{what}: {found!r}, and not {wanted!r}")


PRIMITIVE = '<primitive id="svc" class="ocf" provider="test" type="Service"/>'
UNIT = '<primitive id="svc" class="systemd" type="db8"/>'
GROUP = f'<group id="all">{PRIMITIVE}<primitive id="two" class="ocf" provider="test" type="Other"/></group>'
CLONE = (
    '<clone id="pg-clone"><meta_attributes id="m"><nvpair id="n" name="promotable" value="true"/></meta_attributes>'
    '<primitive id="pg" class="ocf" provider="test" type="Pg"/></clone>'
)
TEMPLATE = '<template id="t" class="systemd" type="db8"/><primitive id="svc" template="t"/>'

Story = Callable[[Room], None]
Stories = List[Tuple[str, Story]]
