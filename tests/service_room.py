"""A room without systemd, in which follow-service and the programs around it run: stand-ins on PATH record each call.

It is imported by tests/service_words.py, and not run by itself. The stand-ins store timers and units as files. They
fail, hang or are late if a file says so.
"""

import os
import re
import stat
import subprocess
import time
from typing import Callable, Dict, List, NamedTuple, Optional

from checks import need


TOP = os.path.dirname(os.path.dirname(os.path.abspath(__file__)))
PACKAGING = f"{TOP}/packaging"
TICKET = "db8"
UNIT = f"booth-follow@{TICKET}.service"
# the additional time on a busy machine, in seconds
SLACK = 25
# the end of a lease by the daemon's clock in seconds, and the milliseconds until then
ENDS, LEFT, KILL = 1_790_000_000, 10_000, 1_250

STAND_INS = {
    "systemctl": """
last=; for word in "$@"; do last=$word; done
[ ! -e systemctl.hangs ] || exec sleep 100
[ ! -e systemctl.fails ] || exit 1
case " $* " in
  *" list-units "*)
    if [ -e swaps ]; then
      read -r old new <swaps
      rm swaps
      mv timers/booth-end-db8-"$old"-* "timers/booth-end-db8-$new-1.timer"
      echo "$new" >run/db8.end
    fi
    for timer in timers/*; do
      [ ! -e "$timer" ] || printf '%s loaded active waiting A timer\\n' "${timer#timers/}"
    done
    ;;
  *" list-jobs "*) [ ! -e jobs.fails ] || exit 1; cat jobs 2>/dev/null; exit 0 ;;
  *" is-active "*) cat "units/$last" 2>/dev/null || echo inactive; [ "$(cat "units/$last" 2>/dev/null)" = active ] ;;
  *" stop "*.timer" ") rm -f "timers/$last" ;;
  *UserspaceTimestampMonotonic*) cat up_since ;;
  *" show "*) cat "group" 2>/dev/null; exit 0 ;;
  *" --no-block stop "*) [ -e kill.hangs ] || echo deactivating >"units/$last" ;;
  *" kill "*) [ -e kill.hangs ] || rm -f "units/$last" ;;
  *" stop "*) [ ! -e stop.fails ] || exit 1; rm -f "units/$last" ;;
  *" start "*) [ ! -e start.fails ] || exit 1; echo active >"units/$last" ;;
esac
""",
    "systemd-run": """
[ ! -e run.fails ] || exit 1
[ ! -e run.hangs ] || exec sleep 100
[ ! -e run.released ] || sed -i "s/^releases=.*/releases=$$/" run/db8.state
for word in "$@"; do case $word in --unit=*) unit=${word#--unit=} ;; esac; done
[ ! -e "timers/$unit.timer" ] || exit 1
printf '%s\\n' "$@" >"timers/$unit.timer"
""",
    "systemd-escape": """
printf '%s\\n' "$2" | sed 's/-/\\\\x2d/g'
""",
    "chronyc": """
[ -e chrony ] || exit 1
[ "$1" = tracking ] || [ -e chrony.right ]
""",
}
# the program of the service: it records each run with its argument, and does what the files ARGUMENT.* say
PROGRAM = """#!/bin/sh
cd {folder} || exit 9
printf '%s\\n' "$* $BOOTH_TICKET_EXPIRES $BOOTH_TICKET_LEFT" >>ran
env >environment
word=$2
[ ! -e "$word.pid" ] || echo $$ >"$word.pid"
[ ! -e "$word.hangs" ] || exec sleep 100
[ ! -e "$word.slow" ] || sleep 2
[ ! -e "$word.status" ] || exit "$(cat "$word.status")"
"""


class Ended(NamedTuple):
    """The outcome of a run: its status, what it printed, and how long it took in seconds."""

    status: int
    printed: str
    took: float


class Ran(NamedTuple):
    """A run of the service's program: its first argument, the arguments after it, and the lease's end that it was
    given.
    """

    word: str
    more: List[str]
    expires: int
    left: int


class Room:
    """A folder with the stand-ins, the program and the state."""

    def __init__(self, folder: str) -> None:
        self.folder = folder
        self.run_folder = f"{folder}/run"
        self.program = f"{folder}/program"
        for name in ("bin", "timers", "units", "run"):
            os.makedirs(f"{folder}/{name}")
        for name, text in STAND_INS.items():
            note = f"""cd {folder} || exit 9\nprintf '%s\\n' "{name} $*" >>calls\n"""
            self.executable(f"bin/{name}", f"#!/bin/sh\n{note}{text}")
        self.executable("program", PROGRAM.format(folder=folder))
        self.put("up_since", "1000000\n")
        self.put("booth.conf", f"site = 127.0.0.1\nticket = {TICKET}\n expire = 10\n renewal-freq = 7\n")

    def executable(self, name: str, text: str) -> None:
        """Writes a program into the room."""
        self.put(name, text)
        os.chmod(f"{self.folder}/{name}", stat.S_IRWXU)

    def put(self, name: str, text: str = "") -> None:
        """Writes a file of the room."""
        with open(f"{self.folder}/{name}", "w", encoding="utf-8") as file:
            file.write(text)

    def drop(self, *names: str) -> None:
        """Removes these files of the room, if they exist."""
        for name in names:
            if os.path.exists(f"{self.folder}/{name}"):
                os.remove(f"{self.folder}/{name}")

    def text(self, name: str) -> str:
        """Returns the text of a file of the room, empty if it is missing."""
        try:
            with open(f"{self.folder}/{name}", encoding="utf-8") as file:
                return file.read()
        except FileNotFoundError:
            return ""

    def environment(self, more: Dict[str, str]) -> Dict[str, str]:
        """Returns the environment of a run: that of the follower, with additional variables."""
        given = {name: text for name, text in os.environ.items() if not name.startswith(("BOOTH_", "JOURNAL_"))}
        given["PATH"] = f"{self.folder}/bin:{os.environ['PATH']}"
        given["BOOTH_FOLLOW_RUN"] = self.run_folder
        given["BOOTH_CONF_PATH"] = f"{self.folder}/booth.conf"
        return {**given, **more}

    def call(self, *words: str, **more: str) -> Ended:
        """Runs a program of the package with these arguments, and with these additional variables."""
        path, *rest = words
        begun = time.monotonic()
        done = subprocess.run(
            [f"{PACKAGING}/{path}", *rest],
            env=self.environment(more),
            stdin=subprocess.DEVNULL,
            stdout=subprocess.PIPE,
            stderr=subprocess.STDOUT,
            text=True,
            timeout=60,
            check=False,
        )
        return Ended(done.returncode, done.stdout, time.monotonic() - begun)

    def word(self, *words: str, ticket: str = TICKET, ends: int = ENDS, left: int = LEFT, **more: str) -> Ended:
        """Runs follow-service with an argument and the program, as the follower does."""
        told = {"BOOTH_TICKET": ticket, "BOOTH_TICKET_EXPIRES": str(ends), "BOOTH_TICKET_LEFT": str(left), **more}
        return self.call("follow-service", ticket, self.program, "fast", *words, **told)

    def by_unit(self, word: str, **more: str) -> Ended:
        """Runs follow-service as the unit and the switch do, which know no lease."""
        return self.call("follow-service", TICKET, self.program, "fast", *word.split(), BOOTH_TICKET=TICKET, **more)

    def begun(self, **more: str) -> None:
        """Starts the service with an armed end, and deletes the earlier records of the stand-ins."""
        for words in (("renew", str(KILL)), ("start",)):
            ended = self.word(*words, **more)
            assert ended.status == 0, ended
        self.drop("calls", "ran")

    def ran(self) -> List[Ran]:
        """Returns the runs of the service's program since the room was made or these notes were deleted."""
        found = []
        for line in self.text("ran").splitlines():
            _, word, *more, expires, left = line.split()
            found.append(Ran(word, more, int(expires), int(left)))
        return found

    def words(self) -> str:
        """Returns the arguments of the runs of the program, in order."""
        return " ".join(run.word for run in self.ran())

    def calls(self) -> List[str]:
        """Returns the calls of the stand-ins."""
        return self.text("calls").splitlines()

    def timers(self) -> List[str]:
        """Returns the names of the armed timers, without the number of the run that armed them."""
        return sorted(re.sub(r"^(booth-end-.*-\d+)-\d+(\.timer)$", r"\1\2", name) for name in self.timer_files())

    def timer_files(self) -> List[str]:
        """Returns the names of the armed timers."""
        return os.listdir(f"{self.folder}/timers")

    def armed(self, ticket: str = TICKET) -> Optional[str]:
        """Returns the content of the file of the end, or None if it is missing."""
        return self.text(f"run/{ticket}.end") or None

    def state(self, ticket: str = TICKET) -> Dict[str, str]:
        """Returns the keys of the state."""
        return dict(line.split("=", 1) for line in self.text(f"run/{ticket}.state").splitlines())

    def leftovers(self) -> List[str]:
        """Returns the files in the state's folder that no run may leave there."""
        return [name for name in os.listdir(self.run_folder) if ".new." in name]


def since_boot() -> float:
    """Returns the time since the boot, in seconds."""
    return time.clock_gettime(time.CLOCK_BOOTTIME)


def same(found: object, wanted: object, what: str) -> None:
    """Raises an error if the two values differ."""
    need(found == wanted, f"{what}: {found!r}, and not {wanted!r}")


Story = Callable[[Room], None]
stories: List[Story] = []


def story(function: Story) -> Story:
    """Adds a story to the stories of this file."""
    stories.append(function)
    return function
