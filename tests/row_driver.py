"""Plays lines with the proved driver `trials play`, and returns its answers.

It is imported by the programs in tests/, and not run by itself.
"""

import os
import subprocess
from typing import IO, Dict, List, Optional, Union

TOP = os.path.dirname(os.path.dirname(os.path.abspath(__file__)))

# the program that the gate leaves
PROGRAM = f"{TOP}/crates/trials/out/trials"
# the limit for a script, in seconds
SECONDS = 120


class Unplayed(Exception):
    """The driver did not play a line."""


class Trouble(Exception):
    """A file of rows cannot be read, or an answer cannot be shown."""


def run_line(program: str, words: List[bytes]) -> str:
    """Returns the line by which the player `runs` runs this program with these arguments."""
    return " ".join(["run", program, str(len(words)), *(word.hex() or "-" for word in words)])


class Driver:
    """The built driver."""

    def __init__(self, program: str = PROGRAM) -> None:
        self.program = program

    def play(self, player: str, lines: List[str]) -> List[List[str]]:
        """Returns the lines that answer each line."""
        text = "".join(f"{line}\n" for line in lines)
        words = [self.program, "play", player]
        done = subprocess.run(words, input=text.encode(), stdout=subprocess.PIPE, timeout=SECONDS)
        answers, answer = [], []
        for printed in done.stdout.decode().split("\n")[:-1]:
            if printed.startswith("! "):
                raise Unplayed(f"{lines[len(answers)]}: {printed[2:]}")
            if printed == ".":
                answers.append(answer)
                answer = []
            else:
                answer.append(printed)
        if done.returncode != 0 or len(answers) != len(lines):
            raise Unplayed(f"{player} ended with status {done.returncode} after {len(answers)} of {len(lines)} lines")
        return answers


class Session:
    """A driver that plays line after line: its state continues until the session ends."""

    def __init__(
        self,
        player: str,
        program: str = PROGRAM,
        folder: Optional[str] = None,
        environ: Optional[Dict[str, str]] = None,
        errors: Union[int, IO[bytes]] = subprocess.DEVNULL,
    ) -> None:
        words = [program, "play", player]
        pipes = {"stdin": subprocess.PIPE, "stdout": subprocess.PIPE, "stderr": errors}
        self.process = subprocess.Popen(words, cwd=folder, env=environ, **pipes)

    def say(self, line: str) -> str:
        """Plays a line whose answer is one line or none, and returns the answer."""
        into, out = self._pipes()
        into.write(f"{line}\n".encode())
        into.flush()
        answer: List[str] = []
        for printed in iter(out.readline, b""):
            text = printed.decode().rstrip("\n")
            if text == ".":
                return "\n".join(answer)
            if text.startswith("! "):
                raise Unplayed(f"{line}: {text[2:]}")
            answer.append(text)
        raise Unplayed(f"{line}: the driver ended")

    def _pipes(self) -> "tuple[IO[bytes], IO[bytes]]":
        assert self.process.stdin is not None and self.process.stdout is not None
        return self.process.stdin, self.process.stdout

    def end(self) -> None:
        """Ends the driver, and so its state."""
        into, out = self._pipes()
        into.close()
        self.process.wait(timeout=SECONDS)
        out.close()
