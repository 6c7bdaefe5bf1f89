r"""Which texts are journals, and which frames a stream has, wherever it is split.

It is imported by tests/rows.py, and not run by itself. A file of rows has these lines:

    # TEXT                       a comment
    * SENTENCE                   what the rows below it show
    journal TEXT => LINE         the first line, counted from 1, that is not a line of a journal; 0 if there is none
    cut STREAM | SIZE .. => MARKS
                                 the marks of the frames of a stream that arrives in pieces of these sizes, or `-` for
                                 no frame, and `!` if the stream is then broken
    each LEAST MOST PLACES       frames of each length from LEAST to MOST, each followed by a frame of 48 bytes: both
                                 must be found, with a cut at each place, or at each two places

In a text `$` is the end of a line and `''` is the empty text. `{9 0a}` is `0a` nine times. tests/stream_data.py
describes streams. Each frame is compared with all its bytes.
"""

import re
from typing import Iterator, List, NamedTuple, Tuple

from row_driver import Driver, Trouble
from run_frames import bytes_of
from run_hosts import hexadecimal
from stream_data import bytes_of_word, frame, stream_of


class Lines(NamedTuple):
    """Lines for the player, where they come from, and the expected words of their answers."""

    place: str
    lines: List[str]
    wanted: List[str]


def pieces(data: bytes, sizes: List[int]) -> List[str]:
    """Returns the lines that feed the first bytes of a stream in pieces of these sizes."""
    ends = [sum(sizes[: place + 1]) for place in range(len(sizes))]
    cuts = [data[end - size : end] for size, end in zip(sizes, ends)]
    return [f"{'feed' if place else 'begin'} {hexadecimal(piece)}" for place, piece in enumerate(cuts)]


def journal(place: str, rest: str) -> Iterator[Lines]:
    """Yields the line of a text of a journal."""
    text, _, line = rest.rpartition(" => ")
    whole = re.sub(r"\{(\d+) (\w+)\}", lambda found: found[2] * int(found[1]), text)
    wanted = "journal" if int(line) == 0 else str(int(line))
    yield Lines(place, [f"journal {hexadecimal(bytes_of(whole))}"], [wanted])


def cut(place: str, rest: str) -> Iterator[Lines]:
    """Yields the lines of a stream that is cut once."""
    asked, _, marks = rest.rpartition(" => ")
    stream, found, sizes = asked.partition(" | ")
    if not found:
        raise Trouble(f"{place}: no sizes")
    data = stream_of(stream)
    frames = {word.partition(":")[2]: bytes_of_word(word).hex() for word in stream.split(" ")}
    wanted = ["broken" if mark == "!" else frames[mark] for mark in marks if marks != "-"]
    yield Lines(place, pieces(data, [int(size) for size in sizes.split(" ")]), wanted)


def each(place: str, rest: str) -> Iterator[Lines]:
    """Yields the lines of streams of two frames that are cut at every place."""
    least, most, places = (int(word) for word in rest.split(" "))
    if places not in (1, 2):
        raise Trouble(f"{place}: no number of places")
    for length in range(least, most + 1):
        first, second = frame(length, "a"), frame(48, "b")
        end = len(first + second)
        for one in range(end):
            for two in range(one, end if places == 2 else one + 1):
                sizes = [one, two - one, end - two]
                yield Lines(place, pieces(first + second, sizes), [first.hex(), second.hex()])


def lines_of(text: str) -> Iterator[Lines]:
    """Yields the lines that play a file's rows."""
    sentence = ""
    for number, line in enumerate(text.split("\n"), 1):
        first, _, rest = line.partition(" ")
        place = f"line {number}: {sentence} {line}"
        if first == "*":
            sentence = rest
        elif line and first != "#":
            if first not in ("journal", "cut", "each") or not sentence:
                raise Trouble(f"{place}: no row")
            yield from {"journal": journal, "cut": cut, "each": each}[first](place, rest)


def words_of(answers: List[List[str]]) -> List[str]:
    """Returns the words of the answers to the pieces of a stream, up to the answer that the stream is broken."""
    words = [word for answer in answers for line in answer for word in line.split()]
    return words[: words.index("broken") + 1] if "broken" in words else words


def check(text: str, driver: Driver) -> Tuple[int, List[str]]:
    """Plays the rows of a file. Returns how many there are, and their faults."""
    plays = list(lines_of(text))
    if not plays:
        raise Trouble("no rows")
    answers = iter(driver.play("texts", [line for play in plays for line in play.lines]))
    wrong = []
    for play in plays:
        found = words_of([next(answers) for _ in play.lines])
        if found != play.wanted:
            wrong.append(f"{play.place}: {str(play.lines)[:80]}, and it was: {str(found)[:400]}")
    return len({play.place for play in plays}), wrong
