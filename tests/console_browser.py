"""Opens the console's page in headless Chromium, and reads the picture that it draws.

It is imported by the stories of tests/console.py, and not run by itself.
"""

import os
import shutil
import struct
import subprocess
import zlib
from typing import List, Optional, Set, Tuple

from checks import need


NAMES = ("chromium", "chromium-browser", "google-chrome")
SECONDS_OF_A_PICTURE = 60
# what Chromium prints if a page breaks the policy of its server, or fails
COMPLAINTS = ("Refused to", "Content Security Policy", "violates", "Uncaught")
# the bytes of a pixel with and without transparency, by the colour type of the PNG format
PIXEL = {2: 3, 6: 4}


def browser() -> Optional[str]:
    """Returns the path of Chromium, or `None`."""
    return next(filter(None, map(shutil.which, NAMES)), None)


def picture(url: str, path: str, width: int = 1180, height: int = 900, dark: bool = False) -> None:
    """Writes a picture of a page, which must break no rule of its server."""
    program = browser()
    assert program is not None
    # (Chromium keeps files of its own; a container has no namespaces for its sandbox)
    words = [program, "--headless", "--no-sandbox", "--disable-gpu", "--hide-scrollbars", "--enable-logging=stderr"]
    words += [f"--user-data-dir={path}.profile", f"--window-size={width},{height}", f"--screenshot={path}"]
    words += ["--blink-settings=preferredColorScheme=0"] if dark else []
    done = subprocess.run(
        [*words, url], stdin=subprocess.DEVNULL, stdout=subprocess.PIPE, stderr=subprocess.STDOUT, text=True,
        timeout=SECONDS_OF_A_PICTURE, check=False, errors="replace",
    )  # fmt: skip
    shutil.rmtree(f"{path}.profile", ignore_errors=True)
    wrong = [line for line in done.stdout.splitlines() if any(each in line for each in COMPLAINTS)]
    need(not wrong, f"Chromium says: {wrong}")
    is_drawn = done.returncode == 0 and os.path.exists(path)
    need(is_drawn, f"Chromium ended with {done.returncode}: {done.stdout[-600:]}")


def chunks(data: bytes) -> List[Tuple[bytes, bytes]]:
    """Returns the chunks of a PNG file."""
    need(data.startswith(b"\x89PNG\r\n\x1a\n"), "no PNG")
    found, at = [], 8
    while at < len(data):
        size, kind = struct.unpack(">I4s", data[at : at + 8])
        found.append((kind, data[at + 8 : at + 8 + size]))
        at += 12 + size
    return found


def colours(path: str) -> Set[Tuple[int, int, int]]:
    """Returns the colours of a picture, by the specification of PNG."""
    with open(path, "rb") as file:
        parts = chunks(file.read())
    width, height, depth, kind, *_ = struct.unpack(">IIBBBBB", parts[0][1])
    need(depth == 8 and kind in PIXEL, f"a PNG of depth {depth} and colour type {kind}")
    step, data = PIXEL[kind], zlib.decompress(b"".join(body for name, body in parts if name == b"IDAT"))
    length, before, found = width * step, bytearray(width * step), set()
    for row in range(height):
        start = row * (length + 1)
        line = bytearray(data[start + 1 : start + 1 + length])
        unfilter(data[start], line, before, step)
        found.update(zip(line[0::step], line[1::step], line[2::step]))
        before = line
    return found


def unfilter(kind: int, line: bytearray, before: bytearray, step: int) -> None:
    """Undoes the filter of a row."""
    for at in range(len(line)) if kind else ():
        left = line[at - step] if at >= step else 0
        over, corner = before[at], before[at - step] if at >= step else 0
        if kind == 1:
            more = left
        elif kind == 2:
            more = over
        elif kind == 3:
            more = (left + over) // 2
        else:
            guess = left + over - corner
            near = [(abs(guess - each), place, each) for place, each in enumerate((left, over, corner))]
            more = min(near)[2]
        line[at] = (line[at] + more) & 0xFF


def rgb(text: str) -> Tuple[int, int, int]:
    """Returns a colour of a style sheet."""
    text = text if len(text) == 7 else "#" + "".join(each * 2 for each in text[1:])
    return int(text[1:3], 16), int(text[3:5], 16), int(text[5:7], 16)
