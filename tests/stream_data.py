"""Makes the bytes of streams from their texts.

It is imported by the programs in tests/, and not run by itself. A text has words with one blank between each two, or is
`-` for no bytes. `48:a` is a frame of 48 bytes, whose length field is right and whose other bytes are all `a`.
`48:a/20-48` are its bytes from the 20th up to the 48th. Each other word is in hexadecimal, and `78*9` is the byte 78
nine times.
"""

import re

from row_driver import Trouble

# the beginning and the end of a frame's length field, in bytes
LENGTH_AT, LENGTH_END = 24, 28


def frame(said: int, mark: str) -> bytes:
    """Returns a frame of this many bytes with this mark."""
    fill = mark.encode()
    return fill * LENGTH_AT + said.to_bytes(4, "big") + fill * (said - LENGTH_END)


def bytes_of_word(word: str) -> bytes:
    """Returns the bytes of a word."""
    found = re.fullmatch(r"(\d+):([a-z])(?:/(\d+)-(\d+))?", word)
    if found:
        said, mark, first, last = found.groups()
        data = frame(int(said), mark)
        if last and int(last) > len(data):
            raise Trouble(f"too few bytes: {word}")
        return data[int(first):int(last)] if last else data
    digits, _, times = word.partition("*")
    return bytes.fromhex(digits) * int(times or "1")


def stream_of(text: str) -> bytes:
    """Returns the bytes of a text."""
    return b"" if text == "-" else b"".join(bytes_of_word(word) for word in text.split(" "))
