"""The base of the programs in tests/ that run other programs.

It is imported by the programs in tests/, and not run by itself.
"""

import subprocess


def read(path):
    with open(path, encoding="utf-8") as file:
        return file.read()


def run(*words, **more):
    return subprocess.run(words, capture_output=True, text=True, timeout=60, check=False, **more)
