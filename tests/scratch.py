"""The folder in which a test runs its programs.

It is imported by the programs in tests/, and not run by itself.
"""

import contextlib
import shutil
import tempfile
from typing import Iterator


@contextlib.contextmanager
def scratch(prefix: str) -> Iterator[str]:
    """Yields a new folder that is removed at the end. If a program that still runs writes into it then, no test fails.
    """
    folder = tempfile.mkdtemp(prefix=prefix)
    try:
        yield folder
    finally:
        shutil.rmtree(folder, ignore_errors=True)
