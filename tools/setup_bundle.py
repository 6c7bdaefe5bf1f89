"""The bundle of booth-setup: one file with everything that another member of the cluster needs, including the key.

The file has a line with its version, a line with the SHA-256 of the rest, and a document of JSON. It is imported by
booth-setup, and not run by itself.
"""

import base64
import binascii
import hashlib
import json
import os
import re
import stat
from typing import Any, Dict, NamedTuple, Optional, Tuple

import configuration
import frames
from setup_steps import Failed

VERSION = 1
HEAD = re.compile(rb"booth-setup bundle, version ([0-9]{1,9})")
CHECKSUM = re.compile(rb"sha256 ([0-9a-f]{64})")
MOST_BYTES = 2 * configuration.TEXT_BYTES + 2 * configuration.KEY_FILE_BYTES
# the mode bits for users other than the owner
OTHERS = stat.S_IRWXG | stat.S_IRWXO


class Postgresql(NamedTuple):
    """The PostgreSQL server under a ticket, the options of its setup, and the file with the password of its role."""

    ticket: str
    server: str
    options: Tuple[str, ...]
    password: str = ""


class Bundle(NamedTuple):
    """A cluster: its name, configuration and key, the unit of each ticket's service, and whether there is a journal."""

    name: str
    text: str
    key: bytes
    units: Dict[str, str]
    has_journal: bool
    postgresql: Optional[Postgresql] = None


def spelled(bundle: Bundle) -> bytes:
    """Returns the content of a bundle's file."""
    postgresql = None if bundle.postgresql is None else bundle.postgresql._asdict()
    document = {
        "name": bundle.name, "configuration": bundle.text, "key": base64.b64encode(bundle.key).decode("ascii"),
        "units": bundle.units, "journal": bundle.has_journal, "postgresql": postgresql,
    }  # fmt: skip
    rest = json.dumps(document, indent=1, sort_keys=True).encode("ascii") + b"\n"
    checksum = hashlib.sha256(rest).hexdigest()
    return f"booth-setup bundle, version {VERSION}\nsha256 {checksum}\n".encode("ascii") + rest


def read(path: str) -> Bundle:
    """Reads a bundle. Raises `Failed` if the file is not a bundle, was changed, or is readable for others."""
    content = configuration.bytes_of(path, MOST_BYTES + 1)
    mode = stat.S_IMODE(os.stat(path).st_mode)
    if mode & OTHERS:
        raise Failed(
            f"{path}: its mode {mode:04o} allows others to read it: if nobody else has read the key in it, run chmod "
            f"0600 {path}; otherwise make a new bundle with a new key"
        )
    if len(content) > MOST_BYTES:
        raise Failed(f"{path}: has more than {MOST_BYTES} bytes, so it is not a bundle of booth-setup")
    head, _, rest = content.partition(b"\n")
    found = HEAD.fullmatch(head)
    if found is None:
        raise Failed(f"{path}: is not a bundle of booth-setup: its first line differs")
    if int(found[1]) != VERSION:
        raise Failed(f"{path}: is a bundle of version {int(found[1])}, but this booth-setup reads version {VERSION}")
    line, _, rest = rest.partition(b"\n")
    checksum = CHECKSUM.fullmatch(line)
    if checksum is None or hashlib.sha256(rest).hexdigest().encode("ascii") != checksum[1]:
        raise Failed(f"{path}: its checksum is wrong, so it was changed or truncated: copy it again")
    try:
        return of_document(json.loads(rest))
    except (ValueError, KeyError, TypeError, binascii.Error) as why:
        raise Failed(f"{path}: its content has another form than version {VERSION}: {why!r}") from why


def of_document(document: Dict[str, Any]) -> Bundle:
    """Returns the bundle in a document. Raises a `ValueError`, `KeyError` or `TypeError` if it has another form."""
    key = base64.b64decode(typed(document, "key", str), validate=True)
    frames.key_in(key)
    units = typed(document, "units", dict)
    if not all(isinstance(each, str) for each in (*units, *units.values())):
        raise ValueError("units")
    asked = document["postgresql"]
    postgresql = None
    if asked is not None:
        options = tuple(map(str, typed(asked, "options", list)))
        postgresql = Postgresql(
            typed(asked, "ticket", str), typed(asked, "server", str), options, typed(asked, "password", str)
        )
    return Bundle(
        typed(document, "name", str), typed(document, "configuration", str), key, units,
        typed(document, "journal", bool), postgresql,
    )  # fmt: skip


def typed(document: Dict[str, Any], field: str, kind: type) -> Any:
    """Returns a field of a document. Raises `ValueError` if it has another type."""
    value = document[field]
    if not isinstance(value, kind):
        raise ValueError(f"{field} is not of the type {kind.__name__}")
    return value
