"""Writes the list of what the package has and what its program is linked from, as an SPDX 2.3 document in JSON.

`python3 tools/spdx.py FOLDER VERSION SECONDS KIT` prints the document for the files below FOLDER, with the time SECONDS
(since 1970) and the line KIT of `rt version`. The same input gives the same bytes. `make deb` runs it.
"""

import hashlib
import json
import os
import struct
import sys
import time
from typing import Any, Dict, List, Set, Tuple

TOP = os.path.dirname(os.path.dirname(os.path.abspath(__file__)))
NAME, SPDX = "booth-proved", "usr/share/doc/booth-proved/booth-proved.spdx.json"
PROGRAM, CRATE = "usr/sbin/boothd", "boothd"
SUPPLIER = "Organization: The Booth developers"
# the Debian packages of the libraries that a program may load
DEBIAN = {"libc.so.6": "libc6", "libm.so.6": "libc6", "libgcc_s.so.1": "libgcc-s1", "ld-linux-x86-64.so.2": "libc6"}
# of the ELF format: the type of a dynamic segment, and the tags of its entries
DYNAMIC, LOAD = 2, 1
NEEDED, STRINGS = 1, 5
UNKNOWN = "NOASSERTION"


class NotElf(Exception):
    """The program is no ELF file of 64 bits."""


def needed(data: bytes) -> List[str]:
    """Returns the libraries that a program loads, by the dynamic section of its ELF file."""
    if data[:6] != b"\x7fELF\x02\x01":
        raise NotElf("the program is no ELF file of 64 bits")
    start, size, count = struct.unpack_from("<Q", data, 32)[0], *struct.unpack_from("<HH", data, 54)
    segments = [struct.unpack_from("<IIQQQQQQ", data, start + place * size) for place in range(count)]
    entries, strings = [], 0
    for kind, _, offset, _, _, length, *_ in segments:
        if kind == DYNAMIC:
            entries = [struct.unpack_from("<QQ", data, offset + at) for at in range(0, length, 16)]
    for tag, value in entries:
        if tag == STRINGS:
            # (the address of the names, as a place in the file)
            loads = (each for each in segments if each[0] == LOAD and 0 <= value - each[3] < each[5])
            strings = next(value - each[3] + each[2] for each in loads)
    places = [strings + value for tag, value in entries if tag == NEEDED]
    return sorted(data[place : data.index(b"\0", place)].decode() for place in places)


def libraries(text: str, crate: str) -> List[str]:
    """Returns the libraries of the kit that a crate and all crates below it use, by the text of crates.txt."""
    uses = {}
    for line in text.splitlines():
        name, found, words = line.partition("#")[0].partition(":")
        if found:
            uses[name.split()[0]] = words.split()
    seen: Set[str] = set()
    due = [crate]
    while due:
        name = due.pop()
        if name not in seen:
            seen.add(name)
            due += uses.get(name, [])
    return sorted(seen - set(uses))


def paths_below(folder: str) -> List[str]:
    """Returns the path of each file below a folder, without the control files and this document."""
    found = []
    for at, _, names in os.walk(folder):
        found += [os.path.relpath(os.path.join(at, name), folder) for name in names]
    return sorted(path for path in found if not path.startswith("DEBIAN/") and path != SPDX)


def file_of(folder: str, path: str, number: int) -> Dict[str, Any]:
    """Returns the entry of a file. A link counts as the file to which it leads."""
    with open(os.path.join(folder, path), "rb") as file:
        data = file.read()
    sums = [("SHA1", hashlib.sha1(data)), ("SHA256", hashlib.sha256(data))]
    return {
        "SPDXID": f"SPDXRef-File-{number}",
        "fileName": f"./{path}",
        "checksums": [{"algorithm": name, "checksumValue": each.hexdigest()} for name, each in sums],
        "licenseConcluded": UNKNOWN,
        "copyrightText": UNKNOWN,
    }


def package_of(name: str, ref: str, version: str, **more: Any) -> Dict[str, Any]:
    """Returns the entry of a package."""
    told = {"SPDXID": ref, "name": name, "downloadLocation": UNKNOWN, "filesAnalyzed": False}
    if version:
        told["versionInfo"] = version
    return {**told, "licenseConcluded": UNKNOWN, "licenseDeclared": UNKNOWN, "copyrightText": UNKNOWN, **more}


def related(one: str, how: str, other: str) -> Dict[str, str]:
    """Returns a relationship."""
    return {"spdxElementId": one, "relationshipType": how, "relatedSpdxElement": other}


def packages_of(ref: str, program: bytes, kit: str) -> Tuple[List[Dict[str, Any]], List[Dict[str, str]]]:
    """Returns what the program `ref` is linked from, and how."""
    packages, links = [], []
    with open(f"{TOP}/crates.txt", encoding="utf-8") as file:
        linked = libraries(file.read(), CRATE)
    for name in linked:
        packages.append(package_of(name, f"SPDXRef-Library-{name.replace('_', '-')}", kit, comment="of the kit"))
        links.append(related(ref, "STATIC_LINK", packages[-1]["SPDXID"]))
    for name in needed(program):
        comment = f"of the Debian package {DEBIAN.get(name, UNKNOWN)}"
        packages.append(package_of(name, f"SPDXRef-Shared-{name.replace('_', '-')}", "", comment=comment))
        links.append(related(ref, "DYNAMIC_LINK", packages[-1]["SPDXID"]))
    return packages, links


def document(folder: str, version: str, seconds: int, kit: str) -> Dict[str, Any]:
    """Returns the whole document."""
    files = [file_of(folder, path, number) for number, path in enumerate(paths_below(folder), 1)]
    sums = "".join(sorted(each["checksums"][0]["checksumValue"] for each in files))
    code = hashlib.sha1(sums.encode()).hexdigest()
    with open(os.path.join(folder, PROGRAM), "rb") as file:
        program = file.read()
    verified = {"packageVerificationCodeValue": code, "packageVerificationCodeExcludedFiles": [f"./{SPDX}"]}
    more = {"supplier": SUPPLIER, "filesAnalyzed": True, "packageVerificationCode": verified}
    main = package_of(NAME, "SPDXRef-Package", version, comment=f"{PROGRAM} was built with {kit}", **more)
    ref = next(each["SPDXID"] for each in files if each["fileName"] == f"./{PROGRAM}")
    packages, links = packages_of(ref, program, kit)
    contained = [related("SPDXRef-Package", "CONTAINS", each["SPDXID"]) for each in files]
    links = [related("SPDXRef-DOCUMENT", "DESCRIBES", "SPDXRef-Package"), *contained, *links]
    created = time.strftime("%Y-%m-%dT%H:%M:%SZ", time.gmtime(seconds))
    return {
        "spdxVersion": "SPDX-2.3",
        "dataLicense": "CC0-1.0",
        "SPDXID": "SPDXRef-DOCUMENT",
        "name": f"{NAME}_{version}",
        "documentNamespace": f"https://booth.example.org/spdx/{NAME}-{version}-{code}",
        "creationInfo": {"created": created, "creators": [SUPPLIER, "Tool: booth-spdx"]},
        "packages": [main, *packages],
        "files": files,
        "relationships": links,
    }


def main(words: List[str]) -> int:
    """Prints the document."""
    if len(words) != 4 or not words[2].isdigit():
        print("usage: python3 tools/spdx.py FOLDER VERSION SECONDS KIT", file=sys.stderr)
        return 2
    try:
        told = document(words[0], words[1], int(words[2]), words[3])
    except (NotElf, OSError) as why:
        print(f"spdx: {why}", file=sys.stderr)
        return 1
    print(json.dumps(told, indent=1))
    return 0


if __name__ == "__main__":
    sys.exit(main(sys.argv[1:]))
