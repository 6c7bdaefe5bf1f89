"""Shared parts of the checks of tests/installed.py: the installed files, their installation, and a loopback cluster.

It is imported by tests/installed.py and its parts, and not run by itself.
"""

import os
import re
import socket
import time

from checks import Wrong, need
from frames import PORT
from serving import own_addresses
from shells import read, run

TOP = os.path.dirname(os.path.dirname(os.path.abspath(__file__)))
# each program with its commands; programs that are not built are skipped
PROGRAMS = {
    "boothd": ["daemon", "status", "sim", "audit"],
    "booth": ["list", "show", "peers", "status", "grant", "revoke", "move"],
    "geostore": ["set", "get", "delete", "list"],
    # (it has no commands)
    "booth-follow": [],
}
SERVICES = ("booth@.service", "booth-follow@.service")
NEEDRESTART = "etc/needrestart/conf.d/booth.conf"


def make(*words, **more):
    done = run("make", "--no-print-directory", *words, cwd=TOP, **more)
    need(done.returncode == 0, f"make {' '.join(words)}: {done.stderr.strip()}")


def files_below(folder):
    return sorted(os.path.relpath(os.path.join(at, name), folder) for at, _, names in os.walk(folder) for name in names)


def on_loopback(example, room):
    """Returns a file like the example, with its members on loopback and a key that exists, and its first member."""
    text, own = read(example), own_addresses()
    members = re.findall(r"^ *(?:site|arbitrator) *= *\W?([0-9a-f.:]+)", text, re.M)
    addresses = {member: next(own) for member in members}
    longest_first = sorted(members, key=len, reverse=True)
    text = re.sub("|".join(map(re.escape, longest_first)), lambda found: addresses[found[0]], text)
    key = f"{room}/a-key"
    if not os.path.exists(key):
        need(run(f"{TOP}/packaging/booth-keygen", key).returncode == 0, "no key was made")
    path = f"{room}/{os.path.basename(example)}"
    with open(path, "w", encoding="utf-8") as file:
        file.write(text.replace("/etc/booth/authkey", key))
    return path, addresses[re.search(r"^ *site *= *\W?([0-9a-f.:]+)", read(example), re.M)[1]]


def wait_until_bound(daemon, address):
    """Waits until the daemon has opened its port."""
    for _ in range(3000):
        need(daemon.poll() is None, f"the daemon ended with {daemon.returncode}")
        with socket.socket(socket.AF_INET, socket.SOCK_DGRAM) as other:
            try:
                other.bind((address, PORT))
            except OSError:
                return
        time.sleep(0.01)
    raise Wrong("the daemon has no port")
