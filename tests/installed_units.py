"""Checks the units: that systemd accepts them, how exposed they are, and how they start. For tests/installed.py.

It is imported by tests/installed.py, and not run by itself.
"""

import os
import re
import shutil
import subprocess

from checks import need
from installed_parts import SERVICES, TOP, on_loopback
from shells import read, run

# the greatest exposure of each service, by `systemd-analyze security`, in the order of HANDLERS.md
MOST_EXPOSED = {"booth-follow@": 4.9, "booth@": 2.0}


def unit_in(room, name, more=""):
    """Returns the path of the daemon's unit with the installed program, in a directory of this name, with these
    additional lines.
    """
    # (the programs are below the scratch root)
    os.makedirs(f"{room}/{name}")
    for service in SERVICES:
        unit = read(f"{room}/kept/usr/lib/systemd/system/{service}").replace("/usr/s", f"{room}/kept/usr/s")
        with open(f"{room}/{name}/{service}", "w", encoding="utf-8") as file:
            file.write(unit)
    if more:
        os.makedirs(f"{room}/{name}/booth@.service.d")
        with open(f"{room}/{name}/booth@.service.d/more.conf", "w", encoding="utf-8") as file:
            file.write(more.replace("/usr/sbin/", f"{room}/kept/usr/sbin/"))
    return f"{room}/{name}/booth@.service"


def drop_ins():
    """Returns the drop-ins that HANDLERS.md shows, and the installed one."""
    text = read(f"{TOP}/docs/HANDLERS.md")
    found = re.findall(r"^ {4,}\[Service\]\n(?: {4,}.*\n)+", text, re.M)
    need(len(found) > 1, f"HANDLERS.md has the drop-ins {found}")
    return [*(re.sub("^ +", "", each, flags=re.M) for each in found), read(f"{TOP}/packaging/journal.conf")]


def unit_is_sound(room):
    """systemd accepts the unit alone, with each drop-in of HANDLERS.md, and with the drop-in of the journal"""
    if not shutil.which("systemd-analyze"):
        return "systemd-analyze is not here"
    for number, more in enumerate(["", *drop_ins()]):
        unit = unit_in(room, f"units-{number}", more).replace("booth@", "booth@a")
        path = {**os.environ, "SYSTEMD_UNIT_PATH": f"{os.path.dirname(unit)}:"}
        follower = unit.replace("booth@a", "booth-follow@a")
        done = run("systemd-analyze", "verify", "--man=no", unit, follower, env=path)
        told = [line for line in (done.stdout + done.stderr).splitlines() if "booth" in line]
        need(not told, "; ".join(told))
    return None


def unit_is_confined(room):
    """the exposure of the daemon and the follower is as low as HANDLERS.md says"""
    if not shutil.which("systemd-analyze"):
        return "systemd-analyze is not here"
    unit = unit_in(room, "confined")
    written = re.findall(r"exposure of \*\*([0-9.]+)\*\*", read(f"{TOP}/docs/HANDLERS.md"))
    for number, (name, most) in enumerate(MOST_EXPOSED.items()):
        path = unit.replace("booth@", name)
        done = run("systemd-analyze", "security", "--offline=true", "--no-pager", path)
        if "offline" in done.stderr:
            return "this systemd-analyze judges no file"
        found = re.search(r"exposure level for \S+: ([0-9.]+)", done.stdout)
        need(found, done.stderr.strip() or "it tells no exposure")
        need(float(found[1]) <= most, f"the exposure of {name} is {found[1]}")
        # (another version of systemd may compute a slightly different exposure)
        is_told = number < len(written) and abs(float(written[number]) - float(found[1])) <= 0.3
        need(is_told, f"{found[1]} of {name}, and not what HANDLERS.md says")
    return None


def console_is_confined(room):
    """systemd accepts the console's unit, and its exposure is as low as that of the daemon"""
    if not shutil.which("systemd-analyze"):
        return "systemd-analyze is not here"
    os.makedirs(f"{room}/console")
    path, installed = f"{room}/console/booth-console.service", f"{room}/kept/usr"
    with open(path, "w", encoding="utf-8") as file:
        file.write(read(f"{installed}/lib/systemd/system/booth-console.service").replace("/usr/s", f"{installed}/s"))
    done = run("systemd-analyze", "verify", "--man=no", path)
    told = [line for line in (done.stdout + done.stderr).splitlines() if "booth" in line]
    need(not told, "; ".join(told))
    done = run("systemd-analyze", "security", "--offline=true", "--no-pager", path)
    if "offline" in done.stderr:
        return "this systemd-analyze judges no file"
    found = re.search(r"exposure level for \S+: ([0-9.]+)", done.stdout)
    need(found and float(found[1]) <= MOST_EXPOSED["booth@"], f"{done.stdout[-200:]}{done.stderr}")
    return None


def start_waits(room, conf, address, pid):
    """Returns the status of the unit's wait for the daemon, if the daemon has this process id."""
    unit = read(f"{room}/kept/usr/lib/systemd/system/booth@.service")
    found = re.search(r"^ExecStartPost=/bin/sh -c '(.*)'$", unit, re.M)
    need(found, "the unit waits for nothing")
    # (as systemd expands the line: its own variables, the instance, and a doubled dollar)
    words = found[1].replace("/usr/sbin/", f"{room}/kept/usr/sbin/").replace("/etc/booth/%i.conf", conf)
    words = words.replace("%i", "a").replace("$$", "\0").replace("${ADDRESS}", address).replace("\0", "$")
    return run("/bin/sh", "-c", words, env={**os.environ, "MAINPID": str(pid)})


def unit_waits_for_an_answer(room):
    """the unit's start succeeds when the daemon answers, and fails if the daemon has ended"""
    os.makedirs(f"{room}/waits")
    conf, address = on_loopback(f"{TOP}/examples/two-sites.conf", f"{room}/waits")
    words = [f"{room}/kept/usr/sbin/boothd", "daemon", "-c", conf, "-s", address, "-l", f"{room}/waits/lock"]
    with subprocess.Popen([*words, "-d", f"{room}/waits/records"], stderr=subprocess.DEVNULL) as daemon:
        try:
            done = start_waits(room, conf, address, daemon.pid)
            need((done.returncode, done.stdout + done.stderr) == (0, ""), f"status {done.returncode}: {done.stderr}")
        finally:
            daemon.kill()
    # (no process has this number now)
    done = start_waits(room, conf, address, daemon.pid)
    line = f"booth@a: the daemon at {address} does not answer\n"
    need((done.returncode, done.stderr) == (1, line), f"gone: {done.stderr}")
