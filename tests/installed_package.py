"""Checks the Debian package: its contents, its installation by dpkg, and that it works. For tests/installed.py.

It is imported by tests/installed.py, and not run by itself.
"""

import gzip
import hashlib
import json
import os
import re
import shutil
import subprocess

from checks import need
from installed_parts import NEEDRESTART, PROGRAMS, TOP, files_below, make, on_loopback, wait_until_bound
from installed_tools import TOOLS, tools_look
from shells import read, run

# what is in the package, and is installed in no other way
SPDX = "usr/share/doc/booth-proved/booth-proved.spdx.json"


def package_is_the_same_each_time(room):
    """two builds of the package, with other times, rights and languages, are the same bytes"""
    if not shutil.which("dpkg-deb"):
        return "dpkg-deb is not here"
    sums = []
    for mask, zone, language in ((0o022, "UTC", "C"), (0o077, "Asia/Tokyo", "C.UTF-8")):
        env = {**os.environ, "TZ": zone, "LC_ALL": language}
        make("deb", "COMPRESSION=none", env=env, preexec_fn=lambda mask=mask: os.umask(mask))
        with open(package(), "rb") as file:
            sums.append(hashlib.sha256(file.read()).hexdigest())
    need(sums[0] == sums[1], "the second one differs")
    env = {**os.environ, "SOURCE_DATE_EPOCH": "1700000000"}
    make("deb", "COMPRESSION=none", env=env)
    listed = run("dpkg-deb", "-c", package(), env={**os.environ, "TZ": "UTC"}).stdout.splitlines()
    # (the date of 1,700,000,000 seconds since 1970)
    other = [line for line in listed if " 2023-11-14 22:13 " not in line]
    need(listed and not other, f"another time: {other[:3]}")
    return None


def package_says_what_is_not_proved(room):
    """make deb refuses a program without the mark of a proof, unless it is told; then the description says so"""
    if not shutil.which("dpkg-deb"):
        return "dpkg-deb is not here"
    # (no program has these letters, as none that rt try built has the mark)
    unmarked = ["make", "--no-print-directory", "deb", "COMPRESSION=none", "PROVED_MARK=no such mark"]
    done = run(*unmarked, cwd=TOP)
    need(done.returncode == 2 and "out/boothd is not proved: make build proves it" in done.stderr, done.stderr)
    done = run(*unmarked, "UNPROVED=1", cwd=TOP)
    need(done.returncode == 0, done.stderr)
    told = run("dpkg-deb", "-f", package(), "Description").stdout
    need("NOT PROVED" in told.splitlines()[0] and "were not proved: use them for tests only." in told, told)
    need("It is proved" not in told, told)
    return None


def package_lists_what_is_linked(room):
    """the SPDX document in the package has each file with its checksums, and each library of the program"""
    if not shutil.which("dpkg-deb"):
        return "dpkg-deb is not here"
    with open(f"{room}/scratch/{SPDX}", encoding="utf-8") as file:
        told = json.load(file)
    need(told["spdxVersion"] == "SPDX-2.3" and told["dataLicense"] == "CC0-1.0", str(told)[:200])
    there = {f"./{path}" for path in files_below(f"{room}/scratch")} - {f"./{SPDX}"}
    need({each["fileName"] for each in told["files"]} == there, "it has other files than the package")
    sums = []
    for each in told["files"]:
        with open(f"{room}/scratch/{each['fileName']}", "rb") as file:
            data = file.read()
        found = {one["algorithm"]: one["checksumValue"] for one in each["checksums"]}
        sums.append(hashlib.sha1(data).hexdigest())
        need(found == {"SHA1": sums[-1], "SHA256": hashlib.sha256(data).hexdigest()}, each["fileName"])
    # (section 7.9 of the specification: the SHA-1 of the files' SHA-1 sums, sorted and one after the other)
    code = hashlib.sha1("".join(sorted(sums)).encode()).hexdigest()
    main = told["packages"][0]
    need(main["packageVerificationCode"]["packageVerificationCodeValue"] == code, str(main))
    names = {each["name"] for each in told["packages"][1:]}
    need({"arrayvec", "clap", "mio", "sha1", "sha2", "libc.so.6"} <= names, f"it has only {sorted(names)}")
    need(not [name for name in names if name.startswith("booth")], f"a crate of this tree is a library: {names}")
    if shutil.which("readelf"):
        said = run("readelf", "-d", f"{room}/scratch/usr/sbin/boothd").stdout
        loaded = set(re.findall(r"\(NEEDED\).*\[(.*)\]", said))
        need(loaded == {name for name in names if ".so" in name}, f"{loaded} are loaded")
    ids = {each["SPDXID"] for each in (*told["packages"], *told["files"])} | {"SPDXRef-DOCUMENT"}
    ends = {each[name] for each in told["relationships"] for name in ("spdxElementId", "relatedSpdxElement")}
    need(ends <= ids and len(ids) == len(told["packages"]) + len(told["files"]) + 1, "a relationship leads nowhere")
    return None


def package_is_whole(room):
    """the package has every installed file, runs from a scratch root, and prints its version"""
    if not shutil.which("dpkg-deb"):
        return "dpkg-deb is not here"
    # (the files of the package must have their modes whatever the umask is)
    make("deb", preexec_fn=lambda: os.umask(0o077))
    built = package()
    told = run("dpkg-deb", "-f", built).stdout
    need("Package: booth-proved" in told and "Conflicts: booth" in told, told)
    need(run("dpkg-deb", "-x", built, f"{room}/scratch").returncode == 0, "it is not unpacked")
    packed = [re.sub(r"(/man/.*|/changelog)\.gz$", r"\1", name) for name in files_below(f"{room}/scratch")]
    need(sorted({*packed} - {SPDX}) == files_below(f"{room}/kept"), "it has other files than make install")
    listed = run("dpkg-deb", "-c", built).stdout.splitlines()
    # (the mode of a link is that of its target)
    hidden = [line for line in listed if not re.match("drwxr-xr-x|-rw[x-]r-[x-]r-[x-]|lrwxrwxrwx", line)]
    need(not hidden, f"not for everybody: {hidden}")
    with gzip.open(f"{room}/scratch/usr/share/man/man8/boothd.8.gz", "rt", encoding="utf-8") as file:
        need(file.read() == read(f"{TOP}/man/boothd.8"), "the page is another")
    need(run("dpkg-deb", "-e", built, f"{room}/scripts").returncode == 0, "its scripts are not unpacked")
    for name in ("postinst", "prerm", "postrm"):
        need(run("sh", "-n", f"{room}/scripts/{name}").returncode == 0, f"{name} is no program of the shell")
    need(read(f"{room}/scripts/conffiles") == f"/{NEEDRESTART}\n", "what is below /etc is no file of a configuration")
    wanted = re.search(r"^ *Depends: libc6 \(>= 2\.(\d+)\)$", told, re.M)
    need(wanted, f"it does not say which C library it needs: {told}")
    for program in PROGRAMS:
        with open(f"{room}/scratch/usr/sbin/{program}", "rb") as file:
            versions = [int(number) for number in re.findall(rb"GLIBC_2\.(\d+)", file.read())]
        need(max(versions, default=0) <= int(wanted[1]), f"{program} needs the C library 2.{max(versions, default=0)}")
    return None


def package():
    """Returns the path of the built package."""
    built = [f"{TOP}/out/{name}" for name in os.listdir(f"{TOP}/out") if re.fullmatch(r"booth-proved_.*\.deb", name)]
    need(len(built) == 1, f"out/ has the packages {built}")
    return built[0]


def package_has_no_fault(room):
    """lintian finds no error in the package"""
    if not shutil.which("lintian") or not shutil.which("dpkg-deb"):
        return "lintian or dpkg-deb is not here"
    done = run("lintian", "--fail-on", "error", "--allow-root", package())
    need(done.returncode == 0, done.stdout + done.stderr)
    return None


def package_comes_and_goes(room):
    """dpkg installs the package in its own root, its programs run there, and dpkg removes it"""
    if not shutil.which("dpkg") or not shutil.which("dpkg-deb"):
        return "dpkg is not here"
    root = f"{room}/other-root"
    os.makedirs(f"{root}/var/lib/dpkg/info")
    os.makedirs(f"{root}/etc")
    for name in ("status", "available"):
        with open(f"{root}/var/lib/dpkg/{name}", "w", encoding="utf-8"):
            pass
    # (the package's scripts get the root as an argument, since it has no shell; its C library is that of this machine)
    dpkg = ["dpkg", f"--root={root}", "--force-script-chrootless", "--force-depends", "--force-bad-path"]
    dpkg += ["--force-not-root"] if os.geteuid() else []
    env = {**os.environ, "PATH": f"{os.environ['PATH']}:/usr/sbin:/sbin", "LC_ALL": "C"}
    done = run(*dpkg, "--install", package(), env=env)
    need(done.returncode == 0, done.stdout + done.stderr)
    told = run("dpkg", f"--root={root}", "--status", "booth-proved").stdout
    need("Status: install ok installed" in told, told)
    listed = run("dpkg", f"--root={root}", "--listfiles", "booth-proved").stdout.split()
    for name in (*PROGRAMS, *TOOLS, "booth-keygen"):
        need(f"/usr/sbin/{name}" in listed, f"/usr/sbin/{name} is not listed")
    need(os.path.isdir(f"{root}/etc/booth"), "/etc/booth was not made")
    need(re.search("^booth:", read(f"{root}/etc/passwd"), re.M), "the user booth was not made")
    asks_in(f"{root}/usr", f"{room}/asked")
    # (a removal leaves the file of needrestart, like every configuration file)
    done = run(*dpkg, "--purge", "booth-proved", env=env)
    need(done.returncode == 0, done.stdout + done.stderr)
    left = [name for name in files_below(root) if "booth" in name and not name.startswith("var/lib/dpkg/")]
    need(not left, f"left: {left}")
    return None


def asks_in(prefix, room):
    """Checks that the daemon below this prefix serves an example, and answers its clients."""
    os.makedirs(room)
    conf, address = on_loopback(f"{prefix}/share/doc/booth-proved/examples/two-sites.conf", room)
    words = [f"{prefix}/sbin/boothd", "daemon", "-c", conf, "-s", address]
    words += ["-l", f"{room}/lock", "-d", f"{room}/records"]
    nothing = dict.fromkeys(("stdin", "stdout", "stderr"), subprocess.DEVNULL)
    with subprocess.Popen(words, **nothing) as daemon:
        try:
            wait_until_bound(daemon, address)
            done = run(f"{prefix}/sbin/booth", "list", "-c", conf)
            need(done.stdout == "ticket: ticket-db8, leader: none\n", f"booth list: {done.stdout}{done.stderr}")
            done = run(f"{prefix}/sbin/geostore", "set", "-c", conf, "-t", "ticket-db8", "ready", "yes")
            need(done.returncode == 0, f"geostore set: {done.stderr}")
            done = run(f"{prefix}/sbin/geostore", "list", "-c", conf, "-t", "ticket-db8")
            need(done.stdout == "ready yes\n", f"geostore list: {done.stdout}{done.stderr}")
            tools_look(f"{prefix}/sbin", conf, room)
        finally:
            daemon.kill()
