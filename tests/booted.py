"""Machines that systemd boots: each has its own root file system over one image, and all share a network.

It is imported by tests/machines.py and tests/clusters.py, and not run by itself. Machines are booted by systemd-nspawn
as root. They are on a bridge in a network namespace that is made for them, so nothing that they send leaves this
machine. An image has Debian 12 with systemd and the packages that it names. It is made once, by debootstrap and
apt-get, below FOLDER.
"""

import contextlib
import os
import shutil
import signal
import subprocess
import time
from typing import IO, Dict, Iterable, Iterator, List, NamedTuple, Optional, Tuple

FOLDER = "/var/tmp/booth-machines"
BASE_PACKAGES = ("systemd", "systemd-sysv", "dbus", "iproute2", "procps", "python3", "nftables", "libpam-systemd")
SUITE = "bookworm"
MIRROR = "http://deb.debian.org/debian"
NEEDED = ("systemd-nspawn", "nsenter", "unshare", "ip", "mount")
SECONDS_TO_BOOT, SECONDS_TO_END, SECONDS_OF_A_COMMAND = 60, 30, 60
SECONDS_OF_AN_IMAGE = 1800
ENV = {"PATH": "/usr/local/sbin:/usr/local/bin:/usr/sbin:/usr/bin:/sbin:/bin", "LC_ALL": "C.UTF-8"}
BRIDGE = "booth0"
# the hierarchies of control groups in which the first process of a machine keeps those of its units
GROUPS = ("/sys/fs/cgroup/systemd", "/sys/fs/cgroup/unified", "/sys/fs/cgroup")
# the one that bounds how many processes there are, where it is one of its own
PROCESSES = "/sys/fs/cgroup/pids"
# Each boot of a machine has an id of its own, which systemd-nspawn mounts over that of the host. A unit whose /proc is
# a mount of its own (ProtectProc=) sees that of the host, which no boot of the machine changes. So the id is kept early
# in the boot, and such units have it mounted again. (The file that systemd-nspawn mounts has no name any more, and
# nothing can be mounted over it.)
BOOT_ID, KEPT_BOOT_ID = "/proc/sys/kernel/random/boot_id", "/run/own-boot-id"
KEEPS_BOOT_ID = f"""\
[Unit]
DefaultDependencies=no
Before=systemd-journald.service sysinit.target
[Service]
Type=oneshot
RemainAfterExit=yes
ExecStart=/bin/sh -c 'cat {BOOT_ID} >{KEPT_BOOT_ID} && umount -l {BOOT_ID} && mount --bind {KEPT_BOOT_ID} {BOOT_ID}'
"""
HAS_BOOT_ID = f"[Service]\nBindReadOnlyPaths={KEPT_BOOT_ID}:{BOOT_ID}\n"


class NotBooted(Exception):
    """A machine did not boot, or something that it needs is missing."""


class NoImage(NotBooted):
    """The image cannot be made."""


class Image(NamedTuple):
    """A root file system that machines share: its name below FOLDER, and the packages that it has.

    debootstrap resolves no alternatives among the packages that another one needs. So apt-get installs `more`, in the
    image, without starting anything.
    """

    name: str
    packages: Tuple[str, ...]
    more: Tuple[str, ...] = ()

    @property
    def path(self) -> str:
        """Returns the path of the image."""
        return f"{FOLDER}/{self.name}"


POSTGRESQL = Image("image", (*BASE_PACKAGES, "postgresql"))
# the same with needrestart, which one scenario needs
NEEDRESTART = Image("needrestart", POSTGRESQL.packages, ("needrestart",))


def missing(image: Image = POSTGRESQL) -> List[str]:
    """Returns what is missing here to boot machines over an image."""
    lacks = [name for name in NEEDED if shutil.which(name) is None]
    if not os.path.isdir(image.path) and shutil.which("debootstrap") is None:
        lacks.append("debootstrap")
    if os.geteuid() != 0:
        return [*lacks, "the rights of root"]
    if not lacks:
        probe = ["unshare", "--mount", "--net", "--pid", "--fork", "true"]
        done = subprocess.run(probe, stdin=subprocess.DEVNULL, capture_output=True, check=False)
        lacks += ["namespaces of its own"] if done.returncode != 0 else []
    return lacks


def make_image(image: Image = POSTGRESQL) -> None:
    """Makes an image, unless it exists."""
    if os.path.isdir(image.path):
        return
    os.makedirs(FOLDER, exist_ok=True)
    begun, at = f"{image.path}.{os.getpid()}", f"{FOLDER}/{image.name}.log"
    words = ["debootstrap", "--variant=minbase", "--include=" + ",".join(image.packages), SUITE, begun, MIRROR]
    with open(at, "wb") as log:
        try:
            _log_command(words, log)
            if image.more:
                _install(begun, image.more, log)
        except NoImage as why:
            # (what debootstrap has mounted there is left alone)
            subprocess.run(["rm", "-rf", "--one-file-system", begun], check=False)
            raise NoImage(f"{why}: {at}") from None
    os.rename(begun, image.path)


def _log_command(words: List[str], log: IO[bytes]) -> None:
    """Runs a command that makes an image. Raises `NoImage` if it fails."""
    done = subprocess.run(
        words,
        stdin=subprocess.DEVNULL,
        stdout=log,
        stderr=log,
        timeout=SECONDS_OF_AN_IMAGE,
        check=False,
        env={**os.environ, **ENV, "DEBIAN_FRONTEND": "noninteractive"},
    )
    if done.returncode != 0:
        raise NoImage(f"{words[0] if words[0] != 'chroot' else words[2]} failed")


def _install(root: str, packages: Tuple[str, ...], log: IO[bytes]) -> None:
    """Installs packages in an image, without starting their services."""
    policy = f"{root}/usr/sbin/policy-rc.d"
    with open(policy, "w", encoding="ascii") as file:
        file.write("#!/bin/sh\nexit 101\n")
    os.chmod(policy, 0o755)
    _log_command(["chroot", root, "apt-get", "install", "-qy", "--no-install-recommends", *packages], log)
    _log_command(["chroot", root, "apt-get", "clean"], log)
    os.remove(policy)


class Network:
    """A bridge in a network namespace, to which machines are connected."""

    def __init__(self, name: str) -> None:
        self.name = name

    def ip(self, *words: str) -> None:
        """Runs `ip` in the namespace."""
        subprocess.run(["ip", "-n", self.name, *words], check=True)

    def __enter__(self) -> "Network":
        subprocess.run(["ip", "netns", "add", self.name], check=True)
        self.ip("link", "set", "lo", "up")
        self.ip("link", "add", BRIDGE, "type", "bridge")
        self.ip("link", "set", BRIDGE, "up")
        return self

    def __exit__(self, *_: object) -> None:
        subprocess.run(["ip", "netns", "del", self.name], check=False)


class Machine:
    """A machine, which can be booted, disconnected, killed and booted again. What it wrote to its disk stays. Before a
    boot `bridge` may name another bridge of the network, and `options` additional options of systemd-nspawn.
    """

    def __init__(self, network: Network, folder: str, name: str, address: str, image: Image = POSTGRESQL) -> None:
        self.network, self.name, self.address = network, name, address
        self.bridge = BRIDGE
        self.options: List[str] = []
        self.is_cut = False
        self.folder = f"{folder}/{name}"
        self.root = f"{self.folder}/root"
        self.process: Optional["subprocess.Popen[bytes]"] = None
        self.leader = 0
        for part in ("upper", "work", "root"):
            os.makedirs(f"{self.folder}/{part}")
        layers = f"lowerdir={image.path},upperdir={self.folder}/upper,workdir={self.folder}/work"
        subprocess.run(["mount", "-t", "overlay", "overlay", "-o", layers, self.root], check=True)
        self.write("/etc/systemd/network/10-host0.network", f"[Match]\nName=host0\n[Network]\nAddress={address}/24\n")
        self.write("/etc/hostname", f"{name}\n")
        self.write("/etc/machine-id", "")
        self.enable("systemd-networkd.service")

    def write(self, path: str, text: str, mode: int = 0o644) -> None:
        """Writes a file of the machine, which need not run."""
        os.makedirs(os.path.dirname(self.root + path), exist_ok=True)
        with open(self.root + path, "w", encoding="utf-8") as file:
            file.write(text)
        os.chmod(self.root + path, mode)

    def remove(self, path: str) -> None:
        """Removes a file of the machine, if it exists."""
        with contextlib.suppress(FileNotFoundError):
            os.remove(self.root + path)

    def enable(self, unit: str) -> None:
        """Has systemd start a unit at each boot."""
        wants = f"{self.root}/etc/systemd/system/multi-user.target.wants"
        os.makedirs(wants, exist_ok=True)
        with contextlib.suppress(FileExistsError):
            os.symlink(f"/lib/systemd/system/{unit}", f"{wants}/{unit}")

    def give_boot_id(self, *units: str) -> None:
        """Lets units read the id of the machine's own boot, even if they are protected from other files. This needs the
        next boot.
        """
        self.write("/etc/systemd/system/own-boot-id.service", KEEPS_BOOT_ID)
        wants = f"{self.root}/etc/systemd/system/sysinit.target.wants"
        os.makedirs(wants, exist_ok=True)
        with contextlib.suppress(FileExistsError):
            os.symlink("/etc/systemd/system/own-boot-id.service", f"{wants}/own-boot-id.service")
        for unit in units:
            self.write(f"/etc/systemd/system/{unit}.d/own-boot-id.conf", HAS_BOOT_ID)

    def boot(self, wait: bool = True) -> None:
        """Boots it, and by default waits until systemd has started its units."""
        words = ["nsenter", f"--net=/run/netns/{self.network.name}", "systemd-nspawn", "-q", "-D", self.root, "-b"]
        words += [f"--machine={self.name}", "--register=no", "--keep-unit", f"--network-bridge={self.bridge}"]
        words += ["--kill-signal=SIGRTMIN+3", "--console=passive", "--link-journal=no"]
        words += ["--resolv-conf=off", "--timezone=off", *self.options]
        with open(f"{self.folder}/console.log", "ab") as log:
            self.process = subprocess.Popen(
                words,
                stdin=subprocess.DEVNULL,
                stdout=log,
                stderr=log,
                start_new_session=True,
                preexec_fn=self._enter_groups,
            )
        end = time.monotonic() + SECONDS_TO_BOOT
        while not self._find_leader():
            if time.monotonic() > end or self.process.poll() is not None:
                raise NotBooted(f"{self.name} did not boot: {self.folder}/console.log")
            time.sleep(0.05)
        if self.is_cut:
            self.cut()
        while wait and not self.is_booted():
            if time.monotonic() > end:
                raise NotBooted(f"{self.name} did not boot in time: {self.folder}/console.log")
            time.sleep(0.2)

    def is_booted(self) -> bool:
        """Returns whether systemd has started its units."""
        return self.run("systemctl", "is-system-running").stdout.strip() in (b"running", b"degraded")

    def _groups(self) -> List[str]:
        """Returns the paths of the machine's own control groups: without these, machines would share their units'
        groups.
        """
        return [f"{at}/{self.network.name}-{self.name}" for at in GROUPS if os.path.exists(f"{at}/cgroup.procs")]

    def _enter_groups(self) -> None:
        """Puts this process into the machine's control groups."""
        for group in self._groups():
            os.makedirs(group, exist_ok=True)
            with open(f"{group}/cgroup.procs", "w", encoding="ascii") as file:
                file.write(str(os.getpid()))

    def _remove_groups(self) -> None:
        """Removes the machine's control groups, which are empty by then."""
        for group in self._groups():
            for at, _, _ in os.walk(group, topdown=False):
                with contextlib.suppress(OSError):
                    os.rmdir(at)

    def host_pid(self, pid: str) -> str:
        """Returns the process id on the host of a process of the machine."""
        own = os.readlink(f"/proc/{self.leader}/ns/pid")
        for each in os.listdir("/proc"):
            with contextlib.suppress(OSError):
                if each.isdigit() and os.readlink(f"/proc/{each}/ns/pid") == own:
                    with open(f"/proc/{each}/status", encoding="ascii", errors="replace") as file:
                        if any(line.split()[-1] == pid for line in file if line.startswith("NSpid:")):
                            return each
        raise NotBooted(f"{self.name} has no process {pid}")

    @contextlib.contextmanager
    def without_processes(self, pid: str) -> Iterator[None]:
        """Lets a process of the machine start no other processes for a while."""
        if not os.path.exists(f"{PROCESSES}/cgroup.procs"):
            raise NotBooted(f"there is no {PROCESSES} here")
        group = f"{PROCESSES}/{self.network.name}-{self.name}"
        os.makedirs(group, exist_ok=True)
        for name, value in (("pids.max", "1"), ("cgroup.procs", self.host_pid(pid))):
            with open(f"{group}/{name}", "w", encoding="ascii") as file:
                file.write(value)
        try:
            yield
        finally:
            with open(f"{group}/pids.max", "w", encoding="ascii") as file:
                file.write("max")

    def _find_leader(self) -> bool:
        """Finds the first process of the machine."""
        assert self.process is not None
        with open(f"/proc/{self.process.pid}/task/{self.process.pid}/children", encoding="ascii") as file:
            children = file.read().split()
        for child in children:
            with contextlib.suppress(OSError):
                if os.path.basename(os.readlink(f"/proc/{child}/exe")) == "systemd":
                    self.leader = int(child)
                    return True
        return False

    def run(self, *words: str, timeout: float = SECONDS_OF_A_COMMAND) -> "subprocess.CompletedProcess[bytes]":
        """Runs a command in the machine, and returns how it ended and what it printed."""
        # (in a session of its own: what ends all that runs in a machine is not to end this process)
        return subprocess.run(
            self._entering(words),
            stdin=subprocess.DEVNULL,
            capture_output=True,
            timeout=timeout,
            check=False,
            env=ENV,
            start_new_session=True,
        )

    def _entering(self, words: Iterable[str]) -> List[str]:
        """Returns the command that runs these words inside the machine."""
        return ["nsenter", "-t", str(self.leader), "-a", "--", *words]

    def is_up(self) -> bool:
        """Returns whether its first process runs."""
        return self.process is not None and self.process.poll() is None

    def read(self, path: str) -> str:
        """Returns the content of a file on its disk, or an empty text if the file is missing."""
        try:
            with open(self.root + path, encoding="utf-8", errors="replace") as file:
                return file.read()
        except FileNotFoundError:
            return ""

    def must(self, *words: str, timeout: float = SECONDS_OF_A_COMMAND) -> str:
        """Runs a command that must succeed, and returns what it printed."""
        done = self.run(*words, timeout=timeout)
        if done.returncode != 0:
            said = (done.stderr or done.stdout).decode(errors="replace").strip()
            raise NotBooted(f"{self.name}: {' '.join(words)}: {done.returncode}: {said}")
        return done.stdout.decode(errors="replace")

    def cut(self, is_cut: bool = True) -> None:
        """Disconnects its cable, or connects it again. A disconnected cable stays so through boots."""
        self.is_cut = is_cut
        if self.is_up():
            self.network.ip("link", "set", f"vb-{self.name}", "down" if is_cut else "up")

    def lose_power(self) -> None:
        """Ends every process of the machine at once."""
        if self.process is not None and self.process.poll() is None:
            with contextlib.suppress(ProcessLookupError):
                os.kill(self.leader, signal.SIGKILL)
            self.process.wait(SECONDS_TO_END)
        self.process = None
        self._remove_groups()

    def close(self) -> None:
        """Ends the machine, and unmounts its disk."""
        self.lose_power()
        subprocess.run(["umount", "-l", self.root], check=False)


@contextlib.contextmanager
def machines(
    name: str, folder: str, addresses: Dict[str, str], image: Image = POSTGRESQL
) -> Iterator[Dict[str, Machine]]:
    """Yields machines with these names and addresses, not booted yet, on a network with this name."""
    make_image(image)
    made: Dict[str, Machine] = {}
    with Network(name) as network:
        try:
            for each, address in addresses.items():
                made[each] = Machine(network, folder, each, address, image)
            yield made
        finally:
            for machine in made.values():
                machine.close()
