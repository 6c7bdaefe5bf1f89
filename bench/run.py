#!/usr/bin/env python3
"""Measures the proved boothd on loopback, and compares it with two programs in C: a bare echo and a counter of lines.

Run it as `python3 bench/run.py [--quick] [PROGRAM]`. PROGRAM is a boothd, by default the one that `make build` leaves.
The bench prints one table. Its status is 1 if a mark is missed by more than a tenth. It builds four programs in C with
cc, needs Linux's /proc, and takes half a minute; --quick takes some seconds. Other work on the machine slows some
rounds down. So a speed is that of the best of many short rounds, and a start has its lowest time beside the median.
"""

import itertools
import os
import socket
import statistics
import subprocess
import sys
import tempfile
import time
from typing import NamedTuple

HERE = os.path.dirname(os.path.abspath(__file__))
sys.path.insert(0, f"{HERE}/../tools")

import frames
from frames import MEMBERS_SAY, NO_ONE, member_id, request_now
from rows import Row, at_least, below, print_table
from serving import NotServing, Server, boothd, built_program, end_by_signals, exit_code, own_addresses
from texts import long_text, many_tickets, one_ticket

KEY = b"k" * 32
SITE, VOTER, STRANGER = "192.168.202.100", "192.168.203.100", "192.168.204.100"
SEED = 9929
NO_MEMBER = "10.0.0.1"

# the sizes of the parsed configurations, in bytes; each 4 KiB have one ticket
SIZES = (1 << 20, 4 << 20, 16 << 20)

# the field of /proc/PID/status that counts how often the process waited
WAKES = "voluntary_ctxt_switches"


class Effort(NamedTuple):
    """The numbers of rounds, requests, starts and frames of a run."""

    rounds: int
    lists_a_round: int
    starts: int
    hostile: int
    parses: int
    idle_seconds: int


WHOLE = Effort(60, 5_000, 40, 1_000_000, 20, 10)
QUICK = Effort(5, 5_000, 5, 50_000, 5, 1)


class Bench:
    """The programs, a folder for their files, and the addresses of the daemon and of the echo."""

    def __init__(self, program, folder, effort):
        self.program = program
        self.folder = folder
        self.effort = effort
        self.address, self.echo_address = itertools.islice(own_addresses(), 2)
        self.asker, self.echo = self.built("asker"), self.built("echo")
        self.flood, self.lines = self.built("flood"), self.built("lines")
        self.key_file = self.file("key", KEY)

    def built(self, name):
        """Builds a program of this folder, and returns its path."""
        made = f"{self.folder}/{name}"
        subprocess.run(["cc", "-O2", "-o", made, f"{HERE}/{name}.c"], check=True)
        return made

    def file(self, name, content):
        """Writes a file, and returns its path."""
        path = f"{self.folder}/{name}"
        with open(path, "wb") as file:
            file.write(content)
        return path

    def daemon(self, text, key=None):
        """Returns a daemon with this configuration, in which `@` stands for its address."""
        text = text.replace(b"@", self.address.encode())
        if key:
            text += b"authfile = %s\n" % self.key_file.encode()
        places = ("-l", f"{self.folder}/lock", "-d", f"{self.folder}/records")
        return boothd(self.program, self.file("booth.conf", text), self.address, key=key, options=places)

    def said(self, *words):
        """Runs a program in C. Returns the numbers that it prints, the first one in seconds."""
        ran = subprocess.run(words, stdout=subprocess.PIPE, check=True)
        took, *others = map(int, ran.stdout.split())
        return [took / 1e9, *others]

    def requests(self, key):
        """Writes 1,000 requests for the list of tickets, and returns the file's path."""
        return self.file("requests", b"".join(request_now("CLst", n, key=key) for n in range(1000)))

    def lists(self, address, key=None):
        """Returns how long a list request takes, in seconds: the mean of a round."""
        count, path = self.effort.lists_a_round, self.requests(key)
        return self.said(self.asker, "lists", address, path, str(count))[0] / count

    def starts(self, text):
        """Returns the time from a start to the first answer of each start, in seconds."""
        words, path = self.daemon(text).words, self.requests(None)
        start = [self.asker, "start", self.address, path, *words]
        return [self.said(*start)[0] for _ in range(self.effort.starts)]

    def peers(self, key):
        """Asks the daemon for its peers. Returns its eight drop counters, and how many frames it accepted."""
        with socket.socket(socket.AF_INET, socket.SOCK_DGRAM) as asker:
            asker.settimeout(5)
            asker.connect((self.address, frames.PORT))
            asker.send(request_now("Peer", 1, key=key))
            reply = asker.recv(frames.FRAME_BYTES)
        text = reply[frames.HEAD_BYTES : len(reply) - (frames.AUTH_BYTES if key else 0)]
        first, *others = text.decode("ascii").splitlines()
        return list(map(int, first.split()[1:])), sum(int(line.split()[3]) for line in others)


def require(holds, what):
    """Raises `NotServing` with this text if a condition is false."""
    if not holds:
        raise NotServing(what)


def cpu_seconds(process):
    """Returns the CPU time of a process since its start, in seconds."""
    with open(f"/proc/{process.pid}/schedstat") as file:
        return int(file.read().split()[0]) / 1e9


def status_field(process, name):
    """Returns a number from /proc/PID/status; sizes are in kB."""
    with open(f"/proc/{process.pid}/status") as file:
        return next(int(line.split()[1]) for line in file if line.startswith(f"{name}:"))


def lost_datagrams(address):
    """Returns how many datagrams the kernel dropped at the sockets of an address, for lack of room."""
    place = "%08X:%04X" % (int.from_bytes(socket.inet_aton(address), "little"), frames.PORT)
    with open("/proc/net/udp") as file:
        return sum(int(line.split()[-1]) for line in file if line.split()[1] == place)


class Speeds:
    """The measured rounds of one server: the seconds per list request, and the CPU time of the server."""

    def __init__(self):
        self.seconds = []
        self.cpu = 0

    def round(self, bench, server, address, key=None):
        """Measures one more round."""
        before = cpu_seconds(server.process)
        self.seconds.append(bench.lists(address, key))
        self.cpu += cpu_seconds(server.process) - before

    def lists_a_second(self):
        """Returns the list requests per second in the best round."""
        return 1 / min(self.seconds)

    def micros(self, bench):
        """Returns the server's CPU time per list request, in microseconds."""
        return self.cpu / len(self.seconds) / bench.effort.lists_a_round * 1e6

    def ratio_to(self, other):
        """Returns the ratio of this server's speed to that of another one."""
        return self.lists_a_second() / other.lists_a_second()


def speed_rows(bench):
    """Measures list requests. The rounds of the echo and of the daemons alternate, so other work slows all down alike."""
    echoed, plain, keyed = Speeds(), Speeds(), Speeds()
    with Server([bench.echo, bench.echo_address], bench.echo_address) as echo:
        for _ in range(bench.effort.rounds):
            echoed.round(bench, echo, bench.echo_address)
            with bench.daemon(one_ticket()) as daemon:
                plain.round(bench, daemon, bench.address)
            with bench.daemon(one_ticket(), KEY) as daemon:
                keyed.round(bench, daemon, bench.address, KEY)
    speed, echo_speed = plain.lists_a_second(), echoed.lists_a_second()
    yield Row("list requests a second, one client", f"{speed:,.0f} (echo: {echo_speed:,.0f})")
    ratio = plain.ratio_to(echoed)
    yield at_least("ratio of this speed to that of the echo", ratio, f"{ratio:.2f}", 0.8)
    yield Row("list requests a second, with a key", f"{keyed.lists_a_second():,.0f}")
    ratio = keyed.ratio_to(plain)
    yield at_least("ratio of this speed to that without a key", ratio, f"{ratio:.2f}", 0.75)
    micros = plain.micros(bench)
    shown = f"{micros:.1f} µs (echo: {echoed.micros(bench):.1f} µs)"
    yield below("daemon CPU time per list request", micros, shown, 12, "µs")
    yield Row("daemon CPU time per list request, with a key", f"{keyed.micros(bench):.1f} µs")


def full_rows(bench):
    """Measures list requests and memory with 64 tickets."""
    with bench.daemon(many_tickets()) as daemon:
        full = Speeds()
        full.round(bench, daemon, bench.address)
        resident, peak = (status_field(daemon.process, name) for name in ("VmRSS", "VmHWM"))
    yield Row("daemon CPU time per list request, 64 tickets", f"{full.micros(bench):.1f} µs")
    for name, kilobytes in (("resident memory", resident), ("peak memory", peak)):
        shown, part = f"{kilobytes:,} kB", kilobytes * 1024 / 4_000_000
        yield Row(f"{name}, 64 tickets", shown, "below 4 MB", part)


def start_rows(bench):
    """Measures starts with 1 ticket and with 64."""
    for name, text in (("1 ticket", one_ticket()), ("64 tickets", many_tickets())):
        took = bench.starts(text)
        millis, lowest = statistics.median(took) * 1e3, min(took) * 1e3
        shown = f"{millis:.1f} ms (lowest: {lowest:.1f} ms)"
        yield below(f"from start to first answer, {name}", millis, shown, 5, "ms")


def one_run(words):
    """Runs a program without showing its output. Returns the time from exec to exit, in seconds."""
    null = [(os.POSIX_SPAWN_OPEN, 1, os.devnull, os.O_WRONLY, 0)]
    started = time.perf_counter()
    child = os.posix_spawn(words[0], words, os.environ, file_actions=null)
    _, status = os.waitpid(child, 0)
    took = time.perf_counter() - started
    if status:
        raise NotServing(f"{' '.join(words)} ended with {exit_code(status)}")
    return took


def client_rows(bench):
    """Measures `booth list`, if `booth` is built."""
    client = built_program("booth")
    if client is None:
        return
    with bench.daemon(one_ticket()):
        words = [client, "list", "-c", f"{bench.folder}/booth.conf", "-s", bench.address]
        took = [one_run(words) for _ in range(10 * bench.effort.starts)]
    millis, lowest = statistics.median(took) * 1e3, min(took) * 1e3
    yield below("booth list, from exec to exit", millis, f"{millis:.2f} ms (lowest: {lowest:.2f} ms)", 1.5, "ms")


def said(letters, sender, key, ticket=b"ticket-db8", leader=NO_ONE, **fields):
    """Returns a frame with this command from the member with the address `sender`."""
    leader = member_id(sender) if letters in ("RVot", "HrtB", "UpdE") else leader
    body = frames.ticket_body(ticket, leader, 7, 600)
    return request_now(letters, 0, body, key, sender=member_id(sender), **fields)


def seeds_of_hostility():
    """Yields a frame of each kind that the daemon's checks distinguish. bench/flood.c derives the others from them."""
    for letters in MEMBERS_SAY:
        yield said(letters, SITE, KEY)
        yield said(letters, SITE, None)
        yield said(letters, SITE, KEY, secs=1_000_000)
        yield said(letters, STRANGER, KEY)
        yield said(letters, SITE, KEY, ticket=b"another")
    yield said("Stat", SITE, KEY, leader=member_id(VOTER))
    yield said("HrtB", VOTER, KEY)
    for letters in ("CLst", "Peer"):
        yield request_now(letters, 7, key=KEY)
        yield request_now(letters, 7)
    yield request_now("ASet", 7, frames.attribute_body(b"ticket-db8", b"color", b"red"), KEY)
    yield request_now("CGnt", 7, frames.ticket_body(b"ticket-db8", NO_ONE, 0, 0), KEY)
    yield request_now("RLst", 7, b"ticket-db8 none 0\n" * 20, KEY)


def hostile_rows(bench):
    """Sends hostile frames. Measures the daemon's counters, its memory, and its CPU time per frame."""
    count = bench.effort.hostile
    own = [said(letters, bench.address, KEY) for letters in MEMBERS_SAY]
    question = request_now("Peer", NO_ONE, key=KEY)
    path = bench.file("frames", question + b"".join([*own, *seeds_of_hostility()]))
    words = [bench.flood, "hostile", bench.address, path]
    with bench.daemon(one_ticket(), KEY) as daemon:
        # (the daemon gets each kind of frame once before its memory is read)
        _, first_answers = bench.said(*words, "10000", "1")
        drops, accepted = bench.peers(KEY)
        first, resident = sum(drops) + accepted, status_field(daemon.process, "VmRSS")
        before = cpu_seconds(daemon.process)
        seconds, answers = bench.said(*words, str(count), str(SEED))
        cpu = cpu_seconds(daemon.process) - before
        lost = lost_datagrams(bench.address)
        drops, accepted = bench.peers(KEY)
        grown = status_field(daemon.process, "VmRSS") - resident
    counted = sum(drops) + accepted - first + answers
    shown = f"{counted:,} (dropped {', '.join(f'{drop:,}' for drop in drops)}; {accepted:,} accepted)"
    is_whole = first + first_answers == 10_000 and counted == count - lost
    due = f"all {count - lost:,}"
    yield Row("hostile frames that are counted or answered", shown, due, 0 if is_whole else 2)
    least = min(drops)
    yield Row("smallest of the eight drop counters", f"{least:,}", "above 0", 0 if least else 2)
    yield Row("growth of resident memory through these frames", f"{grown:+} kB", "none", 2 if grown > 0 else 0)
    shown = f"{cpu / count * 1e6:.1f} µs ({count / seconds:,.0f} a second)"
    yield Row("daemon CPU time per hostile frame", shown)


def own_cpu(words):
    """Runs a program until it ends. Returns its CPU time in seconds."""
    process = subprocess.Popen(words, stdout=subprocess.DEVNULL, stderr=subprocess.PIPE)
    said = process.stderr.read()
    _, status, usage = os.wait4(process.pid, 0)
    process.returncode = exit_code(status)
    # (a second line has the cause)
    if said and not said.startswith(b"boothd: %s is not a member\n" % NO_MEMBER.encode()):
        raise NotServing(said.decode())
    return usage.ru_utime + usage.ru_stime


def parse_rows(bench):
    """Measures runs that end when the configuration is parsed, minus runs with a configuration of two lines."""
    texts = {size: bench.file(f"{size}.conf", long_text(size)) for size in SIZES}
    texts[0] = bench.file("0.conf", b"site = 10.0.0.2\nticket = t\n")
    parsed, counted = ({size: [] for size in texts} for _ in range(2))
    for _ in range(bench.effort.parses):
        for size, path in texts.items():
            parsed[size].append(own_cpu([bench.program, "daemon", "-c", path, "-s", NO_MEMBER]))
            counted[size].append(own_cpu([bench.lines, path]))
    took = {size: min(parsed[size]) - min(parsed[0]) for size in SIZES}
    shown = "; ".join(f"{took[size] * 1e3:.2f} ms" for size in SIZES)
    yield Row("CPU time to parse 1; 4; 16 MiB, 256 tickets with all keys in each MiB", shown)
    least, most = SIZES[0], SIZES[-1]
    lines = min(counted[most]) - min(counted[0])
    ratio = took[most] / lines
    shown = f"{ratio:.1f} (C: {lines * 1e3:.2f} ms)"
    yield below("ratio of 16 MiB to counting its lines in C", ratio, shown, 30, "")
    for size in SIZES[1:]:
        growth = took[size] / took[least] / (size / least)
        name = f"growth of the parsing time from 1 to {size >> 20} MiB"
        yield Row(name, f"{growth:.2f} times linear", "at most 1.3 times linear", growth / 1.3)


def idle_rows(bench):
    """Measures a daemon that receives nothing."""
    seconds = bench.effort.idle_seconds
    with bench.daemon(one_ticket()) as daemon:
        cpu, wakes = cpu_seconds(daemon.process), status_field(daemon.process, WAKES)
        time.sleep(seconds)
        cpu = cpu_seconds(daemon.process) - cpu
        wakes = status_field(daemon.process, WAKES) - wakes
    yield Row(f"CPU time and wake-ups in {seconds} s without requests", f"{cpu * 1e3:.1f} ms, {wakes}")


def main(words):
    end_by_signals()
    effort = QUICK if "--quick" in words else WHOLE
    words = [word for word in words if word != "--quick"]
    program = words[0] if words else built_program()
    if program is None:
        sys.exit("run.py: boothd is not built: run make build")
    parts = (speed_rows, full_rows, start_rows, client_rows, idle_rows, hostile_rows, parse_rows)
    with tempfile.TemporaryDirectory(prefix="booth-bench-") as folder:
        load = os.getloadavg()[0]
        try:
            bench = Bench(os.path.abspath(program), folder, effort)
            rows = [row for part in parts for row in part(bench)]
        except (NotServing, OSError, subprocess.CalledProcessError) as why:
            sys.exit(f"run.py: {why}")
        loads = f"a load of {load:.1f} before and {os.getloadavg()[0]:.1f} after"
        print(f"{time.strftime('%Y-%m-%d')}, {os.cpu_count()} processors with {loads}")
        print(f"{effort.rounds} rounds of {effort.lists_a_round:,} list requests, {effort.starts} starts\n")
        return print_table(rows)


if __name__ == "__main__":
    sys.exit(main(sys.argv[1:]))
