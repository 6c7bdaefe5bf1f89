#!/usr/bin/env python3
"""Measures writes of records by the real host, compared with a bare loop in C, and a start with many record files.

Run it as `python3 bench/records.py [TRIALS [BOOTHD]]`. By default the programs are those that rt and `make build`
leave. Without a boothd the bench measures no start. It prints one table. Its status is 1 if a mark is missed by more
than a tenth. The rounds of host and loop alternate on one disk, in the folder for temporary files. A speed is that of
the best round, since other programs that write to the disk slow most rounds down.
"""

import os
import resource
import statistics
import subprocess
import sys
import tempfile
import time

HERE = os.path.dirname(os.path.abspath(__file__))
TOP = os.path.dirname(HERE)
sys.path[:0] = [HERE, f"{TOP}/tools"]

import frames
from rows import Row, at_least, below, print_table
from serving import boothd, built_program, end_by_signals, own_addresses
from texts import MEMBERS

TRIALS = f"{TOP}/crates/trials/out/trials"
ROUNDS, KEEPS_A_ROUND = 30, 400
STARTS, FILES = 40, 64


def built(name, folder):
    """Builds a program of this folder, and returns its path."""
    made = os.path.join(folder, name)
    subprocess.run(["cc", "-O2", "-o", made, f"{HERE}/{name}.c"], check=True)
    return made


def cpu_of_children():
    """Returns the CPU time of all ended child processes, in seconds."""
    used = resource.getrusage(resource.RUSAGE_CHILDREN)
    return used.ru_utime + used.ru_stime


def host_round(program, directory):
    """Runs one round of the host's writes. Returns the time and the CPU time per write, in seconds, which include a
    share of the program's start.
    """
    before, started = cpu_of_children(), time.perf_counter()
    subprocess.run([program, "keeps", directory, str(KEEPS_A_ROUND)], stdout=subprocess.DEVNULL, check=True)
    took = time.perf_counter() - started
    return took / KEEPS_A_ROUND, (cpu_of_children() - before) / KEEPS_A_ROUND


def loop_round(program, path):
    """Runs one round of the loop in C. Returns the time and the CPU time per write, in seconds."""
    said = subprocess.run([program, path, str(KEEPS_A_ROUND)], stdout=subprocess.PIPE, check=True)
    return [float(number) / KEEPS_A_ROUND for number in said.stdout.split()]


def keep_rows(program, folder):
    """Compares the host's writes of a record with those of the loop in C."""
    loop, directory = built("keeps", folder), os.path.join(folder, "records")
    host_round(program, directory)
    rounds = [(host_round(program, directory), loop_round(loop, f"{folder}/bare")) for _ in range(ROUNDS)]
    (host, host_cpu), (bare, bare_cpu) = (map(min, zip(*each)) for each in zip(*rounds))
    yield Row("writes of a record a second, one after another", f"{1 / host:,.0f} (the same writes and syncs in C: {1 / bare:,.0f})")
    yield at_least("ratio of this speed to that in C", bare / host, f"{bare / host:.2f}", 0.8)
    middle = statistics.median(loop[0] / keeps[0] for keeps, loop in rounds)
    yield Row("median of this ratio over the rounds", f"{middle:.2f}")
    yield Row("CPU time per write of a record", f"{host_cpu * 1e6:.0f} µs (C: {bare_cpu * 1e6:.0f} µs)")


def record_file():
    """Returns a file with a record in each slot of version 2."""
    slots = (b"\1" + bytes(7) + number.to_bytes(8, "big") + b"\0\0\0\2" + bytes(108) for number in (1, 2))
    return (bytes(128) + b"".join(slots))[:336]


def start_rows(program, folder):
    """Measures the start of a daemon that has a record of each of 64 tickets."""
    tickets = [b"ticket-%02d" % number for number in range(FILES)]
    address = next(own_addresses())
    conf, directory = os.path.join(folder, "booth.conf"), os.path.join(folder, "kept")
    with open(conf, "wb") as file:
        file.write(MEMBERS.replace(b"@", address.encode()) + b"".join(b'ticket = "%s"\n' % name for name in tickets))
    os.mkdir(directory)
    for name in tickets:
        with open(os.path.join(directory, name.hex() + ".rec"), "wb") as file:
            file.write(record_file())
            file.flush()
            os.fsync(file.fileno())
    requests = os.path.join(folder, "requests")
    with open(requests, "wb") as file:
        file.write(b"".join(frames.request_now("CLst", number) for number in range(1000)))
    server = boothd(program, conf, address, options=("-l", os.path.join(folder, "lock"), "-d", directory))
    start = [built("asker", folder), "start", address, requests, *server.words]
    took = [int(subprocess.run(start, stdout=subprocess.PIPE, check=True).stdout.split()[0]) / 1e6 for _ in range(STARTS)]
    middle, lowest = statistics.median(took), min(took)
    shown = f"{middle:.1f} ms (lowest: {lowest:.1f} ms)"
    yield below(f"from start to first answer, {FILES} record files", middle, shown, 8, "ms")


def main(words):
    end_by_signals()
    keeps = os.path.abspath(words[0] if words else TRIALS)
    daemon = words[1] if len(words) > 1 else built_program()
    if not os.access(keeps, os.X_OK):
        sys.exit(f"records.py: {keeps} is not built: rt ci leaves it")
    with tempfile.TemporaryDirectory(prefix="booth-bench-") as folder:
        try:
            rows = list(keep_rows(keeps, folder))
            if daemon is not None:
                rows += start_rows(os.path.abspath(daemon), folder)
        except (OSError, subprocess.CalledProcessError) as why:
            sys.exit(f"records.py: {why}")
    return print_table(rows)


if __name__ == "__main__":
    sys.exit(main(sys.argv[1:]))
