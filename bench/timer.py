#!/usr/bin/env python3
"""Measures the timer alone, compared with a binary heap in C, at 64, 4,096 and 1,000,000 slots.

Run it as `python3 bench/timer.py [PROGRAM]`. PROGRAM is the program `trials`, by default crates/trials/out/trials,
where rt leaves it. It prints one table and takes half a minute. Both programs run with the same arguments, and their
rounds alternate. A value is the CPU time of the best round, minus that of the best round that only sets the slots.
"""

import os
import resource
import subprocess
import sys
import tempfile

HERE = os.path.dirname(os.path.abspath(__file__))
TOP = os.path.dirname(HERE)
sys.path[:0] = [HERE, f"{TOP}/tools"]

from rows import Row, print_table
from serving import end_by_signals

PROGRAM = f"{TOP}/crates/trials/out/trials"
SIZES = (64, 4_096, 1_000_000)
ROUNDS = 7

# the last millisecond before the bucket of the far deadline, and the questions in each millisecond
UNTIL, ASKS = 65_407, 16

# each slot is due again within this time, in milliseconds: a lease of ten minutes is renewed after five
SPREAD = 300_000
MOMENTS = {64: 300_000, 4_096: 300_000, 1_000_000: 3_000}


def cpu_of(words):
    """Runs a program. Returns its CPU time in seconds, and the first number that it prints."""
    before = resource.getrusage(resource.RUSAGE_CHILDREN)
    said = subprocess.run(list(map(str, words)), stdout=subprocess.PIPE, check=True).stdout
    after = resource.getrusage(resource.RUSAGE_CHILDREN)
    used = after.ru_utime + after.ru_stime - before.ru_utime - before.ru_stime
    return used, int(said.split()[0])


def nanos(programs, whole, idle):
    """Returns the CPU time of each program with the arguments `whole`, minus its time with `idle`, in nanoseconds, and
    the number that all programs print.
    """
    best, numbers = {}, set()
    for _ in range(ROUNDS):
        for program in programs:
            for words in (whole, idle):
                used, number = cpu_of([program, *words])
                best[program, words] = min(used, best.get((program, words), used))
                if words is whole:
                    numbers.add(number)
    if len(numbers) != 1:
        sys.exit(f"timer.py: {whole} gives {sorted(numbers)}")
    return [max(best[program, whole] - best[program, idle], 0) * 1e9 for program in programs], numbers.pop()


def shown(buckets, heap, calls):
    """Returns the nanoseconds per call of the timer and of the heap, as a text."""
    return f"{buckets / calls:,.0f} ns (heap: {heap / calls:,.0f} ns)"


def rows(programs):
    """Measures both programs with each number of slots."""
    for slots in SIZES:
        (buckets, heap), none = nanos(programs, ("ask", slots, UNTIL), ("ask", slots, 0))
        calls = none - ASKS
        yield Row(f"an answer 'nothing due', {slots:,} slots, all far away", shown(buckets, heap, calls))
        moments = MOMENTS[slots]
        (buckets, heap), due = nanos(programs, ("renew", slots, SPREAD, moments), ("renew", slots, SPREAD, 0))
        calls = moments + due
        yield Row(f"a call, {slots:,} slots, each due again within {SPREAD // 1000} s", shown(buckets, heap, calls))


def main(words):
    end_by_signals()
    program = os.path.abspath(words[0] if words else PROGRAM)
    if not os.access(program, os.X_OK):
        sys.exit(f"timer.py: {program} is not built: rt ci leaves it")
    with tempfile.TemporaryDirectory(prefix="booth-bench-") as folder:
        heap = os.path.join(folder, "heap")
        try:
            subprocess.run(["cc", "-O2", "-o", heap, f"{HERE}/heap.c"], check=True)
            return print_table(rows([program, heap]))
        except (OSError, subprocess.CalledProcessError) as why:
            sys.exit(f"timer.py: {why}")


if __name__ == "__main__":
    sys.exit(main(sys.argv[1:]))
