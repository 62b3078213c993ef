#!/usr/bin/env python3
"""bench/assignment.py BENCH: scipy's linear_sum_assignment beside the library's `solve` on the tables of the benchmark.

It finds a transversal of greatest sum and no more: no canon, no first stars. The sums are held against the library's. The two
take turns on one processor, so that what slows it slows both. scipy is called as a user of Python calls it, and its time is that of the
whole call; `solve` is called from Rust. Prints a line for each kind and size: the median times of scipy and of `solve` in
microseconds, then the time of `solve` over that of scipy in the same turn: the median, the lower quartile and the upper.
"""
import os
import statistics
import subprocess
import sys
import time

import numpy
from scipy.optimize import linear_sum_assignment

ABSENT = -32768
REPEATS = 41


def tables_of(bench):
    groups = {}
    for line in subprocess.run([bench, "dump"], check=True, capture_output=True, text=True).stdout.splitlines():
        kind, n, total, *entries = line.split()
        n = int(n)
        table = numpy.array([int(v) for v in entries], dtype=float).reshape(n, n)
        # an absent place costs more than any transversal of present ones
        table[table == ABSENT] = -1e6
        rows, columns = linear_sum_assignment(table, maximize=True)
        if table[rows, columns].sum() != int(total):
            sys.exit(f"another greatest sum on a table {kind} {n}")
        groups.setdefault((kind, n), []).append(table)
    return groups


def one_time(tables, rounds):
    begun = time.thread_time()
    for _ in range(rounds):
        for table in tables:
            linear_sum_assignment(table, maximize=True)
    return (time.thread_time() - begun) / (rounds * len(tables)) * 1e6


def main():
    bench = sys.argv[1]
    os.sched_setaffinity(0, {max(os.sched_getaffinity(0))})
    groups = tables_of(bench)
    solving = subprocess.Popen([bench, "turns"], stdin=subprocess.PIPE, stdout=subprocess.PIPE, text=True)
    for (kind, n), tables in groups.items():
        rounds = max(1, round(2000 / (one_time(tables, 1) * len(tables))))
        theirs, own = [], []
        for _ in range(REPEATS):
            print(kind, n, file=solving.stdin, flush=True)
            own.append(float(solving.stdout.readline()))
            theirs.append(one_time(tables, rounds))
        ratios = statistics.quantiles([one / other for one, other in zip(own, theirs)], n=4)
        print(kind, n, *(f"{x:.2f}" for x in (statistics.median(theirs), statistics.median(own), ratios[1], ratios[0], ratios[2])))


main()
