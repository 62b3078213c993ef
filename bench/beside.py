#!/usr/bin/env python3
"""bench beside, run several times | bench/beside.py: for each call, kind and size the median of the ratios, the least and the greatest.

An asterisk stands where the older archive gives another answer, so that the two did not do the same work."""
import statistics
import sys

SIZES = ("8", "16", "32")
ratios, differing = {}, set()
for line in sys.stdin:
    call, kind, size, own, other, *differ = line.split()
    ratios.setdefault((call, kind), {}).setdefault(size, []).append(float(own) / float(other))
    if differ:
        differing.add((call, kind, size))


def shown(call, kind, size):
    values = ratios[call, kind][size]
    mark = "*" if (call, kind, size) in differing else ""
    return f"{statistics.median(values):.2f} ({min(values):.2f} to {max(values):.2f}){mark}"


print("| call | tables | N = 8 | N = 16 | N = 32 |")
print("|---|---|---|---|---|")
for call, kind in ratios:
    print(f"| {call} | {kind} | " + " | ".join(shown(call, kind, size) for size in SIZES) + " |")
if differing:
    print("\n\\* another answer than the older archive's")
