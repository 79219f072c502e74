#!/usr/bin/env python3
"""Compares the times of two programs that searched the same paths.

usage: least_table.py TIMES

TIMES has a line for each kind of searches in each run: the graph, the batch, the program, the kind with a colon behind,
how many microseconds it took, and for the plain program how many points were settled. Prints for each kind the medians of
each batch, their ratio, the median and the ratio of all runs, and the points settled.
"""
import statistics
import sys
from collections import defaultdict


def main():
    times, settled = defaultdict(list), {}
    for line in open(sys.argv[1]):
        graph, batch, program, kind, took, _, *more = line.split()
        name = f"{graph} {kind.rstrip(':')}"
        plain = program == "least"
        times[name, batch, plain].append(int(took) / 1e6)
        if plain:
            settled[name] = more[-1]
    batches = sorted({batch for _, batch, _ in times})
    columns = "".join(f"{f'batch {b}':>26}" for b in batches)
    print(f"{'kind':24}{columns}{'all':>26}{'settled':>12}")
    for name in settled:
        row = f"{name:24}"
        for chosen in [*([b] for b in batches), batches]:
            proved, plain = (
                statistics.median(t for b in chosen for t in times[name, b, side]) for side in (False, True)
            )
            row += f"{proved:10.4f}{plain:9.4f}{proved / max(plain, 1e-6):7.3f}"
        print(row + f"{settled[name]:>12}")


main()
