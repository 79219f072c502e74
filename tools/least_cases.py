#!/usr/bin/env python3
"""Writes what `ix_least_cases` must print, by the definition of the least path alone: no queue, no bounds.

usage: tools/least_cases.py <crates/ix_least_cases/data/grid >crates/ix_least_cases/stdout

`dist` is made smaller edge by edge until no edge makes it smaller (Bellman and Ford), and the path is traced back from the
target by the least edge number among all edges of the grid, until the source.
"""
import sys

rows = sys.stdin.read().split()
width = len(rows[0])
costs = [int(digit) for row in rows for digit in row]
count = len(costs)

# Each edge: its number, the point that it leaves, and the one that it enters.
edges = []
for p in range(count):
    ends = [min(p + 1, count - 1), max(p - 1, 0), min(p + width, count - 1), max(p - width, 0)]
    edges += [(4 * p + i, p, end) for i, end in enumerate(ends)]
edges_open = [(n, u, v) for n, u, v in edges if costs[v] > 0]
into = {v: sorted((n, u) for n, u, w in edges_open if w == v) for v in range(count)}


def distances(source):
    dist = {source: 0}
    changed = True
    while changed:
        changed = False
        for _, u, v in edges_open:
            if u in dist and dist[u] + costs[v] < dist.get(v, float("inf")):
                dist[v] = dist[u] + costs[v]
                changed = True
    return dist


def path(dist, source, target):
    taken = []
    at = target
    while at != source:
        number, before = min((n, u) for n, u in into[at] if u in dist and dist[u] + costs[at] == dist[at])
        taken.append((number, at))
        at = before
    return taken[::-1]


for source in range(count):
    dist = distances(source)
    reached = length = cost = fold = 0
    for target in range(count):
        if target in dist:
            for number, point in path(dist, source, target):
                cost += costs[point]
                length += 1
                fold = (fold * 31 + number + 1) % 2**64
            reached += 1
        fold = fold * 31 % 2**64
    print(f"{source}: {reached} {length} {cost} {fold}")
