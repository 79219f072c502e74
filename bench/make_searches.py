#!/usr/bin/env python3
"""Writes costs of points, and pairs of points to be searched.

usage: make_searches.py costs COLUMNS ROWS MOST [wall] >COSTS
       make_searches.py pairs COLUMNS ROWS NAME COUNT WIDE HIGH [WIDTH] [wall] >>SEARCHES
       make_searches.py pairs_from SOURCES POINTS NAME COUNT >>SEARCHES

Costs are digits from 1 to MOST, a line each row. Each row is drawn by a seed of its own, so smaller grids are corners of
larger ones. With `wall` a point more stands on each side of the grid, which may not be entered. Pairs stand behind their
name in a line, so many: with `pairs` from the first COLUMNS and ROWS of a grid of WIDTH columns (COLUMNS), the second point
less than WIDE columns and HIGH rows behind the first; with `pairs_from` the first below SOURCES, the second not, of so many
POINTS.
"""
import random
import sys


def costs(columns, rows, most, wall):
    lines = []
    for y in range(rows):
        draw = random.Random(y)
        lines.append("".join(str(draw.randint(1, most)) for _ in range(columns)))
    if wall:
        blank = "0" * columns
        lines = [f"0{line}0" for line in [blank, *lines, blank]]
    print("\n".join(lines))


def pairs(columns, rows, name, count, wide, high, wall, width):
    draw = random.Random(7)
    at = (lambda x, y: (y + 1) * (width + 2) + x + 1) if wall else (lambda x, y: y * width + x)
    words = [name]
    for _ in range(count):
        x, y = draw.randrange(columns), draw.randrange(rows)
        to_x = min(x + draw.randrange(wide), columns - 1)
        to_y = min(y + draw.randrange(high), rows - 1)
        words.append(f"{at(x, y)}-{at(to_x, to_y)}")
    print(" ".join(words))


def pairs_from(sources, points, name, count):
    draw = random.Random(7)
    print(" ".join([name, *(f"{draw.randrange(sources)}-{draw.randrange(sources, points)}" for _ in range(count))]))


def main():
    kind, *words = sys.argv[1:]
    wall = words[-1] == "wall"
    words = words[:-1] if wall else words
    if kind == "costs":
        costs(*map(int, words), wall)
    elif kind == "pairs":
        columns, rows, name, count, wide, high, *width = words
        width = int(width[0]) if width else int(columns)
        pairs(int(columns), int(rows), name, int(count), int(wide), int(high), wall, width)
    else:
        sources, points, name, count = words
        pairs_from(int(sources), int(points), name, int(count))


main()
