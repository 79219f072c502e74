#!/usr/bin/env python3
"""Writes a physical netlist of so many segments.

usage: make_phys.py SHAPE SEGMENTS FILE

SHAPE is `nets` (nets of eight segments, each a trunk of four with four leaves at its end), `chain` (one net, each segment
the only one below the one before) or `row` (one net, all segments side by side). The names are those of 1,000 tiles with
200 wires; a segment is a PIP of one of them.
"""
import struct
import sys

from objects import Objects

TILES, WIRES = 1000, 200
NET = 8


def main():
    shape, segments, path = sys.argv[1], int(sys.argv[2]), sys.argv[3]
    texts = [f"TILE_X{n}" for n in range(TILES)] + [f"WIRE_{n}" for n in range(WIRES)]
    nets = segments // NET if shape == "nets" else 1
    texts += [f"net_{n}" for n in range(nets)]
    objects = Objects(6)
    objects.texts(8 * 2, texts)
    number = 0

    def segment(at):
        nonlocal number
        tile, wire = number * 7 % TILES, number % (WIRES - 1)
        struct.pack_into("<5I", objects.words, at, 2, tile, TILES + wire, TILES + wire + 1, 1)
        number += 1

    first = objects.structs(8 * 4, nets, 1, 2)
    for n in range(nets):
        at = first + 24 * n
        struct.pack_into("<2I", objects.words, at, TILES + WIRES + n, 0)
        many = NET if shape == "nets" else segments
        lists = [many] if shape == "row" else [1] * many if shape == "chain" else [1] * 4 + [many - 4]
        place = at + 8
        for count in lists:
            start = objects.structs(place, count, 3, 1)
            for i in range(count):
                segment(start + 32 * i)
            place = start + 24
    file = objects.file()
    with open(path, "wb") as out:
        out.write(file)
    print(f"{number} segments, {nets} nets, {len(file)} bytes")


main()
