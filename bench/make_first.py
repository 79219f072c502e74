#!/usr/bin/env python3
"""Makes a device and a design of any size, of the kinds of examples/first/make.py.

usage: make_first.py TILES CELLS TYPES DEVICE DESIGN

The device has so many tiles of two slices, each of two BELs that take each of so many flip-flop types. The design has so
many flip-flops, of the types in turn.
"""
import os
import sys

sys.dont_write_bytecode = True
sys.path.insert(0, os.path.join(os.path.dirname(os.path.abspath(__file__)), "..", "examples", "first"))
import make  # noqa: E402


def main():
    tiles, cells, types = (int(word) for word in sys.argv[1:4])
    flip_flops = [(f"FD_{k}", *make.CELL_TYPES[0][1:]) for k in range(types)]
    with open(sys.argv[4], "wb") as file:
        file.write(make.device("large", [("CLB", k // 1000, k % 1000) for k in range(tiles)], flip_flops))
    with open(sys.argv[5], "wb") as file:
        file.write(make.design("flip_flops", [(f"cell_{k}", flip_flops[k % types][0]) for k in range(cells)]))


main()
