#!/usr/bin/env python3
"""Prints the placements and the site instances of a physical netlist that ixflow wrote.

usage: show_phys.py ROUTED

A line for each cell: its name, its type, its site and BEL, and its pins, each with the BEL pin; then a line for each used
site with its type. Reads uncompressed messages of one segment, which is what ixflow writes.
"""
import struct
import sys


class Message:
    def __init__(self, data):
        segments, words = struct.unpack_from("<2I", data)
        if segments or len(data) != 8 + 8 * words:
            sys.exit("show_phys: not a message of one segment")
        self.data = data[8:]

    def target(self, at):
        """Where the pointer at this word leads, or None for a zero pointer, and the halves of the pointer."""
        low, high = struct.unpack_from("<2I", self.data, 8 * at)
        distance = low >> 2 if low < 1 << 31 else (low >> 2) - (1 << 30)
        return (at + 1 + distance if low or high else None), low, high

    def structs(self, at):
        """The structs of a list, each by the place of its data and the place of its pointers."""
        place, _, _ = self.target(at)
        if place is None:
            return []
        count, sections = struct.unpack_from("<2I", self.data, 8 * place)
        data, pointers = sections & 0xFFFF, sections >> 16
        starts = [place + 1 + i * (data + pointers) for i in range(count >> 2)]
        return [(start, start + data) for start in starts]

    def numbers(self, at, count):
        return struct.unpack_from(f"<{count}I", self.data, 8 * at)

    def text(self, at):
        place, _, high = self.target(at)
        return "" if place is None else self.data[8 * place:8 * place + (high >> 3) - 1].decode()

    def texts(self, at):
        place, _, high = self.target(at)
        return [] if place is None else [self.text(place + i) for i in range(high >> 3)]


def main():
    if len(sys.argv) != 2:
        sys.exit(__doc__)
    with open(sys.argv[1], "rb") as file:
        message = Message(file.read())
    root, _, high = message.target(0)
    if root is None:
        return
    part, strings, placements, nets, sites, properties = range(root + (high & 0xFFFF), root + (high & 0xFFFF) + 6)
    names = message.texts(strings)
    print(f"part {message.text(part)!r}, {len(message.structs(nets))} nets, {len(message.structs(properties))} properties")
    for data, pointers in message.structs(placements):
        cell, kind, site, bel = (names[n] for n in message.numbers(data, 4))
        told = []
        for pin, _ in message.structs(pointers):
            cell_pin, pin_bel, bel_pin = (names[n] for n in message.numbers(pin, 3))
            told.append(f"{cell_pin}={pin_bel}/{bel_pin}")
        print(f"{cell}: {kind} on {site}/{bel}", *told)
    for data, _ in message.structs(sites):
        site, kind = (names[n] for n in message.numbers(data, 2))
        print(f"site {site}: {kind}")


main()
