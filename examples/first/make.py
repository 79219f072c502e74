#!/usr/bin/env python3
"""Writes a small device and a small design, the first example of ixflow.

usage: make.py DEVICE DESIGN

The device has seven tiles with fourteen sites: slices of two flip-flops, and input/output blocks. It has no nodes and no
PIPs, so nothing can be routed on it. The design has twenty cells and no nets.

Both files are uncompressed Cap'n Proto messages of one segment. In a struct, data fields have slots of 32 bits and
pointer fields have words, in the order of the schema; most names are numbers, places in the message's table of strings.
"""
import struct
import sys

# Numbers of the schema: directions of pins, and categories of BELs.
INPUT, OUTPUT = 0, 1
LOGIC, SITE_PORT = 0, 2


# ---- Cap'n Proto ----

class Struct:
    """A struct: the numbers of its data slots, and what its pointers lead to.

    A pointer leads to a text, a Struct, or a list of texts, of numbers or of Structs of one kind. None and whatever is
    empty are a zero pointer, which reads as the default.
    """

    def __init__(self, numbers=(), pointers=()):
        self.numbers, self.pointers = numbers, pointers
        self.data_words = (len(numbers) + 1) // 2
        self.words = self.data_words + len(pointers)


class Segment:
    def __init__(self):
        self.bytes = bytearray()

    def take(self, words):
        """Takes fresh words at the end, and returns the place of the first."""
        at = len(self.bytes) // 8
        self.bytes += bytes(8 * words)
        return at

    def fill(self, at, form, *values):
        struct.pack_into("<" + form, self.bytes, 8 * at, *values)

    def point(self, at, target, kind, high):
        """Sets a pointer of kind 0 (struct) or 1 (list): its low half is the kind and the distance to the target."""
        self.fill(at, "2I", kind | (target - at - 1) << 2, high)

    def put_fields(self, at, value):
        self.fill(at, f"{len(value.numbers)}I", *value.numbers)
        for i, pointer in enumerate(value.pointers):
            self.put(at + value.data_words + i, pointer)

    def put(self, at, value):
        """Puts a value at the end, and sets the pointer at this place to it."""
        if not value:
            return
        if isinstance(value, Struct):
            target = self.take(value.words)
            self.point(at, target, 0, value.data_words | len(value.pointers) << 16)
            self.put_fields(target, value)
        elif isinstance(value, str):
            raw = value.encode() + b"\0"
            target = self.take((len(raw) + 7) // 8)
            self.point(at, target, 1, 2 | len(raw) << 3)
            self.fill(target, f"{len(raw)}s", raw)
        elif isinstance(value[0], str):
            target = self.take(len(value))
            self.point(at, target, 1, 6 | len(value) << 3)
            for i, text in enumerate(value):
                self.put(target + i, text)
        elif isinstance(value[0], int):
            target = self.take((len(value) + 1) // 2)
            self.point(at, target, 1, 4 | len(value) << 3)
            self.fill(target, f"{len(value)}I", *value)
        else:
            first = value[0]
            target = self.take(1 + len(value) * first.words)
            self.point(at, target, 1, 7 | len(value) * first.words << 3)
            self.fill(target, "2I", len(value) << 2, first.data_words | len(first.pointers) << 16)
            for i, each in enumerate(value):
                self.put_fields(target + 1 + i * first.words, each)


def message(root):
    """The bytes of a message: a table of one segment, and the segment."""
    segment = Segment()
    segment.put(segment.take(1), root)
    return struct.pack("<2I", 0, len(segment.bytes) // 8) + segment.bytes


class Strings:
    """A table of strings, in the order of first use."""

    def __init__(self):
        self.places = {}

    def number(self, text):
        return self.places.setdefault(text, len(self.places))

    def table(self):
        return list(self.places)


# ---- the device ----

# A site type: its logic BELs with their pins, its site pins, and its wires, each with the pins that it joins.
FLIP_FLOP = [("C", INPUT), ("D", INPUT), ("E", INPUT), ("R", INPUT), ("Q", OUTPUT)]
SLICE = ("SLICE",
         [("AFF", FLIP_FLOP), ("BFF", FLIP_FLOP)],
         [("CK", INPUT), ("CE", INPUT), ("SR", INPUT), ("AX", INPUT), ("BX", INPUT), ("AQ", OUTPUT), ("BQ", OUTPUT)],
         [("CK", ["CK/CK", "AFF/C", "BFF/C"]), ("CE", ["CE/CE", "AFF/E", "BFF/E"]), ("SR", ["SR/SR", "AFF/R", "BFF/R"]),
          ("AX", ["AX/AX", "AFF/D"]), ("BX", ["BX/BX", "BFF/D"]), ("AQ", ["AFF/Q", "AQ/AQ"]), ("BQ", ["BFF/Q", "BQ/BQ"])])
IOB = ("IOB",
       [("PAD", [("IN", INPUT), ("OUT", OUTPUT)]),
        ("INBUF", [("I", INPUT), ("O", OUTPUT)]),
        ("OUTBUF", [("I", INPUT), ("O", OUTPUT)])],
       [("O", INPUT), ("I", OUTPUT)],
       [("FROM_PAD", ["PAD/OUT", "INBUF/I"]), ("I", ["INBUF/O", "I/I"]),
        ("O", ["O/O", "OUTBUF/I"]), ("TO_PAD", ["OUTBUF/O", "PAD/IN"])])
SITE_TYPES = [SLICE, IOB]

# A tile type: the prefixes of its sites' names, with their types.
TILE_TYPES = {"CLB": [("SLICE_L", SLICE), ("SLICE_M", SLICE)],
              "IO": [("IOB_A", IOB), ("IOB_B", IOB)],
              "EDGE": [("SLICE", SLICE), ("IOB", IOB)]}

# A tile: its type, column and row.
TILES = [("IO", 0, 0), ("IO", 0, 1), ("EDGE", 1, 0), ("EDGE", 1, 1), ("CLB", 2, 0), ("CLB", 2, 1), ("CLB", 2, 2)]

# Which BELs take which cell type, and by which pins (cell pin, BEL pin). AFF and BFF take two types, AFF three.
CELL_TYPES = [("FDRE", "SLICE", ["AFF", "BFF"], [("Q", "Q"), ("C", "C"), ("CE", "E"), ("D", "D"), ("R", "R")]),
              ("FDSE", "SLICE", ["AFF", "BFF"], [("C", "C"), ("CE", "E"), ("D", "D"), ("S", "R"), ("Q", "Q")]),
              ("LDCE", "SLICE", ["AFF"], [("G", "C"), ("D", "D"), ("Q", "Q")]),
              ("IBUF", "IOB", ["INBUF"], [("I", "I"), ("O", "O")]),
              ("OBUF", "IOB", ["OUTBUF"], [("I", "I"), ("O", "O")]),
              ("KEEPER", "IOB", ["PAD"], [])]


def site_type_struct(strings, site_type):
    name, logic, site_pins, wires = site_type
    number = strings.number
    # each site pin has a BEL of its own, whose pin points the other way
    ports = [(pin, [(pin, INPUT if direction == OUTPUT else OUTPUT)]) for pin, direction in site_pins]
    places, bel_pins = {}, []
    for bel, pins in logic + ports:
        for pin, direction in pins:
            places[f"{bel}/{pin}"] = len(bel_pins)
            bel_pins.append(Struct([number(pin), direction, number(bel)]))
    pins = [Struct([number(pin), direction, places[f"{pin}/{pin}"]]) for pin, direction in site_pins]
    bels = [Struct([number(bel), category, 0, 0, 0])
            for category, group in ((LOGIC, logic), (SITE_PORT, ports)) for bel, _ in group]
    site_wires = [Struct([number(wire)], [[places[pin] for pin in joined]]) for wire, joined in wires]
    return Struct([number(name)], [bel_pins, pins, bels, None, site_wires])  # None: site PIPs


def tile_type_struct(strings, name, sites):
    number = strings.number
    of_sites = [[number(f"{prefix}_{pin}") for pin, _ in site_type[2]] for prefix, site_type in sites]
    in_tile = [Struct([SITE_TYPES.index(site_type)], [wires]) for (_, site_type), wires in zip(sites, of_sites)]
    return Struct([number(name)], [in_tile, sum(of_sites, []), None, None])  # None: PIPs, constants


def tile_struct(strings, tile):
    name, column, row = tile
    place = f"X{column}Y{row}"
    sites = [Struct([strings.number(f"{prefix}_{place}"), i]) for i, (prefix, _) in enumerate(TILE_TYPES[name])]
    return Struct([strings.number(f"{name}_{place}"), list(TILE_TYPES).index(name), row, column], [sites])


def mapping_struct(strings, name, site_type, bels, pins):
    number = strings.number
    where = [Struct([number(site_type)], [[number(bel) for bel in bels]])]
    entries = [Struct([number(cell_pin), number(bel_pin)]) for cell_pin, bel_pin in pins]
    return Struct([number(name)], [[Struct([], [where, entries])]])


def device(name, tiles, cell_types):
    """The bytes of a device of these tiles, which takes these cell types."""
    strings = Strings()
    site_types = [site_type_struct(strings, site_type) for site_type in SITE_TYPES]
    tile_types = [tile_type_struct(strings, *tile_type) for tile_type in TILE_TYPES.items()]
    tile_list = [tile_struct(strings, tile) for tile in tiles]
    mappings = [mapping_struct(strings, *cell_type) for cell_type in cell_types]
    # None: wires, nodes, primLibs, exceptionMap; then packages, constants, lutDefinitions
    return message(Struct([], [name, strings.table(), site_types, tile_types, tile_list, None, None, None, None,
                               mappings, None, None, None]))


# ---- the design ----

# The cells of the top, each with its type.
CELLS = ([(f"in_{k}", "IBUF") for k in range(3)]
         + [(f"count_{k}", "FDRE") for k in range(7)]
         + [("hold_0", "LDCE"), ("hold_1", "LDCE"), ("state_0", "FDSE"), ("state_1", "FDSE"), ("count_7", "FDRE")]
         + [(f"out_{k}", "OBUF") for k in range(3)]
         + [("keep_0", "KEEPER"), ("keep_1", "KEEPER")])


def design(name, cells):
    """The bytes of a design of these cells, which are instances in the one cell of the top, without ports and nets."""
    strings = Strings()
    number = strings.number
    types = [name] + sorted({cell_type for _, cell_type in cells})
    place = {cell_type: i for i, cell_type in enumerate(types)}
    declarations = [Struct([number(cell_type)], [None]) for cell_type in types]  # None: ports
    top = Struct([number("top"), 0], [None])  # None: properties, also below
    instances = [Struct([number(cell), place[cell_type]], [None]) for cell, cell_type in cells]
    body = Struct([0], [list(range(len(cells))), None])  # None: nets
    # None: properties and ports
    return message(Struct([], [name, None, top, strings.table(), declarations, None, instances, [body]]))


def main():
    if len(sys.argv) != 3:
        sys.exit(__doc__)
    with open(sys.argv[1], "wb") as file:
        file.write(device("first", TILES, CELL_TYPES))
    with open(sys.argv[2], "wb") as file:
        file.write(design("counter", CELLS))


if __name__ == "__main__":
    main()
