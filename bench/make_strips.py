#!/usr/bin/env python3
"""Writes a device and a netlist of so many segments that keeps every rule on it.

usage: make_strips.py SHAPE SEGMENTS DEVICE NETLIST [DESIGN]

SHAPE is one of these; the fabrics of other devices hold far fewer segments.

- `strips`: sites in a row, each with a LUT and a flip-flop that lead to the next one. Of a site are 16 segments: eight of the
  LUT's net, which also feeds the flip-flop, six of the flip-flop's, and two of gnd on the LUT's third input. 50 sites are on
  a tile.
- `chain`: one net, each segment the only one below the one before, over tiles of 1,000 wires.
- `row`: one net, all segments but the first two side by side, from a node that all tiles share.
- `single`: nets of one segment, 1,000 at each cell.
- `sparse`: nets of one segment, each at a cell of its own, whose BEL has 1,000 pins.

DESIGN is the design that the netlist of `strips` realizes; the others are nets without sinks, which no design has.
"""
import struct
import sys
from pathlib import Path

sys.path.append(str(Path(__file__).resolve().parent.parent / "tools"))
import message  # noqa: E402
from objects import Objects  # noqa: E402

SCHEMA = Path(__file__).resolve().parent.parent / "examples" / "schema" / "device.capnp"
ROWS = 1 << 16
IN, OUT = 0, 1
LOGIC, ROUTING, PORT = 0, 1, 2
BEL_PIN, SITE_PIN, PIP, SITE_PIP = 0, 1, 2, 3
SIGNAL, GND = 0, 1
OF_STRIP, OF_TILE, OF_LINE, OF_CELL = 16, 50, 1000, 1000


# Devices.


def site_type(name, bels, ports, wires, pips=()):
    """A site type: BELs as (name, category, inputs, outputs), site pins with their directions, and wires and site PIPs by
    their pins, `BEL.PIN`; a site pin's BEL and its pin have its own name."""
    bels = bels + [(it, PORT, [it] * (way == OUT), [it] * (way == IN)) for it, way in ports.items()]
    pins = [(bel, it, way) for bel, _, *both in bels for way, its in zip((IN, OUT), both) for it in its]
    number = {f"{bel}.{it}": i for i, (bel, it, _) in enumerate(pins)}
    number |= {it: number[f"{it}.{it}"] for it in ports}
    return {
        "name": name,
        "bels": [{"name": bel, "category": category} for bel, category, *_ in bels],
        "belPins": [{"name": it, "dir": way, "bel": bel} for bel, it, way in pins],
        "pins": [{"name": it, "dir": way, "belpin": number[it]} for it, way in ports.items()],
        "siteWires": [{"name": f"w{i}", "pins": [number[it] for it in its.split()]} for i, its in enumerate(wires)],
        "sitePIPs": [{"inpin": number[a], "outpin": number[b]} for a, b in pips],
    }


def cell(name, of_type, bel, pins):
    pins = [dict(zip(("cellPin", "belPin"), it.split("="))) for it in pins]
    return {"cell": name, "commonPins": [{"siteTypes": [{"siteType": of_type, "bels": [bel]}], "pins": pins}]}


def device(of_type, tile_type, tiles, cells, nodes=(), **more):
    """A device of tiles of one type, each a list of its sites; nodes are lists of (tile, wire)."""
    wires = [it for node in nodes for it in node]
    numbers = iter(range(len(wires)))
    return more | {
        "name": "strips",
        "siteTypeList": [of_type],
        "tileTypeList": [tile_type],
        "tileList": [
            {"name": f"T{t}", "row": t % ROWS, "col": t // ROWS, "sites": [{"name": it} for it in sites]}
            for t, sites in enumerate(tiles)
        ],
        "wires": [{"tile": f"T{tile}", "wire": wire} for tile, wire in wires],
        "nodes": [{"wires": [next(numbers) for _ in node]} for node in nodes],
        "cellBelMap": cells,
    }


def pips(wires, pairs):
    numbers = {it: i for i, it in enumerate(wires)}
    return [{"wire0": numbers[a], "wire1": numbers[b], "directional": 1} for a, b in pairs]


def strips_device(tiles):
    of_type = site_type(
        "STRIP",
        [("L", LOGIC, "ABC", "O"), ("FF", LOGIC, "D", "Q"), ("MUX", ROUTING, "LX", ["OUT"])],
        {"a": IN, "b": IN, "c": IN, "x": IN, "o": OUT, "q": OUT},
        ["a L.A", "b L.B", "c L.C", "x MUX.X", "L.O MUX.L o", "MUX.OUT FF.D", "FF.Q q"],
        [("MUX.L", "MUX.OUT"), ("MUX.X", "MUX.OUT")],
    )
    # The LUT of site k feeds a wire R, and its flip-flop one S; R- and S- come from the last site of the tile before.
    wires = ["G", "R-", "S-"] + [f"{it}{k}" for k in range(OF_TILE) for it in "abcxoqRS"]
    pairs = []
    for k in range(OF_TILE):
        before = k - 1 if k else "-"
        pairs += [(f"R{before}", f"a{k}"), (f"S{before}", f"b{k}"), ("G", f"c{k}")]
        pairs += [(f"o{k}", f"R{k}"), (f"q{k}", f"S{k}")]
    tile_type = {
        "name": "STRIPS",
        "siteTypes": [{"primaryPinsToTileWires": [f"{it}{k}" for it in "abcxoq"]} for k in range(OF_TILE)],
        "wires": wires,
        "pips": pips(wires, pairs),
        "constants": [{"constant": GND, "wires": [0]}],
    }
    last = OF_TILE - 1
    joined = [[(t, f"{it}{last}"), ((t + 1) % tiles, f"{it}-")] for t in range(tiles) for it in "RS"]
    names = [[f"S{t}_{k}" for k in range(OF_TILE)] for t in range(tiles)]
    made = device(
        of_type, tile_type, names,
        [cell("LUT2", "STRIP", "L", ["I0=A", "I1=B", "O=O"]), cell("FD", "STRIP", "FF", ["D=D", "Q=Q"])], joined,
        lutDefinitions={
            "lutCells": [{"equation": 1, "cell": "LUT2", "inputPins": ["I0", "I1"], "initParam": "INIT"}],
            "lutElements": [{"site": "STRIP", "luts": [{"width": 8, "bels": [
                {"highBit": 7, "name": "L", "inputPins": ["A", "B", "C"], "outputPin": "O"},
            ]}]}],
        },
    )
    for tile in made["tileList"]:
        for k, site in enumerate(tile["sites"]):
            site["type"] = k
    return made


def lines_device(tiles):
    of_type = site_type("SOURCE", [("D", LOGIC, "", "O")], {"o": OUT}, ["D.O o"])
    line = [f"W{i}" for i in range(OF_LINE)]
    wires = ["H", "W-"] + line
    pairs = [("H", it) for it in line] + list(zip(["W-"] + line, line))
    tile_type = {
        "name": "LINE",
        "siteTypes": [{"primaryPinsToTileWires": ["H"]}],
        "wires": wires,
        "pips": pips(wires, pairs),
    }
    nodes = [[(t, line[-1]), (t + 1, "W-")] for t in range(tiles - 1)]
    nodes.append([(t, "H") for t in range(tiles)])
    return device(of_type, tile_type, [[f"S{t}"] for t in range(tiles)], [cell("DRV", "SOURCE", "D", ["O=O"])], nodes)


def single_device(tiles):
    pins = [f"P{i}" for i in range(OF_CELL)]
    of_type = site_type("MANY", [("D", LOGIC, [], pins)], {}, [f"D.{it}" for it in pins])
    tile_type = {"name": "CELL", "siteTypes": [{}]}
    cells = [cell("DRV", "MANY", "D", [f"{it}={it}" for it in pins])]
    return device(of_type, tile_type, [[f"S{t}"] for t in range(tiles)], cells)


# Netlists.


class Netlist:
    """A netlist, written from its end on: nets as they come, then the rest."""

    def __init__(self, names, nets):
        self.objects, self.names, self.segments = Objects(6), {}, 0
        for it in names:
            self.names.setdefault(it, len(self.names))
        self.left = iter(range(nets))
        self.first = self.objects.structs(8 * 4, nets, 1, 2)

    def number(self, name):
        return self.names.setdefault(name, len(self.names))

    def net(self, name, ty=SIGNAL):
        """A new net; gives where the pointer to its sources stands."""
        at = self.first + 24 * next(self.left)
        struct.pack_into("<2I", self.objects.words, at, self.number(name), ty)
        return at + 8

    def branches(self, place, *segments):
        """Puts segments side by side; gives where the pointers to what is below them stand."""
        at = self.objects.structs(place, len(segments), 3, 1)
        for i, (kind, *names) in enumerate(segments):
            words = [self.number(it) for it in names] + [0] * (3 - len(names))
            struct.pack_into("<5I", self.objects.words, at + 32 * i, kind, *words, kind == PIP)
        self.segments += len(segments)
        return range(at + 24, at + 24 + 32 * len(segments), 32)

    def trunk(self, place, *segments):
        """Puts segments below one another; gives where the pointer to what is below the last one stands."""
        for segment in segments:
            [place] = self.branches(place, segment)
        return place

    def file(self, cells, sites, of_type, tables):
        """The file: cells as (name, type, site, BEL, pins), pins as pairs, and sites with one type."""
        objects = self.objects
        at = objects.structs(8 * 3, len(cells), 2, 1)
        for i, (*names, pins) in enumerate(cells):
            struct.pack_into("<4I", objects.words, at + 24 * i, *map(self.number, names))
            place = objects.structs(at + 24 * i + 16, len(pins), 2, 0)
            for j, (cell_pin, pin) in enumerate(pins):
                row = map(self.number, (cell_pin, names[3], pin))
                struct.pack_into("<3I", objects.words, place + 16 * j, *row)
        for slot, pairs in (5, [(it, of_type) for it in sites]), (6, tables):
            at = objects.structs(8 * slot, len(pairs), 1, 0)
            for i, pair in enumerate(pairs):
                struct.pack_into("<2I", objects.words, at + 8 * i, *map(self.number, pair))
        objects.texts(8 * 2, list(self.names))
        return objects.file()


def table_of(i):
    """The truth table of the LUT of a site."""
    return i * 7 % 16


def strips_netlist(tiles):
    sites = [f"S{t}_{k}" for t in range(tiles) for k in range(OF_TILE)]
    netlist = Netlist([], 2 * len(sites) + 1)
    cells, tables = [], []
    for i, site in enumerate(sites):
        (t, k), following = divmod(i, OF_TILE), (i + 1) % len(sites)
        (u, m), after = divmod(following, OF_TILE), sites[following]
        tile, tile_after, come = f"T{t}", f"T{u}", k if m else "-"
        fork = netlist.trunk(netlist.net(f"lut{i}"), (BEL_PIN, site, "L", "O"))
        inside, outside = netlist.branches(fork, (SITE_PIP, site, "MUX", "L"), (SITE_PIN, site, "o"))
        netlist.trunk(inside, (BEL_PIN, site, "FF", "D"))
        netlist.trunk(
            outside, (PIP, tile, f"o{k}", f"R{k}"), (PIP, tile_after, f"R{come}", f"a{m}"), (SITE_PIN, after, "a"),
            (BEL_PIN, after, "L", "A"),
        )
        netlist.trunk(
            netlist.net(f"ff{i}"), (BEL_PIN, site, "FF", "Q"), (SITE_PIN, site, "q"), (PIP, tile, f"q{k}", f"S{k}"),
            (PIP, tile_after, f"S{come}", f"b{m}"), (SITE_PIN, after, "b"), (BEL_PIN, after, "L", "B"),
        )
        cells.append((f"cell_l{i}", "LUT2", site, "L", [("I0", "A"), ("I1", "B"), ("O", "O")]))
        cells.append((f"cell_f{i}", "FD", site, "FF", [("D", "D"), ("Q", "Q")]))
        # What stands above the fourth bit is read by no LUT, since gnd holds the third input.
        tables.append((f"TABLE/{site}/0", f"{i % 16 << 4 | table_of(i):016X}"))
    roots = [(PIP, f"T{t}", "G", f"c{k}") for t in range(tiles) for k in range(OF_TILE)]
    for place, site in zip(netlist.branches(netlist.net("GLOBAL_LOGIC0", GND), *roots), sites):
        netlist.trunk(place, (SITE_PIN, site, "c"))
    return netlist, netlist.file(cells, sites, "STRIP", tables)


def line_netlist(segments, is_chain):
    netlist = Netlist([], 1)
    hub = netlist.trunk(netlist.net("n"), (BEL_PIN, "S0", "D", "O"), (SITE_PIN, "S0", "o"))
    if is_chain:
        place = netlist.trunk(hub, (PIP, "T0", "H", "W0"))
        for i in range(1, segments - 2):
            t, k = divmod(i, OF_LINE)
            place = netlist.trunk(place, (PIP, f"T{t}", f"W{k - 1}" if k else "W-", f"W{k}"))
    else:
        netlist.branches(hub, *[(PIP, f"T{i // OF_LINE}", "H", f"W{i % OF_LINE}") for i in range(segments - 2)])
    return netlist, netlist.file([("d", "DRV", "S0", "D", [("O", "O")])], ["S0"], "SOURCE", [])


def single_netlist(tiles, nets_of_cell):
    netlist = Netlist([], nets_of_cell * tiles)
    pins = [f"P{i}" for i in range(nets_of_cell)]
    for t in range(tiles):
        for it in pins:
            netlist.branches(netlist.net(f"n{t}_{it}"), (BEL_PIN, f"S{t}", "D", it))
    cells = [(f"c{t}", "DRV", f"S{t}", "D", [(it, it) for it in pins]) for t in range(tiles)]
    return netlist, netlist.file(cells, [f"S{t}" for t in range(tiles)], "MANY", [])


# The design.


def strips_design(sites):
    """A cell of a LUT and a flip-flop a site; a LUT feeds its flip-flop, and both feed the next LUT."""
    objects, names = Objects(8), {}
    slots = [8 + 8 * i for i in range(8)]

    def number(name):
        return names.setdefault(name, len(names))

    kinds = [("top", []), ("LUT2", [("I0", 0), ("I1", 0), ("O", 1)]), ("FD", [("D", 0), ("Q", 1)])]
    first = objects.structs(slots[4], len(kinds), 1, 1)
    count = 0
    for i, (name, ports) in enumerate(kinds):
        struct.pack_into("<I", objects.words, first + 16 * i, number(name))
        objects.numbers(first + 16 * i + 8, range(count, count + len(ports)))
        count += len(ports)
    lut_a, lut_b, lut_out, data, out = range(count)
    first = objects.structs(slots[5], count, 3, 1)
    for i, (name, way) in enumerate(port for _, ports in kinds for port in ports):
        struct.pack_into("<2I", objects.words, first + 32 * i, number(name), way)
    first = objects.structs(slots[6], 2 * sites, 1, 1)
    for i in range(sites):
        struct.pack_into("<2I", objects.words, first + 32 * i, number(f"cell_l{i}"), 1)
        struct.pack_into("<2I", objects.words, first + 32 * i + 16, number(f"cell_f{i}"), 2)
        entry = objects.structs(objects.struct(first + 32 * i + 8, 0, 1), 1, 2, 0)
        struct.pack_into("<3I", objects.words, entry, number("INIT"), 0, number(f"4'h{table_of(i):X}"))
    cell = objects.structs(slots[7], 1, 1, 2)
    objects.numbers(cell + 8, range(2 * sites))
    first = objects.structs(cell + 16, 2 * sites, 1, 1)
    for i in range(sites):
        lut, flip_flop, following = 2 * i, 2 * i + 1, 2 * ((i + 1) % sites)
        nets = [
            (f"lut{i}", [(lut_out, lut), (data, flip_flop), (lut_a, following)]),
            (f"ff{i}", [(out, flip_flop), (lut_b, following)]),
        ]
        for k, (name, ends) in enumerate(nets):
            at = first + 32 * i + 16 * k
            struct.pack_into("<I", objects.words, at, number(name))
            pins = objects.structs(at + 8, len(ends), 3, 0)
            for j, (port, owner) in enumerate(ends):
                struct.pack_into("<5I", objects.words, pins + 24 * j, port, 0, 0, 1, owner)
    objects.texts(slots[3], list(names))
    return objects.file()


def main():
    shape, segments, *paths = sys.argv[1], int(sys.argv[2]), *sys.argv[3:]
    of_tile = {"strips": OF_STRIP * OF_TILE, "chain": OF_LINE, "row": OF_LINE, "single": OF_CELL, "sparse": 1}[shape]
    tiles = -(-segments // of_tile)
    if shape == "strips":
        made, (netlist, file) = strips_device(tiles), strips_netlist(tiles)
    elif shape in ("single", "sparse"):
        made, (netlist, file) = single_device(tiles), single_netlist(tiles, of_tile)
    else:
        made, (netlist, file) = lines_device(tiles), line_netlist(segments, shape == "chain")
    first = message.encode(SCHEMA, made)
    files = [first, file]
    if len(paths) > 2:
        files.append(strips_design(tiles * OF_TILE))
    for path, data in zip(paths, files):
        Path(path).write_bytes(data)
    print(f"{netlist.segments} segments, {len(first)} and {len(file)} bytes")


main()
