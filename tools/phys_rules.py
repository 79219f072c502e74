#!/usr/bin/env python3
"""Whether a physical netlist is legal on a device: the rules L1 to L10, apart from the project's own code.

usage: phys_rules.py DEVICE NETLIST placed|routed

Prints `yes`, or `no:` with the least rule that is broken and the first place at which it is. A file is a message of one
segment, as bytes or in hexadecimal digits, or its text (a name that ends in .json). Devices are taken to be valid.

Things are looked up by their names, and each rule goes over the whole netlist by its words: which segments stand before
this one, who holds this resource. It is meant for small netlists.
"""
import itertools
import json
import re
import sys
from pathlib import Path

import message

SCHEMAS = Path(__file__).resolve().parent.parent / "examples" / "schema"
INPUT, OUTPUT = 0, 1
LOGIC, ROUTING = 0, 1
CONSTANTS = {1: "gnd", 2: "vcc"}
BEL_PIN, SITE_PIN, PIP, SITE_PIP = 0, 1, 2, 3
MOST_BELS, MOST_LINES, MOST_INPUTS = 8, 12, 6
TABLE = "TABLE/"


# The device.


class SiteType:
    def __init__(self, text):
        self.name = text.get("name", "")
        self.bels = {bel.get("name", ""): bel for bel in text.get("bels", [])}
        self.bel_pins = [
            (pin.get("bel", ""), pin.get("name", ""), pin.get("dir", 0)) for pin in text.get("belPins", [])
        ]
        self.bel_pin = {(bel, name): i for i, (bel, name, _) in enumerate(self.bel_pins)}
        self.site_pins = {
            pin.get("name", ""): (i, pin.get("dir", 0), pin.get("belpin", 0))
            for i, pin in enumerate(text.get("pins", []))
        }
        self.wire_of = {
            pin: wire for wire, it in enumerate(text.get("siteWires", [])) for pin in it.get("pins", [])
        }
        self.site_pips = [(pip.get("inpin", 0), pip.get("outpin", 0)) for pip in text.get("sitePIPs", [])]
        self.elements = []

    def pins_of(self, bel):
        return {name for its_bel, name, _ in self.bel_pins if its_bel == bel}

    def wire(self, bel, pin):
        """The site wire of a BEL pin; None where there is no such pin, or it is in no wire."""
        return self.wire_of.get(self.bel_pin.get((bel, pin)))

    def site_pip(self, bel, pin):
        """The wires of the site PIP that this input pin names, None where it names none that is used."""
        named = self.bel_pin.get((bel, pin))
        found = next((pip for pip in self.site_pips if pip[0] == named), None)
        if found is None or self.bels[bel].get("category", 0) != ROUTING:
            return None
        inverts = self.bels[bel].get("inversion", 0) == 1
        if inverts and self.bels[bel].get("invertingPin", 0) == named:
            return None
        wires = tuple(self.wire_of.get(end) for end in found)
        return None if None in wires else wires


class Element:
    """A LUT element: its BELs by name, each with its low bit and its input pins."""

    def __init__(self, site_type, text):
        self.bels = {
            bel.get("name", ""): (bel.get("lowBit", 0), bel.get("inputPins", [])) for bel in text.get("bels", [])
        }
        lines = [[site_type.wire(bel, pin) for pin in pins] for bel, (_, pins) in self.bels.items()]
        each = [line for of_bel in lines for line in of_bel]
        self.is_usable = (
            len(self.bels) <= MOST_BELS
            and None not in each
            and len(set(each)) <= MOST_LINES
            and all(len(set(of_bel)) == len(of_bel) for of_bel in lines)
        )


class Device:
    def __init__(self, text):
        self.site_types = [SiteType(it) for it in text.get("siteTypeList", [])]
        self.type_named = {it.name: it for it in self.site_types}
        self.tile_types = text.get("tileTypeList", [])
        self.tiles, self.sites = {}, {}
        for tile in text.get("tileList", []):
            self.put_tile(tile)
        self.nodes = {}
        for n, node in enumerate(text.get("nodes", [])):
            for w in node.get("wires", []):
                wire = text["wires"][w]
                self.nodes[wire.get("tile", ""), wire.get("wire", "")] = ("node", n)
        self.constants = self.constants_of_nodes(text)
        self.cell_types = {it.get("cell", ""): it.get("commonPins", []) for it in text.get("cellBelMap", [])}
        definitions = text.get("lutDefinitions") or {}
        self.lut_inputs = {}
        for lut in definitions.get("lutCells", []):
            pins = lut.get("inputPins", [])
            if lut.get("equation", 0) == 1 and 1 <= len(set(pins)) == len(pins) <= MOST_INPUTS:
                self.lut_inputs.setdefault(lut.get("cell", ""), pins)
        for entry in definitions.get("lutElements", []):
            site_type = self.type_named.get(entry.get("site", ""))
            if site_type:
                site_type.elements += [Element(site_type, it) for it in entry.get("luts", [])]
        self.sources = {}
        for source in (text.get("constants") or {}).get("siteSources", []):
            if source.get("constant", 0) in CONSTANTS:
                key = (source.get("siteType", ""), source.get("bel", ""), source.get("belPin", ""))
                self.sources.setdefault(key, CONSTANTS[source["constant"]])

    def put_tile(self, tile):
        name = tile.get("name", "")
        kind = self.tile_types[tile.get("type", 0)]
        self.tiles[name] = kind
        for site in tile.get("sites", []):
            own = kind["siteTypes"][site.get("type", 0)]
            wires = own.get("primaryPinsToTileWires", [])
            self.sites[site.get("name", "")] = (name, self.site_types[own.get("primaryType", 0)], wires)

    def node(self, tile, wire):
        """The node of a tile wire; one that no node names is a node by itself."""
        return self.nodes.get((tile, wire), ("wire", tile, wire))

    def constants_of_nodes(self, text):
        """The constant of each node that has one; a node that is listed for both has none."""
        listed = {}
        for tile, kind in self.tiles.items():
            wires = kind.get("wires", [])
            for entry in kind.get("constants", []):
                for w in entry.get("wires", []):
                    listed.setdefault(self.node(tile, wires[w]), set()).add(entry.get("constant", 0))
        for source in (text.get("constants") or {}).get("nodeSources", []):
            tile, wire = source.get("tile", ""), source.get("wire", "")
            if wire in self.tiles.get(tile, {}).get("wires", []):
                listed.setdefault(self.node(tile, wire), set()).add(source.get("constant", 0))
        found = {}
        for node, constants in listed.items():
            of_node = [CONSTANTS[c] for c in constants if c in CONSTANTS]
            if len(of_node) == 1:
                found[node] = of_node[0]
        return found

    def ends(self, segment):
        """The resources between which a segment goes, or None."""
        kind, first, second, third, forward = segment
        if kind == PIP:
            return self.pip_ends(first, second, third, forward)
        if first not in self.sites:
            return None
        tile, site_type, tile_wires = self.sites[first]
        if kind == BEL_PIN:
            wires = (site_type.wire(second, third),) * 2
        elif kind == SITE_PIP:
            wires = site_type.site_pip(second, third) or (None, None)
        else:
            number, direction, bel_pin = site_type.site_pins.get(second, (0, None, None))
            wire = site_type.wire_of.get(bel_pin)
            if direction not in (INPUT, OUTPUT) or wire is None:
                return None
            ends = (("site", first, wire), self.node(tile, tile_wires[number]))
            return ends if direction == OUTPUT else ends[::-1]
        return None if None in wires else tuple(("site", first, wire) for wire in wires)

    def pip_ends(self, tile, wire0, wire1, forward):
        kind = self.tiles.get(tile, {})
        names = kind.get("wires", [])
        for pip in kind.get("pips", []):
            fits = (names[pip.get("wire0", 0)], names[pip.get("wire1", 0)]) == (wire0, wire1)
            if fits and pip.get("kind", 0) == 0 and (forward or not pip.get("directional", 0) & 1):
                ends = (self.node(tile, wire0), self.node(tile, wire1))
                return ends if forward else ends[::-1]
        return None

    def element_of(self, site_type, bel):
        return next((it for it in site_type.elements if bel in it.bels), None)

    def pin_map(self, cell_type, site_type, bel):
        """The pin map of a cell type on a BEL that admits it, as pairs of a cell pin and a BEL pin; else None."""
        if site_type.bels.get(bel, {}).get("category", 0) != LOGIC:
            return None
        for pins in self.cell_types.get(cell_type, []):
            of_type = [it for it in pins.get("siteTypes", []) if it.get("siteType", "") == site_type.name]
            if any(bel in it.get("bels", []) for it in of_type):
                pairs = [(it.get("cellPin", ""), it.get("belPin", "")) for it in pins.get("pins", [])]
                break
        else:
            return None
        cell_pins, bel_pins = {pair[0] for pair in pairs}, {pair[1] for pair in pairs}
        if len(cell_pins) < len(pairs) or len(bel_pins) < len(pairs) or not bel_pins <= site_type.pins_of(bel):
            return None
        if cell_type in self.lut_inputs:
            element = self.element_of(site_type, bel)
            if not element or not element.is_usable:
                return None
            if len(element.bels[bel][1]) < len(self.lut_inputs[cell_type]):
                return None
        return pairs


# The netlist.


class Cell:
    def __init__(self, text):
        self.name, self.type, self.site, self.bel = (text.get(it, "") for it in ("cellName", "type", "site", "bel"))
        self.pins = [
            (pin.get("cellPin", ""), pin.get("bel", ""), pin.get("belPin", "")) for pin in text.get("pinMap", [])
        ]


class Net:
    """A net: its segments, sources then stubs, each with its parent's number, None for a root."""

    def __init__(self, text):
        self.name, self.type = text.get("name", ""), text.get("type", 0) & 0xFFFF
        self.segments, self.parents = [], []
        self.put(text.get("sources"), None)
        self.source_count = len(self.segments)
        self.put(text.get("stubs"), None)

    def put(self, branches, parent):
        left = [(it, parent) for it in reversed(branches or [])]
        while left:
            branch, above = left.pop()
            number = len(self.segments)
            names = [branch.get(it, "") for it in ("first", "second", "third")]
            self.segments.append((branch.get("kind", 0) & 0xFFFF, *names, branch.get("forward", 0) & 1 == 1))
            self.parents.append(above)
            left += [(it, number) for it in reversed(branch.get("branches") or [])]

    def roots(self, numbers):
        return [k for k in numbers if self.parents[k] is None]

    def source_roots(self):
        return self.roots(range(self.source_count))

    def stub_roots(self):
        return self.roots(range(self.source_count, len(self.segments)))

    def constant(self):
        return CONSTANTS.get(self.type)


class Netlist:
    def __init__(self, text):
        self.cells = [Cell(it) for it in text.get("placements", [])]
        self.nets = [Net(it) for it in text.get("physNets", [])]
        self.instances = [(it.get("site", ""), it.get("type", "")) for it in text.get("siteInsts", [])]
        self.properties = [(it.get("key", ""), it.get("value", "")) for it in text.get("properties", [])]

    def used_sites(self):
        return {site for site, _ in self.instances}


def at_net(net, index=0):
    return f"net {net.name} #{index}"


def each_segment(netlist):
    for net in netlist.nets:
        for k, segment in enumerate(net.segments):
            yield net, k, segment


# The rules. Each is the places at which it is broken, in their order.


def unnamed(device, netlist):
    """L1"""
    for site, site_type in netlist.instances:
        if site not in device.sites or site_type not in device.type_named:
            yield f"site {site}"
    for cell in netlist.cells:
        if not cell_is_named(device, cell):
            yield f"cell {cell.name}"
    for n, net in enumerate(netlist.nets):
        before = netlist.nets[:n]
        if net.type == 0:
            again = any(it.type == 0 and it.name == net.name for it in before)
        else:
            again = any(it.type == net.type for it in before)
        if again:
            yield at_net(net)
        for k, segment in enumerate(net.segments):
            if device.ends(segment) is None:
                yield at_net(net, k)
    for i, (key, value) in enumerate(netlist.properties):
        if key.startswith(TABLE) and not is_table(device, netlist, i, key, value):
            yield f"key {key}"


def cell_is_named(device, cell):
    if cell.type not in device.cell_types or cell.site not in device.sites:
        return False
    site_type = device.sites[cell.site][1]
    bels = [cell.bel] + [bel for _, bel, _ in cell.pins]
    pins = [(bel, pin) for _, bel, pin in cell.pins]
    return all(bel in site_type.bels for bel in bels) and all(it in site_type.bel_pin for it in pins)


def is_table(device, netlist, i, key, value):
    site, slash, number = key[len(TABLE):].rpartition("/")
    if not slash or site not in netlist.used_sites() or not re.fullmatch("0|[1-9][0-9]*", number, re.ASCII):
        return False
    if int(number) >= len(device.sites[site][1].elements):
        return False
    if key in [before for before, _ in netlist.properties[:i]]:
        return False
    return re.fullmatch("[0-9A-F]{16}", value) is not None


def misplaced(device, netlist):
    """L2"""
    for i, (site, site_type) in enumerate(netlist.instances):
        if site in [before for before, _ in netlist.instances[:i]] or device.sites[site][1].name != site_type:
            yield f"site {site}"
    for i, cell in enumerate(netlist.cells):
        before = netlist.cells[:i]
        again = any(it.name == cell.name or (it.site, it.bel) == (cell.site, cell.bel) for it in before)
        admits = device.pin_map(cell.type, device.sites[cell.site][1], cell.bel) is not None
        if again or not admits or cell.site not in netlist.used_sites():
            yield f"cell {cell.name}"


def mismapped(device, netlist):
    """L3"""
    for cell in netlist.cells:
        site_type = device.sites[cell.site][1]
        allowed = device.pin_map(cell.type, site_type, cell.bel)
        inputs = device.lut_inputs.get(cell.type, [])
        mapped = [(cell_pin, pin) for cell_pin, _, pin in cell.pins if cell_pin in inputs]
        others = [(cell_pin, pin) for cell_pin, _, pin in cell.pins if cell_pin not in inputs]
        fits = all(bel == cell.bel for _, bel, _ in cell.pins) and all(pair in allowed for pair in others)
        if inputs:
            own = device.element_of(site_type, cell.bel).bels[cell.bel][1]
            fits = fits and sorted(pin for pin, _ in mapped) == sorted(inputs)
            fits = fits and len({pin for _, pin in mapped}) == len(mapped)
            fits = fits and all(pin in own for _, pin in mapped)
        if not fits:
            yield f"cell {cell.name}"


def unjoined(device, netlist):
    """L4"""
    for net, k, segment in each_segment(netlist):
        above = net.parents[k]
        if above is not None and device.ends(net.segments[above])[1] != device.ends(segment)[0]:
            yield at_net(net, k)


def unrooted(device, netlist):
    """L5"""
    for net in netlist.nets:
        roots = net.source_roots()
        if net.type == 0 and not roots:
            yield at_net(net)
        for which, k in enumerate(roots):
            segment = net.segments[k]
            if net.type == 0:
                proper = which == 0 and is_driver(device, netlist, segment)
            else:
                proper = is_constant(device, netlist, segment, net.constant())
            if not proper:
                yield at_net(net, k)
        for k in net.stub_roots():
            if device.ends(net.segments[k])[0][0] == "site":
                yield at_net(net, k)


def is_driver(device, netlist, segment):
    kind, site, bel, pin, _ = segment
    if kind != BEL_PIN:
        return False
    site_type = device.sites[site][1]
    mapped = any(
        cell.site == site and (its_bel, bel_pin) == (bel, pin)
        for cell in netlist.cells
        for _, its_bel, bel_pin in cell.pins
    )
    return mapped and site_type.bel_pins[site_type.bel_pin[bel, pin]][2] == OUTPUT


def is_constant(device, netlist, segment, constant):
    kind, site, bel, pin, _ = segment
    if kind == BEL_PIN:
        site_type = device.sites[site][1]
        has_cell = any((cell.site, cell.bel) == (site, bel) for cell in netlist.cells)
        is_source = device.sources.get((site_type.name, bel, pin)) == constant
        return is_source and not has_cell and device.element_of(site_type, bel) is None
    return kind in (PIP, SITE_PIN) and device.constants.get(device.ends(segment)[0]) == constant


def reentered(device, netlist):
    """L6"""
    for net in netlist.nets:
        ends = [device.ends(segment) for segment in net.segments]
        entered = [None if it[0] == BEL_PIN else end[1] for it, end in zip(net.segments, ends)]
        roots = net.source_roots()
        for k, into in enumerate(entered):
            before = [it for it in entered[:k] if it is not None]
            broken = into is not None and (
                into in before
                or into in [ends[root][0] for root in roots if root <= k]
                or (net.type != 0 and device.constants.get(into) == net.constant())
            )
            if broken or (k in roots and ends[k][0] in before):
                yield at_net(net, k)


def shared(device, netlist, level):
    """L7"""
    ends = [[device.ends(it) for it in net.segments] for net in netlist.nets]
    of_pips = {
        end for net, k, segment in each_segment(netlist) if segment[0] == PIP for end in device.ends(segment)
    }
    held = [set(itertools.chain(*of_net)) for of_net in ends]
    for n, net in enumerate(netlist.nets):
        for k in range(len(net.segments)):
            for resource in ends[n][k]:
                counts = resource[0] == "site" or level == "routed" or resource in of_pips
                of_constant = device.constants.get(resource)
                others = any(resource in held[m] for m in range(n))
                if counts and (others or of_constant not in (None, net.constant())):
                    yield at_net(net, k)


def out_of_use(device, netlist):
    """L8"""
    for net, k, segment in each_segment(netlist):
        if segment[0] != PIP and segment[1] not in netlist.used_sites():
            yield at_net(net, k)


def without_function(device, netlist):
    """L9"""
    held = {}
    for net, _, segment in each_segment(netlist):
        for end in device.ends(segment):
            held[end] = net
    tables = dict(netlist.properties)
    for site, _ in netlist.instances:
        site_type = device.sites[site][1]
        for number, element in enumerate(site_type.elements):
            cells = [it for it in netlist.cells if it.site == site and it.bel in element.bels]
            luts = [it for it in cells if it.type in device.lut_inputs]
            table = tables.get(f"{TABLE}{site}/{number}")
            if luts and (len(luts) < len(cells) or table is None):
                yield f"element {site} {number}"
            elif not all(has_function(device, held, element, it, int(table, 16)) for it in luts):
                yield f"element {site} {number}"


def has_function(device, held, element, cell, table):
    """Whether the bits at which a LUT may read agree, for each value of its inputs."""
    low, bel_inputs = element.bels[cell.bel]
    site_type = device.sites[cell.site][1]
    own = device.lut_inputs[cell.type]
    pin_of = {cell_pin: pin for cell_pin, _, pin in cell.pins if cell_pin in own}
    tied = {}
    for pin in bel_inputs:
        net = held.get(("site", cell.site, site_type.wire(cell.bel, pin)))
        if pin not in pin_of.values() and net and net.type != 0:
            tied[pin] = int(net.constant() == "vcc")
    read = {}
    for value in itertools.product((0, 1), repeat=len(bel_inputs)):
        at = dict(zip(bel_inputs, value))
        if all(at[pin] == constant for pin, constant in tied.items()):
            bit = table >> low + sum(it << i for i, it in enumerate(value)) & 1
            read.setdefault(tuple(at[pin_of[pin]] for pin in own), set()).add(bit)
    return all(len(bits) == 1 for bits in read.values())


def unfinished(netlist, level):
    """L10"""
    for net in netlist.nets:
        if level == "routed" and net.stub_roots():
            yield at_net(net, net.source_count)


def judge(device, netlist, level):
    """The least rule that is broken and the first place at which it is; None where there is none."""
    rules = [
        ("L1", lambda: unnamed(device, netlist)),
        ("L2", lambda: misplaced(device, netlist)),
        ("L3", lambda: mismapped(device, netlist)),
        ("L4", lambda: unjoined(device, netlist)),
        ("L5", lambda: unrooted(device, netlist)),
        ("L6", lambda: reentered(device, netlist)),
        ("L7", lambda: shared(device, netlist, level)),
        ("L8", lambda: out_of_use(device, netlist)),
        ("L9", lambda: without_function(device, netlist)),
        ("L10", lambda: unfinished(netlist, level)),
    ]
    for rule, places in rules:
        place = next(places(), None)
        if place is not None:
            return f"no: {rule} at {place}"
    return "yes"


def read(path, kind):
    """The text of a message."""
    if path.endswith(".json"):
        return json.load(open(path, encoding="utf8"))
    data = Path(path).read_bytes()
    if re.fullmatch(rb"[0-9a-f\s]*", data):
        data = bytes.fromhex(data.decode())
    return message.Reader(*message.read_schema(SCHEMAS / f"{kind}.capnp"), data).value or {}


def main():
    if len(sys.argv) != 4 or sys.argv[3] not in ("placed", "routed"):
        sys.exit(__doc__)
    device = Device(read(sys.argv[1], "device"))
    print(judge(device, Netlist(read(sys.argv[2], "phys")), sys.argv[3]))


if __name__ == "__main__":
    main()
