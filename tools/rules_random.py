#!/usr/bin/env python3
"""Random physical netlists for the program ix_rules_cases, and what it must print.

usage: rules_random.py SEED COUNT FOLDER

Makes COUNT netlists on devices that are like tools/cases/slices.device.json with things changed. Each
is made legal: cells on BELs that take them, nets that grow from their drivers over what no other net
holds, and tables that give functions. Then at most three things of it are changed at random. FOLDER
gets the files of `data` and `stdout`, the answers of phys_rules.py; how often each rule is broken is
told.
"""
import copy
import json
import random
import sys
from collections import Counter
from itertools import product
from pathlib import Path

import message
import phys_rules
from phys_texts import SIGNAL, bel_pin, net, pip, site_pin, site_pip
from rules_cases import SCHEMA, TOP, judged, printed

DEVICES = 8


# Devices.


def random_device(rng, text):
    """A valid device: the given one, with things changed that no rule of devices asks about."""
    text = copy.deepcopy(text)
    if rng.random() < 0.2:
        return text
    tile_type = text["tileTypeList"][0]
    rng.shuffle(tile_type["pips"])
    for it in tile_type["pips"]:
        if rng.random() < 0.1:
            it["directional"] = rng.randrange(2)
        if rng.random() < 0.05:
            it["kind"] = 1
    wires = tile_type["wires"]
    for entry in tile_type["constants"]:
        if rng.random() < 0.5:
            entry["wires"] = rng.sample(range(len(wires)), rng.randrange(3))
    text["nodes"], text["wires"] = random_nodes(rng, text)
    site_type = text["siteTypeList"][0]
    for bel in site_type["bels"]:
        if bel.get("category", 0) == 1 and rng.random() < 0.15:
            bel["category"] = 0
    rng.shuffle(site_type["sitePIPs"])
    rng.shuffle(text["constants"]["siteSources"])
    for source in text["constants"]["siteSources"]:
        if rng.random() < 0.2:
            source["constant"] = rng.randrange(3)
    rng.shuffle(text["cellBelMap"])
    for lut in [bel for entry in text["lutDefinitions"]["lutElements"] if entry["site"] == "SLICE"
                for element in entry["luts"] for bel in element["bels"]]:
        if rng.random() < 0.5:
            rng.shuffle(lut["inputPins"])
    return text


def random_nodes(rng, text):
    """Nodes of one to three wires each, over some wires of the tiles."""
    tiles = [(tile, text["tileTypeList"][tile.get("type", 0)]["wires"]) for tile in text["tileList"]]
    wires = [(tile["name"], wire) for tile, own in tiles for wire in own]
    chosen = rng.sample(wires, rng.randrange(16))
    nodes = []
    while chosen:
        many = rng.randrange(1, 4)
        nodes.append(chosen[:many])
        chosen = chosen[many:]
    listed = [wire for node in nodes for wire in node]
    numbers = {wire: i for i, wire in enumerate(listed)}
    return (
        [{"wires": [numbers[wire] for wire in node]} for node in nodes],
        [{"tile": tile, "wire": wire} for tile, wire in listed],
    )


# Legal netlists.


def edges_of(device):
    """The segments that go from each resource to each, and the BEL pins of each wire."""
    edges, bel_pins = {}, {}

    def put(branch):
        names = [branch.get(it, "") for it in ("first", "second", "third")]
        ends = device.ends((branch["kind"], *names, branch.get("forward", 0) == 1))
        if ends and branch["kind"] == 0:
            bel_pins.setdefault(ends[0], []).append(branch)
        elif ends:
            edges.setdefault(ends[0], []).append((branch, ends[1]))

    for tile, kind in device.tiles.items():
        wires = kind.get("wires", [])
        for it in kind.get("pips", []):
            ends = wires[it.get("wire0", 0)], wires[it.get("wire1", 0)]
            put(pip(tile, *ends))
            put(pip(tile, *ends, forward=0))
    for site, (_, site_type, _) in device.sites.items():
        for pin in site_type.site_pins:
            put(site_pin(site, pin))
        for bel, pin, _ in site_type.bel_pins:
            put(bel_pin(site, bel, pin))
            put(site_pip(site, bel, pin))
    return edges, bel_pins


class Maker:
    """Makes a netlist that keeps every rule."""

    def __init__(self, rng, device, edges):
        self.rng, self.device = rng, device
        self.edges, self.bel_pins = edges
        self.sites = [it for it in device.sites if rng.random() < 0.8]
        self.cells = []
        self.held = {}

    def place(self):
        rng, device = self.rng, self.device
        for site in self.sites:
            site_type = device.sites[site][1]
            plain = {n: rng.random() < 0.2 for n in range(len(site_type.elements))}
            for bel in site_type.bels:
                element = device.element_of(site_type, bel)
                is_plain = element and plain[site_type.elements.index(element)]
                types = [
                    it for it in device.cell_types
                    if device.pin_map(it, site_type, bel) is not None
                    and (not element or (it in device.lut_inputs) != is_plain)
                ]
                if types and rng.random() < 0.6:
                    self.put_cell(site, site_type, bel, rng.choice(types))
        rng.shuffle(self.cells)

    def put_cell(self, site, site_type, bel, ty):
        rng = self.rng
        inputs = self.device.lut_inputs.get(ty, [])
        pairs = [it for it in self.device.pin_map(ty, site_type, bel) if it[0] not in inputs]
        pairs = [it for it in pairs if rng.random() < 0.85]
        if pairs and rng.random() < 0.1:
            pairs.append(rng.choice(pairs))
        if inputs:
            own = self.device.element_of(site_type, bel).bels[bel][1]
            pairs += list(zip(inputs, rng.sample(own, len(inputs))))
        rng.shuffle(pairs)
        fields = {"cellName": f"c{len(self.cells)}", "type": ty, "site": site, "bel": bel}
        pins = [{"cellPin": cell_pin, "bel": bel, "belPin": pin} for cell_pin, pin in pairs]
        self.cells.append(fields | {"pinMap": pins})

    def is_free(self, resource, holder, constant):
        of = self.device.constants.get(resource)
        site_is_used = resource[0] != "site" or resource[1] in self.sites
        return resource not in self.held and site_is_used and of is None

    def grow(self, holder, constant, roots, steps):
        """Lets a net grow from its roots, each given with the resource that it leads to."""
        tips = []
        for branch, resource in roots:
            self.held.setdefault(resource, holder)
            tips.append((branch, resource))
        for _ in range(steps):
            if not tips:
                return
            above, resource = self.rng.choice(tips)
            if self.rng.random() < 0.3 and resource in self.bel_pins:
                above["branches"].append(copy.deepcopy(self.rng.choice(self.bel_pins[resource])))
                continue
            free = [it for it in self.edges.get(resource, []) if self.is_free(it[1], holder, constant)]
            free = [it for it in free if it[0]["kind"] != 1 or it[0]["first"] in self.sites]
            if free:
                branch, into = copy.deepcopy(self.rng.choice(free))
                above["branches"].append(branch)
                self.held[into] = holder
                tips.append((branch, into))

    def signal(self, which, site, bel, pin):
        root = bel_pin(site, bel, pin)
        wire = self.device.ends((0, site, bel, pin, True))
        if wire is None or wire[0] in self.held:
            return None
        self.grow(which, None, [(root, wire[0])], self.rng.randrange(12))
        return net(f"n{which}", root)

    def signals(self):
        nets, drivers = [], []
        for cell in self.cells:
            site_type = self.device.sites[cell["site"]][1]
            for entry in cell["pinMap"]:
                key = (entry["bel"], entry["belPin"])
                if site_type.bel_pins[site_type.bel_pin[key]][2] == phys_rules.OUTPUT:
                    drivers.append((cell["site"], *key))
        drivers = list(dict.fromkeys(drivers))
        self.rng.shuffle(drivers)
        for driver in drivers:
            if self.rng.random() < 0.8:
                made = self.signal(len(nets), *driver)
                nets += [made] if made else []
        return nets

    def constant(self, ty, name):
        rng, device, constant = self.rng, self.device, phys_rules.CONSTANTS[ty]
        roots = []
        for _ in range(rng.randrange(4)):
            root = self.root_of(constant)
            if root:
                roots.append(root)
                self.grow(constant, constant, [root], rng.randrange(8))
        return net(name, *(root for root, _ in roots), ty=ty)

    def root_of(self, constant):
        """A new root of a constant's net, and the resource that it leads to."""
        rng, device = self.rng, self.device
        places = {(cell["site"], cell["bel"]) for cell in self.cells}
        found = []
        for site in self.sites:
            site_type = device.sites[site][1]
            for bel, pin, _ in site_type.bel_pins:
                is_source = device.sources.get((site_type.name, bel, pin)) == constant
                wire = device.ends((0, site, bel, pin, True))
                if is_source and wire and (site, bel) not in places and wire[0] not in self.held:
                    if device.element_of(site_type, bel) is None:
                        found.append((bel_pin(site, bel, pin), wire[0]))
        for node, of in device.constants.items():
            if of == constant:
                found += [it for it in self.edges.get(node, []) if self.is_free(it[1], constant, constant)]
        return copy.deepcopy(rng.choice(found)) if found else None

    def stubs(self, nets):
        """Makes some branches stubs."""
        for it in nets:
            left = list(it["sources"])
            while left:
                branch = left.pop()
                for below in list(branch["branches"]):
                    names = [below.get(k, "") for k in ("first", "second", "third")]
                    ends = self.device.ends((below["kind"], *names, below.get("forward", 0) == 1))
                    if ends[0][0] != "site" and self.rng.random() < 0.15:
                        branch["branches"].remove(below)
                        it["stubs"].append(below)
                    else:
                        left.append(below)

    def tables(self, netlist):
        """Tables whose bits agree wherever a LUT reads them for one value of its inputs."""
        read = phys_rules.Netlist(netlist)
        held = {}
        for of_net, _, segment in phys_rules.each_segment(read):
            for end in self.device.ends(segment):
                held[end] = of_net
        found = []
        for site, _ in read.instances:
            site_type = self.device.sites[site][1]
            for number, element in enumerate(site_type.elements):
                luts = [it for it in read.cells if it.site == site and it.bel in element.bels]
                luts = [it for it in luts if it.type in self.device.lut_inputs]
                if luts or self.rng.random() < 0.1:
                    bits = self.table(held, element, luts)
                    found.append({"key": f"TABLE/{site}/{number}", "value": f"{bits:016X}"})
        found += [{"key": f"k{self.rng.randrange(3)}", "value": ""} for _ in range(self.rng.randrange(3))]
        self.rng.shuffle(found)
        return found

    def table(self, held, element, luts):
        same = list(range(64))
        for cell in luts:
            for bits in self.bits_read(held, element, cell):
                classes = {same[bit] for bit in bits}
                same = [min(classes) if it in classes else it for it in same]
        values = [self.rng.randrange(2) for _ in same]
        return sum(values[of] << bit for bit, of in enumerate(same))

    def bits_read(self, held, element, cell):
        low, own = element.bels[cell.bel]
        site_type = self.device.sites[cell.site][1]
        inputs = self.device.lut_inputs[cell.type]
        mapped = {pin for cell_pin, _, pin in cell.pins if cell_pin in inputs}
        groups = {}
        for value in product((0, 1), repeat=len(own)):
            at = dict(zip(own, value))
            holders = {
                pin: held.get(("site", cell.site, site_type.wire(cell.bel, pin)))
                for pin in own if pin not in mapped
            }
            if all(it is None or it.type == 0 or at[pin] == it.type - 1 for pin, it in holders.items()):
                key = tuple(at[pin] for pin in own if pin in mapped)
                groups.setdefault(key, []).append(low + sum(it << i for i, it in enumerate(value)))
        return groups.values()

    def netlist(self):
        rng = self.rng
        self.place()
        constants = [(1, "zero"), (2, "one")]
        rng.shuffle(constants)
        nets = [self.constant(*it) for it in constants if rng.random() < 0.8]
        nets += self.signals()
        rng.shuffle(nets)
        if rng.random() < 0.5:
            self.stubs(nets)
        insts = [{"site": it, "type": self.device.sites[it][1].name} for it in self.sites]
        rng.shuffle(insts)
        netlist = {"part": "d", "placements": self.cells, "physNets": nets, "siteInsts": insts}
        return netlist | {"properties": self.tables(netlist)}


# Changes.


def all_branches(netlist):
    """Each list of branches, with the number of each branch in it."""
    left = [it[side] for it in netlist["physNets"] for side in ("sources", "stubs")]
    found = []
    while left:
        branches = left.pop()
        found += [(branches, i) for i in range(len(branches))]
        left += [it["branches"] for it in branches]
    return found


class Change:
    """Changes a thing of a netlist."""

    def __init__(self, rng, device, edges):
        self.rng, self.device = rng, device
        self.edges = edges[0]
        self.segments = [branch for of in edges[0].values() for branch, _ in of]
        self.segments += [branch for of in edges[1].values() for branch in of]
        self.bels = sorted({bel for it in device.site_types for bel in it.bels})
        self.pins = sorted({name for it in device.site_types for _, name, _ in it.bel_pins})
        self.wires = sorted({wire for it in device.tiles.values() for wire in it.get("wires", [])})

    def name(self, kind):
        if self.rng.random() < 0.03:
            return "?"
        pools = {
            "site": list(self.device.sites), "siteType": list(self.device.type_named), "bel": self.bels,
            "type": list(self.device.cell_types), "pin": self.pins, "wire": self.wires,
            "tile": list(self.device.tiles),
        }
        return self.rng.choice(pools[kind])

    def make(self, netlist):
        kinds = [
            self.instance, self.cell, self.cell, self.entry, self.entry, self.list, self.list, self.net,
            self.segment, self.branch, self.branch, self.branch, self.table, self.edge, self.edge, self.edge,
            self.edge, self.edge, self.bits, self.bits, self.bits, self.site, self.site, self.swap,
        ]
        self.rng.choice(kinds)(netlist)

    def instance(self, netlist):
        if netlist["siteInsts"]:
            it = self.rng.choice(netlist["siteInsts"])
            field, kind = self.rng.choice([("site", "site"), ("type", "siteType")])
            it[field] = self.name(kind)

    def cell(self, netlist):
        if netlist["placements"]:
            it = self.rng.choice(netlist["placements"])
            field = self.rng.choice(["type", "site", "bel", "cellName"])
            it[field] = f"c{self.rng.randrange(9)}" if field == "cellName" else self.name(field)

    def entry(self, netlist):
        entries = [it for cell in netlist["placements"] for it in cell["pinMap"]]
        if entries:
            it = self.rng.choice(entries)
            field, kind = self.rng.choice([("cellPin", "pin"), ("bel", "bel"), ("belPin", "pin"), ("belPin", "pin")])
            it[field] = self.rng.choice(["I0", "I1", "O", "D"]) if field == "cellPin" else self.name(kind)

    def list(self, netlist):
        """Takes a thing out of a list, or puts it in again, or moves it."""
        lists = [netlist[it] for it in ("placements", "physNets", "siteInsts", "properties")]
        lists += [cell["pinMap"] for cell in netlist["placements"]]
        its_list = self.rng.choice(lists)
        if its_list:
            it = its_list.pop(self.rng.randrange(len(its_list)))
            for _ in range(self.rng.randrange(3)):
                its_list.insert(self.rng.randrange(len(its_list) + 1), copy.deepcopy(it))

    def net(self, netlist):
        if netlist["physNets"]:
            it = self.rng.choice(netlist["physNets"])
            what = self.rng.randrange(4)
            if what == 0:
                it["type"] = self.rng.randrange(3)
            elif what == 1:
                it["name"] = self.rng.choice(["n0", "n1", "zero", "one"])
            elif what == 2:
                it["sources"], it["stubs"] = it["stubs"], it["sources"]
            else:
                other = self.rng.choice(netlist["physNets"])
                side = self.rng.choice(["sources", "stubs"])
                it[side] = it[side] + copy.deepcopy(other[side])

    def segment(self, netlist):
        found = all_branches(netlist)
        if found:
            branches, i = self.rng.choice(found)
            it = branches[i]
            field = self.rng.choice(["first", "second", "third", "forward", "kind"])
            kinds = {
                "first": "tile" if it["kind"] == 2 else "site",
                "second": {0: "bel", 1: "pin", 2: "wire", 3: "bel"}[it["kind"]],
                "third": "wire" if it["kind"] == 2 else "pin",
            }
            if field == "forward":
                it["forward"] = 1 - it.get("forward", 0)
            elif field == "kind":
                it["kind"] = self.rng.randrange(4)
            else:
                it[field] = self.name(kinds[field])

    def branch(self, netlist):
        """Moves a branch with what is below it, or takes it out, or puts another one beside or below it."""
        found = all_branches(netlist)
        what = self.rng.randrange(5)
        if not found or what == 0 and netlist["physNets"]:
            if netlist["physNets"]:
                it = self.rng.choice(netlist["physNets"])[self.rng.choice(["sources", "stubs"])]
                it.append(copy.deepcopy(self.rng.choice(self.segments)))
            return
        branches, i = self.rng.choice(found)
        if what == 1:
            branches[i]["branches"].append(copy.deepcopy(self.rng.choice(self.segments)))
        elif what == 2:
            branches.pop(i)
        elif what == 3:
            other = copy.deepcopy(self.rng.choice(found))
            other[0][other[1]]["branches"] = []
            branches.insert(i, other[0][other[1]])
        else:
            it = branches.pop(i)
            left = all_branches(netlist)
            if left:
                others, j = self.rng.choice(left)
                others[j]["branches"].append(it)

    def edge(self, netlist):
        """Lets a net go on, or a new root begin, over what others may hold."""
        found = all_branches(netlist)
        if found:
            branches, i = self.rng.choice(found)
            it = branches[i]
            names = [it.get(k, "") for k in ("first", "second", "third")]
            ends = self.device.ends((it["kind"], *names, it.get("forward", 0) == 1))
            if ends and self.edges.get(ends[1]):
                branch, _ = copy.deepcopy(self.rng.choice(self.edges[ends[1]]))
                (branches if self.rng.random() < 0.1 else it["branches"]).append(branch)

    def bits(self, netlist):
        """Changes bits of a table, or takes away what holds a wire."""
        tables = [it for it in netlist["properties"] if it["key"].startswith("TABLE/")]
        if tables:
            it = self.rng.choice(tables)
            bits = int(it["value"] or "0", 16) ^ self.rng.randrange(256)
            it["value"] = f"{bits:016X}"[-16:]
        for it in netlist["physNets"]:
            if it["type"] != 0 and self.rng.random() < 0.2:
                it["sources"] = it["sources"][1:]

    def site(self, netlist):
        """Takes away an instance and the cells on it."""
        if netlist["siteInsts"]:
            site = netlist["siteInsts"].pop(self.rng.randrange(len(netlist["siteInsts"])))["site"]
            netlist["placements"] = [it for it in netlist["placements"] if it["site"] != site]
            tables = [it for it in netlist["properties"] if it["key"].startswith(f"TABLE/{site}/")]
            netlist["properties"] = [it for it in netlist["properties"] if it not in tables]
            if self.rng.random() < 0.7:
                roots = [(it["sources"][0] if it["sources"] else {}).get("first") for it in netlist["physNets"]]
                nets = [it for it, root in zip(netlist["physNets"], roots) if root != site]
                netlist["physNets"] = nets

    def swap(self, netlist):
        """Swaps two entries' pins of a cell."""
        cells = [it for it in netlist["placements"] if len(it["pinMap"]) > 1]
        if cells:
            a, b = self.rng.sample(self.rng.choice(cells)["pinMap"], 2)
            a["belPin"], b["belPin"] = b["belPin"], a["belPin"]

    def table(self, netlist):
        tables = [it for it in netlist["properties"] if it["key"].startswith("TABLE/")]
        if tables:
            it = self.rng.choice(tables)
            what = self.rng.randrange(4)
            if what == 0:
                it["key"] = it["key"][:-1] + self.rng.choice(["0", "1", "2", "3", "00", "", "x"])
            elif what == 1:
                it["key"] = f"TABLE/{self.name('site')}/{self.rng.randrange(3)}"
            elif what == 2:
                it["value"] = self.rng.choice(["", it["value"].lower(), it["value"] + "0", "0" * 16, "F" * 15])
            else:
                bit = self.rng.randrange(16)
                it["value"] = f"{int(it['value'] or '0', 16) ^ 1 << bit:016X}"


def main():
    if len(sys.argv) != 4:
        sys.exit(__doc__)
    rng, count, folder = random.Random(int(sys.argv[1])), int(sys.argv[2]), Path(sys.argv[3])
    folder.mkdir(exist_ok=True)
    (folder / "data").mkdir(exist_ok=True)
    text = json.load(open(TOP / "tools" / "cases" / "slices.device.json", encoding="utf8"))
    devices = []
    for n in range(DEVICES):
        made = random_device(rng, text)
        file = message.encode(SCHEMA.parent / "device.capnp", made)
        (folder / "data" / f"d{n}").write_text(file.hex() + "\n")
        device = phys_rules.Device(made)
        devices.append((device, edges_of(device)))
    lines, answers, seen = [], [], Counter()
    for i in range(count):
        n = rng.randrange(DEVICES)
        device, edges = devices[n]
        netlist = Maker(rng, device, edges).netlist()
        legal = judged(device, netlist)
        assert legal.startswith("yes"), (i, n, legal)
        change = Change(rng, device, edges)
        for _ in range(rng.randrange(4)):
            change.make(netlist)
        answer = judged(device, netlist)
        seen[answer.split(" at ")[0]] += 1
        lines.append(f"{i} | d{n} | d{n} | {message.encode(SCHEMA, netlist).hex()}")
        answers.append(f"{i}: {printed(answer)}")
    (folder / "data" / "cases").write_text("\n".join(lines) + "\n", encoding="utf8")
    (folder / "stdout").write_text("\n".join(answers) + "\n", encoding="utf8")
    print(dict(sorted(seen.items())))


if __name__ == "__main__":
    main()
