#!/usr/bin/env python3
"""What the program ix_belmap_cases must print, by the rules of fixed ports, groups and counts.

    tools/belmap_cases.py          write crates/ix_belmap_cases/stdout
    tools/belmap_cases.py check    compare crates/ix_belmap_cases/stdout with the answers

The program's head says how a case is written. The device is read from the text that its file was
encoded from. Groups are made cell by cell over the whole design, and BELs counted site by site.
"""
import json
import sys
from collections import namedtuple
from pathlib import Path

TOP = Path(__file__).resolve().parent.parent
CASES = TOP / "crates" / "ix_belmap_cases"
DEVICE = TOP / "tools" / "cases" / "pads.device.json"

Port = namedtuple("Port", "direction bits properties")
Cell = namedtuple("Cell", "name type")


class Device:
    def __init__(self, text):
        types = text["siteTypeList"]
        self.types = [t["name"] for t in types]
        self.packages = text["packages"]
        self.sites = {}
        for tile in text["tileList"]:
            own = text["tileTypeList"][tile.get("type", 0)]["siteTypes"]
            for site in tile["sites"]:
                kind = own[site.get("type", 0)].get("primaryType", 0)
                self.sites[site["name"]] = types[kind]["name"]
        self.admitting = {}
        for mapping in text["cellBelMap"]:
            for pins in mapping["commonPins"]:
                for entry in pins["siteTypes"]:
                    for bel in entry["bels"]:
                        key = (mapping["cell"], entry["siteType"])
                        self.admitting.setdefault(key, set()).add(bel)

    def bels_in(self, cell_type, site_type):
        return len(self.admitting.get((cell_type, site_type), ()))

    def bels(self, cell_type):
        return sum(self.bels_in(cell_type, site_type) for site_type in self.sites.values())

    def stays_with(self, cell_type, port_type):
        return all(
            self.bels_in(port_type, t) for t in self.types if self.bels_in(cell_type, t)
        )


class Design:
    def __init__(self):
        self.netlist, self.ports, self.port_cells = [], [], 0
        self.cells, self.nets, self.pins = [], [], []

    def put(self, item):
        word, *rest = item.split() or [""]
        if word in ("port", "bus"):
            given = 4 if word == "bus" else 2
            bits = abs(int(rest[2]) - int(rest[3])) + 1 if word == "bus" else None
            self.ports.append(Port(rest[1], bits, triples(rest[given:])))
        elif word == "netlist":
            self.netlist = triples(rest)
        elif word == "ports":
            self.port_cells = int(rest[0])
        elif word == "cell":
            self.cells.append(Cell(*rest))
        elif word == "net":
            self.nets.append(rest[0])
        elif word == "pin":
            net = rest[2] if rest[2] in ("gnd", "vcc") else int(rest[2])
            self.pins.append((int(rest[0]), rest[1], net))
        elif word in ("outputs", "members"):
            kind = "$PORT_OUT" if word == "outputs" else rest[0]
            for _ in range(int(rest[-2])):
                self.pins.append((len(self.cells), "P", int(rest[-1])))
                self.cells.append(Cell("", kind))

    def is_one(self):
        cells, nets = len(self.cells), len(self.nets)
        return self.port_cells <= cells and all(
            c < cells and (isinstance(n, str) or n < nets) for c, _, n in self.pins
        )

    def signals(self, cell):
        return [n for c, _, n in self.pins if c == cell and isinstance(n, int)]


def triples(words):
    return [tuple(words[i : i + 3]) for i in range(0, len(words), 3)]


def first(pairs, name):
    """The first value under a name; None where there is none."""
    return next((value for key, value in pairs if key == name), None)


def property_of(properties, key):
    return first([(k, (kind, value)) for k, kind, value in properties], key)


# Fixed ports.


def package_pins(device, netlist):
    named = property_of(netlist, "PACKAGE")
    packages = [(p["name"], p["packagePins"]) for p in device.packages]
    if named is None:
        return packages[0][1]
    kind, name = named
    return (first(packages, name) or []) if kind == "text" else []


def fixed_bits(device, design):
    """For each port cell None, or its package pin's name and its site, which may be None."""
    pins = [(p["packagePin"], p.get("site")) for p in package_pins(device, design.netlist)]
    bits = []
    for port in design.ports:
        if port.direction == "inout":
            continue
        for k in range(port.bits or 1):
            key = "PACKAGE_PIN" if port.bits is None else f"PACKAGE_PIN[{k}]"
            value = property_of(port.properties, key)
            if value is None:
                bits.append(None)
                continue
            site = first(pins, value[1]) if value[0] == "text" else None
            bits.append((value[1], site if site in device.sites else None))
    return bits


def fixed(device, design):
    """The sites of fixed port cells, or the text of a refusal."""
    bits = fixed_bits(device, design)
    if len(bits) != design.port_cells:
        return " no such ports"
    used = []
    for i, bit in enumerate(bits):
        if bit and bit[1] is None:
            return f" P4 at {design.cells[i].name}"
    for i, bit in enumerate(bits):
        if bit and bit[0] in used:
            return f" P5 at {design.cells[i].name}"
        if bit:
            used.append(bit[0])
    return {i: bit[1] for i, bit in enumerate(bits) if bit}


# Groups and counts.


def groups(device, design, sites):
    made = []
    for port in range(design.port_cells):
        nets = design.signals(port)[:1]
        joining = [
            cell
            for cell in range(design.port_cells, len(design.cells))
            if any(net in design.signals(cell) for net in nets)
            and not any(cell in group for group in made)
            and device.stays_with(design.cells[cell].type, design.cells[port].type)
        ]
        made.append([port] + joining[:8])
    taken = [cell for group in made for cell in group]
    ordered = [g for g in made if g[0] in sites] + [g for g in made if g[0] not in sites]
    ordered += [[c] for c in range(len(design.cells)) if c not in taken]
    return "".join(" [" + " ".join(design.cells[c].name for c in g) + "]" for g in ordered)


def short(device, design):
    for cell in design.cells:
        count = sum(other.type == cell.type for other in design.cells)
        if count > device.bels(cell.type):
            return f" {cell.type}: {count} cells, {device.bels(cell.type)} BELs"
    return " none"


def answer(device, line):
    fields = [field.strip() for field in line.split("|")]
    question, design = fields[1], Design()
    for item in fields[2:]:
        design.put(item)
    if question.startswith("count "):
        return f"{fields[0]}: {device.bels(question.split()[1])}"
    if question == "short":
        return fields[0] + ":" + short(device, design)
    if not design.is_one():
        return fields[0] + ": no design"
    if question == "groups":
        return fields[0] + ":" + groups(device, design, {})
    if question == "number of groups":
        return f"{fields[0]}: {groups(device, design, {}).count('[')}"
    sites = fixed(device, design)
    if isinstance(sites, str):
        return fields[0] + ":" + sites
    told = "".join(f" {design.cells[c].name}={site}" for c, site in sorted(sites.items()))
    return fields[0] + ":" + told + (groups(device, design, sites) if "groups" in question else "")


def main():
    device = Device(json.loads(DEVICE.read_text(encoding="utf8")))
    lines = (CASES / "data" / "cases").read_text(encoding="utf8").splitlines()
    answers = "".join(answer(device, l) + "\n" for l in lines if l and not l.startswith("#"))
    if sys.argv[1:] == ["check"]:
        if (CASES / "stdout").read_text(encoding="utf8") != answers:
            sys.exit(f"{CASES / 'stdout'} isn't what {Path(__file__).name} answers")
    else:
        (CASES / "stdout").write_text(answers, encoding="utf8")


if __name__ == "__main__":
    main()
