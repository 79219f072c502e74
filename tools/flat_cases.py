#!/usr/bin/env python3
"""What flattening must answer, straight from the definitions: occurrences are listed, nets are found by following chains
of crossings, and each rule is asked along the walk.

    tools/flat_cases.py                        write the cases, their devices and their answers
    tools/flat_cases.py check                  compare them with the answers
    tools/flat_cases.py flatten DEVICE DESIGN  the answer for two files of JSON, as tools/message.py takes them
    tools/flat_cases.py show WORDS             the JSON of the designs that show something with these words

The designs are written in tools/cases/flat_designs, in the form that tools/design_text.py tells. Their devices are
tools/cases/NAME.device.json. A line of crates/ix_flatten_cases/data/cases has what the case shows, the device's file, and
the design as hexadecimal digits. Those of tools/cases/run_designs are files of crates/ix_run_cases/data.

An answer is `RULE "WORD"`, or lists of: each cell and its type, the number of port cells, each signal net and its driver,
each connected pin and its net, each table as inputs and bits in hexadecimal digits. Cells and nets stand by their numbers,
pins by their cell's number and then by name in byte order.
"""
import itertools
import json
import re
import sys
from pathlib import Path

from design_text import designs
from message import encode

TOP = Path(__file__).resolve().parent.parent
CRATES, CASES, SCHEMA = TOP / "crates", TOP / "tools" / "cases", TOP / "examples" / "schema"
INPUT, OUTPUT, INOUT = range(3)
MOST_OCCURRENCES = 1 << 22
GND, VCC = "GND", "VCC"


class Broken(Exception):
    def __init__(self, rule, word):
        super().__init__(f'{rule} "{word}"')


class Message:
    """A message's JSON; a name may be written as its text or as its number in the table."""

    def __init__(self, value):
        self.value, self.table = value, value.get("strList", [])

    def name(self, struct, field):
        name = struct.get(field, "" if not self.table or "" in self.table else 0)
        return self.table[name] if isinstance(name, int) else name


class Device(Message):
    def __init__(self, value):
        super().__init__(value)
        self.types = {self.name(mapping, "cell") for mapping in value.get("cellBelMap", [])}
        self.constant_types = {}
        constants = value.get("constants")
        # Gnd stands last, so a type of both is gnd's.
        for constant, word in ((VCC, "vcc"), (GND, "gnd")) if constants else ():
            name = self.name(constants, f"{word}CellType")
            self.constant_types[name] = constant, self.name(constants, f"{word}CellPin")

    def lut(self, type_name):
        """The inputs and the parameter of a LUT type."""
        for cell in self.value.get("lutDefinitions", {}).get("lutCells", []):
            inputs = cell.get("inputPins", [])
            if cell.get("cell", "") == type_name and cell.get("equation", 0) == 1:
                if 1 <= len(inputs) <= 6 and len(set(inputs)) == len(inputs):
                    return inputs, cell.get("initParam", "")
        return None


class Design(Message):
    def __init__(self, value):
        super().__init__(value)
        self.top = value.get("topInst", {})
        self.declarations, self.ports, self.instances, self.cells = (
            value.get(field, []) for field in ("cellDecls", "portList", "instList", "cellList"))

    def inside(self, declaration):
        """The cell of a declaration; None for a leaf, or an empty top."""
        return next((c for c in self.cells if c.get("index", 0) == declaration), None)

    def type_of(self, instance):
        return self.name(self.declarations[instance.get("cell", 0)], "name")

    def ports_of(self, instance):
        return self.declarations[instance.get("cell", 0)].get("ports", [])

    def direction(self, port):
        return self.ports[port].get("dir", 0)

    def width(self, port):
        port = self.ports[port]
        return abs(port.get("busStart", 0) - port.get("busEnd", 0)) + 1 if port.get("kind", 0) else 1

    def written(self, bit):
        port, index = bit
        name = self.name(self.ports[port], "name")
        return f"{name}[{index}]" if self.ports[port].get("kind", 0) else name


def bit_of(named):
    """The port bit that a PortInstance names: the port's number and the index, 0 at a port of one bit."""
    return named.get("port", 0), named.get("idx", 0) if named.get("busTag", 0) else 0


def owner_of(named):
    """The number of the instance whose bit is named; None for the cell itself."""
    return named.get("inst", 0) if named.get("ownerTag", 0) else None


def bits_named(net, owner):
    return {bit_of(named) for named in net.get("portInsts", []) if owner_of(named) == owner}


# Rules over declarations and cells.


def children(design, declaration):
    """The declarations that have an instance in a cell of this one."""
    return {design.instances[i].get("cell", 0) for cell in design.cells if cell.get("index", 0) == declaration
            for i in cell.get("insts", [])}


def reached(design, start):
    """All declarations that are in these, at any depth, and these themselves."""
    found = set(start)
    while True:
        more = set().union(*(children(design, d) for d in found)) - found if found else set()
        if not more:
            return found
        found |= more


def ask_n1(design):
    from_top = reached(design, {design.top.get("cell", 0)})
    for d in range(len(design.declarations)):
        contains_itself = d in from_top and d in reached(design, children(design, d))
        has_two_cells = sum(cell.get("index", 0) == d for cell in design.cells) > 1
        if contains_itself or has_two_cells:
            raise Broken("N1", design.name(design.declarations[d], "name"))


def cells_reached(design):
    """The cells that the top reaches, in the order in which preorder first meets them."""
    found, waiting = [], [design.top.get("cell", 0)]
    while waiting:
        declaration = waiting.pop(0)
        cell = design.inside(declaration)
        if cell is not None and cell not in found:
            found.append(cell)
            waiting = [design.instances[i].get("cell", 0) for i in cell.get("insts", [])] + waiting
    return found


def breaks_n2(design, cell, number):
    """Whether this net of a cell is the later one of two, or names the later one of two bits with one written name."""
    nets = cell.get("nets", [])
    met = [(owner_of(named), bit_of(named)) for net in nets[:number] for named in net.get("portInsts", [])]
    here = [(owner_of(named), bit_of(named)) for named in nets[number].get("portInsts", [])]
    if set(met) & set(here):
        return True
    for owner, bit in here:
        for other_owner, other in met:
            if owner is not None and owner == other_owner and bit != other:
                if design.written(bit) == design.written(other):
                    return True
        met.append((owner, bit))
    return False


def ask_n2(design):
    for cell in cells_reached(design):
        for number, net in enumerate(cell.get("nets", [])):
            if breaks_n2(design, cell, number):
                raise Broken("N2", design.name(net, "name"))


def leaf_declarations(design):
    return {d for d in reached(design, {design.top.get("cell", 0)}) if design.inside(d) is None} - {
        design.top.get("cell", 0)}


def ask_n9(design, device):
    unknown = {d for d in leaf_declarations(design) if design.name(design.declarations[d], "name")
               not in device.types | set(device.constant_types)}
    # The way down goes by the first child from which a leaf of unknown type is reached.
    way, declaration = [], design.top.get("cell", 0)
    while unknown and declaration not in unknown:
        insts = [design.instances[i] for i in design.inside(declaration).get("insts", [])]
        inst = next(i for i in insts if unknown & reached(design, {i.get("cell", 0)}))
        way.append(design.name(inst, "name"))
        declaration = inst.get("cell", 0)
    if unknown:
        raise Broken("N9", "/".join(way))


def count_below(design, declaration, known):
    """How many instances and net occurrences an instance of this declaration has in it."""
    if declaration not in known:
        cell = design.inside(declaration) or {}
        known[declaration] = len(cell.get("nets", [])) + sum(
            1 + count_below(design, design.instances[i].get("cell", 0), known) for i in cell.get("insts", []))
    return known[declaration]


def ask_n10(design):
    bits = sum(design.width(port) for port in design.ports_of(design.top))
    if count_below(design, design.top.get("cell", 0), {}) + bits > MOST_OCCURRENCES:
        raise Broken("N10", "")


# The walk: the top's port bits, then the instances in preorder, of each its nets before its instances, of a leaf its pins.


class Spot:
    """A place in the walk. A net and an instance have the path of places to their instance, a pin that to its leaf."""

    def __init__(self, kind, path=(), names=(), **more):
        self.kind, self.path, self.names = kind, path, names
        self.__dict__.update(more)


def is_silent(design, device, declaration, known):
    """Whether nothing in an instance of this declaration shows in a flat design: no net, and constant cells alone."""
    if declaration not in known:
        cell = design.inside(declaration)
        if cell is None:
            known[declaration] = design.name(design.declarations[declaration], "name") in device.constant_types
        else:
            known[declaration] = not cell.get("nets", []) and all(
                is_silent(design, device, design.instances[i].get("cell", 0), known) for i in cell.get("insts", []))
    return known[declaration]


def walk(design, device):
    top_cell = design.inside(design.top.get("cell", 0))
    named_by_top = set().union(*(bits_named(net, None) for net in (top_cell or {}).get("nets", [])))
    for place, port in enumerate(design.ports_of(design.top)):
        # An inout bit on no net is nothing to ask about.
        indexes = range(design.width(port)) if design.direction(port) != INOUT else sorted(
            index for other, index in named_by_top if other == port)
        for index in indexes:
            yield Spot("port", port=port, place=place, bit=(port, index))
    yield from walk_inside(design, device, (), (), design.top, {})


def walk_inside(design, device, path, names, instance, silent):
    cell = design.inside(instance.get("cell", 0)) or {}
    for number, net in enumerate(cell.get("nets", [])):
        yield Spot("net", path, names + (design.name(net, "name"),), net=net, number=number)
    for place, inst_number in enumerate(cell.get("insts", [])):
        inst = design.instances[inst_number]
        below, names_below = path + (place,), names + (design.name(inst, "name"),)
        declaration = inst.get("cell", 0)
        leaf = design.inside(declaration) is None
        yield Spot("instance", below, names_below, instance=inst, number=inst_number, leaf=leaf)
        if not leaf and not is_silent(design, device, declaration, silent):
            yield from walk_inside(design, device, below, names_below, inst, silent)
        elif leaf:
            named = set().union(*(bits_named(net, inst_number) for net in cell.get("nets", [])))
            ports = design.ports_of(inst)
            for bit in sorted(named, key=lambda bit: (ports.index(bit[0]), bit[1])):
                yield Spot("pin", below, names_below, instance=inst, number=inst_number, bit=bit)


class Flat:
    """The walk of a design that keeps the rules up to N10, and the nets: which occurrences are one net, and their pins."""

    def __init__(self, design, device):
        self.design, self.device = design, device
        self.spots = list(walk(design, device))
        self.net_spots = {(s.path, s.number): s for s in self.spots if s.kind == "net"}
        self.find_nets()
        self.find_pins()

    def find_nets(self):
        instance_at = {s.path: s for s in self.spots if s.kind == "instance"}
        nets_at = {}
        for s in self.net_spots.values():
            nets_at.setdefault(s.path, []).append(s)
        crossings = {key: [] for key in self.net_spots}
        for path, inner_nets in nets_at.items():
            for inner, outer in itertools.product(inner_nets, nets_at.get(path[:-1], []) if path else []):
                if bits_named(outer.net, instance_at[path].number) & bits_named(inner.net, None):
                    crossings[path, inner.number].append((path[:-1], outer.number))
                    crossings[path[:-1], outer.number].append((path, inner.number))
        # In preorder each occurrence that no net has yet begins one, with all that chains of crossings join to it.
        self.first_of = {}
        for key in self.net_spots:
            waiting = [] if key in self.first_of else [key]
            while waiting:
                other = waiting.pop()
                if other not in self.first_of:
                    self.first_of[other] = key
                    waiting += crossings[other]
        self.nets = [key for key in self.net_spots if self.first_of[key] == key]

    def net_name(self, key):
        return "/".join(self.net_spots[key].names)

    def net_of(self, pin):
        """The net that a pin, of a port or a leaf, is on."""
        owner, path = (None, ()) if pin.kind == "port" else (pin.number, pin.path[:-1])
        for (at, number), s in self.net_spots.items():
            if at == path and pin.bit in bits_named(s.net, owner):
                return self.first_of[at, number]
        return None

    def constant_of(self, s):
        """The constant, and the name of the constant pin, of a leaf of constant cells."""
        return self.device.constant_types.get(self.design.type_of(s.instance))

    def is_cell(self, s):
        return self.cell_type(s) is not None

    def cell_type(self, s):
        """The type of the cell of the flat design that stands here; None where none does."""
        if s.kind == "port":
            return {INPUT: "$PORT_IN", OUTPUT: "$PORT_OUT"}.get(self.design.direction(s.port))
        if s.kind == "instance" and s.leaf and not self.constant_of(s):
            return self.design.type_of(s.instance)
        return None

    def cell_name(self, s):
        return f"$port/{self.design.written(s.bit)}" if s.kind == "port" else "/".join(s.names)

    def find_pins(self):
        """Drivers and sinks of each net, and the constants that drive it."""
        self.drivers, self.sinks, self.constants = ({key: [] for key in self.nets} for _ in range(3))
        self.net_of_pin = {}
        for s in self.spots:
            if s.kind not in ("port", "pin"):
                continue
            net = self.net_of_pin[s] = self.net_of(s)
            if net is None:
                continue
            direction = self.design.direction(s.bit[0])
            if s.kind == "port":
                direction = {INPUT: OUTPUT, OUTPUT: INPUT, INOUT: INOUT}[direction]
            elif self.constant_of(s):
                constant, pin_name = self.constant_of(s)
                if self.design.written(s.bit) == pin_name:
                    self.drivers[net].append(s)
                    self.constants[net].append(constant)
                continue
            if direction == OUTPUT:
                self.drivers[net].append(s)
            elif direction == INPUT:
                self.sinks[net].append(s)

    # Rules along the walk.

    def first_broken(self, rule, word_at):
        """Refuses with the word of the first place that has one."""
        for s in self.spots:
            word = word_at(s)
            if word is not None:
                raise Broken(rule, word)

    def n8(self, s):
        on = s.kind in ("port", "pin") and self.design.direction(s.bit[0]) == INOUT and self.net_of_pin[s]
        return self.net_name(on) if on else None

    def is_signal(self, key):
        return key in self.sinks and self.sinks[key] and not self.constants[key]

    def ask_n5(self):
        cells, nets = set(), set()
        for s in self.spots:
            if self.is_cell(s):
                named, word = cells, self.cell_name(s)
            elif s.kind == "net" and self.is_signal((s.path, s.number)):
                named, word = nets, self.net_name((s.path, s.number))
            else:
                continue
            if word in named:
                raise Broken("N5", word)
            named.add(word)

    def n3(self, s):
        key = s.kind == "net" and (s.path, s.number)
        return self.net_name(key) if key in self.drivers and len(self.drivers[key]) > 1 else None

    def n4(self, s):
        key = s.kind == "net" and (s.path, s.number)
        return self.net_name(key) if key in self.sinks and self.sinks[key] and not self.drivers[key] else None

    def lut(self, s):
        return self.device.lut(self.cell_type(s)) if self.is_cell(s) else None

    def n6(self, s):
        return self.cell_name(s) if self.lut(s) and self.table(s) is None else None

    def table(self, s):
        """The number of inputs and the bits of a LUT cell; None where its INIT has no reading."""
        inputs, key = self.lut(s)
        entries = s.instance.get("propMap", {}).get("entries", []) if s.kind == "instance" else []
        entry = next((e for e in entries if self.design.name(e, "key") == key), None)
        bits = None if entry is None else read_init(
            entry.get("tag", 0), self.design.name(entry, "value") if not entry.get("tag", 0) else entry.get("value", 0),
            len(inputs))
        return None if bits is None else (len(inputs), bits)

    def n7(self, s):
        if not self.lut(s):
            return None
        inputs, _ = self.lut(s)
        joined = {self.design.written(pin.bit) for pin, net in self.net_of_pin.items()
                  if pin.kind == "pin" and pin.path == s.path and net and self.sinks[net]}
        missing = [name for name in inputs if name not in joined]
        # In the order of the declaration's ports, and those that it lacks behind.
        declared = [self.place_of(s.instance, name) for name in missing]
        ordered = sorted(range(len(missing)), key=lambda i: declared[i] if declared[i] else (float("inf"), i))
        return f"{self.cell_name(s)}/{missing[ordered[0]]}" if missing else None

    def place_of(self, instance, name):
        """The first place among a declaration's ports, and the index, of a bit that is written so."""
        for place, port in enumerate(self.design.ports_of(instance)):
            found = re.fullmatch(r".*\[(0|[1-9][0-9]*)\]", name, re.S)
            for index in [0] + ([int(found[1])] if found else []):
                if index < self.design.width(port) and self.design.written((port, index)) == name:
                    return place, index
        return None

    def ask(self):
        self.first_broken("N8", self.n8)
        self.ask_n5()
        self.first_broken("N3", self.n3)
        self.first_broken("N4", self.n4)
        self.first_broken("N6", self.n6)
        self.first_broken("N7", self.n7)

    # The flat design.

    def cells(self):
        return [s for s in self.spots if self.is_cell(s)]

    def pin_text(self, pin):
        if pin.kind == "port":
            return f"{self.cell_name(pin)}/P"
        return f"{'/'.join(pin.names)}/{self.design.written(pin.bit)}"

    def text(self):
        cells = self.cells()
        signals = [key for key in self.nets if self.is_signal(key)]
        pins = []
        for cell in cells:
            own = [pin for pin in self.net_of_pin if pin is cell or pin.kind == "pin" and pin.path == cell.path]
            for pin in sorted(own, key=lambda pin: self.design.written(pin.bit).encode()):
                net = self.net_of_pin[pin]
                if net and self.sinks[net]:
                    pins.append(f"{self.pin_text(pin)} {(self.constants[net] or [self.net_name(net)])[0]}")
        return "; ".join([
            listed("cells", [f"{self.cell_name(cell)} {self.cell_type(cell)}" for cell in cells]),
            f"ports {sum(cell.kind == 'port' for cell in cells)}",
            listed("nets", [f"{self.net_name(key)} {self.pin_text(self.drivers[key][0])}" for key in signals]),
            listed("pins", pins),
            listed("tables", [f"{self.cell_name(cell)} {self.table(cell)[0]}:{self.table(cell)[1]:x}"
                              for cell in cells if self.lut(cell)]),
        ])


def read_init(tag, value, inputs):
    """The table that a property's value reads as; tag 0 is a text, 1 a number, 2 a Bool."""
    bits = 1 << inputs
    if tag == 1:
        number = value
    elif tag == 0:
        digits = "([0-9A-Fa-f]+)", "([01]+)"
        if found := re.fullmatch(f"({bits}'h|0x){digits[0]}", value):
            number = int(found[2], 16)
        elif found := re.fullmatch(f"({bits}'b|0b){digits[1]}", value):
            number = int(found[2], 2)
        elif re.fullmatch(f"[01]{{{bits}}}", value):
            number = int(value, 2)
        else:
            return None
    else:
        return None
    return number if number < 1 << bits else None


def listed(word, items):
    return f"{word} {', '.join(items)}" if items else word


def kept(design, device):
    """The flat design, where no rule is broken."""
    ask_n1(design)
    ask_n2(design)
    ask_n9(design, device)
    ask_n10(design)
    flat = Flat(design, device)
    flat.ask()
    return flat


def flatten(device, design):
    try:
        return kept(Design(design), Device(device)).text()
    except Broken as broken:
        return str(broken)


# Files.

CRATE = CRATES / "ix_flatten_cases"


def assert_reads(value):
    """That a design has a reading: each number is within its list, each port bit there and of an instance of the cell."""
    design = Design(value)
    assert all(port < len(design.ports) for d in design.declarations for port in d.get("ports", []))
    assert all(i.get("cell", 0) < len(design.declarations) for i in [design.top, *design.instances])
    for cell in design.cells:
        assert cell.get("index", 0) < len(design.declarations)
        assert all(i < len(design.instances) for i in cell.get("insts", []))
        for named in (named for net in cell.get("nets", []) for named in net.get("portInsts", [])):
            owner, (port, index) = owner_of(named), bit_of(named)
            assert owner is None or owner in cell.get("insts", [])
            declaration = cell.get("index", 0) if owner is None else design.instances[owner].get("cell", 0)
            assert port in design.declarations[declaration].get("ports", [])
            assert named.get("busTag", 0) == design.ports[port].get("kind", 0) and index < design.width(port)


def device_json(name):
    return json.loads((CASES / f"{name}.device.json").read_text())


def digits(schema, value):
    return re.sub("(.{16})(?!$)", r"\1 ", encode(SCHEMA / f"{schema}.capnp", value).hex())


def files():
    """Each file of the case programs and its content."""
    lines, answers, devices = [], [], set()
    for what, device, design in designs(CASES / "flat_designs"):
        assert_reads(design)
        answer = flatten(device_json(device), design)
        answers.append(f"{what}: {answer}")
        assert "|" not in what + answer
        lines.append(" | ".join([what, device, digits("netlist", design)]).rstrip())
        devices.add(device)
    for device in sorted(devices):
        yield CRATE / "data" / device, digits("device", device_json(device)) + "\n"
    yield CRATE / "data" / "cases", "\n".join(lines) + "\n"
    yield CRATE / "stdout", "\n".join(answers) + "\n"
    for name, _, design in designs(CASES / "run_designs"):
        assert_reads(design)
        yield CRATES / "ix_run_cases" / "data" / name, digits("netlist", design) + "\n"


def main():
    sys.setrecursionlimit(10000)
    words = sys.argv[1:]
    if words[:1] == ["flatten"] and len(words) == 3:
        print(flatten(*(json.loads(Path(word).read_text()) for word in words[1:])))
    elif words[:1] == ["show"]:
        for what, _, design in designs(CASES / "flat_designs"):
            if " ".join(words[1:]) in what:
                print(what, json.dumps(design, indent=1), sep="\n")
    elif words == ["check"]:
        differ = [path for path, content in files() if not path.exists() or path.read_text() != content]
        if differ:
            sys.exit("not what tools/flat_cases.py makes: " + ", ".join(map(str, differ)))
    elif not words:
        for path, content in files():
            path.parent.mkdir(parents=True, exist_ok=True)
            path.write_text(content)
    else:
        sys.exit(__doc__)


if __name__ == "__main__":
    main()
