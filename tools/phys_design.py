#!/usr/bin/env python3
"""What `check` has to print, apart from the project's own code: whether a physical netlist is legal and realizes a design.

usage: phys_design.py DEVICE DESIGN NETLIST placed|routed

A file is as phys_rules.py takes it. Devices are taken to be valid, and the files to have a reading. The design is flattened
by flat_cases.py; fixed ports are added here. A netlist without tables is completed; then the rules L1 to L10 are asked by
phys_rules.py, and the design that the netlist realizes, its cells, its pins by the holders of their wires and its truth
tables, is compared with the flat one.
"""
import itertools
import re
import sys

import flat_cases
import phys_rules
from phys_rules import TABLE

GND, VCC = ("constant", "gnd"), ("constant", "vcc")
PORT_TYPES = ("$PORT_IN", "$PORT_OUT")


# The flat design.


class Flat:
    """Cells and their types, each connected pin and its net, the tables of LUT cells as lists of bits, the sites of fixed
    port cells."""

    def __init__(self, design, device):
        flat = flat_cases.kept(design, device)
        cells = flat.cells()
        self.types = {flat.cell_name(cell): flat.cell_type(cell) for cell in cells}
        name_of = {cell.path: flat.cell_name(cell) for cell in cells if cell.kind != "port"}
        self.pins = {}
        for pin, net in flat.net_of_pin.items():
            cell = flat.cell_name(pin) if pin.kind == "port" else name_of.get(pin.path)
            if cell is not None and net and flat.sinks[net]:
                constants = {flat_cases.GND: GND, flat_cases.VCC: VCC}
                of_net = constants[flat.constants[net][0]] if flat.constants[net] else ("net", flat.net_name(net))
                self.pins[cell, "P" if pin.kind == "port" else design.written(pin.bit)] = of_net
        self.tables = {flat.cell_name(cell): bits_of(*flat.table(cell)) for cell in cells if flat.lut(cell)}
        self.fixed = dict(fixed_sites(flat, design, device))


def bits_of(inputs, table):
    return [table >> n & 1 for n in range(1 << inputs)]


def text_of(design, owner, key):
    """The value of the first property of this key; None where there is none."""
    for entry in owner.get("propMap", {}).get("entries", []):
        if design.name(entry, "key") == key:
            return design.name(entry, "value") if not entry.get("tag", 0) else entry.get("value", 0)
    return None


def fixed_sites(flat, design, device):
    """The port cells that name a package pin, each with the pin's site; refuses what isn't there, or is named twice."""
    packages = device.value.get("packages", [])
    named = text_of(design, design.value, "PACKAGE")
    package = next((it for it in packages if named is None or device.name(it, "name") == named), None)
    met = set()
    for spot in flat.cells():
        if spot.kind != "port":
            continue
        port, index = spot.bit
        is_bus = design.ports[port].get("kind", 0) == 1
        pin = text_of(design, design.ports[port], f"PACKAGE_PIN[{index}]" if is_bus else "PACKAGE_PIN")
        if pin is None:
            continue
        found = next((it for it in (package or {}).get("packagePins", []) if device.name(it, "packagePin") == pin), None)
        if found is None or not found.get("siteTag", 0):
            raise flat_cases.Broken("P4", flat.cell_name(spot))
        if pin in met:
            raise flat_cases.Broken("P5", flat.cell_name(spot))
        met.add(pin)
        yield flat.cell_name(spot), device.name(found, "site")


# The completed netlist.


def has_tables(netlist):
    return any(key.startswith(TABLE) for key, _ in netlist.properties)


def has_luts(device, netlist):
    return any(cell.type in device.lut_inputs for cell in netlist.cells)


def held_wires(device, netlist):
    """The nets that have a segment with an end at a resource."""
    held = {}
    for net, _, segment in phys_rules.each_segment(netlist):
        for end in device.ends(segment) or ():
            held.setdefault(end, []).append(net)
    return held


def complete(device, flat, netlist):
    """Adds the tables that LUTs force, where a netlist has none."""
    if has_tables(netlist):
        return
    held = held_wires(device, netlist)
    for site in dict.fromkeys(site for site, _ in netlist.instances):
        if site not in device.sites:
            continue
        site_type = device.sites[site][1]
        for number, element in enumerate(site_type.elements):
            luts = [it for it in netlist.cells
                    if it.site == site and it.type in device.lut_inputs
                    and device.element_of(site_type, it.bel) is element]
            if element.is_usable and luts:
                forced = [bit for cell in luts for bit in forced_bits(device, flat, held, element, cell)]
                ones, zeros = ({at for at, bit in forced if bit == value} for value in (1, 0))
                if not ones & zeros:
                    netlist.properties.append((f"{TABLE}{site}/{number}", f"{sum(1 << at for at in ones):016X}"))


def forced_bits(device, flat, held, element, cell):
    """The places of a table at which a LUT reads, each with the bit that it has to find there."""
    low, bel_inputs = element.bels[cell.bel]
    own = device.lut_inputs[cell.type]
    mapped = [(cell_pin, pin) for cell_pin, bel, pin in cell.pins if cell_pin in own and bel == cell.bel]
    table = flat.tables.get(cell.name)
    is_choice = (sorted(it[0] for it in mapped) == sorted(own) and len({it[1] for it in mapped}) == len(own)
                 and all(pin in bel_inputs for _, pin in mapped)
                 and len(mapped) == len([it for it in cell.pins if it[0] in own]))
    if table is None or len(table) != 1 << len(own) or not is_choice:
        return
    pin_of = dict(mapped)
    site_type = device.sites[cell.site][1]
    for value in itertools.product((0, 1), repeat=len(bel_inputs)):
        at = dict(zip(bel_inputs, value))
        agrees = True
        for pin in set(bel_inputs) - set(pin_of.values()):
            nets = held.get(("site", cell.site, site_type.wire(cell.bel, pin)), [])
            agrees = agrees and all(at[pin] == (net.constant() == "vcc") for net in nets if net.constant())
        if agrees:
            spelled = sum(at[pin_of[name]] << i for i, name in enumerate(own))
            yield low + sum(it << i for i, it in enumerate(value)), table[spelled]


# The design that a legal netlist realizes, and what differs.


def realized_pins(device, netlist):
    held = held_wires(device, netlist)
    found = {}
    for cell in netlist.cells:
        site_type = device.sites[cell.site][1]
        inputs = device.lut_inputs.get(cell.type, [])
        pairs = [it for it in device.pin_map(cell.type, site_type, cell.bel) if it[0] not in inputs]
        pairs += [(cell_pin, pin) for cell_pin, _, pin in cell.pins if cell_pin in inputs]
        for cell_pin, pin in pairs:
            nets = held.get(("site", cell.site, site_type.wire(cell.bel, pin)))
            if nets:
                constant = nets[0].constant()
                found[cell.name, cell_pin] = ("constant", constant) if constant else ("net", nets[0].name)
    return found


def realized_tables(device, netlist):
    held = {wire: nets[0] for wire, nets in held_wires(device, netlist).items()}
    tables = dict(netlist.properties)
    found = {}
    for cell in netlist.cells:
        if cell.type in device.lut_inputs:
            elements = device.sites[cell.site][1].elements
            number = next(i for i, it in enumerate(elements) if cell.bel in it.bels)
            table = int(tables[f"{TABLE}{cell.site}/{number}"], 16)
            found[cell.name] = function(device, held, elements[number], cell, table)
    return found


def function(device, held, element, cell, table):
    """The bits of a placed LUT that has a function."""
    low, bel_inputs = element.bels[cell.bel]
    own = device.lut_inputs[cell.type]
    site_type = device.sites[cell.site][1]
    pin_of = {cell_pin: pin for cell_pin, _, pin in cell.pins if cell_pin in own}
    at = {}
    for pin in bel_inputs:
        net = held.get(("site", cell.site, site_type.wire(cell.bel, pin)))
        at[pin] = int(net is not None and net.constant() == "vcc")
    bits = []
    for n in range(1 << len(own)):
        at |= {pin_of[name]: n >> i & 1 for i, name in enumerate(own)}
        bits.append(table >> low + sum(at[pin] << i for i, pin in enumerate(bel_inputs)) & 1)
    return bits


def least(names):
    """The least name in byte order, or the least pair of them."""
    return min(names, default=None, key=lambda name: [it.encode() for it in ([name] if isinstance(name, str) else name)])


def differing(one, other):
    return [name for name in {**one, **other} if one.get(name) != other.get(name)]


def difference(device, flat, netlist):
    """The least of E1 to E3 that is broken, and its place; None where there is none."""
    cells = {cell.name: cell.type for cell in netlist.cells}
    sites = {cell.name: cell.site for cell in netlist.cells if cell.type in PORT_TYPES}
    moved = [name for name, site in flat.fixed.items() if sites.get(name) != site]
    name = least(differing(flat.types, cells) + moved)
    if name is not None:
        return f"no: E1 at cell {name}"
    pin = least(differing(flat.pins, realized_pins(device, netlist)))
    if pin is not None:
        return f"no: E2 at pin {pin[0]}/{pin[1]}"
    name = least(differing(flat.tables, realized_tables(device, netlist)))
    return None if name is None else f"no: E3 at cell {name}"


def check(device, flat, text, level):
    """The line of `check`, its design being flat."""
    netlist = phys_rules.Netlist(text)
    derived = has_luts(device, netlist) and not has_tables(netlist)
    complete(device, flat, netlist)
    answer = phys_rules.judge(device, netlist, level)
    if answer != "yes":
        return answer
    return difference(device, flat, netlist) or ("yes, tables derived" if derived else "yes")


def main():
    if len(sys.argv) != 5 or sys.argv[4] not in ("placed", "routed"):
        sys.exit(__doc__)
    device, design, netlist = [phys_rules.read(*it) for it in zip(sys.argv[1:4], ("device", "netlist", "phys"))]
    try:
        flat = Flat(flat_cases.Design(design), flat_cases.Device(device))
    except flat_cases.Broken as broken:
        rule, word = re.fullmatch(r'(\S+) "(.*)"', str(broken), re.S).groups()
        print(f"design: {rule} at {word}")
        return
    print(check(phys_rules.Device(device), flat, netlist, sys.argv[4]))


if __name__ == "__main__":
    main()
