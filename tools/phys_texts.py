"""Texts of physical netlists, and changes of them, for the scripts that make cases. A text is what message.py encodes."""
import copy

SIGNAL, GND, VCC = 0, 1, 2


def bel_pin(site, bel, pin, *below):
    return {"kind": 0, "first": site, "second": bel, "third": pin, "branches": list(below)}


def site_pin(site, pin, *below):
    return {"kind": 1, "first": site, "second": pin, "third": 0, "branches": list(below)}


def pip(tile, wire0, wire1, *below, forward=1):
    names = {"first": tile, "second": wire0, "third": wire1}
    return {"kind": 2, **names, "forward": forward, "branches": list(below)}


def site_pip(site, bel, pin, *below):
    return {"kind": 3, "first": site, "second": bel, "third": pin, "branches": list(below)}


def net(name, *sources, stubs=(), ty=SIGNAL):
    return {"name": name, "type": ty, "sources": list(sources), "stubs": list(stubs)}


def pin_map(bel, pins):
    """The entries of a pin map, each written `cell pin=BEL pin`."""
    pairs = [pin.split("=") for pin in pins.split()]
    return [{"cellPin": cell_pin, "bel": bel, "belPin": bel_pin} for cell_pin, bel_pin in pairs]


def cell(name, ty, site, bel, pins):
    fields = {"cellName": name, "type": ty, "site": site, "bel": bel}
    return fields | {"pinMap": pin_map(bel, pins)}


def instances(**types):
    return [{"site": site, "type": ty} for site, ty in types.items()]


def tables(*entries):
    return [{"key": key, "value": value} for key, value in entries]


# Changes of a netlist. Each is a function that changes the netlist that it is given.


def held(netlist, path):
    """What a path leads to but for its last part, and that part; a path is of fields and numbers."""
    *front, last = [int(part) if part.isdigit() else part for part in path.split("/")]
    for part in front:
        netlist = netlist[part]
    return netlist, last


def at(path, value):
    """Sets a field."""

    def change(netlist):
        inside, last = held(netlist, path)
        inside[last] = copy.deepcopy(value)

    return change


def add(path, *values):
    """Adds to the end of a list."""

    def change(netlist):
        inside, last = held(netlist, path)
        if isinstance(inside, dict):
            inside.setdefault(last, [])
        inside[last] += copy.deepcopy(values)

    return change


def drop(path):
    """Takes a thing out of a list."""

    def change(netlist):
        inside, last = held(netlist, path)
        del inside[last]

    return change


def reverse(path):
    def change(netlist):
        inside, last = held(netlist, path)
        inside[last].reverse()

    return change


def add_net(*args, **words):
    return add("physNets", net(*args, **words))


def rooted(which, *sources):
    return at(f"physNets/{which}/sources", list(sources))


def rename(which, name):
    return at(f"physNets/{which}/name", name)


def type_of(which, ty):
    return at(f"physNets/{which}/type", ty)


def add_table(key, value="0" * 16):
    return add("properties", {"key": key, "value": value})


def add_instance(site, ty="SLICE"):
    return add("siteInsts", {"site": site, "type": ty})


def add_cell(*args):
    return add("placements", cell(*args))


def of_cell(which, **fields):
    return lambda netlist: netlist["placements"][which].update(copy.deepcopy(fields))


def of_pin(which, pin, **fields):
    return lambda netlist: netlist["placements"][which]["pinMap"][pin].update(fields)


def found(netlist, which, number):
    """The list in which a segment of a net stands, and its place there."""
    of_net = netlist["physNets"][which]
    left = [(of_net["stubs"], i) for i in reversed(range(len(of_net["stubs"])))]
    left += [(of_net["sources"], i) for i in reversed(range(len(of_net["sources"])))]
    while True:
        branches, i = left.pop()
        if number == 0:
            return branches, i
        number -= 1
        below = branches[i]["branches"]
        left += [(below, j) for j in reversed(range(len(below)))]


def below(which, number, *branches):
    """Adds branches below a segment of a net."""

    def change(netlist):
        its_list, i = found(netlist, which, number)
        its_list[i]["branches"] += copy.deepcopy(branches)

    return change


def segment(which, number, **fields):
    def change(netlist):
        its_list, i = found(netlist, which, number)
        its_list[i].update(fields)

    return change


def instead(which, number, branch):
    """Puts a branch in the place of a segment and all that is below it."""

    def change(netlist):
        its_list, i = found(netlist, which, number)
        its_list[i] = copy.deepcopy(branch)

    return change


def cut(which, number):
    def change(netlist):
        its_list, i = found(netlist, which, number)
        del its_list[i]

    return change


def without_root(which):
    """Puts what is below the first source of a net in its place."""

    def change(netlist):
        of_net = netlist["physNets"][which]
        of_net["sources"] = of_net["sources"][0]["branches"]

    return change


def stub(which, *branches):
    return add(f"physNets/{which}/stubs", *branches)


def moved_to_stub(which, number):
    def change(netlist):
        its_list, i = found(netlist, which, number)
        netlist["physNets"][which]["stubs"].append(its_list.pop(i))

    return change
