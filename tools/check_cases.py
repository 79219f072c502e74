#!/usr/bin/env python3
"""The cases of `check` in the program ix_run_cases, and what it must print.

    tools/check_cases.py          write them into crates/ix_run_cases/data/cases, and their answers into .../stdout
    tools/check_cases.py check    compare both with what would be written

They stand behind the other cases of that program, under a line of their own. A case is a netlist with some changes, encoded
by message.py. Beside it stands the answer, worked out by hand; where the netlist has a reading phys_design.py judges it
too, and both have to agree. The designs are written in tools/cases/run_designs.
"""
import copy
import struct
import sys
from functools import cache

import flat_cases
import many_clbs
import message
import phys_design
import phys_rules
import rules_cases
from design_text import designs
from phys_texts import *
from rules_cases import CHAIN, LUT, SCHEMA, TOP, changed, encoded, pieces, strings_of
from stored import write_or_check

RUNS = TOP / "crates" / "ix_run_cases"
TEXTS = TOP / "tools" / "cases"
SCHEMAS = phys_rules.SCHEMAS
HEAD = "# What `check` answers: written by tools/check_cases.py to the end."
PLACED = "--placed"
YES, DERIVED = "yes", "yes, tables derived"


# The netlists.

SINKS = {
    "part": "M4",
    "placements": [
        cell("d0", "DRV", "s0", "OB", "O=O"),
        cell("e0", "LOAD", "t0", "IB", "I=I"),
        cell("e1", "LOAD", "t1", "IB", "I=I"),
    ],
    "physNets": [
        net("n0", bel_pin("s0", "OB", "O", site_pin("s0", "O", pip("M0", "S0", "X", pip(
            "M0", "X", "T0",
            site_pin("t0", "I", bel_pin("t0", "IB", "I")),
            site_pin("t1", "I", bel_pin("t1", "IB", "I")),
        ))))),
    ],
    "siteInsts": instances(s0="SRC", t0="SNK", t1="SNK"),
}
PORTS = {
    "part": "K",
    "placements": [
        cell("$port/a", "$PORT_IN", "SP1", "PAD", "P=PO"),
        cell("$port/b", "$PORT_IN", "SP0", "PAD", "P=PO"),
    ],
    "physNets": [],
    "siteInsts": instances(SP1="IOB", SP0="IOB"),
}
TWO_LUTS = (
    add_cell("w", "LUT2", "SC0", "A5LUT", "I0=A1 I1=A2 O=O5"),
    at("properties", []),
)
TIE = add("physNets/1/sources", pip("C0", "L12", "IN5", site_pin("SC0", "A6")))
A_TABLE = "TABLE/SC0/0"
MANY = many_clbs.netlist()


def number_of(name):
    return next(i for i, it in enumerate(MANY["physNets"]) if it["name"] == name)


def as_placed(netlist):
    """Takes the PIPs away, so that what is below each is a stub."""
    for of_net in netlist["physNets"]:
        left, of_net["sources"] = of_net["sources"], []
        of_net["sources"] = [without_pips(it, of_net["stubs"]) for it in left if it["kind"] != 2]
        for it in left:
            if it["kind"] == 2:
                of_net["stubs"] += it["branches"]


def without_pips(branch, stubs):
    for it in branch["branches"]:
        if it["kind"] == 2:
            stubs += it["branches"]
    return dict(branch, branches=[without_pips(it, stubs) for it in branch["branches"] if it["kind"] != 2])


def swapped(one, other):
    return rename(number_of(one), other), rename(number_of(other), one)


# What each case shows, the design and, where it is asked for, the level; the answer; the changes.

CHAINED = [
    ("a driver and a load", "driver_and_load", YES),
    ("a net without its last two segments", "driver_and_load", "E2 at pin e0/I", cut(0, 2)),
    ("a net's last two segments as a stub, placed", "driver_and_load --placed", YES, moved_to_stub(0, 2)),
    ("a net's last two segments as a stub", "driver_and_load", "L10 at net n0 #2", moved_to_stub(0, 2)),
    ("a driver placed twice", "driver_and_load", "L2 at cell d0", add_cell("d0", "DRV", "s0", "OB", "O=O")),
    ("a driver and a load, placed", "driver_and_load --placed", YES),
    ("a net without its last BEL pin", "driver_and_load", YES, cut(0, 3)),
    ("a cell more", "driver_and_load", "E1 at cell e1",
     add_cell("e1", "LOAD", "t1", "IB", "I=I"), add_instance("t1", "SNK")),
    ("a cell less", "driver_and_load", "E1 at cell e0", drop("placements/1")),
    ("a cell of another name, which is the less", "driver_and_load", "E1 at cell E0", of_cell(1, cellName="E0")),
    ("a cell of another name, which is the greater", "driver_and_load", "E1 at cell e0", of_cell(1, cellName="é0")),
    ("a cell named by the front of its name", "driver_and_load", "E1 at cell d", of_cell(0, cellName="d")),
    ("two cells that are missing, the later one in the list the less", "driver_and_load", "E1 at cell d0",
     reverse("placements"), of_cell(0, cellName="x"), of_cell(1, cellName="y")),
    ("two cells with each other's names", "driver_and_load", "E1 at cell d0",
     of_cell(0, cellName="e0"), of_cell(1, cellName="d0")),
    ("a net of another name", "driver_and_load", "E2 at pin d0/O", rename(0, "n")),
    ("no net", "driver_and_load", "E2 at pin d0/O", drop("physNets/0")),
    ("a net that the design hasn't", "unconnected", "E2 at pin d0/O"),
    ("no net, and none in the design", "unconnected", YES, drop("physNets/0")),
    ("a rule of the netlist comes before a cell that is missing", "driver_and_load", "L8 at net n0 #2",
     drop("placements/1"), drop("siteInsts/1")),
    ("a missing cell comes before a pin", "driver_and_load", "E1 at cell e0", drop("placements/1"), rename(0, "n")),
    ("a property of another kind, without LUTs", "driver_and_load", YES, add("properties", *tables(("OTHER/x", "1")))),
    ("a key of a table of no element, without LUTs", "driver_and_load", "L1 at key TABLE/s0/0",
     add("properties", *tables(("TABLE/s0/0", "0" * 16)))),
    ("placements and instances in another order", "driver_and_load", YES, reverse("placements"), reverse("siteInsts")),
    ("another part", "driver_and_load", YES, at("part", "another")),
    ("an empty netlist", "driver_and_load", "E1 at cell d0", dict.clear),
]
LUTS = [
    ("no table", "lut_on_constants", DERIVED),
    ("no table, placed", "lut_on_constants --placed", DERIVED),
    ("the table of the design", "lut_on_constants", YES, add_table(A_TABLE, "8" * 16)),
    ("the table of another function", "lut_on_constants", "E3 at cell u", add_table(A_TABLE, "4" * 16)),
    ("a table of no function", "lut_on_constants", "L9 at element SC0 0", add_table(A_TABLE, "8" * 15 + "0")),
    ("a property that is no table's", "lut_on_constants", DERIVED, add("properties", *tables(("OTHER/x", "1")))),
    ("a key that is nearly a table's", "lut_on_constants", DERIVED, add("properties", *tables(("TABLE", "1")))),
    ("a key of a table that says nothing", "lut_on_constants", "L1 at key TABLE/5", add_table("TABLE/5", "8" * 16)),
    ("a table of another element alone", "lut_on_constants", "L9 at element SC0 0", add_table("TABLE/SC0/1")),
    ("a LUT of another type, without a table", "lut_on_constants", "E1 at cell u",
     of_cell(0, type="LUT3"), add("placements/0/pinMap", *pin_map("A6LUT", "I2=A3"))),
    ("a LUT of another type, with a table", "lut_on_constants", "E1 at cell u", add_table(A_TABLE, "8" * 16),
     of_cell(0, type="LUT3"), add("placements/0/pinMap", *pin_map("A6LUT", "I2=A3"))),
    ("a LUT of another name, without a table", "lut_on_constants", "E1 at cell u", of_cell(0, cellName="w")),
    ("a LUT with one input on two pins, without a table", "lut_on_constants", "L3 at cell u",
     add("placements/0/pinMap", *pin_map("A6LUT", "I1=A3"))),
    ("inputs with each other's pins, without a table", "lut_on_constants", "E2 at pin u/I0",
     of_pin(0, 0, belPin="A2"), of_pin(0, 1, belPin="A1")),
    ("a LUT without its nets, without a table", "lut_on_constants", "E2 at pin u/I0", at("physNets", [])),
    ("constants of other names", "lut_on_constants", DERIVED, rename(0, "low"), rename(1, "high")),
    ("a signal net in the place of a constant", "lut_on_constants", "L5 at net GLOBAL_LOGIC0 #0", type_of(0, SIGNAL)),
    ("two LUTs that force a bit both ways", "lut_two_ways", "L9 at element SC0 0", *TWO_LUTS),
    ("two LUTs, the last input on vcc", "lut_two_ways", DERIVED, *TWO_LUTS, TIE),
    ("two LUTs, the last input on vcc, and their table", "lut_two_ways", YES, *TWO_LUTS, TIE,
     add_table(A_TABLE, "8" * 8 + "6" * 8)),
    ("two LUTs, the last input on vcc, and the other table", "lut_two_ways", "E3 at cell u", *TWO_LUTS, TIE,
     add_table(A_TABLE, "6" * 8 + "8" * 8)),
    ("two LUTs, the last input on vcc, and a table that is wrong for the second", "lut_two_ways", "E3 at cell w",
     *TWO_LUTS, TIE, add_table(A_TABLE, "8" * 16)),
    ("two LUTs that force a bit both ways, with a property that is no table's", "lut_two_ways", "L9 at element SC0 0",
     *TWO_LUTS, add("properties", *tables(("OTHER/x", "1")))),
]
SUNK = [
    ("a net of two loads", "one_net_of_two_loads", YES),
    ("a pin on a net that the design leaves open", "open_load", "E2 at pin e1/I"),
    ("a load that the design leaves open", "open_load", YES, cut(0, 6)),
    ("a load's branch that is dropped", "one_net_of_two_loads", "E2 at pin e1/I", cut(0, 6)),
    ("both loads' branches that are dropped", "one_net_of_two_loads", "E2 at pin e0/I", cut(0, 4), cut(0, 4)),
    ("pins by their cells' names before their own", "loads_in_byte_order", "E2 at pin a/I",
     of_cell(1, cellName="a-b"), of_cell(2, cellName="a"), cut(0, 4), cut(0, 4)),
    ("a load of the other net", "two_nets", "E1 at cell d1"),
]
FIXED = [
    ("a fixed port on its site", "two_ports", YES),
    ("a fixed port on another site", "fixed_to_the_other_pad", "E1 at cell $port/a"),
    ("a fixed port on another site, placed", "fixed_to_the_other_pad --placed", "E1 at cell $port/a"),
    ("two ports with each other's sites, one fixed", "two_ports", "E1 at cell $port/a",
     of_cell(0, site="SP0"), of_cell(1, site="SP1")),
    ("two ports with each other's sites, the other one fixed", "fixed_to_the_other_pad", YES,
     of_cell(0, site="SP0"), of_cell(1, site="SP1")),
]
X0, Q0 = number_of("x0"), number_of("q0")
HUNDRED = [
    ("a hundred cells", "a_hundred_cells", YES),
    ("a hundred cells, placed", "a_hundred_cells --placed", YES),
    ("a PIP that isn't forward", "a_hundred_cells", "L1 at net x0 #2", segment(X0, 2, forward=0)),
    ("a site pin above a sink that is cut away", "a_hundred_cells", "E2 at pin u3/I1", cut(X0, 3)),
    ("a sink's BEL pin that is cut away", "a_hundred_cells", YES, cut(X0, 4)),
    ("a hundred cells without tables", "a_hundred_cells", DERIVED, at("properties", [])),
    ("a hundred cells without one table", "a_hundred_cells", "L9 at element SC1 1", drop("properties/5")),
    ("a hundred cells without PIPs, placed", "a_hundred_cells --placed", YES, as_placed),
    ("a hundred cells without PIPs", "a_hundred_cells", "L10 at net GLOBAL_LOGIC1 #0", as_placed),
    ("a hundred cells without PIPs and tables, placed", "a_hundred_cells --placed", DERIVED, as_placed,
     at("properties", [])),
    ("two nets with each other's names", "a_hundred_cells", "E2 at pin f3/D", *swapped("d3", "d4")),
    ("two tables that are wrong, by the names of their cells", "a_hundred_cells", "E3 at cell u10",
     at("properties/9/value", "99999999F000F000"), at("properties/10/value", "99999999F000F000")),
    ("a table that is wrong for both its LUTs", "a_hundred_cells", "E3 at cell m9", at("properties/9/value", "0" * 16)),
    ("LUTs whose shared input isn't tied, without tables", "a_hundred_cells", "L9 at element SC0 0",
     at("properties", []), drop("physNets/0")),
    ("LUTs of which one's shared input isn't tied, without tables", "a_hundred_cells", "L9 at element SC1 1",
     at("properties", []), drop("physNets/0/sources/5")),
]
GROUPS = [
    ("joined_ends", "chain", CHAIN, CHAINED),
    ("one_clb", "lut", LUT, LUTS),
    ("joined_sinks", "sinks", SINKS, SUNK),
    ("pads", "ports", PORTS, FIXED),
    ("eight_clbs", "hundred", MANY, HUNDRED),
]

# Faults of the netlist's file, and of the files before it: what each shows, the words, the files, and the answer.

HERE = "d=joined_ends n=driver_and_load"
WORDS = "check,d,n,p"
SELF = "0000000001000000fcffffff00000100"
RUN = [
    ("an empty netlist file", WORDS, f"{HERE} p=#", "1 no: F1 at file"),
    ("a netlist of 3 bytes", WORDS, f"{HERE} p=#000000", "1 no: F1 at file"),
    ("a netlist of 513 segments", WORDS, f"{HERE} p=#00020000", "1 no: F2 at file"),
    ("a netlist whose root points at itself", WORDS, f"{HERE} p=#{SELF}", "1 no: F4 at word 0:0"),
    ("the same, placed", WORDS + ",--placed", f"{HERE} p=#{SELF}", "1 no: F4 at word 0:0"),
    ("an empty device, and a netlist that is empty too", WORDS, "d=# n=driver_and_load p=#", "3 device: F1 at file"),
    ("a device with a tile of no type", WORDS, "d=tile_of_no_type n=# p=#", "3 device: I1 at Tile.type 1"),
    ("a device with two tiles of one name", WORDS, "d=two_tiles_of_one_name n=# p=#", "3 device: M1 at Tile.name 1"),
    ("an empty design, and a netlist that is empty too", WORDS, "d=joined_ends n=# p=#", "3 design: F1 at file"),
    ("a design without a driver, and an empty netlist", WORDS, "d=parts n=no_driver p=#", "3 design: N4 at u/n"),
    ("a package pin that isn't there, and an empty netlist", WORDS, "d=pads n=fixed_nowhere p=#",
     "3 design: P4 at $port/b"),
    ("two ports on one package pin, and an empty netlist", WORDS, "d=pads n=fixed_twice p=#",
     "3 design: P5 at $port/b"),
    ("a netlist that isn't there", WORDS, HERE, "7 read fault: p"),
    ("an empty device, and a netlist that isn't there", WORDS, "d=# n=#", "7 read fault: p"),
    ("a design that isn't there", WORDS, "d=# p=#", "7 read fault: n"),
    ("no file of `check`", WORDS, "", "7 read fault: d"),
    ("a flag before the files", "check,--placed,d,n,p", f"{HERE} p=chain", "0 yes"),
    ("a flag between the files", "check,d,n,--placed,p", f"{HERE} p=chain", "0 yes"),
    ("the end of options before the netlist", "check,d,n,--,p", f"{HERE} p=chain", "0 yes"),
    ("`check` with two files", "check,d,n", f"{HERE} p=chain", "2 bad words"),
    ("`check` with four files", "check,d,n,p,p", f"{HERE} p=chain", "2 bad words"),
    ("a flag twice", "check,d,n,p,--placed,--placed", f"{HERE} p=chain", "2 bad words"),
    ("a flag with a value", "check,d,n,p,--placed=1", f"{HERE} p=chain", "2 bad words"),
    ("a flag that is shortened", "check,d,n,p,--place", f"{HERE} p=chain", "2 bad words"),
    ("a flag behind the end of options", "check,d,n,p,--,--placed", f"{HERE} p=chain", "2 bad words"),
    ("an option of `flow`", "check,d,n,p,--seed,1", f"{HERE} p=chain", "2 bad words"),
]
PLANNED = [
    ("one byte a call, for `check`", "short", WORDS, f"{HERE} p=chain", "0 yes"),
    ("the line of `check` isn't put", "put", WORDS, f"{HERE} p=chain", '7 ""'),
    ("a netlist is refused, and the line isn't put", "put", WORDS, f"{HERE} p=#", '7 ""'),
    ("each call of `check` fails in turn", "sweep", WORDS, f"{HERE} p=chain",
     "2 x 7 read fault: d, no r; 2 x 7 read fault: n, no r; 2 x 7 read fault: p, no r; 1 x 0 yes, no r;"),
]


# Netlists whose bytes are changed.


def words_of(file):
    return [file[8 * i:8 * i + 8] for i in range(len(file) // 8)]


def long_chain(many):
    """The pieces of the chain's netlist whose net is so many site pins, each the only branch of the one before."""
    def of(count):
        source = site_pin("s0", "O")
        for _ in range(count - 1):
            source = site_pin("s0", "O", source)
        return words_of(encoded(changed(CHAIN, [rooted(0, source)]), strings_of([CHAIN])))

    short, longer = of(4), of(5)
    level = len(longer) - len(short)
    # The tag, the branch and the pointer of each level but the last are alike.
    start = next(i for i in range(len(short)) if short[i:i + level] == short[i + level:i + 2 * level])
    ahead = [grown(a, b, many - 4) for a, b in zip(short[:start], longer[:start])]
    behind = [grown(a, b, many - 4) for a, b in zip(short[start:], longer[start + level:])]
    return f"{b''.join(ahead).hex()},{many - 4}*{b''.join(short[start:start + level]).hex()},{b''.join(behind).hex()}"


def grown(word, longer, steps):
    """A word that grows by the same with each level."""
    low, high = struct.unpack("<2i", word)
    more_low, more_high = struct.unpack("<2i", longer)
    return struct.pack("<2i", low + steps * (more_low - low), high + steps * (more_high - high))


def places(file):
    read = message.Reader(*message.read_schema(SCHEMA), file)
    return {f"{kind}.{field} {which}": place for place, kind, field, which in read.places}


def one_text_twice():
    """The chain's netlist with `I` twice in its table of strings, both entries pointing at one text."""
    strings = strings_of([CHAIN])
    second = len(strings)
    netlist = changed(CHAIN, [segment(0, 3, third=second), of_pin(1, 0, belPin=second)])
    file = bytearray(encoded(netlist, strings + ["I"]))
    read = message.Reader(*message.read_schema(SCHEMA), bytes(file))
    table = read.target(places(bytes(file))["PhysNetlist.strList 0"])[0]
    one, other = [table + 8 * i for i in (strings.index("I"), second)]
    low, high = struct.unpack_from("<2i", file, one)
    struct.pack_into("<2i", file, other, low - (other - one) // 8 * 4, high)
    assert message.Reader(*message.read_schema(SCHEMA), bytes(file)).strings[second] == "I"
    return bytes(file)


def looped():
    """The chain's netlist with one branch, whose branches are the list that it stands in; and the word at which it points."""
    file = bytearray(encoded(changed(CHAIN, [rooted(0, bel_pin("s0", "OB", "O"))]), strings_of([CHAIN])))
    at_place = places(bytes(file))
    read = message.Reader(*message.read_schema(SCHEMA), bytes(file))
    target, _, _, high = read.target(at_place["PhysNet.sources 0"])
    below = at_place["RouteBranch.branches 0"]
    struct.pack_into("<iI", file, below, (target - below - 8) // 8 * 4 | 1, high)
    return bytes(file), below // 8 - 1


def numbered(field, number):
    """The chain's netlist with a number out of its list."""
    file = bytearray(encoded(CHAIN, strings_of([CHAIN])))
    struct.pack_into("<I", file, places(bytes(file))[field], number)
    return bytes(file)


def changed_bytes(base):
    file, word = looped()
    count = len(strings_of([CHAIN]))
    texts = [
        ("a table of strings with one text twice", one_text_twice(), "0 yes"),
        ("a branch whose branches are the list that it stands in", file, f"1 no: F7 at word 0:{word}"),
        ("a name past the table of strings", numbered("CellPlacement.type 1", count), "1 no: I1 at CellPlacement.type 1"),
        ("a net of a type that isn't there", numbered("PhysNet.type 0", 3), "1 no: I1 at PhysNet.type 0"),
        ("a branch of a kind that isn't there", numbered("RouteBranch.kind 2", 4), "1 no: I1 at RouteBranch.kind_tag 2"),
        ("a netlist without its last word", encoded(CHAIN, strings_of([CHAIN]))[:-8], "1 no: F1 at file"),
    ]
    for shows, file, answer in texts:
        yield shows, f"{HERE} p=chain:{pieces(base, file).replace(' ', ',')}", answer
    yield ("a chain of a hundred thousand site pins", f"{HERE} p=chain:{long_chain(100_000)}", "1 no: L4 at net n0 #1")


# The files.


def device_text(name):
    return many_clbs.device(many_clbs.BLOCKS, 2) if name == "eight_clbs" else None


@cache
def device_of(name):
    """The device's text as it is read again."""
    text = device_text(name)
    if text is None:
        path = TEXTS / f"{name}.device.json"
        return phys_rules.read(str(path if path.exists() else RUNS / "data" / name), "device")
    return message.Reader(*message.read_schema(SCHEMAS / "device.capnp"), message.encode(SCHEMAS / "device.capnp", text)).value


@cache
def design_of(name):
    if name == "a_hundred_cells":
        return many_clbs.design()
    return next(design for what, _, design in designs(TEXTS / "run_designs") if what == name)


@cache
def rules_device(name):
    """The device as the rules take it; a segment's ends are looked up once."""
    device = phys_rules.Device(device_of(name))
    device.ends = cache(device.ends)
    return device


@cache
def flat_of(device, design):
    return phys_design.Flat(flat_cases.Design(design_of(design)), flat_cases.Device(device_of(device)))


def judged(device, design, netlist, level):
    return phys_design.check(rules_device(device), flat_of(device, design), netlist, level)


def exit_line(answer):
    """An answer with its status, as the program tells it."""
    return f"{0 if answer.startswith('yes') else 1} {answer}"


def group_cases(files):
    """The cases on netlists that have a reading: a line each, and its answer."""
    for name, base, start, group in GROUPS:
        netlists = [start] + [changed(start, changes) for _, _, _, *changes in group]
        strings = strings_of(netlists)
        base_file = encoded(start, strings)
        if base == "chain":
            base_file = encoded(start, strings_of([start]))
        files[RUNS / "data" / base] = base_file.hex() + "\n"
        for (shows, words, by_hand, *_), netlist in zip(group, netlists[1:]):
            design, _, flag = words.partition(" ")
            answer = judged(name, design, netlist, "placed" if flag else "routed")
            by_hand = by_hand if by_hand.startswith("yes") else f"no: {by_hand}"
            assert answer == by_hand, f"{shows}: by hand {by_hand}, judged {answer}"
            made = pieces(base_file, encoded(netlist, strings)).replace(" ", ",")
            command = f"{WORDS},{flag}" if flag else WORDS
            yield f"{shows} | run | {command} | d={name} n={design} p={base}:{made}", f"{shows}: {exit_line(answer)}"


def all_cases(files):
    yield from group_cases(files)
    for shows, words, given, answer in RUN:
        yield f"{shows} | run | {words} | {given}", f"{shows}: {answer}"
    for shows, fails, words, given, answer in PLANNED:
        yield f"{shows} | {fails} | {words} | {given}", f"{shows}: {answer}"
    base = bytes.fromhex(files[RUNS / "data" / "chain"])
    for shows, given, answer in changed_bytes(base):
        yield f"{shows} | run | {WORDS} | {given}", f"{shows}: {answer}"


def digits(kind, text):
    return message.encode(SCHEMAS / f"{kind}.capnp", text).hex() + "\n"


def main():
    if sys.argv[1:] not in ([], ["check"]):
        sys.exit(__doc__)
    files = {
        RUNS / "data" / "eight_clbs": digits("device", device_text("eight_clbs")),
        RUNS / "data" / "a_hundred_cells": digits("netlist", design_of("a_hundred_cells")),
        RUNS / "data" / "joined_sinks": (TOP / "crates" / "ix_device_cases" / "data" / "joined_sinks").read_text(encoding="utf8"),
    }
    cases = list(all_cases(files))
    # It makes its mutants of the netlists here.
    import check_mutants

    for name, file, its in check_mutants.cases_of_legal():
        files[RUNS / "data" / name] = file.hex() + "\n"
        cases += its
    before = (RUNS / "data" / "cases").read_text(encoding="utf8").partition(HEAD)[0]
    count = sum(bool(line) and not line.startswith("#") for line in before.split("\n"))
    answers = (RUNS / "stdout").read_text(encoding="utf8").split("\n")[:count]
    files[RUNS / "data" / "cases"] = before + "\n".join([HEAD] + [line for line, _ in cases]) + "\n"
    files[RUNS / "stdout"] = "\n".join(answers + [answer for _, answer in cases]) + "\n"
    write_or_check("check_cases", files, len(cases))


if __name__ == "__main__":
    main()
