#!/usr/bin/env python3
"""The cases of the program ix_rules_cases, and what it must print.

    tools/rules_cases.py          write crates/ix_rules_cases/data/cases and crates/ix_rules_cases/stdout
    tools/rules_cases.py check    compare both with what would be written

A case is a netlist with some changes, encoded by message.py. Beside it stands the answer, worked out by hand from the
rules; phys_rules.py judges each netlist too, and both have to agree.
"""
import copy
import sys
from difflib import SequenceMatcher
from pathlib import Path

import message
import phys_rules
from phys_texts import *
from stored import write_or_check

TOP = Path(__file__).resolve().parent.parent
SCHEMA = TOP / "examples" / "schema" / "phys.capnp"
CASES = TOP / "crates" / "ix_rules_cases"


# On `slices`: two cells and a pad in the first tile, a LUT and a pad in the second, each net a tree that is whole. The
# first LUT has its inputs on C and A; its table is right where B is 0, as the net `zero` holds it, and nowhere else.
WHOLE = {
    "part": "slices",
    "placements": [
        cell("in", "IBUF", "P0", "P", "O=O"),
        cell("and", "LUT2", "S0", "L0", "I0=C I1=A O=O"),
        cell("ff", "FD", "S0", "FF", "C=C D=D Q=Q"),
        cell("not", "LUT1", "S1", "L2", "I0=A O=O"),
        cell("out", "OBUF", "P1", "P", "I=I"),
    ],
    "physNets": [
        net("zero", pip("T0", "G", "b", site_pin("S0", "b", bel_pin("S0", "L0", "B"))), ty=GND),
        net(
            "one",
            bel_pin("S1", "ONE", "O", site_pip("S1", "MUX", "H", bel_pin("S1", "FF", "D"))),
            pip("T0", "V", "k", site_pin("S0", "k", bel_pin("S0", "FF", "C"))),
            ty=VCC,
        ),
        net(
            "n0",
            bel_pin("P0", "P", "O", site_pin("P0", "o", pip(
                "T0", "t", "R0",
                pip("T0", "R0", "c", site_pin("S0", "c", bel_pin("S0", "L0", "C"))),
                pip("T1", "R0", "e", site_pin("S1", "e", bel_pin("S1", "L2", "A"))),
            ))),
        ),
        net("n1", bel_pin("S0", "L0", "O", site_pip("S0", "MUX", "L", bel_pin("S0", "FF", "D")))),
        net(
            "n2",
            bel_pin("S0", "FF", "Q", site_pin("S0", "q", pip(
                "T0", "q", "R1", pip("T0", "R1", "a", site_pin("S0", "a", bel_pin("S0", "L0", "A"))),
            ))),
        ),
        net(
            "n3",
            bel_pin("S1", "L2", "O", site_pin("S1", "f", pip(
                "T1", "f", "R1", pip("T1", "R1", "i", site_pin("P1", "i", bel_pin("P1", "P", "I"))),
            ))),
        ),
    ],
    "siteInsts": instances(S0="SLICE", P0="PAD", S1="SLICE", P1="PAD"),
    "properties": tables(("TABLE/S0/0", "0000000000000024"), ("kept", ""), ("TABLE/S1/1", "0000000000000050")),
}
ZERO, ONE, N0, N1, N2, N3 = range(6)

# On `slices`: a net of PIPs alone, and no site.
GROUND = {"part": "slices", "physNets": [net("g", pip("T0", "G", "R1"), ty=GND)]}

# On `joined_ends`: one net of four segments.
CHAIN = {
    "part": "M5",
    "placements": [cell("d0", "DRV", "s0", "OB", "O=O"), cell("e0", "LOAD", "t0", "IB", "I=I")],
    "physNets": [
        net("n0", bel_pin("s0", "OB", "O", site_pin("s0", "O", site_pin("t0", "I", bel_pin("t0", "IB", "I"))))),
    ],
    "siteInsts": instances(s0="SRC", t0="SNK"),
}

# On `joined_sinks`: two nets with a stub each, both at one node.
STUBS = {
    "part": "M4",
    "placements": [
        cell("d0", "DRV", "s0", "OB", "O=O"),
        cell("d1", "DRV", "s1", "OB", "O=O"),
        cell("e0", "LOAD", "t0", "IB", "I=I"),
        cell("e1", "LOAD", "t1", "IB", "I=I"),
    ],
    "physNets": [
        net(
            f"n{k}",
            bel_pin(f"s{k}", "OB", "O", site_pin(f"s{k}", "O")),
            stubs=[site_pin(f"t{k}", "I", bel_pin(f"t{k}", "IB", "I"))],
        )
        for k in (0, 1)
    ],
    "siteInsts": instances(s0="SRC", s1="SRC", t0="SNK", t1="SNK"),
}

# On `grounds`: a sink in each tile, on gnd.
GROUNDS = {
    "part": "M7",
    "placements": [cell(f"e{k}", "LOAD", f"t{k}", "IB", "I=I") for k in range(3)],
    "physNets": [
        net(
            "GLOBAL_LOGIC0",
            *(pip(f"M{k}", "G", "T0", site_pin(f"t{k}", "I", bel_pin(f"t{k}", "IB", "I"))) for k in range(3)),
            ty=GND,
        ),
    ],
    "siteInsts": instances(t0="SNK", t1="SNK", t2="SNK"),
}

# On `one_clb`: one LUT with both inputs on constants, without its table.
LUT = {
    "part": "K",
    "placements": [cell("u", "LUT2", "SC0", "A6LUT", "I0=A1 I1=A2 O=O6")],
    "physNets": [
        net(
            "GLOBAL_LOGIC0",
            pip("C0", "L13", "IN0", site_pin("SC0", "A1", bel_pin("SC0", "A6LUT", "A1"))),
            ty=GND,
        ),
        net(
            "GLOBAL_LOGIC1",
            pip("C0", "L12", "IN1", site_pin("SC0", "A2", bel_pin("SC0", "A6LUT", "A2"))),
            ty=VCC,
        ),
    ],
    "siteInsts": instances(SC0="CLB"),
}


AND, FF, NOT, OUT = 1, 2, 3, 4
YES = "yes"


# The cases on WHOLE: what each shows, the answer, and the changes. Where the answers at the two levels differ, that at
# level placed stands first.

INSTANCES = [
    ("a netlist with each kind of segment", YES),
    ("an empty netlist", YES, dict.clear),
    ("a site instance without anything on it", YES, add_instance("S2/0")),
    ("a site instance of an unknown site", "L1 at site S9", at("siteInsts/0/site", "S9")),
    ("a site instance of a tile", "L1 at site T0", at("siteInsts/0/site", "T0")),
    ("a site instance of an unknown type", "L1 at site P0", at("siteInsts/1/type", "SLICES")),
    ("a site instance with a tile type for its type", "L1 at site P1", at("siteInsts/3/type", "CT")),
    ("an unknown type comes before an unknown site that is later", "L1 at site P0",
     at("siteInsts/1/type", ""), at("siteInsts/2/site", "S9")),
    ("all instances come before all placements", "L1 at site P1",
     at("siteInsts/3/type", "PADS"), of_cell(0, type="LUT9")),
    ("a site of the empty name", YES, add_instance("")),
    ("the device's name is compared with nothing", YES, at("part", "another")),
]

PLACEMENTS = [
    ("a cell of an unknown type", "L1 at cell and", of_cell(AND, type="LUT9")),
    ("a cell of a LUT type without BELs", "L1 at cell and", of_cell(AND, type="LUT4")),
    ("a cell of a constant's type", "L1 at cell ff", of_cell(FF, type="GND")),
    ("a cell of the other constant's type", "L1 at cell ff", of_cell(FF, type="VCC")),
    ("a cell with a BEL for its type", "L1 at cell ff", of_cell(FF, type="FF")),
    ("a cell of a type that no BEL takes", "L2 at cell ff", of_cell(FF, type="NOWHERE")),
    ("a cell on an unknown site", "L1 at cell out", of_cell(OUT, site="P9")),
    ("a cell on an unknown BEL", "L1 at cell and", of_cell(AND, bel="L9")),
    ("a cell on a BEL of another site type", "L1 at cell and", of_cell(AND, bel="P")),
    ("a cell on the BEL of a site pin", "L2 at cell and", of_cell(AND, bel="a")),
    ("a pin map that names an unknown BEL", "L1 at cell and", of_pin(AND, 0, bel="L9")),
    ("a pin map that names a BEL of another site type", "L1 at cell and", of_pin(AND, 2, bel="P")),
    ("a pin map that names an unknown pin", "L1 at cell and", of_pin(AND, 1, belPin="D")),
    ("a pin map that names a pin that only another BEL has", "L1 at cell and", of_pin(AND, 0, bel="L1")),
    ("a pin map that names a site's pin", "L1 at cell out", of_pin(OUT, 0, belPin="i")),
    ("an unknown pin of a cell is no matter of names", "L3 at cell ff", of_pin(FF, 1, cellPin="X")),
    ("of two cells the first in the list", "L1 at cell and", of_cell(AND, type="LUT9"), of_cell(FF, type="FF")),
    ("a cell without a name", YES, of_cell(OUT, cellName="")),
    ("a cell comes before a net", "L1 at cell out",
     of_cell(OUT, type="OBUFS"), at("physNets/0/sources/0/first", "T9")),
]

SEGMENTS = [
    ("a BEL pin of an unknown site", "L1 at net n1 #2", segment(N1, 2, first="S9")),
    ("a BEL pin of an unknown BEL", "L1 at net n1 #2", segment(N1, 2, second="F")),
    ("a BEL pin of an unknown pin", "L1 at net n1 #2", segment(N1, 2, third="Z")),
    ("a BEL pin of a BEL of another site type", "L1 at net n3 #5", segment(N3, 5, first="S1")),
    ("a BEL pin in no site wire", "L1 at net n1 #2", segment(N1, 2, third="E")),
    ("a site pin of an unknown site", "L1 at net n0 #7", segment(N0, 7, first="S")),
    ("a site pin of an unknown pin", "L1 at net n0 #7", segment(N0, 7, second="E")),
    ("a site pin of another site type", "L1 at net n3 #4", segment(N3, 4, second="a")),
    ("a site pin of both directions", "L1 at net n2 #1", segment(N2, 1, second="z")),
    ("a site pin whose BEL pin is in no site wire", "L1 at net n0 #10",
     below(N0, 2, pip("T0", "R0", "n", site_pin("S0", "n")))),
    ("a site pin with a third name", YES, segment(N0, 7, third="T0")),
    ("segments that aren't PIPs and go forward", YES,
     segment(N0, 7, forward=1), segment(N1, 0, forward=1), segment(N1, 1, forward=1)),
    ("a PIP of an unknown tile", "L1 at net n0 #3", segment(N0, 3, first="S0")),
    ("a PIP from an unknown wire", "L1 at net n0 #3", segment(N0, 3, second="R9")),
    ("a PIP to an unknown wire", "L1 at net n0 #3", segment(N0, 3, third="C")),
    ("a PIP between wires of another tile's type", "L1 at net n0 #3", segment(N0, 3, first="T2")),
    ("wires without a PIP", "L1 at net n0 #2", segment(N0, 2, second="a")),
    ("a directional PIP with its wires in the other order", "L1 at net n0 #2", segment(N0, 2, second="R0", third="t")),
    ("a directional PIP backwards", "L1 at net n0 #2", segment(N0, 2, second="R0", third="t", forward=0)),
    ("a directional PIP that isn't forward", "L1 at net n0 #2", segment(N0, 2, forward=0)),
    ("a site PIP of an unknown site", "L1 at net n1 #1", segment(N1, 1, first="S")),
    ("a site PIP of an unknown BEL", "L1 at net n1 #1", segment(N1, 1, second="M")),
    ("a site PIP of an unknown pin", "L1 at net n1 #1", segment(N1, 1, third="D0")),
    ("a site PIP named by its output", "L1 at net n1 #1", segment(N1, 1, third="D")),
    ("a site PIP of a BEL of category logic", "L1 at net n2 #6", below(N2, 4, site_pip("S0", "L0", "A"))),
    ("a pin that begins no site PIP", "L1 at net n2 #6", below(N2, 4, site_pip("S0", "L1", "A"))),
]

PIPS = [
    ("a net without sites", YES),
    ("a PIP of both directions, backwards", YES, below(0, 0, pip("T0", "R0", "R1", forward=0))),
    ("a PIP of both directions, its wires in the other order", "L1 at net g #1", below(0, 0, pip("T0", "R1", "R0"))),
    ("two PIPs between the same wires, of which only the second goes backwards", "L6 at net g #2",
     below(0, 0, pip("T0", "R1", "R2", pip("T0", "R1", "R2", forward=0)))),
    ("a PIP by pseudo cells", "L1 at net g #2",
     below(0, 0, pip("T0", "R0", "R1", pip("T0", "R0", "R2"), forward=0))),
    ("a PIP between two wires of one node's name in two tiles", YES,
     below(0, 0, pip("T0", "R0", "R1", pip("T1", "R0", "a"), forward=0))),
    ("a PIP of another tile with the same wires", "L4 at net g #1", below(0, 0, pip("T1", "R1", "R2"))),
]

NETS = [
    ("two signal nets of one name", "L1 at net n0 #0", rename(N3, "n0")),
    ("two signal nets without a name", "L1 at net  #0", rename(N1, ""), rename(N3, "")),
    ("two gnd nets", "L1 at net n3 #0", type_of(N3, GND)),
    ("two vcc nets", "L1 at net low #0", add_net("low", ty=VCC)),
    ("two gnd nets of one name", "L1 at net zero #0", add_net("zero", ty=GND)),
    ("a gnd net and a vcc net of one name", YES, rename(ONE, "zero")),
    ("a gnd net and a signal net of one name", YES, rename(ZERO, "n2")),
    ("a vcc net and a signal net of one name", YES, rename(N2, "one")),
    ("constants and signals of one name", YES, rename(ZERO, "n2"), rename(ONE, "n2")),
    ("a net comes before its segments", "L1 at net n1 #0", rename(N2, "n1"), segment(N2, 4, first="S9")),
    ("an earlier net's segment comes before a net", "L1 at net n0 #8", rename(N3, "n0"), segment(N0, 8, third="I")),
    ("a segment of the stubs, counted after the sources", "L1 at net n0 #7",
     moved_to_stub(N0, 7), segment(N0, 7, second="no")),
    ("a net comes before a property", "L1 at net n3 #5", segment(N3, 5, third="O2"), add_table("TABLE/5")),
    ("nets without segments", "L5 at net n4 #0", add_net("n4")),
    ("constants without segments", YES, rooted(ONE), drop("physNets/0"), add_net("low", ty=GND),
     at("properties/0/value", "0" * 14 + "A0")),
]

TABLES = [
    ("a table of no site", "L1 at key TABLE/5", add_table("TABLE/5")),
    ("a table of no site and no element", "L1 at key TABLE/", add_table("TABLE/")),
    ("a table of the site of the empty name, without an instance", "L1 at key TABLE//0", add_table("TABLE//0")),
    ("a table of the site of the empty name", YES, add_table("TABLE//0"), add_instance("")),
    ("a table of a site without an instance", "L1 at key TABLE/S2/0/1", add_table("TABLE/S2/0/1")),
    ("a table of a site with a slash in its name", YES, add_table("TABLE/S2/0/1"), add_instance("S2/0")),
    ("a key that ends with the name of a site", "L1 at key TABLE/S2/0", add_table("TABLE/S2/0"), add_instance("S2/0")),
    ("a table of an unknown site", "L1 at key TABLE/S9/0", add_table("TABLE/S9/0")),
    ("a table of a site without elements", "L1 at key TABLE/P0/0", add_table("TABLE/P0/0")),
    ("a table of an element that no cell uses", YES, add_table("TABLE/S1/0", "FEDCBA9876543210")),
    ("a table of an element that can't be used", YES, add_table("TABLE/S0/2")),
    ("an element past the last", "L1 at key TABLE/S0/3", add_table("TABLE/S0/3")),
    ("an element with a zero before it", "L1 at key TABLE/S0/01", add_table("TABLE/S0/01")),
    ("an element of two zeros", "L1 at key TABLE/S1/00", add_table("TABLE/S1/00")),
    ("an element with a sign", "L1 at key TABLE/S1/+0", add_table("TABLE/S1/+0")),
    ("no element", "L1 at key TABLE/S1/", add_table("TABLE/S1/")),
    ("an element with a blank", "L1 at key TABLE/S1/ 0", add_table("TABLE/S1/ 0")),
    ("an element of 2 to the 32", "L1 at key TABLE/S1/4294967296", add_table("TABLE/S1/4294967296")),
    ("an element of 2 to the 64", "L1 at key TABLE/S1/18446744073709551616", add_table("TABLE/S1/18446744073709551616")),
    ("an element in other digits", "L1 at key TABLE/S1/٠", add_table("TABLE/S1/٠")),
    ("an element in letters", "L1 at key TABLE/S1/A", add_table("TABLE/S1/A")),
    ("two slashes before the element", "L1 at key TABLE/S1//0", add_table("TABLE/S1//0")),
    ("a table of 15 digits", "L1 at key TABLE/S1/0", add_table("TABLE/S1/0", "0" * 15)),
    ("a table of 17 digits", "L1 at key TABLE/S1/0", add_table("TABLE/S1/0", "0" * 17)),
    ("a table without digits", "L1 at key TABLE/S1/0", add_table("TABLE/S1/0", "")),
    ("a table with a digit in lower case", "L1 at key TABLE/S1/0", add_table("TABLE/S1/0", "00000000000000aF")),
    ("a table with a letter past F", "L1 at key TABLE/S1/0", add_table("TABLE/S1/0", "G" + "0" * 15)),
    ("a table with a character before 0", "L1 at key TABLE/S1/0", add_table("TABLE/S1/0", "0" * 15 + "/")),
    ("a table with a character between 9 and A", "L1 at key TABLE/S1/0", add_table("TABLE/S1/0", "0" * 15 + ":")),
    ("a table of 16 bytes in 8 characters", "L1 at key TABLE/S1/0", add_table("TABLE/S1/0", "é" * 8)),
    ("a table of 16 characters in 32 bytes", "L1 at key TABLE/S1/0", add_table("TABLE/S1/0", "é" * 16)),
    ("a table twice", "L1 at key TABLE/S1/1", add_table("TABLE/S1/1", "0000000000000050")),
    ("a table twice, with another value", "L1 at key TABLE/S0/0", add_table("TABLE/S0/0")),
    ("a table thrice", "L1 at key TABLE/S1/0",
     add_table("TABLE/S1/0"), add_table("TABLE/S0/1"), add_table("TABLE/S1/0"), add_table("TABLE/S1/0")),
    ("other keys twice", YES, add_table("kept", "x"), add_table("OTHER/S0/0", "1"), add_table("OTHER/S0/0", "2")),
    ("keys that are nearly of tables", YES, add_table("TABLE", ""), add_table("table/S0/0", ""),
     add_table(" TABLE/S0/0", ""), add_table("TABLES/S0/0", ""), add_table("", ""), add_table("TABLE\\S0", "")),
    ("of two keys the first", "L1 at key TABLE/S1/00", add_table("TABLE/S1/00"), add_table("TABLE/x")),
]

PLACES = [
    ("a second instance of a site", "L2 at site S0", add_instance("S0")),
    ("a second instance of a site without a cell", "L2 at site S2/0", add_instance("S2/0"), add_instance("S2/0")),
    ("an instance of another type", "L2 at site P0", at("siteInsts/1/type", "SLICE")),
    ("an instance of a type without anything", "L2 at site S1", at("siteInsts/2/type", "BARE")),
    ("a cell twice", "L2 at cell ff", add_cell("ff", "BUF", "S1", "L0", "I=A")),
    ("a cell twice, at one place", "L2 at cell out", add_cell("out", "OBUF", "P1", "P", "I=I")),
    ("two cells without a name", "L2 at cell ", of_cell(NOT, cellName=""), of_cell(OUT, cellName="")),
    ("two cells on one BEL", "L2 at cell inv", add_cell("inv", "LUT1", "S0", "L0", "I0=A O=O")),
    ("two cells on BELs of one name", YES, add_cell("f", "FD", "S1", "FF", "")),
    ("a LUT on a BEL with fewer inputs", "L2 at cell l", add_cell("l", "LUT3", "S1", "L1", "I0=A I1=B O=O")),
    ("a LUT on a BEL of an element that can't be used", "L2 at cell l", add_cell("l", "LUT1", "S1", "LU", "I0=A O=O")),
    ("a plain cell on a BEL of an element that can't be used", YES, add_cell("b", "BUF", "S1", "LU", "I=A O=O")),
    ("a cell on a BEL that no pin map of its type lists", "L2 at cell b", add_cell("b", "BUF", "S1", "FF", "")),
    ("a cell on a routing BEL that a pin map lists", "L2 at cell t", add_cell("t", "TIE", "S1", "MUX", "")),
    ("a cell whose first pin map names a BEL pin twice", "L2 at cell t",
     drop("placements/0"), drop("physNets/2"), add_cell("t", "TWICE", "P0", "P", "I=I")),
    ("a cell on a site without an instance", "L2 at cell out", drop("siteInsts/3")),
    ("a site's second instance comes before a cell without one", "L2 at site S0", drop("siteInsts/1"), add_instance("S0")),
    ("all instances come before all placements, also here", "L2 at site S1",
     at("siteInsts/2/type", "PAD"), of_cell(0, type="OBUF", bel="P", cellName="and")),
    ("of two cells the first at which the rule breaks", "L2 at cell out",
     of_cell(OUT, type="FD"), add_cell("and", "BUF", "S1", "L0", "")),
]

PIN_MAPS = [
    ("an entry of another BEL, of a LUT", "L3 at cell and", of_pin(AND, 1, bel="L1")),
    ("an entry of another BEL, of a plain cell", "L3 at cell ff", of_pin(FF, 0, bel="L0")),
    ("an entry that the device's pin map lacks", "L3 at cell ff", of_pin(FF, 0, belPin="D")),
    ("an entry of a pin that only another type has", "L3 at cell ff", add("placements/2/pinMap", *pin_map("FF", "E=E"))),
    ("an entry of a BEL pin in no wire", YES, of_cell(FF, type="FDE"), add("placements/2/pinMap", *pin_map("FF", "E=E"))),
    ("an entry twice", YES, add("placements/2/pinMap", *pin_map("FF", "Q=Q"))),
    ("an entry left out", YES, drop("placements/2/pinMap/0")),
    ("a plain cell without entries", YES, of_cell(OUT, pinMap=[])),
    ("a LUT with an input left out", "L3 at cell and", drop("placements/1/pinMap/1")),
    ("a LUT with an input twice on one pin", "L3 at cell and",
     add("placements/1/pinMap", *pin_map("L0", "I0=C"))),
    ("a LUT with an input on two pins", "L3 at cell and",
     add("placements/1/pinMap", *pin_map("L0", "I0=B"))),
    ("a LUT with two inputs on one pin", "L3 at cell and", of_pin(AND, 0, belPin="A")),
    ("a LUT with an input on its BEL's output", "L3 at cell and", of_pin(AND, 0, belPin="O")),
    ("a LUT with its inputs in another order", YES, reverse("placements"),
     reverse("placements/3/pinMap")),
    ("a LUT with its inputs on other pins", YES, of_pin(AND, 0, belPin="A"), of_pin(AND, 1, belPin="C")),
    ("a LUT with its output left out", "L5 at net n1 #0", drop("placements/1/pinMap/2")),
    ("a LUT with its output left out, and no net there", YES, drop("placements/1/pinMap/2"), drop("physNets/3")),
    ("a LUT with its output twice", YES, add("placements/1/pinMap", *pin_map("L0", "O=O"))),
    ("a LUT with its output on an input", "L3 at cell not", of_pin(NOT, 1, belPin="A")),
    ("a LUT with an entry that is none of the device's", "L3 at cell not",
     add("placements/3/pinMap", *pin_map("L2", "I1=A"))),
    ("a LUT with all inputs of its BEL", YES,
     of_cell(AND, type="LUT3"), add("placements/1/pinMap", *pin_map("L0", "I2=B"))),
    ("a LUT without an entry", "L3 at cell not", of_cell(NOT, pinMap=[])),
]

TREES = [
    ("a sink below the wrong parent", "L4 at net n0 #2", below(N0, 1, bel_pin("S0", "L0", "C")), cut(N0, 2)),
    ("a chain of site pins", "L4 at net n0 #2", instead(N0, 2, site_pin("P0", "o", site_pin("P0", "o")))),
    ("a BEL pin below one of another wire", "L4 at net n1 #1", instead(N1, 1, bel_pin("S0", "FF", "D"))),
    ("a BEL pin below one of its wire", YES, below(N1, 2, bel_pin("S0", "FF", "D", bel_pin("S0", "FF", "D")))),
    ("a segment below its parent's parent", "L4 at net n0 #4",
     instead(N0, 3, pip("T0", "R0", "c", bel_pin("S0", "L0", "C")))),
    ("after a branch the parent is the one above it", "L4 at net n0 #6",
     instead(N0, 6, pip("T1", "R1", "e"))),
    ("a PIP from a wire of the same name in another tile", "L4 at net n2 #3", instead(N2, 3, pip("T1", "R1", "a"))),
    ("the first of two site PIPs of an input", "L4 at net n1 #2",
     instead(N1, 2, site_pin("S0", "m"))),
    ("the second tree of a constant", "L4 at net one #5", instead(ONE, 5, bel_pin("S0", "FF", "D"))),
    ("a child in a stub", "L4 at net n0 #8", moved_to_stub(N0, 7), segment(N0, 8, first="S0", second="L0", third="A")),
    ("a stub of its own", "L4 at net n0 #10",
     stub(N0, pip("T1", "R0", "a", site_pin("S1", "b")))),
    ("of two nets the first", "L4 at net n0 #5", segment(N0, 5, third="B"), segment(N2, 5, third="B")),
    ("a site pin against its direction", "L4 at net n0 #2", instead(N0, 2, site_pin("P0", "i"))),
]

TRUE_ONE = bel_pin("S1", "ONE", "O")

ROOTS = [
    ("a signal net without a source", "L5 at net n1 #0", rooted(N1)),
    ("a signal net with a stub alone", "L5 at net n1 #0", rooted(N1), stub(N1, pip("T1", "R2", "k"))),
    ("a signal net without a source, after one whose stub begins at a wire", "L5 at net n0 #9",
     rooted(N1), stub(N0, bel_pin("S1", "L2", "A"))),
    ("two sources", "L5 at net n2 #6", add("physNets/4/sources", bel_pin("S0", "FF", "Q"))),
    ("a second source that is improper", "L5 at net n2 #6", add("physNets/4/sources", pip("T1", "R1", "R2"))),
    ("the first of two sources is improper", "L5 at net n1 #0",
     rooted(N1, bel_pin("S0", "FF", "D"), bel_pin("S0", "L0", "O"))),
    ("a third source", "L5 at net n1 #3", add("physNets/3/sources", bel_pin("S0", "L0", "O"), bel_pin("S0", "L0", "O"))),
    ("an input BEL pin as source", "L5 at net n1 #0", rooted(N1, bel_pin("S0", "FF", "D"))),
    ("an output that no cell maps as source", "L5 at net n4 #0", add_net("n4", bel_pin("S1", "L1", "O"))),
    ("an output that a cell maps on another site as source", "L5 at net n4 #0",
     add_net("n4", bel_pin("S1", "FF", "Q"))),
    ("an output of a BEL whose cell leaves it out as source", "L5 at net n2 #0", drop("placements/2/pinMap/2")),
    ("an output of a routing BEL as source", "L5 at net n1 #0", rooted(N1, bel_pin("S0", "MUX", "D"))),
    ("an output site pin as source", "L5 at net n0 #0", without_root(N0)),
    ("a PIP as source of a signal net", "L5 at net n3 #0", rooted(N3, pip("T1", "R1", "i"))),
    ("a site PIP as source of a signal net", "L5 at net n1 #0", without_root(N1)),
    ("a PIP from a constant's node as source of a signal net", "L5 at net n4 #0", add_net("n4", pip("T0", "G", "x"))),
    ("a constant's source as source of a signal net", "L5 at net n4 #0", add_net("n4", bel_pin("S1", "ZERO", "O"))),
    ("a mapped output as source of a constant", "L5 at net one #6", add("physNets/1/sources", bel_pin("S0", "L0", "O"))),
    ("gnd from a node of vcc", "L5 at net zero #3", add("physNets/0/sources", pip("T0", "V", "a"))),
    ("gnd from a signal's node", "L5 at net zero #0", segment(ZERO, 0, second="R0")),
    ("gnd from a node that is listed for both constants", "L5 at net zero #3",
     add("physNets/0/sources", pip("T0", "B", "k"))),
    ("vcc from a node that is listed for both constants", "L5 at net one #3", segment(ONE, 3, second="B")),
    ("gnd from another tile's wire of a node", YES, segment(ZERO, 0, first="T0"),
     add("physNets/0/sources", pip("T1", "G", "a"))),
    ("vcc from a node by its tile alone", YES, add("physNets/1/sources", pip("T1", "W", "b"))),
    ("vcc from a wire of that name in another tile", "L5 at net one #6", add("physNets/1/sources", pip("T0", "W", "c"))),
    ("vcc from an input site pin at its node", YES, add("physNets/1/sources", site_pin("S1", "x"))),
    ("vcc from an input site pin at another node", "L5 at net one #6", add("physNets/1/sources", site_pin("S0", "x"))),
    ("vcc from an output site pin", "L5 at net one #6", add("physNets/1/sources", site_pin("S1", "o"))),
    ("vcc from a site PIP at a source's wire", "L5 at net one #0",
     rooted(ONE, site_pip("S1", "MUX", "H"))),
    ("gnd from its source in a site", YES, add("physNets/0/sources", bel_pin("S1", "ZERO", "O"))),
    ("gnd from a source of vcc", "L5 at net zero #3", add("physNets/0/sources", bel_pin("S0", "ONE", "O"))),
    ("vcc from a source of gnd", "L5 at net one #6", add("physNets/1/sources", bel_pin("S0", "ZERO", "O"))),
    ("vcc from a BEL pin on a source's wire", "L5 at net one #6", add("physNets/1/sources", bel_pin("S1", "MUX", "H"))),
    ("vcc from a source with a cell on its BEL", "L5 at net one #0", add_cell("t", "TIE", "S1", "ONE", "")),
    ("vcc from a source with a cell on that BEL of another site", YES, add_cell("t", "TIE", "S0", "ONE", "")),
    ("gnd from a source in a LUT element", "L5 at net zero #3", add("physNets/0/sources", bel_pin("S0", "L2", "O"))),
    ("gnd from a source in an element that can't be used", "L5 at net zero #3",
     add("physNets/0/sources", bel_pin("S1", "LU", "O"))),
    ("a constant with many roots", YES, add("physNets/0/sources", pip("T0", "G", "x"), bel_pin("S1", "ZERO", "O"),
     pip("T1", "G", "a"), pip("T1", "G", "b"), bel_pin("S0", "ZERO", "O"))),
    ("the second root of a constant is improper", "L5 at net zero #3",
     add("physNets/0/sources", pip("T0", "R1", "x"), bel_pin("S1", "L2", "O"))),
    ("a stub that begins at a wire, with a BEL pin", "L5 at net n0 #9", stub(N0, bel_pin("S1", "L2", "A"))),
    ("a stub that begins at a wire, with a site PIP", "L5 at net n1 #3", stub(N1, site_pip("S0", "MUX", "L"))),
    ("a stub that begins at a wire, with an output site pin", "L5 at net n1 #3", stub(N1, site_pin("S0", "o"))),
    ("the second of two stubs begins at a wire", "L5 at net n1 #4",
     stub(N1, pip("T1", "R2", "k"), bel_pin("S0", "L0", "O"))),
    ("a second source comes before a stub that begins at a wire", "L5 at net n1 #3",
     add("physNets/3/sources", bel_pin("S0", "L0", "O")), stub(N1, bel_pin("S0", "L0", "O"))),
    ("a constant's stub that begins at a wire", "L5 at net zero #3", stub(ZERO, bel_pin("S1", "ZERO", "O"))),
]

# On GROUND.
ENTERED_PIPS = [
    ("a node entered twice", "L6 at net g #2",
     below(0, 0, pip("T0", "R0", "R1", forward=0), pip("T0", "R0", "R1", forward=0))),
    ("a node entered again, before the end of the way", "L6 at net g #3",
     below(0, 0, pip("T0", "R0", "R1", pip("T0", "R0", "x"), forward=0), pip("T0", "R1", "x"))),
    ("a node entered by two of its wires", "L6 at net g #4",
     below(0, 0, pip("T0", "R0", "R1", pip("T0", "R0", "e"), pip("T0", "R0", "c"), pip("T0", "R0", "u"), forward=0))),
    ("the way back", "L6 at net g #2", below(0, 0, pip("T0", "R0", "R1", pip("T0", "R0", "R1"), forward=0))),
    ("a node entered by two roots", "L6 at net g #1", add("physNets/0/sources", pip("T0", "G", "R1"))),
    ("a node of the constant entered", "L6 at net g #1", below(0, 0, pip("T0", "R1", "G"))),
    ("a node of the constant entered that isn't a root's", "L6 at net v #1",
     type_of(0, VCC), rename(0, "v"), rooted(0, pip("T1", "V", "a"), pip("T1", "V", "W"))),
    ("a node entered whose wire is of the constant in another tile alone", YES,
     type_of(0, VCC), rooted(0, pip("T0", "V", "W"))),
    ("a root that enters where it begins", "L6 at net g #1", add("physNets/0/sources", pip("T0", "G", "G"))),
    ("a node of the constant entered in a stub", "L6 at net g #1", stub(0, pip("T0", "R1", "G"))),
    ("a node of the other constant entered", "L7 at net g #2",
     below(0, 0, pip("T0", "R0", "R1", pip("T0", "R0", "V"), forward=0))),
    ("a node that is listed for both constants entered", YES, below(0, 0, pip("T0", "R1", "B", pip("T1", "B", "c")))),
]

ENTERED = [
    ("a wire entered twice", "L6 at net one #7",
     add("physNets/1/sources", site_pin("S1", "x", site_pip("S1", "INV", "T")))),
    ("a BEL pin twice", YES, below(N1, 1, bel_pin("S0", "FF", "D"))),
    ("a root's wire entered", "L6 at net n1 #7", cut(N0, 3), cut(N2, 3), below(N1, 0, site_pin("S0", "o", pip(
        "T0", "o", "R0", pip("T0", "R0", "a", site_pin("S0", "a", site_pip("S0", "BACK", "I"))))))),
    ("a root's wire entered in a stub", "L6 at net n1 #5", cut(N2, 3),
     stub(N1, pip("T1", "R2", "k"), site_pin("S0", "a", site_pip("S0", "BACK", "I")))),
    ("a root's wire entered by a later root's tree", "L6 at net one #7",
     add("physNets/1/sources", site_pin("S1", "x", site_pip("S1", "BACK", "J")))),
    ("a root's wire entered by an earlier root's tree", "L6 at net one #5",
     add("physNets/1/sources", site_pin("S1", "x", site_pip("S1", "BACK", "J"))), reverse("physNets/1/sources")),
    ("a stub's node entered by another stub", "yes / L10 at net n3 #6",
     stub(N3, pip("T1", "R1", "R2"), pip("T1", "R2", "k"))),
    ("a stub's node entered", "yes / L10 at net n0 #7", moved_to_stub(N0, 7)),
    ("a node entered in the sources and in a stub", "L6 at net n0 #9", stub(N0, pip("T1", "R0", "e"))),
    ("two stubs at one node", "yes / L10 at net n1 #3", stub(N1, pip("T0", "R2", "i"), pip("T0", "R2", "x"))),
    ("two stubs with one way", "L6 at net n1 #4", stub(N1, pip("T1", "R2", "k"), pip("T1", "R2", "k"))),
]

# The stubs of two nets at the two wires of one node, and a PIP to that node.
TWO_STUBS = (stub(N0, site_pin("S0", "e")), stub(N1, site_pin("S0", "u")))

SHARED = [
    ("two nets at a node", "L7 at net n3 #3", instead(N3, 3, pip("T1", "R0", "R1", forward=0))),
    ("two nets at a site wire", "L7 at net n1 #1",
     add("physNets/1/sources", bel_pin("S0", "ONE", "O", site_pip("S0", "MUX", "H")))),
    ("two nets at a site wire by BEL pins alone", "L7 at net n4 #0", add_net("n4", bel_pin("S0", "L0", "O"))),
    ("two nets of one name at a site wire", "L7 at net n1 #1", rename(ONE, "n1"),
     add("physNets/1/sources", bel_pin("S0", "ONE", "O", site_pip("S0", "MUX", "H")))),
    ("a signal on the node of a constant", "L7 at net n0 #6", instead(N0, 6, pip("T0", "R0", "V"))),
    ("a signal on the node of a constant without a net", "L7 at net n3 #3", instead(N3, 3, pip("T1", "R1", "G")),
     drop("physNets/0"), at("properties/0/value", "0" * 14 + "A0")),
    ("a signal on the node of a constant whose net is later", "L7 at net n0 #6",
     instead(N0, 6, pip("T0", "R0", "V")), reverse("physNets")),
    ("a signal on a node that is listed for both constants", YES, below(N2, 2, pip("T0", "R1", "B"))),
    ("gnd on the node of vcc", "L7 at net zero #3", add("physNets/0/sources", pip("T1", "G", "x"))),
    ("two stubs at a node that no PIP reaches", "yes / L7 at net n1 #3", *TWO_STUBS),
    ("two stubs at a node that a third net reaches by a PIP", "L7 at net n1 #3",
     *TWO_STUBS, below(N2, 2, pip("T0", "R1", "u"))),
    ("two stubs at a node that the first of them reaches by a PIP", "L7 at net n1 #3",
     *TWO_STUBS, below(N0, 2, pip("T0", "R0", "u"))),
    ("a stub at a node that a later net reaches by a PIP", "L7 at net n2 #6",
     TWO_STUBS[0], below(N2, 2, pip("T0", "R1", "u"))),
    ("a stub at a node that an earlier net reaches by a PIP", "L7 at net n1 #3",
     TWO_STUBS[1], below(N0, 2, pip("T0", "R0", "u"))),
    ("a stub at a node of a constant that no PIP reaches", "yes / L7 at net n1 #3", stub(N1, site_pin("S1", "x"))),
    ("a stub at a node of a constant with a PIP of its net", "L7 at net n1 #3",
     stub(N1, site_pin("S1", "x")), add("physNets/1/sources", pip("T1", "V", "a"))),
    ("a stub at a node of a constant with a PIP of its net, which is later", "L7 at net n1 #3",
     stub(N1, site_pin("S1", "x")), add("physNets/1/sources", pip("T1", "V", "a")), reverse("physNets")),
    ("gnd's stub at a node of vcc", "yes / L7 at net zero #3", stub(ZERO, site_pin("S1", "x"))),
    ("vcc's stub at a node of vcc", "yes / L10 at net one #6", stub(ONE, site_pin("S1", "x"))),
]

# The pad of the last sink without its cell and its instance.
UNUSED = (drop("placements/4"), drop("siteInsts/3"))

USES = [
    ("a site pin on a site without an instance", "L8 at net n3 #4", *UNUSED),
    ("a PIP to a site without an instance", YES, *UNUSED, cut(N3, 4)),
    ("a site with an instance and no cell", YES, drop("placements/4")),
    ("a site pin on a site without an instance, in a stub", "L8 at net n3 #4", *UNUSED, moved_to_stub(N3, 4)),
    ("a constant's source on a site without an instance", "L8 at net one #6",
     add("physNets/1/sources", bel_pin("S2/0", "ONE", "O"))),
    ("a constant's source on a site without a cell", YES,
     add("physNets/1/sources", bel_pin("S2/0", "ONE", "O")), add_instance("S2/0")),
    ("a way into a site without an instance", "L8 at net n2 #7",
     below(N2, 2, pip("T0", "R1", "i", site_pin("P0", "i"))), drop("siteInsts/1"), drop("placements/0"),
     drop("physNets/2")),
    ("of two nets the first", "L8 at net n3 #4",
     *UNUSED, reverse("physNets"), add("physNets/4/sources", bel_pin("S2/0", "ONE", "O"))),
]

# The first LUT with one input, on A; B is on gnd, C on a signal. Its table inverts A where B is 0, and nowhere else.
ONE_INPUT = (
    of_cell(AND, type="LUT1", pinMap=pin_map("L0", "I0=A O=O")),
    at("properties/0/value", "0000000000000015"),
)
ON_B = (of_cell(AND, type="LUT1"), drop("placements/1/pinMap/1"), of_pin(AND, 0, belPin="B"))
TIED_HIGH = pip("T0", "V", "W", pip("T0", "W", "b", site_pin("S0", "b")))

FUNCTIONS = [
    ("a plain cell beside a LUT", "L9 at element S0 0", add_cell("b", "BUF", "S0", "L1", "I=A O=O")),
    ("a plain cell in an element alone", YES, add_cell("b", "BUF", "S1", "L0", "I=A O=O")),
    ("no table", "L9 at element S0 0", drop("properties/0")),
    ("no table of the second element", "L9 at element S1 1", drop("properties/2")),
    ("no tables", "L9 at element S0 0", at("properties", [])),
    ("no tables, the sites in another order", "L9 at element S1 1", at("properties", []), reverse("siteInsts")),
    ("no tables of two elements of one site", "L9 at element S1 0",
     drop("properties/2"), add_cell("l", "LUT1", "S1", "L0", "I0=A O=O")),
    ("no table of the later of two elements of one site", "L9 at element S1 1",
     at("properties/2/key", "TABLE/S1/0"), add_cell("l", "LUT1", "S1", "L0", "I0=A O=O"),
     at("properties/2/value", "0" * 16)),
    ("no table, and a plain cell in a later element", "L9 at element S0 0",
     drop("properties/0"), add_cell("b", "BUF", "S1", "L1", "I=A")),
    ("a table that is right for a tied input, untied", "L9 at element S0 0", drop("physNets/0")),
    ("a table that is right for both values of an untied input", YES,
     drop("physNets/0"), at("properties/0/value", "00000000000000A0")),
    ("a table with junk in its other bits", YES,
     drop("physNets/0"), at("properties/0/value", "FEDCBA98765432A0")),
    ("a table with the digits in the other order", "L9 at element S0 0",
     drop("physNets/0"), at("properties/0/value", "0A23456789ABCDEF")),
    ("a table that is right for an input tied low", YES, *ONE_INPUT),
    ("a table that is right for an input tied low, tied high", "L9 at element S0 0",
     *ONE_INPUT, add("physNets/1/sources", TIED_HIGH), drop("physNets/0")),
    ("a table that is right for an input tied high", YES, *ONE_INPUT, at("properties/0/value", "0000000000000045"),
     add("physNets/1/sources", TIED_HIGH), drop("physNets/0")),
    ("a table that is right for an input tied low, on a signal", "L9 at element S0 0", *ONE_INPUT, drop("physNets/0"),
     below(N2 - 1, 2, pip("T0", "R1", "b", site_pin("S0", "b")))),
    ("an input tied by a BEL pin of another BEL", YES, *ONE_INPUT, segment(ZERO, 2, second="L1")),
    ("an input tied by a site pin alone", YES, *ONE_INPUT, cut(ZERO, 2)),
    ("an input tied in a stub", "yes / L10 at net zero #1", *ONE_INPUT, moved_to_stub(ZERO, 1)),
    ("an input on a net of gnd is taken at both values", YES, *ON_B, at("properties/0/value", "0000000000000033")),
    ("a table that is right where an input on gnd is 0", "L9 at element S0 0",
     *ON_B, at("properties/0/value", "0000000000000037")),
    ("two LUTs that read the same bits", YES, add_cell("l", "LUT1", "S0", "L1", "I0=A O=O")),
    ("two LUTs of which the first has no function", "L9 at element S0 0",
     add_cell("l", "LUT1", "S0", "L1", "I0=A O=O"), drop("physNets/0"), at("properties/0/value", "0" * 14 + "20")),
    ("two LUTs of which the second has no function", "L9 at element S0 0",
     add_cell("l", "LUT1", "S0", "L1", "I0=B O=O")),
    ("a LUT that reads from another bit on", YES, at("properties/2/value", "1234567890ABCD5E")),
    ("a LUT that reads from another bit on has no function", "L9 at element S1 1",
     at("properties/2/value", "1234567890ABCD2E")),
    ("a LUT with each input used", YES, of_cell(AND, type="LUT3", pinMap=pin_map("L0", "I0=B I1=C I2=A")),
     drop("physNets/3"), at("properties/0/value", "00000000000000E8")),
]

UNFINISHED = [
    ("a stub", "yes / L10 at net n2 #4", moved_to_stub(N2, 4)),
    ("the first net with stubs", "yes / L10 at net n0 #7", moved_to_stub(N0, 7), moved_to_stub(N2, 4)),
    ("the first of many stubs", "yes / L10 at net n0 #3", moved_to_stub(N0, 7), moved_to_stub(N0, 4), cut(N0, 3), cut(N0, 3)),
    ("a constant's stub", "yes / L10 at net zero #1", moved_to_stub(ZERO, 1)),
    ("a constant's stub without a source", "yes / L10 at net one #0", rooted(ONE), stub(ONE, site_pin("S1", "x"))),
    ("a stub and an earlier rule", "L9 at element S0 0", moved_to_stub(N2, 4), drop("properties/0")),
]

# The cases on other devices.

TABLE = "TABLE/SC0/0"
FIVE = " ".join(f"I{i}=A{i + 1}" for i in range(5))
FIVES = (
    at("placements", [
        cell("u", "LUT5", "SC0", "A6LUT", f"{FIVE} O=O6"),
        cell("v", "LUT5", "SC0", "A5LUT", f"{FIVE} O=O5"),
    ]),
    at("properties", tables((TABLE, "80000000FFFFFFFE"))),
)
HIGH = net("GLOBAL_LOGIC1", pip("C0", "L12", "IN5", site_pin("SC0", "A6")), ty=VCC)
OTHER_PINS = (
    at("placements/0/pinMap", pin_map("A6LUT", "I0=A3 I1=A1 O=O6")),
    at("physNets", []),
)

TABLED = [
    ("two constants at a LUT without its table", "L9 at element SC0 0"),
    ("a table of equal bits for inputs that aren't used", YES, add_table(TABLE, "8" * 16)),
    ("a table of another function", YES, add_table(TABLE, "4" * 16)),
    ("a table with one bit that differs", "L9 at element SC0 0", add_table(TABLE, "8" * 15 + "0")),
    ("a table for inputs in their order", YES, add_table(TABLE, "2" * 16)),
    ("a table for inputs on other pins", YES, *OTHER_PINS, add_table(TABLE, "5050" * 4)),
    ("a table in order, the inputs on other pins", "L9 at element SC0 0",
     *OTHER_PINS, add_table(TABLE, "2" * 16)),
    ("two LUTs of one element, the last input on vcc", YES, *FIVES, at("physNets", [HIGH])),
    ("two LUTs of one element, the last input open", "L9 at element SC0 0", *FIVES, at("physNets", [])),
    ("two LUTs of one element, the last input on gnd", YES, *FIVES,
     at("physNets", [net("g", pip("C0", "L13", "IN5", site_pin("SC0", "A6")), ty=GND)])),
    ("two LUTs of one element, the table of the first alone", YES, *FIVES, at("physNets", []),
     at("properties/0/value", "80000000" * 2)),
]

CHAINED = [
    ("a net of one chain", YES),
    ("a net of one chain, without its sink", YES, cut(0, 2)),
    ("a net of one chain, without its last BEL pin", YES, cut(0, 3)),
    ("a net of one chain, the half of it a stub", "yes / L10 at net n0 #2", moved_to_stub(0, 2)),
    ("a driver twice", "L2 at cell d0", add_cell("d0", "DRV", "s0", "OB", "O=O")),
    ("a driver twice, on two sites", "L2 at cell d0",
     add_cell("d0", "DRV", "s1", "OB", "O=O"), add_instance("s1", "SRC")),
    ("a chain of site pins in place of the net", "L4 at net n0 #1",
     rooted(0, site_pin("s0", "O", site_pin("s0", "O", site_pin("s0", "O"))))),
]

JOINED = [
    ("two nets with a stub each at one node", "yes / L7 at net n1 #2"),
    ("two nets with a stub each at one node, and a PIP there", "L7 at net n1 #2",
     below(0, 1, pip("M0", "S0", "X", pip("M0", "X", "T0")))),
    ("two nets with a stub each at one node, and a PIP there in a stub", "L7 at net n1 #2",
     stub(1, pip("M0", "X", "T1"))),
]

GROUNDED = [
    ("a constant with a root in each tile", YES),
    ("a constant with a root in each tile, a site without its cell", YES, drop("placements/1")),
    ("a constant with a root in each tile, a site without its instance", "L8 at net GLOBAL_LOGIC0 #4",
     drop("placements/1"), drop("siteInsts/1")),
    ("a net of one constant from nodes of the other", "L5 at net GLOBAL_LOGIC0 #0", type_of(0, VCC)),
]


# The files.

ON_WHOLE = [
    INSTANCES, PLACEMENTS, SEGMENTS, NETS, TABLES, PLACES, PIN_MAPS, TREES, ROOTS, ENTERED, SHARED, USES, FUNCTIONS,
    UNFINISHED,
]
GROUPS = [
    ("slices", "whole", WHOLE, [case for group in ON_WHOLE for case in group]),
    ("slices", "ground", GROUND, PIPS + ENTERED_PIPS),
    ("one_clb", "lut", LUT, TABLED),
    ("joined_ends", "chain", CHAIN, CHAINED),
    ("joined_sinks", "stubs", STUBS, JOINED),
    ("grounds", "grounded", GROUNDS, GROUNDED),
]


def encoded(netlist, strings):
    return message.encode(SCHEMA, netlist | {"strList": strings})


def strings_of(netlists):
    """The names of netlists, each where it is first used: with one table of them files differ in few words."""
    names = {}
    for netlist in netlists:
        file = message.encode(SCHEMA, netlist)
        names |= dict.fromkeys(message.Reader(*message.read_schema(SCHEMA), file).strings)
    return list(names)


def changed(netlist, changes):
    netlist = copy.deepcopy(netlist)
    for change in changes:
        change(netlist)
    return netlist


def pieces(base, file):
    """A file as pieces of its base, `=N+M` for M words from word N on, and new words in hexadecimal digits."""
    words, new = [[it[8 * i:8 * i + 8] for i in range(len(it) // 8)] for it in (base, file)]
    told = []
    for what, start, end, at_new, to_new in SequenceMatcher(None, words, new, False).get_opcodes():
        if what == "equal":
            told.append(f"={start}+{end - start}")
        elif to_new > at_new:
            told.append(b"".join(new[at_new:to_new]).hex())
    return " ".join(told)


def read_device(name):
    text = TOP / "tools" / "cases" / f"{name}.device.json"
    return phys_rules.Device(phys_rules.read(str(text if text.exists() else CASES / "data" / name), "device"))


def judged(device, netlist):
    """The answers at both levels, or one where they are alike."""
    placed, routed = [
        phys_rules.judge(device, phys_rules.Netlist(netlist), level).removeprefix("no: ")
        for level in ("placed", "routed")
    ]
    return placed if placed == routed else f"{placed} / {routed}"


def printed(answer):
    """An answer as the program prints it."""
    told = [it if it == YES else f"no: {it}" for it in answer.split(" / ")]
    return "; routed ".join(told)


def main():
    if sys.argv[1:] not in ([], ["check"]):
        sys.exit(__doc__)
    lines, answers, files = [], [], {}
    for name, base, start, group in GROUPS:
        device = read_device(name)
        netlists = [start] + [changed(start, changes) for _, _, *changes in group]
        strings = strings_of(netlists)
        files[base], *changed_files = [encoded(netlist, strings) for netlist in netlists]
        for (shows, by_hand, *_), netlist, file in zip(group, netlists[1:], changed_files):
            answer = judged(device, netlist)
            assert answer == by_hand, f"{shows}: by hand {by_hand}, judged {answer}"
            lines.append(f"{shows} | {name} | {base} | {pieces(files[base], file)}")
            answers.append(f"{shows}: {printed(answer)}")
    head = "# What each shows, its device, and its netlist: a file, and the pieces that it is made of."
    wanted = {CASES / "data" / base: file.hex() + "\n" for base, file in files.items()}
    wanted[CASES / "data" / "cases"] = "\n".join([head + " Written by tools/rules_cases.py.", *lines]) + "\n"
    wanted[CASES / "stdout"] = "\n".join(answers) + "\n"
    write_or_check("rules_cases", wanted, len(answers))


if __name__ == "__main__":
    main()
