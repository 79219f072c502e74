#!/usr/bin/env python3
"""The cases of the program ix_logic_cases, and what it must print.

    tools/logic_cases.py             write crates/ix_logic_cases/data/netlists and crates/ix_logic_cases/stdout
    tools/logic_cases.py check       compare both with what would be written
    tools/logic_cases.py tell FILE   print what `ix_logic_cases tell FILE` must print

A case is the text of a netlist, encoded by message.py, or changes of single words of the file of the last such case. The
answers are worked out by logic_reading.py from the bytes; where a case breaks one thing on purpose, what must be told of
it stands beside it and is compared.
"""
import itertools
import struct
import subprocess
import sys
from pathlib import Path

import logic_reading
import message
from stored import write_or_check

TOP = Path(__file__).resolve().parent.parent
SCHEMA = TOP / "examples" / "schema" / "netlist.capnp"
CASES = TOP / "crates" / "ix_logic_cases"
STRUCTS, ROOT = message.read_schema(SCHEMA)
MOST = 0xFFFFFFFF


def encoded(value):
    return message.encode(SCHEMA, value)


def answer(file, names=()):
    return logic_reading.reading(STRUCTS, ROOT, file, names)


class Base:
    """A netlist whose words are changed."""

    def __init__(self, value):
        self.value, self.file, self.at, self.elements = value, encoded(value), {}, {}
        self.strings, self.ports = len(value["strList"]), len(value.get("portList", []))
        self.declarations, self.instances = len(value.get("cellDecls", [])), len(value.get("instList", []))
        for at, kind, field, which in message.Reader(STRUCTS, ROOT, self.file).places:
            if (kind, field, which) in self.at:
                self.elements.setdefault((kind, field, which), []).append(at)
            else:
                self.at[kind, field, which] = at

    def data(self, kind, which, **numbers):
        """Changes of data fields."""
        return [(self.at[kind, field, which], number) for field, number in numbers.items()]

    def pointer(self, kind, field, which, word):
        """The change of a pointer to this word."""
        at = self.at[kind, field, which]
        return [(at, word & MOST), (at + 4, word >> 32)]

    def word(self, at):
        return struct.unpack_from("<Q", self.file, at)[0]

    def place(self, kind, field, which):
        return f"word 0:{self.at[kind, field, which] // 8 - 1}"

    def target(self, at):
        """Where the object behind a pointer begins."""
        return at + 8 + 8 * (struct.unpack_from("<i", self.file, at)[0] >> 2)

    def changed(self, changes):
        file = bytearray(self.file)
        for at, number in changes:
            struct.pack_into("<I", file, at, number)
        return bytes(file)


# Three levels, with buses in both directions, and properties of each kind at each place for them. By numbers: the
# declarations are top, block, leaf; the ports of top are 0 and 1, of block 2 to 4, of leaf 5 and 6; the instances of top
# are 0 and 1, of block 2 and 3.
STRINGS = ["top", "block", "leaf", "a", "z", "bus", "i", "o", "b0", "b1", "u0", "u1", "n0", "n1", "INIT", "16'h6996", "KEEP"]


def pin(port, inst=None, bit=None):
    found = {"port": port}
    if bit is not None:
        found.update(busTag=1, idx=bit)
    if inst is not None:
        found.update(ownerTag=1, inst=inst)
    return found


def entry(key, tag, value):
    return {"key": key, "tag": tag, "value": value}


TEXT, NUMBER, TRUE = entry("INIT", 0, "16'h6996"), entry("INIT", 1, 77), entry("KEEP", 2, 1)
WHOLE = {
    "strList": STRINGS,
    "name": "design",
    "propMap": {"entries": [TEXT, NUMBER, TRUE, entry("KEEP", 2, 0)]},
    "topInst": {"name": "top", "cell": 0, "propMap": {"entries": [TRUE]}},
    "cellDecls": [{"name": "top", "ports": [0, 1]}, {"name": "block", "ports": [2, 3, 4]}, {"name": "leaf", "ports": [5, 6]}],
    "portList": [
        {"name": "a", "dir": 0, "kind": 0},
        {"name": "bus", "dir": 1, "kind": 1, "busStart": 3, "busEnd": 0},
        {"name": "a", "dir": 0, "kind": 0},
        {"name": "z", "dir": 1, "kind": 0, "busStart": 9, "busEnd": 4},
        {"name": "bus", "dir": 2, "kind": 1, "busStart": 0, "busEnd": 2},
        {"name": "i", "dir": 0, "kind": 0, "propMap": {"entries": [NUMBER]}},
        {"name": "o", "dir": 1, "kind": 1, "busStart": 7, "busEnd": 7},
    ],
    "instList": [
        {"name": "b0", "cell": 1},
        {"name": "b1", "cell": 1, "propMap": {"entries": [TRUE, TEXT]}},
        {"name": "u0", "cell": 2},
        {"name": "u1", "cell": 2},
    ],
    "cellList": [
        {"index": 0, "insts": [0, 1], "nets": [
            {"name": "n0", "portInsts": [pin(0), pin(2, 0)]},
            {"name": "n1", "portInsts": [pin(1, None, 3), pin(3, 1), pin(4, 0, 2)]},
        ]},
        {"index": 1, "insts": [2, 3], "nets": [
            {"name": "n0", "portInsts": [pin(2), pin(5, 2)]},
            {"name": "n1", "portInsts": [pin(6, 2, 0), pin(5, 3), pin(4, None, 1)]},
            {"name": "z", "portInsts": []},
        ]},
    ],
}
# What a number of this field must be below.
BELOW = {
    ("Entry", "key"): "strings", ("Entry", "tag"): 3, ("Entry", "value"): "strings",
    ("CellInstance", "name"): "strings", ("CellInstance", "cell"): "declarations",
    ("CellDeclaration", "name"): "strings", ("CellDeclaration", "ports"): "ports",
    ("Port", "name"): "strings", ("Port", "dir"): 3, ("Port", "kind"): 2,
    ("Cell", "index"): "declarations", ("Cell", "insts"): "instances", ("Net", "name"): "strings",
    ("PortInstance", "port"): "ports", ("PortInstance", "busTag"): 2, ("PortInstance", "ownerTag"): 2,
    ("PortInstance", "inst"): "instances",
}


def told_at(kind, field, which):
    return f"I1 at {kind}.{logic_reading.TOLD.get((kind, field), field)} {which}"


def number_at(base, at):
    return struct.unpack_from("<I", base.file, at)[0]


def out_of_lists(base):
    """The changes of each number to the first that is out of its list, in the first and the last struct that has one."""
    for (kind, field), below in BELOW.items():
        below = below if isinstance(below, int) else getattr(base, below)
        which = [w for k, f, w in base.at if (k, f) == (kind, field)]
        if (kind, field) == ("Entry", "value"):
            which = [w for w in which if number_at(base, base.at[kind, "tag", w]) == 0]
        if (kind, field) == ("PortInstance", "inst"):
            which = [w for w in which if number_at(base, base.at[kind, "ownerTag", w]) == 1]
        in_list = (kind, field) in (("CellDeclaration", "ports"), ("Cell", "insts"))
        for w in sorted({which[0], which[-1]}):
            at = base.elements[kind, field, w][-1] if in_list else base.at[kind, field, w]
            yield f"{kind}.{field} {w} is {below}", [(at, below)], told_at(kind, field, w)


# The port instances of WHOLE, by number: 0 and 1 in n0 of the top, 2 to 4 in its n1; 5 and 6 in n0 of the block, 7 to 9 in
# its n1. Those of an instance are 1, 3, 4, 6, 7, 8; those of a bus 2, 4, 7, 9.
FITS = [
    ("of a bus of four bits the last", 2, dict(idx=3)),
    ("of a bus whose first bit has the greater number, the first", 2, dict(idx=0)),
    ("of a bus of three bits the last", 4, dict(idx=2)),
    ("of a bus of one bit that one", 7, dict(idx=0)),
    ("a single bit's index isn't looked at", 0, dict(idx=99)),
    ("an owner that is the cell itself has no instance, so that isn't looked at", 0, dict(inst=99)),
    ("of tags only the low half is looked at", 4, dict(busTag=0x10001, ownerTag=0xFFFF0001)),
    ("another instance of the cell, of the same declaration", 1, dict(inst=1)),
]
BREAKS = [
    ("a bus' width as index", 2, dict(idx=4), "idx"),
    ("the width of a bus that begins at 0", 4, dict(idx=3), "idx"),
    ("the width of a bus of one bit", 7, dict(idx=1), "idx"),
    ("the number of a bus' bit is no index", 7, dict(idx=7), "idx"),
    ("the greatest index", 9, dict(idx=MOST), "idx"),
    ("a bit that is named as one of a bus", 0, dict(busTag=1), "busTag"),
    ("a bus that is named as a bit", 2, dict(busTag=0), "busTag"),
    ("a bus tag that isn't there, at a bit", 1, dict(busTag=2), "busTag"),
    ("a bus tag that isn't there, at a bus", 4, dict(busTag=2), "busTag"),
    ("an instance's pin by a port of the cell itself", 1, dict(port=0), "port"),
    ("the cell's own pin by a port of its instance", 0, dict(port=2), "port"),
    ("a pin by a port of another instance", 6, dict(port=2), "port"),
    ("a cell's own port that the instance's declaration has too is missed at another owner", 5, dict(ownerTag=1, inst=2), "port"),
    ("an instance of another cell, with the port", 1, dict(inst=2, port=5), "inst"),
    ("an instance of another cell, with the port of a bus", 4, dict(inst=3, port=6, idx=0), "inst"),
    ("an instance that isn't there, with a port of another cell", 1, dict(inst=4, port=5), "inst"),
    ("an owner tag that isn't there, with a port of another cell", 1, dict(ownerTag=2, port=5), "ownerTag"),
    ("a lacked port comes before an instance of another cell", 1, dict(inst=2), "port"),
    ("a lacked port comes before a bus tag that doesn't fit", 0, dict(port=4), "port"),
    ("a lacked port comes before an index past the bus", 2, dict(port=4, idx=9), "port"),
    ("a bus tag that doesn't fit comes before an instance of another cell", 1, dict(busTag=1, inst=2, port=5), "busTag"),
    ("a bus tag that doesn't fit comes before an index past the bus", 2, dict(busTag=2, idx=9), "busTag"),
    ("a bus tag that doesn't fit comes before an owner tag", 1, dict(busTag=1, ownerTag=2), "busTag"),
    ("an index past the bus comes before an owner tag", 4, dict(idx=3, ownerTag=2), "idx"),
    ("an index past the bus comes before an instance", 4, dict(idx=3, inst=4), "idx"),
    ("an owner tag comes before an instance", 4, dict(ownerTag=2, inst=4), "ownerTag"),
    ("all are broken", 4, dict(port=7, busTag=2, idx=9, ownerTag=2, inst=4), "port"),
    ("all but the port are broken", 4, dict(busTag=2, idx=9, ownerTag=2, inst=4), "busTag"),
]


def in_order(base):
    """Two numbers out of their lists: the first in reading order is told."""
    order = [("Entry", "value", 0), ("CellInstance", "cell", 0), ("Entry", "key", 4), ("CellDeclaration", "name", 2),
             ("Port", "dir", 0), ("Port", "kind", 5), ("Entry", "tag", 5), ("CellInstance", "name", 2), ("Entry", "key", 7),
             ("CellInstance", "cell", 4), ("Cell", "index", 0), ("Net", "name", 0), ("PortInstance", "busTag", 1),
             ("Net", "name", 1), ("PortInstance", "port", 2), ("Cell", "index", 1)]
    for first, later in itertools.pairwise(order):
        changes = [(base.at[place], MOST) for place in (first, later)]
        yield f"{first[0]}.{first[1]} {first[2]} comes before {later[0]}.{later[1]} {later[2]}", changes, told_at(*first)
    late = [(base.elements["Cell", "insts", 0][1], MOST), (base.at["Net", "name", 0], MOST)]
    yield "the instances of a cell come before its nets", late, told_at("Cell", "insts", 0)
    late = [(base.elements["CellDeclaration", "ports", 0][0], MOST), (base.at["CellDeclaration", "name", 1], MOST)]
    yield "the ports of a declaration come before the next one", late, told_at("CellDeclaration", "ports", 0)


def far(segment, word, wide=0):
    return 2 | wide << 2 | word << 3 | segment << 32


def frame_faults(base):
    """A pointer of a field that breaks each rule."""
    at, file = base.at, base.file
    words = len(file) // 8 - 1

    def fault(shows, rule, kind, field, which, word):
        return shows, base.pointer(kind, field, which, word), f"{rule} at {base.place(kind, field, which)}"

    def list_at(kind, field, which):
        return base.word(at[kind, field, which])

    yield fault("nets past the segment", "F3", "Cell", "nets", 1, list_at("Cell", "nets", 1) + (words << 2))
    yield fault("a list of instances whose words pass the segment", "F3", "Netlist", "instList", 0, 1 | 7 << 32 | words << 35)
    yield fault("properties in a segment that isn't there", "F3", "Port", "propMap", 5, far(1, 0))
    yield fault("a list in the place of the top", "F4", "Netlist", "topInst", 0, list_at("Netlist", "cellDecls", 0))
    yield fault("numbers in the place of nets", "F4", "Cell", "nets", 0, list_at("Cell", "insts", 0))
    yield fault("nets in the place of numbers", "F4", "Cell", "insts", 0, list_at("Cell", "nets", 0))
    yield fault("structs in the place of texts", "F4", "Netlist", "strList", 0, list_at("Netlist", "cellDecls", 0))
    yield fault("a capability in the place of properties", "F5", "CellInstance", "propMap", 2, 3)
    yield fault("a name without a NUL", "F6", "Netlist", "name", 0, list_at("Netlist", "name", 0) - (1 << 35))
    text = base.target(at["Netlist", "name", 0])
    yield "a name that isn't UTF-8", [(text, 0xFFFFFFFF)], f"F6 at {base.place('Netlist', 'name', 0)}"
    table = base.target(at["Netlist", "strList", 0])
    text = base.target(table + 8)
    yield "a text of the string table that isn't UTF-8", [(text, 0xC0)], f"F6 at word 0:{table // 8}"
    tag = base.target(at["Cell", "nets", 0])
    yield "a list that has more elements than its words hold", [(tag, 3 << 2)], f"F8 at {base.place('Cell', 'nets', 0)}"
    yield "a list whose tag is no struct's", [(tag, 2 << 2 | 1)], f"F8 at {base.place('Cell', 'nets', 0)}"
    pins = base.target(at["Net", "portInsts", 1])
    yield "more pins without words than may be read", [(pins, 2 * words << 2), (pins + 4, 0)], \
        f"F7 at {base.place('Net', 'portInsts', 1)}"


def with_two_faults(base):
    late = base.pointer("Cell", "nets", 1, 3)
    told = f"F5 at {base.place('Cell', 'nets', 1)}"
    yield "a fault of the frame comes before an index", late + base.data("Entry", 0, key=MOST), told
    yield "of two faults of the frame the first in reading order", late + base.pointer("CellInstance", "propMap", 1, 3), \
        f"F5 at {base.place('CellInstance', 'propMap', 1)}"
    early = base.pointer("Netlist", "name", 0, 3)
    table = base.pointer("Netlist", "strList", 0, 3)
    yield "the string table comes before the name", early + table, f"F5 at {base.place('Netlist', 'strList', 0)}"


def keyed(*entries):
    """A netlist of one declaration with these properties."""
    return {"strList": ["k"], "cellDecls": [{}], "propMap": {"entries": list(entries)}}


def joined(value, *pins, **cell):
    """The netlist with one more cell, whose one net joins these pins."""
    return dict(value, cellList=value.get("cellList", []) + [dict(cell, nets=[{"portInsts": list(pins)}])])


def small_ones():
    """Netlists of few structs, as text: what each shows, its names before, its text and what is told if it is a fault."""
    one = {"strList": ["top"], "cellDecls": [{}]}
    yield "nothing at all", "", {"strList": []}, "I1 at CellInstance.name 0"
    yield "a string and no declaration", "", {"strList": ["top"]}, "I1 at CellInstance.cell 0"
    yield "a declaration and no string", "", {"strList": [], "cellDecls": [{}]}, "I1 at CellInstance.name 0"
    yield "a string and a declaration", "", one, None
    yield "an empty text", "", {"strList": [""], "cellDecls": [{}], "name": ""}, None
    yield "the name is one of the texts", "", dict(one, strList=["top", "x"], name="x"), None
    yield "names that are there keep their numbers", "x leaf top", dict(one, strList=["top", "n", "x"], name="d"), None
    yield "the name is there before", "d", dict(one, strList=["top", "n"], name="d"), None
    twice = {"strList": ["top", "x", "top"], "topInst": {"name": 2}, "cellDecls": [{"name": 0}, {"name": 1}]}
    yield "two entries of the table have one text", "", twice, None
    unused = keyed(entry("k", 1, 1), entry("k", 2, 3))
    yield "only a text value of a property uses a string number", "", unused, None
    yield "a text value uses it", "", keyed(entry("k", 1, 1), entry("k", 0, 1)), "I1 at Entry.value 1"
    several = keyed(entry("k", 1, MOST), entry("k", 1, 0), entry("k", 1, 7))
    yield "several properties of one key are kept", "", several, None
    low = keyed(entry("k", 0x50002, MOST - 1), entry("k", 2, 3))
    yield "of a Bool only the lowest bit is looked at, of a tag the low half", "", low, None
    low = dict(one, portList=[{"dir": 0x70002, "kind": 0x80001}])
    yield "of an enumerant only the low half is looked at", "", low, None
    wide = dict(one, cellDecls=[{"ports": [0]}], portList=[{"kind": 1, "busEnd": MOST}])
    yield "the widest bus", "", joined(wide, pin(0, None, MOST)), None
    bare = dict(wide, cellDecls=[{}])
    yield "a declaration without ports has none", "", joined(bare, pin(0, None, 0)), "I1 at PortInstance.port 0"
    again = dict(wide, cellDecls=[{"ports": [0, 0]}])
    yield "a port twice in a declaration", "", joined(again, pin(0, None, 5)), None
    yield "a cell that contains itself", "", dict(one, instList=[{}], cellList=[{"insts": [0, 0]}]), None
    yield "two cells of one declaration", "", dict(one, cellList=[{}, {}]), None
    shared = dict(one, cellDecls=[{}, {}], instList=[{"cell": 1}], cellList=[{"insts": [0]}, {"index": 1, "insts": [0]}])
    yield "an instance of two cells", "", shared, None
    mixed = dict(one, cellDecls=[{}, {"ports": [2, 0, 1]}], portList=[{}] * 3, instList=[{"cell": 1}] * 3)
    every = [pin(port, inst) for inst in (0, 2, 1) for port in (0, 1, 2)]
    yield "ports and instances in any order", "", joined(mixed, *every, insts=[2, 0, 1]), None
    yield "an instance between two of the cell's", "", joined(mixed, *every, insts=[2, 0]), "I1 at PortInstance.inst 6"
    before = joined(dict(mixed, cellList=[{"insts": [1]}]), pin(0, 1), insts=[2, 0])
    yield "an instance of the cell before", "", before, "I1 at PortInstance.inst 0"


def split(file, segments, mode):
    command = [TOP / "tools" / "split_segments.py", str(segments), mode]
    return subprocess.run([sys.executable, *command], input=file, stdout=subprocess.PIPE, check=True).stdout


TINY = {
    "strList": ["t", "u"], "name": "d",
    "cellDecls": [{"ports": [1]}, {"name": "u", "ports": [0]}], "portList": [{"kind": 1, "busEnd": 1}, {"name": "u"}],
    "instList": [{"cell": 1, "propMap": {"entries": [entry("u", 0, "t")]}}],
    "cellList": [{"insts": [0], "nets": [{"portInsts": [pin(1), pin(0, 0, 1)]}]}],
}


def all_cases():
    """What each shows, the names before, the file if it is a new one, changes, and what must be told if it is a fault."""
    whole = Base(WHOLE)
    yield "each kind of struct, in three levels", "", whole.file, [], None
    for shows, which, numbers in FITS:
        yield shows, "", None, whole.data("PortInstance", which, **numbers), None
    for shows, which, numbers, field in BREAKS:
        yield shows, "", None, whole.data("PortInstance", which, **numbers), told_at("PortInstance", field, which)
    for shows, changes, told in itertools.chain(out_of_lists(whole), in_order(whole)):
        yield shows, "", None, changes, told
    for shows, changes, told in itertools.chain(frame_faults(whole), with_two_faults(whole)):
        yield shows, "design block", None, changes, told
    zero = whole.pointer("Netlist", "topInst", 0, 0)
    yield "a top that isn't given is one of zeros", "", None, zero, None
    later = zero + whole.data("CellInstance", 1, cell=3)
    yield "it counts as an instance", "", None, later, told_at("CellInstance", "cell", 1)
    ports = whole.target(whole.at["Netlist", "portList", 0])
    yield "ports with a word of data", "", None, [(ports + 4, 1 | 3 << 16)], f"F4 at {whole.place('Port', 'kind', 1)}"
    yield "ports without pointers", "", None, [(ports + 4, 4)], None
    instances = whole.target(whole.at["Netlist", "instList", 0])
    yield "instances without data", "", None, [(instances + 4, 2 << 16)], f"F4 at {whole.place('CellInstance', 'name', 2)}"
    yield "a cut file", "", whole.file[:-4], [], "F1 at word 0:0"
    yield "a segment without a word", "", bytes(8), [], "F3 at word 0:0"
    yield "a root of zero", "", struct.pack("<4I", 0, 1, 0, 0), [], "I1 at CellInstance.name 0"
    for shows, names, value, told in small_ones():
        yield shows, names, encoded(value), [], told
    for segments, mode in ((1, "two"), (2, "one"), (3, "two"), (7, "mixed")):
        yield f"{segments} segments, pads '{mode}'", "", split(encoded(TINY), segments, mode), [], None
    tiny = Base(TINY)
    yield "a netlist of few words", "t", tiny.file, [], None
    for at in range(8, len(tiny.file), 4):
        number = number_at(tiny, at)
        for changed in (number + 1 & MOST, number ^ MOST):
            yield f"word {at // 4} is {changed}", "t", None, [(at, changed)], "any"


def lines_and_answers():
    lines, answers, last = [], [], b""
    for shows, names, file, changes, told in all_cases():
        last = file or last
        changed = bytearray(last)
        for at, number in changes:
            struct.pack_into("<I", changed, at, number)
        found = answer(bytes(changed), names.split())
        is_told = found.startswith("netlist ") if told is None else told in ("any", found.split(";")[0])
        if not is_told:
            sys.exit(f"logic_cases: {shows}: wanted {told}, worked out {found}")
        lines.append(f"{shows} | {names} | {file.hex() if file else ''} | {' '.join(f'{a}:{n}' for a, n in changes)}".rstrip())
        answers.append(f"{shows}: {found}")
    return lines, answers


def main():
    if len(sys.argv) == 3 and sys.argv[1] == "tell":
        print(answer(Path(sys.argv[2]).read_bytes()))
        return
    if sys.argv[1:] not in ([], ["check"]):
        sys.exit(__doc__)
    lines, answers = lines_and_answers()
    head = "# What each shows, the names before, its file, and changes of words. Written by tools/logic_cases.py.\n"
    wanted = {CASES / "data" / "netlists": head + "\n".join(lines) + "\n", CASES / "stdout": "\n".join(answers) + "\n"}
    write_or_check("logic_cases", wanted, len(answers))


if __name__ == "__main__":
    main()
