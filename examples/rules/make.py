#!/usr/bin/env python3
"""The examples of docs/RULES.md: writes them as files, and tries the program on them.

usage: make.py FOLDER [IXFLOW]

Each rule's example stands in the page as a block: a change of the small device, a design, changes of the small netlist,
or a file word by word. For a rule X the files are FOLDER/X.device, X.design and, for the rules of `check`, X.netlist.
The small ones, which break no rule, are small.device, small.design and small.netlist.

With IXFLOW, the path of the built program, each example is run, the line that is printed is shown, and a line that isn't
the page's is told. Status 0 says that all are the page's. A command that answers `bad words` isn't built yet: its
examples are shown as such, and count as neither.

Blocks of the page, by their word:

    frame     a file as hexadecimal digits, a word in a line, with a remark behind it; it is the device
    device    `set PATH VALUE`, `add PATH VALUE` and `drop PATH`, the value in JSON; a step of a path is a field's name,
              a number, or the name of a list's item
    design    a design, in the form that tools/design_text.py tells; the leaves are those of its own list and LEAVES
    netlist   items of a physical netlist, as the small netlist below is written. An item takes the place of the one of
              its name, behind `also` it stands beside it, and `no` drops the one of that name
    line      what is printed
    run       the words, where they aren't `flow` or `check` with the files; this example is tried as it stands
"""
import copy
import json
import re
import subprocess
import sys
from pathlib import Path

TOP = Path(__file__).resolve().parent.parent.parent
sys.path.insert(0, str(TOP / "tools"))
import design_text  # noqa: E402
import message  # noqa: E402
from many_clbs import site_type  # noqa: E402

PAGE = TOP / "docs" / "RULES.md"
SCHEMAS = TOP / "examples" / "schema"
IN, OUT = 0, 1
LOGIC, ROUTING, PORT = 0, 1, 2

# The types of the small device that the designs use as leaves, beside those of tools/design_text.py.
LEAVES = {"IBUF": "in I, out O", "OBUF": "in I, out O"}


# ---- the small device ----


SLICE = site_type(
    "SLICE",
    [("LUT", LOGIC, [("A1", IN), ("A2", IN), ("O", OUT)]),
     ("FF", LOGIC, [("C", IN), ("D", IN), ("Q", OUT)]),
     ("MUX", ROUTING, [("O", IN), ("X", IN), ("OUT", OUT)])],
    [("A1", IN), ("A2", IN), ("X", IN), ("C", IN), ("O", OUT), ("Q", OUT)],
    [("A1", ["A1.A1", "LUT.A1"]), ("A2", ["A2.A2", "LUT.A2"]), ("X", ["X.X", "MUX.X"]),
     ("C", ["C.C", "FF.C"]), ("O", ["LUT.O", "MUX.O", "O.O"]), ("D", ["MUX.OUT", "FF.D"]), ("Q", ["FF.Q", "Q.Q"])],
    [("MUX.O", "MUX.OUT"), ("MUX.X", "MUX.OUT")],
)
IOB = site_type(
    "IOB",
    [("PAD", LOGIC, [("PO", OUT), ("PI", IN)]),
     ("IBUF", LOGIC, [("I", IN), ("O", OUT)]),
     ("OBUF", LOGIC, [("I", IN), ("O", OUT)])],
    [("I", OUT), ("O", IN)],
    [("FROM_PAD", ["PAD.PO", "IBUF.I"]), ("I", ["IBUF.O", "I.I"]), ("O", ["O.O", "OBUF.I"]),
     ("TO_PAD", ["OBUF.O", "PAD.PI"])],
    [],
)


def tile_type(name, site, site_wires, others, pips, gnd):
    wires = site_wires + others
    return {
        "name": name,
        "siteTypes": [{"primaryType": site, "primaryPinsToTileWires": site_wires}],
        "wires": wires,
        "pips": [{"wire0": wires.index(a), "wire1": wires.index(b), "directional": 1} for a, b in pips],
        "constants": [{"constant": 1, "wires": [wires.index(wire)]} for wire in gnd],
    }


def mapping(cell, site, bel, pins):
    return {"cell": cell, "commonPins": [{
        "siteTypes": [{"siteType": site, "bels": [bel]}],
        "pins": [{"cellPin": cell_pin, "belPin": bel_pin} for cell_pin, bel_pin in pins],
    }]}


LINES = ["L0", "L1"]
DEVICE = {
    "name": "small",
    "siteTypeList": [SLICE, IOB],
    "tileTypeList": [
        tile_type("CLB", 0, ["A1", "A2", "X", "C", "O", "Q"], LINES + ["G"],
                  [(line, pin) for line in LINES for pin in ("A1", "A2", "X", "C")] + [("G", "A2")]
                  + [(pin, line) for pin in ("O", "Q") for line in LINES], ["G"]),
        tile_type("IO", 1, ["I", "O"], LINES,
                  [("I", line) for line in LINES] + [(line, "O") for line in LINES], []),
    ],
    "tileList": [
        {"name": "P0", "type": 1, "col": 0, "sites": [{"name": "SP0"}]},
        {"name": "C0", "type": 0, "col": 1, "sites": [{"name": "SC0"}]},
        {"name": "P1", "type": 1, "col": 2, "sites": [{"name": "SP1"}]},
    ],
    "wires": [{"tile": tile, "wire": line} for line in LINES for tile in ("P0", "C0", "P1")],
    "nodes": [{"wires": [0, 1, 2]}, {"wires": [3, 4, 5]}],
    "cellBelMap": [
        mapping("$PORT_IN", "IOB", "PAD", [("P", "PO")]),
        mapping("$PORT_OUT", "IOB", "PAD", [("P", "PI")]),
        mapping("IBUF", "IOB", "IBUF", [("I", "I"), ("O", "O")]),
        mapping("OBUF", "IOB", "OBUF", [("I", "I"), ("O", "O")]),
        mapping("FD", "SLICE", "FF", [("C", "C"), ("D", "D"), ("Q", "Q")]),
        mapping("LUT1", "SLICE", "LUT", [("I0", "A1"), ("O", "O")]),
        mapping("LUT2", "SLICE", "LUT", [("I0", "A1"), ("I1", "A2"), ("O", "O")]),
    ],
    "packages": [{"name": "flat", "packagePins": [
        {"packagePin": "1", "siteTag": 1, "site": "SP0"},
        {"packagePin": "2", "siteTag": 1, "site": "SP1"},
    ]}],
    "constants": {"gndCellType": "GND", "gndCellPin": "G", "vccCellType": "VCC", "vccCellPin": "P"},
    "lutDefinitions": {
        "lutCells": [
            {"equation": 1, "cell": f"LUT{k}", "inputPins": [f"I{i}" for i in range(k)], "initParam": "INIT"}
            for k in (1, 2)
        ],
        "lutElements": [{"site": "SLICE", "luts": [{"width": 4, "bels": [
            {"lowBit": 0, "highBit": 3, "name": "LUT", "inputPins": ["A1", "A2"], "outputPin": "O"}
        ]}]}],
    },
}


# ---- the small design, and the netlist of it ----

DESIGN = """
cell top: in a, out z
  has ia IBUF
  has u LUT1 INIT=2'h1
  has oz OBUF
  net a: a ia.I
  net n: ia.O u.I0
  net m: u.O oz.I
  net z: oz.O z
"""

NETLIST = """
site SP0 IOB
site SC0 SLICE
site SP1 IOB
cell $port/a $PORT_IN on SP0/PAD: P=PAD/PO
cell $port/z $PORT_OUT on SP1/PAD: P=PAD/PI
cell ia IBUF on SP0/IBUF: I=IBUF/I O=IBUF/O
cell u LUT1 on SC0/LUT: I0=LUT/A1 O=LUT/O
cell oz OBUF on SP1/OBUF: I=OBUF/I O=OBUF/O
net a
  bel-pin SP0 PAD PO
    bel-pin SP0 IBUF I
net n
  bel-pin SP0 IBUF O
    site-pin SP0 I
      pip P0 I L0
        pip C0 L0 A1
          site-pin SC0 A1
            bel-pin SC0 LUT A1
net m
  bel-pin SC0 LUT O
    site-pin SC0 O
      pip C0 O L1
        pip P1 L1 O
          site-pin SP1 O
            bel-pin SP1 OBUF I
net z
  bel-pin SP1 OBUF O
    bel-pin SP1 PAD PI
property TABLE/SC0/0 0000000000000005
"""

KINDS = ["bel-pin", "site-pin", "pip", "site-pip"]
LISTS = {"site": "siteInsts", "cell": "placements", "net": "physNets", "property": "properties"}
NAMES = {"site": "site", "cell": "cellName", "net": "name", "property": "key"}


def item(word, head, rest):
    """An item of a netlist: its first line, and the lines below it."""
    if word == "site":
        return dict(zip(("site", "type"), head.split()))
    if word == "property":
        return dict(zip(("key", "value"), head.split()))
    if word == "cell":
        name, kind, site, bel, pins = re.fullmatch(r"(\S+) (\S+) on (\S+)/(\S+):(.*)", head).groups()
        maps = [re.fullmatch(r"(\S+)=(\S+)/(\S+)", pin).groups() for pin in pins.split()]
        return {"cellName": name, "type": kind, "site": site, "bel": bel,
                "pinMap": [dict(zip(("cellPin", "bel", "belPin"), it)) for it in maps]}
    name, _, kind = head.partition(" ")
    net = {"name": name, "type": ["", "gnd", "vcc"].index(kind), "sources": [], "stubs": []}
    above = [(-1, net["sources"])]
    for line in rest:
        depth = len(line) - len(line.lstrip())
        words = line.split()
        if words[0] == "stub":
            above, words = [(-1, net["stubs"])], words[1:]
        while above[-1][0] >= depth:
            above.pop()
        names = dict(zip(("first", "second", "third"), words[1:]))
        branch = {"kind": KINDS.index(words[0]), **names, "forward": int(words[0] == "pip"), "branches": []}
        above[-1][1].append(branch)
        above.append((depth, branch["branches"]))
    return net


def changed_netlist(netlist, lines):
    """A netlist with the items of these lines."""
    netlist = copy.deepcopy(netlist)
    heads = [i for i, line in enumerate(lines) if not line.startswith(" ")] + [len(lines)]
    for start, end in zip(heads, heads[1:]):
        how, line = re.fullmatch(r"(?:(also|no) )?(.*)", lines[start]).groups()
        word, _, head = line.partition(" ")
        found, name = netlist[LISTS[word]], NAMES[word]
        new = {name: head} if how == "no" else item(word, head, lines[start + 1:end])
        at = next((i for i, it in enumerate(found) if it[name] == new[name]), None)
        if how == "no":
            del found[at]
        elif how == "also" or at is None:
            found.append(new)
        else:
            found[at] = new
    return netlist


# ---- files ----


def step(inner, word):
    """The key of a field, the number of an item, or the number of the item with this name."""
    if isinstance(inner, dict):
        return word
    return int(word) if word.isdigit() else next(i for i, it in enumerate(inner) if it.get("name") == word)


def changed_device(lines):
    device = copy.deepcopy(DEVICE)
    for line in lines:
        what, path, *value = line.split(" ", 2)
        *steps, last = path.split("/")
        inner = device
        for word in steps:
            inner = inner[step(inner, word)]
        last = step(inner, last)
        if what == "set":
            inner[last] = json.loads(value[0])
        elif what == "add":
            inner[last].append(json.loads(value[0]))
        elif what == "drop":
            del inner[last]
        else:
            raise ValueError(line)
    return device


def as_frame(lines):
    digits = [re.match(r"(?:[0-9a-f]{2,8} ?){1,4}(?= |$)", line)[0] for line in lines]
    return bytes.fromhex("".join(digits).replace(" ", ""))


def as_design(lines):
    text = design_text.Text([line for line in lines if line.strip()])
    return message.encode(SCHEMAS / "netlist.capnp", text.value)


def files_of(blocks):
    """The files of an example: device, design and netlist."""
    device = changed_device(blocks.get("device", []))
    small = changed_netlist({"part": "small", **{name: [] for name in LISTS.values()}}, NETLIST.split("\n")[1:-1])
    netlist = changed_netlist(small, blocks.get("netlist", []))
    return {
        "device": as_frame(blocks["frame"]) if "frame" in blocks else message.encode(SCHEMAS / "device.capnp", device),
        "design": as_design(blocks.get("design") or DESIGN.split("\n")),
        "netlist": message.encode(SCHEMAS / "phys.capnp", netlist),
    }


# ---- the page ----


def examples():
    """The examples of the page by their rules: the lines of each block, by its word."""
    found, rule, block = {}, None, None
    for line in PAGE.read_text(encoding="utf8").split("\n"):
        heading = re.match(r"### (\w+)", line)
        fence = re.match(r"```(\w*)", line)
        if heading and block is None:
            rule = found.setdefault(heading[1], {})
        elif fence and block is None:
            block = rule.setdefault(fence[1], []) if rule is not None else []
        elif fence:
            block = None
        elif block is not None:
            block.append(line)
    return {rule: blocks for rule, blocks in found.items() if "line" in blocks}


def words_of(rule, blocks, folder):
    """The words that an example is run with."""
    named = {kind: str(folder / f"{rule}.{kind}") for kind in ("device", "design", "netlist")}
    out = str(folder / "routed")
    if "run" in blocks:
        words = blocks["run"][0].split()[1:]
        return [{"DEVICE": named["device"], "DESIGN": named["design"], "ROUTED": out}.get(it, it) for it in words]
    if rule[0] in "LE":
        return ["check", named["device"], named["design"], named["netlist"]]
    return ["flow", named["device"], named["design"], out]


def main(words):
    if len(words) not in (1, 2):
        sys.exit(__doc__)
    design_text.LEAVES.update(LEAVES)
    folder = Path(words[0])
    folder.mkdir(parents=True, exist_ok=True)
    found = examples()
    for rule, blocks in {"small": {}, **found}.items():
        for kind, content in files_of(blocks).items():
            if kind != "netlist" or rule[0] in "LE" or rule == "small":
                (folder / f"{rule}.{kind}").write_bytes(content)
    if len(words) == 1:
        return 0
    wrong = later = 0
    for rule, blocks in found.items():
        wanted = blocks["line"][0]
        run = subprocess.run([words[1], *words_of(rule, blocks, folder)], capture_output=True, text=True)
        printed = run.stdout.removesuffix("\n")
        print(f"{rule}: {printed}")
        if printed == wanted:
            continue
        if printed == "bad words":
            later += 1
        else:
            wrong += 1
            print(f"{rule}: the page has `{wanted}`")
    print(f"{len(found)} examples, {later} of commands that aren't built, {wrong} not as the page says")
    return 1 if wrong else 0


if __name__ == "__main__":
    sys.exit(main(sys.argv[1:]))
