#!/usr/bin/env python3
"""The cases of the program ix_phys_cases, and what it must print.

    tools/phys_cases.py          write crates/ix_phys_cases/data/netlists and crates/ix_phys_cases/stdout
    tools/phys_cases.py check    compare both with what would be written

A case is the text of a netlist, encoded by message.py, and changes of single words of the file. The answers are made of
the texts, and the places of words out of their list are those that message.py tells: no answer is read from a file.
"""
import copy
import struct
import sys
from pathlib import Path

import message
from stored import write_or_check

TOP = Path(__file__).resolve().parent.parent
SCHEMA = TOP / "examples" / "schema" / "phys.capnp"
CASES = TOP / "crates" / "ix_phys_cases"
KINDS = ["bel-pin", "site-pin", "pip", "site-pip"]
TYPES = ["signal", "gnd", "vcc"]
# A field that is a tag is told with `_tag`.
TOLD = {("RouteBranch", "kind"): "kind_tag"}
# How many numbers a field that isn't a name may have.
MOST = {("PhysNet", "type"): 3, ("RouteBranch", "kind"): 4}


# What is told of a netlist.


def words(*names):
    return "".join(" " + (name or "") for name in names)


def branches(trees, depth):
    text = ""
    for tree in trees or []:
        kind = tree.get("kind", 0) % 65536
        names = [tree.get("first"), tree.get("second")] + ([] if kind == 1 else [tree.get("third")])
        text += f" ({depth} {KINDS[kind]}{words(*names)}{' forward' if tree.get('forward', 0) % 2 else ''})"
        text += branches(tree.get("branches"), depth + 1)
    return text


def netlist(value):
    text = "part" + words(value.get("part"))
    for cell in value.get("placements", []):
        text += "; cell" + words(cell.get("cellName"), cell.get("type"), cell.get("site"), cell.get("bel"))
        for pin in cell.get("pinMap", []):
            text += " (" + words(pin.get("cellPin"), pin.get("bel"), pin.get("belPin")) + " )"
    for net in value.get("physNets", []):
        text += f"; net{words(net.get('name'))} {TYPES[net.get('type', 0) % 65536]}{branches(net.get('sources'), 0)}"
        text += " stubs" + branches(net.get("stubs"), 0)
    for site in value.get("siteInsts", []):
        text += "; site" + words(site.get("site"), site.get("type"))
    for entry in value.get("properties", []):
        text += "; property" + words(entry.get("key"), entry.get("value"))
    return text


# The cases.


def forests(size):
    """All forests of so many branches, each a list of the forests below its roots."""
    if size == 0:
        return [[]]
    return [[below] + beside for first in range(size) for below in forests(first) for beside in forests(size - 1 - first)]


def grown(forest, numbers):
    """The branches of a forest, numbered in preorder, of all kinds in turn."""
    trees = []
    for below in forest:
        n = next(numbers)
        tree = {"kind": n % 4, "first": f"a{n}", "second": f"b{n}", "forward": n // 2 % 2}
        tree["third"] = 0 if n % 4 == 1 else f"c{n}"
        trees.append(dict(tree, branches=grown(below, numbers)))
    return trees


def shapes(size):
    """A net for each forest of so many branches as sources, with those in reverse order as stubs."""
    nets, all_forests = [], forests(size)
    for i, forest in enumerate(all_forests):
        sources = grown(forest, iter(range(size)))
        stubs = grown(all_forests[-1 - i], iter(range(10, 10 + size)))
        nets.append({"name": f"n{i}", "type": i % 3, "sources": sources, "stubs": stubs})
    return {"part": "dev", "physNets": nets}


PIN = {"cellPin": "A", "bel": "LUT", "belPin": "I0"}
BRANCH = {"kind": 2, "first": "T0", "second": "W0", "third": "W1", "forward": 1}
WHOLE = {
    "part": "dev",
    "placements": [
        {"cellName": "c0", "type": "LUT2", "site": "S0", "bel": "LUT", "pinMap": [PIN, dict(PIN, cellPin="B", belPin="I1")]},
        {"cellName": "c1", "type": "DFF", "site": "S1", "bel": "FF", "pinMap": [dict(PIN, cellPin="D", bel="FF", belPin="D")]},
    ],
    "physNets": [
        {"name": "n0", "type": 0, "sources": [dict(BRANCH, branches=[dict(BRANCH, kind=1, third=0, forward=0)])]},
        {"name": "n1", "type": 2, "sources": [], "stubs": [dict(BRANCH, kind=0), dict(BRANCH, kind=3, forward=0)]},
    ],
    "siteInsts": [{"site": "S0", "type": "SLICE"}, {"site": "S1", "type": "SLICE"}],
    "properties": [{"key": "k", "value": "v"}, {"key": "TABLE/S0/0", "value": "8"}],
}


def used(structs, kind, value, texts):
    """Adds the names of a struct to the texts, each where it is first used; that of a site pin's third isn't one."""
    fields = structs[kind]
    for field in [f for f in fields if f.is_data and f.is_name]:
        text = value.get(field.name)
        if isinstance(text, str) and text not in texts:
            texts.append(text)
    for field in [f for f in fields if f.form[5:-1] in structs]:
        for inner in value.get(field.name) or []:
            used(structs, field.form[5:-1], inner, texts)


def encoded(value):
    texts = []
    used(message.read_schema(SCHEMA)[0], "PhysNetlist", value, texts)
    return message.encode(SCHEMA, {"strList": texts, **value})


def places(file):
    """Where each field stands: its byte, its struct, its name and which struct of that name it is."""
    return message.Reader(*message.read_schema(SCHEMA), file).places


def with_word(file, at, number, form="<I"):
    changed = bytearray(file)
    struct.pack_into(form, changed, at, number)
    return bytes(changed)


def out_of_list():
    """A file for each field of each kind of struct that can be out of its list, at the first and the last that can."""
    file, structs = encoded(WHOLE), message.read_schema(SCHEMA)[0]
    strings = len(message.Reader(*message.read_schema(SCHEMA), file).strings)
    values = {kind: {f.name: f for f in fields} for kind, fields in structs.items()}
    data = {(kind, name, which): at for at, kind, name, which in places(file) if values[kind][name].is_data}
    for kind, name in sorted({(kind, name) for kind, name, _ in data}, key=lambda f: list(data).index((*f, 0))):
        if name == "forward":
            continue
        most = MOST.get((kind, name), strings)
        which = [w for k, n, w in data if (k, n) == (kind, name)]
        if name == "third":
            # That of a site pin isn't looked at.
            which = [w for w in which if struct.unpack_from("<I", file, data[kind, "kind", w])[0] % 65536 != 1]
        for w in sorted({which[0], which[-1]}):
            told = TOLD.get((kind, name), name)
            yield f"{kind}.{told} {w} is {most}", with_word(file, data[kind, name, w], most), f"I1 at {kind}.{told} {w}"


def cases():
    yield "an empty netlist", encoded({}), told({})
    yield "each kind of struct", encoded(WHOLE), told(WHOLE)
    for size in range(5):
        value = shapes(size)
        yield f"each forest of {size} branches", encoded(value), told(value)
    twice = copy.deepcopy(WHOLE)
    twice["strList"] = message.Reader(*message.read_schema(SCHEMA), encoded(WHOLE)).strings + ["c0", "W1"]
    file = encoded(twice)
    strings = len(twice["strList"])
    at = {(kind, name, which): at for at, kind, name, which in places(file)}
    file = with_word(file, at["CellPlacement", "cellName", 0], strings - 2)
    file = with_word(file, at["RouteBranch", "third", 0], strings - 1)
    yield "two entries of the string table have one text", file, told(WHOLE, "otherwise")
    high = copy.deepcopy(WHOLE)
    high["physNets"][0]["type"] = 65536 + 1
    high["physNets"][0]["sources"][0].update(kind=3 * 65536 + 2, forward=0xFFFFFFFE)
    yield "only the low bits of tags and Bools are looked at", encoded(high), told(high, "otherwise")
    file = encoded(WHOLE)
    at = {(kind, name, which): at for at, kind, name, which in places(file)}
    yield "the third name of a site pin isn't looked at", with_word(file, at["RouteBranch", "third", 1], 99), told(WHOLE, "otherwise")
    yield from out_of_list()
    two = with_word(with_word(file, at["Property", "value", 1], 99), at["RouteBranch", "first", 2], 99)
    yield "of two the first in reading order is told", two, "I1 at RouteBranch.first 2"
    deep = with_word(with_word(file, at["RouteBranch", "second", 1], 99), at["RouteBranch", "first", 2], 99)
    yield "what is below comes before what is beside", deep, "I1 at RouteBranch.second 1"
    # The branches of the first branch are the list that it stands in, whose tag is two words behind the pointer's place.
    pointer = at["RouteBranch", "branches", 0]
    tag = pointer - 32
    own = with_word(with_word(file, pointer, ((tag - pointer - 8) // 8 << 2 | 1) & 0xFFFFFFFF), pointer + 4, 7 | 4 << 3)
    yield "a list of branches that stands in itself", own, f"F7 at word 0:{pointer // 8 - 1}"
    faulty = with_word(own, at["PhysNet", "name", 0], 99)
    yield "a fault of the frame comes before an index", faulty, f"F7 at word 0:{pointer // 8 - 1}"


def told(value, how="as it was"):
    return f"{netlist(value)}; written {how}, reads again"


def chain():
    value = {"physNets": [{"name": "n", "sources": [dict(BRANCH, kind=1, third=0, forward=0)]}]}
    return "a chain of 100,000", encoded(value), 100_000


def main():
    lines, answers = [], []
    for shows, file, answer in cases():
        lines.append(f"{shows} | {file.hex()}")
        answers.append(f"{shows}: {answer}")
    shows, file, many = chain()
    lines.append(f"{shows} | {file.hex()} | {many}")
    answers.append(f"{shows}: {many} segments, the deepest at {many - 1}; written as it was, reads again")
    head = "# What each shows, its file, and for a chain how many branches it has. Written by tools/phys_cases.py.\n"
    wanted = {CASES / "data" / "netlists": head + "\n".join(lines) + "\n", CASES / "stdout": "\n".join(answers) + "\n"}
    if sys.argv[1:] not in ([], ["check"]):
        sys.exit(__doc__)
    write_or_check("phys_cases", wanted, len(answers))


if __name__ == "__main__":
    main()
