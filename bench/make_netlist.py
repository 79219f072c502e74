#!/usr/bin/env python3
"""Writes a logical netlist.

usage: make_netlist.py SHAPE SIZE FILE

SHAPE is `flat` (SIZE instances of a LUT in one cell, and a net from each to two others), `blocks` (SIZE instances of one cell
of 1,049 LUTs in a row) or `levels` (SIZE blocks, each of four
lanes of eight flip-flops, eight LUT4 and eight LUT2, with buffers at two buses and a clock: with 16 blocks it has the shape
of the program's demo 16, 1,602 cells in three levels).
"""
import struct
import sys
from pathlib import Path

sys.path.append(str(Path(__file__).resolve().parent.parent / "tools"))
import message  # noqa: E402
from objects import Objects  # noqa: E402

SCHEMA = Path(__file__).resolve().parent.parent / "examples" / "schema" / "netlist.capnp"


def flat(size):
    """A cell of so many instances of LUT2; the net of each leads to an input of the next one and of one farther on."""
    texts = ["top", "LUT2", "I0", "I1", "O"]
    texts += [f"cell_{i}" for i in range(size)] + [f"net_{i}" for i in range(size)]
    objects = Objects(8)
    slots = [8 + 8 * i for i in range(8)]
    objects.texts(slots[3], texts)
    declarations = objects.structs(slots[4], 2, 1, 1)
    struct.pack_into("<I", objects.words, declarations + 16, 1)
    objects.numbers(declarations + 24, [0, 1, 2])
    ports = objects.structs(slots[5], 3, 3, 1)
    for i in range(3):
        struct.pack_into("<2I", objects.words, ports + 32 * i, 2 + i, i // 2)
    instances = objects.structs(slots[6], size, 1, 1)
    for i in range(size):
        struct.pack_into("<2I", objects.words, instances + 16 * i, 5 + i, 1)
    cell = objects.structs(slots[7], 1, 1, 2)
    objects.numbers(cell + 8, range(size))
    nets = objects.structs(cell + 16, size, 1, 1)
    for i in range(size):
        struct.pack_into("<I", objects.words, nets + 16 * i, 5 + size + i)
        pins = objects.structs(nets + 16 * i + 8, 3, 3, 0)
        sinks = (i + 1) % size, i * 7919 % size
        struct.pack_into("<18I", objects.words, pins, 2, 0, 0, 1, i, 0, 0, 0, 0, 1, sinks[0], 0, 1, 0, 0, 1, sinks[1], 0)
    return objects.file()


class Levels:
    """The three levels, as the text of a message."""

    def __init__(self):
        self.texts, self.ports, self.declarations, self.instances, self.cells = {}, [], [], [], []

    def name(self, text):
        return self.texts.setdefault(text, len(self.texts))

    def declare(self, name, **ports):
        """A declaration with ports, each `in`, `out`, or with the greatest number of a bus."""
        first = len(self.ports)
        for port, direction in ports.items():
            way, last = direction if isinstance(direction, tuple) else (direction, None)
            made = {"name": self.name(port.strip("_")), "dir": ["in", "out"].index(way)}
            self.ports.append(made if last is None else dict(made, kind=1, busStart=last))
        self.declarations.append({"name": self.name(name), "ports": list(range(first, len(self.ports)))})
        return len(self.declarations) - 1

    def cell(self, declaration, instances, nets):
        """A cell of instances (name, declaration, INIT) and nets of (owner, port, bit); the owner of its own ports is None."""
        first = len(self.instances)
        numbers = {name: (first + i, kind) for i, (name, kind, _) in enumerate(instances)}
        for name, kind, init in instances:
            entry = [{"key": self.name("INIT"), "tag": 0, "value": self.name(init)}] if init else []
            self.instances.append({"name": self.name(name), "cell": kind, "propMap": {"entries": entry} if entry else {}})
        made = []
        for name, pins in nets.items():
            rows = []
            for owner, port, bit in pins:
                inst, kind = numbers[owner] if owner else (0, declaration)
                places = self.declarations[kind]["ports"]
                found = next(p for p in places if self.ports[p]["name"] == self.texts[port])
                row = {"port": found, "busTag": int(bit is not None), "idx": bit or 0, "ownerTag": int(owner is not None)}
                rows.append(dict(row, inst=inst))
            made.append({"name": self.name(name), "portInsts": rows})
        self.cells.append({"index": declaration, "insts": [n for n, _ in numbers.values()], "nets": made})


def pins(*words):
    """Pins written `owner.port`, or `.port` for the cell's own, with `:bit` behind."""
    found = []
    for word in words:
        owner, _, port = word.partition(".")
        port, _, bit = port.partition(":")
        found.append((owner or None, port, int(bit) if bit else None))
    return found


def levels(size):
    made = Levels()
    top = made.declare("top", clk="in", in_=("in", size - 1), out=("out", size - 1))
    block, lane = (made.declare(name, clk="in", a="in", z="out") for name in ("block", "lane"))
    lut4 = made.declare("LUT4", I0="in", I1="in", I2="in", I3="in", O="out")
    lut2 = made.declare("LUT2", I0="in", I1="in", O="out")
    fd = made.declare("FD", C="in", D="in", Q="out")
    ibuf, obuf = (made.declare(name, I="in", O="out") for name in ("IBUF", "OBUF"))
    every = range(size)
    nets = {"clk": pins(".clk", "ibuf_clk.I"), "clk_b": pins("ibuf_clk.O", *[f"b_{k}.clk" for k in every])}
    for k in every:
        nets |= {f"in_{k}": pins(f".in:{k}", f"ibuf_{k}.I"), f"a_{k}": pins(f"ibuf_{k}.O", f"b_{k}.a")}
        nets |= {f"z_{k}": pins(f"b_{k}.z", f"obuf_{k}.I"), f"out_{k}": pins(f"obuf_{k}.O", f".out:{k}")}
    instances = [("ibuf_clk", ibuf, None)]
    for k in every:
        instances += [(f"ibuf_{k}", ibuf, None), (f"b_{k}", block, None), (f"obuf_{k}", obuf, None)]
    made.cell(top, instances, nets)
    nets = {"clk": pins(".clk", *[f"l{k}.clk" for k in range(4)]), "c0": pins(".a", "l0.a")}
    nets |= {f"c{k}": pins(f"l{k - 1}.z", f"l{k}.a") for k in (1, 2, 3)}
    made.cell(block, [(f"l{k}", lane, None) for k in range(4)], nets | {"z": pins("l3.z", ".z")})
    nets = {"clk": pins(".clk", *[f"f{i}.C" for i in range(8)]), "a": pins(".a", "u0.I3")}
    for i in range(8):
        others = f"u{(i + 7) % 8}.I1", f"u{(i + 5) % 8}.I2", f"m{i}.I0", f"m{(i + 4) % 8}.I1"
        nets |= {f"q{i}": pins(f"f{i}.Q", f"u{i}.I0", *others), f"d{i}": pins(f"u{i}.O", f"f{i}.D")}
    nets |= {f"x{j}": pins(f"m{j}.O", f"u{j + 1}.I3") for j in range(7)}
    instances = [(f"f{i}", fd, None) for i in range(8)]
    instances += [(f"u{i}", lut4, ["16'h6996", "16'hCAFE"][i % 2]) for i in range(8)]
    instances += [(f"m{i}", lut2, ["4'h6", "4'h8"][i % 2]) for i in range(8)]
    made.cell(lane, instances, nets | {"z": pins("m7.O", ".z")})
    return message.encode(SCHEMA, {
        "name": "demo", "topInst": {"name": made.name("top")}, "strList": list(made.texts), "cellDecls": made.declarations,
        "portList": made.ports, "instList": made.instances, "cellList": made.cells,
    })


def blocks(size):
    """A row of so many instances of one cell, in which 1,049 LUT1 stand in a row: 2^20 leaves under 1,000 blocks."""
    made = Levels()
    top = made.declare("top", a="in", z="out")
    block = made.declare("block", i="in", o="out")
    lut1 = made.declare("LUT1", I0="in", O="out")
    nets = {"a": pins(".a", "b0.i")}
    nets |= {f"n{k}": pins(f"b{k}.o", f"b{k + 1}.i") for k in range(size - 1)}
    nets |= {"z": pins(f"b{size - 1}.o", ".z")}
    made.cell(top, [(f"b{k}", block, None) for k in range(size)], nets)
    inner = {"i": pins(".i", "u0.I0")} | {f"n{k}": pins(f"u{k}.O", f"u{k + 1}.I0") for k in range(1048)}
    made.cell(block, [(f"u{k}", lut1, "2'h1") for k in range(1049)], inner | {"o": pins("u1048.O", ".o")})
    return message.encode(SCHEMA, {
        "name": "blocks", "topInst": {"name": made.name("top")}, "strList": list(made.texts), "cellDecls": made.declarations,
        "portList": made.ports, "instList": made.instances, "cellList": made.cells,
    })


def main():
    shape, size, path = sys.argv[1], int(sys.argv[2]), sys.argv[3]
    file = {"flat": flat, "levels": levels, "blocks": blocks}[shape](size)
    Path(path).write_bytes(file)
    print(f"{len(file)} bytes")


main()
