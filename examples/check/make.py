#!/usr/bin/env python3
"""Makes the example of `check`: a device, a design, a netlist that realizes the design, and one that doesn't.

usage: make.py [FOLDER]

Writes device.bin, design.bin, netlist.bin and broken.bin into FOLDER, or beside this script. The device is the small one of
tools/cases/joined_sinks.device.json: one tile with two driving sites s0 and s1, two driven ones t0 and t1, and a wire X
between them that PIPs lead to and from. In the design a driver `d0` is joined to two loads, `e0` and `e1`. The netlist,
`SINKS` of tools/check_cases.py, has d0 on s0, and the loads on t0 and t1: its net leaves the site, goes by one PIP to X and
by another to the node of both loads' pins, and enters both sites. In the broken one the branch into t1 is left out, so the
pin I of e1 is on no net.
"""
import json
import sys
from pathlib import Path

HERE = Path(__file__).resolve().parent
TOP = HERE.parent.parent
sys.path.insert(0, str(TOP / "tools"))
import message  # noqa: E402
from check_cases import SINKS  # noqa: E402
from phys_texts import cut  # noqa: E402
from rules_cases import changed  # noqa: E402

SCHEMAS = TOP / "examples" / "schema"
IN, OUT, ONE_BIT = 0, 1, 0
OF_INSTANCE = 1
# The segment of the net that enters the site t1.
INTO_T1 = 6


def port(name, direction):
    return {"name": name, "dir": direction, "kind": ONE_BIT}


def end(owner, port_number):
    return {"port": port_number, "ownerTag": OF_INSTANCE, "inst": owner}


DESIGN = {
    "name": "two loads",
    "portList": [port("O", OUT), port("I", IN)],
    "cellDecls": [{"name": "TOP"}, {"name": "DRV", "ports": [0]}, {"name": "LOAD", "ports": [1]}],
    "instList": [{"name": "d0", "cell": 1}, {"name": "e0", "cell": 2}, {"name": "e1", "cell": 2}],
    "cellList": [{
        "index": 0,
        "insts": [0, 1, 2],
        "nets": [{"name": "n0", "portInsts": [end(0, 0), end(1, 1), end(2, 1)]}],
    }],
    "topInst": {"name": "top", "cell": 0},
}


def main():
    if len(sys.argv) > 2 or sys.argv[1:2] in (["-h"], ["--help"]):
        sys.exit(__doc__)
    folder = Path(sys.argv[1]) if sys.argv[1:] else HERE
    device = json.loads((TOP / "tools" / "cases" / "joined_sinks.device.json").read_text(encoding="utf8"))
    files = {
        "device": ("device", device),
        "design": ("netlist", DESIGN),
        "netlist": ("phys", SINKS),
        "broken": ("phys", changed(SINKS, [cut(0, INTO_T1)])),
    }
    for name, (kind, text) in files.items():
        (folder / f"{name}.bin").write_bytes(message.encode(SCHEMAS / f"{kind}.capnp", text))


if __name__ == "__main__":
    main()
