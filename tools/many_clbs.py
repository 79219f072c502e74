"""A device of many logic blocks and pads, and a design and a netlist of a hundred cells on it, as texts for message.py.

Each block has four slots of a LUT of six inputs, one of five that shares its element, and a flip-flop behind a multiplexer.
Each output of a site drives a line of its own that runs along all tiles, and each line leads to each input by one PIP; the
last two lines are vcc and gnd.
"""
import design_text
from phys_texts import GND, VCC, bel_pin, cell, net, pip, site_pin, site_pip

IN, OUT = 0, 1
LOGIC, ROUTING, PORT = 0, 1, 2
SLOTS = "ABCD"
INPUTS = [f"{x}{i}" for x in SLOTS for i in (*range(1, 7), "X")] + ["CK", "CE"]
OUTPUTS = [f"{x}{end}" for x in SLOTS for end in ("", "M", "Q")]


# The device.


def site_type(name, bels, site_pins, wires, site_pips):
    """A site type. A BEL is (name, category, pins), a site pin (name, direction), a pin of a wire or a site PIP BEL.PIN.

    Each site pin has a BEL of its name, whose one pin has that name too and goes the other way.
    """
    bels = bels + [(pin, PORT, [(pin, IN + OUT - direction)]) for pin, direction in site_pins]
    pins = [(bel, pin, direction) for bel, _, its in bels for pin, direction in its]
    number = {f"{bel}.{pin}": i for i, (bel, pin, _) in enumerate(pins)}
    return {
        "name": name,
        "belPins": [{"name": pin, "dir": direction, "bel": bel} for bel, pin, direction in pins],
        "pins": [{"name": pin, "dir": direction, "belpin": number[f"{pin}.{pin}"]} for pin, direction in site_pins],
        "bels": [{"name": bel, "category": category} for bel, category, _ in bels],
        "sitePIPs": [{"inpin": number[a], "outpin": number[b]} for a, b in site_pips],
        "siteWires": [{"name": wire, "pins": [number[pin] for pin in its]} for wire, its in wires],
    }


def clb():
    bels, pins, wires, site_pips = [], [], [], []
    for x in SLOTS:
        bels += [
            (f"{x}6LUT", LOGIC, [(f"A{i}", IN) for i in range(1, 7)] + [("O6", OUT)]),
            (f"{x}5LUT", LOGIC, [(f"A{i}", IN) for i in range(1, 6)] + [("O5", OUT)]),
            (f"{x}FF", LOGIC, [("C", IN), ("CE", IN), ("D", IN), ("Q", OUT)]),
            (f"{x}MUX", ROUTING, [("O6", IN), ("X", IN), ("OUT", OUT)]),
        ]
        pins += [(f"{x}{i}", IN) for i in (*range(1, 7), "X")] + [(f"{x}{end}", OUT) for end in ("", "M", "Q")]
        for i in range(1, 7):
            shared = [f"{x}5LUT.A{i}"] if i < 6 else []
            wires.append((f"{x}{i}", [f"{x}{i}.{x}{i}", f"{x}6LUT.A{i}", *shared]))
        wires += [
            (f"{x}X", [f"{x}X.{x}X", f"{x}MUX.X"]),
            (f"{x}O6", [f"{x}6LUT.O6", f"{x}MUX.O6", f"{x}.{x}"]),
            (f"{x}O5", [f"{x}5LUT.O5", f"{x}M.{x}M"]),
            (f"{x}D", [f"{x}MUX.OUT", f"{x}FF.D"]),
            (f"{x}Q", [f"{x}FF.Q", f"{x}Q.{x}Q"]),
        ]
        site_pips += [(f"{x}MUX.O6", f"{x}MUX.OUT"), (f"{x}MUX.X", f"{x}MUX.OUT")]
    pins += [("CK", IN), ("CE", IN)]
    wires += [("CK", ["CK.CK"] + [f"{x}FF.C" for x in SLOTS]), ("CE", ["CE.CE"] + [f"{x}FF.CE" for x in SLOTS])]
    return site_type("CLB", bels, pins, wires, site_pips)


def iob():
    return site_type(
        "IOB",
        [("PAD", LOGIC, [("PO", OUT), ("PI", IN)]), ("IBUF", LOGIC, [("I", IN), ("O", OUT)]),
         ("OBUF", LOGIC, [("I", IN), ("O", OUT)])],
        [("I", OUT), ("O", IN)],
        [("W0", ["PAD.PO", "IBUF.I"]), ("W1", ["IBUF.O", "I.I"]), ("W2", ["O.O", "OBUF.I"]), ("W3", ["OBUF.O", "PAD.PI"])],
        [],
    )


def tile_type(name, kind, outs, ins, lines, site_pins):
    wires = outs + ins + lines
    return {
        "name": name,
        "siteTypes": [{"primaryType": kind, "primaryPinsToTileWires": site_pins}],
        "wires": wires,
        "pips": [{"wire0": wires.index(line), "wire1": wires.index(pin), "directional": 1} for pin in ins for line in lines],
        "constants": [{"constant": VCC, "wires": [len(wires) - 2]}, {"constant": GND, "wires": [len(wires) - 1]}],
    }


def bel_map(cell_type, *maps):
    return {"cell": cell_type, "commonPins": [
        {
            "siteTypes": [{"siteType": site, "bels": bels}],
            "pins": [{"cellPin": pin, "belPin": bel_pin} for pin, bel_pin in pins],
        }
        for site, bels, pins in maps
    ]}


def same(pins):
    return [(pin, pin) for pin in pins.split()]


def cell_maps():
    maps = [
        bel_map("$PORT_IN", ("IOB", ["PAD"], [("P", "PO")])),
        bel_map("$PORT_OUT", ("IOB", ["PAD"], [("P", "PI")])),
        bel_map("IBUF", ("IOB", ["IBUF"], same("I O"))),
        bel_map("OBUF", ("IOB", ["OBUF"], same("I O"))),
        bel_map("FD", ("CLB", [f"{x}FF" for x in SLOTS], same("C D Q"))),
        bel_map("FDE", ("CLB", [f"{x}FF" for x in SLOTS], same("C CE D Q"))),
    ]
    for k in range(1, 7):
        inputs = [(f"I{i}", f"A{i + 1}") for i in range(k)]
        six = ("CLB", [f"{x}6LUT" for x in SLOTS], inputs + [("O", "O6")])
        five = ("CLB", [f"{x}5LUT" for x in SLOTS], inputs + [("O", "O5")])
        maps.append(bel_map(f"LUT{k}", six, *([five] if k < 6 else [])))
    return maps


def luts():
    return {
        "lutCells": [
            {"equation": 1, "cell": f"LUT{k}", "inputPins": [f"I{i}" for i in range(k)], "initParam": "INIT"}
            for k in range(1, 7)
        ],
        "lutElements": [{"site": "CLB", "luts": [
            {"width": 64, "bels": [
                {"lowBit": 0, "highBit": (1 << k) - 1, "name": f"{x}{k}LUT", "inputPins": [f"A{i}" for i in range(1, k + 1)],
                 "outputPin": f"O{k}"}
                for k in (6, 5)
            ]}
            for x in SLOTS
        ]}],
    }


def device(blocks, pads):
    lines = [f"L{j}" for j in range(12 * blocks + pads + 2)]
    ins = [f"IN{i}" for i in range(len(INPUTS))]
    outs = [f"OUT{o}" for o in range(len(OUTPUTS))]
    site = clb()
    clb_pins = [ins[INPUTS.index(pin["name"])] if pin.get("dir", 0) == IN else outs[OUTPUTS.index(pin["name"])]
                for pin in site["pins"]]
    tiles = [{"name": f"C{t}", "type": 0, "row": t // 16, "col": t % 16, "sites": [{"name": f"SC{t}"}]} for t in range(blocks)]
    tiles += [{"name": f"P{u}", "type": 1, "row": u, "col": 16, "sites": [{"name": f"SP{u}"}]} for u in range(pads)]
    wires, nodes = [], []
    for j, line in enumerate(lines):
        of_node = [{"tile": f"C{j // 12}", "wire": f"OUT{j % 12}"}] if j < 12 * blocks else []
        of_node += [{"tile": f"P{j - 12 * blocks}", "wire": "OUT0"}] if 12 * blocks <= j < 12 * blocks + pads else []
        of_node += [{"tile": tile["name"], "wire": line} for tile in tiles]
        nodes.append({"wires": list(range(len(wires), len(wires) + len(of_node)))})
        wires += of_node
    return {
        "name": "K",
        "siteTypeList": [site, iob()],
        "tileTypeList": [
            tile_type("CT", 0, outs, ins, lines, clb_pins),
            tile_type("IT", 1, ["OUT0"], ["IN0"], lines, ["OUT0", "IN0"]),
        ],
        "tileList": tiles,
        "wires": wires,
        "nodes": nodes,
        "cellBelMap": cell_maps(),
        "constants": {"gndCellType": "GND", "gndCellPin": "G", "vccCellType": "VCC", "vccCellPin": "P"},
        "lutDefinitions": luts(),
    }


# The design and the netlist: 32 slots in eight blocks, two pads. In slot k the LUT `uk` is on the flip-flop before and
# on another slot's `mk`, `mk` on two flip-flops; the flip-flop `fk` takes what `uk` gives.

BLOCKS = 8
SLOT_COUNT = BLOCKS * len(SLOTS)
LINE_COUNT = 12 * BLOCKS + 2 + 2
TABLE = "66666666F000F000"



def design():
    lines = ["cell top: in clk, out z", "  has ib IBUF", "  has ob OBUF"]
    for k in range(SLOT_COUNT):
        lines += [f"  has u{k} LUT2 INIT=4'h6", f"  has m{k} LUT2 INIT=4'h8", f"  has f{k} FD"]
    lines += ["  net clk: clk ib.I", "  net ck: ib.O " + " ".join(f"f{k}.C" for k in range(SLOT_COUNT))]
    lines += ["  net z: ob.O z"]
    for k in range(SLOT_COUNT):
        last = " ob.I" if k == 0 else ""
        lines += [
            f"  net d{k}: u{k}.O f{k}.D",
            f"  net x{k}: m{k}.O u{(k + 3) % SLOT_COUNT}.I1",
            f"  net q{k}: f{k}.Q u{(k + 1) % SLOT_COUNT}.I0 m{k}.I0 m{(k + 5) % SLOT_COUNT}.I1{last}",
        ]
    lines += ["leaf IBUF: in I, out O", "leaf OBUF: in I, out O"]
    text = design_text.Text(lines)
    return dict(text.value, strList=design_text.names_in(text.value))


def place(k):
    """The site, the tile and the slot's letter."""
    return f"SC{k // 4}", f"C{k // 4}", SLOTS[k % 4]


def line_of(k, end):
    return f"L{12 * (k // 4) + 3 * (k % 4) + ('', 'M', 'Q').index(end)}"


def into(line, k, pin):
    """The way from a line to a LUT's input."""
    site, tile, x = place(k)
    number = f"IN{7 * (k % 4) + pin - 1}"
    bel = f"{x}6LUT" if pin < 3 else f"{x}5LUT"
    return pip(tile, line, number, site_pin(site, f"{x}{pin}", bel_pin(site, bel, f"A{pin}")))


def netlist():
    placements = [
        cell("$port/clk", "$PORT_IN", "SP0", "PAD", "P=PO"), cell("$port/z", "$PORT_OUT", "SP1", "PAD", "P=PI"),
        cell("ib", "IBUF", "SP0", "IBUF", "I=I O=O"), cell("ob", "OBUF", "SP1", "OBUF", "I=I O=O"),
    ]
    vcc, clock, nets = [], [], []
    for t in range(BLOCKS):
        clock.append(pip(f"C{t}", f"L{12 * BLOCKS}", "IN28",
                         site_pin(f"SC{t}", "CK", *(bel_pin(f"SC{t}", f"{x}FF", "C") for x in SLOTS))))
    for k in range(SLOT_COUNT):
        site, tile, x = place(k)
        placements += [
            cell(f"u{k}", "LUT2", site, f"{x}6LUT", "I0=A1 I1=A2 O=O6"),
            cell(f"m{k}", "LUT2", site, f"{x}5LUT", "I0=A3 I1=A4 O=O5"),
            cell(f"f{k}", "FD", site, f"{x}FF", "C=C D=D Q=Q"),
        ]
        vcc.append(pip(tile, f"L{LINE_COUNT - 2}", f"IN{7 * (k % 4) + 5}", site_pin(site, f"{x}6")))
        nets.append(net(f"d{k}", bel_pin(site, f"{x}6LUT", "O6", site_pip(site, f"{x}MUX", "O6", bel_pin(site, f"{x}FF", "D")))))
        line = line_of(k, "M")
        nets.append(net(f"x{k}", bel_pin(site, f"{x}5LUT", "O5", site_pin(site, f"{x}M", into(line, (k + 3) % SLOT_COUNT, 2)))))
        line = line_of(k, "Q")
        ways = [into(line, (k + 1) % SLOT_COUNT, 1), into(line, k, 3), into(line, (k + 5) % SLOT_COUNT, 4)]
        if k == 0:
            ways.append(pip("P1", line, "IN0", site_pin("SP1", "O", bel_pin("SP1", "OBUF", "I"))))
        nets.append(net(f"q{k}", bel_pin(site, f"{x}FF", "Q", site_pin(site, f"{x}Q", *ways))))
    pads = [
        net("clk", bel_pin("SP0", "PAD", "PO", bel_pin("SP0", "IBUF", "I"))),
        net("ck", bel_pin("SP0", "IBUF", "O", site_pin("SP0", "I", *clock))),
        net("z", bel_pin("SP1", "OBUF", "O", bel_pin("SP1", "PAD", "PI"))),
    ]
    sites = [("SP0", "IOB"), ("SP1", "IOB")] + [(f"SC{t}", "CLB") for t in range(BLOCKS)]
    return {
        "part": "K",
        "placements": placements,
        "physNets": [net("GLOBAL_LOGIC1", *vcc, ty=VCC)] + pads + nets,
        "siteInsts": [{"site": site, "type": kind} for site, kind in sites],
        "properties": [{"key": f"TABLE/SC{t}/{i}", "value": TABLE} for t in range(BLOCKS) for i in range(4)],
    }
