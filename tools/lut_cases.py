#!/usr/bin/env python3
"""What the program ix_lut_cases must print, by brute force over the definitions.

    tools/lut_cases.py                      write crates/ix_lut_cases/stdout
    tools/lut_cases.py check                compare crates/ix_lut_cases/stdout with the answers
    tools/lut_cases.py random SEED COUNT    print random lines for its data/elements

The program's head says how a case is written. A plan is found by trying all lists of lines in
order, and then all lists of ties in order; bits are forced and functions read value by value.
"""
import itertools
import random
import re
import sys
from collections import namedtuple
from pathlib import Path

CASES = Path(__file__).resolve().parent.parent / "crates" / "ix_lut_cases"
FREE, VCC, GND = range(3)
LETTERS = "-10"

Bel = namedtuple("Bel", "low lines")
Cell = namedtuple("Cell", "bel bits nets")


# Plans.


def items_of(cells):
    """The items (a net, and which of a cell's inputs on it) at their first appearance, and the
    item of each input of each cell."""
    items, of = [], []
    for cell in cells:
        row = []
        for i, net in enumerate(cell.nets):
            item = (net, cell.nets[:i].count(net))
            if item not in items:
                items.append(item)
            row.append(items.index(item))
        of.append(row)
    return items, of


def least_assignment(lines, bels, cells, items, of):
    """The least list of different lines, one for each item, by trying all in order."""
    allowed = []
    for x in range(len(items)):
        may = set(range(lines))
        for cell, row in zip(cells, of):
            if x in row:
                may &= set(bels[cell.bel].lines)
        allowed.append(sorted(may))

    def extend(chosen):
        if len(chosen) == len(items):
            return chosen
        for line in allowed[len(chosen)]:
            if line not in chosen:
                whole = extend(chosen + [line])
                if whole is not None:
                    return whole
        return None

    return extend([])


def values_that_agree(bel, places, held):
    """The values of the BEL's inputs that agree with what holds the lines of unused inputs."""
    for v in range(1 << len(bel.lines)):
        if all(
            j in places or held[line] == FREE or (v >> j & 1) == (1 if held[line] == VCC else 0)
            for j, line in enumerate(bel.lines)
        ):
            yield v


def spelled(places, v):
    return sum((v >> place & 1) << i for i, place in enumerate(places))


def forced(bels, cells, of, chosen, held):
    """The bits that the cells force to 0 and to 1."""
    zeros, ones = set(), set()
    for cell, row in zip(cells, of):
        bel = bels[cell.bel]
        places = [bel.lines.index(chosen[x]) for x in row]
        for v in values_that_agree(bel, places, held):
            (ones if cell.bits >> spelled(places, v) & 1 else zeros).add(bel.low + v)
    return zeros, ones


def plan(lines, bels, cells):
    """The line of each cell's inputs, each line's tie, and the element's table; or None."""
    items, of = items_of(cells)
    chosen = least_assignment(lines, bels, cells, items, of)
    if chosen is None:
        return None
    constant = {"gnd": GND, "vcc": VCC}
    held_items = {chosen[x]: constant.get(net, FREE) for x, (net, _j) in enumerate(items)}
    choices = [(FREE,) if line in held_items else (FREE, VCC, GND) for line in range(lines)]
    for ties in itertools.product(*choices):
        held = [held_items.get(line, ties[line]) for line in range(lines)]
        zeros, ones = forced(bels, cells, of, chosen, held)
        if not zeros & ones:
            rows = [[chosen[x] for x in row] for row in of]
            return rows, list(ties) + [FREE] * (12 - lines), sum(1 << at for at in ones)
    return None


# Functions.


def function(bel, bits, places, held):
    """The one table that the BEL's bits spell, or None."""
    table = 0
    read = {}
    for v in values_that_agree(bel, places, held):
        n, bit = spelled(places, v), bits >> (bel.low + v) & 1
        if read.setdefault(n, bit) != bit:
            return None
        table |= bit << n
    return table


def permuted(bits, places):
    return sum((bits >> spelled(places, v) & 1) << v for v in range(1 << len(places)))


# Conditions.


def is_usable(lines, bels):
    return (
        lines <= 12
        and len(bels) <= 8
        and all(
            len(bel.lines) <= 6
            and bel.low + (1 << len(bel.lines)) <= 64
            and max(bel.lines) < lines
            and len(set(bel.lines)) == len(bel.lines)
            for bel in bels
        )
    )


def are_cells(bels, cells):
    places = [cell.bel for cell in cells]
    return (
        places == sorted(set(places))
        and all(place < len(bels) for place in places)
        and all(len(cell.nets) <= 6 and cell.bits < 1 << (1 << len(cell.nets)) for cell in cells)
    )


def are_places(inputs, places):
    return all(place < inputs for place in places) and len(set(places)) == len(places)


# Lines of cases.


def numbers(text):
    return [int(number) for number in text.split(",")]


def bels_of(text):
    words = [word.split(":") for word in text.split()]
    return [Bel(int(low), numbers(lines)) for low, lines in words]


def cells_of(text):
    words = [word.split(":") for word in text.split()]
    return [Cell(int(bel), int(bits, 16), nets.split(",")) for bel, bits, nets in words]


def told_plan(lines, bels, cells):
    bels, cells = bels_of(bels), cells_of(cells)
    if not is_usable(int(lines), bels):
        return "not usable"
    if not are_cells(bels, cells):
        return "no cells of it"
    found = plan(int(lines), bels, cells)
    if found is None:
        return "no plan"
    rows, ties, bits = found
    choice = "".join(" " + ",".join(map(str, row)) for row in rows)
    return f"lines{choice}, ties {''.join(LETTERS[tie] for tie in ties)}, table {bits:016x}"


def told_function(lines, bels, bits, bel, places, ties):
    bels, bel, places = bels_of(bels), int(bel), numbers(places)
    if not is_usable(int(lines), bels) or bel >= len(bels):
        return "not usable"
    if not are_places(len(bels[bel].lines), places):
        return "not places"
    held = [LETTERS.index(letter) for letter in ties.ljust(12, "-")]
    table = function(bels[bel], int(bits, 16), places, held)
    return "no function" if table is None else f"{len(places)} inputs, table {table:x}"


def told_permuted(bits, inputs, places):
    bits, inputs, places = int(bits, 16), int(inputs), numbers(places)
    if inputs > 6 or bits >= 1 << (1 << inputs):
        return "no table"
    if not are_places(inputs, places[:inputs]):
        return "not places"
    return f"{inputs} inputs, table {permuted(bits, places[:inputs]):x}"


def told_init(inputs, number):
    if not 1 <= int(inputs) <= 6:
        return "not 1 to 6 inputs"
    if number is None or number >= 1 << (1 << int(inputs)):
        return "no reading"
    return f"{inputs} inputs, table {number:x}"


def told_text(inputs, text):
    width = 1 << int(inputs)
    hexadecimal = re.fullmatch(rf"(?:{width}'h|0x)([0-9a-fA-F]+)", text)
    binary = re.fullmatch(rf"(?:{width}'b|0b)([01]+)|([01]{{{width}}})", text)
    if hexadecimal:
        return told_init(inputs, int(hexadecimal[1], 16))
    return told_init(inputs, int(binary[1] or binary[2], 2) if binary else None)


def told_number(inputs, number):
    return told_init(inputs, int(number))


def answer(call, given):
    told = {
        "element": told_plan,
        "function": told_function,
        "permute": told_permuted,
        "text": told_text,
        "number": told_number,
    }
    return told[call](*given)


def expected():
    lines = []
    for line in (CASES / "data" / "elements").read_text().splitlines():
        if line and not line.startswith("#"):
            name, call, *given = [field.strip() for field in line.split("|")]
            lines.append(f"{name}: {answer(call, given)}\n")
    return "".join(lines)


# Random cases.


def any_bels(draw, lines):
    """BELs of any lines, most of which read the table from its first bit on."""
    bels = []
    for _ in range(draw.randint(1, 5)):
        inputs = draw.randint(1, min(lines, 6, draw.choice((2, 3, 4, 6))))
        low = 0 if draw.random() < 0.7 else draw.randint(0, 64 - (1 << inputs))
        bels.append(Bel(low, draw.sample(range(lines), inputs)))
    return bels


def split_bels(draw, lines):
    """Two or three BELs that have their first lines in common."""
    order = draw.sample(range(lines), lines)
    shared = draw.randint(1, min(lines, 4))
    bels = []
    for _ in range(draw.randint(2, 3)):
        rest = draw.sample(order[shared:], draw.randint(0, min(lines - shared, 2)))
        bels.append(Bel(0, order[:shared] + rest))
    return bels, shared


def random_bits(draw, inputs):
    if draw.random() < 0.3:
        return draw.choice((0, (1 << (1 << inputs)) - 1))
    return draw.getrandbits(1 << inputs)


def random_nets(draw, count):
    nets_there = ["gnd", "vcc"] + [str(net) for net in range(6)]
    return [draw.choice(nets_there) for _ in range(count)]


def any_cells(draw, bels):
    cells = []
    for place, bel in enumerate(bels):
        if draw.random() < 0.3:
            continue
        inputs = draw.randint(1, min(6, len(bel.lines) + (draw.random() < 0.05)))
        nets = random_nets(draw, inputs)
        if cells and draw.random() < 0.6:
            nets = (cells[-1].nets + nets)[:inputs]
        cells.append(Cell(place, random_bits(draw, inputs), nets))
    return cells


def split_cells(draw, bels, shared):
    """A cell on each BEL, all on the same nets."""
    nets = random_nets(draw, shared)
    return [Cell(place, random_bits(draw, shared), nets) for place in range(len(bels))]


def random_element(draw):
    lines = draw.randint(1, 8)
    if draw.random() < 0.6:
        bels = any_bels(draw, lines)
        return lines, bels, any_cells(draw, bels)
    bels, shared = split_bels(draw, lines)
    return lines, bels, split_cells(draw, bels, shared)


def comma(items):
    return ",".join(map(str, items))


def bels_text(bels):
    return " ".join(f"{bel.low}:{comma(bel.lines)}" for bel in bels)


def element_text(lines, bels, cells):
    uses = " ".join(f"{cell.bel}:{cell.bits:x}:{comma(cell.nets)}" for cell in cells)
    return f"element | {lines} | {bels_text(bels)} | {uses}"


def function_text(draw, lines, bels):
    """A cell on one of the BELs; half of the tables are made so that there is a function."""
    place = draw.randrange(len(bels))
    bel = bels[place]
    places = draw.sample(range(len(bel.lines)), draw.randint(1, len(bel.lines)))
    held = [draw.choice((FREE, FREE, VCC, GND)) for _ in range(lines)]
    bits = draw.getrandbits(64)
    if draw.random() < 0.5:
        table = random_bits(draw, len(places))
        for v in values_that_agree(bel, places, held):
            at = bel.low + v
            bits = bits & ~(1 << at) | (table >> spelled(places, v) & 1) << at
    ties = "".join(LETTERS[tie] for tie in held)
    cell = f"{place} | {comma(places)} | {ties}"
    return f"function | {lines} | {bels_text(bels)} | {bits:016x} | {cell}"


def permute_text(draw):
    inputs = draw.randint(1, 6)
    places = draw.sample(range(inputs), inputs)
    return f"permute | {random_bits(draw, inputs):x} | {inputs} | {comma(places)}"


def print_random(seed, count):
    draw = random.Random(seed)
    for number in range(count):
        lines, bels, cells = random_element(draw)
        print(f"element {number} | {element_text(lines, bels, cells)}")
        if number % 4 == 0:
            print(f"function {number} | {function_text(draw, lines, bels)}")
        if number % 8 == 0:
            print(f"permuted {number} | {permute_text(draw)}")


if __name__ == "__main__":
    if sys.argv[1:2] == ["random"]:
        print_random(int(sys.argv[2]), int(sys.argv[3]))
    elif sys.argv[1:2] == ["check"]:
        if (CASES / "stdout").read_text() != expected():
            sys.exit("crates/ix_lut_cases/stdout isn't what tools/lut_cases.py answers")
    else:
        (CASES / "stdout").write_text(expected())
