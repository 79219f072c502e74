#!/usr/bin/env python3
"""Breaks legal netlists one thing at a time, and tells what `check` has to print of each by phys_design.py.

    tools/check_mutants.py FOLDER [N]       write cases for the program ix_run_cases with the files that they name, and the
                                            answers as FOLDER/wanted; of the netlist of a hundred cells each N-th, or none
    tools/check_mutants.py legal            list the ones that stay legal, of the two small netlists
    tools/check_mutants.py compare FOLDER PRINTED
                                            compare what the program printed with the answers

A mutant is made by dropping, doubling or swapping items of a list, by putting another name, kind or type in the place of
one, or by moving a branch below another one of its net, to the sources or to the stubs.
"""
import copy
import sys
from itertools import islice
from pathlib import Path

import check_cases
from check_cases import LUT, MANY, CHAIN, RUNS, digits, exit_line, judged
from phys_texts import add_table
from rules_cases import changed, encoded, pieces, strings_of

NETLISTS = [
    ("joined_ends", "driver_and_load", "chain", CHAIN),
    ("one_clb", "lut_on_constants", "lut", LUT),
    ("one_clb", "lut_on_constants", "tabled", changed(LUT, [add_table("TABLE/SC0/0", "8" * 16)])),
]
HUNDRED = ("eight_clbs", "a_hundred_cells", "hundred", MANY)
NUMBERS = {"kind": 4, "type": 3, "forward": 2}
MOST_NAMES = 6


def each(value, path=()):
    """Each thing inside, and the way to it."""
    yield path, value
    inner = value.items() if isinstance(value, dict) else enumerate(value) if isinstance(value, list) else ()
    for step, it in inner:
        yield from each(it, (*path, step))


def inside(value, path):
    for step in path:
        value = value[step]
    return value


def names_by_field(netlist):
    found = {}
    for path, value in each(netlist):
        if isinstance(value, str):
            found.setdefault(path[-1], {})[value] = None
    return {field: list(values) for field, values in found.items()}


def told(path):
    return "/".join(map(str, path))


def list_changes(path, items):
    for i in range(len(items)):
        yield f"drop {told(path)}/{i}", lambda at, i=i: at.pop(i)
        yield f"double {told(path)}/{i}", lambda at, i=i: at.append(copy.deepcopy(at[i]))
        if i + 1 < len(items):
            yield f"swap {told(path)}/{i}", lambda at, i=i: at.insert(i, at.pop(i + 1))


def other_values(field, value, names):
    if isinstance(value, int) and field in NUMBERS:
        return [it for it in range(NUMBERS[field]) if it != value]
    if isinstance(value, str):
        # The names of the field, from this one on, then round; those of other fields of one kind; and one of nothing.
        known = names[field]
        start = known.index(value)
        others = (known[start + 1:] + known[:start])[:MOST_NAMES]
        return list(dict.fromkeys([*others, *names.get("third", [])[:2], "?"]))
    return []


def moves(netlist, path):
    """Where a branch may go: below each other branch of its net, to its sources and to its stubs."""
    of_net = path[:2]
    yield (*of_net, "sources")
    yield (*of_net, "stubs")
    for other, value in each(inside(netlist, of_net), of_net):
        if isinstance(value, dict) and "branches" in value and other[:len(path)] != path:
            yield (*other, "branches")


def moved(netlist, path, target):
    into, branch = inside(netlist, target), inside(netlist, path)
    into.append(branch)
    at = inside(netlist, path[:-1])
    del at[next(i for i, it in enumerate(at) if it is branch)]


def changes(netlist):
    """What may be done to a netlist: what it is, and a function that does it to a copy."""
    names = names_by_field(netlist)
    for path, value in each(netlist):
        if isinstance(value, list):
            for what, change in list_changes(path, value):
                yield what, lambda new, path=path, change=change: change(inside(new, path))
        elif path and not isinstance(value, dict):
            for other in other_values(path[-1], value, names):
                yield f"put {told(path)} {other}", lambda new, path=path, other=other: inside(new, path[:-1]).update({path[-1]: other})
        elif isinstance(value, dict) and "branches" in value:
            for target in moves(netlist, path):
                yield f"move {told(path)} to {told(target)}", lambda new, path=path, target=target: moved(new, path, target)


def mutants(netlist, every=1):
    """Each mutant, or each so-manieth: what is done, and the text."""
    for what, change in islice(changes(netlist), 0, None, every):
        new = copy.deepcopy(netlist)
        change(new)
        yield what, new


def answers(device, design, netlist):
    return [judged(device, design, netlist, level) for level in ("routed", "placed")]


def cases_of(device, design, base, netlist, every):
    made = list(mutants(netlist, every))
    strings = strings_of([netlist] + [it for _, it in made])
    file = encoded(netlist, strings)
    yield base, file
    for what, mutant in made:
        shows = f"{base}: {what}".replace("|", "")
        new = pieces(file, encoded(mutant, strings)).replace(" ", ",") if every == 1 else encoded(mutant, strings).hex()
        from_file = f"{base}:{new}" if every == 1 else f"#{new}"
        line = f"{shows} | run | check,d,n,p;check,d,n,p,--placed | d={device} n={design} p={from_file}"
        yield line, f"{shows}: " + "; ".join(map(exit_line, answers(device, design, mutant)))


def write(folder, every):
    folder.mkdir(parents=True, exist_ok=True)
    lines, wanted = [], []
    for netlist in NETLISTS + ([HUNDRED] if every else []):
        found = cases_of(*netlist, every if netlist is HUNDRED else 1)
        base, file = next(found)
        (folder / base).write_text(file.hex() + "\n")
        for name in netlist[:2]:
            (folder / name).write_text((RUNS / "data" / name).read_text())
        for line, answer in found:
            lines.append(line)
            wanted.append(answer)
    (folder / "cases").write_text("\n".join(lines) + "\n")
    (folder / "wanted").write_text("\n".join(wanted) + "\n")
    print(f"check_mutants: {len(lines)} mutants")


def legal():
    """Each mutant of the small netlists that is accepted at one of the levels, with its netlist."""
    for of in NETLISTS:
        device, design, _, netlist = of
        for what, mutant in mutants(netlist):
            told_of = answers(device, design, mutant)
            if any(it.startswith("yes") for it in told_of):
                yield of, what, mutant, told_of


def cases_of_legal():
    """The same as cases of the program, with the files that they are pieces of: (name, file, cases)."""
    found = list(legal())
    for of in NETLISTS:
        device, design, base, netlist = of
        its = [(what, mutant, told_of) for it, what, mutant, told_of in found if it is of]
        strings = strings_of([netlist] + [mutant for _, mutant, _ in its])
        name, file = f"{base}_stays_legal", encoded(netlist, strings)
        cases = []
        for what, mutant, told_of in its:
            shows = f"{base}, still legal: {what}"
            new = pieces(file, encoded(mutant, strings)).replace(" ", ",")
            line = f"{shows} | run | check,d,n,p;check,d,n,p,--placed | d={device} n={design} p={name}:{new}"
            cases.append((line, f"{shows}: " + "; ".join(map(exit_line, told_of))))
        yield name, file, cases


def main():
    words = sys.argv[1:]
    if words[:1] == ["legal"] and len(words) == 1:
        for (_, _, base, _), what, _, told_of in legal():
            print(f"{base}: {what}: {'; '.join(told_of)}")
    elif words[:1] == ["compare"] and len(words) == 3:
        wanted, printed = [Path(it).read_text().splitlines() for it in (f"{words[1]}/wanted", words[2])]
        differ = [(a, b) for a, b in zip(wanted, printed) if a != b]
        for a, b in differ:
            print(f"wanted  {a}\nprinted {b}")
        print(f"check_mutants: {len(wanted)} wanted, {len(printed)} printed, {len(differ)} differ")
        sys.exit(bool(differ) or len(wanted) != len(printed))
    elif words and len(words) <= 2:
        write(Path(words[0]), int(words[1]) if len(words) == 2 else 0)
    else:
        sys.exit(__doc__)


if __name__ == "__main__":
    main()
