#!/usr/bin/env python3
"""Lines of code, of definitions and of proofs of each crate, and its must-fail edits.

usage: tools/sizes.py [--write]

Prints the table of docs/PROOFS.md, or writes it there in place of the one that stands. The crates
keep the order in which they stand there; new ones follow in the order of crates.txt.
"""
import glob
import os
import re
import sys

HEAD = "| crate | code | definitions | proofs | edits |\n|---|---|---|---|---|\n"
TABLE = re.compile(re.escape(HEAD) + r"(?:\|.*\n)+")


def lines(crate, folder, suffix):
    files = glob.glob(f"crates/{crate}/{folder}/**/*{suffix}", recursive=True)
    return sum(len(open(it, encoding="utf8").readlines()) for it in files)


def row(name, numbers):
    return f"| {name} | " + " | ".join(f"{it:,}" for it in numbers) + " |\n"


def main(words):
    os.chdir(os.path.dirname(os.path.dirname(os.path.abspath(__file__))))
    text = open("docs/PROOFS.md", encoding="utf8").read()
    named = [line.split(":")[0].split()[0] for line in open("crates.txt") if ":" in line]
    stand = re.findall(r"^\| `(\w+)` \|", TABLE.search(text).group(), re.M)
    crates = [it for it in stand if it in named] + [it for it in named if it not in stand]
    found = {
        it: (
            lines(it, "src", ".rt"),
            lines(it, "specs", ".antt"),
            lines(it, "proofs", ".antt"),
            len(glob.glob(f"crates/{it}/must-fail/*.edit")),
        )
        for it in crates
    }
    table = HEAD + "".join(row(f"`{it}`", found[it]) for it in crates)
    table += row("all", [sum(column) for column in zip(*found.values())])
    if words == ["--write"]:
        open("docs/PROOFS.md", "w", encoding="utf8").write(TABLE.sub(lambda _: table, text, count=1))
    else:
        print(table, end="")


main(sys.argv[1:])
