#!/usr/bin/env python3
"""Tells which definition files what is said to users rests on, and how many lines they have.

usage: definitions.py [--list] [CRATE..]

A crate's specs/Lib.antt lists its definition files in two groups: first those that a public clause cites, itself or through
other definitions; then, after the line `-- For private contracts and proofs.`, those that only private contracts and proofs
need. This prints for each crate the lines of the first group, and fails where a public clause cites a file of the second,
where a file of the first isn't cited by any, or where a file is missing. A crate whose specs/Lib.antt has no such line isn't
divided yet: its lines are counted as told by --list, and nothing else is asked.

With --list it prints the files that should stand in the first group.
"""
import pathlib
import re
import sys

TOP = pathlib.Path(__file__).resolve().parent.parent
SPLIT = "-- For private contracts and proofs."
USE = re.compile(r"use Rattle\.(\w+)\.specs\.([\w.]+?)\.\{([^}]*)\}")


def crates():
    lines = (TOP / "crates.txt").read_text().splitlines()
    return [line.split(":")[0].strip() for line in lines if ":" in line and not line.startswith("#")]


def lib_text(crate):
    path = TOP / "crates" / crate / "specs" / "Lib.antt"
    return path.read_text() if path.exists() else ""


def groups(crate):
    """The two groups of definition files of a crate."""
    first, second = [], []
    now = first
    for line in lib_text(crate).splitlines():
        if line.strip() == SPLIT:
            now = second
        found = re.match(r"pub mod (\w+)", line)
        if found:
            now.append(found[1])
    return first, second


def names_of(uses):
    """What is imported, by the name that it is used by: a crate and a definition file."""
    found = {}
    for crate, module, names in uses:
        for name in names.split(","):
            name = name.strip().split(" as ")[-1].strip()
            if not module.startswith("declared"):
                found[name] = (crate, module.split(".")[0])
    return found


def public_clauses(text, exported):
    """The clauses of exported functions and of what exported types and traits have, and their ghost members."""
    clauses, is_public, owner = [], False, None
    for line in text.splitlines():
        block = re.match(r"(?:pub )?(?:trait (\w+)|impl(?:<.*?>)? (?:.* for )?(\w+))", line)
        if block:
            owner = block[1] or block[2]
        elif line.startswith("}"):
            owner = None
        found = re.match(r"( *)(pub(?:\(crate\))? )?(?:const )?fn (\w+)", line)
        if found:
            named = owner in exported if found[1] else found[3] in exported
            is_public = named and (found[2] == "pub " or bool(found[1]) and not found[2] and is_trait_block)
        if block:
            is_trait_block = bool(block[1]) or " for " in line
        if owner in exported and re.match(r"\s*(pub )?ghost (?!use|invariant)", line):
            clauses.append(line)
        if is_public and (re.search(r"\b(ensures|requires)\b", line) or re.match(r"\s{8,}[^\s/]", line)):
            clauses.append(line)
    return "\n".join(clauses)


def words(text):
    return set(re.findall(r"[^\s(){}\[\],.;:→×λ◌]+", text))


def exports(crate):
    """The names that a crate's root file hands out."""
    root = TOP / "crates" / crate / "src" / "lib.rt"
    text = root.read_text() if root.exists() else ""
    return set(re.findall(r"\w+", " ".join(re.findall(r"pub use [^;]*;", text)))) | set(re.findall(r"^pub fn (\w+)", text, re.M))


def cited_by_code(crate):
    found, exported = set(), exports(crate)
    for path in sorted((TOP / "crates" / crate / "src").rglob("*.rt")):
        text = path.read_text()
        names = names_of(USE.findall(text))
        for word in words(public_clauses(text, exported)):
            if word in names:
                found.add(names[word])
    return found


def cited_by_definitions(crate, module):
    path = TOP / "crates" / crate / "specs" / f"{module}.antt"
    if not path.exists():
        return set()
    return {(c, m.split(".")[0]) for c, m, _ in USE.findall(path.read_text()) if not m.startswith("declared")}


def closure(start):
    found, todo = set(), list(start)
    while todo:
        one = todo.pop()
        if one in found:
            continue
        found.add(one)
        todo += cited_by_definitions(*one)
    return found


def main():
    args = [a for a in sys.argv[1:] if a != "--list"]
    all_crates = crates()
    cited = {crate: closure(cited_by_code(crate)) for crate in all_crates}
    everything = set().union(*cited.values())
    failed, total = False, 0
    for crate in args or all_crates:
        first, second = groups(crate)
        divided = SPLIT in lib_text(crate)
        should = [m for m in first + second if (crate, m) in everything]
        if "--list" in sys.argv:
            print(crate, "|", " ".join(should), "|", " ".join(m for m in first + second if m not in should))
            continue
        for module in first + second:
            path = TOP / "crates" / crate / "specs" / f"{module}.antt"
            if not path.exists():
                print(f"{crate}: there is no {path.name}")
                failed = True
        for module in second:
            if divided and module in should:
                print(f"{crate}: {module} is cited by a public clause, and stands in the second group")
                failed = True
        for module in first if divided else []:
            if module not in should:
                print(f"{crate}: {module} isn't cited by a public clause, and stands in the first group")
                failed = True
        files = first if divided else should
        lines = sum(len((TOP / "crates" / crate / "specs" / f"{m}.antt").read_text().splitlines()) for m in files)
        total += lines
        if files:
            note = "" if divided or files == first else ", not divided yet"
            print(f"{crate:20}{lines:6} lines in {', '.join(files)}{note}")
    if "--list" not in sys.argv:
        print(f"{'all':20}{total:6} lines")
    sys.exit(failed)


if __name__ == "__main__":
    main()
