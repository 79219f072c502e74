#!/usr/bin/env bash
# Times plans of LUT elements by `ix_lut::element`.
#
# usage: bench/lut.sh PLANNER [RUNS]
#
# PLANNER is the built program of `ix_lut_cases` (crates/ix_lut_cases/out/ix_lut_cases, after
# `rt run` in its folder). For each element it makes one plan, and then many more, RUNS times each
# (40), all elements in turn. Told are the least and the median of the time of a plan: that of many
# less that of one. The elements are those of logic tiles whose LUTs of six inputs are split into two
# of five, and the dearest of some thousand shapes of eight BELs and twelve lines, which were
# changed at random as long as their plans took longer.
set -eu
planner=$(realpath "${1:?usage: bench/lut.sh PLANNER [RUNS]}")
runs=${2:-40}
source "$(dirname "${BASH_SOURCE[0]}")/common.sh"

python3 - "$planner" "$runs" <<'END'
import os, statistics, subprocess, sys, time

planner, runs = sys.argv[1], int(sys.argv[2])
split = "6 | 0:0,1,2,3,4,5 0:0,1,2,3,4"
alike = "0:0,1,4,10,3,7 " * 3 + "0:0,3,5,6,4,10 0:0,11,4,3,10,8 0:0,5,1,6,7,2 0:0,3,5,2,6,11 0:0,10,11,1,6,9"
late = "0:0,4,7,8,9,5 0:0,6,9,8,11 0:0,7,9,11 0:0,10,1,3 0:0,11,10,8,7,9 0:0,1,3,2,11,6 0:0,7,9,11 0:0,4,10,8,2,7"
elements = [
    ("no LUT", 20000, f"{split} | "),
    ("a LUT6 alone", 20000, f"{split} | 0:123456789abcdef0:0,1,2,3,4,5"),
    ("LUT5 beside LUT5", 20000, f"{split} | 0:80000000:0,1,2,3,4 1:fffffffe:0,1,2,3,4"),
    ("eight BELs, two disagree", 4, f"12 | {alike} | 0:2:7 1:1:7 " + " ".join(f"{i}:2:7" for i in range(2, 8))),
    ("eight BELs, dearest found", 4, f"12 | {late} | " + " ".join(f"{i}:{b}:0" for i, b in enumerate("10230313"))),
]

def took(element, times):
    with open("elements", "w") as file:
        file.write(f"x | element*{times} | {element}\n")
    start = time.perf_counter()
    subprocess.run([planner], stdout=subprocess.DEVNULL, check=True)
    return time.perf_counter() - start

one, many = {}, {}
for _ in range(runs):
    for name, times, element in elements:
        one.setdefault(name, []).append(took(element, 1))
        many.setdefault(name, []).append(took(element, times + 1))
print(f"{runs} runs each, load {os.getloadavg()[0]:.1f}")
print(f"{'element':28}{'least us':>10}{'median us':>11}")
for name, times, _ in elements:
    least, median = (1e6 * (at(many[name]) - at(one[name])) / times for at in (min, statistics.median))
    print(f"{name:28}{least:10.2f}{median:11.2f}")
END
