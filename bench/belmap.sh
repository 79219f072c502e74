#!/usr/bin/env bash
# Times `ix_belmap::groups` and `fixed_pins` on designs whose port cells share a net.
#
# usage: bench/belmap.sh CASES [RUNS]
#
# CASES is the built program of `ix_belmap_cases` (crates/ix_belmap_cases/out/ix_belmap_cases, after
# `rt run` in its folder). Each design has N port cells of one bus and N other cells, all on one net.
# A call's time is that of the whole program with the question less that of one that asks nothing,
# so checks of the call's conditions count too. Told are the least and the median of RUNS runs (9).
set -eu
cases=$(realpath "${1:?usage: bench/belmap.sh CASES [RUNS]}")
runs=${2:-9}
source "$(dirname "${BASH_SOURCE[0]}")/common.sh"
cp "$here/../crates/ix_belmap_cases/data/pads" pads

python3 - "$cases" "$runs" <<'END'
import os, statistics, subprocess, sys, time

cases, runs = sys.argv[1], int(sys.argv[2])
sizes = [25000, 50000, 100000, 200000]
kinds = [
    ("groups, all may join", "number of groups", "OBUF"),
    ("groups, none may join", "number of groups", "FD"),
    ("fixed ports", "fixed", "FD"),
    ("first short", "short", "OBUF"),
]

def took(question, size, kind):
    with open("cases", "w") as file:
        file.write(
            f"x | {question} | bus z out {size - 1} 0 PACKAGE_PIN[7] text 1 | ports {size}"
            f" | outputs {size} 0 | members {kind} {size} 0 | net a\n"
        )
    start = time.perf_counter()
    subprocess.run([cases], stdout=subprocess.DEVNULL, check=True)
    return time.perf_counter() - start

print(f"{runs} runs each, load {os.getloadavg()[0]:.1f}")
print(f"{'call':24}{'port cells':>12}{'least s':>10}{'median s':>10}")
for name, question, kind in kinds:
    for size in sizes:
        none = [took("none", size, kind) for _ in range(runs)]
        asked = [took(question, size, kind) for _ in range(runs)]
        least, median = (at(asked) - at(none) for at in (min, statistics.median))
        print(f"{name:24}{size:12}{least:10.3f}{median:10.3f}")
END
