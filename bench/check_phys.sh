#!/usr/bin/env bash
# Times `ix_rules_cases time`, which judges a physical netlist by `ix_rules::first_broken`, against plain Rust that makes the
# same passes with the same tables (check_phys.rs), on legal netlists of several shapes, each in three sizes (make_strips.py).
#
# usage: bench/check_phys.sh [CHECKER] [SEGMENTS] [RUNS]
#
# CHECKER is the built program (crates/ix_rules_cases/out/ix_rules_cases, after `rt run` in its folder). The largest netlists
# have SEGMENTS segments (2,000,000), half as many where each is a net, and a two-hundredth where each net has a cell. Both read
# the device and the netlist first.
#
# Printed are the median and the least time of judging alone, of RUNS runs (9); the processor time and the peak memory of the
# whole program; the peak memory of one that ends after reading, and how many bytes a segment the first takes more; and,
# where valgrind is there and the netlist isn't the largest, the instructions of judging a segment.
set -eu
checker=$(realpath "${1:-$(dirname "${BASH_SOURCE[0]}")/../crates/ix_rules_cases/out/ix_rules_cases}")
most=${2:-2000000}
runs=${3:-9}
source "$(dirname "${BASH_SOURCE[0]}")/common.sh"

row() {
    printf '%-14s %9s %9s %8s %9s %9s %9s %9s\n' "$@"
}

measure() { # NAME COMMAND..: a command to which a level is added; with another word it ends after reading
    name=$1
    shift
    read -r middle least < <(alone "$@" routed)
    read -r _ _ busy whole < <(python3 "$here/measure.py" "$runs" 0 "$@" routed 2>/dev/null)
    read -r _ _ _ reading < <(python3 "$here/measure.py" "$runs" 1 "$@" none 2>/dev/null)
    bytes=$(awk "BEGIN { printf \"%.1f\", ($whole - $reading) * 1048576 / $segments }")
    each=
    if [ "$part" -gt 1 ] && command -v valgrind >line; then
        each=$((($(instructions "$@" routed) - $(instructions "$@" none)) / segments))
    fi
    row "$name" "$middle" "$least" "$busy" "$whole" "$reading" "$bytes" "$each"
}

rustc --edition 2024 -O -A dead_code -o check_phys "$here/check_phys.rs"
for kind in 'strips 1' 'chain 1' 'row 1' 'single 2' 'sparse 200'; do
    read -r shape less <<<"$kind"
    for part in 16 4 1; do
        segments=$((most / less / part))
        made=$(python3 "$here/make_strips.py" "$shape" "$segments" device netlist)
        echo "$shape: $made; load $(cut -d' ' -f1 /proc/loadavg)"
        # Both tell the same, and the files are cached.
        for level in placed routed; do
            [ "$("$checker" time device netlist "$level" 2>line)" == "$(./check_phys device netlist "$level" 2>line)" ] ||
                { echo "check_phys: they tell $shape otherwise"; exit 1; }
        done
        row command 'median us' 'least us' 'cpu s' 'peak MiB' 'reading' 'B each' 'instr'
        measure 'first_broken' "$checker" time device netlist
        measure 'plain Rust' ./check_phys device netlist
    done
done
