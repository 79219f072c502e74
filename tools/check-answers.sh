#!/usr/bin/env bash
# Works out the answers to cases anew, by programs apart from ours, and compares them with the stored output of the programs
# that try the cases: LUT elements, occupancy, ports with groups and counts, words of command lines, least paths, physical
# and logical netlists, flat designs, rules of physical netlists, what `check` prints; where rustc is there also paths in the
# node graph of a device.
set -u
top=$(cd "$(dirname "$0")/.." && pwd) || exit 1
command -v python3 >/dev/null || { echo "check-answers: skipped, there is no python3"; exit 0; }
failed=0
"$top/tools/lut_cases.py" check || failed=1
"$top/tools/occupy_cases.py" check || failed=1
"$top/tools/words_cases.py" check || failed=1
"$top/tools/phys_cases.py" check || failed=1
"$top/tools/belmap_cases.py" check || failed=1
"$top/tools/logic_cases.py" check || failed=1
"$top/tools/flat_cases.py" check || failed=1
"$top/tools/rules_cases.py" check || failed=1
"$top/tools/check_cases.py" check || failed=1
least=$top/crates/ix_least_cases
if ! "$top/tools/least_cases.py" <"$least/data/grid" | cmp -s - "$least/stdout"; then
    echo "crates/ix_least_cases/stdout isn't what tools/least_cases.py answers"
    failed=1
fi
work=$(mktemp -d) || exit 1
trap 'rm -rf "$work"' EXIT
if rustc --edition 2024 -O -A dead_code -o "$work/least" "$top/bench/least.rs" 2>"$work/errors"; then
    times=$top/crates/ix_least_times
    if ! (cd "$times/data" && "$work/least" costs searches device) 2>"$work/times" | cmp -s - "$times/stdout"; then
        echo "crates/ix_least_times/stdout isn't what bench/least.rs answers"
        failed=1
    fi
else
    echo "check-answers: paths in a node graph are skipped, bench/least.rs isn't built here"
fi
[ "$failed" -eq 0 ] && echo "check-answers: the tables of answers are as they are worked out"
[ "$failed" -eq 0 ]
