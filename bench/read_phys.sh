#!/usr/bin/env bash
# Times a program that reads a physical netlist by `ix_phys_read::read_phys` against a plain Rust reader of the same record
# (read_phys.rs), on netlists of three sizes (make_phys.py), and on a deep and a broad one.
#
# usage: bench/read_phys.sh READER [SEGMENTS] [RUNS]
#
# READER is a built program that reads the netlist that its word names, and ends with status 0; docs/PERFORMANCE.md says
# how the one that was measured was made. The largest netlists have SEGMENTS segments (2,000,000). Each command runs RUNS
# times (9).
set -eu
reader=$(realpath "${1:?usage: bench/read_phys.sh READER [SEGMENTS] [RUNS]}")
most=${2:-2000000}
runs=${3:-9}
source "$(dirname "${BASH_SOURCE[0]}")/common.sh"

rustc --edition 2024 -O -o read_phys "$here/read_phys.rs"
for made in "nets $((most / 16))" "nets $((most / 4))" "nets $most" "chain $most" "row $most"; do
    read -r shape segments <<<"$made"
    echo "$shape: $(python3 "$here/make_phys.py" "$shape" "$segments" netlist), $runs runs each"
    cat netlist >/dev/null # so that the file is cached
    head_row
    measure 'read_phys' "$reader" netlist
    measure 'plain Rust' ./read_phys netlist
done
