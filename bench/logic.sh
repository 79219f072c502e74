#!/usr/bin/env bash
# Times `ix_logic_cases count`, which reads a logical netlist by `ix_logic_read::read_netlist`, against a plain Rust reader of
# the same record (logic.rs), on netlists of one cell of three sizes and of three levels (make_netlist.py).
#
# usage: bench/logic.sh [READER] [INSTANCES] [RUNS]
#
# READER is the built program (crates/ix_logic_cases/out/ix_logic_cases, after `rt run` in its folder). The largest cell has
# INSTANCES instances (2^20). Each command runs RUNS times (9), and on the smallest netlist 41 times.
set -eu
reader=$(realpath "${1:-$(dirname "${BASH_SOURCE[0]}")/../crates/ix_logic_cases/out/ix_logic_cases}")
most=${2:-1048576}
runs=${3:-9}
source "$(dirname "${BASH_SOURCE[0]}")/common.sh"

rustc --edition 2024 -O -o logic "$here/logic.rs"
for made in "levels 16 41" "levels 16384 $runs" "flat $((most / 16)) $runs" "flat $((most / 4)) $runs" "flat $most $runs"; do
    read -r shape size runs <<<"$made"
    echo "$shape $size: $(python3 "$here/make_netlist.py" "$shape" "$size" netlist), $runs runs each"
    # Both tell the same, and the file is cached.
    [ "$("$reader" count netlist)" == "$(./logic netlist)" ] || { echo "logic: they tell $size otherwise"; exit 1; }
    head_row
    measure 'read_netlist' "$reader" count netlist
    measure 'plain Rust' ./logic netlist
done
