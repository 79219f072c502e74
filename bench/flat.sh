#!/usr/bin/env bash
# Times `ix_flatten_cases count`, which flattens a design by `ix_flatten::flatten`, against plain Rust that flattens in the
# same way (flat.rs), on a design of three levels with 1,602 cells and on 2^20 leaves under 1,000 blocks (make_netlist.py).
# The device has nothing but cell types.
#
# usage: bench/flat.sh [FLATTENER] [RUNS]
#
# FLATTENER is the built program (crates/ix_flatten_cases/out/ix_flatten_cases, after `rt run` in its folder). Both read the
# device and the design first. Printed are the figures of the whole command, and the median and the least time of flattening
# alone, of RUNS runs (9).
set -eu
flattener=$(realpath "${1:-$(dirname "${BASH_SOURCE[0]}")/../crates/ix_flatten_cases/out/ix_flatten_cases}")
runs=${2:-9}
source "$(dirname "${BASH_SOURCE[0]}")/common.sh"

rustc --edition 2024 -O -A dead_code -o flat "$here/flat.rs"
"$here/../tools/message.py" encode "$here/../examples/schema/device.capnp" <"$here/flat_device.json" >device
told() { # COMMAND..: the time of flattening alone
    read -r middle least < <(alone "$@" device netlist)
    echo "    flattening alone: $middle us, $least us"
}

for made in "levels 16" "blocks 1000"; do
    read -r shape size <<<"$made"
    echo "$shape $size: $(python3 "$here/make_netlist.py" "$shape" "$size" netlist), $runs runs each"
    # Both tell the same, and the file is cached.
    [ "$("$flattener" count device netlist 2>/dev/null)" == "$(./flat device netlist 2>/dev/null)" ] ||
        { echo "flat: they tell $size otherwise"; exit 1; }
    head_row
    measure 'flatten' "$flattener" count device netlist 2>/dev/null
    told "$flattener" count
    measure 'plain Rust' ./flat device netlist 2>/dev/null
    told ./flat
done
