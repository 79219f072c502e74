#!/usr/bin/env bash
# Times `ixflow flow` where it places cells by first fit, by the number of cells and by the number of cell types, and on a
# device of 200,000 sites without cells, there against plain Rust programs that read the device (read_device.rs), and that
# read and check it (check_device.rs).
#
# usage: bench/first_fit.sh IXFLOW [RUNS]
#
# The files are made by make_first.py: a tile has two sites and four BELs that take a cell. Each command runs RUNS times (9).
# The peak memory is what GNU time tells of one run more, since measure.py's counts what Python itself takes. The programs in
# plain Rust take no design and write nothing.
set -eu
usage='usage: bench/first_fit.sh IXFLOW [RUNS]'
ixflow=$(realpath "${1:?$usage}")
runs=${2:-9}
source "$(dirname "${BASH_SOURCE[0]}")/common.sh"

measure() { # NAME COMMAND..
    name=$1
    shift
    read -r middle least busy _ < <(python3 "$here/measure.py" "$runs" 0 "$@")
    /usr/bin/time -f %M -o peak "$@" >line
    memory=$(awk '{ printf "%.1f", $1 / 1024 }' peak)
    row "$name" "$middle" "$least" "$busy" "$memory"
}

make() { # TILES CELLS TYPES
    python3 "$here/make_first.py" "$1" "$2" "$3" device design
    echo "$2 cells of $3 types, $((2 * $1)) sites, $((4 * $1)) BELs that take a cell: a device of $(stat -c %s device) bytes, a design of $(stat -c %s design); load $(cut -d' ' -f1 /proc/loadavg)"
    head_row
}

fit() { # CELLS TYPES
    make $(($1 / 2)) "$1" "$2"
    measure 'ixflow flow' "$ixflow" flow device design routed
    echo "a netlist of $(stat -c %s routed) bytes: $(cat line)"
}

for cells in 2500 5000 10000 100000 400000; do
    fit "$cells" 1
done
for types in 10 100 1000; do
    fit 10000 "$types"
done
rustc --edition 2024 -O -A dead_code -o read_device "$here/read_device.rs"
rustc --edition 2024 -O -A dead_code -o check_device "$here/check_device.rs"
make 100000 0 1
measure 'ixflow flow' "$ixflow" flow device design routed
measure 'plain Rust, reading' ./read_device device
measure 'plain Rust, checking too' ./check_device device
