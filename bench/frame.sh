#!/usr/bin/env bash
# Times `ixflow flow` on a long design of structs and texts against a plain Rust program that walks it. `flow` keeps the
# design's numbers besides.
#
# usage: bench/frame.sh IXFLOW [MEGABYTES] [RUNS]
#
# The design (100 megabytes where no size is given) is made by make_design.py; the other program is walk.rs, built by
# `rustc -O`. Each command runs RUNS times (9).
set -eu
ixflow=$(realpath "${1:?usage: bench/frame.sh IXFLOW [MEGABYTES] [RUNS]}")
megabytes=${2:-100}
runs=${3:-9}
source "$(dirname "${BASH_SOURCE[0]}")/common.sh"

rustc --edition 2024 -O -o walk "$here/walk.rs"
python3 "$here/make_design.py" "$megabytes" >design
python3 -c 'import struct, sys; sys.stdout.buffer.write(struct.pack("<2IQ", 0, 1, 0))' >device

cat design >/dev/null # so that the file is cached
size=$(stat -c %s design)
echo "a design of $size bytes, $runs runs each"
head_row
measure 'ixflow flow' "$ixflow" flow device design routed
measure 'plain Rust' ./walk device design
