#!/usr/bin/env bash
# Times `ixflow flow` on a long device against `cat` of the same file, and against a plain Rust program that reads it
# whole (walk.rs).
#
# usage: bench/copy.sh IXFLOW [MIB] [RUNS]
#
# The device is one segment of MIB MiB (256 where none is given) whose root pointer is zero, so that `flow` reads the file
# to its end and has nothing else to do with it. Each command runs RUNS times (9).
set -eu
ixflow=$(realpath "${1:?usage: bench/copy.sh IXFLOW [MIB] [RUNS]}")
mib=${2:-256}
runs=${3:-9}
source "$(dirname "${BASH_SOURCE[0]}")/common.sh"

python3 - "$mib" <<'END'
import os, struct, sys
words = int(sys.argv[1]) << 17
with open("device", "wb") as file:
    file.write(struct.pack("<2IQ", 0, words - 1, 0))
    left = 8 * (words - 2)
    piece = os.urandom(1 << 20)
    while left:
        left -= file.write(piece[:left])
with open("design", "wb") as file:
    words = [8 << 32, 5 << 48, 0, 0, 0, 5 | 14 << 32, 5 | 7 << 32, 0, 4]
    file.write(struct.pack("<9Q", *words))
END

rustc --edition 2024 -O -o walk "$here/walk.rs"
cat device >copy # so that the file is cached
size=$(stat -c %s device)
echo "a device of $size bytes ($mib MiB), $runs runs each"
head_row
measure 'ixflow flow' "$ixflow" flow device design routed
measure 'plain Rust' ./walk device design
measure 'cat to nowhere' cat device
measure 'cat to a file' sh -c 'cat device >copy'
