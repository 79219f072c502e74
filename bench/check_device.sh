#!/usr/bin/env bash
# Times a program that reads a device and checks it by `ix_device::Device::check` against a plain Rust program that asks the
# same rules and keeps look-ups of the same things in `HashMap`s (check_device.rs).
#
# usage: bench/check_device.sh CHECKER GENERATOR [RUNS]
#
# CHECKER is a built program that reads and checks the device that its first word names, prints how long each took
# (`read N us, checked N us, ..`), only reads where there is a second word, and ends with status 0; docs/PERFORMANCE.md says
# how the one that was measured was made. GENERATOR is a Python program that writes a valid device: its words are how many
# logic tiles and how many pads there are, and the file. Each command runs RUNS times (9).
#
# Told are the medians of the printed times, and the processor time and the peak memory of the whole program and of reading
# alone. Their difference is what checking takes at most: its tables while rules are asked, or the look-ups that stay. It is
# told by tile wire too, where the device is large enough to show: a logic tile has 42 wires and a pad 2, and each has every
# line.
set -eu
usage='usage: bench/check_device.sh CHECKER GENERATOR [RUNS]'
checker=$(realpath "${1:?$usage}")
generator=$(realpath "${2:?$usage}")
runs=${3:-9}
source "$(dirname "${BASH_SOURCE[0]}")/common.sh"

middle() { # WORD: the median of the times that stand behind WORD in `times`, in seconds
    grep -o "$1 [0-9]*" times | cut -d' ' -f2 | sort -n |
        awk '{ t[NR] = $1 } END { printf "%.4f", t[int((NR + 1) / 2)] / 1e6 }'
}

measure() { # NAME COMMAND..
    name=$1
    shift
    for _ in $(seq "$runs"); do "$@" device; done >times
    read -r _ _ busy whole < <(python3 "$here/measure.py" "$runs" 0 "$@" device)
    read -r _ _ idle alone < <(python3 "$here/measure.py" "$runs" 0 "$@" device read)
    busy=$(awk "BEGIN { printf \"%.3f\", $busy - $idle }")
    each=$(awk "BEGIN { printf \"%.0f\", ($whole - $alone) * 1048576 / $tile_wires }")
    printf '%-16s %9s %9s %9s %9s %9s %9s\n' "$name" "$(middle read)" "$(middle checked)" "$busy" "$whole" "$alone" "$each"
}

rustc --edition 2024 -O -A dead_code -o check_device "$here/check_device.rs"
for size in '1 0' '1 2' '16 3' '48 7' '192 25' '768 100'; do
    read -r tiles pads <<<"$size"
    python3 "$generator" "$tiles" "$pads" device
    lines=$((12 * tiles + pads + 2))
    tile_wires=$((tiles * (42 + lines) + pads * (2 + lines)))
    echo "$tiles logic tiles, $pads pads: $(stat -c %s device) bytes, $tile_wires tile wires; load $(cut -d' ' -f1 /proc/loadavg)"
    printf '%-16s %9s %9s %9s %9s %9s %9s\n' command 'read s' 'checked s' 'cpu s' 'peak MiB' 'read MiB' 'B a wire'
    measure 'Device::check' "$checker"
    measure 'plain Rust' ./check_device
done
