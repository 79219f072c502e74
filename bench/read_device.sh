#!/usr/bin/env bash
# Times a program that reads a device by `ix_device_read::read_device` against a plain Rust reader of the same record
# (read_device.rs).
#
# usage: bench/read_device.sh READER DEVICE [RUNS]
#
# READER is a built program that reads the device that its word names, and ends with status 0; docs/PERFORMANCE.md says
# how the one that was measured was made. DEVICE is a device file without faults. Each command runs RUNS times (9).
set -eu
reader=$(realpath "${1:?usage: bench/read_device.sh READER DEVICE [RUNS]}")
device=$(realpath "${2:?usage: bench/read_device.sh READER DEVICE [RUNS]}")
runs=${3:-9}
source "$(dirname "${BASH_SOURCE[0]}")/common.sh"

rustc --edition 2024 -O -o read_device "$here/read_device.rs"
cat "$device" >/dev/null # so that the file is cached
size=$(stat -c %s "$device")
echo "a device of $size bytes, $runs runs each"
head_row
measure 'read_device' "$reader" "$device"
measure 'plain Rust' ./read_device "$device"
