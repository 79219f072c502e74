#!/usr/bin/env bash
# Lets ixflow read files at the limit of 2^30 bytes, which takes too long for the gate.
#
# usage: tools/try-big-file.sh IXFLOW
#
# Needs 1 GiB of memory. The files are sparse and take no room on the disk.
set -u
ixflow=$(realpath "${1:?usage: tools/try-big-file.sh IXFLOW}")
here=$(cd "$(dirname "$0")/.." && pwd)
work=$(mktemp -d) || exit 1
trap 'rm -rf "$work"' EXIT
cd "$work" || exit 1
printf '\0\0\0\0\1\0\0\0\0\0\0\0\0\0\0\0' >small
printf '%b' '\0\0\0\0\10\0\0\0\0\0\0\0\0\0\5\0' >design
head -c 24 /dev/zero >>design
printf '%b' '\5\0\0\0\16\0\0\0\5\0\0\0\7\0\0\0\0\0\0\0\0\0\0\0\4\0\0\0\0\0\0\0' >>design
# A frame of 2^30 bytes: one segment of 2^27 - 1 words.
printf '\0\0\0\0\377\377\377\7' >most
truncate -s 1073741824 most
cp --sparse=always most more
truncate -s 1073741825 more
failed=0

check() { # STATUS LINE DEVICE DESIGN
    printed=$("$ixflow" flow "$3" "$4" routed)
    status=$?
    if [ "$printed" = "$2" ] && [ "$status" = "$1" ]; then
        echo "ok: $3 and $4: $2"
    else
        echo "try-big-file: $3 and $4: wanted '$2' and status $1, got '$printed' and status $status"
        failed=1
    fi
}

check 3 "design: F1 at file" most /dev/null
check 3 "device: F9 at file" more small
check 3 "design: F9 at file" small more
check 3 "device: F9 at file" /dev/zero small
check 0 "done: 0 cells, 0 clusters, 0 nets, 0 pips, trial 1, rounds 1" most design
read -r middle least busy memory < <(python3 "$here/bench/measure.py" 1 3 "$ixflow" flow /dev/zero small routed)
echo "reading a file without an end: $middle s, $memory MiB at most"
exit $failed
