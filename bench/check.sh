#!/usr/bin/env bash
# Times `ixflow check` on the strips of make_strips.py, a legal netlist that realizes its design, in three sizes, beside what it
# can't do without: reading the device and the netlist (`ix_rules_cases time .. none`), reading the design (`ix_logic_cases
# count`), and judging the netlist by `first_broken` (`ix_rules_cases time .. routed`, that part alone).
#
# usage: bench/check.sh [CRATES] [SEGMENTS] [RUNS]
#
# CRATES is the folder of crates with the built programs (../crates beside this script). The largest netlist has SEGMENTS
# segments (2,000,000). Each command runs RUNS times (9). At last stands how many times the sum of the parts `check` takes, by
# processor time.
set -eu
crates=$(realpath "${1:-$(dirname "${BASH_SOURCE[0]}")/../crates}")
most=${2:-2000000}
runs=${3:-9}
source "$(dirname "${BASH_SOURCE[0]}")/common.sh"

program() {
    echo "$crates/$1/out/$1"
}

part() { # NAME COMMAND..: a row of a command, whose processor time is added to the sum
    name=$1
    shift
    read -r middle least busy memory < <(python3 "$here/measure.py" "$runs" "$status" "$@" 2>/dev/null)
    row "$name" "$middle" "$least" "$busy" "$memory"
    sum=$(awk "BEGIN { print $sum + $busy }")
}

for less in 16 4 1; do
    made=$(python3 "$here/make_strips.py" strips $((most / less)) device netlist design)
    echo "$made, a design of $(stat -c %s design); load $(cut -d' ' -f1 /proc/loadavg)"
    [ "$("$(program ixflow)" check device design netlist)" == yes ] || { echo "check: it isn't accepted"; exit 1; }
    head_row
    sum=0
    status=1
    part 'device and netlist' "$(program ix_rules_cases)" time device netlist none
    status=0
    part 'design' "$(program ix_logic_cases)" count design
    read -r middle least < <(alone "$(program ix_rules_cases)" time device netlist routed)
    row 'first_broken, us' "$middle" "$least" '' ''
    sum=$(awk "BEGIN { print $sum + $middle / 1000000 }")
    read -r middle least busy memory < <(python3 "$here/measure.py" "$runs" 0 "$(program ixflow)" check device design netlist)
    row check "$middle" "$least" "$busy" "$memory"
    awk "BEGIN { printf \"check takes %.2f times the parts\\n\", $busy / $sum }"
done
