#!/usr/bin/env bash
# Times searches of least paths by `ix_least::Search` against a search in plain Rust over a stock
# `BinaryHeap` with labels of the same size (least.rs): on grids of 1,000 x 1,000 points with costs 1
# to 8 and with cost 1, and on the node graph of a device of 192 logic tiles and 25 pads.
#
# usage: bench/least.sh SEARCHER GENERATOR [RUNS]
#
# SEARCHER is the proved program crates/ix_least_times/out/ix_least_times (after `rt run` in the
# crate's folder). GENERATOR is a Python program that writes a valid device: its words are how many
# logic tiles and how many pads there are, and the file. The two programs run in turn, RUNS times
# (9), in three batches. For each kind of searches it tells the median of each batch and how they
# compare, all runs together, and how many points were settled. The paths must be the same. Then, on
# corners of growing size of one grid, ten thousand short searches in the least corner. Where
# valgrind is there the instructions of each kind of searches without bounds are counted, too; those
# with bounds are left out, since the proved program also asks whether the bounds are consistent.
set -eu
usage='usage: bench/least.sh SEARCHER GENERATOR [RUNS]'
searcher=$(realpath "${1:?$usage}")
generator=$(realpath "${2:?$usage}")
runs=${3:-9}
source "$(dirname "${BASH_SOURCE[0]}")/common.sh"

make_searches() {
    python3 "$here/make_searches.py" "$@"
}

rustc --edition 2024 -O -A dead_code -o least "$here/least.rs"
for costs in mixed:8 open:1; do
    make_searches costs 1000 1000 "${costs#*:}" wall >${costs%:*}.costs
done
{
    make_searches pairs 1000 1000 far 10 1000 1000 wall
    make_searches pairs 1000 1000 near 10000 8 8 wall
    make_searches pairs 1000 1000 far:bounded 4 1000 1000 wall
} >mixed.searches
point() { # COLUMN ROW: the point of a grid of 1,000 columns inside its wall
    echo $((($2 + 1) * 1002 + $1 + 1))
}

{
    make_searches pairs 1000 1000 far 4 1000 1000 wall
    make_searches pairs 1000 1000 far:bounded 4 1000 1000 wall
    make_searches pairs 1000 1000 row 4 1000 1 wall
    make_searches pairs 1000 1000 row:bounded 4 1000 1 wall
    for kind in oblong oblong:bounded; do
        echo "$kind $(point 400 400)-$(point 550 450)"
    done
} >open.searches
python3 "$generator" 192 25 device
# Its nodes are 2,331 lines, from each of which PIPs lead to 5,785 inputs.
make_searches costs 8116 1 8 >nodes.costs
make_searches pairs_from 2331 8116 line_to_input 1000 >nodes.searches

words() { # NAME [SEARCHES]: the words of both programs for a graph of this name
    echo "$1.costs ${2:-$1.searches}"
    [ "$1" = nodes ] && echo device || true
}

time_both() { # NAME BATCH: one run of each program, their lines behind the name and the batch
    for program in "$searcher" ./least; do
        # shellcheck disable=SC2046
        "$program" $(words "$1") >paths.$(basename "$program") 2>times
        sed "s/^/$1 $2 $(basename "$program") /" times >>all_times
    done
    cmp paths.$(basename "$searcher") paths.least
}

: >all_times
for batch in 1 2 3; do
    echo "batch $batch, $runs runs each, load $(cut -d' ' -f1 /proc/loadavg)"
    for _ in $(seq "$runs"); do
        for name in mixed open nodes; do time_both $name $batch; done
    done
done
python3 "$here/least_table.py" all_times

echo
echo "ten thousand short searches in a corner of 200 x 200 points, by the side of the grid; $runs runs each"
row side 'median s' 'least s' paths settled
for side in 250 500 1000 2000; do
    make_searches costs $side $side 8 wall >corner.costs
    make_searches pairs 200 200 near 10000 8 8 $side wall >corner.searches
    for _ in $(seq "$runs"); do "$searcher" corner.costs corner.searches; done >paths 2>times
    ./least corner.costs corner.searches >line 2>settled
    read -r middle least < <(awk '{ print $2 }' times | sort -n |
        awk '{ t[NR] = $1 / 1e6 } END { print t[int((NR + 1) / 2)], t[1] }')
    row $side "$middle" "$least" "$(awk '{ print $2; exit }' paths)" "$(awk '{ print $NF }' settled)"
    cp corner.costs corner$side.costs
    cp corner.searches corner$side.searches
done

if ! command -v valgrind >line; then exit; fi

instructions() { # COMMAND..: how many instructions a command takes
    valgrind --tool=cachegrind --cache-sim=no --cachegrind-out-file=/dev/null "$@" 2>&1 >line |
        awk '/I +refs/ { gsub(",", "", $NF); print $NF }'
}

searching() { # NAME PROGRAM: the instructions that the searches of the file `kind` take
    # shellcheck disable=SC2046
    echo $(($(instructions "$2" $(words "$1" kind)) - $(instructions "$2" $(words "$1" /dev/null))))
}

echo
echo 'instructions of the searches'
row kind proved plain ratio
for name in mixed open nodes corner250 corner500 corner1000 corner2000; do
    grep -v '^[^ ]*:bounded ' $name.searches >free
    while read -r line; do
        echo "$line" >kind
        proved=$(searching $name "$searcher")
        plain=$(searching $name ./least)
        row "$name ${line%% *}" "$proved" "$plain" "$(awk "BEGIN { printf \"%.3f\", $proved / $plain }")"
    done <free
done
