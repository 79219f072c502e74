#!/usr/bin/env bash
# Times a program that builds the node graph of a device by `ix_graph::NodeGraph::build` against a plain Rust program that
# joins the same nodes and makes the same rows of edges by a counting sort (graph.rs).
#
# usage: bench/graph.sh BUILDER GENERATOR [RUNS]
#
# BUILDER is a built program that reads and checks the device that its first word names and builds its graph, prints how long
# each took (`read N us, checked N us, built N us, N nodes, N edges`), and ends with status 0. With the second word `check` it
# ends after checking; with `fold` it also prints what the edges come to, as graph.rs does. docs/PERFORMANCE.md says how the
# one that was measured was made. GENERATOR is a Python program that writes a valid device: its words are how many logic tiles
# and how many pads there are, and the file. Each command runs RUNS times (9).
#
# Told are the median of the printed times of building, or of joining and sorting; the least of them; the processor time that
# the whole program takes more than one that ends before building, or before joining; and the peak memory of both. Where
# valgrind is there, the instructions of building, joining and sorting are counted on the device of 48 tiles.
set -eu
usage='usage: bench/graph.sh BUILDER GENERATOR [RUNS]'
builder=$(realpath "${1:?$usage}")
generator=$(realpath "${2:?$usage}")
runs=${3:-9}
source "$(dirname "${BASH_SOURCE[0]}")/common.sh"

row() {
    printf '%-24s %9s %9s %9s %9s %9s\n' "$@"
}

told() { # WORD..: the median and the least of the times that stand behind these words in a line of `times`, in seconds
    awk -v words="$*" '{
        t = 0
        for (i = split(words, word, " "); i > 0; i--)
            if (match($0, word[i] " [0-9]+")) t += substr($0, RSTART + length(word[i]) + 1)
        print t
    }' times | sort -n | awk '{ t[NR] = $1 } END { printf "%.4f %.4f\n", t[int((NR + 1) / 2)] / 1e6, t[1] / 1e6 }'
}

peak() { # COMMAND..: the peak memory of one run, in MiB
    /usr/bin/time -f %M -o peak "$@" >line
    awk '{ printf "%.1f", $1 / 1024 }' peak
}

measure() { # NAME WORDS BEFORE COMMAND..: the times behind WORDS; with the word BEFORE the command ends before them
    name=$1 words=$2 before=$3
    shift 3
    for _ in $(seq "$runs"); do "$@" device; done >times
    read -r middle least < <(told $words)
    read -r _ _ whole _ < <(python3 "$here/measure.py" "$runs" 0 "$@" device)
    read -r _ _ idle _ < <(python3 "$here/measure.py" "$runs" 0 "$@" device "$before")
    busy=$(awk "BEGIN { printf \"%.3f\", $whole - $idle }")
    row "$name" "$middle" "$least" "$busy" "$(peak "$@" device)" "$(peak "$@" device "$before")"
}

count() { # NAME BEFORE COMMAND..: the instructions that a command takes more than where it ends before
    name=$1 before=$2
    shift 2
    echo "$name: $(($(instructions "$@" device) - $(instructions "$@" device "$before"))) instructions"
}

rustc --edition 2024 -O -A dead_code -o graph "$here/graph.rs"
for size in '16 3' '48 7' '192 25' '256 33'; do
    read -r tiles pads <<<"$size"
    python3 "$generator" "$tiles" "$pads" device
    echo "$tiles logic tiles, $pads pads: $(stat -c %s device) bytes; load $(cut -d' ' -f1 /proc/loadavg)"
    "$builder" device fold >line
    ./graph device fold >line2
    grep -o '[0-9]* nodes, [0-9]* edges' line
    if [ "$(grep -o 'fold .*' line)" != "$(grep -o 'fold .*' line2)" ]; then
        echo 'the edges differ' >&2
        exit 1
    fi
    row command 'median s' 'least s' 'cpu s' 'peak MiB' 'before'
    measure 'NodeGraph::build' built check "$builder"
    measure 'plain Rust' 'joined sorted' names ./graph
    row '  joining' $(told joined) '' '' ''
    row '  sorting' $(told sorted) '' '' ''
    if [ "$tiles" = 48 ] && command -v valgrind >line; then
        count 'NodeGraph::build' check "$builder"
        count 'plain Rust' names ./graph
        count 'plain Rust, sorting' join ./graph
    fi
done
