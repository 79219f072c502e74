#!/usr/bin/env bash
# Lets Cap'n Proto's own encoder write designs and devices, in one segment and in several, and lets ixflow read them.
# Segments with pads of both kinds are made by split_segments.py, and read back by Cap'n Proto's decoder before ixflow sees
# them.
#
# usage: tools/check-capnp.sh [IXFLOW]
#
# IXFLOW is the built program; where none is given it is built. So is the program of cases of logical netlists, which tells all
# that a design says: that is what tools/logic_cases.py tells of the encoder's file. Without `capnp` (Debian: capnproto)
# nothing is checked.
set -u
top=$(cd "$(dirname "$0")/.." && pwd) || exit 1
for tool in capnp python3; do
    command -v "$tool" >/dev/null || { echo "check-capnp: skipped, there is no $tool"; exit 0; }
done
ixflow=${1:-$top/crates/ixflow/out/ixflow}
reader=$top/crates/ix_logic_cases/out/ix_logic_cases
for program in "$ixflow" "$reader"; do
    [ -x "$program" ] && continue
    name=$(basename "$program")
    command -v rt >/dev/null || { echo "check-capnp: skipped, $name isn't built"; exit 0; }
    (cd "$top/crates/$name" && rt run >/dev/null 2>&1)
    [ -x "$program" ] || { echo "check-capnp: $name can't be built"; exit 1; }
done
schema=$top/examples/schema/netlist.capnp
devices=$top/examples/schema/device.capnp
split=$top/tools/split_segments.py
work=$(mktemp -d) || exit 1
trap 'rm -rf "$work"' EXIT
cd "$work" || exit 1
printf '\0\0\0\0\1\0\0\0\0\0\0\0\0\0\0\0' >device
checked=0
failed=0

# Whether ixflow prints this line for the file `design`.
check() { # NAME STATUS LINE
    printed=$("$ixflow" flow device design routed)
    status=$?
    checked=$((checked + 1))
    if [ "$printed" != "$3" ] || [ "$status" != "$2" ]; then
        echo "check-capnp: $1: wanted '$3' and status $2, got '$printed' and status $status"
        failed=$((failed + 1))
    fi
}

# Whether the record of the file `design` is told by this line.
check_record() { # NAME LINE
    printed=$("$reader" tell design)
    checked=$((checked + 1))
    if [ "$printed" != "$2" ]; then
        echo "check-capnp: $1: wanted '$2', got '$printed'"
        failed=$((failed + 1))
    fi
}

# Encodes a design in many ways, and checks the line of each, and what is told of its record.
design() { # NAME STATUS LINE, the message as text on standard input
    encode_design "$1" check "$2" "$3"
    # A file that is cut is no frame.
    head -c -1 whole >design
    check "$1, cut by a byte" 3 "design: F1 at file"
}

# Encodes a design in many ways, and checks what is told of its record alone.
netlist() { # NAME, the message as text on standard input
    encode_design "$1" true
}

# Encodes a design in many ways, and with each checks its record and calls a check with the design's name and more words.
encode_design() { # NAME CHECK WORDS.., the message as text on standard input
    local name=$1 also=$2 record
    shift 2
    cat >text
    capnp encode "$schema" Netlist <text >whole || { failed=$((failed + 1)); return; }
    capnp decode --quiet "$schema" Netlist <whole >wanted
    record=$("$top/tools/logic_cases.py" tell whole)
    check_way() { # WAY
        check_record "$name$1" "$record"
        "$also" "$name$1" "${@:2}"
    }
    cp whole design
    check_way "" "$@"
    # This encoder begins a new segment where an object doesn't fit the last one.
    for words in 1 2 3 5 8 13; do
        capnp encode --segment-size=$words "$schema" Netlist <text >design
        check_way ", segments of $words words" "$@"
    done
    # Cap'n Proto's own reader takes at most 511 segments.
    for mode in one two mixed near; do
        for segments in 1 3 511; do
            python3 "$split" $segments $mode <whole >design
            if ! capnp decode --quiet "$schema" Netlist <design 2>/dev/null | cmp -s - wanted; then
                echo "check-capnp: $name: $segments segments, pads '$mode': capnp reads another message"
                failed=$((failed + 1))
            fi
            check_way ", $segments segments, pads '$mode'" "$@"
        done
    done
}

done_line="done: 0 cells, 0 clusters, 0 nets, 0 pips, trial 1, rounds 1"

design "a top alone" 0 "$done_line" <<'END'
(strList = ["top"], cellDecls = [(name = 0)])
END
design "a top with its cell" 0 "$done_line" <<'END'
(name = "design", topInst = (name = 1, cell = 1), strList = ["", "top", "déjà vu €"], cellDecls = [(name = 2), (name = 1)],
 cellList = [(index = 1)])
END
design "instances that nothing uses" 0 "$done_line" <<'END'
(name = "a name of more than a word", topInst = (name = 0, cell = 0), strList = ["top", "u0", "u1", "leaf"],
 cellDecls = [(name = 0), (name = 3)], instList = [(name = 1, cell = 1), (name = 2, cell = 1)], cellList = [(index = 0)])
END
# The device has no cell types, and so no type of leaves and no BEL for ports.
design "a top with an instance" 3 "design: N9 at u0" <<'END'
(name = "design", topInst = (name = 0, cell = 0), strList = ["top", "u0", "leaf"],
 cellDecls = [(name = 0), (name = 2)], instList = [(name = 1, cell = 1)], cellList = [(index = 0, insts = [0])])
END
design "a top with a port and a net" 4 'too few bels: $PORT_IN needs 4 of 0' <<'END'
(name = "design", topInst = (name = 0, cell = 0), strList = ["top", "p", "n"],
 cellDecls = [(name = 0, ports = [0])], portList = [(name = 1, dir = 0, kind = 1, busStart = 3, busEnd = 0)],
 cellList = [(index = 0, nets = [(name = 2, portInsts = [(port = 0, busTag = 1, idx = 2)])])])
END
design "a property" 0 "$done_line" <<'END'
(strList = ["top", "key"], cellDecls = [(name = 0)], propMap = (entries = [(key = 1, tag = 1, value = 7)]))
END

# Three levels, with buses, and properties of each kind.
texts='"top", "a", "z", "block", "leaf", "n0", "n1", "INIT", "4'"'"'h6"'
ports='(name = 1, dir = 0, kind = 1, busStart = 3), (name = 2, dir = 1), (name = 1, dir = 2),
    (name = 2, dir = 1, kind = 1, busEnd = 1, propMap = (entries = [(key = 7, tag = 1, value = 9)]))'
cells='(index = 0, insts = [0, 1], nets = [
    (name = 5, portInsts = [(port = 0, busTag = 1, idx = 3), (port = 2, ownerTag = 1, inst = 1)]),
    (name = 6, portInsts = [(port = 1)])]),
    (index = 1, insts = [2], nets = [
    (name = 5, portInsts = [(port = 2), (port = 3, busTag = 1, idx = BIT, ownerTag = 1, inst = INST)])])'
levels() { # BIT INST
    local found=${cells/BIT/$1}
    echo "(name = \"three levels\", strList = [$texts], topInst = (name = 0, cell = 0)," \
        "propMap = (entries = [(key = 7, value = 8), (key = 8, tag = 2, value = 1), (key = 7, tag = 1, value = 4294967295)])," \
        "cellDecls = [(name = 0, ports = [0, 1]), (name = 3, ports = [2]), (name = 4, ports = [3])], portList = [$ports]," \
        "instList = [(name = 1, cell = 1), (name = 2, cell = 1, propMap = (entries = [(key = 7, value = 8)]))," \
        "(name = 1, cell = 2), (name = 2, cell = 2)], cellList = [${found/INST/$2}])"
}
netlist "three levels" < <(levels 1 2)
netlist "an index past the bus" < <(levels 2 2)
netlist "an instance of another cell" < <(levels 1 3)
netlist "a port that the instance lacks" < <(levels 1 0)
netlist "no message" <<<"()"

# Encodes a device in many ways, and checks the line of each with the file `design`.
device() { # NAME STATUS LINE, the message as text on standard input
    cat >text
    capnp encode "$devices" Device <text >device || { failed=$((failed + 1)); return; }
    check "$1" "$2" "$3"
    for words in 1 2 3 5 8 13; do
        capnp encode --segment-size=$words "$devices" Device <text >device
        check "$1, segments of $words words" "$2" "$3"
    done
}

# A device of two tiles, each with a site that takes a driver on its one BEL.
strings='"SRC", "O", "OB", "T", "t0", "s0", "DRV", "t1", "s1"'
site_types='(name = 0, belPins = [(name = 1, dir = 1, bel = 2)], bels = [(name = 2, category = 0)])'
tile_types='(name = 3, siteTypes = [(primaryType = 0)])'
first_tile='(name = 4, type = 0, row = 0, col = 0, sites = [(name = 5, type = 0)])'
maps='(cell = 6, commonPins = [(siteTypes = [(siteType = 0, bels = [2])], pins = [(cellPin = 1, belPin = 1)])])'
drivers() { # NUMBER: a design of so many drivers without nets
    local names="" instances="" places="" i
    for ((i = 0; i < $1; i++)); do
        names="$names, \"d$i\""
        instances="$instances(name = $((i + 2)), cell = 1), "
        places="$places$i, "
    done
    echo "(strList = [\"top\", \"DRV\"$names], topInst = (name = 0, cell = 0), cellDecls = [(name = 0), (name = 1)]," \
        "instList = [${instances%, }], cellList = [(index = 0, insts = [${places%, }])])" |
        capnp encode "$schema" Netlist >design
}
two_tiles() { # SECOND_TILE
    echo "(name = \"part\", strList = [$strings], siteTypeList = [$site_types], tileTypeList = [$tile_types]," \
        "tileList = [$first_tile, $1], cellBelMap = [$maps])"
}
second_tile='(name = 7, type = 0, row = 0, col = 1, sites = [(name = 8, type = 0)])'

drivers 2
device "two drivers on two sites" 0 "done: 2 cells, 2 clusters, 0 nets, 0 pips, trial 1, rounds 1" < <(two_tiles "$second_tile")
device "two tiles of one name" 3 "device: M1 at Tile.name 1" < <(two_tiles "${second_tile/name = 7/name = 4}")
device "a tile of a type that isn't there" 3 "device: I1 at Tile.type 1" < <(two_tiles "${second_tile/type = 0/type = 1}")
drivers 3
device "three drivers on two sites" 4 "too few bels: DRV needs 3 of 2" < <(two_tiles "$second_tile")

if [ "$failed" -ne 0 ]; then
    echo "check-capnp: $failed of $checked checks failed"
    exit 1
fi
echo "check-capnp: $checked messages read as expected"
