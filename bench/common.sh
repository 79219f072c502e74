# What the scripts beside this one share; they read it by `source`. Sets `here`, this folder, and goes to a new folder that is
# removed at the end, so words that name files are made whole (`realpath`) before.
set -eu
here=$(cd "$(dirname "${BASH_SOURCE[0]}")" && pwd)
work=$(mktemp -d)
trap 'rm -rf "$work"' EXIT
cd "$work"

row() { # NAME MEDIAN LEAST CPU PEAK
    printf '%-28s %9s %9s %9s %9s\n' "$@"
}

head_row() {
    row command 'median s' 'least s' 'cpu s' 'peak MiB'
}

measure() { # NAME COMMAND..: times a command that runs `runs` times
    name=$1
    shift
    read -r middle least busy memory < <(python3 "$here/measure.py" "$runs" 0 "$@")
    row "$name" "$middle" "$least" "$busy" "$memory"
}

alone() { # COMMAND..: the median and the least of `runs` times that a command tells on standard error, as `.. in N us`
    for ((i = 0; i < runs; i++)); do
        "$@" 2>&1 >/dev/null
    done | awk '{ print $3 }' | sort -n | awk '{ t[NR] = $1 } END { print t[int((NR + 1) / 2)], t[1] }'
}

instructions() { # COMMAND..: how many instructions a command takes
    valgrind --tool=cachegrind --cache-sim=no --cachegrind-out-file=/dev/null "$@" 2>&1 >line |
        awk '/I +refs/ { gsub(",", "", $NF); print $NF }'
}
