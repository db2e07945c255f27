#!/bin/sh
# Time and peak memory of `replay` with 1, 2 and 4 workers, the least of five runs: for entries of
# one update over 1,000 keys, for entries with distinct keys, for two segments of small entries with
# distinct keys that have nearly 64 MiB together, and for sixteen segments over 1,000 keys. The time
# is that of the whole program, with its start and the printing of the cells. Needs GNU time and a
# built program. No part of the gate.
#
#     replay.sh [PROGRAM ..]      several programs, as before and after a change, take turns
set -e
top=$(cd "$(dirname "$0")/.." && pwd)
. "$top/bench/setup.sh"
programs=${*:-$program}

# so many lines over 1,000 keys
few_keys() {
    lines "$1" | awk '{ sub(/key[0-9]+/, sprintf("key%03d", NR % 1000)); print }'
}

# so many lines whose keys begin with the other word
begun_with() {
    lines "$1" | awk -v word="$2" '{ sub(/"key0/, "\"" word "0"); print }'
}

# Lines from standard input become one more segment of the folder. `apply` would recover one that is
# there, so each is made in a folder of its own; ids are milliseconds, and differ.
segment() {
    rm -rf "$work/made"
    mkdir -p "$work/made" "$work/run/commitlog"
    (cd "$work/made" && "$program" apply >/dev/null)
    mv "$work"/made/commitlog/* "$work/run/commitlog"
}

# the microseconds and the KiB that a run of a program takes
run() {
    start=$(date +%s%N)
    (cd "$work/run" && /usr/bin/time -f %M -o "$work/memory" "$1" replay --workers "$2") \
        >"$work/out"
    end=$(date +%s%N)
    echo "$(((end - start) / 1000)) $(cat "$work/memory")"
}

# one line for each program, of its best run; the programs take turns
measure() {
    for workers in 1 2 4; do
        rm -f "$work"/best.*
        for again in 1 2 3 4 5; do
            at=0
            for measured in $programs; do
                at=$((at + 1))
                run "$measured" $workers >>"$work/best.$at"
            done
        done
        entries=$(awk '$1 == "entries" { print $2 }' "$work/out")
        at=0
        for measured in $programs; do
            at=$((at + 1))
            sort -n "$work/best.$at" | head -n 1 | awk -v what="$1" -v workers=$workers \
                -v n="$entries" -v at=$at '{ printf "%-22s %8d entries, %d workers, program %d: " \
                    "%5.2f us an entry, %7d KiB\n", what, n, workers, at, $1 / n, $2 }'
        done
    done
    rm -rf "$work/run"
}

for count in 10000 100000 400000; do
    few_keys $count | segment
    measure "1,000 keys"
done
for count in 10000 100000; do
    lines $count | segment
    measure "distinct keys"
done
begun_with 560000 one | segment
begun_with 560000 two | segment
measure "two segments, distinct"
for number in 1 2 3 4 5 6 7 8 9 10 11 12 13 14 15 16; do
    few_keys 600000 | segment
done
measure "sixteen segments"
