#!/bin/sh
# What flushes cost: the time of `apply` for 100,000 lines with distinct keys to 16 tables by 1, 4,
# 8 and 64 writers, without flushes and with one of each table at 1,000 updates of a writer, by
# turns, the least of nine runs each; over a folder in memory, and over one on the device of TMPDIR.
# Needs a built program. No part of the gate.
set -e
top=$(cd "$(dirname "$0")/.." && pwd)
. "$top/bench/setup.sh"
memory=$(mktemp -d /dev/shm/flushes.XXXXXX)
trap 'rm -rf "$work" "$memory"' EXIT

count=100000
lines $count >"$work/lines"

# The microseconds of a run with these words, in a new folder.
micros() {
    rm -rf "$folder/run"
    mkdir "$folder/run"
    cd "$folder/run"
    start=$(date +%s%N)
    "$program" apply "$@" <"$work/lines" >"$work/out"
    end=$(date +%s%N)
    echo $(((end - start) / 1000))
}

# Both kinds of run by turns.
turns() {
    for again in 1 2 3 4 5 6 7 8 9; do
        echo "plain $(micros --writers "$1")"
        echo "flushed $(micros --writers "$1" --flush-at 1000)"
    done
}

measure() {
    for writers in 1 4 8 64; do
        turns $writers | awk -v where="$1" -v w=$writers '
            !($1 in least) || $2 < least[$1] { least[$1] = $2 }
            END {
                plain = least["plain"]
                flushed = least["flushed"]
                printf "%-9s %2d writers: %4.0f ms, with flushes %4.0f, %.2f times\n", where, w,
                    plain / 1000, flushed / 1000, flushed / plain
            }'
    done
}

folder=$memory
measure "in memory"
folder=$work
measure "on disk"
