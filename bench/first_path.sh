#!/bin/sh
# Time a line and peak memory of `apply`, with a dump and drained, for 1,000, 10,000 and 100,000
# lines with distinct keys, on all processors and on one. Needs GNU time, taskset and a built
# program. No part of the gate.
set -e
top=$(cd "$(dirname "$0")/.." && pwd)
. "$top/bench/setup.sh"

# The words, on the processors that the rest of the arguments leave.
measure() {
    words=$1
    on=$2
    shift 2
    rm -rf "$work/run"
    mkdir "$work/run"
    (cd "$work/run" && "$@" /usr/bin/time -f '%e %M' -o "$work/time" "$program" $words \
        <"$work/lines" >"$work/out")
    awk -v n="$count" -v w="$words" -v on="$on" \
        '{ printf "%-14s %7d lines %-3s %6.2f us a line %8d KiB\n", w, n, on, 1e6 * $1 / n, $2 }' \
        "$work/time"
}

for count in 1000 10000 100000; do
    lines $count >"$work/lines"
    for words in apply "apply --dump" "apply --drain"; do
        measure "$words" all env
        measure "$words" one taskset -c 0
    done
done
