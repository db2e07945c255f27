#!/bin/sh
# Time a line and peak memory of `apply` by 1, 4, 8 and 64 writers for 100,000 lines with distinct
# keys, and by 8 writers for 10,000 and 700,000, nearly the largest file: the least of three runs
# each. So too with a flush of each table at 1,000 updates of a writer: of 100,000 lines to 16
# tables one writer makes 96 flushes, 64 writers some 40, of 700,000 each of 8 writers 86. And of
# `drill` with 10,000 to 1,000,000 lines, each once. Needs GNU time and a built program. No part of
# the gate.
set -e
top=$(cd "$(dirname "$0")/.." && pwd)
. "$top/bench/setup.sh"

# So many writers over the lines at hand, with further words.
measure() {
    writers=$1
    shift
    best=$(for again in 1 2 3; do
        rm -rf "$work/run"
        mkdir "$work/run"
        (cd "$work/run" && /usr/bin/time -f '%e %U %S %M' "$program" apply --writers "$writers" \
            "$@" <"$work/lines" 2>&1 >/dev/null)
    done | sort -n | head -n 1)
    echo "$best" | awk -v n="$count" -v w="$writers" -v words="$*" '{
        printf "%2d writers %8d lines %6.2f us a line, %5.2f of processors, %5.0f MiB %s\n", w, n,
            1e6 * $1 / n, 1e6 * ($2 + $3) / n, $4 / 1024, words }'
}

# So many lines, by each of these numbers of writers.
over() {
    count=$1
    shift
    lines "$count" >"$work/lines"
    for writers in "$@"; do
        measure "$writers"
    done
}

over 10000 8
over 100000 1 4 8 64
measure 1 --flush-at 1000
measure 64 --flush-at 1000
over 700000 8
measure 8 --flush-at 1000

# The self-check makes its lines, so it can have more of them than a file: it applies them by four
# writers to three tables, flushes each at 1,000 updates of a writer, and replays the folder.
for count in 10000 100000 1000000; do
    rm -rf "$work/run"
    mkdir "$work/run"
    (cd "$work/run" && /usr/bin/time -f '%e %U %S %M' -o "$work/time" "$program" drill 7 "$count" \
        >"$work/out")
    awk -v n="$count" '{
        printf "drill of %7d lines %6.2f us a line, %5.2f of processors, %5.0f MiB\n", n,
            1e6 * $1 / n, 1e6 * ($2 + $3) / n, $4 / 1024 }' "$work/time"
done
