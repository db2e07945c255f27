#!/bin/sh
# Time a line of `apply --sync batch` by 1, 8 and 64 writers, on the clock and of all processors
# together, each the least of five runs by the clock, and how many lines one sync has made lasting
# there, by the sections of the segments as `scan` lists them. Beside them what 60 bytes and their
# sync take on the same device, by dd. Then the same by 8 and 64 writers beside three processes that
# keep a processor busy each. Needs GNU time and a built program. No part of the gate.
#
#     batch.sh [PROGRAM ..]      several programs, as before and after a change, take turns; their
#                                paths are absolute
set -e
top=$(cd "$(dirname "$0")/.." && pwd)
. "$top/bench/setup.sh"
programs=${*:-$program}
count=2000

# How many sections the segments of the folder have: each begins behind a marker, so not where the
# entry before it ends.
sections() {
    for name in $(ls commitlog); do "$program" scan "$name"; done |
        awk '$1 == "segment" { end = 0 }
            $1 == "entry" { sections += $2 != end; end = $3 }
            END { print sections }'
}

# The microseconds that 60 bytes and their sync take.
synced_write() {
    start=$(date +%s%N)
    dd if="$work/zeros" of="$work/synced" bs=60 oflag=dsync 2>/dev/null
    end=$(date +%s%N)
    echo $(((end - start) / 1000 / count))
}

# The microseconds of a run, those of all processors, and its sections.
run() {
    rm -rf "$work/run"
    mkdir "$work/run"
    cd "$work/run"
    start=$(date +%s%N)
    /usr/bin/time -f '%U %S' -o "$work/time" "$1" apply --sync batch --writers "$2" \
        <"$work/lines" >"$work/out"
    end=$(date +%s%N)
    cpu=$(awk '{ print 1e6 * ($1 + $2) }' "$work/time")
    parts=$(sections)
    echo "$(((end - start) / 1000)) $cpu $parts"
}

# One line for each program, of its best run; the programs take turns.
measure() {
    rm -f "$work"/best.*
    for again in 1 2 3 4 5; do
        at=0
        for measured in $programs; do
            at=$((at + 1))
            run "$measured" "$1" >>"$work/best.$at"
        done
    done
    at=0
    for measured in $programs; do
        at=$((at + 1))
        sort -n "$work/best.$at" | head -n 1 | awk -v n=$count -v w="$1" -v at=$at -v what="$2" '
            { printf "%2d writers%s, program %d: %4.0f us a line, %4.0f of processors, " \
                "%4.1f lines a sync\n", w, what, at, $1 / n, $2 / n, n / $3 }'
    done
}

head -c $((60 * count)) /dev/zero >"$work/zeros"
lines $count >"$work/lines"
for writers in 1 8 64; do
    echo "60 bytes and a sync: $(synced_write) us"
    measure $writers ''
done
busy=
trap 'kill $busy; rm -rf "$work"' EXIT
trap 'exit 1' HUP INT TERM
for each in 1 2 3; do
    while kill -0 $$; do :; done &
    busy="$busy $!"
done
for writers in 8 64; do
    measure $writers ' beside three busy processes'
done
