#!/bin/sh
# Time and peak memory of `apply` for the largest mutation file that is taken, 64 MiB of small lines
# with distinct keys: into segments of 32 MiB and of 256 KiB, with a dump, and drained to 16 tables;
# of the recovery of what the first left; and of lines of one table, and of one key. Each is one
# run. Needs GNU time and a built program. No part of the gate.
set -e
top=$(cd "$(dirname "$0")/.." && pwd)
. "$top/bench/setup.sh"

# The words, over the folder as it is.
measure() {
    what=$1
    shift
    (cd "$work/run" && /usr/bin/time -f '%e %U %S %M' -o "$work/time" "$program" "$@" \
        >"$work/out")
    awk -v what="$what" -v n="$count" '{
        printf "%-24s %6.2f s, %5.2f processor us a line, %4.0f MiB\n", what, $1,
            1e6 * ($2 + $3) / n, $4 / 1024 }' "$work/time"
}

# The same into a folder of its own.
measure_new() {
    rm -rf "$work/run"
    mkdir "$work/run"
    measure "$@" <"$work/lines"
}

lines 800000 | awk '{ size += length($0) + 1; if (size > 67108864) exit; print }' >"$work/lines"
count=$(wc -l <"$work/lines")
echo "$count lines, $(wc -c <"$work/lines") bytes"
measure_new "apply" apply
measure "recovery of it" apply </dev/null
measure_new "segments of 256 KiB" apply --segment-kib 256
measure_new "with a dump" apply --dump
measure_new "drained" apply --drain
measure_new "drained, with an archive" apply --drain --archive

# All of one table, with distinct keys and of one key: what a flush and a dump hold of it at most.
sed 's/"table":[0-9]*/"table":0/' "$work/lines" >"$work/one_table"
mv "$work/one_table" "$work/lines"
measure_new "one table, flushed" apply --flush-at 1000000 --drain
measure_new "one table, with a dump" apply --dump
sed 's/key[0-9]*/key0000001/' "$work/lines" >"$work/one_key"
mv "$work/one_key" "$work/lines"
measure_new "one key, flushed" apply --flush-at 1000000 --drain
measure_new "one key, with a dump" apply --dump
