#!/bin/sh
# Time and peak memory of a recovery: `apply` with an empty file over a folder that holds one
# segment of nearly 32 MiB, the least of three runs, for few large entries and for 560,000 small
# ones with distinct keys. Needs GNU time and a built program. No part of the gate.
set -e
top=$(cd "$(dirname "$0")/.." && pwd)
. "$top/bench/setup.sh"

# The lines from standard input stand in one segment of a folder that is recovered thrice.
measure() {
    mkdir -p "$work/run"
    cat >"$work/lines"
    best=$(for again in 1 2 3; do
        rm -rf "$work/run/commitlog"
        (cd "$work/run" && "$program" apply <"$work/lines" >/dev/null)
        size=$(cat "$work"/run/commitlog/* | wc -c)
        start=$(date +%s%N)
        (cd "$work/run" && /usr/bin/time -f %M -o "$work/memory" "$program" apply </dev/null) \
            >/dev/null
        end=$(date +%s%N)
        echo "$(((end - start) / 1000)) $(cat "$work/memory") $size"
    done | sort -n | head -n 1)
    echo "$best" | awk -v what="$1" \
        '{ printf "%-16s %9d bytes: %5.2f s, %7d KiB\n", what, $3, $1 / 1e6, $2 }'
}

value=$(head -c 60000 /dev/zero | tr '\0' v)
awk -v value="$value" 'BEGIN {
    for (i = 1; i <= 500; i++)
        printf "{\"key\":\"key%d\",\"updates\":[{\"table\":0,\"column\":\"c\",\"ts\":%d," \
            "\"value\":\"%s\"}]}\n", i, i, value
}' | measure "large entries"
lines 560000 | measure "small entries"
