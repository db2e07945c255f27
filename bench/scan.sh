#!/bin/sh
# Time and peak memory of `scan` for a segment of 100,000 small entries and for one of two large
# ones, which tells how fast the checks are. Needs GNU time and a built program. No part of the
# gate.
set -e
top=$(cd "$(dirname "$0")/.." && pwd)
. "$top/bench/setup.sh"

small() {
    lines 100000
}

large() {
    for key in a b; do
        printf '{"key":"%s","updates":[{"table":0,"column":"c","ts":1,"value":"' "$key"
        head -c 16000000 /dev/zero | tr '\0' x
        printf '"}]}\n'
    done
}

for kind in small large; do
    mkdir "$work/$kind"
    cd "$work/$kind"
    "$kind" | "$program" apply >/dev/null
    segment=$(ls commitlog)
    /usr/bin/time -f "$kind: %e s, %U s of them in the program, %M KiB" "$program" scan "$segment" \
        >report
    echo "$kind: $(wc -c <"commitlog/$segment") bytes, $(wc -l <report) lines, $(tail -n 1 report)"
done
