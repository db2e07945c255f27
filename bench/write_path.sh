#!/bin/sh
# Time of a periodic commit over a store whose disk drops its bytes, with a sync behind each 1,024
# lines of a writer: one writer with 10,000 to 1,000,000 lines, then 2, 4 and 64 writers, and one
# and four that never sync. Each row has the time to prepare its writes beside it, which as many
# threads do before the first commit. And how many commits in batch mode one sync of a real folder
# makes lasting, for 1, 8 and 64 writers, and for 8 writers with 3,200 to 100,000 lines. Needs a
# built program (`rt run` in crates/path_threads). No part of the gate.
set -e
top=$(cd "$(dirname "$0")/.." && pwd)
program=$top/crates/path_threads/out/path_threads
[ -x "$program" ] || { echo "build it first: rt run in crates/path_threads" >&2; exit 1; }

echo "one writer, more and more lines, a sync behind each 1024"
for lines in 10000 100000 1000000; do
    "$program" periodic 1 $lines 1024
done
echo "more writers, 100000 lines each"
for writers in 2 4; do
    "$program" periodic $writers 100000 1024
done
"$program" periodic 64 10000 1024
echo "without syncs, 100000 lines each"
for writers in 1 4; do
    "$program" periodic $writers 100000 0
done

work=$(mktemp -d)
trap 'rm -rf "$work"' EXIT
batch() {
    rm -rf "$work/run"
    mkdir "$work/run"
    (cd "$work/run" && "$program" folder "$1" $(($2 / $1)))
}
echo "batch mode over a folder, 6400 lines"
for writers in 1 8 64; do
    batch $writers 6400
done
echo "8 writers in batch mode over a folder, more and more lines"
for lines in 3200 10000 100000; do
    batch 8 $lines
done
