#!/bin/sh
# Time and peak memory of `path_play` for a run of 100,000 entries over ten segments of 1 MiB: one
# seat, a marker after every 1,000 entries, a flush after every 10,000. Needs GNU time and a built
# program (`rt run` in crates/path_play). No part of the gate.
set -e
top=$(cd "$(dirname "$0")/.." && pwd)
program=$top/crates/path_play/out/path_play
[ -x "$program" ] || { echo "build it first: rt run in crates/path_play" >&2; exit 1; }
work=$(mktemp -d)
trap 'rm -rf "$work"' EXIT

awk -v entries=100000 -v capacity=1048576 -v size=104 '
function next_segment(key) { return (int(key / 2147483648) + 1) * 2147483648 + 28 }
function fits(bytes) { return log_key % 2147483648 + bytes < capacity }
function issue(order) {
    made = ++current[order]
    print "open-group 0 " order " " made
    print "move-current 0 " order " " made
    print "expire 0 " order " " made - 1
    print "advance 0 " order " " made
}
function sync() {
    start = log_key
    log_key = fits(8) ? log_key + 8 : next_segment(log_key)
    printf "claim 0 %.0f %.0f marker\n", start, log_key
    issue("append")
    printf "put 0 synced %.0f\n", start
}
function commit() {
    printf "look 0 current write\nregister 0 write %d\n", current["write"]
    printf "look 0 current append\nregister 0 append %d\n", current["append"]
    start = fits(size) ? log_key : next_segment(log_key)
    printf "claim 0 %.0f %.0f entry\n", log_key, start + size
    log_key = start + size
    printf "close 0 append %d deposit %.0f %.0f tables 0\n", current["append"], start, log_key
    printf "look 0 cursor oldest-live 0\nlook 0 bound 0 %d\n", memtable
    printf "close 0 write %d applied 0:%d\n", current["write"], memtable
}
function flush() {
    print "take-turn 0 flush 0"
    print "switch 0 0 " memtable + 1 " clear"
    print "switch 0 0 " memtable + 1 " open"
    print "switch 0 0 " memtable " mark"
    print "look 0 log"
    printf "raise 0 0 %d %.0f\n", memtable, log_key
    print "finalise 0 0 " memtable
    issue("write")
    sync()
    memtable++
    print "put 0 oldest-live 0 " memtable
    print "give-turn 0 flush 0"
}
BEGIN {
    print "path tables 1 writers 1 capacity " capacity " ordinals 20 base 1000"
    log_key = 28
    memtable = 0
    for (i = 1; i <= entries; i++) {
        commit()
        if (i % 1000 == 0) {
            print "take-turn 0 sync"
            if (i % 10000 == 0) flush(); else sync()
            print "give-turn 0 sync"
        }
    }
    print "state"
}' >"$work/run"

/usr/bin/time -f "$(grep -c . "$work/run") lines: %e s, %M KiB" "$program" <"$work/run" >"$work/out"
grep -c '^refused' "$work/out" | sed 's/^/refused: /'
grep '^  file\|^  dropped' "$work/out"
