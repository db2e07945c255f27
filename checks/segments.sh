# Lines over several segments: receipts, what a run that is killed leaves, and recovery.
. "$top/checks/lib"

# What `scan` says of the segments, one after another, as receipts.
receipts() {
    for name in commitlog/CommitLog-6-*.log; do
        id=${name#commitlog/CommitLog-6-}
        "$pinsilver" scan "${name#commitlog/}" |
            awk -v id="${id%.log}" '$1 == "entry" { print id, $3 }'
    done | awk '{ print "receipt", NR, $0 }'
}

fresh
lines a b c d e >input
expect 'five lines, two a segment' 0 'applied 5
receipt 1 *
receipt 2 *
receipt 3 *
receipt 4 *
receipt 5 *' '' "$pinsilver" apply --segment-kib 4 --receipts <input
tail -n +2 "$box/out" >told
receipts >wanted
that 'three segments' test "$(ls commitlog | grep -c CommitLog)" -eq 3
that 'receipts tell where the entries end' cmp -s told wanted
that 'no segment is above its capacity' sh -c \
    'for f in commitlog/*; do [ "$(wc -c <"$f")" -lt 4096 ] || exit 1; done'
expect 'the next run recovers them' 0 'applied 0' '' "$pinsilver" apply </dev/null
that 'one table file is left' test "$(ls commitlog)" = Table-0-1.tbl
that 'with all lines' test "$("$pinsilver" replay | keys)" = abcde

expect 'an entry above half of a segment' 3 'error 3: line 1: size * above 2048' '' \
    "$pinsilver" apply --segment-kib 4 <<EOF
$(put "$(head -c 200 /dev/zero | tr '\0' k)")
EOF

# Of a run that is killed the first lines are there, in order, and of before all.
fresh
if traces; then
    lost=
    for call in openat write fsync rename unlink; do
        for number in 1 2 3 4 5 6 7 8 9 10; do
            rm -rf commitlog
            put a | "$program" apply >/dev/null
            (lines b c d e f | strace -o "$box/trace" -e trace="$call" \
                -e inject="$call":signal=KILL:when="$number" "$program" apply --segment-kib 4) \
                >said 2>/dev/null
            told=$(put z | "$program" apply --dump | keys)
            case $(cat said):$told in
            *:abcdefz | :az | :abz | :abcz | :abcdz | :abcdez) ;;
            *) lost="$lost $call $number" ;;
            esac
            # The dump is made in front of the recovery: what that left is read behind it.
            [ "$("$program" replay | keys)" = "$told" ] || lost="$lost $call $number:replay"
        done
    done
    that "a run over segments that is killed loses nothing ($lost)" test -z "$lost"
else
    skipped 'no strace'
fi
