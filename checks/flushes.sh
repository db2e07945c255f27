# Writers that flush: table files come while they write, segments go, and what a run that is killed
# leaves. The four places of a table's memtables are used again and again.
. "$top/checks/lib"

# Where entries end by the archived segments, as a receipt has it behind the number of its line.
archived_ends() {
    (mkdir scanned scanned/commitlog && cd scanned || exit 1
    for archive in ../commitlog/Archive-*; do
        name=${archive##*/Archive-}
        cp "$archive" "commitlog/$name"
        id=${name#CommitLog-6-}
        "$pinsilver" scan "$name" | awk -v id="${id%.log}" '$1 == "entry" { print id, $3 }'
    done) | sort
}

fresh
(lines a b c; put d 3) >input
expect 'four lines by four writers, each flushed' 0 'applied 4
receipt 1 *
receipt 2 *
receipt 3 *
receipt 4 *
{"column":"c","key":"a","table":0,*
{"column":"c","key":"b","table":0,*
{"column":"c","key":"c","table":0,*
{"column":"c","key":"d","table":3,*' '' "$pinsilver" apply --flush-at 1 --writers 4 \
    --segment-kib 4 --archive --receipts --drain --dump <input
cp "$box/out" told
that 'no segment is left' test "$(ls commitlog | grep -c '^CommitLog-')" -eq 0
that 'one file of table 3, and of table 0 at most three' sh -c \
    'test -e commitlog/Table-0-1.tbl -a ! -e commitlog/Table-0-4.tbl -a -e commitlog/Table-3-1.tbl \
        -a ! -e commitlog/Table-3-2.tbl'
that 'they hold all lines' test "$("$pinsilver" replay | keys)" = abcd
sed -n 's/^receipt [0-9]* //p' told | sort >wanted
archived_ends >ends
that 'the receipts tell where the entries end' cmp -s ends wanted

fresh
three() { for n in 1 2 3; do echo "$line"; done; }
three | expect 'three lines, of which two are flushed' 0 'applied 3' '' \
    "$pinsilver" apply --flush-at 2
that 'the segment of the third is left' test \
    "$(ls commitlog | sed 's/6-[0-9]*/6/' | tr '\n' ' ')" = 'CommitLog-6.log Table-0-1.tbl '
expect 'two of them are in the table file' 0 'segments 1
tables 1
entries 3
updates 1
skipped 2
**' '' "$pinsilver" replay
three | expect 'the next run recovers it' 0 'applied 3' '' "$pinsilver" apply --flush-at 3
that 'and leaves a file more and no segment' test \
    "$(ls commitlog | tr '\n' ' ')" = 'Table-0-1.tbl Table-0-2.tbl Table-0-3.tbl '

# so many lines of table 0
many() { yes "$line" | head -n "$1"; }
fresh
many 300 | expect '300 flushes of one table' 0 'applied 300' '' "$pinsilver" apply --flush-at 1
that 'a table file of each, and no segment' test "$(ls commitlog)" = \
    "$(seq 300 | sed 's/.*/Table-0-&.tbl/' | sort)"
expect 'no line is lost' 0 'segments 0
tables 300
entries 0
updates 0
skipped 0
**' '' "$pinsilver" replay

# Two writers with 300 lines each, over an older line. Each has a table of its own, so it finds no
# table in the hands of the other one, when several lines would go with a flush.
keys_of() { sed -n 's/.*"key":"\([^"]*\)".*/\1/p'; }
fresh
put x 2 | "$pinsilver" apply >/dev/null
awk 'BEGIN { for (i = 1; i <= 600; i++)
    printf "{\"key\":\"%03d\",\"updates\":[{\"table\":%d,\"column\":\"c\",\"ts\":1," \
        "\"value\":null}]}\n", i, i % 2 }' >input
expect '300 flushes by each of two writers' 0 'applied 600' '' \
    "$pinsilver" apply --writers 2 --flush-at 1 <input
that 'a table file of each line, and no segment' test "$(ls commitlog)" = \
    "$( (echo Table-2-1.tbl; seq 300 | sed 's/.*/Table-0-&.tbl\nTable-1-&.tbl/') | sort)"
(seq -f %03g 600; echo x) >wanted
"$pinsilver" replay | keys_of | sort | cmp -s - wanted
that 'the older line is there, and each of these' test $? -eq 0

# The lines that a drill makes from seed 7, so many.
made() {
    awk -v count="$1" 'BEGIN {
        x = 7
        for (i = 0; i < count; i++) {
            x = (1664525 * x + 1013904223) % 4294967296
            a = int(x / 65536)
            value = a % 16 == 15 ? "null" : sprintf("\"v%.0f\"", x)
            printf "{\"key\":\"k%d\",\"updates\":[", a % 1000
            for (j = 0; j <= a % 2; j++)
                printf "%s{\"table\":%d,\"column\":\"c%d\",\"ts\":%d,\"value\":%s}", j ? "," : "",
                    (a + j) % 3, int(a / 8) % 8, a % 4096, value
            print "]}"
        }
    }'
}
fresh
made 10000 >input
"$pinsilver" apply --dump <input >alone
for limit in 1000 100; do
    rm -rf commitlog
    "$pinsilver" apply --writers 8 --segment-kib 1024 --flush-at "$limit" --archive --dump \
        <input >flushed
    that "10,000 lines by 8 writers that flush at $limit are those of one" cmp -s alone flushed
    "$pinsilver" replay --workers 1 >one
    "$pinsilver" replay --workers 8 >eight
    that 'the folder is replayed by 1 worker as by 8' cmp -s one eight
    that 'into the cells that were told' sh -c \
        'test "$(grep "^{" alone)" = "$(grep "^{" one)"'
done

# All that a user may ask for, at once: 3,000 lines of 24 updates each, to two tables. Each of 64
# writers has 46 or 47 of them, all to one table, so its flush is due behind its 42nd one. Of each
# cell the newest update is in the last 50 lines.
fresh
awk 'BEGIN {
    for (i = 1; i <= 3000; i++) {
        printf "{\"key\":\"k%d\",\"updates\":[", i % 50
        for (j = 0; j < 24; j++)
            printf "%s{\"table\":%d,\"column\":\"c%d\",\"ts\":%d,\"value\":\"v%d\"}", j ? "," : "",
                i % 2, j, i, i
        print "]}"
    }
}' >input
mkdir alone
(cd alone && tail -n 50 ../input | "$pinsilver" apply --dump | tail -n +2 >../newest)
seq 3000 >numbers
for size in 32768 64; do
    rm -rf commitlog scanned
    "$pinsilver" apply --writers 64 --sync batch --flush-at 1000 --segment-kib $size --archive \
        --receipts --drain --dump <input >told
    that "64 writers that flush, drain and archive segments of $size KiB end well" test $? -eq 0
    that 'all lines are applied' test "$(head -n 1 told)" = 'applied 3000'
    sed -n 's/^receipt \([0-9]*\) .*/\1/p' told | cmp - numbers >/dev/null
    that 'each line has its receipt, once and in order' test $? -eq 0
    that 'no segment is left' test "$(ls commitlog | grep -c '^CommitLog-')" -eq 0
    sed -n 's/^receipt [0-9]* //p' told | sort >wanted
    archived_ends >ends
    that 'an entry ends at each of them in an archived segment, and no other is there' \
        cmp -s ends wanted
    grep '^{' told >cells
    that 'the newest cells are told' cmp -s cells newest
    "$pinsilver" replay | grep '^{' >replayed
    that 'and replayed' cmp -s replayed cells
    that 'each of the two tables was flushed before it was drained' sh -c \
        'test -e commitlog/Table-0-2.tbl -a -e commitlog/Table-1-2.tbl'
done

# A run is killed at each call of a kind in turn, up to the first run that is not. Of one that is
# killed the first lines are there, in order, and of before all; what had its archive name keeps it.
fresh
if ! traces; then
    skipped 'no strace'
    exit 0
fi

# Kills a run over an older segment at a call of a kind, by its number.
kill_at() {
    rm -rf commitlog
    put a 0 | "$program" apply >/dev/null
    lines b c d e f | strace -o "$box/trace" -e trace="$1" -e inject="$1":signal=KILL:when="$2" \
        "$program" apply --segment-kib 4 --flush-at 1 --archive >said 2>/dev/null
}

# What is wrong with what such a run left.
wrong() {
    (cd commitlog && sha256sum Archive-* 2>/dev/null) >archived
    left=$("$program" replay | keys)
    told=$(put z 0 | "$program" apply --dump --flush-at 1 | keys)
    case $(cat said):$told in
    *:abcdefz | :az | :abz | :abcz | :abcdz | :abcdez) ;;
    *) echo "lines-$told" ;;
    esac
    [ "${left}z" = "$told" ] || echo "read-$left"
    [ ! -s archived ] || (cd commitlog && sha256sum --quiet -c ../archived) || echo archive
    ls commitlog | grep '^CommitLog-'
}

for call in write fsync rename unlink; do
    number=1
    lost=
    while kill_at "$call" "$number" 2>/dev/null; [ $? -eq 137 ] && [ "$number" -lt 100 ]; do
        found=$(wrong 2>&1)
        [ -z "$found" ] || lost="$lost $number:$found"
        number=$((number + 1))
    done
    that "$call was killed, and at last was not ($number)" \
        test "$number" -gt 1 -a "$number" -lt 100
    that "a run that flushes and is killed at $call loses nothing ($lost)" test -z "$lost"
done
