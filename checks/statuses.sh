# Every exit status that one run by itself can have, with its line.
. "$top/checks/lib"

fresh
apply_line expect 'apply' 0 'applied 1' '' "$pinsilver" apply
that 'its segment has 60 bytes' test "$(segment_size)" -eq 60
first=$(ls commitlog)
apply_line expect 'a second apply' 0 'applied 1' '' "$pinsilver" apply
that 'it has a segment of its own' test "$(segment_size)" -eq 60
that 'the first one is gone' test ! -e "commitlog/$first"
that 'a table file stands for it' test "$(wc -c <commitlog/Table-0-1.tbl)" -eq 58
: >commitlog/CommitLog-6-9000000000000000000.log
second=$(ls commitlog | sed -n 's/^\(CommitLog-6-1.*\)/\1/p')
head -c 59 "commitlog/$second" >cut
cp cut "commitlog/$second"
apply_line expect 'a damaged segment' 7 "error 7: $second at 20: MarkerTarget 60" '' \
    "$pinsilver" apply
that 'it is left alone' cmp -s cut "commitlog/$second"

fresh
expect 'an empty file' 0 'applied 0' '' "$pinsilver" apply --dump </dev/null
that 'it makes no folder' test ! -e commitlog
(apply_line cat; echo x) | expect 'a bad line' 2 'error 2: line 2: NotJson' '' "$pinsilver" apply
{ printf '{"key":"k","updates":[{"table":0,"column":"c","ts":1,"value":"'
    head -c 16777216 /dev/zero | tr '\0' x
    echo '"}]}'; } >large
expect 'a line too large' 3 'error 3: line 1: size 16777250 above 16777216' '' \
    "$pinsilver" apply <large
head -c 67108865 /dev/zero |
    expect 'a file too large' 10 'error 10: limit file-bytes 67108864' '' "$pinsilver" apply
expect 'a scan of no file' 11 'error 11: no file CommitLog-6-5.log' '' \
    "$pinsilver" scan CommitLog-6-5.log
that 'none of them makes a folder' test ! -e commitlog

fresh
for key in a b c; do
    printf '{"key":"%s","updates":[{"table":0,"column":"c","ts":1,"value":"' $key
    head -c 12000000 /dev/zero | tr '\0' x
    echo '"}]}'
done | expect 'more than one segment' 0 'applied 3' '' "$pinsilver" apply
that 'two of the three lines fit the first one' test "$(ls commitlog | grep -c CommitLog)" -eq 2

fresh
mkdir commitlog
head -c 37 /dev/zero >commitlog/Table-0-1.tbl
apply_line expect 'a damaged table file' 8 'error 8: Table-0-1.tbl: Version 0' '' "$pinsilver" apply
that 'it is left alone' test "$(ls commitlog)" = Table-0-1.tbl

fresh
: >commitlog
apply_line expect 'commitlog is no folder' 6 'error 6: disk fault' \
    'pinsilver: list commitlog: Not a directory' "$pinsilver" apply

# The other limits. What is too long is seen by its length alone.
fresh
mkdir commitlog
if truncate -s 67108865 commitlog/CommitLog-6-5.log 2>/dev/null; then
    for words in 'scan CommitLog-6-5.log' apply 'apply --dump' replay 'replay --ignore-errors'; do
        apply_line expect "a segment too long, $words" 10 \
            'error 10: limit segment-bytes 67108864' '' "$pinsilver" $words
    done
else
    skipped 'no truncate'
fi
fresh
head -c 1000001 /dev/zero | tr '\0' '\n' |
    expect 'too many lines' 10 'error 10: limit lines 1000000' '' "$pinsilver" apply
mkdir commitlog
: >commitlog/Archive-CommitLog-6-4611686018427387903.log
apply_line expect 'an id at its limit' 10 'error 10: limit ids 4611686018427387903' '' \
    "$pinsilver" apply
that 'it is left alone' test "$(ls commitlog)" = Archive-CommitLog-6-4611686018427387903.log
fresh
mkdir commitlog
printf '\0\0\0\1%033d' 0 | tr 0 '\0' >commitlog/Table-0-4611686018427387905.tbl
apply_line expect 'a table file comes before its sequence' 8 \
    'error 8: Table-0-4611686018427387905.tbl: HeadCheck' '' "$pinsilver" apply

# The last sequence that is taken; the recovery of the run behind it puts the next one.
fresh
apply_line "$program" apply --drain >/dev/null
mv commitlog/Table-0-1.tbl commitlog/Table-0-4611686018427387904.tbl
apply_line expect 'a sequence at its limit' 0 'applied 1' '' "$pinsilver" apply
apply_line expect 'it is recovered behind it' 0 'applied 1' '' "$pinsilver" apply
apply_line expect 'a sequence above its limit' 10 \
    'error 10: limit table-files 4611686018427387904' '' "$pinsilver" apply

# Too little memory for the file's bytes.
fresh
head -c 60000000 /dev/zero >zeros
if sh -c 'ulimit -v 60000' 2>/dev/null; then
    expect 'too little memory' 9 'error 9: out of memory' '' \
        sh -c 'ulimit -v 60000 && exec "$0" apply' "$program" <zeros
else
    skipped 'no limit on memory'
fi
