# Replaying a real folder: whole, behind a damaged file, and past it. It is left as it is.
. "$top/checks/lib"

cell='{"column":"cd","key":"ab","table":0,"ts":5,"value":null}'
counts() { printf 'segments %s\ntables %s\nentries %s\nupdates %s\nskipped %s' "$@"; }

fresh
expect 'a folder that is not there' 0 "$(counts 0 0 0 0 0)" '' "$pinsilver" replay
that 'it is not made' test ! -e commitlog

fresh
apply_line "$pinsilver" apply >/dev/null
name=$(ls commitlog 2>/dev/null)
expect 'what apply wrote' 0 "$(counts 1 0 1 1 0)
$cell" '' "$pinsilver" replay
expect 'the same by four workers' 0 "$(counts 1 0 1 1 0)
$cell" '' "$pinsilver" replay --ignore-errors --workers=4
head -c 59 "commitlog/$name" >cut
cp cut "commitlog/$name"
expect "a crash's tail" 0 "$(counts 1 0 0 0 0)" '' "$pinsilver" replay
: >commitlog/CommitLog-6-9223372036854775807.log
expect 'damage below another segment' 7 "error 7: $name at 20: MarkerTarget 60" '' \
    "$pinsilver" replay
expect 'read past it' 0 "$(counts 2 0 0 0 0)" '' "$pinsilver" replay --ignore-errors
that 'the damaged file is left' cmp -s cut "commitlog/$name"
that 'the folder is left' test "$(ls commitlog | wc -l)" -eq 2

fresh
apply_line "$pinsilver" apply --drain >/dev/null
head -c 57 commitlog/Table-0-1.tbl >cut
cp cut commitlog/Table-0-1.tbl
for words in replay 'replay --ignore-errors' apply 'apply --dump'; do
    apply_line expect "a damaged table file, $words" 8 'error 8: Table-0-1.tbl: Short' '' \
        "$pinsilver" $words
done
that 'it is left too' cmp -s cut commitlog/Table-0-1.tbl

# A file shrinks between two of the pieces in which it is read: it is torn where its bytes end. One
# that grows is read up to the length that it had.
fresh
traces || { skipped 'a file that shrinks or grows: no strace'; exit 0; }
lines $(seq 100) | "$program" apply >/dev/null
name=$(ls commitlog)
cp "commitlog/$name" whole

# The file is cut to its first piece, or gets bytes that are no marker.
shrink() { truncate -s 65536 "commitlog/$name"; }
grow() { echo 'no marker' >>"commitlog/$name"; }

# meanwhile CHANGE WORD..: a run that stops before its second piece; then the file is changed, and the
# run goes on.
meanwhile() {
    change=$1
    shift
    cp whole "commitlog/$name"
    : >trace
    strace -o trace -P "$(realpath "commitlog/$name")" -e trace=lseek \
        -e inject=lseek:signal=STOP:when=2 \
        sh -c 'echo $$ >pid; exec "$0" "$@"' "$program" "$@" &
    for try in $(seq 100); do
        grep -q 'stopped by SIGSTOP' trace && break
        sleep 0.1
    done
    grep -q 'stopped by SIGSTOP' trace || kill -KILL "$(cat pid)"
    $change
    kill -CONT "$(cat pid)"
    wait $!
}

expect 'a file that shrinks while it is read, the last one' 0 "$(counts 1 0 33 33 0)
**" '' meanwhile shrink replay
: >commitlog/CommitLog-6-9223372036854775807.log
expect 'a file that shrinks below another segment' 7 "error 7: $name at 65536: Short" '' \
    meanwhile shrink replay
expect 'the same, read past it' 0 "$(counts 2 0 33 33 0)
**" '' meanwhile shrink replay --ignore-errors
expect 'the same, by a recovery' 7 "error 7: $name at 65536: Short" '' \
    meanwhile shrink apply </dev/null
that 'the segment is left' test "$(wc -c <"commitlog/$name")" -eq 65536
expect 'a file that grows below another segment' 0 "$(counts 2 0 100 100 0)
**" '' meanwhile grow replay
