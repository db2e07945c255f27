# A real folder, run after run: what earlier runs left is recovered, and no line is lost.
. "$top/checks/lib"

cell() { printf '{"column":"c","key":"%s","table":0,"ts":1,"value":"v"}' "$1"; }
put() { echo '{"key":"'"$1"'","updates":[{"table":0,"column":"c","ts":1,"value":"v"}]}'; }

fresh
put a | expect 'a first run' 0 'applied 1' '' "$pinsilver" apply
put b | expect 'a second' 0 'applied 1' '' "$pinsilver" apply
put c | expect 'a third tells all' 0 "applied 1
$(cell a)
$(cell b)
$(cell c)" '' "$pinsilver" apply --dump
that 'two table files and one segment are left' sh -c \
    '[ "$(ls commitlog | sed "s/CommitLog-6-.*/segment/" | tr "\n" " ")" = \
    "segment Table-0-1.tbl Table-0-2.tbl " ]'
expect 'an empty file recovers too' 0 'applied 0' '' "$pinsilver" apply </dev/null
that 'it makes no segment' test "$(ls commitlog | grep -c CommitLog)" -eq 0
expect 'all is there' 0 "segments 0
tables 3
entries 0
updates 0
skipped 0
$(cell a)
$(cell b)
$(cell c)" '' "$pinsilver" replay

# A last segment that is cut is a crash's tail: its section is given up whole.
fresh
{ put a; put b; } | expect 'two lines' 0 'applied 2' '' "$pinsilver" apply
name=$(ls commitlog)
head -c 90 "commitlog/$name" >cut
cp cut "commitlog/$name"
put c | expect 'a torn tail' 0 "applied 1
$(cell c)" '' "$pinsilver" apply --dump

# A run whose removal of a segment is refused is ended by the next. (Its first removal is for a file
# that an earlier program may have left unfinished.)
fresh
put a | expect 'before a removal that is refused' 0 'applied 1' '' "$pinsilver" apply
if traces; then
    put b | expect 'a removal is refused' 6 'error 6: disk fault' \
        'pinsilver: remove commitlog/CommitLog-6-*.log: Input/output error' \
        strace -o "$box/trace" -e trace=unlink,unlinkat \
        -e inject=unlink,unlinkat:error=EIO:when=2 "$program" apply
    put b | expect 'the next run goes on' 0 "applied 1
$(cell a)
$(cell b)" '' "$pinsilver" apply --dump

    # A run that is killed at any of its calls loses nothing that was acknowledged before it; of its
    # own line all or nothing is there, and all where it has said so.
    lost=
    for call in openat write fsync rename unlink; do
        for number in 1 2 3 4 5 6 7 8 9 10; do
            rm -rf commitlog
            put a | "$program" apply >/dev/null
            (put b | strace -o "$box/trace" -e trace="$call" \
                -e inject="$call":signal=KILL:when="$number" "$program" apply) >said 2>/dev/null
            told=$(put c | "$program" apply --dump | keys)
            # The dump is made in front of the recovery: what that left is read behind it.
            case $(cat said):$told:$("$program" replay | keys) in
            *:abc:abc | :ac:ac) ;;
            *) lost="$lost $call $number" ;;
            esac
        done
    done
    that "a run that is killed loses nothing ($lost)" test -z "$lost"
else
    skipped 'no strace'
fi

# Of a run that is killed at any moment what was there before and the first lines are there, in
# order; all, where it has said so. The next run recovers them, and what an earlier program left
# unfinished goes.
fresh
awk 'BEGIN { for (i = 1; i <= 20000; i++)
    printf "{\"key\":\"%05d\",\"updates\":[{\"table\":0,\"column\":\"c\",\"ts\":1," \
        "\"value\":\"v\"}]}\n", i }' >lines
(echo 00000; sed 's/.*"key":"\([0-9]*\)".*/\1/' lines) >all
lost=
killed=0
for number in $(seq 50); do
    rm -rf commitlog
    put 00000 | "$program" apply >/dev/null
    (exec "$program" apply --segment-kib 64 <lines >said 2>/dev/null) &
    sleep "$(awk -v n="$number" 'BEGIN { srand(n); printf "%.3f", rand() * 0.12 }')"
    kill -9 $! 2>/dev/null && killed=$((killed + 1))
    wait $! 2>/dev/null
    "$program" apply </dev/null >recovered 2>/dev/null || lost="$lost $number:status"
    "$program" replay | sed -n 's/.*"key":"\([0-9]*\)".*/\1/p' >found
    count=$(wc -l <found)
    head -n "$count" all | cmp -s - found && [ "$count" -gt 0 ] || lost="$lost $number:$count"
    [ ! -s said ] || [ "$count" -eq 20001 ] || lost="$lost $number:said"
done
that "a run that is killed at any moment ($killed of 50) loses nothing ($lost)" test -z "$lost"
that 'some were killed' test "$killed" -gt 0

fresh
unfinished=commitlog/being-published-by-pinsilver-and-may-be-removed-where-no-program-runs.tmp
put a | expect 'before a program that ended early' 0 'applied 1' '' "$pinsilver" apply
echo unfinished >"$unfinished"
expect 'its file is no table file' 0 "segments 1
tables 0
entries 1
updates 1
skipped 0
$(cell a)" '' "$pinsilver" replay
put b | expect 'the next run goes on beside it' 0 "applied 1
$(cell a)
$(cell b)" '' "$pinsilver" apply --dump
that 'and it is gone' test ! -e "$unfinished"
