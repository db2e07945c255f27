# A file goes while a program runs, by another hand: after the folder was listed, or before the
# program comes to it. That is a fault, told with the call and the file.
. "$top/checks/lib"
. "$top/checks/losses"

fresh
traces || { skipped 'no strace'; exit 0; }
make_before
before=data

# without FILE CALL NUMBER WORD..: the run, which stops behind its call of this number; then the
# file goes, and the run goes on.
without() {
    file=$1 call=$2 number=$3
    shift 3
    : >trace
    strace -o trace -e trace="$call" -e inject="$call":signal=STOP:when="$number" \
        sh -c 'echo $$ >pid; exec "$0" "$@"' "$program" "$@" <input &
    for try in $(seq 100); do
        grep -q 'stopped by SIGSTOP' trace && break
        sleep 0.1
    done
    rm commitlog/$file
    kill -CONT "$(cat pid)"
    wait $!
}

prepare
first=$(ls commitlog | head -n 1)
gone='No such file or directory'
expect 'replay: a listed segment is gone' 6 'error 6: disk fault' \
    "pinsilver: measure commitlog/$first: $gone" without "$first" getdents64 4 replay
prepare
# A stopped getdents64 would give the first name alone: so it is stopped behind its look at that one.
last=$(ls -U commitlog | tail -n 1)
expect 'replay: a file is gone within the listing' 6 'error 6: disk fault' \
    'pinsilver: list commitlog: a file went while the folder was listed' \
    without "$last" statx 1 replay
prepare
expect 'replay: a segment is gone between two listings, as if it had gone before' 0 'segments 1
tables 1
**' '' without "$first" getdents64 2 replay
prepare
expect 'replay: a listed table file is gone' 6 'error 6: disk fault' \
    "pinsilver: measure commitlog/Table-0-1.tbl: $gone" without Table-0-1.tbl getdents64 4 replay
prepare
expect 'scan: it is gone' 6 'error 6: disk fault' \
    "pinsilver: measure commitlog/$first: $gone" without "$first" getdents64 4 scan "$first"

prepare
expect 'apply: a listed segment is gone' 6 'error 6: disk fault' \
    "pinsilver: measure commitlog/$first: $gone" without "$first" getdents64 2 apply
cp "before/$first" commitlog
that 'nothing else is changed' diff -r before commitlog
prepare
expect 'apply: a segment is gone before its recovery removes it' 6 'error 6: disk fault' \
    "pinsilver: remove commitlog/$first: $gone" without "$first" rename 1 apply
that 'nothing is lost' test -z "$(lost 2>&1)"
prepare
expect 'apply: a new segment is gone before it has its archive name' 6 'error 6: disk fault' \
    "pinsilver: link commitlog/CommitLog-6-*.log: $gone" \
    without 'CommitLog-6-*' rename 3 apply --drain --archive
that 'its lines are in table files' test "$("$program" replay | keys)" = abcdfxe
that 'nothing is lost there' test -z "$(lost 2>&1)"

# A reader is stopped within a listing of its own while `apply` recovers the folder, whose line has
# been lasting all the time: it goes from the segment into a table file. The reader tells the line, or
# that it could not read the folder. `beside COUNT WHICH`: in a folder with so many archived segments,
# at this call of its listing.
beside() {
    rm -rf commitlog
    lines a | "$program" apply >/dev/null
    number=0
    while [ $number -lt "$1" ]; do
        number=$((number + 1))
        : >"commitlog/Archive-CommitLog-6-$number.log"
    done
    : >trace
    strace -o trace -e trace=getdents64 -e inject=getdents64:signal=STOP:when="$2" \
        sh -c 'echo $$ >pid; exec "$0" "$@"' "$program" replay >read 2>told &
    for try in $(seq 100); do
        grep -q 'stopped by SIGSTOP' trace && break
        sleep 0.1
    done
    "$program" apply </dev/null >again
    grep -q 'stopped by SIGSTOP' trace && [ "$(cat again)" = 'applied 0' ] &&
        [ -e commitlog/Table-0-1.tbl ] || return 1
    kill -CONT "$(cat pid)"
    wait $!
    status=$?
    [ $status -eq 6 ] && grep -q '^pinsilver: ' told && return
    [ $status -eq 0 ] && [ "$(keys <read)" = a ]
}
fresh
for call in 1 2 3 4; do
    that "replay beside a recovery, stopped at call $call of its listing" beside 2 $call
done
for call in 1 3 9 20 40; do
    that "the same in a folder of 3000 archives, call $call" beside 3000 $call
done
