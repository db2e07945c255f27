# Batch mode: a line is written and synced before the next one of its writer is written, writers
# share syncs, and a refused one is told.
. "$top/checks/lib"

lines() {
    awk -v n="$1" 'BEGIN { for (i = 1; i <= n; i++)
        printf "{\"key\":\"%05d\",\"updates\":[{\"table\":0,\"column\":\"c\",\"ts\":1," \
            "\"value\":\"v\"}]}\n", i }'
}
batch() { "$@" "$program" apply --sync batch <file; }

fresh
lines 3 >file
"$program" apply --sync batch --receipts <file |
    awk '$1 == "receipt" { print $4 - last; last = $4 }' | sort -u >steps
that 'a marker stands between lines' test "$(sed -n 1p steps)" -eq "$(($(sed -n 2p steps) - 20))"

if traces; then
    rm -rf commitlog
    expect 'three lines, traced' 0 'applied 3' '' \
        batch strace -f -o "$box/trace" -y -e trace=write,fsync
    sed -n 's/.*write(.*CommitLog-6-.*/write/p; s/.*fsync(.*CommitLog-6-.*/sync/p' \
        "$box/trace" >order
    that 'each is written and synced before the next' \
        test "$(tr '\n' ' ' <order)" = 'write sync write sync write sync '
    that 'and all before the report' sh -c \
        'sed "/applied/q" "$0" | grep -c "fsync(.*CommitLog" | grep -qx 3' "$box/trace"

    rm -rf commitlog
    count=$(grep -n 'fsync(' "$box/trace" | grep -n 'CommitLog' | tail -n 1 | cut -d: -f1)
    expect 'the sync of the third line is refused' 6 'error 6: disk fault' \
        'pinsilver: sync commitlog/CommitLog-6-*.log: Input/output error' \
        batch strace -f -o "$box/trace" -e trace=fsync -e inject=fsync:error=EIO:when="$count"
    "$program" replay | sed -n 's/.*"key":"0*\([0-9]*\)".*/\1/p' >found
    that 'the lines before it are there' test "$(head -n 2 found | tr '\n' ' ')" = '1 2 '

    rm -rf commitlog
    lines 640 >file
    strace -f -o "$box/trace" -y -e trace=fsync -e inject=fsync:delay_enter=5000 \
        "$program" apply --sync batch --writers 64 <file >told
    that '640 lines by 64 writers' test "$(cat told)" = 'applied 640'
    syncs=$(grep -c 'fsync(.*CommitLog' "$box/trace")
    that "share syncs ($syncs)" test "$syncs" -lt 320
else
    skipped 'no strace'
fi

# Runs that are killed at random moments leave of each writer the first of its lines, and the next
# run goes on.
fresh
killed_run() { exec "$program" apply --sync batch --writers "$1" <file >said 2>/dev/null; }
for writers in 1 8; do
    lines 400 >file
    rm -rf commitlog
    start=$(date +%s%N)
    (killed_run $writers)
    took=$((($(date +%s%N) - start) / 1000000))
    lost= killed=0 some=0
    for run in $(seq 20); do
        rm -rf commitlog said
        (killed_run $writers) &
        sleep "$(awk -v n="$run" -v ms="$took" \
            'BEGIN { srand(n); printf "%.3f", rand() * ms / 1000 }')"
        kill -9 $! 2>/dev/null && killed=$((killed + 1))
        wait $! 2>/dev/null
        "$program" replay | sed -n 's/.*"key":"0*\([0-9]*\)".*/\1/p' >found
        [ ! -s found ] || [ -s said ] || some=$((some + 1))
        awk -v n=$writers '{ w = $1 % n; count[w]++; if ($1 > last[w]) last[w] = $1 }
            END { for (w in count) if (last[w] != (w + 0 ? w : n) + n * (count[w] - 1)) bad = 1
                exit bad }' found || lost="$lost $run"
        [ ! -s said ] || [ "$(wc -l <found)" -eq 400 ] || lost="$lost said-$run"
        echo "$line" | "$program" apply --sync batch >again || lost="$lost again-$run"
    done
    that "killed runs of $writers ($killed of 20; $some with some lines) leave firsts ($lost)" \
        test -z "$lost"
done
