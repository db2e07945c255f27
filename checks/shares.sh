# Several writers log the lines of a file: each line once, each writer's in order, whatever the
# folder holds then.
. "$top/checks/lib"

lines() {
    awk -v n="$1" 'BEGIN { for (i = 1; i <= n; i++)
        printf "{\"key\":\"k%d\",\"updates\":[{\"table\":%d,\"column\":\"c\",\"ts\":%d," \
            "\"value\":\"v%s\"}]}\n",
            i % 50, i % 3, i, substr("xxxxxxxxxxxxxxxxxxxx", 1, i % 20) }'
}

# Where the entries of all segments end, as `scan` reads them: id and offset.
ends() {
    for name in $(ls commitlog | grep '^CommitLog'); do
        id=${name#CommitLog-6-}
        "$pinsilver" scan "$name" | awk -v id="${id%.log}" '$1 == "entry" { print id, $3 }'
    done
}

fresh
mkdir alone
lines 2000 >file
(cd alone && "$pinsilver" apply --dump <../file | tail -n +2 >../wanted)
for count in 2 8 64; do
    rm -rf commitlog
    "$pinsilver" apply --writers $count --segment-kib 16 --receipts --dump <file >told
    that "$count writers end well" test $? -eq 0
    that 'all are applied' test "$(head -n 1 told)" = 'applied 2000'
    awk '$1 == "receipt" { print $2 }' told >numbers
    seq 2000 >in_order
    that 'each line has its receipt, in order' cmp -s numbers in_order
    awk '$1 == "receipt" { print $3, $4 }' told | sort >receipts
    ends | sort >entries
    that 'an entry ends at each of them, and no other is there' cmp -s receipts entries
    awk -v w=$count '$1 == "receipt" { k = $2 % w
        if (k in id && (id[k] > $3 || (id[k] == $3 && end[k] >= $4))) bad = 1
        id[k] = $3; end[k] = $4 } END { exit bad }' told
    that "each writer's are in order" test $? -eq 0
    grep '^{' told >cells
    that 'the cells are those of one writer' cmp -s cells wanted
    "$pinsilver" replay | grep '^{' >replayed
    that 'and the folder restores them' cmp -s replayed wanted
done

rm -rf commitlog
"$pinsilver" apply --writers 8 --segment-kib 16 --drain --archive <file >told
that 'a run of 8 writers is drained' test $? -eq 0
that 'no segment is left' test -z "$(ls commitlog | grep '^CommitLog')"
"$pinsilver" replay | grep '^{' >replayed
that 'table files restore the cells' cmp -s replayed wanted
lines 10 | "$pinsilver" apply --writers 3 --dump >told
that 'the next run goes on' test "$(head -n 1 told)" = 'applied 10'

# Runs that are killed at random moments leave of each writer the first of its lines, and the next
# run goes on.
fresh
made() {
    awk 'BEGIN { for (i = 1; i <= 3000; i++)
        printf "{\"key\":\"%05d\",\"updates\":[{\"table\":0,\"column\":\"c\",\"ts\":1," \
            "\"value\":\"v\"}]}\n", i }'
}
by_eight() { exec "$program" apply --writers 8 --segment-kib 4 <file >said 2>/dev/null; }
made >file
start=$(date +%s%N)
(by_eight)
took=$((($(date +%s%N) - start) / 1000000))
lost= killed=0 some=0
for run in $(seq 20); do
    rm -rf commitlog said
    (by_eight) &
    sleep "$(awk -v n="$run" -v ms="$took" 'BEGIN { srand(n); printf "%.3f", rand() * ms / 1000 }')"
    kill -9 $! 2>/dev/null && killed=$((killed + 1))
    wait $! 2>/dev/null
    "$program" replay | sed -n 's/.*"key":"0*\([0-9]*\)".*/\1/p' >found
    [ ! -s found ] || [ -s said ] || some=$((some + 1))
    awk '{ w = $1 % 8; count[w]++; if ($1 > last[w]) last[w] = $1 }
        END { for (w in count)
                if (last[w] != (w + 0 ? w : 8) + 8 * (count[w] - 1)) bad = 1
            exit bad }' \
        found || lost="$lost $run"
    [ ! -s said ] || [ "$(wc -l <found)" -eq 3000 ] || lost="$lost said-$run"
    echo "$line" | "$program" apply --writers 2 >again || lost="$lost again-$run"
done
that "killed runs of 8 writers ($killed of 20; $some with some lines) leave first lines ($lost)" \
    test -z "$lost"
