# One folder, on which twenty runs that drain and archive are killed at random moments: each is
# recovered by the next, which is not killed. Of each run the first lines are there, in order, and
# all of a run that has said so; what was there once stays, and so does each archived segment.
. "$top/checks/lib"

fresh
count=300
# The lines of a run, to two tables. Keys ascend from run to run, and line by line.
lines_of() {
    awk -v run="$1" -v count="$count" 'BEGIN { for (i = 1; i <= count; i++)
        printf "{\"key\":\"%02d-%05d\",\"updates\":[{\"table\":%d,\"column\":\"c\",\"ts\":1," \
            "\"value\":\"some value\"}]}\n", run, i, i % 2 }'
}
keys_of() { sed -n 's/.*"key":"\([-0-9]*\)".*/\1/p' | sort; }
drain() { exec "$program" apply --segment-kib 4 --drain --archive <input >said 2>/dev/null; }

# A whole run, and how many milliseconds it took.
whole_run() {
    lines_of "$1" >input
    start=$(date +%s%N)
    (drain)
    took=$((($(date +%s%N) - start) / 1000000))
}

# A run that is killed at a moment of such a time, by its number.
killed_run() {
    lines_of "$1" >input
    : >said
    (drain) &
    sleep "$(awk -v n="$1" -v ms="$took" 'BEGIN { srand(n); printf "%.3f", rand() * ms / 1000 }')"
    kill -9 $! 2>/dev/null && killed=$((killed + 1))
    wait $! 2>/dev/null
}

# What is wrong behind a run: of the keys of before, of its own, and of what is archived.
wrong() {
    cp found earlier
    "$program" replay >report || echo status
    keys_of <report >found
    head -n "$(wc -l <earlier)" found | cmp -s - earlier || echo earlier
    tail -n "+$(($(wc -l <earlier) + 1))" found >own
    lines_of "$1" | keys_of | head -n "$(wc -l <own)" | cmp -s - own || echo own
    [ ! -s said ] || [ "$(wc -l <own)" -eq "$count" ] || echo said
    [ ! -s archived ] || sha256sum --quiet -c archived 2>&1
    sha256sum commitlog/Archive-* >archived
}

whole_run 0
that 'a run that is not killed ends well' test "$(cat said)" = "applied $count"
lines_of 1 | "$program" apply >/dev/null
"$program" replay | keys_of >found
that 'two runs are there' test "$(wc -l <found)" -eq $((2 * count))
: >archived
lost= killed=0 some=0 all=0
for run in $(seq 2 2 40); do
    killed_run "$run"
    found=$(wrong "$run" 2>&1)
    [ -z "$found" ] || lost="$lost $run:$found"
    [ -s said ] || [ ! -s own ] || some=$((some + 1))
    [ -s said ] || [ "$(wc -l <own)" -lt "$count" ] || all=$((all + 1))
    whole_run "$((run + 1))"
    found=$(wrong "$((run + 1))" 2>&1)
    [ -z "$found$(ls commitlog | grep '^CommitLog-\|^being-')" ] && [ -s said ] ||
        lost="$lost behind-$run:$found"
done
that "runs that are killed ($killed of 20; $some with lines, $all with all of them) lose nothing \
($lost)" test -z "$lost"
that 'some were killed' test "$killed" -gt 0

# The archived segments hold their lines whole.
mkdir -p other/commitlog
for archive in commitlog/Archive-*; do cp "$archive" "other/commitlog/${archive#*/Archive-}"; done
cd other || exit 1
that 'no archived segment is damaged' "$program" replay
"$program" replay | keys_of >../archived_keys
that 'nor is the last one cut' sh -c \
    '"$0" scan "$(ls commitlog | tail -n 1)" | tail -n 1 | grep -q "^end clean"' "$program"
that 'each run that was not killed is archived whole' test \
    "$(grep -c '^00-\|^[0-9][13579]-' ../archived_keys)" -eq $((21 * count))
that 'what is archived is there' test -z "$(comm -23 ../archived_keys ../found)"
