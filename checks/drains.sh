# Lines that are drained: table files come, the run's segments go, and what a run that is killed
# leaves. With an archive each segment has its archive name before it goes.
. "$top/checks/lib"

fresh
(lines a b c; put d 3) >input
expect 'four lines of two tables' 0 'applied 4' '' \
    "$pinsilver" apply --segment-kib 4 --drain <input
that 'a file of each table and no segment' test \
    "$(ls commitlog | tr '\n' ' ')" = 'Table-0-1.tbl Table-3-1.tbl '
that 'they hold all lines' test "$("$pinsilver" replay | keys)" = abcd
expect 'the next run is archived' 0 'applied 4' '' \
    "$pinsilver" apply --segment-kib 4 --drain --archive <input
that 'two archived segments' test "$(ls commitlog | grep -c '^Archive-CommitLog-6-')" -eq 2
that 'and no segment' test "$(ls commitlog | grep -c '^CommitLog-')" -eq 0
that 'an archived segment is one by its bytes' sh -c '
    archive=$(ls commitlog/Archive-* | head -n 1)
    name=${archive#commitlog/Archive-}
    mkdir other && cd other && mkdir commitlog && cp "../$archive" "commitlog/$name" &&
    "$0" scan "$name" | grep -c "^entry " | grep -qx 2' "$pinsilver"
expect 'an empty file leaves nothing' 0 'applied 0' '' sh -c \
    'mkdir none && cd none && "$0" apply --drain </dev/null && ! ls commitlog/* 2>/dev/null' \
    "$pinsilver"

# A run is killed at each call of a kind in turn, up to the first run that is not. Of one that is
# killed the first lines are there, in order, and of before all; what had its archive name keeps it,
# and the next run leaves no segment.
fresh
if ! traces; then
    skipped 'no strace'
    exit 0
fi

# Kills a run over an older segment at a call of a kind, by its number.
kill_at() {
    rm -rf commitlog
    put a 0 | "$program" apply >/dev/null
    lines b c d e f | strace -o "$box/trace" -e trace="$1" -e inject="$1":signal=KILL:when="$2" \
        "$program" apply --segment-kib 4 --drain --archive >said 2>/dev/null
}

# What is wrong with what such a run left.
wrong() {
    (cd commitlog && sha256sum Archive-* 2>/dev/null) >archived
    told=$(put z 0 | "$program" apply --dump --drain | keys)
    case $(cat said):$told in
    *:abcdefz | :az | :abz | :abcz | :abcdz | :abcdez) ;;
    *) echo "lines-$told" ;;
    esac
    # The dump is made in front of the recovery and the drain: what they left is read behind them.
    [ "$("$program" replay | keys)" = "$told" ] || echo replay
    [ ! -s archived ] || (cd commitlog && sha256sum --quiet -c ../archived) || echo archive
    ls commitlog | grep '^CommitLog-'
}

for call in openat write fsync rename unlink; do
    number=1
    lost=
    while kill_at "$call" "$number" 2>/dev/null; [ $? -eq 137 ] && [ "$number" -lt 100 ]; do
        found=$(wrong 2>&1)
        [ -z "$found" ] || lost="$lost $number:$found"
        number=$((number + 1))
    done
    that "$call was killed, and at last was not ($number)" \
        test "$number" -gt 1 -a "$number" -lt 100
    that "a drained run that is killed at $call loses nothing ($lost)" test -z "$lost"
done

# One letter a call: the segment is synced, the unfinished file is, which then is the table file, the
# next one, which then has the archive name, and the segment removed; the folder synced behind each
# of the three.
rm -rf commitlog
put a 0 | strace -o "$box/trace" -y -e trace=fsync,rename,unlink \
    "$program" apply --drain --archive >/dev/null
order=$(sed -n -e '/^fsync([0-9]*<[^>]*CommitLog-6-/s/.*/s/p' \
    -e '/^fsync([0-9]*<[^>]*being-published/s/.*/u/p' -e '/^rename(.*Table-0-1/s/.*/t/p' \
    -e '/^rename(.*Archive-/s/.*/a/p' -e '/^unlink(.*CommitLog-6-/s/.*/r/p' \
    -e '/^fsync([0-9]*<[^>]*commitlog>/s/.*/f/p' "$box/trace" | tr -d '\n')
that "synced, put, archived, removed, each lasting before the next ($order)" sh -c \
    'case $0 in s*utfuafrf) ;; *) exit 1 ;; esac' "$order"
