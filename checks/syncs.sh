# What is synced, by the system's calls: a commit is one write and one sync, through one opening.
. "$top/checks/lib"

fresh
if ! traces; then
    skipped 'no strace'
    exit 0
fi

calls() { grep -c "$1" "$box/trace"; }

apply_line expect 'apply, traced' 0 'applied 1' '' \
    strace -o "$box/trace" -y -e trace=open,openat,write,fsync "$program" apply
that 'the segment is opened once' test "$(calls 'open.*"commitlog/CommitLog-6-')" -eq 1
that 'it is written once' test "$(calls 'write(.*CommitLog-6-.*= 60$')" -eq 1
that 'it is synced once' test "$(calls 'fsync(.*CommitLog-6-.*= 0$')" -eq 1
that 'the folder and the one above are synced' test "$(calls 'fsync(.*= 0$')" -eq 3
sed -n 's/^fsync([0-9]*<\(.*\)>).*/\1/p' "$box/trace" >"$box/synced"
that 'the folder behind the segment' sh -c \
    '[ "$(sed -n 2p "$0")" = "$(dirname "$(sed -n 1p "$0")")" ]' "$box/synced"
that 'and the one above behind the folder' sh -c \
    '[ "$(sed -n 3p "$0")" = "$(dirname "$(sed -n 2p "$0")")" ]' "$box/synced"
that 'all after the write' sh -c \
    'sed -n "/write(.*CommitLog/,\$p" "$0" | grep -c "fsync(" | grep -qx 3' "$box/trace"
that 'and before the report' sh -c \
    'sed "/applied/q" "$0" | grep -c "fsync(" | grep -qx 3' "$box/trace"

# A segment's name lasts before the next segment is made, and the last one's before the report. One
# letter a call: made, written, synced, the folder synced, told.
fresh
lines a b c d e >input
expect 'three segments, traced' 0 'applied 5' '' \
    strace -o "$box/trace" -y -e trace=openat,write,fsync "$program" apply --segment-kib 4 <input
order=$(sed -n -e '/^openat(.*CommitLog-6-.*O_CREAT/s/.*/m/p' -e '/^write(.*CommitLog-6-/s/.*/w/p' \
    -e '/^fsync([0-9]*<[^>]*CommitLog-6-/s/.*/s/p' -e '/^fsync([0-9]*<[^>]*commitlog>/s/.*/f/p' \
    -e '/^write(.*applied/s/.*/t/p' "$box/trace" | tr -d '\n' | sed 's/[ws]*f/f/g')
that "each name lasts before the next segment ($order)" test "$(echo "$order" | tr -d ws)" = mfmfmft

fresh
apply_line expect 'a sync is refused' 6 'error 6: disk fault' \
    'pinsilver: sync commitlog/CommitLog-6-*.log: Input/output error' \
    strace -o "$box/trace" -e trace=fsync -e inject=fsync:error=EIO:when=1 "$program" apply
that 'nothing is synced after it' test "$(calls 'fsync(')" -eq 1

fresh
apply_line expect 'the sync of the folder above is refused' 6 'error 6: disk fault' \
    'pinsilver: sync commitlog/CommitLog-6-*.log: Input/output error' \
    strace -o "$box/trace" -e trace=fsync -e inject=fsync:error=EIO:when=3 "$program" apply

# The file that stands for a segment was put by a run that ended before the segment went: its name
# lasts before the next run removes the segment.
fresh
apply_line "$program" apply >/dev/null
apply_line strace -o "$box/trace" -e trace=unlink,unlinkat \
    -e inject=unlink,unlinkat:error=EIO:when=2 "$program" apply >/dev/null 2>&1
left=$(ls commitlog | sed 's/CommitLog-6-.*/segment/' | tr '\n' ' ')
that 'a file and its segment are left' test "$left" = 'segment Table-0-1.tbl '
expect 'the segment goes' 0 'applied 0' '' strace -o "$box/trace" -y \
    -e trace=fsync,unlink,unlinkat "$program" apply </dev/null
that 'behind a sync of the names' sh -c \
    'sed "/unlink.*CommitLog-6-/q" "$0" | grep -q "fsync(.*/commitlog>.*= 0$"' "$box/trace"

# What a run finds is made to last before it changes anything, and then the names: a program that
# was killed may have synced none of it. A folder that is refused is not synced.
fresh
apply_line "$program" apply --archive --drain >/dev/null
apply_line "$program" apply >/dev/null
found=$(ls commitlog | wc -l)
apply_line expect 'a run over files' 0 'applied 1' '' \
    strace -o "$box/trace" -y -e trace=fsync,rename,openat,write "$program" apply
sed '/being-published/,$d' "$box/trace" | sed -n 's/^fsync([0-9]*<\(.*\)>).*= 0$/\1/p' | sort -u |
    sed 's/.*commitlog\/.*/file/; s/.*commitlog$/names/; /^\//s/.*/above/' | sort | uniq -c |
    tr -s ' \n' ' ' >"$box/synced"
that "each file of $found and the names are synced first" \
    test "$(cat "$box/synced")" = " 1 above $found file 1 names "
printf x >commitlog/Table-0-1.tbl
apply_line expect 'a damaged folder' 8 'error 8: Table-0-1.tbl: Short' '' \
    strace -o "$box/trace" -e trace=fsync "$program" apply
that 'is not synced' test "$(calls 'fsync(')" -eq 0
