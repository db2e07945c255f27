# Folders that may not be read or written.
. "$top/checks/lib"
has_user || { skipped 'no second user'; exit 0; }
commitlog='commitlog/CommitLog-6-*.log'

fresh
chmod 555 .
apply_line expect 'the current folder may not be written' 6 'error 6: disk fault' \
    "pinsilver: append $commitlog: Permission denied" as_user "$program" apply
chmod 755 .
that 'nothing is made' test -z "$(ls)"

# What was made there could not be made to last.
fresh
give .
chmod 333 .
apply_line expect 'the current folder may be written and not read' 6 'error 6: disk fault' \
    "pinsilver: append $commitlog: Permission denied" as_user "$program" apply
chmod 755 .
that 'nothing is made there' test -z "$(ls)"

fresh
mkdir commitlog
give . commitlog
chmod 111 .
apply_line expect 'it may not be read, and commitlog is there' 0 'applied 1' '' \
    as_user "$program" apply
chmod 755 .
that 'the segment is whole' test "$(segment_size)" -eq 60

fresh
mkdir commitlog
give commitlog
chmod 555 commitlog
apply_line expect 'commitlog may not be written' 6 'error 6: disk fault' \
    "pinsilver: append $commitlog: Permission denied" as_user "$program" apply
chmod 333 commitlog
apply_line expect 'commitlog may not be read' 6 'error 6: disk fault' \
    'pinsilver: list commitlog: Permission denied' as_user "$program" apply
expect 'nor can it be replayed' 6 'error 6: disk fault' \
    'pinsilver: list commitlog: Permission denied' as_user "$program" replay
chmod 755 commitlog
that 'nothing is left there' test -z "$(ls commitlog)"

fresh
apply_line "$program" apply >/dev/null
name=$(ls commitlog)
chmod 600 "commitlog/$name"
if [ "$(id -u)" -eq 0 ]; then
    give commitlog
    for words in replay "scan $name" apply; do
        apply_line expect "a segment may not be read, $words" 6 'error 6: disk fault' \
            "pinsilver: read commitlog/$name: Permission denied" as_user "$program" $words
    done
    that 'it is as it was' test "$(ls commitlog):$(segment_size)" = "$name:60"
fi
