# Names in the folder that are no segment's: they are left alone.
. "$top/checks/lib"

fresh
mkdir commitlog
odd=$(printf 'commitlog/\377')
if (: >"$odd") 2>/dev/null; then
    expect 'scan beside a name that is no text' 11 'error 11: no file CommitLog-6-5.log' '' \
        "$pinsilver" scan CommitLog-6-5.log
    apply_line expect 'apply beside it' 0 'applied 1' '' "$pinsilver" apply
    that 'it is still there' test -e "$odd"
else
    skipped 'no such name on this file system'
fi

fresh
mkdir commitlog commitlog/before
: >commitlog/notes.txt
ln -s nowhere commitlog/CommitLog-6-6.old
apply_line expect 'apply beside a sub-folder, a link and a note' 0 'applied 1' '' "$pinsilver" apply
that 'the link was not followed' test ! -e commitlog/nowhere

# What stands at the name of a segment or of a table file, and is no plain file, is told: a segment
# that was moved away behind a link would else be passed over.
told() {
    fault="pinsilver: list commitlog/$1: not a regular file"
    expect "replay: $2 at $1" 6 'error 6: disk fault' "$fault" "$program" replay
    expect "scan: $2 at $1" 6 'error 6: disk fault' "$fault" "$program" scan CommitLog-6-5.log
    expect "apply: $2 at $1" 6 'error 6: disk fault' "$fault" apply_line "$program" apply
}

fresh
apply_line "$program" apply >/dev/null
segment=$(ls commitlog)
mkdir elsewhere
mv "commitlog/$segment" elsewhere
ln -s "../elsewhere/$segment" commitlog
told "$segment" 'a link'
that 'nothing was made beside it' test "$(ls commitlog)" = "$segment"
rm "commitlog/$segment"
mkdir commitlog/Table-0-1.tbl
told Table-0-1.tbl 'a folder'
rmdir commitlog/Table-0-1.tbl
mkfifo commitlog/CommitLog-7-9.log
told CommitLog-7-9.log 'a pipe'
