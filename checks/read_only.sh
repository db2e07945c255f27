# A file system that is only read: reading goes on, and what would write is refused and told.
. "$top/checks/lib"
. "$top/checks/losses"

fresh
mkdir small
[ "$(id -u)" -eq 0 ] && mount -t tmpfs none small 2>/dev/null || { skipped 'no mount'; exit 0; }
trap 'cd / && umount "$folder/small"' EXIT
cd small || exit 1
make_before
turn() { mount -o "remount,$1" "$folder/small"; }

turn ro
expect 'no folder can be made' 6 'error 6: disk fault' \
    'pinsilver: append commitlog/CommitLog-6-*.log: Read-only file system' \
    "$program" apply <input
that 'none is made' test ! -e commitlog

turn rw
before=data
prepare
name=$(ls commitlog | head -n 1)
turn ro
expect 'segments cannot be recovered' 6 'error 6: disk fault' \
    'pinsilver: publish commitlog/Table-0-2.tbl: Read-only file system' \
    "$program" apply --dump <input
expect 'replay reads them' 0 'segments 2
tables 1
**' '' "$program" replay
expect 'so does scan' 0 'segment **
end clean *' '' "$program" scan "$name"
turn rw
that 'nothing is changed' diff -r before commitlog
that 'the next run goes on, and nothing is lost' test -z "$(lost 2>&1)"

# Behind it are table files alone, which want no recovery.
cp -r commitlog tables
turn ro
expect 'a segment cannot be made' 6 'error 6: disk fault' \
    'pinsilver: append commitlog/CommitLog-6-*.log: Read-only file system' \
    "$program" apply <input
expect 'an empty file writes nothing' 0 'applied 0' '' "$program" apply </dev/null
turn rw
that 'nothing is changed there' diff -r tables commitlog
