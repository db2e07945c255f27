# A device that is full, and a file that may not grow. A run over a folder with segments is tried
# with room for one block more each time, or one file, up to the first that ends well: what is
# refused is told, nothing is lost, and once there is room again the next run goes on.
. "$top/checks/lib"
. "$top/checks/losses"

segment='commitlog/CommitLog-6-*.log'
# Eight mutations with values of so many letters.
eight_lines() {
    value=$(head -c "$1" /dev/zero | tr '\0' x)
    lines a b c d e f g h
}

fresh
(eight_lines 2000) | expect 'a file may not grow' 6 'error 6: disk fault' \
    "pinsilver: append $segment: File too large" \
    sh -c 'trap "" XFSZ; ulimit -f 8; exec "$0" apply' "$program"
that 'a part may be left, and no more' test "$(segment_size)" -le 4096

fresh
before=data
make_before
prepare
expect 'nor may a table file' 6 'error 6: disk fault' \
    'pinsilver: publish commitlog/Table-0-2.tbl: File too large' \
    sh -c 'trap "" XFSZ; ulimit -f 8; exec "$0" apply' "$program" <input
that 'nothing is lost by it' test -z "$(lost 2>&1)"

fresh
mkdir small
mounts() { [ "$(id -u)" -eq 0 ] && mount -t tmpfs -o "$1" none small 2>/dev/null; }
mounts size=64k || { skipped 'no mount'; exit 0; }
trap 'cd / && umount "$folder/small"' EXIT
cd small || exit 1
(eight_lines 20000) | expect 'the device is full' 6 'error 6: disk fault' \
    "pinsilver: append $segment: No space left on device" "$pinsilver" apply
cd .. && umount small

# leave BLOCKS, leave_files COUNT: room for so many blocks of 4096 bytes, or files, is left.
leave() {
    head -c 1000000 /dev/zero >filler 2>/dev/null
    truncate -s "-$(($1 * 4096))" filler
}
leave_files() {
    mkdir filler
    count=0
    while (: >"filler/$count") 2>/dev/null; do count=$((count + 1)); done
    for number in $(seq "$1"); do rm "filler/$number"; done
}

# Tries with more and more room, by one of these, over segments of so many units of 1024 bytes.
try_each() {
    room=0 wrong=
    while prepare && "$1" "$room" && ! "$program" apply --segment-kib "$2" --drain --archive \
        <input >../said 2>../told && [ "$room" -lt 40 ]; do
        [ "$(cat ../said)" = 'error 6: disk fault' ] && [ "$(wc -l <../told)" -eq 1 ] &&
            grep -q '^pinsilver: .* commitlog/.*: No space left on device$' ../told ||
            wrong="$wrong $room:$(cat ../said ../told)"
        cut -d' ' -f2 ../told >>../calls
        [ ! -e commitlog/being-* ] || wrong="$wrong $room:unfinished"
        rm -r filler
        found=$(lost 2>&1)
        [ -z "$found" ] || wrong="$wrong $room:$found"
        room=$((room + 1))
    done
    rm -r filler
    that "$1, over $before, $2: with room for 0 to $room nothing is lost ($wrong)" \
        test -z "$wrong" -a "$room" -gt 2 -a "$room" -lt 40
}

mounts size=256k,nr_inodes=60 || exit 1
cd small || exit 1
make_before
for room_of in leave leave_files; do
    : >../calls
    for before in data nothing; do
        try_each "$room_of" 4
        try_each "$room_of" 64
    done
    told=$(sort -u ../calls | tr '\n' ' ')
    that "$room_of: each call that wants room was told ($told)" \
        test "$told" = 'append link publish '
done
