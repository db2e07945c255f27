# An owner and readers over an order of groups. The values are from multiplying, by a program of its
# own. No folder is read or made.
. "$top/checks/lib"

numbers() { printf 'published %s\nlast %s %s\nreads %s\nfreed %s' "$1" "$1" "$2" "$3" "$1"; }

fresh
expect 'no round' 0 "$(numbers 0 0 0)" '' "$pinsilver" orders 1 0
expect 'three rounds' 0 "$(numbers 3 3668339987 6)" '' "$pinsilver" orders 2 3
expect '63 readers, 100,000 rounds' 0 "$(numbers 100000 1712305312 6300000)" '' \
    "$pinsilver" orders 63 100000
expect 'no reader' 1 'error 1: usage' '' "$program" orders 0 3
if [ -c /dev/full ]; then
    expect 'output is full' 5 '' \
        'pinsilver: write standard output: No space left on device' \
        sh -c '"$0" orders 2 3 >/dev/full' "$program"
else
    skipped 'no /dev/full'
fi
that 'no folder is made' test ! -e commitlog
