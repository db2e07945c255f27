# Drills on real folders. The numbers are from the description of the generator, by a program of its
# own.
. "$top/checks/lib"

numbers() { printf 'lines %s\nupdates %s\ncells %s\nlive %s\ndeletions %s\ntimestamps %s' "$@"; }

fresh
expect 'no line' 0 "$(numbers 0 0 0 0 0 0)" '' "$pinsilver" drill 7 0
that 'no folder is made for none' test ! -e commitlog
expect 'two lines' 0 "$(numbers 2 2 2 2 0 5882)" '' "$pinsilver" drill 7 2
expect 'two lines over the same' 0 "$(numbers 2 2 2 2 0 5882)" '' "$pinsilver" drill 7 2

all=$(numbers 100000 150005 23736 22237 1499 66672443)
for time in first second; do
    fresh
    expect "100,000 lines, for the $time time" 0 "$all" '' "$pinsilver" drill 7 100000
done
"$pinsilver" replay --workers 8 >"$box/replayed"
that 'replay counts the same cells' test "$(grep -c '^{' "$box/replayed")" -eq 23736
that 'and the same deletions' test "$(grep -c ',"value":null}$' "$box/replayed")" -eq 1499
that 'and their timestamps' test 66672443 -eq \
    "$(sed -n 's/.*,"ts":\(-*[0-9]*\),.*/\1/p' "$box/replayed" | awk '{ n += $1 } END { print n }')"

fresh
expect 'a seed above 32 bits' 1 'error 1: usage' '' "$program" drill 4294967296 1
expect 'more lines than there may be' 1 'error 1: usage' '' "$program" drill 7 1000001
that 'neither makes a folder' test ! -e commitlog
