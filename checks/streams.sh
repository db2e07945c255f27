# Input and output that are closed, that cannot be read or written, and that are full.
. "$top/checks/lib"

fresh
expect 'input is closed' 4 'error 4: read fault' \
    'pinsilver: read standard input: Bad file descriptor' \
    sh -c '"$0" apply <&-' "$pinsilver"
expect 'input is a folder' 4 'error 4: read fault' \
    'pinsilver: read standard input: Is a directory' \
    "$pinsilver" apply <.
that 'no folder is made' test ! -e commitlog

apply_line expect 'output is closed' 5 '' 'pinsilver: write standard output: Bad file descriptor' \
    sh -c '"$0" apply >&-' "$pinsilver"
that 'the segment is there' test "$(segment_size)" -eq 60

fresh
if [ -c /dev/full ]; then
    apply_line expect 'output is full' 5 '' \
        'pinsilver: write standard output: No space left on device' \
        sh -c '"$0" apply >/dev/full' "$pinsilver"
    that 'the segment is whole' test "$(segment_size)" -eq 60
    expect 'faulty words, output is full' 1 '' \
        'pinsilver: write standard output: No space left on device' \
        sh -c '"$0" >/dev/full' "$program"
else
    skipped 'no /dev/full'
fi

# The reader closes the pipe before the program writes.
fresh
expect 'the reader of the output has gone' 5 '' \
    'pinsilver: write standard output: Broken pipe' \
    sh -c '{ until [ -e gone ]; do sleep 0.1; done; echo "$1" | "$0" apply; echo $? >ended; } |
        { exec <&-; : >gone; }; exit "$(cat ended)"' "$program" "$line"
that 'the segment is there all the same' test "$(segment_size)" -eq 60

# Nothing that is meant for a stream lands in the segment.
fresh
mkdir commitlog
if has_user; then
    give commitlog
    chmod 711 .
    apply_line expect 'all output is closed' 5 '' '' as_user sh -c '"$0" apply >&- 2>&-' "$program"
    that 'the segment is the 60 bytes' test "$(segment_size)" -eq 60
else
    skipped 'no second user'
fi
