# Each call that a run makes on its folder is refused in turn, up to the first run that does not
# make it. The run ends with status 6 and tells the fault once, by the disk's call and the file.
# What was there is not lost, of the run's own lines the first are there, and the next run goes on.
. "$top/checks/lib"
. "$top/checks/losses"

fresh
traces || { skipped 'no strace'; exit 0; }
make_before
unfinished=commitlog/being-published-by-pinsilver-and-may-be-removed-where-no-program-runs.tmp

# refuse CALL ERROR NUMBER: the run whose call of this number is refused. `hit` is that call, with
# the paths that it was about.
refuse() {
    prepare
    strace -y -s 0 -o trace -e trace="$1" -e inject="$1":error="$2":when="$3" \
        "$program" $words <input >said 2>told
    ended=$?
    hit=$(grep INJECTED trace)
}

# tells CALL..: whether the line on standard error begins with one of these calls of the disk.
tells() {
    for call in "$@"; do
        case $text in "pinsilver: $call"*) return ;; esac
    done
    false
}

# Whether it tells a call that may have failed, and the file. (Of a segment that was to get its
# archive name, that is the segment.)
tells_the_call() {
    file=${hit##*commitlog/}
    file=${file#Archive-}
    file=commitlog/${file%%[\">]*}:
    case $hit in
    *Archive-*) tells "link $file" "sync commitlog/Archive-${file#*/}" ;;
    rename*) tells "publish $file" ;;
    unlink*) tells "remove $file" ;;
    *being-published*) tells 'publish commitlog/Table-' 'link commitlog/CommitLog-6-' ;;
    fsync*CommitLog* | fsync*Table-*) tells "sync $file" ;;
    fsync*) tells 'sync commitlog:' 'sync commitlog/CommitLog-6-' 'publish commitlog/Table-' \
        'link commitlog/CommitLog-6-' 'remove commitlog/CommitLog-6-' ;;
    write* | fcntl* | *O_WRONLY*) tells "append $file" ;;
    *AT_EMPTY_PATH*) tells "append $file" "read $file" ;;
    statx*) tells 'list commitlog:' "measure $file" "read $file" "publish $file" "link $file" \
        "remove $file" "sync $file" ;;
    *CommitLog* | *Table-*) tells "read $file" "link $file" "sync $file" ;;
    *) tells 'list commitlog:' 'append commitlog/CommitLog-6-' ;;
    esac
}

# Whether a file has one line, which is then `text`.
has_a_line() { { read -r text && ! read -r more; } <"$1"; }

# Whether the fault is told once, in the system's words.
is_told() {
    [ "$ended" -eq 6 ] && has_a_line said && [ "$text" = 'error 6: disk fault' ] &&
        has_a_line told && tells_the_call || return 1
    case $text in *[!\ ]": $1") ;; *) false ;; esac
}

# Refuses each of a kind of call. An earlier program's unfinished file is removed if it can be: only
# that may be refused without a word.
refuse_each() {
    number=0 tried=0 wrong=
    while number=$((number + 1)) && refuse "$1" "$2" "$number" && [ -n "$hit" ]; do
        case $hit in
        'unlink("commitlog/being-'*) [ "$ended:$(cat said told)" = '0:applied 3' ] ||
            wrong="$wrong $number:$ended:$(cat said told)" ;;
        *commitlog* | *', ".", '*)
            is_told "$3" || wrong="$wrong $number:$ended:$(cat said told):$hit"
            text=${text#* }
            echo "${text%% *}" >>calls ;;
        *) continue ;;
        esac
        tried=$((tried + 1))
        [ "$words" != replay ] || diff -r before commitlog >/dev/null || wrong="$wrong $number:diff"
        found=$(lost 2>&1)
        [ -z "$found" ] || wrong="$wrong $number:$found"
    done
    that "$words over $before: $1 refused $tried times, told once, and nothing is lost ($wrong)" \
        test -z "$wrong" -a "$ended" -eq 0 -a "$tried" -gt 0
}

words='apply --segment-kib 4 --drain --archive'
before=data
refuse_each openat EROFS 'Read-only file system'
refuse_each getdents64 EIO 'Input/output error'
refuse_each statx EIO 'Input/output error'
refuse_each flock ENOLCK 'No locks available'
refuse_each lseek EIO 'Input/output error'
refuse_each read EIO 'Input/output error'
refuse_each fcntl EMFILE 'Too many open files'
refuse_each write ENOSPC 'No space left on device'
refuse_each fsync EIO 'Input/output error'
refuse_each rename ENOSPC 'No space left on device'
refuse_each unlink EROFS 'Read-only file system'
that 'each call of the disk was told' test \
    "$(sort -u calls | tr '\n' ' ')" = 'append link list measure publish read remove sync '

before=nothing
refuse_each mkdir EROFS 'Read-only file system'
refuse_each openat ENOSPC 'No space left on device'
refuse_each getdents64 EIO 'Input/output error'
refuse_each flock ENOLCK 'No locks available'
refuse_each fsync EIO 'Input/output error'

words=replay
before=data
refuse_each openat EACCES 'Permission denied'
refuse_each getdents64 EIO 'Input/output error'
refuse_each statx EIO 'Input/output error'
refuse_each read EIO 'Input/output error'

# What a refused publish leaves may not be removed either, and by the next run neither.
prepare
expect 'publishing is refused, and then clearing up' 6 'error 6: disk fault' \
    'pinsilver: publish commitlog/Table-0-2.tbl: No space left on device' strace -o trace \
    -e trace=rename,unlink -e inject=rename:error=ENOSPC -e inject=unlink:error=EROFS \
    "$program" apply <input
that 'an unfinished file is left' test -e "$unfinished"
expect 'while it stands nothing can be published' 6 'error 6: disk fault' \
    'pinsilver: publish commitlog/Table-0-2.tbl: File exists' strace -o trace \
    -e trace=unlink -e inject=unlink:error=EROFS "$program" apply <input
that 'nothing is lost by both' test -z "$(lost 2>&1)"

# Two faults are told each by its line.
before=nothing
prepare
if [ -c /dev/full ]; then
    expect 'a sync is refused, and the output is full' 6 '' \
        'pinsilver: sync commitlog/CommitLog-6-*.log: Input/output error
pinsilver: write standard output: No space left on device' sh -c 'strace -o trace -e trace=fsync \
        -e inject=fsync:error=EIO:when=1 "$0" apply >/dev/full' "$program" <input
    that 'nothing is lost by these' test -z "$(lost 2>&1)"
fi
