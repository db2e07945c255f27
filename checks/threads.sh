# How many threads a command starts beside its first. No clause tells it.
. "$top/checks/lib"

fresh
traces || { skipped 'no strace'; exit 0; }
lines a b >input

# threads COUNT WORD..: the command starts so many.
threads() {
    count=$1
    shift
    strace -f -o trace -e trace=clone,clone3 "$program" "$@" <input >/dev/null 2>&1
    [ "$(grep -c 'clone3*(' trace)" -eq "$count" ]
}
that 'one writer needs none' threads 0 apply
that 'the cells in front of a dump are read beside one worker' threads 1 apply --dump
that 'replay merges in one worker' threads 1 replay
that 'and in as many as it is told' threads 3 replay --workers 3
# Three beside the first one prepare the lines, three log them, and four workers merge.
that 'a drill writes by four writers, and reads by four workers' threads 10 drill 7 1000
