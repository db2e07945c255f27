# One request for memory is refused in a run, each in its turn. The run says that there is no memory
# or does all without it. It never dies or hangs, and what it leaves of the folder is whole.
. "$top/checks/lib"
has cc && has timeout || { skipped 'no cc, or no timeout'; exit 0; }

fresh
cc -O2 -shared -fPIC -o refuse.so "$top/checks/refuse.c" || { skipped 'no library'; exit 0; }
echo x | timeout 20 env LD_PRELOAD="$folder/refuse.so" REFUSED=1 "$program" scan 9>mark >said
[ -s mark ] || { skipped 'the program asks another library for memory'; exit 0; }

# made FIRST LAST: a mutation for each number, in several tables.
made() {
    awk -v first="$1" -v last="$2" 'BEGIN {
        for (i = first; i <= last; i++)
            printf "{\"key\":\"key%07d\",\"updates\":[{\"table\":%d,\"column\":\"c\",\"ts\":%d," \
                "\"value\":\"value%d\"}]}\n", i, i % 16, i, i
    }'
}
cells() { grep '^{'; }

# What stands before each run: line 1001 in a table file, 1002 in a segment.
made 1001 1001 | "$program" apply --drain >said
made 1002 1002 | "$program" apply >said
mv commitlog before

# wrong_of WRITERS LINES: says what is wrong of a folder's cells: one that no line makes, one of the
# lines before that is gone, one of a writer's whose line before is gone, or not so many lines.
wrong_of() {
    "$program" replay >replayed 2>&1 || { echo "replay: $(head -n 1 replayed)"; return; }
    cells <replayed | awk -v writers="$1" -v all="$2" -v stood="$stood" '
        NR == FNR { whole[$0]; next }
        !($0 in whole) { print "no such cell: " $0 }
        { number = $0; sub(/.*"ts":/, "", number); number += 0 }
        number > 1000 { old++; next }
        { count[number % writers]++; cells++ }
        number > last[number % writers] { last[number % writers] = number }
        END {
            if (old + 0 != stood) print "of the lines before are left " old + 0
            for (at = 0; at < writers; at++) {
                first = at ? at : writers
                if (count[at] && last[at] != first + (count[at] - 1) * writers)
                    print "a line of writer " at " is gone before " last[at]
            }
            if (all && cells != all) print "of the lines are there " cells + 0
        }' whole -
}

# refuse NUMBER WORDS..: a run with these words in which the request of this number is refused.
refuse() {
    rm -rf commitlog
    [ "$stood" -eq 0 ] || cp -a "$start" commitlog
    number=$1
    shift
    timeout 20 env LD_PRELOAD="$folder/refuse.so" REFUSED="$number" "$program" "$@" \
        <input >said 2>told 9>mark
    ended=$?
}

# One call of the disk wants memory behind its first system call: the append that makes the folder,
# which lists it. There the disk has failed, and standard error says why.
is_told() {
    case "$ended $(head -n 1 said)" in
    '0 '*) return 0 ;;
    '9 error 9: out of memory') [ ! -s told ] ;;
    '6 error 6: disk fault')
        grep -Eq '^pinsilver: append commitlog/.*: out of memory$' told ;;
    *) return 1 ;;
    esac
}

# each WRITERS LINES STEP WORDS..: every request up to the hundredth is refused, and then each of
# so many, up to the end of a run that asks for no more.
each() {
    writers=$1 count=$2 step=$3
    shift 3
    at=1 tried=0 refused=0 wrong=
    : >calls
    while [ "$at" -lt 20000 ]; do
        refuse "$at" "$@"
        [ -s mark ] || break
        is_told || wrong="$wrong $at: status $ended $(head -n 1 said told)"
        all=0
        [ "$ended" -ne 0 ] || all=$count
        [ "$ended" -ne 6 ] || cut -d' ' -f2 told >>calls
        found=$(wrong_of "$writers" "$all")
        [ -z "$found" ] || wrong="$wrong $at: $found"
        [ "$ended" -eq 0 ] || refused=$((refused + 1))
        tried=$((tried + 1))
        if [ "$at" -lt 100 ]; then at=$((at + 1)); else at=$((at + step)); fi
    done
    disk=$(sort calls | uniq -c | tr -s ' \n' ' ')
    that "$*: $tried of $at refused, $refused runs end by it, as a disk fault:$disk ($wrong)" \
        test -z "$wrong" -a "$tried" -gt 20 -a "$refused" -gt 0
}

{ made 1 100; made 1001 1002; } >input
cp -a before commitlog
"$program" apply <input >said
"$program" replay | cells >whole
that 'each line has a cell of its own' test "$(wc -l <whole)" -eq 102
made 1 100 >input
start=before stood=2
each 2 100 9 apply --writers 2 --flush-at 20
mv commitlog left
made 1 20 >input
each 1 20 9 apply --sync batch
stood=0
each 1 20 9 apply --sync batch
start=left stood=2
each 2 100 9 replay
