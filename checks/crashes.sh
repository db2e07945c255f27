# Runs of 1 to 64 writers, in both modes, also with a short period, that flush, drain, archive, or
# do neither, are killed: half of them at random moments, half at a chosen call. What each leaves
# can be read, and the next run recovers it. Nothing of before is lost, of each writer the first of
# its lines are there, all of a run that has said so, and each line that was lasting: most runs are
# traced, and tell which lines a sync has had that returned. Segments are whole, archived or left,
# but for the last one where it is left, and hold each line once at most; table files of a table
# follow one another, and hold just the lines whose entries end in their intervals, as far as the
# segments are there to tell.
. "$top/checks/lib"

# So many runs are to be killed, half of them in each of the two ways, and at most so many are made
# for that in each. Each folder has some of them.
kills=200
most_runs=200
runs_a_folder=25

# A key, as it stands in lines, entries and table files.
a_key='[0-9][0-9][0-9]-[0-9][0-9][0-9][0-9]'

# The words of a run, by its number: each combination of writers, mode and end comes once in 96, and
# about half of those that flush or drain archive. Where a writer has few lines each of them makes a
# flush due. Each fifth run has receipts.
words_of() {
    set -- 1 2 3 5 8 16 33 64
    shift $((run % 8))
    writers=$1 limit=7
    case $((run / 8 % 3)) in
    0) count=700 mode='--segment-kib 4' ;;
    1)
        count=96 mode='--sync batch'
        [ "$writers" -lt 16 ] || limit=1
        ;;
    2) count=700 mode='--segment-kib 4 --period 1' ;;
    esac
    archive=
    [ $((run / 7 % 2)) -eq 0 ] || archive=' --archive'
    case $((run / 24 % 4)) in
    0) end= ;;
    1) end="--drain$archive" ;;
    2) end="--flush-at $limit$archive" ;;
    3) end="--flush-at $limit --drain$archive" ;;
    esac
    receipts=
    [ $((run % 5)) -ne 0 ] || receipts=--receipts
    words="apply --writers $writers $mode $end $receipts"
}

# The lines of a run, to two tables.
make_lines() {
    awk -v run="$run" -v count="$count" 'BEGIN { for (i = 1; i <= count; i++)
        printf "{\"key\":\"%03d-%04d\",\"updates\":[{\"table\":%d,\"column\":\"c\",\"ts\":1," \
            "\"value\":\"some value\"}]}\n", run, i, i % 2 }' >input
}

keys_of() { sed -n 's/.*"key":"\([^"]*\)".*/\1/p' | sort; }

# A number below another, by the run's.
chance() { awk -v n="$run" -v most="$1" 'BEGIN { srand(n); printf "%d", rand() * most }'; }

# Has strace write to `trace` what a run writes, and to which file, and what it syncs.
strace_log='strace -f -y -s 65535 -o trace -e trace=write,fsync'

# Runs the program in a folder, behind such words. Before it begins it tells `process` its number.
begin() {
    cd "$1" || exit 1
    shift
    exec "$@" sh -c 'echo $$ >"$0" && exec "$@"' "$folder/process" "$program" $words \
        <"$folder/input"
}

# Kills the run at a random moment of the time that one with these words takes. Where calls can be
# traced, those of three of four runs are, and these are not killed in the first third of that time,
# in which next to nothing is lasting.
kill_at_a_moment() {
    tracer= first=0
    [ -z "$traced" ] || [ $((run % 4)) -eq 0 ] || tracer=$strace_log
    mkdir -p elsewhere
    (begin elsewhere $tracer >/dev/null) &
    read -r process <process
    start=$(date +%s%N)
    wait $!
    took=$((($(date +%s%N) - start) / 1000))
    rm -rf elsewhere
    [ -z "$tracer" ] || first=$((took / 3))
    pause=$(awk -v us=$((first + $(chance $((took - first))))) 'BEGIN { printf "%.6f", us / 1e6 }')
    (begin . $tracer >said 2>/dev/null) &
    read -r process <process
    sleep "$pause"
    kill -9 "$process" 2>/dev/null
    wait $! 2>/dev/null
    [ $? -ne 137 ] || killed=$((killed + 1))
}

# Kills it at a call of some number, if it comes so far.
kill_at_a_call() {
    set -- fsync write openat fsync rename fsync unlink fsync write statx
    shift $((run / 3 % 10))
    # A run makes such a call about so often, or more often.
    case $1:$mode:$end in
    openat:*) most=8 ;;
    rename:*:*flush*) most=$((count / writers / limit * writers + 1)) ;;
    rename:*:*drain* | unlink:*batch*:?*) most=2 ;;
    rename:* | unlink:*:) most=1 ;;
    unlink:*) most=8 ;;
    *:*batch*) most=$((count / writers + 2)) ;;
    fsync:* | write:*) most=24 ;;
    *) most=8 ;;
    esac
    [ $most -le 48 ] || most=48
    $strace_log,"$1" -e inject="$1":signal=KILL:when=$(($(chance $most) + 1)) \
        "$program" $words <input >said 2>/dev/null &
    wait $! 2>/dev/null
    [ $? -ne 137 ] || killed=$((killed + 1))
}

# The keys of the lines that were lasting, by the trace: a sync has returned that began when the
# line was written to its segment, whatever process did either, and where `strace` tells a call's
# end on a line of its own. What a sync makes lasting is entries of 51 bytes, since all lines of a
# run have one length, behind a header of 20 bytes where its segment begins, and markers of 8 bytes:
# so the bytes tell too how many lines they hold.
lasting() {
    awk '
        function keys_in(text,  found) {
            while (match(text, /[0-9][0-9][0-9]-[0-9][0-9][0-9][0-9]/)) {
                found = found substr(text, RSTART, RLENGTH) "\n"
                text = substr(text, RSTART + RLENGTH)
            }
            return found
        }
        /^[0-9]+ +[a-z0-9_]+\(/ { call[$1] = "" }
        match($0, /^[0-9]+ +(write|fsync)\([0-9]+<[^>]*CommitLog-6-[0-9]+\.log/) {
            call[$1] = $2 ~ /^write/ ? "write" : "sync"
            id = substr($0, 1, RLENGTH)
            sub(/.*-/, "", id)
            of[$1] = id
            if (call[$1] == "write") keys[$1] = keys_in(substr($0, RLENGTH))
            else {
                keys[$1] = written[id]; size[$1] = bytes[id]
                written[id] = ""; bytes[id] = 0
            }
        }
        call[$1] != "" && / = [0-9]+$/ {
            id = of[$1]
            if (call[$1] == "write") {
                written[id] = written[id] keys[$1]
                bytes[id] += $NF
            } else if (size[$1] > 0) {
                printf "%s", keys[$1]
                left = size[$1] - (id in begun ? 8 : 28)
                begun[id] = 1
                while (left % 51 != 0) left -= 8
                if (left / 51 != length(keys[$1]) / 9)
                    print id, size[$1] " bytes of " length(keys[$1]) / 9 >"/dev/stderr"
            }
            call[$1] = ""
        }' trace | sort
}

# The names in the folder that begin so; none where there is no folder.
names() { ls commitlog 2>/dev/null | grep "^$1"; }

# Puts the run's segments, archived or left, into a folder of their own. In `scanned` stand their
# lengths, and what `scan` tells of each in turn; in `ends` where their entries end.
look_at_segments() {
    rm -rf look
    mkdir -p look/commitlog
    for archive in $(names Archive- | comm -13 archived -); do
        cp "commitlog/$archive" "look/commitlog/${archive#Archive-}"
    done
    for name in $(names CommitLog-); do
        [ ! -e "look/commitlog/$name" ] || cmp "commitlog/$name" "look/commitlog/$name"
        cp "commitlog/$name" look/commitlog
    done
    (cd look && wc -c commitlog/* 2>/dev/null
        for name in $(ls commitlog); do "$program" scan "$name"; done) >scanned
    awk '$1 == "segment" { id = $2 } $1 == "entry" { print id, $3 }' scanned | sort >ends
}

# What is wrong with them: one does not end clean at its length, but for the last where it is left;
# a line is there twice, or is not read in the folder; a receipt tells of no entry.
wrong_segments() {
    look_at_segments
    last=$(ls look/commitlog | tail -n 1)
    [ -e "commitlog/$last" ] || last=
    awk -v left="$last" '
        $2 ~ /^commitlog/ { files++; size[substr($2, 11)] = $1 }
        $1 == "segment" { name = "CommitLog-6-" $2 ".log"; segments++ }
        $1 == "end" { ends++ }
        $1 == "end" && name != left && ($2 != "clean" || $3 != size[name]) {
            print name, $2, $3 " of " size[name]
        }
        END { if (segments != files || ends != files) print "unread" }' scanned
    (cd look && "$program" replay) >logged || cat logged
    [ "$(wc -l <ends)" -eq "$(grep -c '^{' logged)" ] || echo twice
    [ -z "$(keys_of <logged | comm -23 - found)" ] || echo logged
    case $receipts:$end in
    --receipts: | --receipts:*archive)
        [ "$(wc -l <said)" -le "$count" ] ||
            awk '$1 == "receipt" { print $3, $4 }' said | sort | cmp - ends
        ;;
    esac
}

# What is wrong with the table files, of each table in order: sequences go from 1 on. An interval
# begins at 0, a recovery's; or where a run does, above all ends before; or where the one before it
# ends. In `intervals` stands each with its table and sequence.
wrong_tables() {
    : >intervals
    names Table- | sed -n 's/^Table-\([0-9]*\)-\([0-9]*\)\.tbl$/\1 \2/p' |
        sort -n -k 1,1 -k 2,2 >tables
    [ -s tables ] || return 0
    sed 's/\(.*\) \(.*\)/commitlog\/Table-\1-\2.tbl/' tables | xargs head -q -c 33 |
        od -An -v -tu1 -w33 | paste -d ' ' tables - | awk '
        function number(from, to,  n) {
            for (n = 0; from <= to; from++) n = n * 256 + $from
            return n
        }
        {
            id = number(8, 15); at = number(16, 19); top_id = number(20, 27); top = number(28, 31)
            name = "Table-" $1 "-" $2
            printf "%d %d %.0f %d %.0f %d\n", $1, $2, id, at, top_id, top >"intervals"
            if ($2 != sequence[$1] + 1) print name, "sequence"
            if (NF != 35 || $7 != $1) print name, "head"
            if (id > top_id || (id == top_id && at >= top)) print name, "interval"
            if (id + at > 0 && !(id == last_id[$1] && at == last[$1]) &&
                (at > 0 || id <= most[$1])) print name, "begins"
            sequence[$1] = $2; last_id[$1] = top_id; last[$1] = top
            if (top_id > most[$1] + 0) most[$1] = top_id
        }'
}

# What is wrong with what the table files of a run hold whose segments are all there, archived or
# left: the first of each table begins where the first segment does, and each holds the lines of its
# table whose entries end in its interval. An entry ends 41 bytes behind the beginning of its key.
wrong_cells() {
    base=$(ls look/commitlog | sed -n '1s/.*-\([0-9]*\)\.log$/\1/p')
    case $end:$base in *archive:[0-9]*) ;; *) return 0 ;; esac
    awk -v base="$base" '$5 >= base + 0 && $3 + $4 > 0' intervals >filed
    [ -s filed ] || return 0
    echo "$run" >>compared
    awk -v base="$base" '!($1 in begun) && ($3 != base + 0 || $4 != 0) { print "first" }
        { begun[$1] }' filed
    (cd look/commitlog && LC_ALL=C grep -abHo "$a_key" *) |
        sed 's/.*-\([0-9]*\)\.log:\([0-9]*\):/\1 \2 /' |
        awk 'NR == FNR { ends[$0]; next }
            $1 " " $2 + 41 in ends { print $1, $2 + 41, $3 }' ends - >placed
    awk 'NR == FNR { row[++rows] = $0; next }
        {
            table = substr($3, 5) % 2
            for (r = 1; r <= rows; r++) {
                split(row[r], of)
                if (of[1] == table && ($1 > of[3] || $1 == of[3] && $2 > of[4]) &&
                    ($1 < of[5] || $1 == of[5] && $2 <= of[6])) print of[1], of[2], $3
            }
        }' filed placed | sort >wanted
    awk '{ print "commitlog/Table-" $1 "-" $2 ".tbl" }' filed |
        LC_ALL=C xargs grep -aHo "$a_key" |
        sed 's/.*Table-\([0-9]*\)-\([0-9]*\)\.tbl:/\1 \2 /' | sort | cmp - wanted
    [ "$(cut -d ' ' -f 1,2 wanted | sort -u | wc -l)" -eq "$(wc -l <filed)" ] || echo idle
}

# What is wrong behind a run that was killed.
wrong() {
    "$program" replay >report || echo status
    keys_of <report >found
    [ -z "$(comm -23 earlier found)" ] || echo earlier
    comm -13 earlier found >own
    awk -v writers="$writers" '{ n = substr($1, 5) + 0; w = n % writers
        have[w]++; if (n > last[w]) last[w] = n }
        END {
            for (w in have)
                if (last[w] != (w + 0 ? w : writers) + writers * (have[w] - 1)) exit 1
        }' own || echo first
    [ ! -s said ] || [ "$(wc -l <own)" -eq $count ] || echo said
    lasting >synced
    [ -z "$(comm -23 synced own)" ] || echo "synced $(comm -23 synced own | wc -l)"
    names . | sed -e '/^\(Archive-\)\{0,1\}CommitLog-6-[1-9][0-9]*\.log$/d' \
        -e '/^Table-[01]-[1-9][0-9]*\.tbl$/d' -e '/^being-/d'
    wrong_segments
    wrong_tables
    wrong_cells
}

# The next run, of one line.
go_on() {
    echo "$line" | "$program" apply >again 2>&1 || cat again
    [ "$(ls commitlog | grep -c '^CommitLog-')" -eq 1 ] || echo segments
    "$program" replay | keys_of >earlier
    [ -z "$(comm -3 earlier found | grep -v '^	*ab$')" ] || echo further
}

# Makes runs that are killed in this way, until so many were, or it is given up.
kill_runs() {
    lost= killed=0 some=0 behind=0 run=0
    while [ $killed -lt "$3" ] && [ $run -lt $most_runs ]; do
        if [ $((run % runs_a_folder)) -eq 0 ]; then
            rm -rf commitlog
            : >earlier
        fi
        run=$((run + 1))
        words_of
        make_lines
        names Archive- >archived
        : >said
        : >trace
        others=$killed
        "$1"
        bad=$(wrong 2>&1; go_on 2>&1)
        [ -z "$bad" ] || lost="$lost $run:$bad"
        [ -s said ] || [ ! -s own ] || some=$((some + 1))
        [ $killed -eq $others ] || [ ! -s synced ] || behind=$((behind + 1))
    done
    all=$((all + killed))
    all_behind=$((all_behind + behind))
    that "runs killed $2 ($killed of $run; $some with some lines, $behind with lasting ones) lose \
nothing ($lost)" test -z "$lost"
}

fresh
mkfifo process
: >compared
traced=
! traces || traced=yes
run=8
words_of
make_lines
"$program" $words <input >said
that 'a run that is not killed ends well' test "$(cat said)" = "applied $count"
all=0 all_behind=0
if [ -n "$traced" ]; then
    kill_runs kill_at_a_moment 'at random moments' $((kills / 2))
    kill_runs kill_at_a_call 'at chosen calls' $((kills - all))
    that "many of them had lines that were lasting ($all_behind)" \
        test $all_behind -gt $((kills / 4))
else
    skipped 'no strace'
    most_runs=$((2 * most_runs))
    kill_runs kill_at_a_moment 'at random moments' $kills
fi
that "$kills runs were killed ($all)" test "$all" -ge $kills
compared=$(wc -l <compared)
that "of many what their table files hold was compared ($compared)" test "$compared" -ge 20
