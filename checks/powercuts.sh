# What a power cut leaves. From traced runs, whole and killed, and from the run behind each killed
# one, the folders are built that a cut may leave at each moment: what was not synced, of bytes and
# names, is there, or in part, or not at all. Each is recovered and told: whole lines only, the
# first ones of each writer, and all that had been synced or told as applied. Each sync that counts
# is then left out of a trace, and is missed; so are those by which a run makes lasting what it has
# read. All in memory where the system has a folder for that: no device is asked what it keeps.
. "$top/checks/lib"

seed=${seed:-1}
memory=$(mktemp -d /dev/shm/XXXXXX 2>/dev/null)
trap 'rm -rf "$memory"' EXIT

# cuts WHAT MODE: these folders are tried, and none is wrong.
cuts() {
    fresh
    cd "${memory:-.}" || exit 1
    python3 -B "$top/checks/powercuts.py" "$program" "$2" "$seed" >said 2>&1
    ended=$?
    that "$1 ($(tail -n 1 said))" test "$ended" -eq 0
    [ "$ended" -eq 0 ] || sed 's/^/    /' said >>"$box/results"
}

# missed WHAT MODE TEXT: a control, in which some folders are wrong, and the last line has the text.
missed() {
    fresh
    cd "${memory:-.}" || exit 1
    python3 -B "$top/checks/powercuts.py" "$program" "$2" "$seed" >said 2>&1
    that "$1 ($(tail -n 1 said))" sh -c \
        'tail -n 1 said | grep -q "$0" && ! grep -q "moments.* 0 wrong$" said' "$3"
}

if ! traces; then
    skipped 'no strace'
elif ! python3 -c 'import sys; sys.exit(sys.version_info < (3, 8))' 2>/dev/null; then
    skipped 'no python3'
else
    cuts 'power cuts in runs that end by themselves lose nothing' whole
    cuts 'power cuts in killed runs and in those behind them lose nothing' killed
    missed 'each sync that is left out is missed' unsynced ', unseen \[\]'
    missed 'so are those that make lasting what a killed run left' unsettled ' runs killed'
fi
