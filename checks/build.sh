# The launcher's own statuses, and when it builds: a copy of it stands over sources and a toolchain
# that are made up here.
. "$top/checks/lib"

# A tree with the launcher and one source, and a toolchain that makes a program of this text.
tree() {
    fresh
    mkdir -p tree/crates/clog_tool/src
    : >tree/crates.txt
    : >tree/crates/clog_tool/src/main.rt
    cp "$pinsilver" tree/pinsilver
    made=$1
    cat >rt <<'RT'
#!/bin/sh
echo "$*" >>"$calls"
echo 'error 1: usage'
echo 'built' >&2
mkdir -p out
[ -z "$made" ] || { printf '%s\n' '#!/bin/sh' "$made" >out/clog_tool && chmod 755 out/clog_tool; }
RT
    chmod 755 rt
    calls=$folder/calls
    : >"$calls"
    export made calls
}
launcher() { RT=$folder/rt tree/pinsilver "$@"; }
built() { test "$(wc -l <"$calls")" -eq "$1"; }

begins='pinsilver: proving and building the program first;'
begins="$begins from nothing a quarter of an hour or more"

tree ''
expect 'no toolchain' 127 '' \
    "pinsilver: no toolchain: the command 'no-rt' is not there; put it on the path, or set RT" \
    env RT=no-rt tree/pinsilver apply
expect 'the build makes no program' 126 '' "$begins
built
pinsilver: the build failed" launcher apply
that 'the toolchain was called once, to run the program' test "$(cat "$calls")" = run

tree 'echo "$# $*"; cat; exit 7'
echo input | expect 'the first run builds, and hands on words, input and status' 7 '3 a b  c
input' "$begins
built" launcher a 'b ' c
echo input | expect 'the second does not build' 7 '1 a
input' '' launcher a
that 'one build' built 1
sleep 1
: >tree/crates/clog_tool/src/main.rt
expect 'a source that is newer is built again' 7 '0 ' "$begins
built" launcher </dev/null
that 'two builds' built 2
sleep 1
mkdir -p tree/crates/clog_tool/out tree/docs
: >tree/crates/clog_tool/out/note
: >tree/docs/page.md
expect 'what is no source is not' 7 '0 ' '' launcher </dev/null

# A build that fails leaves no older program to run.
sleep 1
: >tree/crates.txt
made=
expect 'the program of before does not run' 126 '' "$begins
built
pinsilver: the build failed" launcher </dev/null
that 'it is gone' test ! -e tree/crates/clog_tool/out/clog_tool
