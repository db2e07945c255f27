# What the benchmarks share: the built program, a folder of their own, and mutation lines with
# distinct keys. Sourced, with `top` set to the repository.
program=$top/crates/clog_tool/out/clog_tool
[ -x "$program" ] || { echo "build it first: $top/pinsilver scan CommitLog-6-1.log" >&2; exit 1; }
# The memory settings with which the launcher runs it.
GLIBC_TUNABLES=$(sed -n 's/^tunables=//p' "$top/pinsilver")
export GLIBC_TUNABLES
work=$(mktemp -d)
trap 'rm -rf "$work"' EXIT

# so many lines
lines() {
    awk -v n="$1" 'BEGIN {
        for (i = 1; i <= n; i++)
            printf "{\"key\":\"key%07d\",\"updates\":[{\"table\":%d,\"column\":\"c\",\"ts\":%d," \
                "\"value\":\"value%d\"}]}\n", i, i % 16, i, i
    }'
}
