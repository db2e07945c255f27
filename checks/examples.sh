# Each file of examples/ gives the output that stands beside it, and nothing on standard error.
. "$top/checks/lib"

for file in "$top"/examples/*.jsonl; do
    name=$(basename "$file" .jsonl)
    fresh
    "$pinsilver" apply --dump <"$file" >"$box/out" 2>"$box/err"
    status=$?
    read -r word number _ <"$top/examples/$name.expected"
    [ "$word" = error ] || number=0
    if [ "$status" -eq "${number%:}" ] && [ ! -s "$box/err" ] &&
        cmp -s "$box/out" "$top/examples/$name.expected"; then
        passed "$name"
    else
        failed "$name: status $status, or another output than examples/$name.expected, or an error"
    fi
done
