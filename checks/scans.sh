# Reading a segment of a real folder: what apply wrote, and the bytes of docs/FORMATS.md.
. "$top/checks/lib"

fresh
apply_line "$pinsilver" apply >/dev/null
name=$(ls commitlog 2>/dev/null)
id=${name#CommitLog-6-}
expect 'a segment that apply wrote' 0 "segment ${id%.log}
entry 28 60 20
end clean 60" '' "$pinsilver" scan "$name"

# The bytes between the first backquotes behind each offset of the example, as octal escapes.
fresh
mkdir commitlog
bytes=$(sed -n '/^### The example/,/^### Reading/s/^| [0-9]* |\([^|]*\)|.*/\1/p' \
    "$top/docs/FORMATS.md" | tr -dc '0-9a-f')
for byte in $(echo "$bytes" | sed 's/../& /g'); do
    printf "\\$(printf %o "0x$byte")"
done >commitlog/CommitLog-6-1000.log
that 'the document has 60 bytes' test "$(segment_size)" -eq 60
expect 'the example of the document' 0 'segment 1000
entry 28 60 20
end clean 60' '' "$pinsilver" scan CommitLog-6-1000.log

head -c 59 commitlog/CommitLog-6-1000.log >commitlog/CommitLog-6-1001.log
expect 'under another name' 0 'segment 1001
end torn 0 HeaderId 1000' '' "$pinsilver" scan CommitLog-6-1001.log
head -c 59 commitlog/CommitLog-6-1001.log >commitlog/CommitLog-6-1000.log
expect 'cut by a byte' 0 'segment 1000
end torn 20 MarkerTarget 60' '' "$pinsilver" scan CommitLog-6-1000.log
that 'nothing is changed' test "$(ls commitlog | wc -l)" -eq 2
