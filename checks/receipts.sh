# Receipts name the segment that is there and the ends of the entries that `scan` reads back.
. "$top/checks/lib"

line() { echo '{"key":"'"$1"'","updates":[{"table":0,"column":"c","ts":1,"value":"'"$2"'"}]}'; }

# What `scan` says of the one segment, as receipts.
receipts_of() {
    name=$(ls commitlog)
    id=${name#CommitLog-6-}
    "$pinsilver" scan "$name" | awk -v id="${id%.log}" \
        '$1 == "entry" { print "receipt", ++n, id, $3 }'
}

fresh
{ line a v; line longer 'a longer value'; line c ''; } |
    expect 'each line has a receipt' 0 'applied 3
receipt 1 *
receipt 2 *
receipt 3 *' '' "$pinsilver" apply --receipts
tail -n +2 "$box/out" >told
receipts_of >wanted
that 'they tell where the entries end' cmp -s told wanted
