# Runs that go round the rings: each sync wants a group, of which 32 words stand for all, and each
# flush a memtable, for which a table has four places.
. "$top/checks/lib"

# In memory a sync takes no time.
fresh
memory=$(mktemp -d /dev/shm/pinsilver-XXXXXX 2>/dev/null) || {
    skipped 'no folder in memory'
    exit 0
}
trap 'rm -rf "$memory"' EXIT
cd "$memory" || exit 1

yes "$line" | head -n 200000 >input
expect '200,000 lines by one writer, each synced' 0 'applied 200000' '' \
    "$program" apply --sync batch <input
expect 'all are there' 0 'segments 1
tables 0
entries 200000
updates 200000
skipped 0
**' '' "$program" replay

rm -rf commitlog
head -n 2000 input | expect '2,000 lines by eight writers, each synced, and flushed at once' 0 \
    'applied 2000' '' "$program" apply --sync batch --writers 8 --flush-at 1 --drain
expect 'they are in table files alone' 0 'segments 0
**' '' "$program" replay
