# Words in any order, and values in each form. Faulty ones touch nothing.
. "$top/checks/lib"

fresh
cell='{"column":"cd","key":"ab","table":0,"ts":5,"value":null}'
for words in '--dump --receipts --drain --archive --segment-kib 4' \
    '--segment-kib=0004 --archive --dump --drain --receipts' \
    '--drain --segment-kib 4 --receipts --archive --dump' \
    '--writers 1 --archive --sync=periodic --receipts --period 10000 --drain --dump' \
    '--dump --writers=064 --drain --receipts --archive' \
    '--flush-at 0000000001 --archive --dump --receipts' \
    '--drain --archive --receipts --flush-at=1000000 --dump'; do
    rm -rf commitlog
    apply_line expect "apply $words" 0 "applied 1
receipt 1 * 60
$cell" '' "$pinsilver" apply $words
    that 'it is drained and archived' test "$(ls commitlog | sed 's/6-[0-9]*/6/')" = \
        'Archive-CommitLog-6.log
Table-0-1.tbl'
done
for words in '--workers 64 --ignore-errors' '--ignore-errors --workers=064' '--workers=1'; do
    expect "replay $words" 0 "segments 0
tables 1
entries 0
updates 0
skipped 0
$cell" '' "$pinsilver" replay $words
done

rm -rf commitlog
for words in 'apply --drain --drain' 'apply --segment-kib 3' 'apply --segment-kib=32769' \
    'apply --segment-kib=+4' 'apply --segment-kib' 'apply --segment 4' 'apply --dump=' \
    'apply -d' 'apply --' 'apply --writers 65' 'apply --flush-at 0' \
    'apply --flush-at=1000001' 'apply --flush-at' 'apply --period 0' \
    '--dump apply' 'replay --workers 0' 'replay --workers 65' 'replay --workers= 4' \
    'replay --workers --ignore-errors' 'replay --dump' 'scan' 'scan CommitLog-7-5.log' \
    'scan CommitLog-6-05.log' 'scan Archive-CommitLog-6-5.log' \
    'scan CommitLog-6-5.log CommitLog-6-6.log' 'drill 7' 'orders 0 3' 'orders 64 3' \
    'orders 2 100001' 'Apply'; do
    apply_line expect "$words" 1 'error 1: usage' '' "$program" $words
done
that 'none of them makes a folder' test ! -e commitlog
