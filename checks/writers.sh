# One program writes a folder.
. "$top/checks/lib"

fresh
mkdir commitlog
if has flock; then
    apply_line expect 'another program holds the folder' 6 'error 6: disk fault' \
        'pinsilver: list commitlog: another program holds the folder' \
        flock commitlog "$pinsilver" apply
    that 'nothing is written' test -z "$(ls commitlog)"
    expect 'scan takes no lock' 11 'error 11: no file CommitLog-6-5.log' '' \
        flock commitlog "$pinsilver" scan CommitLog-6-5.log
    expect 'replay takes no lock' 0 'segments 0
**' '' flock commitlog "$pinsilver" replay
    apply_line expect 'the lock is free again' 0 'applied 1' '' "$pinsilver" apply
else
    skipped 'no flock'
fi
