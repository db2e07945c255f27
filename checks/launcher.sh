# What the launcher answers itself, and what it adds after faulty words.
. "$top/checks/lib"
fresh

for word in help --help -h; do
    expect "$word" 0 'pinsilver: the write path**  pinsilver help**' '' "$pinsilver" "$word"
done
expect '--version' 0 'pinsilver 0.1.0 (segments of version 6)' '' "$pinsilver" --version

hint="pinsilver: see '$pinsilver help'"
expect 'no words' 1 'error 1: usage' "$hint" "$pinsilver"
expect 'an unknown word' 1 'error 1: usage' "$hint" "$pinsilver" frobnicate
expect 'a word too many' 1 'error 1: usage' "$hint" "$pinsilver" apply --dump now
expect 'a name with a folder' 1 'error 1: usage' "$hint" \
    "$pinsilver" scan commitlog/CommitLog-6-5.log
expect 'a word that is no text' 1 'error 1: usage' "$hint" "$pinsilver" apply "$(printf '\377')"
that 'faulty words leave no folder' test ! -e commitlog
expect 'the program alone gives no such help' 1 'error 1: usage' '' "$program"
expect 'help is no word of the program' 1 'error 1: usage' '' "$program" help

ln -s "$pinsilver" link
expect 'the launcher by a link' 1 'error 1: usage' "pinsilver: see './link help'" ./link
