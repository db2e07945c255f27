# Runs as text, of the path's steps, of a disk's calls and of the program over a folder in memory: a
# faulty line ends them with its number. A run of steps has a path of its own.
. "$top/checks/lib"
play=$top/crates/path_play/out/path_play
disks=$top/crates/disk_play/out/disk_play
cases=$top/crates/run_play/out/run_play

# faulty WHAT TEXT OUT ERR: the text ends with this fault, by the program `play`.
faulty() {
    printf "$2" >run
    expect "$1" 1 "$3" "Error: $4" sh -c '"$0" <run' "$play"
}

if [ -x "$play" ]; then
    fresh
    begun='path tables 1 writers 1 capacity 4096 ordinals 1 base 1\n'
    faulty 'a step before the path' 'run a\nlook 0 log\n' 'run a' 'line 2: no path: *'
    faulty 'the path of another run' "run a\n${begun}run b\nlook 0 log\n" 'run a
run b' 'line 4: no path: *'
    faulty 'an unknown step' "${begun}\n# no step\nlok 0 log\n" '' \
        'line 4: a word that is not known *'
    faulty 'a line that ends too early' "${begun}look 0\n" '' 'line 2: the line ends too early'
    faulty 'a word too many' "${begun}look 0 log 1\n" '' 'line 2: a word that is not known *'
    faulty 'a seat that is no number' "${begun}look x log\n" '' 'line 2: a word that is no number*'
    faulty 'sizes outside their limits' \
        'path tables 0 writers 1 capacity 4096 ordinals 1 base 1\n' '' \
        'line 1: sizes outside their limits'
    printf "${begun}look 0 log\nput 0 synced 60\n" >run
    expect 'steps that are made and refused' 0 'made look 0 log
refused put 0 synced 60' '' sh -c '"$0" <run' "$play"
else
    skipped 'path_play is not built'
fi

play=$disks
if [ -x "$play" ]; then
    fresh
    faulty 'an unknown call' 'case a\nlin x\n' 'case a
lin x' 'line 2: no such line'
    faulty 'a word too many behind a call' 'len c d\n' 'len c d: no such file' \
        'line 1: a word that is missing, *'
    faulty 'a file that is none' 'bytes a/b\n' 'bytes a/b: absent' \
        'line 1: a word that is missing, *'
    faulty 'bytes that are not for the end' 'append c 1 x\n' 'append c 1 x' \
        'line 1: a disk in memory takes bytes at *'
    printf 'case c\nwriter\nappend c 0 x\nlist\n' >run
    expect 'calls over a folder' 0 'case c
writer
append c 0 x: done
list: 1 c' '' sh -c '"$0" <run' "$play"
    that 'a case leaves no folder' test ! -e disk_play_case
    mkdir disk_play_case
    faulty 'a folder in the way of a case' '# none\ncase b\n' 'case b' 'line 2: File exists *'
else
    skipped 'disk_play is not built'
fi

play=$cases
if [ -x "$play" ]; then
    fresh
    faulty 'an unknown line' 'case a\nlin x\n' 'case a' 'line 2: no such line'
    faulty 'a moment that is no number' '\n# none\nclock 1 x\n' '' 'line 3: a number is wanted'
    faulty 'half a byte' 'output 0\n' '' 'line 1: bytes are wanted'
    faulty 'a name that is none' 'show a/b\n' '' 'line 1: a name is wanted'
    printf 'output 610a0a62\nrun\n' >run
    expect 'output to the byte, and faulty words' 0 '|a
|
|b
no newline at the end
run 
status 1
|error 1: usage
clock 1000' '' sh -c '"$0" <run' "$play"
else
    skipped 'run_play is not built'
fi
