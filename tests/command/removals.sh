# Part of tests/command/run: a delta of properties that removes many names. Each takes about a second, however many there are.

# changed BLOCK: a dump whose revision 2 changes the properties of a file by the delta in this file
changed() {
    printf 'SVN-fs-dump-format-version: 3\n\nRevision-number: 1\n\nNode-path: a\nNode-kind: file\nNode-action: add\nProp-content-length: 22\n\nK 1\np\nV 1\n1\nPROPS-END\n'
    printf 'Revision-number: 2\n\nNode-path: a\nNode-action: change\nProp-delta: true\nProp-content-length: %d\n\n' "$(wc -c <"$1")"
    cat "$1"
}

# removing LINES: lines that remove 300,000 names, of which none is there, with these lines behind them
removing() {
    awk 'BEGIN { for (i = 0; i < 300000; i++) printf "D 7\nn%06d\n", i }'
    printf "$1PROPS-END\n"
}

# answers NAME COMMAND STATUS LINE: what the command answers to the delta in that file within 20 seconds; its output is in $work/out
answers() {
    changed "$work/block" >"$work/removing"
    timeout 20 "$program" "$2" <"$work/removing" >"$work/out" 2>"$work/errors"
    check "$1: status" test $? -eq "$3"
    check "$1: standard error" test "$(cat "$work/errors")" = "$4"
}

printf 'K 1\nq\nV 1\n2\nD 1\np\nPROPS-END\n' >"$work/block"
answers 'a delta' canon 0 ''
cp "$work/out" "$work/wanted"
removing 'K 1\nq\nV 1\n2\nD 1\np\n' >"$work/block"
answers '300,000 removals of absent names' canon 0 ''
check '300,000 removals of absent names: nothing else changes' cmp -s "$work/out" "$work/wanted"
answers '300,000 removals of absent names, listed' list 0 ''
removing 'D 7\nn000000\n' >"$work/block"
answers 'the first of 300,000 names again' list 1 'svnfleet: 5 bad property block'
removing 'K 7\nn299999\nV 0\n\n' >"$work/block"
answers 'a value for the last of 300,000 names' list 1 'svnfleet: 5 bad property block'
removing 'D 256\n' >"$work/block"
answers 'a name of 256 bytes behind 300,000' list 1 'svnfleet: 8 limit exceeded'
