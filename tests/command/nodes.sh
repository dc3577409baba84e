# Part of tests/command/run: revisions of more node records than a set of changes is made of. Past 8,192 of them their
# number takes no memory, and what is refused stays the same.

# headed NUMBER: the beginning of a dump whose first revision has that number
headed() {
    printf 'SVN-fs-dump-format-version: 2\n\nRevision-number: %d\n\n' "$1"
}

# nodes TIMES FIRST COUNT ACTION: a record for each of so many paths from that one on, all that so many times
nodes() {
    awk -v times="$1" -v first="$2" -v count="$3" -v what="$4" 'BEGIN {
        for (t = 0; t < times; t++) for (p = first; p < first + count; p++) printf "Node-path: n%d\nNode-action: %s\n\n", p, what
    }'
}

# made COUNT: a dump whose revision 1 adds so many directories; a revision 2 begins behind it
made() {
    headed 1
    awk -v count="$1" 'BEGIN { for (p = 0; p < count; p++) printf "Node-path: n%d\nNode-kind: dir\nNode-action: add\n\n", p }'
    printf 'Revision-number: 2\n\n'
}

# within NAME COMMAND STATUS LINE: what the command answers to standard input with 64 MiB of addresses
within() {
    (ulimit -v 65536 && exec timeout 120 "$program" $2) >"$work/out" 2>"$work/errors"
    check "$1: status" test $? -eq "$3"
    check "$1: standard error" test "$(cat "$work/errors")" = "$4"
}

crowd=600000
{ headed 1; nodes $crowd 0 1 delete; } >"$work/crowd"
within 'a path named 600,000 times' list 1 'svnfleet: 15 changes of one path do not combine' <"$work/crowd"
within 'a path named 600,000 times, spelled anew' canon 1 'svnfleet: 15 changes of one path do not combine' <"$work/crowd"
"$program" create "$work/crowded" --uuid $uuid </dev/null
within 'a path named 600,000 times, loaded' "load $work/crowded" 1 'svnfleet: 15 changes of one path do not combine' <"$work/crowd"
{ cat "$work/crowd"; printf 'Node-path\n'; } >"$work/other"
within 'a bad line behind 600,000 records' list 1 'svnfleet: 2 bad header' <"$work/other"
{ cat "$work/crowd"; printf 'Node-path: n0\n'; } >"$work/other"
within '600,000 records and the half of one' list 1 'svnfleet: 7 unexpected end of input' <"$work/other"
{ headed 2; tail -n +5 "$work/crowd"; } >"$work/other"
within '600,000 records of a revision out of turn' list 1 'svnfleet: 16 revision out of sequence' <"$work/other"
{ headed 1; nodes 120 0 5000 delete; } >"$work/other"
within '5,000 paths named 120 times' list 1 'svnfleet: 8 limit exceeded' <"$work/other"
{ cat "$work/crowd"; nodes 1 1 4095 delete; } >"$work/other"
within 'a path named 600,000 times and 4,095 others' list 1 'svnfleet: 15 changes of one path do not combine' <"$work/other"
{ cat "$work/crowd"; nodes 1 1 4096 delete; } >"$work/other"
within 'a path named 600,000 times and 4,096 others' list 1 'svnfleet: 8 limit exceeded' <"$work/other"
{ headed 1; nodes 1 1 4096 delete; nodes $crowd 4096 1 delete; } >"$work/other"
within '4,096 paths, the last of which is named 600,000 times more' list 1 'svnfleet: 15 changes of one path do not combine' <"$work/other"
{ cat "$work/crowd"; printf 'Revision-number: 2\n\n'; } >"$work/other"
within 'a revision behind one with 600,000 records' list 1 'svnfleet: 15 changes of one path do not combine' <"$work/other"

# 8,192 records are a whole set: each of 4,096 paths is deleted and added
{ made 4096; nodes 1 0 4096 delete; awk 'BEGIN { for (p = 0; p < 4096; p++) printf "Node-path: n%d\nNode-kind: dir\nNode-action: add\n\n", p }'; } >"$work/most"
within '8,192 records that make a set' list 0 '' <"$work/most"
check '8,192 records that make a set: all are changed' test "$(grep -c '^D 2 n' "$work/out")" -eq 4096
{ cat "$work/most"; nodes 1 4095 1 delete; } >"$work/other"
within 'a record more, of the last path' list 1 'svnfleet: 15 changes of one path do not combine' <"$work/other"
{ cat "$work/most"; nodes 1 4096 1 delete; } >"$work/other"
within 'a record more, of another path' list 1 'svnfleet: 8 limit exceeded' <"$work/other"
{ cat "$work/most"; printf 'Revision-number: 3\n\n'; nodes 1 0 1 delete; } >"$work/other"
within 'a revision behind 8,192 records' list 0 '' <"$work/other"
check 'a revision behind 8,192 records: it is made' test "$(head -n 1 "$work/out")" = 'revision 3'
