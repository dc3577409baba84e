# Part of tests/command/run: `create` beside files that are there already.

# holds_only FOLDER NAME BYTES: the folder has that file with these bytes, and no other
holds_only() {
    test "$(ls -A "$1")" = "$2" && test "$(cat "$1/$2")" = "$3"
}

for there in journal gate slots; do
    mkdir "$work/foreign.$there"
    printf 'not ours' >"$work/foreign.$there/$there"
    refused "create beside a foreign $there" 35 create "$work/foreign.$there" --uuid $uuid
    check "create beside a foreign $there: the folder stays" holds_only "$work/foreign.$there" $there 'not ours'
    refused "create beside a foreign $there, again" 35 create "$work/foreign.$there" --uuid $uuid
    check "create beside a foreign $there, again: the folder stays" holds_only "$work/foreign.$there" $there 'not ours'

    # an empty file is what a create that was stopped leaves, and is taken up
    mkdir "$work/empty.$there"
    : >"$work/empty.$there/$there"
    "$program" create "$work/empty.$there" --uuid $uuid >"$work/out" 2>"$work/errors" </dev/null
    check "create beside an empty $there: status" test $? -eq 0
    check "create beside an empty $there: the journal" test "$(wc -c <"$work/empty.$there/journal")" -eq 149
    check "create beside an empty $there: the slots" holds "$work/empty.$there/slots" 0100000000000000957003969be94896f860fa3d8d10e46c1100
done
mkdir "$work/foreign"
printf 'not ours' >"$work/foreign/notes"
"$program" create "$work/foreign" --uuid $uuid >"$work/out" 2>"$work/errors" </dev/null
check 'create beside another file: status' test $? -eq 0
check 'create beside another file: it stays' test "$(cat "$work/foreign/notes")" = 'not ours'

# of creates that begin at once one alone begins a repository, and each other is refused
for number in 1 2 3 4 5 6 7 8; do
    "$program" create "$work/at_once" --uuid 6a1f0c3e-0000-4000-8000-00000000000$number >"$work/out.$number" 2>"$work/errors.$number" </dev/null &
done
wait
begun=0
for number in 1 2 3 4 5 6 7 8; do
    if [ ! -s "$work/errors.$number" ]; then
        begun=$((begun + 1))
        check 'creates at once: the identity is that of the one that began it' grep -q "^UUID: 6a1f0c3e-0000-4000-8000-00000000000$number\$" "$work/at_once/journal"
    else
        check 'creates at once: 31 or 35' grep -Eq '^svnfleet: (31|35) ' "$work/errors.$number"
    fi
done
check 'creates at once: one began' test "$begun" -eq 1
check 'creates at once: the repository opens' "$program" dump "$work/at_once" >"$work/out" 2>"$work/errors" </dev/null
