# Part of tests/command/run: folders of the first version, whose entries have no sums, and `upgrade`.

# first_version FOLDER: makes it hold the smallest history in the first version
first_version() {
    mkdir "$1"
    cp "$work/small/journal" "$1/journal"
    printf '\001\000\000\000\000\000\000\000\225\001\000\000\000\000\000\000\001\250\000' >"$1/gate"
}
# upgraded NAME COUNT FOLDER: an upgrade tells so many entries, and nothing else
upgraded() {
    "$program" upgrade "$3" >"$work/out" 2>"$work/errors" </dev/null
    check "$1: status" test $? -eq 0
    check "$1: its line" test "$(cat "$work/out")" = "Upgraded $2 entries."
    check "$1: nothing on standard error" test ! -s "$work/errors"
}
# same NAME FOLDER FOLDER: all files of the one are those of the other
same() {
    check "$1" diff -r "$2" "$3"
}

first_version "$work/old"
"$program" dump "$work/old" >"$work/out" 2>"$work/errors" </dev/null
check 'the first version: a dump is the journal' cmp -s "$work/out" "$work/small/journal"
check 'the first version: a dump makes no slots' test ! -e "$work/old/slots"
cp -r "$work/old" "$work/old_changed"
printf H | dd of="$work/old_changed/journal" bs=1 seek=228 conv=notrunc 2>"$work/errors"
"$program" dump "$work/old_changed" -r 1:1 >"$work/out" 2>"$work/errors" </dev/null
check 'the first version: a changed byte is not found' grep -q '^Hi$' "$work/out"
cp -r "$work/old" "$work/old_grown"
"$program" mkdir "$work/old_grown" b --message hi --moment 1 >"$work/out" 2>"$work/errors" </dev/null
check 'the first version: it takes a change' test "$(cat "$work/out")" = 'Committed revision 2.'
check 'the first version: one gate more' test "$(wc -c <"$work/old_grown/gate")" -eq 28
check 'the first version: a change makes no slots' test ! -e "$work/old_grown/slots"
"$program" dump "$work/old_grown" >"$work/old_dump" </dev/null
upgraded 'upgrade of three entries' 3 "$work/old_grown"
"$program" dump "$work/old_grown" >"$work/out" </dev/null
check 'upgrade of three entries: the same dump' cmp -s "$work/out" "$work/old_dump"

upgraded 'upgrade' 2 "$work/old"
same 'upgrade: the files are those of a new repository' "$work/old" "$work/small"
upgraded 'upgrade again' 0 "$work/old"
same 'upgrade again: the files stay' "$work/old" "$work/small"
printf H | dd of="$work/old/journal" bs=1 seek=228 conv=notrunc 2>"$work/errors"
refused 'a changed byte behind an upgrade' 33 dump "$work/old"
check 'a changed byte behind an upgrade: the line' test "$(cat "$work/errors")" = 'svnfleet: 33 entry 1 is damaged'
refused 'upgrade of a damaged folder' 33 upgrade "$work/old"

# what is no repository stays as it is
refused 'upgrade of a missing folder' 34 upgrade "$work/none"
check 'upgrade of a missing folder: it is not made' test ! -e "$work/none"
mkdir "$work/diary"
refused 'upgrade of an empty folder' 34 upgrade "$work/diary"
check 'upgrade of an empty folder: it stays so' test -z "$(ls "$work/diary")"
echo 'dear diary' >"$work/diary/journal"
refused 'upgrade of a foreign journal' 34 upgrade "$work/diary"
check 'upgrade of a foreign journal: nothing is made' test "$(ls "$work/diary")" = journal
refused 'upgrade of a file' 31 upgrade "$work/hello"
refused 'upgrade of no folder' 34 upgrade ''

# nobody else has the folder meanwhile, and a line that can't be written doesn't undo it
if command -v flock >/dev/null 2>&1; then
    first_version "$work/old_held"
    cp -r "$work/old_held" "$work/old_unheld"
    flock "$work/old_held/journal" "$program" upgrade "$work/old_held" >"$work/out" 2>"$work/errors" </dev/null
    check 'upgrade beside another: its number' test "$(cat "$work/errors")" = 'svnfleet: 31 device failed'
    same 'upgrade beside another: the files stay' "$work/old_held" "$work/old_unheld"
fi
if [ -c /dev/full ]; then
    first_version "$work/old_unsaid"
    "$program" upgrade "$work/old_unsaid" >/dev/full 2>"$work/errors" </dev/null
    check 'an upgrade that cannot be told: its number' test "$(cat "$work/errors")" = 'svnfleet: 49 stream failed'
    same 'an upgrade that cannot be told: it is made' "$work/old_unsaid" "$work/small"
fi

# a mirror, which takes no change by `load`
upgraded 'upgrade of a mirror' 0 "$work/mirror"
