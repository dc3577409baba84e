# Part of tests/command/run: a root that is copied into itself again and again. Each copy doubles the paths of the tree, so that
# whoever walks them never ends; the trees share what they have in common.

# copies TIMES: revision 1 adds a file, and each of so many later revisions copies the root before it to a new directory
copies() {
    awk -v times="$1" 'BEGIN {
        printf "SVN-fs-dump-format-version: 2\n\n"
        printf "Revision-number: 1\n\nNode-path: f\nNode-kind: file\nNode-action: add\nText-content-length: 1\n\nx\n\n"
        for (n = 2; n <= times + 1; n++)
            printf "Revision-number: %d\n\nNode-path: c%d\nNode-kind: dir\nNode-action: add\nNode-copyfrom-rev: %d\nNode-copyfrom-path: \n\n\n\n", n, n, n - 1
    }'
}

copies 40 >"$work/copies"
timeout 60 "$program" canon <"$work/copies" >"$work/out" 2>"$work/errors"
check '40 copies of the root: canon' test $? -eq 0
check '40 copies of the root: each revision is written' test "$(grep -c '^Revision-number: ' "$work/out")" -eq 42
"$program" create "$work/copied" --uuid $uuid
timeout 60 "$program" load "$work/copied" <"$work/copies" >"$work/out" 2>"$work/errors"
check '40 copies of the root: load' test $? -eq 0
check '40 copies of the root: the last line' test "$(tail -n 1 "$work/out")" = 'Loaded revision 41.'
timeout 60 "$program" dump "$work/copied" -r 41:41 >"$work/out" 2>"$work/errors" </dev/null
check '40 copies of the root: an opening' test $? -eq 0
check '40 copies of the root: the newest copy' grep -q '^Node-copyfrom-rev: 40$' "$work/out"

# the file has 64 names behind 63 copies, and one more name is past the limit
copies 64 >"$work/copies"
"$program" create "$work/copied_deep" --uuid $uuid
timeout 60 "$program" load "$work/copied_deep" <"$work/copies" >"$work/out" 2>"$work/errors"
check '64 copies of the root: status' test $? -eq 1
check '64 copies of the root: the last line' test "$(tail -n 1 "$work/out")" = 'Loaded revision 64.'
check '64 copies of the root: its number' test "$(cat "$work/errors")" = 'svnfleet: 8 limit exceeded'
