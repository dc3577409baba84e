# Part of tests/command/run: peers of a server that are idle, slow, many or rude, and servers that say nothing.

for words in 'serve r --port 3690 --connections 1 --timeout' 'serve r --port 3690 --connections 1 --timeout 0' \
    'serve r --port 3690 --connections 1 --timeout 43201' 'serve r --port 3690 --connections 1 --timeout -1' \
    'serve r --port 3690 --connections 1 --timeout x' 'serve r --port 3690 --connections 1 --timeout 1 --timeout 1' \
    'initialize m s --timeout 0' 'synchronize m s --timeout +1' 'copy-revprops m s -r 0:1 --timeout 43201' \
    'fleet m s --workers 1 --timeout 1' 'info m --timeout 1'; do
    "$program" $words >"$work/out" 2>"$work/errors" </dev/null
    check "usage of '$words': status 2" test $? -eq 2
    check "usage of '$words': one line" test "$(wc -l <"$work/errors")" -eq 1
done
wrong_value 'serve: no seconds' 'svnfleet: "0" is not a number of seconds from 1 to 43200 (svnfleet serve --help tells more)' serve r --port 1 --connections 1 --timeout 0
wrong_value 'synchronize: no seconds' 'svnfleet: "43201" is not a number of seconds from 1 to 43200 (svnfleet synchronize --help tells more)' synchronize m svn://127.0.0.1:1/ --timeout 43201
wrong_value 'copy-revprops: no seconds' 'svnfleet: "1s" is not a number of seconds from 1 to 43200 (svnfleet copy-revprops --help tells more)' copy-revprops m svn://127.0.0.1:1/ -r 0:1 --timeout 1s

# revision 1 adds the file f of 1 MiB, the most that a text may have
mkdir "$work/peers"
cp -r "$work/small" "$work/peers/small"
"$program" create "$work/peers/big" --uuid $uuid </dev/null
{
    printf 'SVN-fs-dump-format-version: 2\n\nRevision-number: 1\nProp-content-length: 10\nContent-length: 10\n\nPROPS-END\n\n'
    printf 'Node-path: f\nNode-kind: file\nNode-action: add\nProp-content-length: 10\nText-content-length: 1048576\nContent-length: 1048586\n\nPROPS-END\n'
    head -c 1048576 /dev/zero
    printf '\n\n'
} | "$program" load "$work/peers/big" >"$work/out"
check 'a big file is loaded' test "$(cat "$work/out")" = 'Loaded revision 1.'
for name in idle slow deaf crowd short starved drained endless trouble silent; do
    python3 tests/command/peers.py "$program" "$work/peers" $name >"$work/out"
    status=$?
    if [ $status -eq 77 ]; then
        echo "peers that are there at once: skipped: $(cat "$work/out")"
    else
        check "peers: $name: $(cat "$work/out")" test $status -eq 0
    fi
done
