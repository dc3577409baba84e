# Part of tests/command/run: what `serve` says and refuses, without a client that speaks the protocol.

# wrong_value NAME LINE WORDS..: the words are wrong, with this line
wrong_value() {
    name=$1 line=$2
    shift 2
    "$program" "$@" >"$work/out" 2>"$work/errors" </dev/null
    check "$name: status 2" test $? -eq 2
    check "$name: its line" test "$(cat "$work/errors")" = "$line"
}
wrong_value 'port 0' 'svnfleet: "0" is not a port from 1 to 65535 (svnfleet serve --help tells more)' serve r --port 0 --connections 1
wrong_value 'port 65536' 'svnfleet: "65536" is not a port from 1 to 65535 (svnfleet serve --help tells more)' serve r --port 65536 --connections 1
wrong_value '0 connections' 'svnfleet: "0" is not a number of connections from 1 to 1024 (svnfleet serve --help tells more)' serve r --port 1 --connections 0
wrong_value '1025 connections' 'svnfleet: "1025" is not a number of connections from 1 to 1024 (svnfleet serve --help tells more)' serve r --port 1 --connections 1025
WANTED='a root URL like svn://HOST:PORT/ or svn+ssh://HOST/PATH, of at most 1024 printable ASCII characters without blanks'
for url in '' svn:// svn:///a svn://:3690/ svn:/host/ http://host/ SVN://host/ localhost:3690 svn+ssh:// svn+ssh:///a svn+ssh://:22/ 'svn://host/a b' ' svn://host/'; do
    wrong_value "the root '$url'" "svnfleet: \"$url\" is not $WANTED (svnfleet serve --help tells more)" serve r --port 1 --connections 1 --root-url "$url"
done
wrong_value 'a root with a line feed' "svnfleet: \"svn://host/\\na\" is not $WANTED (svnfleet serve --help tells more)" serve r --port 1 --connections 1 --root-url "$(printf 'svn://host/\na')"
wrong_value 'a root beyond ASCII' "svnfleet: \"svn://höst/\" is not $WANTED (svnfleet serve --help tells more)" serve r --port 1 --connections 1 --root-url 'svn://höst/'
long=svn://h/$(printf '%01016d' 0)
wrong_value 'a root of 1025 characters' "svnfleet: \"${long}0\" is not $WANTED (svnfleet serve --help tells more)" serve r --port 1 --connections 1 --root-url "${long}0"
refused 'a root of 1024 characters is taken' 34 serve "$work/none" --port 3690 --connections 1 --root-url "$long"
for url in svn://localhost svn://localhost/ svn://localhost:3700/ svn://localhost:3700/a/b svn+ssh://user@host/srv/a 'svn://[::1]:3690/' svn://h; do
    refused "the root $url is taken" 34 serve "$work/none" --port 3690 --connections 1 --root-url "$url"
done

# free_port: a port of 127.0.0.1 that nobody has
free_port() {
    python3 -c 'import socket; s = socket.socket(); s.bind(("127.0.0.1", 0)); print(s.getsockname()[1])'
}
# connects PORT: a connection can be opened, and is closed at once
connects() {
    timeout 20 python3 -c 'import socket, sys; socket.create_connection(("127.0.0.1", int(sys.argv[1])), 10).close()' "$1"
}
# listens FILE PORT: waits until the file says where a server listens
listens() {
    waited=0
    until test "$(cat "$1")" = "listening on 127.0.0.1:$2" || [ "$waited" -ge 600 ]; do
        sleep 0.1
        waited=$((waited + 1))
    done
    test "$(cat "$1")" = "listening on 127.0.0.1:$2"
}

mkdir "$work/unserved"
refused 'serve of a missing folder' 34 serve "$work/none" --port 3690 --connections 1
refused 'serve of an empty folder' 34 serve "$work/unserved" --port 3690 --connections 1
refused 'serve of no folder' 34 serve '' --port 3690 --connections 1
refused 'serve of a file' 31 serve examples/first.dump --port 3690 --connections 1
check 'an empty folder stays so' test -z "$(ls "$work/unserved")"

"$program" create "$work/served" --uuid $uuid </dev/null
"$program" load "$work/served" <examples/first.dump >"$work/out"
port=$(free_port)
timeout 120 "$program" serve "$work/served" --port "$port" --connections 2 >"$work/serving" 2>"$work/serving.errors" </dev/null &
server=$!
check 'serve says where it listens' listens "$work/serving" "$port"
refused 'load beside a server' 31 load "$work/served"
refused 'dump beside a server' 31 dump "$work/served"
refused 'head beside a server' 31 head "$work/served"
refused 'a server beside a server' 31 serve "$work/served" --port "$port" --connections 1
refused 'serve on a port that is taken' 49 serve "$work/repo" --port "$port" --connections 1
check 'a first connection' connects "$port"
check 'a second connection' connects "$port"
wait $server
check 'serve ends with its connections' test $? -eq 0
check 'serve: its line alone' test "$(cat "$work/serving")" = "listening on 127.0.0.1:$port"
check 'serve: nothing on standard error' test ! -s "$work/serving.errors"
"$program" dump "$work/served" >"$work/out" </dev/null
check 'serve: the repository stays' test "$(grep -c '^Revision-number: ' "$work/out")" -eq 3
if [ -c /dev/full ]; then
    timeout 120 "$program" serve "$work/served" --port "$(free_port)" --connections 1 >/dev/full 2>"$work/errors" </dev/null
    check 'serve to a full disk: status 1' test $? -eq 1
    check 'serve to a full disk: its number' test "$(cat "$work/errors")" = 'svnfleet: 49 stream failed'
fi
