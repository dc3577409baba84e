# What brings mirrors up: only where the source has changed, and never past a change; under locks; several at once; beside a
# server. And copies of a folder that is loaded meanwhile.

mkdir "$work/follow" && cd "$work/follow" || exit 1
follow=$examples/follow

# counting: the program, of which each call is told in the file calls, and behind a synchronisation the lines of the file
# behind are run
cat >counting <<END
#!/bin/sh
echo "\$*" >>"$work/follow/calls"
"$program" "\$@"
status=\$?
case \$1 in synchronize | fleet) . "$work/follow/behind" ;; esac
exit \$status
END
chmod +x counting
: >behind
: >calls

# follows WORDS..: whether mirrors are followed well, and how often the program is called is in called
follows() {
    : >calls
    SVNFLEET=$work/follow/counting ends 0 "$follow" "$@"
    local status=$?
    called=$(wc -l <calls)
    return $status
}

# hold FILE: a process holds a file's lock until `free`
hold() {
    { flock 8 && : >held && exec sleep 1000; } 8>>"$1" &
    holder=$!
    until [ -e held ]; do sleep 0.1; done
    rm held
}

# free: ends that process
free() {
    kill $holder
    wait $holder 2>killed
}

# grows FOLDER NAME: commits a directory
grows() {
    "$program" mkdir "$1" "$2" --message "$2" --moment 1 >made 2>&1 </dev/null
}

# has FOLDER N: whether a folder has revision N
has() {
    "$program" dump "$1" -r "$2:$2" >dumped 2>errors </dev/null
}

# mirror_of SOURCE MIRROR..: begins mirrors
mirror_of() {
    local source=$1
    shift
    for it in "$@"; do
        "$program" create "$it" --uuid $uuid </dev/null && "$program" initialize "$it" "$source" >made </dev/null
    done
}

words follow one -x 'a -x' 'a b c d e f' '--check one' '--check a --check'
words serve-and-follow one 'a b' 'a b c' 'a b 1 0' 'a b 1 x' 'a b 1 2 3' '-x b 1' 'a -x 1'

"$program" create archive --uuid $uuid </dev/null
grows archive one
mirror_of archive mirror other 'a third'
check 'follow: a first run' follows archive mirror
check 'follow: it brings the mirror up' has mirror 1
size=$(length mirror)
check 'follow: another run' follows archive mirror
check 'follow: nothing is called where nothing changed' test "$called" -eq 0
check 'follow: the mirror is as it was' test "$(length mirror)" -eq "$size"
"$program" dump archive >dumped </dev/null
check 'follow: reading the archive changes nothing' follows archive/ mirror//
check 'follow: nothing is called behind a reading, nor with slashes' test "$called" -eq 0
grows archive two
check 'follow: a commit' follows archive mirror
check 'follow: it is brought along' has mirror 2
check 'follow --check: none is due' ends 0 "$follow" --check archive mirror
check 'follow --check: another is' ends 1 "$follow" --check archive mirror other
check 'follow --check: it calls nothing and changes nothing' test "$(ls -d other.* 2>&1 | wc -l)$(has other 1 || echo none)" = 1none

# a run that fails leaves no note, and the next one makes up for it
grows archive three
hold mirror/journal
SVNFLEET=$program ends 1 "$follow" archive mirror
check 'follow: a mirror that is held is refused' test "$? $(cat errors)" = '0 svnfleet: 31 device failed'
check 'follow: no note is left of it' test ! -e mirror.seen
free
check 'follow: the next run' follows archive mirror
check 'follow: makes up for it' has mirror 3

# what comes behind a run's end and before its note is brought along by the next
echo "'$program' mkdir archive late --message late --moment 1 >made </dev/null" >behind
grows archive four
check 'follow: a run behind which the archive grows' follows archive mirror
: >behind
check 'follow: the late one is not there' not has mirror 5
check 'follow: the run behind it' follows archive mirror
check 'follow: has the late one' has mirror 5

# a mirror that is another one than it was is brought up, also where it was put there behind the run
mv mirror old
mirror_of archive mirror
check 'follow: a mirror that was built anew' follows archive mirror
check 'follow: is brought up' has mirror 5
mirror_of archive fresh
echo "mv mirror gone; mv fresh mirror" >behind
grows archive five
check 'follow: a run behind which the mirror is another' follows archive mirror
: >behind
check 'follow: no note is left of it either' test ! -e mirror.seen
check 'follow: the run behind that' follows archive mirror
check 'follow: brings it up' has mirror 6
mkdir copied
cp -a archive copied/
echo "mv archive gone.archive; mv copied/archive archive" >behind
rm mirror.seen
check 'follow: a run behind which the source is another' follows archive mirror
: >behind
check 'follow: no note is left of it as well' test ! -e mirror.seen
cp -a mirror kept
grows archive six
check 'follow: a commit more' follows archive mirror
rm -r mirror && mv kept mirror
check 'follow: an earlier copy in place of a mirror' follows archive mirror
check 'follow: is brought up as well' has mirror 7

# another source of the same length is no source that didn't change
cp -a archive archive.kept
python3 - archive <<'END'
import hashlib, sys
# the newest revision's last byte of a property's value, and its sum
with open(sys.argv[1] + '/journal', 'r+b') as journal, open(sys.argv[1] + '/slots', 'r+b') as slots:
    sums, text = slots.read(), bytearray(journal.read())
    start, at = int.from_bytes(sums[-50:-42], 'big'), text.rindex(b'six', 0, text.rindex(b'PROPS-END', 0, text.rindex(b'Node-path')))
    text[at:at + 3] = b'SIX'
    journal.seek(0)
    journal.write(text)
    slots.seek(len(sums) - 17)
    slots.write(hashlib.md5(text[start:]).digest())
END
check 'follow: a changed source of the same length is sound' has archive 7
check 'follow: and is another' grep -q SIX dumped
check 'follow: a source of the same length' follows archive mirror
check 'follow: is looked at' test "$called" -eq 1
rm -r archive && mv archive.kept archive

# several mirrors: those that are due, and one in which a stopped run has left its lock
check 'follow: three mirrors' follows archive mirror other 'a third'
check 'follow: a fleet of them is called' test "$called $(cat calls)" = '1 fleet --workers 3 -- archive mirror other a third'
check 'follow: each is up' sh -c 'for it in mirror other "a third"; do "$1" dump "$it" -r 7:7 >dumped </dev/null || exit 1; done' sh "$program"
check 'follow: three that are up' follows archive mirror other 'a third'
check 'follow: are left as they are' test "$called" -eq 0
head -c 100000 /dev/zero | tr '\0' x >text
printf 'SVN-fs-dump-format-version: 2\n\nRevision-number: 8\nProp-content-length: 10\nContent-length: 10\n\nPROPS-END\n\nNode-path: big\nNode-kind: file\nNode-action: add\nText-content-length: 100000\nContent-length: 100000\n\n' | cat - text >big.dump
"$program" load archive <big.dump >made
check 'follow: one of three is due' follows archive mirror
# (a run that writes more than a file may have is killed behind the entry of its lock)
{ (ulimit -f $(($(length other) / 1024 + 4)); "$program" synchronize other archive </dev/null); } >lines 2>&1
check 'follow: a run has left its lock' ends 1 "$program" synchronize other archive
check 'follow: which is told' test "$(cat errors)" = 'svnfleet: 54 the sync lock is held by job'
check 'follow: the rest of three' follows archive mirror other 'a third'
check 'follow: the lock is stolen' test "$(cat calls)" = "$(printf 'fleet --workers 2 -- archive other a third\nsynchronize --steal-lock -- other archive')"
check 'follow: all are up' has other 8
check 'follow: and noted' ends 0 "$follow" --check archive mirror other 'a third'
mirror_of archive fourth
mv 'a third' away
check 'follow: a mirror that is gone' ends 1 "$follow" archive fourth 'a third'
check 'follow: it is told' grep -qx 'a third: 34 no repository' errors
check 'follow: another one is brought up' has fourth 8
mv away 'a third'
check 'follow: no folder of the source' ends 1 "$follow" nowhere/at-all mirror
check 'follow: no source' ends 1 "$follow" nowhere mirror
check 'follow: no source is told' test "$(cat errors)" = 'follow: there is no folder nowhere'
check 'follow: no source has no lock' test ! -e nowhere.lock

# an edited property grows the source, and is no change that a run brings along
port=$(a_port)
rm -f listening
timeout 100 "$program" serve archive --port "$port" --connections 3 >listening 2>&1 </dev/null &
serving=$!
listens listening
# what a server tells is never skipped, and takes no lock of a folder's
hold archive.lock
size=$(length mirror)
for it in once more; do
    check "follow: of a server, $it" follows "svn://127.0.0.1:$port/" mirror
    check "follow: of a server, $it: a run" test "$called" -eq 1
done
check 'follow: an idle run makes the mirror grow' test "$(length mirror)" -gt "$size"
free
exec 3<>"/dev/tcp/127.0.0.1/$port"
printf '( 2 ( ) 1:x ) ( ANONYMOUS ( ) ) ( change-rev-prop ( 1 7:svn:log 6:edited ) ) ' >&3
python3 -c 'import socket; socket.socket(fileno=3).shutdown(socket.SHUT_WR)'
cat <&3 >said
exec 3>&-
wait $serving
check 'follow: an edited property' follows archive mirror
check 'follow: it is not brought along' sh -c '"$1" dump mirror -r 1:1 </dev/null | grep -qx one' sh "$program"

# runs wait for the lock, and tell where it isn't given back
(flock 9; sleep 1; : >freed) 9>>archive.lock &
sleep 0.3
grows archive nine
check 'follow: a lock that is held' follows archive mirror
check 'follow: is waited for' test -e freed
wait
mkdir bin
printf '#!/bin/sh\necho "$*" >>flocks\nexit 1\n' >bin/flock
chmod +x bin/flock
grows archive ten
check 'follow: a lock that is kept' env PATH="$work/follow/bin:$PATH" SVNFLEET="$program" sh -c '"$1" archive mirror 2>errors; test $? -eq 1' sh "$follow"
check 'follow: is told' test "$(cat errors flocks)" = "$(printf 'follow: another command holds archive.lock\n-w 50 9')"
check 'follow: nothing is done' not has mirror 10

# a server that keeps its mirror up
port=$(a_port)
rm -f listening
timeout 100 "$examples/serve-and-follow" archive mirror "$port" 1 >listening 2>errors.server </dev/null &
serving=$!
listens listening
check 'serve-and-follow: it has brought the mirror up' test "$(newest "$port")" = 10
grows archive eleven
for _ in $(seq 50); do test "$(newest "$port")" = 11 && break; sleep 0.2; done
check 'serve-and-follow: it brings along what is new' test "$(newest "$port")" = 11
check 'serve-and-follow: it tells nothing of the server that it ended' test ! -s errors.server
size=$(length mirror)
began=$(grep -c listening listening)
sleep 2.5
check 'serve-and-follow: it leaves a server alone where nothing is new' test "$(grep -c listening listening) $(length mirror)" = "$began $size"
check 'serve-and-follow: a port that is taken' ends 1 "$examples/serve-and-follow" archive other "$port" 1
check 'serve-and-follow: it is told' grep -qx 'svnfleet: 49 stream failed' errors
mv archive away
sleep 2.5
check 'serve-and-follow: where the source is refused the mirror is served as it is' test "$(newest "$port")" = 11
mv away archive
grows archive twelve
for _ in $(seq 50); do test "$(newest "$port")" = 12 && break; sleep 0.2; done
check 'serve-and-follow: and is followed again' test "$(newest "$port")" = 12
kill $serving
wait $serving
check 'serve-and-follow: it ends well' test $? -eq 0
check 'serve-and-follow: no server is left' test -z "$(newest "$port")"

# copies of an archive that is loaded meanwhile: what says which entries count is copied before the entries
# ordered: copies so
ordered() {
    rm -rf copy && mkdir copy && cp -a archive/slots archive/gate copy/ && cp -a archive/journal copy/
}

# opens COPY: whether a copy opens, and has the beginning of the archive's history
opens() {
    "$program" dump copy >copy.dump 2>errors </dev/null
}

ordered
check 'copies: one opens' opens
check 'copies: it has all' sh -c '"$1" dump archive </dev/null | cmp - copy.dump' sh "$program"
rm -rf copy && mkdir copy && cp -a archive/slots archive/gate copy/
grows archive between
cp -a archive/journal copy/
check 'copies: one whose journal is newer opens' opens
rm -rf copy && mkdir copy && cp -a archive/journal copy/
grows archive afterwards
cp -a archive/slots archive/gate copy/
check 'copies: one whose slots are newer is damaged' not opens
check 'copies: which is told' grep -q '^svnfleet: 33 ' errors
(
    i=0
    while [ ! -e enough ]; do
        i=$((i + 1))
        grows archive "loaded-$i"
    done
) &
loading=$!
opened=0
mkdir taken
for i in $(seq "$copies"); do
    ordered
    if opens; then opened=$((opened + 1)); mv copy.dump taken/$i; fi
done
: >enough
wait $loading
check "copies: each of $copies opens" test $opened -eq "$copies"
"$program" dump archive >archive.dump </dev/null
# (a dump of fewer revisions is the beginning of one of more)
check 'copies: each has a beginning of the history' sh -c 'for it in taken/*; do cmp -n "$(stat -c %s "$it")" "$it" archive.dump || exit 1; done'
check 'copies: they were taken meanwhile' test "$(stat -c %s taken/* | sort -u | wc -l)" -gt 3
rm -rf copy
check 'copies: under the locks' flock archive.lock flock archive/journal cp -a archive copy
check 'copies: it is the archive' diff -r archive copy
