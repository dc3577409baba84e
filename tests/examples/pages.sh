# The blocks of code in README, docs/OPERATING.md and the manual page, run as they stand but for the places and ports that
# they name, and for what only root or another machine can do.

# block_of PAGE WORDS: the block of code in which these words stand
block_of() {
    awk -v words="$2" '
        /^```/ || /^\.Bd/ { if (is_in && index(block, words)) printf "%s", block; is_in = !is_in; block = ""; next }
        /^\.Ed/ { if (index(block, words)) printf "%s", block; is_in = 0; next }
        is_in { block = block $0 "\n" }' "$1"
}

# block_below PAGE HEADING NUMBER: the block of that number below a heading
block_below() {
    awk -v heading="## $2" -v number="$3" '
        /^```/ { is_in = !is_in; if (is_in && here) n++; next }
        is_in { if (here && n == number) print; next }
        /^## / { here = $0 == heading; n = 0 }' "$1"
}

# placed BLOCK: the block with this run's places and port
placed() {
    printf '%s\n' "$1" | sed "s|/usr/lib/svnfleet|$top/examples|g; s|/usr/local/bin|$pages/bin|g; s|/usr/local/share|$pages/share|g; s|/usr/local/lib|$pages/lib|g
        s|/usr/bin/svnfleet|$pages/bin/svnfleet|g; s|/srv/svn|$pages/srv|g; s|/var/lib/svnfleet|$pages/var|g
        s|/etc/|$pages/etc/|g; s| -o svnfleet||; s|3691|$port|g; s|^[^ ]* [^ ]* \* \* \* ||"
}

# typed BLOCK: what these lines print, where each of them ends well
typed() {
    placed "$1" >line.sh
    PATH="$pages/bin:$PATH" bash -e -o pipefail line.sh >said 2>errors </dev/null
}

# operated HEADING NUMBER [SED]: runs a block of docs/OPERATING.md, changed by SED, as a check
operated() {
    tried=$((tried + 1))
    check "OPERATING: $1, block $2" typed "$(block_below "$operating" "$1" "$2" | sed "${3:-}")"
}

# serves HEADING NUMBER: begins a block of docs/OPERATING.md that serves, and waits until it listens
serves() {
    tried=$((tried + 1))
    placed "$(block_below "$operating" "$1" "$2")" | sed 's/^/exec /' >server.sh
    rm -f listening
    PATH="$pages/bin:$PATH" bash server.sh >listening 2>errors.server </dev/null &
    serving=$!
    listens listening
    check "OPERATING: $1, block $2" grep -qx "listening on 127.0.0.1:$port" listening
}

# committed NAME: commits a directory of that name to the Subversion repository
committed() {
    svn mkdir -q -m "$1" "file://$pages/srv/project/$1" 2>warned
}

# has FOLDER N: whether a folder has revision N
has() {
    "$program" dump "$1" -r "$2:$2" >dumped 2>errors </dev/null
}

pages=$work/pages
operating=$top/docs/OPERATING.md
port=$(python3 -c 'import socket; it = socket.socket(); it.bind(("127.0.0.1", 0)); print(it.getsockname()[1])')
tried=0
mkdir -p "$pages/bin" "$pages/lib" "$pages/srv" "$pages/etc/systemd/system" "$pages/readme" "$pages/manual"
# What only root can do is told in a file; a tunnel is there already.
printf '#!/bin/sh\nexec "$@"\n' >"$pages/bin/sudo"
for it in systemctl useradd chown chgrp ssh dpkg; do
    printf '#!/bin/sh\necho "%s $*" >>"%s/called"\n' "$it" "$pages" >"$pages/bin/$it"
done
chmod +x "$pages/bin/"*

# ---- README

cd "$pages/readme" || exit 1
ln -s "$top/release" "$top/examples" "$top/docs" "$top/completions" "$top/tools" .
svnadmin create "$pages/srv/project"
printf 'one\n' >text && svn import -q -m one text "file://$pages/srv/project/a.txt"
for i in $(seq 2 16); do committed "$i"; done
check 'README: a package' typed "$(block_of "$top/README.md" 'sudo dpkg')"
check 'README: it is there' test -f "$(sed -n 's/^dpkg -i //p' "$pages/called")"
check 'README: an installation' typed "$(block_of "$top/README.md" 'sudo install')"
check 'README: it prints the version' grep -q '^svnfleet [0-9]' said
check 'README: the manual page' cmp "$pages/share/man/man1/svnfleet.1" "$top/docs/svnfleet.1"
check 'README: the completion' cmp "$pages/share/bash-completion/completions/svnfleet" "$top/completions/svnfleet.bash"
ln -sf "$program" "$pages/bin/svnfleet"
check 'README: an archive and a mirror' typed "$(block_of "$top/README.md" 'svnfleet create archive')"
check 'README: it loads all' grep -qx 'Loaded revision 16.' said
check 'README: it compares' grep -qx 'the same' said
check 'README: the mirror is brought up' grep -qx 'Committed revision 16.' said

# ---- docs/OPERATING.md

operated 'Prepare a machine' 1
cd "$pages" || exit 1
check 'OPERATING: the scripts' test -x lib/svnfleet/follow
check 'OPERATING: the units' test "$(ls etc/systemd/system)" = "$(ls "$examples/systemd")"
operated 'Prepare a machine' 2
check 'OPERATING: the user is made' grep -qx 'useradd --system svnfleet' called
operated 'Prepare a machine' 3
check 'OPERATING: the units have the user' test "$(cat etc/systemd/system/svnfleet-*@.service.d/user.conf | grep -cx User=svn)" -eq 4
cd "$pages/var" || exit 1

operated 'Begin an archive' 1
check 'OPERATING: all fits' test ! -s said
operated 'Begin an archive' 2
check 'OPERATING: an archive has all' grep -qx 'Loaded revision 16.' said
for i in 17 18 19 20; do committed $i; done
operated 'Begin an archive' 3
check 'OPERATING: it loads the four' test "$(grep -c '^Loaded' said)" -eq 4
operated 'Begin an archive' 4
check 'OPERATING: the newest revision' test "$(cat said)" = 20

operated 'Feed an archive by a hook' 1
operated 'Feed an archive by a hook' 2
check 'OPERATING: the group has the folder' test "$(tail -n 1 "$pages/called") $(stat -c %A .)" = "chgrp -R svn $pages/var drwxrws---"
check 'OPERATING: the group may write the archive' test "$(stat -c %A archive | cut -c 6) $(stat -c %A archive/* | cut -c 6 | uniq)" = 'w w'
check 'OPERATING: a commit' committed 21
check 'OPERATING: the hook archives it' has archive 21
hook=$pages/srv/project/hooks/post-commit
mv "$hook" kept
check 'OPERATING: a commit without the hook' committed 22
operated 'Feed an archive by a timer' 1
check 'OPERATING: the timer archives it' has archive 22
mv kept "$hook"

near="s|https://svn.example.org/project|file://$pages/srv/project|; s/ archive/ fetched/"
operated 'Archive a repository over the network' 1 "$near; s/dump -q/dump -q -r 0:16/"
check 'OPERATING: what svnrdump wrote is loaded' test "$(tail -n 1 said)" = 'Loaded revision 16.'
operated 'Archive a repository over the network' 2 "$near"
check 'OPERATING: and what it wrote later' test "$(grep -c '^Loaded' said)" -eq 6
check 'OPERATING: it has what the archive has' test "$("$program" dump fetched | md5sum)" = "$("$program" dump archive | md5sum)"
rm -r fetched project.dump more.dump

# the text of the newest revision is damaged
printf 'two\n' >text && svn import -q -m two text "file://$pages/srv/project/b.txt"
python3 - archive/journal <<'END'
import sys
with open(sys.argv[1], 'r+b') as journal:
    journal.seek(journal.read().rindex(b'two\n'))
    journal.write(b'tow\n')
END
entry=$((($(wc -c <archive/slots) - 1) / 25 - 1))
"$program" dump archive >said 2>errors </dev/null
check 'OPERATING: a damaged entry is told' test "$(cat errors)" = "svnfleet: 33 entry $entry is damaged"
operated 'Refusal 33: damage' 1
check 'OPERATING: the archive is built anew' test "$(tail -n 1 said)" = 'the same'
# (salvage tells by its status that something is damaged)
operated 'Refusal 33: damage' 3 '1s/$/ || test $? -eq 1/'
check 'OPERATING: what is not proved is told' grep -q '^entry [0-9]*, b.txt: the text, or its sum, is wrong' errors
check 'OPERATING: all revisions are saved' test "$(tail -n 1 said)" = 'Loaded revision 23.'
rm -r damaged new

operated 'Begin a mirror' 1
check 'OPERATING: a mirror is brought up' grep -qx 'Committed revision 23.' said
operated 'Keep a mirror up by a timer' 1
check 'OPERATING: the file of the unit' test "$(cat "$pages/etc/svnfleet/mirror")" = SOURCE=archive
check 'OPERATING: the timer is begun' grep -qx 'systemctl enable --now svnfleet-synchronize@mirror.timer' "$pages/called"
committed 24
operated 'Keep a mirror up by a timer' 2
check 'OPERATING: cron brings the mirror up' has mirror 24
size=$(length mirror)
check 'OPERATING: cron leaves it alone' typed "$(block_below "$operating" 'Keep a mirror up by a timer' 2)"
check 'OPERATING: it is as it was' test "$(length mirror)" -eq "$size"
committed 25

printf 'another message' >text && svnadmin setlog --bypass-hooks -r 5 "$pages/srv/project" text
serves 'Copy edited log messages' 3
operated 'Copy edited log messages' 4
wait $serving
check 'OPERATING: the server of a message ends well' test $? -eq 0
operated 'Copy edited log messages' 1
printf '#!/bin/sh\n' >"$pages/srv/project/hooks/pre-revprop-change"
chmod +x "$pages/srv/project/hooks/pre-revprop-change"
svn propset -q --revprop -r 6 svn:log 'edited again' "file://$pages/srv/project" 2>warned
check 'OPERATING: an edit' test ! -s warned
operated 'Copy edited log messages' 2
for it in 5 6; do check "OPERATING: revision $it of the mirror" has mirror $it; done
check 'OPERATING: it has the message' grep -qx 'edited again' dumped
check 'OPERATING: the other one too' sh -c '"$1" dump mirror -r 5:5 </dev/null | grep -qx "another message"' sh "$program"
check 'OPERATING: a run by the timer' typed "$(block_below "$operating" 'Keep a mirror up by a timer' 2)"

serves 'Serve an archive or a mirror' 1
identity=$(sed -n '3s/^UUID: //p' archive/journal)
operated 'Mirror an archive on another machine' 1
check 'OPERATING: the tunnel is opened' grep -qx "ssh -fN -o ServerAliveInterval=30 -L $port:127.0.0.1:$port archive.example.org" "$pages/called"
operated 'Mirror an archive on another machine' 2 "s/UUID/$identity/"
check 'OPERATING: a mirror over svn:// is brought up' grep -qx 'Committed revision 25.' said
direct=$(python3 -c 'import socket; it = socket.socket(); it.bind(("127.0.0.1", 0)); print(it.getsockname()[1])')
operated 'Mirror what svnserve has' 1 "s/3692/$direct/; s|svnserve -d|& --pid-file $pages/svnserve.pid|"
check 'OPERATING: a mirror of svnserve is brought up' grep -qx 'Committed revision 25.' said
kill "$(cat "$pages/svnserve.pid")"
operated 'Serve an archive or a mirror' 2
check 'OPERATING: the copy has all' test "$(svnlook youngest "$pages/srv/copy")" -eq 25
kill $serving
wait $serving 2>killed
serves 'Serve readers' 1
operated 'Serve readers' 2
check 'OPERATING: a reader is told the repository' grep -qx "Repository UUID: $identity" said
kill $serving
wait $serving 2>killed
operated 'Serve an archive or a mirror' 3
check 'OPERATING: the file of both units' test "$(cat "$pages/etc/svnfleet/mirror")" = "$(printf 'SOURCE=archive\nPORT=%s' "$port")"
check 'OPERATING: the server is begun' test "$(tail -n 1 "$pages/called")" = 'systemctl enable --now svnfleet-serve-and-follow@mirror.service'

for mirror in other third; do
    "$program" create $mirror --uuid $uuid </dev/null
    "$program" initialize $mirror archive </dev/null >lines
done
operated 'Keep several mirrors up at once' 1
check 'OPERATING: a fleet tells each' test "$(cat said)" = "$(printf 'mirror: head 25\nother: head 25\nthird: head 25')"
operated 'Keep several mirrors up at once' 2
check 'OPERATING: the file of the fleet' test "$(cat "$pages/etc/svnfleet/all")" = "$(printf 'SOURCE=archive\nMIRRORS=mirror other third')"
check 'OPERATING: its timer is begun' test "$(tail -n 1 "$pages/called")" = 'systemctl enable --now svnfleet-fleet@all.timer'
operated 'Build a mirror anew' 1
check 'OPERATING: the new mirror is brought up' grep -qx 'Committed revision 25.' said
check 'OPERATING: it has its place' has mirror 25
check 'OPERATING: the old one is kept' has old 25
operated 'Build a mirror anew' 2
check 'OPERATING: it has what the archive has' test "$(cat said)" = 25
check 'OPERATING: nothing else is left' test -z "$(ls -d old* fresh* 2>/dev/null)"

operated 'Compare' 1
check 'OPERATING: the archive is its repository' grep -qx 'the same' said
operated 'Compare' 2
check 'OPERATING: the mirror is its archive' grep -qx 'the same' said
operated 'Refusal 33: damage' 2 's/HEAD/25/'
for it in archive again; do "$program" dump $it -r 1:25 >$it.whole </dev/null; done
check 'OPERATING: the mirror is an archive again' cmp archive.whole again.whole
rm -r again archive.whole again.whole
operated 'Back up and restore' 1
operated 'Back up and restore' 2
check 'OPERATING: the restored repository has all' test "$(svnlook youngest "$pages/srv/restored")" -eq 25
operated 'Back up and restore' 3
check 'OPERATING: the copied folder is the archive' diff -r archive archive.copy
operated 'List and rewrite dumps' 1
check 'OPERATING: a listing' test "$(sed -n 1p project.list)" = 'revision 25'
check 'OPERATING: a dump of one spelling' test "$(tail -n +4 project.dump | sha256sum)" = "$(tail -n +4 archive.dump | sha256sum)"
operated 'Upgrade' 1
check 'OPERATING: nothing to upgrade' test "$(cat said)" = "$(printf 'Upgraded 0 entries.\nUpgraded 0 entries.')"
operated 'Monitor' 1
check 'OPERATING: no lag' test "$(cat said)" = "$(printf '25\n25\n25')"
rm -f listening
"$program" serve mirror --port "$port" --connections 1 >listening </dev/null &
serving=$!
listens listening
operated 'Monitor' 2
wait $serving
check 'OPERATING: a served mirror tells its last merged revision' test "$(cat said)" = 25
operated 'Monitor' 3

# a client of a server makes the archive a mirror
cp -r archive kept
rm -f listening
"$program" serve archive --port "$port" --connections 1 >listening </dev/null &
serving=$!
listens listening
svn propset -q --revprop -r 0 svn:sync-from-url x "svn://127.0.0.1:$port/"
wait $serving
"$program" load archive >said 2>errors </dev/null
check 'OPERATING: an archive that was made a mirror is told' test "$(cat errors)" = 'svnfleet: 24 the mirror is read-only'
identity=$(sed -n '3s/^UUID: //p' archive/journal)
operated 'Refusal 24 of an archive' 1 "s/UUID/$identity/; s/HEAD/25/"
check 'OPERATING: the archive is made anew' test "$(tail -n 1 said)" = 'Loaded revision 25.'
"$program" load archive >said 2>errors </dev/null
check 'OPERATING: and is one again' sh -c '! grep -q "^svnfleet: 24" errors'
"$program" dump archive -r 1:25 >archive.dump && "$program" dump kept -r 1:25 >kept.dump
check 'OPERATING: its revisions are those of before' cmp archive.dump kept.dump
rm -r archive marked && mv kept archive

# a text past its limit
head -c 1048577 /dev/zero >text && svn import -m big text "file://$pages/srv/project/big.bin" >warned 2>&1
check 'OPERATING: a text past its limit is told' grep -q 'svnfleet: 8 limit exceeded' warned
operated 'Limits' 1 '1s/$/ || test $? -eq 1/'
check 'OPERATING: it is found, and all but it fits' test "$(cat said)" = 'revision 26, big.bin: bytes of the text: 1048577, 1 past the limit of 1048576'
operated 'Limits' 2 's/21:22/26:26/'
check 'OPERATING: its revision is loaded without it' grep -qx 'Loaded revision 26.' said
committed 27
check 'OPERATING: the hook goes on' has archive 27
operated 'Compare' 1
tried=$((tried - 1))
check 'OPERATING: the archive is its repository without it' grep -qx 'the same' said
# (the archive grows between the two copies)
operated 'Back up and restore' 4 "2s|\$|; svn mkdir -q -m between file:///srv/svn/project/between|"
check 'OPERATING: the archive has grown' has archive 28
check 'OPERATING: a copy that waits for nobody opens' has archive.second 27
operated 'Limits' 3
check 'OPERATING: the unit has a limit' grep -qx 'MemoryMax=1G' "$pages/etc/systemd/system/svnfleet-serve@.service.d/memory.conf"
check 'OPERATING: each block is tried' test $tried -eq $(($(grep -c '^```' "$operating") / 2))

# ---- the manual page

cd "$pages/manual" || exit 1
svnadmin create repo
for i in $(seq 1 16); do svn mkdir -q -m "$i" "file://$PWD/repo/$i"; done
block=$(block_of "$top/docs/svnfleet.1" 'svnadmin dump -q repo')
check 'manual: an archive' typed "$(printf '%s\n' "$block" | head -n 2)"
for i in $(seq 17 20); do svn mkdir -q -m "$i" "file://$PWD/repo/$i"; done
check 'manual: an incremental dump' typed "$(printf '%s\n' "$block" | tail -n 1)"
check 'manual: it loads the four' test "$(grep -c '^Loaded' said)" -eq 4
check 'manual: an archive over the network' typed "$(block_of "$top/docs/svnfleet.1" 'svnrdump dump https' |
    sed "s|https://host/repository|file://$PWD/repo|; s/UUID/$(svnlook uuid repo)/; s/ archive/ fetched/")"
check 'manual: it loads all' grep -qx 'Loaded revision 20.' said
check 'manual: a mirror' typed "$(block_of "$top/docs/svnfleet.1" 'initialize mirror')"
check 'manual: a mirror is brought up' grep -qx 'Committed revision 20.' said
rm -f lines
"$program" serve archive --port "$port" --connections 2 >lines </dev/null &
serving=$!
listens lines
identity=$(sed -n '3s/^UUID: //p' archive/journal)
check 'manual: a mirror over svn://' typed "$(block_of "$top/docs/svnfleet.1" 'initialize copy' | sed "s/UUID/$identity/")"
check 'manual: it is brought up' grep -qx 'Committed revision 20.' said
wait $serving
check 'manual: the server ends well' test $? -eq 0
for mirror in other third; do
    "$program" create $mirror --uuid $uuid </dev/null
    "$program" initialize $mirror archive </dev/null >lines
done
check 'manual: a fleet' typed "$(block_of "$top/docs/svnfleet.1" 'svnfleet fleet')"
check 'manual: it tells each' test "$(cat said)" = "$(printf 'mirror: head 20\nother: head 20\nthird: head 20')"
svnadmin create "$pages/srv/again"
printf '#!/bin/sh\n' >"$pages/srv/again/hooks/pre-revprop-change"
chmod +x "$pages/srv/again/hooks/pre-revprop-change"
check 'manual: a copy by svnsync' typed "$(block_of "$top/docs/svnfleet.1" 'svnsync init' | sed '1s|$| >served \& sleep 1|; s|/srv/svn/copy|/srv/svn/again|; $s|$|; kill %1|')"
check 'manual: the copy has all' test "$(svnlook youngest "$pages/srv/again")" -eq 20
check 'manual: what is saved is loaded' typed "$(block_of "$top/docs/svnfleet.1" 'load new' | sed 's/salvage damaged/salvage archive/')"
check 'manual: it has all' grep -qx 'Loaded revision 20.' said
cd "$work" || exit 1
