# The hooks, by commits into a Subversion repository, and the comparison.

mkdir "$work/hooks" && cd "$work/hooks" || exit 1

# A repository with the hooks, and its archive. The program tells each of its calls in the file calls.
printf '#!/bin/sh\necho "$*" >>"%s/calls"\nexec "%s" "$@"\n' "$PWD" "$program" >counting
printf '#!/bin/sh\n' >allowed
chmod +x counting allowed
svnadmin create repo || exit 1
cp "$examples/post-commit" repo/hooks/post-commit
cp allowed repo/hooks/pre-revprop-change
printf 'program=%s\narchive=%s\n' "$PWD/counting" "$PWD/archive" >repo/conf/svnfleet-archive
"$program" create archive --uuid "$(svnlook uuid repo)" </dev/null
url=file://$PWD/repo
words post-commit one 'one x' 'one 1x'
words post-revprop-change one 'one 1 me name' 'one x me name M'
words compare one 'a b c' '-x y'

# compares STATUS: the comparison ends so
compares() {
    ends "$1" "$examples/compare" repo archive
}

# commit FILE TEXT: commits a file
commit() {
    printf '%s\n' "$2" >"copy/$1" && svn add -q --force "copy/$1" && svn commit -q -m "$2" copy >svn.out 2>svn.errors && ! grep -q warning svn.errors
}

svn checkout -q "$url" copy
check 'hook: a first commit' commit a.txt one
check 'hook: the archive has it' "$program" dump archive -r 1:1 >dumped </dev/null
check 'hook: a second commit' commit a.txt second
check 'hook: a copy' sh -c "svn copy -q -m copied '$url/a.txt' '$url/b.txt'"
check 'hook: the archive has all three' "$program" dump archive -r 3:3 >dumped </dev/null
check 'compare: the same' compares 0
check 'hook: what it makes is open to the group' test "$(stat -c %a archive.lock)" = 664

# commits that no hook archived are brought along by the next
mv repo/hooks/post-commit kept
check 'hook: none' sh -c "svn mkdir -q -m four '$url/four' && svn mkdir -q -m five '$url/five'"
check 'compare: the trees differ' compares 1
check 'compare: both revisions, and the first that differs' test "$(cat said)" = "$(printf 'the newest trees differ: revision 5 there, revision 3 here\nrevision 4 is the first that differs')"
mv kept repo/hooks/post-commit
check 'hook: another commit' sh -c "svn mkdir -q -m six '$url/six'"
check 'hook: the missed ones are there' "$program" dump archive -r 4:6 >dumped </dev/null
check 'compare: the same again' compares 0

# several at once
for i in 1 2 3 4 5 6; do
    svn mkdir -q -m "at once $i" "$url/at-once-$i" >"at-once.$i" 2>&1 &
done
wait
check 'hooks at once: nothing went wrong' sh -c '! grep -q . at-once.*'
check 'hooks at once: the archive has all' "$program" dump archive -r 12:12 >dumped </dev/null
check 'compare: the same behind hooks at once' compares 0

# an archive that can't be opened leaves the commit, and is told
mv archive away
svn mkdir -m lost "$url/lost" >svn.out 2>&1
check 'hook: no archive is told' grep -q 'svnfleet: 34 no repository' svn.out
check 'hook: and the revision' grep -q "revision 13 isn't archived: the archive is refused" svn.out
check 'hook: the commit stands' test "$(svnlook youngest repo)" -eq 13
check 'compare: no archive' compares 2
mv away archive
check 'hook: the next one brings it along' sh -c "svn mkdir -q -m found '$url/found'"
check 'compare: the same at last' compares 0

# what is missing is looked for in few steps, however much it is: a lag of 100, 1 and 7 of an archive, and a new one
mv repo/hooks/post-commit kept
svn mkdir -q -m many "$url/many"
python3 - "$(svnlook youngest repo)" 100 >many.dump <<'END'
import sys
print('SVN-fs-dump-format-version: 2\n')
for number in range(int(sys.argv[1]) + 1, int(sys.argv[1]) + 1 + int(sys.argv[2])):
    print(f'Revision-number: {number}\nProp-content-length: 10\nContent-length: 10\n\nPROPS-END\n')
    print(f'Node-path: many/{number}\nNode-kind: dir\nNode-action: add\nProp-content-length: 10\nContent-length: 10\n\nPROPS-END\n\n')
END
svnadmin load -q repo <many.dump
head=$(svnlook youngest repo)
for lag in 100 1 7 all; do
    rm -rf archive
    "$program" create archive --uuid "$(svnlook uuid repo)" </dev/null
    [ $lag = all ] || svnadmin dump -q -r 0:$((head - lag)) repo | "$program" load archive >loaded
    rm -f calls
    check "hook: a lag of $lag" ends 0 "$examples/post-commit" repo "$head"
    check "hook: a lag of $lag: nothing is told" test -z "$(cat said errors)"
    check "hook: a lag of $lag: two calls" test "$(wc -l <calls)" -eq 2
    check "hook: a lag of $lag: one of them loads" test "$(grep -c '^load ' calls)" -eq 1
    check "compare: the same behind a lag of $lag" compares 0
done
rm -f calls
check 'hook: a revision that is there' ends 0 "$examples/post-commit" repo 3
check 'hook: it is one call' test "$(wc -l <calls)" -eq 1

# a revision that is refused is named, and so by each later commit
svn mkdir -q -m one-more "$url/one-more"
head -c 1048577 /dev/zero >big
svn import -q -m 'a big one' big "$url/a big.bin"
refused=$(svnlook youngest repo)
mv kept repo/hooks/post-commit
svn mkdir -m behind "$url/behind" >svn.out 2>&1
check 'hook: the refusal is told' grep -q 'svnfleet: 8 limit exceeded' svn.out
check 'hook: and behind it the revision' sh -c "grep -A 1 '^svnfleet: 8 ' svn.out | grep -q \"revision $refused isn't archived: 'fits .*/repo' tells\""
check 'hook: what stands before it is archived' "$program" dump archive -r $((refused - 1)):$((refused - 1)) >dumped </dev/null
svn mkdir -m later "$url/later" >svn.out 2>&1
check 'hook: the same revision behind a later commit' grep -q "revision $refused isn't archived" svn.out
check 'compare: the refusal' compares 2
check 'compare: which is told' grep -qx 'svnfleet: 8 limit exceeded' errors
printf '%s\n' "options='--exclude \"/a big.bin\"'" >>repo/conf/svnfleet-archive
check 'hook: it goes on without it' sh -c "svn mkdir -q -m last '$url/last' 2>&1 | grep . && exit 1 || exit 0"
check 'hook: all is there' "$program" dump archive -r "$(svnlook youngest repo):$(svnlook youngest repo)" >dumped </dev/null
check 'compare: the same with those options' compares 0

# what options leave out is missing in a copy of its folder
cp repo/conf/svnfleet-archive conf.before
printf '%s\n' "options='--exclude \"/a big.bin\" --exclude /holds/left'" >>repo/conf/svnfleet-archive
svn mkdir -q -m holds "$url/holds"
echo text >left
svn import -q -m 'one left out' left "$url/holds/left"
svn copy -q -m 'its folder once more' "$url/holds" "$url/copied"
svn checkout -q "$url/copied" copied
echo more >>copied/left
svn commit -m 'of the copy' copied >svn.out 2>&1
check 'hook: a change of what the copy lacks' grep -q 'svnfleet: 11 no such path' svn.out
check 'hook: a change of what the copy lacks: what helps' grep -q "revision $(svnlook youngest repo) isn't archived: 'options=' may have to leave out a copy too" svn.out
printf '%s\n' "options='--exclude \"/a big.bin\" --exclude /holds/left --exclude /copied/left'" >>repo/conf/svnfleet-archive
check 'hook: it goes on without the copy' sh -c "svn mkdir -q -m without '$url/without' 2>&1 | grep . && exit 1 || exit 0"
mv conf.before repo/conf/svnfleet-archive

# a Subversion repository that breaks off, and one that is a mirror itself
rm -rf archive
"$program" create archive --uuid "$(svnlook uuid repo)" </dev/null
cp -r repo broken
rm broken/db/revs/0/10
check 'hook: a repository that breaks off' ends 1 "$examples/post-commit" broken 12
check 'hook: the first revision that is missing' grep -qx "revision 10 isn't archived: the next commit tries again" errors
# (and a dump of it that breaks off between two changes of a revision)
svnadmin create halves
printf 'one\n' >text
svn import -q -m first text "file://$PWD/halves/a" && svnmucc -m both put text "file://$PWD/halves/b" put text "file://$PWD/halves/c" >said
"$program" create halved --uuid "$(svnlook uuid halves)" </dev/null
printf 'program=%s\narchive=%s\n' "$program" "$PWD/halved" >halves/conf/svnfleet-archive
mkdir cut
printf '#!/bin/sh\n"%s" "$@" | sed "/^Node-path: c$/,\\$d"\nexit 1\n' "$(command -v svnadmin)" >cut/svnadmin
chmod +x cut/svnadmin
check 'hook: a dump that breaks off between two changes' ends 1 env PATH="$PWD/cut:$PATH" "$examples/post-commit" halves 2
check 'hook: its revision is named' grep -qx "revision 2 isn't archived: the next commit tries again" errors
check 'hook: nothing of it is archived' test "$("$program" head halved </dev/null)" = 1
check 'hook: the next one brings it along' ends 0 "$examples/post-commit" halves 2
cp -r repo mirrored
printf 'file:///elsewhere' >text
svnadmin setrevprop mirrored -r 0 svn:sync-from-url text
rm -rf archive
"$program" create archive --uuid "$(svnlook uuid repo)" </dev/null
check 'hook: a repository that is a mirror' ends 0 "$examples/post-commit" mirrored 3
check 'hook: leaves its archive an archive' ends 0 "$examples/post-commit" mirrored 5

# no file of variables, and no folder of the archive
mv repo/conf/svnfleet-archive conf.kept
check 'hook: no variables' ends 1 "$examples/post-commit" repo 3
check 'hook: no variables: it is told' grep -qx "revision 3 isn't archived: there is no repo/conf/svnfleet-archive" errors
check 'edits: no variables' ends 1 "$examples/post-revprop-change" repo 3 me svn:log M
check 'edits: no variables: it is told' grep -qx "revision 3: svn:log isn't changed in the archive: there is no repo/conf/svnfleet-archive" errors
printf 'program=%s\narchive=nowhere/archive\n' "$program" >repo/conf/svnfleet-archive
check 'hook: no folder' ends 1 "$examples/post-commit" repo 3
check 'hook: no folder: it is told' grep -qx "revision 3 isn't archived: nowhere/archive.lock can't be written" errors
check 'edits: no folder' ends 1 "$examples/post-revprop-change" repo 3 me svn:log M
mv conf.kept repo/conf/svnfleet-archive

# ---- edited properties

rm -rf archive
"$program" create archive --uuid "$(svnlook uuid repo)" </dev/null
svnadmin dump -q --exclude '/a big.bin' repo | "$program" load archive >loaded
check 'an edited log without the hook' sh -c "svn propset -q --revprop -r 5 svn:log other '$url'"
check 'compare: properties differ' compares 1
check 'compare: the trees do not' test "$(cat said)" = "$(printf 'the newest trees are the same, their history or properties differ\nrevision 5 is the first that differs')"
cp "$examples/post-revprop-change" repo/hooks/post-revprop-change

# edits WORDS..: whether svn edits a property of a revision, and no hook tells anything
edits() {
    svn "$@" -q --revprop "$url" >svn.out 2>&1 && test ! -s svn.out
}
check 'edits: the same one again, with the hook' edits propset svn:log third -r 5
check 'edits: the archive has it' compares 0
printf 'two lines,\nof which the second has \303\244\342\202\254 and ends\n\n' >text
check 'edits: newlines and other letters' edits propset svn:log -F text --encoding UTF-8 -r 5
check 'edits: they are there' compares 0
head -c 5000 /dev/urandom >text
check 'edits: any bytes, of a property of its own' edits propset bytes -F text -r 7
check 'edits: these are there' compares 0
check 'edits: an empty value' edits propset svn:log '' -r 7
check 'edits: it is empty there' compares 0
check 'edits: a value is taken away' edits propdel bytes -r 7
check 'edits: it is away there' compares 0
check 'edits: an author' edits propset svn:author somebody -r 7
check 'edits: of revision 0' edits propset mine yes -r 0
check 'edits: both are there' compares 0
check 'edits: a note of svnsync' edits propset svn:sync-from-url x -r 0
check 'edits: it makes the archive no mirror' compares 1
check 'edits: revision 0 differs by it' grep -qx 'revision 0 is the first that differs' said
check 'edits: it is taken away' edits propdel svn:sync-from-url -r 0
check 'edits: the same again' compares 0
rm repo/hooks/post-commit
svn mkdir -q -m late "$url/late"
check 'edits: of a revision that the archive lacks' edits propset svn:log early -r "$(svnlook youngest repo)"
cp "$examples/post-commit" repo/hooks/post-commit
check 'edits: it comes with the revision' ends 0 "$examples/post-commit" repo "$(svnlook youngest repo)"
check 'edits: as it is by then' compares 0

# beside loads: commits and edits at once
before=$(svnlook youngest repo)
(for i in 1 2 3 4 5 6; do svn mkdir -q -m "beside $i" "$url/beside-$i"; done >beside.commits 2>&1) &
for i in 1 2 3 4 5 6; do svn propset -q --revprop -r "$i" svn:log "beside $i" "$url"; done >beside.edits 2>&1
wait
check 'edits beside commits: nothing went wrong' test -z "$(cat beside.*)"
check 'edits beside commits: all were committed' test "$(svnlook youngest repo)" -eq $((before + 6))
check 'edits beside commits: the archive has all' compares 0

# what goes wrong is told, and the edit stands
mv archive away
check 'edits: no archive' not edits propset svn:log lost -r 5
check 'edits: it is told' sh -c 'grep -q "svnfleet: 34 no repository" svn.out && grep -q "revision 5: svn:log isn.t changed in the archive" svn.out'
check 'edits: the edit stands' test "$(svnlook propget --revprop -r 5 repo svn:log)" = lost
mv away archive
printf '%070000d' 0 >text
check 'edits: a value past its limit' not edits propset large -F text -r 5
check 'edits: it is told too' grep -q "revision 5: large isn't changed in the archive: svn is refused" svn.out
svn propdel -q --revprop -r 5 large "$url"
check 'edits: the next one' edits propset svn:log found -r 5
check 'edits: brings it along' compares 0

# a command by hand that has the archive open is waited for
flock archive/journal sleep 2 &
sleep 0.3
check 'hook: beside a command by hand' commit a.txt beside
check 'hook: which has ended' flock -n archive/journal true
flock archive/journal sleep 2 &
sleep 0.3
check 'edits: beside a command by hand' edits propset svn:log beside -r 5
wait
check 'compare: the same beside commands by hand' compares 0

# what can't be written isn't compared
mkdir failing
printf '#!/bin/sh\nexit 1\n' >failing/tail
chmod +x failing/tail
check 'compare: a full disk' ends 2 env PATH="$PWD/failing:$PATH" "$examples/compare" repo archive

# ---- beside a mirror: commits with their hooks, and runs over the archive's mirror, each of which is a real one

rm -rf archive archive.lock
"$program" create archive --uuid "$(svnlook uuid repo)" </dev/null
"$program" create mirror --uuid "$(svnlook uuid repo)" </dev/null
"$program" initialize mirror archive >lines </dev/null
svnadmin dump -q --exclude '/a big.bin' repo | "$program" load archive >loaded
sed -i "s|^program=.*|program=$program|" repo/conf/svnfleet-archive
before=$(svnlook youngest repo)
(for i in $(seq "$commits"); do svn mkdir -q -m "commit $i" "$url/commit-$i"; done >commits.told 2>&1) &
committing=$!
refused=0
for i in $(seq "$commits"); do
    rm -f mirror.seen
    "$examples/follow" archive mirror >>runs.told 2>&1 </dev/null || refused=$((refused + 1))
done
wait $committing
check "$commits commits beside $commits runs: no warning" test ! -s commits.told
check "$commits commits beside $commits runs: no refusal" test "$refused $(grep -c 'svnfleet: ' runs.told)" = '0 0'
check 'commits beside runs: all are committed' test "$(svnlook youngest repo)" -eq $((before + commits))
check 'commits beside runs: the runs brought some along' test "$(grep -c '^Committed revision' runs.told)" -gt $((before + 2))
check 'commits beside runs: the archive has all' compares 0
check 'commits beside runs: a last run' ends 0 "$examples/follow" archive mirror
head=$(svnlook youngest repo)
for it in archive mirror; do "$program" dump $it -r "1:$head" >$it.dump </dev/null; done
check 'commits beside runs: the mirror has all' cmp archive.dump mirror.dump
