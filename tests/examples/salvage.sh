# What is saved of a damaged folder, and what is told of it.

mkdir "$work/salvage" && cd "$work/salvage" || exit 1
words salvage 'a b' -x

# A sound archive of eight revisions, the message of whose third was edited: its entries are those of the revisions, one of the
# properties of revision 0 behind the first, and one of the edit at the end.
svnadmin create repo
url=file://$PWD/repo
cp "$examples/post-revprop-change" repo/hooks/post-revprop-change
printf '#!/bin/sh\n' >repo/hooks/pre-revprop-change
chmod +x repo/hooks/*
printf 'program=%s\narchive=%s\n' "$program" "$PWD/sound" >repo/conf/svnfleet-archive
svn mkdir -q -m 'the first' "$url/trunk" "$url/tags"
for it in one two; do printf 'the text of %s\n' $it >text && svn import -q -m "an import of $it" text "$url/trunk/$it"; done
svn copy -q -m 'a copy' "$url/trunk" "$url/tags/a copy"
printf 'a newer text\n' >text
svn import -q -m 'the last' text "$url/trunk/three"
# (and changes of every kind: of the root's properties, a deletion, a replacement)
svn checkout -q "$url" copy
svn propset -q rooted yes copy
svn commit -q -m 'of the root' copy
svn delete -q copy/trunk/one
svn commit -q -m 'a deletion' copy
svn update -q copy
svn delete -q copy/trunk/three
svn copy -q copy/trunk/two copy/trunk/three
svn commit -q -m 'a replacement' copy
"$program" create sound --uuid "$(svnlook uuid repo)" </dev/null
svnadmin dump -q repo | "$program" load sound >loaded
svn propset -q --revprop -r 3 svn:log 'an edited message' "$url"
"$program" dump sound >sound.dump </dev/null

# salvages STATUS: the folder damaged is saved into the folder new; it is as it was, and the status is this
salvages() {
    find damaged -type f -exec sha256sum {} + | sort >before
    stat -c '%n %s %y' damaged/* >>before
    "$examples/salvage" damaged >saved.dump 2>errors </dev/null
    test $? -eq "$1" || return 1
    { find damaged -type f -exec sha256sum {} + | sort; stat -c '%n %s %y' damaged/*; } | cmp - before || return 1
    rm -rf new
    "$program" create new --uuid "$(svnlook uuid repo)" </dev/null
    "$program" load new <saved.dump >loaded 2>refused
    "$program" dump new >new.dump </dev/null
}

# damage FILE OLD NEW: begins the folder damaged, in which the last OLD of a file is NEW
damage() {
    rm -rf damaged
    cp -r sound damaged
    python3 - "damaged/$1" "$2" "$3" <<'END'
import sys
with open(sys.argv[1], 'r+b') as file:
    file.seek(file.read().rindex(sys.argv[2].encode()))
    file.write(sys.argv[3].encode())
END
}

# slot NUMBER BYTE VALUE: begins the folder damaged, in which a byte of an entry's slot is VALUE
slot() {
    rm -rf damaged
    cp -r sound damaged
    python3 - damaged/slots "$@" <<'END'
import sys
with open(sys.argv[1], 'r+b') as file:
    file.seek(25 * int(sys.argv[2]) + int(sys.argv[3]))
    file.write(bytes([int(sys.argv[4])]))
END
}

# is_damaged N: whether the folder damaged is refused at the entry N (a copy is asked, since an opening may cut it)
is_damaged() {
    rm -rf asked
    cp -r damaged asked
    ends 1 "$program" dump asked && test "$(cat errors)" = "svnfleet: 33 entry $1 is damaged"
}

cp -r sound damaged
check 'salvage: nothing is damaged' salvages 0
check 'salvage: nothing is told of it' test ! -s errors
check 'salvage: all is saved' cmp sound.dump new.dump

damage journal 'the text of two' 'the text of tvo'
check 'salvage: a text' is_damaged 4
check 'salvage: a text: it is saved' salvages 1
check 'salvage: a text: what is told' test "$(cat errors)" = "$(printf "entry 4, trunk/two: the text, or its sum, is wrong\nentry 4: its sum isn't right, of revision 3")"
check 'salvage: a text: nothing is refused' test "$(cat refused; tail -n 1 loaded)" = 'Loaded revision 8.'
check 'salvage: a text: two lines differ, the text and its sum' test "$(diff sound.dump new.dump | grep -ac '^>')" -eq 2
check 'salvage: a text: the edited message is saved' grep -q '^an edited message' new.dump

damage journal 'an import of one' 'an import 0f one'
check 'salvage: a property' is_damaged 3
check 'salvage: a property: it is saved' salvages 1
check 'salvage: a property: what is told' test "$(cat errors)" = "entry 3: its sum isn't right, of revision 2: a property, a path, a header or the slot is wrong"
check 'salvage: a property: one line differs' test "$(diff sound.dump new.dump | grep -ac '^>')" -eq 1

damage journal 'K 7
svn:log
V 16
an import of two' 'K 7
svn:log
V 99
an import of two'
check 'salvage: a block of properties' is_damaged 4
check 'salvage: a block of properties: it is saved' salvages 1
check 'salvage: a block of properties: what is told' grep -qx 'entry 4: the properties of revision 3 are lost' errors
check 'salvage: a block of properties: the edit has them' cmp sound.dump new.dump

damage journal 'svn:log
V 16
an import of one' "$(printf 'svn:l\001g\nV 16\nan import of one')"
check 'salvage: a name of a property' is_damaged 3
check 'salvage: a name of a property: it is saved' salvages 1
check 'salvage: a name of a property: what is told' grep -qx 'entry 3: the properties of revision 2 are lost' errors
check 'salvage: a name of a property: nothing is refused' test "$(cat refused; tail -n 1 loaded)" = 'Loaded revision 8.'

damage journal 'Node-path: trunk/two' 'Node-path? trunk/two'
check 'salvage: a header' is_damaged 4
check 'salvage: a header: it is saved' salvages 1
check 'salvage: a header: what is told' grep -qx 'entry 4: a change is lost, in its headers' errors
check 'salvage: a header: it loads up to what needs the file' test "$(cat refused; tail -n 1 loaded)" = "$(printf 'svnfleet: 14 no such copy source\nLoaded revision 7.')"
check 'salvage: a header: the file is lost' test "$("$program" list <new.dump | grep '^F' | sed 's/.* [0-9]* //' | tr '\n' ,)" = 'tags/a copy/one,trunk/three,'

damage journal 'Node-path: tags
' 'Node-path; tags
'
check 'salvage: a header in front of another change' is_damaged 2
check 'salvage: a header in front of another change: it is saved' salvages 1
check 'salvage: a header in front of another change: which is saved' test "$(cat refused; tail -n 1 loaded; "$program" list <new.dump | sed -n '2,$s/.* //p' | tr '\n' ,)" = "$(printf 'svnfleet: 11 no such path\nLoaded revision 3.\n/,trunk,trunk/one,trunk/two,')"

damage journal 'Revision-number: 4' 'Revision-number; 4'
check 'salvage: the head of a revision' is_damaged 5
check 'salvage: the head of a revision: it is saved' salvages 1
check 'salvage: the head of a revision: what is told' grep -qx "entry 5: the record of the revision can't be read, in its headers" errors
check 'salvage: the head of a revision: its changes are there' test "$("$program" list <new.dump | tail -n +2 | sed 's/^\([DF]\) [0-9]*/\1/')" = "$("$program" list <sound.dump | tail -n +2 | sed 's/^\([DF]\) [0-9]*/\1/')"

damage journal 'Revision-number: 4' 'Revision-number: 9'
check 'salvage: a number' salvages 1
check 'salvage: a number: what is told' grep -qx 'entry 5: it says that it is revision 9, and is taken for 4' errors
check 'salvage: a number: all is saved' cmp sound.dump new.dump

damage journal 'Text-content-length: 13' 'Text-content-length: 73'
check 'salvage: a length' is_damaged 6
check 'salvage: a length: it is saved' salvages 1
check 'salvage: a length: what is told' grep -qx 'entry 6, trunk/three: a change is lost, in its lengths' errors
check 'salvage: a length: it loads up to what needs the file' test "$(cat refused; tail -n 1 loaded)" = "$(printf 'svnfleet: 11 no such path\nLoaded revision 7.')"

damage journal 'an edited message' 'an editee message'
check 'salvage: an edit, at the end' is_damaged 10
check 'salvage: an edit: it is saved' salvages 1
check 'salvage: an edit: what is told' test "$(cat errors)" = "entry 10: an edit of revision 3's properties isn't proved"
damage journal 'Prop-content-length:' 'Prop-c0ntent-length:'
check 'salvage: the head of an edit' salvages 1
check 'salvage: the head of an edit: what is told' grep -qx 'entry 10: a revision or an edit of properties is lost' errors
check 'salvage: the head of an edit: the rest is saved' test "$(cat refused; tail -n 1 loaded)" = 'Loaded revision 8.'
check 'salvage: the head of an edit: it has the message of before' grep -q '^an import of two' new.dump

# the end of one entry and the beginning of the next: those behind them keep their numbers
rm -rf damaged && cp -r sound damaged
at=$(grep -abo '^Revision-number: 7$' damaged/journal | head -n 1 | cut -d: -f1)
head -c 40 /dev/zero | dd of=damaged/journal bs=1 seek=$((at - 10)) conv=notrunc 2>/dev/null
check 'salvage: the border of two entries' salvages 1
check 'salvage: the border of two entries: no other is told' sh -c '! grep -v "^entry [78][,:]" errors'
check 'salvage: the border of two entries: those behind are saved' test "$(cat refused; tail -n 1 loaded)" = 'Loaded revision 8.'
check 'salvage: the border of two entries: with their numbers' sh -c '"$1" dump sound -r 8:8 >one.dump && "$1" dump new -r 8:8 >two.dump && cmp one.dump two.dump' sh "$program"

rm -rf damaged && cp -r sound damaged
truncate -s -20 damaged/journal
check 'salvage: a journal that is cut' is_damaged 10
check 'salvage: a journal that is cut: it is saved' salvages 1
check 'salvage: a journal that is cut: the revisions are there' test "$(cat refused; tail -n 1 loaded)" = 'Loaded revision 8.'

damage journal 'SVN-fs-dump-format-version' 'SVN-fs-dumb-format-version'
check 'salvage: the first line' is_damaged 0
check 'salvage: the first line: it is saved' salvages 1
check 'salvage: the first line: what is told' grep -qx "entry 0: the dump's head is wrong: it is written without an identity" errors
check 'salvage: the first line: all is saved' cmp sound.dump new.dump

slot 4 12 7
check 'salvage: the sum of an entry' is_damaged 4
check 'salvage: the sum of an entry: it is saved' salvages 1
check 'salvage: the sum of an entry: what is told' grep -q '^entry 4: its sum isn.t right, of revision 3: ' errors
check 'salvage: the sum of an entry: all is saved' cmp sound.dump new.dump
slot 4 7 0
check 'salvage: the length of an entry' salvages 1
check 'salvage: the length of an entry: what is told' test "$(cat errors)" = "entry 4: the length in its slot doesn't fit the journal"
check 'salvage: the length of an entry: all is saved' cmp sound.dump new.dump
slot 4 7 6
check 'salvage: a length that is too great' salvages 1
check 'salvage: a length that is too great: what is told' grep -qx "entry 4: the length in its slot doesn't fit the journal" errors
check 'salvage: a length that is too great: all is saved' cmp sound.dump new.dump
slot 4 0 0
check 'salvage: the gate of an entry' salvages 1
check 'salvage: the gate of an entry: what is told' test "$(cat errors)" = 'entry 4: its gate is closed, and a later one is open'
check 'salvage: the gate of an entry: all is saved' cmp sound.dump new.dump
rm -rf damaged && cp -r sound damaged
: >damaged/slots
check 'salvage: no slots' salvages 1
check 'salvage: no slots: what is told' test "$(grep -c 'it has no slot, and may be the change that a stop has ended' errors)" -eq 11
check 'salvage: no slots: all is saved' cmp sound.dump new.dump

# a folder of a mirror, and what can't be read
"$program" create mirror --uuid $uuid </dev/null
"$program" initialize mirror sound >lines </dev/null
"$program" synchronize mirror sound >lines </dev/null
rm -rf damaged && cp -r mirror damaged
check 'salvage: a mirror' salvages 0
check 'salvage: a mirror: what is told' test "$(cat errors)" = 'what made the folder a mirror is left out of revision 0'
check 'salvage: a mirror: it is saved as an archive' ends 0 "$program" mkdir new more --message more --moment 1
check 'salvage: no folder' ends 2 "$examples/salvage" nowhere
check 'salvage: no folder is told' grep -q '^salvage: ' errors
mkdir empty
: >empty/journal
check 'salvage: nothing to read' ends 2 "$examples/salvage" empty
check 'salvage: a full disk' sh -c '"$1" sound >/dev/full 2>errors; test $? -eq 2' sh "$examples/salvage"
check 'salvage: nowhere to write' sh -c '"$1" sound >&- 2>errors; test $? -eq 2' sh "$examples/salvage"
: >damaged/slots
check 'salvage: nowhere to tell' sh -c '"$1" damaged >saved.dump 2>/dev/full; test $? -eq 2' sh "$examples/salvage"
