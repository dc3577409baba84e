# Part of tests/command/run: the script called by symbolic links.
top=$(pwd -P)

# linked NAME COMMAND: the command is the script of this repository
linked() {
    (cd "$work/links/here" && "$2" list <"$top/examples/first.dump") >"$work/out" 2>"$work/errors"
    check "$1: status" test $? -eq 0
    check "$1: output" cmp -s "$work/out" examples/first.list
}

mkdir -p "$work/links/here/below" "$work/links/there"
ln -s "$top/svnfleet" "$work/links/absolute"
ln -s ../absolute "$work/links/here/relative"
ln -s "$work/links/here/relative" "$work/links/to_link"
ln -s ../to_link "$work/links/there/to_link_of_link"
# a relative link counts from its own folder, and `..` from where a folder is in truth
ln -s here/below "$work/links/below"
ln -s ../relative "$work/links/here/below/above"
ln -s "$top" "$work/links/top"
ln -s "$top/svnfleet" "$work/links/two words"
linked 'an absolute link' "$work/links/absolute"
linked 'a relative link' ./relative
linked 'a relative link from elsewhere' ../here/relative
linked 'a link to a link' "$work/links/to_link"
linked 'a relative link to links' ../there/to_link_of_link
linked 'a link in a folder that is a link' ../below/above
linked 'a folder that is a link' ../top/svnfleet
linked 'a link whose name has a blank' "../two words"
mkdir "$work/links/bin"
ln -s ../absolute "$work/links/bin/svnfleet"
(PATH=$work/links/bin:$PATH && svnfleet list <examples/first.dump) >"$work/out" 2>"$work/errors"
check 'a link in PATH: status' test $? -eq 0
check 'a link in PATH: output' cmp -s "$work/out" examples/first.list
