# Part of tests/command/run: standard streams that are closed. Each command runs with each choice of the three closed, as with
# the null device in their place, and no file of a folder is one of them.

# the beginning of a repository without revisions, and what mkdir commits as revision 1
printf 'SVN-fs-dump-format-version: 2\n\nUUID: %s\n\nRevision-number: 0\nProp-content-length: 10\nContent-length: 10\n\nPROPS-END\n\n' $uuid >"$work/begun"
printf 'Revision-number: 1\nProp-content-length: 75\nContent-length: 75\n\nK 8\nsvn:date\nV 27\n2001-09-09T01:46:40.123456Z\nK 7\nsvn:log\nV 2\nhi\nPROPS-END\n\nNode-path: a\nNode-kind: dir\nNode-action: add\nProp-content-length: 10\nContent-length: 10\n\nPROPS-END\n\n\n' >"$work/made"
tail -c 275 "$work/hello" >"$work/entry"
cat "$work/begun" "$work/entry" >"$work/with_hello"
cat "$work/begun" "$work/made" >"$work/with_made"
printf 'revision 1\nD 1 /\nF 1 6 a\n' >"$work/listed"
: >"$work/nothing"

# closed CLOSED WORDS..: runs the program on the dump hello with these streams closed; its status is in $status
closed() {
    closed=$1
    shift
    : >"$work/out"
    : >"$work/errors"
    eval '"$program" "$@" <"$work/hello" >"$work/out" 2>"$work/errors"' "$closed"
    status=$?
}

# gave NAME STATUS OUTPUT LINE: that status, and of the streams that are open the output file and the line
gave() {
    check "$1: status" test "$status" -eq "$2"
    case $closed in
    *'>&- '*) ;;
    *) check "$1: standard output" cmp -s "$work/out" "$3" ;;
    esac
    case $closed in
    *'2>&-'*) ;;
    *) check "$1: standard error" test "$(cat "$work/errors")" = "$4" ;;
    esac
}

# keeps NAME FOLDER DUMP: the folder opens, and its whole dump is that
keeps() {
    "$program" dump "$2" >"$work/out" 2>"$work/errors" </dev/null
    check "$1: the folder opens" test $? -eq 0
    check "$1: what the folder keeps" cmp -s "$work/out" "$3"
}

ended='svnfleet: 7 unexpected end of input'
for input in '' '<&-'; do
    for output in '' '>&- '; do
        for errors in '' '2>&-'; do
            streams="$input $output$errors"
            named="streams '$streams'"
            folder=$work/streams
            rm -rf "$folder"

            closed "$streams" --help
            check "--help, $named: status" test "$status" -eq 0
            closed "$streams" list
            if [ -n "$input" ]; then
                gave "list, $named" 1 "$work/nothing" "$ended"
            else
                gave "list, $named" 0 "$work/listed" ''
            fi
            closed "$streams" canon
            if [ -n "$input" ]; then
                gave "canon, $named" 1 "$work/nothing" "$ended"
            else
                gave "canon, $named" 0 "$work/with_hello" ''
            fi

            closed "$streams" create "$folder" --uuid $uuid
            gave "create, $named" 0 "$work/nothing" ''
            check "create, $named: the journal" cmp -s "$folder/journal" "$work/begun"
            check "create, $named: the slots" holds "$folder/slots" 0100000000000000957003969be94896f860fa3d8d10e46c1100
            keeps "create, $named" "$folder" "$work/begun"

            cp -r "$folder" "$folder.made"
            closed "$streams" load "$folder"
            if [ -n "$input" ]; then
                gave "load, $named" 1 "$work/nothing" "$ended"
                keeps "load, $named" "$folder" "$work/begun"
            else
                echo 'Loaded revision 1.' >"$work/said"
                gave "load, $named" 0 "$work/said" ''
                keeps "load, $named" "$folder" "$work/with_hello"
            fi

            echo 'Committed revision 1.' >"$work/said"
            closed "$streams" mkdir "$folder.made" a --message hi --moment 1000000000123456
            gave "mkdir, $named" 0 "$work/said" ''
            keeps "mkdir, $named" "$folder.made" "$work/with_made"
            closed "$streams" dump "$folder.made"
            gave "dump, $named" 0 "$work/with_made" ''
            keeps "dump, $named" "$folder.made" "$work/with_made"
            echo 1 >"$work/said"
            closed "$streams" head "$folder.made"
            gave "head, $named" 0 "$work/said" ''
            keeps "head, $named" "$folder.made" "$work/with_made"
            rm -rf "$folder.made"
        done
    done
done
