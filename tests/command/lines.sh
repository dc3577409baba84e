# Part of tests/command/run: the line on wrong words. It points to the help of the command at hand, and no byte of a word
# controls the terminal that shows it.

# wrong HELP WORDS..: the words are wrong, and the line names that help
wrong() {
    help=$1
    shift
    "$program" "$@" >"$work/out" 2>"$work/errors" </dev/null
    check "wrong words '$*': status 2" test $? -eq 2
    check "wrong words '$*': one line" test "$(wc -l <"$work/errors")" -eq 1
    check "wrong words '$*': nothing on standard output" test ! -s "$work/out"
    check "wrong words '$*': the help" grep -q "^svnfleet: .* ($help --help tells more)\$" "$work/errors"
    check "wrong words '$*': no control character" is_plain "$work/errors"
}

# is_plain FILE: the bytes of its lines are no control characters, neither of one byte nor of two
is_plain() {
    test "$(LC_ALL=C tr -d '\n' <"$1" | LC_ALL=C tr -d '[:cntrl:]' | wc -c)" -eq "$(LC_ALL=C tr -d '\n' <"$1" | wc -c)" &&
        ! od -An -v -tx1 "$1" | tr -d '\n' | grep -q 'c2 [89]'
}

# shows TEXT: the line has that text
shows() {
    check "wrong words: the line shows $1" grep -qF -- "$1" "$work/errors"
}

wrong svnfleet
wrong svnfleet frob
wrong svnfleet --no-such-flag
wrong svnfleet --no-such-flag load
wrong svnfleet loa
wrong 'svnfleet list' list extra
wrong 'svnfleet canon' canon --what
wrong 'svnfleet create' create r
wrong 'svnfleet create' create r --uuid x
wrong 'svnfleet load' load
wrong 'svnfleet load' load r s
wrong 'svnfleet dump' dump
wrong 'svnfleet dump' dump r -r 2:1
wrong 'svnfleet dump' dump r -r 16
shows '"16" is not a range LO:HI of revisions from 0 to 65535, LO not above HI, or N:N for one revision'
wrong 'svnfleet copy-revprops' copy-revprops m r -r 16
shows '"16" is not a range LO:HI of revisions from 0 to 65535, LO not above HI, or N:N for one revision'
wrong 'svnfleet head' head
wrong 'svnfleet mkdir' mkdir r a --message x
wrong 'svnfleet mkdir' mkdir r a --message x --moment -1
wrong 'svnfleet mkdir' mkdir r a --message x --moment soon
for word in list canon create load dump head mkdir; do
    wrong "svnfleet $word" $word --no-such-flag
done

escape=$(printf '\033')
wrong svnfleet "frob$escape[31m"
shows 'frob\u{1b}[31m'
wrong 'svnfleet load' load r "$escape]0;title$(printf '\007')"
shows '\u{1b}]0;title\u{7}'
wrong 'svnfleet list' list "--$(printf '\177')"
shows '\u{7f}'
wrong 'svnfleet list' list "a$(printf '\302\233')b"
shows 'a\u{9b}b'
wrong 'svnfleet create' create r --uuid "x$escape"
shows '"x\u{1b}" is not a UUID'
wrong 'svnfleet dump' dump r -r "1:2$escape"
shows '"1:2\u{1b}" is not a range'
wrong 'svnfleet mkdir' mkdir r a --message x --moment "1$(printf '\302\233')"
shows '\u{9b}'
# what isn't a control character is shown as it is
wrong svnfleet 'frö b'
shows 'frö b'

# Subversion takes no log message with a carriage return
"$program" create "$work/returns" --uuid $uuid </dev/null
wrong 'svnfleet mkdir' mkdir "$work/returns" a --message "$(printf 'a\r\nb')" --moment 1
check 'a message with CR LF: the line' test "$(cat "$work/errors")" = 'svnfleet: "a\r\nb" is not a message without carriage returns (svnfleet mkdir --help tells more)'
wrong 'svnfleet mkdir' mkdir "$work/returns" a --message "$(printf 'a\r')" --moment 1
wrong 'svnfleet mkdir' mkdir "$work/returns" a --message "$(printf '\ra')" --moment 1
refused 'a message with a carriage return is not committed' 21 dump "$work/returns" -r 1:1
"$program" mkdir "$work/returns" a --message "$(printf 'a\nb')" --moment 1 >"$work/out" 2>"$work/errors" </dev/null
check 'a message of two lines: status' test $? -eq 0
"$program" dump "$work/returns" -r 1:1 >"$work/out" </dev/null
printf 'K 7\nsvn:log\nV 3\na\nb\nPROPS-END\n' >"$work/expected"
tail -c +76 "$work/out" | sed -n '/^svn:log$/,/^PROPS-END$/p' >"$work/log"
sed -n '2,$p' "$work/expected" >"$work/expected.log"
check 'a message of two lines: its text' cmp -s "$work/log" "$work/expected.log"
