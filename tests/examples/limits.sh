# What is past a limit, beside what the program refuses: each limit is kept by one repository, and passed by one.

mkdir "$work/limits" && cd "$work/limits" || exit 1
words fits -x '--exclude /a repo'

# made FOLDER: a Subversion repository of the dump on standard input
made() {
    svnadmin create "$1" && svnadmin load -q --bypass-prop-validation --no-flush-to-disk "$1" >made.out 2>made.errors
}

cat >dumps.py <<'END'
"""dumps: writes the dump named by the first word, of which something has the size of the second."""
import sys

out = sys.stdout.buffer


def block(props):
    return b''.join(b'K %d\n%b\nV %d\n%b\n' % (len(k), k, len(v), v) for k, v in props) + b'PROPS-END\n'


def record(headers, props=None, text=None):
    for header in headers:
        out.write(header + b'\n')
    if props is not None:
        props = block(props)
        out.write(b'Prop-content-length: %d\n' % len(props))
    if text is not None:
        out.write(b'Text-content-length: %d\n' % len(text))
    out.write(b'Content-length: %d\n\n' % (len(props or b'') + len(text or b'')) + (props or b'') + (text or b'') + b'\n\n')


def revision(number, props=()):
    record([b'Revision-number: %d' % number], props)


def folder(path, props=(), source=None):
    copied = [b'Node-copyfrom-rev: %d' % source[0], b'Node-copyfrom-path: ' + source[1]] if source else []
    record([b'Node-path: ' + path, b'Node-kind: dir', b'Node-action: add', *copied], None if source else props)


def deep(names, size=1):
    """A folder with so many names, each of a size, and those above it."""
    path = b''
    for _ in range(names):
        path = path + b'/' * bool(path) + b'n' * size
        folder(path)
    return path


what, size = sys.argv[1], int(sys.argv[2])
out.write(b'SVN-fs-dump-format-version: 2\n\n')
revision(1)
folder(b'plain')
revision(2, [(b'log', b'v' * size)] if what == 'revision-value' else [(b'p%d' % it, b'') for it in range(size)] if what == 'revision-properties' else [])
if what == 'text':
    record([b'Node-path: a file', b'Node-kind: file', b'Node-action: add'], [], b't' * size)
elif what == 'value':
    folder(b'a', [(b'value', b'v' * size)])
elif what == 'root-value':
    record([b'Node-path: ', b'Node-kind: dir', b'Node-action: change'], [(b'value', b'v' * size)])
elif what == 'properties':
    folder(b'a', [(b'p%d' % it, b'') for it in range(size)] + [(b'svn:sync-%d' % it, b'') for it in range(16)])
elif what == 'sync-properties':
    folder(b'a', [(b'svn:sync-%d' % it, b'') for it in range(size)])
elif what == 'property-name':
    folder(b'a', [(b'p' * size, b'')])
elif what == 'name':
    folder(b'n' * size)
elif what == 'names':
    deep(size)
elif what == 'path':
    # (four names of 199 bytes, and one of what is left)
    folder(deep(4, 199) + b'/' + b'x' * (size - 800))
elif what == 'changes':
    for number in range(size):
        folder(b'plain/%d' % number)
elif what == 'deep-copy':
    # (the copied folder has 60 names behind it, and had more once)
    deep(61)
    folder(b'n/' * 61 + b'n')
    revision(3)
    record([b'Node-path: ' + b'n/' * 61 + b'n', b'Node-action: delete'])
    revision(4)
    path = b'plain'
    for _ in range(size - 62):
        path += b'/t'
        folder(path)
    folder(path + b'/copy', source=(3, b'n'))
elif what == 'copied-copy':
    # (the copy of the copy has 31 names behind it)
    deep(32)
    folder(b'other')
    revision(3)
    folder(b'other/b', source=(2, b'n'))
    revision(4)
    path = b'plain'
    for _ in range(size - 33):
        path += b'/t'
        folder(path)
    folder(path + b'/copy', source=(3, b'other/b'))
elif what == 'long-copy':
    # (behind the folder that is copied are 768 bytes)
    path = deep(4, 255)
    revision(3)
    folder(b'plain/' + b'c' * (size - 774), source=(2, path.split(b'/')[0]))
END

# fitting NAME SIZE: a repository that has something of a size
fitting() {
    rm -rf repo archive
    python3 dumps.py "$1" "$2" | made repo
    "$program" create archive --uuid $uuid </dev/null
}

# kept NAME SIZE: what is of that size fits and loads
kept() {
    fitting "$1" "$2"
    check "limits: $1 of $2: it is made" test ! -s made.errors
    check "limits: $1 of $2 fits" ends 0 "$examples/fits" repo
    check "limits: $1 of $2: nothing is told" test -z "$(cat said errors)"
    check "limits: $1 of $2 is loaded" sh -c 'svnadmin dump -q repo | "$1" load archive >loaded 2>errors' sh "$program"
}

# passed_by NAME SIZE NUMBER LINE: what is of that size doesn't fit, which the line tells, and is refused with the number
passed_by() {
    fitting "$1" "$2"
    check "limits: $1 of $2: it is made" test ! -s made.errors
    check "limits: $1 of $2 does not fit" ends 1 "$examples/fits" repo
    check "limits: $1 of $2: what is told" test "$(cat said errors)" = "$4"
    check "limits: $1 of $2 is not loaded" not sh -c 'svnadmin dump -q repo | "$1" load archive >loaded 2>errors' sh "$program"
    check "limits: $1 of $2 is refused so" grep -q "^svnfleet: $3 " errors
}

n=$(printf 'n%.0s' $(seq 256))
v=$(printf 'n%.0s' $(seq 199))
kept text 1048576
passed_by text 1048577 8 'revision 2, a file: bytes of the text: 1048577, 1 past the limit of 1048576'
kept value 65536
passed_by value 65540 8 'revision 2, a: property value: bytes of the value: 65540, 4 past the limit of 65536'
kept root-value 65536
passed_by root-value 65537 8 'revision 2, /: property value: bytes of the value: 65537, 1 past the limit of 65536'
kept revision-value 65536
passed_by revision-value 65537 8 'revision 2: property log: bytes of the value: 65537, 1 past the limit of 65536'
kept properties 256
passed_by properties 257 8 'revision 2, a: properties: 257, 1 past the limit of 256'
kept revision-properties 256
passed_by revision-properties 300 8 'revision 2: properties: 300, 44 past the limit of 256'
kept sync-properties 16
passed_by sync-properties 17 8 'revision 2, a: properties that begin svn:sync-: 17, 1 past the limit of 16'
kept property-name 255
passed_by property-name 256 8 "revision 2, a: property $(printf 'p%.0s' $(seq 40))..: bytes of the name: 256, 1 past the limit of 255"
kept name 255
passed_by name 256 8 "revision 2, $n: bytes of the name ${n:0:40}..: 256, 1 past the limit of 255"
kept names 64
passed_by names 65 8 "revision 2, n$(printf '/n%.0s' $(seq 64)): names of the path: 65, 1 past the limit of 64"
kept path 1024
passed_by path 1025 8 "revision 2, $v/$v/$v/$v/$(printf 'x%.0s' $(seq 225)): bytes of the path: 1025, 1 past the limit of 1024"
kept changes 4096
passed_by changes 4097 8 'revision 2: changes: 4097, 1 past the limit of 4096'
kept deep-copy 64
passed_by deep-copy 65 8 'revision 4, plain/t/t/t/copy: names of a path that is copied: 65, 1 past the limit of 64'
kept copied-copy 64
passed_by copied-copy 65 8 "revision 4, plain$(printf '/t%.0s' $(seq 32))/copy: names of a path that is copied: 65, 1 past the limit of 64"
kept long-copy 1024
passed_by long-copy 1025 8 "revision 3, plain/$(printf 'c%.0s' $(seq 251)): bytes of a path that is copied: 1025, 1 past the limit of 1024"

# several at once, and what options leave out
svnadmin create several
head -c 2000000 /dev/zero >text
for it in 'a first' 'the second'; do svn import -q -m "$it is big" text "file://$PWD/several/$it"; done
check 'limits: several' ends 1 "$examples/fits" several
check 'limits: a line of each' test "$(cat said)" = "$(printf 'revision %s: bytes of the text: 2000000, 951424 past the limit of 1048576\n' '1, a first' '2, the second')"
check 'limits: one is left out' ends 1 "$examples/fits" several --exclude '/a first'
check 'limits: the other is not' test "$(wc -l <said) $(grep -c second said)" = '1 1'
check 'limits: both are left out' ends 0 "$examples/fits" several --exclude '/a first' --exclude '/the second'
check 'limits: texts as deltas' ends 1 "$examples/fits" several --deltas
check 'limits: they are told' grep -qx 'revision 1, a first: the text is given as a delta: leave --deltas out' said
check 'limits: a range' ends 1 "$examples/fits" several -r 2:2
check 'limits: it is no revision before' test "$(sed -n '1s/,.*//p' said)" = 'revision 2'

# a repository that is a mirror, one that can't be read, and more revisions than there may be
printf 'file:///elsewhere' >text
svnadmin setrevprop several -r 0 svn:sync-from-url text
check 'limits: a mirror' ends 1 "$examples/fits" several --exclude '/a first' --exclude '/the second'
check 'limits: it is told' test "$(cat said)" = 'revision 0: svn:sync-from-url makes the archive a mirror (24): load from revision 1 on'
check 'limits: no repository' ends 2 "$examples/fits" nowhere
check 'limits: nowhere to tell it' sh -c '"$1" nowhere 2>/dev/full; test $? -eq 2' sh "$examples/fits"
check 'limits: nowhere to print' sh -c '"$1" several >&- 2>said; test $? -eq 2' sh "$examples/fits"
check 'limits: which is told' test "$(cat said)" = 'fits: standard output is closed'
check 'limits: an option that svnadmin has not' ends 2 "$examples/fits" several --no-such-option
rm several/db/revs/0/2
check 'limits: a repository that breaks off' ends 2 "$examples/fits" several
mkdir many
cat >many/svnadmin <<'END'
#!/usr/bin/env python3
print('SVN-fs-dump-format-version: 2\n')
for number in range(65539):
    print(f'Revision-number: {number}\nProp-content-length: 10\nContent-length: 10\n\nPROPS-END\n')
END
chmod +x many/svnadmin
check 'limits: more revisions' env PATH="$PWD/many:$PATH" sh -c '"$1" any >said; test $? -eq 1' sh "$examples/fits"
check 'limits: they are told' test "$(cat said)" = 'revision 65538: its number is 3 past the limit of 65535'
