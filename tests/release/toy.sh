# A small repository in the place of this one, for tests of its scripts: the same scripts, three crates of a line or two, and
# a stand-in for rt that proves nothing. Whoever reads this file has set top to the checkout, work to an empty folder and
# program to a program that answers --version.

# toy FOLDER: makes such a repository, with a release of the program.
toy() {
    mkdir -p "$1"
    cp -r "$top/svnfleet" "$top/build" "$top/tools" "$top/examples" "$1/"
    printf '# Crates.\nlow: itoa\nmiddle: low\nlow_tests: low\nsvnfleet: middle low\n' >"$1/crates.txt"
    echo 'Handles allowed: none.' >"$1/HANDLES"
    for crate in low middle low_tests svnfleet; do
        mkdir -p "$1/crates/$crate/src" "$1/crates/$crate/proofs" "$1/crates/$crate/must-fail"
        echo "// $crate" >"$1/crates/$crate/src/lib.rt"
        echo "-- $crate" >"$1/crates/$crate/proofs/Lib.antt"
        echo "$crate" >"$1/crates/$crate/must-fail/one.edit"
    done
    mkdir "$1/crates/svnfleet/out"
    cp "$program" "$1/crates/svnfleet/out/svnfleet"
    PATH=$work/fake:$PATH "$1/tools/built" "$1" && "$1/tools/release" && rm -r "$1/crates/svnfleet/out"
}

# The stand-in for rt tells what it was called with in $work/called, and what it found in $work/seen, and builds the program
# by copying it. In $work/fake/rattle-kept it keeps each library, once those that it stands on are kept there, with a file
# that is the same for all; in $work/found it tells what was kept there before it proves low. Where a file $work/refuses
# names a crate it doesn't prove that; $work/takes has the seconds that each takes; with a file $work/forgets it keeps
# nothing, with $work/old it has no `rt ci NAME`, and what $work/meanwhile says is done while it builds the program.
mkdir -p "$work/fake/kit/bin"
ln -s kit/bin/rt "$work/fake/rt"
cat >"$work/fake/kit/bin/rt" <<END
#!/bin/sh
called() { echo "\$*" >>"$work/called"; }
proves() { sleep "\$(cat "$work/takes" 2>/dev/null || echo 0.3)"; called "ended \$1"; ! grep -qx "\$1" "$work/refuses" 2>/dev/null || { echo "rt: \$1 NOT PROVED"; exit 1; }; }
waits() { for it in \$(sed -n "s/^\$1: //p" crates.txt); do [ ! -d "crates/\$it" ] || until [ -d "$work/fake/rattle-kept/proof-\$it-1" ]; do sleep 0.05; done; done; }
keeps=', and that is kept'
[ ! -e "$work/forgets" ] || keeps=
crate=\$(basename "\$PWD")
case "\$1 \${2:-}" in
--help*) [ -e "$work/old" ] || echo '  rt ci NAME..  some crates' ;;
version*) echo 'stand-in' ;;
'ci '?*)
    called "ci \$2 jobs=\${RT_JOBS:-}"
    [ "\$2" != low ] || ls "$work/fake/rattle-kept" 2>/dev/null | grep '^proof-' | tr '\n' ' ' >"$work/found"
    find . >"$work/seen"
    waits "\$2"
    proves "\$2"
    kept="$work/fake/rattle-kept/proof-\$2-1"
    mkdir -p "\$kept"
    touch "\$kept"
    echo '{"key": "1", "files": [["below/format", "1"], ["format", "2'\$2'"]]}' >"\$kept/made.json"
    echo std >"\$kept/0"
    echo "\$2" >"\$kept/1"
    echo "rt: \$2 and the crates below passed\$keeps"
    ;;
'ci ')
    called 'ci'
    waits svnfleet
    mkdir -p crates/svnfleet/out
    cp "$program" crates/svnfleet/out/svnfleet
    [ ! -e "$work/meanwhile" ] || . "$work/meanwhile"
    ;;
lib*)
    called "lib \$crate"
    proves "\$crate"
    mkdir -p out/rlib out/incremental
    ;;
run*)
    called 'run'
    mkdir -p out
    cp "$program" out/svnfleet
    ;;
esac
END
chmod +x "$work/fake/kit/bin/rt"
