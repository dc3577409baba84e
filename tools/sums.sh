# What the program is built of, and whether a program is of that. Other scripts read this file (`. tools/sums.sh`), once
# they have set here to the top of the checkout. No proof rests on it: what is proved is told by ./test.
built=$here/crates/svnfleet/out/svnfleet
release=$here/release

# crates_of FOLDER: the lines of crates.txt for the program's crate and those that it stands on, each once.
crates_of() {
    awk -F: '
        !/^#/ && NF > 1 { split($1, head, " "); uses[head[1]] = $2; line[head[1]] = $0 }
        END {
            n = 1; list[1] = "svnfleet"; seen["svnfleet"]
            for (i = 1; i <= n; i++) {
                if (!(list[i] in line)) exit 1
                print line[list[i]]
                m = split(uses[list[i]], names, " ")
                for (k = 1; k <= m; k++) if (names[k] in uses && !(names[k] in seen)) { seen[names[k]]; list[++n] = names[k] }
            }
        }' "$1/crates.txt"
}

# parts_of FOLDER: where the sources of these crates are, and HANDLES, as paths below that folder.
parts_of() {
    for crate in $(crates_of "$1" | sed 's/[ :].*//'); do
        for part in src specs proofs c; do
            [ ! -d "$1/crates/$crate/$part" ] || echo "crates/$crate/$part"
        done
    done
    [ ! -e "$1/HANDLES" ] || echo HANDLES
}

# sources_of FOLDER: the sum of what the program is built of: those lines, HANDLES, and the names and bytes of these
# crates' files in src, specs, proofs and c. Tests, edits, pages and scripts aren't part of it.
sources_of() (
    LC_ALL=C
    export LC_ALL
    lines=$(crates_of "$1") && parts=$(parts_of "$1") && [ -n "$parts" ] && cd -- "$1" || exit 1
    # (names of crates have no blanks)
    sums=$(find $parts ! -type d -exec sha256sum {} +) || exit 1
    printf '%s\n' "$lines" "$sums" | sort | sha256sum | cut -c 1-64
)

# sum_of FILE: its SHA-256.
sum_of() {
    sha256sum <"$1" | cut -c 1-64
}

# has_sum FILE SUM
has_sum() {
    [ -n "$2" ] && [ -f "$1" ] && [ "$(sum_of "$1")" = "$2" ]
}

# said KEY FILE: what a file of sums says of something.
said() {
    sed -n "s/^$1 //p" "$2"
}

# is_built SOURCES: whether a program was built here of the sources with that sum.
is_built() {
    [ -n "$1" ] && [ -x "$built" ] && [ -f "$built.sums" ] && [ "$(said sources "$built.sums")" = "$1" ] && has_sum "$built" "$(said program "$built.sums")"
}

# fault_of_release SOURCES: why the released program isn't one of the sources with that sum; nothing where it is.
fault_of_release() {
    if [ ! -e "$release" ]; then
        echo 'there is no released program (release/)'
    elif [ ! -f "$release/SUMS" ] || [ ! -f "$release/svnfleet.xz" ]; then
        echo 'release/ is damaged: SUMS or svnfleet.xz is missing'
    elif ! has_all_lines "$release/SUMS"; then
        echo 'release/SUMS is damaged'
    elif [ -z "$1" ]; then
        echo 'the sum of the sources cannot be taken'
    elif [ "$(said sources "$release/SUMS")" != "$1" ]; then
        echo 'the released program is of other sources than these'
    elif ! has_sum "$release/svnfleet.xz" "$(said xz "$release/SUMS")"; then
        echo 'release/svnfleet.xz is damaged'
    fi
}

# has_all_lines FILE: whether it has the five lines of a release, and no other.
has_all_lines() {
    awk '
        /^(sources|program|xz) [0-9a-f]+$/ && length($2) == 64 || /^kit ./ || /^version [0-9]+\.[0-9]+\.[0-9]+$/ { if (!($1 in seen)) n++; seen[$1]; next }
        { exit 1 }
        END { if (n != 5) exit 1 }' "$1"
}

# unpack: writes the released program to standard output.
unpack() {
    if command -v xz >/dev/null; then
        xz -dc <"$release/svnfleet.xz"
    else
        python3 -c 'import lzma, shutil, sys; shutil.copyfileobj(lzma.open(sys.stdin.buffer), sys.stdout.buffer)' <"$release/svnfleet.xz"
    fi
}
