# Part of tests/mirror/run: mirrors that `fleet` brings up at once. The master has one revision, and then 61.

# begun NAME..: mirrors of the master without its revisions
begun() {
    for mirror in "$@"; do
        rm -rf "$mirror"
        "$program" create "$mirror" --uuid $other </dev/null
        "$program" initialize "$mirror" master </dev/null >"$work/out"
    done
}

# tells NAME STATUS LINES WORDS..: a fleet ends with that status, prints these lines, and tells nothing on standard error
tells() {
    name=$1 status=$2 lines=$3
    shift 3
    timeout 120 "$program" fleet "$@" >"$work/out" 2>"$work/errors" </dev/null
    check "$name: status $status" test $? -eq "$status"
    printf '%b' "$lines" >"$work/expected"
    check "$name: its lines" cmp -s "$work/out" "$work/expected"
    check "$name: nothing on standard error" test ! -s "$work/errors"
}

# wrong_line NAME LINE WORDS..: the words are wrong, with this line
wrong_line() {
    name=$1 line=$2
    shift 2
    wrong "$name" "$@"
    check "$name: its line" test "$(cat "$work/errors")" = "svnfleet: $line (svnfleet fleet --help tells more)"
}

begun m1 m2 m3 m4
tells 'a fleet of two' 0 'm1: head 1\nm2: head 1\n' master --workers 2 m1 m2
for mirror in m1 m2; do
    check "a fleet of two: $mirror has revision 1" same $mirror master 1:1
    check "a fleet of two: $mirror, nine entries" slots $mirror 9
done
check 'a fleet of two: the token of the first' grep -aq '^fleet-1$' m1/journal
check 'a fleet of two: the token of the second' grep -aq '^fleet-2$' m2/journal
check 'a fleet of two: no token of another' test "$(grep -ac '^fleet-2$' m1/journal)" -eq 0
tells 'the fleet again' 0 'm1: head 1\nm2: head 1\n' master --workers 1 m1 m2
check 'the fleet again: eleven entries' slots m1 11
cp -r master as_it_was
rm -rf m2
"$program" create m2 --uuid $other </dev/null
tells 'a mirror that has no source' 1 'm1: head 1\nm2: 51 not initialized\n' master --workers 2 m1 m2
tells 'the same in another order' 1 'm2: 51 not initialized\nm1: head 1\n' master --workers 2 m2 m1
check 'a fleet leaves the master as it was' diff -r master as_it_was
tells 'a fleet of one' 0 'm3: head 1\n' master --workers 64 m3

# mirrors whose folders can't be opened, and one whose lock was left
rm -rf locked full damaged
begun locked damaged
"$program" synchronize locked master </dev/null >"$work/out"
{ head -c 200 locked/slots && printf '\0'; } >cut && mv cut locked/slots
printf 'SVN' >damaged/journal
mkdir -p nothing
tells 'a mirror that is locked' 1 'locked: 54 the sync lock is held by job\nm1: head 1\n' master --workers 2 locked m1
tells 'a missing mirror' 1 'm1: head 1\nnone: 34 no repository\nm3: head 1\n' master --workers 2 m1 none m3
check 'a missing mirror is not made' test ! -e none
tells 'no mirror that opens' 1 'none: 34 no repository\nnothing: 34 no repository\nlocked: 54 the sync lock is held by job\ndamaged: 33 entry 0 is damaged\n' master --workers 4 none nothing locked damaged
tells 'a mirror of another master' 1 'm1: 56 the source is another repository\n' m2 --workers 1 m1
refused 'a missing master' '34 no repository' fleet none --workers 1 m4
check 'a missing master: its mirror stays' slots m4 2

# words
wrong_line 'a fifth mirror' '"m5" is not one of 1 to 4 mirrors' fleet master --workers 1 m1 m2 m3 m4 m5
wrong_line 'a mirror named twice' '"m1" is not a folder of its own' fleet master --workers 1 m1 m2 m1
wrong_line 'the master as a mirror' '"master" is not a folder of its own' fleet master --workers 1 m1 master
wrong_line 'no worker' '"0" is not a number of workers from 1 to 64' fleet master --workers 0 m1
wrong_line '65 workers' '"65" is not a number of workers from 1 to 64' fleet master --workers 65 m1
wrong 'workers that are no number' fleet master --workers two m1
wrong 'a fleet without workers' fleet master m1
wrong 'workers twice' fleet master --workers 1 --workers 1 m1
wrong 'a fleet without mirrors' fleet master --workers 1
wrong 'a fleet of nothing' fleet
"$program" fleet --help >"$work/help" 2>"$work/errors" </dev/null
check 'help of fleet: status' test $? -eq 0
check 'help of fleet names MASTER' grep -q '<MASTER>' "$work/help"
check 'help of fleet names its mirrors' grep -q '<MIRROR>\.\.\.' "$work/help"

# lines that can't be written stop nothing
if [ -c /dev/full ]; then
    begun m4
    "$program" fleet master --workers 1 m4 >/dev/full 2>"$work/errors" </dev/null
    check 'lost lines: status 1' test $? -eq 1
    check 'lost lines: their number' test "$(cat "$work/errors")" = 'svnfleet: 49 stream failed'
    check 'lost lines: the mirror stands' same m4 master 1:1
fi

# folders that another command has open
for held in master m1; do
    port=$(python3 -c 'import socket; s = socket.socket(); s.bind(("127.0.0.1", 0)); print(s.getsockname()[1])')
    : >"$work/serving"
    timeout 60 "$program" serve $held --port "$port" --connections 1 >"$work/serving" 2>"$work/serving.errors" </dev/null &
    server=$!
    waited=0
    until [ -s "$work/serving" ] || [ "$waited" -ge 300 ]; do
        sleep 0.1
        waited=$((waited + 1))
    done
    if [ $held = master ]; then
        refused 'a master that is held' '31 device failed' fleet master --workers 1 m1
    else
        tells 'a mirror that is held' 1 'm1: 31 device failed\nm3: head 1\n' master --workers 1 m1 m3
    fi
    kill $server
    wait $server 2>/dev/null
done

# four mirrors of a longer master, by one worker and by four, and a fleet beside a fleet
for i in $(seq 1 60); do
    "$program" mkdir master "d$i" --message "directory $i" --moment $((1000000000000000 + i)) </dev/null >"$work/out"
done
for workers in 1 2 4; do
    begun m1 m2 m3 m4
    tells "four mirrors by $workers" 0 'm1: head 61\nm2: head 61\nm3: head 61\nm4: head 61\n' master --workers $workers m1 m2 m3 m4
    for mirror in m1 m2 m3 m4; do
        check "four mirrors by $workers: $mirror" same $mirror master 1:61
    done
done
begun m1 m2
timeout 120 "$program" fleet master --workers 2 m1 m2 >"$work/first" 2>"$work/first.errors" </dev/null &
first=$!
timeout 120 "$program" fleet master --workers 2 m1 m2 >"$work/second" 2>"$work/second.errors" </dev/null
second=$?
wait $first
first=$?
check 'a fleet beside a fleet: one of them runs' test "$first" -eq 0 -o "$second" -eq 0
for one in first second; do
    check "a fleet beside a fleet: the $one is run or refused" grep -Eq '^(svnfleet: 31 device failed|m1: head 61)$' "$work/$one" "$work/$one.errors"
done
tells 'a fleet behind both' 0 'm1: head 61\nm2: head 61\n' master --workers 2 m1 m2

# a fleet that is killed anywhere: each mirror is brought up by a synchronisation that steals its lock
begun whole1 whole2
fine=0
for i in $(seq 1 "$kills"); do
    rm -rf m1 m2
    cp -r whole1 m1
    cp -r whole2 m2
    "$program" fleet master --workers 2 m1 m2 >"$work/said" 2>"$work/errors" </dev/null &
    sleep "$(awk "BEGIN { print 0.001 * ($i * 97 % 200) }")"
    kill -9 $! 2>/dev/null
    wait $! 2>/dev/null
    "$program" synchronize m1 master --steal-lock </dev/null >"$work/later" 2>"$work/errors" || continue
    "$program" synchronize m2 master --steal-lock </dev/null >"$work/later" 2>"$work/errors" || continue
    same m1 master 1:61 && same m2 master 1:61 && fine=$((fine + 1))
done
check "each of $kills fleets that were killed goes on" test "$fine" -eq "$kills"
