# The systemd units: the commands that they start, and systemd's own reading of them.

mkdir "$work/units" && cd "$work/units" || exit 1
units=$examples/systemd

# started UNIT: the command that a unit starts for its instance mirror, of this program and these scripts
started() {
    sed -n 's/^ExecStart=//p' "$units/$1" | sed "s|^/usr/local/bin/svnfleet |exec $program |; s|^/usr/local/lib/svnfleet/|exec $examples/|; s|%i|mirror|g"
}

"$program" create master --uuid $uuid </dev/null
"$program" mkdir master trunk --message one --moment 1 </dev/null >lines
for it in mirror other; do
    "$program" create $it --uuid $uuid </dev/null
    "$program" initialize $it master </dev/null >lines
done
for it in "$units"/*.service; do
    check "${it##*/}: it starts one command" test "$(grep -c '^ExecStart=' "$it")" -eq 1
    check "${it##*/}: it reads its file of variables" grep -qx 'EnvironmentFile=/etc/svnfleet/%i' "$it"
done
for it in synchronize fleet; do
    check "unit $it: the timer starts it" grep -q '^OnUnitInactiveSec=' "$units/svnfleet-$it@.timer"
    check "unit $it: no run holds a mirror for ever" grep -q '^TimeoutStartSec=[1-9]' "$units/svnfleet-$it@.service"
    check "unit $it: no run takes all memory" grep -q '^MemoryMax=[1-9]' "$units/svnfleet-$it@.service"
done
check 'unit: the command ends well' env SOURCE=master sh -c "$(started svnfleet-synchronize@.service) >lines" </dev/null
check 'unit: the mirror is brought up' grep -qx 'Committed revision 1.' lines
check 'unit of a fleet: the command ends well' env SOURCE=master MIRRORS='mirror other' sh -c "$(started svnfleet-fleet@.service) >lines" </dev/null
check 'unit of a fleet: the mirrors are brought up' "$program" dump other -r 1:1 >dumped </dev/null

# The unit of a server starts this command; a client asks it for the newest revision.
server=svnfleet-serve@.service
port=$(a_port)
rm lines
PORT=$port timeout 100 sh -c "$(started $server | sed 's|1024|1|')" >lines </dev/null &
serving=$!
check 'unit of a server: it listens' listens lines
check 'unit of a server: it serves' test "$(newest "$port")" = 1
wait $serving
check 'unit of a server: it ends well' test $? -eq 0

# The unit of a server that keeps its mirror up starts this one.
port=$(a_port)
rm lines
SOURCE=master PORT=$port timeout 100 sh -c "$(started svnfleet-serve-and-follow@.service)" >lines 2>errors </dev/null &
serving=$!
check 'unit of a mirror that is served and kept up: it listens' listens lines
check 'unit of a mirror that is served and kept up: it serves' test "$(newest "$port")" = 1
kill $serving
wait $serving
check 'unit of a mirror that is served and kept up: it ends well' test $? -eq 0
for it in svnfleet-serve@ svnfleet-serve-and-follow@; do
    check "unit $it: it is started again" grep -qx 'Restart=always' "$units/$it.service"
    check "unit $it: it isn't tried for ever" grep -q '^StartLimitBurst=[1-9]' "$units/$it.service"
done
check 'a mirror that is served and kept up has no other unit' grep -qx 'Conflicts=svnfleet-serve@%i.service svnfleet-synchronize@%i.timer svnfleet-synchronize@%i.service' "$units/svnfleet-serve-and-follow@.service"

# Where the file of variables has options, as for readers, a server is given these besides.
printf '#!/bin/sh\n[ "$1" = serve ] || exec "%s" "$@"\necho "$@" >called\nexec sleep 100\n' "$program" >stub
chmod +x stub
OPTIONS=--browse PORT=5 sh -c "$(started $server | sed 's|^exec [^ ]*|echo|')" >lines </dev/null
check 'unit of a server: it is given the options' grep -qx 'serve mirror --port 5 --connections 1024 --browse' lines
OPTIONS= PORT=5 sh -c "$(started $server | sed 's|^exec [^ ]*|echo|')" >lines </dev/null
check 'unit of a server: without options it has none' grep -qx 'serve mirror --port 5 --connections 1024' lines
check 'unit of a server: none are the default' grep -qx 'Environment=OPTIONS=' "$units/$server"
SVNFLEET=$work/units/stub OPTIONS='--browse --timeout 5' SOURCE=master PORT=5 timeout 100 sh -c "$(started svnfleet-serve-and-follow@.service)" </dev/null >lines 2>errors &
serving=$!
for _ in 1 2 3 4 5 6 7 8 9 10; do
    [ ! -s called ] || break
    sleep 0.5
done
kill $serving
wait $serving
check 'unit of a mirror that is served and kept up: it is given the options' grep -qx 'serve --port 5 --connections 1024 --browse --timeout 5 -- mirror' called

# systemd reads the units, of which it says nothing, and tells an option that it doesn't know.
# reads FOLDER: whether systemd says nothing of the units of a folder
reads() {
    for it in "$1"/*; do
        systemd-analyze verify "$it" >said 2>&1 </dev/null && ! grep . said || return 1
    done
}
if command -v systemd-analyze >/dev/null 2>&1; then
    mkdir placed changed
    for it in "$units"/*; do
        sed "s|^\(ExecStart=\)/usr/local/bin/svnfleet |\1$program |; s|^\(ExecStart=\)/usr/local/lib/svnfleet/|\1$examples/|" "$it" >"placed/${it##*/}"
        sed 's/^\(EnvironmentFile\|AccuracySec\)=/\1s=/' "placed/${it##*/}" >"changed/${it##*/}"
    done
    check 'units: there are six' test "$(ls placed | wc -l)" -eq 6
    check 'units: systemd reads them' reads placed
    for it in changed/*; do
        systemd-analyze verify "$it" >said 2>&1 </dev/null
        check "units: systemd tells a wrong option in ${it##*/}" grep -q "Unknown key.*\(EnvironmentFiles\|AccuracySecs\)" said
    done
else
    skipped=$((skipped + 1))
    echo 'systemd is not here: its reading of the units is skipped'
fi
