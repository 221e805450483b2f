#!/bin/sh
# Starts the program bestore. For `bestore shell` at a terminal, this script turns Ctrl-C into a character that ends a line, and
# the program treats that line as cancelled. Ctrl-C therefore doesn't end the program, which would lose its store. When the program
# ends, the script restores the terminal's settings. In all other cases, it just runs the program.

program=${0%/*}/@RELATIVE@
[ -x "$program" ] || program='@ABSOLUTE@'
if [ "${1-}" != shell ] || ! [ -t 0 ] || ! saved=$(stty -g 2>/dev/null); then
    exec "$program" "$@"
fi

set_keys() {
    stty intr undef eol2 '^C'
}

# Ends the program, and then this script.
stop() {
    kill "$child" 2>/dev/null
    wait "$child"
    exit "$1"
}

trap 'stty "$saved" 2>/dev/null' EXIT
set_keys
# A program in the background has no standard input unless it is given one. Traps can run while this script waits for it.
exec 3<&0
"$program" "$@" <&3 3<&- &
child=$!
trap 'stop 129' HUP
trap 'stop 131' QUIT
trap 'stop 143' TERM
trap : INT
trap set_keys CONT
while :; do
    wait "$child"
    status=$?
    # A signal also ends the wait, but then the program is still running.
    kill -0 "$child" 2>/dev/null || exit "$status"
done
