#!/usr/bin/env bash
# whole.sh COMMAND..: runs a command as a process group of its own, and ends all of that group where this script is ended: by Ctrl-C, by a terminal that
# is closed, or by kill. rt starts its provers in the background, where Ctrl-C does not reach them: without this they live on.
set -mu
"$@" </dev/null &
group=$!

# ended NUMBER: the whole group ends, and then this script, with the status that the signal's number gives.
ended() {
    trap '' INT TERM HUP
    kill -TERM -- "-$group" 2>/dev/null
    for _ in 1 2 3 4 5 6 7 8 9 10; do
        kill -0 -- "-$group" 2>/dev/null || exit $((128 + $1))
        sleep 0.2
    done
    kill -KILL -- "-$group" 2>/dev/null
    wait "$group" 2>/dev/null
    exit $((128 + $1))
}
trap 'ended 2' INT
trap 'ended 15' TERM
trap 'ended 1' HUP
wait "$group"
