#!/usr/bin/env bash
# scratch.sh COMMAND..: runs a command that proves, with a folder of its own for what the checker keeps meanwhile, and removes that at its end. For each check the
# checker makes a folder of all the checked modules in reach, up to 6,000 files of 300 MB, and removes it when it is done: on a disk this can take half as long
# as the proof. So it stands in memory, where there is room and programs may be run from there, as rt does; else where TMPDIR says.
set -u
memory=/dev/shm
least=4194304 # kilobytes

# fit: whether there is memory for it.
fit() {
    local free room
    [ -z "${TMPDIR:-}" ] && grep -q "^[^ ]* $memory tmpfs " /proc/mounts 2>/dev/null || return
    room=$(df -Pk $memory 2>/dev/null | awk 'NR == 2 { print $4 }')
    free=$(awk '/^MemAvailable:/ { print $2 }' /proc/meminfo)
    [ "${room:-0}" -ge $least ] && [ "${free:-0}" -ge $((2 * least)) ]
}

# made PLACE: the folder made there, where a program can be run from it.
made() {
    folder=$(mktemp -d -p "$1" 2>/dev/null) || return
    trap 'rm -rf "$folder" || { sleep 1; rm -rf "$folder"; }' EXIT
    trap 'exit 130' INT
    trap 'exit 143' TERM
    trap 'exit 129' HUP
    # rt runs proved programs as nobody, from a folder in this one.
    chmod 711 "$folder"
    printf '#!/bin/sh\n' >"$folder/run"
    chmod 755 "$folder/run"
    "$folder/run" 2>/dev/null || { rm -rf "$folder"; return 1; }
}

{ fit && made $memory; } || made "${TMPDIR:-/tmp}" || { echo "scratch: no folder can be made in ${TMPDIR:-/tmp}" >&2; exit 2; }
TMPDIR=$folder "$@"
