#!/bin/sh
# weigh.sh: writes tools/seconds.txt, of each crate the seconds that its check took when it was last proved here (target/log, by tools/plan.sh); one that was not
# keeps its line. The plan goes by them, and they need not be exact: it is enough that one crate is to another about as they are. Best after `make clean` and
# `make` on a machine that does nothing else.
set -eu
cd "$(dirname "$0")/.."
new=$(sh tools/crates.sh | sort | while read -r name; do
    if [ -s "target/log/$name.seconds" ]; then
        echo "$name $(cat "target/log/$name.seconds")"
    else
        grep "^$name " tools/seconds.txt || :
    fi
done)
printf '%s\n' "$new" >tools/seconds.txt
