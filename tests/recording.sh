#!/usr/bin/env bash
# recording.sh: recordings that are written: the calls from C, the same beside the rules written a second time, and runs of the player that the trace
# programs run again: they print the very answers that the player got, and snapshot draws the frame that it drew.
. "$(dirname "$0")/begin.sh"
needs build native
strict="-Wall -Wextra -pedantic -Werror -O2"

$CC_X86 -std=c99 $strict -Iinclude tests/record.c build/libvdp.a -o $work/record && $RUN $work/record $work/worked.trace
tell "the calls on a recording, from C" $?
cmp crates/programs/stdin $work/worked.trace && build/bin/trace $work/worked.trace | cmp crates/programs/stdout -
tell "what C recorded is the worked trace" $?
cc -std=c99 $strict -Iinclude tests/record.c build/native/libvdp.a -o $work/record-here && $work/record-here >/dev/null
tell "the same with the library for this machine" $?

sh oracle/build.sh records && $RUN build/oracle/records "${RECORDINGS:-2000}" "${SEED:-1}"
tell "the calls on recordings beside the rules, every length of room and every place" $?
HERE_LIB=build/native/libvdp.a sh oracle/build.sh records-here && build/oracle/here/records "${RECORDINGS:-2000}" "${SEED:-1}"
tell "the library for this machine: the same" $?

# Runs of the player, on a device of either table.
$RUSTC --edition 2021 -O player/record.rs -L native=build -o $work/player
tell "the player that records is built" $?
for seed in 1 2 3; do
    for both in "0 -261" "1 "; do
        read -r table twin <<<"$both"
        run=$work/table$table-$seed
        $RUN $work/player "$table" $seed $run &&
            build/bin/trace$twin $run/run.trace | cmp $run/run.text - &&
            build/bin/snapshot$twin $run/run.trace | cmp $run/run.ppm -
        tell "run $seed by table $table: trace$twin prints what the player got, snapshot$twin draws what it drew" $?
    done
done
# The comparison can fail: the other table's programs print and draw something else.
! build/bin/trace-261 $work/table1-1/run.trace | cmp -s $work/table1-1/run.text - && ! build/bin/snapshot $work/table0-1/run.trace | cmp -s $work/table0-1/run.ppm -
tell "the programs of the other table do not" $?

total
