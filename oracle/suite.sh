#!/usr/bin/env bash
# suite.sh: what stands outside the proofs, beside the rules written a second time and beside the published Rust: the player's file, the trace
# programs, the library as it is shipped and as `make native` makes it. Needs what `make build native` builds.
# CALLS, HOME_CALLS, SEED and TRACES may be set. Last line: 'N passed, M failed', with ', K skipped' where the published Rust is not at hand.
set -u
cd "$(dirname "$0")/.."
. tools/cross.sh
. tools/gears.sh
out=build/outside
mkdir -p $out
. tools/tell.sh

# The library as it is shipped is x86-64 code. Where an emulator runs that, it takes a share, and the library for this machine, of the same module, the rest:
# as many calls in all, and the sweeps whole. The shares are a seventh, a tenth and a sixteenth.
calls=${CALLS:-350000} here=${CALLS:-350000} homes=${HOME_CALLS:-50000} homes_here=${HOME_CALLS:-50000} every=1 short=
if [ -n "$RUN" ]; then
    here=$((2 * calls - calls / 7)) homes_here=$((2 * homes - homes / 10)) every=16 short=--short
    calls=$((calls / 7)) homes=$((homes / 10))
fi

# The player's file.
$RUSTC --edition 2021 -O --test player/tests.rs -L native=build -o $out/player && $RUN $out/player
tell "the player's file: the published tests, the marked examples, refusals by number" $?

# The trace programs beside the model.
sh oracle/build.sh traces
tell "the model prints the worked trace of the rules" $?
build/oracle/traces trace "${TRACES:-1000}" "${SEED:-1}" build/bin/trace
tell "traces beside the model" $?
build/oracle/traces snapshot $((${TRACES:-1000} / 5)) "${SEED:-1}" build/bin/snapshot
tell "snapshots beside the model" $?
build/oracle/traces layers $((${TRACES:-1000} / 5)) "${SEED:-1}" build/bin/layers
tell "layers of traces beside the model" $?
build/oracle/traces trace $((${TRACES:-1000} / 5)) "${SEED:-1}" build/bin/trace-261 --table=0
tell "traces by the table with 261 steps beside the model" $?
build/oracle/traces snapshot $((${TRACES:-1000} / 10)) "${SEED:-1}" build/bin/snapshot-261 --table=0
tell "snapshots by the table with 261 steps beside the model" $?

# The home machine's programs beside its second writing.
sh oracle/build.sh homes && build/oracle/homes trace $((${TRACES:-1000} / 5)) "${SEED:-1}" build/bin/home-trace
tell "the home machine: traces beside its rules written a second time" $?
build/oracle/homes snapshot $((${TRACES:-1000} / 10)) "${SEED:-1}" build/bin/home-snapshot
tell "the home machine: snapshots beside them" $?

# Its calls for C beside the same, on the library for this machine and as it is shipped; and the second writing beside itself.
HERE_LIB=build/native/libvdp.a sh oracle/build.sh docks-here && build/oracle/here/docks $homes_here "${SEED:-1}"
tell "the home machine: $homes_here calls for C beside its rules written a second time, the library for this machine" $?
build/oracle/here/docks pixels "${HOME_STATES:-20}" "${SEED:-1}"
tell "the home machine: every pixel of ${HOME_STATES:-20} states beside the row step" $?
sh oracle/build.sh docks && $RUN build/oracle/docks $homes "${SEED:-1}" $short
tell "the home machine: $homes of the same calls, the library as it is shipped" $?
HERE_LIB= sh oracle/build.sh docks-here && build/oracle/here/docks 1000 "${SEED:-1}"
tell "the home machine: the second writing beside itself" $?
# The C example with the library and with the second writing in its place; and the second writing's picture of its recording.
cc -std=c99 -Iinclude examples/dock.c build/native/libvdp.a -o $out/dock && $out/dock $out/dock.ppm $out/dock.trace >/dev/null &&
    cc -std=c99 -Iinclude examples/dock.c -Lbuild/oracle/here -lvdp -Wl,-rpath,"$PWD/build/oracle/here" -o $out/dock-second && $out/dock-second $out/dock-second.ppm >/dev/null &&
    cmp $out/dock.ppm $out/dock-second.ppm && build/oracle/homes picture <$out/dock.trace | cmp $out/dock.ppm -
tell "the home machine: the picture of the C example is the second writing's" $?

# One pixel beside the row step, on the library for this machine and as it is shipped.
HERE_LIB=build/native/libvdp.a sh oracle/build.sh pixels && build/oracle/here/pixels "${STATES:-300}" "${SEED:-1}"
tell "every pixel of all three areas on ${STATES:-300} states, the library for this machine" $?
sh oracle/build.sh pixels && $RUN build/oracle/pixels 8 "${SEED:-1}"
tell "every pixel of all three areas on 8 states, and all refusals" $?

# The repair of state blocks beside the model: the library as it is shipped, and for this machine.
sh oracle/build.sh repair && $RUN build/oracle/repair calls "${REPAIRS:-20000}" "${SEED:-1}"
tell "repairs: every length, every byte of a good block damaged to every value, many bytes at once" $?
HERE_LIB=build/native/libvdp.a sh oracle/build.sh repair-here && build/oracle/here/repair calls "${REPAIRS:-20000}" "${SEED:-1}"
tell "the library for this machine: the same repairs" $?

# The library beside the published Rust.
if has_gears; then
    sh oracle/build.sh compare && $RUN build/oracle/compare rows "${SEED:-1}" $every
    tell "rows beside the Rust" $?
    $RUN build/oracle/compare refusals "${SEED:-1}" $every
    tell "lengths, areas and damaged blocks of every kind" $?
    $RUN build/oracle/compare $calls "${SEED:-1}"
    tell "$calls calls beside the Rust" $?
    HERE_LIB=build/native/libvdp.a sh oracle/build.sh here && build/oracle/here/compare rows "${SEED:-1}" && build/oracle/here/compare $here "${SEED:-1}"
    tell "the library for this machine: rows and $here calls beside the Rust" $?
    build/oracle/here/compare refusals "${SEED:-1}"
    tell "the library for this machine: lengths, areas and damaged blocks of every kind" $?
    $RUN build/oracle/compare vectors 65536 1 | cmp - crates/replay/stdin
    tell "the list that replay holds is the Rust's, made anew" $?
    $RUSTC --edition 2021 -O player/swap.rs -L native=build -o $out/swap && $RUN $out/swap
    tell "the player's file in place of the published one" $?
else
    skip "the comparison with the published Rust" "$no_gears"
fi

total
