# bus.sh: how turns of the bus are counted, in one place. A turn is a byte of video memory that compiled code loads: valgrind's tool lackey tells
# of every load and every store, and the program bus (bus.rs) where video memory stands, and between which stores each call is made.
# Sourced, in the project's folder, it has functions for the test suite `bus`. Run as a command, bus.sh [SEED], it prints the
# table of `make bus`. Both need what `make native` makes, and valgrind.
#
# Two kinds of code are counted. `optimised`: on x86-64 build/libvdp.a as it is shipped, on any other machine, whose valgrind runs no x86-64 code,
# build/native/libvdp.a; beside it the Rust at its best. `plain`: the same LLVM module and the same Rust with no optimisation, so that every load
# stands there as it was written, and none is saved by a compiler that saw that it could be.
. tools/cross.sh
. tools/gears.sh
bus=build/bus

# bus_program CODE LIBRARY WORDS..: builds the program CODE over a library; without the Rust in it where that is not at hand.
bus_program() {
    code=$1 over=$2
    shift 2
    ! has_gears || set -- "$@" --cfg gears
    $RUSTC_HERE $flags "$@" --extern rules=$bus/librules.rlib -C "link-arg=$over" bench/bus.rs -o "$bus/$code"
}

# bus_build: builds the two programs.
bus_build() {
    flags="--edition 2021 -C overflow-checks=off -C debug-assertions=off"
    lib=build/native/libvdp.a
    [ "$(uname -m)" != x86_64 ] || lib=build/libvdp.a
    mkdir -p $bus
    $RUSTC_HERE $flags -O --crate-type rlib --crate-name rules oracle/rules.rs -o $bus/librules.rlib &&
        bus_program optimised $lib -O &&
        sh tools/native-module.sh build/native/vdp.ll $bus/plain.o -O0 && bus_program plain $bus/plain.o
}

# bus_count CODE SIDE WORKLOAD SEED: prints the turns of all calls, the least for all, the number of calls, and in how many of them there were
# more turns than the least. Where the trace is not whole it prints nothing, and fails.
bus_count() {
    $bus/optimised make "$3" "$4" $bus/calls >$bus/least || return
    # The hint is for Arm, where an exclusive store would never succeed while every load is told; the level keeps valgrind from leaving out loads.
    valgrind --tool=lackey --trace-mem=yes --sim-hints=fallback-llsc --vex-iropt-level=0 --log-fd=1 $bus/"$1" run "$2" $bus/calls | grep -v '^I' | awk -F '[ ,]' '
        # Addresses are compared as text: those of video memory have the same number of digits.
        function within(at) { return length(at) == length(from) && at "" >= from "" && at "" < to "" }
        FNR == NR { least[++calls] = $1; next }
        $1 == "bus:" && NF == 5 { from = $2; to = $3; before = $4; behind = $5; next }
        $1 == "bus:" { done = 1; next }
        from == "" { next }
        $2 == "S" && $3 "" == before "" { inside = 1; made++; turns = 0; next }
        $2 == "S" && $3 "" == behind "" { inside = 0; all += turns; needed += least[made]; more += turns > least[made]; next }
        inside && ($2 == "L" || $2 == "M") && within($3) { turns += $4 }
        END { if (!done || inside || made != calls) exit 1; print all + 0, needed + 0, calls, more + 0 }' $bus/least -
}

case $0 in
bench/bus.sh | */bench/bus.sh)
    set -eu
    bus_build
    echo "bus: bytes of video memory loaded, by ours ($lib) and by the Rust ($($RUSTC_HERE --version)), and the least that the rules need"
    printf '%-10s %-9s %9s %9s %9s %9s\n' code workload ours Rust Rust/ours least
    for code in optimised plain; do
        for workload in visible effective empty dump; do
            ours=$(bus_count $code ours $workload "${1:-1}")
            rust=$(bus_count $code rust $workload "${1:-1}")
            echo "$code $workload $ours $rust" | awk '{ printf "%-10s %-9s %9d %9d %9.2f %9d\n", $1, $2, $3, $7, $7 / $3, $4 }'
        done
    done
    ;;
esac
