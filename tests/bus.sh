#!/usr/bin/env bash
# bus.sh: R11.12: no call loads a byte of video memory that the rules do not need, or one of them twice, call by call: in the library as its user
# gets it, and in its code with no optimisation, so that this is no gift of a compiler.
. "$(dirname "$0")/begin.sh"
needs build native
if ! said=$(sh tools/setup.sh bus 2>&1 >/dev/null); then
    skip "the turns of the bus" "$said"
    total
    exit
fi
. bench/bus.sh
bus_build
tell "the programs that are watched" $?

[ "$(bus_count optimised each dump 1)" = "32768 16384 1 1" ]
tell "what watches counts every load, by its bytes" $?

# least CODE WORKLOAD SEED: none of our calls takes more turns than the least, and some take any.
least() {
    local turns=0 least=0 calls=0 more=1
    read -r turns least calls more < <(bus_count "$1" ours "$2" "$3")
    [ "${more:-1}" -eq 0 ] && [ "${turns:-0}" -gt 0 ]
    tell "$1, $2 $3: ${turns:-no} turns in ${calls:-no} calls, the least is ${least:-unknown}" $?
}
for workload in visible effective empty unscrolled ended ninth layers dump tiles; do least optimised $workload 1; done
for seed in 1 2 3; do least optimised any $seed; done
for workload in ended any tiles; do least plain $workload 1; done
# The home machine's calls (R21.5): one pixel is an exception of R11.12 here too, and so is the tile that column 192 cuts.
for workload in home home-dump; do least optimised $workload 1; done
for seed in 1 2; do least optimised home-any $seed; done
least plain home-any 1

# A copy of the library whose look through the list loads each byte twice.
sed -E '/^define .*"sprites::next_on"/,/^}/s/^ *%(r[0-9]+) = load i8, (ptr %r[0-9]+), align 1, !noundef !1$/%once.\1 = load volatile i8, \2\n%twice.\1 = load volatile i8, \2\n%\1 = and i8 %once.\1, %twice.\1/' build/native/vdp.ll >$bus/twice.ll
sh tools/native-module.sh $bus/twice.ll $bus/twice.o && bus_program twice $bus/twice.o -O
read -r turns least calls more < <(bus_count twice ours ended 1)
[ "${more:-0}" -eq 40 ]
tell "a copy of the library that loads each Y byte twice is caught in each of its rows: ${turns:-no} turns, the least is ${least:-unknown}" $?

if has_gears; then
    read -r turns least calls more < <(bus_count plain rust ended 1)
    [ "${more:-0}" -eq 40 ]
    tell "the Rust with no optimisation, which loads a byte for every pixel, is caught in each of its rows: ${turns:-no} turns, the least is ${least:-unknown}" $?
else
    skip "the turns of the Rust" "$no_gears"
fi

total
