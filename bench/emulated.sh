#!/bin/sh
# emulated.sh [SEED]: the instructions of one pass of the table's first line, ours and the Rust's, as x86-64 runs them, on a machine that is not
# one: build/libvdp.a as it is shipped, under the emulator, which writes a line for each instruction. (On x86-64 run.sh counts them.) Counts
# say nothing of time; and the Rust is compiled by the only compiler here that makes x86-64 code, as said. BENCH_LIB may name another library.
set -eu
cd "$(dirname "$0")/.."
. tools/cross.sh
[ -n "$RUN" ] || { echo "emulated: this is x86-64: make bench counts here" >&2; exit 2; }
. tools/gears.sh
has_gears || { echo "emulated: $no_gears" >&2; exit 1; }
out=build/bench/x86
mkdir -p $out
flags="--edition 2021 -C opt-level=3 -C overflow-checks=off -C debug-assertions=off"
$RUSTC $flags --crate-type rlib --crate-name rules oracle/rules.rs -o $out/librules.rlib
$RUSTC $flags --extern rules=$out/librules.rlib -C link-arg="${BENCH_LIB:-build/libvdp.a}" bench/bench.rs -o $out/bench
echo "emulated: the Rust: $($RUSTC --version), $flags"
rm -f $out/log
mkfifo $out/log
$RUN -singlestep -d exec,nochain -D $out/log $out/bench count "${1:-1}" 1 &
# The last word of a line is the function that the instruction stands in.
awk '
    $5 == "counted_to" && on {
        on = 0
        side = passes++ ? (passes == 2 ? "Rust" : "floor") : "ours"
        printf "%-5s %8d instructions\n", side, sum
        for (name in own) if (own[name] >= sum / 100) {
            short = name
            sub(/17h[0-9a-f]+E$/, "", short)
            gsub(/.*[0-9:]/, "", short)
            printf "        %8d %s\n", own[name], short
        }
    }
    $5 == "counted_from" { on = 1; sum = 0; split("", own); next }
    on { sum++; own[$5]++ }' $out/log
wait
rm -f $out/log
