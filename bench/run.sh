#!/bin/sh
# run.sh [ROUNDS [SEED]]: builds the benchmark and runs it: the table, where the instructions go, and last the line with both times and their
# ratio. On x86-64 with build/libvdp.a as it is shipped; on any other machine, where a time under an emulator says nothing, with the same LLVM
# module compiled for this machine (make native). GEARS as for the oracle. BENCH_LIB may name an object or archive for this machine to
# measure instead, BENCH_FLAGS more flags for the Rust. Left in build/bench: table.md, functions.md, speed.svg.
set -eu
cd "$(dirname "$0")/.."
. tools/cross.sh
. tools/gears.sh
has_gears || { echo "bench: $no_gears" >&2; exit 1; }
rounds=${1:-400} seed=${2:-1}

# by_function SIDE FILE: lines of a table, from a file of callgrind: the instructions of each function without those that it calls, if they
# are a hundredth of the pass or more. In the file a line `fn=` names a function, the lines behind it begin with a place and a count, and the
# one behind `calls=` counts for the called.
by_function() {
    awk -v side="$1" '
        /^c?fn=/ {
            match($0, /\([0-9]+\)/)
            id = substr($0, RSTART, RLENGTH)
            if (length($0) > RSTART + RLENGTH) name[id] = substr($0, RSTART + RLENGTH + 1)
            if ($0 ~ /^fn=/) at = id
        }
        /^calls=/ { getline; next }
        /^[-+*0-9]/ { own[at] += $2; sum += $2 }
        END {
            for (id in own) if (own[id] >= sum / 100) {
                short = name[id]
                gsub(/.*::/, "", short)
                printf "| %-30s | %12d | %4.1f%% |\n", side ", `" short "`", own[id], 100 * own[id] / sum
            }
        }' "$2" | sort -t "|" -k 3 -n -r
}
out=build/bench
mkdir -p $out
if [ -n "${BENCH_LIB:-}" ]; then
    what="$BENCH_LIB"
    lib=$BENCH_LIB
elif [ "$(uname -m)" = x86_64 ]; then
    what="libvdp.a as shipped, x86-64"
    lib=build/libvdp.a
else
    what="the library's LLVM module compiled for this machine, $(uname -m)"
    lib=build/native/libvdp.a
    make --no-print-directory native
fi
flags="--edition 2021 -C opt-level=3 -C overflow-checks=off -C debug-assertions=off${BENCH_FLAGS:+ $BENCH_FLAGS}"
$RUSTC_HERE $flags --crate-type rlib --crate-name rules oracle/rules.rs -o $out/librules.rlib
$RUSTC_HERE $flags --extern rules=$out/librules.rlib -C "link-arg=$lib" bench/bench.rs -o $out/bench
echo "bench: ours: $what"
echo "bench: the Rust: $($RUSTC_HERE --version), $flags"

# The same picture and the same state, or nothing is measured.
$out/bench check "$seed"

# Instructions: callgrind writes a file before each pass and one behind it, so that the even ones hold a pass each, in the order of `bench count`.
rm -rf $out/count $out/counts $out/functions.md
mkdir $out/count
if ! command -v valgrind >/dev/null; then
    echo "bench: no valgrind here: no instructions are counted"
elif ! valgrind --tool=callgrind --separate-recs=1 --dump-before=counted_from --dump-before=counted_to --callgrind-out-file=$out/count/pass \
    $out/bench count "$seed" 99 >$out/count/said 2>&1; then
    echo "bench: valgrind could not run it, $out/count/said says why: no instructions are counted"
else
    n=2
    while [ -e $out/count/pass.$n ]; do
        awk '/^(summary|totals):/ { print $2; exit }' $out/count/pass.$n
        n=$((n + 2))
    done >$out/counts
    # The first line of the table, function by function.
    {
        echo "Where the instructions of the first line go:"
        echo
        echo "| Function                       | Instructions | Share |"
        echo "|--------------------------------|-------------:|------:|"
        by_function ours $out/count/pass.2
        by_function Rust $out/count/pass.4
    } >$out/functions.md
    echo
    cat $out/functions.md
fi
echo
status=0
$out/bench time "$rounds" "$seed" $out/counts $out/speed.svg >$out/table.md || status=$?
cat $out/table.md
exit $status
