#!/usr/bin/env bash
# targets.sh: the library for other machines, `make native TARGET=...`: compiled from the proved module, linked with C programs of that machine, and run by an
# emulator: the Rust's answers, the C example, what vdp.h promises, the calls on a recording, the stack, and hostile arguments. Of bare metal, a program that
# has no system under it. One that this machine cannot compile C for, or run, counts as skipped.
. "$(dirname "$0")/begin.sh"
needs build
out=$work
mkdir -p $out/here
strict="-std=gnu99 -Wall -Wextra -pedantic -Werror -O2 -Iinclude -pthread -Wl,-z,now"
machine=$(uname -m)
sed -nE 's/^uint(32|64)_t (vdp_[a-z_]+)\(.*/\2/p' include/vdp.h | sort >$out/header
why=$(sh tools/setup.sh cross 2>&1 >/dev/null)

# source NAME: the C program of this name.
source_of() { if [ -e tests/$1.c ]; then echo tests/$1.c; else echo examples/$1.c; fi; }
# names OPTIONS.. FILE: what an object, archive or library defines, or asks for.
names() { nm "$@" | awk 'NF >= 2 { print $NF }' | sort -u; }

# ready TARGET: its library is there, and C can be compiled for it and run; else it is skipped. Sets cc.
ready() {
    make --no-print-directory native TARGET=$1
    tell "$1: the library is compiled" $?
    TARGET=$1
    . tools/target.sh
    [ "${1%-none}" != "$machine" ] || cc=cc
    mkdir $out/$1
    command -v $cc >/dev/null && sh tools/emulate.sh $1 && return
    skip "$1" "no $cc or no emulator here: ${why:-setup.sh has not found them}"
    return 1
}

# What the same programs print here.
for name in frame dock bare; do cc $strict "$(source_of $name)" build/native/libvdp.a -o $out/here/$name || exit 1; done
$out/here/frame $out/here/frame.ppm >$out/here/frame.text && $out/here/dock $out/here/dock.ppm >$out/here/dock.text && $out/here/bare >$out/here/bare.text || exit 1

for target in aarch64 riscv64 armv7 x86_64; do
    [ $target != "$machine" ] || continue
    ready $target 9 || continue
    work=$out/$target folder=build/cross/$target
    [ "$(names -g --defined-only $folder/libvdp.a)" = "$(cat $out/header)" ] && [ "$(names -D --defined-only $folder/libvdp.so)" = "$(cat $out/header)" ] &&
        [ "$(names -u $folder/vdp.o | tr '\n' ' ')" = 'memcpy memset ' ]
    tell "$target: archive and shared library have the names of vdp.h and no others, and ask for memcpy and memset alone" $?
    # An answer of 32 bits fills its register on riscv64: each call of the module says so, and no other machine's does.
    due=0
    [ $target != riscv64 ] || due=$(grep -c '^uint32_t vdp_' include/vdp.h)
    [ "$(grep -c '^define .*signext i32 @vdp_' $folder/vdp.ll)" -eq "$due" ]
    tell "$target: its answers are as its C has them" $?
    status=0
    for name in replay frame dock promises record stack fuzz; do $cc $strict "$(source_of $name)" $folder/libvdp.a -o $work/$name || status=1; done
    tell "$target: C programs are compiled and linked" $status
    run() {
        local name=$1
        shift
        sh tools/emulate.sh $target $work/$name "$@"
    }
    run replay crates/replay/stdin
    tell "$target: 65,536 answers of the Rust" $?
    run frame $work/frame.ppm >$work/frame.text && cmp $out/here/frame.text $work/frame.text && cmp $out/here/frame.ppm $work/frame.ppm
    tell "$target: the C example, and the same picture" $?
    run dock $work/dock.ppm >$work/dock.text && cmp $out/here/dock.text $work/dock.text && cmp $out/here/dock.ppm $work/dock.ppm
    tell "$target: the home machine's C example, and the same picture" $?
    run promises
    tell "$target: what vdp.h promises a caller" $?
    run record
    tell "$target: the calls on a recording" $?
    run stack >$work/stack.text
    status=$?
    tell "$target: the stack of each call is within the header's figure: $(tail -n 1 $work/stack.text)" $status
    run fuzz "${CALLS:-20000}" "${SEED:-1}"
    tell "$target: hostile arguments" $?
done

# Bare metal: a program with nothing under it but the library.
for target in aarch64-none x86_64-none riscv64-none armv7-none; do
    ready $target 1 || continue
    soft=
    [ $target != armv7-none ] || soft=-mfloat-abi=soft
    $cc -std=gnu99 -DBARE -O1 $soft -ffreestanding -fno-pie -fno-stack-protector -nostdlib -static -no-pie -Wl,--no-relax -Iinclude tests/bare.c build/cross/$target/libvdp.a -o $out/$target/bare &&
        sh tools/emulate.sh $target $out/$target/bare | cmp $out/here/bare.text -
    tell "$target: linked with nothing else, it draws the same" $?
done

# A target that there is not.
said=$(make --no-print-directory native TARGET=z80 2>&1)
[ $? -ne 0 ] && grep -q '^no such target: z80; there are: aarch64 x86_64 riscv64 armv7 ' <<<"$said"
tell "a target that there is not is told in a line" $?

total
