#!/bin/sh
# emulate.sh TARGET PROGRAM WORDS..: runs a program of this target (tools/target.sh): as it is on a machine of its kind, else by an emulator of Linux programs,
# with the C library of Debian's package for it (tools/setup.sh cross); where that machine's own C library is installed here, as the comparison's for x86-64 is on
# Arm, with that one: the loader of the one does not go with the other. With no program it only tells, by its exit status, whether that can be had.
set -eu
target=${1%-none}
shift
emulator=qemu-$target libraries=/usr/$target-linux-gnu loader=
case $target in
"$(uname -m)") emulator= ;;
aarch64) loader=/lib/ld-linux-aarch64.so.1 ;;
x86_64) loader=/lib64/ld-linux-x86-64.so.2 ;;
riscv64) loader=/lib/ld-linux-riscv64-lp64d.so.1 ;;
armv7) emulator=qemu-arm libraries=/usr/arm-linux-gnueabihf loader=/lib/ld-linux-armhf.so.3 ;;
esac
place="-L $libraries"
[ ! -e "$loader" ] || place=
if [ $# -eq 0 ]; then
    [ -z "$emulator" ] || { command -v $emulator >/dev/null && { [ -z "$place" ] || [ -d $libraries ]; }; }
    exit
fi
exec ${emulator:+$emulator $place} "$@"
