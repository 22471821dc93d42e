#!/bin/sh
# native-program.sh MODULE.ll OUT..: the program whose module this is (tools/modules.sh), under each of these names, for this machine, or for the 64-bit Linux
# that TARGET names. It goes by the name that its file is made under (tools/program.c): the crate `programs` is a program under nine. It is linked with
# tools/program.c: on x86-64 by the toolchain's own linker and C library, so that no C compiler is needed, elsewhere by the C compiler.
set -eu
[ $# -ge 2 ] || { echo "usage: native-program.sh MODULE.ll OUT.." >&2; exit 2; }
tools=$(dirname "$0")
. "$tools/toolchain.sh"
. "$tools/target.sh"
[ "$bits$system" = 64linux ] || { echo "native-program: programs are for 64-bit Linux, and $TARGET is none" >&2; exit 1; }
work=$(mktemp -d)
trap 'rm -rf "$work"' EXIT
sed -E -e 's/^(define .*)@main\(/\1@program_main(/' -e 's/@write\(/@program_write(/' -e 's/@__sysv_signal\(/@program_signal(/' "$1" >"$work/module.ll"
for name in program_main program_write; do
    grep -q "@$name(" "$work/module.ll" || { echo "native-program: $1 has no ${name#program_}: the toolchain's modules have not the shape that tools/native-program.sh knows" >&2; exit 1; }
done
shift
sh "$tools/native-module.sh" "$work/module.ll" "$work/module.o"
for out; do
    name=${out##*/} text=
    case $name in *trace*) text=-DTRACE ;; esac
    "$llvm/clang" --target=$triple $flags -fPIC -O2 -ffreestanding "-DNAME=\"$name\"" $text -c "$tools/program.c" -o "$work/program.o"
    mkdir -p "$(dirname "$out")"
    if [ "$triple" = x86_64-unknown-linux-gnu ] && [ "$machine" = x86_64 ]; then
        "$kit/bin/rattle-link" --target $triple --toolchain "$kit/toolchain" -o "$work/program" "$work/module.o" "$work/program.o" \
            "$kit/c/libos_c.a" "$kit/c/liblibc_c.a" >"$work/said" 2>&1 ||
            { echo "native-program: $(tail -n 1 "$work/said")" >&2; exit 1; }
    else
        ${CC:-$cc} -pie "$work/module.o" "$work/program.o" -Wl,--gc-sections -o "$work/program"
    fi
    mv "$work/program" "$out"
done
