#!/bin/sh
# native-lib.sh MODULE.ll FOLDER: the library of include/vdp.h, of its LLVM module (tools/modules.sh), for this machine or for the one that TARGET names
# (tools/target.sh). FOLDER gets vdp.ll and vdp.o, the archive libvdp.a, and on Linux the shared library libvdp.so; they have the names of the header, and
# no others. The compiler and the linker are the toolchain's own.
#
# The module was made for x86-64, whose C calls other machines do not share in all points:
#   - On riscv64 an answer of 32 bits fills its register by its sign, and callers go by that (tools/calls.awk).
#   - On armv7 a caller's lengths have 32 bits, and the module's have 64: each call widens them (tools/calls.awk), and what moves memory takes its length as
#     32 bits (tools/short.awk).
# On bare metal the archive has memcpy and memset too, for a machine that has none (tools/memory.c).
set -eu
[ $# -eq 2 ] || { echo "usage: native-lib.sh MODULE.ll FOLDER" >&2; exit 2; }
tools=$(dirname "$0")
. "$tools/toolchain.sh"
. "$tools/target.sh"
mkdir -p "$2"
rm -f "$2"/vdp.ll "$2"/vdp.o "$2"/memory.o "$2"/libvdp.*
case $triple in
riscv64-*) awk -v way=answers -f "$tools/calls.awk" "$1" ;;
armv7-*) awk -v way=lengths -f "$tools/calls.awk" "$1" | awk -f "$tools/short.awk" ;;
*) cat "$1" ;;
esac >"$2/vdp.ll"
sh "$tools/native-module.sh" "$2/vdp.ll" "$2/vdp.o"
set -- "$2" "$2/vdp.o"
if [ $system = none ]; then
    "$llvm/clang" --target=$triple $flags -fno-pic -O2 -ffreestanding -fno-builtin -c "$tools/memory.c" -o "$1/memory.o"
    set -- "$@" "$1/memory.o"
fi
folder=$1
shift
"$llvm/llvm-ar" crs "$folder/libvdp.a" "$@"
[ $system = linux ] || exit 0
major=$(sed -n 's/^#define VDP_VERSION_MAJOR //p' "$tools/../include/vdp.h")
echo '{ global: vdp_*; local: *; };' >"$folder/names"
"$llvm/ld.lld" -shared -soname "libvdp.so.$major" --version-script "$folder/names" --gc-sections -o "$folder/libvdp.so.$major" "$folder/vdp.o"
rm "$folder/names"
# (no link: rt ci lets none be in the project)
cp "$folder/libvdp.so.$major" "$folder/libvdp.so"
