#!/bin/sh
# wasm-module.sh MODULE.ll OUT.wasm: compiles the text of an LLVM module, as tools/native-lib.sh leaves it, to WebAssembly, with the toolchain's own clang and
# linker. It imports nothing, and exports the calls of include/vdp.h and a memory; a length is 64 bits wide in it.
set -eu
[ $# -eq 2 ] || { echo "usage: wasm-module.sh MODULE.ll OUT.wasm" >&2; exit 2; }
. "$(dirname "$0")/toolchain.sh"
work=$(mktemp -d)
trap 'rm -rf "$work"' EXIT
awk -f "$(dirname "$0")/short.awk" "$1" >"$work/module.ll"
"$llvm/clang" --target=wasm32-unknown-unknown -O3 -mbulk-memory $careful -Wno-override-module -c -x ir "$work/module.ll" -o "$work/module.o"
# The linker goes by the name that it is called by.
ln -s "$llvm/ld.lld" "$work/wasm-ld"
"$work/wasm-ld" --no-entry --export-dynamic --export=__heap_base --export-memory -z stack-size=65536 --gc-sections --strip-all "$work/module.o" -o "$work/module.wasm"
mv "$work/module.wasm" "$2"
