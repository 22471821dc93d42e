#!/bin/sh
# native-module.sh MODULE.ll OUT.o [-O0]: compiles the text of an LLVM module, as tools/modules.sh leaves it, optimised as rt does it, or not at all. For
# this machine, or for the one that TARGET names (tools/target.sh).
set -eu
case $#${3-} in 2 | 3-O0) ;; *) echo "usage: native-module.sh MODULE.ll OUT.o [-O0]" >&2; exit 2 ;; esac
tools=$(dirname "$0")
. "$tools/toolchain.sh"
. "$tools/target.sh"
place=-fPIC
[ $system = linux ] || place=-fno-pic
# Of a program the functions that are the same become one.
merge=
! grep -q '^define .*@program_main(' "$1" || merge='-Xclang -fmerge-functions -mllvm -mergefunc-use-aliases'
"$llvm/clang" --target=$triple $flags $place "${3:--O3}" -ffunction-sections -fdata-sections -Wno-override-module $careful $merge -c -x ir "$1" -o "$2"
