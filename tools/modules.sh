#!/usr/bin/env bash
# modules.sh CRATE..: the way to the LLVM modules of these programs and libraries, in one place. rt makes x86-64 code only; the toolchain's `rattle` lowers a program
# or a static library, with all that it depends on, to one module, and hands that to its clang. This script has them proved (tools/plan.sh), and then built once more,
# of what rt has proved and kept, with a copy of the toolchain's folder of compilers, by links, around another clang, which keeps the module. Left behind:
# build/modules/CRATE.ll, a text without what ties it to x86-64, from which tools/native-module.sh makes code for any machine. A program whose module is missing, or
# is of other sources, is built again; a library is each time. It says in a line what it does, where there is one to say it to, on descriptor 3.
set -eu
cd "$(dirname "$0")/.."
. tools/toolchain.sh
modules=$PWD/build/modules
[ $# -gt 0 ] || { echo "usage: modules.sh CRATE.." >&2; exit 2; }

work=$(mktemp -d)
trap 'rm -rf "$work"' EXIT
trap 'exit 143' TERM
mkdir -p "$modules" "$work/toolchain/bin"
for file in "$kit/toolchain"/* "$llvm"/*; do
    case ${file##*/} in bin | clang) ;; *) ln -s "$file" "$work/toolchain/${file#"$kit/toolchain/"}" ;; esac
done
# The clang that keeps. What it makes of the module is nobody's: the quickest that there is.
cat >"$work/toolchain/bin/clang" <<EOF
#!/bin/sh
for word in "\$@"; do
    case \$word in *.bc) cp "\$word" "$work/module.bc" ;; esac
done
exec "$llvm/clang" "\$@" -O0
EOF
chmod +x "$work/toolchain/bin/clang"

{ echo "modules: rt compiles for x86-64; the LLVM modules that the toolchain hands to its clang are kept in build/modules, for code of any machine" >&3; } 2>/dev/null || :
bash tools/plan.sh "$@" || exit

# Beside each module of a program stands rt's stamp of what it was made of. A library has none.
of_stamp() { [ ! -e "crates/$1/src/lib.rt" ] && cmp -s "crates/$1/out/$1.stamp" "$modules/$1.stamp"; }
for crate; do
    if [ ! -s "$modules/$crate.bc" ] || ! of_stamp "$crate"; then
        rm -f "$modules/$crate".* "$work/module.bc"
        mapfile -t words < <(words_of "$crate")
        # For every x86-64 machine: with no other processor named, no program asks first which it runs on.
        (cd "crates/$crate" && "$kit/bin/rattle" build "${words[@]}" --jobs 1 --cpu x86-64 --incremental out/incremental \
            --toolchain "$work/toolchain" --backend llvm -o "$work/made") </dev/null >"$work/said" 2>&1 3>&- || { status=$?; cat "$work/said"; exit $status; }
        if [ ! -s "$work/module.bc" ]; then
            echo "modules: the toolchain ($(rt version)) built $crate and handed no module (a file .bc) to its clang at $llvm: it has not the shape that tools/modules.sh knows" >&2
            exit 1
        fi
        mv "$work/module.bc" "$modules/$crate.bc"
        [ ! -e "crates/$crate/out/$crate.stamp" ] || cp "crates/$crate/out/$crate.stamp" "$modules/"
    fi
    if [ ! -e "$modules/$crate.ll" ] || [ ! "$modules/$crate.ll" -nt "$modules/$crate.bc" ]; then
        "$llvm/clang" --target=x86_64-unknown-linux-gnu -S -emit-llvm -O0 -Xclang -disable-llvm-passes -x ir "$modules/$crate.bc" -o "$work/module.ll"
        sed -E -e '/^target (datalayout|triple)/d' -e '/^attributes /s/ "(target-cpu|probe-stack|stack-probe-size)"="[^"]*"//g' "$work/module.ll" >"$modules/$crate.ll"
    fi
done
