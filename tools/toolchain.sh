# toolchain.sh: where the toolchain's own clang, linker and archiver stand, in one place. Sourced; sets kit (the toolchain's folder), machine (this one),
# llvm (the folder of the three) and careful (words for clang), and fails, with a line that says so, where the toolchain has them at another place.
machine=$(uname -m)
kit=${RATTLE_HOME:-$(dirname "$(dirname "$(readlink -f "$(command -v rt)")")")}
llvm=$kit/toolchain/bin
for part in clang ld.lld llvm-ar; do
    [ -x "$llvm/$part" ] || {
        echo "toolchain: no $part at $llvm: this toolchain ($(cat "$kit/KIT-ID" 2>/dev/null || echo "with no name")) has not the shape that tools/ knows (rattle-kit-13f has it)" >&2
        exit 1
    }
done
# What the toolchain's own builds tell clang, which compiles some right code wrongly without.
careful='-mllvm -no-trap-after-noreturn -mllvm -trap-unreachable -mllvm -no-x86-call-frame-opt -mllvm -disable-machine-licm
    -mllvm -disable-postra-machine-licm -mllvm -sink-common-insts=false'

# words_of CRATE: the words by which rt has the toolchain's `rattle` check or build this crate, over the libraries below it as rt has built them
# (crates/NAME/out/rlib), one to a line. They are for the crate's own folder. Called in the project's folder.
words_of() {
    local top name dep file=src/lib.rt
    top=$(pwd -P) name=$1
    [ -e "crates/$name/$file" ] || file=src/main.rt
    printf '%s\n' --crate-name "$name" $file --extern "std=$kit/rlibs/std.rlib" -L "dependency=$kit/rlibs"
    for dep in $(sed -nE "s/^$name([ \t]+staticlib)?[ \t]*://p" crates.txt); do
        if [ -d "crates/$dep" ]; then echo "--extern=$dep=$top/crates/$dep/out/rlib/$dep.rlib"; else echo "--extern=$dep=$kit/rlibs/$dep.rlib"; fi
    done
    for dep in $(sh tools/crates.sh "$name"); do [ "$dep" = "$name" ] || echo "-Ldependency=$top/crates/$dep/out/rlib"; done
    printf '%s\n' --antt-project "$kit/rattle/logic/antt-project.json" --logic-built "$kit/logic_built" --links "$name="
    ! grep -qE "^$name[ \t]+staticlib" crates.txt || printf '%s\n' --crate-type staticlib
}
