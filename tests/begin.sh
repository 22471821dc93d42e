# begin.sh: sourced by every suite, from its first line: the project's folder, how programs are run (tools/cross.sh), how tests are told (tools/tell.sh),
# a folder of its own, $work, empty, and what it tests built. SUITE names the folder, where a suite is run by another one.
set -u
cd "$(dirname "$0")/.."
# The suites call make themselves, and none is a part of the make that may have started them.
unset MAKEFLAGS MAKELEVEL
. tools/cross.sh
. tools/tell.sh
work=build/test/${SUITE:-$(basename "$0" .sh)}
rm -rf "$work"
mkdir -p "$work"

# copied FOLDER: the project, with nothing that was built, comes into this folder.
copied() { tar -c --exclude=./build --exclude=./target --exclude=./.git --exclude='./crates/*/out' . | tar -x -C "$1"; }

# stand_in FOLDER: the toolchain's folder, by links, but for its `rattle`. What stands in for that hands the module of a program, or of the library, as it was
# built here, to its clang (tools/modules.sh).
stand_in() {
    local file kit
    kit=$(. tools/toolchain.sh && echo "$kit") || return
    mkdir -p "$1/bin"
    for file in "$kit"/* "$kit"/bin/*; do case ${file#"$kit/"} in bin | bin/rattle) ;; *) ln -s "$file" "$1/${file#"$kit/"}" ;; esac; done
    cat >"$1/bin/rattle" <<END
#!/bin/sh
while [ \$# -gt 1 ]; do
    case \$1 in --crate-name) name=\$2 ;; --toolchain) toolchain=\$2 ;; -o) out=\$2 ;; esac
    shift
done
cp "$PWD/build/modules/\$name.bc" "\$out.bc" && "\$toolchain/bin/clang" --target=x86_64-unknown-linux-gnu -w -c -x ir "\$out.bc" -o "\$out"
END
    chmod +x "$1/bin/rattle"
}

# needs TARGET..: these targets are made, so that nothing older is tested. BUILT says that a run of all suites has just made everything.
needs() {
    if [ -z "${BUILT:-}" ] && ! make --no-print-directory "$@"; then
        echo '0 passed, 1 failed'
        exit 1
    fi
}
