#!/usr/bin/env bash
# native.sh: the programs for the machine at hand, build/bin, beside the x86-64 one that rt itself compiles and links, crates/programs/out/programs, under each of their names: what both
# print of every test trace, of sheets and of blocks is the same. And the same programs for the other of the two machines that the project is built on, by an emulator.
# And what tools/ say where a toolchain has another shape than they know.
. "$(dirname "$0")/begin.sh"
needs build
programs=$(cd build/bin && ls | grep -vx desk)
# rt's own goes by the word that it is started by: a name alone.
root=$PWD
mkdir $work/rt
own=crates/programs/out/programs
[ -x $own ] || (cd crates/programs && rt run <stdin >/dev/null) || exit 1
for name in $programs; do cp $own $work/rt/$name; done

# kind FILE: the machine that a program is for, two bytes of its header.
kind() { od -An -tx1 -j 18 -N 2 "$1"; }
status=0
for name in $programs; do [ "$(kind build/bin/$name)" = "$(kind "$(readlink -f /proc/self/exe)")" ] || status=1; done
tell "every program of build/bin is for this machine" $status

# inputs NAME: the files that a program is tried on.
inputs() {
    case $1 in
    sheet) echo tests/programs/sheet.sheet tests/traces/empty.trace tests/programs/repair.block ;;
    repair) echo tests/programs/repair.block tests/programs/repair.mended tests/traces/empty.trace ;;
    *) echo tests/traces/*.trace tests/programs/repair.block ;;
    esac
}
# compared NAME WORDS..: what the program that these words start writes of each input, to standard output and to standard error, is what rt's own writes; its
# exit status is the one that is due.
compared() {
    local name=$1 same=0 count=0 input due ended
    shift
    for input in $(inputs $name); do
        (cd $work/rt && PATH=.:$PATH $RUN $name "$root/$input") >$work/rt.out 2>$work/rt.err
        "$@" $input >$work/own.out 2>$work/own.err
        ended=$? due=$(status_due $work/rt.out)
        [ ! -s $work/rt.err ] || due=1
        cmp $work/rt.out $work/own.out && cmp $work/rt.err $work/own.err && [ $ended -eq $due ] || { echo "$name $input: status $ended"; same=1; }
        count=$((count + 1))
    done
    "$@" $work/none >$work/own.out 2>$work/own.err
    [ $? -eq 1 ] && [ ! -s $work/own.out ] && echo "$name: $work/none: No such file or directory" | cmp - $work/own.err || same=1
    "$@" - <"$input" | cmp $work/rt.out - || same=1
    "$@" --help | grep -q "^usage: $name \[FILE\]" || same=1
    tell "$name for ${machine}: $count inputs as rt's own prints them, a file that is not there, standard input and --help" $same
}
machine="this machine"
for name in $programs; do compared $name build/bin/$name; done
cp build/bin/home-trace $work/trace && $work/trace --help | grep -q '^usage: home-trace \[FILE\]'
tell "a program of build/bin that is renamed goes on as the same program" $?

# The other machine's.
other=aarch64
[ "$(uname -m)" = x86_64 ] || other=x86_64
why=$(sh tools/setup.sh cross 2>&1 >/dev/null)
if TARGET=$other && . tools/target.sh && command -v $cc >/dev/null && sh tools/emulate.sh $other; then
    machine=$other
    TARGET=$other sh tools/native-program.sh build/modules/programs.ll $(for name in $programs; do echo $work/$other/$name; done)
    for name in $programs; do
        [ -x $work/$other/$name ] && [ "$(kind $work/$other/$name)" != "$(kind build/bin/$name)" ]
        tell "$name is compiled for $other" $?
        compared $name sh tools/emulate.sh $other $work/$other/$name
    done
else
    skip "programs for $other" "${why:-no C compiler or emulator for it}"
fi

# make itself, as an Arm machine runs it: in a copy of the project, where uname says aarch64, the C compiler is the one for it, and stand-ins for rt and its rattle
# hand out the modules that are there. What it makes runs by the emulator.
arm=$(mktemp -d)
trap 'rm -rf "$arm"' EXIT
if [ "$(uname -m)" = x86_64 ] && [ "$machine" = aarch64 ]; then
    mkdir -p "$arm/bin" "$arm/copy"
    stand_in "$arm/kit"
    printf '#!/bin/sh\ncase $1 in -s) echo Linux ;; *) echo aarch64 ;; esac\n' >"$arm/bin/uname"
    printf '#!/bin/sh\nexec aarch64-linux-gnu-gcc "$@"\n' >"$arm/bin/cc"
    printf '#!/bin/sh\nname=${PWD##*/}\nmkdir -p out\ncase $1$name in version*) echo stand-in ;; runprograms) echo "rt: running out/$name" >&2; cat "%s/crates/$name/stdout" ;; libface_c) cp "%s/build/libvdp.a" out/libface_c.a ;; esac\n' "$PWD" "$PWD" >"$arm/bin/rt"
    chmod +x "$arm/bin"/*
    copied "$arm/copy"
    (cd "$arm/copy" && PATH="$arm/bin:$PATH" RATTLE_HOME="$arm/kit" make --no-print-directory PROGRAMS='trace sheet' build) >$work/said 2>&1
    status=$?
    [ $status -eq 0 ] || cat $work/said
    for name in trace sheet; do [ "$(kind "$arm/copy/build/bin/$name")" = "$(kind $work/aarch64/$name)" ] || status=1; done
    [ "$(kind "$arm/copy/build/native/libvdp.so")" = "$(kind $work/aarch64/trace)" ] && cmp build/libvdp.a "$arm/copy/build/libvdp.a" || status=1
    sh tools/emulate.sh aarch64 "$arm/copy/build/bin/trace" crates/programs/stdin | cmp - crates/programs/stdout || status=1
    tell "make as on Arm: programs and libraries for it, with no emulator, and libvdp.a for x86-64" $status
else
    echo "SKIPPED: make as on Arm: this is no x86-64 machine, or it has no compiler for Arm"
    skipped=$((skipped + 1))
fi

# A toolchain with no clang at its place; one that hands it no module; a module of another form; a machine that has no programs.
mkdir -p $work/kit/toolchain/bin $work/bin
said=$(RATTLE_HOME=$PWD/$work/kit bash tools/modules.sh programs 2>&1)
[ $? -ne 0 ] && [ "$(wc -l <<<"$said")" -eq 1 ] && grep -q '^toolchain: no clang at .* has not the shape that tools/ knows' <<<"$said"
tell "a toolchain with no clang at its place is told in a line" $?
printf '#!/bin/sh\ncase $1 in version) echo another ;; esac\n' >$work/bin/rt
chmod +x $work/bin/rt
mkdir "$arm/other"
copied "$arm/other"
stand_in "$arm/another"
printf '#!/bin/sh\n' >"$arm/another/bin/rattle"
said=$(cd "$arm/other" && PATH="$OLDPWD/$work/bin:$PATH" RATTLE_HOME=$arm/another bash tools/modules.sh face_c 2>&1 >/dev/null)
[ $? -ne 0 ] && [ "$(wc -l <<<"$said")" -eq 1 ] && grep -q '^modules: the toolchain (another) built face_c and handed no module .* has not the shape that tools/modules.sh knows' <<<"$said"
tell "a toolchain that hands no module to its clang is told in a line" $?
grep -v '@main' build/modules/programs.ll >$work/mainless.ll
said=$(sh tools/native-program.sh $work/mainless.ll $work/mainless 2>&1)
[ $? -ne 0 ] && [ "$(wc -l <<<"$said")" -eq 1 ] && grep -q 'has no main: the toolchain' <<<"$said"
tell "a module with no main is told in a line" $?
said=$(TARGET=armv7 sh tools/native-program.sh build/modules/programs.ll $work/armv7 2>&1)
[ $? -ne 0 ] && [ "$said" = "native-program: programs are for 64-bit Linux, and armv7 is none" ]
tell "a machine that has no programs is told in a line" $?

total
