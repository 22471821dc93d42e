#!/usr/bin/env bash
# build.sh: what make builds and when, in a copy of the project whose path has spaces, with a stand-in for rt that hands out what is built already and
# notes how it is called: so that the rules of the Makefile are tried in seconds. And what make and make test say where they cannot begin.
. "$(dirname "$0")/begin.sh"
needs build
before=$(stat -c '%n %Y.%y' build/libvdp.a build/native/* build/bin/*)
said=$(make --no-print-directory build)
[ -z "$said" ] && [ "$before" = "$(stat -c '%n %Y.%y' build/libvdp.a build/native/* build/bin/*)" ]
tell "an unchanged make build makes nothing and says nothing" $?

work=$(mktemp -d)
trap 'rm -rf "$work"' EXIT
chmod 755 "$work"
copy="$work/a place with spaces"
mkdir "$copy" "$work/bin"
copied "$copy"
stand_in "$work/kit"
export RATTLE_HOME=$work/kit
# As rt, it is called in the folder of one crate, in a project of its own (tools/plan.sh), and passes over one that has not changed: whose stamp is of this toolchain
# and newer than its files and the stamps below it. A library for C is built each time. A program is run. $work/stuck names a crate that never ends.
cat >"$work/bin/rt" <<END
#!/bin/sh
verb=\$1 name=\${PWD##*/}
case \$verb in
version) cat "$work/version"; exit ;;
lib | run) echo "\$verb \$name" >>"$work/calls" ;;
*) echo "\$verb" >>"$work/calls"; exit 1 ;;
esac
stamp=out/rlib/stamp
[ \$verb = lib ] || stamp=out/\$name.stamp
changed() {
    [ "\$(sed 1q \$stamp 2>/dev/null)" = "\$(cat "$work/version")" ] || return 0
    [ -z "\$(find . -newer \$stamp ! -path './out*' ! -path .)" ] || return 0
    for dep in ../*; do [ ! \$dep/out/rlib/stamp -nt \$stamp ] || return 0; done
    return 1
}
if changed; then
    echo \$name >>"$work/proved"
    if [ "\$(cat "$work/stuck")" = \$name ]; then sleep 300; fi
    echo "logic=proved functions=1" >&2
    mkdir -p out/rlib
    if [ \$name = face_c ]; then cp "$PWD/build/libvdp.a" out/libface_c.a; else { cat "$work/version"; echo \$\$; } >\$stamp; fi
fi
[ \$verb = lib ] || { echo "rt: running out/\$name" >&2; cat "$copy/crates/\$name/stdout"; }
END
chmod +x "$work/bin/rt"
echo one >"$work/version"
: >"$work/stuck"

# calls_of PLAN: how rt is called for the programs, for the library, or for both in one plan: for each crate once.
calls_of() {
    local names
    case $1 in programs) names=programs ;; library) names=face_c ;; both) names='face_c programs' ;; esac
    sh tools/crates.sh $names | sed 's/^/lib /; s/^lib programs$/run programs/' | sort
}
# called PLAN..: rt was called for these plans, one after the other, and for nothing else.
called() {
    local plan due count from=1
    for plan; do
        due=$(calls_of "$plan") count=$(calls_of "$plan" | wc -l)
        [ "$(tail -n +$from "$work/calls" | head -n "$count" | sort)" = "$due" ] || return 1
        from=$((from + count))
    done
    [ "$(wc -l <"$work/calls")" -eq $((from - 1)) ]
}
# anew CRATE..: these were proved again, each once, and no other; `all` are those of both plans.
anew() {
    [ "$*" != all ] || set -- $(sh tools/crates.sh face_c programs)
    [ "$(sort "$work/proved")" = "$(printf '%s\n' "$@" | sort)" ]
}
# made NAME PLANS CRATES WORDS..: make with these words calls rt for these plans, which prove these crates, and leaves what a user takes away.
made() {
    local name=$1 plans=$2 crates=$3 status
    shift 3
    : >"$work/calls"
    : >"$work/proved"
    (cd "$copy" && PATH="$work/bin:$PATH" make --no-print-directory "$@" </dev/null) >"$work/said" 2>&1
    status=$?
    [ "$status" -eq 0 ] || cat "$work/said"
    [ "$status" -eq 0 ] && called $plans && anew $crates && ! grep -q warning "$work/said"
    status=$?
    [ "$status" -eq 0 ] || echo "called for $(wc -l <"$work/calls") crates; proved: $(echo $(cat "$work/proved"))"
    for file in libvdp.a native/libvdp.a native/libvdp.so bin/trace bin/snapshot-261 bin/repair bin/desk; do cmp "build/$file" "$copy/build/$file" || status=1; done
    tell "$name" $status
}
# later FILE: this source is newer than all that was made.
later() {
    sleep 0.05
    touch "$copy/$1"
}
made "make from nothing: the library beside the programs" both all all
grep -q '^end 8$' "$work/said"
tell "it shows the trace program at work" $?
# Each of the lines to try, as it would be pasted; those that install, make the page (the suite of that name does) or take half an hour are there, and no more.
status=0 lines=0
while read -r line; do
    lines=$((lines + 1))
    case $line in
    'make page' | 'make install PREFIX="$HOME/.local"' | 'make test') ;;
    *) (cd "$copy" && eval "$line") >"$work/tried" 2>&1 || { cat "$work/tried"; status=1; } ;;
    esac
done < <(sed -n '/^Try:$/,$p' "$work/said" | sed 1d)
[ $lines -ge 4 ] && [ $status -eq 0 ]
tell "its last lines say what to try, and each of the commands works" $?
[ "$(sed -n 's/^  build\/bin  *//p' "$work/said")" = 'desk home-snapshot home-trace layers repair sheet snapshot snapshot-261 trace trace-261' ] && grep -q "^Built for this machine, $(uname -m):$" "$work/said"
tell "and what is there" $?
made "make again: rt is not called" "" "" all
later crates/laws/src/lib.rt
made "after a change below both: all that stands on it is made" "programs library" all build
later crates/programs/src/trace.rt
made "after a change of a program: the library stays" programs programs build
later crates/face/specs/Face.antt
made "after a change of the library: the programs stay" library "face face_c" build
later crates/passes/specs/Pass.antt
made "after a change of neither: nothing is made" "" "" build
later crates.txt
made "after a change of crates.txt: rt looks at each crate" "programs library" face_c build
echo two >"$work/version"
made "with another toolchain" "programs library" all build
rm "$copy/build/bin/snapshot-261"
made "a program that was removed is made again, of the module that is there" "" "" build
rm "$copy/build/modules/programs.ll"
made "the text of a module that was removed is made again, of the module" programs "" build
rm "$copy/build/modules/programs.bc" "$copy/build/modules/programs.ll"
made "a module that was removed is made again" programs "" build
echo >>"$copy/crates/programs/out/programs.stamp"
later crates/programs/src/trace.rt
made "so is one of other sources than rt's stamp tells of" programs programs build
later include/vdp.h
made "after a change of the header: the libraries for this machine" "" "" build
later tools/program.c
made "after a change of what programs are linked with" "" "" build
made "make -j4" "" "" -j4 all
made "make -j4 clean all" both all -j4 clean all

# Ended in the middle: what was proved is not proved again, nor are the programs, where their module was kept. (The library is built each time.)
for stuck in programs face_c; do
    rm -rf "$copy/build" "$copy/target" "$copy"/crates/*/out
    echo $stuck >"$work/stuck"
    : >"$work/calls"
    : >"$work/proved"
    again='face_c programs' other=face_c
    [ $stuck = programs ] || again=face_c other=programs
    set -m
    (cd "$copy" && PATH="$work/bin:$PATH" RT_JOBS=2 exec make --no-print-directory build </dev/null) >"$work/said" 2>&1 &
    group=$!
    set +m
    for _ in $(seq 300); do
        ! grep -qx $stuck "$work/proved" || ! grep -q "^$other proved" "$work/said" || break
        sleep 0.1
    done
    kill -TERM -- "-$group"
    wait "$group"
    for _ in $(seq 100); do
        ! grep -q '^prove: ended; what was proved stays' "$work/said" || break
        sleep 0.1
    done
    : >"$work/stuck"
    anew all && grep -q '^prove: ended; what was proved stays' "$work/said"
    status=$?
    [ "$status" -eq 0 ] || cat "$work/said"
    tell "make, ended while $stuck is proved" "$status"
    made "the next make goes on from there" both "$again" build
done

# refused NAME LINE WORDS..: these words fail with this line, and before rt is called; make itself may add a line.
refused() {
    local name=$1 line=$2 status
    shift 2
    : >"$work/calls"
    (cd "$copy" && PATH="$work/bin:$PATH" "$@" </dev/null) >"$work/said" 2>&1
    status=$?
    [ "$status" -ne 0 ] && [ ! -s "$work/calls" ] && [ "$(grep -vc '^make: \*\*\*\|^0 passed, 1 failed$' "$work/said")" -eq 1 ] && grep -q "^$line" "$work/said"
    status=$?
    [ "$status" -eq 0 ] || cat "$work/said"
    tell "$name" "$status"
}
rm -rf "$copy/build" "$copy/target"
for target in compare bench bus damaged memcheck; do
    refused "make $target: the published Rust is looked for first" "gears: no vdp.rs and io.rs in /none: set GEARS" make --no-print-directory $target GEARS=/none
done

# A machine with nothing but what make needs: no rustc, and an apt-get that fails.
# (Where a program is linked by the C compiler, that too.)
mkdir "$work/few"
linker=
[ "$(uname -m)" = x86_64 ] || linker='cc ld as'
for word in sh bash make awk cat chmod cmp cp cut df dirname env find grep id ln mkdir mktemp mv nproc readlink rm sed sleep sort tail tee touch tr uname $linker; do ln -s "$(command -v $word)" "$work/few/"; done
for word in dpkg apt-get; do printf '#!/bin/sh\necho "E: Unable to locate package rustc" >&2\nexit 100\n' >"$work/few/$word"; done
chmod +x "$work/few"/dpkg "$work/few"/apt-get
printf '#!/bin/sh\nexec "$@"\n' >"$work/few/sudo"
chmod +x "$work/few/sudo"
: >"$work/calls"
(cd "$copy" && PATH="$work/bin:$work/few" make --no-print-directory PROGRAMS=trace build) >"$work/said" 2>&1 && grep -qx 'lib face_c' "$work/calls"
status=$?
[ "$status" -eq 0 ] || cat "$work/said"
tell "make asks for no more than that: not for rustc" $status
rm "$work/few/uname" "$work/few/cc" 2>/dev/null
printf '#!/bin/sh\ncase $1 in -s) echo Linux ;; *) echo x86_64 ;; esac\n' >"$work/few/uname"
chmod +x "$work/few/uname"
: >"$work/calls"
(cd "$copy" && PATH="$work/bin:$work/few" make --no-print-directory test) >"$work/said" 2>&1
[ $? -ne 0 ] && [ ! -s "$work/calls" ] && [ "$(grep -c 'error' "$work/said")" -eq 1 ] && grep -q '^setup: error: could not install rustc.*(E: Unable to locate package rustc)' "$work/said" &&
    grep -q '^0 passed, 1 failed$' "$work/said"
status=$?
[ "$status" -eq 0 ] || cat "$work/said"
tell "make test: a package that cannot be installed is told in one line" $status

# A checkout that may not be written to; root, who may write anywhere, tries it as nobody.
rm -rf "$copy/build" "$copy/target"
chmod -R a-w,a+rX "$copy"
as_nobody=
if [ "$(id -u)" = 0 ]; then as_nobody='setpriv --reuid=65534 --regid=65534 --clear-groups'; fi
refused "make in a checkout that may not be written to" "setup: error: cannot write in $copy" $as_nobody make --no-print-directory
refused "make test in it" "setup: error: cannot write in $copy" $as_nobody make --no-print-directory test
refused "the gate in it" "setup: error: cannot write in $copy" $as_nobody .ci/run
[ "$(tail -n 1 "$work/said")" = '0 passed, 1 failed' ]
tell "the gate's last line is the sum all the same" $?
chmod -R u+w "$copy"

# A C++ compiler that is missing.
SUITE=build-c CXX=no-such-compiler bash tests/c.sh >"$work/said" 2>&1
[ $? -eq 0 ] && grep -q '^SKIPPED: the C++ example: no no-such-compiler here$' "$work/said" && tail -n 1 "$work/said" | grep -q '^[0-9]* passed, 0 failed, [1-9] skipped$'
tell "a C++ compiler that is missing counts as skipped" $?

# A Z80 assembler that is missing and cannot be installed.
mkdir "$work/all" "$work/none"
ln -s /usr/bin/* "$work/all/"
rm -f "$work/all/z80asm"
for word in dpkg apt-get; do printf '#!/bin/sh\necho "E: Unable to locate package z80asm" >&2\nexit 100\n' >"$work/none/$word"; done
cp "$work/few/sudo" "$work/none/"
chmod +x "$work/none"/*
SUITE=build-cartridge PATH="$work/none:$work/all:$(dirname "$(command -v rt)")" bash tests/cartridge.sh >"$work/said" 2>&1
[ $? -eq 0 ] && [ "$(grep -c '^SKIPPED: the cartridges: setup: error: could not install .*z80asm (E: Unable to locate package z80asm)' "$work/said")" -eq 1 ] &&
    tail -n 1 "$work/said" | grep -q '^0 passed, 0 failed, [1-9][0-9]* skipped$'
status=$?
[ "$status" -eq 0 ] || cat "$work/said"
tell "packages of the cartridges that cannot be had: told in a line, and counted as skipped" $status

# The comparison in a place with spaces.
. tools/gears.sh
if has_gears; then
    (cd "$copy" && sh oracle/build.sh here && build/oracle/here/compare 1000 1) >"$work/said" 2>&1
    status=$?
    [ "$status" -eq 0 ] || cat "$work/said"
    tell "oracle/build.sh here in a place with spaces" $status
else
    skip "oracle/build.sh here" "$no_gears"
fi

total
