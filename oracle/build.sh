#!/bin/sh
# build.sh WHAT..: builds programs of this folder into build/oracle/. WHAT is one or more of
#   compare   build/oracle/compare, for x86-64, with build/libvdp.a and the published Rust (GEARS)
#   traces    build/oracle/traces, for this machine; needs neither of the two
#   homes     build/oracle/homes, the same
#   tiles     build/oracle/tiles, for x86-64, with build/libvdp.a
#   pixels    build/oracle/pixels, for x86-64, with build/libvdp.a; where HERE_LIB is set, build/oracle/here/pixels, for this machine, with that
#   repair    build/oracle/repair, the same
#   records   build/oracle/records, for x86-64, with build/libvdp.a
#   docks     build/oracle/docks, the same
#   here      build/oracle/here/compare, for this machine, with HERE_LIB (an object or archive of the library for it, as build/native/libvdp.a);
#             where HERE_LIB is not set, with a stand-in made of the model
#   repair-here, records-here, docks-here  build/oracle/here/repair, records and docks, the same, with no published Rust
#   standin   build/oracle/here/libvdp.so, that stand-in: every call of include/vdp.h by the rules written a second time
# GEARS names the folder that holds the published vdp.rs and io.rs (tools/gears.sh).
set -eu
cd "$(dirname "$0")/.."
. tools/cross.sh
. tools/gears.sh
out=build/oracle
# Optimised and unchecked, as the oracle must be.
flags="--edition 2021 -O -C overflow-checks=off -C debug-assertions=off"

# The published Rust must be there.
need_gears() { has_gears || { echo "build.sh: $no_gears" >&2; exit 1; }; }

# One at a time: suites that run side by side share the programs.
mkdir -p $out/x86 $out/here
if command -v flock >/dev/null; then
    exec 9>$out/lock
    flock 9
fi

published=
if has_gears; then published=yes; fi
# made OUT LIBRARY COMMAND..: OUT by this command, unless it is there, by the same command, and no source and no library is newer.
made() {
    made=$1 library=$2
    shift 2
    if [ -e "$made" ] && [ "$(cat "$made.by" 2>/dev/null)" = "$*" ] &&
        [ -z "$(find oracle/*.rs include/vdp.h ${library:+"$library"} ${published:+"$GEARS/vdp.rs" "$GEARS/io.rs"} -newer "$made")" ]; then return; fi
    rm -f "$made.by"
    "$@" -o "$made"
    printf '%s\n' "$*" >"$made.by"
}
# The rules written a second time, as a library.
rules_x86() { made $out/x86/librules.rlib "" $RUSTC $flags --crate-type rlib --crate-name rules oracle/rules.rs; }
rules_here() { made $out/here/librules.rlib "" $RUSTC_HERE $flags --crate-type rlib --crate-name rules oracle/rules.rs; }
standin() {
    rules_here
    made $out/here/libvdp.so "" $RUSTC_HERE $flags --crate-type cdylib --crate-name vdp --extern rules=$out/here/librules.rlib oracle/standin.rs
}

for what in "$@"; do
    case $what in
    compare | tiles | repair | records | docks | pixels)
        [ $what != compare ] || need_gears
        if [ $what = pixels ] && [ -n "${HERE_LIB:-}" ]; then
            rules_here
            made $out/here/pixels "$HERE_LIB" $RUSTC_HERE $flags --extern rules=$out/here/librules.rlib -C "link-arg=$HERE_LIB" oracle/pixels.rs
        else
            rules_x86
            made $out/$what build/libvdp.a $RUSTC $flags --extern rules=$out/x86/librules.rlib -L native=build -l static=vdp oracle/$what.rs
        fi
        ;;
    traces | homes)
        rules_here
        made $out/$what "" $RUSTC_HERE $flags --extern rules=$out/here/librules.rlib oracle/$what.rs
        ;;
    standin) standin ;;
    here | repair-here | records-here | docks-here)
        program=${what%-here}
        if [ $what = here ]; then
            need_gears
            program=compare
        fi
        rules_here
        # The stand-in is looked for beside the program, wherever that stands.
        if [ -n "${HERE_LIB:-}" ]; then
            set -- -C "link-arg=$HERE_LIB"
        else
            standin
            set -- -L native=$out/here -l dylib=vdp -C 'link-arg=-Wl,-rpath,$ORIGIN'
        fi
        made $out/here/$program "${HERE_LIB:-$out/here/libvdp.so}" $RUSTC_HERE $flags --extern rules=$out/here/librules.rlib "$@" oracle/$program.rs
        ;;
    *)
        echo "build.sh: unknown: $what" >&2
        exit 2
        ;;
    esac
done
