#!/usr/bin/env bash
# c.sh: what a C or C++ user takes away: the header, the library as shipped (x86-64) and for this machine, the link lines of docs/BUILD.md, what vdp.h promises a
# caller, how much stack the calls take, and the library as `make install` puts it down. CXX may name another C++ compiler.
. "$(dirname "$0")/begin.sh"
: "${CXX:=g++}"
needs build native
strict="-Wall -Wextra -pedantic -Werror -O2"

$CC_X86 -std=c99 $strict -Iinclude examples/frame.c build/libvdp.a -o $work/frame && $RUN $work/frame $work/frame.ppm
tell "the C example: a frame, the author's question, refusals" $?
cc -std=c99 $strict -Iinclude examples/frame.c build/native/libvdp.a -o $work/frame-here && $work/frame-here $work/frame-here.ppm >/dev/null && cmp $work/frame.ppm $work/frame-here.ppm
tell "the C example with the archive for this machine: the same picture" $?
cc -std=c99 $strict -Iinclude examples/frame.c -Lbuild/native -lvdp -Wl,-rpath,"$PWD/build/native" -o $work/frame-shared &&
    $work/frame-shared $work/frame-shared.ppm >/dev/null && cmp $work/frame.ppm $work/frame-shared.ppm
tell "the C example with the shared library: the same picture" $?

# The home machine: the same picture of three libraries, and of the program that runs its recording.
$CC_X86 -std=c99 $strict -Iinclude examples/dock.c build/libvdp.a -o $work/dock && $RUN $work/dock $work/dock.ppm $work/dock.trace
tell "the home machine's C example: a split, a bar that stands, a fill, a cursor" $?
cc -std=c99 $strict -Iinclude examples/dock.c build/native/libvdp.a -o $work/dock-here && $work/dock-here $work/dock-here.ppm $work/dock-here.trace >/dev/null &&
    cmp $work/dock.ppm $work/dock-here.ppm && cmp $work/dock.trace $work/dock-here.trace
tell "the same with the archive for this machine: the same picture" $?
cc -std=c99 $strict -Iinclude examples/dock.c -Lbuild/native -lvdp -Wl,-rpath,"$PWD/build/native" -o $work/dock-shared && $work/dock-shared $work/dock-shared.ppm >/dev/null && cmp $work/dock.ppm $work/dock-shared.ppm
tell "the same with the shared library: the same picture" $?
build/bin/home-snapshot $work/dock.trace | cmp $work/dock.ppm -
tell "home-snapshot draws the same picture of its recording" $?

# The names of the header, and no others.
sed -nE 's/^uint(32|64)_t (vdp_[a-z_]+)\(.*/\2/p' include/vdp.h | sort >$work/header
for names in "-D --defined-only build/native/libvdp.so" "-g --defined-only build/native/libvdp.a"; do
    nm $names | awk 'NF == 3 { print $3 }' | sort >$work/names
    cmp $work/header $work/names
    tell "the names of ${names##* } are those of the header" $?
done

# What it asks for: memcpy and memset.
for library in build/libvdp.a build/native/libvdp.a; do
    [ "$(nm -u $library | awk '$1 == "U" { print $2 }' | sort -u | tr '\n' ' ')" = 'memcpy memset ' ]
    tell "$library asks for memcpy and memset, and nothing else" $?
done

cc -std=c99 $strict -Iinclude tests/promises.c build/native/libvdp.a -pthread -o $work/promises-here && $work/promises-here
tell "what vdp.h promises a caller, on this machine" $?
$CC_X86 -std=c99 $strict -Iinclude tests/promises.c build/libvdp.a -pthread -o $work/promises && $RUN $work/promises
tell "what vdp.h promises a caller, on x86-64" $?

if command -v "$CXX" >/dev/null; then
    for standard in c++11 c++20; do
        "$CXX" -std=$standard $strict -Iinclude examples/rows.cpp build/native/libvdp.a -o $work/rows && $work/rows
        tell "the C++ example in $standard" $?
    done
else
    skip "the C++ example" "no $CXX here"
fi

# Without lazy binding, whose first call of a C function takes more stack than the library.
cc -std=gnu99 $strict -Wl,-z,now -Iinclude tests/stack.c build/native/libvdp.a -o $work/stack-here && $work/stack-here
tell "the stack of each call is within the header's figure, on this machine" $?
$CC_X86 -std=gnu99 $strict -Wl,-z,now -Iinclude tests/stack.c build/libvdp.a -o $work/stack && $RUN $work/stack
tell "the stack of each call is within the header's figure, on x86-64" $?

# Installed in a folder with a space in its name, and moved.
make --no-print-directory install PREFIX="$PWD/$work/some place" && mv "$work/some place" "$work/another place"
tell "make install" $?
if command -v pkg-config >/dev/null; then
    export PKG_CONFIG_PATH="$PWD/$work/another place/lib/pkgconfig"
    eval "cc -std=c99 $strict examples/frame.c $(pkg-config --cflags --libs vdp) -o $work/frame-installed" &&
        LD_LIBRARY_PATH="$work/another place/lib" $work/frame-installed >/dev/null &&
        [ "$(pkg-config --modversion vdp)" = "$(sed -nE 's/^#define VDP_VERSION_[A-Z]+ +([0-9]+)$/\1/p' include/vdp.h | paste -sd .)" ]
    tell "a program by pkg-config" $?
else
    skip "a program by pkg-config" "no pkg-config here"
fi
said=$(sh tools/install.sh /dev/null/here 2>&1)
[ $? -ne 0 ] && [[ $said == "install: cannot write under "* ]] && [ "$(wc -l <<<"$said")" -eq 1 ]
tell "an install where nothing may be written says so in one line" $?

total
