#!/bin/sh
# built.sh: the last lines of `make`: the trace program at work, what is there, and what to try next, as commands that can be pasted.
set -eu
cd "$(dirname "$0")/.."
echo "The trace of crates/programs/stdin (docs/TRACES.md says what its lines mean):"
build/bin/trace crates/programs/stdin
echo
echo "Built for this machine, $(uname -m):"
echo "  build/bin       $(cd build/bin && echo *)"
echo "  build/native    libvdp.a libvdp.so, for C by include/vdp.h, for Rust by player/vdp.rs"
echo "and for x86-64, as the toolchain compiles it: build/libvdp.a"
echo "Try:"
sed 's/^/  /' <<'END_OF_LINES'
build/bin/snapshot tests/traces/split90.trace > build/split90.ppm
build/bin/desk differ docs/scripts/split-old.desk docs/scripts/split-new.desk -o build/differ.png
make page
cc -Iinclude examples/frame.c build/native/libvdp.a -o build/frame && build/frame
make install PREFIX="$HOME/.local"
make test
END_OF_LINES
