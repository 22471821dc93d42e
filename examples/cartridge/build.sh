#!/bin/sh
# build.sh LIBRARY: the player, linked with this library, and the cartridges, four of the handheld and one of the home machine, all into build/cartridge. `make cartridge` calls it.
# CC and CFLAGS may name another compiler and other flags.
set -eu
[ $# -eq 1 ] || { echo "usage: build.sh LIBRARY" >&2; exit 2; }
cd "$(dirname "$0")/../.."
mkdir -p build/cartridge
${CC:-cc} -std=c99 ${CFLAGS:--O2} -Iinclude examples/cartridge/play.c "$1" -lz80ex -o build/cartridge/play
for name in question split sprites first; do
    z80asm -I examples/cartridge -o build/cartridge/$name.gg examples/cartridge/$name.asm
done
z80asm -I examples/cartridge -o build/cartridge/home.sms examples/cartridge/home.asm
echo "build/cartridge/play and the cartridges question.gg, split.gg, sprites.gg, first.gg and home.sms beside it are built."
