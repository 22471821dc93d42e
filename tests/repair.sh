#!/usr/bin/env bash
# repair.sh: build/bin/repair on good blocks of both versions, on each field damaged, on inputs of other lengths, and beside the rules written a second
# time. (The call of the C face is in oracle/suite.sh.)
. "$(dirname "$0")/begin.sh"
needs build

# mends NAME BLOCK MENDED LINE..: of the file BLOCK the program writes the file MENDED, and these lines to standard error; where there is one, or where it
# writes `bad`, the exit status is 1.
mends() {
    local name=$1 block=$2 mended=$3
    shift 3
    : >$work/lines
    [ $# -eq 0 ] || printf 'repair: byte %s\n' "$@" >$work/lines
    build/bin/repair <"$block" >$work/written 2>$work/told
    [ $? -eq $(($# > 0 ? 1 : $(status_due "$mended"))) ] && cmp "$mended" $work/written && cmp $work/lines $work/told
    tell "$name" $?
}
# poke BLOCK OFFSET BYTE ..: the file BLOCK with these bytes, in hexadecimal, at these offsets.
poke() {
    cat "$1" >$work/poked
    shift
    while [ $# -gt 0 ]; do
        printf "\\x$2" | dd of=$work/poked bs=1 seek="$1" conv=notrunc status=none
        shift 2
    done
    cat $work/poked
}

# A good block of the second version, with table 1: video memory chosen, clean colours of a palette of zeros, black. And the same of the first version.
{
    printf '\x56\x54\x80\x06\xE0\xFF\xFF\xFF\x7F\xFB\x00\x00\x10\xFF\xC4\x00\xFF\x49\x21\x5A\x01\x01\x12\x01\xF0\x10\x00'
    head -c 64 /dev/zero
    for _ in $(seq 32); do printf '\x00\x00\x00\xFF'; done
    printf '\x01'
} >$work/second
poke $work/second 1 53 | head -c 219 >$work/first
for version in first second; do
    good=$work/$version
    mends "$version version: a good block stays, and nothing is told" $good $good

    poke $good 0 57 >$work/block
    mends "$version version: the mark's first byte" $work/block $good '0, mark: 57 -> 56'
    poke $good 15 02 >$work/block
    mends "$version version: a jump flag of 2" $work/block $good '15, jump flag: 02 -> 00'
    poke $good 18 61 >$work/block
    mends "$version version: an address outside video memory" $work/block $good '18, address (high byte): 61 -> 21'
    poke $good 20 02 >$work/block
    poke $good 17 09 18 00 20 02 >$work/mended
    mends "$version version: the same address with the palette chosen" $work/block $work/mended '17, address (low byte): 49 -> 09' '18, address (high byte): 21 -> 00'
    poke $good 20 03 >$work/block
    poke $good 20 00 >$work/mended
    mends "$version version: a choice of 3 is none, and the address is one of video memory" $work/block $work/mended '20, chosen memory: 03 -> 00'
    poke $good 21 81 >$work/block
    poke $good 21 00 22 00 >$work/mended
    mends "$version version: a command latch of 81" $work/block $work/mended '21, command latch (flag): 81 -> 00' '22, command latch (byte): 12 -> 00'
    poke $good 23 00 >$work/block
    poke $good 23 00 24 00 >$work/mended
    mends "$version version: a byte under an empty palette latch" $work/block $work/mended '24, palette latch (byte): F0 -> 00'
    poke $good 26 FF >$work/block
    mends "$version version: a dirty flag of FF, with the palette's colours" $work/block $good '26, dirty flag: FF -> 00'
    poke $good 26 FF 90 01 >$work/block
    poke $good 26 01 90 01 >$work/mended
    mends "$version version: a dirty flag of FF, with other colours" $work/block $work/mended '26, dirty flag: FF -> 01'
    poke $good 26 01 90 01 >$work/block
    mends "$version version: other colours that are dirty" $work/block $work/block
    for at in 27 90 91 94 215 218; do
        poke $good $at 0E >$work/block
        poke $good $at 0E 26 01 >$work/mended
        mends "$version version: byte $at, of the palette or the clean colours" $work/block $work/mended '26, dirty flag: 00 -> 01'
    done
    # All that has no wrong value stays.
    poke $good 2 FF 3 FF 13 FF 14 FF 16 00 17 FF 19 FF 25 FF >$work/block
    mends "$version version: status, registers, counter, line count, read buffer and scroll stay" $work/block $work/block
done
poke $work/second 1 53 >$work/block
mends "220 bytes with the mark of the first version" $work/block $work/second '1, mark: 53 -> 54'
poke $work/first 1 54 >$work/block
mends "219 bytes with the mark of the second version" $work/block $work/first '1, mark: 54 -> 53'
poke $work/second 219 02 >$work/block
poke $work/second 219 00 >$work/mended
mends "a table of 2" $work/block $work/mended '219, table: 02 -> 00'

# Other lengths.
printf 'bad\n' >$work/bad
for size in 0 1 218 221 222 1000; do
    head -c $size /dev/zero >$work/block
    mends "$size bytes" $work/block $work/bad
done
mends 'input without an end' /dev/zero $work/bad
{ head -c 100 $work/second; sleep 0.2; tail -c 120 $work/second; } | build/bin/repair | cmp $work/second -
tell 'a block in small pieces' $?

# The block of docs/SAVES.md, and the lines that stand there.
build/bin/repair tests/programs/repair.block >$work/written 2>$work/told
[ $? -eq 1 ] && cmp tests/programs/repair.mended $work/written && grep '^repair: byte ' docs/SAVES.md | cmp - $work/told
tell 'the block of docs/SAVES.md' $?

# What cannot be told does not keep the block back.
build/bin/repair tests/programs/repair.block 2>&- | cmp tests/programs/repair.mended -
tell 'standard error closed' $?
# What cannot be written has not changed.
build/bin/repair tests/programs/repair.block >/dev/full 2>$work/told
[ $? -eq 1 ] && echo 'repair: standard output: No space left on device' | cmp - $work/told
tell 'a mended block that cannot be written: that is told, and no byte of it' $?

# Beside the rules written a second time.
sh oracle/build.sh repair
tell 'the second writing is built' $?
$RUN build/oracle/repair write "${BLOCKS:-100}" "${SEED:-1}" $work/random
status=$?
for block in $work/random/*.block; do
    build/bin/repair <"$block" >$work/written 2>$work/told
    ended=$? due=$(status_due "${block%.block}.mended")
    [ ! -s "${block%.block}.told" ] || due=1
    [ $ended -eq $due ] && cmp "${block%.block}.mended" $work/written && cmp "${block%.block}.told" $work/told || status=1
done
tell "${BLOCKS:-100} random blocks" $status

total
