#!/usr/bin/env bash
# tiles.sh: build/bin/sheet on sheets of every size around its limits, the two calls on tiles beside the rules written a second time, and a drawing that
# goes by the sheet, the ports and the picture back to its own pixels.
. "$(dirname "$0")/begin.sh"
needs build

# writes NAME SHEET TILES: of the file SHEET the program writes the file TILES.
writes() {
    build/bin/sheet < "$2" > $work/written
    [ $? -eq "$(status_due "$3")" ] && cmp "$3" $work/written
    tell "$1" $?
}
# codes N CODE: N bytes of this code, as printf takes it.
codes() { head -c "$1" /dev/zero | tr '\000' "$2"; }
# zeros N: N zero bytes.
zeros() { head -c "$1" /dev/zero; }

printf 'bad\n' > $work/bad

# By hand: the leftmost pixel is bit 7, byte 0 of a line has the lowest bit of its codes, a line has four bytes.
codes 64 '\017' > $work/sheet
zeros 32 | tr '\000' '\377' > $work/tiles
writes '1 tile, all of code 15' $work/sheet $work/tiles
{ printf '\001'; zeros 63; } > $work/sheet
{ printf '\200'; zeros 31; } > $work/tiles
writes '1 tile, code 1 at its first pixel' $work/sheet $work/tiles
{ zeros 63; printf '\010'; } > $work/sheet
{ zeros 31; printf '\001'; } > $work/tiles
writes '1 tile, code 8 at its last pixel' $work/sheet $work/tiles
{ zeros 17; printf '\006'; zeros 46; } > $work/sheet
{ zeros 9; printf '\100\100'; zeros 21; } > $work/tiles
writes '1 tile, code 6 at line 2, pixel 1' $work/sheet $work/tiles
{ zeros 64; codes 64 '\004'; } > $work/sheet
{ zeros 32; printf '\0\0\377\0\0\0\377\0\0\0\377\0\0\0\377\0\0\0\377\0\0\0\377\0\0\0\377\0\0\0\377\0'; } > $work/tiles
writes '2 tiles, the second of code 4' $work/sheet $work/tiles

writes '2 tiles, with every code' tests/programs/sheet.sheet tests/programs/sheet.tiles

# At the limits.
codes 16384 '\017' > $work/sheet
zeros 8192 | tr '\000' '\377' > $work/tiles
writes '256 tiles' $work/sheet $work/tiles
for size in 0 1 63 65 127 129 16383 16385 16512 200000; do
    zeros $size > $work/sheet
    writes "$size bytes" $work/sheet $work/bad
done
zeros 16448 > $work/sheet
writes '257 tiles' $work/sheet $work/bad
zeros 16320 > $work/sheet
zeros 8160 > $work/tiles
writes '255 tiles' $work/sheet $work/tiles
{ zeros 63; printf '\020'; } > $work/sheet
writes 'code 16 in the last byte of 1 tile' $work/sheet $work/bad
{ zeros 16383; printf '\020'; } > $work/sheet
writes 'code 16 in the last byte of 256 tiles' $work/sheet $work/bad
{ printf '\020'; zeros 16383; } > $work/sheet
writes 'code 16 in the first byte of 256 tiles' $work/sheet $work/bad
{ zeros 64; printf '\377'; zeros 63; } > $work/sheet
writes 'code 255 in the second of 2 tiles' $work/sheet $work/bad
writes 'input without an end' /dev/zero $work/bad
zeros 20000 > $work/sheet
[ "$({ build/bin/sheet > /dev/null; wc -c; } < $work/sheet | tr -d ' ')" = 3615 ]
tell 'of 20,000 bytes 16,385 are read' $?
zeros 32 > $work/tiles
{ zeros 1; sleep 0.2; zeros 40; sleep 0.2; zeros 23; } | build/bin/sheet | cmp $work/tiles -
tell 'a sheet in small pieces' $?

# Beside the rules written a second time: random sheets, and the two calls.
sh oracle/build.sh tiles
tell 'the second writing is built' $?
rm -rf $work/random
$RUN build/oracle/tiles write "${SHEETS:-60}" "${SEED:-1}" $work/random
status=$?
for sheet in $work/random/*.sheet; do
    build/bin/sheet < "$sheet" | cmp "${sheet%.sheet}.tiles" - || status=1
done
tell "${SHEETS:-60} random sheets" $status
$RUN build/oracle/tiles calls "${TILE_CALLS:-20000}" "${SEED:-1}"
tell 'both calls: every length, number and code around the limits, every tile, both ways round' $?

# A drawing: from a picture to a sheet, to tiles, by the ports to video memory, and by the snapshot to a picture again, pixel for pixel.
if command -v python3 > /dev/null; then
    python3 tests/tiles/drawing.py > $work/drawing.ppm &&
        python3 tools/ppm2sheet.py $work/drawing.palette < $work/drawing.ppm > $work/drawing.sheet &&
        build/bin/sheet < $work/drawing.sheet > $work/drawing.tiles &&
        python3 tools/tiles2trace.py 16 $work/drawing.palette < $work/drawing.tiles > $work/drawing.trace &&
        build/bin/snapshot < $work/drawing.trace > $work/shown.ppm
    tell 'a drawing of 256 tiles is converted and shown' $?
    # row FILE HEADER WIDTH X Y: 128 pixels of a picture's row Y from column X on
    row() { tail -c +$(($2 + 3 * ($3 * $5 + $4) + 1)) "$1" | head -c 384; }
    status=0
    for y in $(seq 0 127); do
        cmp <(row $work/drawing.ppm 15 128 0 "$y") <(row $work/shown.ppm 15 160 16 $((8 + y))) || status=1
    done
    tell 'the picture shows the drawing, pixel for pixel' $status
    python3 tools/ppm2png.py < $work/drawing.ppm | python3 tools/ppm2sheet.py | cmp - $work/drawing.sheet
    tell 'the same sheet from the drawing as PNG' $?
else
    skip 'a drawing as PNG' 'no python3 here'
fi

total
