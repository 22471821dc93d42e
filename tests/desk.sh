#!/usr/bin/env bash
# desk.sh: the authors' desk: every subcommand, its errors with their statuses, scripts to traces and back, its pictures beside those of the programs and
# of docs, what it tells of pixels beside the frame that snapshot draws, and the pages docs/DESK.md and README.md, whose commands are run again.
. "$(dirname "$0")/begin.sh"
if ! command -v python3 >/dev/null; then
    skip 'the desk' 'no python3 here'
    total
    exit
fi
needs build desk
work=$PWD/$work
desk=$PWD/build/bin/desk

# run WORDS..: the desk with these words; what it says is in out and err.
run() {
    "$desk" "$@" >"$work/out" 2>"$work/err"
    status=$?
}
# says NAME STATUS LINE WORDS..: the desk says this one line on standard error, nothing on standard output, and ends with this status.
says() {
    local name=$1 wanted=$2 line=$3
    shift 3
    run "$@"
    [ "$status" -eq "$wanted" ] && [ ! -s "$work/out" ] && printf '%s\n' "$line" | cmp - "$work/err"
    tell "$name" $?
}
# try NAME PROGRAM..: a test program ends well; its last line is told.
try() {
    local name=$1 said
    shift
    said=$("$@" 2>&1)
    status=$?
    [ "$status" -eq 0 ] || printf '%s\n' "$said"
    tell "$name: $(tail -n 1 <<<"$said")" "$status"
}

# Scripts to traces.
try 'each statement makes its records' python3 tests/desk/statements.py
try 'wrong scripts are told by line and column, and nothing is written' python3 tests/desk/wrong_scripts.py "$work/wrong"
for both in 'docs/scripts/split-new.desk split90 --without display' 'tests/desk/layers.desk layers'; do
    read -r script name options <<<"$both"
    run make "$script" $options -o "$work/made.trace"
    [ "$status" -eq 0 ] && [ ! -s "$work/err" ] && grep -q ' bytes, .* records, 262 steps among them$' "$work/out" && cmp "$work/made.trace" "tests/traces/$name.trace"
    tell "$script $options makes tests/traces/$name.trace" $?
done
"$desk" make - -o - <tests/desk/layers.desk 2>/dev/null | cmp - tests/traces/layers.trace
tell 'a script on standard input, a trace to standard output' $?
mkdir "$work/a folder"
cp docs/scripts/split-new.desk "$work/a folder/a script.desk"
(cd "$work/a folder" && "$desk" make 'a script.desk' --without display -o 'a trace' >/dev/null) && cmp "$work/a folder/a trace" tests/traces/split90.trace
tell 'names with spaces, from another folder' $?
# What a script includes is looked for beside it, and so are its pictures.
mkdir "$work/a folder/parts"
python3 tests/tiles/drawing.py | python3 tools/ppm2png.py >"$work/a folder/parts/drawing.png"
printf 'palette 0 = drawing.png\ntile 5 = drawing.png 17\n' >"$work/a folder/parts/part.desk"
printf 'include "parts/part.desk"\nsteps 1\n' >"$work/a folder/whole.desk"
printf 'palette 0 = parts/drawing.png\ntile 5 = parts/drawing.png 17\nsteps 1\n' >"$work/a folder/alone.desk"
"$desk" make "$work/a folder/whole.desk" -o "$work/whole.trace" >/dev/null && "$desk" make - -o "$work/alone.trace" >/dev/null <<<"include \"$work/a folder/alone.desk\"" && cmp "$work/whole.trace" "$work/alone.trace"
tell 'scripts in scripts, each with files beside it' $?
printf 'include "parts/part.desk"\n  foo\n' >"$work/a folder/whole.desk"
printf '\nreg 11 = 00\n' >"$work/a folder/parts/part.desk"
run make "$work/a folder/whole.desk" -o "$work/none"
[ "$status" -eq 1 ] && [ "$(sed 's/: .*//' "$work/err")" = "$work/a folder/parts/part.desk:2:5
$work/a folder/whole.desk:2:3" ]
tell 'errors in either are told by its own line' $?
says 'a label that there is not' 1 "desk: docs/scripts/split-new.desk: no line has the label \`other\`; labels there are: display" make docs/scripts/split-new.desk --without other -o "$work/none"
says 'a trace has no labels' 1 'desk: tests/traces/p1.trace: --without goes with a script, whose name ends in .desk: a trace has no labels' list tests/traces/p1.trace --without other
printf 'steps 1\n\xff\n' >"$work/bytes.desk"
says 'a script that is no text' 1 "$work/bytes.desk:2:1: byte FF is no text (UTF-8)" make "$work/bytes.desk" -o "$work/none"
for _ in $(seq 30); do echo foo; done >"$work/many.desk"
run make "$work/many.desk" -o "$work/none"
[ "$status" -eq 1 ] && [ "$(wc -l <"$work/err")" -eq 21 ] && [ ! -e "$work/none" ]
tell 'of many errors twenty are told' $?

# Notes to an author: what is set and is not seen.
# notes NAME TEXT SCRIPT: of this script, all else fine, the desk says so, or nothing.
notes() {
    printf "$3" >"$work/noted.desk"
    run make "$work/noted.desk" -o "$work/noted.trace"
    [ "$status" -eq 0 ] && printf "$2" | cmp - "$work/err"
    tell "$1" $?
}
notes 'a sprite whose tile nothing has written, beside one that something has' "desk: note: $work/noted.desk:2: sprite 0 shows tile 257 at 2020 (register 6 has bit 2), which nothing has written; what was written is tile 1 at 0020\n" \
    'tile 1 = 11111111 times 8\nsprite 0 = 36 40 1\nsprite 1 end\npass\n'
notes 'none where the tile is written' '' 'tile 1 = 11111111 times 8\nsprite 0 = 36 40 1\ntile 257 = 00000000 times 8\nsprite 1 end\npass\n'
notes 'none where register 6 has no bit 2' '' 'reg 6 = FB\ntile 1 = 11111111 times 8\nsprite 0 = 36 40 1\nsprite 1 end\npass\n'
notes 'none where the sprite is off the screen, behind the end of the list, or on no row that is drawn' '' \
    'tile 1 = 11111111 times 8\nsprite 0 = 160 40 1\nsprite 1 = 8 -8 1\nsprite 2 end\nsprite 3 = 8 8 1\npass\nsprite 0 = 8 100 1\nsteps 60\nsprite 0 end\npass\n'
notes 'the other way round, of sprites 16 high' "desk: note: $work/noted.desk:3: sprite 0 shows tile 4 at 0080 (register 6 has no bit 2), which nothing has written; what was written is tile 260 at 2080\n" \
    'reg 6 = FB\nreg 1 = 42\nsprite 0 = 36 40 5\ntile 261 = 11111111 times 8\nsprite 1 end\npass\n'
lost='the screen shows nothing of this part of the map: where nothing scrolls it has the map'"'"'s columns 6 to 25, rows 3 to 20, and `map screen 0 0` is its upper left corner'
notes 'a place of the map that the screen does not show' "desk: note: $work/noted.desk:2: $lost\n" 'map 6 3 = 1\nmap 0 0 = 1\nmap screen 0 0 = 1\nmap 0 3 = 1 times 7\nsprite 0 end\npass\n'
notes 'none where scroll brings it in, or where nothing is drawn' '' 'map 5 20 = 1\nmap 6 21 = 1\nreg 8 = 01\nreg 9 = 01\nsprite 0 end\npasses 2\n'
notes 'and of many the first three' "$(for n in 1 2 3; do printf "desk: note: $work/noted.desk:$n: $lost\\\\n"; done)desk: note: 2 more like the last one\n" 'map 0 0 = 1\nmap 1 0 = 1\nmap 2 0 = 1\nmap 3 0 = 1\nmap 4 0 = 1\nsprite 0 end\npass\n'
notes 'of the home machine' "desk: note: $work/noted.desk:2: ${lost/columns 6 to 25, rows 3 to 20/columns 0 to 31, rows 0 to 23}\n" 'home\nmap 0 24 = 1\nmap 0 0 = 1\nsprite 0 end\npass\n'
# And where a frame ends with the display off.
printf 'reg 1 = 40\npass\nreg 1 = 00\npasses 2\nreg 1 = 40\npass\nreg 1 = 00\nsteps 100\n' >"$work/off.desk"
printf 'home\nreg 1 = 40\nuntil line 255\nreg 1 = 00\npass\n' >"$work/home-off.desk"
off='desk: note: frames 2 to 3 end with the display off; a player shows nothing new'
for command in "show -o $work/off.png" list "differ $work/off.desk" "differ $work/off.desk -o $work/off.png --frame 1"; do
    read -r word rest <<<"$command"
    run $word "$work/off.desk" $rest
    case $command in *'--frame 1') expected= ;; *) expected=$off ;; esac
    [ "$status" -eq 0 ] && [ "$(cat "$work/err")" = "$expected" ]
    tell "$command: frames that end with the display off" $?
done
for word in "show -o $work/off.png" list; do
    run ${word%% *} "$work/home-off.desk" --home ${word#"${word%% *}"}
    [ "$status" -eq 0 ] && [ "$(cat "$work/err")" = 'desk: note: frame 2 ends with the display off; a player shows nothing new' ]
    tell "$word --home: a frame that ends with the display off" $?
done
status=0
for script in docs/scripts/*.desk; do
    home=
    grep -q '^home$\|home-scene' $script && home=--home
    run list $script $home
    [ "$status" -eq 0 ] && [ ! -s "$work/err" ] || { echo "$script: $(cat "$work/err")"; status=1; break; }
done
tell 'the scripts of docs need no note' $status

# Pictures as tiles.
try 'PNGs of every kind, depth and filter become tiles, and damaged ones are told' python3 tests/desk/pngs.py "$work/png"
# A whole drawing by its own colours: the picture that docs shows.
{
    echo 'palette 0 = drawing.png'
    echo 'tile 0 = drawing.png'
    echo 'map 0 0 = 256 times 896'
    for n in $(seq 0 255); do echo "map $((8 + n % 16)) $((4 + n / 16)) = $n"; done
    echo pass
} >"$work/drawing.desk"
python3 tests/tiles/drawing.py | python3 tools/ppm2png.py >"$work/drawing.png"
run show "$work/drawing.desk" --scale 2 -o "$work/shown.png"
[ "$status" -eq 0 ] && python3 tests/desk/same.py "$work/shown.png" docs/tiles.png
tell 'a drawing of 256 tiles is shown as docs/tiles.png has it' $?

# Traces to scripts.
python3 tests/desk/random_traces.py 4 "${SEED:-1}" "$work/random"
"$desk" make tests/desk/corners.desk -o "$work/random/corners.trace" >/dev/null
texts= frames=
for trace in tests/traces/*.trace; do texts="$texts $trace ${trace%.trace}.text"; done
for trace in build/test/desk/random/*.trace; do
    build/bin/trace "$trace" >"${trace%.trace}.text"
    build/bin/snapshot "$trace" >"${trace%.trace}.ppm"
    texts="$texts $trace ${trace%.trace}.text" frames="$frames $trace ${trace%.trace}.ppm"
done
try 'listings, word for word' python3 tests/desk/listed.py
try 'sprites and places of the map are where the desk says' python3 tests/desk/places.py
try 'listings make their traces again, and say of each record what trace prints' python3 tests/desk/round.py $texts
run list tests/traces/sprites.trace
cp "$work/out" "$work/listing.desk"
[ "$status" -eq 0 ] && [ ! -s "$work/err" ] && "$desk" make "$work/listing.desk" -o - 2>/dev/null | cmp - tests/traces/sprites.trace
tell 'a listing by the command makes its trace again' $?
# Damaged traces: the offset is that of trace's bad line, and what stands before it is listed.
status=0
for end in 'XX\000\000LS\000' 'LS\377LS\000' 'PW\277' 'P'; do
    printf "PR~$end" >"$work/damaged"
    at=$(build/bin/trace "$work/damaged" | sed -n 's/^bad //p')
    "$desk" list "$work/damaged" >"$work/out" 2>"$work/err"
    [ $? -eq 1 ] && [ "$(wc -l <"$work/out")" -eq 2 ] && [ "$(wc -l <"$work/err")" -eq 1 ] && grep -q "^desk: $work/damaged: byte $at, record 2: " "$work/err" || status=1
done
tell 'damaged traces are told by the byte, as trace tells it' $status
for command in show tiles; do
    says "$command: a damaged trace, and nothing is written" 1 "desk: $work/damaged: byte 3, record 2: the record is cut: the trace ends in it" $command "$work/damaged" -o "$work/none"
done
[ ! -e "$work/none" ]
tell 'nothing was written' $?

# Pictures, byte for byte: those of the programs, and those of docs.
for trace in tests/traces/sprites tests/traces/areas tests/traces/late tests/traces/empty build/test/desk/random/random-0 build/test/desk/random/random-1; do
    run show $trace.trace --area 0 --check -o "$work/shown.png"
    [ "$status" -eq 0 ] && grep -qx 'checked: `snapshot` draws the same' "$work/out"
    tell "$trace: the last frame is the picture of snapshot" $?
done
run show build/test/desk/random/random-0.trace --layers --check -o "$work/shown.png"
[ "$status" -eq 0 ] && grep -qx 'checked: `layers` draws the same' "$work/out"
tell 'and by layers that of layers' $?
build/bin/snapshot tests/traces/split90.trace | python3 tools/ppm2png.py 2 >"$work/program.png"
"$desk" show tests/traces/split90.trace --scale 2 -o "$work/shown.png" >/dev/null && cmp "$work/program.png" "$work/shown.png"
tell 'split90: the file of snapshot and ppm2png.py' $?
# By layers in colours of its own, with a legend below; those of the program are what --check holds it to.
try 'the colours of layers' python3 tests/desk/layer_colours.py
run show tests/traces/layers.trace --layers --check -o "$work/shown.png"
[ "$status" -eq 0 ] && grep -qx 'checked: `layers` draws the same' "$work/out" &&
    python3 tests/desk/at.py "$work/shown.png" 0,0=32,32,32 65,24=255,0,255 27,24=204,255,153 0,144=64,64,64 3,147=32,32,32 7,147=32,32,32 8,147=24,24,24 11,147=224,224,224
tell 'layers in colours that the eye tells apart, with a legend' $?
build/bin/snapshot-261 tests/traces/late.trace | python3 tools/ppm2png.py >"$work/program.png"
"$desk" show tests/traces/late.trace --table 0 --frame 2 -o "$work/shown.png" >/dev/null && cmp "$work/program.png" "$work/shown.png"
tell 'table 0: that of snapshot-261' $?
for both in split-new:split90.png layers:layers-picture.png; do
    script=docs/scripts/${both%:*}.desk
    [ -e "$script" ] || script=tests/desk/${both%:*}.desk
    "$desk" show "$script" --scale 2 -o "$work/shown.png" >/dev/null && python3 tests/desk/same.py "$work/shown.png" "docs/${both#*:}"
    tell "$script shows docs/${both#*:}" $?
done
# damaged SED FILE: a copy of the desk with this file changed so.
damaged() {
    rm -rf "$work/copy"
    mkdir "$work/copy"
    cp -r desk include "$work/copy/"
    ln -s "$PWD/build" "$work/copy/build"
    sed "$1" "desk/$2" >"$work/copy/desk/$2"
    ! cmp -s "desk/$2" "$work/copy/desk/$2"
}
damaged 's/data\[part::3\] = pixels\[part::4\]/data[part::3] = pixels[2 - part::4]/' pictures.py && "$work/copy/desk/desk" show docs/scripts/split-new.desk --check -o "$work/none" >"$work/out" 2>"$work/err"
[ $? -eq 1 ] && grep -q '^desk: THE PICTURE OF `snapshot` IS ANOTHER' "$work/err" && [ ! -e "$work/none" ]
tell '--check catches a picture that is another' $?
run show docs/scripts/flicker.desk -o "$work/two.png"
[ "$status" -eq 0 ] && [ "$(cat "$work/out")" = "$work/two.png: 2 frames of 160 x 144, row by row" ] && [ "$(od -An -tx1 -j16 -N8 "$work/two.png" | tr -d ' ')" = 0000014400000090 ]
tell 'two frames are one sheet' $?
run show docs/scripts/flicker.desk --grid --frame 2 --scale 3 -o "$work/grid.png"
[ "$status" -eq 0 ] && [ "$(od -An -tx1 -j16 -N8 "$work/grid.png" | tr -d ' ')" = "$(printf '%08x%08x' $((160 * 3 + 19)) $((144 * 3 + 17)))" ]
tell 'a grid has a line between any two tiles' $?
# Rulers: what is written beside the picture covers no pixel of it, and the marks stand at rows and columns.
status_rulers=0
for scale in 1 2 3; do
    zoom=$((scale < 2 ? 1 : 2))
    side=$((16 * zoom + 3)) top=$((14 * zoom + 3))
    "$desk" show docs/scripts/split-new.desk --rulers --scale $scale -o "$work/ruled.png" >/dev/null &&
        [ "$(od -An -tx1 -j16 -N8 "$work/ruled.png" | tr -d ' ')" = "$(printf '%08x%08x' $((160 * scale + 2 * side)) $((144 * scale + top + zoom)))" ] &&
        python3 tests/desk/at.py "$work/ruled.png" $side,$top=102,102,102 $side,$((top + scale))=255,0,0 $((side + 160 * scale - 1)),$((top + 67 * scale))=0,0,255 $side,$((top + 67 * scale - 1))=255,0,0 \
            $((side - 1)),$((top + 64 * scale))=128,128,128 $((side - 1)),$((top + 64 * scale + 1))=24,24,24 $((side + 160 * scale)),$((top + 136 * scale))=128,128,128 $((side + 152 * scale)),$((top - 1))=128,128,128 || status_rulers=1
done
tell 'rulers stand beside the picture, at every scale' $status_rulers
try 'what they say, letter by letter' python3 tests/desk/rulers.py
run show tests/traces/areas.trace --area 1 -o "$work/effective.png"
[ "$status" -eq 0 ] && grep -q '256 x 224' "$work/out"
tell 'steps of the effective area are shown where they are asked for' $?
{ echo 'vram 0 = FF times 16384'; echo 'passes 40'; } >"$work/long.desk"
run make "$work/long.desk" -o "$work/long.trace"
[ "$status" -eq 0 ] && grep -q '^desk: note: the trace has 96,984 bytes\. The programs trace, snapshot and layers take at most 65,535; the desk, .* has no limit$' "$work/err"
tell 'a trace that is too long for the programs is made, and the desk says so' $?
says 'which --check tells too' 1 'desk: the trace has 96,984 bytes, and `snapshot` takes at most 65,535' show "$work/long.trace" --check -o "$work/none"
run show "$work/long.trace" --progress -o "$work/long.png"
[ "$status" -eq 0 ] && grep -q '40 frames' "$work/out" && grep -q '^desk: 0 of 26,866 records$' "$work/err" && grep -qx 'desk: 26,866 of 26,866 records' "$work/err"
tell 'and shown, with progress' $?
says 'a picture that is too large' 1 'desk: a picture of 160,000 x 144,000 is too large: a smaller --scale, or one --frame' show tests/traces/split90.trace --scale 1000 -o "$work/none"

# What differs.
run differ docs/scripts/split-old.desk docs/scripts/split-new.desk -o "$work/differ.png"
[ "$status" -eq 0 ] && head -n 1 "$work/out" | grep -q '^10,880 of 23,040 pixels differ, in rows 67 to 143 '
tell "the author's question: rows 67 to 143" $?
python3 tests/desk/at.py "$work/differ.png" 0,66=85,0,0 159,66=85,0,0 0,67=255,0,255 159,71=255,0,255 0,72=34,34,34 159,143=255,0,255
tell 'the changed pixels are marked, and no others' $?
run differ docs/scripts/split-new.desk docs/scripts/split-new.desk -o "$work/same.png"
[ "$status" -eq 0 ] && head -n 1 "$work/out" | grep -qx 'no pixel differs' && [ -s "$work/same.png" ]
tell 'two that are the same' $?
printf 'colour 0 = 0F 00\nsteps 100\n' >"$work/one.desk"
printf 'steps 99\ncolour 0 = 0F 00\nsteps 1\n' >"$work/other.desk"
run differ "$work/one.desk" "$work/other.desk"
[ "$status" -eq 0 ] && head -n 1 "$work/out" | grep -qx '12,160 of 23,040 pixels differ, in rows 0 to 75'
tell 'one that begins late' $?
run differ docs/scripts/flicker.desk docs/scripts/split-new.desk
[ "$status" -eq 0 ] && grep -q '^desk: note: .* has 2 frames, .* 1 frame: those that both have are compared$' "$work/err"
tell 'another number of frames is told' $?

says 'differ of one' 1 'desk differ: a second trace is missing, or --without LABEL (--help tells more)' differ docs/scripts/split-old.desk
says 'differ of two, and a label' 1 'desk differ: two traces, or one script and --without LABEL, but not both' differ docs/scripts/split-old.desk docs/scripts/split-new.desk --without display
"$desk" differ docs/scripts/write-colour.desk --without write --brief >"$work/out" 2>"$work/err"
[ $? -eq 0 ] && [ ! -s "$work/err" ] && [ "$(cat "$work/out")" = 'frame 1: 12,320 of 23,040 pixels differ, in rows 67 to 143
frame 2: 23,040 of 23,040 pixels differ, in rows 0 to 143' ]
tell 'differ --without: one script, without its marked line and with it' $?
run differ docs/scripts/flicker.desk --layers docs/scripts/split-new.desk
[ "$status" -eq 0 ] && grep -qx '  first: row 40, column 2: A has sprite 0; B has background' "$work/out"
tell 'differ --layers: in words, which layers' $?

# Interrupts.
run interrupts docs/scripts/write-count.desk
[ "$status" -eq 0 ] && [ ! -s "$work/err" ] && [ "$(cat "$work/out")" = 'frame 1: lines 1, 33, 65, 97, 129, 161, 193
frame 2: lines 30, 62, 94, 110, 126, 142, 158, 174, 190' ]
tell 'interrupts: the lines of each frame' $?
printf 'reg 0 = 10\nreg 1 = 60\nreg 10 = FE\nsprite 0 end\npass\nreg 10 = 00\nsteps 1\nread BF\nuntil line 255\n' >"$work/interrupts.desk"
run interrupts "$work/interrupts.desk"
[ "$status" -eq 0 ] && [ "$(cat "$work/out")" = 'frame 1: lines 1, 193 to 218, 213 to 255
frame 2: lines 0 to 1, 193 to 218, 213 to 255' ]
tell 'interrupts: until the status is read' $?
{ echo home; cat "$work/interrupts.desk"; } >"$work/home-interrupts.desk"
cp "$work/out" "$work/expected"
run interrupts "$work/home-interrupts.desk" --home
[ "$status" -eq 0 ] && cmp "$work/expected" "$work/out"
tell 'interrupts --home: the same' $?
run interrupts tests/traces/p1.trace
[ "$status" -eq 0 ] && [ "$(cat "$work/out")" = 'frame 1: none' ]
tell 'interrupts: none' $?

# Pixels and sprites.
try 'every pixel of some rows is that of the frame that snapshot draws' python3 tests/desk/pixels.py 5 $frames
run pixel docs/scripts/split-new.desk 66 0
[ "$status" -eq 0 ] && grep -qx '  bytes   FF 00 00 FF: red 255, green 0, blue 0' "$work/out" && grep -qx '  colour  3: palette 0, code 3' "$work/out"
tell 'pixel: the last row with the old colour' $?
run pixel docs/scripts/split-new.desk 66 0 --now
[ "$status" -eq 0 ] && grep -qx '  bytes   00 00 FF FF: red 0, green 0, blue 255' "$work/out"
tell 'pixel --now: the same with the colour at the end of the trace' $?
printf 'passes 2\nsteps 90\n' >"$work/cut.desk"
says 'pixel: of a frame that has not drawn the row it says so' 1 "desk: $work/cut.desk: frame 3 has not drawn row 67" pixel "$work/cut.desk" 67 0 --frame 3
run pixel "$work/cut.desk" 67 0
[ "$status" -eq 0 ] && head -n 1 "$work/out" | grep -q ', as frame 2 of 3 drew it at line 91$'
tell 'pixel: where the last frame is cut, the one before it' $?
run pixel tests/traces/p1.trace 143 159
[ "$status" -eq 0 ] && head -n 1 "$work/out" | grep -q 'which the trace has not drawn'
tell 'pixel: of a row that was not drawn it says so' $?
run sprites tests/traces/sprites.trace 76
[ "$status" -eq 0 ] && grep -q '^      9       8 .* NINTH: not laid, and sets status bit 6$' "$work/out" && grep -q 'status bit 5 is set$' "$work/out"
tell 'sprites: the ninth is marked' $?
run sprites docs/scripts/flicker.desk --frame 1
[ "$status" -eq 0 ] && grep -qx '  rows 40 to 47    0 1 2 3 4 5 6 7 | NINTH 8, then 9: not laid' "$work/out"
tell 'sprites with no row: every row' $?
run sprites docs/scripts/flicker.desk --sprite 8 --frame 1
[ "$status" -eq 0 ] && grep -qx '  rows 40 to 47    sprite 8 is number 9 of 10, before it 0 1 2 3 4 5 6 7: NINTH, not laid' "$work/out"
tell 'sprites --sprite: its rows and its place' $?
# Reasons that are wrong are caught: a copy of the desk whose rules are damaged.
for damage in 's/MOST = 8 /MOST = 9 /' 's/in self\.front:/in ():/' 's/40 < byte < 208/40 < byte < 200/' 's/min(160 - x, 8)/8/' 's/elif place in mask:/elif False:/' 's/(x - self.cut) % 256/x/'; do
    caught=1
    damaged "$damage" rules.py && "$work/copy/desk/desk" sprites tests/desk/corners.desk >"$work/out" 2>"$work/err"
    [ $? -eq 1 ] && grep -q "^desk: THE DESK'S REASONS DISAGREE WITH THE LIBRARY" "$work/err" && [ ! -s "$work/out" ] && caught=0
    tell "wrong reasons are caught: $damage" $caught
done

# Tiles and colours.
run tiles tests/traces/layers.trace -o "$work/tiles.png"
[ "$status" -eq 0 ] && [ ! -s "$work/err" ] && [ "$(od -An -tx1 -j16 -N8 "$work/tiles.png" | tr -d ' ')" = 0000008000000100 ]
tell 'tiles: the sheet of 128 x 256' $?
python3 tests/desk/at.py "$work/tiles.png" 0,0=34,34,85 7,0=34,34,85 8,0=136,102,51 15,7=136,102,51 16,0=34,34,85 0,128=0,0,0 2,128=255,221,34 7,131=255,221,34
tell 'tiles: background above, sprites below' $?
{ cat docs/scripts/split-new.desk; echo 'colour 3 = F0 00'; } >"$work/dirty.desk"
run tiles "$work/dirty.desk" -o "$work/before.png"
[ "$status" -eq 0 ] && grep -q '^desk: note: the palette has changed since the last row was drawn, ' "$work/err"
tell 'tiles: colours from before are told' $?
run tiles "$work/dirty.desk" --fresh -o "$work/fresh.png"
[ "$status" -eq 0 ] && [ ! -s "$work/err" ] && ! python3 tests/desk/same.py "$work/before.png" "$work/fresh.png" 2>/dev/null
tell 'tiles --fresh: with the colours as they are' $?
run palette tests/traces/layers.trace
[ "$status" -eq 0 ] && [ "$(wc -l <"$work/out")" -eq 32 ] && grep -qx 'colour 18 = DF 02  # red 255, green 221, blue  34' "$work/out" &&
    "$desk" make - -o - <"$work/out" 2>/dev/null | cmp -s - <("$desk" make - -o - 2>/dev/null < <(cut -d'#' -f1 "$work/out"))
tell 'palette: the 32 colours, as a script takes them' $?
run palette tests/traces/layers.trace -o "$work/palette.png" --scale 4
[ "$status" -eq 0 ] && python3 tests/desk/at.py "$work/palette.png" 0,0=34,34,85 4,0=136,102,51 8,3=0,0,0 8,4=255,221,34 11,7=255,221,34 12,7=0,0,0
tell 'palette: its picture' $?

# The home machine: its frames are what home-snapshot draws up to the end of each pass.
fill=docs/scripts/home-fill.desk
"$desk" make $fill -o "$work/fill.trace" >/dev/null
for frame in 1 2; do
    # behind the first pass stand 192 steps and a read
    head -c "$(($(wc -c <"$work/fill.trace") - (2 - frame) * 579))" "$work/fill.trace" | build/bin/home-snapshot | python3 tools/ppm2png.py 2 >"$work/program.png"
    run show "$work/fill.trace" --home --frame $frame --scale 2 -o "$work/shown.png"
    [ "$status" -eq 0 ] && [ ! -s "$work/err" ] && [ "$(cat "$work/out")" = "$work/shown.png: frame $frame of 2, 256 x 192, scale 2, on the home machine" ] && cmp "$work/program.png" "$work/shown.png"
    tell "show --home: frame $frame is the file of home-snapshot and ppm2png.py" $?
done
python3 tests/desk/same.py "$work/shown.png" docs/home-fill.png
tell 'show --home: and docs/home-fill.png' $?
python3 tests/desk/random_traces.py 2 "${SEED:-1}" "$work/home" home
"$desk" make tests/desk/home-corners.desk -o "$work/home/corners.trace" >/dev/null
cp "$work/fill.trace" tests/traces/refusals.trace tests/traces/interrupts.trace "$work/home/"
texts= frames=
for trace in build/test/desk/home/*.trace; do
    build/bin/home-trace "$trace" >"${trace%.trace}.text"
    build/bin/home-snapshot "$trace" >"${trace%.trace}.ppm"
    texts="$texts $trace ${trace%.trace}.text" frames="$frames $trace ${trace%.trace}.ppm"
    run show "$trace" --home --check --layers -o "$work/shown.png"
    [ "$status" -eq 1 ] && [ "$(cat "$work/err")" = "desk show: --check: no program draws the home machine's layers" ] && run show "$trace" --home --check -o "$work/shown.png" &&
        [ "$status" -eq 0 ] && grep -qx 'checked: `home-snapshot` draws the same' "$work/out"
    tell "show --home --check: $(basename "$trace")" $?
done
damaged 's/data\[part::3\] = pixels\[part::4\]/data[part::3] = pixels[2 - part::4]/' pictures.py && "$work/copy/desk/desk" show "$work/fill.trace" --home --check -o "$work/none" >"$work/out" 2>"$work/err"
[ $? -eq 1 ] && grep -q '^desk: THE PICTURE OF `home-snapshot` IS ANOTHER' "$work/err"
tell 'show --home --check catches a picture that is another' $?
run show $fill --home -o "$work/two.png"
[ "$status" -eq 0 ] && [ "$(cat "$work/out")" = "$work/two.png: 2 frames of 256 x 192, row by row, on the home machine" ] && [ "$(od -An -tx1 -j16 -N8 "$work/two.png" | tr -d ' ')" = "$(printf '%08x%08x' 516 192)" ]
tell 'show --home: of a script, two frames are one sheet' $?
run show "$work/fill.trace" --home --frame 2 --grid --scale 3 -o "$work/grid.png"
[ "$status" -eq 0 ] && [ "$(od -An -tx1 -j16 -N8 "$work/grid.png" | tr -d ' ')" = "$(printf '%08x%08x' $((256 * 3 + 31)) $((192 * 3 + 23)))" ]
tell 'show --home --grid' $?
# By layers: the fill and no other column, the discs by their numbers, and priority behind which one is held back.
run show "$work/fill.trace" --home --frame 2 --layers -o "$work/layers.png"
[ "$status" -eq 0 ] && [ "$(cat "$work/out")" = "$work/layers.png: frame 2 of 2, 256 x 192, by layers, on the home machine" ] &&
    python3 tests/desk/at.py "$work/layers.png" $(for row in 0 15 16 63 66 191; do for column in 0 7; do echo "$column,$row=0,0,136"; done; done) 8,0=32,32,32 8,191=32,32,32 8,63=204,255,153 9,65=204,255,153 10,63=32,32,32 \
        103,63=153,255,0 255,104=170,187,238 251,104=32,32,32
tell 'show --home --layers: 2 in columns 0 to 7, where the fill is' $?
run show docs/scripts/home-bar.desk --home --frame 2 --layers -o "$work/layers.png"
[ "$status" -eq 0 ] && python3 tests/desk/at.py "$work/layers.png" 0,0=32,32,32 7,191=32,32,32 5,61=204,255,153
tell 'and nowhere where there is none' $?
run show tests/desk/home-corners.desk --home --frame 2 --layers -o "$work/layers.png"
[ "$status" -eq 0 ] && python3 tests/desk/at.py "$work/layers.png" 204,46=255,0,255 7,46=0,0,136
tell 'and held back behind priority' $?
# Frames: a pass begins at line 0, and the last frame may have row 0 alone, which is told.
status_frames=0
begins='has row 0 alone: the last step of the trace, to line 0, begins it (in a script, `frame` in place of `pass` ends before that step)'
for both in '261 1' '262 2' '263 2' '523 2' '524 3'; do
    read -r steps frames_there <<<"$both"
    printf 'home\nreg 1 = 40\nsteps %s\n' "$steps" >"$work/steps.desk"
    run show "$work/steps.desk" --home --frame "$frames_there" -o "$work/shown.png"
    expected=
    case $steps in 262 | 524) expected="desk: note: frame $frames_there $begins" ;; esac
    [ "$status" -eq 0 ] && grep -q ": frame $frames_there of $frames_there, " "$work/out" && [ "$(cat "$work/err")" = "$expected" ] || status_frames=1
done
tell 'show --home: a pass begins at line 0' $status_frames
printf 'home\nreg 1 = 40\npasses 2\n' >"$work/passes.desk"
printf 'reg 1 = 40\npasses 2\n' >"$work/handheld.desk"
printf 'area 1\nreg 1 = 40\npasses 2\n' >"$work/effective.desk"
for both in 'passes 3 --home' 'handheld 2' 'effective 3'; do
    read -r name count home <<<"$both"
    run show "$work/$name.desk" $home -o "$work/shown.png"
    expected=
    [ "$count" -eq 2 ] || expected="desk: note: frame 3 $begins"
    [ "$status" -eq 0 ] && grep -q ": $count frames of " "$work/out" && [ "$(cat "$work/err")" = "$expected" ]
    tell "passes 2 of a fresh device, $name: $count frames" $?
    sed 's/passes/frames/' "$work/$name.desk" >"$work/frames.desk"
    run show "$work/frames.desk" $home -o "$work/shown.png"
    [ "$status" -eq 0 ] && grep -q ': 2 frames of ' "$work/out" && [ ! -s "$work/err" ]
    tell "frames 2, $name: 2 frames" $?
done
run show tests/traces/empty.trace --home -o "$work/shown.png"
[ "$status" -eq 0 ] && grep -q ': 1 frame, 256 x 192' "$work/out" && [ "$(cat "$work/err")" = 'desk: note: no step of the trace has drawn a row of the home machine' ]
tell 'show --home: nothing drawn' $?
# No limit of length.
{ echo home; echo 'reg 1 = 40'; echo 'vram 0 = FF times 16384'; echo 'sprite 0 end'; echo 'colour 31 = 0B'; echo 'frames 40'; } >"$work/home-long.desk"
run show "$work/home-long.desk" --home --frame 40 -o "$work/long.png"
[ "$status" -eq 0 ] && [ "$(cat "$work/out")" = "$work/long.png: frame 40 of 40, 256 x 192, on the home machine" ] && python3 tests/desk/at.py "$work/long.png" 0,0=255,170,0 255,191=255,170,0
tell 'show --home: a trace that is too long for the program is shown' $?
run make "$work/home-long.desk" -o "$work/home-long.trace"
[ "$status" -eq 0 ] && grep -q '^desk: note: .* The programs home-trace and home-snapshot take at most 65,535; the desk, .* has no limit$' "$work/err"
tell 'make: it is made, and which programs do not take it is told' $?
says 'show --home --check: which is told' 1 "desk: the trace has $(wc -c <"$work/home-long.trace" | sed 's/...$/,&/') bytes, and \`home-snapshot\` takes at most 65,535" show "$work/home-long.trace" --home --check -o "$work/none"
# Either line table.
printf 'home\nreg 1 = 40\nframe\n' >"$work/frame.desk"
for table in 0 1; do
    run list "$work/frame.desk" --home --table $table
    [ "$status" -eq 0 ] && [ ! -s "$work/err" ] && head -n 1 "$work/out" | grep -q "; line table $table, $((261 + table)) steps to a pass\$" && [ "$(awk '$1 == "steps" { n += $2 } END { print n }' "$work/out")" -eq $((260 + table)) ]
    tell "list --home --table $table: a frame of $((260 + table)) steps from a fresh device on" $?
done
# Pixels, sprites, differences, tiles and colours.
try 'pixel --home: every pixel of some rows is that of the frame that home-snapshot draws' python3 tests/desk/pixels.py --home 5 $frames
run pixel "$work/fill.trace" 63 3 --home
[ "$status" -eq 0 ] && [ "$(cat "$work/out")" = 'row 63, column 3 of the home machine, as frame 2 of 2 drew it at line 63
  bytes   55 55 55 FF: red 85, green 85, blue 85
  colour  16: palette 1, code 0
  layer   2: the fill of columns 0 to 7
  behind  tile 8 of the map'"'"'s column 29, row 7 (entry at 39FA), palette 0, code 5
  sprites 2 on the row, 1 reaches this column:
    sprite 0   drawn: code 7 of its tile 0, tile 256 at 2000 (register 6 has bit 2); colour 23; then the fill was laid over it
  checked with the library: its row, its layers and vdp_home_pixel say the same' ]
tell 'pixel --home: under the fill' $?
run pixel "$work/fill.trace" 0 8 --home --now
[ "$status" -eq 0 ] && [ "$(head -n 1 "$work/out")" = 'row 0, column 8 of the home machine, as it would be drawn now, at the end of the trace' ]
tell 'pixel --home --now' $?
# a scroll that was written and is not yet taken, in row 0, which a step to line 0 draws
{ sed "s#include #&$PWD/docs/scripts/#" docs/scripts/home-panel.desk; echo 'reg 9 = 00'; } >"$work/late.desk"
"$desk" make "$work/late.desk" -o "$work/late.trace" >/dev/null 2>&1
run pixel "$work/late.trace" 0 20 --home --now
late=$(sed -n 's/^  bytes   //p' "$work/out")
run pixel docs/scripts/home-panel.desk 0 20 --home
[ "$status" -eq 0 ] && [ -n "$late" ] && [ "$late" = "$(sed -n 's/^  bytes   //p' "$work/out")" ] && grep -qx "  behind  tile .* of the map's column 2, row 5 .*" "$work/out"
tell 'pixel --home --now: row 0 has the latched scroll' $?
says 'a row that the home machine has not' 1 'desk: row 192: the home machine has rows 0 to 191' pixel "$work/fill.trace" 192 0 --home
says 'a column that it has not' 1 'desk: column 256: the home machine has columns 0 to 255' pixel "$work/fill.trace" 191 256 --home
run sprites "$work/fill.trace" 65 --home
[ "$status" -eq 0 ] && head -n 1 "$work/out" | grep -qx 'row 65 of the home machine (line 65), as frame 2 of 2 drew it at line 65' && grep -qx '      1       0  3B  02  0: 256, 2000  2 to 9           8          0       0      0  6 under the fill' "$work/out" &&
    grep -q 'status bit 5 is set$' "$work/out"
tell 'sprites --home: a row' $?
run sprites tests/desk/home-corners.desk --home --frame 2
[ "$status" -eq 0 ] && head -n 1 "$work/out" | grep -qx 'frame 2 of 2, the home machine:' && grep -qx '  rows 47 to 51    0 1 2 3 4 5 6 7 | NINTH 8, then 9: not laid' "$work/out"
tell 'sprites --home: every row' $?
run sprites "$work/fill.trace" --sprite 1 --home --frame 2
[ "$status" -eq 0 ] && grep -qx '  rows 64 to 67    sprite 1 is number 2 of 3, before it 0: 8 of 26 pixels drawn (8 under the fill), 18 struck' "$work/out"
tell 'sprites --home --sprite' $?
for damage in 's/registers\[7\] % 16/registers[7] % 8/' 's/self.line < 16 else/self.line < 8 else/' 's/x >= 192/x >= 184/' 's/edge_stand(byte, 0)/edge_stand(byte, 8)/' 's/\[view.fill\] \* 8, \[2\]/[view.fill] * 8, [0]/'; do
    caught=1
    damaged "$damage" rules.py && "$work/copy/desk/desk" sprites tests/desk/home-corners.desk --home >"$work/out" 2>"$work/err"
    [ $? -eq 1 ] && grep -q "^desk: THE DESK'S REASONS DISAGREE WITH THE LIBRARY" "$work/err" && [ ! -s "$work/out" ] && caught=0
    tell "wrong reasons of the home machine are caught: $damage" $caught
done
printf 'include %s/docs/scripts/home-scene.desk\nframe\nuntil line 90\nwrite: colour 0 = 3F\nframe\n' "$PWD" >"$work/ninety.desk"
run differ "$work/ninety.desk" --without write --home --brief
[ "$status" -eq 0 ] && [ ! -s "$work/err" ] && sed -n 1p "$work/out" | grep -qx 'frame 1: no pixel differs' && sed -n 2p "$work/out" | grep -Eqx 'frame 2: [0-9,]+ of 49,152 pixels differ, in rows 91 to 191'
tell 'differ --home: a colour at line 90 changes rows 91 to 191' $?
"$desk" make "$work/ninety.desk" --without write -o "$work/old.trace" >/dev/null && "$desk" make "$work/ninety.desk" -o "$work/new.trace" >/dev/null
run differ "$work/old.trace" "$work/new.trace" --home --frame 2 --sides -o "$work/differ.png"
for name in old new; do build/bin/home-snapshot "$work/$name.trace" >"$work/$name.ppm"; done
count=$(cmp -l "$work/old.ppm" "$work/new.ppm" | awk '{ pixel[int(($1 - 16) / 3)] = 1 } END { for (p in pixel) n++; print n }' | sed -E 's/([0-9]{3})$/,\1/')
[ "$status" -eq 0 ] && head -n 1 "$work/out" | grep -q "^frame 2: $count of 49,152 pixels differ, in rows 91 to 191" && [ "$(od -An -tx1 -j16 -N8 "$work/differ.png" | tr -d ' ')" = "$(printf '%08x%08x' 776 192)" ]
tell 'differ --home: as many pixels as differ between the pictures of home-snapshot' $?
run differ docs/scripts/home-bar.desk docs/scripts/home-fill.desk --home --layers --frame 2
[ "$status" -eq 0 ] && grep -qx '  first: row 0, column 0: A has background; B has the fill of columns 0 to 7' "$work/out"
tell 'differ --home --layers' $?
run tiles "$work/fill.trace" --home -o "$work/tiles.png"
[ "$status" -eq 0 ] && [ ! -s "$work/err" ] && python3 tests/desk/at.py "$work/tiles.png" 0,0=0,85,170 8,0=170,85,0 15,0=85,0,0 16,0=0,0,85 2,128=255,255,0 0,128=0,0,0 10,128=255,0,0
tell 'tiles --home: background in palette 0 above, sprites in palette 1 below' $?
run palette "$work/fill.trace" --home -o "$work/palette.png" --scale 4
[ "$status" -eq 0 ] && [ "$(wc -l <"$work/out")" -eq 34 ] && grep -qx 'colour 23 = 0F  # red 255, green 255, blue   0' "$work/out" && sed '$d' "$work/out" >"$work/colours.desk" && printf 'frame\n' >>"$work/colours.desk" &&
    python3 tests/desk/at.py "$work/palette.png" 0,0=0,85,170 28,4=255,255,0 && cp "$work/out" "$work/before" && run palette "$work/colours.desk" --home && head -n 33 "$work/before" | cmp - "$work/out"
tell 'palette --home: as a script takes them' $?
# What does not go together, and the other machine's scripts and traces.
for command in 'show -o none.png' 'pixel 0 0' sprites "differ $work/fill.trace"; do
    read -r word rest <<<"$command"
    says "$word --home --area" 1 "desk $word: --home and --area do not go together: the home machine has one picture, and no areas" $word "$work/fill.trace" $rest --home --area 0
done
says 'show --home --table 0 --check' 1 "desk show: --check: no program draws the home machine's picture by table 0" show "$work/fill.trace" --home --table 0 --check -o "$work/none"
says 'show --home: a step of another area, by its offset' 1 "desk: tests/traces/areas.trace: byte 3, record 2: a step of area 1, and the home machine's steps are of area 0" show tests/traces/areas.trace --home -o "$work/none"
[ "$(build/bin/home-trace tests/traces/areas.trace | tail -n 1)" = 'bad 3' ]
tell 'as home-trace tells it' $?
says 'show --home: a frame that is not there' 1 "desk: $work/fill.trace: frame 3, and there are 2 frames" show "$work/fill.trace" --home --frame 3 -o "$work/none"
flicker=docs/scripts/flicker.desk
for command in list interrupts 'show -o none.png' 'pixel 0 0' sprites 'tiles -o none.png' palette differ; do
    read -r word rest <<<"$command"
    # a row and a column stand behind the script, all else may
    says "$word: a script for the home machine" 1 'docs/scripts/home-scene.desk:3:1: the script is for the home machine: --home takes it' $word $fill $rest $([ $word != differ ] || echo $fill)
    says "$word --home: a script for the handheld" 1 "$flicker:3:1: the script is for the handheld, as no \`home\` stands before all other statements: without --home it is taken, or with --home the trace that \`desk make\` makes of it" \
        $word $flicker $rest $([ $word != differ ] || echo $flicker) --home
done
printf '# nothing\n' >"$work/nothing.desk"
says 'show --home: a script with no statement' 1 "desk: $work/nothing.desk: the script is for the handheld, as no \`home\` stands before all other statements: without --home it is taken, or with --home the trace that \`desk make\` makes of it" show "$work/nothing.desk" --home -o "$work/none"
"$desk" make $flicker -o "$work/flicker.trace" >/dev/null
run show "$work/flicker.trace" --home -o "$work/shown.png"
[ "$status" -eq 0 ] && grep -q ' frames of 256 x 192, row by row, on the home machine$' "$work/out"
tell 'show --home: the trace of one is shown' $?
damaged 's/proved programs/programs/' programs.py && rm "$work/copy/build" && mkdir "$work/copy/build" && ln -s "$PWD/build/native" "$work/copy/build/native" && "$work/copy/desk/desk" show "$work/fill.trace" --home --check -o "$work/none" >"$work/out" 2>"$work/err"
[ $? -eq 2 ] && [ "$(cat "$work/err")" = "desk: no $work/copy/build/bin/home-snapshot: \`make\` makes it" ]
tell 'show --home --check: no program' $?
[ ! -e "$work/none" ] && [ ! -e none.png ]
tell 'nothing was written' $?
# Listings, beside home-trace.
try 'list --home: listings make their traces again, and say of each record what home-trace prints' python3 tests/desk/round.py --home $texts
run list "$work/fill.trace" --home
cp "$work/out" "$work/listing.desk"
[ "$status" -eq 0 ] && [ ! -s "$work/err" ] && "$desk" make "$work/listing.desk" -o - 2>/dev/null | cmp - "$work/fill.trace" && [ "$(tail -n 1 "$work/out")" = 'read BF                   # line 191, after row 191: the status: 20, two sprites met; it is 0 now' ]
tell 'list --home: by the command' $?
printf 'PR~LS\000LS\002' >"$work/damaged"
"$desk" list "$work/damaged" --home >"$work/out" 2>"$work/err"
[ $? -eq 1 ] && [ "$(wc -l <"$work/out")" -eq 4 ] && [ "$(cat "$work/err")" = "desk: $work/damaged: byte 6, record 3: a step of area 2, and the home machine's steps are of area 0" ]
tell 'list --home: a damaged trace, and what stands before it' $?

# Help, words that are wrong, and what cannot be read or written.
run --help
status_help=$status
for command in make list interrupts show differ pixel sprites tiles palette; do
    grep -qE "^    $command( |\$)" "$work/out" || status_help=1
done
for command in make list interrupts show differ pixel sprites tiles palette; do
    run $command --help
    [ "$status" -eq 0 ] && [ ! -s "$work/err" ] && grep -q "^usage: desk $command " "$work/out" || status_help=1
done
tell 'every command has its help' $status_help
says 'no command' 1 'desk: a command is missing (--help tells which there are)'
says 'no output' 1 'desk show: the following arguments are required: -o (--help tells more)' show tests/traces/p1.trace
says 'a row that is no number' 1 'desk pixel: argument ROW: `x` is no number from 0 up (--help tells more)' pixel tests/traces/p1.trace x 0
says 'a row that is not there' 1 'desk: row 144: area 0 has rows 0 to 143' pixel tests/traces/p1.trace 144 0
says 'a column that is not there' 1 'desk: column 160: area 0 has columns 0 to 159' pixel tests/traces/p1.trace 143 160
says 'an area that is not there' 1 'desk: area 200: the library has no such area' show tests/traces/p1.trace --area 200 -o "$work/none"
says 'a frame that is not there' 1 'desk: tests/traces/split90.trace: frame 2, and there is 1 frame' show tests/traces/split90.trace --frame 2 -o "$work/none"
says 'an area that 8 bits cut to one that is' 1 'desk: area 256: the library has no such area' show tests/traces/p1.trace --area 256 -o "$work/none"
says 'a sprite that is not there' 1 'desk sprites: argument --sprite: `64` is no number from 0 to 63 (--help tells more)' sprites tests/traces/p1.trace --sprite 64
cp docs/scripts/split-new.desk "$work/q.desk"
ln "$work/q.desk" "$work/other-name"
for output in "$work/q.desk" "$work/other-name" "$work/../desk/q.desk"; do
    says "an output that is the input: ${output##*/desk/}" 1 "desk: $output: the output is an input, which it would be written over: name another file" show "$work/q.desk" -o "$output"
done
cmp docs/scripts/split-new.desk "$work/q.desk"
tell 'which is left as it was' $?
"$desk" show - -o "$work/none" <docs/scripts/split-new.desk >"$work/out" 2>"$work/err"
[ $? -eq 1 ] && [ "$(cat "$work/err")" = 'desk: standard input: byte 0, record 1: no record begins with the bytes 23 20. Is it a script? `-` takes a trace here: `desk make - -o -` makes one of a script' ]
tell 'a script on standard input, where a trace is taken' $?
cp "$work/q.desk" "$work/q.txt"
says 'a script with another name' 1 "desk: $work/q.txt: byte 0, record 1: no record begins with the bytes 23 20. Is it a script? The name of a script ends in .desk" show "$work/q.txt" -o "$work/none"
says 'a trace that is not there' 2 "desk: $work/none: No such file or directory" list "$work/none"
says 'a folder in place of a trace' 2 "desk: $work: Is a directory" list "$work"
says 'a script that is not there' 2 "desk: none.desk: No such file or directory" make none.desk -o "$work/none"
says 'a folder that is not there' 2 "desk: $work/none/x: No such file or directory" make docs/scripts/flicker.desk -o "$work/none/x"
says 'a file that cannot be written' 2 'desk: /dev/full: No space left on device' show docs/scripts/split-new.desk -o /dev/full
"$desk" list tests/traces/split90.trace >/dev/full 2>"$work/err"
[ $? -eq 2 ] && [ "$(cat "$work/err")" = 'desk: standard output: No space left on device' ]
tell 'standard output that is full' $?
"$desk" list tests/traces/split90.trace >&- 2>"$work/err"
[ $? -eq 2 ] && [ "$(cat "$work/err")" = 'desk: standard output is closed' ]
tell 'standard output that is closed' $?
"$desk" list - <&- >"$work/out" 2>"$work/err"
[ $? -eq 2 ] && [ ! -s "$work/out" ] && [ "$(cat "$work/err")" = 'desk: standard input: Bad file descriptor' ]
tell 'standard input that is closed' $?
# (A note is told where the reader is still there when it comes.)
"$desk" list --each tests/traces/split90.trace 2>"$work/err" | head -n 1 >/dev/null
! grep -v '^desk: note: ' "$work/err"
tell 'a reader that goes away is no error to tell' $?
export DESK_LIBRARY=$work/none
says 'no library' 2 "desk: no $work/none: \`make desk\` makes it" list tests/traces/p1.trace
unset DESK_LIBRARY

# Bad input of every kind.
try 'no traceback, whatever is given' python3 tests/desk/hostile.py 40 "${SEED:-1}" "$work/hostile"

# The pages.
try 'docs/DESK.md is as its commands have it' python3 tests/desk/document.py docs/DESK.md "$work/page"
try 'and README.md' python3 tests/desk/document.py README.md "$work/readme"

total
