#!/usr/bin/env bash
# traces.sh: build/bin/trace and build/bin/snapshot on whole, damaged, empty and long recordings, and the split at line 90; and their twins, which go by
# the other line table.
# What is expected: of the traces in tests/traces/ the text beside each; of the others what docs/RULES.md says (R7.8, R7.11, R7.13), said again here.
. "$(dirname "$0")/begin.sh"
needs build

# prints NAME TRACE TEXT: the file TRACE prints the file TEXT, with the exit status that belongs to it.
prints() {
    build/bin/trace < "$2" > $work/printed
    [ $? -eq "$(status_due "$3")" ] && cmp "$3" $work/printed
    tell "$1" $?
}

# says NAME TRACE TEXT: of the file TRACE snapshot writes the file TEXT, and no picture.
says() {
    build/bin/snapshot < "$2" > $work/written
    [ $? -eq "$(status_due "$3")" ] && cmp "$3" $work/written
    tell "$1" $?
}

# Whole traces, by the chart's table and by the one with 261 steps.
for trace in tests/traces/*.trace; do
    name=$(basename "$trace" .trace)
    prints "trace $name" "$trace" "${trace%.trace}.text"
    other=${trace%.trace}.261.text
    [ -e "$other" ] || other=${trace%.trace}.text
    build/bin/trace-261 < "$trace" | cmp "$other" -
    tell "trace-261 $name" $?
done

# 262 steps and a read of the counter, in both: a table that is not the program's own tells itself here.
# lines JUMP STEPS: what so many steps print where the counter jumps instead of becoming JUMP.
lines() {
    awk -v jump="$1" -v steps="$2" 'BEGIN {
        for (n = 1; n <= steps; n++) {
            line = (line + 1) % 256
            if (line == 0) jumped = 0
            if (line == jump && !jumped) { jumped = 1; line = 213 }
            printf "s 0 %02X 0 %d\n", line, line == 193 ? 2 : 0
        }
    }'
}
for both in "trace 219 00" "trace-261 218 01"; do
    read -r program jump last <<<"$both"
    { lines "$jump" 262; echo "r 0 $last"; echo 'end 263'; } > $work/expected
    build/bin/$program < tests/traces/p7.trace | cmp $work/expected -
    tell "262 steps: $program goes by its own table" $?
done
build/bin/snapshot-261 tests/traces/split90.trace | cmp tests/programs/split90.ppm -
tell "snapshot-261 of the split: a pass of 261 steps draws the same" $?
# After 285 steps the one has drawn a row of its second pass, and the other has not.
build/bin/snapshot tests/traces/late.trace > $work/late.ppm && build/bin/snapshot-261 tests/traces/late.trace > $work/late-261.ppm
for both in "late 0" "late-261 1"; do
    read -r picture rows <<<"$both"
    [ "$(tail -c 69120 $work/$picture.ppm | od -An -v -tx1 -w480 | grep -c ' ff 00 00')" = "$rows" ]
    tell "285 steps, $picture: $rows rows of the second pass" $?
done

# The stored traces are those that the scripts beside them write.
if command -v python3 > /dev/null; then
    rm -rf $work/made
    mkdir $work/made
    cp tests/traces/*.py $work/made/
    python3 $work/made/make.py && python3 $work/made/split90.py && python3 $work/made/layers.py && python3 $work/made/edges.py
    status=$?
    for trace in tests/traces/*.trace; do cmp "$trace" "$work/made/$(basename "$trace")" || status=1; done
    tell "the traces are as their scripts write them" $status
else
    skip 'the scripts of the traces' 'no python3 here'
fi

# Damaged ones: behind records of 0, 3, 7 and 29 bytes a bad record of each kind, with a whole one behind it where it isn't cut.
# bad START TEXT RECORDS: behind START, which prints TEXT, RECORDS are bad at once. START and RECORDS are as printf takes them.
bad() {
    printf "$1$3" > $work/damaged
    printf 'bad %s\n' "$(printf "$1" | wc -c | tr -d ' ')" > $work/line
    { printf "$2"; cat $work/line; } > $work/expected
    build/bin/trace < $work/damaged | cmp $work/expected - && build/bin/snapshot < $work/damaged | cmp $work/line -
}
example='PW\277\000PW\277\100PW\276\253PW\277\000PW\277\000PR\276LS\000PR\177'
damaged() {
    bad '' '' "$2" && bad 'PR~' 'r 0 00\n' "$2" && bad 'PR~PW\277\000' 'r 0 00\nw 0\n' "$2" &&
        bad "$example" 'w 0\nw 0\nw 0\nw 0\nw 0\nr 0 AB\ns 0 01 0 0\nr 2 00\n' "$2"
    tell "bad at 0, 3, 7 and 29: $1" $?
}
damaged 'no mark at all' 'XX\000\000LS\000'
damaged 'the first letter alone right' 'PX\000\000LS\000'
damaged 'the second letter alone right' 'LW\000\000LS\000'
damaged 'a mark turned round' 'WP\277\000LS\000'
damaged 'a mark in small letters' 'pw\277\000LS\000'
damaged 'an end of line' '\nPR~'
damaged 'area 3' 'LS\003LS\000'
damaged 'area 128' 'LS\200LS\000'
damaged 'area 255' 'LS\377LS\000'
damaged 'area 0 as a letter' 'LS0LS\000'
damaged 'a write cut behind P' 'P'
damaged 'a write cut behind PW' 'PW'
damaged 'a write cut behind its port' 'PW\277'
damaged 'a read cut behind PR' 'PR'
damaged 'a step cut behind L' 'L'
damaged 'a step cut behind LS' 'LS'

# At the limit: 65,535 bytes of reads of the counter, of steps and of writes; 65,536 bytes and many more.
yes 'PR~' | tr -d '\n' | head -c 65535 > $work/reads
{ yes 'r 0 00' | head -n 21845; echo 'end 21845'; } > $work/expected
prints '65,535 bytes: 21,845 reads' $work/reads $work/expected
yes 'LS0' | tr -d '\n' | tr 0 '\000' | head -c 65535 > $work/steps
{ lines 219 21845; echo 'end 21845'; } > $work/expected
prints '65,535 bytes: 21,845 steps' $work/steps $work/expected
{ yes "$(printf 'PW\277@')" | tr -d '\n' | head -c 65532; printf 'PR~'; } > $work/writes
{ yes 'w 0' | head -n 16383; echo 'r 0 00'; echo 'end 16384'; } > $work/expected
prints '65,535 bytes: 16,383 writes and a read' $work/writes $work/expected
printf 'long\n' > $work/expected
{ cat $work/reads; printf 'P'; } > $work/longer
prints '65,536 bytes' $work/longer $work/expected
says '65,536 bytes, snapshot' $work/longer $work/expected
head -c 200000 /dev/zero > $work/longest
prints '200,000 bytes' $work/longest $work/expected
says '200,000 bytes, snapshot' $work/longest $work/expected
# By a pipe, in small pieces, as a terminal would give it.
printf 'r 0 00\nr 0 00\nend 2\n' > $work/expected
{ printf 'P'; sleep 0.2; printf 'R~PR'; sleep 0.2; printf '~'; } | build/bin/trace | cmp $work/expected -
tell 'a trace in small pieces' $?

# Snapshots. Nothing drawn: a picture of zeros.
{ printf 'P6\n160 144\n255\n'; head -c 69120 /dev/zero; } > $work/expected
says 'no input, snapshot' tests/traces/empty.trace $work/expected
says 'effective steps draw nothing in the picture' <(tr '\000' '\001' < $work/steps | head -c 900) $work/expected

# The author's question: colour 3 is changed where the line counter reads 90. Row 66 has the old colour, row 67 the new one.
# row Y: the bytes of the picture's row Y, in hex.
row() { od -An -v -tx1 -j $((15 + 480 * $1)) -N 480 $work/split90.ppm | tr -d ' \n'; }
# plain COLOUR: a row of this colour.
plain() { yes "$1" | head -n 160 | tr -d '\n'; }
build/bin/snapshot < tests/traces/split90.trace > $work/split90.ppm
cmp tests/programs/split90.ppm $work/split90.ppm
tell 'split at line 90: the picture that the rule gives' $?
[ "$(head -c 15 $work/split90.ppm | od -An -v -tx1 | tr -d ' \n')" = 50360a313630203134340a3235350a ] && [ "$(($(wc -c < $work/split90.ppm)))" = 69135 ]
tell 'split at line 90: the picture is a whole PPM' $?
[ "$(row 66)" = "$(plain ff0000)" ]
tell 'split at line 90: row 66 has the old colour' $?
[ "$(row 67)" = "$(plain 0000ff)" ]
tell 'split at line 90: row 67 has the new colour' $?
status=0
for y in $(seq 0 143); do
    # every eighth line is ruled in grey, which stays
    if [ $((y % 8)) = 0 ]; then colour=666666; elif [ "$y" -le 66 ]; then colour=ff0000; else colour=0000ff; fi
    [ "$(row "$y")" = "$(plain $colour)" ] || { echo "row $y"; status=1; }
done
tell 'split at line 90: all other rows' $status

# Layers: the scene of docs/TRACES.md, its picture and its layers as they stand there.
build/bin/layers < tests/traces/layers.trace > $work/layers.ppm && cmp tests/programs/layers.ppm $work/layers.ppm
tell 'layers of the scene' $?
for both in "picture -picture" "layers "; do
    read -r what suffix <<<"$both"
    program=layers
    [ "$what" = picture ] && program=snapshot
    if command -v python3 > /dev/null; then
        build/bin/$program < tests/traces/layers.trace | python3 tools/ppm2png.py 2 | cmp docs/layers$suffix.png -
        tell "docs/layers$suffix.png is what $program writes" $?
    else
        skip "docs/layers$suffix.png" 'no python3 here'
    fi
done

# True edges: the scene of docs/TRACES.md in area 0 and in area 2, its pictures as they stand there, and what tells them apart.
for name in edges-visible edges-true; do
    build/bin/snapshot < tests/traces/$name.trace > $work/$name.ppm
    if command -v python3 > /dev/null; then
        python3 tools/ppm2png.py 2 < $work/$name.ppm | cmp docs/$name.png -
        tell "docs/$name.png is what snapshot writes" $?
    else
        skip "docs/$name.png" 'no python3 here'
    fi
done
# shows NAME Y X COUNT COLOUR: COUNT pixels from column X of row Y on have this colour.
shows() {
    [ "$(od -An -v -tx1 -j $((15 + 480 * $2 + 3 * $3)) -N $((3 * $4)) $work/$1.ppm | tr -d ' \n')" = "$(yes "$5" | head -n "$4" | tr -d '\n')" ]
}
shows edges-visible 29 2 3 ffdd22 && shows edges-true 29 0 9 886633
tell 'a priority tile at a scrolled left edge hides a sprite in area 2, and in area 0 all but three columns' $?
shows edges-visible 30 152 8 222255 && shows edges-true 30 152 8 ffdd22 && shows edges-true 72 158 2 ffdd22
tell 'X 208 to 214 with the early clock shows in area 2' $?
shows edges-visible 95 0 4 ff4422 && shows edges-true 95 0 4 ffdd22
tell 'sprites that the left edge cuts meet in area 2' $?
build/bin/layers < tests/traces/edges-true.trace > $work/edges-layers.ppm && shows edges-layers 29 1 8 ff00ff && shows edges-layers 30 152 8 1ce380
tell 'layers of area 2' $?
printf 'long\n' > $work/long
build/bin/layers < $work/longer | cmp $work/long -
tell '65,536 bytes, layers' $?

total
