#!/usr/bin/env bash
# cartridge.sh: examples/cartridge: its cartridges are assembled and played on a Z80 core; their pictures are held to what they must show, and their
# recordings, run by trace and snapshot (that of the home machine by home-trace, home-snapshot and the desk), to the same answers and the same pixels. What the player does with banks, ports, interrupts and their cycles, buttons,
# pictures and bad input. The page docs/CARTRIDGE.md, whose commands are run again, and this chip's column in the handbook's table of players.
. "$(dirname "$0")/begin.sh"
needs build native
if ! sh tools/setup.sh cartridge 2>$work/said; then
    skip "the cartridges" "$(tail -n 1 $work/said)"
    total
    exit
fi
CFLAGS='-Wall -Wextra -pedantic -Werror -O2' make --no-print-directory cartridge 2>$work/said
status=$?
cat $work/said
[ "$status" -eq 0 ] && [ ! -s $work/said ]
tell "the player and the cartridges are built, without a warning" $?
if [ "$status" -ne 0 ]; then
    total
    exit
fi
player=build/cartridge/play

# assembled FILE.asm: a cartridge beside it.
assembled() { z80asm -I examples/cartridge -o "${1%.asm}.gg" "$1" && truncate -s '>32768' "${1%.asm}.gg"; }
# rows PICTURE: its rows, a line of hex each.
rows() { tail -c 69120 "$1" | od -An -v -tx1 -w480 | tr -d ' '; }
# row PICTURE Y, pixel PICTURE COLUMN Y
row() { rows "$1" | sed -n "$(($2 + 1))p"; }
pixel() { row "$1" "$3" | cut -c $((6 * $2 + 1))-$((6 * $2 + 6)); }
# plain COLOUR: a row of this colour.
plain() { yes "$1" | head -n 160 | tr -d '\n'; }
# split_at LINE: the rows of the author's question, changed at this line.
split_at() {
    awk -v line="$1" 'BEGIN {
        for (y = 0; y < 144; y++) {
            colour = y % 8 == 0 ? "666666" : y <= line - 24 ? "ff0000" : "0000ff"
            for (x = 0; x < 160; x++) printf "%s", colour
            printf "\n"
        }
    }'
}

# refuses NAME STATUS LINE WORDS..: with these words the player ends so.
refuses() {
    local name=$1 expected=$2 line=$3 status
    shift 3
    $player "$@" >$work/said 2>$work/err </dev/null
    status=$?
    [ "$status" -eq "$expected" ] && [ ! -s $work/said ] && printf '%s\n' "$line" | cmp - $work/err
    tell "$name" $?
}

# Played, recorded and run again, by either table.
# replayed CARTRIDGE FRAMES
replayed() {
    local name table twin
    for table in 1 0; do
        twin=
        [ $table = 1 ] || twin=-261
        name=$work/$1$twin
        $player --table $table --frames "$2" --picture "$name.ppm" --record "$name.trace" --answers "$name.text" build/cartridge/$1.gg >"$name.said" 2>&1 &&
            grep -q "^$2 frames: $(($2 * (261 + table))) steps, [1-9][0-9]* port calls, 0 refused\$" "$name.said" && [ "$(wc -l <"$name.said")" -eq 1 ]
        tell "$1, table $table: $2 frames are played, and no call is refused" $?
        build/bin/trace$twin "$name.trace" | cmp "$name.text" - && tail -n 1 "$name.text" | grep -q '^end [1-9]'
        tell "$1, table $table: trace$twin gives the answers that the player got" $?
        build/bin/snapshot$twin "$name.trace" | cmp "$name.ppm" -
        tell "$1, table $table: snapshot$twin draws the player's picture" $?
    done
}
replayed question 4
grep -qxF "$(cat $work/question.said)" examples/cartridge/README.md
tell "question: the player's line is that of examples/cartridge/README.md" $?
replayed split 24
replayed sprites 40
tail -c +5 $work/split.trace >$work/less.trace
! build/bin/trace $work/less.trace | cmp -s $work/split.text -
tell "a recording that lacks its first record gives other answers" $?

# The author's question: changed at 90, row 67 is the first of the new colour.
for table in question question-261; do
    cmp <(split_at 90) <(rows $work/$table.ppm)
    tell "$table: colour 3 changes at row 67" $?
done
build/bin/snapshot tests/traces/split90.trace | cmp $work/question.ppm -
tell "question: the picture is that of tests/traces/split90.trace" $?
for line in 10 24 25 89 91 166 167; do
    sed "s/^change: equ 90\$/change: equ $line/" examples/cartridge/question.asm >$work/other.asm
    assembled $work/other.asm && $player --frames 4 --picture $work/other.ppm $work/other.gg >/dev/null && cmp <(split_at $line) <(rows $work/other.ppm)
    tell "question, changed at $line" $?
done

# The split by interrupt: row 67 is the first of the sea, which moves a column a frame, and the sky stands.
for table in split split-261; do
    [ "$(row $work/$table.ppm 66)" = "$(plain 66aaee)" ] && [ "$(row $work/$table.ppm 67)" = "$(plain 114499)" ]
    tell "$table: row 66 is sky, row 67 sea" $?
    [ "$(rows $work/$table.ppm | head -n 67 | grep -c 114499)" = 0 ] && [ "$(rows $work/$table.ppm | tail -n 77 | grep -c 66aaee)" = 0 ]
    tell "$table: no sea above, no sky below" $?
done
$player --frames 25 --picture $work/later.ppm build/cartridge/split.gg >/dev/null
cmp <(rows $work/split.ppm | head -n 67) <(rows $work/later.ppm | head -n 67) &&
    cmp <(rows $work/split.ppm | tail -n 77 | cut -c 1-954) <(rows $work/later.ppm | tail -n 77 | cut -c 7-960) &&
    ! cmp -s $work/split.ppm $work/later.ppm
tell "split: a frame later the sea has moved by a column, and the sky has not" $?

# The sprites, by the places that the cartridge gives them.
status=0
for n in 0 1 2 3 4 5 6 7; do [ "$(pixel $work/sprites.ppm $((8 + 16 * n + 3)) 43)" = ffff44 ] || status=1; done
tell "sprites: eight glow-worms on a line" $status
[ "$(pixel $work/sprites.ppm 139 43)" = 224488 ]
tell "sprites: the ninth is not shown" $?
build/bin/layers $work/sprites.trace >$work/layers.ppm && [ "$(pixel $work/layers.ppm $((8 + 16 * 7 + 3)) 43)" = 1ce380 ] && [ "$(pixel $work/layers.ppm 139 43)" = 202020 ]
tell "sprites: by layers, the eighth is sprite 7, and where the ninth would be is background" $?
rows $work/layers.ppm | sed -n 105,112p | grep -q ff00ff && [ "$(rows $work/layers.ppm | grep -c ff00ff)" -gt 0 ] && [ "$(rows $work/layers.ppm | head -n 104 | grep -c ff00ff)" = 0 ]
tell "sprites: the grass holds the worm back, and nothing else is held back" $?
grep -q '^r 0 E0$' $work/sprites.text
tell "sprites: the status that it reads tells the end of the screen, a ninth sprite and a collision" $?
[ "$(pixel $work/sprites.ppm 127 23)" = ffeebb ] && [ "$(pixel $work/sprites.ppm 120 16)" = 224488 ] && [ "$(pixel $work/sprites.ppm 135 16)" = 224488 ] &&
    [ "$(pixel $work/sprites.ppm 120 31)" = 224488 ] && [ "$(pixel $work/sprites.ppm 135 31)" = 224488 ]
tell "sprites: the moon is round: its tile is turned across, down, and both" $?

# The home machine: home.sms by --home, its recording on home-trace, home-snapshot and the desk, and what it must show.
$player --home --frames 60 --picture $work/home.ppm --record $work/home.trace --answers $work/home.text build/cartridge/home.sms >$work/home.said 2>&1 &&
    grep -q '^60 frames: 15719 steps, [1-9][0-9]* port calls, 0 refused$' $work/home.said && [ "$(wc -l <$work/home.said)" -eq 1 ] && grep -qxF "$(cat $work/home.said)" examples/cartridge/README.md
tell "home: 60 frames are played, and no call is refused; the line is that of examples/cartridge/README.md" $?
build/bin/home-trace $work/home.trace | cmp $work/home.text - && tail -n 1 $work/home.text | grep -q '^end [1-9]'
tell "home: home-trace gives the answers that the player got" $?
build/bin/home-snapshot $work/home.trace | cmp $work/home.ppm -
tell "home: home-snapshot draws the player's picture" $?
tail -c +5 $work/home.trace >$work/less.trace
! build/bin/home-trace $work/less.trace | cmp -s $work/home.text -
tell "home: a recording that lacks its first record gives other answers" $?
# home_rows PICTURE: its rows, a line of hex each.
home_rows() { tail -c 147456 "$1" | od -An -v -tx1 -w768 | tr -d ' '; }
for frame in 2 39 40; do $player --home --frame $frame --picture $work/home-$frame.ppm build/cartridge/home.sms >/dev/null; done
[ "$(home_rows $work/home-39.ppm | cut -c 1-48 | sort -u)" = 555555555555555555555555555555555555555555555555 ]
tell "home: columns 0 to 7 are filled" $?
cmp <(home_rows $work/home-39.ppm | head -n 16) <(home_rows $work/home-40.ppm | head -n 16) && [ "$(home_rows $work/home-39.ppm | head -n 16 | grep -c ffffff)" -eq 7 ] &&
    [ "$(home_rows $work/home-39.ppm | sed -n 15p | cut -c $((6 * 32 + 1))-$((6 * 36)))" = ffffffffffffffffffffffff ]
tell "home: the bar stands, with a mark at column 32" $?
cmp <(home_rows $work/home-39.ppm | sed -n 17,112p | cut -c 49-1530) <(home_rows $work/home-40.ppm | sed -n 17,112p | cut -c 55-1536) && ! cmp -s $work/home-39.ppm $work/home-40.ppm
tell "home: a frame later the hills have gone by a column" $?
[ "$(home_rows $work/home-39.ppm | head -n 120 | grep -c aa5500)" -eq 0 ] && [ "$(home_rows $work/home-39.ppm | tail -n 72 | grep -c 00aaff)" -eq 0 ] && home_rows $work/home-39.ppm | sed -n 120p | grep -q 00aaff &&
    home_rows $work/home-39.ppm | sed -n 121p | grep -q aa5500
tell "home: the ground begins at row 120, by line interrupt" $?
sed 's/^ground: equ 120 /ground: equ 77 /' examples/cartridge/home.asm >$work/other.asm
z80asm -I examples/cartridge -o $work/other.sms $work/other.asm && $player --home --frames 4 --picture $work/other.ppm $work/other.sms >/dev/null && [ "$(home_rows $work/other.ppm | head -n 77 | grep -c aa5500)" -eq 0 ] &&
    [ "$(home_rows $work/other.ppm | tail -n 115 | grep -c 00aaff)" -eq 0 ] && home_rows $work/other.ppm | sed -n 78p | grep -q aa5500
tell "home: and at row 77 where the source says so" $?
[ "$(home_rows $work/home-39.ppm | sed -n 116p | cut -c 49-54)" = ffaa00 ] && [ "$(home_rows $work/home-39.ppm | sed -n 112,120p | grep -o ffaa00 | wc -l)" -lt 52 ]
tell "home: the ball is partly under the fill" $?
if command -v python3 >/dev/null; then
    status=0
    for frame in 2 39 40 60; do
        [ $frame = 60 ] && picture=$work/home.ppm || picture=$work/home-$frame.ppm
        python3 tools/ppm2png.py <$picture >$work/played.png
        build/bin/desk show $work/home.trace --home --frame $frame -o $work/shown.png >$work/said && grep -q ": frame $frame of 60, 256 x 192, on the home machine\$" $work/said && python3 tests/desk/same.py $work/played.png $work/shown.png || status=1
    done
    tell "home: desk show --home of the recording draws the player's pictures, frame by frame" $status
    $player --home --table 0 --frames 20 --picture $work/home-261.png --record $work/home-261.trace build/cartridge/home.sms >$work/said && grep -q '^20 frames: 5219 steps, ' $work/said &&
        build/bin/desk show $work/home-261.trace --home --table 0 --frame 20 -o $work/shown.png >/dev/null && python3 tests/desk/same.py $work/home-261.png $work/shown.png
    tell "home: by table 0, and as a PNG" $?
    build/bin/desk interrupts $work/home.trace --home | sed -n 39p | grep -qx 'frame 39: lines 119, 193' && build/bin/desk sprites $work/home.trace 115 --home --frame 39 | grep -q ' under the fill$' &&
        [ "$(build/bin/desk palette $work/home.trace --home 2>/dev/null | sed -n 2p)" = 'colour  0 = 38  # red   0, green 170, blue 255' ]
    tell "home: what the desk says of it" $?
    python3 tools/ppm2png.py 2 <$work/home-39.ppm | cmp examples/cartridge/home.png -
    tell "examples/cartridge/home.png is what home.sms shows" $?
else
    skip "the recording of the home machine at the desk" "no python3 here"
fi

# The pictures of the documents.
if command -v python3 >/dev/null; then
    for both in "question docs/split90.png" "split examples/cartridge/split.png" "sprites examples/cartridge/sprites.png"; do
        read -r name png <<<"$both"
        python3 tools/ppm2png.py 2 <$work/$name.ppm | cmp "$png" -
        tell "$png is what $name.gg shows" $?
    done
else
    skip "the pictures as PNG" "no python3 here"
fi

# Long runs: the same picture in the 600th frame; the recording ends where it is full, and what there is of it is whole.
for name in question split; do
    began=$(date +%s%N)
    $player --frames 600 --picture $work/long.ppm build/cartridge/$name.gg >/dev/null
    status=$?
    took=$((($(date +%s%N) - began) / 1000000))
    [ "$status" -eq 0 ] && ! cmp <(row $work/long.ppm 66) <(row $work/long.ppm 67) >/dev/null && cmp <(row $work/$name.ppm 66) <(row $work/long.ppm 66) &&
        cmp <(row $work/$name.ppm 67) <(row $work/long.ppm 67)
    tell "$name: 600 frames in $took ms, and the colour changes at row 67" $?
done
$player --frames 600 --picture $work/full.ppm --record $work/full.trace --answers $work/full.text build/cartridge/split.gg >$work/said 2>$work/err
status=$?
records=$(sed -n 's/^end //p' $work/full.text)
bytes=$(($(wc -c <$work/full.trace)))
[ "$status" -eq 0 ] && [ "$(wc -l <$work/err)" -eq 1 ] && [ "$bytes" -gt 65531 ] &&
    grep -q "^play: the recording is full (refusal 18): it has $records records, $bytes bytes, and ends in frame [1-9][0-9]*; the rest is played and not recorded\$" $work/err
tell "a recording that is full is told, with its records and bytes" $?
build/bin/trace $work/full.trace | cmp $work/full.text - && cmp $work/full.ppm $work/long.ppm
tell "it runs to its end, and the player played on" $?
$player --frames 2 --answers $work/alone.text build/cartridge/split.gg >/dev/null && $player --frames 2 --record $work/alone.trace build/cartridge/split.gg >/dev/null &&
    build/bin/trace $work/alone.trace | cmp $work/alone.text -
tell "answers and recording can be had one by one" $?

# The ports' other numbers: a cartridge that uses these asks the same.
mkdir $work/mirrors
cp examples/cartridge/question.asm examples/cartridge/end.asm $work/mirrors/
for ports in "40 80 81" "7c 9a bd"; do
    read -r line data command <<<"$ports"
    sed -e "s/^line: *equ 0x7e/line: equ 0x$line/" -e "s/^data: *equ 0xbe/data: equ 0x$data/" -e "s/^command: *equ 0xbf/command: equ 0x$command/" \
        examples/cartridge/chip.asm >$work/mirrors/chip.asm
    (cd $work/mirrors && z80asm -o question.gg question.asm) && ! cmp -s build/cartridge/question.gg $work/mirrors/question.gg &&
        $player --frames 4 --record $work/mirrors/trace $work/mirrors/question.gg >/dev/null && cmp $work/question.trace $work/mirrors/trace
    tell "ports $line, $data and $command are 7E, BE and BF" $?
done

# written TRACE: the bytes that a recording writes to the data port, in hex.
written() {
    od -An -v -tx1 -w1 "$1" | awk '
        { byte[NR] = $1 }
        END {
            for (n = 1; n <= NR; n += length_of) {
                length_of = byte[n + 1] == "57" ? 4 : 3
                if (length_of == 4 && byte[n + 2] == "be") printf " %s", byte[n + 3]
            }
        }'
}
# writes NAME BYTES SIZE: of the cartridge at hand, as long as this, the program writes these bytes; each of its pages has its number at 0800.
writes() {
    cp $work/small.gg $work/sized.gg
    truncate -s "$3" $work/sized.gg
    for page in 1 2 3; do
        [ "$3" -le $((16384 * page)) ] || printf "\\x0$page" | dd of=$work/sized.gg bs=1 seek=$((16384 * page + 2048)) conv=notrunc status=none
    done
    $player --frames 1 --record $work/sized.trace $work/sized.gg >/dev/null && [ "$(written $work/sized.trace)" = "$2" ]
    tell "$1" $?
}
cat >$work/small.asm <<'ASM'
        org 0
        ld b, 0
pages:  ld a, b
        ld (0xffff), a
        ld a, (0x8800)
        out (0xbe), a
        inc b
        ld a, b
        cp 6
        jr nz, pages
        ld a, 3
        ld (0xfffe), a
        ld a, (0x4800)
        out (0xbe), a
        ld a, 2
        ld (0xfffd), a
        ld a, (0x0800)
        out (0xbe), a
        ld a, 0x5a              ; the cartridge cannot be written to, and the memory stands there twice
        ld (0x4800), a
        ld (0xc123), a
        ld a, (0x4800)
        out (0xbe), a
        ld a, (0xe123)
        out (0xbe), a
stay:   jr stay
ASM
assembled $work/small.asm
writes "64 KiB: pages are chosen at FFFD, FFFE and FFFF" " 00 01 02 03 00 01 03 02 03 5a" 65536
writes "48 KiB stand as they are" " 02 02 02 02 02 02 01 00 01 5a" 49152
writes "past the end of a small file there is FF" " ff ff ff ff ff ff ff 00 ff 5a" 4096

# Ports that are not the chip's, and the one that it refuses.
cat >$work/ports.asm <<'ASM'
        org 0
        ld a, 0x9f              ; sound
        out (0x7f), a
        in a, (0x7f)            ; the horizontal counter
        out (0xbe), a
        in a, (0x00)            ; buttons
        out (0xbe), a
        in a, (0xdc)
        out (0xbe), a
        in a, (0xdd)
        out (0xbe), a
stay:   jr stay
ASM
assembled $work/ports.asm && $player --frames 1 --record $work/ports.trace --answers $work/ports.text $work/ports.gg >/dev/null && [ "$(written $work/ports.trace)" = " 00 c0 ff ff" ] &&
    [ "$(grep -v '^[se]' $work/ports.text | tr '\n' ' ')" = "r 2 00 w 4 w 4 w 4 w 4 " ]
tell "the horizontal counter is asked of the chip, which refuses it; buttons are up; sound is passed over" $?

# An interrupt that the processor does not take at once waits for it, until the status is read.
cat >$work/waits.asm <<'ASM'
        org 0
        di
        im 1
        ld sp, 0xdff0
        jp start
        ds 0x38 - $
        ld a, 0x38
        out (0xbe), a
        ret
start:  ld a, 0x10              ; register 0: line interrupts; register 10: by every line
        out (0xbf), a
        ld a, 0x80
        out (0xbf), a
        xor a
        out (0xbf), a
        ld a, 0x8a
        out (0xbf), a
        ld b, 40
        djnz $                  ; more than two lines
        xor a                   ; no more of them
        out (0xbf), a
        ld a, 0x80
        out (0xbf), a
        status
        ld a, 1
        out (0xbe), a
        ei
        nop
        nop
        ld a, 2
        out (0xbe), a
stay:   jr stay
ASM
for both in "nop 01:38:02" "in_a,(0xbf) 01:02"; do
    read -r word bytes <<<"$both"
    sed "s/^        status\$/        ${word/_/ }/" $work/waits.asm >$work/other.asm
    assembled $work/other.asm && $player --frames 1 --record $work/other.trace $work/other.gg >/dev/null && [ "$(written $work/other.trace)" = " ${bytes//:/ }" ]
    tell "an interrupt that has to wait, with ${word/_/ }: $bytes" $?
done

# An interrupt takes 13 cycles of its line itself: a handler whose last write comes 218 cycles behind it writes in the next line, one of 206 in its own.
cat >$work/cycles.asm <<'ASM'
        org 0
        di
        im 1
        ld sp, 0xdff0
        jp start
        ds 0x38 - $
        ld a, 2 * 3             ; colour 3
        out (command), a
        ld a, 0xc0
        out (command), a
        xor a
        nop
        out (data), a
        ld b, 11
        djnz $
        ds late
        ld a, 0x0f
        out (data), a           ; blue
        ret
start:  ld hl, setup
        call registers
        call red
        ld de, 0                ; tile 0: all of it colour 3
        call video
        ld b, 8
tile_0: ld a, 0xff
        out (data), a
        out (data), a
        xor a
        out (data), a
        out (data), a
        djnz tile_0
        ld de, list
        call video
        ld a, 0xd0
        out (data), a
again:  in a, (line)
        cp 0xe0
        jr nz, again
        call red
        in a, (command)         ; what waits is passed over
        ei
        halt
        jr again
red:    ld hl, first
        ld a, 2 * 3
        ld b, 2
        jp colours
setup:  db 0x14, 0xc0, 0xff, 0xff, 0xff, 0xff, 0xfb, 0, 0, 0, 91
first:  db 0x0f, 0x00
        include 'chip.asm'
        include 'end.asm'
ASM
# first_blue PLAYER NOPS: the first blue row of it, with so many nops in the handler.
first_blue() {
    { echo "late: equ $2"; cat $work/cycles.asm; } >$work/late.asm
    assembled $work/late.asm && $1 --frames 4 --picture $work/late.ppm $work/late.gg >/dev/null && rows $work/late.ppm | grep -n -m 1 "$(plain 0000ff)" | cut -d: -f1
}
[ "$(first_blue $player 0)" = 68 ]
tell "an interrupt's own cycles: a write 206 cycles behind it is in its line, and shows from row 67 on" $?
[ "$(first_blue $player 3)" = 69 ]
tell "and one 218 cycles behind it in the next line: row 68" $?
sed 's/cycles -= taken ? taken : /cycles -= taken ? 0 : /' examples/cartridge/play.c >$work/slip.c
! cmp -s examples/cartridge/play.c $work/slip.c && cc -std=c99 -O2 -Iinclude $work/slip.c build/native/libvdp.a -lz80ex -o $work/slip && [ "$(first_blue $work/slip 3)" = 68 ]
tell "a player that does not count them shows it a row too early, and is caught" $?

# Buttons: a cartridge that shows the two ports as it finds them in each frame, in the recording.
cat >$work/buttons.asm <<'ASM'
        org 0
wait:   in a, (0x7e)
        cp 0xc1
        jr nz, wait
        in a, (0x00)
        out (0xbe), a
        in a, (0xdc)
        out (0xbe), a
next:   in a, (0x7e)
        cp 0xc1
        jr z, next
        jr wait
ASM
assembled $work/buttons.asm
$player --frames 8 --press 2:start --press 3-4:up --press 4:left --press 5:1 --press 6:2 --press 6:down --press 7:right --record $work/buttons.trace $work/buttons.gg >/dev/null &&
    [ "$(written $work/buttons.trace)" = ' c0 ff 40 ff c0 fe c0 fa c0 ef c0 dd c0 f7 c0 ff' ]
tell "buttons are down in the frames that --press names, and in no others" $?
cp $work/buttons.gg $work/buttons.sms
$player --home --frames 8 --press 3-4:up --press 4:left --press 5:1 --press 6:2 --press 6:down --press 7:right --record $work/buttons.trace $work/buttons.sms >/dev/null &&
    [ "$(written $work/buttons.trace)" = ' ff ff ff ff ff fe ff fa ff ef ff dd ff f7 ff ff' ]
tell "at home too, but for start, which is not there" $?
refuses "start at home" 1 "play: --press: the home machine has no button start" --press 2:start --home build/cartridge/home.sms
refuses "a cartridge of the home machine without --home" 1 "play: build/cartridge/home.sms: a cartridge of the home machine, by its name: --home plays it" build/cartridge/home.sms
refuses "a cartridge of the handheld with --home" 1 "play: build/cartridge/split.gg: a cartridge of the handheld, by its name: it is played without --home" --home build/cartridge/split.gg
for press in start 0:start 1:fire 1: 5-4:up 1-:up x:up 1:start,2:up 9999999999:up ''; do
    refuses "--press '$press'" 1 "play: --press: FRAME:BUTTON or FRAME-FRAME:BUTTON, with start, up, down, left, right, 1 or 2, and not '$press'" --press "$press" build/cartridge/split.gg
done

# Pictures: PNG by the name, of any frame.
$player --frames 30 --frame 24 --picture $work/frame.ppm build/cartridge/split.gg >$work/said && cmp $work/split.ppm $work/frame.ppm && grep -q '^30 frames: ' $work/said
tell "--frame: the picture of an earlier frame, while it plays on" $?
$player --frame 24 --picture $work/frame.png build/cartridge/split.gg >$work/said && grep -q '^24 frames: ' $work/said
tell "--frame alone plays as far as that" $?
if command -v python3 >/dev/null; then
    python3 tools/ppm2png.py <$work/split.ppm >$work/other.png && python3 tests/desk/same.py $work/frame.png $work/other.png && [ "$(head -c 4 $work/frame.png | tail -c 3)" = PNG ]
    tell "a picture whose name ends in .png is a PNG with the same pixels" $?
else
    skip "the player's PNG" "no python3 here"
fi

# The page for authors, and the column of this chip in the handbook's table of players (the others' columns are made by `make peers`).
if command -v python3 >/dev/null; then
    said=$(python3 tests/desk/document.py docs/CARTRIDGE.md $work/page 2>&1)
    status=$?
    [ $status -eq 0 ] || printf '%s\n' "$said"
    tell "docs/CARTRIDGE.md: its commands print what stands there, and draw its picture: $(tail -n 1 <<<"$said")" $status
    python3 peers/run.py --here docs/HANDBOOK.md >$work/said 2>$work/err || { cat $work/err; false; }
    tell "docs/HANDBOOK.md has what this chip shows of $(($(wc -l <$work/said) - 2)) questions, beside other players" $?
    sed 's/^| glow-worms of nine on one line (sprites.gg) | 8 /| glow-worms of nine on one line (sprites.gg) | 9 /' docs/HANDBOOK.md >$work/other.md
    ! python3 peers/run.py --here $work/other.md >$work/said 2>$work/err && grep -q 'has another column of this chip' $work/err
    tell "and another answer there is caught" $?
else
    skip "the page for authors" "no python3 here"
fi

# What is wrong is told in one line.
good=build/cartridge/split.gg
: >$work/empty.gg
truncate -s 4194305 $work/large.gg
truncate -s 4194304 $work/largest.gg
refuses "no cartridge" 1 "play: no cartridge is named: play CARTRIDGE.gg, and --help tells more"
refuses "a cartridge that is not there" 2 "play: $work/none.gg: No such file or directory" $work/none.gg
refuses "a folder" 2 "play: $work: Is a directory" $work
refuses "an empty file" 1 "play: $work/empty.gg: it is empty, and no cartridge" $work/empty.gg
refuses "a file that is too large" 1 "play: $work/large.gg: it has more than 4,194,304 bytes, and is no cartridge" $work/large.gg
refuses "input without an end" 1 "play: /dev/zero: it has more than 4,194,304 bytes, and is no cartridge" /dev/zero
dd if=build/cartridge/split.gg of=$work/largest.gg conv=notrunc status=none
$player --frames 1 $work/largest.gg >/dev/null
tell "the largest file" $?
refuses "text" 1 "play: README.md: it is text, and no cartridge" README.md
refuses "a source" 1 "play: examples/cartridge/split.asm: it is text, and no cartridge" examples/cartridge/split.asm
refuses "a PNG" 1 "play: docs/split90.png: it is a picture (PNG), and no cartridge" docs/split90.png
refuses "a PPM" 1 "play: $work/split.ppm: it is a picture (PPM), and no cartridge" $work/split.ppm
refuses "a recording" 1 "play: $work/split.trace: it is a recording, and no cartridge: build/bin/desk shows it" $work/split.trace
refuses "a program" 1 "play: $player: it is a program for this machine, and no cartridge" $player
gzip -c $good >$work/packed.gg
refuses "one that is packed" 1 "play: $work/packed.gg: it is packed (gzip): unpack the cartridge first" $work/packed.gg
truncate -s 32768 $work/zeros.gg
$player --frames 2 $work/zeros.gg >$work/said 2>$work/err
[ $? -eq 1 ] && [ "$(cat $work/said)" = '2 frames: 524 steps, 0 port calls, 0 refused' ] && [ "$(cat $work/err)" = "play: $work/zeros.gg: its program has not used the chip in all this time: is it a cartridge?" ]
tell "a program that never uses the chip" $?
refuses "a frame that is not played" 1 "play: --frame: frame 3, and 2 are played" --frames 2 --frame 3 --picture $work/none.ppm $good
refuses "a frame without a picture" 1 "play: --frame: it goes with --picture" --frame 3 $good
refuses "no press" 1 "play: --press: FRAME:BUTTON is missing behind it" $good --press
for number in 0 -1 1000001 99999999999999999999 x 1x 1.5 ' 1' +1 ''; do
    refuses "'$number' frames" 1 "play: --frames: a number from 1 to 1000000, not '$number'" --frames "$number" $good
done
refuses "table 2" 1 "play: --table: a number from 0 to 1, not '2'" --table 2 $good
refuses "no number" 1 "play: --frames: a number is missing behind it" $good --frames
refuses "no name" 1 "play: --picture: a file's name is missing behind it" $good --picture
refuses "an option that there is not" 1 "play: --sound: no such option; --help tells which there are" --sound $good
refuses "two cartridges" 1 "play: $good: a second cartridge; one is played at a time" $good $good
for option in --picture --record --answers; do
    refuses "$option in a folder that is not there" 2 "play: $work/none/file: No such file or directory" $option $work/none/file $good
    refuses "$option that is the cartridge" 1 "play: $good: the cartridge itself would be written over" $option $good $good
    refuses "$option where no room is left" 2 "play: /dev/full: No space left on device" $option /dev/full $good
done
$player --frames 1 $good 2>$work/err >/dev/full
[ $? -eq 2 ] && [ "$(cat $work/err)" = 'play: standard output: No space left on device' ]
tell "standard output where no room is left" $?
cp $good "$work/--a cartridge"
(cd $work && ../../../$player --frames 1 -- "--a cartridge" >/dev/null)
tell "a name that begins as an option, behind --" $?
$player --help >$work/said 2>$work/err && [ ! -s $work/err ] && grep -q '^usage: play ' $work/said
tell "--help" $?

total
