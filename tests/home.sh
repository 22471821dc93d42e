#!/usr/bin/env bash
# home.sh: build/bin/home-trace and build/bin/home-snapshot on whole, damaged, empty and long recordings; what docs/HOME.md says of colours, locks, fill and
# sprites, asked of them; and the pictures, lines and C program of that page, made anew. (Beside the rules written a second time they are held in oracle/suite.sh, with
# the calls for C.)
. "$(dirname "$0")/begin.sh"
needs build desk
page=docs/HOME.md

# What the handheld prints where neither palette, picture nor status is asked for; and refusal 6, which does not come here.
for name in example empty p1 p2 p3 p6 p7 p12; do
    build/bin/home-trace tests/traces/$name.trace | cmp tests/traces/$name.text -
    tell "home-trace $name: as trace prints it" $?
done
for name in p5 refusals; do
    sed 's/^w 6$/w 0/' tests/traces/$name.text >$work/expected
    ! cmp -s $work/expected tests/traces/$name.text && build/bin/home-trace tests/traces/$name.trace | cmp $work/expected -
    tell "home-trace $name: accepted where the handheld has refusal 6" $?
done

# A short trace of every kind of record, with refusals and a bad area at its end; and a picture with the fill, as the rules give it.
build/bin/home-trace tests/programs/home-trace.trace | cmp tests/programs/home-trace.text -
tell "home-trace: the text beside its trace" $?
build/bin/home-snapshot tests/programs/home-snapshot.trace | cmp tests/programs/home-snapshot.ppm -
tell "home-snapshot: the picture beside its trace" $?

# Damaged ones, behind records of 0, 3 and 7 bytes. START and RECORDS are as printf takes them; START prints TEXT.
bad() {
    printf "$1$3" >$work/damaged
    printf 'bad %s\n' "$(printf "$1" | wc -c | tr -d ' ')" >$work/line
    { printf "$2"; cat $work/line; } >$work/expected
    build/bin/home-trace <$work/damaged | cmp $work/expected - && build/bin/home-snapshot <$work/damaged | cmp $work/line -
}
damaged() {
    bad '' '' "$2" && bad 'PR~' 'r 0 00\n' "$2" && bad 'PW\277\000LS\000' 'w 0\ns 0 01 0 0\n' "$2"
    tell "bad at 0, 3 and 7: $1" $?
}
damaged 'area 1' 'LS\001LS\000'
damaged 'area 2' 'LS\002LS\000'
damaged 'area 3' 'LS\003LS\000'
damaged 'area 255' 'LS\377LS\000'
damaged 'no mark at all' 'XX\000\000LS\000'
damaged 'a step cut behind LS' 'LS'
damaged 'a write cut behind its port' 'PW\277'

# At the limit, and past it.
yes 'LS0' | tr -d '\n' | tr 0 '\000' | head -c 65535 >$work/steps
[ "$(build/bin/home-trace <$work/steps | tail -n 1)" = 'end 21845' ] && [ "$(build/bin/home-snapshot <$work/steps | wc -c)" -eq 147471 ]
tell '65,535 bytes: 21,845 steps' $?
{ cat $work/steps; printf 'P'; } >$work/longer
printf 'long\n' >$work/expected
build/bin/home-trace <$work/longer | cmp $work/expected - && build/bin/home-snapshot <$work/longer | cmp $work/expected -
tell '65,536 bytes' $?

# Pictures. Nothing drawn: zeros.
{ printf 'P6\n256 192\n255\n'; head -c 147456 /dev/zero; } >$work/expected
build/bin/home-snapshot </dev/null | cmp $work/expected -
tell 'no input: a black picture of 256 x 192' $?
# shows NAME Y X COUNT COLOUR: COUNT pixels from column X of row Y on have this colour.
shows() {
    [ "$(od -An -v -tx1 -j $((15 + 768 * $2 + 3 * $3)) -N $((3 * $4)) $work/$1.ppm | tr -d ' \n')" = "$(yes "$5" | head -n "$4" | tr -d '\n')" ] ||
        { echo "$1: row $2, columns $3 to $(($3 + $4 - 1)) are not $5"; return 1; }
}
# The colours of the page: each as colour 0, by address 0 and by address 32; a step draws row 1.
colours=$(sed -nE 's/^\| ([0-9A-F]{2}) \| ([0-9]+), ([0-9]+), ([0-9]+) \|.*/\1 \2 \3 \4/p' $page)
status=0
while read -r byte red green blue; do
    for address in 000 040; do
        printf "PW\\277\\${address}PW\\277\\300PW\\276\\x${byte}LS\\000" | build/bin/home-snapshot >$work/colour.ppm
        shows colour 1 0 256 "$(printf '%02x%02x%02x' "$red" "$green" "$blue")" && shows colour 0 0 256 000000 || status=1
    done
done <<<"$colours"
[ $status -eq 0 ] && [ "$(wc -l <<<"$colours")" -ge 9 ]
tell "the colours of $page, by an address and by 32 more" $?

# The program and the lines that the page shows.
shown=$(sed -n "s/^\(printf '.*'\) | build\/bin\/home-trace\$/\1/p" $page)
sed -n '/home-trace$/,/^end /p' $page | sed -n '/^[wrse]/p' >$work/expected
sh -c "$shown" | build/bin/home-trace | cmp $work/expected -
tell 'the trace that the page shows with printf' $?

# The C program of the page, with the library for this machine, prints the line behind it.
awk '/^```c$/ { on = 1; next } /^```$/ { on = 0 } on' $page >$work/page.c
awk '/^```c$/ { c = 1 } c == 2 && /^```$/ { c = 3; next } c == 1 && /^```$/ { c = 2; next } c == 3 && /^```$/ { exit } c == 3' $page >$work/expected
[ -s $work/page.c ] && [ -s $work/expected ] && cc -std=c99 -Wall -Wextra -pedantic -Werror -O2 -Iinclude $work/page.c build/native/libvdp.a -o $work/page && $work/page | cmp $work/expected -
tell 'the C program of the page' $?

if ! command -v python3 >/dev/null; then
    skip 'the pictures of the page' 'no python3 here'
    total
    exit
fi

# made NAME SCRIPT: the trace and the picture of a script. behind NAME LINES: those of these lines, as printf has them, behind the scene.
made() {
    build/bin/desk make "$2" -o $work/$1.trace >/dev/null && build/bin/home-snapshot $work/$1.trace >$work/$1.ppm
}
behind() {
    { cat docs/scripts/home-scene.desk; printf "$2"; } >$work/$1.desk && made "$1" $work/$1.desk
}
for name in bar panel fill; do
    made $name docs/scripts/home-$name.desk && python3 tools/ppm2png.py 2 <$work/$name.ppm | cmp docs/home-$name.png -
    tell "docs/home-$name.png is what home-snapshot writes" $?
done
# The bar's marks stand at columns 0 and 32; from row 16 on the panel's last columns come in on the left, a line of it above, and behind them brick.
shows bar 14 0 4 ffffff && shows bar 15 0 256 000055 && shows bar 14 32 4 ffffff && shows bar 16 0 20 00aa00 && shows bar 16 20 7 aa5500
tell 'rows 0 to 15 stand, and row 16 goes sideways' $?
shows panel 0 191 1 0055aa && shows panel 0 192 64 000055 && shows panel 16 192 64 00aa00 && shows panel 184 0 192 000055
tell 'columns 192 and up stand, and column 191 goes up' $?
# the first row, the last one, that of the discs under it, and column 8 behind it
shows fill 0 0 8 555555 && shows fill 191 0 8 555555 && shows fill 63 0 8 555555 && shows fill 63 8 2 ffff00 && shows fill 65 8 2 ffff00 && shows fill 67 0 8 555555 && shows fill 67 8 1 005500
tell 'columns 0 to 7 are filled over background and sprites, and column 8 is not' $?
[ "$(build/bin/home-trace $work/fill.trace | grep '^r ' | tr '\n' ' ')" = 'r 0 A0 r 0 20 ' ]
tell 'the discs meet under the fill' $?
shows bar 104 252 4 ffff00 && shows bar 104 0 8 005500
tell 'a sprite at column 252 is cut by the right edge, and does not come in on the left' $?
# A status bar that follows the vertical scroll, and a panel that follows the sideways one.
behind both 'reg 0 = C0\nreg 8 = 14\nreg 9 = 28\nuntil line 255\nuntil line 191\n'
shows both 0 192 64 000055 && shows both 15 0 1 0055aa && shows both 184 20 172 000055 && shows both 16 192 4 0055aa && shows both 16 196 7 aa5500 && shows both 16 212 44 00aa00
tell 'both locks at once' $?
# Tiles of priority under the fill hold both discs back, so that nothing meets.
behind held "map 29 7 = 8 priority times 2\nmap 29 8 = 8 priority times 2\n$(grep -v include docs/scripts/home-fill.desk)\n"
[ "$(build/bin/home-trace $work/held.trace | grep '^r ' | tr '\n' ' ')" = 'r 0 80 r 0 00 ' ] && shows held 63 0 8 555555 && shows held 63 8 12 005500
tell 'priority holds sprites back under the fill' $?

# The commands of the page.
said=$(python3 tests/desk/document.py $page $work/shown 2>&1)
status=$?
[ $status -eq 0 ] || printf '%s\n' "$said"
tell "its commands print what stands there, and draw its pictures: $(tail -n 1 <<<"$said")" $status

# One scene on both: what the handheld shows is what stands in the home machine's upper left corner.
made house docs/scripts/both-home.desk && build/bin/desk make docs/scripts/both-handheld.desk -o $work/handheld.trace >/dev/null && build/bin/snapshot $work/handheld.trace >$work/handheld.ppm &&
    tail -c 69120 $work/handheld.ppm | od -An -v -tx1 -w480 | cmp - <(tail -c 147456 $work/house.ppm | od -An -v -tx1 -w768 | head -n 144 | cut -c 1-1440) && shows house 95 0 40 55aaff && shows house 96 0 256 aa5500
tell 'the scene of both machines is the same in columns 0 to 159, rows 0 to 143' $?

# Layers are 2 where the page's screen is filled, and nowhere else: by the library, at every pixel, beside the pictures with the fill and without it.
said=$(python3 tests/desk/filled.py $work/fill.trace $work/bar.trace $work/panel.trace 2>&1)
status=$?
[ $status -eq 0 ] || printf '%s\n' "$said"
tell "layers and pixels of the page's screens: $(tail -n 1 <<<"$said")" $status

# The question of the page: a colour that changes while the counter reads 90.
behind ninety 'until line 255\nuntil line 90\ncolour 0 = 3F\nuntil line 191\n'
shows ninety 90 40 8 0055aa && shows ninety 91 40 8 ffffff && shows ninety 191 40 1 ffffff
tell 'a colour changed at line 90: row 90 has the old one, row 91 the new' $?

total
