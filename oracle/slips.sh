#!/bin/sh
# slips.sh: copies of the home machine's second writing, a slip in each, stand in for `home-trace` and `home-snapshot`, which `homes` must catch, and for the
# library, which `docks` must catch, in its calls for C; the writing as it is must not be caught. Needs neither the library nor the published Rust.
# RANDOM_TRACES, CALLS and SEED may be set.
set -eu
cd "$(dirname "$0")/.."
. tools/cross.sh
work=build/oracle/slips
rm -rf $work
mkdir -p $work/src $work/include
sh oracle/build.sh homes
# (with the stand-in, whatever HERE_LIB says)
HERE_LIB= sh oracle/build.sh docks-here
cp oracle/*.rs $work/src/
cp include/vdp.h $work/include/
# The stand-in is looked for beside the program.
cp build/oracle/here/docks $work/
# Two programs of one file: the text and the picture of a trace on standard input.
for both in trace:text snapshot:picture; do
    printf '#!/bin/sh\nexec %s/homes %s\n' "$PWD/$work" "${both#*:}" >$work/home-${both%:*}
    chmod +x $work/home-${both%:*}
done
failed=0

# programs: both comparisons of the programs with the writing in $work/src, in $said: their exit statuses, and where the first trace differs.
programs() {
    $RUSTC_HERE $flags --extern rules=$work/librules.rlib $work/src/homes.rs -o $work/homes
    for what in trace snapshot; do
        status=0
        # kept traces go to a folder of our own
        TMPDIR=$PWD/$work RUN= build/oracle/homes $what "${RANDOM_TRACES:-50}" "${SEED:-1}" $work/home-$what >$work/out 2>/dev/null || status=$?
        said="$said$what $status"
        [ $status -eq 0 ] || said="$said ($(grep -m 1 -oE 'row [0-9]+, column [0-9]+' $work/out || grep -m 1 -oE 'the same up to byte [0-9]+' $work/out))"
        said="$said; "
    done
}

# calls: the same of the calls for C, each and then single pixels.
calls() {
    $RUSTC_HERE $flags --crate-type cdylib --crate-name vdp --extern rules=$work/librules.rlib $work/src/standin.rs -o $work/libvdp.so
    status=0
    { $work/docks "${CALLS:-50000}" "${SEED:-1}" && $work/docks pixels 2 "${SEED:-1}"; } >$work/out 2>/dev/null || status=$?
    where=$(sed -nE 's/^difference( at call [0-9]+)?: ([^;]*)(; Call . kind: ([A-Za-z]+))?.*/\2, \4/p' $work/out)
    # one that runs out of a buffer stops the program by a signal
    [ $status -lt 128 ] || status=1 where=stopped
    said="${said}calls $status"
    [ $status -eq 0 ] || said="$said (${where%, })"
    said="$said; "
}

# held NAME WANTED WHAT..: what these comparisons (`programs`, `calls`) say of the writing in $work/src; WANTED is 1 where each must catch it, else 0.
held() {
    name=$1 wanted=$2
    shift 2
    flags="--edition 2021 -O -C overflow-checks=off -A warnings"
    said=
    if ! $RUSTC_HERE $flags --crate-type rlib --crate-name rules $work/src/rules.rs -o $work/librules.rlib; then
        echo "$name: does not compile"
        failed=1
        return
    fi
    all=1 none=1
    for what; do
        before=$said
        $what
        case ${said#"$before"} in
        *" 1"*) none=0 ;;
        *) all=0 ;;
        esac
    done
    case $wanted$all$none in
    11? | 0?1) ;;
    *) failed=1 ;;
    esac
    echo "$name: $([ $all -eq 1 ] && echo caught || echo not caught): ${said%; }"
}

held "the second writing as it is" 0 programs calls

# slip NAME EDIT [FILE [WHAT..]]: a sed script that must change the writing: home.rs, or this file of it. By both comparisons, or by these.
slip() {
    name=$1 edit=$2 file=${3:-home.rs}
    if [ $# -gt 3 ]; then shift 3; else set -- programs calls; fi
    sed -E "$edit" oracle/$file >$work/src/$file
    if cmp -s oracle/$file $work/src/$file; then
        echo "$name: the edit changes nothing: $edit"
        failed=1
    else
        held "$name" 1 "$@"
    fi
    cp oracle/$file $work/src/
}
# in_calls NAME EDIT [FILE]: one that the calls for C alone can show; in dock.rs, if no other file is named.
in_calls() { slip "$1" "$2" "${3:-dock.rs}" calls; }

# The machine.
slip "the sideways scroll is stopped in rows 0 to 14" 's/y < 16;/y < 15;/'
slip "the sideways scroll is stopped in rows 0 to 16" 's/y < 16;/y < 17;/'
slip "the vertical scroll is stopped from column 191 on" 's/x >= 192 /x >= 191 /'
slip "the vertical scroll is stopped from column 193 on" 's/x >= 192 /x >= 193 /'
slip "it is stopped by tiles, from the one that column 192 cuts on" 's/stopped_down \&\& x >= 192 /stopped_down \&\& x + 7 - (x + 256 - sideways) % 8 >= 192 /'
slip "the map is 256 lines high" 's/\(y \+ down\) % 224/(y + down) % 256/'
slip "the scroll is not latched" 's/self\.vertical_scroll as usize \};/registers[9] as usize };/'
slip "the fill goes under sprites" 's/^        self\.sprites\(video, y, \&mut shown.*/        if bit(registers[0], 5) { for number in \&mut shown[..8] { *number = 16 + registers[7] % 16; } } self.sprites(video, y, \&mut shown, \&mut owners, \&front, met); return (shown, owners);/'
slip "the fill is nine columns wide" 's/\&mut shown\[\.\.8\]/\&mut shown[..9]/'
slip "the fill is seven columns wide" 's/\&mut shown\[\.\.8\]/\&mut shown[..7]/'
slip "the fill is of palette 0" 's/\*number = 16 \+ registers\[7\]/*number = registers[7]/'
slip "the fill takes five bits of register 7" 's/16 \+ registers\[7\] % 16/registers[7] % 32/'
slip "nothing meets under the fill" 's/( met\.struck_under_the_fill.*)/\1 if !filled(column) { self.status |= 0x20; } continue;/'
slip "nothing is held back under the fill" 's/else if front\[column as usize\]/else if front[column as usize] \&\& !filled(column)/'
slip "pixels off the row mark around the circle" 's/^                    off = true;/                    off = true; let place = (column + 256) as usize % 256; if taken[place] { self.status |= 0x20; } taken[place] = true;/'
slip "pixels off the row show around the circle" 's/let column = left \+ pixel;/let column = (left + pixel + 256) % 256;/'
slip "sprites off the row are not counted" 's/^            count \+= 1;/            if !(video[table + 128 + 2 * n] == 0 \&\& early) { count += 1; }/'
slip "the early clock takes seven off" 's/if early \{ 8 \}/if early { 7 }/'
slip "palette addresses are set mod 64" 's/\(low % 32\)/(low % 64)/'
slip "palette addresses step mod 64" 's/\(\(at \+ 1\) % 32\)/((at + 1) % 64)/'
slip "the even byte waits for the odd one" 's/^                self\.palette\[at\] = value;/                if at % 2 == 1 { self.palette[at] = value; }/'
slip "the read buffer takes a palette byte" 's/^                self\.palette\[at\] = value;/                self.palette[at] = value; self.read_buffer = value;/'
slip "a palette write leaves the colours clean" 's/self\.dirty \|= .*/self.dirty |= false;/'
slip "red is in the highest bits" 's/85 \* \(byte % 4\), 85 \* \(byte \/ 4 % 4\), 85 \* \(byte \/ 16 % 4\)/85 * (byte \/ 16 % 4), 85 * (byte \/ 4 % 4), 85 * (byte % 4)/'
slip "blue is the upper half of the byte" 's/85 \* \(byte \/ 16 % 4\)/85 * (byte \/ 64 % 4)/'
slip "a row is drawn at line 192 too" 's/if y < HEIGHT/if y <= HEIGHT/; s/4 \* WIDTH \* HEIGHT\]/4 * WIDTH * (HEIGHT + 1)]/'
slip "rows begin at line 1" 's/if y < HEIGHT/if y > 0 \&\& y < HEIGHT/'

# The programs.
slip "area 1 is taken" "s/\\[b'L', b'S', 0, \\.\\.\\]/[b'L', b'S', 0 | 1, ..]/" home.rs programs
slip "the table has 261 steps" 's/DEFAULT_TABLE\)/Table::Steps261)/' home.rs programs

# What only a caller sees: colours and bytes that make no other picture.
in_calls "every palette write makes the colours dirty" 's/self\.dirty \|= .*/self.dirty = true;/' home.rs
in_calls "a palette byte with other upper bits alone leaves them clean" 's/self\.palette\[at\] != value/self.palette[at] % 64 != value % 64/' home.rs
in_calls "a palette byte is stored by its low six bits" 's/^                self\.palette\[at\] = value;/                self.palette[at] = value % 64;/' home.rs
in_calls "the fourth byte of a pixel is 0" 's/\(byte \/ 16 % 4\), 255\]/(byte \/ 16 % 4), 0]/' home.rs
in_calls "a fresh device is clean" 's/dirty: true/dirty: false/' home.rs
in_calls "the latch stays where no memory is chosen" '/fn data\(/,/^    }/{s/self\.command_latch = None;/let latched = self.command_latch.take();/; s/Chosen::Nothing => return 4,/Chosen::Nothing => { self.command_latch = latched; return 4; }/}' home.rs
in_calls "the latch stays where the address is outside" '/fn data\(/,/^    }/{s/self\.command_latch = None;/let latched = self.command_latch.take();/; s/at >= 32 => return 7,/at >= 32 => { self.command_latch = latched; return 7; }/}' home.rs
in_calls "palette address 32 is taken as 0" 's/Chosen::Palette if at >= 32 => return 7,//; s/self\.palette\[at\]/self.palette[at % 32]/g' home.rs
in_calls "video address 16,384 is read as 0" 's/Chosen::Video if at >= VIDEO_SIZE => \(7, 0\),//; s/video\[at\]\)\)/video[at % VIDEO_SIZE]))/' home.rs
in_calls "5 comes only where the address is inside" 's/Chosen::Palette => \(5, 0\),/Chosen::Palette => (if at < 32 { 5 } else { 7 }, 0),/' home.rs

# Layers.
in_calls "there is no layer 2" 's/\*owner = 2;/let _ = owner;/' home.rs
in_calls "layer 2 stands only over the background" 's/\*owner = 2;/if *owner == 0 { *owner = 2; }/' home.rs
in_calls "layer 2 leaves what was held back" 's/\*owner = 2;/if *owner != 1 { *owner = 2; }/' home.rs
in_calls "layer 2 is in column 8 too" 's/\&mut owners\[\.\.8\]/\&mut owners[..9]/' home.rs
in_calls "layer 2 is there with no fill" 's/^        \(shown, owners\)/        owners[..8].fill(2); (shown, owners)/' home.rs
in_calls "a sprite's layer is 65 + n" 's/= 64 \+ n as u8/= 65 + n as u8/' home.rs
in_calls "a sprite that meets another takes its column" 's/^( +)(met\.row\.struck = true;)/\1\2 owners[column as usize] = 64 + n as u8;/' home.rs
in_calls "what is held back has no layer" 's/owners\[column as usize\] = 1;//' home.rs

# One pixel.
in_calls "a pixel without the fill" 's/self\.clone\(\)\.picture/{ let mut bare = self.clone(); bare.registers[0] \&= 0xDF; bare }.picture/' home.rs
in_calls "a pixel with the colours as they stand" 's/let cache = if self\.dirty .*/let cache = self.cache;/' home.rs
in_calls "a pixel with the colours made anew" 's/let cache = if self\.dirty .*/let cache = colours(\&self.palette);/' home.rs
in_calls "a pixel by register 9, not latched" 's/self\.clone\(\)\.picture/{ let mut now = self.clone(); now.vertical_scroll = now.registers[9]; now }.picture/' home.rs
in_calls "a pixel with no sprites" 's/self\.clone\(\)\.picture\(video/{ let mut bare = self.clone(); bare.registers[5] = 0; bare }.picture(\&{ let mut ended = video.to_vec(); ended[0] = 0xD0; ended }/' home.rs
in_calls "a pixel's red is highest" 's/from_le_bytes\(bytes\)/from_be_bytes(bytes)/'
in_calls "row 192 has a pixel" 's/row as usize >= HEIGHT/row as usize > HEIGHT/'
in_calls "column 256 has the pixel of column 255" 's/column as usize >= WIDTH/column as usize > WIDTH/; s/column as usize\);/(column as usize).min(255));/'
in_calls "a pixel past the screen is refused by 9" 's/^        return 0;/        return 9;/'

# Blocks.
in_calls "a table byte above 1 is taken" 's/\&\& block\[25\] <= 1//; s/from_number\(block\[25\]\)/from_number(block[25] % 2)/'
in_calls "dirty above 1 is taken" 's/\&\& block\[24\] <= 1//'
in_calls "a jump flag above 1 is taken" 's/\&\& block\[15\] <= 1//'
in_calls "a chosen memory above 2 is taken" 's/\&\& block\[20\] <= 2//'
in_calls "a latch flag above 1 is taken" 's/\&\& block\[21\] <= 1//'
in_calls "a byte under an empty latch is taken" 's/\&\& \(block\[21\] == 1 \|\| block\[22\] == 0\)//'
in_calls "the mark is not looked at" 's/\&\& block\[1\] == 0x48//'
in_calls "187 bytes are taken" 's/^    block\.len\(\) == BLOCK_SIZE/    block.len() == BLOCK_SIZE || block.len() == 187/; s/^    state\.copy_from/    state[..BLOCK_SIZE].copy_from/'
in_calls "the high byte of the address is lost" 's/ \+ 256 \* block\[18\] as u16//'
in_calls "the latched scroll is register 9" 's/= block\[23\];/= block[3 + 9];/'
in_calls "palette and cache stand one byte late" 's/\[26\.\.58\]/[27..59]/g'
in_calls "a block comes back with the cache of its palette" 's/^    Some\(home\)/    home.cache = crate::home::colours(\&home.palette); Some(home)/'
in_calls "fresh blocks have table 0" 's/DEFAULT_TABLE as u8/0/'
in_calls "table 2 is made as table 0" 's/match Table::from_number\(table\)/match Table::from_number(table % 2)/'

# Refusals and lengths.
in_calls "8 comes before 10" 's/^    let mut home = match decode/    if video_len != VIDEO_SIZE { return 8; }\n    let mut home = match decode/'
in_calls "16 comes before 9" 's/^(        if pixels\.len\(\) < if whole)/        if layers.as_ref().map_or(false, |layers| layers.len() < WIDTH) { return 16; }\n\1/'
in_calls "16 comes before 12" 's/^(        if whole \&\& pixels\.len\(\))/        if layers.as_ref().map_or(false, |layers| layers.len() < WIDTH) { return 16; }\n\1/'
in_calls "12 comes before 9 of a frame of the handheld's" 's/^(        if pixels\.len\(\) < if whole)/        if whole \&\& pixels.len() == 92_160 { return 12; }\n\1/'
in_calls "a longer frame is taken" 's/if whole \&\& pixels\.len\(\) > FRAME_SIZE/if false/'
in_calls "a longer row is refused" 's/if whole \&\& pixels\.len\(\) > FRAME_SIZE/if pixels.len() > if whole { FRAME_SIZE } else { ROW_SIZE }/'
in_calls "255 bytes are enough for layers" 's/layers\.len\(\) < WIDTH\)/layers.len() + 1 < WIDTH)/; s/layers\[\.\.WIDTH\]\.copy_from_slice\(\&owners\)/let n = WIDTH.min(layers.len()); layers[..n].copy_from_slice(\&owners[..n])/'
in_calls "a sheet may be longer" 's/sheet\.len\(\) != SHEET_SIZE/sheet.len() < SHEET_SIZE/; s/home\.dump\(video, sheet\)/home.dump(video, \&mut sheet[..SHEET_SIZE])/'
in_calls "a step that is refused by 9 has moved the counter" '/^fn step\(/,/^}/s/return 9;/home.counter = home.counter.wrapping_add(1); return 9;/'
in_calls "the high byte of a port counts" 's/(home\.write_port\(video, )\(port % 256\) as u8/\1if port > 255 { 0 } else { port as u8 }/'

# Where a row goes.
in_calls "the row goes to the start of the frame" 's/ROW_SIZE \* y \}/0 * y }/'
in_calls "layers change where no row is drawn" 's/^        if let Some\(y\) = stepped\.row \{/        if stepped.row.is_none() { if let Some(layers) = layers { layers[0] = 0; } }\n        else if let Some(y) = stepped.row {/'
in_calls "the byte behind the layers changes" 's/^(                )layers\[\.\.WIDTH\]\.copy_from_slice\(\&owners\);/\1layers[..WIDTH].copy_from_slice(\&owners); if layers.len() > WIDTH { layers[WIDTH] = 0; }/'
in_calls "the dump makes the colours anew" 's/dump_tiles\(\&self\.registers, \&self\.cache/dump_tiles(\&self.registers, \&colours(\&self.palette)/' home.rs

[ $failed -eq 0 ] && echo "slips: every slip was caught" || echo "slips: FAILED"
exit $failed
