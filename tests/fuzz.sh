#!/usr/bin/env bash
# fuzz.sh: a short run of `make fuzz`: every call of vdp.h with hostile arguments, on the library for this machine and as it is shipped; that the program
# speaks of every call of the header; and that it catches copies of the library with a slip in each.
. "$(dirname "$0")/begin.sh"
needs build
out=$work
flags="-std=gnu99 -Wall -Wextra -pedantic -Werror -O2 -Iinclude"

make --no-print-directory fuzz CALLS="${CALLS:-300000}" SEED="${SEED:-1}"
tell "make fuzz, on the library for this machine" $?
$CC_X86 $flags tests/fuzz.c build/libvdp.a -o $out/shipped && $RUN $out/shipped "$((${CALLS:-300000} / 10))" "${SEED:-1}"
tell "the same on the library as it is shipped" $?
diff <(sed -nE 's/^uint(32|64)_t (vdp_[a-z_]+)\(.*/\2/p' include/vdp.h | sort) <(build/fuzz --calls | sort)
tell "it makes every call of the header" $?

status=0
for words in '-5 1' 'abc 1' '10 x' '99999999999999999999999 1' "'' 1" '10 1 1' 10; do
    said=$(eval timeout 10 build/fuzz $words 2>&1)
    [ $? -eq 2 ] && [[ $said == 'usage: fuzz CALLS SEED | '* ]] || status=1
done
tell "what is no number is told" $status

# caught NAME FUNCTION EDIT LINE: a copy of the library with this edit (sed) of a function is stopped at, whatever the seed, and by one of a few with such a line
# (what stores behind a buffer meets the page there only where the buffer stands against that one, and not against the page before it).
caught() {
    local changed seed
    sed -E "/^define .*@\"$2\"\\(/,/^}/$3" build/native/vdp.ll >$out/slip.ll
    changed=$(diff build/native/vdp.ll $out/slip.ll | grep -c '^>')
    status=1
    if sh tools/native-module.sh $out/slip.ll $out/slip.o && cc $flags tests/fuzz.c $out/slip.o -o $out/slip && [ "$changed" -gt 0 ]; then
        for seed in 1 2 3 4 5 6 7 8; do
            ! $out/slip 100000 $seed >$out/said || break
            if grep -qE "$4" $out/said; then
                status=0
                break
            fi
        done
    fi
    [ $status -eq 0 ] || { echo "$changed lines changed"; cat $out/said; }
    tell "caught: $1" $status
}
caught "159 bytes are enough for the layers of any row" points::layer_due 's/udiv i64 %r[0-9]+, 4$/udiv i64 639, 4/' '^fuzz: call [0-9]+, vdp_layer_(row_)?step: '
caught "the counter jumps a line late" raster::jump_line 's/store i8 -37,/store i8 -36,/' '^fuzz: call [0-9]+, .*step: sets another line'
caught "a block of the first version has table 1" block::table_byte 's/store i8 0,/store i8 1,/' '^fuzz: call [0-9]+, '
# One that is not refused, and stores behind its buffer: the page there stops it.
caught "a record is written where its room is too short" trace_record::put_record 's/(@"trace_record::has_room"\(i64 %r[0-9]+, i64 %a2, i64) %r[0-9]+/\1 0/' '^fuzz: call [0-9]+, vdp_record_.*: touches memory that it may not'

total
