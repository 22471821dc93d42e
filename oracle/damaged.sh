#!/bin/sh
# damaged.sh: damaged copies of the library, one constant changed in each, unproved, must be caught by the comparison; the library as it is must not.
# Uses build/native/vdp.ll and libvdp.a (make native).
set -eu
cd "$(dirname "$0")/.."
here=build/oracle/here
mkdir -p $here
[ -e build/native/libvdp.a ] || { echo "damaged: no build/native/libvdp.a: make native makes it" >&2; exit 2; }

# compared NAME OBJECT: the exit status of the comparison with this object, and how it went: beside the Rust and the rules, or of the home machine's calls.
beside=here
compared() {
    HERE_LIB=$2 sh oracle/build.sh $beside
    began=$(date +%s)
    status=0
    case $beside in
    here) $here/compare "${CALLS:-200000}" "${SEED:-1}" >$here/damaged.out 2>/dev/null || status=$? ;;
    docks-here) $here/docks "${CALLS:-50000}" "${SEED:-1}" >$here/damaged.out 2>/dev/null || status=$? ;;
    esac
    echo "$1: exit status $status after $(($(date +%s) - began)) s; $(grep -m 1 '^difference' $here/damaged.out || tail -n 1 $here/damaged.out)"
}

failed=0
compared "the library as it is" build/native/libvdp.a
[ $status -eq 0 ] || failed=1

# damage NAME FUNCTION EDIT [LINES]: a sed script on the text of this function, which must change one line of it, or so many.
damage() {
    sed -E -e "/^define .*@\"$2\"\\(/,/^}/$3" build/native/vdp.ll >$here/damaged.ll
    changed=$(diff build/native/vdp.ll $here/damaged.ll | grep -c '^>') || true
    [ "$changed" -eq "${4:-1}" ] || {
        echo "$1: the edit changes $changed lines of $2 and not ${4:-1}: $3"
        failed=1
        return
    }
    sh tools/native-module.sh $here/damaged.ll $here/damaged.o
    compared "$1 ($2)" $here/damaged.o
    [ $status -eq 1 ] || failed=1
}

damage "table 0: the counter jumps at DB and not at DA" raster::jump_line 's/store i8 -38,/store i8 -37,/'
damage "table 1: the counter jumps at DC and not at DB" raster::jump_line 's/store i8 -37,/store i8 -36,/'
damage "the second version's mark is 56 55 and not 56 54" block::mark_of 's/store i8 84,/store i8 85,/'
damage "a block of the first version has table 1 and not 0" block::table_byte 's/store i8 0,/store i8 1,/'
damage "the list of sprites ends at D1 and not at D0" sprites::next_on 's/(icmp eq i8 %[ar][0-9]+), -48$/\1, -47/'
damage "status bit 7 is set at C2 and not at C1" points::ended 's/(icmp eq i8 %[ar][0-9]+), -63$/\1, -62/'
damage "the screen's end is reported at C2 and not at C1" points::report_of 's/(icmp ne i8 %[ar][0-9]+), -63$/\1, -62/'
damage "a sprite's layer is 65 + n and not 64 + n" column::owner_of 's/(add i64) 64,/\1 65,/'
damage "a pixel that is held back takes its column from a sprite that was drawn there" column::owner_of 's/icmp eq i8 (%[ar][0-9]+), 0$/icmp ne i8 \1, 1/'
damage "159 bytes are enough for the layers of any row" points::layer_due 's/udiv i64 %r[0-9]+, 4$/udiv i64 639, 4/'

# The home machine's calls, beside their second writing.
beside=docks-here
compared "the library as it is, at home" build/native/libvdp.a
[ $status -eq 0 ] || failed=1
damage "the sideways lock holds row 16 too" background::home_column 's/(icmp ult i64 %a1), 16$/\1, 17/'
damage "one pixel on its own: the fill is nine columns wide" pixel::home_number 's/(icmp ult i64 %a5), 8$/\1, 9/'
damage "a ninth column has layer 2" row::cover 's/(icmp ult i64 %r[0-9]+), 8$/\1, 9/'
damage "a filled column has layer 3 and not 2" row::cover 's/store i8 2,/store i8 3,/'
damage "the fill's colour is register 7 mod 8" row::fill_over 's/(urem i64 %r[0-9]+), 16$/\1, 8/'
damage "a row sets no status" row::render_line 's/store i8 %r[0-9]+, ptr %r0,/store i8 0, ptr %r0,/'
damage "palette addresses go on to 63" home_block::write_palette 's/(urem i16 %r[0-9]+), 32$/\1, 64/'
damage "dirty and table bytes of 2 are taken" home_block::well_formed 's/(icmp ule i8 %r[0-9]+), 1$/\1, 2/' 2

[ $failed -eq 0 ] && echo "damaged: every damaged copy was caught" || echo "damaged: FAILED"
exit $failed
