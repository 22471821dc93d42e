#!/usr/bin/env bash
# programs.sh: what the programs do around their work: the input by name or on standard input, --help, what is told on standard error where a read or a
# write fails, and the exit status. What they print of a trace is in traces.sh, of a block in repair.sh, of a sheet in tiles.sh.
. "$(dirname "$0")/begin.sh"
needs build
bin=$PWD/build/bin
work=$PWD/$work
mkdir "$work/a folder"
trace=tests/traces/split90.trace

# told NAME LINE: the last run wrote nothing to standard output, this one line to standard error, and ended with status 1.
told() {
    [ "$status" -eq 1 ] && [ ! -s "$work/out" ] && printf '%s\n' "$2" | cmp - "$work/err"
    tell "$1" $?
}
# run PROGRAM WORDS..: with what it is given on standard input.
run() {
    local program=$1
    shift
    build/bin/$program "$@" >"$work/out" 2>"$work/err"
    status=$?
}

for program in trace snapshot layers trace-261 snapshot-261 home-trace home-snapshot sheet repair; do
    # an input that is told nothing of: a trace, a sheet of tiles, or a block with nothing wrong
    case $program in
    repair) sample=tests/programs/repair.mended ;;
    sheet) sample=tests/programs/sheet.sheet ;;
    *) sample=$trace ;;
    esac
    cp $sample "$work/a folder/a sample"
    run $program <$sample
    mv "$work/out" "$work/expected"
    [ "$status" -eq 0 ] && [ ! -s "$work/err" ] && [ -s "$work/expected" ]
    tell "$program: standard input" $?
    run $program $sample </dev/null
    [ "$status" -eq 0 ] && [ ! -s "$work/err" ] && cmp "$work/expected" "$work/out"
    tell "$program: a file by name" $?
    run $program "$work/a folder/a sample" </dev/null
    [ "$status" -eq 0 ] && [ ! -s "$work/err" ] && cmp "$work/expected" "$work/out"
    tell "$program: a name with spaces" $?
    run $program - <$sample
    [ "$status" -eq 0 ] && [ ! -s "$work/err" ] && cmp "$work/expected" "$work/out"
    tell "$program: - is standard input" $?
    (cd "$work" && cp "a folder/a sample" ./- && "$bin/$program" ./- </dev/null) >"$work/out" 2>"$work/err"
    cmp "$work/expected" "$work/out"
    tell "$program: ./- is a file" $?
    # with standard input closed the file gets its number
    run $program $sample <&-
    [ "$status" -eq 0 ] && [ ! -s "$work/err" ] && cmp "$work/expected" "$work/out"
    tell "$program: a file by name, standard input closed" $?

    run $program --help </dev/null
    [ "$status" -eq 0 ] && [ ! -s "$work/err" ] && [ "$(wc -l <"$work/out")" -eq 5 ] && grep -q "^usage: $program \[FILE\]" "$work/out"
    tell "$program: --help tells in five lines" $?

    run $program "$work/none" </dev/null
    told "$program: a file that is not there" "$program: $work/none: No such file or directory"
    run $program "$work" </dev/null
    told "$program: a folder by name" "$program: $work: Is a directory"
    run $program <"$work"
    told "$program: a folder on standard input" "$program: standard input: Is a directory"
    run $program <&-
    told "$program: standard input closed" "$program: standard input: Bad file descriptor"
    run $program - <&-
    told "$program: standard input closed, by its name" "$program: standard input: Bad file descriptor"
    run $program '' </dev/null
    told "$program: an empty name" "$program: : No such file or directory"
    run $program "$(head -c 5000 /dev/zero | tr '\000' a)" </dev/null
    told "$program: a name that is too long" "$program: its argument: File name too long"
    run $program $sample $sample </dev/null
    told "$program: two names" "$program: one file at most; --help tells more"

    : >"$work/out"
    build/bin/$program $sample >/dev/full 2>"$work/err"
    status=$?
    told "$program: nothing more can be written" "$program: standard output: No space left on device"
    build/bin/$program --help >/dev/full 2>"$work/err"
    status=$?
    told "$program: the help cannot be written" "$program: standard output: No space left on device"
    build/bin/$program $sample >&- 2>"$work/err"
    status=$?
    told "$program: standard output closed" "$program: standard output: Bad file descriptor"
done

# By name as on standard input: 65,536 bytes and more are too long, a bad record is told.
head -c 65536 /dev/zero >"$work/long"
printf 'PR~XX' >"$work/damaged"
printf 'XX' >"$work/begins"
for program in trace snapshot layers trace-261 snapshot-261 home-trace home-snapshot; do
    run $program "$work/long"
    [ "$status" -eq 1 ] && printf 'long\n' | cmp - "$work/out" && [ ! -s "$work/err" ]
    tell "$program: 65,536 bytes by name: long, and exit status 1" $?
    run $program "$work/damaged"
    [ "$status" -eq 1 ] && [ "$(tail -n 1 "$work/out")" = 'bad 3' ] && [ ! -s "$work/err" ]
    tell "$program: a bad record behind another: bad, and exit status 1" $?
    run $program "$work/begins"
    [ "$status" -eq 1 ] && echo 'bad 0' | cmp - "$work/out"
    tell "$program: a bad record at the start: the same" $?
    run $program </dev/null
    [ "$status" -eq 0 ] && [ -s "$work/out" ]
    tell "$program: no record at all: exit status 0" $?
done
# Tiles whose bytes say `bad`, at the start and as a last line, are no refusal: 32 bytes or more never are.
said=$(printf 'bad\n12345678901234567890123\nbad\n' | od -An -v -tu1 | tr -s ' \n' ' ')
# a line of a tile is four bytes, one a bit of its eight codes, the leftmost pixel at bit 7
awk -v bytes="$said" 'BEGIN {
    split(bytes, byte, " ")
    for (line = 0; line < 8; line++) for (pixel = 0; pixel < 8; pixel++) {
        code = 0
        for (plane = 3; plane >= 0; plane--) code = 2 * code + int(byte[4 * line + plane + 1] / 2 ^ (7 - pixel)) % 2
        printf "\\x%x", code
    }
}' >"$work/codes"
printf "$(cat "$work/codes")" >"$work/sheet"
run sheet "$work/sheet"
[ "$status" -eq 0 ] && printf 'bad\n12345678901234567890123\nbad\n' | cmp - "$work/out"
tell "sheet: a tile whose bytes say bad is a tile, and exit status 0" $?
run sheet "$work/long"
[ "$status" -eq 1 ] && echo bad | cmp - "$work/out"
tell "sheet: no sheet: bad, and exit status 1" $?
run repair "$work/begins"
[ "$status" -eq 1 ] && echo bad | cmp - "$work/out"
tell "repair: no block: bad, and exit status 1" $?

# What snapshot writes in place of a picture goes through tools/ppm2png.py to standard error.
if command -v python3 >/dev/null; then
    for case in "bad 3:$work/damaged" "long:$work/long"; do
        run snapshot "${case#*:}"
        python3 tools/ppm2png.py <"$work/out" >"$work/png" 2>"$work/said"
        [ $? -eq 1 ] && [ ! -s "$work/png" ] && printf '%s\n' "${case%%:*}" | cmp - "$work/said"
        tell "ppm2png.py passes on: ${case%%:*}" $?
    done
    run snapshot "$work/none"
    python3 tools/ppm2png.py <"$work/out" >"$work/png" 2>"$work/said"
    [ $? -eq 1 ] && [ ! -s "$work/png" ] && [ "$(wc -l <"$work/said")" -eq 1 ]
    tell "ppm2png.py: no picture came" $?
else
    skip 'ppm2png.py' 'no python3 here'
fi

total
