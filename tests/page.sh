#!/usr/bin/env bash
# page.sh: the desk as a page, in a real browser without a window: its pictures beside the native library's, the list of the Rust's answers, its sentences beside
# those of the desk, every control, what is wrong with a trace, a long one, its speed and size; and its sources, whose types are checked.
. "$(dirname "$0")/begin.sh"
without() {
    skip 'the page' "$1"
    total
    exit
}
command -v python3 >/dev/null || without 'no python3 here'
said=$(sh tools/setup.sh page 2>&1) || without "$(tail -n 1 <<<"$said")"
needs build page
work=$PWD/$work

tsc -p page >"$work/types"
status=$?
head -n 20 "$work/types"
tell 'the types of the sources hold' $status

# One file, and nothing of it from elsewhere.
! grep -oE '(src|href)="?(https?:)?//[^" ]*|@import|url\(' build/desk.html
tell 'the page has nothing from elsewhere' $?
python3 page/build.py build/native/vdp.wasm "$work/again.html" && cmp "$work/again.html" build/desk.html
tell 'the same sources make the same file' $?

python3 tests/desk/random_traces.py 3 "${SEED:-1}" "$work/random"
python3 tests/desk/random_traces.py 2 "${SEED:-1}" "$work/home" home
python3 tests/page/checks.py build/desk.html "$work" | tee "$work/checks"
status=${PIPESTATUS[0]}
passed=$((passed + $(grep -c '^ok: ' "$work/checks"))) failed=$((failed + $(grep -c '^FAILED: ' "$work/checks")))
if [ "$status" -ne 0 ] && ! grep -q '^FAILED: ' "$work/checks"; then tell "the checks in the browser ran to their end" 1; fi

# The pictures of its page are those that the command there makes.
shown=$(grep -oE '\]\(page-[a-z-]+\.png\)' docs/PAGE.md | tr -d '])(' | sort)
made=$(grep -oE '"page-[a-z-]+\.png"' tests/page/pictures.py | tr -d '"' | sort)
[ -n "$shown" ] && [ "$shown" = "$made" ] && (cd docs && ls $shown >/dev/null)
tell 'the pictures of docs/PAGE.md are there, and are those that tests/page/pictures.py makes' $?

# What cannot be had of `desk page`.
desk=$PWD/build/bin/desk
DESK_PAGE=$work/none "$desk" page docs/scripts/flicker.desk -o "$work/none.html" 2>"$work/err"
[ $? -eq 2 ] && [ "$(cat "$work/err")" = "desk: no $work/none: \`make page\` makes it" ] && [ ! -e "$work/none.html" ]
tell 'desk page: no page' $?
printf 'PR~LS\377' >"$work/damaged"
"$desk" page "$work/damaged" -o "$work/none.html" 2>"$work/err"
[ $? -eq 1 ] && [ "$(cat "$work/err")" = "desk: $work/damaged: byte 3, record 2: a step of area 255, and there is no such area" ] && [ ! -e "$work/none.html" ]
tell 'desk page: a damaged trace, and nothing is written' $?
"$desk" page docs/scripts/flicker.desk --home -o "$work/none.html" 2>"$work/err"
[ $? -eq 1 ] && grep -q '^docs/scripts/flicker.desk:3:1: the script is for the handheld, ' "$work/err" && [ ! -e "$work/none.html" ]
tell 'desk page --home: a script for the handheld' $?
"$desk" page tests/traces/areas.trace --home -o "$work/none.html" 2>"$work/err"
[ $? -eq 1 ] && [ "$(cat "$work/err")" = "desk: tests/traces/areas.trace: byte 3, record 2: a step of area 1, and the home machine's steps are of area 0" ] && [ ! -e "$work/none.html" ]
tell 'desk page --home: a trace of other areas' $?
"$desk" page "$work/home/random-0.trace" --home -o "$work/home.html" >/dev/null && grep -q '"machine":"home machine"' "$work/home.html"
tell 'desk page --home: a trace for the home machine' $?
total
