#!/usr/bin/env bash
# install.sh: what `make install` puts down, moved to a folder with a space in its name and used from there, with this project out of reach: the programs, the
# desk with its library and its programs, the pages and what they link to. (The library by pkg-config is in c.sh.)
. "$(dirname "$0")/begin.sh"
needs build
project=$PWD
work=$(mktemp -d)
trap 'rm -rf "$work"' EXIT
make --no-print-directory install PREFIX="$work/first" >"$work/said" && mkdir "$work/a place" && mv "$work/first" "$work/a place/prefix"
tell "make install" $?
prefix="$work/a place/prefix"
[ "$(sed -n 's/^  bin\/desk and the programs //p' "$work/said")" = "$(cd build/bin && echo * | sed 's/desk //')" ]
tell "it says what it has put down" $?
[ "$(cd "$prefix/bin" && echo *)" = "$(cd build/bin && echo *)" ]
tell "bin has the programs and the desk" $?
! grep -rIl "$project\|$work/first" "$prefix" && [ -z "$(find "$prefix" -type l -lname '/*')" ]
tell "no file and no link names the folder that it was made in, or installed to" $?

cp tests/traces/split90.trace docs/scripts/split-old.desk docs/scripts/split-new.desk docs/scripts/home-scene.desk "$work/"
cd "$work"
for name in trace snapshot layers trace-261 snapshot-261 home-trace home-snapshot; do
    "$project/build/bin/$name" split90.trace >expected
    "$prefix/bin/$name" split90.trace | cmp expected -
    tell "$name from there" $?
done
head -c 64 /dev/zero | "$prefix/bin/sheet" | cmp - <(head -c 32 /dev/zero) && "$prefix/bin/repair" "$project/tests/programs/repair.mended" | cmp - "$project/tests/programs/repair.mended"
tell "sheet and repair from there" $?

if command -v python3 >/dev/null; then
    PATH="$prefix/bin:$PATH"
    # the same words as from the project: a question, a picture held to the programs, the home machine
    for words in 'differ split-old.desk split-new.desk -o PNG' 'show --check split90.trace -o PNG' 'show --home home-scene.desk -o PNG' 'pixel split90.trace 3 67'; do
        (eval "desk ${words/PNG/there.png}") >there.text 2>&1
        status=$?
        (eval "$project/build/bin/desk ${words/PNG/here.png}") >here.text 2>&1
        [ $status -eq $? ] && sed 's/here\.png/there.png/' here.text | cmp there.text - && [ -s there.text ] && { [[ $words != *PNG* ]] || cmp here.png there.png; }
        status=$?
        [ $status -eq 0 ] || cat there.text
        tell "desk ${words%% *} from there" $status
    done
    # a desk that was copied from its place
    cp "$project/build/bin/desk" "$work/copied"
    said=$("$work/copied" show split90.trace 2>&1)
    [ $? -eq 2 ] && [ "$(wc -l <<<"$said")" -eq 1 ] && [[ $said == "desk: its files are not at "* ]]
    tell "a desk that was copied alone says so in a line" $?
else
    skip 'the desk' 'no python3 here'
fi

# The pages, and what they show.
pages="$prefix/share/doc/humusloft"
status=0
for page in TRACES TILES SAVES DESK PAGE HANDBOOK CARTRIDGE HOME RULES; do [ -s "$pages/$page.md" ] || { echo "no $page.md"; status=1; }; done
for link in $(grep -ohE '\]\([^)#:]+\.(png|desk|md)' "$pages"/*.md | sed 's/](//' | sort -u); do
    [ -e "$pages/$link" ] || [[ $link == ../* ]] || { echo "no $link"; status=1; }
done
tell "the pages are there, with the pictures, scripts and pages that they link to" $status

said=$(sh "$project/tools/install.sh" '' 2>&1)
[ $? -eq 2 ] && [ "$said" = 'usage: install.sh FOLDER' ]
tell "no folder at all is refused" $?

total
