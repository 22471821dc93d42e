#!/usr/bin/env bash
# handbook.sh: every trace of docs/HANDBOOK.md made anew from the bytes that stand there, run by either line table and compared with the lines beside them;
# that each refusal from 1 to 6 has a section of its own, which shows it, and 7 none; every other command of the page run again, with its pictures; when each
# write shows and which lines interrupt, asked of the library at every reading of a pass; and that the theorems and definitions which are named are there.
. "$(dirname "$0")/begin.sh"
needs build desk
book=docs/HANDBOOK.md

# Of each section on a refusal its rows `| bytes | line | .. |`: the bytes to N.hex, the lines and their number to N.text. Section 7 tells why there is none.
awk -v work=$work -F ' *[|] *' '
    /^## / { n = $0 ~ /^## [0-9]+[.]/ ? substr($0, 4) + 0 : $0 == "## Why there is no 7" ? 7 : 0; if (n) print n > (work "/sections") }
    n && $2 ~ /^([0-9A-F][0-9A-F] ?)+$/ { print $2 > (work "/" n ".hex"); print $3 > (work "/" n ".text"); rows[n]++ }
    END { for (n in rows) print "end " rows[n] > (work "/" n ".text") }
' $book
[ "$(tr '\n' ' ' < $work/sections)" = "1 2 3 4 5 6 7 " ]
tell 'the sections are those of refusals 1 to 6, and why there is no 7' $?

for n in 1 2 3 4 5 6 7; do
    printf "$(sed 's/ *\([0-9A-F][0-9A-F]\)/\\x\1/g' $work/$n.hex | tr -d '\n')" > $work/$n.trace
    for program in trace trace-261; do
        [ -s $work/$n.trace ] && build/bin/$program $work/$n.trace | cmp $work/$n.text -
        tell "section $n, $program: every line is as the handbook has it" $?
    done
done
for n in 1 2 3 4 5 6; do
    grep -qE "^[wr] $n( 00)?\$" $work/$n.text
    tell "section $n shows refusal $n" $?
done
! grep -hE '^[wrs] ' $work/*.text | grep -vE '^[wrs] [0-6]( |$)'
tell 'no trace shows another' $?
grep -vE '^([wr] 0|end )' $work/7.text
[ $? -eq 1 ]
tell 'the address wraps, and nothing is refused' $?

# The trace that is shown with printf is the first one.
sed -n "s/^\(printf '.*'\) | build.*/\1/p" $book > $work/shown.sh
sh $work/shown.sh | cmp $work/1.trace -
tell 'the trace that is shown with printf is the first' $?

# The theorems, each on one line.
theorems=$(for file in crates/passes/proofs/*.antt crates/demands*/proofs/*.antt; do awk '/^ / { sub(/^ +/, " "); printf "%s", $0; next } { printf "\n%s", $0 }' "$file"; done)
# proved THEOREM STATEMENT: there is one of this name, of this statement.
proved() { grep -qE "^pub $1 : .*→ $2 " <<<"$theorems"; }

# The theorems by which 7 is struck.
for both in 'never_seven NeverSeven' 'face_never_seven FaceNeverSeven' 'never_seven_home NeverSeven' 'face_never_seven_home FaceNeverSeven'; do
    read -r theorem statement <<<"$both"
    grep -q "\`$theorem\`" $book && proved "$theorem" "$statement" && grep -q "^ *pub record $statement " crates/passes/specs/Seven.antt crates/demands*/specs/Seven.antt
    tell "$theorem is proved by that name" $?
done

# When a write shows: what stands in brackets on that part of the page is a theorem, a field of one, or a definition.
for both in 'write_shows-visible WriteShows' 'count_waits CountWaits'; do
    read -r theorem statement <<<"$both"
    grep -q "(\`$theorem\`" $book && proved "$theorem" "$statement" && grep -q "^pub record $statement " crates/passes/specs/Shows.antt
    tell "$theorem is proved by that name" $?
done
names=$(sed -n '/^## When does each write show/,/^## On other players/p' $book | grep -oE '\([^()]*`[^()]*\)' | grep -oE '`[A-Za-z0-9_-]+`' | tr -d '`' | sort -u)
status=0
for name in $names; do
    grep -rqE --include='*.antt' "^ *((unfoldable|abbrev) )?pub $name( |\$)" crates/*/specs crates/passes/proofs crates/demands/proofs || { echo "no such theorem or definition: $name"; status=1; }
done
[ "$(wc -w <<<"$names")" -ge 20 ] && [ $status -eq 0 ]
tell "what is cited in brackets is there: $(wc -w <<<"$names") names" $?

# try NAME PROGRAM..: a test program ends well; its last line is told.
try() {
    local name=$1 said status
    shift
    said=$("$@" 2>&1)
    status=$?
    [ "$status" -eq 0 ] || printf '%s\n' "$said"
    tell "$name: $(tail -n 1 <<<"$said")" "$status"
}
if command -v python3 >/dev/null; then
    try 'its commands print what stands there, and draw its pictures' python3 tests/desk/document.py $book $work/page
    # By table 0 the pictures are the same.
    status=0
    for both in 'at-once show --scale 2' 'scroll show --scale 2' 'count show --frame 2 --scale 2' 'sprite differ --without write --sides'; do
        read -r name command options <<<"$both"
        build/bin/desk $command --table 0 docs/scripts/write-$name.desk $options -o $work/table-0.png >/dev/null && python3 tests/desk/same.py $work/table-0.png docs/handbook-$name.png || status=1
    done
    tell 'by table 0 its pictures are the same' $status
    try 'each write shows first in the row that is told' python3 tests/handbook/rows.py $book
    try 'the lines that interrupt are those of its table' python3 tests/handbook/interrupts.py $book

    # caught NAME SED LINE PROGRAM..: on a page that is changed so, the program fails and prints such a line.
    caught() {
        local name=$1 change=$2 line=$3
        shift 3
        sed "$change" $book >$work/other.md
        ! "$@" >$work/said 2>&1 && grep -q "$line" $work/said
        tell "caught: $name" $?
    }
    cp docs/handbook-*.png $work/
    caught 'a command that prints something else' 's/in rows 67 to 143/in rows 66 to 143/' '^-frame 1: 12,320 .* in rows 66 to 143$' python3 tests/desk/document.py $work/other.md $work/other
    cp docs/handbook-scroll.png $work/handbook-count.png
    caught 'another picture' '' 'handbook-count.png is another picture now$' python3 tests/desk/document.py $work/other.md $work/picture
    caught 'a row further down' 's/ L − 23 / L − 22 /' ' reads 23: first shown in pass and row (0, 0), and the page has (0, 1)$' python3 tests/handbook/rows.py $work/other.md
    caught 'register 9 at once' 's/^| register 9,.*//' 'register 9, written while the counter reads 0: ' python3 tests/handbook/rows.py $work/other.md
    caught 'another line that interrupts' 's/^| 3 | 2, 6, 10 /| 3 | 2, 6, 11 /' ' has another table' python3 tests/handbook/interrupts.py $work/other.md
else
    skip 'the commands of the page' 'no python3 here'
fi

total
