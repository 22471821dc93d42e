#!/usr/bin/env bash
# layout.sh: what no proof says of the sources: their layout, that every proof says what it shows and every definition file what it assumes, that the rules which are cited are those
# of docs/RULES.md and no others, that every public function has its theorem of one outcome or stands among the exceptions, that the theorem on refusal 7 speaks of every call there is,
# that docs/CONTRACTS.md tells of every edit which must fail, and that each of them was tried, and refused for a fact. And of the pages: that the map's picture,
# the names in the map and in the proof's page, the lines to read and the table of edits are those of the tree, that every link leads to a file, that README
# is short and CHANGELOG.md begins with the number of the face.
. "$(dirname "$0")/begin.sh"

# (In out/ rt keeps what it has made.)
sources() { find crates -mindepth 2 -path 'crates/*/out' -prune -o -name "$@" -print; }
. tools/toolchain.sh
"$kit/bin/rattle" fmt --check $(sources '*.rt') $(sources '*.antt')
tell "the sources are in the toolchain's layout" $?

# The answers of a proof are written by hand in a file that the toolchain prints: what it prints for the time of the work does not stay.
if command -v python3 >/dev/null; then
    python3 tools/tidy.py --check $(sources '*.antt')
    tell "no file brings in what it does not use, and no line of a proof or a definition is longer than 160 characters" $?
else
    skip 'imports and long lines' 'no python3 here'
fi
# Those of the function F stand in proofs/F; beside such folders stand files of laws.
proofs=$(for name in Proof Invariants Answers; do sources $name.antt; done | grep -E '/proofs/.+/')
bare=$(for proof in $proofs; do head -n 1 "$proof" | grep -q '^-- `' || echo "$proof"; done)
[ -z "$bare" ] || printf '%s\n' "$bare"
[ -n "$proofs" ] && [ -z "$bare" ]
tell "every proof says in its first line of which function it is, and what it shows" $?
! grep -nE '^ *-- (src/)?[a-z_]+\.rt:[0-9]+' $proofs
tell "no proof names a place of the source by its line" $?

bare=$(grep -L '^-- .*Assumes nothing' $(sources '*.antt' | grep '/specs/' | grep -v '/Lib\.antt$'))
[ -z "$bare" ] || printf '%s\n' "$bare"
[ -z "$bare" ]
tell "every definition file says what it assumes" $?

# A rule begins a line of docs/RULES.md with its number. Where no definition renders it, `(in FILE)` behind the number names who answers for it.
texts='README.md CHANGELOG.md Makefile crates docs include examples peers player desk page oracle bench tests tools'
rules=$(sed -nE 's/^\*\*(R[0-9]+\.[0-9]+)\*\*.*/\1/p' docs/RULES.md)
twice=$(printf '%s\n' "$rules" | sort | uniq -d)
[ -z "$twice" ] || printf 'used twice: %s\n' $twice
[ -n "$rules" ] && [ -z "$twice" ]
tell "every rule has a number of its own" $?

unknown=$(grep -rIhowE --exclude-dir=out 'R[0-9]+\.[0-9]+' $texts | sort -u | grep -vxF "$rules")
for rule in $unknown; do
    printf 'no such rule: %s in %s\n' "$rule" "$(grep -rIlwF --exclude-dir=out "$rule" $texts | tr '\n' ' ')"
done
[ -z "$unknown" ]
tell "every rule that is cited is there" $?

bare=
for rule in $rules; do
    by=$(sed -nE "s/^\\*\\*$rule\\*\\* \(in ([^)]*)\).*/\1/p" docs/RULES.md)
    grep -rqwF --include='*.antt' --include='*.md' --include='*.sh' "$rule" ${by:-crates/*/specs} || bare="$bare $rule${by:+ (in $by)}"
done
[ -z "$bare" ] || printf 'cited by no definition, nor by the file that it names:%s\n' "$bare"
[ -n "$rules" ] && [ -z "$bare" ]
tell "every rule is cited by a definition, or by the file that it names" $?

grep -rInE --exclude-dir=out 'document 0[0-9]|the[ ]papers?\b|scope[ ](paper|document)' $texts
[ $? -eq 1 ]
tell "no text is cited that is not here" $?

# exports FILE: the functions that this file has for C.
exports() { sed -nE 's/^pub extern "C" fn ([a-z0-9_]+).*/\1/p' "$1"; }
# promise NAME FILE: how this public function is declared there, with its clauses, up to its body, and whether or not for C.
promise() { awk -v name="$1" '
    $0 ~ "^pub (extern \"C\" )?fn " name "[(<]" { on = 1; sub(/extern "C" /, "") }
    on && /^\{/ { exit }
    on { all = all " " $0 }
    on && / \{$/ { exit }
    END { gsub(/[ \t]+/, " ", all); gsub(/\( /, "(", all); gsub(/,? \)/, ")", all); print all }' "$2"; }

# A library's public functions: those of src/lib.rt, those that it hands on from modules of its own, and those of the modules that are public. A static library,
# face_c, is no crate's to name: each of its functions calls the one of this name in face, and promises what that one promises.
bare=
for lib in crates/*/src/lib.rt; do
    crate=$(basename "$(dirname "$(dirname "$lib")")")
    if grep -qE "^$crate +staticlib" crates.txt; then
        for file in crates/"$crate"/src/*.rt; do
            for f in $(exports "$file"); do
                of=$(grep -lE "^pub fn $f\\b" crates/"${crate%_c}"/src/*.rt) && grep -qE "\\b$f\\(" <(grep -v '^pub ' "$file") &&
                    cmp <(promise $f "$file") <(promise $f "$of") || bare="$bare $crate::$f"
            done
        done
        continue
    fi
    for file in "$lib" $(sed -nE "s|^pub mod ([a-z_]+);|${lib%lib.rt}\1.rt|p" "$lib"); do
        in='([A-Za-z]+\.)?'
        [ "$file" = "$lib" ] || in="($(basename "$file" .rt)\.)"
        for f in $(sed -nE 's/^ *pub (extern "C" )?fn ([a-z0-9_]+).*/\2/p; s/^pub use [a-z_]+::([a-z0-9_]+);/\1/p' "$file"); do
            grep -q "^Exceptions: .*\`$crate::$f\`" docs/CONTRACTS.md && continue
            name=$(sed -nE "s/^use Rattle\.$crate\.(proofs|specs\.contracts)\.$in$f( as ([a-z_-]+))?\$/\4/p" crates/demands/proofs/Outcome*.antt)
            grep -qE "^use Rattle\.$crate\.(proofs|specs\.contracts)\.$in$f( |\$)" crates/demands/proofs/Outcome*.antt &&
                grep -qE "[ (]${name:-$f}\.(Reads\.Learnt|clauses )" crates/demands/proofs/Outcome*.antt || bare="$bare $crate::$f"
        done
    done
done
[ -z "$bare" ] || printf 'no theorem of one outcome:%s\n' "$bare"
[ -z "$bare" ]
tell "every public function has its theorem of one outcome, or is an exception of docs/CONTRACTS.md" $?

# `make` proves what it builds. (The marks that a bitmap has are asked for by nobody yet; it is the Rust's, and small.)
idle=$(for crate in $(sh tools/crates.sh programs face_c); do find "crates/$crate/src" -name '*.rt'; done | xargs awk '
    { sub(/\/\/.*/, "") }
    match($0, /pub fn [a-z0-9_]+/) { public[substr($0, RSTART + 7, RLENGTH - 7)] }
    {
        gsub(/fn [a-z0-9_]+/, "")
        while (match($0, /[a-z0-9_]+\(/)) {
            called[substr($0, RSTART, RLENGTH - 1)]
            $0 = substr($0, RSTART + RLENGTH)
        }
    }
    END { for (f in public) if (!(f in called) && f != "get") print f }' | sort)
[ -z "$idle" ] || printf 'public, and called by nothing that make builds: %s\n' $idle
[ -z "$idle" ]
tell "every public function that make proves is called by what it builds" $?

# Of each row of a table of functions the column "Rules out" has two wrong answers or more, with a semicolon between them.
few=$(awk -F ' [|] ' '/^[|] Function/ { for (k = 1; k <= NF; k++) if ($k == "Rules out") column = k; next }
    !/^[|]/ { column = 0 } column && !/^[|]---/ && $column !~ /;/ { print FILENAME ": " $1 }' docs/CONTRACTS.md)
[ -z "$few" ] || printf '%s\n' "$few"
grep -q '^| Function .*Rules out' docs/CONTRACTS.md && [ -z "$few" ]
tell "docs/CONTRACTS.md has two wrong answers for each function that it tells of" $?

# The calls that refusal 7 is shown never to come from: the constructors of `Call`, `FaceCall` and `HomeCall`, each with the name of its function.
# constructors FILE TYPE: those of a data type, as the code writes them. named FILE WORDS: the names behind `-- WORDS: `, up to the full stop.
constructors() { awk -v type="$2" '/^[^ ]/ { on = $0 ~ "^pub data " type " " } on && /^  [a-z]/ { sub(/_lem$/, "", $1); print $1 }' "$1"; }
named() { sed -nE "s/^-- $2: ([a-z0-9_, ]+)\..*/\1/p" "$1" | tr -d ' ' | tr , '\n'; }
# calls_of MACHINE FILE...: what is public in these files, each as CRATE/FILE, is a call of this machine, or is named in its file as none.
calls_of() {
    local file=crates/demands/specs/$1.antt calls
    shift
    calls=$(constructors "$file" Call)
    [ -n "$calls" ] && diff <(for source; do
        sed -nE 's/^ *pub fn ([a-z0-9_]+).*/\1/p; s/^pub use [a-z_]+::([a-z0-9_]+);/\1/p' "crates/${source%/*}/src/${source#*/}.rt"
    done | sort) <({ printf '%s\n' "$calls"; named "$file" 'No calls of [a-z_]+'; } | sort)
}
calls_of Handheld vdp/lib step/lib look/lib tile_codes/lib
tell "the theorem on refusal 7 speaks of every call of a device, and what else is public is named there" $?
calls_of Home home/lib look/home_look tile_codes/lib
tell "and of every call of a home device" $?

# face_calls FILE TYPE WORDS..: the functions of the C face that `grep WORDS` finds are the constructors of this type.
face_calls() {
    local calls
    calls=$(constructors "crates/demands_face/specs/$1.antt" "$2")
    shift 2
    [ -n "$calls" ] && diff <(for file in crates/face_c/src/*.rt; do exports "$file"; done | grep "$@" | sort) <(printf '%s\n' "$calls" | sort)
}
face_calls Calls FaceCall -v ^vdp_home_
tell "and of every function of the C face" $?
face_calls HomeCalls HomeCall ^vdp_home_
tell "and of those on a home block" $?

# docs/CONTRACTS.md names each edit as CRATE/`NAME`, and no other.
told=$(grep -oE '[a-z_0-9]+/`[a-z_0-9]+`' docs/CONTRACTS.md | tr -d '`' | sort -u)
there=$(for edit in crates/*/must-fail/*.edit; do
    crate=${edit#crates/}
    echo "${crate%%/*}/$(basename "$edit" .edit)"
done | sort -u)
[ "$told" = "$there" ] || diff <(printf '%s\n' "$told") <(printf '%s\n' "$there")
[ -n "$there" ] && [ "$told" = "$there" ]
tell "docs/CONTRACTS.md tells of every edit that must fail, and of no other" $?

# The pages that scripts make or hold, each with a line of what is wrong.
if command -v python3 >/dev/null; then
    python3 tools/edits.py --check
    tell "every edit that must fail says its slip and the fact that then fails, and docs/CONTRACTS.md has these lines" $?
    python3 tools/rooms.py --check
    tell "docs/rooms.svg is what crates.txt gives, docs/ARCHITECTURE.md has every crate in its storey, and its functions and definitions are there" $?
    python3 tools/proof.py --check
    tell "docs/PROOF.md counts the lines that there are, and each definition and theorem that a page has before a file stands in it" $?
else
    skip "docs/CONTRACTS.md's edits, docs/rooms.svg, docs/ARCHITECTURE.md, docs/PROOF.md" 'no python3 here'
fi
dead=$(for page in README.md CHANGELOG.md docs/*.md docs/landings/*.md player/README.md oracle/README.md examples/cartridge/README.md; do
    grep -oE '\]\([^)]+\)' "$page" | sed -E 's/^\]\(//; s/\)$//; s/#.*//' | grep -vE '^(https?:|$)' | sort -u | while read -r to; do
        [ -e "$(dirname "$page")/$to" ] || printf '%s: no %s\n' "$page" "$to"
    done
done)
[ -z "$dead" ] || printf '%s\n' "$dead"
[ -z "$dead" ]
tell "every link of the pages leads to a file" $?
[ "$(wc -l <README.md)" -le 100 ]
tell "README has at most 100 lines" $?
# What has come with no change of the face stands above its number, under "Since".
newest=$(grep -m 1 -oE '^## [0-9]+\.[0-9]+\.[0-9]+$' CHANGELOG.md)
[ "$newest" = "## $(sed -nE 's/^#define VDP_VERSION_[A-Z]+ +([0-9]+)$/\1/p' include/vdp.h | paste -sd .)" ]
tell "CHANGELOG.md begins with the number of the face" $?

# Every edit was tried, and is refused for a fact: one that only makes a proof unfit for the code shows nothing of the contract.
# (The suite `proofs` leaves a line for each in its log.)
log=build/test/proofs.log
edits=0 untried= unfit=
for edit in crates/*/must-fail/*.edit; do
    [ -e "$edit" ] || continue
    edits=$((edits + 1))
    crate=${edit#crates/}
    # how it went, behind the colon, with the first error
    said=$(grep -aF "rt: must-fail ${crate%%/*}/$(basename "$edit"): " $log 2>/dev/null | head -n 1)
    if [ -z "$said" ]; then
        untried="$untried $edit"
        continue
    fi
    case $said in
    *'refused, as it must be (only '* | *'that can be named from here'* | *'is not in scope'* | *'has no field'* | *'was not admitted'*) unfit="$unfit $edit" ;;
    *': refused, as it must be: '*) ;;
    *) unfit="$unfit $edit" ;;
    esac
done
[ -z "$untried" ] || printf 'not tried:%s\n' "$untried"
logs=$(grep -c '^rt: must-fail ' $log 2>/dev/null)
[ "$edits" -eq "${logs:-0}" ] || printf '%s edits, %s tried\n' "$edits" "${logs:-0}"
[ "$edits" -gt 0 ] && [ "$edits" -eq "${logs:-0}" ] && [ -z "$untried" ]
tell "every edit that must fail was tried, and there are some" $?
[ -z "$unfit" ] || printf 'refused for its shape:%s\n' "$unfit"
[ "${logs:-0}" -gt 0 ] && [ -z "$unfit" ]
tell "every edit that must fail is refused for a fact" $?

total
