#!/usr/bin/env bash
# landing-times.sh [--kept] [COMMIT..]: what a check from nothing takes before and after each landing, in seconds of processor time; with commits, at those.
# A landing is a run of commits whose first lines begin with one number, "(iv) ..", or with "Before (viii)", or one that ends with "Landing note ..".
# Crate by crate, each after those that it depends on, by the words that rt has for the toolchain's `rattle`, with nothing kept: of a library its build, of what is
# built for C and of a program the check, which is its proof and not its compiling nor its run. (Only commits in the form of this toolchain are proved by it.) A
# crate whose files and dependencies are as in a tree before is not proved again: its seconds are kept, and the sum over a tree's crates is what its check from
# nothing takes. Trees go in the order of the history, in one worktree, so that most is kept from one to the next.
# Of a crate that was proved more than once with the same files, only what it depends on being another, the least counts: so a busy hour does not look like
# a slow landing. A later tree can lower a sum: at the end --kept, which proves nothing and prints the figures that are all there, has them as they stand.
# It prints a table in Markdown, a row as soon as it has its figures. A tree that is not proved by itself is told as such, with the first crate that fails.
# Worktree and figures stay in $LANDING_TIMES (else landing-times in the temporary folder): a run that was stopped goes on where it was. All of them on
# one machine: a folder of figures from another is not to be mixed in.
set -u
cd "$(dirname "$0")/.." || exit
kept=
[ "${1:-}" != --kept ] || { kept=yes && shift; }
room=${LANDING_TIMES:-${TMPDIR:-/tmp}/landing-times}
tree=$room/tree
mkdir -p "$room/seconds" "$room/least" "$room/at"
. tools/toolchain.sh
version=$(rt version)

# row CRATE: what it depends on, in the tree at hand.
row() { sed -nE "s/^$1( +staticlib)?: *//p" <<<"$list"; }

# is_library CRATE: one for the crates above it.
is_library() { [ ! -e "$tree/crates/$1/src/main.rt" ] && ! grep -q "^$1  *staticlib:" <<<"$list"; }

# ordered: the crates of the tree at hand, each after those that it depends on.
ordered() {
    awk -F: '{ sub(/ .*/, "", $1); deps[$1] = $2; list[++n] = $1 }
        function visit(c,   a, k, m) {
            if (c in done || !(c in deps)) return
            done[c]; m = split(deps[c], a, " "); for (k = 1; k <= m; k++) visit(a[k]); print c
        }
        END { for (k = 1; k <= n; k++) visit(list[k]) }' <<<"$list"
}

# lower FILE SECONDS: puts them there, unless it has less.
lower() { [ -e "$1" ] && awk -v new="$2" '{ exit $1 <= new ? 0 : 1 }' "$1" || echo "$2" >"$1"; }

# time_crate CRATE KEY FILES: proves it, keeps its seconds under the key and under its files, and of a library that what was built is this one's.
time_crate() {
    local TIMEFORMAT='%U %S' took status words verb=check
    mapfile -t words < <(cd "$tree" && words_of "$1")
    rm -rf "$tree/crates/$1/out" && mkdir -p "$tree/crates/$1/out/rlib"
    is_library "$1" && verb=build && words+=(-o "out/rlib/$1.rlib")
    took=$({ time (cd "$tree/crates/$1" && "$kit/bin/rattle" $verb "${words[@]}" --jobs 1 >"$room/out" 2>&1); } 2>&1)
    status=$?
    case $status in
    0)
        took=$(awk '{ printf "%.2f", $1 + $2 }' <<<"$took")
        lower "$room/seconds/$2" "$took"
        lower "$room/least/$3" "$took"
        ;;
    1) took=no && echo no >"$room/seconds/$2" ;;
    *) cat "$room/out" >&2 && exit 2 ;;
    esac
    echo "$2" >"$room/at/$1"
    echo "$(date -u +%H:%M:%S) $commit $1 $took" >>"$room/log"
}

# times COMMIT: its check from nothing, a number or why there is none.
times() {
    local commit=$1 crate dep sum=0 one list crates
    declare -A keys=() files=()
    list=$(git show "$commit:crates.txt") || exit 2
    list=$(sed 's/ *#.*//; /^ *$/d' <<<"$list")
    crates=$(ordered)
    for crate in $crates; do
        files[$crate]=$({
            echo "$version $(uname -m) $crate: $(row "$crate")"
            git ls-tree "$commit" "crates/$crate/src" "crates/$crate/specs" "crates/$crate/proofs"
        } | sha256sum | cut -c1-32)
        keys[$crate]=$({
            echo "${files[$crate]}"
            for dep in $(row "$crate"); do echo "${keys[$dep]:-kit}"; done
        } | sha256sum | cut -c1-32)
    done
    if [ -z "$kept" ]; then
        [ -e "$tree/.git" ] || { git worktree prune && git worktree add -q --detach "$tree" "$commit"; } || exit 2
        git -C "$tree" checkout -q --detach "$commit" || exit 2
    fi
    for crate in $crates; do
        one=$room/seconds/${keys[$crate]}
        if [ -n "$kept" ]; then
            [ -e "$one" ] || { echo –; return; }
        elif [ ! -e "$one" ] || { is_library "$crate" && [ "$(cat "$room/at/$crate" 2>/dev/null)" != "${keys[$crate]}" ]; }; then
            time_crate "$crate" "${keys[$crate]}" "${files[$crate]}"
        fi
        [ "$(cat "$one")" != no ] || { echo "not proved by itself: $crate"; return; }
        sum="$sum + $(cat "$room/least/${files[$crate]}")"
    done
    awk "BEGIN { printf \"%d\", $sum + 0.5 }"
}

# landings: of each its first commit, its last and its name.
landings() {
    git log --reverse --format='%h %s' | awk '
        function told() { if (name != "") print first, last, name; name = "" }
        { hash = $1; text = substr($0, length($1) + 2); mine = "" }
        match(text, /^(Before )?\([ivx]+\)/) { mine = substr(text, 1, RLENGTH) }
        text ~ /^Landing note/ {
            told(); name = text; sub(/^Landing note(:| of)? */, "", name)
            first = open == "" ? hash : open; last = hash; told(); open = ""; next
        }
        mine != name { told(); if (mine != "") { name = mine; first = hash } }
        mine != "" { last = hash; open = ""; next }
        text ~ /^(Landings|Review)/ { open = ""; next }
        open == "" { open = hash }
        END { told() }'
}

if [ $# -gt 0 ]; then
    echo "| Commit | A check from nothing, s of processor time |"
    echo "|---|---|"
    for commit; do
        hash=$(git rev-parse --short "$commit") || exit 2
        took=$(times "$hash") || exit
        echo "| $commit | $took |"
    done
    exit
fi

echo "| Landing | Commits | Before, s | After, s |"
echo "|---|---|---|---|"
landings | while read -r first last name; do
    before=$(times "$(git rev-parse --short "$first^")") || exit
    after=$(times "$last") || exit
    echo "| $name | $first to $last | $before | $after |"
done
