#!/usr/bin/env bash
# profile.sh CRATE [ROWS]: where the time of a check goes: seconds by module, the longest first, and the whole at the end. Of a function F the checker has modules
# CRATE-proofs.F.Lts, F.Tie and others, which the toolchain makes of its code, and F.Answers and the like, which are ours; the seconds of a crate's own name are
# those before the first module. The checker saves each module as soon as it is checked, and the times of the files tell. What the crate
# depends on has to be proved (make prove); nothing is written there.
set -eu
cd "$(dirname "$0")/.."
[ $# -gt 0 ] && [ -d "crates/$1/src" ] || { echo "usage: profile.sh CRATE [ROWS]" >&2; exit 2; }
. tools/toolchain.sh
name=$1 rows=${2:-25}
mapfile -t words < <(words_of "$name")

work=$(mktemp -d)
trap 'rm -rf "$work"' EXIT
TIMEFORMAT='%R s, %U of them in the processor and %S in the system'
began=$(date +%s.%N)
status=0
{ time env -C "crates/$name" bash "$PWD/tools/scratch.sh" "$kit/bin/rattle" check "${words[@]}" --jobs 1 --incremental "$work/saved" >"$work/said" 2>&1; } 2>"$work/time" || status=$?
find "$work/saved" -type f -name '*.oantt' -printf '%T@ %f\n' 2>/dev/null | sort -n | awk -v last="$began" '
    { sub(/(\.decls)?\.oantt$/, "", $2); sub(/^Rattle[.-]/, "", $2); spent[$2] += $1 - last; last = $1 }
    END { for (part in spent) printf "%8.2f %s\n", spent[part], part }' | sort -rn | head -n "$rows"
[ $status -eq 0 ] || tail -n 3 "$work/said"
echo "$name: $(cat "$work/time")"
exit $status
