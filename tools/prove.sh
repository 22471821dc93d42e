#!/usr/bin/env bash
# prove.sh programs CRATE.. | library CRATE | both CRATE.. | all: proves these crates and what they depend on (tools/plan.sh), and keeps the LLVM modules of the
# programs and the library (tools/modules.sh); `all` proves every crate, and keeps none. One line for each crate as it is proved, "tile proved, 9 of 31", a line
# at least every QUIET seconds, 15 if that is not set, and all else in a log, which an error names. Ends all that it has started where it is ended; what was
# proved until then is not proved again. OF may name the crates that the count is of, where more are proved than these.
set -u
cd "$(dirname "$0")/.." || exit 2
what=${1-}
[ $# -eq 0 ] || shift
case $what in
programs | library | both) ;;
all) set -- ;;
*) echo "usage: prove.sh programs CRATE.. | library CRATE | both CRATE.. | all" >&2; exit 2 ;;
esac
mkdir -p build/log
log=build/log/$what.log told=build/log/$what.told
: >"$log"
: >"$told"
exec 4<"$told"

plan=" $(sh tools/crates.sh "$@" | tr '\n' ' ')"
# Those that are proved already, and are none of these, count from the start; a library of OF once it has its module.
counted=0 of=0
read -ra names <<<"${OF:-$*}"
for name in $(sh tools/crates.sh "${names[@]}"); do
    of=$((of + 1))
    case $plan in *" $name "*) continue ;; esac
    case " ${OF-} " in *" $name "*) [ -e "build/modules/$name.ll" ] || continue ;; esac
    for file in rlib/stamp "$name.stamp" "lib$name.a"; do [ ! -e "crates/$name/out/$file" ] || counted=$((counted + 1)); done
done

last=$SECONDS job=
line() {
    printf '%s\n' "$*"
    last=$SECONDS
}

declare -A since
busy=
# look: tells of what was said on descriptor 3 since the last look; the crates at work are in `busy`.
look() {
    local word name
    while read -r word name <&4; do
        case $word in
        begun)
            since[$name]=$SECONDS busy="$busy $name"
            continue
            ;;
        unchanged) counted=$((counted + 1)) ;;
        proved)
            counted=$((counted + 1))
            line "$name proved, $counted of $of"
            ;;
        failed) line "$name is NOT proved" ;;
        untried) line "$name is NOT proved: one below it is not" ;;
        misran) line "$name is proved, and its run FAILED" ;;
        *) line "$word $name" ;;
        esac
        busy=" $busy "
        busy=${busy/ $name / }
    done
}

# at_work WHAT: the crates at work, each with its seconds; WHAT where there is none.
at_work() {
    local name all=
    for name in $busy; do all="$all${all:+, }$name ($((SECONDS - since[$name])) s)"; done
    echo "${all:-$1}"
}

# through WHAT COMMAND..: runs a command, and tells of it until it ends; WHAT is told where no crate is at work.
through() {
    local doing=$1 began=$SECONDS
    shift
    bash tools/whole.sh bash tools/scratch.sh "$@" 3>>"$told" >>"$log" 2>&1 &
    job=$!
    while kill -0 "$job" 2>/dev/null; do
        look
        if [ $((SECONDS - last)) -ge "${QUIET:-15}" ]; then line "... $(at_work "$doing ($((SECONDS - began)) s)")"; fi
        sleep 0.3
    done
    wait "$job"
    status=$?
    job=
    look
    [ "$status" -eq 0 ] || failed
}

# failed: the first errors, and where all of it stands.
failed() {
    grep -m 3 -E ': error[:[]|^fn .*: no proof: |^modules: |^plan: |^toolchain: ' "$log" | cut -c 1-300
    grep -E '^[a-z0-9_]+: .*(FAILED|NOT PROVED)|^rt: no check reads ' "$log" | sort -u | cut -c 1-300 | tail -n 3
    line "prove: status $status; all that was said is in $log"
    exit 1
}

# ended NUMBER: by a signal.
ended() {
    trap '' INT TERM HUP
    if [ -n "$job" ]; then
        kill -TERM "$job" 2>/dev/null
        wait "$job"
    fi
    line "prove: ended; what was proved stays, and the next make goes on from there"
    exit $((128 + $1))
}
trap 'ended 2' INT
trap 'ended 15' TERM
trap 'ended 1' HUP

case $what in
all)
    through "the plan" bash tools/plan.sh
    # The last word is rt's, on the whole: that all is proved, and that no file stands in no crate.
    through "rt looks through all" rt all check --jobs "${RT_JOBS:-$(nproc 2>/dev/null || echo 1)}"
    ;;
*) through "the LLVM modules" bash tools/modules.sh "$@" ;;
esac
