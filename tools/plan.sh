#!/usr/bin/env bash
# plan.sh CRATE..: proves these crates and what they depend on, or every crate: each as soon as those below it are proved, as many at a time as there are
# processors, or RT_JOBS, and the one with the longest way above it first. rt itself does one crate after the other, or all that there are. A library is built for
# the crates above it, a static library, as crates.txt has it, for C on any x86-64 machine, and a program is run on its stdin. Where one is not proved, those above
# it are not tried, and all others are. What rt says of a crate is printed when it has ended, and stays in target/log/CRATE.out; how many seconds it took, in
# CRATE.seconds there. On descriptor 3, where somebody listens, a line says what becomes of a crate: begun; then proved, unchanged, failed, misran (proved, but its
# run failed), or, with none of these, untried.
set -u
cd "$(dirname "$0")/.." || exit 2
root=$(pwd -P)
jobs=${RT_JOBS:-$(nproc 2>/dev/null || echo 1)}
case $jobs in *[!0-9]* | 0*) echo "plan: RT_JOBS is a number, 1 or more" >&2; exit 2 ;; esac
work=$(mktemp -d) || exit 2
trap 'trap "" TERM; wait; rm -rf "$work"' EXIT
trap 'exit 143' TERM
work=$(cd "$work" && pwd -P) || exit 2

# What is copied for a run of rt is a second name of the same file, where it can be.
mkdir -p target/log "$work/status" "$work/list" || exit 2
copy=-al
ln crates.txt "$work/linked" 2>/dev/null || copy=-a
names=$(sh tools/crates.sh "$@")
for name in $names; do rm -f "target/log/$name.out" "target/log/$name.stdout"; done

# Of each crate a line: the length of its way, its name, the words for rt, the crates below it; and a crates.txt with its own line and those of all below it.
# A crate weighs the seconds that its check took once (tools/seconds.txt, which tools/weigh.sh writes); one that is not there as many as it has functions, and
# five more for all that is read before them.
plan=$({
    { grep -rcH --include='*.rt' --exclude-dir=out 'fn ' crates || :; } | sed -E 's|^crates/([^/]*)/.*:|functions \1 |'
    [ ! -e tools/seconds.txt ] || sed 's/^/seconds /' tools/seconds.txt
} | WANTED=$* NAMES=$names WORK=$work awk '
    function fail(words) { print "plan: crates.txt: " words > "/dev/stderr"; bad = 2; exit 2 }
    function weight(name) { return name in seconds ? seconds[name] : 5 + functions[name] }
    # its own weight, the longest way of those that stand on it, and a third of what stands right below it: a crate waits for all of these, and with one
    # that waits for much the last of them are not to be left for the end
    function way(name, list, k, count, most) {
        if (name in ways) return ways[name]
        if (name in visited) fail("the crates depend on each other in a cycle through " name)
        visited[name]
        count = split(above[name], list, " ")
        for (k = 1; k <= count; k++) if (way(list[k]) > most) most = way(list[k])
        ways[name] = most + weight(name)
        count = split(below[name], list, " ")
        for (k = 1; k <= count; k++) ways[name] += weight(list[k]) / 3
        return ways[name]
    }
    function put(name, file, list, k, count) {
        if ((file, name) in written) return
        written[file, name]
        print text[name] > file
        count = split(deps[name], list, " ")
        for (k = 1; k <= count; k++) if (list[k] in deps) put(list[k], file)
    }
    part == 1 && $1 == "functions" { functions[$2] += $3 }
    part == 1 && $1 == "seconds" { seconds[$2] = $3 }
    part == 1 { next }
    { sub(/#.*/, "") }
    /^[ \t]*$/ { next }
    !/^[ \t]*[A-Za-z_][A-Za-z0-9_]*([ \t]+staticlib)?[ \t]*:[^:]*$/ { fail("line " FNR ": expected NAME: DEP DEP ...") }
    {
        name = $1
        sub(/:.*/, "", name)
        if (name in deps) fail("line " FNR ": " name " is listed twice")
        if (/staticlib[ \t]*:/) library[name]
        text[name] = $0
        sub(/^[^:]*:/, "")
        deps[name] = $0
    }
    END {
        if (bad) exit bad
        count = split(ENVIRON["WANTED"], list, " ")
        for (k = 1; k <= count; k++) {
            if (!(list[k] in deps)) fail(list[k] " is not listed")
        }
        total = split(ENVIRON["NAMES"], all, " ")
        for (n = 1; n <= total; n++) {
            count = split(deps[all[n]], list, " ")
            for (k = 1; k <= count; k++) if (list[k] in deps) {
                if (list[k] in library) fail(list[k] " is to be built for C alone, and " all[n] " stands on it")
                below[all[n]] = below[all[n]] " " list[k]
                above[list[k]] = above[list[k]] " " all[n]
            }
        }
        for (n = 1; n <= total; n++) {
            print way(all[n]), all[n], (all[n] in library ? "static" : "lib") below[all[n]]
            file = ENVIRON["WORK"] "/list/" all[n]
            put(all[n], file)
            close(file)
        }
    }' part=1 - part=2 crates.txt) || exit 2
[ -n "$plan" ] || { echo "plan: crates.txt lists no crate: there is nothing to prove" >&2; exit 2; }

# say WORD NAME: to who listens.
say() { { echo "$*" >&3; } 2>/dev/null || :; }

# made NAME FROM: what rt made of a crate, its out/, comes to its place, once no rt is at work there. What says of it that it is whole comes last.
made() {
    local to=crates/$1/out stamp
    exec 9<"crates/$1"
    ! command -v flock >/dev/null || flock 9
    rm -rf "$to"
    mkdir "$to" || return
    for stamp in rlib/stamp "$1.stamp"; do [ ! -e "$2/$stamp" ] || mv "$2/$stamp" "$work/status/$1-${stamp##*/}"; done
    cp "$copy" "$2/." "$to/" || return
    for stamp in rlib/stamp "$1.stamp"; do [ ! -e "$work/status/$1-${stamp##*/}" ] || cp "$work/status/$1-${stamp##*/}" "$to/$stamp" || return; done
}

# prove VERB NAME: by a run of rt in a folder of its own, a project of this crate and those below it, with what rt has made of these: two runs in one project
# would wait for each other. What it says then names the files where a user finds them, and what it made comes to the project. The last line is our own.
prove() {
    local room=$work/$2 crate=$work/$2/crates/$2 status said word=proved began=$SECONDS name part words="--jobs 1"
    mkdir -p "$room/crates"
    cp "$work/list/$2" "$room/crates.txt"
    for name in $(sh tools/crates.sh "$2"); do
        mkdir -p "$room/crates/$name/out"
        for part in src specs proofs; do [ ! -e "crates/$name/$part" ] || cp "$copy" "crates/$name/$part" "$room/crates/$name/"; done
        [ "$name" = "$2" ] || [ ! -e "crates/$name/out/rlib" ] || cp "$copy" "crates/$name/out/rlib" "$room/crates/$name/out/"
    done
    # (what rt writes anew in place is a file of its own)
    [ ! -e "crates/$2/out" ] || cp -a "crates/$2/out" "$crate/"
    if [ -e "crates/$2/src/main.rt" ]; then
        part=/dev/null
        [ ! -e "crates/$2/stdin" ] || part=$root/crates/$2/stdin
        (cd "$crate" && rt run $words) <"$part" >"target/log/$2.stdout" 2>"$room/said" 3>&-
    else
        [ "$1" != static ] || words="$words --cpu x86-64"
        (cd "$crate" && rt lib $words) </dev/null >"$room/said" 2>&1 3>&-
    fi
    status=$?
    # (a static library has no stamp, and is built each time: it is unchanged where it is the same)
    for part in rlib/stamp "$2.stamp" "lib$2.a"; do ! cmp -s "$crate/out/$part" "crates/$2/out/$part" || word=unchanged; done
    if grep -q '^rt: running ' "$room/said"; then
        part=/dev/null
        [ ! -e "crates/$2/stdout" ] || part=crates/$2/stdout
        [ $status -eq 0 ] && cmp -s "$part" "target/log/$2.stdout" || word=misran
    elif [ $status -ne 0 ] || [ -e "crates/$2/src/main.rt" ]; then
        word=failed
    fi
    [ $word = unchanged ] || made "$2" "$crate/out" || word=failed
    FROM=$room/ TO=$root/ HERE=$root/crates/$2/ awk '{
        if (match($0, /^(note: )?(\.\/)?(src|specs|proofs)\//)) {
            first = match($0, /^note: /) ? 7 : 1
            rest = substr($0, first)
            sub(/^\.\//, "", rest)
            $0 = substr($0, 1, first - 1) ENVIRON["HERE"] rest
        }
        while (at = index($0, ENVIRON["FROM"])) {
            printf "%s%s", substr($0, 1, at - 1), ENVIRON["TO"]
            $0 = substr($0, at + length(ENVIRON["FROM"]))
        }
        print
    }' "$room/said" >"target/log/$2.out"
    case $word in
    proved)
        said="proved ($((SECONDS - began)) s)"
        # (what another copy of the project on this machine has proved, rt takes from there)
        ! grep -q '^logic=proved' "$room/said" || echo $((SECONDS - began)) >"target/log/$2.seconds"
        ;;
    unchanged) said="proved (unchanged since it was last proved)" ;;
    misran) said="proved, and its run FAILED (exit $status, $((SECONDS - began)) s): target/log/$2.stdout is what it wrote" ;;
    failed) said="NOT PROVED (exit $status, $((SECONDS - began)) s)" ;;
    esac
    echo "$2: $said" >>"target/log/$2.out"
    rm -rf "$room"
    case $status$word in 0misran | 0failed) status=1 ;; esac
    echo "$status $word" >"$work/status/$2"
}

declare -A verb below state
open='' busy='' running=0 worst=0
while read -r _ name word deps; do
    verb[$name]=$word below[$name]=$deps open="$open $name"
done < <(sort -s -k1,1nr <<<"$plan")

# begin: starts what stands on proved crates alone, the longest way first, while there is room, and gives up what stands on one that is not proved.
begin() {
    local name dep can left=''
    for name in $open; do
        can=now
        for dep in ${below[$name]}; do
            case ${state[$dep]-} in
            proved) ;;
            failed) can=never; break ;;
            *) can=later ;;
            esac
        done
        if [ $can = never ]; then
            state[$name]=failed
            echo "$name is not tried: $dep, below it, is not proved"
            say untried "$name"
        elif [ $can = now ] && [ "$running" -lt "$jobs" ]; then
            say begun "$name"
            prove "${verb[$name]}" "$name" &
            busy="$busy $name" running=$((running + 1))
        else
            left="$left $name"
        fi
    done
    open=$left
}

# ended NAME STATUS WORD: what rt said of a crate, and what has become of it.
ended() {
    cat "target/log/$1.out"
    state[$1]=proved running=$((running - 1))
    if [ "$2" -ne 0 ]; then
        state[$1]=failed
        [ "$2" -le "$worst" ] || worst=$2
    fi
    say "$3" "$1"
}

begin
while [ "$running" -gt 0 ]; do
    wait -n
    none=$? left=''
    for name in $busy; do
        if [ -s "$work/status/$name" ]; then
            read -r status word <"$work/status/$name"
            ended "$name" "$status" "$word"
        elif [ "$none" -eq 127 ]; then
            # no run is left, and this one has not come to its end
            echo "plan: the run of $name was ended from outside" >"target/log/$name.out"
            ended "$name" 2 failed
        else
            left="$left $name"
        fi
    done
    busy=$left
    begin
done
# Each has been tried, or stands on one that failed.
[ -z "$open" ] || { echo "plan: a fault: not tried:$open"; exit 2; }
exit "$worst"
