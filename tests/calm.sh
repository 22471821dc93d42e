#!/usr/bin/env bash
# calm.sh: what `make` says while it proves, in what order it does, and how it is ended: a line for each crate, a line every few seconds, errors that name their
# log; each crate as soon as those below it are proved, and no more at a time than there are processors; Ctrl-C, a closed terminal and kill end all that was
# started, and the next run goes on from there. In a copy of the project, with a stand-in for rt that starts its provers in the background, as rt does, and
# takes the time that it is told.
# Where it is started with signals ignored (by nohup, or in the background of a script), they are set back first: bash cannot, and nothing could be ended by them.
[ -n "${SIGNALS:-}" ] || SIGNALS=back exec env --default-signal=INT,TERM,HUP bash "$0" "$@"
. "$(dirname "$0")/begin.sh"
work=$(mktemp -d)
trap 'rm -rf "$work"' EXIT
copy=$work/copy
mkdir -p "$copy" "$work/bin"
copied "$copy"
# In $work/waits stand crates with another, which has to begin first (but for 20 seconds at most), in $work/takes crates with the seconds that they take then;
# $work/stuck, $work/wrong and $work/misran name those that never end, that are not proved, or whose run fails. All that it starts is noted, when it begins and
# when it ends, and what it finds in its folder. As rt does, it works on the crate of the folder that it is called in, goes by the crates.txt above it, leaves in
# out/ what it makes, and names files from the crate's folder. It calls few commands, since it is called often.
cat >"$work/bin/rt" <<END
#!/bin/sh
case \$1 in version) echo stand-in; exit ;; lib | run | all) verb=\$1 words=\$* ;; *) exit 2 ;; esac
# in_list FILE NAME: the rest of its line is in more
in_list() {
    while read -r one more; do [ "\${one%:}" != "\$2" ] || return 0; done <"\$1"
    return 1
}
# proved: what there is to prove of the crate that is in name
proved() {
    echo \$name >>"$work/proved"
    echo begin \$name >>"$work/journal"
    while read -r dep more; do
        dep=\${dep%:}
        [ "\$dep" = \$name ] || [ -e ../\$dep/out/rlib/stamp ] || echo "\$name before \$dep" >>"$work/early"
    done <../../crates.txt
    echo "fn \$name::something: proved"
    ! in_list "$work/waits" \$name || for _ in \$(seq 200); do ! grep -qx "begin \$more" "$work/journal" || break; sleep 0.1; done
    ! in_list "$work/takes" \$name || sleep \$more
    ! in_list "$work/stuck" \$name || sh -c 'echo \$\$ >>"$work/started"; exec sleep 300'
    echo end \$name >>"$work/journal"
    if in_list "$work/wrong" \$name; then
        echo "./proofs/Wrong.antt:7:1: error: it does not hold"
        exit 1
    fi
    echo "logic=proved functions=1"
}
echo \$\$ >>"$work/started"
if [ \$verb = all ]; then
    [ ! -e crates/stray.rt ] || { echo "rt: no check reads \$PWD/crates/stray.rt: a .rt file goes in src/"; exit 2; }
    exit
fi
name=\${PWD##*/}
echo "\$words \$name" >>"$work/calls"
for crate in ../*; do in_list ../../crates.txt "\${crate#../}" || echo "\$name met \${crate#../}" >>"$work/met"; done
while read -r line; do echo "\$line"; done <../../crates.txt >"$work/found/\$name"
if [ \$verb = lib ]; then
    [ ! -e out/rlib/stamp ] || exit 0
    proved &
    wait \$! || exit
    [ -d out/rlib ] || mkdir -p out/rlib
    case \$words in *--cpu*) echo \$name >out/lib\$name.a ;; *) echo \$name >out/rlib/stamp ;; esac
    exit
fi
if [ ! -e out/\$name.stamp ]; then
    proved >&2 &
    wait \$! || exit
    echo \$name >out/\$name.stamp
fi
echo "rt: running out/\$name; to give it other input, run that file yourself" >&2
! in_list "$work/misran" \$name || { echo 'it went wrong' >&2; exit 1; }
[ ! -e "$copy/crates/\$name/stdout" ] || cat "$copy/crates/\$name/stdout"
END
printf '#!/bin/sh\ncat "%s"\n' "$work/processors" >"$work/bin/nproc"
chmod +x "$work/bin"/*
export PATH="$work/bin:$PATH"
unset RT_JOBS
# A busy machine adds no line of its own.
export QUIET=600
# What is made for the time of a run.
export TMPDIR=$work/tmp
mkdir "$TMPDIR"
cd "$copy"
# Some of the crates are as good as all here.
awk -F: -v kept=' laws bitmap small picture column stand tile background sprites dump program programs demands face face_c ' '
    function has(name) { sub(/ .*/, "", name); return index(kept, " " name " ") }
    has($1) {
        line = $1 ":"
        count = split($2, deps, " ")
        for (k = 1; k <= count; k++) if (has(deps[k])) line = line " " deps[k]
        print line
    }' crates.txt >"$work/crates.txt"
mv "$work/crates.txt" crates.txt
all=$(sh tools/crates.sh | wc -l)

# stamps: how many crates are proved, each with a stamp of its own, or, where it is one for C, with what is made of it.
stamps() { find crates -path '*/out/*' \( -name stamp -o -name '*.stamp' -o -name '*.a' \) | wc -l; }
# anew WORDS..: nothing is proved, there are two processors, and the stand-in goes by these words: a file and its lines.
anew() {
    local name
    rm -rf crates/*/out target/log "$work/found"
    mkdir -p target/log "$work/found"
    for name in takes waits stuck wrong misran started proved journal early met calls; do : >"$work/$name"; done
    [ $# -eq 0 ] || printf '%s\n' "${@:2}" >"$work/$1"
    echo 2 >"$work/processors"
}
# above CRATE: those that depend on it, and those on these.
above() {
    local name
    for name in $(sh tools/crates.sh); do [ "$name" = "$1" ] || ! sh tools/crates.sh "$name" | grep -qx "$1" || echo "$name"; done | sort
}
# most: how many were at work at a time.
most() { awk '$1 == "begin" { if (++now > most) most = now } $1 == "end" { now-- } END { print most + 0 }' "$work/journal"; }
# came EVENT EVENT: the one before the other, as "begin tile", "end stand".
came() { awk -v one="$1" -v other="$2" '$0 == one { first = 1 } $0 == other { so = first } END { exit !so }' "$work/journal"; }

anew
bash tools/prove.sh all >"$work/said" 2>&1
[ $? -eq 0 ] && awk -v all="$all" '$0 != $1 " proved, " NR " of " all { exit 1 }' "$work/said" &&
    [ "$(cut -d' ' -f1 "$work/said" | sort)" = "$(sh tools/crates.sh | sort)" ]
tell "one line for each crate, counted, and nothing else" $?
[ "$(grep -c '::something: proved' build/log/all.log)" -eq "$all" ]
tell "all else is in the log" $?
[ ! -s "$work/early" ]
tell "none begins before those below it are proved" $?
[ ! -s "$work/met" ] && [ -z "$(ls -A "$TMPDIR")" ]
tell "none finds another's crates in its folder, and no folder is left" $?
bash tools/prove.sh all >"$work/said" 2>&1 && [ ! -s "$work/said" ]
tell "where all is proved it says nothing" $?
rm crates/tile/out/rlib/stamp crates/demands/out/rlib/stamp
bash tools/prove.sh all >"$work/said" 2>&1 && [ "$(sed 's/, .*//' "$work/said" | sort | tr '\n' ' ')" = 'demands proved tile proved ' ]
tell "of two that have changed it says two lines" $?
rm crates/tile/out/rlib/stamp
: >crates/stray.rt
bash tools/prove.sh all >"$work/said" 2>&1
[ $? -eq 1 ] && grep -q '^tile proved, ' "$work/said" && grep -q "^rt: no check reads $copy/crates/stray.rt: " "$work/said"
tell "the last word on the whole is rt's: a file that stands in no crate" $?
rm crates/stray.rt

anew takes 'tile 3'
began=$SECONDS
QUIET=1 RT_JOBS=1 bash tools/prove.sh all >"$work/said" 2>&1 && grep -qE '^\.\.\. tile \([12] s\)$' "$work/said" && [ $((SECONDS - began)) -ge 3 ]
tell "one that takes long is told while it does" $?
[ "$(most)" -eq 1 ]
tell "RT_JOBS=1: one at a time" $?
anew takes 'tile 3' 'stand 3'
printf '%s\n' 'stand tile' 'tile stand' >"$work/waits"
QUIET=1 bash tools/prove.sh all >"$work/said" 2>&1 && grep -qE '^\.\.\. (stand \([0-9]+ s\), tile|tile \([0-9]+ s\), stand) \([0-9]+ s\)$' "$work/said" &&
    [ "$(most)" -eq 2 ]
status=$?
[ $status -eq 0 ] || cat "$work/said"
tell "so are two, on two processors" $status

# By levels, as rt goes, `tile` and what stands on it would not begin before `stand` has ended, which they do not need.
anew waits 'stand background'
bash tools/prove.sh all >"$work/said" 2>&1 && came 'begin tile' 'end stand' && came 'begin background' 'end stand' && came 'end stand' 'begin sprites'
tell "a crate begins as soon as those below it are proved, though one of a lower level is still at work" $?
# Three that are at work together, and a fourth that could begin.
anew waits 'small bitmap' 'picture bitmap'
printf '%s\n' 'small 1' 'picture 1' 'bitmap 1' >"$work/takes"
echo 3 >"$work/processors"
bash tools/prove.sh all >"$work/said" 2>&1 && [ "$(most)" -eq 3 ] && [ ! -s "$work/early" ]
tell "three at a time on three processors, and never more" $?

anew wrong tile
bash tools/prove.sh all >"$work/said" 2>&1
[ $? -eq 1 ] && grep -qx 'tile is NOT proved' "$work/said" && grep -q "^$copy/crates/tile/proofs/Wrong.antt:7:1: error: it does not hold$" "$work/said" &&
    [ "$(tail -n 1 "$work/said")" = "prove: status 1; all that was said is in build/log/all.log" ] &&
    grep -q "^$copy/crates/tile/proofs/Wrong.antt" build/log/all.log
tell "an error is told, with the file where it stands, and names the log" $?
above tile >"$work/above"
[ -s "$work/above" ] && [ "$(sed -n 's/ is NOT proved: one below it is not$//p' "$work/said" | sort)" = "$(cat "$work/above")" ] &&
    ! grep -qxFf "$work/above" "$work/proved"
tell "what stands on a crate that is not proved is not tried" $?
free=$((all - 1 - $(wc -l <"$work/above")))
[ "$(cat "$work/proved" "$work/above" | sort)" = "$(sh tools/crates.sh | sort)" ] && [ "$(stamps)" -eq $free ]
tell "and all others are" $?
anew misran programs
bash tools/prove.sh all >"$work/said" 2>&1
[ $? -eq 1 ] && grep -qx 'programs is proved, and its run FAILED' "$work/said" && ! grep -q NOT "$work/said" &&
    grep -qx 'it went wrong' target/log/programs.out
tell "a program whose run fails is told, and what it said is where rt says" $?

# The plan by itself.
anew
bash tools/plan.sh face_c programs >"$work/said" 2>&1
[ $? -eq 0 ] && [ "$(sort "$work/calls")" = "$(sh tools/crates.sh face_c programs | sed 's/^/lib --jobs 1 /; s/1 face_c$/1 --cpu x86-64 face_c/; s/^lib \(.*\) programs$/run \1 programs/' | sort)" ] &&
    [ ! -s "$work/early" ]
tell "a library is built for C, once those below it are proved; each crate has one run of rt" $?
others=
for name in $(sh tools/crates.sh face_c programs); do
    [ "$(grep '::something: proved' "target/log/$name.out")" = "fn $name::something: proved" ] || others="$others $name"
done
[ -z "$others" ] || echo "not the log of the crate:$others"
[ -z "$others" ]
tell "each has a log, with what rt said of it" $?
status=0
for name in tile programs face_c; do
    [ "$(grep -E "^($(sh tools/crates.sh $name | paste -sd '|'))( staticlib)?:" crates.txt | sort)" = "$(sort "$work/found/$name")" ] || status=1
done
[ $status -eq 0 ] && [ "$(wc -l <"$work/found/tile")" -gt 1 ]
tell "rt finds the crate's line, those of all that it stands on, and no others" $?
small=$work/small
mkdir -p "$small/target"
cp -R tools "$small/"
rm "$small/tools/seconds.txt"
printf '%s\n' base: 'wide: base' 'deep: base' 'deeper: deep' 'deepest: deeper' 'short: base' 'shown: deepest' >"$small/crates.txt"
for name in base:1 wide:12 deep:1 deeper:1 deepest:1 short:1; do
    mkdir -p "$small/crates/${name%:*}/src"
    for k in $(seq "${name#*:}"); do echo "fn f$k() {}"; done >"$small/crates/${name%:*}/src/lib.rt"
done
mkdir -p "$small/crates/shown/src"
echo 'fn main() {}' >"$small/crates/shown/src/main.rt"
for k in $(seq 9); do echo "pub fn f$k() {}"; done >"$small/crates/shown/src/other.rt"
anew
RT_JOBS=1 bash "$small/tools/plan.sh" >"$work/said" 2>&1 && [ "$(tr '\n' ' ' <"$work/proved")" = 'base deep deeper deepest wide shown short ' ]
tell "the longest way above it comes first, by the functions that are there, in all files of a crate" $?
echo 'short 30' >"$small/tools/seconds.txt"
rm -rf "$small"/crates/*/out
anew
RT_JOBS=1 bash "$small/tools/plan.sh" >"$work/said" 2>&1 && [ "$(tr '\n' ' ' <"$work/proved")" = 'base deep deeper short deepest wide shown ' ]
tell "and by the seconds that a crate has taken, where they are known, and a third of those of the crates right below it" $?
# refused NAME LINE WORDS..: the plan says this line, and calls rt for nothing.
refused() {
    local name=$1 line=$2 status
    shift 2
    anew
    "$@" >"$work/said" 2>&1
    [ $? -eq 2 ] && [ ! -s "$work/calls" ] && [ "$(cat "$work/said")" = "$line" ]
    status=$?
    [ $status -eq 0 ] || cat "$work/said"
    tell "$name" $status
}
refused "a crate that is not there" "plan: crates.txt: none is not listed" bash "$small/tools/plan.sh" wide none
refused "RT_JOBS that is no number" "plan: RT_JOBS is a number, 1 or more" env RT_JOBS=two bash "$small/tools/plan.sh"
refused "RT_JOBS=0" "plan: RT_JOBS is a number, 1 or more" env RT_JOBS=0 bash "$small/tools/plan.sh"
sed -i 's/^deepest:/deepest staticlib:/' "$small/crates.txt"
refused "a library for C that another crate stands on" "plan: crates.txt: deepest is to be built for C alone, and shown stands on it" \
    bash "$small/tools/plan.sh" shown
sed -i 's/^deepest staticlib:/deepest:/' "$small/crates.txt"
echo 'more base' >>"$small/crates.txt"
refused "a line of crates.txt that is none" "plan: crates.txt: line 8: expected NAME: DEP DEP ..." bash "$small/tools/plan.sh" wide
sed -i '8s/.*/wide: deep/' "$small/crates.txt"
refused "a crate that is listed twice" "plan: crates.txt: line 8: wide is listed twice" bash "$small/tools/plan.sh" short
sed -i '8d; s/^deep: base/& deepest/' "$small/crates.txt"
refused "crates that depend on each other" "plan: crates.txt: the crates depend on each other in a cycle through deep" bash "$small/tools/plan.sh" deep
: >"$small/crates.txt"
refused "no crate at all" "plan: crates.txt lists no crate: there is nothing to prove" bash "$small/tools/plan.sh"

# runs PID: it is there, and has not ended (state Z: it has, and nobody has asked for its status).
runs() { [ -e "/proc/$1/stat" ] && ! sed 's/.*) //' "/proc/$1/stat" 2>/dev/null | grep -q '^[ZX]'; }
# alive: those that the stand-in has started and that still run.
alive() { while read -r pid; do ! runs "$pid" || echo "$pid"; done <"$work/started"; }
# soon COMMAND..: it holds within five seconds.
soon() {
    for _ in $(seq 50); do
        ! "$@" || return 0
        sleep 0.1
    done
    return 1
}
none_alive() { [ -z "$(alive)" ]; }
# ends NAME SIGNAL STATUS COMMAND..: the command, a process group of its own as a terminal has it, is sent the signal, all of the group, while a crate is
# stuck. It ends with this status, soon nothing that it has started lives on, and the next run goes on from there.
ends() {
    local name=$1 signal=$2 due=$3 status group
    shift 3
    anew stuck tile
    set -m
    "$@" >"$work/said" 2>&1 &
    group=$!
    set +m
    # all that does not wait for it is proved
    stuck() { [ "$(stamps)" -eq "$free" ] && ! none_alive; }
    soon stuck || soon stuck || soon stuck
    status=$?
    kill -"$signal" -- "-$group"
    wait "$group"
    [ $? -eq "$due" ] || status=1
    soon none_alive && grep -q '^prove: ended; what was proved stays' "$work/said" && [ -z "$(ls -A "$TMPDIR")" ] || status=1
    [ $status -eq 0 ] || { cat "$work/said"; alive; }
    tell "$name: all that was started ends with it" $status
    # what was proved until then is not proved again
    : >"$work/stuck"
    [ "$(stamps)" -eq "$free" ] && "$@" >"$work/said" 2>&1 && [ "$(sort "$work/proved" | uniq -c | awk '$1 > 1 { print $2 }')" = tile ] && [ "$(sort -u "$work/proved" | wc -l)" -eq "$all" ]
    tell "$name: the next run goes on from there" $?
}
ends 'Ctrl-C' INT 130 bash tools/prove.sh all
ends 'kill' TERM 143 bash tools/prove.sh all
ends 'a terminal that is closed' HUP 129 bash tools/prove.sh all
ends 'Ctrl-C in make' INT 130 make --no-print-directory prove

# One that does not listen is ended all the same.
set -m
bash "$copy/tools/whole.sh" sh -c "trap '' TERM; echo \$\$ >$work/deaf; sleep 300; sleep 300" &
group=$!
set +m
soon test -s "$work/deaf"
kill -INT -- "-$group"
wait "$group"
status=$?
ended() { ! runs "$(cat "$work/deaf")"; }
[ $status -eq 130 ] && soon ended
tell "one that does not listen to kill is ended" $?

total
