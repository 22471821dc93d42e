#!/usr/bin/env bash
# run.sh: every test there is, and their sum. Each suite is a command whose last line is 'N passed, M failed' (', K skipped' may follow).
# First the gate of the proofs, `rt ci`, on the project as it stands and on all processors: every proof, every edit that must fail, every program; then everything is
# built, once; then the suites, side by side, each shown whole when it has ended. A table then says where the time went. The last line is the sum of all; the exit status is 0 only where nothing failed and every suite said so itself.
set -u
cd "$(dirname "$0")/.."
logs=build/test
. tools/tell.sh
# The suites call make themselves, and none is a part of the make that may have started this.
unset MAKEFLAGS MAKELEVEL
processors=$(nproc 2>/dev/null || echo 1)

# try NAME COMMAND..: runs a suite; leaves its log, and its exit status with its seconds.
try() {
    local name=$1 began status
    shift
    began=$(date +%s)
    "$@" >"$logs/$name.log" 2>&1 </dev/null
    status=$?
    echo "$status $(($(date +%s) - began))" >"$logs/$name.end"
}

# count NAME: adds the last line of a suite that has ended to the sum.
count() {
    local name=$1 last status seconds
    read -r status seconds <"$logs/$name.end"
    last=$(tail -n 1 "$logs/$name.log")
    if [[ $last =~ ^([0-9]+)\ passed,\ ([0-9]+)\ failed(,\ ([0-9]+)\ skipped)?$ ]]; then
        passed=$((passed + BASH_REMATCH[1]))
        failed=$((failed + BASH_REMATCH[2]))
        skipped=$((skipped + ${BASH_REMATCH[4]:-0}))
        if [ "$status" -ne 0 ] && [ "${BASH_REMATCH[2]}" -eq 0 ]; then
            printf '%s: exit status %s though no test failed\n' "$name" "$status"
            failed=$((failed + 1))
        fi
    else
        printf "%s: its last line is not 'N passed, M failed' (exit status %s)\n" "$name" "$status"
        failed=$((failed + 1))
    fi
    printf '(%s: %s s)\n' "$name" "$seconds"
}

# show: every suite that has ended and was not shown yet.
show() {
    local name
    for name in $running; do
        [ -e "$logs/$name.end" ] || continue
        printf '\n== %s\n' "$name"
        cat "$logs/$name.log"
        count "$name"
        running=" $running "
        running=${running/ $name / }
    done
}

# close: the last line, kept for .ci/run, which shows it again where make adds a line of its own.
close() {
    total | tee $logs/sum
    [ "$failed" -eq 0 ]
}

if ! sh tools/setup.sh rust; then
    failed=1
    total
    exit 1
fi

printf '\n== proofs\n'
began=$(date +%s)
rt ci 2>&1 </dev/null | tee build/proofs.log
status=${PIPESTATUS[0]}
# From nothing: what an earlier make left is made again, of what is proved now.
rm -rf build/bin build/libvdp.a build/native build/modules build/cross build/toolchain build/oracle $logs
mkdir -p $logs
mv build/proofs.log $logs/
echo "$status $(($(date +%s) - began))" >$logs/proofs.end
count proofs
# One that cannot be applied or read says nothing of a contract, and rt lets it pass.
! grep -qE '^rt: ok.*, [0-9]+ bad' $logs/proofs.log
tell "no edit that must fail is bad" $?

# What the suites test, made once. (What rt ci proved is kept for the next rt ci alone: make proves what it builds.) A suite that is run by itself makes what it tests.
printf '\n== make\n'
began=$(date +%s)
make --no-print-directory build native desk page 2>&1 </dev/null | tee $logs/make.log
status=${PIPESTATUS[0]}
tell "make build native desk page ($(($(date +%s) - began)) s)" "$status"
export BUILT=1

# The longest first, so that none of them is left alone at the end; one more at a time than there are processors, since some wait.
running=
for name in outside page desk targets bus $(basename -s .sh tests/[a-z]*.sh | grep -vxE 'run|begin|outside|page|desk|targets|bus'); do
    while [ "$(wc -w <<<"$running")" -gt "$processors" ]; do
        wait -n
        show
    done
    [ -e "tests/$name.sh" ] || continue
    try "$name" bash "tests/$name.sh" &
    running="$running $name"
done
while [ -n "${running// /}" ]; do
    wait -n
    show
done

sh tools/times.sh $logs | tee $logs/times
printf '\n'
close
