#!/bin/sh
# times.sh FOLDER: where the time of a run of all tests went, by the logs that tests/run.sh leaves in FOLDER and tools/plan.sh in target/log: of each crate how many
# seconds `make` took to prove it, if it did, and how many edits were tried; the seconds of the gate of the proofs, of `make` and of each suite.
sh "$(dirname "$0")/crates.sh" | awk -v logs="$1" '
    BEGIN { while ((getline line <(logs "/proofs.log")) > 0) if (split(line, part, "[ /]") > 3 && line ~ /^rt: must-fail /) edits[part[3]]++ }
    {
        if (!heads++) printf "\n%-16s %8s %6s\n", "crate", "seconds", "edits"
        seconds = ""
        file = "target/log/" $1 ".seconds"
        if ((getline seconds <file) > 0) all += seconds
        close(file)
        printf "%-16s %8s %6s\n", $1, seconds, edits[$1]
        tried += edits[$1]
    }
    END { printf "%-16s %8d %6d\n", "all " NR, all, tried }'
printf '\n%-16s %8s\n' suite seconds
for end in "$1"/*.end; do
    printf '%-16s %8s\n' "$(basename "$end" .end)" "$(cut -d' ' -f2 "$end")"
done
