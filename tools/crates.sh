#!/bin/sh
# crates.sh CRATE..: the names of these crates and of all that they depend on, one to a line; with no name, of all crates.
set -eu
cd "$(dirname "$0")/.."
awk -v wanted="$*" '
    function visit(name, list, k, count) {
        if (name in seen || !(name in deps)) return
        seen[name] = 1
        print name
        count = split(deps[name], list, " ")
        for (k = 1; k <= count; k++) visit(list[k])
    }
    { sub(/#.*/, "") }
    # NAME: DEP DEP, or NAME staticlib: DEP DEP
    split($0, part, ":") == 2 { split(part[1], word, " "); deps[word[1]] = part[2]; all = all " " word[1] }
    END { count = split(wanted == "" ? all : wanted, list, " "); for (k = 1; k <= count; k++) visit(list[k]) }' crates.txt
