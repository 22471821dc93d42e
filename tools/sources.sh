#!/bin/sh
# sources.sh CRATE..: the files that these crates, with all that they depend on, are made of, one to a line: what `make` goes by.
set -eu
cd "$(dirname "$0")/.."
echo crates.txt
sh tools/crates.sh "$@" | while read -r name; do find "crates/$name" -type f ! -path '*/must-fail/*' ! -path "crates/$name/out/*"; done
