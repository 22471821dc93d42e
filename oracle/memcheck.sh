#!/bin/sh
# memcheck.sh [CALLS [SEED]]: the comparison, and that of the home machine's calls, under valgrind, with build/native/libvdp.a (make native) and each buffer lent as memory of
# its own, so that a read or a write of one byte beside it is seen. Exit status 0 only where nothing differs and valgrind has nothing to say.
set -eu
cd "$(dirname "$0")/.."
command -v valgrind >/dev/null || { echo "memcheck: no valgrind here; install the package valgrind" >&2; exit 2; }
[ -e build/native/libvdp.a ] || { echo "memcheck: no build/native/libvdp.a: make native makes it" >&2; exit 2; }
HERE_LIB=build/native/libvdp.a sh oracle/build.sh here docks-here
valgrind -q --error-exitcode=9 build/oracle/here/compare "${1:-10000}" "${2:-1}" --tight
valgrind -q --error-exitcode=9 build/oracle/here/docks "${1:-10000}" "${2:-1}" --tight
echo "memcheck: ${1:-10000} calls of either machine, and valgrind has nothing to say"
