# cross.sh: how to compile and run x86-64 programs on this machine, in one place.
# Sourced it sets RUSTC (Rust to x86-64), CC_X86 (C to x86-64) and RUN (what runs an x86-64 program; empty on x86-64),
# and RUSTC_HERE (Rust for this very machine). Run as a command it does one of:
#   sh tools/cross.sh rustc ARGS..     compile a Rust program for x86-64
#   sh tools/cross.sh cc ARGS..        compile a C program for x86-64
#   sh tools/cross.sh run PROGRAM ..   run an x86-64 program
#   sh tools/cross.sh here ARGS..      compile a Rust program for this machine
# tools/setup.sh installs what is used here.
case $(uname -m) in
aarch64)
    # Debian's own rustc: another one on PATH has no x86-64 standard library.
    RUSTC="/usr/bin/rustc --target x86_64-unknown-linux-gnu -C linker=x86_64-linux-gnu-gcc"
    CC_X86=x86_64-linux-gnu-gcc
    # No -L: the x86-64 C library stands at its usual place.
    RUN=qemu-x86_64
    ;;
*)
    RUSTC=rustc
    CC_X86=cc
    RUN=
    ;;
esac
RUSTC_HERE=rustc

case $0 in
*cross.sh)
    verb=$1
    shift
    case $verb in
    rustc) exec $RUSTC "$@" ;;
    cc) exec $CC_X86 "$@" ;;
    run) exec $RUN "$@" ;;
    here) exec $RUSTC_HERE "$@" ;;
    *) echo "cross.sh: unknown: $verb" >&2; exit 2 ;;
    esac
    ;;
esac
