#!/bin/sh
# setup.sh [c] [rust] [bus] [cartridge] [cross] [cargo] [page]: makes this machine ready to build and to run what is built; with words, also
#   c          to compile C
#   rust       to test, to compare and to measure
#   bus        to count turns of the bus
#   cartridge  to play cartridges
#   cross      to compile C for the machines that there are libraries for (tools/target.sh), and to run it here
#   cargo      to build the player's file as its page says
#   page       to try the page in a browser, and the types of its calls
# Does nothing, quickly, where all is there. Whatever is wrong is told in one line, before anything is built.
# To build, rt is all that is needed on x86-64; on Arm (aarch64), where rt makes x86-64 code, also a C compiler, which links programs. Debian and its kin;
# elsewhere install the packages that it names by hand.
set -eu
cd "$(dirname "$0")/.."

say() { printf 'setup: %s\n' "$*"; }
fail() { printf 'setup: error: %s\n' "$*" >&2; exit 1; }

c=false rust=false bus=false cartridge=false cross=false cargo=false page=false
machine=$(uname -m)
for word; do
    case $word in
    c) c=true ;;
    rust) c=true rust=true ;;
    bus) c=true rust=true bus=true ;;
    cartridge) c=true cartridge=true ;;
    cross) c=true cross=true ;;
    cargo) c=true cargo=true ;;
    page) page=true ;;
    *) fail "unknown: $word (there are: c, rust, bus, cartridge, cross, cargo, page)" ;;
    esac
done
[ "$machine" = x86_64 ] || c=true

# Tells whether the first of these names is a file: for a pattern, whether anything matches it.
there() { [ -e "$1" ]; }

# has COMMAND PACKAGE..: names the packages where there is no such command.
has() {
    command -v "$1" >/dev/null && return
    shift
    printf '%s\n' "$@"
}

# Prints the packages that are missing, each looked for by the file or command that we use of it.
missing() {
    if $rust && [ "$machine" = aarch64 ]; then
        [ -x /usr/bin/qemu-x86_64 ] || echo qemu-user
        there /lib64/ld-linux-x86-64.so.2 || echo libc6:amd64
        [ -x /usr/bin/rustc ] || echo rustc
        there /usr/lib/rustlib/x86_64-unknown-linux-gnu/lib/libstd-*.rlib || echo libstd-rust-dev:amd64
        [ -x /usr/bin/x86_64-linux-gnu-gcc ] || echo gcc-x86-64-linux-gnu
        there /usr/x86_64-linux-gnu/include/stdio.h || echo libc6-dev-amd64-cross
    elif $rust; then
        has rustc rustc
    fi
    if $c; then has cc gcc libc6-dev; fi
    if $bus; then has valgrind valgrind; fi
    if $cartridge; then
        there /usr/include/z80ex/z80ex.h || echo libz80ex-dev
        has z80asm z80asm
    fi
    if $cargo; then has cargo cargo; fi
    if $cross; then
        has qemu-riscv64 qemu-user
        for both in aarch64-linux-gnu:arm64 riscv64-linux-gnu:riscv64 arm-linux-gnueabihf:armhf x86_64-linux-gnu:amd64; do
            name=${both%:*}
            case $name in $machine-*) continue ;; esac
            has "$name-gcc" "gcc-$(echo "$name" | tr _ -)"
            there "/usr/$name/include/stdio.h" || echo "libc6-dev-${both#*:}-cross"
        done
    fi
    if $page; then
        has chromium chromium
        has tsc node-typescript
    fi
}

case $(uname -s)-$machine in
Linux-x86_64 | Linux-aarch64) ;;
*) fail "this machine is $(uname -s) $machine; the project is built on Linux, x86-64 or Arm (aarch64)" ;;
esac

mkdir -p build target 2>/dev/null && [ -w build ] && [ -w target ] ||
    fail "cannot write in $PWD, where build/ and target/ are made: copy the project to a place that you may write to"

command -v rt >/dev/null ||
    fail "rt (the Rattle toolchain) is not on PATH: unpack the toolchain and add its bin folder to PATH, then run this again"

need=$(missing)
[ -n "$need" ] || exit 0

# One at a time: suites that run side by side may want the same packages.
if command -v flock >/dev/null; then
    exec 9>build/setup.lock
    flock 9
    need=$(missing)
    [ -n "$need" ] || exit 0
fi

# Packages can be installed by root alone, or with sudo.
as_root=
if [ "$(id -u)" != 0 ]; then
    command -v sudo >/dev/null || fail "these packages are missing and need root to install:" $need
    as_root=sudo
fi
command -v apt-get >/dev/null || fail "no apt-get here; install these packages by hand:" $need

# quietly WORDS..: runs a command whose output counts only where it fails; the first error that it tells is then our one line. It is never silent for long.
log=$(mktemp)
trap 'rm -f "$log"' EXIT
quietly() {
    "$@" >"$log" 2>&1 </dev/null &
    job=$! waited=0 status=0
    trap 'kill "$job" 2>/dev/null; wait "$job" || :; exit 130' INT TERM HUP
    while kill -0 "$job" 2>/dev/null; do
        sleep 0.2
        waited=$((waited + 1))
        if [ $((waited % 75)) -eq 0 ]; then say "... $((waited / 5)) s"; fi
    done
    wait "$job" || status=$?
    [ $status -eq 0 ] || fail "could not install" $need "($(grep -m 1 '^E:' "$log" || tail -n 1 "$log")); install them by hand and run this again"
}

if $rust && [ "$machine" = aarch64 ] && ! dpkg --print-foreign-architectures | grep -qx amd64; then
    say "adding the amd64 architecture to dpkg, for x86-64 libraries"
    quietly $as_root dpkg --add-architecture amd64
fi
say "refreshing the list of packages"
quietly $as_root apt-get -qq -o DPkg::Lock::Timeout=300 update
say "installing" $need
quietly $as_root env DEBIAN_FRONTEND=noninteractive apt-get -qq -y --no-install-recommends \
    -o DPkg::Lock::Timeout=300 -o Dpkg::Use-Pty=0 install $need

need=$(missing)
[ -z "$need" ] || fail "still missing after the installation:" $need
say "ready"
