#!/bin/sh
# release.sh FOLDER [RELEASE [COMMAND..]]: makes a fresh container of another release of Debian (trixie, if none is named) in FOLDER, by debootstrap, with this
# project, its toolchain and the published Rust in it, and runs a command there, `make test` if none is given. For root alone. FOLDER stands outside of the
# project, as rt looks at every file of it; a container that is there already is used again.
set -eu
[ $# -ge 1 ] || { echo "usage: release.sh FOLDER [RELEASE [COMMAND..]]" >&2; exit 2; }
mkdir -p "$1"
root=$(cd "$1" && pwd)
cd "$(dirname "$0")/.."
release=${2:-trixie}
if [ $# -ge 2 ]; then shift 2; else shift; fi
[ $# -gt 0 ] || set -- make test
fail() { echo "release: $*" >&2; exit 1; }
[ "$(id -u)" = 0 ] || fail "a container can be made by root alone"
command -v debootstrap >/dev/null || fail "no debootstrap here; install the package debootstrap"
. tools/toolchain.sh
. tools/gears.sh
case $root/ in "$PWD"/*) fail "$root stands in the project" ;; esac

if [ ! -e "$root/ready" ]; then
    echo "release: making a container of $release in $root"
    debootstrap --variant=minbase --include=make,python3,ca-certificates "$release" "$root" "${MIRROR:-http://deb.debian.org/debian}" >"$root.log" 2>&1 ||
        fail "debootstrap could not make it; $root.log says: $(tail -n 1 "$root.log")"
    touch "$root/ready"
fi
mkdir -p "$root/project" "$root$kit" "$root/gears"
[ -e "$root$kit/KIT-ID" ] || cp -a "$kit/." "$root$kit/"
! has_gears || cp "$GEARS"/*.rs "$root/gears/"
tar -c --exclude=./build --exclude=./target --exclude='./crates/*/out' . | tar -x -C "$root/project"
mountpoint -q "$root/proc" || mount -t proc proc "$root/proc" || fail "proc cannot be mounted in the container"
mountpoint -q "$root/dev" || mount --rbind /dev "$root/dev" || fail "dev cannot be mounted in the container"
trap 'umount "$root/proc" 2>/dev/null; umount -l "$root/dev" 2>/dev/null' EXIT
cp /etc/resolv.conf "$root/etc/" 2>/dev/null || :
status=0
chroot "$root" env -i HOME=/root LANG=C.UTF-8 PATH="$kit/bin:/usr/local/sbin:/usr/local/bin:/usr/sbin:/usr/bin:/sbin:/bin" GEARS=/gears DEBIAN_FRONTEND=noninteractive \
    sh -c 'cd /project && exec "$@"' sh "$@" || status=$?
echo "release: $* in $release ended with status $status"
exit $status
