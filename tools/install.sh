#!/bin/sh
# install.sh FOLDER: puts under FOLDER what `make` made for this machine:
#   include, lib        the header, the libraries and a pkg-config file
#   bin                 the programs and the desk
#   lib/humusloft       the desk's own files, its page where `make page` made it, and by links what it looks for beside them: the header, the library and the programs
#   share/doc/humusloft the pages, with their pictures and scripts
# All links are told from where they stand, so that the whole can be moved.
set -eu
[ $# -eq 1 ] && [ -n "$1" ] || { echo "usage: install.sh FOLDER" >&2; exit 2; }
cd "$(dirname "$0")/.."
for made in build/native/libvdp.so build/bin/trace build/bin/desk; do
    [ -e $made ] || { echo "install: no $made: make makes it" >&2; exit 1; }
done
part() { sed -n "s/^#define VDP_VERSION_$1 //p" include/vdp.h; }
to=$1
pages=$to/share/doc/humusloft desk=$to/lib/humusloft
for folder in include lib/pkgconfig bin lib/humusloft/desk lib/humusloft/build share/doc/humusloft/scripts; do
    mkdir -p "$to/$folder" 2>/dev/null && [ -w "$to/$folder" ] ||
        { echo "install: cannot write under $to: name a folder of your own, as make install PREFIX=\$HOME/.local" >&2; exit 1; }
done

install -m 644 include/vdp.h "$to/include/"
install -m 644 build/native/libvdp.a "$to/lib/"
install -m 755 "build/native/libvdp.so.$(part MAJOR)" "$to/lib/"
ln -sfn "libvdp.so.$(part MAJOR)" "$to/lib/libvdp.so"
cat >"$to/lib/pkgconfig/vdp.pc" <<END
prefix=\${pcfiledir}/../..
Name: vdp
Description: The video chip of a handheld console, every function proved
Version: $(part MAJOR).$(part MINOR).$(part SMALL)
Cflags: -I\${prefix}/include
Libs: -L\${prefix}/lib -lvdp
END

programs=
for file in build/bin/*; do
    name=$(basename "$file")
    [ "$name" != desk ] || continue
    install -m 755 "$file" "$to/bin/"
    programs="$programs $name"
done

rm -f "$desk"/desk/*.py "$desk"/desk/*.json "$desk/build/desk.html"
install -m 644 desk/*.py desk/*.json "$desk/desk/"
[ ! -e build/desk.html ] || install -m 644 build/desk.html "$desk/build/"
install -m 755 desk/desk "$desk/desk/"
ln -sfn ../../include "$desk/include"
ln -sfn ../.. "$desk/build/native"
ln -sfn ../../../bin "$desk/build/bin"
ln -sfn ../lib/humusloft/desk/desk "$to/bin/desk"

for page in TRACES TILES SAVES DESK PAGE HANDBOOK CARTRIDGE HOME RULES; do install -m 644 docs/$page.md "$pages/"; done
install -m 644 docs/*.png LICENSE NOTICE "$pages/"
install -m 644 docs/scripts/* "$pages/scripts/"

echo "installed under $to:"
echo "  include/vdp.h  lib/libvdp.a  lib/libvdp.so  lib/pkgconfig/vdp.pc"
echo "  bin/desk and the programs$programs"
echo "  share/doc/humusloft: their pages; DESK.md is the one to begin with"
