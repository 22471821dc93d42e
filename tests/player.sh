#!/usr/bin/env bash
# player.sh: the player's file as player/README.md says it is built: by cargo, out of this tree, with the build.rs that stands there, over build/native and over an
# installed prefix, where a shared library stands beside the archive. The program then starts, with the library in it. (What the file does is held in
# player/tests.rs, which oracle/suite.sh runs.)
. "$(dirname "$0")/begin.sh"
needs build
if ! why=$(sh tools/setup.sh cargo 2>&1 >/dev/null); then
    skip "the player's file by cargo" "$why"
    total
    exit
fi
work=$(mktemp -d)
trap 'rm -rf "$work"' EXIT
mkdir -p "$work/a player/src"
make --no-print-directory install PREFIX="$work/prefix" >/dev/null
tell "a prefix to link with" $?

# A player of the least kind: the file, the trait that it needs, and a program that asks it for all that the page speaks of.
cp player/vdp.rs "$work/a player/src/"
sed -n '/^```rust$/,/^```$/p' player/README.md | sed '1d;$d' >"$work/a player/build.rs"
grep -q 'cargo:rustc-link-search' "$work/a player/build.rs"
tell "the page has a build.rs" $?
cat >"$work/a player/Cargo.toml" <<END
[package]
name = "player"
version = "0.1.0"
edition = "2021"
END
cat >"$work/a player/src/main.rs" <<END
pub mod io {
    pub trait Device {
        fn out(&self, addr: u16, val: u8, cycle: u32) -> Result<(), String>;
        fn input(&self, addr: u16, cycle: u32) -> Result<u8, String>;
    }
}
mod vdp;
use io::Device;

fn main() {
    let chip = vdp::Vdp::new();
    chip.start_recording(vdp::LONGEST_RECORDING);
    let mut frame = vec![0; vdp::GG_VISIBLE_PIXEL_WIDTH * vdp::GG_VISIBLE_PIXEL_HEIGHT * 4];
    println!("{:?}", chip.out(0xBF, 0, 0));
    println!("{:?}", chip.input(0x7F, 0));
    println!("{:?} {}", chip.step(&mut frame[1..], vdp::RenderArea::VisibleOnly), vdp::refusal_text(chip.last_refusal()));
    for _ in 0..30 {
        chip.step(&mut frame, vdp::RenderArea::VisibleOnly);
    }
    let mut layers = [9; 160];
    println!("{:?} {:?}", chip.layer_step(&mut frame, &mut layers, vdp::RenderArea::VisibleOnly), &layers[..3]);
    println!("{:?}", chip.pixel(vdp::RenderArea::TrueEdges, 7, 9));
    let mut save = chip.save();
    save.block[0] = 0;
    println!("{:?} {:?} {:?}", chip.load(&save), save.repair(), chip.load(&save));
    let recording = chip.take_recording().unwrap();
    println!("{} bytes, whole: {}", recording.bytes.len(), recording.whole);
    let table = vdp::Vdp::with_table(0).map(|old| old.dump_tileset(&mut vec![0; 131_072]));
    println!("{:?} {:?}", table, vdp::Vdp::with_table(2).is_none());
}
END
cat >"$work/expected" <<END
Ok(())
Err("VDP read of port 007F: the horizontal counter is not there")
(NoInterrupt, NoDisplay) pixel buffer of a wrong length
(NoInterrupt, NoDisplay, Some(7)) [0, 0, 0]
Some([0, 0, 0, 255])
Err(10) Ok([0]) Ok(())
100 bytes, whole: false
Some(()) true
END

line=$(sed -n 's/^VDP_LIB=[^ ]* \(cargo build .*\)/\1/p' player/README.md)
[ -n "$line" ]
tell "the page has a line for cargo: $line" $?
for folder in "$PWD/build/native" "$work/prefix/lib"; do
    rm -rf "$work/a player/target"
    (cd "$work/a player" && CARGO_NET_OFFLINE=true VDP_LIB=$folder $line) >"$work/said" 2>&1 && ! grep -q '^warning: unused\|^error' "$work/said"
    status=$?
    [ $status -eq 0 ] || cat "$work/said"
    tell "cargo builds it over $(basename "$(dirname "$folder")")/$(basename "$folder")" $status
    # with no library to be found where it starts
    env -u LD_LIBRARY_PATH "$work/a player/target/release/player" >"$work/printed" && cmp "$work/expected" "$work/printed" && [ -e "$folder/libvdp.so" ] && ! ldd "$work/a player/target/release/player" | grep -q libvdp
    tell "it starts, and answers as the page says" $?
done

total
