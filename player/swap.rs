//! The swap itself: the published vdp.rs and the player's new one in one program, over the published io.rs, given the same
//! session; each is also handed to the player's own `RcDevice`. Prints one line; exit status 1 on a difference.

#[allow(dead_code)] // the published files, of which we use a part
pub mod io {
    include!(concat!(env!("GEARS"), "/io.rs"));
}
#[allow(dead_code)]
mod published {
    include!(concat!(env!("GEARS"), "/vdp.rs"));
}
mod vdp;

use io::{Device, RcDevice};

/// Ours with the published file's line table, 261 steps to a pass; with none named it would be the chart's.
fn ours() -> vdp::Vdp {
    vdp::Vdp::with_table(0).expect("table 0")
}

/// The same port writes to a device: tiles, names, colours and sprites from a small sequence of bytes.
fn set_up(device: &dyn Device) -> Result<(), String> {
    let mut byte = 1u8;
    let mut next = || {
        byte = byte.wrapping_mul(141).wrapping_add(3);
        byte ^ byte >> 3
    };
    for register in [(0, 0x10), (1, 0x62), (2, 0x0E), (5, 0x7E), (6, 0x00), (8, 0x05), (9, 0x03), (10, 0x07)] {
        device.out(0xBF, register.1, 0)?;
        device.out(0xBF, 0x80 + register.0, 0)?;
    }
    device.out(0xBF, 0, 0)?;
    device.out(0xBF, 0x40, 0)?;
    for _ in 0..16_384 {
        device.out(0xBE, next(), 0)?;
    }
    device.out(0xBF, 0, 0)?;
    device.out(0xBF, 0xC0, 0)?;
    for _ in 0..64 {
        device.out(0xBE, next(), 0)?;
    }
    Ok(())
}

/// Ends the list of sprites at once, so that none is drawn past the right edge (where the two differ by design).
fn no_sprites(device: &dyn Device) -> Result<(), String> {
    device.out(0xBF, 0x00, 0)?;
    device.out(0xBF, 0x7F, 0)?;
    device.out(0xBE, 0xD0, 0)
}

/// A pass of visible steps on a frame of another length (lent out of a longer one, since the published file writes past a short one).
/// It stops neither: the published file goes on, and ours refuses each step by this number and answers no interrupt and no display
/// report.
fn other_frame(lent: usize, number: u8) -> bool {
    let before = published::Vdp::new();
    let after = ours();
    let mut frame = vec![0; lent + 1];
    let (mut moved, mut stayed) = (false, true);
    for _ in 0..261 {
        before.step(&mut frame[..lent], published::RenderArea::VisibleOnly);
        let tells = after.step(&mut frame[..lent], vdp::RenderArea::VisibleOnly);
        stayed = stayed && format!("{:?}", tells) == "(NoInterrupt, NoDisplay)" && after.last_refusal() == number;
        stayed = stayed && after.input(0x7E, 0) == Ok(0);
        moved = moved || before.input(0x7E, 0) == Ok(0xFF);
    }
    moved && stayed
}

fn main() {
    let before = published::Vdp::new();
    let after = ours();
    let size = vdp::GG_VISIBLE_PIXEL_WIDTH * vdp::GG_VISIBLE_PIXEL_HEIGHT * 4;
    let mut frames = [vec![0; size], vec![0; size]];
    let mut same = set_up(&before) == set_up(&after);
    for _ in 0..261 {
        let told = before.step(&mut frames[0], published::RenderArea::VisibleOnly);
        let tells = after.step(&mut frames[1], vdp::RenderArea::VisibleOnly);
        same = same && format!("{:?}", told) == format!("{:?}", tells);
        same = same && before.input(0x7E, 0) == after.input(0x7E, 0);
        same = same && before.input(0xBF, 0) == after.input(0xBF, 0);
    }
    same = same && frames[0] == frames[1] && frames[0].iter().any(|byte| *byte != 0 && *byte != 255);
    let mut sheets = [vec![0; 131_072], vec![0; 131_072]];
    before.dump_tileset(&mut sheets[0]);
    after.dump_tileset(&mut sheets[1]);
    same = same && sheets[0] == sheets[1];
    same = same && no_sprites(&before) == no_sprites(&after);
    let mut screens = [vec![0; 229_376], vec![0; 229_376]];
    for _ in 0..261 {
        let told = before.step(&mut screens[0], published::RenderArea::EffectiveArea);
        let tells = after.step(&mut screens[1], vdp::RenderArea::EffectiveArea);
        same = same && format!("{:?}", told) == format!("{:?}", tells);
    }
    same = same && screens[0] == screens[1];
    // one byte short; and the dock's own case, an effective frame
    same = same && other_frame(size - 1, 9) && other_frame(229_376, 12);
    // the player keeps its devices so
    let (before, after) = (RcDevice::new(before), RcDevice::new(after));
    same = same && before.input(0xBE, 0) == after.input(0xBE, 0);
    println!("player: the published file and ours in one program: {}", if same { "the same" } else { "DIFFERENT" });
    std::process::exit(if same { 0 } else { 1 });
}
