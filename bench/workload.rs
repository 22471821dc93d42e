//! What is drawn: a device and its video memory, made from a seed. Tiles of which one in four is empty, names with all flags, scroll 5, and a
//! sprite list as asked for; all else is the same for every list.

use rules::model::{Device, Table, BLOCK_SIZE, VIDEO_SIZE};
use rules::random::Random;

/// Steps of a pass.
pub const STEPS: usize = 261;
/// The rows with sprites, 0 to 127 of the visible area, are these lines: eight bands, a sprite high each.
const BANDS: std::ops::Range<usize> = 24..152;
const HEIGHT: usize = 16;

const NAMES: usize = 0x3800;
const SPRITES: usize = 0x3F00;

/// The sprite list.
#[derive(Clone, Copy, PartialEq)]
pub enum List {
    /// All 64 in the list, 16 high: so many of them, 0 to 8, on each of the 128 rows, and the others on lines that neither area draws.
    Each(usize),
    /// The first byte ends the list, though behind it stand eight for each row.
    Empty,
}

/// The state block and the video memory.
pub fn make(list: List, seed: u64) -> (Vec<u8>, Vec<u8>) {
    let mut random = Random::new(seed);
    // the Rust's table
    let mut device = Device::made(Table::Steps261);
    // display on, sprites 16 high; sprites have patterns of their own
    device.registers = [0, 0x42, 0x0E, 0xFF, 0xFF, 0x7E, 0x04, 0, 5, 5, 1];
    device.vertical_scroll = 5;
    random.fill(&mut device.palette);
    let mut video = vec![0; VIDEO_SIZE];
    random.fill(&mut video);
    for tile in 0..512 {
        if random.chance(1, 4) {
            video[32 * tile..32 * tile + 32].fill(0);
        }
    }
    for entry in 0..28 * 32 {
        video[NAMES + 2 * entry] = random.byte();
        video[NAMES + 2 * entry + 1] = random.byte() & 0x1F;
    }
    for n in 0..64 {
        video[SPRITES + n] = match list {
            List::Empty if n == 0 => 0xD0,
            List::Each(k) if n % 8 >= k => 224 + (n % 8) as u8,
            _ => (BANDS.start - 1 + HEIGHT * (n / 8)) as u8,
        };
        // All of a sprite shows in either area: past column 255 of the effective one the Rust would write into the next row.
        video[SPRITES + 0x80 + 2 * n] = (48 + random.below(152)) as u8;
        video[SPRITES + 0x80 + 2 * n + 1] = random.byte();
    }
    assert!(is_as_said(list, &video), "the sprite list is not what its name says");
    (device.encode(BLOCK_SIZE), video)
}

/// Whether the list is as long as it should be, with the right number on each line of either area, counted by the rule.
fn is_as_said(list: List, video: &[u8]) -> bool {
    let listed: Vec<usize> = video[SPRITES..SPRITES + 64].iter().take_while(|y| **y != 0xD0).map(|y| (*y as usize + 1) % 256).collect();
    let on = |line: usize| listed.iter().filter(|v| **v <= line && line < **v + HEIGHT).count();
    match list {
        List::Each(k) => listed.len() == 64 && (0..224).all(|line| on(line) == if BANDS.contains(&line) { k } else { 0 }),
        List::Empty => listed.is_empty(),
    }
}
