//! States of the home machine made by hand where its rules meet, for `docks` and for the turns of a bus.

use crate::home::{colours, Home};
use crate::model::{Chosen, Table, VIDEO_SIZE};
use crate::random::Random;

/// One of the numbers where rules meet, or any byte.
pub fn edge(random: &mut Random, at: &[u8]) -> u8 {
    if random.chance(2, 3) {
        random.one_of(at)
    } else {
        random.byte()
    }
}

/// Counters just before and at the places where a step does something else.
const COUNTERS: [u8; 22] = [
    0xFE, 0xFF, 0, 1, 13, 14, 15, 16, 17, 0xBD, 0xBE, 0xBF, 0xC0, 0xC1, 0xC2, 0xD4, 0xD5, 0xD8, 0xD9, 0xDA, 0xDB, 0xDC,
];
/// X bytes at the edges of the screen, of the fill and of column 192.
pub const XS: [u8; 28] = [0, 1, 2, 3, 4, 5, 6, 7, 8, 9, 10, 12, 15, 16, 184, 185, 190, 191, 192, 199, 247, 248, 249, 250, 252, 253, 254, 255];
/// Addresses at the ends of both memories.
pub const ADDRESSES: [u16; 15] = [0, 1, 30, 31, 32, 33, 63, 64, 255, 256, 16_382, 16_383, 16_384, 32_768, 65_535];

/// A value for a register; each has its own places where rules meet.
pub fn any_register(random: &mut Random, number: usize) -> u8 {
    match number {
        8 => edge(random, &[0, 1, 7, 8, 9, 63, 64, 65, 191, 192, 248, 255]),
        9 => edge(random, &[0, 1, 7, 8, 15, 16, 31, 32, 33, 192, 223, 224, 225, 255]),
        10 => edge(random, &[0, 1, 2, 3, 15, 191, 192, 193, 255]),
        _ => random.byte(),
    }
}

/// A device with any value in every field, and video memory with sprites about the line that comes.
pub fn by_hand(random: &mut Random) -> (Home, Vec<u8>) {
    let mut home = Home::made(if random.chance(1, 2) { Table::Steps261 } else { Table::Steps262 });
    home.status = if random.chance(1, 2) { 0 } else { random.byte() };
    for number in 0..11 {
        home.registers[number] = any_register(random, number);
    }
    home.counter = match random.below(4) {
        0 => random.one_of(&COUNTERS),
        1 => (random.below(18) as u8).wrapping_sub(1),
        2 => random.below(192) as u8,
        _ => random.byte(),
    };
    home.jumped = random.chance(1, 2);
    home.line_count = if random.chance(1, 2) { random.below(3) as u8 } else { random.byte() };
    home.address = match random.below(3) {
        0 => ADDRESSES[random.below(ADDRESSES.len())],
        1 => random.below(VIDEO_SIZE) as u16,
        _ => random.below(36) as u16,
    };
    home.read_buffer = random.byte();
    home.chosen = [Chosen::Nothing, Chosen::Video, Chosen::Video, Chosen::Palette, Chosen::Palette][random.below(5)];
    home.command_latch = if random.chance(1, 2) { Some(random.byte()) } else { None };
    home.vertical_scroll = any_register(random, 9);
    home.dirty = random.chance(1, 2);
    random.fill(&mut home.palette);
    if random.chance(1, 3) {
        home.cache = colours(&home.palette);
    } else {
        for colour in home.cache.iter_mut() {
            random.fill(colour);
        }
    }
    let video = any_video(random, &home);
    (home, video)
}

/// Video memory for a device: tiles, names, and sprites about the line of the next step.
fn any_video(random: &mut Random, home: &Home) -> Vec<u8> {
    let mut video = vec![0; VIDEO_SIZE];
    match random.below(6) {
        0 => {
            // few bytes: most pixels clear
            for _ in 0..random.below(600) {
                video[random.below(VIDEO_SIZE)] = random.byte();
            }
        }
        1 | 2 => {
            // half of the tiles solid or clear
            random.fill(&mut video);
            for tile in video.chunks_mut(32) {
                match random.below(4) {
                    0 => tile.fill(0),
                    1 => tile.fill(0xFF),
                    _ => {}
                }
            }
        }
        _ => random.fill(&mut video),
    }
    if random.chance(1, 2) {
        // names with all flags over few tiles, priority in some
        let names = (home.registers[2] & 0x0E) as usize * 1024;
        let flags = random.one_of(&[0x0F, 0x1F, 0x1F]);
        for entry in 0..28 * 32 {
            video[names + 2 * entry] = random.byte();
            video[names + 2 * entry + 1] = random.byte() & flags;
        }
    }
    let table = (home.registers[5] & 0x7E) as usize * 128;
    let line = home.counter.wrapping_add(1);
    let often = [1, 2, 4, 8, 8][random.below(5)];
    for n in 0..64 {
        let on = line.wrapping_sub(1 + random.below(9) as u8);
        video[table + n] = if random.chance(1, often) { on } else { random.one_of(&[0xE0, 0xC1, line, line.wrapping_add(9), line.wrapping_sub(18)]) };
        video[table + 128 + 2 * n] = edge(random, &XS);
        video[table + 129 + 2 * n] = random.byte();
    }
    if random.chance(1, 2) {
        // two sprites one over the other, at times where the fill is
        let n = random.below(63);
        let left = if random.chance(1, 2) { random.below(10) as u8 } else { random.byte() };
        for m in [n, n + 1] {
            video[table + m] = line.wrapping_sub(1 + random.below(8) as u8);
            video[table + 128 + 2 * m] = left.wrapping_add(random.below(6) as u8);
        }
    }
    if random.chance(1, 5) {
        video[table + random.below(64)] = 0xD0;
    }
    video
}
