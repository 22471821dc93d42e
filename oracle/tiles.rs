//! Holds the two calls on tiles beside the rules written a second time; needs the library, and not the published Rust.
//!
//!   tiles calls N SEED          every length, tile number and code around the limits, every tile, and N random calls
//!   tiles write N SEED FOLDER   writes N random sheets, NNNNN.sheet, with what the program `sheet` must write for each, NNNNN.tiles
//!   tiles sheet < SHEET         what `sheet` must write for one input
//!
//! Exit status 1 on any difference, 2 on bad usage.

use rules::model::{BLOCK_SIZE, VIDEO_SIZE};
use rules::random::Random;
use rules::tile::{self, sheet_bytes, SHEET_LIMIT};
use std::io::{Read, Write};
use std::path::Path;

mod raw {
    extern "C" {
        pub fn vdp_new(state: *mut u8, state_len: usize) -> u32;
        pub fn vdp_out(state: *mut u8, state_len: usize, vram: *mut u8, vram_len: usize, port: u16, value: u8) -> u32;
        pub fn vdp_input(state: *mut u8, state_len: usize, vram: *const u8, vram_len: usize, port: u16) -> u32;
        pub fn vdp_write_tile(vram: *mut u8, vram_len: usize, tile: u16, codes: *const u8, codes_len: usize) -> u32;
        pub fn vdp_read_tile(vram: *const u8, vram_len: usize, tile: u16, codes: *mut u8, codes_len: usize) -> u32;
    }
}

/// Bytes before and after each lent part that must never change.
const GUARD: usize = 67;

/// The longest parts that are lent.
const VIDEO_ROOM: usize = VIDEO_SIZE + 64;
const CODES_ROOM: usize = 192;

/// One call, with all that it is given.
#[derive(Clone, Copy, Debug)]
struct Call {
    writes: bool,
    video_len: usize,
    tile: u16,
    codes_len: usize,
}

/// What is lent, once for the library and once for the model: video memory and codes, each between guards.
struct World {
    ours: [Vec<u8>; 2],
    model: [Vec<u8>; 2],
    calls: u64,
    answers: [u64; 16],
}

impl World {
    fn new(random: &mut Random) -> World {
        let mut video = vec![0; GUARD + VIDEO_ROOM + GUARD];
        let mut codes = vec![0; GUARD + CODES_ROOM + GUARD];
        random.fill(&mut video);
        random.fill(&mut codes);
        World { ours: [video.clone(), codes.clone()], model: [video, codes], calls: 0, answers: [0; 16] }
    }

    /// Puts these codes at the start of the lent ones, on both sides.
    fn set_codes(&mut self, codes: &[u8]) {
        for side in [&mut self.ours, &mut self.model] {
            side[1][GUARD..GUARD + codes.len()].copy_from_slice(codes);
        }
    }

    fn codes(&self) -> &[u8] {
        &self.ours[1][GUARD..GUARD + 64]
    }

    fn video(&self) -> &[u8] {
        &self.ours[0][GUARD..GUARD + VIDEO_SIZE]
    }

    /// The same call on both sides; all that is lent must be the same after it, with all around it.
    fn call(&mut self, c: Call) -> Result<u32, String> {
        let [video, codes] = &mut self.model;
        let (video, codes) = (&mut video[GUARD..GUARD + c.video_len], &mut codes[GUARD..GUARD + c.codes_len]);
        let word = if c.writes { tile::vdp_write_tile(video, c.tile, codes) } else { tile::vdp_read_tile(video, c.tile, codes) };
        let [video, codes] = &mut self.ours;
        let (video, codes) = (&mut video[GUARD..GUARD + c.video_len], &mut codes[GUARD..GUARD + c.codes_len]);
        // Sound: two live slices that do not overlap.
        let our_word = unsafe {
            if c.writes {
                raw::vdp_write_tile(video.as_mut_ptr(), video.len(), c.tile, codes.as_ptr(), codes.len())
            } else {
                raw::vdp_read_tile(video.as_ptr(), video.len(), c.tile, codes.as_mut_ptr(), codes.len())
            }
        };
        self.calls += 1;
        if our_word != word {
            return Err(format!("answer: ours {:08X}, model {:08X}; {:?}", our_word, word, c));
        }
        if self.ours != self.model {
            return Err(format!("what is lent differs after the call; {:?}", c));
        }
        self.answers[word as usize] += 1;
        Ok(word)
    }
}

/// Codes below 16.
fn any_codes(random: &mut Random, count: usize) -> Vec<u8> {
    (0..count).map(|_| random.below(16) as u8).collect()
}

/// Every length, number and code around the limits, alone and together.
fn limits(world: &mut World, random: &mut Random) -> Result<(), String> {
    let tiles: Vec<u16> = (0..4).chain(254..258).chain(508..516).chain([1023, 1024, 16383, 32767, 32768, 65024, 65535]).collect();
    for writes in [true, false] {
        for video_len in [0, 1, 32, VIDEO_SIZE - 32, VIDEO_SIZE - 1, VIDEO_SIZE, VIDEO_SIZE + 1, VIDEO_SIZE + 32] {
            for tile in &tiles {
                for codes_len in (0..4).chain(30..34).chain(60..70).chain(126..130) {
                    world.set_codes(&any_codes(random, CODES_ROOM));
                    if random.chance(1, 2) {
                        let mut codes = any_codes(random, CODES_ROOM);
                        codes[random.below(64)] = 16;
                        world.set_codes(&codes);
                    }
                    world.call(Call { writes, video_len, tile: *tile, codes_len })?;
                }
            }
        }
        for codes_len in 0..=CODES_ROOM {
            world.set_codes(&any_codes(random, CODES_ROOM));
            world.call(Call { writes, video_len: VIDEO_SIZE, tile: 511, codes_len })?;
        }
        for video_len in (0..40).chain(VIDEO_SIZE - 40..=VIDEO_ROOM) {
            world.call(Call { writes, video_len, tile: 0, codes_len: 64 })?;
        }
        for tile in 0..=65535 {
            if tile < 520 || tile % 61 == 0 {
                world.set_codes(&any_codes(random, 64));
                world.call(Call { writes, video_len: VIDEO_SIZE, tile, codes_len: 64 })?;
            }
        }
    }
    // every code that is too high, at every place
    for place in 0..64 {
        for code in 16..=255 {
            let mut codes = any_codes(random, 64);
            codes[place] = code;
            world.set_codes(&codes);
            let word = world.call(Call { writes: true, video_len: VIDEO_SIZE, tile: 300, codes_len: 64 })?;
            if word != 15 {
                return Err(format!("code {} at {} answered {}", code, place, word));
            }
        }
    }
    Ok(())
}

/// Both ways round, for every tile: codes written and read, and bytes read and written.
fn round_trips(world: &mut World, random: &mut Random) -> Result<(), String> {
    for tile in 0..512 {
        let call = |writes| Call { writes, video_len: VIDEO_SIZE, tile, codes_len: 64 };
        let codes = any_codes(random, 64);
        world.set_codes(&codes);
        world.call(call(true))?;
        world.set_codes(&[0xEE; 64]);
        world.call(call(false))?;
        if world.codes() != &codes[..] {
            return Err(format!("tile {}: other codes came back", tile));
        }
        let next = Call { tile: (tile + 1) % 512, ..call(false) };
        world.call(next)?;
        let before = world.video().to_vec();
        world.call(Call { writes: true, ..next })?;
        if world.video() != &before[..] {
            return Err(format!("tile {}: other bytes came back", next.tile));
        }
    }
    Ok(())
}

/// A byte that a device has read ahead stays as it was when a tile is written over it; the byte behind it comes from the tile.
fn read_ahead() -> Result<(), String> {
    let (mut block, mut video, codes) = ([0; BLOCK_SIZE], [0; VIDEO_SIZE], [15; 64]);
    video[32 * 5] = 0xA7;
    // Sound: live slices that do not overlap.
    let words = unsafe {
        let (state, state_len, vram, vram_len) = (block.as_mut_ptr(), block.len(), video.as_mut_ptr(), video.len());
        [
            raw::vdp_new(state, state_len),
            raw::vdp_out(state, state_len, vram, vram_len, 0xBF, 32 * 5),
            raw::vdp_out(state, state_len, vram, vram_len, 0xBF, 0x00),
            raw::vdp_write_tile(vram, vram_len, 5, codes.as_ptr(), codes.len()),
            raw::vdp_input(state, state_len, vram, vram_len, 0xBE),
            raw::vdp_input(state, state_len, vram, vram_len, 0xBE),
        ]
    };
    if words != [0, 0, 0, 0, 0xA700, 0xFF00] {
        return Err(format!("a tile written over a byte that was read ahead: {:04X?}", words));
    }
    Ok(())
}

fn random_calls(world: &mut World, random: &mut Random, count: u64) -> Result<(), String> {
    for _ in 0..count {
        let mut call = Call { writes: random.chance(1, 2), video_len: VIDEO_SIZE, tile: random.below(512) as u16, codes_len: 64 };
        let mut codes = any_codes(random, CODES_ROOM);
        match random.below(12) {
            0 => call.video_len = random.below(VIDEO_ROOM + 1),
            1 => call.tile = random.word() as u16,
            2 => call.codes_len = random.below(CODES_ROOM + 1),
            3 => codes[random.below(64)] = random.byte(),
            4 => {
                call.tile = random.word() as u16;
                call.codes_len = random.below(CODES_ROOM + 1);
                codes[random.below(64)] = random.byte();
            }
            _ => {}
        }
        world.set_codes(&codes);
        world.call(call)?;
    }
    Ok(())
}

fn calls(count: u64, seed: u64) -> i32 {
    let mut random = Random::new(seed);
    let mut world = World::new(&mut random);
    let done = limits(&mut world, &mut random)
        .and_then(|_| round_trips(&mut world, &mut random))
        .and_then(|_| read_ahead())
        .and_then(|_| random_calls(&mut world, &mut random, count));
    if let Err(text) = done {
        println!("difference: {}", text);
        println!("tiles: {} calls, seed {}, 1 difference", world.calls, seed);
        return 1;
    }
    for number in [0, 8, 13, 14, 15] {
        println!("{:>10}  answered {}", world.answers[number], number);
        if world.answers[number] == 0 {
            println!("tiles: answer {} was never met", number);
            return 1;
        }
    }
    println!("tiles: {} calls, seed {}, 0 differences", world.calls, seed);
    0
}

/// A random input of `sheet`: mostly a whole sheet, else one of another length or with a code that is too high.
fn any_sheet(random: &mut Random) -> Vec<u8> {
    let tiles = match random.below(4) {
        0 => 1 + random.below(256),
        _ => 1 + random.below(12),
    };
    let mut sheet = any_codes(random, 64 * tiles);
    match random.below(8) {
        0 => {
            let at = random.below(sheet.len());
            sheet[at] = 16 + random.below(240) as u8;
        }
        1 => sheet.truncate(random.below(sheet.len())),
        2 => sheet.resize(sheet.len() + 1 + random.below(70), 0),
        3 if random.chance(1, 4) => sheet.resize(SHEET_LIMIT + 1 + random.below(3000), 7),
        _ => {}
    }
    sheet
}

fn write(count: u64, seed: u64, folder: &str) -> i32 {
    let mut random = Random::new(seed);
    let folder = Path::new(folder);
    std::fs::create_dir_all(folder).expect("the folder is made");
    for n in 0..count {
        let sheet = any_sheet(&mut random);
        std::fs::write(folder.join(format!("{:05}.sheet", n)), &sheet).expect("the sheet is written");
        std::fs::write(folder.join(format!("{:05}.tiles", n)), sheet_bytes(&sheet)).expect("the tiles are written");
    }
    0
}

fn main() {
    let words: Vec<String> = std::env::args().skip(1).collect();
    let words: Vec<&str> = words.iter().map(|word| word.as_str()).collect();
    let usage = || -> u64 {
        eprintln!("usage: tiles calls N SEED | tiles write N SEED FOLDER | tiles sheet < SHEET");
        std::process::exit(2)
    };
    let number = |word: &str| word.parse::<u64>().unwrap_or_else(|_| usage());
    let status = match words[..] {
        ["calls", n, seed] => calls(number(n), number(seed)),
        ["write", n, seed, folder] => write(number(n), number(seed), folder),
        ["sheet"] => {
            let mut input = Vec::new();
            std::io::stdin().read_to_end(&mut input).expect("the sheet is read");
            std::io::stdout().write_all(&sheet_bytes(&input)).expect("the tiles are written");
            0
        }
        _ => usage() as i32,
    };
    std::process::exit(status);
}
