//! Holds the repair of state blocks beside the rules written a second time; needs the library, and not the published Rust.
//!
//!   repair calls N SEED          blocks and lists of every length; every byte of good blocks damaged to every value; N blocks with many bytes damaged
//!   repair write N SEED FOLDER   writes N random inputs of the program `repair`, NNNNN.block, with what it must write for each: NNNNN.mended to
//!                                standard output, NNNNN.told to standard error
//!
//! Exit status 1 on any difference, 2 on bad usage.

use rules::model::{colours, Chosen, Device, BLOCK_SIZE, OLD_SIZE, VIDEO_SIZE};
use rules::random::Random;
use rules::salvage::{self, FIELDS};
use rules::sessions::{any_shape, made_by_hand, Shape, SHAPES};
use std::path::Path;

#[allow(dead_code)]
mod face;

/// Bytes before and after each lent part that must never change.
const GUARD: usize = 67;

/// The longest parts that are lent.
const ROOM: usize = 300;

/// A block of this shape with nothing wrong: its address lies in its memory, and its colours, where they are clean, are the palette's.
fn good_block(random: &mut Random, shape: Shape) -> Vec<u8> {
    let (block, _) = made_by_hand(random, shape);
    let mut device = Device::decode(&block).expect("a block made by hand is well formed");
    device.address %= if device.chosen == Chosen::Palette { 64 } else { VIDEO_SIZE as u16 };
    if !device.dirty {
        device.cache = colours(&device.palette);
    }
    device.encode(shape.0).to_vec()
}

/// Puts any byte, or one near those that a field takes, at any offset, most often at one that a repair looks at.
fn damage(random: &mut Random, block: &mut [u8]) {
    let at = match random.below(4) {
        0 => random.below(block.len()),
        1 => 27 + random.below(192),
        _ => FIELDS[random.below(FIELDS.len())].0,
    };
    if at < block.len() {
        block[at] = match random.below(3) {
            0 => block[at] ^ 1 << random.below(8),
            1 => random.below(4) as u8,
            _ => random.byte(),
        };
    }
}

/// A good block with a number of bytes damaged; now and then any bytes at all.
fn damaged_block(random: &mut Random) -> Vec<u8> {
    let shape = any_shape(random);
    let mut block = good_block(random, shape);
    match random.below(8) {
        0 => random.fill(&mut block),
        1 => {
            // all but the colours, which any bytes would make wrong
            random.fill(&mut block[..27]);
            block[26] = random.below(3) as u8;
        }
        _ => {
            for _ in 0..1 + random.below(24) {
                damage(random, &mut block);
            }
        }
    }
    block
}

/// What is lent, once for the library and once for the model: a block and a list, each between guards.
struct World {
    ours: [Vec<u8>; 2],
    model: [Vec<u8>; 2],
    video: Vec<u8>,
    calls: u64,
    answers: [u64; 18],
    mended: [u64; BLOCK_SIZE],
    nothing: u64,
}

impl World {
    fn new(random: &mut Random) -> World {
        let mut block = vec![0; GUARD + ROOM + GUARD];
        let mut list = vec![0; GUARD + ROOM + GUARD];
        let mut video = vec![0; VIDEO_SIZE];
        random.fill(&mut block);
        random.fill(&mut list);
        random.fill(&mut video);
        World { ours: [block.clone(), list.clone()], model: [block, list], video, calls: 0, answers: [0; 18], mended: [0; BLOCK_SIZE], nothing: 0 }
    }

    /// Lends these bytes as the block, on both sides, and any bytes as the list.
    fn lend(&mut self, random: &mut Random, block: &[u8]) {
        let mut list = [0; ROOM];
        random.fill(&mut list);
        for side in [&mut self.ours, &mut self.model] {
            side[0][GUARD..GUARD + block.len()].copy_from_slice(block);
            side[1][GUARD..GUARD + ROOM].copy_from_slice(&list);
        }
    }

    /// The same call on both sides; all that is lent must be the same after it, with all around it.
    fn call(&mut self, block_len: usize, list_len: usize) -> Result<u32, String> {
        let [block, list] = &mut self.model;
        let word = salvage::vdp_repair(&mut block[GUARD..GUARD + block_len], &mut list[GUARD..GUARD + list_len]);
        let [block, list] = &mut self.ours;
        let our_word = face::vdp_repair(&mut block[GUARD..GUARD + block_len], &mut list[GUARD..GUARD + list_len]);
        self.calls += 1;
        if our_word != word {
            return Err(format!("answer: ours {:08X}, model {:08X}; a block of {} bytes, a list of {}", our_word, word, block_len, list_len));
        }
        for (name, ours, model) in [("block", &self.ours[0], &self.model[0]), ("list", &self.ours[1], &self.model[1])] {
            if let Some(at) = (0..ours.len()).find(|at| ours[*at] != model[*at]) {
                let at_lent = at as isize - GUARD as isize;
                return Err(format!("{} byte {}: ours {:02X}, model {:02X}; a block of {} bytes", name, at_lent, ours[at], model[at], block_len));
            }
        }
        self.answers[word as usize % 256] += 1;
        Ok(word)
    }

    /// Repairs this block, and again what it has become, which every call must take; answers how many bytes have changed.
    fn repair(&mut self, random: &mut Random, block: &[u8], list_len: usize) -> Result<usize, String> {
        self.lend(random, block);
        let word = self.call(block.len(), list_len)?;
        if word % 256 != 0 {
            return Err(format!("refusal {} of a block of {} bytes, a list of {}", word % 256, block.len(), list_len));
        }
        let count = word as usize / 256;
        for at in &self.ours[1][GUARD..GUARD + count] {
            self.mended[*at as usize] += 1;
        }
        self.nothing += (count == 0) as u64;
        let mended = self.ours[0][GUARD..GUARD + block.len()].to_vec();
        self.taken(random, &mended)?;
        self.lend(random, &mended);
        match self.call(block.len(), list_len)? {
            0 => Ok(count),
            other => Err(format!("repaired twice: {:08X}", other)),
        }
    }

    /// Port calls and a row step on copies of a mended block: none may call it malformed (10), nor its address one outside its memory (7).
    fn taken(&mut self, random: &mut Random, mended: &[u8]) -> Result<(), String> {
        let mut row = [0; 1024];
        for call in ["write BE", "write BF", "read BE", "read BF", "row step"] {
            let mut block = mended.to_vec();
            let word = match call {
                "write BE" => face::vdp_out(&mut block, &mut self.video, 0xBE, random.byte()),
                "write BF" => face::vdp_out(&mut block, &mut self.video, 0xBF, random.byte()),
                "read BE" => face::vdp_input(&mut block, &self.video, 0xBE),
                "read BF" => face::vdp_input(&mut block, &self.video, 0xBF),
                _ => face::vdp_row_step(&mut block, &self.video, &mut row, random.below(2) as u8),
            };
            if [7, 10].contains(&(word % 256)) {
                return Err(format!("a mended block is refused by {}: {}", word % 256, call));
            }
        }
        Ok(())
    }
}

/// Blocks of every length with lists of every length around the limits, and the other way round: refused blocks and lists stay as they were.
fn lengths(world: &mut World, random: &mut Random) -> Result<(), String> {
    let around = [0, 1, OLD_SIZE - 1, OLD_SIZE, BLOCK_SIZE, BLOCK_SIZE + 1, ROOM];
    for long in 0..=ROOM {
        for near in around {
            for (block_len, list_len) in [(long, near), (near, long)] {
                let mut block = vec![0; block_len];
                random.fill(&mut block);
                world.lend(random, &block);
                world.call(block_len, list_len)?;
            }
        }
    }
    Ok(())
}

/// Every byte of a good block of each shape damaged to every value.
fn single_bytes(world: &mut World, random: &mut Random) -> Result<(), String> {
    for shape in SHAPES {
        for at in 0..shape.0 {
            let good = good_block(random, shape);
            for byte in 0..=255 {
                let mut block = good.clone();
                block[at] = byte;
                let count = world.repair(random, &block, BLOCK_SIZE).map_err(|text| format!("byte {} is {:02X}: {}", at, byte, text))?;
                if byte == good[at] && count != 0 {
                    return Err(format!("{} bytes of a good block were changed", count));
                }
            }
        }
    }
    Ok(())
}

fn many_bytes(world: &mut World, random: &mut Random, count: u64) -> Result<(), String> {
    for _ in 0..count {
        let block = damaged_block(random);
        let list_len = BLOCK_SIZE + random.below(ROOM - BLOCK_SIZE + 1);
        world.repair(random, &block, list_len)?;
    }
    Ok(())
}

fn calls(count: u64, seed: u64) -> i32 {
    let mut random = Random::new(seed);
    let mut world = World::new(&mut random);
    let done = lengths(&mut world, &mut random)
        .and_then(|_| single_bytes(&mut world, &mut random))
        .and_then(|_| many_bytes(&mut world, &mut random, count));
    if let Err(text) = done {
        println!("difference: {}", text);
        println!("repair: {} calls, seed {}, 1 difference", world.calls, seed);
        return 1;
    }
    let mut missed = world.nothing == 0;
    println!("{:>10}  blocks with nothing wrong", world.nothing);
    for number in [0, 10, 17] {
        println!("{:>10}  answered {}", world.answers[number], number);
        missed |= world.answers[number] == 0;
    }
    for (at, name) in FIELDS {
        println!("{:>10}  byte {} mended, {}", world.mended[at], at, name);
        missed |= world.mended[at] == 0;
    }
    if missed {
        println!("repair: one of these was never met");
        return 1;
    }
    println!("repair: {} calls, seed {}, 0 differences", world.calls, seed);
    0
}

fn write(count: u64, seed: u64, folder: &str) -> i32 {
    let mut random = Random::new(seed);
    let folder = Path::new(folder);
    std::fs::create_dir_all(folder).expect("the folder is made");
    for n in 0..count {
        let mut input = damaged_block(&mut random);
        match random.below(12) {
            0 => input.truncate(random.below(OLD_SIZE)),
            1 => input.resize(BLOCK_SIZE + 1 + random.below(500), 0),
            2 => {
                let shape = any_shape(&mut random);
                input = good_block(&mut random, shape);
            }
            _ => {}
        }
        let (mended, told) = salvage::written(&input);
        for (kind, bytes) in [("block", &input[..]), ("mended", &mended[..]), ("told", told.as_bytes())] {
            std::fs::write(folder.join(format!("{:05}.{}", n, kind)), bytes).expect("the file is written");
        }
    }
    0
}

fn main() {
    let words: Vec<String> = std::env::args().skip(1).collect();
    let words: Vec<&str> = words.iter().map(|word| word.as_str()).collect();
    let usage = || -> u64 {
        eprintln!("usage: repair calls N SEED | repair write N SEED FOLDER");
        std::process::exit(2)
    };
    let number = |word: &str| word.parse::<u64>().unwrap_or_else(|_| usage());
    let status = match words[..] {
        ["calls", n, seed] => calls(number(n), number(seed)),
        ["write", n, seed, folder] => write(number(n), number(seed), folder),
        _ => usage() as i32,
    };
    std::process::exit(status);
}
