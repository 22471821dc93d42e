//! Turns of a bus: how many bytes of video memory the compiled calls load, beside the least that the rules need (oracle/turns.rs).
//!
//!   bus make WORKLOAD SEED FILE   writes the calls of a workload, and prints for each the least number of turns
//!   bus run SIDE FILE             does them, to be watched from outside (bus.sh): prints where video memory stands, and then stores a word at
//!                                 one address before each call and at another behind it. SIDE is ours, rust or each, which for each call
//!                                 loads every byte of video memory twice: to try what watches
//!
//! Workloads: see `workload_named`. The Rust is there where the program is built with `--cfg gears`.
#![allow(unknown_lints, unexpected_cfgs)]

#[path = "../oracle/face.rs"]
mod face;
#[cfg(gears)]
#[path = "../oracle/gears.rs"]
#[allow(dead_code)] // of the published file, the steps and the dump alone are run
mod gears;
#[cfg(gears)]
#[allow(dead_code)] // the published file, of which we use the trait alone
mod io {
    include!(concat!(env!("GEARS"), "/io.rs"));
}
mod workload;

use rules::call::{Call, Kind, EXTRA};
use rules::model::{Area, BLOCK_SIZE, VIDEO_SIZE};
use rules::random::Random;
use rules::{dock, homestates, sessions, turns};
use std::ptr::{read_volatile, write_volatile};
use workload::{List, STEPS};

/// A device, its video memory, and what is called on them.
struct Part {
    block: Vec<u8>,
    video: Vec<u8>,
    calls: Vec<Call>,
    /// and behind them, tiles written or read
    tiles: Vec<TileCall>,
}

/// A tile written, of codes that are all the same, or read.
#[derive(Clone, Copy)]
struct TileCall {
    writes: bool,
    tile: u16,
}

impl TileCall {
    /// What it may load of video memory: to write a tile nothing; to read one four bytes for each code, which R11.12 names as an exception.
    fn least(&self) -> usize {
        if self.writes || self.tile > 511 {
            0
        } else {
            64 * 4
        }
    }
}

impl Part {
    /// How many bytes of state a call is lent.
    fn lent(&self, call: &Call) -> usize {
        call.state_len.unwrap_or(self.block.len())
    }
}

/// Where the sprites' Y bytes stand in the workloads of the benchmark.
const SPRITES: usize = 0x3F00;
/// The register of the scroll across.
const SCROLL: usize = 3 + 8;
/// The counter, in a block.
const COUNTER: usize = 14;

/// The pass of `make bench`.
fn pass(area: Area, list: List, seed: u64) -> Part {
    let (block, video) = workload::make(list, seed);
    Part { block, video, calls: vec![Call::step(area); STEPS], tiles: vec![] }
}

/// So many visible rows from row 0 on, of the workload of `make bench` with this done to it.
fn rows(count: usize, seed: u64, change: impl Fn(&mut [u8], &mut [u8])) -> Part {
    let (mut block, mut video) = workload::make(List::Each(8), seed);
    block[COUNTER] = 23;
    change(&mut block, &mut video);
    Part { block, video, calls: vec![Call::step(Area::Visible); count], tiles: vec![] }
}

/// A workload by its name.
fn workload_named(name: &str, seed: u64) -> Option<Vec<Part>> {
    let mut random = Random::new(seed);
    Some(match name {
        // the pass of `make bench`, in either area
        "visible" => vec![pass(Area::Visible, List::Each(8), seed)],
        "effective" => vec![pass(Area::Effective, List::Each(8), seed)],
        // the first byte ends the list
        "empty" => vec![pass(Area::Visible, List::Empty, seed)],
        "unscrolled" => vec![rows(40, seed, |block, _| block[SCROLL] = 0)],
        // the list ends at sprite 11, of which eight and three are on the first lines
        "ended" => vec![rows(40, seed, |_, video| video[SPRITES + 11] = 0xD0)],
        // nine, ten and more on a line
        "ninth" => vec![rows(40, seed, |_, video| {
            for n in 0..64 {
                video[SPRITES + n] = 23 + (n / 2) as u8;
            }
        })],
        // the pass of `make bench`, with layers
        "layers" => {
            let plain = pass(Area::Visible, List::Each(8), seed);
            let calls = plain.calls.iter().map(|call| call.clone().with_layers(Area::Visible.width())).collect();
            vec![Part { calls, ..plain }]
        }
        "dump" => {
            let (block, video) = workload::make(List::Each(8), seed);
            vec![Part { block, video, calls: vec![Call::dump()], tiles: vec![] }]
        }
        // tiles written and read, each of some and the last, and one that there is not
        "tiles" => {
            let (block, video) = workload::make(List::Each(8), seed);
            let tiles = (0..40)
                .map(|n| if n < 38 { random.below(512) as u16 } else { 511 + (n - 38) as u16 })
                .flat_map(|tile| [true, false].map(|writes| TileCall { writes, tile }))
                .collect();
            vec![Part { block, video, calls: vec![], tiles }]
        }
        // states made by hand where the rules meet, with a call of any kind but the dump on each
        "any" => (0..150)
            .map(|_| {
                let shape = sessions::any_shape(&mut random);
                let (block, video) = sessions::made_by_hand(&mut random, shape);
                let mut call = sessions::any_call(&mut random);
                while call.kind == Kind::Dump {
                    call = sessions::any_call(&mut random);
                }
                if random.chance(1, 20) {
                    sessions::spoil(&mut random, &mut call);
                    sessions::spoil_layers(&mut random, &mut call);
                }
                Part { block, video, calls: vec![call], tiles: vec![] }
            })
            .collect(),
        // a pass of the home machine, scrolled so that column 192 cuts a tile, with the vertical lock and the fill
        "home" => {
            let (mut home, video) = homestates::by_hand(&mut random);
            home.registers[0] |= 0xA0;
            home.registers[8] = 5;
            home.vertical_scroll = 9;
            let step = Call { pixels_len: dock::FRAME_SIZE, ..Call::plain(Kind::Step, 0, 0) };
            vec![Part { block: dock::encode(&home), video, calls: vec![step; 262], tiles: vec![] }]
        }
        "home-dump" => {
            let (home, video) = homestates::by_hand(&mut random);
            vec![Part { block: dock::encode(&home), video, calls: vec![Call::dump()], tiles: vec![] }]
        }
        // states of the home machine made by hand, with a call of any kind but the dump on each
        "home-any" => (0..150)
            .map(|_| {
                let (home, video) = homestates::by_hand(&mut random);
                let mut call = sessions::any_call(&mut random);
                while call.kind == Kind::Dump {
                    call = sessions::any_call(&mut random);
                }
                call.pixels_len = match call.kind {
                    Kind::Step => dock::FRAME_SIZE,
                    _ => dock::ROW_SIZE,
                };
                call.layers_len = call.layers_len.map(|_| 256);
                if random.chance(1, 20) {
                    call.video_len -= 1;
                }
                Part { block: dock::encode(&home), video, calls: vec![call], tiles: vec![] }
            })
            .collect(),
        _ => return None,
    })
}

const NEW_PART: u8 = 0;
const CALL: u8 = 1;
const TILE: u8 = 2;
const KINDS: [Kind; 7] = [Kind::New, Kind::NewTable, Kind::Out, Kind::Input, Kind::Step, Kind::RowStep, Kind::Dump];

/// Stands for the length of a layer buffer where there is none.
const NO_LAYERS: usize = u32::MAX as usize;

/// The calls as bytes.
fn write(parts: &[Part]) -> Vec<u8> {
    let mut bytes = Vec::new();
    for part in parts {
        bytes.extend_from_slice(&[NEW_PART, part.block.len() as u8]);
        bytes.extend_from_slice(&part.block);
        bytes.extend_from_slice(&part.video);
        for call in &part.calls {
            let kind = KINDS.iter().position(|kind| *kind == call.kind).expect("a kind of call");
            bytes.extend_from_slice(&[CALL, kind as u8, call.value]);
            bytes.extend_from_slice(&call.port.to_le_bytes());
            for length in [part.lent(call), call.video_len, call.pixels_len, call.layers_len.unwrap_or(NO_LAYERS)] {
                bytes.extend_from_slice(&(length as u32).to_le_bytes());
            }
        }
        for call in &part.tiles {
            bytes.extend_from_slice(&[TILE, call.writes as u8]);
            bytes.extend_from_slice(&call.tile.to_le_bytes());
        }
    }
    bytes
}

/// What a call is done with.
trait Side {
    /// Takes this device and this video memory.
    fn load(&mut self, block: &[u8], video: &[u8]);
    fn video_at(&self) -> *const u8;
    fn call(&mut self, call: &Call, pixels: &mut [u8], layers: &mut [u8]);
    /// A tile written or read; no other side but ours has these calls.
    fn tile(&mut self, _: TileCall, _: &mut [u8; 64]) {}
}

/// The library. Blocks and video memories of other lengths are parts of longer ones.
struct Ours {
    block: Vec<u8>,
    video: Vec<u8>,
    /// The block is one of the home machine.
    home: bool,
}

impl Side for Ours {
    fn load(&mut self, block: &[u8], video: &[u8]) {
        self.home = block.len() == dock::BLOCK_SIZE;
        self.block[..block.len()].copy_from_slice(block);
        self.video[..VIDEO_SIZE].copy_from_slice(video);
    }
    fn video_at(&self) -> *const u8 {
        self.video.as_ptr()
    }
    fn call(&mut self, call: &Call, pixels: &mut [u8], layers: &mut [u8]) {
        let size = call.state_len.expect("a length that was written");
        let (block, video) = (&mut self.block[..size], &mut self.video[..call.video_len]);
        if self.home {
            match call.kind {
                Kind::New => face::home::new(block),
                Kind::NewTable => face::home::new_table(block, call.value),
                Kind::Out => face::home::out(block, video, call.port, call.value),
                Kind::Input => face::home::input(block, video, call.port),
                Kind::Step if call.layers_len.is_some() => face::home::layer_step(block, video, pixels, layers),
                Kind::RowStep if call.layers_len.is_some() => face::home::layer_row_step(block, video, pixels, layers),
                Kind::Step => face::home::step(block, video, pixels),
                Kind::RowStep => face::home::row_step(block, video, pixels),
                Kind::Dump => face::home::dump_tileset(block, video, pixels),
            };
            return;
        }
        match call.kind {
            Kind::New => face::vdp_new(block),
            Kind::NewTable => face::vdp_new_table(block, call.value),
            Kind::Out => face::vdp_out(block, video, call.port, call.value),
            Kind::Input => face::vdp_input(block, video, call.port),
            Kind::Step if call.layers_len.is_some() => face::vdp_layer_step(block, video, pixels, layers, call.value),
            Kind::RowStep if call.layers_len.is_some() => face::vdp_layer_row_step(block, video, pixels, layers, call.value),
            Kind::Step => face::vdp_step(block, video, pixels, call.value),
            Kind::RowStep => face::vdp_row_step(block, video, pixels, call.value),
            Kind::Dump => face::vdp_dump_tileset(block, video, pixels),
        };
    }
    fn tile(&mut self, call: TileCall, codes: &mut [u8; 64]) {
        let video = &mut self.video[..VIDEO_SIZE];
        if call.writes {
            face::vdp_write_tile(video, call.tile, codes);
        } else {
            face::vdp_read_tile(video, call.tile, codes);
        }
    }
}

/// Every byte twice: byte by byte, then word by word.
struct Each {
    video: Vec<u32>,
    sum: u32,
}

impl Side for Each {
    fn load(&mut self, _: &[u8], _: &[u8]) {}
    fn video_at(&self) -> *const u8 {
        self.video.as_ptr() as *const u8
    }
    fn call(&mut self, _: &Call, _: &mut [u8], _: &mut [u8]) {
        // a load of which nothing comes is not told of
        let mut sum = 0;
        for at in 0..VIDEO_SIZE {
            sum ^= unsafe { read_volatile(self.video_at().add(at)) } as u32;
        }
        for word in &self.video {
            sum ^= unsafe { read_volatile(word) };
        }
        self.sum = sum;
    }
}

/// The published Rust: its steps and its dump.
#[cfg(gears)]
struct Rust {
    vdp: gears::Vdp,
}

#[cfg(gears)]
impl Side for Rust {
    fn load(&mut self, block: &[u8], video: &[u8]) {
        gears::load(&self.vdp, block, video);
    }
    fn video_at(&self) -> *const u8 {
        gears::video_at(&self.vdp)
    }
    fn call(&mut self, call: &Call, pixels: &mut [u8], _: &mut [u8]) {
        let area = if call.value == 0 { gears::RenderArea::VisibleOnly } else { gears::RenderArea::EffectiveArea };
        match call.kind {
            Kind::Step => {
                self.vdp.step(pixels, area);
            }
            Kind::Dump => self.vdp.dump_tileset(pixels),
            _ => panic!("not a call of the Rust"),
        }
    }
}

#[cfg(gears)]
fn rust() -> Option<Box<dyn Side>> {
    Some(Box::new(Rust { vdp: gears::Vdp::new() }))
}

#[cfg(not(gears))]
fn rust() -> Option<Box<dyn Side>> {
    None
}

/// Does the calls, each between two stores.
fn run(side: &mut dyn Side, bytes: &[u8]) {
    let mut pixels = vec![0; 1 << 18];
    let mut layers = vec![0; 256 + EXTRA];
    let mut codes = [7; 64];
    // addresses that nothing else ever stores to
    let [before, behind] = Box::leak(Box::new([0u64; 2]));
    let video = side.video_at() as usize;
    println!("bus: {:08x} {:08x} {:08x} {:08x}", video, video + VIDEO_SIZE, before as *mut u64 as usize, behind as *mut u64 as usize);
    let word = |at: usize| u32::from_le_bytes([bytes[at], bytes[at + 1], bytes[at + 2], bytes[at + 3]]) as usize;
    let mut at = 0;
    while at < bytes.len() {
        let record = &bytes[at + 1..];
        if bytes[at] == NEW_PART {
            let (block, video) = record[1..].split_at(record[0] as usize);
            side.load(block, &video[..VIDEO_SIZE]);
            at += 2 + block.len() + VIDEO_SIZE;
            continue;
        }
        if bytes[at] == TILE {
            let call = TileCall { writes: record[0] == 1, tile: u16::from_le_bytes([record[1], record[2]]) };
            at += 4;
            unsafe { write_volatile(before, 1) };
            side.tile(call, &mut codes);
            unsafe { write_volatile(behind, 1) };
            continue;
        }
        let call = Call {
            kind: KINDS[record[0] as usize],
            value: record[1],
            port: u16::from_le_bytes([record[2], record[3]]),
            state_len: Some(word(at + 5)),
            video_len: word(at + 9),
            pixels_len: word(at + 13),
            layers_len: Some(word(at + 17)).filter(|len| *len != NO_LAYERS),
            poke: None,
        };
        at += 21;
        let layers = &mut layers[..call.layers_len.unwrap_or(0)];
        unsafe { write_volatile(before, 1) };
        side.call(&call, &mut pixels[..call.pixels_len], layers);
        unsafe { write_volatile(behind, 1) };
    }
    println!("bus: done");
}

fn usage() -> ! {
    eprintln!("usage: bus make WORKLOAD SEED FILE, or bus run ours|rust|each FILE");
    std::process::exit(2);
}

fn main() {
    let words: Vec<String> = std::env::args().skip(1).collect();
    let words: Vec<&str> = words.iter().map(|word| word.as_str()).collect();
    match words[..] {
        ["make", name, seed, file] => {
            let seed = seed.parse().unwrap_or_else(|_| usage());
            let mut parts = workload_named(name, seed).unwrap_or_else(|| usage());
            std::fs::write(file, write(&parts)).expect("the file can be written");
            for part in parts.iter_mut() {
                for call in &part.calls {
                    let mut block = part.block.clone();
                    let mut video = part.video.clone();
                    block.resize(part.lent(call), 0);
                    video.resize(call.video_len, 0);
                    let of = if part.block.len() == dock::BLOCK_SIZE { turns::of_home_call } else { turns::of_call };
                    println!("{}", of(call, &mut block, &mut video));
                    let kept = block.len().min(part.block.len());
                    part.block[..kept].copy_from_slice(&block[..kept]);
                    part.video[..call.video_len.min(VIDEO_SIZE)].copy_from_slice(&video[..call.video_len.min(VIDEO_SIZE)]);
                }
                for call in &part.tiles {
                    println!("{}", call.least());
                }
            }
        }
        ["run", side, file] => {
            let longer = |size: usize| vec![0; size + 128];
            let mut side: Box<dyn Side> = match side {
                "ours" => Box::new(Ours { block: longer(BLOCK_SIZE), video: longer(VIDEO_SIZE), home: false }),
                "each" => Box::new(Each { video: vec![0; VIDEO_SIZE / 4], sum: 0 }),
                "rust" => rust().unwrap_or_else(|| usage()),
                _ => usage(),
            };
            run(&mut *side, &std::fs::read(file).expect("the file can be read"));
        }
        _ => usage(),
    }
}
