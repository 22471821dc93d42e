//! What the comparison asks: states made by hand where the rules meet, and calls, right ones and spoiled ones.

use crate::model::{self, Area, Table, BLOCK_SIZE, OLD_SIZE, SHEET_SIZE, VIDEO_SIZE};
use crate::random::Random;
use crate::call::{Call, Kind, EXTRA, VERY_LONG};
use std::collections::VecDeque;

/// Counters just before and at the places where a step does something else.
const COUNTERS: [u8; 26] = [
    0xFE, 0xFF, 0x00, 0x01, 0x16, 0x17, 0x18, 0x19, 0xA5, 0xA6, 0xA7, 0xA8, 0xBE, 0xBF, 0xC0, 0xC1, 0xC2, 0xD4, 0xD5, 0xD8, 0xD9, 0xDA, 0xDB, 0xDC,
    0xDE, 0xDF,
];
/// X bytes at the edges of the areas, with and without the early clock.
const EDGES: [u8; 8] = [0, 8, 40, 48, 56, 200, 208, 248];
/// Addresses at the ends of both memories.
const ADDRESSES: [u16; 14] = [0, 1, 2, 62, 63, 64, 65, 66, 16382, 16383, 16384, 16385, 32768, 65535];

/// An X byte, most often near an edge.
fn any_x(random: &mut Random) -> u8 {
    if random.chance(3, 5) {
        random.one_of(&EDGES).wrapping_add(random.one_of(&[0, 1, 2, 3, 4, 5, 6, 7, 248, 249, 250, 251, 252, 253, 254, 255]))
    } else {
        random.byte()
    }
}

/// A Y byte for a sprite that is on this line, or just off it.
fn any_y(random: &mut Random, line: u8) -> u8 {
    match random.below(16) {
        0 => random.byte(),
        1 => random.one_of(&[0xFE, 0xFF, 0xCF, 0xD1, 0xEF, 0xF0]),
        _ => line.wrapping_sub(1 + random.below(18) as u8).wrapping_add(random.below(2) as u8),
    }
}

/// A value for a register; each has its own places where rules meet.
fn any_register(random: &mut Random, number: usize) -> u8 {
    match number {
        0 => random.byte() & if random.chance(1, 2) { 0x18 } else { 0xFF },
        8 if random.chance(1, 2) => random.below(17) as u8,
        9 if random.chance(1, 4) => random.one_of(&[0, 1, 7, 8, 32, 199, 200, 201, 223, 224, 225, 255]),
        10 if random.chance(3, 4) => random.below(6) as u8,
        _ => random.byte(),
    }
}

/// The size of a block and the table of its device.
pub type Shape = (usize, Table);

/// What a block can be: its first version, or its second with either table.
pub const SHAPES: [Shape; 3] = [(OLD_SIZE, Table::Steps261), (BLOCK_SIZE, Table::Steps261), (BLOCK_SIZE, Table::Steps262)];

pub fn any_shape(random: &mut Random) -> Shape {
    SHAPES[random.below(SHAPES.len())]
}

/// A block of this shape and video memory with any value in every field.
pub fn made_by_hand(random: &mut Random, (size, table): Shape) -> (Vec<u8>, Vec<u8>) {
    let mut device = model::Device::made(table);
    device.status = if random.chance(1, 2) { 0 } else { random.byte() };
    for number in 0..11 {
        device.registers[number] = any_register(random, number);
    }
    device.counter = match random.below(4) {
        0 => random.one_of(&COUNTERS),
        1 => 23 + random.below(144) as u8,
        2 => random.below(224) as u8,
        _ => random.byte(),
    };
    device.jumped = random.chance(1, 2);
    device.line_count = if random.chance(1, 2) { random.below(3) as u8 } else { random.byte() };
    device.address = match random.below(3) {
        0 => ADDRESSES[random.below(ADDRESSES.len())],
        1 => random.below(VIDEO_SIZE) as u16,
        _ => random.below(68) as u16,
    };
    device.read_buffer = random.byte();
    device.chosen = match random.below(5) {
        0 => model::Chosen::Nothing,
        1 | 2 => model::Chosen::Video,
        _ => model::Chosen::Palette,
    };
    device.command_latch = if random.chance(1, 2) { Some(random.byte()) } else { None };
    device.palette_latch = if random.chance(1, 2) { Some(random.byte()) } else { None };
    device.vertical_scroll = random.byte();
    device.dirty = random.chance(1, 2);
    random.fill(&mut device.palette);
    if random.chance(1, 3) {
        device.cache = model::colours(&device.palette);
    } else {
        for colour in device.cache.iter_mut() {
            random.fill(colour);
        }
    }
    let video = any_video(random, &device);
    (device.encode(size), video)
}

/// Video memory for a device: tiles, names, and sprites about the line of the next step.
fn any_video(random: &mut Random, device: &model::Device) -> Vec<u8> {
    let mut video = vec![0; VIDEO_SIZE];
    match random.below(5) {
        0 => {}
        1 => {
            // few bytes: most pixels clear
            for _ in 0..random.below(600) {
                video[random.below(VIDEO_SIZE)] = random.byte();
            }
        }
        2 => {
            // half of the tiles solid or clear
            random.fill(&mut video);
            for tile in 0..512 {
                match random.below(4) {
                    0 => video[32 * tile..32 * tile + 32].fill(0),
                    1 => video[32 * tile..32 * tile + 32].fill(0xFF),
                    _ => {}
                }
            }
        }
        _ => random.fill(&mut video),
    }
    if random.chance(1, 2) {
        // names with all flags over tiles that are few, so that the same tile meets all of them
        let names = (device.registers[2] & 0x0E) as usize * 1024;
        let priority = random.one_of(&[0x00, 0x10, 0x1F, 0x1F]);
        for entry in 0..28 * 32 {
            video[names + 2 * entry] = random.byte();
            video[names + 2 * entry + 1] = random.byte() & (0x0F | priority);
        }
    }
    let next = device.counter.wrapping_add(1);
    sprites_about(random, &mut video, (device.registers[5] & 0x7E) as usize * 128, next);
    video
}

/// A sprite table: about this line, near the edges, at times with many, few or no sprites before its end.
fn sprites_about(random: &mut Random, video: &mut [u8], table: usize, line: u8) {
    let dense = random.below(4);
    for n in 0..64 {
        let near = match dense {
            0 => true,
            1 => random.chance(1, 4),
            _ => random.chance(1, 9),
        };
        video[table + n] = if near { any_y(random, line) } else { random.one_of(&[0xE0, 0xC1, line, line.wrapping_add(9)]) };
        video[table + 128 + 2 * n] = any_x(random);
        video[table + 128 + 2 * n + 1] = random.byte();
    }
    if random.chance(1, 3) {
        // two sprites one over the other
        let n = random.below(63);
        video[table + n] = line.wrapping_sub(1 + random.below(8) as u8);
        video[table + n + 1] = line.wrapping_sub(1 + random.below(8) as u8);
        video[table + 128 + 2 * n + 2] = video[table + 128 + 2 * n].wrapping_add(random.below(15) as u8).wrapping_sub(7);
    }
    if random.chance(1, 4) {
        video[table + random.below(64)] = 0xD0;
    }
}

/// How much longer than it need be a row buffer is.
fn any_extra(random: &mut Random) -> usize {
    match random.below(4) {
        0 => 1 + random.below(EXTRA),
        _ => 0,
    }
}

fn any_area(random: &mut Random) -> Area {
    if random.chance(1, 2) {
        Area::Visible
    } else {
        Area::Effective
    }
}

/// A call to follow a state made by hand.
pub fn any_call(random: &mut Random) -> Call {
    if random.chance(1, 50) {
        return any_new(random);
    }
    let call = usual_call(random);
    let call = if random.chance(1, 2) { edged(call) } else { call };
    if random.chance(2, 5) {
        layered(random, call)
    } else {
        call
    }
}

/// The same call; if a visible step, one with true edges.
fn edged(call: Call) -> Call {
    match (call.kind, Area::from_number(call.value)) {
        (Kind::Step | Kind::RowStep, Some(Area::Visible)) => Call { value: Area::TrueEdges as u8, ..call },
        _ => call,
    }
}

/// The same call; if a step, with layers, in a buffer that is long enough.
fn layered(random: &mut Random, call: Call) -> Call {
    match (call.kind, Area::from_number(call.value)) {
        (Kind::Step | Kind::RowStep, Some(area)) => call.with_layers(area.width() + any_extra(random)),
        _ => call,
    }
}

/// A device made anew, with no table named or with any, in the length that stands there or in that of either version.
fn any_new(random: &mut Random) -> Call {
    let table = match random.below(8) {
        0..=2 => 0,
        3..=5 => 1,
        6 => 2,
        _ => random.byte(),
    };
    let kind = if random.chance(1, 4) { Kind::New } else { Kind::NewTable };
    let state_len = [None, Some(OLD_SIZE), Some(BLOCK_SIZE)][random.below(3)];
    Call { state_len, ..Call::plain(kind, 0, table) }
}

/// A port call, a step or a dump. (A session is made of these too, and the list of VECTORS.md of one session: which random numbers are
/// taken for them stays as it is.)
fn usual_call(random: &mut Random) -> Call {
    let high = if random.chance(1, 2) { 0 } else { (random.byte() as u16) << 8 };
    match random.below(100) {
        0..=23 => {
            let area = any_area(random);
            Call::step(area)
        }
        24..=47 => {
            let area = any_area(random);
            Call::row_step(area, any_extra(random))
        }
        48..=71 => {
            let port = match random.below(10) {
                0 => random.byte(),
                1..=5 => 0xBF,
                _ => 0xBE,
            };
            let value = match random.below(4) {
                0 => 0x80 + random.below(16) as u8,
                _ => random.byte(),
            };
            Call::out(high | port as u16, value)
        }
        72..=85 => {
            let port = match random.below(12) {
                0 => random.byte(),
                1 => 0x7F,
                2 => 0x7E,
                3 | 4 => 0xBF,
                _ => 0xBE,
            };
            Call::input(high | port as u16)
        }
        _ => Call::dump(),
    }
}

/// Spoils one thing of a call or more: a length, the area, a byte of the block.
pub fn spoil(random: &mut Random, call: &mut Call) {
    loop {
        match random.below(5) {
            0 => call.state_len = [0, 1, 218, 219, 220, 221, random.below(280)].get(random.below(7)).copied(),
            1 => call.video_len = *[0, 1, 16383, 16385, random.below(16500)].get(random.below(5)).unwrap_or(&0),
            2 => {
                let right = call.pixels_len;
                let short = [0, 1, right.saturating_sub(1), right.saturating_sub(4), random.below(right + 1)];
                call.pixels_len = short[random.below(5)];
                if call.kind == Kind::Dump && random.chance(1, 2) {
                    call.pixels_len = SHEET_SIZE + 1 + random.below(100);
                }
                if call.kind == Kind::Step && random.chance(1, 2) {
                    let (visible, effective) = (Area::Visible.frame_size(), Area::Effective.frame_size());
                    let (own, other) = if call.value == 1 { (effective, visible) } else { (visible, effective) };
                    call.pixels_len = [own + 1, own + 4, own + 1 + random.below(EXTRA), other, VERY_LONG][random.below(5)];
                }
            }
            3 if matches!(call.kind, Kind::Step | Kind::RowStep) => {
                // the buffers stay those of the visible area
                call.value = 3 + random.below(253) as u8;
                let room = if call.kind == Kind::Step { Area::Visible.frame_size() } else { 1024 };
                call.pixels_len = call.pixels_len.min(room + EXTRA);
            }
            _ => {
                let at = if random.chance(1, 8) {
                    random.below(BLOCK_SIZE)
                } else {
                    [0, 1, 15, 20, 21, 22, 23, 24, 26, 219][random.below(10)]
                };
                let byte = if random.chance(1, 2) {
                    random.below(4) as u8 + if at == 1 { 0x52 } else { 0 }
                } else {
                    random.byte()
                };
                call.poke = Some((at, byte));
            }
        }
        if random.chance(2, 3) {
            return;
        }
    }
}

/// Gives a step a layer buffer of another length, most often one that is too short. (By itself: a session's random numbers for `spoil` stay as
/// they are.)
pub fn spoil_layers(random: &mut Random, call: &mut Call) {
    if let Some(right) = call.layers_len {
        let lengths = [0, 1, 159, 160, 161, 255, 256, 257, right.saturating_sub(1), random.below(right + 1), 256 + EXTRA];
        call.layers_len = Some(lengths[random.below(lengths.len())]);
    }
}

/// The calls of a long session from a fresh device, made a few at a time.
pub struct Session {
    random: Random,
    /// What devices are made anew by, and which steps ask for layers or for true edges, apart from all else.
    anew: Random,
    /// Whether any ask for true edges.
    edges: bool,
    queue: VecDeque<Call>,
}

impl Session {
    pub fn new(seed: u64) -> Session {
        Session { random: Random::new(seed), anew: Random::new(!seed), edges: true, queue: VecDeque::new() }
    }

    /// The same session in the areas that the Rust has.
    pub fn of_the_rust(seed: u64) -> Session {
        Session { edges: false, ..Session::new(seed) }
    }

    /// The next call, given the state that it will meet.
    pub fn next(&mut self, block: &[u8]) -> Call {
        while self.queue.is_empty() {
            self.plan(block);
        }
        let mut call = self.queue.pop_front().expect("a planned call");
        if self.random.chance(1, 200) {
            spoil(&mut self.random, &mut call);
        }
        if self.anew.chance(1, 3) && self.edges {
            call = edged(call);
        }
        if self.anew.chance(1, 3) {
            call = layered(&mut self.anew, call);
            if self.anew.chance(1, 100) {
                spoil_layers(&mut self.anew, &mut call);
            }
        }
        call
    }

    fn write(&mut self, port: u16, value: u8) {
        self.queue.push_back(Call::out(port, value));
    }

    /// The two command bytes that choose an address of video memory to write to.
    fn video_address(&mut self, address: usize) {
        self.write(0xBF, (address % 256) as u8);
        self.write(0xBF, 0x40 + (address / 256 % 64) as u8);
    }

    fn plan(&mut self, block: &[u8]) {
        let line = block[14].wrapping_add(1);
        let table = (block[3 + 5] & 0x7E) as usize * 128;
        let names = (block[3 + 2] & 0x0E) as usize * 1024;
        match self.random.below(34) {
            0..=3 => {
                let number = if self.random.chance(1, 30) { self.random.below(64) } else { self.random.below(11) };
                let value = any_register(&mut self.random, number);
                self.write(0xBF, value);
                self.write(0xBF, 0x80 + number as u8);
            }
            4..=5 => {
                // bytes at any place
                let start = self.random.below(VIDEO_SIZE);
                self.video_address(start);
                for _ in 0..self.random.below(40) {
                    let byte = self.random.byte();
                    self.write(0xBE, byte);
                }
            }
            6..=7 => {
                // a few sprites: their Y bytes, then their X bytes and tiles
                let first = self.random.below(60);
                let count = 1 + self.random.below(12);
                self.video_address(table + first);
                for _ in 0..count {
                    let y = if self.random.chance(1, 60) { 0xD0 } else { any_y(&mut self.random, line) };
                    self.write(0xBE, y);
                }
                self.video_address(table + 128 + 2 * first);
                for _ in 0..count {
                    let x = any_x(&mut self.random);
                    let tile = self.random.byte();
                    self.write(0xBE, x);
                    self.write(0xBE, tile);
                }
            }
            8..=9 => {
                // a run of names about the line, with any flags
                let row = (line as usize + block[25] as usize) % 224 / 8;
                self.video_address(names + 64 * row);
                for _ in 0..32 {
                    let (tile, flags) = (self.random.byte(), self.random.byte());
                    self.write(0xBE, tile);
                    self.write(0xBE, flags);
                }
            }
            10..=12 => {
                // colours, from an even or an odd address
                let start = self.random.byte();
                self.write(0xBF, start);
                let high = 0xC0 + self.random.below(64) as u8;
                self.write(0xBF, high);
                for _ in 0..self.random.below(9) {
                    let byte = self.random.byte();
                    self.write(0xBE, byte);
                }
            }
            13..=15 => {
                // reads from an address
                let start = self.random.below(VIDEO_SIZE);
                self.write(0xBF, (start % 256) as u8);
                self.write(0xBF, (start / 256) as u8);
                for _ in 0..self.random.below(20) {
                    self.queue.push_back(Call::input(0xBE));
                }
            }
            16..=18 => {
                for _ in 0..1 + self.random.below(6) {
                    let call = usual_call(&mut self.random);
                    if matches!(call.kind, Kind::Out | Kind::Input) {
                        self.queue.push_back(call);
                    }
                }
            }
            19..=20 => self.queue.push_back(Call::input(0xBF)),
            21 => {
                // a whole pass and a little more
                let area = any_area(&mut self.random);
                let by_row = self.random.chance(1, 2);
                let extra = any_extra(&mut self.random);
                for _ in 0..261 + self.random.below(3) {
                    self.queue.push_back(if by_row { Call::row_step(area, extra) } else { Call::step(area) });
                }
            }
            22..=31 => {
                let area = any_area(&mut self.random);
                let by_row = self.random.chance(1, 2);
                let extra = any_extra(&mut self.random);
                for _ in 0..1 + self.random.below(12) {
                    self.queue.push_back(if by_row { Call::row_step(area, extra) } else { Call::step(area) });
                }
                self.queue.push_back(Call::input(0x7E));
            }
            32 => self.queue.push_back(Call::dump()),
            _ => {
                if self.random.chance(1, 10) {
                    self.queue.push_back(any_new(&mut self.anew));
                }
            }
        }
    }
}
