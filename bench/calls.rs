//! The second part: calls one by one, ours and the published Rust's, and a game's frame, which is made of them. Both sides get the same calls; what
//! they read, the pictures and the states are compared before anything is timed.

use crate::io::Device;
use crate::workload::{self, List, STEPS};
use crate::{face, gears};
use rules::model::{Area, BLOCK_SIZE, SHEET_SIZE};
use std::rc::Rc;

/// The ports.
const COMMAND: u16 = 0xBF;
const DATA: u16 = 0xBE;
const COUNTER: u16 = 0x7E;

/// One side, by the calls that both have.
pub trait Side {
    fn load(&mut self, block: &[u8], video: &[u8]);
    fn out(&mut self, port: u16, value: u8);
    fn input(&mut self, port: u16) -> u8;
    /// A frame step of the visible area: whether it reports an interrupt.
    fn step(&mut self) -> bool;
    fn dump(&mut self);
    fn seen(&self) -> Seen;
}

/// What can be seen of a side after calls: they must be the same of both.
#[derive(PartialEq)]
pub struct Seen {
    state: Vec<u8>,
    video: Vec<u8>,
    frame: Vec<u8>,
    sheet: Vec<u8>,
    refused: bool,
}

/// The library through its C face.
pub struct Ours {
    block: Vec<u8>,
    video: Vec<u8>,
    frame: Vec<u8>,
    sheet: Vec<u8>,
    refused: bool,
}

impl Ours {
    fn new() -> Ours {
        Ours { block: vec![], video: vec![], frame: vec![0; Area::Visible.frame_size()], sheet: vec![0; SHEET_SIZE], refused: false }
    }
}

impl Side for Ours {
    fn load(&mut self, block: &[u8], video: &[u8]) {
        self.block = block.to_vec();
        self.video = video.to_vec();
    }
    #[inline]
    fn out(&mut self, port: u16, value: u8) {
        self.refused |= face::vdp_out(&mut self.block, &mut self.video, port, value) != 0;
    }
    #[inline]
    fn input(&mut self, port: u16) -> u8 {
        let answer = face::vdp_input(&mut self.block, &self.video, port);
        self.refused |= answer & 0xFF != 0;
        (answer >> 8) as u8
    }
    #[inline]
    fn step(&mut self) -> bool {
        face::vdp_step(&mut self.block, &self.video, &mut self.frame, Area::Visible as u8) & 0x100 != 0
    }
    fn dump(&mut self) {
        self.refused |= face::vdp_dump_tileset(&self.block, &self.video, &mut self.sheet) != 0;
    }
    fn seen(&self) -> Seen {
        let Ours { block, video, frame, sheet, refused } = self;
        Seen { state: block.clone(), video: video.clone(), frame: frame.clone(), sheet: sheet.clone(), refused: *refused }
    }
}

/// The published Rust; its ports are called as the player calls them, through `dyn Device`.
pub struct Rust {
    vdp: Rc<gears::Vdp>,
    ports: Rc<dyn Device>,
    frame: Vec<u8>,
    sheet: Vec<u8>,
    refused: bool,
}

impl Rust {
    fn new() -> Rust {
        let vdp = Rc::new(gears::Vdp::new());
        Rust { vdp: vdp.clone(), ports: vdp, frame: vec![0; Area::Visible.frame_size()], sheet: vec![0; SHEET_SIZE], refused: false }
    }
}

impl Side for Rust {
    fn load(&mut self, block: &[u8], video: &[u8]) {
        gears::load(&self.vdp, block, video);
    }
    #[inline]
    fn out(&mut self, port: u16, value: u8) {
        self.refused |= self.ports.out(port, value, 0).is_err();
    }
    #[inline]
    fn input(&mut self, port: u16) -> u8 {
        let byte = self.ports.input(port, 0);
        self.refused |= byte.is_err();
        byte.unwrap_or(0)
    }
    #[inline]
    fn step(&mut self) -> bool {
        matches!(self.vdp.step(&mut self.frame, gears::RenderArea::VisibleOnly).0, gears::VdpInt::InterruptGenerated)
    }
    fn dump(&mut self) {
        self.vdp.dump_tileset(&mut self.sheet);
    }
    fn seen(&self) -> Seen {
        let (frame, sheet) = (self.frame.clone(), self.sheet.clone());
        Seen { state: gears::read(&self.vdp, BLOCK_SIZE), video: gears::video(&self.vdp), frame, sheet, refused: self.refused }
    }
}

/// A command of two bytes.
#[inline]
fn command<S: Side>(side: &mut S, first: u8, second: u8) {
    side.out(COMMAND, first);
    side.out(COMMAND, second);
}

/// A line of the table: a call, so many times over.
#[derive(Clone, Copy, PartialEq)]
pub enum Kind {
    VideoWrite,
    PaletteWrite,
    /// The four commands of two bytes.
    AddressToWrite,
    AddressToRead,
    Register,
    PaletteAddress,
    DataRead,
    StatusRead,
    CounterRead,
    /// The steps of a pass that draw no row, with clean colours and with dirty ones, as after an upload to the palette.
    Blank,
    BlankDirty,
    /// The steps of a pass that draw one, eight sprites on each of 128.
    Row,
    Dump,
}

pub const KINDS: [(Kind, &str); 13] = [
    (Kind::VideoWrite, "data write, video memory"),
    (Kind::PaletteWrite, "data write, palette"),
    (Kind::AddressToWrite, "command byte: address to write"),
    (Kind::AddressToRead, "command byte: address to read"),
    (Kind::Register, "command byte: register"),
    (Kind::PaletteAddress, "command byte: palette address"),
    (Kind::DataRead, "data read"),
    (Kind::StatusRead, "status read"),
    (Kind::CounterRead, "read of the line counter"),
    (Kind::Blank, "frame step, no row drawn"),
    (Kind::BlankDirty, "the same with dirty colours"),
    (Kind::Row, "frame step, a row drawn"),
    (Kind::Dump, "tile dump"),
];

/// Port calls of a run, as many as four passes have steps.
pub const RUN: usize = 4 * STEPS;

impl Kind {
    /// The calls of one run.
    pub fn calls(self) -> usize {
        match self {
            Kind::Blank | Kind::BlankDirty => STEPS - 168,
            Kind::Row => 144,
            Kind::Dump => 1,
            _ => RUN,
        }
    }

    /// What stands before a run and isn't timed: the state, and the address that the data port goes on from.
    pub fn before<S: Side>(self, side: &mut S, block: &[u8], video: &[u8]) {
        let mut block = block.to_vec();
        match self {
            Kind::Blank => (block[14], block[26]) = (167, 0),
            Kind::BlankDirty => (block[14], block[26]) = (167, 1),
            Kind::Row => block[14] = 23,
            _ => {}
        }
        side.load(&block, video);
        match self {
            Kind::VideoWrite => command(side, 0x00, 0x40),
            Kind::PaletteWrite => command(side, 0x00, 0xC0),
            Kind::DataRead => command(side, 0x00, 0x00),
            _ => {}
        }
    }

    /// A run, and what was read in it.
    #[inline(never)]
    pub fn run<S: Side>(self, side: &mut S, reads: &mut Vec<u8>) {
        reads.clear();
        match self {
            Kind::VideoWrite | Kind::PaletteWrite => (0..RUN).for_each(|i| side.out(DATA, (i * 37) as u8)),
            Kind::AddressToWrite => (0..RUN / 2).for_each(|i| command(side, i as u8, 0x40 + i as u8 % 64)),
            Kind::AddressToRead => (0..RUN / 2).for_each(|i| command(side, i as u8, i as u8 % 64)),
            Kind::Register => (0..RUN / 2).for_each(|i| command(side, i as u8, 0x80 + i as u8 % 11)),
            Kind::PaletteAddress => (0..RUN / 2).for_each(|i| command(side, i as u8, 0xC0)),
            Kind::DataRead => (0..RUN).for_each(|_| reads.push(side.input(DATA))),
            Kind::StatusRead => (0..RUN).for_each(|_| reads.push(side.input(COMMAND))),
            Kind::CounterRead => (0..RUN).for_each(|_| reads.push(side.input(COUNTER))),
            Kind::Blank | Kind::BlankDirty | Kind::Row => (0..self.calls()).for_each(|_| reads.push(side.step() as u8)),
            Kind::Dump => side.dump(),
        }
    }
}

/// A game's frame: the pass with 64 sprites, eight on each of 128 rows, and with line interrupts at lines 65 and 132 and the frame's interrupt at 193.
/// At each of the first two the game reads the status, changes the scroll and one colour; at the third it reads the status, sets both scrolls and
/// uploads 32 colours, the sprite table and 512 bytes of tiles. After each of 200 steps it reads the line counter.
pub struct Game {
    sprites: Vec<u8>,
    frame: u8,
    pub reads: Vec<u8>,
}

/// The port calls of one frame: 200 counter reads, 3 of the status, 4 registers, 2 colours, 32 colours, the two halves of the sprite table, the tiles.
pub const PORT_CALLS: usize = 200 + 3 + 4 * 2 + 2 * (2 + 2) + (2 + 64) + (2 + 64) + (2 + 128) + (2 + 512);

const SPRITES: usize = 0x3F00;
const TILES: usize = 0x2000;

impl Game {
    /// The workload's state, with line interrupts each 67 lines and frame interrupts on.
    fn state(seed: u64) -> (Vec<u8>, Vec<u8>) {
        let (mut block, video) = workload::make(List::Each(8), seed);
        block[3] |= 0x10;
        block[4] |= 0x20;
        block[13] = 66;
        block[14] = 0xFF;
        (block, video)
    }

    fn new(video: &[u8]) -> Game {
        Game { sprites: video[SPRITES..SPRITES + 256].to_vec(), frame: 0, reads: Vec::with_capacity(STEPS + 3) }
    }

    fn split<S: Side>(&self, side: &mut S, colour: u8, scroll: u8) {
        command(side, scroll, 0x88);
        command(side, 2 * colour, 0xC0);
        side.out(DATA, self.frame.wrapping_mul(7));
        side.out(DATA, self.frame);
    }

    fn upload<S: Side>(&self, side: &mut S) {
        command(side, self.frame, 0x88);
        command(side, self.frame / 2, 0x89);
        command(side, 0, 0xC0);
        (0..64).for_each(|i: u8| side.out(DATA, i.wrapping_mul(29) ^ self.frame));
        command(side, 0x00, 0x40 + (SPRITES / 256) as u8);
        self.sprites[..64].iter().for_each(|y| side.out(DATA, *y));
        command(side, 0x80, 0x40 + (SPRITES / 256) as u8);
        for sprite in self.sprites[128..].chunks(2) {
            // all of a sprite shows, as in the workload
            side.out(DATA, 48 + (sprite[0] as u16 + self.frame as u16) as u8 % 152);
            side.out(DATA, sprite[1]);
        }
        let from = TILES + 512 * (self.frame as usize % 8);
        command(side, 0x00, 0x40 + (from / 256) as u8);
        (0..512).for_each(|i: usize| side.out(DATA, (i * 11) as u8 ^ self.frame));
    }

    #[inline(never)]
    pub fn frame<S: Side>(&mut self, side: &mut S) {
        self.reads.clear();
        let mut interrupts = 0;
        for n in 0..STEPS {
            if side.step() {
                self.reads.push(side.input(COMMAND));
                interrupts += 1;
                match interrupts {
                    1 => self.split(side, 3, self.frame.wrapping_add(8)),
                    2 => self.split(side, 19, self.frame.wrapping_sub(8)),
                    _ => self.upload(side),
                }
            }
            if n < 200 {
                self.reads.push(side.input(COUNTER));
            }
        }
        self.frame = self.frame.wrapping_add(1);
    }
}

/// Both sides with what they are asked.
pub struct Pair {
    pub ours: Ours,
    pub rust: Rust,
    block: Vec<u8>,
    video: Vec<u8>,
    pub our_reads: Vec<u8>,
    pub rust_reads: Vec<u8>,
}

impl Pair {
    pub fn new(seed: u64) -> Pair {
        let (block, video) = workload::make(List::Each(8), seed);
        Pair { ours: Ours::new(), rust: Rust::new(), block, video, our_reads: Vec::with_capacity(RUN), rust_reads: Vec::with_capacity(RUN) }
    }

    pub fn before(&mut self, kind: Kind) {
        kind.before(&mut self.ours, &self.block, &self.video);
        kind.before(&mut self.rust, &self.block, &self.video);
    }

    /// Whether one run of this kind gives and leaves the same on both sides, and nothing is refused.
    pub fn same(&mut self, kind: Kind) -> bool {
        self.before(kind);
        kind.run(&mut self.ours, &mut self.our_reads);
        kind.run(&mut self.rust, &mut self.rust_reads);
        self.our_reads == self.rust_reads && self.ours.seen() == self.rust.seen() && !self.ours.refused
    }
}

/// A game on both sides.
pub struct Games {
    pub ours: Ours,
    pub rust: Rust,
    pub our_game: Game,
    pub rust_game: Game,
}

impl Games {
    pub fn new(seed: u64) -> Games {
        let (block, video) = Game::state(seed);
        let (mut ours, mut rust) = (Ours::new(), Rust::new());
        ours.load(&block, &video);
        rust.load(&block, &video);
        Games { ours, rust, our_game: Game::new(&video), rust_game: Game::new(&video) }
    }

    pub fn ours(&mut self) {
        self.our_game.frame(&mut self.ours);
    }

    pub fn rust(&mut self) {
        self.rust_game.frame(&mut self.rust);
    }

    /// Whether the frame just played is the same on both sides: its reads (three of the status among them), its picture, and what is left.
    pub fn same(&self) -> bool {
        let all = self.our_game.reads.len() == 203;
        all && self.our_game.reads == self.rust_game.reads && self.ours.seen() == self.rust.seen() && !self.ours.refused
    }
}

/// What the calls that the library alone has are lent.
pub struct Buffers {
    block: Vec<u8>,
    damaged: Vec<u8>,
    video: Vec<u8>,
    row: Vec<u8>,
    layers: Vec<u8>,
    list: Vec<u8>,
    codes: Vec<u8>,
    recording: Vec<u8>,
    answers: u64,
}

impl Buffers {
    pub fn new(seed: u64) -> Buffers {
        let (block, video) = workload::make(List::Each(8), seed);
        let mut damaged = block.clone();
        (damaged[1], damaged[15], damaged[22]) = (0, 7, 9);
        let (row, layers) = (vec![0; Area::Visible.row_size()], vec![0; Area::Visible.width()]);
        Buffers { block, damaged, video, row, layers, list: vec![0; BLOCK_SIZE], codes: vec![0; 64], recording: vec![0; 4 * RUN], answers: 0 }
    }

    /// One call, RUN times over.
    fn each(&mut self, call: impl Fn(&mut Buffers, usize) -> u32) {
        for i in 0..RUN {
            self.answers += call(self, i) as u64;
        }
    }
}

/// A line of the table with no column for the Rust.
pub type Alone = (&'static str, fn(&mut Buffers));

pub const ALONE: [Alone; 12] = [
    ("new device", |b| b.each(|b, i| face::vdp_new_table(&mut b.list, i as u8 % 2))),
    ("row step, of whole passes", |b| b.each(|b, _| face::vdp_row_step(&mut b.block, &b.video, &mut b.row, 0))),
    ("row step with layers, the same", |b| b.each(|b, _| face::vdp_layer_row_step(&mut b.block, &b.video, &mut b.row, &mut b.layers, 0))),
    ("one pixel", |b| b.each(|b, i| (face::vdp_pixel(&b.block, &b.video, 0, i as u32 % 144, i as u32 % 160) >> 32) as u32)),
    ("tile in", |b| b.each(|b, i| face::vdp_write_tile(&mut b.video, i as u16 % 512, &b.codes))),
    ("tile out", |b| b.each(|b, i| face::vdp_read_tile(&b.video, i as u16 % 512, &mut b.codes))),
    ("repair of a sound block", |b| b.each(|b, _| face::vdp_repair(&mut b.block, &mut b.list))),
    ("repair of a damaged block", |b| {
        b.each(|b, _| {
            b.block.copy_from_slice(&b.damaged);
            face::vdp_repair(&mut b.block, &mut b.list)
        })
    }),
    ("record of a port write", |b| b.each(|b, i| face::vdp_record_out(&mut b.recording, 4 * i, 0xBE, i as u8))),
    ("record of a port read", |b| b.each(|b, i| face::vdp_record_input(&mut b.recording, 4 * i, 0xBE))),
    ("record of a step", |b| b.each(|b, i| face::vdp_record_step(&mut b.recording, 4 * i, 0))),
    ("next record", |b| b.each(|b, i| face::vdp_record_next(&b.recording, 4 * i))),
];
