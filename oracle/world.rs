//! One device three times over, beside each other: ours, the model, and the published Rust, with the buffers that each is lent.
//! `call` makes the same call on all and says where they differ.

use rules::call::{Call, Kind, EXTRA, VERY_LONG};
use crate::face;
use crate::gears::{self, DisplayRefresh, RenderArea, Vdp, VdpInt};
use crate::io::Device;
use rules::model::{self, Area, Notes, Table, BLOCK_SIZE, OLD_SIZE, SHEET_SIZE, VIDEO_SIZE};
use rules::random::Random;
use std::cell::Cell;
use std::panic::{catch_unwind, AssertUnwindSafe};

/// Bytes before and after each lent part that must never change; odd, so that nothing is aligned by luck.
const GUARD: usize = 67;

/// A lent part of any length up to its room, between guards.
#[derive(Clone)]
struct Buffer {
    bytes: Vec<u8>,
}

impl Buffer {
    fn new(room: usize, random: &mut Random) -> Buffer {
        let mut bytes = vec![0; GUARD + room + GUARD];
        random.fill(&mut bytes);
        Buffer { bytes }
    }
    fn part(&self, len: usize) -> &[u8] {
        &self.bytes[GUARD..GUARD + len]
    }
    fn part_mut(&mut self, len: usize) -> &mut [u8] {
        &mut self.bytes[GUARD..GUARD + len]
    }
}

/// The frames of one side: a step is lent that of its area, or a larger one where it is to be lent more.
#[derive(Clone)]
struct Frames {
    visible: Buffer,
    effective: Buffer,
    long: Buffer,
}

const VISIBLE_ROOM: usize = 92_160 + EXTRA;
const EFFECTIVE_ROOM: usize = 229_376 + EXTRA;

impl Frames {
    fn new(random: &mut Random) -> Frames {
        Frames {
            visible: Buffer::new(VISIBLE_ROOM, random),
            effective: Buffer::new(EFFECTIVE_ROOM, random),
            long: Buffer::new(VERY_LONG, random),
        }
    }
    /// The frame that a step draws into.
    fn of(&self, c: &Call) -> &Buffer {
        if c.pixels_len > EFFECTIVE_ROOM {
            &self.long
        } else if c.value == 1 || c.pixels_len > VISIBLE_ROOM {
            &self.effective
        } else {
            &self.visible
        }
    }
    fn of_mut(&mut self, c: &Call) -> &mut Buffer {
        if c.pixels_len > EFFECTIVE_ROOM {
            &mut self.long
        } else if c.value == 1 || c.pixels_len > VISIBLE_ROOM {
            &mut self.effective
        } else {
            &mut self.visible
        }
    }
}

/// What one side owns and lends.
#[derive(Clone)]
struct Memory {
    state: Buffer,
    video: Buffer,
    frames: Frames,
    row: Buffer,
    sheet: Buffer,
    layers: Buffer,
}

impl Memory {
    fn new(random: &mut Random) -> Memory {
        Memory {
            state: Buffer::new(BLOCK_SIZE + 64, random),
            video: Buffer::new(VIDEO_SIZE + 128, random),
            frames: Frames::new(random),
            row: Buffer::new(1024 + EXTRA, random),
            sheet: Buffer::new(SHEET_SIZE + 128, random),
            layers: Buffer::new(256 + EXTRA, random),
        }
    }
}

/// Which side is held beside the Rust and the model.
#[derive(Clone, Copy, PartialEq)]
pub enum Ours {
    Library,
    /// The library, lent each part as memory of its own, so that a memory checker sees the first byte beside it.
    Tight,
    Model,
}

/// The call on the model, lent this many bytes of state.
fn perform_model(m: &mut Memory, c: &Call, size: usize, notes: &mut Notes) -> u32 {
    let n = c.pixels_len;
    match c.kind {
        Kind::New => model::vdp_new(m.state.part_mut(size)),
        Kind::NewTable => model::vdp_new_table(m.state.part_mut(size), c.value),
        Kind::Out => model::vdp_out(m.state.part_mut(size), m.video.part_mut(c.video_len), c.port, c.value),
        Kind::Input => model::vdp_input(m.state.part_mut(size), m.video.part(c.video_len), c.port),
        Kind::Step => {
            let (state, video, frame) = (m.state.part_mut(size), m.video.part(c.video_len), m.frames.of_mut(c).part_mut(n));
            match c.layers_len {
                None => model::vdp_step(state, video, frame, c.value, notes),
                Some(len) => model::vdp_layer_step(state, video, frame, m.layers.part_mut(len), c.value, notes),
            }
        }
        Kind::RowStep => {
            let (state, video, row) = (m.state.part_mut(size), m.video.part(c.video_len), m.row.part_mut(n));
            match c.layers_len {
                None => model::vdp_row_step(state, video, row, c.value, notes),
                Some(len) => model::vdp_layer_row_step(state, video, row, m.layers.part_mut(len), c.value, notes),
            }
        }
        Kind::Dump => model::vdp_dump_tileset(m.state.part(size), m.video.part(c.video_len), m.sheet.part_mut(n)),
    }
}

fn perform_library(m: &mut Memory, c: &Call, size: usize) -> u32 {
    let n = c.pixels_len;
    match c.kind {
        Kind::New => face::vdp_new(m.state.part_mut(size)),
        Kind::NewTable => face::vdp_new_table(m.state.part_mut(size), c.value),
        Kind::Out => face::vdp_out(m.state.part_mut(size), m.video.part_mut(c.video_len), c.port, c.value),
        Kind::Input => face::vdp_input(m.state.part_mut(size), m.video.part(c.video_len), c.port),
        Kind::Step => {
            let (state, video, frame) = (m.state.part_mut(size), m.video.part(c.video_len), m.frames.of_mut(c).part_mut(n));
            match c.layers_len {
                None => face::vdp_step(state, video, frame, c.value),
                Some(len) => face::vdp_layer_step(state, video, frame, m.layers.part_mut(len), c.value),
            }
        }
        Kind::RowStep => {
            let (state, video, row) = (m.state.part_mut(size), m.video.part(c.video_len), m.row.part_mut(n));
            match c.layers_len {
                None => face::vdp_row_step(state, video, row, c.value),
                Some(len) => face::vdp_layer_row_step(state, video, row, m.layers.part_mut(len), c.value),
            }
        }
        Kind::Dump => face::vdp_dump_tileset(m.state.part(size), m.video.part(c.video_len), m.sheet.part_mut(n)),
    }
}

/// The same with each lent part copied to memory of its own length and back.
fn perform_tight(m: &mut Memory, c: &Call, size: usize) -> u32 {
    let mut state = m.state.part(size).to_vec();
    let mut video = m.video.part(c.video_len).to_vec();
    let buffer = match c.kind {
        Kind::Step => m.frames.of_mut(c),
        Kind::RowStep => &mut m.row,
        _ => &mut m.sheet,
    };
    let mut pixels = buffer.part(c.pixels_len).to_vec();
    let layers_len = c.layers_len.unwrap_or(0);
    let mut layers = m.layers.part(layers_len).to_vec();
    let word = match c.kind {
        Kind::New => face::vdp_new(&mut state),
        Kind::NewTable => face::vdp_new_table(&mut state, c.value),
        Kind::Out => face::vdp_out(&mut state, &mut video, c.port, c.value),
        Kind::Input => face::vdp_input(&mut state, &video, c.port),
        Kind::Step if c.layers_len.is_some() => face::vdp_layer_step(&mut state, &video, &mut pixels, &mut layers, c.value),
        Kind::RowStep if c.layers_len.is_some() => face::vdp_layer_row_step(&mut state, &video, &mut pixels, &mut layers, c.value),
        Kind::Step => face::vdp_step(&mut state, &video, &mut pixels, c.value),
        Kind::RowStep => face::vdp_row_step(&mut state, &video, &mut pixels, c.value),
        Kind::Dump => face::vdp_dump_tileset(&state, &video, &mut pixels),
    };
    buffer.part_mut(c.pixels_len).copy_from_slice(&pixels);
    m.layers.part_mut(layers_len).copy_from_slice(&layers);
    m.state.part_mut(size).copy_from_slice(&state);
    m.video.part_mut(c.video_len).copy_from_slice(&video);
    word
}

thread_local! {
    /// Set while the published Rust runs: its panics are answers, and are not printed.
    static QUIET: Cell<bool> = Cell::new(false);
}

/// Keeps the panics of the published Rust off the screen; all others are printed as usual.
pub fn quiet_panics() {
    let usual = std::panic::take_hook();
    std::panic::set_hook(Box::new(move |info| {
        if !QUIET.with(|q| q.get()) {
            usual(info)
        }
    }));
}

/// Runs the published Rust; `Err` is the text of its panic.
fn caught<R>(run: impl FnOnce() -> R) -> Result<R, String> {
    QUIET.with(|q| q.set(true));
    let done = catch_unwind(AssertUnwindSafe(run));
    QUIET.with(|q| q.set(false));
    done.map_err(|why| match why.downcast_ref::<String>() {
        Some(text) => text.clone(),
        None => why.downcast_ref::<&str>().unwrap_or(&"a panic with no text").to_string(),
    })
}

/// The refusal that stands for an error text of the Rust.
fn error_number(text: &str) -> Option<u32> {
    let starts = [("unknown VDP", 1), ("No VDP write dest", 4), ("Reading from Color RAM", 5), ("VDP access to", 7)];
    starts.iter().find(|(start, _)| text.starts_with(start)).map(|(_, number)| *number)
}

/// The refusal that stands for a panic text of the Rust in a port call.
fn panic_number(text: &str, address_is_16384: bool) -> Option<u32> {
    if text.starts_with("Unimplemented H COUNTER") {
        Some(2)
    } else if text.starts_with("Unexpected high VDP register") {
        Some(3)
    } else if text.contains("on a `None` value") {
        Some(6)
    } else if text.starts_with("index out of bounds") && address_is_16384 {
        Some(7)
    } else {
        None
    }
}

/// What was met, for the counts.
#[derive(Default)]
pub struct Met {
    pub word: u32,
    /// The call was also held beside the Rust.
    pub beside_rust: bool,
    pub departure: Option<&'static str>,
    /// What there was of tables and of the block's versions.
    pub tables: Vec<&'static str>,
    /// What there was of layers.
    pub layers: Vec<&'static str>,
    /// What there was of true edges.
    pub edges: Vec<&'static str>,
}

pub const EARLY_CLOCK: &str = "early clock, X 41 to 48 (Rust asserts)";
pub const PAST_EDGE: &str = "effective, past the right edge (Rust draws in the next row)";
pub const SHORT: &str = "short buffer (Rust panics at an index, or not at all)";
pub const LONG: &str = "long frame (Rust draws rows of the area's own length)";
pub const ADDRESS_VIDEO: &str = "video address 16384 (Rust panics at an index)";
pub const ADDRESS_PALETTE: &str = "palette address 64 (Rust accepts the write)";
pub const DEPARTURES: [&str; 6] = [EARLY_CLOCK, PAST_EDGE, SHORT, LONG, ADDRESS_VIDEO, ADDRESS_PALETTE];

pub const ROW: [&str; 2] = ["rows drawn, table 0", "rows drawn, table 1"];
pub const JUMP: [&str; 2] = ["jumps of the counter, table 0", "jumps of the counter, table 1"];
pub const MADE_OLD: &str = "new with a table: 0 in 219 bytes";
pub const MADE: [&str; 2] = ["new with a table: 0 in 220 bytes", "new with a table: 1 in 220 bytes"];
pub const NOT_MADE: &str = "new with a table: refused";
pub const BAD_TABLE: &str = "refused for the table's byte alone";
pub const OTHER_MARK: &str = "refused for the mark of the other version alone";
pub const TABLES: [&str; 10] =
    [ROW[0], ROW[1], JUMP[0], JUMP[1], MADE_OLD, MADE[0], MADE[1], NOT_MADE, BAD_TABLE, OTHER_MARK];

pub const LAYERS: [&str; 10] = [
    "layers: a column of the background",
    "layers: a column that holds a sprite back",
    "layers: a column of a sprite",
    "layers: a column of sprite 63",
    "layers: held back, then drawn over",
    "layers: drawn, then a later sprite held back",
    "layers: drawn, then drawn over",
    "layers: held back where it would have met another sprite",
    "layers: held back off the row",
    "layers: held back by another place of the mask than its column",
];

pub const EDGES: [&str; 3] = [
    "true edges: a pixel left of the screen",
    "true edges: a pixel right of the screen",
    "true edges: early clock, X 208 to 215 drawn",
];

/// What a row has met of true edges.
fn of_edges(notes: &Notes) -> Vec<&'static str> {
    let met = [notes.edges.cut_left, notes.edges.cut_right, notes.edges.late];
    EDGES.iter().zip(met).filter(|(_, met)| *met).map(|(name, _)| *name).collect()
}

/// What a row has met of layers, which are these bytes.
fn of_layers(layers: &[u8], notes: &Notes) -> Vec<&'static str> {
    let owners = &notes.owners;
    let met = [
        layers.contains(&0),
        layers.contains(&1),
        layers.iter().any(|layer| *layer >= 64),
        layers.contains(&127),
        owners.held_then_drawn,
        owners.drawn_then_held,
        owners.drawn_twice,
        owners.held_where_met,
        owners.held_off_the_row,
        owners.tested_elsewhere,
    ];
    LAYERS.iter().zip(met).filter(|(_, met)| *met).map(|(name, _)| *name).collect()
}

/// What a call has met of tables and versions, on the bytes of state that it was lent.
fn of_tables(c: &Call, word: u32, before: &Option<model::Device>, after: &Option<model::Device>, lent: &[u8]) -> Vec<&'static str> {
    let mut met = Vec::new();
    match (before, after) {
        _ if c.kind == Kind::NewTable => met.push(match after {
            Some(_) if word == 0 && lent.len() == OLD_SIZE => MADE_OLD,
            Some(device) if word == 0 => MADE[device.table as usize],
            _ => NOT_MADE,
        }),
        (Some(before), Some(after)) if matches!(c.kind, Kind::Step | Kind::RowStep) => {
            if word >> 24 == 1 {
                met.push(ROW[after.table as usize]);
            }
            if after.jumped && !before.jumped {
                met.push(JUMP[after.table as usize]);
            }
        }
        (None, None) if matches!(lent.len(), OLD_SIZE | BLOCK_SIZE) => {
            let with = |at: usize, byte: u8| {
                let mut other = lent.to_vec();
                other[at] = byte;
                other
            };
            if lent.len() == BLOCK_SIZE && model::well_formed(&with(219, 0)) {
                met.push(BAD_TABLE);
            }
            if matches!(lent[1], 0x53 | 0x54) && model::well_formed(&with(1, 0x53 + 0x54 - lent[1])) {
                met.push(OTHER_MARK);
            }
        }
        _ => {}
    }
    met
}

pub struct World {
    side: Ours,
    /// Bytes of the block that stands at the start of the lent state.
    size: usize,
    ours: Memory,
    model: Memory,
    rust: Vdp,
    /// The Rust's frames; its part is lent 32 bytes longer in the effective area, so that what it draws past the frame has room.
    rust_frames: Memory,
    /// Where the Rust draws the row that a row step is compared with.
    rust_scratch: Vec<u8>,
}

impl World {
    /// A fresh device, with buffers of any bytes that the seed gives and zeroed video memory.
    pub fn new(side: Ours, seed: u64) -> World {
        let mut random = Random::new(seed ^ 0x5EED);
        let memory = Memory::new(&mut random);
        let mut world = World {
            side,
            size: 0,
            ours: memory.clone(),
            model: memory.clone(),
            rust: Vdp::new(),
            rust_frames: memory,
            rust_scratch: vec![0; Area::Effective.frame_size() + 64],
        };
        let fresh = model::Device::made(Table::Steps261).encode(BLOCK_SIZE);
        world.start(&fresh, &[0; VIDEO_SIZE]);
        world
    }

    /// Puts all three into this state.
    pub fn start(&mut self, block: &[u8], video: &[u8]) {
        self.size = block.len();
        for memory in [&mut self.ours, &mut self.model] {
            memory.state.part_mut(block.len()).copy_from_slice(block);
            memory.video.part_mut(VIDEO_SIZE).copy_from_slice(video);
        }
        gears::load(&self.rust, block, video);
    }

    pub fn block(&self) -> &[u8] {
        self.model.state.part(self.size)
    }
    pub fn video(&self) -> &[u8] {
        self.model.video.part(VIDEO_SIZE)
    }

    /// Loads the Rust with the model's state: after a departure, or a byte set by hand.
    fn reload(&mut self) {
        gears::load(&self.rust, self.block(), self.video());
    }

    /// Sets a byte of the state on both sides.
    fn set(&mut self, at: usize, byte: u8) {
        for memory in [&mut self.ours, &mut self.model] {
            memory.state.part_mut(BLOCK_SIZE)[at] = byte;
        }
    }

    /// Makes the call on all sides; `Err` tells how they differ.
    pub fn call(&mut self, c: &Call) -> Result<Met, String> {
        let size = c.state_len.unwrap_or(self.size);
        let undo = c.poke.map(|(at, _)| (at, self.model.state.part(BLOCK_SIZE)[at]));
        if let Some((at, byte)) = c.poke {
            self.set(at, byte);
        }
        let before = model::Device::decode(self.model.state.part(size));
        if before.is_some() && (undo.is_some() || size != self.size) {
            self.size = size;
            self.reload();
        }

        let mut notes = Notes::default();
        let word = perform_model(&mut self.model, c, size, &mut notes);
        let mut our_notes = Notes::default();
        let our_word = match self.side {
            Ours::Library => perform_library(&mut self.ours, c, size),
            Ours::Tight => perform_tight(&mut self.ours, c, size),
            Ours::Model => perform_model(&mut self.ours, c, size, &mut our_notes),
        };

        if our_word != word {
            return Err(format!("answer: ours {:08X}, model {:08X}", our_word, word));
        }
        same("state block", "model", &self.ours.state.bytes, &self.model.state.bytes, GUARD)?;
        same("video memory", "model", &self.ours.video.bytes, &self.model.video.bytes, GUARD)?;
        match c.kind {
            Kind::Step => same("frame", "model", &self.ours.frames.of(c).bytes, &self.model.frames.of(c).bytes, GUARD)?,
            Kind::RowStep => same("row buffer", "model", &self.ours.row.bytes, &self.model.row.bytes, GUARD)?,
            Kind::Dump => same("sheet", "model", &self.ours.sheet.bytes, &self.model.sheet.bytes, GUARD)?,
            _ => {}
        }

        if c.layers_len.is_some() {
            same("layers", "model", &self.ours.layers.bytes, &self.model.layers.bytes, GUARD)?;
        }

        let after = model::Device::decode(self.model.state.part(size));
        let tables = of_tables(c, word, &before, &after, self.model.state.part(size));
        let layers = match (c.layers_len, Area::from_number(c.value)) {
            (Some(_), Some(area)) if word >> 24 == 1 => of_layers(self.model.layers.part(area.width()), &notes),
            _ => Vec::new(),
        };
        let mut met = Met { word, tables, layers, edges: of_edges(&notes), ..Met::default() };
        if word % 256 == 9 {
            met.departure = Some(SHORT);
        }
        if word % 256 == 12 {
            met.departure = Some(LONG);
        }
        match (&after, undo) {
            (Some(device), _) => {
                // What was lent is the block that stands there now.
                self.size = size;
                // Refusals 8 to 12 and 16 have no counterpart in the Rust: what it has can be neither damaged nor of another length.
                let edges = matches!(c.kind, Kind::Step | Kind::RowStep) && Area::from_number(c.value) == Some(Area::TrueEdges);
                if word % 256 == 0 && edges {
                    // Nor has it true edges: it goes on from the model's state and frame.
                    self.reload();
                    self.lay(c, word);
                } else if word % 256 < 8 && device.table == Table::Steps261 {
                    met.beside_rust = true;
                    met.departure = match &before {
                        Some(before) => self.beside_rust(c, before, word, &notes)?,
                        None => self.beside_new()?,
                    };
                } else if word % 256 == 0 {
                    // Nor has table 1: the Rust's frames take what was drawn from the model's.
                    self.lay(c, word);
                }
            }
            // Refused as malformed: the byte that was set by hand goes back.
            (None, Some((at, byte))) => self.set(at, byte),
            (None, None) => {}
        }
        Ok(met)
    }

    /// Puts what the model drew into what the Rust draws in: the row of a frame step, or the sheet.
    fn lay(&mut self, c: &Call, word: u32) {
        match (c.kind, Area::from_number(c.value)) {
            (Kind::Step, Some(area)) if word >> 24 == 1 => {
                let row = (word >> 16 & 0xFF) as usize * area.row_size();
                let good = &self.model.frames.of(c).part(c.pixels_len)[row..row + area.row_size()];
                let frame = self.rust_frames.frames.of_mut(c).part_mut(c.pixels_len);
                frame[row..row + area.row_size()].copy_from_slice(good);
            }
            (Kind::Dump, _) => self.rust_frames.sheet.bytes.copy_from_slice(&self.model.sheet.bytes),
            _ => {}
        }
    }

    /// The block that stands there beside that of a device of the Rust, which has table 0.
    fn same_block(&self, rust: &Vdp) -> Result<(), String> {
        same("state block", "Rust", self.ours.state.part(self.size), &gears::read(rust, self.size), 0)
    }

    /// A fresh device of the Rust beside ours, then put in the place of the one before.
    fn beside_new(&mut self) -> Result<Option<&'static str>, String> {
        self.same_block(&Vdp::default())?;
        self.reload();
        Ok(None)
    }

    /// The same call on the Rust; answers the departure that was met, if any.
    fn beside_rust(&mut self, c: &Call, before: &model::Device, word: u32, notes: &Notes) -> Result<Option<&'static str>, String> {
        let mut departure = None;
        let at_16384 = before.chosen == model::Chosen::Video && before.address == 16384;
        let mut rust_word = 0;
        match c.kind {
            Kind::New | Kind::NewTable => return self.beside_new(),
            Kind::Out | Kind::Input => {
                rust_word = rust_port_word(&self.rust, c, at_16384)?;
                let data = c.port % 256 == 0xBE;
                if data && at_16384 {
                    departure = Some(ADDRESS_VIDEO);
                }
                if data && c.kind == Kind::Out && before.chosen == model::Chosen::Palette && before.address == 64 {
                    // The Rust latches the byte and goes on to address 1; nothing else of the state may differ.
                    let mut expected = before.clone();
                    expected.command_latch = None;
                    expected.palette_latch = Some(c.value);
                    expected.address = 1;
                    let (expected, block) = (expected.encode(self.size), gears::read(&self.rust, self.size));
                    same("state block after the accepted write at 64", "Rust", &expected, &block, 0)?;
                    self.reload();
                    return Ok(Some(ADDRESS_PALETTE));
                }
            }
            Kind::Dump => {
                let rust = &self.rust;
                let sheet = self.rust_frames.sheet.part_mut(c.pixels_len);
                caught(|| rust.dump_tileset(sheet)).map_err(|text| format!("the Rust panicked in a dump: {}", text))?;
                same("sheet", "Rust", &self.ours.sheet.bytes, &self.rust_frames.sheet.bytes, GUARD)?;
            }
            Kind::Step | Kind::RowStep => {
                let area = Area::from_number(c.value).expect("an accepted step has an area");
                let rust = &self.rust;
                let room = if area == Area::Effective { 32 } else { 0 };
                let said = if c.kind == Kind::Step {
                    let frame = self.rust_frames.frames.of_mut(c).part_mut(c.pixels_len + room);
                    caught(|| rust.step(frame, rust_area(area)))
                } else {
                    let frame = &mut self.rust_scratch[..area.frame_size() + room];
                    caught(|| rust.step(frame, rust_area(area)))
                };
                match said {
                    Err(text) => {
                        if !(notes.asserts && text.contains("x_start < CHAR_SIZE")) {
                            return Err(format!("the Rust panicked in a step: {}", text));
                        }
                        // The Rust has no answer: go on from the model's state and frame.
                        self.reload();
                        self.lay(c, word);
                        if c.kind == Kind::Step {
                            same("frame", "Rust", &self.ours.frames.of(c).bytes, &self.rust_frames.frames.of(c).bytes, GUARD)?;
                        }
                        return Ok(Some(EARLY_CLOCK));
                    }
                    Ok(answer) => {
                        if notes.asserts {
                            return Err("the Rust was to assert (early clock, X 41 to 48), and did not".to_string());
                        }
                        rust_word = rust_step_word(&self.rust, &answer, area);
                    }
                }
                let row = (word >> 16 & 0xFF) as usize;
                if word >> 24 == 1 {
                    if notes.past_edge {
                        departure = Some(PAST_EDGE);
                    }
                    if c.kind == Kind::Step {
                        // Only the stray pixels are left out: they are put back.
                        for column in &notes.stray {
                            let at = GUARD + (row + 1) * area.row_size() + 4 * column;
                            let good = &self.model.frames.of(c).bytes[at..at + 4];
                            self.rust_frames.frames.of_mut(c).bytes[at..at + 4].copy_from_slice(good);
                        }
                    } else {
                        let rust_row = model::row_view(&self.rust_scratch[..area.frame_size()], area, row);
                        same("row buffer", "Rust", self.ours.row.part(area.row_size()), rust_row, 0)?;
                    }
                }
                if c.kind == Kind::Step {
                    same("frame", "Rust", &self.ours.frames.of(c).bytes, &self.rust_frames.frames.of(c).bytes, GUARD)?;
                }
            }
        }
        if rust_word != word {
            return Err(format!("answer: ours {:08X}, Rust {:08X}", word, rust_word));
        }
        self.same_block(&self.rust)?;
        if !gears::video_is(&self.rust, self.ours.video.part(VIDEO_SIZE)) {
            return Err("video memory differs from the Rust's".to_string());
        }
        Ok(departure)
    }
}

/// A port call of the Rust as an answer word; `Err` where its error or panic stands for no refusal.
pub fn rust_port_word(rust: &Vdp, c: &Call, at_16384: bool) -> Result<u32, String> {
    let said = caught(|| match c.kind {
        Kind::Out => rust.out(c.port, c.value, 0).map(|_| 0),
        _ => rust.input(c.port, 0),
    });
    let number = match &said {
        Ok(Ok(byte)) => Some((*byte as u32) << 8),
        Ok(Err(text)) => error_number(text),
        Err(text) => panic_number(text, at_16384),
    };
    number.ok_or_else(|| format!("the Rust's answer has no number: {:?}", said))
}

/// What a step of the Rust gave as an answer word; it tells no row, so that follows from its counter.
pub fn rust_step_word(rust: &Vdp, answer: &(VdpInt, DisplayRefresh), area: Area) -> u32 {
    let counter = gears::read(rust, BLOCK_SIZE)[14];
    let interrupt = match answer.0 {
        VdpInt::NoInterrupt => 0,
        VdpInt::InterruptGenerated => 1,
    };
    let report = match answer.1 {
        DisplayRefresh::NoDisplay => 0,
        DisplayRefresh::ScreenDone => 1,
        DisplayRefresh::ScreenDoneNoRefresh => 2,
    };
    let row = area.row_at(counter).map_or(0, |row| 1 << 24 | (row as u32) << 16);
    interrupt << 8 | report << 9 | row
}

/// The Rust's name of an area.
pub fn rust_area(area: Area) -> RenderArea {
    match area {
        Area::Visible => RenderArea::VisibleOnly,
        Area::Effective => RenderArea::EffectiveArea,
        Area::TrueEdges => panic!("an area that the Rust has not"),
    }
}

/// Tells where two buffers differ, if they do; places are told from the start of the lent part, `lead` bytes in.
fn same(what: &str, whose: &str, ours: &[u8], other: &[u8], lead: usize) -> Result<(), String> {
    if ours == other {
        return Ok(());
    }
    let differ: Vec<usize> = (0..ours.len().min(other.len())).filter(|&i| ours[i] != other[i]).collect();
    let first = differ.first().copied().unwrap_or(0);
    let last = differ.last().copied().unwrap_or(0);
    let show = |bytes: &[u8]| -> String {
        let shown = &bytes[first..bytes.len().min(first + 8)];
        shown.iter().map(|byte| format!(" {:02X}", byte)).collect()
    };
    Err(format!(
        "{}: {} bytes differ, first at {}, last at {}; from the first on: ours{}, {}{}",
        what,
        differ.len(),
        first as isize - lead as isize,
        last as isize - lead as isize,
        show(ours),
        whose,
        show(other)
    ))
}
