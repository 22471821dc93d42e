//! Holds the home machine's calls for C beside the rules written a second time (dock.rs, home.rs); needs the library, and not the published Rust.
//!
//!   docks CALLS SEED [--tight|--short] the calls that are always made (lengths of every kind, blocks with each byte set to each value, blocks of the other machine,
//!                                 each scroll, X and palette byte, passes by both tables), then so many from states made by hand and from fresh devices
//!   docks pixels STATES SEED      on so many states every pixel beside the library's own row step, and each row beside the second writing
//!
//! Compared are the answer, and every byte that was lent, with those around it. With --tight each buffer is lent as memory of its own (for a memory checker); with
//! --short only the memories and the passes of the calls that are always made are (for an emulator).
//! Exit status 1 on any difference, and where an edge of the list (`due`) was not met; 2 on bad usage.

#[allow(dead_code)]
mod face;

use rules::dock::{self, BLOCK_SIZE, FRAME_SIZE, ROW_SIZE};
use rules::home::{colours, Home, Met, HEIGHT, WIDTH};
use rules::homestates::{any_register, by_hand, edge, ADDRESSES, XS};
use rules::model::{self, Chosen, Notes, Table, SHEET_SIZE, VIDEO_SIZE};
use rules::random::Random;
use rules::{salvage, sessions};
use std::collections::BTreeMap;

#[derive(Clone, Copy, PartialEq, Debug)]
enum Kind {
    New,
    NewTable,
    Out,
    Input,
    Step,
    RowStep,
    LayerStep,
    LayerRowStep,
    Pixel,
    Dump,
}
use Kind::*;

/// The calls, with their refusals in the header's order.
const CALLS: [(Kind, &str, &[u32]); 10] = [
    (New, "vdp_home_new", &[10]),
    (NewTable, "vdp_home_new_table", &[10]),
    (Out, "vdp_home_out", &[10, 8, 1, 3, 4, 7]),
    (Input, "vdp_home_input", &[10, 8, 1, 2, 4, 5, 7]),
    (Step, "vdp_home_step", &[10, 8, 9, 12]),
    (RowStep, "vdp_home_row_step", &[10, 8, 9]),
    (LayerStep, "vdp_home_layer_step", &[10, 8, 9, 12, 16]),
    (LayerRowStep, "vdp_home_layer_row_step", &[10, 8, 9, 16]),
    (Pixel, "vdp_home_pixel", &[10, 8]),
    (Dump, "vdp_home_dump_tileset", &[10, 8, 9]),
];
/// Those that read a block.
const READERS: [Kind; 8] = [Out, Input, Step, RowStep, LayerStep, LayerRowStep, Pixel, Dump];
const STEPS: [Kind; 4] = [Step, RowStep, LayerStep, LayerRowStep];

impl Kind {
    fn name(self) -> &'static str {
        CALLS[self as usize].1
    }
    fn steps(self) -> bool {
        STEPS.contains(&self)
    }
    fn layered(self) -> bool {
        matches!(self, LayerStep | LayerRowStep)
    }
    fn whole(self) -> bool {
        matches!(self, Step | LayerStep)
    }
    /// The right length of its pixels.
    fn pixels(self) -> usize {
        match self {
            Step | LayerStep => FRAME_SIZE,
            RowStep | LayerRowStep => ROW_SIZE,
            Dump => SHEET_SIZE,
            _ => 0,
        }
    }
}

/// A call with all that it is given.
#[derive(Clone, Debug)]
struct Call {
    kind: Kind,
    port: u16,
    /// The byte to write, or the table.
    value: u8,
    row: u32,
    column: u32,
    state_len: usize,
    video_len: usize,
    pixels_len: usize,
    layers_len: usize,
}

impl Call {
    /// With right lengths.
    fn plain(kind: Kind) -> Call {
        let layers_len = if kind.layered() { WIDTH } else { 0 };
        Call { kind, port: 0, value: 0, row: 0, column: 0, state_len: BLOCK_SIZE, video_len: VIDEO_SIZE, pixels_len: kind.pixels(), layers_len }
    }
    fn out(port: u16, value: u8) -> Call {
        Call { port, value, ..Call::plain(Out) }
    }
    fn input(port: u16) -> Call {
        Call { port, ..Call::plain(Input) }
    }
    fn pixel(row: u32, column: u32) -> Call {
        Call { row, column, ..Call::plain(Pixel) }
    }

    /// Whether the condition of a refusal holds, by the header, on the bytes that are lent as the block.
    fn holds(&self, refusal: u32, state: &[u8]) -> bool {
        let byte = |at: usize| state.get(at).copied().unwrap_or(0);
        let address = byte(17) as usize + 256 * byte(18) as usize;
        let low = self.port % 256;
        let data = low == 0xBE;
        match (refusal, self.kind) {
            (10, New) => state.len() != BLOCK_SIZE,
            (10, NewTable) => state.len() != BLOCK_SIZE || self.value > 1,
            (10, _) => !wrong(state).is_empty(),
            (8, _) => self.video_len != VIDEO_SIZE,
            (1, Out) => !data && low != 0xBF,
            (1, _) => !data && ![0x7E, 0x7F, 0xBF].contains(&low),
            (2, _) => low == 0x7F,
            (3, _) => low == 0xBF && byte(21) == 1 && (0x8B..=0xBF).contains(&self.value),
            (4, _) => data && byte(20) == 0,
            (5, _) => data && byte(20) == 2,
            (7, Out) => data && (byte(20) == 1 && address >= VIDEO_SIZE || byte(20) == 2 && address >= 32),
            (7, _) => data && byte(20) == 1 && address >= VIDEO_SIZE,
            (9, Dump) => self.pixels_len != SHEET_SIZE,
            (9, _) => self.pixels_len < self.kind.pixels(),
            (12, _) => self.pixels_len > self.kind.pixels(),
            (16, _) => self.layers_len < WIDTH,
            _ => false,
        }
    }
}

/// What makes a home block malformed, of these bytes.
fn wrong(block: &[u8]) -> Vec<&'static str> {
    if block.len() != BLOCK_SIZE {
        return vec!["its length"];
    }
    let fields = [
        ("the mark's first byte", block[0] != 0x56),
        ("the mark's second byte", block[1] != 0x48),
        ("the jump flag", block[15] > 1),
        ("the chosen memory", block[20] > 2),
        ("the latch flag", block[21] > 1),
        ("a byte under an empty latch", block[21] == 0 && block[22] != 0),
        ("dirty", block[24] > 1),
        ("the table", block[25] > 1),
    ];
    fields.iter().filter(|(_, bad)| *bad).map(|(name, _)| *name).collect()
}
const WRONG: [&str; 9] = [
    "its length", "the mark's first byte", "the mark's second byte", "the jump flag", "the chosen memory", "the latch flag",
    "a byte under an empty latch", "dirty", "the table",
];

/// Bytes before and after each lent part that must never change; odd, so that nothing is aligned by luck.
const GUARD: usize = 67;
const STATE_ROOM: usize = 400;
const EXTRA: usize = 2048;
/// The longest frame: one of the handheld's whole screen, and more.
const FRAME_ROOM: usize = 229_376 + 64;

/// A lent part of any length up to its room, between guards.
#[derive(Clone, PartialEq)]
struct Lent(Vec<u8>);

impl Lent {
    fn new(room: usize, random: &mut Random) -> Lent {
        let mut bytes = vec![0; GUARD + room + GUARD];
        random.fill(&mut bytes);
        Lent(bytes)
    }
    fn part(&self, len: usize) -> &[u8] {
        &self.0[GUARD..GUARD + len]
    }
    fn part_mut(&mut self, len: usize) -> &mut [u8] {
        &mut self.0[GUARD..GUARD + len]
    }
}

/// What one side owns and lends.
#[derive(Clone)]
struct Side {
    state: Lent,
    video: Lent,
    frame: Lent,
    row: Lent,
    sheet: Lent,
    layers: Lent,
}

impl Side {
    fn new(random: &mut Random) -> Side {
        Side {
            state: Lent::new(STATE_ROOM, random),
            video: Lent::new(VIDEO_SIZE + 128, random),
            frame: Lent::new(FRAME_ROOM, random),
            row: Lent::new(ROW_SIZE + EXTRA, random),
            sheet: Lent::new(SHEET_SIZE + 128, random),
            layers: Lent::new(WIDTH + EXTRA, random),
        }
    }
    fn pixels(&mut self, kind: Kind) -> &mut Lent {
        match kind {
            Step | LayerStep => &mut self.frame,
            Dump => &mut self.sheet,
            _ => &mut self.row,
        }
    }
}

fn on_rules(m: &mut Side, c: &Call, met: &mut Met) -> u64 {
    let (state, video, n) = (m.state.part_mut(c.state_len), m.video.part_mut(c.video_len), c.pixels_len);
    let word = match c.kind {
        New => dock::vdp_home_new(state),
        NewTable => dock::vdp_home_new_table(state, c.value),
        Out => dock::vdp_home_out(state, video, c.port, c.value, met),
        Input => dock::vdp_home_input(state, video, c.port, met),
        Step => dock::vdp_home_step(state, video, m.frame.part_mut(n), met),
        RowStep => dock::vdp_home_row_step(state, video, m.row.part_mut(n), met),
        LayerStep => dock::vdp_home_layer_step(state, video, m.frame.part_mut(n), m.layers.part_mut(c.layers_len), met),
        LayerRowStep => dock::vdp_home_layer_row_step(state, video, m.row.part_mut(n), m.layers.part_mut(c.layers_len), met),
        Pixel => return dock::vdp_home_pixel(state, video, c.row, c.column),
        Dump => dock::vdp_home_dump_tileset(state, video, m.sheet.part_mut(n)),
    };
    word as u64
}

fn on_parts(c: &Call, state: &mut [u8], video: &mut [u8], pixels: &mut [u8], layers: &mut [u8]) -> u64 {
    use face::home;
    let word = match c.kind {
        New => home::new(state),
        NewTable => home::new_table(state, c.value),
        Out => home::out(state, video, c.port, c.value),
        Input => home::input(state, video, c.port),
        Step => home::step(state, video, pixels),
        RowStep => home::row_step(state, video, pixels),
        LayerStep => home::layer_step(state, video, pixels, layers),
        LayerRowStep => home::layer_row_step(state, video, pixels, layers),
        Pixel => return home::pixel(state, video, c.row, c.column),
        Dump => home::dump_tileset(state, video, pixels),
    };
    word as u64
}

fn on_library(m: &mut Side, c: &Call, tight: bool) -> u64 {
    let Side { state, video, frame, row, sheet, layers } = m;
    let pixels = match c.kind {
        Step | LayerStep => frame,
        Dump => sheet,
        _ => row,
    };
    let (state, video) = (state.part_mut(c.state_len), video.part_mut(c.video_len));
    let (pixels, layers) = (pixels.part_mut(c.pixels_len), layers.part_mut(c.layers_len));
    if !tight {
        return on_parts(c, state, video, pixels, layers);
    }
    let mut own = (state.to_vec(), video.to_vec(), pixels.to_vec(), layers.to_vec());
    let word = on_parts(c, &mut own.0, &mut own.1, &mut own.2, &mut own.3);
    state.copy_from_slice(&own.0);
    video.copy_from_slice(&own.1);
    pixels.copy_from_slice(&own.2);
    layers.copy_from_slice(&own.3);
    word
}

/// What was met, by name.
#[derive(Default)]
struct Seen(BTreeMap<String, u64>);

impl Seen {
    fn note(&mut self, name: &str) {
        match self.0.get_mut(name) {
            Some(count) => *count += 1,
            None => {
                self.0.insert(name.to_string(), 1);
            }
        }
    }
    fn note_if(&mut self, met: bool, name: &str) {
        if met {
            self.note(name);
        }
    }
}

/// What a run must have met, beside the edges of home.rs.
fn due() -> Vec<String> {
    let mut all = Vec::new();
    for (kind, name, refusals) in CALLS {
        all.push(format!("{}: accepted", name));
        for (at, a) in refusals.iter().enumerate() {
            all.push(format!("{}: refused by {}", name, a));
            for b in &refusals[at + 1..] {
                // two that can hold at once
                if [10, 8].contains(a) || *b == 16 {
                    all.push(format!("{}: {} where {} holds too", name, a, b));
                }
            }
        }
        all.push(format!("{}: a handheld's block of 219 bytes", name));
        all.push(format!("{}: a handheld's block of 220 bytes", name));
        if READERS.contains(&kind) {
            all.extend(WRONG.iter().map(|field| format!("{}: malformed by {} alone", name, field)));
        }
        if kind.steps() {
            for rest in ["row 0", "row 191", "line 192, which draws none", "a row, table 0", "a row, table 1", "a jump, table 0", "a jump, table 1", "dirty colours made anew", "clean colours that are not the palette's", "a line interrupt", "a frame interrupt", "ScreenDone", "ScreenDoneNoRefresh"] {
                all.push(format!("{}: {}", name, rest));
            }
        }
    }
    all.extend(HANDHELD.iter().map(|name| format!("{}: a home block", name)));
    for byte in 0..=255 {
        all.push(format!("palette byte {:02X} written", byte));
        all.push(format!("palette address {:02X}", byte));
    }
    let others = [
        "layer 0", "layer 1", "layer 2", "layer 64", "layer 127",
        "layer 2 over a sprite that was drawn", "layer 2 over one that was held back", "layer 2 over two that met", "layer 2, and a sprite in column 8",
        "layer 64 + n in column 7, with no fill", "layers of a row where two sprites met", "layers longer than the row", "layers where no row is drawn", "a row buffer longer than the row",
        "latch emptied by 3", "latch emptied by 4", "latch emptied by 5", "latch emptied by 7", "latch kept by 1", "latch kept by 2", "latch kept by 8",
        "a palette byte changed, clean before", "the same palette byte, clean before", "a palette byte changed in its upper two bits alone, clean before", "the read buffer beside a palette write",
        "7 of the palette", "7 of video memory, written", "7 of video memory, read", "a port above 255",
        "pixel of the background", "pixel held back", "pixel of the fill", "pixel of a sprite", "pixel of a sprite in column 8 beside the fill", "pixel with dirty colours",
        "pixel with clean colours that are not the palette's", "pixel of row 15, stopped", "pixel of row 16, moved", "pixel of column 191, moved", "pixel of column 192, stopped",
        "pixel of row 191", "pixel of column 255", "no pixel: row 192", "no pixel: column 256", "no pixel: far outside",
        "dump with low sprites", "dump with high sprites", "dump of tiles from 0 on", "dump of tiles from 8,192 on",
        "made anew of table 0", "made anew of table 1", "refused for a table above 1",
    ];
    all.extend(others.iter().map(|name| name.to_string()));
    all
}

/// The same device twice over, beside each other.
struct World {
    ours: Side,
    rules: Side,
    met: Met,
    seen: Seen,
    calls: u64,
    tight: bool,
    /// Goes on with each call: what a buffer holds before it.
    stain: u8,
}

impl World {
    fn new(seed: u64, tight: bool) -> World {
        let side = Side::new(&mut Random::new(!seed));
        World { ours: side.clone(), rules: side, met: Met::nothing(), seen: Seen::default(), calls: 0, tight, stain: 0 }
    }

    /// Both sides have this block and this video memory.
    fn start(&mut self, block: &[u8], video: &[u8]) {
        for side in [&mut self.ours, &mut self.rules] {
            side.state.part_mut(block.len()).copy_from_slice(block);
            side.video.part_mut(video.len()).copy_from_slice(video);
        }
        self.met.begin();
    }

    fn block(&self) -> &[u8] {
        self.rules.state.part(BLOCK_SIZE)
    }

    /// The same call on both sides; all that is lent must be the same after it, with all around it.
    fn call(&mut self, c: &Call) -> Result<u64, String> {
        self.calls += 1;
        self.stain = self.stain.wrapping_add(41);
        for side in [&mut self.ours, &mut self.rules] {
            // what is drawn is seen to be drawn
            let room = side.layers.0.len() - 2 * GUARD;
            side.layers.part_mut(room).fill(self.stain);
            if !matches!(c.kind, Step | LayerStep | Dump) {
                side.row.part_mut(ROW_SIZE + EXTRA).fill(self.stain);
            } else if self.stain % 4 == 0 {
                side.pixels(c.kind).part_mut(c.kind.pixels()).fill(self.stain);
            }
        }
        let before = self.rules.state.part(c.state_len).to_vec();
        let word = on_rules(&mut self.rules, c, &mut self.met);
        let our_word = on_library(&mut self.ours, c, self.tight);
        let told = |what: String| Err(format!("{}; {:?}; the block before: {}", what, c, hex(&before)));
        if our_word != word {
            return told(format!("answer: ours {:016X}, the second writing {:016X}", our_word, word));
        }
        let (ours, rules) = (&self.ours, &self.rules);
        let parts = [
            ("block", &ours.state, &rules.state),
            ("video memory", &ours.video, &rules.video),
            ("layers", &ours.layers, &rules.layers),
            match c.kind {
                Step | LayerStep => ("frame", &ours.frame, &rules.frame),
                Dump => ("sheet", &ours.sheet, &rules.sheet),
                _ => ("row", &ours.row, &rules.row),
            },
        ];
        for (name, ours, rules) in parts {
            if ours != rules {
                let at = (0..ours.0.len()).find(|at| ours.0[*at] != rules.0[*at]).unwrap_or(0);
                return told(format!("{} byte {}: ours {:02X}, the second writing {:02X}", name, at as isize - GUARD as isize, ours.0[at], rules.0[at]));
            }
        }
        // The order of refusals once more, from the header.
        let holding: Vec<u32> = CALLS[c.kind as usize].2.iter().copied().filter(|refusal| c.holds(*refusal, &before)).collect();
        let first = holding.first().copied().unwrap_or(0);
        if (word % 256) as u32 != first {
            return told(format!("refusal {} where {} is due", word % 256, first));
        }
        self.note(c, &before, word, &holding);
        Ok(word)
    }

    /// What an answered call has met.
    fn note(&mut self, c: &Call, before: &[u8], word: u64, holding: &[u32]) {
        let name = c.kind.name();
        let seen = &mut self.seen;
        match holding {
            [] => seen.note(&format!("{}: accepted", name)),
            [first, rest @ ..] => {
                seen.note(&format!("{}: refused by {}", name, first));
                for other in rest {
                    seen.note(&format!("{}: {} where {} holds too", name, first, other));
                }
            }
        }
        if matches!(c.kind, New | NewTable) {
            let table = if c.kind == New { 1 } else { c.value };
            seen.note_if(word == 0, &format!("made anew of table {}", table));
            seen.note_if(word == 10 && c.state_len == BLOCK_SIZE, "refused for a table above 1");
            return;
        }
        if let [alone] = wrong(before)[..] {
            seen.note(&format!("{}: malformed by {} alone", name, alone));
        }
        let home = match dock::decode(before) {
            None => return,
            Some(home) => home,
        };
        let refusal = word % 256;
        let block = self.rules.state.part(BLOCK_SIZE);
        if let (Out | Input, Some(_)) = (c.kind, home.command_latch) {
            let kept = block[21] == 1;
            seen.note_if(refusal != 0, &format!("latch {} by {}", if kept { "kept" } else { "emptied" }, refusal));
        }
        let data = c.port % 256 == 0xBE;
        seen.note_if(matches!(c.kind, Out | Input) && c.port > 255 && refusal == 0, "a port above 255");
        if refusal == 7 {
            seen.note(match (home.chosen, c.kind) {
                (Chosen::Palette, _) => "7 of the palette",
                (_, Out) => "7 of video memory, written",
                _ => "7 of video memory, read",
            });
        }
        if refusal != 0 {
            return;
        }
        let true_colours = home.cache == colours(&home.palette);
        match c.kind {
            Out if data && home.chosen == Chosen::Palette => {
                seen.note(&format!("palette byte {:02X} written", c.value));
                let was = home.palette[home.address as usize];
                seen.note_if(!home.dirty && was != c.value, "a palette byte changed, clean before");
                seen.note_if(!home.dirty && was == c.value, "the same palette byte, clean before");
                seen.note_if(!home.dirty && was != c.value && was % 64 == c.value % 64, "a palette byte changed in its upper two bits alone, clean before");
                seen.note_if(home.read_buffer != c.value, "the read buffer beside a palette write");
            }
            Out if !data && c.value >= 0xC0 => {
                if let Some(low) = home.command_latch {
                    seen.note(&format!("palette address {:02X}", low));
                }
            }
            Pixel => {
                let (row, column) = (c.row as usize, c.column as usize);
                seen.note_if(row == HEIGHT && column < WIDTH, "no pixel: row 192");
                seen.note_if(column == WIDTH && row < HEIGHT, "no pixel: column 256");
                seen.note_if(row > 70_000 || column > 70_000, "no pixel: far outside");
                if row >= HEIGHT || column >= WIDTH {
                    return;
                }
                let (_, layer) = home.pixel(self.rules.video.part(VIDEO_SIZE), row, column);
                seen.note(match layer {
                    0 => "pixel of the background",
                    1 => "pixel held back",
                    2 => "pixel of the fill",
                    _ => "pixel of a sprite",
                });
                let zero = home.registers[0];
                seen.note_if(layer >= 64 && column == 8 && zero & 0x20 != 0, "pixel of a sprite in column 8 beside the fill");
                seen.note_if(home.dirty && !true_colours, "pixel with dirty colours");
                seen.note_if(!home.dirty && !true_colours, "pixel with clean colours that are not the palette's");
                seen.note_if(row == 15 && zero & 0x40 != 0 && home.registers[8] != 0, "pixel of row 15, stopped");
                seen.note_if(row == 16 && zero & 0x40 != 0 && home.registers[8] != 0, "pixel of row 16, moved");
                seen.note_if(column == 191 && zero & 0x80 != 0 && home.vertical_scroll % 224 != 0, "pixel of column 191, moved");
                seen.note_if(column == 192 && zero & 0x80 != 0 && home.vertical_scroll % 224 != 0, "pixel of column 192, stopped");
                seen.note_if(row == 191, "pixel of row 191");
                seen.note_if(column == 255, "pixel of column 255");
            }
            Dump => {
                seen.note(if home.registers[1] & 2 != 0 { "dump with high sprites" } else { "dump with low sprites" });
                seen.note(if home.registers[6] & 4 != 0 { "dump of tiles from 8,192 on" } else { "dump of tiles from 0 on" });
            }
            kind if kind.steps() => {
                let drawn = word >> 24 & 1 == 1;
                let row = word >> 16 & 0xFF;
                seen.note_if(drawn && row == 0, &format!("{}: row 0", name));
                seen.note_if(drawn && row == 191, &format!("{}: row 191", name));
                seen.note_if(!drawn && block[14] == 192, &format!("{}: line 192, which draws none", name));
                seen.note_if(drawn, &format!("{}: a row, table {}", name, home.table as u8));
                seen.note_if(block[15] == 1 && !home.jumped, &format!("{}: a jump, table {}", name, home.table as u8));
                seen.note_if(drawn && home.dirty && !true_colours, &format!("{}: dirty colours made anew", name));
                seen.note_if(drawn && !home.dirty && !true_colours, &format!("{}: clean colours that are not the palette's", name));
                let line = home.registers[0] & 0x10 != 0;
                let frame = block[2] & 0x80 != 0 && home.registers[1] & 0x20 != 0;
                seen.note_if(word >> 8 & 1 == 1 && line && !frame, &format!("{}: a line interrupt", name));
                seen.note_if(word >> 8 & 1 == 1 && frame && !line, &format!("{}: a frame interrupt", name));
                seen.note_if(word >> 9 & 3 == 1, &format!("{}: ScreenDone", name));
                seen.note_if(word >> 9 & 3 == 2, &format!("{}: ScreenDoneNoRefresh", name));
                seen.note_if(!kind.whole() && c.pixels_len > ROW_SIZE && drawn, "a row buffer longer than the row");
                if !kind.layered() {
                    return;
                }
                seen.note_if(!drawn, "layers where no row is drawn");
                if drawn {
                    let layers = self.rules.layers.part(WIDTH);
                    for layer in [0, 1, 2, 64, 127] {
                        seen.note_if(layers.contains(&layer), &format!("layer {}", layer));
                    }
                    let (filled, met) = (layers[0] == 2, &self.met.row);
                    seen.note_if(filled && met.drawn_under_the_fill, "layer 2 over a sprite that was drawn");
                    seen.note_if(filled && met.held_under_the_fill, "layer 2 over one that was held back");
                    seen.note_if(filled && met.struck_under_the_fill, "layer 2 over two that met");
                    seen.note_if(filled && layers[8] >= 64, "layer 2, and a sprite in column 8");
                    seen.note_if(!filled && layers[7] >= 64, "layer 64 + n in column 7, with no fill");
                    seen.note_if(met.struck && !met.struck_under_the_fill, "layers of a row where two sprites met");
                    seen.note_if(c.layers_len > WIDTH, "layers longer than the row");
                }
            }
            _ => {}
        }
    }

    /// What was never met.
    fn missing(&self) -> Vec<String> {
        let mut missing: Vec<String> = due().into_iter().filter(|name| !self.seen.0.contains_key(name)).collect();
        missing.extend(self.met.missing().iter().map(|name| name.to_string()));
        missing
    }
}

fn hex(bytes: &[u8]) -> String {
    bytes.iter().map(|byte| format!("{:02X}", byte)).collect()
}

// What is asked, of states made by hand (homestates.rs) and of others.

fn any_port(random: &mut Random, read: bool) -> u16 {
    let high = if random.chance(1, 2) { 0 } else { (random.byte() as u16) << 8 };
    let low = match random.below(12) {
        0 => random.byte(),
        1 if read => 0x7F,
        2 if read => 0x7E,
        1..=5 => 0xBF,
        _ => 0xBE,
    };
    high | low as u16
}

/// A call to follow a block.
fn any_call(random: &mut Random, block: &[u8]) -> Call {
    match random.below(100) {
        0..=1 => Call::plain(New),
        2..=3 => Call { value: edge(random, &[0, 0, 1, 1, 1, 2]), ..Call::plain(NewTable) },
        4..=27 => {
            let value = match random.below(4) {
                0 => 0x80 + random.below(16) as u8,
                1 => random.one_of(&[0x00, 0x3F, 0x40, 0x7F, 0x8A, 0x8B, 0xBF, 0xC0, 0xFF]),
                _ => random.byte(),
            };
            Call::out(any_port(random, false), value)
        }
        28..=39 => Call::input(any_port(random, true)),
        40..=41 => Call::plain(Dump),
        42..=57 => {
            let row = match random.below(4) {
                0 => [0, 1, 14, 15, 16, 17, 190, 191, 192, 193, 255, 256, 1 << 16, u32::MAX][random.below(14)],
                1 => random.below(192) as u32,
                _ => block[14].wrapping_add(1) as u32,
            };
            let column = match random.below(3) {
                0 => [0, 1, 6, 7, 8, 9, 190, 191, 192, 193, 254, 255, 256, 257, 1 << 31, u32::MAX][random.below(16)],
                1 => random.below(16) as u32,
                _ => random.below(256) as u32,
            };
            Call::pixel(row, column)
        }
        _ => {
            let mut call = Call::plain(STEPS[random.below(4)]);
            if !call.kind.whole() && random.chance(1, 4) {
                call.pixels_len += 1 + random.below(EXTRA);
            }
            if call.kind.layered() && random.chance(1, 4) {
                call.layers_len += 1 + random.below(EXTRA);
            }
            call
        }
    }
}

/// Spoils one length of a call or more.
fn spoil(random: &mut Random, call: &mut Call) {
    loop {
        match random.below(4) {
            0 => call.state_len = [0, 1, 185, 187, 219, 220, random.below(STATE_ROOM)][random.below(7)],
            1 => call.video_len = [0, 1, VIDEO_SIZE - 1, VIDEO_SIZE + 1, random.below(VIDEO_SIZE + 100)][random.below(5)],
            2 => {
                let right = call.kind.pixels();
                let lengths = [0, 1, right.saturating_sub(1), right.saturating_sub(4), random.below(right + 1), right + 1, right + 4];
                call.pixels_len = lengths[random.below(7)];
                if call.kind.whole() && random.chance(1, 4) {
                    call.pixels_len = [92_160, 229_376][random.below(2)];
                }
            }
            _ if call.kind.layered() => call.layers_len = [0, 1, 160, 255, 257, random.below(256)][random.below(6)],
            _ => {}
        }
        if random.chance(1, 2) {
            return;
        }
    }
}

/// Damages a block: a byte that is looked at, or any.
fn damage(random: &mut Random, block: &mut [u8]) {
    let at = if random.chance(1, 6) { random.below(BLOCK_SIZE) } else { [0, 1, 15, 20, 21, 22, 24, 25][random.below(8)] };
    block[at] = match random.below(3) {
        0 => block[at] ^ 1 << random.below(8),
        1 => random.below(4) as u8,
        _ => random.byte(),
    };
}

/// A few calls from a state made by hand.
fn short_session(world: &mut World, random: &mut Random, most: u64) -> Result<(), String> {
    let (home, video) = by_hand(random);
    let mut block = dock::encode(&home);
    if random.chance(1, 12) {
        for _ in 0..1 + random.below(2) {
            damage(random, &mut block);
        }
    }
    world.start(&block, &video);
    for _ in 0..most.min(1 + random.below(6) as u64) {
        let mut call = any_call(random, world.block());
        if random.chance(1, 12) {
            spoil(random, &mut call);
        }
        world.call(&call)?;
    }
    Ok(())
}

/// Hundreds of calls from a fresh device: ports with steps, one by one and in long runs, between them.
fn long_session(world: &mut World, random: &mut Random, most: u64) -> Result<(), String> {
    let (_, mut video) = by_hand(random);
    let table = 0x3F00;
    for n in 0..64 {
        video[table + n] = if random.chance(1, 20) { random.byte() } else { ((n * 3 + random.below(40) + 245) % 256 % 208) as u8 };
        video[table + 128 + 2 * n] = edge(random, &XS);
    }
    let mut fresh = [0; BLOCK_SIZE];
    random.fill(&mut fresh);
    world.start(&fresh, &video);
    let until = world.calls + most;
    world.call(&if random.chance(1, 2) { Call::plain(New) } else { Call { value: random.below(2) as u8, ..Call::plain(NewTable) } })?;
    while world.calls < until {
        let mut calls = Vec::new();
        let register = |calls: &mut Vec<Call>, number: u8, value: u8| calls.extend([Call::out(0xBF, value), Call::out(0xBF, 0x80 + number)]);
        match random.below(8) {
            0 => {
                let number = random.below(11);
                register(&mut calls, number as u8, any_register(random, number));
            }
            1 => {
                register(&mut calls, 0, random.byte());
                register(&mut calls, 8, any_register(random, 8));
                register(&mut calls, 9, any_register(random, 9));
            }
            2 => {
                calls.extend([Call::out(0xBF, random.byte()), Call::out(0xBF, 0xC0 + random.below(64) as u8)]);
                calls.extend((0..random.below(40)).map(|_| Call::out(0xBE, random.byte())));
            }
            3 => {
                calls.extend([Call::out(0xBF, random.byte()), Call::out(0xBF, random.below(128) as u8)]);
                calls.extend((0..random.below(6)).map(|_| if random.chance(1, 2) { Call::out(0xBE, random.byte()) } else { Call::input(0xBE) }));
            }
            4 => calls.push(Call::input(random.one_of(&[0x7E, 0x7F, 0xBE, 0xBF]) as u16)),
            5 => {
                // (not made anew so often that no pass comes to its end)
                let call = any_call(random, world.block());
                if !matches!(call.kind, New | NewTable) || random.chance(1, 10) {
                    calls.push(call);
                }
            }
            _ => {
                let kind = STEPS[random.below(4)];
                calls.extend((0..random.below(90)).map(|_| Call::plain(kind)));
            }
        }
        for call in &calls {
            world.call(call)?;
        }
    }
    Ok(())
}

// The calls that are always made.

/// Every length near a right one, and every block of up to 400 bytes; and every way for two lengths or more to be wrong at once.
fn lengths(world: &mut World, random: &mut Random) -> Result<(), String> {
    let (home, video) = by_hand(random);
    let good = dock::encode(&home);
    let mut state = [0; STATE_ROOM];
    random.fill(&mut state);
    state[..BLOCK_SIZE].copy_from_slice(&good);
    for (kind, _, _) in CALLS {
        for state_len in 0..STATE_ROOM {
            world.start(&state, &video);
            world.call(&Call { state_len, port: 0xBF, ..Call::plain(kind) })?;
        }
    }
    let no_memory = Home { chosen: Chosen::Nothing, command_latch: Some(1), ..home.clone() };
    let far = Home { chosen: Chosen::Video, address: 16_384, command_latch: Some(1), ..home.clone() };
    let past = Home { chosen: Chosen::Palette, address: 32, command_latch: Some(1), ..home.clone() };
    for device in [&home, &no_memory, &far, &past] {
        for kind in READERS {
            let right = kind.pixels();
            let frames = [right, right.saturating_sub(1), 0, right + 1, 92_160, 229_376];
            let pixels: &[usize] = match kind {
                Step | LayerStep => &frames,
                RowStep | LayerRowStep => &[1024, 1023, 640, 0, 1025, 3000],
                Dump => &[SHEET_SIZE, SHEET_SIZE - 1, 0, SHEET_SIZE + 1],
                _ => &[0],
            };
            let layers: &[usize] = if kind.layered() { &[256, 255, 160, 0, 257, 2000] } else { &[0] };
            let ports: &[(u16, u8)] = match kind {
                Out => &[(0xBF, 0x8B), (0xBF, 0x8A), (0xBE, 7), (0x7E, 0), (0x10BF, 0xBF)],
                Input => &[(0xBF, 0), (0xBE, 0), (0x7E, 0), (0x7F, 0), (0x20, 0)],
                _ => &[(0, 0)],
            };
            for bad in [false, true] {
                for video_len in [VIDEO_SIZE, VIDEO_SIZE - 1, 0, VIDEO_SIZE + 1] {
                    for pixels_len in pixels {
                        for layers_len in layers {
                            for (port, value) in ports {
                                let mut block = dock::encode(device);
                                block[1] ^= bad as u8;
                                world.start(&block, &video);
                                let call = Call { port: *port, value: *value, video_len, pixels_len: *pixels_len, layers_len: *layers_len, ..Call::plain(kind) };
                                world.call(&call)?;
                            }
                        }
                    }
                }
            }
        }
    }
    // every length of layers
    for kind in [LayerStep, LayerRowStep] {
        for layers_len in 0..300 {
            world.start(&good, &video);
            world.call(&Call { layers_len, ..Call::plain(kind) })?;
        }
    }
    // every table, over any bytes
    for table in 0..=255 {
        random.fill(&mut state);
        world.start(&state, &video);
        world.call(&Call { value: table, ..Call::plain(NewTable) })?;
        world.call(&Call { value: table, state_len: 185 + table as usize % 40, ..Call::plain(NewTable) })?;
        world.call(&Call::plain(New))?;
    }
    Ok(())
}

/// Each byte of a good block set to each value: those that are looked at in every call, each of the others in one.
fn damaged(world: &mut World, random: &mut Random) -> Result<(), String> {
    let mut quick = READERS.to_vec();
    quick.retain(|kind| *kind != Dump);
    for (latched, table) in [(false, Table::Steps262), (true, Table::Steps261)] {
        let (mut home, video) = by_hand(random);
        home.command_latch = if latched { Some(0x1F) } else { None };
        home.table = table;
        home.counter = 9;
        let good = dock::encode(&home);
        for at in 0..BLOCK_SIZE {
            let looked_at = [0, 1, 15, 20, 21, 22, 24, 25].contains(&at);
            for value in 0..=255 {
                let one = [quick[(at + value as usize) % quick.len()]];
                let kinds: &[Kind] = if looked_at { &READERS } else { &one };
                for kind in kinds {
                    let mut block = good.clone();
                    block[at] = value;
                    world.start(&block, &video);
                    let port = if random.chance(1, 2) { 0xBF } else { 0xBE };
                    world.call(&Call { port, value: random.byte(), row: random.below(194) as u32, column: random.below(258) as u32, ..Call::plain(*kind) })?;
                }
            }
            if !looked_at {
                let mut block = good.clone();
                block[at] = random.byte();
                world.start(&block, &video);
                world.call(&Call::plain(Dump))?;
            }
        }
    }
    Ok(())
}

/// The handheld's calls that take a block.
const HANDHELD: [&str; 11] = [
    "vdp_new", "vdp_new_table", "vdp_out", "vdp_input", "vdp_step", "vdp_row_step", "vdp_layer_step", "vdp_layer_row_step", "vdp_pixel", "vdp_dump_tileset", "vdp_repair",
];

/// Blocks of the handheld in the home machine's calls, and home blocks in the handheld's: 10, and nothing changed.
fn foreign(world: &mut World, random: &mut Random) -> Result<(), String> {
    for turn in 0..12 {
        for shape in sessions::SHAPES {
            let (block, video) = sessions::made_by_hand(random, shape);
            for (kind, name, _) in CALLS {
                world.start(&block, &video);
                let call = Call { state_len: block.len(), port: 0xBF, value: turn % 2, ..Call::plain(kind) };
                let word = world.call(&call)?;
                if word != 10 || world.ours.state.part(block.len()) != block {
                    return Err(format!("{}: {:X} of a handheld's block of {} bytes", name, word, block.len()));
                }
                world.seen.note(&format!("{}: a handheld's block of {} bytes", name, block.len()));
                if matches!(kind, New | NewTable) {
                    continue;
                }
                // its first 186 bytes; and with the home machine's mark in its own length
                world.call(&Call { state_len: BLOCK_SIZE, ..call.clone() })?;
                let mut marked = block.clone();
                marked[1] = 0x48;
                world.start(&marked, &video);
                world.call(&call)?;
            }
        }
        let (home, video) = by_hand(random);
        let good = dock::encode(&home);
        let mut memory = video.clone();
        let (mut pixels, mut layers, mut list) = (vec![turn; 229_376], vec![turn; 300], vec![turn; 300]);
        // as it is; with either mark of the handheld's; and in the handheld's lengths
        let mut long = good.clone();
        long.resize(220, 0);
        for (len, mark) in [(BLOCK_SIZE, 0x48), (BLOCK_SIZE, 0x53), (BLOCK_SIZE, 0x54), (219, 0x48), (220, 0x48)] {
            let mut block = long[..len].to_vec();
            block[1] = mark;
            for (number, name) in HANDHELD.iter().enumerate() {
                // (these two go by the length alone)
                if len != BLOCK_SIZE && (number < 2 || number == 10) {
                    continue;
                }
                let area = turn % 3;
                let frame = if area == 1 { 229_376 } else { 92_160 };
                let mut lent = block.clone();
                let word = match number {
                    0 => face::vdp_new(&mut lent) as u64,
                    1 => face::vdp_new_table(&mut lent, turn % 2) as u64,
                    2 => face::vdp_out(&mut lent, &mut memory, 0xBF, turn) as u64,
                    3 => face::vdp_input(&mut lent, &memory, 0xBF) as u64,
                    4 => face::vdp_step(&mut lent, &memory, &mut pixels[..frame], area) as u64,
                    5 => face::vdp_row_step(&mut lent, &memory, &mut pixels, area) as u64,
                    6 => face::vdp_layer_step(&mut lent, &memory, &mut pixels[..frame], &mut layers, area) as u64,
                    7 => face::vdp_layer_row_step(&mut lent, &memory, &mut pixels, &mut layers, area) as u64,
                    8 => face::vdp_pixel(&lent, &memory, area, 20, 20),
                    9 => face::vdp_dump_tileset(&lent, &memory, &mut pixels[..SHEET_SIZE]) as u64,
                    _ => face::vdp_repair(&mut lent, &mut list) as u64,
                };
                world.calls += 1;
                let stained = |bytes: &[u8]| bytes.iter().all(|byte| *byte == turn);
                if word != 10 || lent != block || memory != video || !stained(&pixels) || !stained(&layers) || !stained(&list) {
                    return Err(format!("{}: {:X} of a home block in {} bytes with mark {:02X}, or something changed: {}", name, word, len, mark, hex(&block)));
                }
                // and so says the handheld's second writing
                let (mut again, mut other) = (block.clone(), video.clone());
                let second = match number {
                    0 => model::vdp_new(&mut again),
                    1 => model::vdp_new_table(&mut again, turn % 2),
                    2 => model::vdp_out(&mut again, &mut other, 0xBF, turn),
                    3 => model::vdp_input(&mut again, &other, 0xBF),
                    10 => salvage::vdp_repair(&mut again, &mut list),
                    _ => model::vdp_row_step(&mut again, &other, &mut pixels, area, &mut Notes::default()),
                };
                if second != 10 {
                    return Err(format!("{}: the second writing has {} of a home block", name, second));
                }
                world.seen.note(&format!("{}: a home block", name));
            }
        }
    }
    Ok(())
}

/// Each value of both scrolls, stopped and not, on either side of where the locks end; each X with either clock, beside the fill and not.
fn sweeps(world: &mut World, random: &mut Random) -> Result<(), String> {
    for value in 0..=255u8 {
        let (mut home, mut video) = by_hand(random);
        let table = (home.registers[5] & 0x7E) as usize * 128;
        for n in 0..64 {
            video[table + 128 + 2 * n] = value.wrapping_add(n as u8 % 8);
            video[table + 129 + 2 * n] = random.byte();
        }
        for (turn, line) in [0, 14, 15, 16, 17, 100, 190, 191].iter().enumerate() {
            // eight sprites on the line, from X `value` on, and more behind them
            for n in 0..64 {
                video[table + n] = if n < 10 { (*line as u8).wrapping_sub(1 + random.below(8) as u8) } else { 0xE0 };
            }
            for locks in 0..16u8 {
                let clock = if locks & 1 != 0 { 0x08 } else { 0 };
                home.registers[0] = home.registers[0] & 0x17 | locks >> 1 << 5 | clock;
                home.registers[8] = if turn % 2 == 0 { value } else { any_register(random, 8) };
                home.registers[9] = value;
                home.vertical_scroll = value;
                home.counter = (*line as u8).wrapping_sub(1);
                home.jumped = true;
                home.registers[7] = value;
                world.start(&dock::encode(&home), &video);
                world.call(&Call::plain(STEPS[(turn + locks as usize) % 4]))?;
                if locks % 4 == turn as u8 % 4 {
                    for column in [0, 7, 8, value as u32, 191, 192, 255] {
                        world.call(&Call::pixel(*line, column))?;
                    }
                }
            }
        }
    }
    Ok(())
}

/// Every byte as a colour, at every place of both palettes; every palette address; the ends of both memories.
fn memories(world: &mut World, random: &mut Random) -> Result<(), String> {
    let (_, mut video) = by_hand(random);
    random.fill(&mut video[..]);
    world.start(&[0; BLOCK_SIZE], &video);
    world.call(&Call::plain(New))?;
    // an odd address first
    for command in [1, 0xC0] {
        world.call(&Call::out(0xBF, command))?;
    }
    for value in 0..=255u8 {
        world.call(&Call::out(0xBE, value))?;
    }
    for value in 0..=255u8 {
        world.call(&Call::out(0xBF, value))?;
        world.call(&Call::out(0xBF, 0xC0 | value.wrapping_mul(5) % 64))?;
        world.call(&Call::plain(RowStep))?;
        // another byte, the same, and one with other upper bits, of which two make colours dirty
        for written in [value, value, value ^ 0xC0] {
            world.call(&Call::out(0xBF, value))?;
            world.call(&Call::out(0xBF, 0xC0))?;
            world.call(&Call::out(0x1BE, written))?;
            world.call(&Call::plain(STEPS[value as usize % 4]))?;
        }
        world.call(&Call::plain(Dump))?;
    }
    for chosen in [Chosen::Nothing, Chosen::Video, Chosen::Palette] {
        for address in ADDRESSES.iter().copied().chain(28..40) {
            for latch in [None, Some(3)] {
                let (home, _) = by_hand(random);
                let home = Home { chosen, address, command_latch: latch, dirty: false, ..home };
                for call in [Call::out(0xBE, random.byte()), Call::input(0xBE), Call::input(0x7F), Call::out(0x12, 0), Call::out(0xBF, 0xBF), Call::out(0xBF, 0x80)] {
                    world.start(&dock::encode(&home), &video);
                    world.call(&call)?;
                    world.call(&Call { video_len: VIDEO_SIZE - 1, ..call.clone() })?;
                }
            }
        }
    }
    // each byte as the second of a command, with a register's number above 10 among them
    for second in 0..=255u8 {
        let (home, video) = by_hand(random);
        world.start(&dock::encode(&Home { command_latch: Some(random.byte()), ..home }), &video);
        world.call(&Call::out(0xBF, second))?;
    }
    // every port
    for port in 0..=255u16 {
        let (home, video) = by_hand(random);
        world.start(&dock::encode(&home), &video);
        world.call(&Call::input(port | 0x7B00))?;
        world.call(&Call::out(port, 0x42))?;
    }
    Ok(())
}

/// Two passes and more by each table, through each step, interrupts on; and rows and columns at the ends of the screen and past them.
fn passes(world: &mut World, random: &mut Random) -> Result<(), String> {
    for table in [0, 1] {
        for kind in STEPS {
            for one in [0x20, 0x40, 0x00] {
                let (_, video) = by_hand(random);
                world.start(&[0xAA; BLOCK_SIZE], &video);
                world.call(&Call { value: table, ..Call::plain(NewTable) })?;
                for (number, value) in [(0, 0x10 * (one != 0x20) as u8), (1, one), (10, 6), (9, random.byte())] {
                    world.call(&Call::out(0xBF, value))?;
                    world.call(&Call::out(0xBF, 0x80 + number))?;
                }
                for _ in 0..2 * 262 + 5 {
                    world.call(&Call::plain(kind))?;
                }
                world.call(&Call::input(0xBF))?;
            }
        }
    }
    let (home, video) = by_hand(random);
    world.start(&dock::encode(&home), &video);
    for row in [0, 1, 15, 16, 190, 191, 192, 193, 223, 224, 255, 256, 65_536, 1 << 31, u32::MAX] {
        for column in [0, 1, 7, 8, 159, 160, 191, 192, 254, 255, 256, 257, 65_536, 1 << 31, u32::MAX] {
            world.call(&Call::pixel(row, column))?;
        }
    }
    Ok(())
}

/// A run of this many calls or more must have met all that there is, those that are always made among them.
const LONG_RUN: u64 = 50_000;

/// The calls that are always made, and so many more; answers the exit status.
fn run(calls: u64, seed: u64, tight: bool, short: bool) -> i32 {
    let mut world = World::new(seed, tight);
    let mut random = Random::new(seed);
    let parts: [(&str, fn(&mut World, &mut Random) -> Result<(), String>); 6] =
        [("lengths", lengths), ("damaged blocks", damaged), ("foreign blocks", foreign), ("sweeps", sweeps), ("memories", memories), ("passes", passes)];
    let mut done = Ok(());
    // (a memory checker is slow: there the calls that follow are enough)
    for (name, part) in parts.iter().filter(|(name, _)| !tight && (!short || ["memories", "passes"].contains(name))) {
        let before = world.calls;
        done = done.and_then(|()| part(&mut world, &mut random).map_err(|text| format!("{}: {}", name, text)));
        println!("{:>10}  {}", world.calls - before, name);
    }
    let always = world.calls;
    while done.is_ok() && world.calls - always < calls {
        let left = calls - (world.calls - always);
        done = if random.chance(1, 100) { long_session(&mut world, &mut random, left.min(600)) } else { short_session(&mut world, &mut random, left) };
    }
    for (_, name, _) in CALLS {
        println!("{:>10}  {} accepted", world.seen.0.get(&format!("{}: accepted", name)).unwrap_or(&0), name);
    }
    println!("{:>10}  rows drawn", world.met.rows);
    if let Err(text) = done {
        println!("difference at call {}: {}", world.calls, text);
        println!("docks: {} calls, seed {}, 1 difference", world.calls, seed);
        return 1;
    }
    let summed = format!("docks: {} calls that are always made and {} more, seed {}, 0 differences", always, world.calls - always, seed);
    if calls < LONG_RUN || tight || short {
        println!("{}", summed);
        return 0;
    }
    let missing = world.missing();
    for name in &missing {
        println!("docks: never met: {}", name);
    }
    println!("{}, {}", summed, if missing.is_empty() { "every edge met" } else { "but not every edge met" });
    (!missing.is_empty()) as i32
}

/// Every pixel of so many states, before the step that draws its row and after it; each row beside the second writing.
fn pixels(states: u64, seed: u64) -> i32 {
    let mut random = Random::new(seed);
    let (mut asked, mut sprites, mut filled) = (0u64, 0u64, 0u64);
    for state in 0..states {
        let (mut home, mut video) = by_hand(&mut random);
        let table = (home.registers[5] & 0x7E) as usize * 128;
        for n in 0..64 {
            video[table + n] = if random.chance(1, 100) { 0xD0 } else { ((n * 3 + random.below(60) + 240) % 256) as u8 };
        }
        for y in 0..HEIGHT {
            home.counter = (y as u8).wrapping_sub(1);
            home.jumped = true;
            // (the step to line 0 latches it)
            home.vertical_scroll = if y == 0 { home.registers[9] } else { home.vertical_scroll };
            let before = dock::encode(&home);
            let (mut after, mut second) = (before.clone(), before.clone());
            let (mut row, mut wanted, mut layers) = ([0x5A; ROW_SIZE], [0x5A; ROW_SIZE], [0; WIDTH]);
            let word = face::home::row_step(&mut after, &video, &mut row);
            let said = dock::vdp_home_layer_row_step(&mut second, &video, &mut wanted, &mut layers, &mut Met::nothing());
            if word != said || row != wanted || after != second {
                println!("difference: state {}, row {}: the row step and the second writing", state, y);
                return 1;
            }
            sprites += layers.iter().any(|layer| *layer >= 64) as u64;
            filled += (layers[0] == 2) as u64;
            for x in 0..WIDTH {
                let bytes = [row[4 * x], row[4 * x + 1], row[4 * x + 2], row[4 * x + 3]];
                let due = 1 << 24 | (u32::from_le_bytes(bytes) as u64) << 32;
                for (when, block) in [("before", &before), ("after", &after)] {
                    if when == "after" && x % 8 != y % 8 {
                        continue;
                    }
                    let kept = block.clone();
                    let word = face::home::pixel(block, &video, y as u32, x as u32);
                    asked += 1;
                    if word != due || *block != kept {
                        println!("difference: state {}, row {}, column {}, {} the step: pixel {:016X}, row {:016X}; block {}", state, y, x, when, word, due, hex(block));
                        return 1;
                    }
                }
            }
        }
    }
    println!("docks: {} pixels of {} states, seed {}, 0 differences; {} rows with sprites, {} filled", asked, states, seed, sprites, filled);
    (states >= 8 && (sprites == 0 || filled == 0)) as i32
}

fn usage() -> ! {
    eprintln!("usage: docks CALLS SEED [--tight|--short] | docks pixels STATES SEED");
    std::process::exit(2)
}

fn main() {
    let words: Vec<String> = std::env::args().skip(1).collect();
    let words: Vec<&str> = words.iter().map(|word| word.as_str()).collect();
    let number = |word: &str| word.parse::<u64>().unwrap_or_else(|_| usage());
    std::process::exit(match words[..] {
        ["pixels", states, seed] => pixels(number(states), number(seed)),
        [calls, seed] => run(number(calls), number(seed), false, false),
        [calls, seed, "--tight"] => run(number(calls), number(seed), true, false),
        [calls, seed, "--short"] => run(number(calls), number(seed), false, true),
        _ => usage(),
    });
}
