//! The docked home machine (docs/RULES.md, section 20) a second time, straight from its sentences, pixel by pixel; and what `home-trace` and
//! `home-snapshot` write for an input (R20.9). The published Rust has no such mode: the two programs are held beside this alone. Its calls for C are in dock.rs.

use crate::model::{dump_tiles, tile_code, Chosen, Stepped, Table, DEFAULT_TABLE, NO_DISPLAY, SCREEN_DONE, SCREEN_DONE_NO_REFRESH, VIDEO_SIZE};
use crate::recording::LIMIT;

pub const WIDTH: usize = 256;
pub const HEIGHT: usize = 192;

/// The device but its video memory (R20.8): no palette latch, and a palette of one byte a colour.
#[derive(Clone, Debug)]
pub struct Home {
    pub table: Table,
    pub status: u8,
    pub registers: [u8; 11],
    pub counter: u8,
    pub jumped: bool,
    pub line_count: u8,
    pub address: u16,
    pub read_buffer: u8,
    pub chosen: Chosen,
    pub command_latch: Option<u8>,
    pub vertical_scroll: u8,
    pub dirty: bool,
    pub palette: [u8; 32],
    pub cache: [[u8; 4]; 32],
}

/// Where rules meet; no part of what is compared.
#[derive(Clone, Debug)]
pub struct Met {
    /// Values of register 8 with which a row was drawn: 0 moved by them, 1 stopped in rows 0 to 15.
    sideways: [[bool; 256]; 2],
    /// Latched scrolls: 0 with columns from 192 on moved by them, 1 with these columns stopped.
    down: [[bool; 256]; 2],
    /// X bytes of sprites on a line with a pixel of non-zero code: 0 with no early clock, 1 with it.
    stood: [[bool; 256]; 2],
    /// Bytes of which a row was drawn: 0 in palette 0, 1 in palette 1.
    coloured: [[bool; 256]; 2],
    /// Refusals of port calls by their numbers.
    refused: [bool; 8],
    row_15_stopped: bool,
    row_16_moved: bool,
    column_192_in_a_tile: bool,
    off_left: bool,
    off_right: bool,
    cut_left_and_drawn: bool,
    cut_right_and_drawn: bool,
    drawn_under_the_fill: bool,
    held_under_the_fill: bool,
    struck_under_the_fill: bool,
    nine: bool,
    address_set_from_32_on: bool,
    address_from_31_to_0: bool,
    high_bits: bool,
    odd_address_first: bool,
    /// A palette write since the read buffer was filled; and a read that gave that byte afterwards.
    palette_written: bool,
    buffer_kept: bool,
    /// What the last row has met.
    pub row: Row,
    pub writes: u64,
    pub reads: u64,
    pub steps: u64,
    pub rows: u64,
}

/// Of a row: what its sprites met.
#[derive(Clone, Default, Debug)]
pub struct Row {
    pub drawn_under_the_fill: bool,
    pub held_under_the_fill: bool,
    pub struck: bool,
    pub struck_under_the_fill: bool,
}

impl Met {
    pub fn nothing() -> Met {
        let none = [[false; 256]; 2];
        Met {
            sideways: none,
            down: none,
            stood: none,
            coloured: none,
            refused: [false; 8],
            row_15_stopped: false,
            row_16_moved: false,
            column_192_in_a_tile: false,
            off_left: false,
            off_right: false,
            cut_left_and_drawn: false,
            cut_right_and_drawn: false,
            drawn_under_the_fill: false,
            held_under_the_fill: false,
            struck_under_the_fill: false,
            nine: false,
            address_set_from_32_on: false,
            address_from_31_to_0: false,
            high_bits: false,
            odd_address_first: false,
            palette_written: false,
            buffer_kept: false,
            row: Row::default(),
            writes: 0,
            reads: 0,
            steps: 0,
            rows: 0,
        }
    }

    /// Another device, with another read buffer.
    pub fn begin(&mut self) {
        self.palette_written = false;
    }

    /// A port call has answered this refusal, 0 if it was accepted.
    pub fn answered(&mut self, refusal: u32) {
        self.refused[refusal as usize] = true;
    }

    /// What was never met.
    pub fn missing(&self) -> Vec<&'static str> {
        let all = |values: &[bool]| values.iter().all(|met| *met);
        let edges = [
            ("every value of register 8 in a row that it moves", all(&self.sideways[0])),
            ("every value of register 8, stopped in rows 0 to 15", all(&self.sideways[1])),
            ("row 15 with the sideways scroll stopped", self.row_15_stopped),
            ("row 16 moved though bit 6 of register 0 is set", self.row_16_moved),
            ("every latched scroll with all columns moved", all(&self.down[0])),
            ("every latched scroll with columns from 192 on stopped", all(&self.down[1])),
            ("column 192 inside a tile, with the columns from there on stopped", self.column_192_in_a_tile),
            ("every X with no early clock", all(&self.stood[0])),
            ("every X with the early clock", all(&self.stood[1])),
            ("early clock, X under 8: a pixel off the row", self.off_left),
            ("early clock, X under 8: another of the sprite drawn", self.cut_left_and_drawn),
            ("X 249 to 255: a pixel off the row", self.off_right),
            ("X 249 to 255: another of the sprite drawn", self.cut_right_and_drawn),
            ("a sprite drawn under the fill", self.drawn_under_the_fill),
            ("a sprite held back under the fill", self.held_under_the_fill),
            ("two sprites that met under the fill", self.struck_under_the_fill),
            ("a ninth sprite on a line", self.nine),
            ("a colour of every byte in palette 0", all(&self.coloured[0])),
            ("a colour of every byte in palette 1", all(&self.coloured[1])),
            ("a palette address set from 32 on", self.address_set_from_32_on),
            ("a palette address that goes from 31 to 0", self.address_from_31_to_0),
            ("a palette byte above 3F", self.high_bits),
            ("an odd palette address with no byte before it", self.odd_address_first),
            ("a read buffer that palette writes have left alone", self.buffer_kept),
            ("refusals 1 to 5", all(&self.refused[1..6])),
        ];
        edges.iter().filter(|(_, met)| !met).map(|(name, _)| *name).collect()
    }
}

fn bit(byte: u8, k: u32) -> bool {
    byte >> k & 1 == 1
}

/// The colours of a palette (R20.2): two bits each for red (lowest), green and blue; value n shows as 85n.
pub fn colours(palette: &[u8; 32]) -> [[u8; 4]; 32] {
    let mut all = [[0; 4]; 32];
    for (colour, byte) in all.iter_mut().zip(palette) {
        *colour = [85 * (byte % 4), 85 * (byte / 4 % 4), 85 * (byte / 16 % 4), 255];
    }
    all
}

impl Home {
    /// A fresh device of this table.
    pub fn made(table: Table) -> Home {
        Home {
            table,
            status: 0,
            registers: [0, 0, 0xFF, 0xFF, 0xFF, 0xFF, 0xFF, 0, 0, 0, 1],
            counter: 0,
            jumped: false,
            line_count: 0,
            address: 0,
            read_buffer: 0,
            chosen: Chosen::Nothing,
            command_latch: None,
            vertical_scroll: 0,
            dirty: true,
            palette: [0; 32],
            cache: [[0; 4]; 32],
        }
    }

    /// A write to a port by its low byte (R3.4 to R3.6, R20.3); answers the refusal, 0 if accepted.
    pub fn write_port(&mut self, video: &mut [u8], port: u8, value: u8, met: &mut Met) -> u32 {
        match port {
            0xBF => self.command(video, value, met),
            0xBE => self.data(video, value, met),
            _ => 1,
        }
    }

    fn command(&mut self, video: &[u8], value: u8, met: &mut Met) -> u32 {
        let low = match self.command_latch.take() {
            None => {
                self.command_latch = Some(value);
                return 0;
            }
            Some(low) => low,
        };
        let address = (low as usize + 256 * value as usize) % VIDEO_SIZE;
        match value / 64 {
            0 => {
                self.chosen = Chosen::Video;
                self.read_buffer = video[address];
                self.address = ((address + 1) % VIDEO_SIZE) as u16;
                met.palette_written = false;
            }
            1 => {
                self.chosen = Chosen::Video;
                self.address = address as u16;
            }
            2 => match self.registers.get_mut((value % 128) as usize) {
                None => return 3,
                Some(register) => *register = low,
            },
            _ => {
                met.address_set_from_32_on |= low >= 32;
                self.chosen = Chosen::Palette;
                self.address = (low % 32) as u16;
            }
        }
        0
    }

    fn data(&mut self, video: &mut [u8], value: u8, met: &mut Met) -> u32 {
        self.command_latch = None;
        let at = self.address as usize;
        match self.chosen {
            Chosen::Nothing => return 4,
            // (a record made by hand)
            Chosen::Video if at >= VIDEO_SIZE => return 7,
            Chosen::Palette if at >= 32 => return 7,
            Chosen::Video => {
                video[at] = value;
                self.read_buffer = value;
                self.address = ((at + 1) % VIDEO_SIZE) as u16;
                met.palette_written = false;
            }
            Chosen::Palette => {
                met.high_bits |= value > 0x3F;
                met.odd_address_first |= at % 2 == 1 && self.palette == [0; 32];
                met.address_from_31_to_0 |= at == 31;
                met.palette_written = true;
                self.dirty |= self.palette[at] != value;
                self.palette[at] = value;
                self.address = ((at + 1) % 32) as u16;
            }
        }
        0
    }

    /// A read of a port by its low byte (R3.8 to R3.10); answers the refusal and the byte.
    pub fn read_port(&mut self, video: &[u8], port: u8, met: &mut Met) -> (u32, u8) {
        match port {
            0x7E => (0, self.counter),
            0x7F => (2, 0),
            0xBF => {
                self.command_latch = None;
                (0, std::mem::replace(&mut self.status, 0))
            }
            0xBE => {
                self.command_latch = None;
                let at = self.address as usize;
                match self.chosen {
                    Chosen::Nothing => (4, 0),
                    Chosen::Palette => (5, 0),
                    Chosen::Video if at >= VIDEO_SIZE => (7, 0),
                    Chosen::Video => {
                        met.buffer_kept |= met.palette_written && self.read_buffer != 0;
                        met.palette_written = false;
                        self.address = ((at + 1) % VIDEO_SIZE) as u16;
                        (0, std::mem::replace(&mut self.read_buffer, video[at]))
                    }
                }
            }
            _ => (1, 0),
        }
    }

    /// A step (R4.1 to R4.5, R20.1): row y is drawn when the counter is y, 0 to 191, into a row of its own size, and its layers into as many bytes as it has
    /// columns.
    pub fn step(&mut self, video: &[u8], row: &mut [u8], layers: &mut [u8], met: &mut Met) -> Stepped {
        self.counter = self.counter.wrapping_add(1);
        if self.counter == 0 {
            self.vertical_scroll = self.registers[9];
            self.jumped = false;
            self.line_count = self.registers[10].saturating_sub(1);
        }
        let jump = match self.table {
            Table::Steps261 => 0xDA,
            Table::Steps262 => 0xDB,
        };
        if self.counter == jump && !self.jumped {
            self.jumped = true;
            self.counter = 0xD5;
        }
        let y = self.counter as usize;
        let drawn = if y < HEIGHT { Some(y) } else { None };
        if drawn.is_some() {
            if self.dirty {
                self.cache = colours(&self.palette);
                self.dirty = false;
            }
            met.rows += 1;
            let (shown, owners) = self.picture(video, y, met);
            for (pixel, number) in row.chunks_mut(4).zip(&shown) {
                met.coloured[*number as usize / 16][self.palette[*number as usize] as usize] = true;
                pixel.copy_from_slice(&self.cache[*number as usize]);
            }
            layers.copy_from_slice(&owners);
        }
        let mut report = NO_DISPLAY;
        if self.counter == 0xC1 {
            self.status |= 0x80;
            report = if bit(self.registers[1], 6) { SCREEN_DONE } else { SCREEN_DONE_NO_REFRESH };
        }
        let frame_interrupt = bit(self.registers[1], 5) && bit(self.status, 7);
        let line_interrupt = bit(self.registers[0], 4) && self.line_count == 0;
        self.line_count = if self.counter > 192 || self.line_count == 0 { self.registers[10] } else { self.line_count - 1 };
        Stepped { interrupt: frame_interrupt || line_interrupt, report, row: drawn }
    }

    /// One pixel of row y as it would be drawn now (R16.1, R16.4): its four bytes, and its layer. Nothing is set, so that a copy draws the row.
    pub fn pixel(&self, video: &[u8], y: usize, x: usize) -> ([u8; 4], u8) {
        let (shown, owners) = self.clone().picture(video, y, &mut Met::nothing());
        let cache = if self.dirty { colours(&self.palette) } else { self.cache };
        (cache[shown[x] as usize], owners[x])
    }

    /// The tile dump (R5.13 to R5.15), with the cached colours as they stand.
    pub fn dump(&self, video: &[u8], sheet: &mut [u8]) {
        dump_tiles(&self.registers, &self.cache, video, sheet);
    }

    /// The colour numbers of row y (R20.4 to R20.7) and the layers of its columns (R15.1, R15.2; 2 where the fill is); sets the status bits.
    fn picture(&mut self, video: &[u8], y: usize, met: &mut Met) -> ([u8; WIDTH], [u8; WIDTH]) {
        let registers = self.registers;
        let names = (registers[2] & 0x0E) as usize * 1024;
        let stopped_across = bit(registers[0], 6) && y < 16;
        let stopped_down = bit(registers[0], 7);
        let mut shown = [0; WIDTH];
        let mut owners = [0; WIDTH];
        let mut front = [false; WIDTH];
        for x in 0..WIDTH {
            let sideways = if stopped_across { 0 } else { registers[8] as usize };
            let down = if stopped_down && x >= 192 { 0 } else { self.vertical_scroll as usize };
            let map_x = (x + 256 - sideways) % 256;
            let map_y = (y + down) % 224;
            met.column_192_in_a_tile |= x == 192 && stopped_down && map_x % 8 != 0 && self.vertical_scroll % 224 != 0;
            let entry = names + 2 * (32 * (map_y / 8) + map_x / 8);
            let flags = video[entry + 1];
            let tile = video[entry] as usize + if bit(flags, 0) { 256 } else { 0 };
            let across = if bit(flags, 1) { 7 - map_x % 8 } else { map_x % 8 };
            let line = if bit(flags, 2) { 7 - map_y % 8 } else { map_y % 8 };
            let code = tile_code(video, 32 * tile, line, across);
            shown[x] = if bit(flags, 3) { 16 + code } else { code };
            front[x] = bit(flags, 4) && code != 0;
        }
        met.sideways[stopped_across as usize][registers[8] as usize] = true;
        met.down[stopped_down as usize][self.vertical_scroll as usize] = true;
        met.row = Row::default();
        met.row_15_stopped |= y == 15 && stopped_across && registers[8] != 0;
        met.row_16_moved |= y == 16 && bit(registers[0], 6) && registers[8] != 0;
        self.sprites(video, y, &mut shown, &mut owners, &front, met);
        if bit(registers[0], 5) {
            for number in &mut shown[..8] {
                *number = 16 + registers[7] % 16;
            }
            for owner in &mut owners[..8] {
                *owner = 2;
            }
        }
        (shown, owners)
    }

    /// The sprites of row y (R5.6 to R5.8, R5.11, R20.7), laid on the colour numbers of the background under the marks of its priority; and the columns that
    /// they own, or where they are held back.
    fn sprites(&mut self, video: &[u8], y: usize, shown: &mut [u8; WIDTH], owners: &mut [u8; WIDTH], front: &[bool; WIDTH], met: &mut Met) {
        let table = (self.registers[5] & 0x7E) as usize * 128;
        let tall = bit(self.registers[1], 1);
        let height = if tall { 16 } else { 8 };
        let patterns = if bit(self.registers[6], 2) { 8192 } else { 0 };
        let early = bit(self.registers[0], 3);
        let filled = |column: isize| column < 8 && bit(self.registers[0], 5);
        let mut taken = [false; WIDTH];
        let mut count = 0;
        for n in 0..64 {
            let y_byte = video[table + n];
            if y_byte == 0xD0 {
                return;
            }
            let top = (y_byte as usize + 1) % 256;
            if y < top || y >= top + height {
                continue;
            }
            count += 1;
            if count == 9 {
                met.nine = true;
                self.status |= 0x40;
                return;
            }
            let x_byte = video[table + 128 + 2 * n];
            let left = x_byte as isize - if early { 8 } else { 0 };
            let named = video[table + 129 + 2 * n] as usize;
            let line = y - top;
            let tile = if tall { named - named % 2 + line / 8 } else { named };
            let mut off = false;
            let mut drawn = false;
            // (No sprite has two pixels in one column, so its marks may join the others at once.)
            for pixel in 0..8 {
                let code = tile_code(video, patterns + 32 * tile, line % 8, pixel as usize);
                let column = left + pixel;
                if code == 0 {
                    continue;
                }
                met.stood[early as usize][x_byte as usize] = true;
                if column < 0 || column >= WIDTH as isize {
                    off = true;
                } else if front[column as usize] {
                    met.held_under_the_fill |= filled(column);
                    met.row.held_under_the_fill |= filled(column);
                    // (its priority holds back every sprite in this column: none was drawn here)
                    owners[column as usize] = 1;
                } else if taken[column as usize] {
                    met.row.struck = true;
                    met.row.struck_under_the_fill |= filled(column);
                    met.struck_under_the_fill |= filled(column);
                    self.status |= 0x20;
                } else {
                    drawn = true;
                    met.drawn_under_the_fill |= filled(column);
                    met.row.drawn_under_the_fill |= filled(column);
                    shown[column as usize] = 16 + code;
                    owners[column as usize] = 64 + n as u8;
                    taken[column as usize] = true;
                }
            }
            met.off_left |= off && left < 0;
            met.off_right |= off && left >= 0;
            met.cut_left_and_drawn |= off && drawn && left < 0;
            met.cut_right_and_drawn |= off && drawn && left >= 0;
        }
    }
}

/// What an input does: the text of `home-trace`, but for its last line, and the frame of `home-snapshot`.
struct Run {
    device: Home,
    video: Vec<u8>,
    frame: Vec<u8>,
    text: String,
    records: usize,
}

impl Run {
    /// Runs the whole input on a fresh device; answers also the offset of the first bad record, if there is one. The area byte of a step is 0 (R20.9).
    fn new(input: &[u8], met: &mut Met) -> (Run, Option<usize>) {
        met.begin();
        let device = Home::made(DEFAULT_TABLE);
        let mut run = Run { device, video: vec![0; VIDEO_SIZE], frame: vec![0; 4 * WIDTH * HEIGHT], text: String::new(), records: 0 };
        let mut at = 0;
        while at < input.len() {
            at += match input[at..] {
                [b'P', b'W', port, value, ..] => {
                    let refusal = run.device.write_port(&mut run.video, port, value, met);
                    run.text.push_str(&format!("w {}\n", refusal));
                    met.answered(refusal);
                    met.writes += 1;
                    4
                }
                [b'P', b'R', port, ..] => {
                    let (refusal, byte) = run.device.read_port(&run.video, port, met);
                    run.text.push_str(&format!("r {} {:02X}\n", refusal, byte));
                    met.answered(refusal);
                    met.reads += 1;
                    3
                }
                [b'L', b'S', 0, ..] => {
                    let mut row = [0; 4 * WIDTH];
                    let stepped = run.device.step(&run.video, &mut row, &mut [0; WIDTH], met);
                    if let Some(y) = stepped.row {
                        run.frame[4 * WIDTH * y..4 * WIDTH * (y + 1)].copy_from_slice(&row);
                    }
                    run.text.push_str(&format!("s 0 {:02X} {} {}\n", run.device.counter, stepped.interrupt as u8, stepped.report));
                    met.steps += 1;
                    3
                }
                _ => return (run, Some(at)),
            };
            run.records += 1;
        }
        (run, None)
    }
}

/// The text that `home-trace` prints.
pub fn trace_text(input: &[u8], met: &mut Met) -> Vec<u8> {
    if input.len() > LIMIT {
        return b"long\n".to_vec();
    }
    let (run, bad) = Run::new(input, met);
    let last = match bad {
        Some(at) => format!("bad {}\n", at),
        None => format!("end {}\n", run.records),
    };
    (run.text + &last).into_bytes()
}

/// The bytes that `home-snapshot` writes: a PPM of 256 x 192, black where no step has drawn.
pub fn snapshot_bytes(input: &[u8], met: &mut Met) -> Vec<u8> {
    if input.len() > LIMIT {
        return b"long\n".to_vec();
    }
    let (run, bad) = Run::new(input, met);
    if let Some(at) = bad {
        return format!("bad {}\n", at).into_bytes();
    }
    let mut bytes = b"P6\n256 192\n255\n".to_vec();
    for pixel in run.frame.chunks(4) {
        bytes.extend_from_slice(&pixel[..3]);
    }
    bytes
}
