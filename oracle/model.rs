//! The rules of the video chip (docs/RULES.md) written out a second time in plain Rust: straight from their sentences, pixel by
//! pixel, with no thought of speed. Total: every call ends, for any bytes and lengths. It says what the library must do
//! where the published Rust panics or departs; where they agree, the comparison holds all three beside each other.

/// Bytes of a state block in its first version, which knows table 0 alone, and in its second (R7.5).
pub const OLD_SIZE: usize = 219;
pub const BLOCK_SIZE: usize = 220;
pub const VIDEO_SIZE: usize = 16_384;
pub const SHEET_SIZE: usize = 131_072;

/// Steps of the three areas: 0 visible, 1 effective, 2 visible with true edges.
#[derive(Clone, Copy, PartialEq, Debug)]
pub enum Area {
    Visible,
    Effective,
    TrueEdges,
}

impl Area {
    pub fn from_number(n: u8) -> Option<Area> {
        match n {
            0 => Some(Area::Visible),
            1 => Some(Area::Effective),
            2 => Some(Area::TrueEdges),
            _ => None,
        }
    }
    pub fn width(self) -> usize {
        match self {
            Area::Visible | Area::TrueEdges => 160,
            Area::Effective => 256,
        }
    }
    pub fn height(self) -> usize {
        match self {
            Area::Visible | Area::TrueEdges => 144,
            Area::Effective => 224,
        }
    }
    /// Bytes of one row.
    pub fn row_size(self) -> usize {
        self.width() * 4
    }
    /// Bytes of a frame.
    pub fn frame_size(self) -> usize {
        self.row_size() * self.height()
    }
    /// The line that row 0 shows.
    pub fn first_line(self) -> usize {
        match self {
            Area::Visible | Area::TrueEdges => 24,
            Area::Effective => 0,
        }
    }
    /// The row that a step draws once it has set the counter.
    pub fn row_at(self, counter: u8) -> Option<usize> {
        let line = counter as usize;
        let first = self.first_line();
        if line >= first && line < first + self.height() {
            Some(line - first)
        } else {
            None
        }
    }
}

/// The line tables: 0 has 261 steps to a pass, 1 has 262.
#[derive(Clone, Copy, PartialEq, Debug)]
pub enum Table {
    Steps261,
    Steps262,
}

/// The table of a device that is made with none named.
pub const DEFAULT_TABLE: Table = Table::Steps262;

impl Table {
    pub fn from_number(n: u8) -> Option<Table> {
        match n {
            0 => Some(Table::Steps261),
            1 => Some(Table::Steps262),
            _ => None,
        }
    }
    /// The value that the counter does not take the first time that it would since it was 0 (R4.1).
    fn jump_line(self) -> u8 {
        match self {
            Table::Steps261 => 0xDA,
            Table::Steps262 => 0xDB,
        }
    }
}

#[derive(Clone, Copy, PartialEq, Debug)]
pub enum Chosen {
    Nothing,
    Video,
    Palette,
}

/// The device but its video memory.
#[derive(Clone, Debug)]
pub struct Device {
    pub table: Table,
    pub status: u8,
    pub registers: [u8; 11],
    pub counter: u8,
    pub jumped: bool,
    pub line_count: u8,
    pub address: u16,
    pub read_buffer: u8,
    pub chosen: Chosen,
    pub command_latch: Option<u8>,
    pub palette_latch: Option<u8>,
    pub vertical_scroll: u8,
    pub dirty: bool,
    pub palette: [u8; 64],
    pub cache: [[u8; 4]; 32],
}

/// Display reports, by their numbers.
pub const NO_DISPLAY: u32 = 0;
pub const SCREEN_DONE: u32 = 1;
pub const SCREEN_DONE_NO_REFRESH: u32 = 2;

/// What an accepted step answers.
pub struct Stepped {
    pub interrupt: bool,
    pub report: u32,
    pub row: Option<usize>,
}

/// Where a step meets one of the departures of the published Rust, R6.1 or R6.2; no part of the picture.
#[derive(Clone, Default, Debug)]
pub struct Notes {
    /// A counted sprite on the line has X 41 to 48 under the early clock, in the visible area: the Rust asserts.
    pub asserts: bool,
    /// Columns x + c - 256 of pixels that fall past the right edge of the effective area: the Rust draws them in the next row.
    pub stray: Vec<usize>,
    /// A sprite pixel of any fate stood past that edge.
    pub past_edge: bool,
    /// What was met of layers (R15.1, R15.2).
    pub owners: Owners,
    /// What was met of true edges (R18.2).
    pub edges: Edges,
}

/// Pixels of a row with true edges.
#[derive(Clone, Default, Debug)]
pub struct Edges {
    /// One was left of the screen.
    pub cut_left: bool,
    /// One was right of it.
    pub cut_right: bool,
    /// One of a sprite with the early clock and X 208 or more was drawn.
    pub late: bool,
}

/// Columns of a drawn row that are nobody's alone.
#[derive(Clone, Default, Debug)]
pub struct Owners {
    /// One where a sprite was held back and a later one was drawn.
    pub held_then_drawn: bool,
    /// One where a sprite was drawn and a later one held back.
    pub drawn_then_held: bool,
    /// One where a sprite was drawn and a later one drawn over it.
    pub drawn_twice: bool,
    /// A pixel was held back that would have met another sprite.
    pub held_where_met: bool,
    /// A pixel was held back that stands off the row.
    pub held_off_the_row: bool,
    /// A pixel was held back that is tested at another place than its column.
    pub tested_elsewhere: bool,
}

impl Device {
    /// A fresh device of this table.
    pub fn made(table: Table) -> Device {
        Device {
            table,
            status: 0,
            registers: [0, 0, 0xFF, 0xFF, 0xFF, 0xFF, 0xFF, 0, 0, 0, 1],
            counter: 0,
            jumped: false,
            line_count: 0,
            address: 0,
            read_buffer: 0,
            chosen: Chosen::Nothing,
            command_latch: None,
            palette_latch: None,
            vertical_scroll: 0,
            dirty: true,
            palette: [0; 64],
            cache: [[0; 4]; 32],
        }
    }

    /// Port write (R3.4 to R3.7); answers the refusal, 0 if accepted.
    pub fn write_port(&mut self, video: &mut [u8], port: u16, value: u8) -> u32 {
        if video.len() != VIDEO_SIZE {
            return 8;
        }
        match port % 256 {
            0xBF => self.command(video, value),
            0xBE => self.write_data(video, value),
            _ => 1,
        }
    }

    fn command(&mut self, video: &[u8], value: u8) -> u32 {
        let first = match self.command_latch {
            None => {
                self.command_latch = Some(value);
                return 0;
            }
            Some(first) => first,
        };
        self.command_latch = None;
        let address = (first as u32 + 256 * value as u32) % VIDEO_SIZE as u32;
        match value / 64 {
            0 => {
                self.chosen = Chosen::Video;
                self.read_buffer = video[address as usize];
                self.address = ((address + 1) % VIDEO_SIZE as u32) as u16;
                0
            }
            1 => {
                self.chosen = Chosen::Video;
                self.address = address as u16;
                0
            }
            2 => {
                let number = (value % 128) as usize;
                if number > 10 {
                    return 3;
                }
                self.registers[number] = first;
                0
            }
            _ => {
                self.chosen = Chosen::Palette;
                self.address = (first % 64) as u16;
                0
            }
        }
    }

    fn write_data(&mut self, video: &mut [u8], value: u8) -> u32 {
        self.command_latch = None;
        let at = self.address as usize;
        match self.chosen {
            Chosen::Nothing => 4,
            Chosen::Video => {
                if at >= VIDEO_SIZE {
                    return 7;
                }
                video[at] = value;
                self.read_buffer = value;
                self.address = ((at + 1) % VIDEO_SIZE) as u16;
                0
            }
            Chosen::Palette => {
                if at >= 64 {
                    return 7;
                }
                if at % 2 == 0 {
                    self.palette_latch = Some(value);
                } else {
                    let latched = match self.palette_latch {
                        None => return 6,
                        Some(byte) => byte,
                    };
                    if self.palette[at - 1] != latched || self.palette[at] != value % 16 {
                        self.dirty = true;
                    }
                    self.palette[at - 1] = latched;
                    self.palette[at] = value % 16;
                }
                self.address = ((at + 1) % 64) as u16;
                0
            }
        }
    }

    /// Port read (R3.8 to R3.10); answers the refusal and the byte.
    pub fn read_port(&mut self, video: &[u8], port: u16) -> (u32, u8) {
        if video.len() != VIDEO_SIZE {
            return (8, 0);
        }
        match port % 256 {
            0x7E => (0, self.counter),
            0x7F => (2, 0),
            0xBE => {
                self.command_latch = None;
                match self.chosen {
                    Chosen::Nothing => (4, 0),
                    Chosen::Palette => (5, 0),
                    Chosen::Video => {
                        let at = self.address as usize;
                        if at >= VIDEO_SIZE {
                            return (7, 0);
                        }
                        let byte = self.read_buffer;
                        self.read_buffer = video[at];
                        self.address = ((at + 1) % VIDEO_SIZE) as u16;
                        (0, byte)
                    }
                }
            }
            0xBF => {
                let byte = self.status;
                self.status = 0;
                self.command_latch = None;
                (0, byte)
            }
            _ => (1, 0),
        }
    }

    /// The counting part of a step, before the row (R4.1).
    fn count_up(&mut self) {
        self.counter = ((self.counter as u32 + 1) % 256) as u8;
        if self.counter == 0 {
            self.vertical_scroll = self.registers[9];
            self.jumped = false;
            self.line_count = if self.registers[10] == 0 { 0 } else { self.registers[10] - 1 };
        }
        if self.counter == self.table.jump_line() && !self.jumped {
            self.jumped = true;
            self.counter = 0xD5;
        }
    }

    /// The reporting part of a step, after the row (R4.3 to R4.5).
    fn report(&mut self) -> (bool, u32) {
        let mut report = NO_DISPLAY;
        if self.counter == 0xC1 {
            self.status |= 0x80;
            report = if bit(self.registers[1], 6) { SCREEN_DONE } else { SCREEN_DONE_NO_REFRESH };
        }
        let frame_interrupt = bit(self.status, 7) && bit(self.registers[1], 5);
        let line_interrupt = bit(self.registers[0], 4) && self.line_count == 0;
        if self.counter > 192 || self.line_count == 0 {
            self.line_count = self.registers[10];
        } else {
            self.line_count -= 1;
        }
        (frame_interrupt || line_interrupt, report)
    }

    /// The row step (R7.1): the row, if there is one, goes to the start of the row buffer. `Err` is the refusal.
    pub fn row_step(&mut self, video: &[u8], row: &mut [u8], area: Area, notes: &mut Notes) -> Result<Stepped, u32> {
        row_lengths(video, row, area)?;
        Ok(self.step_into(video, row, area, notes).0)
    }

    /// The row step with layers (R15.3, R15.4): those of the row, if there is one, go to the start of the layer buffer.
    pub fn layer_row_step(
        &mut self, video: &[u8], row: &mut [u8], layers: &mut [u8], area: Area, notes: &mut Notes,
    ) -> Result<Stepped, u32> {
        row_lengths(video, row, area)?;
        layers_length(layers, area)?;
        let (stepped, owners) = self.step_into(video, row, area, notes);
        layers[..owners.len()].copy_from_slice(&owners);
        Ok(stepped)
    }

    /// A step whose buffers are long enough: what it answers, and the layers of the row's columns, none where no row is drawn.
    fn step_into(&mut self, video: &[u8], row: &mut [u8], area: Area, notes: &mut Notes) -> (Stepped, Vec<u8>) {
        let mut owners = Vec::new();
        self.count_up();
        let drawn = area.row_at(self.counter);
        if let Some(number) = drawn {
            if self.dirty {
                self.cache = colours(&self.palette);
                self.dirty = false;
            }
            let picture = self.picture(video, area, number, notes);
            self.status = picture.status;
            for x in 0..area.width() {
                row[4 * x..4 * x + 4].copy_from_slice(&self.cache[picture.colour[x] as usize]);
            }
            owners.extend_from_slice(&picture.layer[..area.width()]);
        }
        let (interrupt, report) = self.report();
        (Stepped { interrupt, report, row: drawn }, owners)
    }

    /// The frame step (R7.2): the row goes to its place in the frame.
    pub fn frame_step(&mut self, video: &[u8], frame: &mut [u8], area: Area, notes: &mut Notes) -> Result<Stepped, u32> {
        frame_lengths(video, frame, area)?;
        Ok(self.step_in_frame(video, frame, area, notes).0)
    }

    /// The frame step with layers (R15.3, R15.4).
    pub fn layer_frame_step(
        &mut self, video: &[u8], frame: &mut [u8], layers: &mut [u8], area: Area, notes: &mut Notes,
    ) -> Result<Stepped, u32> {
        frame_lengths(video, frame, area)?;
        layers_length(layers, area)?;
        let (stepped, owners) = self.step_in_frame(video, frame, area, notes);
        layers[..owners.len()].copy_from_slice(&owners);
        Ok(stepped)
    }

    /// As `step_into`, with the row at its place in a frame of its area's size.
    fn step_in_frame(&mut self, video: &[u8], frame: &mut [u8], area: Area, notes: &mut Notes) -> (Stepped, Vec<u8>) {
        let mut row = [0; 1024];
        let (stepped, owners) = self.step_into(video, &mut row, area, notes);
        if let Some(number) = stepped.row {
            let at = number * area.row_size();
            frame[at..at + area.row_size()].copy_from_slice(&row[..area.row_size()]);
        }
        (stepped, owners)
    }

    /// The colour numbers of one row, the status after it (R5.1 to R5.12), and who owns its columns (R15.1, R15.2).
    fn picture(&self, video: &[u8], area: Area, row: usize, notes: &mut Notes) -> Picture {
        let mut picture = Picture { colour: [0; 256], layer: [0; 256], status: self.status };
        let mut priority = [false; 256];
        self.background(video, area, row, &mut picture, &mut priority);
        self.sprites(video, area, row, &mut picture, &priority, notes);
        picture
    }

    fn background(&self, video: &[u8], area: Area, row: usize, picture: &mut Picture, priority: &mut [bool; 256]) {
        let map = |x: usize| match area {
            Area::Visible | Area::TrueEdges => (x + 304 - self.registers[8] as usize) % 256,
            Area::Effective => x,
        };
        let map_y = match area {
            Area::Visible | Area::TrueEdges => (row + 24 + self.vertical_scroll as usize) % 224,
            Area::Effective => row,
        };
        // Pixels cut off the first tile by the scroll (R5.5).
        let cut = map(0) % 8;
        for x in 0..area.width() {
            let map_x = map(x);
            let names = (self.registers[2] & 0x0E) as usize * 1024;
            let entry = names + 2 * (32 * (map_y / 8) + map_x / 8);
            let flags = video[entry + 1];
            let tile = video[entry] as usize + if bit(flags, 0) { 256 } else { 0 };
            let across = if bit(flags, 1) { 7 - map_x % 8 } else { map_x % 8 };
            let down = if bit(flags, 2) { 7 - map_y % 8 } else { map_y % 8 };
            let code = tile_code(video, 32 * tile, down, across);
            picture.colour[x] = if bit(flags, 3) { 16 + code } else { code };
            if bit(flags, 4) && code != 0 {
                let in_first = x < 8 - cut;
                // with true edges a mark is at its own column (R18.1)
                let place = if in_first && area != Area::TrueEdges { (x + 256 - cut) % 256 } else { x };
                priority[place] = true;
            }
        }
    }

    fn sprites(&self, video: &[u8], area: Area, row: usize, picture: &mut Picture, priority: &[bool; 256], notes: &mut Notes) {
        let table = (self.registers[5] & 0x7E) as usize * 128;
        let tall = bit(self.registers[1], 1);
        let height = if tall { 16 } else { 8 };
        let patterns = if bit(self.registers[6], 2) { 8192 } else { 0 };
        let line = row + area.first_line();
        let mut mask = [false; 256];
        let mut on_line = 0;
        for n in 0..64 {
            let y = video[table + n];
            if y == 0xD0 {
                break;
            }
            let top = (y as usize + 1) % 256;
            if !(top <= line && line < top + height) {
                continue;
            }
            on_line += 1;
            if on_line == 9 {
                picture.status |= 0x40;
                break;
            }
            let x_byte = video[table + 128 + 2 * n] as usize;
            let named = video[table + 128 + 2 * n + 1] as usize;
            let down = line - top;
            let tile = match (tall, down < 8) {
                (false, _) => named,
                (true, true) => named - named % 2,
                (true, false) => named - named % 2 + 1,
            };
            let code_at = |pixel: usize| tile_code(video, patterns + 32 * tile, down % 8, pixel);
            let stand = self.stand(area, x_byte);
            let early_clock = bit(self.registers[0], 3);
            if area == Area::Visible && early_clock && (41..=48).contains(&x_byte) {
                notes.asserts = true;
            }
            let mut marks = Vec::new();
            for pixel in stand.start..stand.end {
                if code_at(pixel) == 0 {
                    continue;
                }
                if !stand.seen {
                    let place = (x_byte + pixel) % 256;
                    if mask[place] {
                        picture.status |= 0x20;
                    }
                    marks.push(place);
                    continue;
                }
                let (shown, tested, place) = if area == Area::TrueEdges {
                    match self.true_column(x_byte, pixel) {
                        Some(column) => (column, column, column),
                        None => {
                            notes.edges.cut_left |= x_byte < 56;
                            notes.edges.cut_right |= x_byte > 199;
                            continue;
                        }
                    }
                } else {
                    let column = pixel - stand.start;
                    let tested = (stand.x + 256 - stand.start + column) % 256;
                    (stand.x + column, tested, (x_byte + column) % 256)
                };
                if shown > 255 {
                    notes.past_edge = true;
                }
                let owners = &mut notes.owners;
                if priority[tested] {
                    // Of the column where it would have shown, whatever the sprite mask has; a sprite that was drawn there keeps it.
                    owners.tested_elsewhere |= tested != shown;
                    owners.held_where_met |= mask[place];
                    if shown >= area.width() {
                        owners.held_off_the_row = true;
                    } else if picture.layer[shown] == 0 {
                        picture.layer[shown] = 1;
                    } else if picture.layer[shown] != 1 {
                        owners.drawn_then_held = true;
                    }
                    continue;
                }
                if mask[place] {
                    picture.status |= 0x20;
                } else if shown > 255 {
                    notes.stray.push(shown - 256);
                } else {
                    owners.held_then_drawn |= picture.layer[shown] == 1;
                    owners.drawn_twice |= picture.layer[shown] > 1;
                    notes.edges.late |= area == Area::TrueEdges && x_byte >= 208;
                    picture.colour[shown] = 16 + code_at(pixel);
                    picture.layer[shown] = 64 + n as u8;
                }
                marks.push(place);
            }
            for place in marks {
                mask[place] = true;
            }
        }
    }

    /// Where a sprite with this X stands (R5.9, R5.10).
    fn stand(&self, area: Area, x_byte: usize) -> Stand {
        let early = if bit(self.registers[0], 3) { 8 } else { 0 };
        match area {
            Area::Visible => {
                let left = 48 + early;
                let x = x_byte.saturating_sub(left);
                Stand {
                    seen: !(x_byte <= 40 || x_byte >= 208),
                    x,
                    start: left.saturating_sub(x_byte),
                    end: if x > 160 { 8 } else { (160 - x).min(8) },
                }
            }
            Area::Effective => Stand { seen: true, x: (x_byte + 256 - early) % 256, start: 0, end: 8 },
            // each pixel by its own column
            Area::TrueEdges => Stand { seen: true, x: 0, start: 0, end: 8 },
        }
    }

    /// The screen column of a sprite's pixel with true edges, if it is on the screen (R18.2).
    fn true_column(&self, x_byte: usize, pixel: usize) -> Option<usize> {
        let early = if bit(self.registers[0], 3) { 8 } else { 0 };
        (0..160).find(|column| column + 48 + early == x_byte + pixel)
    }

    /// One pixel of the row as it would be drawn now (R16.1 to R16.3): its four bytes, if there is a pixel, or the refusal.
    pub fn pixel(&self, video: &[u8], area: Area, row: u32, column: u32) -> Result<Option<[u8; 4]>, u32> {
        if video.len() != VIDEO_SIZE {
            return Err(8);
        }
        let (row, column) = (row as usize, column as usize);
        if row >= area.height() || column >= area.width() {
            return Ok(None);
        }
        let number = self.picture(video, area, row, &mut Notes::default()).colour[column];
        Ok(Some(if self.dirty { colours(&self.palette) } else { self.cache }[number as usize]))
    }

    /// The tile dump (R5.13 to R5.15), with the cached colours as they stand; answers the refusal.
    pub fn dump(&self, video: &[u8], sheet: &mut [u8]) -> u32 {
        if video.len() != VIDEO_SIZE {
            return 8;
        }
        if sheet.len() != SHEET_SIZE {
            return 9;
        }
        dump_tiles(&self.registers, &self.cache, video, sheet);
        0
    }

    /// The state block of this device, in the version that has this size (R7.5).
    pub fn encode(&self, size: usize) -> Vec<u8> {
        let mut block = vec![0; size];
        block[0] = 0x56;
        block[1] = if size == OLD_SIZE { 0x53 } else { 0x54 };
        block[2] = self.status;
        block[3..14].copy_from_slice(&self.registers);
        block[14] = self.counter;
        block[15] = self.jumped as u8;
        block[16] = self.line_count;
        block[17] = (self.address % 256) as u8;
        block[18] = (self.address / 256) as u8;
        block[19] = self.read_buffer;
        block[20] = match self.chosen {
            Chosen::Nothing => 0,
            Chosen::Video => 1,
            Chosen::Palette => 2,
        };
        block[21] = self.command_latch.is_some() as u8;
        block[22] = self.command_latch.unwrap_or(0);
        block[23] = self.palette_latch.is_some() as u8;
        block[24] = self.palette_latch.unwrap_or(0);
        block[25] = self.vertical_scroll;
        block[26] = self.dirty as u8;
        block[27..91].copy_from_slice(&self.palette);
        for i in 0..32 {
            block[91 + 4 * i..95 + 4 * i].copy_from_slice(&self.cache[i]);
        }
        if size == BLOCK_SIZE {
            block[219] = self.table as u8;
        }
        block
    }

    /// The device of a state block, if it is well formed (R7.6).
    pub fn decode(block: &[u8]) -> Option<Device> {
        if !well_formed(block) {
            return None;
        }
        let mut device = Device::made(table_in(block)?);
        device.status = block[2];
        device.registers.copy_from_slice(&block[3..14]);
        device.counter = block[14];
        device.jumped = block[15] == 1;
        device.line_count = block[16];
        device.address = block[17] as u16 + 256 * block[18] as u16;
        device.read_buffer = block[19];
        device.chosen = match block[20] {
            0 => Chosen::Nothing,
            1 => Chosen::Video,
            _ => Chosen::Palette,
        };
        device.command_latch = if block[21] == 1 { Some(block[22]) } else { None };
        device.palette_latch = if block[23] == 1 { Some(block[24]) } else { None };
        device.vertical_scroll = block[25];
        device.dirty = block[26] == 1;
        device.palette.copy_from_slice(&block[27..91]);
        for i in 0..32 {
            device.cache[i].copy_from_slice(&block[91 + 4 * i..95 + 4 * i]);
        }
        Some(device)
    }
}

struct Picture {
    colour: [u8; 256],
    layer: [u8; 256],
    status: u8,
}

/// The refusals of a row step by its lengths (R7.1).
fn row_lengths(video: &[u8], row: &[u8], area: Area) -> Result<(), u32> {
    if video.len() != VIDEO_SIZE {
        Err(8)
    } else if row.len() < area.row_size() {
        Err(9)
    } else {
        Ok(())
    }
}

/// Of a frame step (R7.2).
fn frame_lengths(video: &[u8], frame: &[u8], area: Area) -> Result<(), u32> {
    if video.len() != VIDEO_SIZE {
        Err(8)
    } else if frame.len() < area.frame_size() {
        Err(9)
    } else if frame.len() > area.frame_size() {
        Err(12)
    } else {
        Ok(())
    }
}

/// And what comes last in a step with layers (R15.4).
fn layers_length(layers: &[u8], area: Area) -> Result<(), u32> {
    if layers.len() < area.width() {
        Err(16)
    } else {
        Ok(())
    }
}

struct Stand {
    seen: bool,
    x: usize,
    start: usize,
    end: usize,
}

fn bit(byte: u8, k: u32) -> bool {
    byte / 2u8.pow(k) % 2 == 1
}

/// The code 0 to 15 of one pixel of the tile at this address (R5.3): a bit of each of four bytes, the leftmost pixel at bit 7.
pub fn tile_code(video: &[u8], tile: usize, down: usize, across: usize) -> u8 {
    let mut code = 0;
    for plane in 0..4 {
        if video[tile + 4 * down + plane] >> (7 - across) & 1 == 1 {
            code += 1 << plane;
        }
    }
    code
}

/// The tiles in a sheet of its own size, with these colours (R5.13, R5.14).
pub fn dump_tiles(registers: &[u8; 11], cache: &[[u8; 4]; 32], video: &[u8], sheet: &mut [u8]) {
    for c in 0..512 {
        let as_sprite = c >= 256;
        let (column, row) = if as_sprite && bit(registers[1], 1) {
            ((c % 32) / 2, 2 * (c / 32) + c % 2)
        } else {
            (c % 16, c / 16)
        };
        let patterns = if as_sprite && bit(registers[6], 2) { 8192 } else { 0 };
        for down in 0..8 {
            for across in 0..8 {
                let code = tile_code(video, patterns + 32 * (c % 256), down, across);
                if as_sprite && code == 0 {
                    continue;
                }
                let colour = if as_sprite { 16 + code } else { code };
                let at = 4 * (128 * (8 * row + down) + 8 * column + across);
                sheet[at..at + 4].copy_from_slice(&cache[colour as usize]);
            }
        }
    }
}

/// The 32 colours of a palette (R4.6).
pub fn colours(palette: &[u8; 64]) -> [[u8; 4]; 32] {
    let mut all = [[0; 4]; 32];
    for i in 0..32 {
        let (a, b) = (palette[2 * i], palette[2 * i + 1]);
        all[i] = [17 * (a % 16), 17 * (a / 16), 17 * (b % 16), 255];
    }
    all
}

/// The table of a block, by its length, mark and last byte; none where they do not fit each other.
fn table_in(block: &[u8]) -> Option<Table> {
    match (block.len(), block.get(1)) {
        (OLD_SIZE, Some(0x53)) => Some(Table::Steps261),
        (BLOCK_SIZE, Some(0x54)) => Table::from_number(block[219]),
        _ => None,
    }
}

/// R7.6.
pub fn well_formed(block: &[u8]) -> bool {
    table_in(block).is_some()
        && block[0] == 0x56
        && block[15] <= 1
        && block[20] <= 2
        && block[21] <= 1
        && block[23] <= 1
        && block[26] <= 1
        && (block[21] == 1 || block[22] == 0)
        && (block[23] == 1 || block[24] == 0)
}

/// The bytes of a row as a part of the frame (R7.3); empty if there is no such row or the frame has another length.
pub fn row_view(frame: &[u8], area: Area, row: usize) -> &[u8] {
    if row >= area.height() || frame.len() != area.frame_size() {
        return &frame[0..0];
    }
    &frame[row * area.row_size()..(row + 1) * area.row_size()]
}

/// The answer word of a step (R7.7).
pub fn step_word(answer: Result<Stepped, u32>) -> u32 {
    match answer {
        Err(refusal) => refusal,
        Ok(stepped) => {
            let row = match stepped.row {
                None => 0,
                Some(number) => (number as u32) << 16 | 1 << 24,
            };
            (stepped.interrupt as u32) << 8 | stepped.report << 9 | row
        }
    }
}

// The calls of the C face, over the block; each writes a block back in the version that it was given.

pub fn vdp_new(state: &mut [u8]) -> u32 {
    vdp_new_table(state, DEFAULT_TABLE as u8)
}

pub fn vdp_new_table(state: &mut [u8], table: u8) -> u32 {
    let size = state.len();
    let table = match (table, size) {
        (0, OLD_SIZE) | (0, BLOCK_SIZE) => Table::Steps261,
        (1, BLOCK_SIZE) => Table::Steps262,
        _ => return 10,
    };
    state.copy_from_slice(&Device::made(table).encode(size));
    0
}

pub fn vdp_out(state: &mut [u8], video: &mut [u8], port: u16, value: u8) -> u32 {
    let mut device = match Device::decode(state) {
        None => return 10,
        Some(device) => device,
    };
    let refusal = device.write_port(video, port, value);
    state.copy_from_slice(&device.encode(state.len()));
    refusal
}

pub fn vdp_input(state: &mut [u8], video: &[u8], port: u16) -> u32 {
    let mut device = match Device::decode(state) {
        None => return 10,
        Some(device) => device,
    };
    let (refusal, byte) = device.read_port(video, port);
    state.copy_from_slice(&device.encode(state.len()));
    refusal | (byte as u32) << 8
}

/// A step over the block: first the block is read, then the area's number, then `step` is made.
fn stepped(state: &mut [u8], area: u8, step: impl FnOnce(&mut Device, Area) -> Result<Stepped, u32>) -> u32 {
    let mut device = match Device::decode(state) {
        None => return 10,
        Some(device) => device,
    };
    let area = match Area::from_number(area) {
        None => return 11,
        Some(area) => area,
    };
    let answer = step(&mut device, area);
    state.copy_from_slice(&device.encode(state.len()));
    step_word(answer)
}

pub fn vdp_step(state: &mut [u8], video: &[u8], frame: &mut [u8], area: u8, notes: &mut Notes) -> u32 {
    stepped(state, area, |device, area| device.frame_step(video, frame, area, notes))
}

pub fn vdp_row_step(state: &mut [u8], video: &[u8], row: &mut [u8], area: u8, notes: &mut Notes) -> u32 {
    stepped(state, area, |device, area| device.row_step(video, row, area, notes))
}

pub fn vdp_layer_step(state: &mut [u8], video: &[u8], frame: &mut [u8], layers: &mut [u8], area: u8, notes: &mut Notes) -> u32 {
    stepped(state, area, |device, area| device.layer_frame_step(video, frame, layers, area, notes))
}

pub fn vdp_layer_row_step(state: &mut [u8], video: &[u8], row: &mut [u8], layers: &mut [u8], area: u8, notes: &mut Notes) -> u32 {
    stepped(state, area, |device, area| device.layer_row_step(video, row, layers, area, notes))
}

pub fn vdp_dump_tileset(state: &[u8], video: &[u8], sheet: &mut [u8]) -> u32 {
    match Device::decode(state) {
        None => 10,
        Some(device) => device.dump(video, sheet),
    }
}

/// One pixel over the block (R16.6).
pub fn vdp_pixel(state: &[u8], video: &[u8], area: u8, row: u32, column: u32) -> u64 {
    let device = match Device::decode(state) {
        None => return 10,
        Some(device) => device,
    };
    let area = match Area::from_number(area) {
        None => return 11,
        Some(area) => area,
    };
    match device.pixel(video, area, row, column) {
        Err(refusal) => refusal as u64,
        Ok(None) => 0,
        Ok(Some(bytes)) => 1 << 24 | (u32::from_le_bytes(bytes) as u64) << 32,
    }
}
