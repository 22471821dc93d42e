//! The video chip for the player, over the C face of libvdp.a (include/vdp.h): this file takes the place of the player's own src/vdp.rs.
//! The public names are the same, and the player has libvdp.a in it (README.md beside this file says how to build it). What differs:
//! - No call stops the player. What the library refuses is refused by a number (docs/RULES.md, R2.1), and `last_refusal` tells the one
//!   of the last call, 0 where it was accepted.
//! - A refused port call is an error with a text; so are those at which the file before panicked (horizontal counter, register above
//!   10, half a colour).
//! - A refused `step` answers no interrupt and no display report and moves nothing; a refused `dump_tileset` leaves the sheet. That is
//!   so where the buffer has a wrong length, for a step on every line, and not only on one that it draws. A frame is exactly
//!   160 x 144 (or 256 x 224) x 4 bytes, the tile sheet exactly 131,072.
//! - `Vdp::new` goes by the line table of the counter chart, 262 steps to a pass; `Vdp::with_table(0)` by the one of the file before, 261.
//! - New: `start_recording` records what is asked of the chip, and `take_recording` hands over a trace that build/bin/trace runs
//!   (docs/TRACES.md); `save` and `load` keep a device and bring it back, and `Save::repair` mends a damaged one (docs/SAVES.md); `layer_step`
//!   tells what owns each pixel of the row, and `pixel` the colour of one, for a debugger.
//! - A sprite at X 41 to 48 under the early clock no longer stops the player, and nothing is drawn past the right edge.

use crate::io;
use std::cell::{Cell, RefCell};

pub const GG_VISIBLE_PIXEL_HEIGHT: usize = 144;
pub const GG_VISIBLE_PIXEL_WIDTH: usize = 160;

const BLOCK_SIZE: usize = 220;
const VRAM_SIZE: usize = 16 * 1024;
const LIST_SIZE: usize = 220;

/// The longest recording that the trace programs run.
pub const LONGEST_RECORDING: usize = 65_535;

// A slice is a pointer and a length. The answer has the refusal in its low byte.
#[link(name = "vdp", kind = "static")]
extern "C" {
    fn vdp_new(state: *mut u8, state_len: usize) -> u32;
    fn vdp_new_table(state: *mut u8, state_len: usize, table: u8) -> u32;
    fn vdp_out(state: *mut u8, state_len: usize, vram: *mut u8, vram_len: usize, port: u16, value: u8) -> u32;
    fn vdp_input(state: *mut u8, state_len: usize, vram: *const u8, vram_len: usize, port: u16) -> u32;
    fn vdp_step(
        state: *mut u8,
        state_len: usize,
        vram: *const u8,
        vram_len: usize,
        frame: *mut u8,
        frame_len: usize,
        area: u8,
    ) -> u32;
    fn vdp_dump_tileset(
        state: *const u8,
        state_len: usize,
        vram: *const u8,
        vram_len: usize,
        pixels: *mut u8,
        pixels_len: usize,
    ) -> u32;
    fn vdp_layer_step(
        state: *mut u8,
        state_len: usize,
        vram: *const u8,
        vram_len: usize,
        frame: *mut u8,
        frame_len: usize,
        layers: *mut u8,
        layers_len: usize,
        area: u8,
    ) -> u32;
    fn vdp_pixel(
        state: *const u8,
        state_len: usize,
        vram: *const u8,
        vram_len: usize,
        area: u8,
        row: u32,
        column: u32,
    ) -> u64;
    fn vdp_repair(block: *mut u8, block_len: usize, list: *mut u8, list_len: usize) -> u32;
    fn vdp_record_out(recording: *mut u8, recording_len: usize, used: usize, port: u8, value: u8) -> u32;
    fn vdp_record_input(recording: *mut u8, recording_len: usize, used: usize, port: u8) -> u32;
    fn vdp_record_step(recording: *mut u8, recording_len: usize, used: usize, area: u8) -> u32;
}

#[derive(Debug, Clone, Copy)]
pub enum RenderArea {
    VisibleOnly,
    EffectiveArea,
    /// An addition of ours: the visible part with its edges by true columns.
    TrueEdges,
}

#[derive(Debug)]
pub enum VdpInt {
    NoInterrupt,
    InterruptGenerated,
}

#[derive(Debug)]
pub enum DisplayRefresh {
    NoDisplay,
    ScreenDone,
    ScreenDoneNoRefresh,
}

impl RenderArea {
    /// Its number in the C face.
    fn number(self) -> u8 {
        match self {
            RenderArea::VisibleOnly => 0,
            RenderArea::EffectiveArea => 1,
            RenderArea::TrueEdges => 2,
        }
    }
}

/// A device as it stands, to be kept in a file: its state block of 220 bytes, or 219 of the first version, and its video memory of 16,384. It is also what
/// the library is lent at each call.
#[derive(Debug, Clone, PartialEq, Eq)]
pub struct Save {
    pub block: Vec<u8>,
    pub vram: Vec<u8>,
}

impl Save {
    fn zeros() -> Self {
        Save { block: vec![0; BLOCK_SIZE], vram: vec![0; VRAM_SIZE] }
    }

    /// Mends a damaged block, and answers the offsets of the bytes that have changed; one whose length is no block's is refused by 10, and stays.
    pub fn repair(&mut self) -> Result<Vec<u8>, u8> {
        let mut list = vec![0; LIST_SIZE];
        // Sound: two live slices that do not overlap.
        let answer = unsafe { vdp_repair(self.block.as_mut_ptr(), self.block.len(), list.as_mut_ptr(), list.len()) };
        list.truncate((answer >> 8 & 0xFF) as usize);
        match refusal(answer) {
            0 => Ok(list),
            number => Err(number),
        }
    }
}

/// What was asked of the chip since recording was switched on, as a trace.
#[derive(Debug, Clone, PartialEq, Eq)]
pub struct Recording {
    /// The records, one behind the other.
    pub bytes: Vec<u8>,
    /// Whether all that was asked is there; where it is not, the recording ends before the first call that had no room, or before a save was loaded.
    pub whole: bool,
}

/// A recording under way: its buffer, and how much of it is used.
#[derive(Debug)]
struct Recorder {
    buffer: Vec<u8>,
    used: usize,
    whole: bool,
}

impl Recorder {
    /// A record into the rest of the buffer. One that has no room ends the recording: those behind it would be out of their place.
    fn put(&mut self, record: impl FnOnce(*mut u8, usize, usize) -> u32) {
        if !self.whole {
            return;
        }
        let answer = record(self.buffer.as_mut_ptr(), self.buffer.len(), self.used);
        self.used += (answer >> 8 & 0xFF) as usize;
        self.whole = refusal(answer) == 0;
    }
}

#[derive(Debug)]
pub struct Vdp {
    lent: RefCell<Save>,
    refused: Cell<u8>,
    recorder: RefCell<Option<Recorder>>,
}

impl Vdp {
    pub fn new() -> Self {
        let mut lent = Save::zeros();
        // Sound: the block is live, and as long as we say.
        let answer = unsafe { vdp_new(lent.block.as_mut_ptr(), lent.block.len()) };
        Vdp { lent: RefCell::new(lent), refused: Cell::new(refusal(answer)), recorder: RefCell::new(None) }
    }

    /// A device that goes by this line table: 0, whose pass has 261 steps, or 1, the chart's, of 262; there is no other.
    pub fn with_table(table: u8) -> Option<Self> {
        let mut lent = Save::zeros();
        // Sound: the block is live, and as long as we say.
        let answer = unsafe { vdp_new_table(lent.block.as_mut_ptr(), lent.block.len(), table) };
        match refusal(answer) {
            0 => Some(Vdp { lent: RefCell::new(lent), refused: Cell::new(0), recorder: RefCell::new(None) }),
            _ => None,
        }
    }

    /// The number by which the last call was refused; 0 where it was accepted.
    pub fn last_refusal(&self) -> u8 {
        self.refused.get()
    }

    /// Switches recording on, with a buffer of so many bytes; what was recorded before is dropped. From now on every port call, refused or not, and
    /// every step that is not refused is a record (a refused step moves nothing, and a trace has no frame of a wrong length). Right after the device
    /// was made, the recording is a trace of it: `trace` and `snapshot` run one of table 1, `trace-261` and `snapshot-261` one of table 0.
    pub fn start_recording(&self, room: usize) {
        *self.recorder.borrow_mut() = Some(Recorder { buffer: vec![0; room], used: 0, whole: true });
    }

    /// Switches recording off, and hands over what was recorded; nothing where it was not on.
    pub fn take_recording(&self) -> Option<Recording> {
        self.recorder.borrow_mut().take().map(|recorder| {
            let mut bytes = recorder.buffer;
            bytes.truncate(recorder.used);
            Recording { bytes, whole: recorder.whole }
        })
    }

    /// Puts a call behind those that were recorded, where recording is on.
    fn record(&self, record: impl FnOnce(*mut u8, usize, usize) -> u32) {
        if let Some(recorder) = self.recorder.borrow_mut().as_mut() {
            recorder.put(record);
        }
    }

    /// The device as it stands. It goes on.
    pub fn save(&self) -> Save {
        self.lent.borrow().clone()
    }

    /// Goes on from a save. One that no call would take is refused, by 10 where its block is malformed (`Save::repair` mends it) and by 8 where its video
    /// memory has not 16,384 bytes, and then the device stays. A recording that is on ends before it: a trace begins with a fresh device.
    pub fn load(&self, save: &Save) -> Result<(), u8> {
        // Sound: two live slices. The question for a pixel changes nothing, and is refused where the block or the video memory is no good.
        let answer = unsafe {
            vdp_pixel(save.block.as_ptr(), save.block.len(), save.vram.as_ptr(), save.vram.len(), 0, 0, 0)
        };
        self.refused.set(refusal(answer as u32));
        if self.last_refusal() != 0 {
            return Err(self.last_refusal());
        }
        *self.lent.borrow_mut() = save.clone();
        if let Some(recorder) = self.recorder.borrow_mut().as_mut() {
            recorder.whole = false;
        }
        Ok(())
    }

    /// One line: draws its row in the frame, if it has one. Refused, it does and reports nothing.
    pub fn step(&self, pixels: &mut [u8], render_area: RenderArea) -> (VdpInt, DisplayRefresh) {
        let mut lent = self.lent.borrow_mut();
        let lent = &mut *lent;
        let area = render_area.number();
        // Sound: three live slices that do not overlap.
        let answer = unsafe {
            vdp_step(
                lent.block.as_mut_ptr(),
                lent.block.len(),
                lent.vram.as_ptr(),
                lent.vram.len(),
                pixels.as_mut_ptr(),
                pixels.len(),
                area,
            )
        };
        self.stepped(answer, area)
    }

    /// The same line, with the layers of its row at the start of `layers` (at least 160 or 256 bytes): 0 background, 1 background that holds a sprite back,
    /// 64 + n sprite n. Answers also the row that was drawn, if one was.
    pub fn layer_step(
        &self,
        pixels: &mut [u8],
        layers: &mut [u8],
        render_area: RenderArea,
    ) -> (VdpInt, DisplayRefresh, Option<u8>) {
        let mut lent = self.lent.borrow_mut();
        let lent = &mut *lent;
        let area = render_area.number();
        // Sound: four live slices that do not overlap.
        let answer = unsafe {
            vdp_layer_step(
                lent.block.as_mut_ptr(),
                lent.block.len(),
                lent.vram.as_ptr(),
                lent.vram.len(),
                pixels.as_mut_ptr(),
                pixels.len(),
                layers.as_mut_ptr(),
                layers.len(),
                area,
            )
        };
        let (interrupt, refresh) = self.stepped(answer, area);
        (interrupt, refresh, if answer >> 24 & 1 == 1 { Some((answer >> 16) as u8) } else { None })
    }

    /// What a step answered, kept and recorded. A refused step's answer has no bit but those of its refusal.
    fn stepped(&self, answer: u32, area: u8) -> (VdpInt, DisplayRefresh) {
        self.refused.set(refusal(answer));
        if refusal(answer) == 0 {
            // Sound: one live slice.
            self.record(|at, len, used| unsafe { vdp_record_step(at, len, used, area) });
        }
        let interrupt = if answer >> 8 & 1 == 1 { VdpInt::InterruptGenerated } else { VdpInt::NoInterrupt };
        let refresh = match answer >> 9 & 3 {
            0 => DisplayRefresh::NoDisplay,
            1 => DisplayRefresh::ScreenDone,
            _ => DisplayRefresh::ScreenDoneNoRefresh,
        };
        (interrupt, refresh)
    }

    /// Red, green, blue and 255 of one pixel, as its row would be drawn now; nothing where the area has no such pixel. Nothing changes.
    pub fn pixel(&self, render_area: RenderArea, row: u32, column: u32) -> Option<[u8; 4]> {
        let lent = self.lent.borrow();
        // Sound: two live slices.
        let answer = unsafe {
            vdp_pixel(
                lent.block.as_ptr(),
                lent.block.len(),
                lent.vram.as_ptr(),
                lent.vram.len(),
                render_area.number(),
                row,
                column,
            )
        };
        self.refused.set(refusal(answer as u32));
        if answer >> 24 & 1 == 1 {
            Some(((answer >> 32) as u32).to_le_bytes())
        } else {
            None
        }
    }

    /// Draws all tiles, as background and as sprites, on a sheet of 128 x 256 pixels; refused, it leaves the sheet.
    pub fn dump_tileset(&self, pixels: &mut [u8]) {
        let lent = self.lent.borrow();
        // Sound: three live slices that do not overlap.
        let answer = unsafe {
            vdp_dump_tileset(
                lent.block.as_ptr(),
                lent.block.len(),
                lent.vram.as_ptr(),
                lent.vram.len(),
                pixels.as_mut_ptr(),
                pixels.len(),
            )
        };
        self.refused.set(refusal(answer));
    }
}

impl io::Device for Vdp {
    fn out(&self, addr: u16, val: u8, _: u32) -> Result<(), String> {
        let mut lent = self.lent.borrow_mut();
        let lent = &mut *lent;
        // Sound: two live slices that do not overlap.
        let answer = unsafe {
            vdp_out(lent.block.as_mut_ptr(), lent.block.len(), lent.vram.as_mut_ptr(), lent.vram.len(), addr, val)
        };
        self.refused.set(refusal(answer));
        // Sound: one live slice. Only the low byte of a port counts.
        self.record(|at, len, used| unsafe { vdp_record_out(at, len, used, addr as u8, val) });
        match refusal(answer) {
            0 => Ok(()),
            number => Err(format!("VDP write of {:02X} to port {:04X}: {}", val, addr, refusal_text(number))),
        }
    }

    fn input(&self, addr: u16, _: u32) -> Result<u8, String> {
        let mut lent = self.lent.borrow_mut();
        let lent = &mut *lent;
        // Sound: two live slices that do not overlap.
        let answer =
            unsafe { vdp_input(lent.block.as_mut_ptr(), lent.block.len(), lent.vram.as_ptr(), lent.vram.len(), addr) };
        self.refused.set(refusal(answer));
        // Sound: one live slice.
        self.record(|at, len, used| unsafe { vdp_record_input(at, len, used, addr as u8) });
        match refusal(answer) {
            0 => Ok((answer >> 8) as u8),
            number => Err(format!("VDP read of port {:04X}: {}", addr, refusal_text(number))),
        }
    }
}

impl Default for Vdp {
    fn default() -> Self {
        Self::new()
    }
}

/// The refusal of an answer, by its number.
fn refusal(answer: u32) -> u8 {
    answer as u8
}

/// A refusal in words, as `vdp_refusal_text` of include/vdp.h has them.
pub fn refusal_text(number: u8) -> &'static str {
    match number {
        0 => "accepted",
        1 => "unknown port",
        2 => "the horizontal counter is not there",
        3 => "no such register",
        4 => "no memory chosen yet",
        5 => "the palette cannot be read",
        6 => "second half of a colour without the first",
        7 => "address outside the chosen memory",
        8 => "video memory of a wrong length",
        9 => "pixel buffer of a wrong length",
        10 => "malformed state block",
        11 => "unknown area",
        12 => "frame too long",
        13 => "no such tile",
        14 => "not the codes of one tile",
        15 => "a code above 15",
        16 => "layer buffer too short",
        17 => "list of a repair too short",
        18 => "no room for the record",
        _ => "unknown refusal",
    }
}
