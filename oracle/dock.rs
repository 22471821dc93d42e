//! The home machine's calls for C (include/vdp.h) a second time: a home block of 186 bytes, and the ten calls on it, over the machine of home.rs. Total: every
//! call ends, for any bytes and lengths, and a refused one leaves all but the command latch.

use crate::home::{Home, Met, HEIGHT, WIDTH};
use crate::model::{step_word, Chosen, Stepped, Table, DEFAULT_TABLE, SHEET_SIZE, VIDEO_SIZE};

pub const BLOCK_SIZE: usize = 186;
pub const ROW_SIZE: usize = 4 * WIDTH;
pub const FRAME_SIZE: usize = ROW_SIZE * HEIGHT;

/// Whether these bytes are a home block: its length, its mark, flags, dirty and table of 0 or 1, a memory that there is, no byte under an empty latch.
pub fn well_formed(block: &[u8]) -> bool {
    block.len() == BLOCK_SIZE
        && block[0] == 0x56
        && block[1] == 0x48
        && block[15] <= 1
        && block[20] <= 2
        && block[21] <= 1
        && block[24] <= 1
        && block[25] <= 1
        && (block[21] == 1 || block[22] == 0)
}

/// The home block of a device.
pub fn encode(home: &Home) -> Vec<u8> {
    let mut block = vec![0; BLOCK_SIZE];
    block[0] = 0x56;
    block[1] = 0x48;
    block[2] = home.status;
    block[3..14].copy_from_slice(&home.registers);
    block[14] = home.counter;
    block[15] = home.jumped as u8;
    block[16] = home.line_count;
    block[17] = (home.address % 256) as u8;
    block[18] = (home.address / 256) as u8;
    block[19] = home.read_buffer;
    block[20] = match home.chosen {
        Chosen::Nothing => 0,
        Chosen::Video => 1,
        Chosen::Palette => 2,
    };
    block[21] = home.command_latch.is_some() as u8;
    block[22] = home.command_latch.unwrap_or(0);
    block[23] = home.vertical_scroll;
    block[24] = home.dirty as u8;
    block[25] = home.table as u8;
    block[26..58].copy_from_slice(&home.palette);
    for (n, colour) in home.cache.iter().enumerate() {
        block[58 + 4 * n..62 + 4 * n].copy_from_slice(colour);
    }
    block
}

/// The device of a home block, if it is well formed.
pub fn decode(block: &[u8]) -> Option<Home> {
    if !well_formed(block) {
        return None;
    }
    let mut home = Home::made(Table::from_number(block[25])?);
    home.status = block[2];
    home.registers.copy_from_slice(&block[3..14]);
    home.counter = block[14];
    home.jumped = block[15] == 1;
    home.line_count = block[16];
    home.address = block[17] as u16 + 256 * block[18] as u16;
    home.read_buffer = block[19];
    home.chosen = match block[20] {
        0 => Chosen::Nothing,
        1 => Chosen::Video,
        _ => Chosen::Palette,
    };
    home.command_latch = if block[21] == 1 { Some(block[22]) } else { None };
    home.vertical_scroll = block[23];
    home.dirty = block[24] == 1;
    home.palette.copy_from_slice(&block[26..58]);
    for (n, colour) in home.cache.iter_mut().enumerate() {
        colour.copy_from_slice(&block[58 + 4 * n..62 + 4 * n]);
    }
    Some(home)
}

pub fn vdp_home_new(state: &mut [u8]) -> u32 {
    vdp_home_new_table(state, DEFAULT_TABLE as u8)
}

pub fn vdp_home_new_table(state: &mut [u8], table: u8) -> u32 {
    match Table::from_number(table) {
        Some(table) if state.len() == BLOCK_SIZE => state.copy_from_slice(&encode(&Home::made(table))),
        _ => return 10,
    }
    0
}

/// A call that may change the device: the block is read, then video memory's length is tested, then `make` is made of them.
fn called(state: &mut [u8], video_len: usize, make: impl FnOnce(&mut Home) -> u32) -> u32 {
    let mut home = match decode(state) {
        None => return 10,
        Some(home) => home,
    };
    if video_len != VIDEO_SIZE {
        return 8;
    }
    let word = make(&mut home);
    state.copy_from_slice(&encode(&home));
    word
}

pub fn vdp_home_out(state: &mut [u8], video: &mut [u8], port: u16, value: u8, met: &mut Met) -> u32 {
    called(state, video.len(), |home| {
        let refusal = home.write_port(video, (port % 256) as u8, value, met);
        met.answered(refusal);
        refusal
    })
}

pub fn vdp_home_input(state: &mut [u8], video: &[u8], port: u16, met: &mut Met) -> u32 {
    called(state, video.len(), |home| {
        let (refusal, byte) = home.read_port(video, (port % 256) as u8, met);
        met.answered(refusal);
        refusal | (byte as u32) << 8
    })
}

/// A step on a frame, or on a row where `whole` is false; with layers, or with none.
fn step(state: &mut [u8], video: &[u8], pixels: &mut [u8], whole: bool, layers: Option<&mut [u8]>, met: &mut Met) -> u32 {
    called(state, video.len(), |home| {
        if pixels.len() < if whole { FRAME_SIZE } else { ROW_SIZE } {
            return 9;
        }
        if whole && pixels.len() > FRAME_SIZE {
            return 12;
        }
        if layers.as_ref().map_or(false, |layers| layers.len() < WIDTH) {
            return 16;
        }
        let (mut row, mut owners) = ([0; ROW_SIZE], [0; WIDTH]);
        let stepped: Stepped = home.step(video, &mut row, &mut owners, met);
        if let Some(y) = stepped.row {
            let at = if whole { ROW_SIZE * y } else { 0 };
            pixels[at..at + ROW_SIZE].copy_from_slice(&row);
            if let Some(layers) = layers {
                layers[..WIDTH].copy_from_slice(&owners);
            }
        }
        step_word(Ok(stepped))
    })
}

pub fn vdp_home_step(state: &mut [u8], video: &[u8], frame: &mut [u8], met: &mut Met) -> u32 {
    step(state, video, frame, true, None, met)
}

pub fn vdp_home_row_step(state: &mut [u8], video: &[u8], row: &mut [u8], met: &mut Met) -> u32 {
    step(state, video, row, false, None, met)
}

pub fn vdp_home_layer_step(state: &mut [u8], video: &[u8], frame: &mut [u8], layers: &mut [u8], met: &mut Met) -> u32 {
    step(state, video, frame, true, Some(layers), met)
}

pub fn vdp_home_layer_row_step(state: &mut [u8], video: &[u8], row: &mut [u8], layers: &mut [u8], met: &mut Met) -> u32 {
    step(state, video, row, false, Some(layers), met)
}

/// One pixel over the block, packed as R16.6 has it.
pub fn vdp_home_pixel(state: &[u8], video: &[u8], row: u32, column: u32) -> u64 {
    let home = match decode(state) {
        None => return 10,
        Some(home) => home,
    };
    if video.len() != VIDEO_SIZE {
        return 8;
    }
    if row as usize >= HEIGHT || column as usize >= WIDTH {
        return 0;
    }
    let (bytes, _) = home.pixel(video, row as usize, column as usize);
    1 << 24 | (u32::from_le_bytes(bytes) as u64) << 32
}

pub fn vdp_home_dump_tileset(state: &[u8], video: &[u8], sheet: &mut [u8]) -> u32 {
    let home = match decode(state) {
        None => return 10,
        Some(home) => home,
    };
    if video.len() != VIDEO_SIZE {
        return 8;
    }
    if sheet.len() != SHEET_SIZE {
        return 9;
    }
    home.dump(video, sheet);
    0
}
