//! How many bytes of video memory a call has to fetch, counted from the rules (R11.12): two bytes of its entry and four of its line for each
//! tile of the background that is in the row; the Y bytes down to the one that ends the list, or to the ninth sprite on the line; two bytes of
//! the table and four of its line for each of the first eight. Each of them once; where each costs a turn of a bus, this is the least.

use crate::call::{Call, Kind};
use crate::dock;
use crate::home::{Home, Met, WIDTH};
use crate::model::{self, Area, Device, Notes};

/// Does the call by the rules, and answers how many bytes of video memory it has to fetch.
pub fn of_call(call: &Call, block: &mut [u8], video: &mut [u8]) -> usize {
    let before = Device::decode(block);
    let mut pixels = vec![0; call.pixels_len];
    let mut layers = vec![0; call.layers_len.unwrap_or(0)];
    let mut notes = Notes::default();
    // Layers are told by what the row needs anyway.
    let word = match call.kind {
        Kind::New => model::vdp_new(block),
        Kind::NewTable => model::vdp_new_table(block, call.value),
        Kind::Out => model::vdp_out(block, video, call.port, call.value),
        Kind::Input => model::vdp_input(block, video, call.port),
        Kind::Step if call.layers_len.is_some() => model::vdp_layer_step(block, video, &mut pixels, &mut layers, call.value, &mut notes),
        Kind::RowStep if call.layers_len.is_some() => model::vdp_layer_row_step(block, video, &mut pixels, &mut layers, call.value, &mut notes),
        Kind::Step => model::vdp_step(block, video, &mut pixels, call.value, &mut notes),
        Kind::RowStep => model::vdp_row_step(block, video, &mut pixels, call.value, &mut notes),
        Kind::Dump => model::vdp_dump_tileset(block, video, &mut pixels),
    };
    let device = match before {
        Some(device) if word % 256 == 0 => device,
        _ => return 0,
    };
    match call.kind {
        Kind::New | Kind::NewTable => 0,
        // the second byte of a command loads the read buffer, or does not; a data read does
        Kind::Out => (call.port % 256 == 0xBF && device.command_latch.is_some() && call.value / 64 == 0) as usize,
        Kind::Input => (call.port % 256 == 0xBE) as usize,
        Kind::Step | Kind::RowStep => match Area::from_number(call.value) {
            Some(area) if word >> 24 & 1 == 1 => of_row(&device, video, area, (word >> 16 & 0xFF) as usize),
            _ => 0,
        },
        // 512 tiles of eight lines
        Kind::Dump => 512 * 8 * 4,
    }
}

/// The same of a call on a home block.
pub fn of_home_call(call: &Call, block: &mut [u8], video: &mut [u8]) -> usize {
    let before = dock::decode(block);
    let mut pixels = vec![0; call.pixels_len];
    let mut layers = vec![0; call.layers_len.unwrap_or(0)];
    let met = &mut Met::nothing();
    let word = match call.kind {
        Kind::New => dock::vdp_home_new(block),
        Kind::NewTable => dock::vdp_home_new_table(block, call.value),
        Kind::Out => dock::vdp_home_out(block, video, call.port, call.value, met),
        Kind::Input => dock::vdp_home_input(block, video, call.port, met),
        Kind::Step if call.layers_len.is_some() => dock::vdp_home_layer_step(block, video, &mut pixels, &mut layers, met),
        Kind::RowStep if call.layers_len.is_some() => dock::vdp_home_layer_row_step(block, video, &mut pixels, &mut layers, met),
        Kind::Step => dock::vdp_home_step(block, video, &mut pixels, met),
        Kind::RowStep => dock::vdp_home_row_step(block, video, &mut pixels, met),
        Kind::Dump => dock::vdp_home_dump_tileset(block, video, &mut pixels),
    };
    let home = match before {
        Some(home) if word % 256 == 0 => home,
        _ => return 0,
    };
    match call.kind {
        Kind::New | Kind::NewTable => 0,
        Kind::Out => (call.port % 256 == 0xBF && home.command_latch.is_some() && call.value / 64 == 0) as usize,
        Kind::Input => (call.port % 256 == 0xBE) as usize,
        Kind::Step | Kind::RowStep if word >> 24 & 1 == 1 => of_home_row(&home, video, (word >> 16 & 0xFF) as usize),
        Kind::Step | Kind::RowStep => 0,
        Kind::Dump => 512 * 8 * 4,
    }
}

/// Of one row of the home machine: a tile begins at the row's first column, wherever the map's x is a multiple of eight, and at column 192, from which on the row
/// may show another line of the map (R20.4, R20.5): a tile that column 192 cuts is counted on either side of it. Under the fill tiles and sprites go on.
fn of_home_row(home: &Home, video: &[u8], row: usize) -> usize {
    let stopped = home.registers[0] & 0x40 != 0 && row < 16;
    let scroll = if stopped { 0 } else { home.registers[8] as usize };
    let tiles = (0..WIDTH).filter(|x| *x == 0 || *x == 192 || (x + 256 - scroll) % 8 == 0).count();
    (2 + 4) * tiles + of_list(&home.registers, video, row)
}

/// Of one row.
fn of_row(device: &Device, video: &[u8], area: Area, row: usize) -> usize {
    of_background(device, area) + of_list(&device.registers, video, row + area.first_line())
}

/// A tile begins at the row's first column, and wherever the map's x is a multiple of eight (R5.1, R5.2).
fn of_background(device: &Device, area: Area) -> usize {
    let tiles = match area {
        Area::Visible | Area::TrueEdges => (0..160).filter(|x| *x == 0 || (x + 304 - device.registers[8] as usize) % 8 == 0).count(),
        Area::Effective => 32,
    };
    (2 + 4) * tiles
}

/// A sprite counts whole wherever it is on the line (R5.6 to R5.8), also where none of its pixels falls in the row.
fn of_list(registers: &[u8; 11], video: &[u8], line: usize) -> usize {
    let table = (registers[5] & 0x7E) as usize * 128;
    let height = if registers[1] & 2 == 0 { 8 } else { 16 };
    let (mut looked, mut laid) = (0, 0);
    for y in &video[table..table + 64] {
        looked += 1;
        let top = (*y as usize + 1) % 256;
        if *y == 0xD0 || (laid == 8 && top <= line && line < top + height) {
            break;
        }
        if top <= line && line < top + height {
            laid += 1;
        }
    }
    looked + (2 + 4) * laid
}
