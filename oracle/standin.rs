//! The C face made of the model, as a shared library: stands in for libvdp.a where a program over the C face is tried
//! and the proved library is not at hand (and, damaged on purpose, shows that the programs notice).

use rules::home::Met;
use rules::model::{self, Notes};
use rules::{dock, salvage, tile, writer};

/// The bytes that a caller lends.
unsafe fn lent<'a>(at: *const u8, len: usize) -> &'a [u8] {
    if len == 0 {
        &[]
    } else {
        std::slice::from_raw_parts(at, len)
    }
}

/// The bytes that a caller lends to be changed.
unsafe fn lent_mut<'a>(at: *mut u8, len: usize) -> &'a mut [u8] {
    if len == 0 {
        &mut []
    } else {
        std::slice::from_raw_parts_mut(at, len)
    }
}

#[no_mangle]
pub unsafe extern "C" fn vdp_new(state: *mut u8, state_len: usize) -> u32 {
    model::vdp_new(lent_mut(state, state_len))
}

#[no_mangle]
pub unsafe extern "C" fn vdp_new_table(state: *mut u8, state_len: usize, table: u8) -> u32 {
    model::vdp_new_table(lent_mut(state, state_len), table)
}

#[no_mangle]
pub unsafe extern "C" fn vdp_out(state: *mut u8, state_len: usize, vram: *mut u8, vram_len: usize, port: u16, value: u8) -> u32 {
    model::vdp_out(lent_mut(state, state_len), lent_mut(vram, vram_len), port, value)
}

#[no_mangle]
pub unsafe extern "C" fn vdp_input(state: *mut u8, state_len: usize, vram: *const u8, vram_len: usize, port: u16) -> u32 {
    model::vdp_input(lent_mut(state, state_len), lent(vram, vram_len), port)
}

#[no_mangle]
pub unsafe extern "C" fn vdp_step(
    state: *mut u8, state_len: usize, vram: *const u8, vram_len: usize, frame: *mut u8, frame_len: usize, area: u8,
) -> u32 {
    let mut notes = Notes::default();
    model::vdp_step(lent_mut(state, state_len), lent(vram, vram_len), lent_mut(frame, frame_len), area, &mut notes)
}

#[no_mangle]
pub unsafe extern "C" fn vdp_row_step(
    state: *mut u8, state_len: usize, vram: *const u8, vram_len: usize, row: *mut u8, row_len: usize, area: u8,
) -> u32 {
    let mut notes = Notes::default();
    model::vdp_row_step(lent_mut(state, state_len), lent(vram, vram_len), lent_mut(row, row_len), area, &mut notes)
}

#[no_mangle]
pub unsafe extern "C" fn vdp_layer_step(
    state: *mut u8, state_len: usize, vram: *const u8, vram_len: usize, frame: *mut u8, frame_len: usize, layers: *mut u8,
    layers_len: usize, area: u8,
) -> u32 {
    let (frame, layers) = (lent_mut(frame, frame_len), lent_mut(layers, layers_len));
    model::vdp_layer_step(lent_mut(state, state_len), lent(vram, vram_len), frame, layers, area, &mut Notes::default())
}

#[no_mangle]
pub unsafe extern "C" fn vdp_layer_row_step(
    state: *mut u8, state_len: usize, vram: *const u8, vram_len: usize, row: *mut u8, row_len: usize, layers: *mut u8,
    layers_len: usize, area: u8,
) -> u32 {
    let (row, layers) = (lent_mut(row, row_len), lent_mut(layers, layers_len));
    model::vdp_layer_row_step(lent_mut(state, state_len), lent(vram, vram_len), row, layers, area, &mut Notes::default())
}

#[no_mangle]
pub unsafe extern "C" fn vdp_dump_tileset(
    state: *const u8, state_len: usize, vram: *const u8, vram_len: usize, pixels: *mut u8, pixels_len: usize,
) -> u32 {
    model::vdp_dump_tileset(lent(state, state_len), lent(vram, vram_len), lent_mut(pixels, pixels_len))
}

#[no_mangle]
pub unsafe extern "C" fn vdp_write_tile(vram: *mut u8, vram_len: usize, tile: u16, codes: *const u8, codes_len: usize) -> u32 {
    tile::vdp_write_tile(lent_mut(vram, vram_len), tile, lent(codes, codes_len))
}

#[no_mangle]
pub unsafe extern "C" fn vdp_read_tile(vram: *const u8, vram_len: usize, tile: u16, codes: *mut u8, codes_len: usize) -> u32 {
    tile::vdp_read_tile(lent(vram, vram_len), tile, lent_mut(codes, codes_len))
}

#[no_mangle]
pub unsafe extern "C" fn vdp_pixel(state: *const u8, state_len: usize, vram: *const u8, vram_len: usize, area: u8, row: u32, column: u32) -> u64 {
    model::vdp_pixel(lent(state, state_len), lent(vram, vram_len), area, row, column)
}

#[no_mangle]
pub unsafe extern "C" fn vdp_repair(block: *mut u8, block_len: usize, list: *mut u8, list_len: usize) -> u32 {
    salvage::vdp_repair(lent_mut(block, block_len), lent_mut(list, list_len))
}

#[no_mangle]
pub unsafe extern "C" fn vdp_record_out(recording: *mut u8, recording_len: usize, used: usize, port: u8, value: u8) -> u32 {
    writer::vdp_record_out(lent_mut(recording, recording_len), used, port, value)
}

#[no_mangle]
pub unsafe extern "C" fn vdp_record_input(recording: *mut u8, recording_len: usize, used: usize, port: u8) -> u32 {
    writer::vdp_record_input(lent_mut(recording, recording_len), used, port)
}

#[no_mangle]
pub unsafe extern "C" fn vdp_record_step(recording: *mut u8, recording_len: usize, used: usize, area: u8) -> u32 {
    writer::vdp_record_step(lent_mut(recording, recording_len), used, area)
}

#[no_mangle]
pub unsafe extern "C" fn vdp_record_next(recording: *const u8, recording_len: usize, at: usize) -> u32 {
    writer::vdp_record_next(lent(recording, recording_len), at)
}

#[no_mangle]
pub unsafe extern "C" fn vdp_home_new(state: *mut u8, state_len: usize) -> u32 {
    dock::vdp_home_new(lent_mut(state, state_len))
}

#[no_mangle]
pub unsafe extern "C" fn vdp_home_new_table(state: *mut u8, state_len: usize, table: u8) -> u32 {
    dock::vdp_home_new_table(lent_mut(state, state_len), table)
}

#[no_mangle]
pub unsafe extern "C" fn vdp_home_out(state: *mut u8, state_len: usize, vram: *mut u8, vram_len: usize, port: u16, value: u8) -> u32 {
    dock::vdp_home_out(lent_mut(state, state_len), lent_mut(vram, vram_len), port, value, &mut Met::nothing())
}

#[no_mangle]
pub unsafe extern "C" fn vdp_home_input(state: *mut u8, state_len: usize, vram: *const u8, vram_len: usize, port: u16) -> u32 {
    dock::vdp_home_input(lent_mut(state, state_len), lent(vram, vram_len), port, &mut Met::nothing())
}

#[no_mangle]
pub unsafe extern "C" fn vdp_home_step(state: *mut u8, state_len: usize, vram: *const u8, vram_len: usize, frame: *mut u8, frame_len: usize) -> u32 {
    dock::vdp_home_step(lent_mut(state, state_len), lent(vram, vram_len), lent_mut(frame, frame_len), &mut Met::nothing())
}

#[no_mangle]
pub unsafe extern "C" fn vdp_home_row_step(state: *mut u8, state_len: usize, vram: *const u8, vram_len: usize, row: *mut u8, row_len: usize) -> u32 {
    dock::vdp_home_row_step(lent_mut(state, state_len), lent(vram, vram_len), lent_mut(row, row_len), &mut Met::nothing())
}

#[no_mangle]
pub unsafe extern "C" fn vdp_home_layer_step(
    state: *mut u8, state_len: usize, vram: *const u8, vram_len: usize, frame: *mut u8, frame_len: usize, layers: *mut u8, layers_len: usize,
) -> u32 {
    let (frame, layers) = (lent_mut(frame, frame_len), lent_mut(layers, layers_len));
    dock::vdp_home_layer_step(lent_mut(state, state_len), lent(vram, vram_len), frame, layers, &mut Met::nothing())
}

#[no_mangle]
pub unsafe extern "C" fn vdp_home_layer_row_step(
    state: *mut u8, state_len: usize, vram: *const u8, vram_len: usize, row: *mut u8, row_len: usize, layers: *mut u8, layers_len: usize,
) -> u32 {
    let (row, layers) = (lent_mut(row, row_len), lent_mut(layers, layers_len));
    dock::vdp_home_layer_row_step(lent_mut(state, state_len), lent(vram, vram_len), row, layers, &mut Met::nothing())
}

#[no_mangle]
pub unsafe extern "C" fn vdp_home_pixel(state: *const u8, state_len: usize, vram: *const u8, vram_len: usize, row: u32, column: u32) -> u64 {
    dock::vdp_home_pixel(lent(state, state_len), lent(vram, vram_len), row, column)
}

#[no_mangle]
pub unsafe extern "C" fn vdp_home_dump_tileset(
    state: *const u8, state_len: usize, vram: *const u8, vram_len: usize, pixels: *mut u8, pixels_len: usize,
) -> u32 {
    dock::vdp_home_dump_tileset(lent(state, state_len), lent(vram, vram_len), lent_mut(pixels, pixels_len))
}

/// The number of the face in this header's text.
const fn version_in(header: &[u8], name: &[u8]) -> u32 {
    let mut at = 0;
    loop {
        let mut same = 0;
        while same < name.len() && header[at + same] == name[same] {
            same += 1;
        }
        if same == name.len() {
            break;
        }
        at += 1;
    }
    at += name.len();
    let mut number = 0;
    while header[at].is_ascii_digit() {
        number = 10 * number + (header[at] - b'0') as u32;
        at += 1;
    }
    number
}

#[no_mangle]
pub extern "C" fn vdp_version() -> u32 {
    const HEADER: &[u8] = include_bytes!("../include/vdp.h");
    const VERSION: u32 = 65536 * version_in(HEADER, b"#define VDP_VERSION_MAJOR ")
        + 256 * version_in(HEADER, b"#define VDP_VERSION_MINOR ")
        + version_in(HEADER, b"#define VDP_VERSION_SMALL ");
    VERSION
}
