//! The C face of the library (include/vdp.h): its declarations, and a safe call over slices for each.

mod raw {
    extern "C" {
        pub fn vdp_new(state: *mut u8, state_len: usize) -> u32;
        pub fn vdp_new_table(state: *mut u8, state_len: usize, table: u8) -> u32;
        pub fn vdp_out(state: *mut u8, state_len: usize, vram: *mut u8, vram_len: usize, port: u16, value: u8) -> u32;
        pub fn vdp_input(state: *mut u8, state_len: usize, vram: *const u8, vram_len: usize, port: u16) -> u32;
        pub fn vdp_step(
            state: *mut u8, state_len: usize, vram: *const u8, vram_len: usize, frame: *mut u8, frame_len: usize, area: u8,
        ) -> u32;
        pub fn vdp_row_step(
            state: *mut u8, state_len: usize, vram: *const u8, vram_len: usize, row: *mut u8, row_len: usize, area: u8,
        ) -> u32;
        pub fn vdp_layer_step(
            state: *mut u8, state_len: usize, vram: *const u8, vram_len: usize, frame: *mut u8, frame_len: usize, layers: *mut u8,
            layers_len: usize, area: u8,
        ) -> u32;
        pub fn vdp_layer_row_step(
            state: *mut u8, state_len: usize, vram: *const u8, vram_len: usize, row: *mut u8, row_len: usize, layers: *mut u8,
            layers_len: usize, area: u8,
        ) -> u32;
        pub fn vdp_dump_tileset(
            state: *const u8, state_len: usize, vram: *const u8, vram_len: usize, pixels: *mut u8, pixels_len: usize,
        ) -> u32;
        pub fn vdp_pixel(state: *const u8, state_len: usize, vram: *const u8, vram_len: usize, area: u8, row: u32, column: u32) -> u64;
        pub fn vdp_write_tile(vram: *mut u8, vram_len: usize, tile: u16, codes: *const u8, codes_len: usize) -> u32;
        pub fn vdp_read_tile(vram: *const u8, vram_len: usize, tile: u16, codes: *mut u8, codes_len: usize) -> u32;
        pub fn vdp_record_out(recording: *mut u8, recording_len: usize, used: usize, port: u8, value: u8) -> u32;
        pub fn vdp_record_input(recording: *mut u8, recording_len: usize, used: usize, port: u8) -> u32;
        pub fn vdp_record_step(recording: *mut u8, recording_len: usize, used: usize, area: u8) -> u32;
        pub fn vdp_record_next(recording: *const u8, recording_len: usize, at: usize) -> u32;
        pub fn vdp_repair(block: *mut u8, block_len: usize, list: *mut u8, list_len: usize) -> u32;
        pub fn vdp_home_new(state: *mut u8, state_len: usize) -> u32;
        pub fn vdp_home_new_table(state: *mut u8, state_len: usize, table: u8) -> u32;
        pub fn vdp_home_out(state: *mut u8, state_len: usize, vram: *mut u8, vram_len: usize, port: u16, value: u8) -> u32;
        pub fn vdp_home_input(state: *mut u8, state_len: usize, vram: *const u8, vram_len: usize, port: u16) -> u32;
        pub fn vdp_home_step(state: *mut u8, state_len: usize, vram: *const u8, vram_len: usize, frame: *mut u8, frame_len: usize) -> u32;
        pub fn vdp_home_row_step(state: *mut u8, state_len: usize, vram: *const u8, vram_len: usize, row: *mut u8, row_len: usize) -> u32;
        pub fn vdp_home_layer_step(
            state: *mut u8, state_len: usize, vram: *const u8, vram_len: usize, frame: *mut u8, frame_len: usize, layers: *mut u8,
            layers_len: usize,
        ) -> u32;
        pub fn vdp_home_layer_row_step(
            state: *mut u8, state_len: usize, vram: *const u8, vram_len: usize, row: *mut u8, row_len: usize, layers: *mut u8,
            layers_len: usize,
        ) -> u32;
        pub fn vdp_home_pixel(state: *const u8, state_len: usize, vram: *const u8, vram_len: usize, row: u32, column: u32) -> u64;
        pub fn vdp_home_dump_tileset(
            state: *const u8, state_len: usize, vram: *const u8, vram_len: usize, pixels: *mut u8, pixels_len: usize,
        ) -> u32;
    }
}

// Each call is sound: a slice is a pointer and a length over live bytes, and `&mut` slices do not overlap.

pub fn vdp_new(state: &mut [u8]) -> u32 {
    unsafe { raw::vdp_new(state.as_mut_ptr(), state.len()) }
}

pub fn vdp_new_table(state: &mut [u8], table: u8) -> u32 {
    unsafe { raw::vdp_new_table(state.as_mut_ptr(), state.len(), table) }
}

pub fn vdp_out(state: &mut [u8], vram: &mut [u8], port: u16, value: u8) -> u32 {
    unsafe { raw::vdp_out(state.as_mut_ptr(), state.len(), vram.as_mut_ptr(), vram.len(), port, value) }
}

pub fn vdp_input(state: &mut [u8], vram: &[u8], port: u16) -> u32 {
    unsafe { raw::vdp_input(state.as_mut_ptr(), state.len(), vram.as_ptr(), vram.len(), port) }
}

pub fn vdp_step(state: &mut [u8], vram: &[u8], frame: &mut [u8], area: u8) -> u32 {
    unsafe { raw::vdp_step(state.as_mut_ptr(), state.len(), vram.as_ptr(), vram.len(), frame.as_mut_ptr(), frame.len(), area) }
}

pub fn vdp_row_step(state: &mut [u8], vram: &[u8], row: &mut [u8], area: u8) -> u32 {
    unsafe { raw::vdp_row_step(state.as_mut_ptr(), state.len(), vram.as_ptr(), vram.len(), row.as_mut_ptr(), row.len(), area) }
}

pub fn vdp_layer_step(state: &mut [u8], vram: &[u8], frame: &mut [u8], layers: &mut [u8], area: u8) -> u32 {
    let (at, len) = (layers.as_mut_ptr(), layers.len());
    unsafe {
        raw::vdp_layer_step(state.as_mut_ptr(), state.len(), vram.as_ptr(), vram.len(), frame.as_mut_ptr(), frame.len(), at, len, area)
    }
}

pub fn vdp_layer_row_step(state: &mut [u8], vram: &[u8], row: &mut [u8], layers: &mut [u8], area: u8) -> u32 {
    let (at, len) = (layers.as_mut_ptr(), layers.len());
    unsafe {
        raw::vdp_layer_row_step(state.as_mut_ptr(), state.len(), vram.as_ptr(), vram.len(), row.as_mut_ptr(), row.len(), at, len, area)
    }
}

pub fn vdp_dump_tileset(state: &[u8], vram: &[u8], pixels: &mut [u8]) -> u32 {
    unsafe { raw::vdp_dump_tileset(state.as_ptr(), state.len(), vram.as_ptr(), vram.len(), pixels.as_mut_ptr(), pixels.len()) }
}

pub fn vdp_pixel(state: &[u8], vram: &[u8], area: u8, row: u32, column: u32) -> u64 {
    unsafe { raw::vdp_pixel(state.as_ptr(), state.len(), vram.as_ptr(), vram.len(), area, row, column) }
}

#[allow(dead_code)] // the programs of the bench alone call it
pub fn vdp_write_tile(vram: &mut [u8], tile: u16, codes: &[u8]) -> u32 {
    unsafe { raw::vdp_write_tile(vram.as_mut_ptr(), vram.len(), tile, codes.as_ptr(), codes.len()) }
}

#[allow(dead_code)] // the programs of the bench alone call it
pub fn vdp_read_tile(vram: &[u8], tile: u16, codes: &mut [u8]) -> u32 {
    unsafe { raw::vdp_read_tile(vram.as_ptr(), vram.len(), tile, codes.as_mut_ptr(), codes.len()) }
}

#[allow(dead_code)] // the programs `repair` and `bench` alone call it
pub fn vdp_repair(block: &mut [u8], list: &mut [u8]) -> u32 {
    unsafe { raw::vdp_repair(block.as_mut_ptr(), block.len(), list.as_mut_ptr(), list.len()) }
}

// The programs `records` and `bench` alone call these.

#[allow(dead_code)]
pub fn vdp_record_out(recording: &mut [u8], used: usize, port: u8, value: u8) -> u32 {
    unsafe { raw::vdp_record_out(recording.as_mut_ptr(), recording.len(), used, port, value) }
}

#[allow(dead_code)]
pub fn vdp_record_input(recording: &mut [u8], used: usize, port: u8) -> u32 {
    unsafe { raw::vdp_record_input(recording.as_mut_ptr(), recording.len(), used, port) }
}

#[allow(dead_code)]
pub fn vdp_record_step(recording: &mut [u8], used: usize, area: u8) -> u32 {
    unsafe { raw::vdp_record_step(recording.as_mut_ptr(), recording.len(), used, area) }
}

#[allow(dead_code)]
pub fn vdp_record_next(recording: &[u8], at: usize) -> u32 {
    unsafe { raw::vdp_record_next(recording.as_ptr(), recording.len(), at) }
}

/// The home machine's calls. The program `docks` alone makes them.
#[allow(dead_code)]
pub mod home {
    use super::raw;

    pub fn new(state: &mut [u8]) -> u32 {
        unsafe { raw::vdp_home_new(state.as_mut_ptr(), state.len()) }
    }

    pub fn new_table(state: &mut [u8], table: u8) -> u32 {
        unsafe { raw::vdp_home_new_table(state.as_mut_ptr(), state.len(), table) }
    }

    pub fn out(state: &mut [u8], vram: &mut [u8], port: u16, value: u8) -> u32 {
        unsafe { raw::vdp_home_out(state.as_mut_ptr(), state.len(), vram.as_mut_ptr(), vram.len(), port, value) }
    }

    pub fn input(state: &mut [u8], vram: &[u8], port: u16) -> u32 {
        unsafe { raw::vdp_home_input(state.as_mut_ptr(), state.len(), vram.as_ptr(), vram.len(), port) }
    }

    pub fn step(state: &mut [u8], vram: &[u8], frame: &mut [u8]) -> u32 {
        unsafe { raw::vdp_home_step(state.as_mut_ptr(), state.len(), vram.as_ptr(), vram.len(), frame.as_mut_ptr(), frame.len()) }
    }

    pub fn row_step(state: &mut [u8], vram: &[u8], row: &mut [u8]) -> u32 {
        unsafe { raw::vdp_home_row_step(state.as_mut_ptr(), state.len(), vram.as_ptr(), vram.len(), row.as_mut_ptr(), row.len()) }
    }

    pub fn layer_step(state: &mut [u8], vram: &[u8], frame: &mut [u8], layers: &mut [u8]) -> u32 {
        let (at, len) = (layers.as_mut_ptr(), layers.len());
        unsafe { raw::vdp_home_layer_step(state.as_mut_ptr(), state.len(), vram.as_ptr(), vram.len(), frame.as_mut_ptr(), frame.len(), at, len) }
    }

    pub fn layer_row_step(state: &mut [u8], vram: &[u8], row: &mut [u8], layers: &mut [u8]) -> u32 {
        let (at, len) = (layers.as_mut_ptr(), layers.len());
        unsafe { raw::vdp_home_layer_row_step(state.as_mut_ptr(), state.len(), vram.as_ptr(), vram.len(), row.as_mut_ptr(), row.len(), at, len) }
    }

    pub fn pixel(state: &[u8], vram: &[u8], row: u32, column: u32) -> u64 {
        unsafe { raw::vdp_home_pixel(state.as_ptr(), state.len(), vram.as_ptr(), vram.len(), row, column) }
    }

    pub fn dump_tileset(state: &[u8], vram: &[u8], pixels: &mut [u8]) -> u32 {
        unsafe { raw::vdp_home_dump_tileset(state.as_ptr(), state.len(), vram.as_ptr(), vram.len(), pixels.as_mut_ptr(), pixels.len()) }
    }
}
