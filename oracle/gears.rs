//! The published Rust as it stands, from the folder that GEARS names, with a way to load and to read its private state.
//! It is compiled optimised and unchecked; its pixels are stored in the machine's own byte order, so that must be little-endian.

#[cfg(target_endian = "big")]
compile_error!("the oracle must be built for a little-endian machine");

include!(concat!(env!("GEARS"), "/vdp.rs"));

/// Puts the device into the state of a well-formed block and these bytes of video memory.
pub fn load(vdp: &Vdp, block: &[u8], video: &[u8]) {
    let mut to = vdp.state.borrow_mut();
    to.status = block[2];
    to.reg.copy_from_slice(&block[3..14]);
    to.v_counter = block[14];
    to.v_counter_jumped = block[15] != 0;
    to.line_interrupt_counter = block[16];
    to.addr = u16::from_le_bytes([block[17], block[18]]);
    to.vram_buffer = block[19];
    to.dest = match block[20] {
        0 => None,
        1 => Some(WriteDest::Vram),
        _ => Some(WriteDest::Cram),
    };
    to.cmd_byte1 = if block[21] != 0 { Some(block[22]) } else { None };
    to.cram_byte1 = if block[23] != 0 { Some(block[24]) } else { None };
    to.vertical_scroll = block[25];
    to.cram_dirty = block[26] != 0;
    to.cram.copy_from_slice(&block[27..91]);
    for (i, colour) in to.color_cache.iter_mut().enumerate() {
        let at = 91 + 4 * i;
        *colour = u32::from_le_bytes([block[at], block[at + 1], block[at + 2], block[at + 3]]);
    }
    to.vram.copy_from_slice(video);
}

/// The state of the device as a block of 219 or of 220 bytes; the Rust's table is 0.
pub fn read(vdp: &Vdp, size: usize) -> Vec<u8> {
    let from = vdp.state.borrow();
    let mut block = vec![0; size];
    block[0] = 0x56;
    block[1] = if size == 219 { 0x53 } else { 0x54 };
    block[2] = from.status;
    block[3..14].copy_from_slice(&from.reg);
    block[14] = from.v_counter;
    block[15] = from.v_counter_jumped as u8;
    block[16] = from.line_interrupt_counter;
    block[17..19].copy_from_slice(&from.addr.to_le_bytes());
    block[19] = from.vram_buffer;
    block[20] = match from.dest {
        None => 0,
        Some(WriteDest::Vram) => 1,
        Some(WriteDest::Cram) => 2,
    };
    block[21] = from.cmd_byte1.is_some() as u8;
    block[22] = from.cmd_byte1.unwrap_or(0);
    block[23] = from.cram_byte1.is_some() as u8;
    block[24] = from.cram_byte1.unwrap_or(0);
    block[25] = from.vertical_scroll;
    block[26] = from.cram_dirty as u8;
    block[27..91].copy_from_slice(&from.cram);
    for (i, colour) in from.color_cache.iter().enumerate() {
        block[91 + 4 * i..95 + 4 * i].copy_from_slice(&colour.to_le_bytes());
    }
    block
}

/// Whether the device's video memory holds these bytes.
pub fn video_is(vdp: &Vdp, video: &[u8]) -> bool {
    vdp.state.borrow().vram == video
}

/// A copy of the device's video memory.
#[allow(dead_code)] // for bench/calls.rs
pub fn video(vdp: &Vdp) -> Vec<u8> {
    vdp.state.borrow().vram.to_vec()
}

/// Where the device's video memory stands.
#[allow(dead_code)] // for bench/bus.rs, which watches it
pub fn video_at(vdp: &Vdp) -> *const u8 {
    vdp.state.borrow().vram.as_ptr()
}
