//! Tiles in and out, and sheets of tiles: R14.1 to R14.5 a second time, pixel by pixel.

use crate::model::{tile_code, VIDEO_SIZE};

/// The longest sheet: 256 tiles of 64 codes.
pub const SHEET_LIMIT: usize = 16_384;

/// The 32 bytes of a tile: each pixel's code adds its bit to the byte of every plane that it has, the leftmost pixel 128.
fn packed(codes: &[u8]) -> [u8; 32] {
    let mut bytes = [0; 32];
    for down in 0..8 {
        for across in 0..8 {
            for plane in 0..4 {
                if codes[8 * down + across] >> plane & 1 == 1 {
                    bytes[4 * down + plane] += 128 >> across;
                }
            }
        }
    }
    bytes
}

/// The refusal that both calls have in common, 0 if none.
fn refused(video: &[u8], tile: u16, codes: &[u8]) -> u32 {
    if video.len() != VIDEO_SIZE {
        8
    } else if tile > 511 {
        13
    } else if codes.len() != 64 {
        14
    } else {
        0
    }
}

pub fn vdp_write_tile(video: &mut [u8], tile: u16, codes: &[u8]) -> u32 {
    let refusal = refused(video, tile, codes);
    if refusal != 0 {
        return refusal;
    }
    if codes.iter().any(|code| *code > 15) {
        return 15;
    }
    let at = 32 * tile as usize;
    video[at..at + 32].copy_from_slice(&packed(codes));
    0
}

pub fn vdp_read_tile(video: &[u8], tile: u16, codes: &mut [u8]) -> u32 {
    let refusal = refused(video, tile, codes);
    if refusal != 0 {
        return refusal;
    }
    for down in 0..8 {
        for across in 0..8 {
            codes[8 * down + across] = tile_code(video, 32 * tile as usize, down, across);
        }
    }
    0
}

/// What `sheet` writes for an input.
pub fn sheet_bytes(input: &[u8]) -> Vec<u8> {
    if input.is_empty() || input.len() > SHEET_LIMIT || input.len() % 64 != 0 || input.iter().any(|code| *code > 15) {
        return b"bad\n".to_vec();
    }
    input.chunks(64).flat_map(|codes| packed(codes).to_vec()).collect()
}
