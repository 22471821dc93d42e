//! Salvage of damaged state blocks: R17.1 to R17.5 a second time, one sentence after the other, and what the program `repair` writes.

use crate::model::{colours, BLOCK_SIZE, OLD_SIZE};

/// The offsets that a repair can change, and what the program calls them.
pub const FIELDS: [(usize, &str); 12] = [
    (0, "mark"),
    (1, "mark"),
    (15, "jump flag"),
    (17, "address (low byte)"),
    (18, "address (high byte)"),
    (20, "chosen memory"),
    (21, "command latch (flag)"),
    (22, "command latch (byte)"),
    (23, "palette latch (flag)"),
    (24, "palette latch (byte)"),
    (26, "dirty flag"),
    (219, "table"),
];

/// A byte above the highest value that its field has becomes 0.
fn limit(byte: &mut u8, highest: u8) {
    if *byte > highest {
        *byte = 0;
    }
}

/// Mends a block of either version where it stands.
fn mend(block: &mut [u8]) {
    block[0] = 0x56;
    block[1] = if block.len() == OLD_SIZE { 0x53 } else { 0x54 };
    for flag in [15, 21, 23, 26] {
        limit(&mut block[flag], 1);
    }
    limit(&mut block[20], 2);
    if let Some(table) = block.get_mut(219) {
        limit(table, 1);
    }
    for flag in [21, 23] {
        if block[flag] == 0 {
            block[flag + 1] = 0;
        }
    }
    let memory = if block[20] == 2 { 64 } else { 16_384 };
    let address = u16::from_le_bytes([block[17], block[18]]) % memory;
    block[17..19].copy_from_slice(&address.to_le_bytes());
    let mut palette = [0; 64];
    palette.copy_from_slice(&block[27..91]);
    if block[26] == 0 && block[91..219] != colours(&palette).concat() {
        block[26] = 1;
    }
}

/// The call of the C face.
pub fn vdp_repair(block: &mut [u8], list: &mut [u8]) -> u32 {
    if block.len() != OLD_SIZE && block.len() != BLOCK_SIZE {
        return 10;
    }
    if list.len() < 220 {
        return 17;
    }
    let before = block.to_vec();
    mend(block);
    let changed: Vec<u8> = (0..block.len()).filter(|at| block[*at] != before[*at]).map(|at| at as u8).collect();
    list[..changed.len()].copy_from_slice(&changed);
    256 * changed.len() as u32
}

/// What `repair` writes for an input, to standard output and to standard error.
pub fn written(input: &[u8]) -> (Vec<u8>, String) {
    let mut block = input.to_vec();
    if vdp_repair(&mut block, &mut [0; 220]) == 10 {
        return (b"bad\n".to_vec(), String::new());
    }
    let mut told = String::new();
    for (at, name) in FIELDS {
        if at < block.len() && block[at] != input[at] {
            told += &format!("repair: byte {}, {}: {:02X} -> {:02X}\n", at, name, input[at], block[at]);
        }
    }
    (block, told)
}
