//! Records put behind others in a recording, and read one by one: R19.1 to R19.4 and R19.8 a second time. The place is a number of any size.

use crate::model::Area;
use crate::recording::Record;

/// The number of an area.
fn number(area: Area) -> u8 {
    (0..=255).find(|n| Area::from_number(*n) == Some(area)).expect("every area has a number")
}

/// The bytes of a record.
pub fn bytes_of(record: &Record) -> Vec<u8> {
    match *record {
        Record::Write { port, value } => vec![b'P', b'W', port, value],
        Record::Read { port } => vec![b'P', b'R', port],
        Record::Step { area } => vec![b'L', b'S', number(area)],
    }
}

/// Puts a record into the bytes from `used` on, where it has room there.
pub fn put(recording: &mut [u8], used: usize, record: &Record) -> u32 {
    let bytes = bytes_of(record);
    let end = used as u128 + bytes.len() as u128;
    if end > recording.len() as u128 {
        return 18;
    }
    for (k, byte) in bytes.iter().enumerate() {
        recording[used + k] = *byte;
    }
    (bytes.len() as u32) << 8
}

/// The calls of the C face.
pub fn vdp_record_out(recording: &mut [u8], used: usize, port: u8, value: u8) -> u32 {
    put(recording, used, &Record::Write { port, value })
}

pub fn vdp_record_input(recording: &mut [u8], used: usize, port: u8) -> u32 {
    put(recording, used, &Record::Read { port })
}

pub fn vdp_record_step(recording: &mut [u8], used: usize, area: u8) -> u32 {
    match Area::from_number(area) {
        None => 11,
        Some(area) => put(recording, used, &Record::Step { area }),
    }
}

pub fn vdp_record_next(recording: &[u8], at: usize) -> u32 {
    if at >= recording.len() {
        return 0;
    }
    match Record::first(&recording[at..]) {
        None => 4,
        Some((record, length)) => {
            let (kind, first, value) = match record {
                Record::Write { port, value } => (1, port, value),
                Record::Read { port } => (2, port, 0),
                Record::Step { area } => (3, number(area), 0),
            };
            u32::from_le_bytes([kind, first, value, length as u8])
        }
    }
}
