//! The fixed list of the Rust's answers that `replay` holds: records of 16 bytes, little-endian:
//! call (W, R, S), port or area, value, 0, answer word (4), checksum of the block (4), checksum of the drawn row (4). VECTORS.md says it in full.

use crate::gears::{self, Vdp};
use rules::model::{self, Area, Notes, Table, OLD_SIZE, VIDEO_SIZE};
use rules::sessions::Session;
use rules::call::{Call, Kind};
use crate::world;
use std::io::Write;

/// The sum of i + 1 times byte i: it tells apart any two rows or blocks with two bytes swapped.
fn checksum(bytes: &[u8]) -> u32 {
    bytes.iter().zip(1u32..).fold(0, |sum, (byte, weight)| sum.wrapping_add(weight * *byte as u32))
}

/// The Rust's device, and the model beside it to see a departure coming.
struct Recorder {
    rust: Vdp,
    frame: Vec<u8>,
    block: Vec<u8>,
    video: Vec<u8>,
    list: Vec<u8>,
}

/// Writes COUNT records to standard output; answers 1 if the model disagrees with the Rust anywhere.
pub fn write(count: u64, seed: u64) -> u64 {
    let mut recorder = Recorder {
        rust: Vdp::new(),
        frame: vec![0; Area::Effective.frame_size() + 64],
        block: model::Device::made(Table::Steps261).encode(OLD_SIZE),
        video: vec![0; VIDEO_SIZE],
        list: Vec::new(),
    };
    // What only a fresh device refuses comes first: no memory chosen (4), palette latch empty (6).
    let first = [
        Call::input(0xBE), Call::out(0xBE, 1), Call::out(0xBF, 1), Call::out(0xBF, 0xC0), Call::out(0xBE, 2), Call::input(0xBE),
        Call::out(0xBF, 7), Call::input(0x7F), Call::out(0xBF, 0x8B), Call::input(0x7E), Call::input(0xBF), Call::out(0x00, 0),
    ];
    for call in &first {
        if !recorder.record(call) {
            return 1;
        }
    }
    let mut session = Session::of_the_rust(seed);
    while (recorder.list.len() / 16) < count as usize {
        let mut call = session.next(&recorder.block);
        let port_call = matches!(call.kind, Kind::Out | Kind::Input);
        let step = matches!(call.kind, Kind::Step | Kind::RowStep) && call.value < 2;
        if !(port_call || step) || call.poke.is_some() {
            continue;
        }
        call.port %= 256;
        if step && recorder.would_assert(call.value) {
            // The Rust cannot answer this step: first turn the early clock off.
            let off = recorder.block[3] & 0xF7;
            for quiet in [Call::input(0xBF), Call::out(0xBF, off), Call::out(0xBF, 0x80)] {
                if !recorder.record(&quiet) {
                    return 1;
                }
            }
        }
        if !recorder.record(&call) {
            return 1;
        }
    }
    recorder.list.truncate(16 * count as usize);
    std::io::stdout().write_all(&recorder.list).expect("the list is written");
    0
}

impl Recorder {
    /// Whether the Rust would assert in a step of this area.
    fn would_assert(&self, area: u8) -> bool {
        let mut notes = Notes::default();
        model::vdp_row_step(&mut self.block.clone(), &self.video, &mut [0; 1024], area, &mut notes);
        notes.asserts
    }

    /// Makes the call on the Rust and adds its record; false where the model differs.
    fn record(&mut self, call: &Call) -> bool {
        let mut row = [0; 1024];
        let (kind, argument, value, model_word) = match call.kind {
            Kind::Out => (b'W', call.port as u8, call.value, model::vdp_out(&mut self.block, &mut self.video, call.port, call.value)),
            Kind::Input => (b'R', call.port as u8, 0, model::vdp_input(&mut self.block, &self.video, call.port)),
            _ => (b'S', call.value, 0, model::vdp_row_step(&mut self.block, &self.video, &mut row, call.value, &mut Notes::default())),
        };
        let (word, sum) = match call.kind {
            Kind::Out | Kind::Input => (world::rust_port_word(&self.rust, call, false), 0),
            _ => self.step(call.value),
        };
        let block = gears::read(&self.rust, OLD_SIZE);
        if word != Ok(model_word) || block != self.block {
            eprintln!("compare: the model differs from the Rust at record {}: {:?}", self.list.len() / 16, call);
            return false;
        }
        self.list.extend_from_slice(&[kind, argument, value, 0]);
        self.list.extend_from_slice(&model_word.to_le_bytes());
        self.list.extend_from_slice(&checksum(&block).to_le_bytes());
        self.list.extend_from_slice(&sum.to_le_bytes());
        true
    }

    /// A step of the Rust: its answer word, and the checksum of the row that it drew.
    fn step(&mut self, number: u8) -> (Result<u32, String>, u32) {
        let area = Area::from_number(number).expect("an area");
        let answer = self.rust.step(&mut self.frame, world::rust_area(area));
        let word = world::rust_step_word(&self.rust, &answer, area);
        if word >> 24 == 0 {
            return (Ok(word), 0);
        }
        let row = (word >> 16 & 0xFF) as usize;
        (Ok(word), checksum(model::row_view(&self.frame[..area.frame_size()], area, row)))
    }
}
