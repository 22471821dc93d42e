//! A run of the player, recorded: random port calls and steps on its file, on a device of a line table, with what the player got for each.
//!
//!   record TABLE SEED FOLDER    writes FOLDER/run.trace, the recording; FOLDER/run.text, the answers in the words of `trace`; FOLDER/run.ppm, the frame
//!                               that the visible steps drew, as `snapshot` writes it
//!
//! tests/recording.sh has the trace programs run the recording, and holds what they write to the other two.

pub mod io {
    pub trait Device {
        fn out(&self, addr: u16, val: u8, cycle: u32) -> Result<(), String>;
        fn input(&self, addr: u16, cycle: u32) -> Result<u8, String>;
    }
}
#[allow(dead_code)]
pub mod vdp;

use io::Device;
use std::path::Path;
use vdp::{DisplayRefresh, RenderArea, Vdp, VdpInt, LONGEST_RECORDING};

struct Random(u64);

impl Random {
    fn word(&mut self) -> u64 {
        self.0 = self.0.wrapping_mul(6_364_136_223_846_793_005).wrapping_add(1_442_695_040_888_963_407);
        let z = self.0 ^ self.0 >> 29;
        z.wrapping_mul(0xBF58_476D_1CE4_E5B9) >> 16
    }
    fn below(&mut self, n: u64) -> u64 {
        self.word() % n
    }
    fn byte(&mut self) -> u8 {
        self.word() as u8
    }
}

/// The player, what it got, and the frame that it shows.
struct Run {
    vdp: Vdp,
    text: String,
    records: usize,
    frame: Vec<u8>,
    other: Vec<u8>,
}

impl Run {
    fn write(&mut self, port: u16, value: u8) {
        let accepted = self.vdp.out(port, value, 0).is_ok();
        assert_eq!(accepted, self.vdp.last_refusal() == 0);
        self.text += &format!("w {}\n", self.vdp.last_refusal());
        self.records += 1;
    }

    fn read(&mut self, port: u16) -> u8 {
        let byte = self.vdp.input(port, 0).unwrap_or(0);
        self.text += &format!("r {} {:02X}\n", self.vdp.last_refusal(), byte);
        self.records += 1;
        byte
    }

    /// A step, and the counter after it, which the player reads as a game does.
    fn step(&mut self, area: RenderArea) {
        let frame = match area {
            RenderArea::VisibleOnly | RenderArea::TrueEdges => &mut self.frame,
            RenderArea::EffectiveArea => &mut self.other,
        };
        let (interrupt, refresh) = self.vdp.step(frame, area);
        assert_eq!(self.vdp.last_refusal(), 0);
        let before = self.text.len();
        let counter = self.read(0x7E);
        let report = match refresh {
            DisplayRefresh::NoDisplay => 0,
            DisplayRefresh::ScreenDone => 1,
            DisplayRefresh::ScreenDoneNoRefresh => 2,
        };
        self.text.insert_str(before, &format!("s 0 {:02X} {} {}\n", counter, matches!(interrupt, VdpInt::InterruptGenerated) as u8, report));
        self.records += 1;
    }

    /// The command to put an address or to set a register.
    fn command(&mut self, first: u8, second: u8) {
        self.write(0xBF, first);
        self.write(0xBF, second);
    }
}

fn main() {
    let words: Vec<String> = std::env::args().skip(1).collect();
    let numbers: Vec<u64> = words.iter().filter_map(|word| word.parse().ok()).collect();
    let vdp = match (&words[..], &numbers[..]) {
        ([_, _, _], [table, ..]) => Vdp::with_table(*table as u8),
        _ => None,
    };
    let vdp = vdp.unwrap_or_else(|| {
        eprintln!("usage: record TABLE SEED FOLDER");
        std::process::exit(2)
    });
    vdp.start_recording(LONGEST_RECORDING);
    let mut random = Random(numbers[1] << 8 | numbers[0]);
    let mut run = Run { vdp, text: String::new(), records: 0, frame: vec![0; 160 * 144 * 4], other: vec![0; 256 * 224 * 4] };

    // A scene: registers, colours, tiles, names and sprites.
    run.command(0x60, 0x81);
    run.command(0xFF, 0x82);
    run.command(0xFF, 0x85);
    run.command(0x10 | random.byte() & 0x0F, 0x80);
    run.command(random.byte() & 0x1F, 0x8A);
    run.command(0, 0xC0);
    for _ in 0..64 {
        let byte = random.byte();
        run.write(0xBE, byte);
    }
    for (from, count) in [(0x0000u16, 1024), (0x3800, 1500), (0x3F00, 64), (0x3F80, 128)] {
        run.command(from as u8, 0x40 | (from >> 8) as u8);
        for _ in 0..count {
            let byte = random.byte();
            run.write(0xBE, byte);
        }
    }

    // Passes, with port calls of every kind between the steps, refused ones too, and now and then a step that is refused.
    for _ in 0..5 * 262 {
        match random.below(12) {
            0 => {
                let (first, second) = (random.byte(), random.byte());
                run.command(first, second);
            }
            1 => {
                let (high, low, value) = (random.byte() as u16, [0xBE, 0xBF, 0x7F, 0x12][random.below(4) as usize], random.byte());
                run.write(high << 8 | low, value);
            }
            2 => {
                let (high, low) = (random.byte() as u16, [0xBE, 0xBF, 0x7F, 0x7E, 0x12][random.below(5) as usize]);
                run.read(high << 8 | low);
            }
            3 => {
                let (scroll, register) = (random.byte(), 0x88 + random.below(2) as u8);
                run.command(scroll, register);
            }
            4 => {
                run.vdp.step(&mut [0; 100], RenderArea::VisibleOnly);
                assert_eq!(run.vdp.last_refusal(), 9);
                run.vdp.dump_tileset(&mut [0; 128 * 256 * 4]);
            }
            _ => {}
        }
        let area = match random.below(16) {
            0 => RenderArea::EffectiveArea,
            1 | 2 => RenderArea::TrueEdges,
            _ => RenderArea::VisibleOnly,
        };
        run.step(area);
    }

    let recording = run.vdp.take_recording().expect("recording was switched on");
    assert!(recording.whole, "the recording has no room for all");
    assert_eq!(run.vdp.take_recording(), None);
    run.text += &format!("end {}\n", run.records);
    let mut picture = b"P6\n160 144\n255\n".to_vec();
    for pixel in run.frame.chunks(4) {
        picture.extend(&pixel[..3]);
    }
    let folder = Path::new(&words[2]);
    std::fs::create_dir_all(folder).expect("the folder is made");
    for (name, bytes) in [("run.trace", &recording.bytes[..]), ("run.text", run.text.as_bytes()), ("run.ppm", &picture)] {
        std::fs::write(folder.join(name), bytes).expect("the file is written");
    }
    println!("{} records, {} bytes", run.records, recording.bytes.len());
}
