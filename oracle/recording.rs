//! What the programs `trace`, `snapshot` and `layers` write for an input (R7.8 to R7.13, R15.5), by the model.

use crate::model::{Area, Device, Notes, Stepped, Table, VIDEO_SIZE};

/// The longest input that the programs read.
pub const LIMIT: usize = 65_535;

/// The exit status that goes with what a program writes: 1 where the last line says bad or long. (No byte of a picture is an end of line.)
pub fn status_due(written: &[u8]) -> i32 {
    let last = written.split(|byte| *byte == b'\n').rev().nth(1).unwrap_or(b"");
    (last.starts_with(b"bad") || last.starts_with(b"long")) as i32
}

/// One record of an input.
pub enum Record {
    Write { port: u8, value: u8 },
    Read { port: u8 },
    Step { area: Area },
}

impl Record {
    /// The record at the start of these bytes and its length; nothing where it is cut or unknown.
    pub fn first(bytes: &[u8]) -> Option<(Record, usize)> {
        match *bytes {
            [b'P', b'W', port, value, ..] => Some((Record::Write { port, value }, 4)),
            [b'P', b'R', port, ..] => Some((Record::Read { port }, 3)),
            [b'L', b'S', area, ..] => Area::from_number(area).map(|area| (Record::Step { area }, 3)),
            _ => None,
        }
    }
}

/// A device that runs through an input.
struct Run {
    device: Device,
    video: Vec<u8>,
    row: [u8; 1024],
    /// The picture of the layers, three bytes a pixel.
    owners: Vec<u8>,
    text: String,
    records: usize,
}

impl Run {
    fn new(table: Table) -> Run {
        let owners = vec![0; 3 * Area::Visible.width() * Area::Visible.height()];
        Run { device: Device::made(table), video: vec![0; VIDEO_SIZE], row: [0; 1024], owners, text: String::new(), records: 0 }
    }

    /// One record; a step of the visible size draws in the frame where there is one.
    fn record(&mut self, record: Record, frame: Option<&mut [u8]>) {
        let line = match record {
            Record::Write { port, value } => {
                format!("w {}\n", self.device.write_port(&mut self.video, port as u16, value))
            }
            Record::Read { port } => {
                let (refusal, byte) = self.device.read_port(&self.video, port as u16);
                format!("r {} {:02X}\n", refusal, byte)
            }
            Record::Step { area } => {
                let mut notes = Notes::default();
                let stepped = match (area, frame) {
                    (Area::Visible | Area::TrueEdges, Some(frame)) => {
                        let mut layers = [0; 160];
                        let stepped = self.device.layer_frame_step(&self.video, frame, &mut layers, area, &mut notes);
                        if let Ok(Stepped { row: Some(row), .. }) = stepped {
                            let pixels = layers.iter().flat_map(|layer| layer_colour(*layer));
                            self.owners.splice(3 * 160 * row..3 * 160 * (row + 1), pixels);
                        }
                        stepped
                    }
                    _ => self.device.row_step(&self.video, &mut self.row, area, &mut notes),
                };
                match stepped {
                    Ok(s) => format!("s 0 {:02X} {} {}\n", self.device.counter, s.interrupt as u8, s.report),
                    Err(refusal) => format!("s {} {:02X} 0 0\n", refusal, self.device.counter),
                }
            }
        };
        self.text.push_str(&line);
        self.records += 1;
    }

    /// The whole input; answers the offset of the first bad record, if there is one.
    fn all(&mut self, input: &[u8], mut frame: Option<&mut [u8]>) -> Option<usize> {
        let mut at = 0;
        while at < input.len() {
            match Record::first(&input[at..]) {
                None => return Some(at),
                Some((record, length)) => {
                    self.record(record, frame.as_deref_mut());
                    at += length;
                }
            }
        }
        None
    }
}

/// The text that `trace` prints, on a device of this table.
pub fn trace_text(table: Table, input: &[u8]) -> Vec<u8> {
    if input.len() > LIMIT {
        return b"long\n".to_vec();
    }
    let mut run = Run::new(table);
    let last = match run.all(input, None) {
        Some(at) => format!("bad {}\n", at),
        None => format!("end {}\n", run.records),
    };
    run.text.push_str(&last);
    run.text.into_bytes()
}

/// The colour of a layer in the picture of the layers: the background, one that is held back, sprite n.
fn layer_colour(layer: u8) -> [u8; 3] {
    match layer {
        0 => [32, 32, 32],
        1 => [255, 0, 255],
        _ => [4 * (layer - 64), 255 - 4 * (layer - 64), 128],
    }
}

/// A PPM picture of 160 x 144 pixels, three bytes each, of an input run on a device of this table; or the one line of a bad or long input.
fn picture(table: Table, input: &[u8], pixels: impl FnOnce(Run, Vec<u8>) -> Vec<u8>) -> Vec<u8> {
    if input.len() > LIMIT {
        return b"long\n".to_vec();
    }
    let mut run = Run::new(table);
    let mut frame = vec![0; Area::Visible.frame_size()];
    if let Some(at) = run.all(input, Some(&mut frame)) {
        return format!("bad {}\n", at).into_bytes();
    }
    let mut bytes = b"P6\n160 144\n255\n".to_vec();
    bytes.extend_from_slice(&pixels(run, frame));
    bytes
}

/// The bytes that `snapshot` writes: the picture of the visible frame (R7.13, R18.5).
pub fn snapshot_bytes(table: Table, input: &[u8]) -> Vec<u8> {
    picture(table, input, |_, frame| frame.chunks(4).flat_map(|pixel| pixel[..3].to_vec()).collect())
}

/// The bytes that `layers` writes: the same with each pixel in the colour of the layer that owns it, black where no step has drawn.
pub fn layers_bytes(table: Table, input: &[u8]) -> Vec<u8> {
    picture(table, input, |run, _| run.owners)
}
