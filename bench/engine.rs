//! What draws: the calls that are measured, each able to say what it drew and what it left, so that no time is taken of a wrong picture.

use crate::workload::STEPS;
use crate::{face, gears};
use rules::model::{Area, BLOCK_SIZE};

pub trait Engine {
    /// One pass: what is timed.
    fn pass(&mut self);
    /// One pass into an empty frame, and that frame.
    fn drawn(&mut self) -> Vec<u8>;
    /// The state block.
    fn state(&self) -> Vec<u8>;
}

/// Ours by frame steps.
pub struct Frame {
    area: Area,
    block: Vec<u8>,
    video: Vec<u8>,
    frame: Vec<u8>,
}

impl Frame {
    pub fn new(area: Area, block: &[u8], video: &[u8]) -> Frame {
        Frame { area, block: block.to_vec(), video: video.to_vec(), frame: vec![0; area.frame_size()] }
    }
}

impl Engine for Frame {
    fn pass(&mut self) {
        for _ in 0..STEPS {
            face::vdp_step(&mut self.block, &self.video, &mut self.frame, self.area as u8);
        }
    }
    fn drawn(&mut self) -> Vec<u8> {
        self.frame.fill(0);
        self.pass();
        self.frame.clone()
    }
    fn state(&self) -> Vec<u8> {
        self.block.clone()
    }
}

/// Ours by row steps, each into the same row buffer.
pub struct Row {
    area: Area,
    block: Vec<u8>,
    video: Vec<u8>,
    row: Vec<u8>,
}

impl Row {
    pub fn new(area: Area, block: &[u8], video: &[u8]) -> Row {
        Row { area, block: block.to_vec(), video: video.to_vec(), row: vec![0; area.row_size()] }
    }
}

impl Engine for Row {
    fn pass(&mut self) {
        for _ in 0..STEPS {
            face::vdp_row_step(&mut self.block, &self.video, &mut self.row, self.area as u8);
        }
    }
    fn drawn(&mut self) -> Vec<u8> {
        let mut frame = vec![0; self.area.frame_size()];
        for _ in 0..STEPS {
            let answer = face::vdp_row_step(&mut self.block, &self.video, &mut self.row, self.area as u8) as usize;
            if answer >> 24 & 1 == 1 {
                let at = (answer >> 16 & 0xFF) * self.row.len();
                frame[at..at + self.row.len()].copy_from_slice(&self.row);
            }
        }
        frame
    }
    fn state(&self) -> Vec<u8> {
        self.block.clone()
    }
}

/// Ours by frame steps with layers, each into the same layer buffer.
pub struct Layers {
    plain: Frame,
    layers: Vec<u8>,
}

impl Layers {
    pub fn new(area: Area, block: &[u8], video: &[u8]) -> Layers {
        Layers { plain: Frame::new(area, block, video), layers: vec![0; area.width()] }
    }
}

impl Engine for Layers {
    fn pass(&mut self) {
        let Frame { area, block, video, frame } = &mut self.plain;
        for _ in 0..STEPS {
            face::vdp_layer_step(block, video, frame, &mut self.layers, *area as u8);
        }
    }
    fn drawn(&mut self) -> Vec<u8> {
        self.plain.frame.fill(0);
        self.pass();
        self.plain.frame.clone()
    }
    fn state(&self) -> Vec<u8> {
        self.plain.state()
    }
}

/// Ours pixel by pixel: each of the frame by a call of its own.
pub struct Pixels {
    area: Area,
    block: Vec<u8>,
    video: Vec<u8>,
    frame: Vec<u8>,
}

impl Pixels {
    pub fn new(area: Area, block: &[u8], video: &[u8]) -> Pixels {
        Pixels { area, block: block.to_vec(), video: video.to_vec(), frame: vec![0; area.frame_size()] }
    }
}

impl Engine for Pixels {
    fn pass(&mut self) {
        let width = self.area.width();
        for (n, bytes) in self.frame.chunks_exact_mut(4).enumerate() {
            let word = face::vdp_pixel(&self.block, &self.video, self.area as u8, (n / width) as u32, (n % width) as u32);
            bytes.copy_from_slice(&((word >> 32) as u32).to_le_bytes());
        }
    }
    fn drawn(&mut self) -> Vec<u8> {
        self.frame.fill(0);
        self.pass();
        self.frame.clone()
    }
    fn state(&self) -> Vec<u8> {
        self.block.clone()
    }
}

/// The published Rust, by its only step.
pub struct Rust {
    area: Area,
    vdp: gears::Vdp,
    frame: Vec<u8>,
}

impl Rust {
    pub fn new(area: Area, block: &[u8], video: &[u8]) -> Rust {
        let vdp = gears::Vdp::new();
        gears::load(&vdp, block, video);
        Rust { area, vdp, frame: vec![0; area.frame_size()] }
    }
}

impl Engine for Rust {
    fn pass(&mut self) {
        let area = match self.area {
            Area::Visible => gears::RenderArea::VisibleOnly,
            Area::Effective => gears::RenderArea::EffectiveArea,
            Area::TrueEdges => panic!("an area that the Rust has not"),
        };
        for _ in 0..STEPS {
            self.vdp.step(&mut self.frame, area);
        }
    }
    fn drawn(&mut self) -> Vec<u8> {
        self.frame.fill(0);
        self.pass();
        self.frame.clone()
    }
    fn state(&self) -> Vec<u8> {
        gears::read(&self.vdp, BLOCK_SIZE)
    }
}

/// The floor: what is left of a pass when every pixel's colour code is known beforehand. It reads the code, reads the colour, stores the colour.
/// (Not inlined, so that what is timed is what is counted.)
pub struct Floor {
    colours: [u32; 32],
    codes: Vec<u8>,
    frame: Vec<u32>,
}

impl Floor {
    pub fn new(area: Area) -> Floor {
        let pixels = area.width() * area.height();
        Floor {
            colours: std::array::from_fn(|i| 0xFF00_0000 | i as u32),
            codes: (0..pixels).map(|i| (i * 7 % 32) as u8).collect(),
            frame: vec![0; pixels],
        }
    }
    /// Every colour in its place, from its code.
    #[inline(never)]
    pub fn colour(&mut self) {
        let colours = opaque(&self.colours);
        for (to, code) in self.frame.iter_mut().zip(opaque(&self.codes)) {
            *to = colours[*code as usize & 31];
        }
        opaque(&self.frame);
    }
    /// The stores alone: one colour everywhere.
    #[inline(never)]
    pub fn store(&mut self) {
        self.frame.fill(opaque(self.colours[1]));
        opaque(&self.frame);
    }
}

/// The same value, of which the compiler knows nothing: what it points to must be as it stands, and may be anything.
pub fn opaque<T: Copy>(value: T) -> T {
    unsafe { std::ptr::read_volatile(&value) }
}
