//! A call on the device with all that it is given.

use crate::model::{Area, SHEET_SIZE, VIDEO_SIZE};

/// A lent part may be longer than it need be by this much.
pub const EXTRA: usize = 2048;

/// A length far above that of any frame.
pub const VERY_LONG: usize = 1_000_003;

#[derive(Clone, Copy, PartialEq, Debug)]
pub enum Kind {
    New,
    NewTable,
    Out,
    Input,
    Step,
    RowStep,
    Dump,
}

/// A call with all that it is given.
#[derive(Clone, Debug)]
pub struct Call {
    pub kind: Kind,
    pub port: u16,
    /// The byte to write, the area or the table.
    pub value: u8,
    /// The length of the state block; none is that of the block that stands there.
    pub state_len: Option<usize>,
    pub video_len: usize,
    /// The length of the frame, row or sheet.
    pub pixels_len: usize,
    /// The length of the layer buffer; none is a step without layers.
    pub layers_len: Option<usize>,
    /// A byte of the block that is set just before the call.
    pub poke: Option<(usize, u8)>,
}

impl Call {
    /// A call with right lengths, and no pixels.
    pub fn plain(kind: Kind, port: u16, value: u8) -> Call {
        Call { kind, port, value, state_len: None, video_len: VIDEO_SIZE, pixels_len: 0, layers_len: None, poke: None }
    }
    pub fn out(port: u16, value: u8) -> Call {
        Call::plain(Kind::Out, port, value)
    }
    pub fn input(port: u16) -> Call {
        Call::plain(Kind::Input, port, 0)
    }
    pub fn step(area: Area) -> Call {
        Call { pixels_len: area.frame_size(), ..Call::plain(Kind::Step, 0, area as u8) }
    }
    pub fn row_step(area: Area, extra: usize) -> Call {
        Call { pixels_len: area.row_size() + extra, ..Call::plain(Kind::RowStep, 0, area as u8) }
    }
    /// The same step with layers, in a buffer of this many bytes.
    pub fn with_layers(self, layers_len: usize) -> Call {
        Call { layers_len: Some(layers_len), ..self }
    }
    pub fn dump() -> Call {
        Call { pixels_len: SHEET_SIZE, ..Call::plain(Kind::Dump, 0, 0) }
    }
    /// The kind and area by name, for the counts.
    pub fn name(&self) -> &'static str {
        match (self.kind, self.value, self.layers_len.is_some()) {
            (Kind::New, _, _) => "new",
            (Kind::NewTable, _, _) => "new with a table",
            (Kind::Out, _, _) => "port writes",
            (Kind::Input, _, _) => "port reads",
            (Kind::Step, 0, false) => "visible steps",
            (Kind::Step, 1, false) => "effective steps",
            (Kind::Step, 2, false) => "true-edge steps",
            (Kind::RowStep, 0, false) => "visible row steps",
            (Kind::RowStep, 1, false) => "effective row steps",
            (Kind::RowStep, 2, false) => "true-edge row steps",
            (Kind::Step, 0, true) => "visible steps with layers",
            (Kind::Step, 1, true) => "effective steps with layers",
            (Kind::Step, 2, true) => "true-edge steps with layers",
            (Kind::RowStep, 0, true) => "visible row steps with layers",
            (Kind::RowStep, 1, true) => "effective row steps with layers",
            (Kind::RowStep, 2, true) => "true-edge row steps with layers",
            (Kind::Dump, _, _) => "dumps",
            _ => "steps of no area",
        }
    }
}
