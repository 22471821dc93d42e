//! From a session that differs to the smallest input that still does.

use rules::model::{Device, Table, VIDEO_SIZE};
use rules::call::{Call, Kind};
use rules::sessions::Shape;
use crate::world::{Ours, World};

/// The state that a session starts from.
#[derive(Clone)]
pub struct Start {
    pub block: Vec<u8>,
    pub video: Vec<u8>,
}

impl Start {
    /// A fresh device of this shape.
    pub fn fresh((size, table): Shape) -> Start {
        Start { block: Device::made(table).encode(size), video: vec![0; VIDEO_SIZE] }
    }
}

/// How the calls differ from this start, if they do; with other bytes in the lent buffers than the run had.
fn differs(side: Ours, start: &Start, calls: &[Call]) -> Option<String> {
    let mut world = World::new(side, 0);
    world.start(&start.block, &start.video);
    calls.iter().find_map(|call| world.call(call).err())
}

/// The state just before the last call.
fn before_last(side: Ours, start: &Start, calls: &[Call]) -> Start {
    let mut world = World::new(side, 0);
    world.start(&start.block, &start.video);
    for call in &calls[..calls.len() - 1] {
        // the call that differs is the last one
        let _ = world.call(call);
    }
    Start { block: world.block().to_vec(), video: world.video().to_vec() }
}

/// Shrinks and prints the input, with how the sides differ on it.
pub fn report(side: Ours, start: Start, calls: Vec<Call>) {
    let last = calls[calls.len() - 1..].to_vec();
    let before = before_last(side, &start, &calls);
    let (mut start, mut calls) = if differs(side, &before, &last).is_some() { (before, last) } else { (start, calls) };
    if differs(side, &start, &calls).is_none() {
        println!("the difference does not come again with other bytes in the lent buffers: shrinking is left out");
        return;
    }
    // Calls, in runs that get shorter.
    let mut run = calls.len() / 2;
    while run > 0 {
        let mut at = 0;
        while at + run < calls.len() {
            let mut fewer = calls.clone();
            fewer.drain(at..at + run);
            if differs(side, &start, &fewer).is_some() {
                calls = fewer;
            } else {
                at += run;
            }
        }
        run /= 2;
    }
    // Bytes of video memory to 0, in runs that get shorter.
    let mut run = VIDEO_SIZE;
    while run > 0 {
        for at in (0..VIDEO_SIZE).step_by(run) {
            if start.video[at..at + run].iter().any(|byte| *byte != 0) {
                let mut simpler = start.clone();
                simpler.video[at..at + run].fill(0);
                if differs(side, &simpler, &calls).is_some() {
                    start = simpler;
                }
            }
        }
        run /= 4;
    }
    // Bytes of the block to those of a fresh one, else to 0.
    let fresh = Start::fresh((start.block.len(), Table::Steps261));
    // Twice, since a latch's flag can go only after its byte.
    for at in (0..fresh.block.len()).chain(0..fresh.block.len()) {
        for byte in [fresh.block[at], 0] {
            let mut simpler = start.clone();
            simpler.block[at] = byte;
            if start.block[at] == byte || differs(side, &simpler, &calls).is_some() {
                start = simpler;
                break;
            }
        }
    }
    // Set bits of what is left.
    for at in 0..VIDEO_SIZE {
        for bit in 0..8 {
            if start.video[at] >> bit & 1 == 1 {
                let mut simpler = start.clone();
                simpler.video[at] -= 1 << bit;
                if differs(side, &simpler, &calls).is_some() {
                    start = simpler;
                }
            }
        }
    }
    print(&start, &calls);
    println!("  {}", differs(side, &start, &calls).unwrap_or_default());
}

fn print(start: &Start, calls: &[Call]) {
    let fresh = Start::fresh((start.block.len(), Table::Steps261));
    println!("smallest input found; a fresh state block of {} bytes and table 0, but for", fresh.block.len());
    for at in 0..fresh.block.len() {
        if start.block[at] != fresh.block[at] {
            println!("  block byte {} = {:02X}{}", at, start.block[at], field(at));
        }
    }
    println!("video memory zero, but for");
    for at in 0..VIDEO_SIZE {
        if start.video[at] != 0 {
            println!("  video byte {:04X} = {:02X}", at, start.video[at]);
        }
    }
    println!("calls");
    for call in calls {
        let what = match call.kind {
            Kind::New => "new".to_string(),
            Kind::NewTable => format!("new with table {}", call.value),
            Kind::Out => format!("write port {:04X} value {:02X}", call.port, call.value),
            Kind::Input => format!("read port {:04X}", call.port),
            Kind::Step => format!("step, area {}, frame of {} bytes", call.value, call.pixels_len),
            Kind::RowStep => format!("row step, area {}, row of {} bytes", call.value, call.pixels_len),
            Kind::Dump => format!("dump, sheet of {} bytes", call.pixels_len),
        };
        println!("  {}", what);
        if let Some(size) = call.layers_len {
            println!("    with a layer buffer of {} bytes", size);
        }
        if let Some(size) = call.state_len {
            println!("    with a state block of {} bytes", size);
        }
        if call.video_len != VIDEO_SIZE {
            println!("    with {} bytes of video memory", call.video_len);
        }
        if let Some((at, byte)) = call.poke {
            println!("    with block byte {} = {:02X}", at, byte);
        }
    }
}

/// What a byte of the block is.
fn field(at: usize) -> String {
    let name = match at {
        0 | 1 => "mark",
        2 => "status",
        3..=13 => return format!(" (register {})", at - 3),
        14 => "counter",
        15 => "jump flag",
        16 => "line count",
        17 | 18 => "address",
        19 => "read buffer",
        20 => "chosen memory",
        21 | 22 => "command latch",
        23 | 24 => "palette latch",
        25 => "vertical scroll",
        26 => "dirty",
        27..=90 => return format!(" (palette byte {})", at - 27),
        219 => "table",
        _ => return format!(" (cached colour {}, byte {})", (at - 91) / 4, (at - 91) % 4),
    };
    format!(" ({})", name)
}
