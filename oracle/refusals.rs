//! Every length near a right one, of layers too, every area, every table, every value of each byte that a block can be malformed by, and all of these at once
//! in each order, on blocks of both versions and both tables: refused or accepted as the model says, with every byte in place.

use crate::shrink::{self, Start};
use crate::world::{Ours, World};
use crate::Counts;
use rules::call::{Call, Kind, EXTRA, VERY_LONG};
use rules::model::{Area, BLOCK_SIZE, OLD_SIZE, SHEET_SIZE, VIDEO_SIZE};
use rules::random::Random;
use rules::sessions::{made_by_hand, SHAPES};

/// Lengths of the state below this are tried.
const STATE_LENGTHS: usize = 280;

/// One call of each kind, with right lengths.
fn right_calls() -> Vec<Call> {
    let mut calls = vec![Call::plain(Kind::New, 0, 0), Call::plain(Kind::NewTable, 0, 0), Call::plain(Kind::NewTable, 0, 1), Call::dump()];
    for port in [0x7E, 0x7F, 0xBE, 0xBF, 0x00] {
        calls.push(Call::input(port));
        calls.push(Call::out(port, 0x8B));
    }
    for area in [Area::Visible, Area::Effective, Area::TrueEdges] {
        calls.push(Call::step(area));
        calls.push(Call::row_step(area, 0));
        calls.push(Call::step(area).with_layers(area.width()));
        calls.push(Call::row_step(area, 0).with_layers(area.width()));
    }
    calls
}

/// All the spoiled calls.
fn spoiled_calls() -> Vec<Call> {
    let mut calls = Vec::new();
    for right in right_calls() {
        let steps = matches!(right.kind, Kind::Step | Kind::RowStep);
        for state_len in 0..STATE_LENGTHS {
            calls.push(Call { state_len: Some(state_len), ..right.clone() });
        }
        for video_len in (0..40).chain(VIDEO_SIZE - 40..VIDEO_SIZE + 40) {
            calls.push(Call { video_len, ..right.clone() });
        }
        // in the length of the block, and for what tells the version and the table in that of either version
        for at in [0, 1, 15, 20, 21, 22, 23, 24, 26, 219] {
            for byte in 0..=255 {
                calls.push(Call { poke: Some((at, byte)), ..right.clone() });
                if at == 1 || at == 219 {
                    for size in [OLD_SIZE, BLOCK_SIZE] {
                        calls.push(Call { state_len: Some(size), poke: Some((at, byte)), ..right.clone() });
                    }
                }
            }
        }
        let lengths = match right.kind {
            Kind::Step => (0..40).chain(right.pixels_len - 40..right.pixels_len + 40),
            Kind::RowStep => (0..0).chain(0..1100),
            Kind::Dump => (0..40).chain(SHEET_SIZE - 40..SHEET_SIZE + 40),
            _ => (0..0).chain(0..0),
        };
        for pixels_len in lengths {
            calls.push(Call { pixels_len, ..right.clone() });
        }
        if right.kind == Kind::Step {
            // the frame of the other area, and one far too long; at each line, those that draw nothing too
            for pixels_len in [0, 92_159, 92_160, 92_161, 229_375, 229_376, 229_377, VERY_LONG] {
                for line in 0..=255 {
                    calls.push(Call { pixels_len, poke: Some((14, line)), ..right.clone() });
                }
            }
        }
        if let Some(right_len) = right.layers_len {
            for layers_len in (0..300).chain([1024, 256 + EXTRA]) {
                calls.push(Call { layers_len: Some(layers_len), ..right.clone() });
            }
            // at each line, those that draw nothing too
            for layers_len in [0, right_len - 1, right_len, right_len + 1] {
                for line in 0..=255 {
                    calls.push(Call { layers_len: Some(layers_len), poke: Some((14, line)), ..right.clone() });
                }
            }
        }
        if steps {
            for area in 3..=255 {
                // a buffer that does for the visible area
                let pixels_len = if right.kind == Kind::Step { Area::Visible.frame_size() } else { 1024 };
                calls.push(Call { value: area, pixels_len, ..right.clone() });
            }
        }
        // several at once: the order of the refusals
        for several in 0..128 {
            if several & 64 != 0 && right.layers_len.is_none() {
                continue;
            }
            let mut call = right.clone();
            if several & 1 != 0 {
                call.poke = Some((15, 2));
            }
            if several & 2 != 0 && steps {
                call.value = 3;
                call.pixels_len = call.pixels_len.min(Area::Visible.frame_size());
            }
            if several & 4 != 0 {
                call.video_len = VIDEO_SIZE - 1;
            }
            if several & 8 != 0 {
                call.pixels_len = 600;
            }
            if several & 16 != 0 && call.kind == Kind::Step {
                call.pixels_len = VERY_LONG;
            }
            if several & 32 != 0 {
                // of a block of the first version this is no byte
                call.poke = Some((219, 2));
            }
            if several & 64 != 0 {
                call.layers_len = right.layers_len.map(|len| len - 1);
            }
            calls.push(call);
        }
    }
    for table in 0..=255 {
        for state_len in 0..STATE_LENGTHS {
            calls.push(Call { state_len: Some(state_len), ..Call::plain(Kind::NewTable, 0, table) });
        }
    }
    calls
}

/// Makes each call, or each `every`th, from a state made by hand of each shape; answers the number of differences (it stops at the first).
pub fn run(seed: u64, every: u64, side: Ours) -> u64 {
    let mut random = Random::new(seed);
    let mut world = World::new(side, seed);
    let mut counts = Counts::default();
    let calls: Vec<Call> = spoiled_calls().into_iter().skip((seed % every) as usize).step_by(every as usize).collect();
    for some in calls.chunks(64) {
        for shape in SHAPES {
            let (block, video) = made_by_hand(&mut random, shape);
            let mut moved = true;
            for call in some {
                if moved {
                    world.start(&block, &video);
                }
                match world.call(call) {
                    Ok(met) => {
                        counts.add(call, &met);
                        // a refusal from 8 on has left all as it was
                        moved = met.word % 256 < 8 || call.poke.is_some();
                    }
                    Err(text) => {
                        println!("difference: {}", text);
                        shrink::report(side, Start { block, video }, vec![call.clone()]);
                        println!("compare: refusals, seed {}, 1 difference", seed);
                        return 1;
                    }
                }
                counts.progress((SHAPES.len() * calls.len()) as u64);
            }
        }
    }
    counts.print();
    println!("compare: {} calls with lengths, areas and blocks of every kind, seed {}, 0 differences", counts.calls, seed);
    0
}
