//! Holds the call of one pixel beside the library's own row step and beside the rules written a second time; needs the library, and not the
//! published Rust.
//!
//!   pixels STATES SEED     on so many random states every pixel of all areas beside the row step, before and after it, and one of each row
//!                          beside the model; then rows and columns outside, and every refusal
//!
//! Exit status 1 on any difference, 2 on bad usage.

use rules::model::{self, Area, Device, VIDEO_SIZE};
use rules::random::Random;
use rules::sessions::{any_shape, made_by_hand};

#[allow(dead_code)] // of the calls, these two alone
mod face;

use face::{vdp_pixel as pixel, vdp_row_step as row_step};

/// What was asked so far.
#[derive(Default)]
struct Counts {
    pixels: u64,
    beside_model: u64,
    sprites: u64,
    answers: [u64; 12],
}

/// A state with sprites on every row: X bytes and all else as states made by hand have them, Y bytes over the whole picture.
fn state(random: &mut Random) -> (Vec<u8>, Vec<u8>) {
    let shape = any_shape(random);
    let (block, mut video) = made_by_hand(random, shape);
    let table = (block[3 + 5] & 0x7E) as usize * 128;
    let (least, most) = match random.below(3) {
        0 => (0, 224),
        1 => (20, 60),
        _ => (100, 130),
    };
    for n in 0..64 {
        video[table + n] = match random.below(if n < 20 { 40 } else { 160 }) {
            0 => random.byte(),
            1 if n > 8 => 0xD0,
            _ => (least + random.below(most - least)) as u8,
        };
    }
    (block, video)
}

/// Every pixel of an area beside the row step that draws its row, asked before the step and after it.
fn area_of(counts: &mut Counts, random: &mut Random, block: &[u8], video: &[u8], area: Area, number: u8) -> Result<(), String> {
    for y in 0..area.height() {
        let mut before = block.to_vec();
        // the step that draws the row; at line 0 it latches the scroll, which the effective area does not ask for
        before[14] = ((y + area.first_line()) as u8).wrapping_sub(1);
        before[15] = 1;
        let mut after = before.clone();
        let mut row = vec![0x5A; area.row_size()];
        let word = row_step(&mut after, video, &mut row, number);
        if word >> 16 != 0x100 | y as u32 {
            return Err(format!("the step for row {} answered {:08X}", y, word));
        }
        let check = random.below(area.width());
        for x in 0..area.width() {
            let want = 1 << 24 | (u32::from_le_bytes([row[4 * x], row[4 * x + 1], row[4 * x + 2], row[4 * x + 3]]) as u64) << 32;
            let kept = (before.clone(), after.clone());
            for (when, state) in [("before", &before), ("after", &after)] {
                // asked before the step of each row, and after it of every other: both come by one engine
                if when == "after" && x % 8 != y % 8 {
                    continue;
                }
                let word = pixel(state, video, number, y as u32, x as u32);
                counts.pixels += 1;
                if word != want {
                    return Err(format!("{:?}, row {}, column {}, {} the step: pixel {:016X}, row {:016X}", area, y, x, when, word, want));
                }
            }
            if kept != (before.clone(), after.clone()) {
                return Err(format!("{:?}, row {}, column {}: the block changed", area, y, x));
            }
            if x == check {
                counts.beside_model += 1;
                let word = model::vdp_pixel(&before, video, number, y as u32, x as u32);
                if word != want {
                    return Err(format!("{:?}, row {}, column {}: row {:016X}, model {:016X}", area, y, x, want, word));
                }
            }
        }
        let drawn = Device::decode(&after).map_or(0, |device| device.status & 0x60);
        counts.sprites += (drawn != 0) as u64;
    }
    Ok(())
}

/// One call beside the model.
fn beside_model(counts: &mut Counts, state: &[u8], video: &[u8], area: u8, row: u32, column: u32) -> Result<(), String> {
    let (ours, theirs) = (pixel(state, video, area, row, column), model::vdp_pixel(state, video, area, row, column));
    counts.pixels += 1;
    counts.beside_model += 1;
    counts.answers[(theirs % 256) as usize] += 1;
    if ours != theirs {
        return Err(format!("area {}, row {}, column {}, {} and {} bytes: ours {:016X}, model {:016X}", area, row, column, state.len(), video.len(), ours, theirs));
    }
    Ok(())
}

/// Rows and columns at the edges of the areas and far outside, areas above 2, memories and blocks of other lengths, blocks with a byte changed.
fn limits(counts: &mut Counts, random: &mut Random, block: &[u8], video: &[u8]) -> Result<(), String> {
    let places: Vec<u32> = vec![0, 1, 143, 144, 145, 159, 160, 161, 223, 224, 225, 255, 256, 257, 511, 65536, 1 << 31, u32::MAX];
    let mut long = video.to_vec();
    long.push(0);
    for area in [0, 1, 2, 3, 127, 128, 255] {
        for row in &places {
            for column in &places {
                beside_model(counts, block, video, area, *row, *column)?;
            }
        }
        for video in [&long[..0], &long[..1], &long[..VIDEO_SIZE - 1], &long[..]] {
            for (row, column) in [(0, 0), (90, 80), (300, 300)] {
                beside_model(counts, block, video, area, row, column)?;
                beside_model(counts, &block[1..], video, area, row, column)?;
            }
        }
    }
    for at in 0..block.len() {
        let mut other = block.to_vec();
        other[at] = random.byte();
        beside_model(counts, &other, video, random.below(4) as u8, random.below(150) as u32, random.below(170) as u32)?;
        beside_model(counts, &block[..at], video, 0, 0, 0)?;
    }
    Ok(())
}

fn run(states: u64, seed: u64) -> i32 {
    let mut random = Random::new(seed);
    let mut counts = Counts::default();
    let mut done = Ok(());
    for n in 0..states {
        let (block, video) = state(&mut random);
        done = area_of(&mut counts, &mut random, &block, &video, Area::Visible, 0)
            .and_then(|()| area_of(&mut counts, &mut random, &block, &video, Area::Effective, 1))
            .and_then(|()| area_of(&mut counts, &mut random, &block, &video, Area::TrueEdges, 2))
            .and_then(|()| if n < 20 { limits(&mut counts, &mut random, &block, &video) } else { Ok(()) });
        if let Err(text) = &done {
            println!("difference: state {}: {}", n, text);
            println!("pixels: {} states, seed {}, 1 difference", n + 1, seed);
            return 1;
        }
    }
    for number in [0, 8, 10, 11] {
        println!("{:>10}  at the limits answered {}", counts.answers[number], number);
        if counts.answers[number] == 0 {
            println!("pixels: answer {} was never met", number);
            return 1;
        }
    }
    println!("{:>10}  rows where sprites met or a ninth stood", counts.sprites);
    println!("{:>10}  calls also beside the model", counts.beside_model);
    println!("pixels: {} calls on {} states, seed {}, 0 differences", counts.pixels, states, seed);
    done.is_err() as i32
}

fn main() {
    let words: Vec<String> = std::env::args().skip(1).collect();
    let numbers: Vec<u64> = words.iter().filter_map(|word| word.parse().ok()).collect();
    match (words.len(), &numbers[..]) {
        (2, [states, seed]) => std::process::exit(run(*states, *seed)),
        _ => {
            eprintln!("usage: pixels STATES SEED");
            std::process::exit(2)
        }
    }
}
