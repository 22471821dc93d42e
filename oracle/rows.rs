//! Rows made to meet every rule of the picture: each X with and without the early clock, both heights, both pattern bases,
//! every scroll modulo 8, in each area, with sprites that overlap and priority tiles under them; each in one of the block's versions with table 0,
//! and every fourth also with table 1. Each is drawn without layers and with them.

use rules::model::{self, Area, Device, VIDEO_SIZE};
use rules::random::Random;
use rules::sessions::{Shape, SHAPES};
use crate::shrink::{self, Start};
use rules::call::Call;
use crate::world::{Ours, World};
use crate::Counts;

/// Draws all the rows, or each `every`th of them; answers the number of differences (it stops at the first).
pub fn run(seed: u64, every: u64, side: Ours) -> u64 {
    let mut random = Random::new(seed);
    let mut world = World::new(side, seed);
    let mut counts = Counts::default();
    let total = 2 * (3 * 256 * 2 * 2 * 2 * 8 / 4 * 5) / every;
    let mut turn = seed;
    for area in [Area::Visible, Area::Effective, Area::TrueEdges] {
        for x in 0..=255u8 {
            for shape in 0..64u8 {
                let (early, tall, high, scroll) = (shape & 1, shape >> 1 & 1, shape >> 2 & 1, shape >> 3);
                let one = &SHAPES[random.below(2)..][..1];
                let other = if x.wrapping_add(shape) % 4 == 0 { &SHAPES[2..] } else { &[] };
                for kind in one.iter().chain(other) {
                    turn += 1;
                    if turn % every != 0 {
                        continue;
                    }
                    let (block, video) = scene(&mut random, *kind, area, x, [early, tall, high, scroll]);
                    let plain = Call::row_step(area, 0);
                    for call in [plain.clone(), plain.with_layers(area.width())] {
                        world.start(&block, &video);
                        match world.call(&call) {
                            Ok(met) => counts.add(&call, &met),
                            Err(text) => {
                                println!("difference: {}", text);
                                shrink::report(side, Start { block, video }, vec![call]);
                                println!("compare: rows, seed {}, 1 difference", seed);
                                return 1;
                            }
                        }
                        counts.progress(total);
                    }
                }
            }
        }
    }
    counts.print();
    println!("compare: {} rows, seed {}, 0 differences", counts.calls, seed);
    0
}

/// A device about to draw a row with a first sprite at X and others that touch it.
fn scene(random: &mut Random, (size, table): Shape, area: Area, x: u8, [early, tall, high, scroll]: [u8; 4]) -> (Vec<u8>, Vec<u8>) {
    let mut device = Device::made(table);
    let line = match area {
        Area::Visible | Area::TrueEdges => 24 + random.below(144),
        Area::Effective => random.below(224),
    } as u8;
    device.counter = line.wrapping_sub(1);
    device.jumped = true;
    device.registers[0] = early << 3;
    device.registers[1] = tall << 1 | 0x40;
    device.registers[2] = random.byte();
    device.registers[5] = random.byte();
    device.registers[6] = high << 2;
    device.registers[8] = (random.byte() & 0xF8) + scroll;
    device.registers[9] = random.byte();
    device.vertical_scroll = random.byte();
    random.fill(&mut device.palette);
    device.cache = model::colours(&device.palette);
    device.dirty = random.chance(1, 2);
    let mut video = vec![0; VIDEO_SIZE];
    random.fill(&mut video);
    for tile in 0..512 {
        if random.chance(1, 3) {
            let byte = random.one_of(&[0x00, 0xFF]);
            video[32 * tile..32 * tile + 32].fill(byte);
        }
    }
    let names = (device.registers[2] & 0x0E) as usize * 1024;
    let priority = random.one_of(&[0x00, 0x10]);
    for entry in 0..28 * 32 {
        video[names + 2 * entry + 1] = video[names + 2 * entry + 1] & 0x0F | priority & random.byte();
    }
    // the sprites: on the line from the top or the bottom on, a few pixels from the first, or anywhere
    let sprites = (device.registers[5] & 0x7E) as usize * 128;
    let height = if tall == 1 { 16 } else { 8 };
    let on_line = 1 + random.below(10);
    for n in 0..64 {
        let down = if n < on_line { random.below(height) as u8 } else { height as u8 + 1 };
        video[sprites + n] = line.wrapping_sub(1 + down);
        let near = x.wrapping_add(random.below(17) as u8).wrapping_sub(8);
        video[sprites + 128 + 2 * n] = match n {
            0 => x,
            _ if random.chance(2, 3) => near,
            _ => random.byte(),
        };
    }
    (device.encode(size), video)
}
