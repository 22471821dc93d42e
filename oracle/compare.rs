//! Holds the library beside the published Rust and beside the model, call by call.
//!
//!   compare CALLS SEED [OURS]    random sessions from fresh devices, and states made by hand
//!   compare rows SEED [EVERY] [OURS] rows made to meet every rule of the picture, through the row step; with EVERY each EVERYth of them, of refusals too
//!   compare refusals SEED [OURS] every length near a right one, every area, every table, every way to damage a block
//!   compare vectors COUNT SEED   writes the list of the Rust's answers that `replay` holds (see VECTORS.md)
//!
//! Our side is the linked library; with --model it is the model; with --tight it is the library, each buffer lent as memory of its
//! own (for a memory checker). Exit status 1 on any difference, 2 on bad usage.

#[allow(dead_code)] // one pixel has a program of its own
mod face;
mod gears;
#[allow(dead_code)] // the published file, of which we use the trait alone
mod io {
    include!(concat!(env!("GEARS"), "/io.rs"));
}
mod refusals;
mod rows;
mod shrink;
mod vectors;
mod world;

use rules::call::Call;
use rules::random::Random;
use rules::sessions::Shape;
use std::collections::BTreeMap;
use std::time::{Duration, Instant};
use world::{Met, Ours, World};

/// What these calls can answer: 13 to 15 are of the calls on tiles (tiles.rs).
const ANSWERS: [usize; 14] = [0, 1, 2, 3, 4, 5, 6, 7, 8, 9, 10, 11, 12, 16];

/// What was met in a run.
#[derive(Default)]
pub struct Counts {
    calls: u64,
    beside_rust: u64,
    kinds: BTreeMap<&'static str, u64>,
    /// By number, 0 where the call was accepted.
    refusals: [u64; 17],
    rows: [u64; 3],
    /// Departures from the Rust, and what was met of tables, versions, layers and true edges, by name.
    met: BTreeMap<&'static str, u64>,
    told: Option<Instant>,
}

impl Counts {
    pub fn add(&mut self, call: &Call, met: &Met) {
        self.calls += 1;
        self.beside_rust += met.beside_rust as u64;
        *self.kinds.entry(call.name()).or_insert(0) += 1;
        self.refusals[(met.word % 256) as usize] += 1;
        if met.word >> 24 == 1 {
            self.rows[call.value as usize] += 1;
        }
        for name in met.departure.iter().chain(&met.tables).chain(&met.layers).chain(&met.edges) {
            *self.met.entry(name).or_insert(0) += 1;
        }
    }

    /// A line of progress every few seconds.
    fn progress(&mut self, of: u64) {
        let now = Instant::now();
        match self.told {
            Some(last) if now - last < Duration::from_secs(3) => {}
            None => self.told = Some(now),
            Some(_) => {
                self.told = Some(now);
                eprintln!("compare: {} of {} calls", self.calls, of);
            }
        }
    }

    fn print(&self) {
        for (name, count) in &self.kinds {
            println!("{:>10}  {}", count, name);
        }
        println!("{:>10}  visible rows drawn", self.rows[0]);
        println!("{:>10}  effective rows drawn", self.rows[1]);
        println!("{:>10}  rows drawn with true edges", self.rows[2]);
        for number in ANSWERS {
            println!("{:>10}  answered {}", self.refusals[number], number);
        }
        for name in world::TABLES.iter().chain(&world::LAYERS).chain(&world::EDGES) {
            println!("{:>10}  {}", self.met.get(name).unwrap_or(&0), name);
        }
        println!("{:>10}  calls also beside the Rust", self.beside_rust);
        for name in world::DEPARTURES {
            println!("{:>10}  departure: {}", self.met.get(name).unwrap_or(&0), name);
        }
    }

    /// What a long run must have met and this one has not.
    fn unmet(&self) -> Vec<String> {
        let mut unmet = Vec::new();
        for number in ANSWERS {
            if self.refusals[number] == 0 {
                unmet.push(format!("answer {}", number));
            }
        }
        for name in world::DEPARTURES.iter().chain(&world::TABLES).chain(&world::LAYERS).chain(&world::EDGES) {
            if !self.met.contains_key(name) {
                unmet.push(name.to_string());
            }
        }
        unmet
    }
}

/// A run of this many calls or more must meet every refusal, every departure, and all that there is of tables, versions, layers and true edges.
const LONG_RUN: u64 = 100_000;

/// Random sessions; answers the number of differences (it stops at the first).
fn sessions(calls: u64, seed: u64, side: Ours) -> u64 {
    let mut counts = Counts::default();
    let mut random = Random::new(seed);
    let mut world = World::new(side, seed);
    let mut difference = None;
    while counts.calls < calls && difference.is_none() {
        counts.progress(calls);
        let left = calls - counts.calls;
        difference = if random.chance(1, 800) {
            let shape = rules::sessions::any_shape(&mut random);
            fresh_session(&mut world, &mut counts, left.min(3000), shape, random.word())
        } else {
            hand_session(&mut world, &mut counts, left, &mut random)
        };
    }
    counts.print();
    if let Some((start, done, text)) = difference {
        println!("difference at call {}: {}", counts.calls + 1, text);
        shrink::report(side, start, done);
        println!("compare: {} calls, seed {}, 1 difference", counts.calls + 1, seed);
        return 1;
    }
    let unmet = counts.unmet();
    if calls >= LONG_RUN && !unmet.is_empty() {
        println!("compare: {} calls, seed {}, 0 differences, but not met: {}", counts.calls, seed, unmet.join("; "));
        return 1;
    }
    println!("compare: {} calls, seed {}, 0 differences", counts.calls, seed);
    0
}

/// Where a session began, the calls up to the one that differed, and how it differed.
type Difference = (shrink::Start, Vec<Call>, String);

/// A long session from a fresh device of this shape, all through its ports.
fn fresh_session(world: &mut World, counts: &mut Counts, calls: u64, shape: Shape, seed: u64) -> Option<Difference> {
    let start = shrink::Start::fresh(shape);
    world.start(&start.block, &start.video);
    let mut session = rules::sessions::Session::new(seed);
    let mut done = Vec::new();
    for _ in 0..calls {
        let call = session.next(world.block());
        done.push(call.clone());
        match world.call(&call) {
            Ok(met) => counts.add(&call, &met),
            Err(text) => return Some((start, done, text)),
        }
    }
    None
}

/// A few calls from a state made by hand.
fn hand_session(world: &mut World, counts: &mut Counts, left: u64, random: &mut Random) -> Option<Difference> {
    let shape = rules::sessions::any_shape(random);
    let (block, video) = rules::sessions::made_by_hand(random, shape);
    world.start(&block, &video);
    let mut done = Vec::new();
    for _ in 0..left.min(1 + random.below(6) as u64) {
        let mut call = rules::sessions::any_call(random);
        let spoiled = random.chance(1, 25);
        if spoiled {
            rules::sessions::spoil(random, &mut call);
        }
        if random.chance(1, if spoiled { 2 } else { 25 }) {
            rules::sessions::spoil_layers(random, &mut call);
        }
        done.push(call.clone());
        match world.call(&call) {
            Ok(met) => counts.add(&call, &met),
            Err(text) => return Some((shrink::Start { block, video }, done, text)),
        }
    }
    None
}

fn usage() -> ! {
    eprintln!("usage: compare CALLS SEED [--model|--tight] | compare rows|refusals SEED [EVERY] [--model|--tight] | compare vectors COUNT SEED");
    std::process::exit(2)
}

fn main() {
    world::quiet_panics();
    let mut words: Vec<String> = std::env::args().skip(1).collect();
    let side = match words.last().map(|word| word.as_str()) {
        Some("--model") => Ours::Model,
        Some("--tight") => Ours::Tight,
        _ => Ours::Library,
    };
    if side != Ours::Library {
        words.pop();
    }
    let words: Vec<&str> = words.iter().map(|word| word.as_str()).collect();
    let number = |word: &str| word.parse::<u64>().unwrap_or_else(|_| usage());
    let differences = match words[..] {
        ["rows", seed] => rows::run(number(seed), 1, side),
        ["rows", seed, every] => rows::run(number(seed), number(every).max(1), side),
        ["refusals", seed] => refusals::run(number(seed), 1, side),
        ["refusals", seed, every] => refusals::run(number(seed), number(every).max(1), side),
        ["vectors", count, seed] => vectors::write(number(count), number(seed)),
        [calls, seed] => sessions(number(calls), number(seed), side),
        _ => usage(),
    };
    std::process::exit(if differences == 0 { 0 } else { 1 });
}
