//! The time of one pass of 261 steps, ours and the published Rust's, in one run, for each line of a table; the first line is the pass that the
//! customer asked about. Then a second table, of the calls one by one, and a game's frame. Frames, states and reads are compared before anything is
//! timed, and again afterwards.
//!
//!   bench check SEED                     compares them and no more
//!   bench count SEED LINES               to be counted from outside: one pass of each side of the first LINES lines, then of the floors and of pixels; with all LINES, the calls and the game
//!   bench time ROUNDS SEED COUNTS PLOT   prints the tables and writes the plot; COUNTS are the instructions, as run.sh collects them (or no file)

mod calls;
mod engine;
#[path = "../oracle/face.rs"]
#[allow(dead_code)] // not every call is timed
mod face;
#[path = "../oracle/gears.rs"]
#[allow(dead_code)] // of the published file, the steps alone are timed
mod gears;
#[allow(dead_code)] // the published file, of which we use the trait alone
mod io {
    include!(concat!(env!("GEARS"), "/io.rs"));
}
mod plot;
mod workload;

use calls::{Buffers, Games, Pair, ALONE, KINDS};
use engine::{Engine, Floor};
use rules::model::Area;
use std::time::{Duration, Instant};
use workload::{List, STEPS};

/// A line of the table: which of our calls draws what. The Rust draws the same beside it.
struct Line {
    name: &'static str,
    call: Call,
    area: Area,
    list: List,
}

#[derive(PartialEq)]
enum Call {
    Frame,
    Row,
    /// By frame steps with layers; the Rust tells none.
    Layers,
}

const fn line(name: &'static str, call: Call, area: Area, list: List) -> Line {
    Line { name, call, area, list }
}

const LINES: [Line; 14] = [
    line("visible, 8 on each of 128 rows", Call::Frame, Area::Visible, List::Each(8)),
    line("the same by row steps", Call::Row, Area::Visible, List::Each(8)),
    line("the same with layers", Call::Layers, Area::Visible, List::Each(8)),
    line("visible, 7 on each", Call::Frame, Area::Visible, List::Each(7)),
    line("visible, 6 on each", Call::Frame, Area::Visible, List::Each(6)),
    line("visible, 5 on each", Call::Frame, Area::Visible, List::Each(5)),
    line("visible, 4 on each", Call::Frame, Area::Visible, List::Each(4)),
    line("visible, 3 on each", Call::Frame, Area::Visible, List::Each(3)),
    line("visible, 2 on each", Call::Frame, Area::Visible, List::Each(2)),
    line("visible, 1 on each", Call::Frame, Area::Visible, List::Each(1)),
    line("visible, 64 listed, none on a row", Call::Frame, Area::Visible, List::Each(0)),
    line("visible, empty list", Call::Frame, Area::Visible, List::Empty),
    line("effective, 8 on each of 128 rows", Call::Frame, Area::Effective, List::Each(8)),
    line("effective, empty list", Call::Frame, Area::Effective, List::Empty),
];

impl Line {
    /// Ours and the Rust's device in the same state.
    fn engines(&self, seed: u64) -> (Box<dyn Engine>, Box<dyn Engine>) {
        let (block, video) = workload::make(self.list, seed);
        let ours: Box<dyn Engine> = match self.call {
            Call::Frame => Box::new(engine::Frame::new(self.area, &block, &video)),
            Call::Row => Box::new(engine::Row::new(self.area, &block, &video)),
            Call::Layers => Box::new(engine::Layers::new(self.area, &block, &video)),
        };
        (ours, Box::new(engine::Rust::new(self.area, &block, &video)))
    }

    /// They, once they have drawn the same.
    fn compared(&self, seed: u64) -> (Box<dyn Engine>, Box<dyn Engine>) {
        let (mut ours, mut rust) = self.engines(seed);
        self.must_be_same(&mut *ours, &mut *rust);
        (ours, rust)
    }

    /// Ends the program unless both draw the same frame and are left in the same state.
    fn must_be_same(&self, ours: &mut dyn Engine, rust: &mut dyn Engine) {
        if ours.drawn() != rust.drawn() || ours.state() != rust.state() {
            println!("bench: {}: the frames or the states differ: the times mean nothing", self.name);
            std::process::exit(1);
        }
    }
}

/// The least and the middle of the times of one side, in microseconds.
struct Times {
    least: f64,
    middle: f64,
}

impl Times {
    fn of(mut all: Vec<Duration>) -> Times {
        all.sort();
        let micro = |time: Duration| time.as_nanos() as f64 / 1000.0;
        Times { least: micro(all[0]), middle: micro(all[all.len() / 2]) }
    }
}

fn timed(run: impl FnOnce()) -> Duration {
    let start = Instant::now();
    run();
    start.elapsed()
}

/// The times of one line, ours and the Rust's in turn.
fn measure(line: &Line, rounds: usize, seed: u64) -> (Times, Times) {
    let (mut ours, mut rust) = line.compared(seed);
    let (mut our_times, mut rust_times) = (Vec::new(), Vec::new());
    for _ in 0..rounds {
        our_times.push(timed(|| ours.pass()));
        rust_times.push(timed(|| rust.pass()));
    }
    line.must_be_same(&mut *ours, &mut *rust);
    (Times::of(our_times), Times::of(rust_times))
}

/// Thousands of instructions, and the ratio of two counts; a dash where they were not counted.
fn thousands(count: Option<f64>) -> String {
    count.map_or("–".to_string(), |n| format!("{:.1}", n / 1000.0))
}

fn ratio(ours: Option<f64>, rust: Option<f64>) -> String {
    match (ours, rust) {
        (Some(a), Some(b)) => format!("{:.3}", a / b),
        _ => "–".to_string(),
    }
}

/// Frames of the game that are compared before one is timed.
const GAME_FRAMES: usize = 20;

fn must_be(same: bool, what: &str) {
    if !same {
        println!("bench: {}: what is read, the pictures or the states differ: the times mean nothing", what);
        std::process::exit(1);
    }
}

/// A game on both sides, once they have played the same frames.
fn games(seed: u64) -> Games {
    let mut games = Games::new(seed);
    for _ in 0..GAME_FRAMES {
        games.ours();
        games.rust();
        must_be(games.same(), "a game's frame");
    }
    games
}

/// Compares every line of both tables.
fn check(seed: u64) {
    for line in &LINES {
        line.compared(seed);
    }
    println!("bench: the frames and the states are the same, {} lines", LINES.len());
    let mut pair = Pair::new(seed);
    for (kind, name) in KINDS {
        must_be(pair.same(kind), name);
    }
    games(seed);
    println!("bench: the calls give and leave the same, {} kinds; so do {} frames of a game", KINDS.len(), GAME_FRAMES);
}

fn time(rounds: usize, seed: u64, counts: &[f64], plot: &str) {
    // Counts are in the order of `count`: ours and the Rust's of each line, then the floors.
    let count = |n: usize| counts.get(n).copied();
    println!("One pass of {} steps, {} rounds: microseconds, least (median); thousands of instructions.\n", STEPS, rounds);
    println!("| {:33} | {:>15} | {:>15} | {:>5} | {:>7} | {:>7} | {:>5} |", "", "ours, us", "the Rust, us", "ratio", "ours, k", "Rust, k", "ratio");
    println!("|{:-<35}|{:->16}:|{:->16}:|{:->6}:|{:->8}:|{:->8}:|{:->6}:|", "", "", "", "", "", "", "");
    let mut growth = Vec::new();
    let mut first = None;
    for (n, line) in LINES.iter().enumerate() {
        let (ours, rust) = measure(line, rounds, seed);
        println!(
            "| {:33} | {:6.1} ({:6.1}) | {:6.1} ({:6.1}) | {:5.3} | {:>7} | {:>7} | {:>5} |",
            line.name,
            ours.least,
            ours.middle,
            rust.least,
            rust.middle,
            ours.least / rust.least,
            thousands(count(2 * n)),
            thousands(count(2 * n + 1)),
            ratio(count(2 * n), count(2 * n + 1))
        );
        if let (Call::Frame, Area::Visible, List::Each(k)) = (&line.call, line.area, line.list) {
            growth.push((k, ours.least, rust.least));
        }
        first.get_or_insert((ours, rust));
    }
    let mut floor = Floor::new(Area::Visible);
    let (mut colours, mut stores) = (Vec::new(), Vec::new());
    for _ in 0..rounds {
        colours.push(timed(|| floor.colour()));
        stores.push(timed(|| floor.store()));
    }
    let (colours, stores) = (Times::of(colours), Times::of(stores));
    for (n, name, times) in [(0, "floor: code, colour, store", &colours), (1, "floor: one colour stored", &stores)] {
        let count = thousands(count(2 * LINES.len() + n));
        println!("| {:33} | {:6.1} ({:6.1}) | {:>15} | {:>5} | {:>7} | {:>7} | {:>5} |", name, times.least, times.middle, "", "", count, "", "");
    }
    if let Err(error) = std::fs::write(plot, plot::growth(&growth, colours.least)) {
        eprintln!("bench: {}: {}", plot, error);
        std::process::exit(1);
    }
    let (ours, rust) = first.expect("the table has lines");
    println!();
    pixels(rounds, seed, count(2 * LINES.len() + 2));
    println!();
    calls(rounds, seed, &counts[counts.len().min(2 * LINES.len() + 3)..]);
    println!(
        "bench: ours {:.1} us, Rust {:.1} us, ratio {:.3} (of the least times; of the medians {:.3})",
        ours.least,
        rust.least,
        ours.least / rust.least,
        ours.middle / rust.middle
    );
}

/// Our rows and our pixels of the first line's workload, once they have given the same frame: a clean record, as a paused game has it.
fn rows_and_pixels(seed: u64) -> (engine::Row, engine::Pixels) {
    let line = &LINES[0];
    let (block, video) = workload::make(line.list, seed);
    let mut rows = engine::Row::new(line.area, &block, &video);
    let frame = rows.drawn();
    let mut pixels = engine::Pixels::new(line.area, &rows.state(), &video);
    if pixels.drawn() != frame {
        println!("bench: the pixels are not those of the rows: the times mean nothing");
        std::process::exit(1);
    }
    (rows, pixels)
}

/// One pixel beside one row, both ours.
fn pixels(rounds: usize, seed: u64, count: Option<f64>) {
    let (mut rows, mut pixels) = rows_and_pixels(seed);
    let (mut row_times, mut pixel_times) = (Vec::new(), Vec::new());
    for _ in 0..rounds {
        row_times.push(timed(|| rows.pass()));
        pixel_times.push(timed(|| pixels.pass()));
    }
    let (width, height) = (LINES[0].area.width() as f64, LINES[0].area.height() as f64);
    let row = Times::of(row_times).least * 1000.0 / height;
    let pixel = Times::of(pixel_times).least * 1000.0 / (width * height);
    let counted = count.map_or(String::new(), |n| format!(", {:.0} instructions", n / (width * height)));
    println!("bench: one pixel {:.1} ns{}; one row, a pass of row steps by its {} rows, {:.1} ns: a pixel costs {:.3} of a row", pixel, counted, height, row, pixel / row);
}

/// The second table, and a game's frame. Counts are in the order of `count`: ours and the Rust's of each kind, those that ours alone has, the game.
fn calls(rounds: usize, seed: u64, counts: &[f64]) {
    let count = |n: usize, calls: usize| counts.get(n).map(|count| count / calls as f64);
    let told = |count: Option<f64>| count.map_or("–".to_string(), |n| format!("{:.0}", n));
    println!("One call: nanoseconds, least (median) of {} runs; instructions. Each is one of many in a loop, which is in the figures.\n", rounds);
    println!("| {:33} | {:>17} | {:>17} | {:>6} | {:>7} | {:>7} |", "", "ours, ns", "the Rust, ns", "ratio", "ours", "Rust");
    println!("|{:-<35}|{:->18}:|{:->18}:|{:->7}:|{:->8}:|{:->8}:|", "", "", "", "", "", "");
    let nano = |times: &Times, calls: usize| format!("{:8.1} ({:6.1})", 1000.0 * times.least / calls as f64, 1000.0 * times.middle / calls as f64);
    let mut pair = Pair::new(seed);
    for (n, (kind, name)) in KINDS.into_iter().enumerate() {
        must_be(pair.same(kind), name);
        let (mut ours, mut rust) = (Vec::new(), Vec::new());
        for _ in 0..rounds {
            pair.before(kind);
            ours.push(timed(|| kind.run(&mut pair.ours, &mut pair.our_reads)));
            rust.push(timed(|| kind.run(&mut pair.rust, &mut pair.rust_reads)));
        }
        must_be(pair.same(kind), name);
        let (ours, rust, calls) = (Times::of(ours), Times::of(rust), kind.calls());
        let (our_count, rust_count) = (count(2 * n, calls), count(2 * n + 1, calls));
        let (our_nano, rust_nano) = (nano(&ours, calls), nano(&rust, calls));
        println!("| {:33} | {:>17} | {:>17} | {:6.3} | {:>7} | {:>7} |", name, our_nano, rust_nano, ours.least / rust.least, told(our_count), told(rust_count));
    }
    let mut buffers = Buffers::new(seed);
    for (n, (name, run)) in ALONE.into_iter().enumerate() {
        let times = Times::of((0..rounds).map(|_| timed(|| run(&mut buffers))).collect());
        let told = told(count(2 * KINDS.len() + n, calls::RUN));
        println!("| {:33} | {:>17} | {:>17} | {:>6} | {:>7} | {:>7} |", name, nano(&times, calls::RUN), "", "", told, "");
    }
    println!();
    let mut games = games(seed);
    let (mut ours, mut rust) = (Vec::new(), Vec::new());
    for _ in 0..rounds {
        ours.push(timed(|| games.ours()));
        rust.push(timed(|| games.rust()));
    }
    must_be(games.same(), "a game's frame");
    let (ours, rust) = (Times::of(ours), Times::of(rust));
    let (our_count, rust_count) = (count(2 * KINDS.len() + ALONE.len(), 1), count(2 * KINDS.len() + ALONE.len() + 1, 1));
    println!(
        "bench: a game's frame, {} steps and {} port calls: ours {:.1} us, Rust {:.1} us, ratio {:.3} (of the medians {:.3}); instructions {} k, Rust {} k, ratio {}",
        STEPS,
        calls::PORT_CALLS,
        ours.least,
        rust.least,
        ours.least / rust.least,
        ours.middle / rust.middle,
        thousands(our_count),
        thousands(rust_count),
        ratio(our_count, rust_count)
    );
}

/// Marks that whoever counts from outside knows by name: one stands before each pass, the other behind it.
#[no_mangle]
#[inline(never)]
pub fn counted_from() {
    engine::opaque(0);
}

#[no_mangle]
#[inline(never)]
pub fn counted_to() {
    engine::opaque(1);
}

fn counted(run: impl FnOnce()) {
    counted_from();
    run();
    counted_to();
}

fn count(seed: u64, lines: usize) {
    for line in LINES.iter().take(lines) {
        let (mut ours, mut rust) = line.compared(seed);
        counted(|| ours.pass());
        counted(|| rust.pass());
    }
    let mut floor = Floor::new(Area::Visible);
    counted(|| floor.colour());
    counted(|| floor.store());
    let (_, mut pixels) = rows_and_pixels(seed);
    counted(|| pixels.pass());
    if lines < LINES.len() {
        return;
    }
    let mut pair = Pair::new(seed);
    for (kind, _) in KINDS {
        pair.before(kind);
        counted(|| kind.run(&mut pair.ours, &mut pair.our_reads));
        counted(|| kind.run(&mut pair.rust, &mut pair.rust_reads));
    }
    let mut buffers = Buffers::new(seed);
    for (_, run) in ALONE {
        counted(|| run(&mut buffers));
    }
    let mut games = games(seed);
    counted(|| games.ours());
    counted(|| games.rust());
}

fn main() {
    let words: Vec<String> = std::env::args().skip(1).collect();
    let words: Vec<&str> = words.iter().map(String::as_str).collect();
    let number = |word: &str| word.parse::<u64>().ok();
    match words[..] {
        ["time", rounds, seed, counts, plot] => {
            if let (Some(rounds @ 1..), Some(seed)) = (number(rounds), number(seed)) {
                let counts = std::fs::read_to_string(counts).unwrap_or_default();
                let counts: Vec<f64> = counts.lines().filter_map(|line| line.parse().ok()).collect();
                return time(rounds as usize, seed, &counts, plot);
            }
        }
        ["check", seed] => {
            if let Some(seed) = number(seed) {
                return check(seed);
            }
        }
        ["count", seed, lines] => {
            if let (Some(seed), Some(lines)) = (number(seed), number(lines)) {
                return count(seed, lines as usize);
            }
        }
        _ => {}
    }
    eprintln!("usage: bench check SEED | bench count SEED LINES | bench time ROUNDS SEED COUNTS PLOT");
    std::process::exit(2);
}
