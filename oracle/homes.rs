//! Holds the programs `home-trace` and `home-snapshot` beside the home machine's rules written a second time (home.rs); needs neither the library nor
//! the published Rust.
//!
//!   homes trace N SEED PROGRAM      runs PROGRAM on the fixed traces, on one for each vertical scroll and on N random ones, and compares all that it writes, and its
//!                                   exit status
//!   homes snapshot N SEED PROGRAM   the same for the picture
//!   homes text < TRACE              the text that the second writing gives for one trace
//!   homes picture < TRACE           the picture
//!
//! PROGRAM is started by the words of the variable RUN, if it is set (an emulator). Exit status 1 on any difference, and where an edge that home.rs
//! names was not met; 2 on bad usage.

use rules::home::{snapshot_bytes, trace_text, Met};
use rules::random::Random;
use rules::recording::{status_due, LIMIT};
use std::fs::{self, File};
use std::io::{Read, Write};
use std::path::Path;
use std::process::{Command, Stdio};

const COMMAND: u8 = 0xBF;
const DATA: u8 = 0xBE;
/// Where the map and the sprites' table of every scene are.
const NAMES: usize = 0x3800;
const SPRITES: usize = 0x3F00;
const LAST_STEP: usize = 261;

/// A trace in the making.
#[derive(Default)]
struct Trace(Vec<u8>);

impl Trace {
    fn write(&mut self, port: u8, value: u8) {
        self.0.extend_from_slice(&[b'P', b'W', port, value]);
    }
    fn read(&mut self, port: u8) {
        self.0.extend_from_slice(&[b'P', b'R', port]);
    }
    fn steps(&mut self, n: usize) {
        for _ in 0..n {
            self.0.extend_from_slice(b"LS\x00");
        }
    }
    fn command(&mut self, first: u8, second: u8) {
        self.write(COMMAND, first);
        self.write(COMMAND, second);
    }
    fn register(&mut self, number: u8, value: u8) {
        self.command(value, 0x80 + number);
    }
    /// The next data goes to this address of video memory; to this one of the palette.
    fn video(&mut self, address: usize) {
        self.command((address % 256) as u8, 0x40 + (address / 256) as u8);
    }
    fn palette(&mut self, address: u8) {
        self.command(address, 0xC0);
    }
}

/// One of the numbers where rules meet, or any byte.
fn edge(random: &mut Random, at: &[u8]) -> u8 {
    if random.chance(2, 3) {
        random.one_of(at)
    } else {
        random.byte()
    }
}

/// Locks, fill and clock by chance, line interrupts too; the height of sprites and where their tiles are; the colour of the fill.
fn switches(t: &mut Trace, random: &mut Random) {
    t.register(0, random.byte() & 0xF8);
    t.register(1, random.byte() & 0x62);
    t.register(6, random.byte());
    t.register(7, random.byte());
}

/// Tiles of any pixels, a good part of them clear, in both halves of video memory; any colours; a map of these tiles with any flags; and sprites that
/// stand where the edges are.
fn furnish(t: &mut Trace, random: &mut Random) {
    t.register(2, random.byte() | 0x0E);
    t.register(5, random.byte() | 0x7E);
    for half in [0, 8192] {
        t.video(half);
        for _ in 0..24 * 8 {
            let shown = random.byte() | random.byte();
            for _ in 0..4 {
                t.write(DATA, shown & random.byte());
            }
        }
    }
    t.palette(random.byte());
    for _ in 0..32 + random.below(8) {
        t.write(DATA, random.byte());
    }
    t.video(NAMES);
    for _ in 0..28 * 32 {
        t.write(DATA, random.below(24) as u8);
        t.write(DATA, random.byte() & 0x1F);
    }
    t.video(SPRITES);
    let sprites = if random.chance(1, 4) { random.below(64) } else { 64 };
    for n in 0..64 {
        // three lines further down each, in any order near there, and some above line 0
        t.write(DATA, if n == sprites { 0xD0 } else { ((n * 3 + random.below(40) + 245) % 256 % 208) as u8 });
    }
    t.video(SPRITES + 128);
    for _ in 0..64 {
        t.write(DATA, edge(random, &[0, 1, 2, 3, 4, 5, 6, 7, 8, 9, 15, 16, 184, 185, 191, 192, 199, 247, 248, 249, 250, 251, 252, 253, 254, 255]));
        t.write(DATA, random.below(24) as u8);
    }
}

/// A frame with this latched scroll, each row of it with another register 8, locks, fill and clock by chance, and its status read.
fn swept(random: &mut Random, scroll: u8) -> Vec<u8> {
    let mut t = Trace::default();
    furnish(&mut t, random);
    t.register(9, scroll);
    t.steps(LAST_STEP);
    t.read(COMMAND);
    for y in 0..192 {
        switches(&mut t, random);
        // over all frames every register 8 comes in each row, and so with the lock and without it in rows 1 and 2
        t.register(8, scroll.wrapping_add(y));
        if y == 1 || y == 2 {
            t.register(0, random.byte() & 0xB8 | if y == 1 { 0x40 } else { 0 });
        }
        if random.chance(1, 4) {
            t.palette(random.byte());
            t.write(DATA, random.byte());
        }
        t.steps(1);
        t.read(COMMAND);
    }
    t.0
}

/// A pass or two of a scene, in which registers, scrolls and colours change.
fn scene(random: &mut Random) -> Vec<u8> {
    let mut t = Trace::default();
    let scrolls = |t: &mut Trace, random: &mut Random| {
        switches(t, random);
        t.register(8, edge(random, &[0, 1, 7, 8, 9, 63, 64, 65, 191, 192, 248, 255]));
        t.register(9, edge(random, &[0, 1, 7, 8, 15, 16, 31, 32, 33, 192, 223, 224, 225, 255]));
        t.register(10, edge(random, &[0, 1, 15, 60, 191, 192, 193, 255]));
    };
    furnish(&mut t, random);
    scrolls(&mut t, random);
    t.steps(LAST_STEP + random.below(2));
    for _ in 0..random.below(6) {
        t.steps(random.below(70));
        t.read(random.one_of(&[0x7E, 0x7F, COMMAND, DATA]));
        match random.below(4) {
            0 => scrolls(&mut t, random),
            1 => {
                t.palette(random.byte());
                for _ in 0..random.below(5) {
                    t.write(DATA, random.byte());
                }
            }
            2 => {
                t.video(random.below(16_384));
                for _ in 0..random.below(5) {
                    t.write(DATA, random.byte());
                }
            }
            _ => {}
        }
    }
    t.steps(random.below(300));
    t.read(COMMAND);
    t.0
}

/// Any calls: ports of every kind, known and unknown, commands and data, and steps; some of them bad.
fn calls(random: &mut Random) -> Vec<u8> {
    let mut t = Trace::default();
    for _ in 0..random.below(1500) {
        match random.below(12) {
            0..=2 => t.write(DATA, random.byte()),
            3 | 4 => t.write(COMMAND, edge(random, &[0x00, 0x40, 0x3F, 0x7F, 0x80, 0x8A, 0x8B, 0xBF, 0xC0, 0xFF, 0x1F, 0x20])),
            5 => t.palette(random.byte()),
            6 => t.write(random.byte(), random.byte()),
            7 => t.read(random.byte()),
            8 => t.read(random.one_of(&[0x7E, 0x7F, DATA, COMMAND])),
            9 => t.register(random.below(16) as u8, random.byte()),
            10 => t.steps(1),
            _ => t.steps(random.below(40)),
        }
    }
    if random.chance(1, 5) {
        t.0.extend_from_slice(&[b'L', b'S', 1 + random.below(255) as u8]);
        t.steps(1);
    }
    if random.chance(1, 8) && !t.0.is_empty() {
        let at = random.below(t.0.len());
        t.0[at] = random.byte();
    }
    t.0
}

/// A screen that shows every colour in every row: tile n, 0 to 15, is solid of code n, and the map has them all, in palette 0 and then in palette 1.
fn bars(t: &mut Trace) {
    t.register(2, 0xFF);
    t.video(0);
    for n in 0..16 {
        for _ in 0..8 {
            for plane in 0..4 {
                t.write(DATA, if n >> plane & 1 == 1 { 0xFF } else { 0 });
            }
        }
    }
    t.video(NAMES);
    for _ in 0..28 {
        for column in 0..32 {
            t.write(DATA, column % 16);
            t.write(DATA, if column < 16 { 0 } else { 8 });
        }
    }
    // no sprites
    t.video(SPRITES);
    t.write(DATA, 0xD0);
}

/// The traces that are always tried.
fn fixed() -> Vec<Vec<u8>> {
    let step = b"LS\x00";
    let mut all: Vec<Vec<u8>> = vec![Vec::new(), step.to_vec()];
    // bad ones, alone and behind two good records: areas, cut records, unknown marks
    for bad in [&b"LS\x01"[..], b"LS\x02", b"LS\x03", b"LS\xFF", b"LS0", b"LS", b"L", b"PW\xBF", b"PW", b"PR", b"P", b"?", b"\x00\x00\x00", b"WP\xBF\x00", b"ls\x00"] {
        all.push(bad.to_vec());
        all.push([&b"PR\x7ELS\x00"[..], bad].concat());
        all.push([&b"PR\x7ELS\x00"[..], bad, step].concat());
    }
    // the longest, and longer ones, good and bad
    all.push(step.repeat(LIMIT / 3));
    all.push([&b"PW\xBF\x42"[..], &step.repeat(LIMIT / 3 - 1)].concat());
    all.push(step.repeat(LIMIT / 3 + 1));
    all.push(vec![b'P'; LIMIT + 1]);
    all.push(vec![0; LIMIT + 5000]);
    // the chart's table: a read of the counter about the jump and at the end of a pass
    for steps in [218, 219, 261, 262, 263, 480, 481] {
        let mut t = Trace::default();
        t.steps(steps);
        t.read(0x7E);
        all.push(t.0);
    }
    // both reports, frame and line interrupts
    let mut t = Trace::default();
    t.register(0, 0x10);
    t.register(1, 0x60);
    t.register(10, 3);
    t.steps(0xC2);
    t.read(COMMAND);
    t.steps(1);
    t.register(1, 0);
    t.steps(400);
    all.push(t.0);
    // every byte as a colour in both palettes: for each eight rows 32 more of them
    let mut t = Trace::default();
    bars(&mut t);
    t.steps(LAST_STEP);
    for group in 0..16u8 {
        t.palette(0);
        for n in 0..32u8 {
            t.write(DATA, group.wrapping_mul(16).wrapping_add(n));
        }
        t.steps(8);
    }
    all.push(t.0);
    // every byte as a palette address, with every second byte that chooses the palette: a colour changed before each row
    for first in [0, 64] {
        let mut t = Trace::default();
        bars(&mut t);
        t.steps(LAST_STEP);
        for y in 0..192u8 {
            t.command(y.wrapping_add(first), 0xC0 + y % 64);
            t.write(DATA, y.wrapping_mul(37).wrapping_add(1));
            t.steps(1);
        }
        all.push(t.0);
    }
    // an odd address first; more bytes than there are, from any address on; the same byte again; a read of the palette
    for first in [1, 31, 63, 200] {
        let mut t = Trace::default();
        bars(&mut t);
        t.palette(first);
        for n in 0..40 {
            t.write(DATA, 0xFF - n);
        }
        t.read(DATA);
        t.steps(100);
        t.palette(first);
        t.write(DATA, 0xFF - 32);
        t.write(DATA, 0x2A);
        t.steps(262);
        all.push(t.0);
    }
    // a byte that was read ahead, or written, waits in the buffer while the palette is written
    for ahead in [0x00, 0x40] {
        let mut t = Trace::default();
        t.video(0x1234);
        t.write(DATA, 0xAB);
        t.write(DATA, 0xCD);
        t.command(0x34, 0x12 + ahead);
        t.palette(7);
        t.write(DATA, 0x15);
        t.write(DATA, 0x2A);
        t.video(0x1234);
        t.read(DATA);
        t.read(DATA);
        all.push(t.0);
    }
    // refusals 1 to 5, and where the handheld has 6
    let mut t = Trace::default();
    t.write(0, 0);
    t.read(0);
    t.write(0x7E, 0);
    t.read(0x7F);
    t.register(11, 0);
    t.register(63, 0);
    t.write(DATA, 0);
    t.read(DATA);
    t.palette(1);
    t.read(DATA);
    t.write(DATA, 0x77);
    all.push(t.0);
    all
}

/// Runs the program on the trace that this file holds; answers what it wrote and its exit status.
fn run(program: &str, input: &Path) -> (Vec<u8>, Option<i32>) {
    let run = std::env::var("RUN").unwrap_or_default();
    let mut words: Vec<&str> = run.split_whitespace().collect();
    words.push(program);
    let stdin = File::open(input).expect("the trace opens");
    match Command::new(words[0]).args(&words[1..]).stdin(stdin).stderr(Stdio::inherit()).output() {
        Ok(output) => (output.stdout, output.status.code()),
        Err(error) => {
            eprintln!("homes: cannot run {}: {}", words.join(" "), error);
            std::process::exit(2);
        }
    }
}

type Expected = fn(&[u8], &mut Met) -> Vec<u8>;

/// Runs the program on every trace; answers whether all went well.
fn compare(what: &str, expected: Expected, count: usize, seed: u64, program: &str) -> bool {
    let mut random = Random::new(seed);
    let mut traces = fixed();
    let always = traces.len();
    traces.extend((0..=255).map(|scroll| swept(&mut random, scroll)));
    traces.extend((0..count).map(|n| if n % 2 == 0 { scene(&mut random) } else { calls(&mut random) }));
    let file = std::env::temp_dir().join(format!("homes-{}", std::process::id()));
    let mut met = Met::nothing();
    let mut differences = 0;
    for (n, trace) in traces.iter().enumerate() {
        let wanted = expected(trace, &mut met);
        fs::write(&file, trace).expect("the trace is written");
        let (wrote, status) = run(program, &file);
        let good = status == Some(status_due(&wanted));
        if !good || wrote != wanted {
            differences += 1;
            let kept = std::env::temp_dir().join(format!("home-differs-{}-{}-{}", what, seed, n));
            fs::write(&kept, trace).expect("the trace is kept");
            let at = wrote.iter().zip(&wanted).take_while(|(a, b)| a == b).count();
            println!("homes: {} {} of {} bytes differs; kept as {}", what, n, trace.len(), kept.display());
            println!("  wrote {} bytes, expected {}; the same up to byte {}{}", wrote.len(), wanted.len(), at, if good { String::new() } else { format!("; it ended with status {:?}", status) });
            if what == "snapshot" && wanted.starts_with(b"P6") && at >= 15 {
                println!("  row {}, column {}", (at - 15) / 3 / 256, (at - 15) / 3 % 256);
            }
            if differences == 5 {
                break;
            }
        }
    }
    let _ = fs::remove_file(&file);
    println!("homes: {} writes, {} reads, {} steps, {} rows", met.writes, met.reads, met.steps, met.rows);
    println!("homes: {} {}s ({} fixed, 256 scrolls, {} random), seed {}, {} differences", traces.len(), what, always, count, seed, differences);
    let missing = met.missing();
    for edge in &missing {
        println!("homes: never met: {}", edge);
    }
    differences == 0 && missing.is_empty()
}

/// Prints what is expected of the trace at standard input, and ends as the programs do.
fn print(expected: Expected) -> bool {
    let mut input = Vec::new();
    std::io::stdin().read_to_end(&mut input).expect("the trace is read");
    let wanted = expected(&input, &mut Met::nothing());
    std::io::stdout().write_all(&wanted).expect("the answer is written");
    status_due(&wanted) == 0
}

fn usage() -> ! {
    eprintln!("usage: homes trace|snapshot N SEED PROGRAM | homes text|picture < TRACE");
    std::process::exit(2)
}

fn main() {
    let words: Vec<String> = std::env::args().skip(1).collect();
    let words: Vec<&str> = words.iter().map(|word| word.as_str()).collect();
    let number = |word: &str| word.parse::<u64>().unwrap_or_else(|_| usage());
    let good = match words[..] {
        ["trace", n, seed, program] => compare("trace", trace_text, number(n) as usize, number(seed), program),
        ["snapshot", n, seed, program] => compare("snapshot", snapshot_bytes, number(n) as usize, number(seed), program),
        ["text"] => print(trace_text),
        ["picture"] => print(snapshot_bytes),
        _ => usage(),
    };
    std::process::exit(if good { 0 } else { 1 });
}
