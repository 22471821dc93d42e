//! Holds the programs `trace`, `snapshot` and `layers` beside the model; needs neither the library nor the published Rust.
//!
//!   traces trace N SEED PROGRAM      runs PROGRAM on the fixed traces and on N random ones, and compares all that it writes, and its exit status
//!   traces snapshot N SEED PROGRAM   the same for the picture
//!   traces layers N SEED PROGRAM     the same for the picture of the layers
//!   traces write N SEED FOLDER       writes the traces with the text and the picture that the model gives
//!   traces text < TRACE              the text that the model gives for one trace
//!   traces picture < TRACE           the picture that the model gives for one trace
//!   traces owners < TRACE            the picture of the layers that the model gives for one trace
//!
//! PROGRAM is started by the words of the variable RUN, if it is set (an emulator). A last word --table=0 or --table=1 names the table of the
//! device; without it, it is that of a device made with none named. Exit status 1 on any difference, 2 on bad usage.

use rules::call::Kind;
use rules::model::{self, Table};
use rules::random::Random;
use rules::recording::{layers_bytes, snapshot_bytes, status_due, trace_text, Record, LIMIT};
use rules::sessions::Session;
use std::fs::{self, File};
use std::io::{Read, Write};
use std::path::{Path, PathBuf};
use std::process::{Command, Stdio};

/// The worked trace of R7.12, and what it must print.
const EXAMPLE: &[u8] = b"PW\xBF\x00PW\xBF\x40PW\xBE\xABPW\xBF\x00PW\xBF\x00PR\xBELS\x00PR\x7F";
const EXAMPLE_TEXT: &[u8] = b"w 0\nw 0\nw 0\nw 0\nw 0\nr 0 AB\ns 0 01 0 0\nr 2 00\nend 8\n";

/// A random trace with no bad record, of about this many records.
fn whole(random: &mut Random, table: Table, records: usize) -> Vec<u8> {
    let mut session = Session::new(random.word());
    let mut device = model::Device::made(table);
    let mut video = vec![0; model::VIDEO_SIZE];
    let mut bytes = Vec::new();
    for _ in 0..records {
        let call = session.next(&device.encode(model::BLOCK_SIZE));
        match call.kind {
            Kind::Out => {
                device.write_port(&mut video, call.port, call.value);
                bytes.extend_from_slice(&[b'P', b'W', call.port as u8, call.value]);
            }
            Kind::Input => {
                device.read_port(&video, call.port);
                bytes.extend_from_slice(&[b'P', b'R', call.port as u8]);
            }
            Kind::Step | Kind::RowStep => {
                if let Some(area) = model::Area::from_number(call.value) {
                    let _ = device.row_step(&video, &mut [0; 1024], area, &mut model::Notes::default());
                    bytes.extend_from_slice(&[b'L', b'S', call.value]);
                }
            }
            Kind::New | Kind::NewTable | Kind::Dump => {}
        }
    }
    bytes
}

/// A trace of exactly this many bytes, none of them bad; no trace has 1, 2 or 5 bytes.
fn of_length(random: &mut Random, table: Table, length: usize) -> Vec<u8> {
    let mut bytes = whole(random, table, length / 3);
    let mut end = 0;
    while let Some((_, n)) = Record::first(&bytes[end..]) {
        if end + n + 6 > length {
            break;
        }
        end += n;
    }
    bytes.truncate(end);
    // records of three and four bytes fill any rest of six or more
    while length - bytes.len() >= 3 && (length - bytes.len()) % 3 != 0 {
        bytes.extend_from_slice(b"PW\xBF\x42");
    }
    while length - bytes.len() >= 3 {
        bytes.extend_from_slice(b"LS\x00");
    }
    assert_eq!(bytes.len(), length);
    bytes
}

/// The traces that are always tried: none, the example, each kind of bad record at several offsets, the longest, too long ones.
fn fixed(random: &mut Random, table: Table) -> Vec<Vec<u8>> {
    let mut all = vec![Vec::new(), EXAMPLE.to_vec()];
    for tail in [
        &b"P"[..], b"PW", b"PW\xBF", b"PR", b"L", b"LS", b"LS\x03", b"LS\xFF", b"XX", b"Pw\xBF\x00", b"LR\x00", b"PS\x00", b"\x00", b"\n", b"LS\x03PR\x7E",
    ] {
        for records in [0, 1, 2, 50] {
            let mut trace = whole(random, table, records);
            trace.extend_from_slice(tail);
            all.push(trace);
        }
    }
    all.push(split());
    for _ in 0..4 {
        all.push(scene(random));
    }
    all.push(b"LS\x00".repeat(LIMIT / 3));
    all.push(b"LS\x01".repeat(LIMIT / 3));
    all.push(b"PR\x7F".repeat(LIMIT / 3));
    for length in [LIMIT - 1, LIMIT, LIMIT + 1, LIMIT + 2, LIMIT + 5000] {
        all.push(of_length(random, table, length));
    }
    all.push(vec![b'?'; LIMIT]);
    all.push(vec![0; LIMIT + 1]);
    all
}

/// The author's case: colour 3 is changed when the counter reads 90, on a screen that is all colour 3.
fn split() -> Vec<u8> {
    let mut trace = Vec::new();
    let mut write = |port: u8, value: u8| trace.extend_from_slice(&[b'P', b'W', port, value]);
    // tile 0, all of code 3; every name is 0, and the sprites end at once
    write(0xBF, 0x00);
    write(0xBF, 0x40);
    for _ in 0..8 {
        for byte in [0xFF, 0xFF, 0x00, 0x00] {
            write(0xBE, byte);
        }
    }
    write(0xBF, 0x00);
    write(0xBF, 0x7F);
    write(0xBE, 0xD0);
    // colour 3, old: red
    for (port, value) in [(0xBF, 6), (0xBF, 0xC0), (0xBE, 0x0F), (0xBE, 0x00)] {
        write(port, value);
    }
    for _ in 0..90 {
        trace.extend_from_slice(b"LS\x00");
    }
    trace.extend_from_slice(b"PR\x7E");
    // colour 3, new: blue
    for (port, value) in [(0xBF, 6), (0xBF, 0xC0), (0xBE, 0x00), (0xBE, 0x0F)] {
        trace.extend_from_slice(&[b'P', b'W', port, value]);
    }
    for _ in 0..171 {
        trace.extend_from_slice(b"LS\x00");
    }
    trace
}

/// A pass over a screen with tiles of priority and all 64 sprites, spread over the lines of the visible area.
fn scene(random: &mut Random) -> Vec<u8> {
    let mut trace = Vec::new();
    let mut write = |port: u8, value: u8| trace.extend_from_slice(&[b'P', b'W', port, value]);
    for (number, value) in [(0, random.byte() & 8), (1, 0x40 | random.byte() & 2), (2, 0x0E), (5, 0x7E), (6, 0), (8, random.byte()), (9, random.byte())] {
        write(0xBF, value);
        write(0xBF, 0x80 + number);
    }
    // 32 tiles of any pixels, half of them clear; colours
    write(0xBF, 0);
    write(0xBF, 0x40);
    for _ in 0..32 * 8 {
        let shown = random.byte();
        for _ in 0..4 {
            write(0xBE, shown & random.byte());
        }
    }
    write(0xBF, 0);
    write(0xBF, 0xC0);
    for _ in 0..64 {
        write(0xBE, random.byte());
    }
    // names with any flags, and the sprites
    write(0xBF, 0);
    write(0xBF, 0x78);
    for _ in 0..28 * 32 {
        write(0xBE, random.below(32) as u8);
        write(0xBE, random.byte() & 0x1E);
    }
    write(0xBF, 0);
    write(0xBF, 0x7F);
    for n in 0..64 {
        write(0xBE, (22 + 144 * n / 64 + random.below(4)) as u8);
    }
    write(0xBF, 0x80);
    write(0xBF, 0x7F);
    for _ in 0..64 {
        write(0xBE, (36 + random.below(176)) as u8);
        write(0xBE, random.below(32) as u8);
    }
    for _ in 0..262 {
        trace.extend_from_slice(b"LS\x00");
    }
    trace
}

/// A random trace: whole, damaged, cut or long.
fn any(random: &mut Random, table: Table) -> Vec<u8> {
    let records = match random.below(20) {
        0 => 4000 + random.below(16_000),
        1..=5 => random.below(2000),
        _ => random.below(300),
    };
    let mut trace = whole(random, table, records);
    match random.below(10) {
        0..=4 => {}
        5 | 6 if !trace.is_empty() => {
            let at = random.below(trace.len());
            trace[at] = random.byte();
        }
        7 | 8 => trace.truncate(random.below(trace.len() + 1)),
        _ => {
            if random.chance(1, 10) {
                trace.resize(LIMIT + 1 + random.below(3000), b'P');
            }
        }
    }
    trace
}

/// Runs the program on the trace that this file holds; answers what it wrote and its exit status.
fn run(program: &str, input: &Path) -> (Vec<u8>, Option<i32>) {
    let run = std::env::var("RUN").unwrap_or_default();
    let mut words: Vec<&str> = run.split_whitespace().collect();
    words.push(program);
    let stdin = File::open(input).expect("the trace opens");
    let done = Command::new(words[0]).args(&words[1..]).stdin(stdin).stderr(Stdio::inherit()).output();
    match done {
        Ok(output) => (output.stdout, output.status.code()),
        Err(error) => {
            eprintln!("traces: cannot run {}: {}", words.join(" "), error);
            std::process::exit(2);
        }
    }
}

/// What is to be written for a trace.
type Expected = fn(Table, &[u8]) -> Vec<u8>;

/// Runs the program on every trace; answers the number of differences.
fn compare(what: &str, expected: Expected, table: Table, count: usize, seed: u64, program: &str) -> u64 {
    let mut random = Random::new(seed);
    let folder = Folder::new();
    let file = folder.0.join("trace");
    let mut differences = 0;
    let fixed = fixed(&mut random, table);
    let total = fixed.len() + count;
    let mut lines = [0; 3];
    for n in 0..total {
        let trace = if n < fixed.len() { fixed[n].clone() } else { any(&mut random, table) };
        let wanted = expected(table, &trace);
        let text = trace_text(table, &trace);
        let last = text.split(|byte| *byte == b'\n').rev().nth(1).unwrap_or(b"");
        lines[[b"end", b"bad", b"lon"].iter().position(|word| last.starts_with(&word[..])).expect("a last line")] += 1;
        fs::write(&file, &trace).expect("the trace is written");
        let (wrote, status) = run(program, &file);
        let good = status == Some(status_due(&wanted));
        if !good || wrote != wanted {
            differences += 1;
            let kept = std::env::temp_dir().join(format!("differs-{}-{}-{}", what, seed, n));
            fs::write(&kept, &trace).expect("the trace is kept");
            println!("traces: {} {} of {} bytes differs; kept as {}", what, n, trace.len(), kept.display());
            if !good {
                println!("  the program ended with status {:?}", status);
            }
            let at = wrote.iter().zip(&wanted).take_while(|(a, b)| a == b).count();
            println!("  wrote {} bytes, expected {}; the same up to byte {}", wrote.len(), wanted.len(), at);
            let near = |bytes: &[u8]| String::from_utf8_lossy(&bytes[at.saturating_sub(20).min(bytes.len())..(at + 30).min(bytes.len())]).into_owned();
            println!("  wrote .. {:?}\n  expected .. {:?}", near(&wrote), near(&wanted));
            if differences == 5 {
                break;
            }
        }
        if n % 200 == 199 {
            eprintln!("traces: {} of {}", n + 1, total);
        }
    }
    println!("traces: {} ended well, {} bad, {} long", lines[0], lines[1], lines[2]);
    println!("traces: {} {}s ({} fixed, {} random), seed {}, {} differences", total, what, fixed.len(), count, seed, differences);
    differences
}

/// A folder of our own, removed at the end.
struct Folder(PathBuf);

impl Folder {
    fn new() -> Folder {
        let folder = std::env::temp_dir().join(format!("traces-{}", std::process::id()));
        fs::create_dir_all(&folder).expect("a folder for the traces");
        Folder(folder)
    }
}

impl Drop for Folder {
    fn drop(&mut self) {
        let _ = fs::remove_dir_all(&self.0);
    }
}

/// Writes the traces and what is expected of them.
fn write(table: Table, count: usize, seed: u64, folder: &str) -> u64 {
    let mut random = Random::new(seed);
    let folder = Path::new(folder);
    fs::create_dir_all(folder).expect("the folder is made");
    let fixed = fixed(&mut random, table);
    for n in 0..fixed.len() + count {
        let trace = if n < fixed.len() { fixed[n].clone() } else { any(&mut random, table) };
        fs::write(folder.join(format!("{:05}.trace", n)), &trace).expect("the trace is written");
        fs::write(folder.join(format!("{:05}.text", n)), trace_text(table, &trace)).expect("the text is written");
        fs::write(folder.join(format!("{:05}.ppm", n)), snapshot_bytes(table, &trace)).expect("the picture is written");
    }
    0
}

/// Prints what is expected of the trace at standard input.
fn print(expected: Expected, table: Table) -> u64 {
    let mut input = Vec::new();
    std::io::stdin().read_to_end(&mut input).expect("the trace is read");
    std::io::stdout().write_all(&expected(table, &input)).expect("the answer is written");
    0
}

fn usage() -> ! {
    eprintln!("usage: traces trace|snapshot|layers N SEED PROGRAM | traces write N SEED FOLDER | traces text|picture|owners < TRACE; each with a last word --table=0 or --table=1");
    std::process::exit(2)
}

fn main() {
    if [Table::Steps261, Table::Steps262].iter().any(|table| trace_text(*table, EXAMPLE) != EXAMPLE_TEXT) {
        eprintln!("traces: the model does not print the worked trace");
        std::process::exit(1);
    }
    let mut words: Vec<String> = std::env::args().skip(1).collect();
    let table = match words.last().map(|word| word.as_str()) {
        Some("--table=0") => Some(Table::Steps261),
        Some("--table=1") => Some(Table::Steps262),
        _ => None,
    };
    if table.is_some() {
        words.pop();
    }
    let table = table.unwrap_or(model::DEFAULT_TABLE);
    let words: Vec<&str> = words.iter().map(|word| word.as_str()).collect();
    let number = |word: &str| word.parse::<u64>().unwrap_or_else(|_| usage());
    let differences = match words[..] {
        ["trace", n, seed, program] => compare("trace", trace_text, table, number(n) as usize, number(seed), program),
        ["snapshot", n, seed, program] => compare("snapshot", snapshot_bytes, table, number(n) as usize, number(seed), program),
        ["layers", n, seed, program] => compare("layer-picture", layers_bytes, table, number(n) as usize, number(seed), program),
        ["write", n, seed, folder] => write(table, number(n) as usize, number(seed), folder),
        ["text"] => print(trace_text, table),
        ["picture"] => print(snapshot_bytes, table),
        ["owners"] => print(layers_bytes, table),
        _ => usage(),
    };
    std::process::exit(if differences == 0 { 0 } else { 1 });
}
