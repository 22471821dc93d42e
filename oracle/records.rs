//! Holds the calls on recordings beside the rules written a second time; needs the library, and not the published Rust.
//!
//!   records N SEED     recordings of every length up to 12 with every place before, at and past the end, and places near the largest number; every
//!                      area; N recordings of many records written to the end of their room, read back and written again; N damaged ones read
//!
//! Exit status 1 on any difference, 2 on bad usage.

use rules::model::Table;
use rules::random::Random;
use rules::recording::{trace_text, Record};
use rules::writer;

#[allow(dead_code)]
mod face;

/// Bytes before and after each lent part that must never change.
const GUARD: usize = 61;

/// A call on a recording, by its numbers.
#[derive(Clone, Copy, Debug)]
enum Call {
    Out(u8, u8),
    Input(u8),
    Step(u8),
}

struct World {
    calls: u64,
    reads: u64,
    answers: [u64; 19],
    kinds: [u64; 5],
}

impl World {
    /// The same call on both sides, each on a copy of these bytes between guards; the recording after it, and the word.
    fn write(&mut self, random: &mut Random, recording: &[u8], used: usize, call: Call) -> Result<(Vec<u8>, u32), String> {
        let mut ours = vec![0; GUARD + recording.len() + GUARD];
        random.fill(&mut ours);
        ours[GUARD..GUARD + recording.len()].copy_from_slice(recording);
        let mut model = ours.clone();
        let lent = &mut model[GUARD..GUARD + recording.len()];
        let word = match call {
            Call::Out(port, value) => writer::vdp_record_out(lent, used, port, value),
            Call::Input(port) => writer::vdp_record_input(lent, used, port),
            Call::Step(area) => writer::vdp_record_step(lent, used, area),
        };
        let lent = &mut ours[GUARD..GUARD + recording.len()];
        let our_word = match call {
            Call::Out(port, value) => face::vdp_record_out(lent, used, port, value),
            Call::Input(port) => face::vdp_record_input(lent, used, port),
            Call::Step(area) => face::vdp_record_step(lent, used, area),
        };
        self.calls += 1;
        if our_word != word || ours != model {
            return Err(format!("{:?} at {} of {:02X?}: ours {:08X}, model {:08X}; bytes the same: {}", call, used, recording, our_word, word, ours == model));
        }
        self.answers[word as usize % 256] += 1;
        Ok((ours[GUARD..GUARD + recording.len()].to_vec(), word))
    }

    /// What stands at an offset, on both sides.
    fn next(&mut self, recording: &[u8], at: usize) -> Result<u32, String> {
        let word = writer::vdp_record_next(recording, at);
        let our_word = face::vdp_record_next(recording, at);
        self.reads += 1;
        if our_word != word {
            return Err(format!("next at {} of {:02X?}: ours {:08X}, model {:08X}", at, recording, our_word, word));
        }
        self.kinds[word as usize % 256] += 1;
        Ok(word)
    }

    /// The words of a recording from its first byte on, and the offset where a reader stops.
    fn read(&mut self, recording: &[u8]) -> Result<(Vec<u32>, usize), String> {
        let (mut words, mut at) = (Vec::new(), 0);
        loop {
            match self.next(recording, at)? {
                0 | 4 => return Ok((words, at)),
                word => {
                    words.push(word);
                    at += (word >> 24) as usize;
                }
            }
        }
    }
}

/// Recordings of every length up to 12, each call at every place before, at and past the end, and at places near the largest number.
fn places(world: &mut World, random: &mut Random) -> Result<(), String> {
    for length in 0..=12 {
        let mut used: Vec<usize> = (0..length + 6).collect();
        used.extend((0..8).map(|k| usize::MAX - k));
        used.extend([usize::MAX - length, usize::MAX / 2, 1 << 32]);
        for used in used {
            let mut recording = vec![0; length];
            random.fill(&mut recording);
            for call in [Call::Out(random.byte(), random.byte()), Call::Input(random.byte()), Call::Step(0), Call::Step(1), Call::Step(2), Call::Step(255)] {
                let (after, word) = world.write(random, &recording, used, call)?;
                if word < 256 && after != recording {
                    return Err(format!("{:?} was refused, and bytes changed", call));
                }
            }
            world.next(&recording, used)?;
        }
    }
    for byte in 0..=255 {
        let recording = [0; 4];
        for used in [0, 1, 2, 5] {
            for call in [Call::Step(byte), Call::Input(byte), Call::Out(byte, 0x5A), Call::Out(0x5A, byte)] {
                world.write(random, &recording, used, call)?;
            }
        }
    }
    Ok(())
}

fn any_call(random: &mut Random) -> Call {
    match random.below(3) {
        0 => Call::Out(random.byte(), random.byte()),
        1 => Call::Input(random.byte()),
        _ => Call::Step(random.below(3) as u8),
    }
}

/// The word by which a reader tells of a call.
fn told(call: Call) -> u32 {
    match call {
        Call::Out(port, value) => u32::from_le_bytes([1, port, value, 4]),
        Call::Input(port) => u32::from_le_bytes([2, port, 0, 3]),
        Call::Step(area) => u32::from_le_bytes([3, area, 0, 3]),
    }
}

/// Calls one behind the other until one has no room: they read back as the same calls, and these written again are the same bytes.
fn filled(world: &mut World, random: &mut Random) -> Result<(), String> {
    let mut recording = vec![0; random.below(120)];
    random.fill(&mut recording);
    let (mut used, mut calls) = (0, Vec::new());
    loop {
        let call = any_call(random);
        let (after, word) = world.write(random, &recording, used, call)?;
        recording = after;
        match word % 256 {
            0 => used += (word >> 8) as usize,
            18 => break,
            other => return Err(format!("{:?} was refused by {}", call, other)),
        }
        calls.push(call);
    }
    let (words, stop) = world.read(&recording[..used])?;
    if stop != used || words != calls.iter().map(|call| told(*call)).collect::<Vec<_>>() {
        return Err(format!("{:?} do not read back: {:08X?}, and stop at {} of {}", calls, words, stop, used));
    }
    let mut again = vec![0; used];
    let mut place = 0;
    for word in words {
        let [kind, first, value, _] = word.to_le_bytes();
        let call = [Call::Out(first, value), Call::Input(first), Call::Step(first)][kind as usize - 1];
        let (after, written) = world.write(random, &again, place, call)?;
        again = after;
        place += (written >> 8) as usize;
    }
    if again != recording[..used] {
        return Err(format!("{:02X?} was written again as {:02X?}", &recording[..used], again));
    }
    Ok(())
}

/// A recording with bytes damaged, cut or put in: the reader stops where the trace's last line says, after as many records.
fn damaged(world: &mut World, random: &mut Random) -> Result<(), String> {
    let mut recording = Vec::new();
    for _ in 0..random.below(12) {
        let record = match any_call(random) {
            Call::Out(port, value) => Record::Write { port, value },
            Call::Input(port) => Record::Read { port },
            Call::Step(area) => match Record::first(&[b'L', b'S', area]) {
                Some((record, _)) => record,
                None => continue,
            },
        };
        recording.extend(writer::bytes_of(&record));
    }
    for _ in 0..random.below(3) {
        let at = random.below(recording.len() + 1);
        match random.below(3) {
            0 => recording.truncate(at),
            1 => recording.insert(at, random.byte()),
            _ if at < recording.len() => recording[at] = random.byte(),
            _ => {}
        }
    }
    let (words, stop) = world.read(&recording)?;
    let text = String::from_utf8(trace_text(Table::Steps262, &recording)).expect("a trace prints text");
    let last = match stop < recording.len() {
        true => format!("bad {}", stop),
        false => format!("end {}", words.len()),
    };
    let lines: Vec<&str> = text.lines().collect();
    if lines.last() != Some(&&last[..]) || lines.len() != words.len() + 1 {
        return Err(format!("{:02X?}: a reader ends with {}, a trace with {:?}", recording, last, lines.last()));
    }
    for at in 0..recording.len() + 3 {
        world.next(&recording, at)?;
    }
    Ok(())
}

fn main() {
    let words: Vec<String> = std::env::args().skip(1).collect();
    let numbers: Vec<u64> = words.iter().filter_map(|word| word.parse().ok()).collect();
    if words.len() != 2 || numbers.len() != 2 {
        eprintln!("usage: records N SEED");
        std::process::exit(2);
    }
    let (count, seed) = (numbers[0], numbers[1]);
    let mut random = Random::new(seed);
    let mut world = World { calls: 0, reads: 0, answers: [0; 19], kinds: [0; 5] };
    let mut done = places(&mut world, &mut random);
    for _ in 0..count {
        done = done.and_then(|_| filled(&mut world, &mut random)).and_then(|_| damaged(&mut world, &mut random));
    }
    if let Err(text) = done {
        println!("difference: {}", text);
        println!("records: {} calls, {} reads, seed {}, 1 difference", world.calls, world.reads, seed);
        std::process::exit(1);
    }
    let mut missed = false;
    for number in [0, 11, 18] {
        println!("{:>10}  answered {}", world.answers[number], number);
        missed |= world.answers[number] == 0;
    }
    for (kind, name) in ["nothing more", "writes", "reads", "steps", "bad records"].iter().enumerate() {
        println!("{:>10}  {}", world.kinds[kind], name);
        missed |= world.kinds[kind] == 0;
    }
    if missed {
        println!("records: one of these was never met");
        std::process::exit(1);
    }
    println!("records: {} calls, {} reads, seed {}, 0 differences", world.calls, world.reads, seed);
}
