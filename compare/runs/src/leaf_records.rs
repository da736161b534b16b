//! The leaves compared: records of the program `test_leaves`, whoever answers them, and the first difference.

mod archive;
mod inputs;
mod large;
mod lines;
mod tally;

pub use archive::Archive;
pub use inputs::{random, short};
pub use lines::OriginalLeaves;
pub use tally::Tally;

use crate::draw::Draw;
use crate::rust_leaves;
use crate::text::hex;
use inputs::lengthened;
use large::{large, Bounds, Input, ARCHIVE, PROGRAM};
use std::io::{Read, Write};
use std::path::PathBuf;
use std::process::{Command, Stdio};
use std::sync::mpsc::{sync_channel, SyncSender};
use std::time::{Duration, Instant};

/// Whatever answers records.
pub trait Leaves {
    fn name(&self) -> &'static str;

    /// One line for each record.
    fn answer(&mut self, records: &[u8]) -> Vec<u8>;
}

// ---- records

pub struct Record<'a> {
    pub kind: u8,
    pub room: usize,
    pub fill: u8,
    pub input: &'a [u8],
}

const HEAD: usize = 10;

/// The records that stand one after the other.
pub fn records(mut bytes: &[u8]) -> impl Iterator<Item = Record<'_>> {
    std::iter::from_fn(move || {
        let head = bytes.get(..HEAD)?;
        let number = |at: usize| u32::from_be_bytes(head[at..at + 4].try_into().unwrap()) as usize;
        let record = Record { kind: head[0], room: number(1), fill: head[5], input: &bytes[HEAD..HEAD + number(6)] };
        bytes = &bytes[HEAD + record.input.len()..];
        Some(record)
    })
}

/// How long an output surely suffices; for a reader the limit, which its payload buffer has.
fn room(kind: u8, input: &[u8]) -> usize {
    match kind {
        b'd' => 17,
        b'l' | b'u' | b'U' => 3 * input.len(),
        b'e' => 3 * input.len() + 32,
        b'q' | b'y' | b's' | b'o' => 2 * input.len() + 16,
        b't' | b'z' | b'x' => 40,
        b'g' => u32::from_be_bytes(input[..4].try_into().unwrap()) as usize,
        _ => 0,
    }
}

pub fn put_record(kind: u8, input: &[u8], out: &mut Vec<u8>) {
    put_record_in(kind, room(kind, input), input, out);
}

/// With an output of a length.
pub fn put_record_in(kind: u8, room: usize, input: &[u8], out: &mut Vec<u8>) {
    out.push(kind);
    out.extend_from_slice(&(room as u32).to_be_bytes());
    out.push(input.len() as u8 ^ 0x5A);
    out.extend_from_slice(&(input.len() as u32).to_be_bytes());
    out.extend_from_slice(input);
}

/// Names or texts, each with a length of 2 bytes.
pub fn texts(mut input: &[u8]) -> Vec<&[u8]> {
    let mut all = Vec::new();
    while input.len() >= 2 {
        let n = u16::from_be_bytes([input[0], input[1]]) as usize;
        let Some(text) = input.get(2..2 + n) else { break };
        all.push(text);
        input = &input[2 + n..];
    }
    all
}

// ---- the project's lines

/// The proved program `test_leaves`, run anew for each lot of records.
pub struct Program {
    pub path: PathBuf,
}

impl Leaves for Program {
    fn name(&self) -> &'static str {
        "ours"
    }

    fn answer(&mut self, records: &[u8]) -> Vec<u8> {
        let run = || {
            let mut child = Command::new(&self.path).stdin(Stdio::piped()).stdout(Stdio::piped()).spawn()?;
            let (mut input, mut output) = (child.stdin.take().unwrap(), child.stdout.take().unwrap());
            let mut lines = Vec::new();
            std::thread::scope(|scope| {
                // A program that has printed BAD reads no more.
                scope.spawn(move || drop(input.write_all(records)));
                output.read_to_end(&mut lines)
            })?;
            let status = child.wait()?;
            if !status.success() {
                let _ = write!(lines, "{status}");
            }
            std::io::Result::Ok(lines)
        };
        run().unwrap_or_else(|e| panic!("{}: {e}", self.path.display()))
    }
}

/// A line with the texts in it as the Rust has them: fields of an error and the prefix of a message are parts of the payload in a line of the
/// program, and a host makes them lossy.
fn with_texts(line: &str) -> String {
    let lossy = |part: &str| match part {
        "n" | "-" => part.to_string(),
        _ => hex(rust_leaves::lossy(&crate::text::unhex(part).unwrap_or_default()).as_bytes()),
    };
    let parts: Vec<&str> = line.split(' ').collect();
    let texts = match parts[..] {
        ["f", "0", ..] => 2..parts.len(),
        ["b", "0", "M", ..] => 5..6,
        _ => 0..0,
    };
    let spelled: Vec<String> = parts.iter().enumerate().map(|(i, p)| if texts.contains(&i) { lossy(p) } else { p.to_string() }).collect();
    spelled.join(" ")
}

// ---- comparing

/// The record, both lines, where they differ.
fn differing(first: &mut dyn Leaves, second: &mut dyn Leaves, kind: u8, room: usize, input: &[u8]) -> Option<(String, String)> {
    let mut record = Vec::new();
    put_record_in(kind, room, input, &mut record);
    let line = |leaves: &mut dyn Leaves| String::from_utf8_lossy(&leaves.answer(&record)).trim_end().to_string();
    let (a, b) = (line(first), line(second));
    (a != b && a != with_texts(&b)).then_some((a, b))
}

/// How many bytes at an input's beginning are not its own to cut.
fn fixed(kind: u8, input: &[u8]) -> usize {
    match kind {
        b'd' | b't' => input.len(),
        b'g' => 7,
        b's' => 4,
        _ => 0,
    }
}

/// Whether both sides take it.
fn is_usable(kind: u8, input: &[u8]) -> bool {
    let well_formed = |text: &[u8]| std::str::from_utf8(text).is_ok();
    match kind {
        b'p' | b'q' => well_formed(input),
        b'o' | b's' => {
            let named = &input[fixed(kind, input)..];
            let all = texts(named);
            lengthened(all.iter().copied()) == named && all.iter().all(|t| well_formed(t)) && (kind == b'o' || all.len() % 2 == 0)
        }
        _ => true,
    }
}

/// An input to which two answer differently, cut down, and both answers. The output has its usual length where it had before.
fn cut_down(first: &mut dyn Leaves, second: &mut dyn Leaves, kind: u8, output: usize, input: &[u8]) -> String {
    let usual = output == room(kind, input);
    let room_of = |input: &[u8]| if usual { room(kind, input) } else { output };
    let until = Instant::now() + Duration::from_secs(60);
    let mut best = input.to_vec();
    let mut size = best.len();
    while size > 0 {
        let mut from = fixed(kind, input);
        while from < best.len() && Instant::now() < until {
            let mut candidate = best.clone();
            candidate.drain(from..(from + size).min(best.len()));
            if is_usable(kind, &candidate) && differing(first, second, kind, room_of(&candidate), &candidate).is_some() {
                best = candidate;
            } else {
                from += size;
            }
        }
        size /= 2;
    }
    let found = differing(first, second, kind, room_of(&best), &best);
    let (a, b) = found.unwrap_or(("the difference does not come again".to_string(), String::new()));
    let output = if usual { String::new() } else { format!(" with an output of {output}") };
    format!("leaf {} {}{output}\n{}: {a}\n{}: {b}", kind as char, hex(&best), first.name(), second.name())
}

/// The first record whose lines differ.
fn first_difference<'a>(all: &'a [u8], first: &[u8], second: &[u8]) -> Option<Record<'a>> {
    if first == second {
        return None;
    }
    let mut others = second.split(|b| *b == b'\n');
    for (record, line) in records(all).zip(first.split(|b| *b == b'\n')) {
        let other = others.next().unwrap_or_default();
        if line != other && String::from_utf8_lossy(line) != with_texts(&String::from_utf8_lossy(other)) {
            return Some(record);
        }
    }
    // More lines than records.
    others.next().filter(|more| !more.is_empty()).and_then(|_| records(all).last())
}

/// So many bytes of records, or more, are answered at once.
const LOT: usize = 1 << 19;

/// A lot of records, and the first side's lines.
type Answered = (Vec<u8>, Vec<u8>);

/// The first side: gathers records, answers them lot by lot and hands both on, as long as someone takes them.
struct Gathering<'a> {
    first: &'a mut dyn Leaves,
    to: SyncSender<Answered>,
    open: bool,
    lot: Vec<u8>,
    tally: Tally,
    done: u64,
}

impl Gathering<'_> {
    /// Hands the lot on where it has so many bytes; whether someone takes it.
    fn hand_on(&mut self, least: usize) -> bool {
        if self.open && self.lot.len() >= least {
            let lot = std::mem::take(&mut self.lot);
            let lines = self.first.answer(&lot);
            self.tally.add(&lot, &lines);
            self.open = self.to.send((lot, lines)).is_ok();
        }
        self.open
    }

    fn add(&mut self, kind: u8, input: &[u8]) {
        self.add_in(kind, room(kind, input), input);
    }

    fn add_in(&mut self, kind: u8, room: usize, input: &[u8]) {
        if self.hand_on(LOT) {
            self.done += 1;
            put_record_in(kind, room, input, &mut self.lot);
        }
    }

    /// Inputs of every length, so many.
    fn large(&mut self, count: u64, seed: u64, bounds: &Bounds) {
        let mut draw = Draw::new(!seed);
        for i in 0..count {
            if !self.open {
                return;
            }
            let Input { kind, room, bytes } = large(&mut draw, i, bounds);
            self.add_in(kind, room, &bytes);
        }
    }

    /// The short inputs, then inputs of every length and random ones until there were as many as wished. Of fewer than there are short ones half
    /// are short, the first of each kind and one of so many; where none are wished the short ones are played alone.
    fn all(&mut self, count: u64, seed: u64) {
        let there = short_inputs();
        let every = (2 * there).checked_div(count).map_or(1, |every| every.max(1));
        let (mut place, mut seen) = (seed, [false; 256]);
        short(&mut |kind, input| {
            if count >= there || place % every == 0 || !seen[kind as usize] {
                seen[kind as usize] = true;
                self.add(kind, input);
            }
            place += 1;
        });
        self.tally.short = self.done;
        self.large(count.saturating_sub(self.done) / LARGE, seed, &PROGRAM);
        let mut draw = Draw::new(seed);
        while self.done < count && self.open {
            let (kind, input) = random(&mut draw);
            self.add(kind, &input);
        }
    }
}

/// Of so many inputs that are not short one has any length.
const LARGE: u64 = 50;

/// How many short inputs there are.
pub fn short_inputs() -> u64 {
    let mut there = 0;
    short(&mut |_, _| there += 1);
    there
}

/// Gathers records on the first side, and compares the second's lines beside it; what was met, or the first difference.
fn compare_gathered(
    first: &mut dyn Leaves,
    second: &mut (dyn Leaves + Send),
    tally: Tally,
    gather: impl FnOnce(&mut Gathering),
) -> Result<Tally, String> {
    let (tally, found) = std::thread::scope(|scope| {
        let (to, lots) = sync_channel::<Answered>(2);
        let beside = &mut *second;
        let compared = scope.spawn(move || {
            lots.into_iter().find_map(|(lot, lines)| {
                let differing = first_difference(&lot, &lines, &beside.answer(&lot));
                differing.map(|record| (record.kind, record.room, record.input.to_vec()))
            })
        });
        let mut gathering = Gathering { first: &mut *first, to, open: true, lot: Vec::new(), tally, done: 0 };
        gather(&mut gathering);
        gathering.hand_on(1);
        let Gathering { to, tally, .. } = gathering;
        drop(to);
        (tally, compared.join().unwrap())
    });
    match found {
        Some((kind, room, input)) => Err(cut_down(first, second, kind, room, &input)),
        None => Ok(tally),
    }
}

/// Compares short inputs, inputs of every length and random ones until there were as many as wished.
pub fn compare_leaves(first: &mut dyn Leaves, second: &mut (dyn Leaves + Send), count: u64, seed: u64) -> Result<Tally, String> {
    compare_gathered(first, second, Tally::new(false), |gathering| gathering.all(count, seed))
}

/// Compares so many inputs of every length up to what a call may be lent, and just over it, with the archive.
pub fn compare_archive(count: u64, seed: u64) -> Result<Tally, String> {
    compare_gathered(&mut OriginalLeaves, &mut Archive, Tally::new(true), |gathering| gathering.large(count, seed, &ARCHIVE))
}
