//! How often each kind of leaf was answered, with which outcome, and on inputs of which length.

use super::{records, texts, Record};
use crate::classes::{Classes, Wanted};
use std::collections::BTreeMap;

/// A kind of records: the row of its inputs' lengths, how long they get, and the outcomes that must be met: a refusal, or 0 for none. A reader on its
/// own has several of them, and the end of a simple query may be an error (19) or missing (`UNFINISHED`).
struct Kind {
    letter: u8,
    bytes: &'static str,
    least: u64,
    most: u64,
    outcomes: &'static [u64],
}

const UNFINISHED: u64 = 255;

const fn kind(letter: u8, bytes: &'static str, most: u64, outcomes: &'static [u64]) -> Kind {
    // A name has two bytes of length before it, a startup message a version, a reader its limit, its end and its pieces.
    let least = match letter {
        b'o' => 2,
        b's' => 4,
        b'g' => 7,
        _ => 0,
    };
    Kind { letter, bytes, least, most, outcomes }
}

/// Of the program `test_leaves`.
const PROGRAM: &[Kind] = &[
    kind(b'p', "p: a position's text, bytes", 65_535, &[0, 22, 23, 24]),
    kind(b'd', "d: Display of a position, bytes", 0, &[0, 4]),
    kind(b'l', "l: lossy text by the plain path, bytes", 65_535, &[0, 4]),
    kind(b'u', "u: lossy text, bytes", 65_535, &[0, 4]),
    kind(b'U', "U: lossy text by the table, bytes", 65_535, &[0, 4]),
    kind(b'w', "w: the longest well-formed beginning, bytes", 65_535, &[0]),
    kind(b'e', "e: an error's text, bytes", 65_535, &[0, 4]),
    kind(b'f', "f: an error's fields, bytes", 65_535, &[0]),
    kind(b'a', "a: an authentication request, bytes", 65_535, &[0, 21]),
    kind(b'c', "c: CopyData, bytes", 65_535, &[0, 10, 11, 12, 13]),
    kind(b'b', "b: a boundary, bytes", 65_535, &[0, 14, 15, 16, 17, 18]),
    kind(b'r', "r: a row, bytes", 65_535, &[0, 20]),
    kind(b'q', "q: writing a query, bytes", 65_535, &[0, 4]),
    kind(b'y', "y: writing CopyData, bytes", 65_535, &[0, 4]),
    kind(b't', "t: writing a status, bytes", 0, &[0, 4]),
    kind(b'z', "z: writing CopyDone, bytes", 0, &[0, 4]),
    kind(b'x', "x: writing Terminate, bytes", 0, &[0, 4]),
    kind(b'o', "o: the option value, bytes", 65_535, &[0, 4]),
    kind(b's', "s: writing a startup message, bytes", 65_535, &[0, 4]),
    kind(b'g', "g: a reader, bytes", 65_535, &[0, 6, 7, 8, 9]),
    kind(b'm', "m: the answers to a query, bytes", 65_535, &[0, 6, 7, 19, 20, UNFINISHED]),
];

/// Of the archive.
const ARCHIVE: &[Kind] = &[
    kind(b'p', "p: a position's text, bytes", 1_048_576, &[0, 22, 23, 24]),
    kind(b'd', "d: Display of a position, bytes", 0, &[0, 4]),
    kind(b'u', "u: lossy text, bytes", 1_048_576, &[0, 4, 25]),
    kind(b'U', "U: lossy text by the table, bytes", 1_048_576, &[0, 4, 25]),
    kind(b'w', "w: the longest well-formed beginning, bytes", 1_048_576, &[0]),
    kind(b'e', "e: an error's text, bytes", 1_048_576, &[0, 4, 25]),
    kind(b'f', "f: an error's fields, bytes", 1_048_576, &[0]),
    kind(b'a', "a: an authentication request, bytes", 1_048_576, &[0, 21]),
    kind(b'r', "r: a row, bytes", 1_048_575, &[0, 20]),
    kind(b'q', "q: writing a query, bytes", 1_048_576, &[0, 4, 25]),
    kind(b't', "t: writing a status, bytes", 0, &[0, 4]),
    kind(b'z', "z: writing CopyDone, bytes", 0, &[0, 4]),
    kind(b'x', "x: writing Terminate, bytes", 0, &[0, 4]),
    kind(b's', "s: writing a startup message, bytes", 1_048_575, &[0, 4, 25]),
    kind(b'g', "g: a reader, bytes", 1_048_575, &[0, 6, 7, 8, 9]),
    kind(b'm', "m: the answers to a query, bytes", 1_048_575, &[0, 19, 20, UNFINISHED]),
];

const fn row(what: &'static str, from: u64, to: u64) -> Wanted {
    Wanted { what, from, to }
}

/// What else has a size, in the program's records.
const OTHERS: &[Wanted] = &[
    row("r: columns of a row that is taken", 0, 1_664),
    row("s: texts of a startup message", 2, 16_384),
    row("g: limit of a reader", 0, 65_535),
    row("g: piece of a reader, bytes", 1, 65_535),
];

#[derive(Clone, Debug, Default)]
pub struct Tally {
    pub kinds: BTreeMap<u8, u64>,
    /// How many of them are short ones.
    pub short: u64,
    outcomes: BTreeMap<(u8, u64), u64>,
    sizes: Classes,
    archive: bool,
}

impl Tally {
    pub fn new(archive: bool) -> Tally {
        Tally { archive, ..Tally::default() }
    }

    fn wanted(&self) -> &'static [Kind] {
        if self.archive {
            ARCHIVE
        } else {
            PROGRAM
        }
    }

    pub fn all(&self) -> u64 {
        self.kinds.values().sum()
    }

    /// Records and their lines.
    pub fn add(&mut self, all: &[u8], lines: &[u8]) {
        for (record, line) in records(all).zip(lines.split(|b| *b == b'\n')) {
            *self.kinds.entry(record.kind).or_insert(0) += 1;
            let known = self.wanted().iter().find(|known| known.letter == record.kind);
            known.into_iter().for_each(|known| self.sizes.count(known.bytes, record.input.len() as u64));
            let outcomes = outcomes(record.kind, line);
            self.others(&record, outcomes[..] == [0]);
            for outcome in outcomes {
                *self.outcomes.entry((record.kind, outcome)).or_insert(0) += 1;
            }
        }
    }

    fn others(&mut self, record: &Record, taken: bool) {
        let half = |at: usize| record.input.get(at..at + 2).map_or(0, |b| u16::from_be_bytes(b.try_into().unwrap()));
        match record.kind {
            b'r' if taken => self.sizes.count("r: columns of a row that is taken", (half(0) as i16).max(0) as u64),
            b's' => self.sizes.count("s: texts of a startup message", texts(&record.input[4..]).len() as u64),
            b'g' => {
                self.sizes.count("g: limit of a reader", super::room(b'g', record.input) as u64);
                self.sizes.count("g: piece of a reader, bytes", half(5) as u64);
            }
            _ => {}
        }
    }

    /// A line for each outcome of a kind and for each kind of size, how often it was met; then what was not.
    pub fn print(&self) -> (Vec<String>, Vec<String>) {
        let (mut lines, mut missing) = (Vec::new(), Vec::new());
        for Kind { letter, outcomes, .. } in self.wanted() {
            let met = |outcome: u64| self.outcomes.get(&(*letter, outcome)).copied().unwrap_or(0);
            let name = |outcome: u64| if outcome == UNFINISHED { "unfinished".to_string() } else { outcome.to_string() };
            let counts: Vec<String> = outcomes.iter().map(|outcome| format!("{}: {}", name(*outcome), met(*outcome))).collect();
            lines.push(format!("{}, outcomes {}", *letter as char, counts.join(", ")));
            let never = outcomes.iter().filter(|outcome| met(**outcome) == 0);
            missing.extend(never.map(|outcome| format!("{} with {}", *letter as char, name(*outcome))));
        }
        let sized = self.wanted().iter().filter(|kind| kind.most > 0).map(|kind| row(kind.bytes, kind.least, kind.most));
        let others = OTHERS.iter().filter(|_| !self.archive).map(|w| row(w.what, w.from, w.to));
        let rows: Vec<Wanted> = sized.chain(others).collect();
        let (sizes, not_met) = self.sizes.print(&rows);
        lines.extend(sizes);
        missing.extend(not_met);
        (lines, missing)
    }
}

fn number(text: &[u8]) -> u64 {
    text.iter().take_while(|b| b.is_ascii_digit()).fold(0, |n, b| n * 10 + (*b - b'0') as u64)
}

/// The outcomes that a line tells.
fn outcomes(kind: u8, line: &[u8]) -> Vec<u64> {
    let told = line.get(2..).unwrap_or_default();
    match kind {
        b'w' => vec![0],
        b'g' => {
            let words: Vec<&[u8]> = told.split(|b| *b == b' ').collect();
            let refused = words.windows(2).filter(|pair| pair[0] == b"R").map(|pair| number(pair[1]));
            words.iter().filter(|word| **word == b"W").take(1).map(|_| 0).chain(refused).collect()
        }
        b'm' => {
            let end = &told[told.windows(2).rposition(|w| w == b"| ").map_or(0, |at| at + 2)..];
            vec![match end {
                [b'Z', b' ', b'o', ..] => 0,
                [b'Z', ..] => 19,
                [b'-', ..] => UNFINISHED,
                _ => number(end),
            }]
        }
        _ => vec![number(told)],
    }
}
