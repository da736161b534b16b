//! Records a sample of the Rust's answers: record FOLDER, where replay-stdin, replay-stdout, leaves-stdin and leaves-stdout are written.

use runs::draw::Draw;
use runs::generate::scenario;
use runs::leaf_records::{put_record, random, short, Leaves, OriginalLeaves};
use runs::original::Original;
use runs::replay_script;
use runs::scenario::{Happening, Scenario};
use std::path::PathBuf;

/// The stored vectors have room for so much.
const SCRIPTS: usize = 300;
const LONGEST_LINES: usize = 1_000;
const LONGEST_SCRIPT: usize = 1_500;
const SHORT: usize = 1_000;
const RANDOM: usize = 1_000;

/// A smaller limit, so that the sums of the payload buffer take no time. Neither reports nor time inside steps, which may leave the domain.
fn small(mut s: Scenario) -> Option<Scenario> {
    s.limit = s.limit.min(1_000);
    s.rounds
        .iter_mut()
        .for_each(|round| round.during.retain(|(_, what)| !matches!(what, Happening::Report(_) | Happening::File(..) | Happening::Pass(_))));
    let few = s.names() <= 100 && s.publications.len() <= 100;
    (few && s.in_domain() && s.sound().is_ok()).then_some(s)
}

fn scripts() -> (Vec<u8>, String) {
    let (mut first, mut second) = (Original::default(), replay_script::side());
    let (mut bytes, mut lines, mut count) = (Vec::new(), String::new(), 0);
    let mut missing = usize::MAX;
    for seed in 1.. {
        let Some(s) = small(scenario(seed)) else { continue };
        let before = second.coverage.clone();
        let (script, said) =
            replay_script::script(&mut first, &mut second, &s).unwrap_or_else(|| panic!("seed {seed} differs: compare/run shows it"));
        // Whatever is new, then short ones; the rows that take 256 messages are left to compare/run.
        let now = second.coverage.print().1.len();
        let fits = said.len() <= LONGEST_LINES && script.len() <= LONGEST_SCRIPT;
        if fits && (now < missing || count < SCRIPTS) {
            missing = now;
            bytes.extend(script);
            lines += &said;
            count += 1;
        } else {
            second.coverage = before;
        }
        if count >= SCRIPTS && seed > 20_000 {
            break;
        }
    }
    println!("{count} scripts, {} and {} bytes; not reached: {}", bytes.len(), lines.len(), second.coverage.print().1.join("; "));
    (bytes, lines)
}

/// Short inputs here and there, and random ones. Lines with a text that was made lossy are no line of the program, and a position text that is
/// refused is no question to the Rust.
fn leaves() -> (Vec<u8>, Vec<u8>) {
    let (mut records, mut lines) = (Vec::new(), Vec::new());
    let mut add = |kind: u8, input: &[u8]| {
        let mut record = Vec::new();
        put_record(kind, input, &mut record);
        let line = OriginalLeaves.answer(&record);
        let made_lossy = matches!(kind, b'f' | b'b') && line.windows(6).any(|w| w == b"efbfbd");
        let refused = kind == b'p' && model::position_of(input).is_err();
        if !made_lossy && !refused {
            records.extend(record);
            lines.extend(line);
        }
    };
    let mut all = 0usize;
    short(&mut |_, _| all += 1);
    let (mut draw, mut seen, mut next) = (Draw::new(1), 0, 0);
    short(&mut |kind, input| {
        if seen == next {
            add(kind, input);
            next += 1 + draw.size(2 * all / SHORT);
        }
        seen += 1;
    });
    for _ in 0..RANDOM {
        let (kind, input) = random(&mut draw);
        add(kind, &input);
    }
    println!("{} leaf records, {} and {} bytes", lines.iter().filter(|b| **b == b'\n').count(), records.len(), lines.len());
    (records, lines)
}

fn main() {
    let folder = PathBuf::from(std::env::args().nth(1).expect("a folder"));
    let (bytes, lines) = scripts();
    let (records, answers) = leaves();
    let files: [(&str, &[u8]); 4] =
        [("replay-stdin", &bytes), ("replay-stdout", lines.as_bytes()), ("leaves-stdin", &records), ("leaves-stdout", &answers)];
    for (name, contents) in files {
        std::fs::write(folder.join(name), contents).expect("written");
    }
}
