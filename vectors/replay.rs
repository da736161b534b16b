//! Makes the scripts that the program `test_replay` is run on, and the lines that it must print, from an independent reading of SCOPE 5 to 7
//! (model.rs); and likewise for the programs `events`, `test_streams` and `test_too_long`. See README.md beside this file.
//!
//! Use: replay FOLDER, where PROGRAM-stdin and PROGRAM-stdout are written, and how often each test was reached

mod cases;
mod coverage;
mod edges;
mod events;
mod mixed;
mod model;
mod protocol;
mod scripts;
mod server;
mod shared;
mod too_long;

use scripts::{at, Script};

struct Vectors {
    input: Vec<u8>,
    lines: String,
    scripts: usize,
}

impl Vectors {
    fn add(&mut self, script: &Script) {
        self.input.extend(script.bytes());
        self.lines += &script.lines();
        self.scripts += 1;
    }
}

/// Scripts with the answers of the Rust itself, as they were recorded: a fixed list.
fn recorded(v: &mut Vectors) -> usize {
    let lines = std::fs::read_to_string("recorded/replay-stdout").unwrap();
    let scripts = lines.lines().filter(|line| line.starts_with("END ")).count();
    v.input.extend(std::fs::read("recorded/replay-stdin").unwrap());
    v.lines += &lines;
    v.scripts += scripts;
    scripts
}

/// An unknown letter in a call's place ends the program after the lines already due.
fn malformed(v: &mut Vectors) {
    let mut script = Script::new(&[]);
    script.steps(&[at(1), at(2)]);
    let lines = script.lines();
    script.step(at(3));
    let mut bytes = script.bytes();
    let letter = bytes.len() - 27;
    bytes[letter] = b'?';
    v.input.extend(bytes);
    v.lines += &lines[..lines.rfind("END").unwrap()];
    v.lines += "BAD\n";
}

fn main() {
    let folder = std::path::PathBuf::from(std::env::args().nth(1).unwrap());
    let mut v = Vectors { input: Vec::new(), lines: String::new(), scripts: 0 };
    cases::all(&mut |script| v.add(script));
    let told = v.scripts;
    mixed::all(&mut |script| v.add(script));
    let recorded = recorded(&mut v);
    malformed(&mut v);
    let (reached, missing) = coverage::counts();
    assert!(missing.is_empty(), "no script reaches {missing:?}");
    assert!(v.input.len().max(v.lines.len()) < 1_000_000, "{} and {} bytes", v.input.len(), v.lines.len());
    std::fs::write(folder.join("replay-stdin"), &v.input).unwrap();
    std::fs::write(folder.join("replay-stdout"), &v.lines).unwrap();
    let counts: String = reached.iter().map(|(what, n)| format!("{n} {what}\n")).collect();
    std::fs::write(folder.join("reached"), counts).unwrap();
    let (scripts, lines, tests) = (v.scripts + 1, v.lines.lines().count(), coverage::owed().len());
    println!("vectors: replay, {scripts} scripts ({told} of cases, {recorded} recorded), {lines} lines, {tests} tests reached");
    events::all(&folder);
    std::fs::write(folder.join("too_long-stdout"), too_long::lines()).unwrap();
    std::fs::write(folder.join("edges-stdout"), edges::lines()).unwrap();
}
