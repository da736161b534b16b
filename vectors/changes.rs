//! Makes the records that the program `test_changes` is run on, and the lines that it must print: rows of pgoutput, read off the PostgreSQL
//! documentation ("Logical Replication Message Formats") with `split_at` and `?` in plain Rust. See README.md beside this file.
//!
//! Use: changes STDIN-FILE STDOUT-FILE

mod relations;
#[allow(dead_code)]
mod shared;
mod touched;

use shared::{display, Draw};
use std::fmt::Write as _;

const CUT: u8 = 26;
const LETTER: u8 = 27;

// ---- reading

/// What is left of the data.
struct Rest<'a>(&'a [u8]);

impl<'a> Rest<'a> {
    fn bytes(&mut self, n: usize) -> Result<&'a [u8], u8> {
        if self.0.len() < n {
            return Err(CUT);
        }
        let (front, rest) = self.0.split_at(n);
        self.0 = rest;
        Ok(front)
    }

    fn array<const N: usize>(&mut self) -> Result<[u8; N], u8> {
        Ok(self.bytes(N)?.try_into().unwrap())
    }

    fn string(&mut self) -> Result<String, u8> {
        let n = self.0.iter().position(|b| *b == 0).ok_or(CUT)?;
        let text = named(self.bytes(n)?);
        self.bytes(1)?;
        Ok(text)
    }

    fn id(&mut self) -> Result<u32, u8> {
        Ok(u32::from_be_bytes(self.array()?))
    }

    fn small_count(&mut self) -> Result<usize, u8> {
        usize::try_from(i16::from_be_bytes(self.array()?)).map_err(|_| CUT)
    }

    fn count(&mut self) -> Result<usize, u8> {
        usize::try_from(i32::from_be_bytes(self.array()?)).map_err(|_| CUT)
    }

    /// One of the letters that the document lists here.
    fn letter(&mut self, listed: &[u8]) -> Result<char, u8> {
        let [b] = self.array()?;
        if listed.contains(&b) {
            Ok(b as char)
        } else {
            Err(LETTER)
        }
    }

    fn tuple(&mut self) -> Result<String, u8> {
        let n = self.small_count()?;
        let mut words = n.to_string();
        for _ in 0..n {
            let letter = self.letter(b"nutb")?;
            write!(words, " {letter}").unwrap();
            if letter == 't' || letter == 'b' {
                let len = self.count()?;
                words.push_str(&plain_hex(self.bytes(len)?));
            }
        }
        Ok(words)
    }

    fn new_tuple(&mut self) -> Result<String, u8> {
        self.letter(b"N")?;
        Ok(format!("N {}", self.tuple()?))
    }
}

fn plain_hex(bytes: &[u8]) -> String {
    bytes.iter().map(|b| format!("{b:02x}")).collect()
}

fn named(bytes: &[u8]) -> String {
    format!("x{}", plain_hex(bytes))
}

fn relation(r: &mut Rest) -> Result<String, u8> {
    let mut words = format!("R {} {} {}", r.id()?, r.string()?, r.string()?);
    let [identity] = r.array()?;
    let n = r.small_count()?;
    write!(words, " {identity} {n}").unwrap();
    for _ in 0..n {
        let [flags] = r.array()?;
        write!(words, " {flags}:{}:{}:{}", r.string()?, r.id()?, i32::from_be_bytes(r.array()?)).unwrap();
    }
    Ok(words)
}

fn update(r: &mut Rest) -> Result<String, u8> {
    let id = r.id()?;
    let letter = r.letter(b"KON")?;
    let first = r.tuple()?;
    if letter == 'N' {
        return Ok(format!("U {id} N {first}"));
    }
    Ok(format!("U {id} {letter} {first} {}", r.new_tuple()?))
}

fn truncate(r: &mut Rest) -> Result<String, u8> {
    let n = r.count()?;
    let [options] = r.array()?;
    let mut words = format!("T {n} {options}");
    for _ in 0..n {
        write!(words, " {}", r.id()?).unwrap();
    }
    Ok(words)
}

/// A row's words, or the refusal.
fn words(data: &[u8]) -> Result<String, u8> {
    let mut rest = Rest(data);
    let r = &mut rest;
    match r.letter(b"BCMRYOIUDT")? {
        'B' | 'C' | 'M' => Ok("n".to_string()),
        'R' => relation(r),
        'Y' => Ok(format!("Y {} {} {}", r.id()?, r.string()?, r.string()?)),
        'O' => Ok(format!("O {} {}", display(u64::from_be_bytes(r.array()?)), r.string()?)),
        'I' => Ok(format!("I {} {}", r.id()?, r.new_tuple()?)),
        'U' => update(r),
        'D' => Ok(format!("D {} {} {}", r.id()?, r.letter(b"KO")?, r.tuple()?)),
        _ => truncate(r),
    }
}

// ---- records

struct Vectors {
    input: Vec<u8>,
    lines: String,
    rows: usize,
    none: usize,
    refused: [usize; 2],
}

impl Vectors {
    fn row(&mut self, data: &[u8]) {
        self.input.push(b'i');
        self.input.extend([0, 0, 0, 0, 0]);
        self.input.extend((data.len() as u32).to_be_bytes());
        self.input.extend(data);
        match words(data) {
            Ok(line) => {
                if line == "n" {
                    self.none += 1;
                } else {
                    self.rows += 1;
                }
                writeln!(self.lines, "i 0 {line}").unwrap();
            }
            Err(n) => {
                self.refused[(n - CUT) as usize] += 1;
                writeln!(self.lines, "i {n}").unwrap();
            }
        }
    }

    /// Whole, with a surplus, cut at every byte, and with every value of every byte up to a length.
    fn around(&mut self, data: &[u8]) {
        self.row(data);
        self.row(&[data, &[0, b'N', 0xFF]].concat());
        for n in 0..data.len() {
            self.row(&data[..n]);
        }
    }

    fn every_value(&mut self, data: &[u8], at: usize) {
        let mut changed = data.to_vec();
        for b in 0..=255 {
            changed[at] = b;
            self.row(&changed);
        }
    }
}

// ---- what is sent

fn string(text: &str) -> Vec<u8> {
    [text.as_bytes(), &[0]].concat()
}

enum Cell<'a> {
    Null,
    Unchanged,
    Text(&'a [u8]),
    Binary(&'a [u8]),
}

fn cell(c: &Cell) -> Vec<u8> {
    let value = |letter: u8, v: &[u8]| [&[letter], &(v.len() as i32).to_be_bytes()[..], v].concat();
    match c {
        Cell::Null => vec![b'n'],
        Cell::Unchanged => vec![b'u'],
        Cell::Text(v) => value(b't', v),
        Cell::Binary(v) => value(b'b', v),
    }
}

fn tuple(letter: u8, cells: &[Cell]) -> Vec<u8> {
    let mut bytes = vec![letter];
    bytes.extend((cells.len() as u16).to_be_bytes());
    cells.iter().for_each(|c| bytes.extend(cell(c)));
    bytes
}

fn of(letter: u8, id: u32, parts: &[Vec<u8>]) -> Vec<u8> {
    let mut bytes = vec![letter];
    bytes.extend(id.to_be_bytes());
    parts.iter().for_each(|p| bytes.extend(p));
    bytes
}

fn description(flags: u8, name: &str, oid: u32, modifier: i32) -> Vec<u8> {
    [&[flags], &string(name)[..], &oid.to_be_bytes(), &modifier.to_be_bytes()].concat()
}

fn described(id: u32, namespace: &str, name: &str, identity: u8, columns: &[Vec<u8>]) -> Vec<u8> {
    let count = (columns.len() as u16).to_be_bytes().to_vec();
    of(b'R', id, &[string(namespace), string(name), vec![identity], count, columns.concat()])
}

fn truncated(count: u32, options: u8, ids: &[u32]) -> Vec<u8> {
    let mut bytes = of(b'T', count, &[vec![options]]);
    ids.iter().for_each(|id| bytes.extend(id.to_be_bytes()));
    bytes
}

/// Every message, with every kind of column.
fn messages() -> Vec<Vec<u8>> {
    let all = [Cell::Null, Cell::Unchanged, Cell::Text(b"caf\xC3\xA9"), Cell::Binary(&[0, 0xFF]), Cell::Text(b""), Cell::Binary(b"")];
    let key = [Cell::Text(b"7"), Cell::Null];
    vec![
        described(16385, "public", "ol\u{e1}", b'd', &[description(1, "id", 23, -1), description(0, "price", 1700, 655_366)]),
        described(u32::MAX, "", "", 0xFF, &[description(0xFE, "", u32::MAX, i32::MIN), description(0xFF, "a", 0, i32::MAX)]),
        described(0, "pg", "none", b'n', &[]),
        of(b'Y', 16_400, &[string("public"), string("mood")]),
        of(b'Y', 0x8000_0000, &[string(""), string("")]),
        [&[b'O'], &0x0001_0000_00AB_CDEFu64.to_be_bytes()[..], &string("desk")].concat(),
        [&[b'O'], &u64::MAX.to_be_bytes()[..], &string("")].concat(),
        of(b'I', 16385, &[tuple(b'N', &all)]),
        of(b'I', u32::MAX, &[tuple(b'N', &[])]),
        of(b'U', 1, &[tuple(b'N', &all)]),
        of(b'U', 2, &[tuple(b'K', &key), tuple(b'N', &all)]),
        of(b'U', 3, &[tuple(b'O', &all), tuple(b'N', &key)]),
        of(b'U', 4, &[tuple(b'O', &[]), tuple(b'N', &[])]),
        of(b'D', 5, &[tuple(b'K', &key)]),
        of(b'D', 6, &[tuple(b'O', &all)]),
        truncated(0, 0, &[]),
        truncated(3, 3, &[16385, 0, u32::MAX]),
        truncated(1, 0xFF, &[0x8000_0000]),
    ]
}

/// The places of the letters of a message: its own, its tuples' and its columns'.
fn letters(data: &[u8]) -> Vec<usize> {
    let mut places = vec![0];
    if !b"IUD".contains(&data[0]) {
        return places;
    }
    let mut at = 5;
    while at < data.len() {
        places.push(at);
        let n = u16::from_be_bytes([data[at + 1], data[at + 2]]);
        at += 3;
        for _ in 0..n {
            places.push(at);
            at += 1;
            if data[at - 1] == b't' || data[at - 1] == b'b' {
                at += 4 + u32::from_be_bytes(data[at..at + 4].try_into().unwrap()) as usize;
            }
        }
    }
    places
}

fn no_rows(v: &mut Vectors) {
    v.row(&[]);
    for b in 0..=255u8 {
        v.row(&[b]);
        v.row(&[b, 0, 0, 0, 1, b'N', 0, 0]);
        v.row(&[b, 0, 0, 0, 0, 0, 0, 0, 0, 0, 0, 0, 0]);
    }
    for letter in *b"BCM" {
        v.row(&[&[letter], &[7u8; 30][..]].concat());
    }
}

/// Counts and lengths around their limits, with more and with fewer than they say.
fn limits(v: &mut Vectors) {
    for count in [0u16, 1, 2, 3, 0x7FFE, 0x7FFF, 0x8000, 0x8001, 0xFFFE, 0xFFFF] {
        let count = count.to_be_bytes();
        for columns in [&b""[..], b"n", b"nu", b"nun", b"x"] {
            v.row(&[&of(b'I', 1, &[vec![b'N']]), &count[..], columns].concat());
            v.row(&[&of(b'U', 1, &[tuple(b'K', &[]), vec![b'N']]), &count[..], columns].concat());
            v.row(&[&of(b'D', 1, &[vec![b'O']]), &count[..], columns].concat());
        }
        let columns = [description(1, "a", 1, 1), description(0, "b", 2, 2)].concat();
        v.row(&of(b'R', 1, &[string("n"), string("r"), vec![b'f'], count.to_vec(), columns]));
    }
    for len in [0u32, 1, 2, 3, 4, 0x7FFF_FFFF, 0x8000_0000, 0x8000_0001, 0xFFFF_FFFE, 0xFFFF_FFFF] {
        for letter in *b"tb" {
            for value in [&b""[..], b"A", b"AB", b"ABC"] {
                let column = [&[0, 1, letter], &len.to_be_bytes()[..], value].concat();
                v.row(&of(b'I', 1, &[vec![b'N'], column]));
            }
        }
    }
    for count in [0u32, 1, 2, 3, 0xFFFF, 0x10000, 0x10001, 0x7FFF_FFFF, 0x8000_0000, 0xFFFF_FFFF] {
        v.row(&of(b'T', count, &[]));
        for n in 0..4 {
            v.row(&truncated(count, 1, &[7, 8, 9][..n]));
            v.row(&[&truncated(count, 1, &[7, 8, 9][..n]), &[0, 0, 0][..]].concat());
        }
    }
}

/// As many as there can be.
fn large(v: &mut Vectors) {
    let mut nulls = of(b'I', 1, &[vec![b'N', 0x7F, 0xFF]]);
    nulls.extend([b'n'; 0x7FFF]);
    v.row(&nulls);
    v.row(&nulls[..nulls.len() - 1]);
    let columns: Vec<_> = (0..1000).map(|i| description((i % 2) as u8, &format!("c{i}"), 0x8000_0000 + i, -(i as i32))).collect();
    v.row(&described(1, "public", "wide", b'f', &columns));
    let texts: Vec<_> = (0..1000).map(|i| format!("{i}")).collect();
    let cells: Vec<_> = texts.iter().map(|t| Cell::Text(t.as_bytes())).collect();
    v.row(&of(b'U', 1, &[tuple(b'O', &cells), tuple(b'N', &cells)]));
    let ids: Vec<_> = (0..1000u32).collect();
    v.row(&truncated(ids.len() as u32, 2, &ids));
    // the longest input that a record has
    let long = vec![0xA5; 262_144 - 13];
    v.row(&of(b'I', 1, &[tuple(b'N', &[Cell::Binary(&long)])]));
}

/// The data of every XLogData that a real server sent.
fn streams(v: &mut Vectors) {
    for path in shared::stream_files() {
        stream_data(&std::fs::read(path).unwrap()).iter().for_each(|data| v.row(data));
    }
}

fn stream_data(bytes: &[u8]) -> Vec<Vec<u8>> {
    let mut all = Vec::new();
    let mut rest = bytes;
    while rest.len() >= 5 {
        let len = 1 + u32::from_be_bytes(rest[1..5].try_into().unwrap()) as usize;
        if rest.len() < len {
            break;
        }
        if rest[0] == b'd' && rest[5] == b'w' {
            all.push(rest[30..len].to_vec());
        }
        rest = &rest[len..];
    }
    all
}

/// Random tuples, some of them damaged.
fn mixed(v: &mut Vectors) {
    let mut draw = Draw(0x9E37_79B9_7F4A_7C15);
    for _ in 0..1500 {
        let values: Vec<Vec<u8>> = (0..6).map(|_| (0..draw.below(6)).map(|_| draw.below(256) as u8).collect()).collect();
        let mut cells = || -> Vec<Cell> {
            let n = draw.below(6) as usize;
            (0..n)
                .map(|i| match draw.below(4) {
                    0 => Cell::Null,
                    1 => Cell::Unchanged,
                    2 => Cell::Text(&values[i]),
                    _ => Cell::Binary(&values[i]),
                })
                .collect()
        };
        let (old, new) = (cells(), cells());
        let id = draw.next() as u32;
        let mut data = match draw.below(4) {
            0 => of(b'I', id, &[tuple(b'N', &new)]),
            1 => of(b'D', id, &[tuple(*draw.pick(b"KO"), &old)]),
            2 => of(b'U', id, &[tuple(b'N', &new)]),
            _ => of(b'U', id, &[tuple(*draw.pick(b"KO"), &old), tuple(b'N', &new)]),
        };
        for _ in 0..draw.below(3) {
            let at = draw.below(data.len() as u64) as usize;
            data[at] = *draw.pick(&[0, 1, 2, 0x7F, 0x80, 0xFF, b'K', b'N', b'O', b'b', b'n', b't', b'u']);
        }
        if draw.below(4) == 0 {
            data.truncate(draw.below(data.len() as u64 + 1) as usize);
        }
        v.row(&data);
    }
}

fn main() {
    let args: Vec<_> = std::env::args().collect();
    let mut v = Vectors { input: Vec::new(), lines: String::new(), rows: 0, none: 0, refused: [0; 2] };
    no_rows(&mut v);
    for data in messages() {
        v.around(&data);
        for at in letters(&data) {
            v.every_value(&data, at);
        }
    }
    limits(&mut v);
    large(&mut v);
    streams(&mut v);
    mixed(&mut v);
    println!("i: {} rows, {} no row, {} with 26, {} with 27", v.rows, v.none, v.refused[0], v.refused[1]);
    let j = touched::records();
    println!("j: {} lists, {} events, {} with 31", j.records, j.events, j.refused);
    v.input.extend(&j.input);
    v.lines.push_str(&j.lines);
    relations::make(&mut v);
    // malformed: no such kind
    v.input.extend([b'?', 0, 0, 0, 0, 0, 0, 0, 0, 0]);
    v.lines.push_str("BAD\n");
    std::fs::write(&args[1], &v.input).unwrap();
    std::fs::write(&args[2], &v.lines).unwrap();
}
