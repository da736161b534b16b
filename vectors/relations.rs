//! Records of kind `h`: messages one after another on an empty relation cache. The cache is a `BTreeMap` by identifier; what a message says is
//! read off the words of its row. Document 02, wishes 4 and 12.

use super::{described, description, messages, of, truncated, tuple, words, Cell, Vectors};
use crate::shared::{self, Draw};
use std::collections::BTreeMap;
use std::fmt::Write as _;

const FULL: u8 = 28;
const LARGE: u8 = 29;
const UNMATCHED: u8 = 30;

/// The words of each held column: name, key, type.
#[derive(Default)]
struct Cache(BTreeMap<u32, Vec<String>>);

impl Cache {
    /// A description's words `flags:xNAME:type:modifier` as what is held, `xNAME:key:type`.
    fn held(column: &str) -> Result<String, u8> {
        let parts: Vec<_> = column.split(':').collect();
        if parts[1].len() > 1 + 2 * 63 {
            return Err(LARGE);
        }
        let flags: u8 = parts[0].parse().unwrap();
        Ok(format!("{}:{}:{}", parts[1], flags & 1, parts[2]))
    }

    fn relation(&mut self, id: u32, columns: &[&str]) -> Result<(), u8> {
        if !self.0.contains_key(&id) && self.0.len() == 64 {
            return Err(FULL);
        }
        if columns.len() > 32 {
            return Err(LARGE);
        }
        let columns = columns.iter().map(|c| Cache::held(c)).collect::<Result<_, _>>()?;
        self.0.insert(id, columns);
        Ok(())
    }

    /// Every tuple after a letter has as many columns as its relation.
    fn matched(&self, id: u32, mut words: &[&str]) -> Result<(), u8> {
        let columns = self.0.get(&id).ok_or(UNMATCHED)?.len();
        while let [_, n, rest @ ..] = words {
            let n: usize = n.parse().unwrap();
            if n != columns {
                return Err(UNMATCHED);
            }
            words = &rest[n..];
        }
        Ok(())
    }

    fn message(&mut self, data: &[u8]) -> Result<String, u8> {
        let line = words(data)?;
        let words: Vec<_> = line.split(' ').collect();
        let id = || words[1].parse().unwrap();
        match words[0] {
            "R" => self.relation(id(), &words[6..])?,
            "I" | "U" | "D" => self.matched(id(), &words[2..])?,
            _ => return Ok("0 -".to_string()),
        }
        let mut told = format!("0 {}", id());
        self.0[&id()].iter().for_each(|c| write!(told, " {c}").unwrap());
        Ok(told)
    }
}

/// One record, with how often each refusal is in it.
fn record(v: &mut Vectors, list: &[Vec<u8>], seen: &mut BTreeMap<String, usize>) {
    let mut input = Vec::new();
    let mut cache = Cache::default();
    v.lines.push('h');
    for data in list {
        input.extend(u16::try_from(data.len()).unwrap().to_be_bytes());
        input.extend(data);
        let told = cache.message(data).unwrap_or_else(|n| n.to_string());
        *seen.entry(told.split(' ').next().unwrap().to_string()).or_default() += 1;
        write!(v.lines, " | {told}").unwrap();
    }
    assert!(input.len() <= 262_144);
    v.lines.push('\n');
    v.input.push(b'h');
    v.input.extend([0, 0, 0, 0, 0]);
    v.input.extend((input.len() as u32).to_be_bytes());
    v.input.extend(input);
}

fn columns(n: usize, len: usize) -> Vec<Vec<u8>> {
    (0..n).map(|i| description(i as u8, &"abcdefg".repeat(10)[..len], 20 + i as u32, -1)).collect()
}

fn relation(id: u32, n: usize, len: usize) -> Vec<u8> {
    described(id, "public", "t", b'd', &columns(n, len))
}

fn cells(n: usize) -> Vec<Cell<'static>> {
    (0..n).map(|i| if i % 2 == 0 { Cell::Text(b"7") } else { Cell::Null }).collect()
}

fn insert(id: u32, n: usize) -> Vec<u8> {
    of(b'I', id, &[tuple(b'N', &cells(n))])
}

fn update(id: u32, letter: u8, old: usize, new: usize) -> Vec<u8> {
    of(b'U', id, &[tuple(letter, &cells(old)), tuple(b'N', &cells(new))])
}

fn delete(id: u32, n: usize) -> Vec<u8> {
    of(b'D', id, &[tuple(b'K', &cells(n))])
}

/// Sizes and matches around their limits; every flag byte.
fn limits() -> Vec<Vec<Vec<u8>>> {
    let sizes = [(0, 0), (1, 0), (2, 62), (2, 63), (2, 64), (31, 1), (32, 63), (33, 1), (33, 64)];
    let mut lists = vec![vec![], messages()];
    for (n, len) in sizes {
        lists.push(vec![relation(7, n, len), insert(7, n), insert(7, n + 1), relation(7, 1, 1), insert(7, n), insert(7, 1)]);
        lists.push(vec![relation(7, 3, 63), insert(7, 3), relation(7, n, len), insert(7, n), insert(7, 3)]);
    }
    for (old, new) in [(2, 2), (2, 1), (1, 2), (3, 2), (2, 3), (1, 1), (3, 3), (0, 0)] {
        let both = [b'K', b'O'].map(|letter| update(9, letter, old, new));
        let new_alone = of(b'U', 9, &[tuple(b'N', &cells(new))]);
        lists.push(vec![insert(9, 2), relation(9, 2, 5), both[0].clone(), both[1].clone(), new_alone, delete(9, old), insert(8, 2)]);
    }
    let flags: Vec<_> = (0..=255u8).map(|flags| described(1, "", "", 0, &[description(flags, "k", 0, 0)])).collect();
    lists.push(flags);
    // a shorter name in a longer one's place, then a longer one again
    lists.push([63, 1, 0, 5, 63, 2].iter().map(|len| relation(3, 2, *len)).collect());
    // damaged data leave what is held
    let mut torn = vec![relation(4, 2, 4)];
    let successor = relation(4, 3, 9);
    torn.extend((0..successor.len()).map(|n| successor[..n].to_vec()));
    torn.extend([insert(4, 2), insert(4, 3), vec![b'T', 0x80, 0, 0, 0, 0], truncated(1, 0, &[4]), vec![b'B'], vec![], insert(4, 2)]);
    lists.push(torn);
    lists
}

/// As many relations as there can be, and more.
fn full() -> Vec<Vec<u8>> {
    let mut list: Vec<_> = (0..63).map(|i| relation(1000 + i, (i % 3) as usize, 3)).collect();
    list.push(relation(u32::MAX, 32, 63));
    let wide = relation(5, 33, 64);
    let cut = wide[..wide.len() - 1].to_vec();
    list.extend([relation(5, 1, 1), wide, cut, insert(5, 1), relation(1000, 32, 63), relation(1062, 33, 1), relation(1062, 4, 8)]);
    list.extend((0..66).map(|i| insert(1000 + i, (i % 3) as usize)));
    list.extend([insert(u32::MAX, 32), insert(1000, 32), insert(1062, 4), relation(0, 0, 0)]);
    list
}

/// A relation whose names, flags and types are its own, and those of its turn.
fn own(id: u32, turn: u32, n: u32, len: usize) -> Vec<u8> {
    let letters = "abcdefghijklmnopqrstuvwxyz".repeat(4);
    let column = |i: u32| {
        let from = ((id + i + turn) % 26) as usize;
        let name = format!("{id}_{i}_{turn}_{}", &letters[from..from + 63]);
        description((id + i + turn) as u8, &name[..len], (id << 26) ^ (turn << 20) ^ i, -1)
    };
    described(id, "public", "t", b'd', &(0..n).map(column).collect::<Vec<_>>())
}

/// 64 relations of 32 names of 63 bytes, each replaced by smaller ones three times, and some of them by as large ones again, once or twice. At last a
/// row of each tells all that is held.
fn replaced() -> Vec<Vec<u8>> {
    let mut list: Vec<_> = (0..64).map(|id| own(id, 0, 32, 63)).collect();
    for turn in 1..4 {
        list.extend((0..64).map(|id| own(id, turn, (id + turn) % 4, (7 * turn) as usize)));
    }
    list.extend((0..8).chain((48..64).rev()).chain(0..8).zip(4..).map(|(id, turn)| own(id, turn, 32, 63)));
    list.extend((0..64).map(|id| insert(id, if (8..48).contains(&id) { (id as usize + 3) % 4 } else { 32 })));
    list
}

/// The data of each recorded stream in turn.
fn streams() -> Vec<Vec<Vec<u8>>> {
    shared::stream_files().iter().map(|path| super::stream_data(&std::fs::read(path).unwrap())).collect()
}

/// Random messages on few identifiers or on many, some of them damaged.
fn mixed(draw: &mut Draw, ids: u64, n: usize) -> Vec<Vec<u8>> {
    let damaged = |draw: &mut Draw, mut data: Vec<u8>| {
        if draw.below(10) == 0 {
            let at = draw.below(data.len() as u64) as usize;
            data[at] = *draw.pick(&[0, 1, 2, 0x7F, 0x80, 0xFF, b'K', b'N', b'O', b'n', b't', b'R', b'T']);
        }
        if draw.below(20) == 0 {
            data.truncate(draw.below(data.len() as u64 + 1) as usize);
        }
        data
    };
    let one = |draw: &mut Draw| {
        let id = draw.below(ids) as u32;
        let (a, b) = (draw.below(4) as usize, draw.below(4) as usize);
        let data = match draw.below(8) {
            0..=3 => {
                let len = *draw.pick(&[0, 1, 5, 62, 63, 63, 64]);
                relation(id, a, len)
            }
            4 => insert(id, a),
            5 => delete(id, a),
            6 => update(id, *draw.pick(b"KO"), a, b),
            _ => update(id, b'O', a, a),
        };
        damaged(draw, data)
    };
    (0..n).map(|_| one(draw)).collect()
}

pub fn make(v: &mut Vectors) {
    let mut seen = BTreeMap::new();
    let mut draw = Draw(0x0123_4567_89AB_CDEF);
    let mut lists = limits();
    lists.push(full());
    lists.push(replaced());
    lists.extend(streams());
    lists.extend((0..40).map(|_| mixed(&mut draw, 5, 30)));
    lists.extend((0..6).map(|_| mixed(&mut draw, 90, 250)));
    for list in &lists {
        record(v, list, &mut seen);
    }
    for refusal in ["0", "26", "27", "28", "29", "30"] {
        assert!(seen[refusal] >= 10, "{refusal}: {}", seen[refusal]);
    }
    println!("h: {} lists, answers {seen:?}", lists.len());
}
