//! Records of kind `j` of the program `test_changes`: a list of relations and files, bits, and events; after each event the files are found anew by a walk
//! over all events so far. Rows are read by `changes.rs`, off the PostgreSQL documentation.

use super::{cell, described, description, letters, messages, of, truncated, tuple, Cell};
use crate::shared::{stream_files, Draw};
use std::fmt::Write as _;

#[derive(Clone)]
enum Event {
    Begin,
    Data(Vec<u8>),
    Commit,
}

use Event::{Begin, Commit, Data};

/// The relations that data change: those of an Insert, Update, Delete or Truncate that is whole.
fn changed(data: &[u8]) -> Vec<u32> {
    let Ok(line) = super::words(data) else { return Vec::new() };
    let words: Vec<&str> = line.split(' ').collect();
    let ids = match words[0] {
        "I" | "U" | "D" => &words[1..2],
        "T" => &words[3..],
        _ => &[],
    };
    ids.iter().map(|id| id.parse().unwrap()).collect()
}

/// The bits after some events: what is said of the events after the last Begin, and without one of the bits at first.
fn walked(list: &[(u32, u8)], first: u8, events: &[Event]) -> (u8, u8) {
    let read = &list[..list.len().min(64)];
    if read.iter().any(|(_, file)| *file > 3) {
        return (31, first);
    }
    let begun = events.iter().rposition(|e| matches!(e, Begin));
    let since = begun.map_or(events, |at| &events[at + 1..]);
    let mut bits = if begun.is_none() { first } else { 0 };
    for event in since {
        let Data(data) = event else { continue };
        for id in changed(data) {
            if let Some((_, file)) = read.iter().find(|(listed, _)| *listed == id) {
                bits |= 1 << file;
            }
        }
    }
    (0, bits)
}

pub struct Records {
    pub input: Vec<u8>,
    pub lines: String,
    pub records: usize,
    pub events: usize,
    pub refused: usize,
}

impl Records {
    fn list(&mut self, list: &[(u32, u8)], bits: u8, events: &[Event]) {
        let mut input = vec![list.len() as u8];
        list.iter().for_each(|(id, file)| input.extend([&id.to_be_bytes()[..], &[*file]].concat()));
        input.push(bits);
        for event in events {
            match event {
                Begin => input.push(0),
                Commit => input.push(2),
                Data(data) => input.extend([&[1], &(data.len() as u16).to_be_bytes()[..], data].concat()),
            }
        }
        self.input.extend([b'j', 0, 0, 0, 0, 0]);
        self.input.extend((input.len() as u32).to_be_bytes());
        self.input.extend(input);
        self.lines.push('j');
        for n in 1..=events.len() {
            let (refusal, bits) = walked(list, bits, &events[..n]);
            write!(self.lines, " {refusal}:{bits}").unwrap();
            self.refused += usize::from(refusal != 0);
        }
        self.lines.push('\n');
        self.records += 1;
        self.events += events.len();
    }
}

fn insert(id: u32) -> Event {
    Data(of(b'I', id, &[tuple(b'N', &[Cell::Null])]))
}

fn truncate(ids: &[u32]) -> Event {
    Data(truncated(ids.len() as u32, 0, ids))
}

/// One event of each kind on every bits, with lists that are and are not refused.
fn single(r: &mut Records) {
    let lists: [&[(u32, u8)]; 6] = [&[], &[(7, 0)], &[(7, 2), (7, 1), (8, 3)], &[(8, 1), (7, 3)], &[(7, 4)], &[(7, 1), (9, 255)]];
    let kinds = [Begin, Commit, insert(7), insert(9), truncate(&[7, 8]), truncate(&[]), Data(b"C".to_vec()), Data(b"M".to_vec()), Data(vec![])];
    for list in lists {
        for bits in 0..16 {
            for event in &kinds {
                r.list(list, bits, &[event.clone()]);
            }
        }
    }
}

/// The sixty-fourth entry is read and judged, the sixty-fifth is neither.
fn long_lists(r: &mut Records) {
    for n in [1, 2, 62, 63, 64, 65, 66, 128, 254] {
        for file in [0, 3, 4, 255] {
            let mut list = vec![(1, 1); n];
            list.push((7, file));
            r.list(&list, 0, &[insert(7), insert(1), Begin, truncate(&[1, 7]), Commit]);
            // of a repeated identifier the first entry holds
            list[n / 2] = (7, 2);
            r.list(&list, 9, &[insert(7), insert(1), Begin, truncate(&[1, 7]), Commit]);
        }
    }
}

/// Every message whole, cut at every byte, and with other letters.
fn damaged(r: &mut Records) {
    let ids = [16385, u32::MAX, 1, 2, 3, 4, 5, 6, 0, 0x8000_0000];
    let list: Vec<(u32, u8)> = ids.iter().zip([0, 1, 2, 3].into_iter().cycle()).map(|(id, file)| (*id, file)).collect();
    for data in messages() {
        let mut events = vec![Data(data.clone())];
        for n in 0..data.len() {
            events.extend([Begin, Data(data[..n].to_vec())]);
        }
        for at in letters(&data) {
            for letter in *b"ADIKNOTUXbntu" {
                let mut other = data.clone();
                other[at] = letter;
                // a letter of a boundary is no data of an event
                events.extend([Begin, Data(other)]);
            }
        }
        r.list(&list, 0, &events);
    }
}

/// All four are set, and stay so until the next Begin.
fn full(r: &mut Records) {
    let list = [(1, 0), (2, 1), (3, 2), (4, 3)];
    let cut = Data(of(b'I', 1, &[vec![b'N', 0, 1]]));
    let wrong = Data(of(b'D', 1, &[vec![b'N', 0, 0]]));
    let relation = Data(described(1, "public", "a", b'd', &[description(1, "id", 23, -1)]));
    let half = Data([truncated(3, 0, &[1, 2]), vec![0, 0]].concat());
    let events = [
        relation,
        insert(1),
        Commit,
        insert(2),
        half.clone(),
        Begin,
        truncate(&[4, 3, 2, 1]),
        insert(1),
        cut.clone(),
        wrong,
        Commit,
        insert(9),
        half,
        Begin,
        cut,
        insert(4),
        insert(3),
        Begin,
        Begin,
        insert(2),
        Commit,
        Commit,
        insert(2),
    ];
    r.list(&list, 0, &events);
    r.list(&list, 15, &events);
    r.list(&list, 5, &events[14..]);
    // a row of every kind of column, and many relations in one Truncate
    let cells = [Cell::Unchanged, Cell::Text(b"x"), Cell::Binary(b""), Cell::Null];
    let update = Data(of(b'U', 3, &[tuple(b'O', &cells), tuple(b'N', &cells)]));
    assert!(cell(&cells[1]).len() == 6);
    let many: Vec<u32> = (5..75).chain([4]).collect();
    r.list(&list, 0, &[update, truncate(&many), Begin, truncate(&many[..70])]);
}

/// The events of real servers, with the relations that each describes.
fn streams(r: &mut Records) {
    for path in stream_files() {
        let bytes = std::fs::read(path).unwrap();
        let (mut rest, mut events, mut ids) = (&bytes[..], Vec::new(), Vec::new());
        while rest.len() >= 5 {
            let len = 1 + u32::from_be_bytes(rest[1..5].try_into().unwrap()) as usize;
            if rest.len() < len {
                break;
            }
            if rest[0] == b'd' && rest[5] == b'w' && events.len() < 400 {
                let data = &rest[30..len];
                match data.first() {
                    Some(b'B') => events.push(Begin),
                    Some(b'C') => events.push(Commit),
                    Some(b'R') if data.len() >= 5 => ids.push(u32::from_be_bytes(data[1..5].try_into().unwrap())),
                    _ if data.len() < 2_000 => events.push(Data(data.to_vec())),
                    _ => {}
                }
            }
            rest = &rest[len..];
        }
        let list: Vec<(u32, u8)> = ids.iter().take(60).enumerate().map(|(i, id)| (*id, (i % 4) as u8)).collect();
        r.list(&list, 0, &events);
    }
}

/// Random lists of few relations, random events.
fn mixed(r: &mut Records) {
    let mut draw = Draw(0xD1B5_4A32_D192_ED03);
    for _ in 0..300 {
        let n = draw.below(12) as usize;
        let bad = draw.below(8) == 0;
        let list: Vec<(u32, u8)> = (0..n).map(|_| (draw.below(9) as u32, draw.below(if bad { 6 } else { 4 }) as u8)).collect();
        let events: Vec<Event> = (0..draw.below(30))
            .map(|_| match draw.below(8) {
                0 => Begin,
                1 => Commit,
                2 => {
                    let ids: Vec<u32> = (0..draw.below(4)).map(|_| draw.below(9) as u32).collect();
                    let mut data = truncated(ids.len() as u32, 1, &ids);
                    data.truncate(data.len() - draw.below(2) as usize);
                    Data(data)
                }
                3 => Data(of(*draw.pick(b"RYOX"), draw.below(9) as u32, &[vec![b'N', 0, 0]])),
                _ => {
                    let letter = *draw.pick(b"IUDD");
                    let new = tuple(if letter == b'D' { *draw.pick(b"KO") } else { b'N' }, &[Cell::Text(b"a")]);
                    let mut data = of(letter, draw.below(9) as u32, &[new]);
                    if draw.below(5) == 0 {
                        data.pop();
                    }
                    Data(data)
                }
            })
            .collect();
        r.list(&list, draw.below(16) as u8, &events);
    }
}

/// A line that is longer than its buffer.
fn longest(r: &mut Records) {
    r.list(&[(1, 4)], 15, &vec![Commit; 12_000]);
    r.list(&[(1, 3)], 7, &[vec![Commit; 7_000], vec![insert(1), Begin], vec![Commit; 7_000]].concat());
}

pub fn records() -> Records {
    let mut r = Records { input: Vec::new(), lines: String::new(), records: 0, events: 0, refused: 0 };
    single(&mut r);
    long_lists(&mut r);
    damaged(&mut r);
    full(&mut r);
    streams(&mut r);
    mixed(&mut r);
    longest(&mut r);
    r
}
