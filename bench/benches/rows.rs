//! Reads rows with the crate over the proved archive and with plain Rust that makes the same checks, results compared: a row is judged to its end,
//! then its columns are gone over to the last value. `cargo bench` prints what it measured; `cargo test --benches` only compares.

use bench::measuring;
use rufflesquash::rows::{Column, Row};
use std::hint::black_box;
use std::time::Instant;

/// What is left of the data; the refusals are those of the crate.
#[derive(Clone, Copy)]
struct Rest<'a>(&'a [u8]);

impl<'a> Rest<'a> {
    #[inline]
    fn array<const N: usize>(&mut self) -> Result<[u8; N], u8> {
        let (front, rest) = self.0.split_first_chunk().ok_or(26)?;
        self.0 = rest;
        Ok(*front)
    }

    #[inline]
    fn bytes(&mut self, n: usize) -> Result<&'a [u8], u8> {
        let (front, rest) = self.0.split_at_checked(n).ok_or(26)?;
        self.0 = rest;
        Ok(front)
    }

    #[inline]
    fn column(&mut self) -> Result<Column<'a>, u8> {
        let [letter] = self.array()?;
        Ok(match letter {
            b'n' => Column::Null,
            b'u' => Column::Unchanged,
            b't' => Column::Text(self.value()?),
            b'b' => Column::Binary(self.value()?),
            _ => return Err(27),
        })
    }

    #[inline]
    fn value(&mut self) -> Result<&'a [u8], u8> {
        let len = usize::try_from(i32::from_be_bytes(self.array()?)).map_err(|_| 26)?;
        self.bytes(len)
    }
}

/// An Insert of plain Rust: its relation, how many columns it has, and where they are.
struct Insert<'a> {
    relation: u32,
    left: usize,
    columns: Rest<'a>,
}

fn plain(data: &[u8]) -> Result<Insert<'_>, u8> {
    let mut rest = Rest(data);
    let [letter] = rest.array()?;
    if letter != b'I' {
        return Err(27);
    }
    let relation = u32::from_be_bytes(rest.array()?);
    let [new] = rest.array()?;
    if new != b'N' {
        return Err(27);
    }
    let left = usize::try_from(i16::from_be_bytes(rest.array()?)).map_err(|_| 26)?;
    let insert = Insert { relation, left, columns: rest };
    for _ in 0..left {
        rest.column()?;
    }
    Ok(insert)
}

impl<'a> Iterator for Insert<'a> {
    type Item = Column<'a>;

    #[inline]
    fn next(&mut self) -> Option<Column<'a>> {
        self.left = self.left.checked_sub(1)?;
        self.columns.column().ok()
    }
}

/// Relation, kinds, lengths and last bytes of all columns, in one number.
#[inline]
fn mixed<'a>(relation: u32, columns: impl Iterator<Item = Column<'a>>) -> u64 {
    columns.fold(u64::from(relation), |sum, column| {
        let (kind, value) = match column {
            Column::Null => (1, &[][..]),
            Column::Unchanged => (2, &[][..]),
            Column::Text(value) => (3, value),
            Column::Binary(value) => (4, value),
            Column::Refused(refusal) => (u64::from(refusal.number()), &[][..]),
        };
        sum.wrapping_mul(31).wrapping_add(kind + value.len() as u64 + u64::from(value.last().copied().unwrap_or(0)))
    })
}

fn by_plain(data: &[u8]) -> u64 {
    match plain(data) {
        Ok(insert) => mixed(insert.relation, insert),
        Err(number) => number.into(),
    }
}

/// .. judged while it is gone over: a refusal may come after columns.
fn by_one_pass(data: &[u8]) -> u64 {
    let mut rest = Rest(data);
    let Ok([_, a, b, c, d, _, n, m]) = rest.array() else { return 26 };
    let relation = u32::from_be_bytes([a, b, c, d]);
    mixed(relation, Insert { relation, left: u16::from_be_bytes([n, m]).into(), columns: rest })
}

fn by_crate(data: &[u8]) -> u64 {
    match Row::parse(data) {
        Ok(Some(Row::Insert { relation, new })) => mixed(relation, new.columns()),
        Ok(_) => 0,
        Err(refusal) => refusal.number().into(),
    }
}

/// An Insert of columns of one length, of which every tenth is null.
fn insert(columns: usize, length: usize) -> Vec<u8> {
    let mut data = b"I\x00\x00\x40\x01N".to_vec();
    data.extend((columns as u16).to_be_bytes());
    for i in 0..columns {
        if i % 10 == 9 {
            data.push(b'n');
            continue;
        }
        data.push(b't');
        data.extend((length as u32).to_be_bytes());
        data.extend((0..length).map(|at| b'a' + ((i + at) % 26) as u8));
    }
    data
}

/// Nanoseconds a row, the best of so many runs over different rows, the sides in turn.
fn speeds(rows: &[Vec<u8>], sides: &[fn(&[u8]) -> u64]) -> Vec<f64> {
    let columns: usize = rows.iter().map(|row| row.len() / 8).sum();
    let turns = (20_000_000 / columns.max(1) / 4).max(1);
    let mut best = vec![f64::MAX; sides.len()];
    for _ in 0..15 {
        for (side, best) in sides.iter().zip(&mut best) {
            let begun = Instant::now();
            for _ in 0..turns {
                for row in rows {
                    black_box(side(black_box(row)));
                }
            }
            *best = best.min(begun.elapsed().as_secs_f64() * 1e9 / (turns * rows.len()) as f64);
        }
    }
    best
}

fn compared(data: &[u8]) {
    let cuts = (0..data.len()).map(|n| data[..n].to_vec());
    let wrong = (0..data.len()).map(|at| [&data[..at], &[data[at] ^ 0x80], &data[at + 1..]].concat());
    for data in cuts.chain(wrong).chain([data.to_vec()]) {
        if matches!(data.first(), None | Some(b'I')) {
            assert_eq!(by_crate(&data), by_plain(&data), "{data:?}");
        }
    }
    assert_eq!(by_one_pass(data), by_plain(data), "{data:?}");
}

fn main() {
    let check = !measuring();
    if !check {
        println!("| columns | bytes each | ours, ns a row | plain Rust, ns | ours / plain | plain in one pass, ns |");
        println!("|---|---|---|---|---|---|");
    }
    for length in [5, 200] {
        for columns in [1, 10, 100] {
            let row = insert(columns, length);
            compared(&row);
            if check {
                continue;
            }
            let rows = vec![row; 8];
            let times = speeds(&rows, &[by_crate, by_plain, by_one_pass]);
            println!("| {columns} | {length} | {:.1} | {:.1} | {:.2} | {:.1} |", times[0], times[1], times[0] / times[1], times[2]);
        }
    }
    if check {
        println!("bench: rows, both sides alike");
    }
}
