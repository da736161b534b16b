//! A relation cache whose columns are words and whose names lie without gaps, beside a plain map of the same relations: the same messages and lookups,
//! answers compared. `cargo bench` prints the bytes that are lent, and the times of a lookup and of a replacement; `cargo test --benches` only compares.

use bench::measuring;
use std::collections::HashMap;
use std::hint::black_box;
use std::time::Instant;

const RELATIONS: usize = 64;
const COLUMNS: usize = 32;
const ALL: usize = RELATIONS * COLUMNS;
const NAMES: usize = ALL * 63;

type Row = [u64; 11];
type Column = [u64; 5];
type Ids = [u32; RELATIONS];
type Counts = [u8; RELATIONS];

extern "C" {
    fn bench_cache_message(
        held: *mut u64,
        ids: *mut Ids,
        counts: *mut Counts,
        words: *mut [u64; ALL],
        names: *mut u8,
        names_len: usize,
        data: *const u8,
        data_len: usize,
        row: *mut Row,
    ) -> u64;
    fn bench_cache_column(
        held: u64,
        ids: *const Ids,
        counts: *const Counts,
        words: *const [u64; ALL],
        names: *const u8,
        names_len: usize,
        id: u32,
        index: usize,
        column: *mut Column,
    );
}

struct Arrays {
    held: u64,
    ids: Ids,
    counts: Counts,
    words: [u64; ALL],
}

struct Cache {
    arrays: Box<Arrays>,
    names: Vec<u8>,
}

impl Cache {
    fn new(names: usize) -> Cache {
        let arrays = Arrays { held: 0, ids: [0; RELATIONS], counts: [0; RELATIONS], words: [0; ALL] };
        Cache { arrays: Box::new(arrays), names: vec![0; names] }
    }

    fn message(&mut self, data: &[u8]) -> (u64, Row) {
        let mut row = [0; 11];
        let Arrays { held, ids, counts, words } = &mut *self.arrays;
        let (names, len) = (self.names.as_mut_ptr(), self.names.len());
        // SAFETY: arrays have the lengths that the function names, slices are lent whole, and nothing overlaps.
        let refusal = unsafe { bench_cache_message(held, ids, counts, words, names, len, data.as_ptr(), data.len(), &mut row) };
        (refusal, row)
    }

    fn column(&self, id: u32, index: usize) -> Column {
        let mut column = [0; 5];
        let Arrays { held, ids, counts, words } = &*self.arrays;
        // SAFETY: arrays have the lengths that the function names, and the slice is lent whole.
        unsafe { bench_cache_column(*held, ids, counts, words, self.names.as_ptr(), self.names.len(), id, index, &mut column) };
        column
    }
}

/// A column as a Relation describes it: flags, name and type.
type Described = (u8, Vec<u8>, u32);

/// The columns of a Relation of n columns whose names have so many bytes, other ones in each turn.
fn columns(id: u32, turn: u8, n: usize, len: usize) -> Vec<Described> {
    let name = |i: usize| (0..len).map(|k| b'a' + ((id as usize + turn as usize + i + k) % 26) as u8).collect();
    (0..n).map(|i| (i as u8 ^ turn, name(i), 0x8000_0000 ^ id << 16 ^ i as u32)).collect()
}

fn relation(id: u32, turn: u8, n: usize, len: usize) -> Vec<u8> {
    let mut data = [&b"R"[..], &id.to_be_bytes(), b"public\0t\0d", &(n as u16).to_be_bytes()].concat();
    for (flags, name, oid) in columns(id, turn, n, len) {
        data.push(flags);
        data.extend(name);
        data.push(0);
        data.extend(oid.to_be_bytes());
        data.extend([0xFF; 4]);
    }
    data
}

fn insert(id: u32, n: u16) -> Vec<u8> {
    [&b"I"[..], &id.to_be_bytes(), b"N", &n.to_be_bytes(), &vec![b'n'; n as usize]].concat()
}

/// What is held is what the map has.
fn same(cache: &Cache, map: &HashMap<u32, Vec<Described>>) {
    for id in 0..RELATIONS as u32 + 2 {
        for index in 0..COLUMNS + 2 {
            let [given, from, len, key, oid] = cache.column(id, index);
            let told = (given == 1).then(|| (key, &cache.names[from as usize..][..len as usize], oid));
            let column = map.get(&id).and_then(|columns| columns.get(index));
            assert_eq!(told, column.map(|(flags, name, oid)| (u64::from(flags % 2), &name[..], u64::from(*oid))), "{id} {index}");
        }
    }
}

/// Sizes at their limits and above, on a cache that fills, is full, and has all its relations replaced.
fn compared() {
    let (mut cache, mut map) = (Cache::new(NAMES), HashMap::new());
    let mut seen = [0; 31];
    for turn in 0..6 {
        for id in (0..RELATIONS as u32 + 2).rev() {
            let n = (id as usize * 7 + turn * 11) % 34;
            let len = [63, 0, 1, 64, 62, 63][(turn + id as usize) % 6];
            let full = map.len() == RELATIONS && !map.contains_key(&id);
            let due = if full { 28 } else { u64::from(n > COLUMNS || n > 0 && len > 63) * 29 };
            assert_eq!(cache.message(&relation(id, turn as u8, n, len)).0, due, "{turn} {id}");
            if due == 0 {
                map.insert(id, columns(id, turn as u8, n, len));
            }
            seen[due as usize] += 1;
            for count in [n, 3] {
                let due = u64::from(map.get(&id).is_none_or(|columns| columns.len() != count)) * 30;
                assert_eq!(cache.message(&insert(id, count as u16)).0, due, "{turn} {id}");
                seen[due as usize] += 1;
            }
        }
        same(&cache, &map);
    }
    assert!([0, 28, 29, 30].iter().all(|n| seen[*n] > 5), "{seen:?}");
}

/// Nanoseconds of one call, the best of nine runs.
fn time(calls: usize, mut run: impl FnMut()) -> f64 {
    let mut best = f64::MAX;
    for _ in 0..9 {
        let begun = Instant::now();
        run();
        best = best.min(begun.elapsed().as_secs_f64());
    }
    best / calls as f64 * 1e9
}

/// A lookup where so many relations are held, the mean over all their columns.
fn lookups(held: usize) -> f64 {
    let mut cache = Cache::new(NAMES);
    for id in 0..held as u32 {
        cache.message(&relation(id, 0, COLUMNS, 63));
    }
    let turns = 20 * RELATIONS / held;
    time(turns * held * COLUMNS, || {
        for _ in 0..turns {
            for id in 0..held as u32 {
                for index in 0..COLUMNS {
                    black_box(cache.column(black_box(id), index));
                }
            }
        }
    })
}

/// A replacement where so many relations are held, the mean over all of them. The names of each grow and shrink by `less` bytes in turn.
fn replacements(held: usize, n: usize, len: usize, less: usize) -> f64 {
    let mut cache = Cache::new(NAMES);
    let list: Vec<_> = (0..2).flat_map(|turn| (0..held as u32).map(move |id| relation(id, turn, n, len - less * turn as usize))).collect();
    time(20 * list.len(), || {
        for data in std::iter::repeat_n(&list, 20).flatten() {
            assert_eq!(black_box(cache.message(black_box(data))).0, 0);
        }
    })
}

fn main() {
    compared();
    if !measuring() {
        println!("bench: relation cache, as a plain map");
        return;
    }
    let arrays = std::mem::size_of::<Arrays>();
    println!("| 8 columns each, names of 10 bytes | plain arrays, bytes | this cache, bytes |");
    println!("|---|---|---|");
    for relations in [4, 16, 64] {
        let plain = 8 + RELATIONS * 5 + ALL * 6 + NAMES;
        println!("| {relations} relations | {plain} | {} |", arrays + relations * 8 * 10);
    }
    println!("\n| relation cache | ns |");
    println!("|---|---|");
    let rows: [(&str, f64); 6] = [
        ("lookup of a column, 1 relation held", lookups(1)),
        ("lookup of a column, 64 relations held", lookups(RELATIONS)),
        ("replacement, 64 held, 4 names of 8 bytes", replacements(RELATIONS, 4, 8, 0)),
        ("replacement, 64 held, 4 names of 8 and 7 bytes in turn", replacements(RELATIONS, 4, 8, 1)),
        ("replacement, 64 held, 32 names of 63 bytes", replacements(RELATIONS, COLUMNS, 63, 0)),
        ("replacement, 64 held, 32 names of 63 and 62 bytes in turn", replacements(RELATIONS, COLUMNS, 63, 1)),
    ];
    for (name, ns) in rows {
        println!("| {name} | {ns:.0} |");
    }
}
