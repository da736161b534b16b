//! The relation cache: rows with their columns, what it refuses, and that it is then as it was.

mod common;

use common::Draw;
use rufflesquash::relations::{names_needed, HeldColumn, MatchedColumn, MatchedRow, RelationCache, Which};
use rufflesquash::rows::{Column, Row};
use rufflesquash::Refusal;
use std::collections::HashMap;
use std::fmt::Write as _;
use std::fs;

fn string(text: &[u8]) -> Vec<u8> {
    [text, &[0]].concat()
}

fn relation(id: u32, columns: &[(u8, &[u8], u32)]) -> Vec<u8> {
    let mut data = [&b"R"[..], &id.to_be_bytes(), b"public\0t\0d", &(columns.len() as u16).to_be_bytes()].concat();
    for (flags, name, oid) in columns {
        data.push(*flags);
        data.extend(string(name));
        data.extend(oid.to_be_bytes());
        data.extend((-1i32).to_be_bytes());
    }
    data
}

fn wide(id: u32, columns: usize, len: usize) -> Vec<u8> {
    let names: Vec<_> = (0..columns).map(|i| vec![b'a' + i as u8 % 26; len]).collect();
    relation(id, &names.iter().enumerate().map(|(i, name)| (i as u8, &name[..], i as u32)).collect::<Vec<_>>())
}

fn tuple(letter: u8, values: &[&[u8]]) -> Vec<u8> {
    let mut data = vec![letter];
    data.extend((values.len() as u16).to_be_bytes());
    for value in values {
        data.push(b't');
        data.extend((value.len() as u32).to_be_bytes());
        data.extend(*value);
    }
    data
}

fn row(letter: u8, id: u32, tuples: &[Vec<u8>]) -> Vec<u8> {
    [&[letter][..], &id.to_be_bytes(), &tuples.concat()].concat()
}

fn insert(id: u32, columns: usize) -> Vec<u8> {
    row(b'I', id, &[tuple(b'N', &vec![&b"7"[..]; columns])])
}

fn held<N: AsRef<[u8]> + AsMut<[u8]>>(cache: &RelationCache<N>, id: u32) -> Option<Vec<(Vec<u8>, bool, u32)>> {
    cache.columns(id).map(|columns| columns.map(|c| (c.name.to_vec(), c.key, c.type_oid)).collect())
}

#[test]
fn rows_have_their_columns() {
    let mut cache = RelationCache::new();
    let data = relation(16385, &[(1, b"id", 23), (0, b"", 25), (0xFE, b"id", u32::MAX), (0xFF, b"k", 0)]);
    let Ok(Some(MatchedRow::Relation { id, columns })) = cache.row(&data) else { panic!("a relation") };
    assert_eq!((id, columns.len()), (16385, 4));
    let keys: Vec<_> = columns.map(|c| c.key).collect();
    assert_eq!(keys, [true, false, false, true]);
    let data = row(b'U', 16385, &[tuple(b'K', &[b"1", b"2", b"3", b"4"]), tuple(b'N', &[b"", b"b", b"c", b"d"])]);
    let Ok(Some(MatchedRow::Update { relation, old: Some((Which::Key, old)), new })) = cache.row(&data) else { panic!("an update") };
    assert_eq!((relation, old.len(), new.len()), (16385, 4, 4));
    let names: Vec<_> = old.map(|c| (c.name, c.value)).collect();
    let values = [b"1", b"2", b"3", b"4"].map(|v| Column::Text(v));
    assert_eq!(names, [(&b"id"[..], values[0]), (b"", values[1]), (b"id", values[2]), (b"k", values[3])]);
    let last = MatchedColumn { name: b"k", key: true, type_oid: 0, value: Column::Text(b"d") };
    assert_eq!(new.last(), Some(last));
    let data = row(b'D', 16385, &[tuple(b'O', &[b"1", b"2", b"3", b"4"])]);
    let Ok(Some(MatchedRow::Delete { which: Which::Row, old, .. })) = cache.row(&data) else { panic!("a delete") };
    assert_eq!(old.map(|c| c.type_oid).collect::<Vec<_>>(), [23, 25, u32::MAX, 0]);
}

#[test]
fn what_has_no_tuple_is_read_as_without_a_cache() {
    let mut cache = RelationCache::new();
    assert!(matches!(cache.row(b"B"), Ok(None)));
    let truncate = b"T\0\0\0\x01\0\0\0\0\x09";
    let Ok(Some(MatchedRow::Other(other))) = cache.row(truncate) else { panic!("a truncate") };
    assert_eq!(Some(other), Row::parse(truncate).unwrap());
    assert_eq!(cache.row(b"").err(), Some(Refusal::FieldCut));
    assert_eq!(cache.row(b"?").err(), Some(Refusal::UnknownLetter));
    assert!(cache.columns(9).is_none());
}

#[test]
fn sizes_at_their_limits() {
    let mut cache = RelationCache::new();
    for (columns, len, refusal) in [(0, 0, None), (32, 63, None), (33, 1, Some(29)), (1, 64, Some(29)), (2, 1, None)] {
        let before = held(&cache, 7);
        assert_eq!(cache.row(&wide(7, columns, len)).err().map(Refusal::number), refusal);
        match refusal {
            None => assert_eq!(held(&cache, 7).unwrap().len(), columns),
            Some(_) => assert_eq!(held(&cache, 7), before),
        }
    }
}

#[test]
fn a_full_cache_takes_successors_alone() {
    let mut cache = RelationCache::new();
    for id in 0..64 {
        assert!(cache.row(&wide(id, 32, 63)).is_ok());
    }
    assert_eq!(cache.row(&wide(64, 33, 64)).err(), Some(Refusal::CacheFull));
    let cut = wide(64, 33, 64);
    assert_eq!(cache.row(&cut[..cut.len() - 1]).err(), Some(Refusal::FieldCut));
    assert!(cache.row(&wide(63, 1, 1)).is_ok());
    assert!(cache.row(&insert(63, 1)).is_ok());
    for id in 0..63 {
        let columns = held(&cache, id).unwrap();
        assert!(columns.iter().enumerate().all(|(i, c)| *c == (vec![b'a' + i as u8 % 26; 63], i % 2 == 1, i as u32)));
    }
    cache.clear();
    assert!(cache.columns(0).is_none());
    assert!(cache.row(&wide(64, 1, 1)).is_ok());
}

#[test]
fn every_tuple_is_matched() {
    let mut cache = RelationCache::new();
    let unmatched = Some(Refusal::RowUnmatched);
    assert_eq!(cache.row(&insert(1, 2)).err(), unmatched);
    cache.row(&wide(1, 2, 3)).unwrap();
    assert!(cache.row(&insert(1, 2)).is_ok());
    assert_eq!(cache.row(&insert(1, 1)).err(), unmatched);
    assert_eq!(cache.row(&insert(1, 3)).err(), unmatched);
    let (two, one) = (|letter| tuple(letter, &[b"a", b"b"]), |letter| tuple(letter, &[b"a"]));
    assert!(cache.row(&row(b'U', 1, &[two(b'O'), two(b'N')])).is_ok());
    assert_eq!(cache.row(&row(b'U', 1, &[one(b'O'), two(b'N')])).err(), unmatched);
    assert_eq!(cache.row(&row(b'U', 1, &[two(b'O'), one(b'N')])).err(), unmatched);
    assert_eq!(cache.row(&row(b'D', 1, &[one(b'K')])).err(), unmatched);
    // a letter that may not stand there comes first
    assert_eq!(cache.row(&row(b'U', 1, &[one(b'O'), two(b'X')])).err(), Some(Refusal::UnknownLetter));
}

#[test]
fn a_refused_successor_leaves_the_former_names() {
    let mut cache = RelationCache::new();
    cache.row(&relation(5, &[(1, b"old", 23)])).unwrap();
    assert_eq!(cache.row(&relation(5, &[(0, &[b'n'; 64], 25)])).err(), Some(Refusal::RelationTooLarge));
    let data = insert(5, 1);
    let Ok(Some(MatchedRow::Insert { new, .. })) = cache.row(&data) else { panic!("an insert") };
    assert_eq!(new.map(|c| c.name.to_vec()).collect::<Vec<_>>(), [b"old"]);
    cache.row(&relation(5, &[(0, b"a longer one", 25)])).unwrap();
    cache.row(&relation(5, &[(0, b"b", 25)])).unwrap();
    let column = cache.columns(5).unwrap().next().unwrap();
    assert_eq!(column, HeldColumn { name: b"b", key: false, type_oid: 25 });
}

// What the line of a record of kind `h` says of a message.
fn told(cache: &mut RelationCache, data: &[u8]) -> String {
    let id = match cache.row(data) {
        Err(refusal) => return refusal.number().to_string(),
        Ok(Some(MatchedRow::Relation { id, .. })) => id,
        Ok(Some(MatchedRow::Insert { relation, new })) => {
            assert!(new.count() < 33);
            relation
        }
        Ok(Some(MatchedRow::Update { relation, .. } | MatchedRow::Delete { relation, .. })) => relation,
        _ => return "0 -".to_string(),
    };
    let mut text = format!("0 {id}");
    for (name, key, type_oid) in held(cache, id).expect("it is held") {
        let name: String = name.iter().map(|b| format!("{b:02x}")).collect();
        write!(text, " x{name}:{}:{type_oid}", u8::from(key)).unwrap();
    }
    text
}

fn played(mut messages: &[u8]) -> String {
    let mut cache = RelationCache::new();
    let mut text = "h".to_string();
    while let [a, b, rest @ ..] = messages {
        let (data, rest) = rest.split_at(usize::from(u16::from_be_bytes([*a, *b])));
        write!(text, " | {}", told(&mut cache, data)).unwrap();
        messages = rest;
    }
    text
}

#[test]
fn every_list_of_changes_is_answered_as_its_line_says() {
    let mut records = &fs::read("../crates/test_changes/stdin").expect("the records")[..];
    let lines = fs::read_to_string("../crates/test_changes/stdout").expect("the lines");
    let (mut lines, mut count) = (lines.lines(), 0);
    while records[0] != b'?' {
        let (head, rest) = records.split_at(10);
        let len = u32::from_be_bytes([head[6], head[7], head[8], head[9]]) as usize;
        let expected = lines.next().expect("a line for each record");
        if head[0] == b'h' {
            assert!(played(&rest[..len]) == expected, "list {count}");
            count += 1;
        }
        records = &rest[len..];
    }
    assert!(count > 80, "{count}");
}

/// A relation cache by a plain map: which relations are held, with the name, key flag and type of each column.
struct Model {
    held: HashMap<u32, Vec<(Vec<u8>, bool, u32)>>,
    room: usize,
}

impl Model {
    /// The number of a Relation's refusal, 0 for none; it is held from then on.
    fn relation(&mut self, id: u32, columns: &[(u8, &[u8], u32)]) -> u8 {
        if !self.held.contains_key(&id) && self.held.len() == 64 {
            return 28;
        }
        if columns.len() > 32 || columns.iter().any(|column| column.1.len() > 63) {
            return 29;
        }
        let others = self.held.iter().filter(|(other, _)| **other != id).flat_map(|(_, columns)| columns);
        if others.map(|column| column.0.len()).sum::<usize>() + columns.iter().map(|column| column.1.len()).sum::<usize>() > self.room {
            return 4;
        }
        self.held.insert(id, columns.iter().map(|(flags, name, oid)| (name.to_vec(), flags % 2 == 1, *oid)).collect());
        0
    }
}

fn drawn_name(draw: &mut Draw, longest: u64) -> Vec<u8> {
    (0..draw.below(longest + 1)).map(|_| 1 + draw.below(255) as u8).collect()
}

/// Relations and rows of some seventy identifiers, drawn, on a cache with so many bytes for names: the answers and all that is held are the model's.
fn drawn(seed: u64, lent: usize, longest: u64, seen: &mut [u64; 31]) {
    let mut draw = Draw(seed + 1);
    let mut model = Model { held: HashMap::new(), room: lent.min(129_024) };
    let mut names = vec![0xA5; lent];
    let mut cache = RelationCache::with_names(&mut names[..]);
    for _ in 0..400 {
        let id = draw.below(70) as u32;
        let most = if draw.below(20) == 0 { 36 } else { 12 };
        let columns = draw.below(most) as usize;
        let told = if draw.below(4) == 0 {
            let expected = if model.held.get(&id).is_some_and(|held| held.len() == columns) { 0 } else { 30 };
            assert_eq!(cache.row(&insert(id, columns)).err().map_or(0, Refusal::number), expected, "{seed}");
            expected
        } else {
            let texts: Vec<_> = (0..columns).map(|_| drawn_name(&mut draw, longest)).collect();
            let parts: Vec<_> = texts.iter().map(|name| (draw.below(256) as u8, &name[..], draw.below(1 << 32) as u32)).collect();
            let expected = model.relation(id, &parts);
            assert_eq!(cache.row(&relation(id, &parts)).err().map_or(0, Refusal::number), expected, "{seed}");
            expected
        };
        seen[usize::from(told)] += 1;
        for id in 0..70 {
            assert_eq!(cache.columns(id).map(|c| c.map(|c| (c.name.to_vec(), c.key, c.type_oid)).collect()), model.held.get(&id).cloned(), "{seed}");
        }
    }
    let used: usize = model.held.values().flatten().map(|column| column.0.len()).sum();
    assert!(used <= lent && names[lent.min(129_024)..].iter().all(|byte| *byte == 0xA5));
}

#[test]
fn drawn_lists_are_answered_as_a_plain_map_answers() {
    let mut seen = [0; 31];
    for seed in 0..40 {
        drawn(seed, 129_024, 66, &mut seen);
        drawn(seed, 200_000, 66, &mut seen);
    }
    assert_eq!(seen[4], 0);
    for (lent, longest) in [(0, 3), (1, 3), (100, 10), (700, 20), (2_000, 20), (10_000, 66)] {
        for seed in 0..20 {
            drawn(1_000 + seed, lent, longest, &mut seen);
        }
    }
    assert!([0, 4, 28, 29, 30].iter().all(|number| seen[*number] > 100), "{seen:?}");
}

#[test]
fn as_many_bytes_suffice_as_are_said() {
    assert_eq!(names_needed(64, 32, 63), 129_024);
    assert_eq!(names_needed(usize::MAX, usize::MAX, usize::MAX), 129_024);
    assert_eq!(names_needed(64, 8, 10), 5_120);
    let mut cache = RelationCache::with_names([0; names_needed(5, 4, 9)]);
    for id in 0..5 {
        assert!(cache.row(&wide(id, 4, 9)).is_ok());
    }
    assert_eq!(cache.row(&wide(5, 1, 1)).err(), Some(Refusal::OutputTooShort));
    assert!(cache.columns(5).is_none());
    assert!(cache.row(&wide(2, 4, 8)).is_ok());
    assert!(cache.row(&wide(5, 4, 1)).is_ok());
    assert_eq!(held(&cache, 4).unwrap()[3], (vec![b'd'; 9], true, 3));
}
