//! Rows in the data of events: every record of the program `test_changes`, read by the crate and compared with the expected lines that stand beside it,
//! and what the crate's own types promise.

mod common;

use common::*;
use rufflesquash::rows::{Column, Columns, Description, Identifiers, Old, Row, Tuple};
use rufflesquash::{Event, Kind, Refusal};
use std::fmt::Write as _;
use std::fs;

fn hex(bytes: &[u8]) -> String {
    bytes.iter().map(|b| format!("{b:02x}")).collect()
}

fn tuple(tuple: Tuple) -> String {
    let mut words = tuple.len().to_string();
    for column in tuple {
        match column {
            Column::Null => words.push_str(" n"),
            Column::Unchanged => words.push_str(" u"),
            Column::Text(value) => write!(words, " t{}", hex(value)).unwrap(),
            Column::Binary(value) => write!(words, " b{}", hex(value)).unwrap(),
            Column::Refused(refusal) => panic!("{refusal}"),
        }
    }
    words
}

fn old(old: Old) -> String {
    let letter = if matches!(old, Old::Key(_)) { 'K' } else { 'O' };
    format!("{letter} {}", tuple(old.tuple()))
}

/// The line that the program prints of a row.
fn line(row: Row) -> String {
    match row {
        Row::Relation(r) => {
            let mut words = format!("R {} x{} x{} {} {}", r.id, hex(r.namespace), hex(r.name), r.replica_identity, r.columns.len());
            for c in r.columns {
                write!(words, " {}:x{}:{}:{}", c.flags, hex(c.name), c.type_oid, c.type_modifier).unwrap();
            }
            words
        }
        Row::Type { id, namespace, name } => format!("Y {id} x{} x{}", hex(namespace), hex(name)),
        Row::Origin { lsn, name } => format!("O {lsn} x{}", hex(name)),
        Row::Insert { relation, new } => format!("I {relation} N {}", tuple(new)),
        Row::Update { relation, old: None, new } => format!("U {relation} N {}", tuple(new)),
        Row::Update { relation, old: Some(before), new } => format!("U {relation} {} N {}", old(before), tuple(new)),
        Row::Delete { relation, old: before } => format!("D {relation} {}", old(before)),
        Row::Truncate { relations, options } => {
            let ids: Vec<String> = relations.into_iter().map(|id| format!(" {id}")).collect();
            format!("T {} {options}{}", relations.len(), ids.concat())
        }
        other => panic!("{other:?}"),
    }
}

fn answered(data: &[u8]) -> String {
    match Row::parse(data) {
        Ok(Some(row)) => format!("i 0 {}", line(row)),
        Ok(None) => "i 0 n".to_string(),
        Err(refusal) => format!("i {}", refusal.number()),
    }
}

#[test]
fn every_record_of_changes_is_read_as_its_line_says() {
    let mut records = &fs::read("../crates/test_changes/stdin").expect("the records")[..];
    let lines = fs::read_to_string("../crates/test_changes/stdout").expect("the lines");
    let (mut lines, mut count) = (lines.lines(), 0);
    while records[0] != b'?' {
        let (head, rest) = records.split_at(10);
        let len = u32::from_be_bytes([head[6], head[7], head[8], head[9]]) as usize;
        let expected = lines.next().expect("a line for each record");
        if head[0] == b'i' {
            assert_eq!(answered(&rest[..len]), expected, "record {count}");
            count += 1;
        }
        records = &rest[len..];
    }
    // The last record is of no kind; its line is BAD.
    assert_eq!((records, lines.next(), lines.next()), (&b"?\0\0\0\0\0\0\0\0\0"[..], Some("BAD"), None));
    assert!(count > 20_000, "{count}");
}

// An Update of relation 7: a key of one column, then each kind of column.
const UPDATE: &[u8] = b"U\0\0\0\x07K\0\x01t\0\0\0\x011N\0\x04nut\0\0\0\x02abb\0\0\0\x01\xFF";

#[test]
fn columns_come_in_their_order_and_are_counted() {
    let Ok(Some(row @ Row::Update { relation: 7, old: Some(Old::Key(key)), new })) = Row::parse(UPDATE) else { panic!("an Update with its key") };
    assert!(key.columns().eq([Column::Text(b"1")]));
    let all = [Column::Null, Column::Unchanged, Column::Text(b"ab"), Column::Binary(b"\xFF")];
    assert!(new.columns().eq(all) && row.columns().eq(all));
    let mut columns: Columns = new.columns();
    for left in (0..=4).rev() {
        assert_eq!((columns.len(), columns.size_hint()), (left, (left, Some(left))));
        assert_eq!(columns.clone().count(), left);
        columns.next();
    }
    assert_eq!((columns.next(), columns.next()), (None, None));
    assert_eq!(format!("{key:?}"), "[Text([49])]");
}

#[test]
fn equal_rows_are_equal_wherever_they_stand() {
    let other: Vec<u8> = [UPDATE, b"surplus"].concat();
    assert_eq!(Row::parse(UPDATE), Row::parse(&other));
    let mut changed = UPDATE.to_vec();
    *changed.last_mut().unwrap() = 0;
    assert_ne!(Row::parse(UPDATE), Row::parse(&changed));
}

#[test]
fn a_row_without_a_tuple_has_no_columns() {
    for data in [&b"Y\0\0\0\x01\0a\0"[..], b"O\0\0\0\0\0\0\0\x09a\0", b"T\0\0\0\0\0", b"R\0\0\0\x01a\0b\0d\0\0"] {
        let row = Row::parse(data).expect("a row").expect("a row");
        assert_eq!(row.columns().count(), 0, "{row:?}");
    }
    let Ok(Some(row)) = Row::parse(b"D\0\0\0\x01O\0\x01u") else { panic!("a Delete") };
    assert!(row.columns().eq([Column::Unchanged]));
}

#[test]
fn the_modifier_is_signed_and_identifiers_are_not() {
    let data = b"R\xFF\xFF\xFF\xFFn\0r\0f\0\x02\x01k\0\xFF\xFF\xFF\xFE\xFF\xFF\xFF\xFF\xFEv\0\0\0\0\x17\0\0\0\x08";
    let Ok(Some(Row::Relation(relation))) = Row::parse(data) else { panic!("a Relation") };
    assert_eq!((relation.id, relation.namespace, relation.name, relation.replica_identity), (u32::MAX, &b"n"[..], &b"r"[..], b'f'));
    let key = Description { flags: 1, name: b"k", type_oid: 0xFFFF_FFFE, type_modifier: -1 };
    let value = Description { flags: 0xFE, name: b"v", type_oid: 23, type_modifier: 8 };
    assert!(relation.columns.iter().eq([key, value]));
    assert!(key.is_key() && !value.is_key());
}

#[test]
fn relations_of_a_truncate() {
    let Ok(Some(Row::Truncate { relations, options: 3 })) = Row::parse(b"T\0\0\0\x02\x03\0\0\0\x05\xFF\xFF\xFF\xFF") else { panic!("a Truncate") };
    let relations: Identifiers = relations;
    assert_eq!(relations.iter().collect::<Vec<_>>(), [5, u32::MAX]);
    assert_eq!((relations.len(), relations.is_empty()), (2, false));
}

#[test]
fn refusals_have_their_numbers_and_kinds() {
    for (data, refusal) in [(&b""[..], Refusal::FieldCut), (b"S", Refusal::UnknownLetter), (b"I\0\0\0\x01K", Refusal::UnknownLetter)] {
        assert_eq!(Row::parse(data), Err(refusal));
        assert_eq!((refusal.kind(), refusal.is_transient()), (Kind::Protocol, false));
    }
    assert_eq!((Refusal::FieldCut.number(), Refusal::UnknownLetter.number()), (26, 27));
}

// The event of data that a server sends.
fn event_of(data: &[u8], check: impl Fn(Event)) {
    let mut fed = Fed::reading(&xlog_data(1, 2, 3, data));
    for _ in 0..100 {
        fed.moment += 1000;
        let input = fed.input();
        let step = fed.run.step(&input, &fed.bytes, &mut fed.payload, &mut fed.out);
        if let Some(event) = step.event {
            return check(event);
        }
        let taken = step.taken;
        fed.bytes.drain(..taken);
    }
    panic!("no event of {data:?}");
}

#[test]
fn an_event_has_the_row_of_its_data() {
    event_of(UPDATE, |event| assert!(matches!(event.row(), Ok(Some(Row::Update { relation: 7, .. })))));
    event_of(UPDATE, |event| assert_eq!(event.row(), Row::parse(UPDATE)));
    event_of(&begin(5, 6, 7), |event| assert_eq!(event.row(), Ok(None)));
    event_of(b"S", |event| assert_eq!(event.row(), Err(Refusal::UnknownLetter)));
}
