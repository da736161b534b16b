//! The files that a transaction touched, by the events of a run.

mod common;

use common::{begin, commit, keepalive, xlog_data, Fed};
use rufflesquash::{Event, Files, Lsn, Refusal, Touched};

fn row(data: &[u8]) -> Event<'_> {
    Event::XLogData { wal_start: Lsn(1), wal_end: Lsn(2), server_time_micros: 3, data }
}

const BEGIN: Event<'static> = Event::Begin { final_lsn: Lsn(9), commit_time_micros: 0, xid: 5 };
const COMMIT: Event<'static> = Event::Commit { lsn: Lsn(9), end_lsn: Lsn(10), commit_time_micros: 0 };

/// An Insert of one null column.
fn insert(id: u32) -> Vec<u8> {
    [b"I", &id.to_be_bytes()[..], b"N\0\x01n"].concat()
}

fn truncate(ids: &[u32]) -> Vec<u8> {
    let ids: Vec<u8> = ids.iter().flat_map(|id| id.to_be_bytes()).collect();
    [b"T\0\0\0", &[(ids.len() / 4) as u8, 0][..], &ids].concat()
}

fn list(files: Files) -> Vec<u64> {
    files.iter().collect()
}

#[test]
fn a_transaction_s_files_are_told_at_its_commit() {
    let mut touched = Touched::new(&[(1, 0), (2, 1), (3, 2), (4, 3)]).unwrap();
    assert!(touched.files().is_empty());
    assert_eq!(touched.event(&BEGIN).bits(), 0);
    assert_eq!(list(touched.event(&row(&insert(3)))), [2]);
    assert_eq!(list(touched.event(&row(&truncate(&[1, 4])))), [0, 2, 3]);
    // a relation that no entry has, a keepalive and a logical message
    assert_eq!(touched.event(&row(&insert(9))).bits(), 0b1101);
    touched.event(&Event::KeepAlive { wal_end: Lsn(1), server_time_micros: 0, reply_requested: false });
    touched.event(&Event::Message { transactional: true, lsn: Lsn(1), prefix: b"I", content: &insert(2) });
    let files = touched.event(&COMMIT);
    assert_eq!((files.bits(), format!("{files:?}")), (0b1101, "{0, 2, 3}".to_string()));
    assert!((0..=4).map(|file| files.contains(file)).eq([true, false, true, true, false]));
    // they outlive the Commit until the next Begin
    assert_eq!(list(touched.files()), [0, 2, 3]);
    assert!(touched.event(&BEGIN).is_empty());
}

#[test]
fn a_refused_row_touches_nothing() {
    let mut touched = Touched::new(&[(1, 0), (2, 1)]).unwrap();
    for data in [insert(1), truncate(&[1, 2])] {
        for n in 0..data.len() {
            assert!(touched.event(&row(&data[..n])).is_empty(), "{n}");
        }
    }
    assert!(touched.event(&row(b"D\0\0\0\x01N\0\0")).is_empty());
    assert!(touched.event(&row(b"Xdata")).is_empty());
    assert_eq!(list(touched.event(&row(&insert(1)))), [0]);
}

#[test]
fn the_list_is_judged_as_far_as_it_is_read() {
    for n in 1..70 {
        let mut entries = vec![(8, 0); n];
        entries[n - 1] = (7, 4);
        assert_eq!(Touched::new(&entries).err(), (n <= Touched::ENTRIES).then_some(Refusal::NoSuchFile), "{n}");
        entries[n - 1] = (7, 3);
        let mut touched = Touched::new(&entries).unwrap();
        assert_eq!(touched.event(&row(&insert(7))).contains(3), n <= Touched::ENTRIES, "{n}");
    }
    assert_eq!(Touched::new(&[(1, u64::MAX)]), Err(Refusal::NoSuchFile));
    // of a repeated identifier the first entry holds
    let mut touched = Touched::new(&[(7, 2), (7, 1)]).unwrap();
    assert_eq!(list(touched.event(&row(&insert(7)))), [2]);
    assert!(Touched::new(&[]).unwrap().event(&row(&insert(0))).is_empty());
}

#[test]
fn events_of_a_run_are_taken_as_they_come() {
    let bytes = [
        xlog_data(1, 2, 3, &insert(1)),
        xlog_data(1, 2, 3, &begin(0x20, -5, 77)),
        xlog_data(1, 2, 3, &insert(2)),
        keepalive(0x30, 1, 0),
        xlog_data(1, 2, 3, &truncate(&[3, 4])),
        xlog_data(1, 2, 3, &commit(0x20, 0x28, 6)),
    ]
    .concat();
    let mut fed = Fed::reading(&bytes);
    let mut touched = Touched::new(&[(1, 0), (2, 1), (3, 2), (4, 3)]).unwrap();
    let mut told = Vec::new();
    for _ in 0..60 {
        fed.moment += 1000;
        let input = fed.input();
        let step = fed.run.step(&input, &fed.bytes, &mut fed.payload, &mut fed.out);
        assert_eq!(step.refusal, None);
        told.extend(step.event.map(|event| touched.event(&event).bits()));
        let taken = step.taken;
        fed.bytes.drain(..taken);
    }
    assert_eq!(told, [0b1, 0, 0b10, 0b10, 0b1110, 0b1110]);
}
