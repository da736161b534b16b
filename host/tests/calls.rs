//! What the calls give where nothing is refused.

mod common;

use common::*;
use rufflesquash::{
    error_text, lossy, lossy_by_table, well_formed_prefix, AuthRequest, Column, DataRow, Event, Lossy, Lsn, Metrics, Moment, NextStep,
};
use rufflesquash::{ProgressCell, Queue, Refusal, Run, Settings, State, Text, PAGE};
use std::time::Duration;

#[test]
fn opening_writes_the_query() {
    let s = Settings { binary: true, ..settings() };
    let mut out = [FILL; 256];
    let (run, n) = Run::open(&s, b"slot", &["a'b", "c"].map(Text::from), Lsn(0x1_0000_0002), Lsn(7), &mut out).unwrap();
    let text = "START_REPLICATION SLOT slot LOGICAL 1/2 (proto_version '1', publication_names 'a''b,c', messages 'true', binary 'true')\0";
    assert_eq!(out[..n], message(b'Q', text.as_bytes()));
    assert!(out[n..].iter().all(|&b| b == FILL));
    assert_eq!((run.state(), run.position()), (State::Opening, Lsn(7)));
    assert_eq!((run.last_sent(), run.metrics()), (None, Metrics::default()));
}

#[test]
fn a_stream_is_opened_and_read() {
    let bytes = [
        message(b'N', b"notice"),
        message(b'W', b"\0\0\0"),
        xlog_data(1, 2, 3, &begin(0x20, -5, 77)),
        xlog_data(1, 2, -3, b"Rdata"),
        xlog_data(4, 5, 6, &logical(1, 9, b"pre\xff", 3, b"abc")),
        xlog_data(1, 2, 3, &commit(0x20, 0x28, 6)),
        keepalive(0x30, -9, 0),
    ]
    .concat();
    let mut fed = Fed::opening(&bytes);
    let expected = [
        Event::Begin { final_lsn: Lsn(0x20), commit_time_micros: -5, xid: 77 },
        Event::XLogData { wal_start: Lsn(1), wal_end: Lsn(2), server_time_micros: -3, data: b"Rdata" },
        Event::Message { transactional: true, lsn: Lsn(9), prefix: b"pre\xff", content: b"abc" },
        Event::Commit { lsn: Lsn(0x20), end_lsn: Lsn(0x28), commit_time_micros: 6 },
        Event::KeepAlive { wal_end: Lsn(0x30), server_time_micros: -9, reply_requested: false },
    ];
    assert_eq!(fed.events(), expected.map(|event| format!("{event:?}")));
    let metrics = fed.run.metrics();
    assert_eq!((metrics.events_forwarded, metrics.last_wal_end), (5, Lsn(0x30)));
}

#[test]
fn the_same_bytes_in_any_pieces_give_the_same_events() {
    let bytes = [xlog_data(1, 2, 3, &begin(0x20, -5, 77)), keepalive(0x30, 1, 0)].concat();
    let whole = Fed::reading(&bytes).events();
    assert_eq!(whole.len(), 2);
    for size in 1..bytes.len() {
        let mut fed = Fed::reading(b"");
        let mut events = Vec::new();
        for piece in bytes.chunks(size) {
            fed.bytes.extend(piece);
            for _ in 0..20 {
                events.extend(fed.step().event);
            }
        }
        assert_eq!(events, whole, "pieces of {size}");
    }
}

fn status(position: u64, reply: u8) -> Vec<u8> {
    let mut body = vec![b'r'];
    for _ in 0..3 {
        body.extend(position.to_be_bytes());
    }
    body.extend((-7i64).to_be_bytes());
    body.push(reply);
    message(b'd', &body)
}

#[test]
fn a_status_confirms_the_smallest_of_the_largest_reports() {
    let s = Settings { timing: true, ..settings() };
    let mut fed = Fed::new(Run::already_open(&s, Lsn(0x10)).unwrap(), b"");
    assert_eq!(fed.step().written, 39);
    assert_eq!(fed.out[..39], status(0x10, 0));
    assert!(fed.out[39..].iter().all(|&b| b == FILL));
    assert_eq!(fed.run.last_sent().map(|l| (l.position, l.at)), Some((Lsn(0x10), Moment(1000))));
    for (file, position, moment) in [(2, 0x90, 1500), (0, 0x50, 2000), (3, 0x60, 2500)] {
        fed.run.report(file, Lsn(position), Moment(moment)).unwrap();
        assert_eq!(fed.run.position(), Lsn(0x10), "one file is at the start");
    }
    fed.run.report(1, Lsn(0x70), Moment(3000)).unwrap();
    fed.run.report(0, Lsn(0x40), Moment(4000)).unwrap();
    assert_eq!(fed.run.position(), Lsn(0x50));
    fed.moment = 30_000_000;
    let answer = (0..9).map(|_| fed.step()).find(|answer| answer.written > 0).unwrap();
    assert_eq!(fed.out[..39], status(0x50, 0));
    assert_eq!(answer.waited, Some(Duration::from_nanos(fed.moment - 3000)));
    assert_eq!(fed.run.metrics().last_applied_lsn, Lsn(0x50));
}

#[test]
fn four_reports_are_one_report_for_all() {
    let orders = [[0, 1, 2, 3], [3, 2, 1, 0], [2, 0, 3, 1], [1, 3, 0, 2]];
    for order in orders {
        let s = Settings { timing: true, ..settings() };
        let mut one = Run::already_open(&s, Lsn(0x10)).unwrap();
        one.report(2, Lsn(0x30), Moment(1)).unwrap();
        let mut all = one.clone();
        order.into_iter().for_each(|file| one.report(file, Lsn(0x20), Moment(7)).unwrap());
        all.report_all(Lsn(0x20), Moment(7));
        assert_eq!(one, all);
        assert_eq!(one.position(), Lsn(0x20));
    }
}

// Positions below and above the start and each other, moments in any order, timing or none.
#[test]
fn one_call_for_each_file_is_four_reports_in_their_order() {
    let mut drawn = 1u64;
    let mut draw = |below: u64| {
        drawn = drawn.wrapping_mul(6_364_136_223_846_793_005).wrapping_add(1_442_695_040_888_963_407);
        (drawn >> 33) % below
    };
    for timing in [false, true] {
        let s = Settings { timing, ..settings() };
        let mut four = Run::already_open(&s, Lsn(0x10)).unwrap();
        let mut one = four.clone();
        let mut highest = [0x10; Run::FILES as usize];
        for n in 0..1000 {
            let positions = [0; Run::FILES as usize].map(|_| Lsn(draw(0x20 + n)));
            let moment = Moment(draw(100));
            for (file, position) in positions.into_iter().enumerate() {
                four.report(file as u64, position, moment).unwrap();
                highest[file] = highest[file].max(position.0);
            }
            let confirmed = one.report_each(positions, moment);
            assert_eq!(one, four);
            assert_eq!(Some(&confirmed.0), highest.iter().min());
            assert_eq!(one.position(), confirmed);
        }
    }
}

// 31 on a fresh, a streaming and an ended run, for every number above 3: none is narrowed before the test.
#[test]
fn a_report_of_no_file_changes_nothing() {
    let s = Settings { timing: true, ..settings() };
    let fresh = Run::already_open(&s, Lsn(0x10)).unwrap();
    let mut streaming = Fed::new(fresh.clone(), &keepalive(0x30, 1, 0));
    (0..3).for_each(|_| _ = streaming.step());
    let mut ended = Fed::new(fresh.clone(), b"");
    ended.stop = true;
    while ended.run.state() != State::Ended {
        ended.step();
    }
    let opening = Run::open(&s, b"s", &[Text::new(b"p")], Lsn(0), Lsn(0), &mut [0; 256]).unwrap().0;
    for run in [fresh, streaming.run, ended.run, opening] {
        for file in [4, 5, 0xFF, 0x100, 0x103, 1 << 32, (1 << 32) + 1, 1 << 63, u64::MAX - 3, u64::MAX] {
            let mut told = run.clone();
            assert_eq!(told.report(file, Lsn(u64::MAX), Moment(9)), Err(Refusal::NoSuchFile), "{file}");
            assert_eq!(told, run, "{file}");
        }
        let mut told = run.clone();
        told.report(3, Lsn(u64::MAX), Moment(9)).unwrap();
        assert_ne!(told, run);
        assert_eq!(told.position(), run.position());
    }
}

#[test]
fn a_keepalive_that_asks_is_answered_before_its_event() {
    let mut fed = Fed::reading(&keepalive(0x30, 1, 1));
    fed.step();
    let answer = (0..9).map(|_| fed.step()).find(|answer| answer.written > 0).unwrap();
    assert_eq!((fed.out[..39].to_vec(), answer.event), (status(0x10, 1), None));
    assert!(fed.step().event.unwrap().starts_with("KeepAlive"));
    assert_eq!(fed.run.metrics().keepalive_replies, 1);
}

#[test]
fn a_full_queue_stalls_and_a_closed_one_drops() {
    let mut fed = Fed::reading(&keepalive(0x30, 1, 0));
    fed.queue = Queue::Full;
    while fed.run.metrics().stall_count == 0 {
        assert_eq!(fed.step().event, None);
    }
    assert_eq!(fed.run.state(), State::Offering);
    fed.queue = Queue::Free;
    assert!(fed.step().event.is_some());
    assert_eq!(fed.run.metrics().stall_micros_total, 1);
    let mut fed = Fed::reading(&keepalive(0x30, 1, 0));
    fed.queue = Queue::Closed;
    assert_eq!(fed.events(), Vec::<String>::new());
    assert_eq!(fed.run.metrics().events_forwarded, 0);
}

#[test]
fn the_stop_position_ends_a_run_with_an_event() {
    let s = Settings { stop_at_lsn: Some(Lsn(0x100)), ..settings() };
    let bytes = [xlog_data(1, 2, 3, &begin(0xFF, 0, 1)), xlog_data(1, 2, 3, &begin(0x100, 0, 2)), xlog_data(1, 2, 3, &begin(0x101, 0, 3))].concat();
    let mut fed = Fed::new(Run::already_open(&s, Lsn(0)).unwrap(), &bytes);
    let mut events = Vec::new();
    while fed.run.state() != State::Ended {
        let answer = fed.step();
        events.extend(answer.event);
        if fed.run.state() == State::Ended {
            assert_eq!((answer.written, &fed.out[..5]), (5, &b"c\0\0\0\x04"[..]));
        }
    }
    assert_eq!(events.len(), 3);
    assert_eq!(events[2], format!("{:?}", Event::StoppedAt { reached: Lsn(0x100) }));
    assert_eq!(fed.run.error(&fed.payload), None);
}

#[test]
fn the_servers_copy_done_is_answered_in_kind() {
    for payload in [&b""[..], b"abc"] {
        let bytes = [keepalive(0x30, 1, 0), message(b'c', payload), keepalive(0x40, 1, 0)].concat();
        let mut fed = Fed::reading(&bytes);
        let mut events = 0;
        while fed.run.state() != State::Ended {
            let before = fed.run.metrics();
            let answer = fed.step();
            events += answer.event.is_some() as u64;
            if fed.run.state() == State::Ended {
                assert_eq!((answer.refusal, answer.taken, answer.written, answer.event), (None, 0, 5, None));
                assert_eq!((&fed.out[..5], fed.run.metrics()), (&b"c\0\0\0\x04"[..], before));
            }
        }
        assert_eq!((events, fed.run.error(&fed.payload)), (1, None));
        assert_eq!(fed.step().refusal, Some(Refusal::RunEnded));
    }
}

#[test]
fn a_stop_request_writes_copy_done() {
    let mut fed = Fed::reading(b"");
    fed.events();
    fed.stop = true;
    assert_eq!(fed.step().written, 5);
    assert_eq!(fed.run.state(), State::Ended);
    assert_eq!(fed.run.next_step(LIMIT, Queue::Free), NextStep::Never);
}

#[test]
fn the_next_step_is_told() {
    let mut fed = Fed::reading(b"");
    assert_eq!(fed.run.next_step(LIMIT, Queue::Free), NextStep::AtOnce);
    fed.events();
    let began = fed.moment;
    let idle = NextStep::From(Moment(began + 20_000_000));
    assert_eq!(fed.run.next_step(LIMIT, Queue::Free), idle);
    fed.moment = began + 20_000_000 - 2000;
    assert_eq!(fed.step().written, 0);
    assert_eq!(fed.step().written, 39);
    let opening = Fed::opening(b"");
    assert_eq!(opening.run.next_step(LIMIT, Queue::Free), NextStep::OnInput);
}

#[test]
fn leaves_write_over_the_front() {
    let mut out = [FILL; 16];
    let Lossy { bytes: n, marks } = lossy(b"a\xE2\x82b", &mut out).unwrap();
    assert_eq!(out[..n], *String::from_utf8_lossy(b"a\xE2\x82b").as_bytes());
    assert_eq!(marks, 1);
    assert!(out[n..].iter().all(|&b| b == FILL));
    assert_eq!("16/B374D848".parse(), Ok(Lsn(0x16_B374_D848)));
    assert_eq!(Lsn(0x16_B374_D848).to_string(), "16/B374D848");
    assert_eq!(Lsn(u64::MAX).to_string(), "FFFFFFFF/FFFFFFFF");
}

#[test]
fn marks_are_the_ill_formed_parts_that_are_shown() {
    let mut out = [FILL; 64];
    let mut marks = |text: &[u8]| lossy(text, &mut out).map(|shown| shown.marks);
    assert_eq!(marks(b""), Ok(0));
    assert_eq!(marks("caption, λόγος, żółw, \u{fffd}".as_bytes()), Ok(0));
    assert_eq!(marks(b"\xEF\xBF\xBD\xFF\xEF\xBF\xBD"), Ok(1));
    assert_eq!((marks(b"\xE2\x82"), marks(b"\xE2"), marks(b"\x82")), (Ok(1), Ok(1), Ok(1)));
    let mut marks = |payload: &[u8]| error_text(payload, &mut out).map(|shown| shown.marks);
    // The message, the code and no other field; the last of a repeated letter.
    assert_eq!(marks(b"M\xFF\xFF\0C\xFF\0D\xFF\0\0"), Ok(3));
    assert_eq!(marks(b"M\xFF\xFF\0Ma\0"), Ok(0));
    assert_eq!(marks(b"C\xFF\0"), Ok(1));
    assert_eq!(marks(b"D\xFF\0"), Ok(0));
}

#[test]
fn the_table_gives_the_same_text_and_marks() {
    let long = "żółw, 語 und \u{1F422}: ".repeat(2_000);
    let mut garbled = long.clone().into_bytes();
    garbled.iter_mut().step_by(37).for_each(|b| *b = 0xE2);
    let texts: [&[u8]; 8] = [b"", b"a", b"\xE2\x82", b"\xE2\xE2\x82\xAC", b"\xED\xA0\x80", b"\xF0\x9F\x98", long.as_bytes(), &garbled];
    for text in texts {
        let expected = String::from_utf8_lossy(text);
        for room in [3 * text.len(), expected.len(), expected.len().saturating_sub(1)] {
            let (mut out, mut other) = (vec![FILL; room], vec![FILL; room]);
            let shown = lossy_by_table(text, &mut out);
            assert_eq!(shown, lossy(text, &mut other));
            assert_eq!(out, other);
            match shown {
                Ok(shown) => assert_eq!(out[..shown.bytes], *expected.as_bytes()),
                Err(_) => assert!(room < expected.len()),
            }
        }
    }
}

#[test]
fn a_well_formed_beginning_of_any_length() {
    let long = "żółw ".repeat(300_000);
    let cut = &long.as_bytes()[..long.len() - 2];
    let texts: [&[u8]; 8] = [b"", b"a", b"\xE2\x82", b"a\xFFb", "\u{fffd}".as_bytes(), b"\xEF\xBF\xBD\xC2", long.as_bytes(), cut];
    for text in texts {
        let expected = std::str::from_utf8(text).map_or_else(|e| e.valid_up_to(), str::len);
        assert_eq!(well_formed_prefix(text), expected);
    }
}

#[test]
fn an_authentication_request_is_a_code_and_the_rest() {
    let parsed = |payload| AuthRequest::parse(payload).map(|r| (r.code, r.rest));
    assert_eq!(parsed(&[0, 0, 0, 0]), Ok((0, &b""[..])));
    assert_eq!(parsed(b"\0\0\0\x05salt"), Ok((5, &b"salt"[..])));
    assert_eq!(parsed(&[0xFF; 5]), Ok((-1, &[0xFF][..])));
    assert_eq!(parsed(&[0x80, 0, 0, 0]), Ok((i32::MIN, &b""[..])));
}

#[test]
fn a_row_has_columns() {
    let payload = [row(&[Some(b"one"), None, Some(b"")]), b"surplus".to_vec()].concat();
    let r = DataRow::parse(&payload).unwrap();
    let columns = [0, 1, 2, 3, usize::MAX].map(|i| r.column(i));
    assert_eq!(columns, [Column::Value(b"one"), Column::Null, Column::Value(b""), Column::Absent, Column::Absent]);
    // A negative number of columns is none.
    let none = DataRow::parse(&[0xFF, 0xFF]).unwrap();
    assert_eq!((none.columns(), none.column(0)), (0, Column::Absent));
}

#[test]
fn a_cell_keeps_the_first_raise_that_no_status_covered() {
    let mut cell = ProgressCell::new(Lsn(0x10), true);
    assert_eq!((cell.load(), cell.pending_since()), (Lsn(0x10), None));
    assert!(!cell.raise(Lsn(0x10), Moment(5)));
    assert!(cell.raise(Lsn(0x20), Moment(6)));
    assert!(!cell.raise(Lsn(0x30), Moment(7)));
    assert_eq!(cell.take_signal(), Lsn(0x30));
    assert!(cell.raise(Lsn(0x40), Moment(8)));
    assert_eq!(cell.pending_since(), Some(Moment(6)));
    // The raise to 0x40 is not covered.
    assert_eq!(cell.take_pending(Lsn(0x30), Moment(9)), Some(Moment(6)));
    assert_eq!(cell.take_pending(Lsn(0x40), Moment(10)), Some(Moment(9)));
    assert_eq!(cell.take_pending(Lsn(0x40), Moment(11)), None);
    cell.carry_pending(Moment(4));
    cell.carry_pending(Moment(5));
    cell.carry_pending(Moment(0));
    assert_eq!(cell.pending_since(), Some(Moment(4)));
    assert_eq!(format!("{cell:?}"), "ProgressCell { position: Lsn(64), pending_since: Some(Moment(4)), .. }");
}

#[test]
fn a_cell_without_timing_stores_no_moment() {
    let mut cell = ProgressCell::new(Lsn(0), false);
    assert!(cell.raise(Lsn(u64::MAX), Moment(6)));
    cell.carry_pending(Moment(4));
    assert_eq!(cell.pending_since(), None);
    assert_eq!(cell.load(), Lsn(u64::MAX));
    let mut copy = ProgressCell::from_words(*cell.as_words());
    assert_eq!((copy.load(), copy.pending_since()), (cell.load(), cell.pending_since()));
    assert_eq!(copy.take_signal(), cell.take_signal());
}

// Any words are the words of some run: every call takes them and answers what SCOPE 9 has.
#[test]
fn any_words_are_a_run() {
    let mut draw = Draw(1);
    for _ in 0..20_000 {
        let words = std::array::from_fn(|_| draw.word() >> draw.below(64));
        let bytes = draw.bytes(63);
        let mut fed = Fed::new(Run::from_words(words), &bytes);
        fed.payload.resize(4096, FILL);
        fed.queue = [Queue::Free, Queue::Full, Queue::Closed][draw.below(3) as usize];
        fed.moment = draw.word() >> 1;
        for _ in 0..4 {
            let answer = fed.step();
            assert!(answer.refusal.is_none_or(|r| (2..=19).contains(&r.number())));
            assert!(matches!(answer.written, 0 | 5 | 39));
            let file = draw.word() >> draw.below(64);
            let told = fed.run.report(file, Lsn(draw.word()), Moment(draw.word()));
            assert_eq!(told, if file < Run::FILES { Ok(()) } else { Err(Refusal::NoSuchFile) });
            let _ = (fed.run.next_step(4096, fed.queue), fed.run.error(&fed.payload));
            assert_eq!(fed.run, Run::from_words(*fed.run.as_words()));
            assert!(format!("{:?}", fed.run).starts_with("Run { state: "));
        }
    }
}

/// A page, line by line.
fn page(position: &str, sent: &str, server: &str, events: u64, stalls: u64, state: &str) -> String {
    let (events, stalls) = (events.to_string(), stalls.to_string());
    let lines = [("POSITION", position), ("SENT", sent), ("SERVER", server), ("EVENTS", &events), ("STALLS", &stalls), ("STATE", state)];
    lines.map(|(label, value)| format!("{label:<12}{value:>20}\n")).concat()
}

/// The page of a run, into an output that is longer; what is after it stays.
fn page_of(run: &Run) -> String {
    let mut out = [FILL; PAGE + 3];
    assert_eq!(run.page(&mut out), Ok(PAGE));
    assert_eq!(out[PAGE..], [FILL; 3]);
    String::from_utf8(out[..PAGE].to_vec()).unwrap()
}

#[test]
fn the_page_of_a_run() {
    let mut out = [FILL; 256];
    let (run, _) = Run::open(&settings(), b"slot", &[], Lsn(1), Lsn(0x16_B374_D848), &mut out).unwrap();
    assert_eq!(page_of(&run), page("16/B374D848", "-", "0/0", 0, 0, "OPENING"));
    assert_eq!(PAGE, 6 * 33);
    let mut fed = Fed::reading(&keepalive(0x30, 1, 0));
    assert_eq!(page_of(&fed.run), page("0/10", "-", "0/0", 0, 0, "TURN"));
    fed.queue = Queue::Full;
    while fed.run.metrics().stall_count == 0 {
        fed.step();
    }
    assert_eq!(page_of(&fed.run), page("0/10", "0/10", "0/30", 0, 1, "OFFERING"));
    fed.queue = Queue::Free;
    fed.step();
    fed.run.report_all(Lsn(0x25), Moment(1));
    assert_eq!(page_of(&fed.run), page("0/25", "0/10", "0/30", 1, 1, "DRAIN"));
}

#[test]
fn the_page_of_an_ended_run_and_a_refused_boundary() {
    let bytes = [xlog_data(1, 5, 0, b"I"), xlog_data(1, 9, 0, b"B")].concat();
    let mut fed = Fed::reading(&bytes);
    while fed.run.state() != State::Ended {
        fed.step();
    }
    // The metric has the end of the message whose boundary is refused, the page the one before.
    assert_eq!(fed.run.metrics().last_wal_end, Lsn(9));
    assert_eq!(page_of(&fed.run), page("0/10", "0/10", "0/5", 1, 0, "ENDED"));
    fed.run.report_all(Lsn(u64::MAX), Moment(1));
    assert_eq!(page_of(&fed.run), page("FFFFFFFF/FFFFFFFF", "0/10", "0/5", 1, 0, "ENDED"));
}

#[test]
fn a_page_that_does_not_fit() {
    let run = Run::already_open(&settings(), Lsn(0)).unwrap();
    let mut out = [FILL; PAGE - 1];
    assert_eq!(run.page(&mut out), Err(Refusal::OutputTooShort));
    assert_eq!(out, [FILL; PAGE - 1]);
    assert_eq!(run.page(&mut []), Err(Refusal::OutputTooShort));
}
