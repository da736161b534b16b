//! The tables of docs/DIFFERENCES.md, row by row: the smallest input of each on the Rust and on the project.

use original::protocol::framing::MessageReader;
use rufflesquash::{Input, Lsn, Moment, Queue, Refusal, Run, Settings, State};
use runs::compare::compare;
use runs::leaf_records::{put_record_in, texts, Leaves, OriginalLeaves, Program};
use runs::original::Original;
use runs::ours;
use runs::rust_leaves::{self, Query, Told};
use runs::scenario::Scenario;
use runs::server::{begin, commit, data, framed, keepalive, message};
use runs::side::Side;
use runs::text::hex;
use runs::trace::{Line, Trace, STATUS};
use std::path::PathBuf;
use std::time::Duration;

/// The answer to a record with an output of a length.
fn answer(mut side: impl Leaves, kind: u8, room: usize, input: &[u8]) -> String {
    let mut record = Vec::new();
    put_record_in(kind, room, input, &mut record);
    String::from_utf8(side.answer(&record)).unwrap().trim_end().to_string()
}

/// The program `test_leaves`.
fn project_in(kind: u8, room: usize, input: &[u8]) -> String {
    let beside = PathBuf::from(env!("CARGO_MANIFEST_DIR")).join("../../crates/test_leaves/out/test_leaves");
    answer(Program { path: std::env::var_os("LEAVES").map_or(beside, PathBuf::from) }, kind, room, input)
}

fn project(kind: u8, input: &[u8]) -> String {
    project_in(kind, 64, input)
}

fn rust(kind: u8, input: &[u8]) -> String {
    answer(OriginalLeaves, kind, 64, input)
}

/// A leaf that both answer alike.
fn leaf(kind: u8, input: &[u8], line: &str) {
    assert_eq!((rust(kind, input).as_str(), project(kind, input).as_str()), (line, line));
}

/// A scenario on each.
fn apart(text: &str, mut first: Original) -> (Trace, Trace) {
    let s = Scenario::parse(text).unwrap();
    let a = first.run(&s, &[]);
    let b = ours::side().run(&s, &a.client_times());
    (a, b)
}

/// A scenario on which both do the same: what they do.
fn alike(text: &str) -> Trace {
    let (mut first, mut second) = (Original::default(), ours::side());
    let s = Scenario::parse(text).unwrap();
    assert_eq!(compare(&mut first, &mut second, &s), None, "{text}");
    first.run(&s, &[])
}

/// Statuses and CopyDone with their moments, and how the run ended.
fn told(trace: &Trace) -> String {
    let lines = trace.lines.iter().filter_map(|(at, line)| match line {
        Line::Write(bytes) if bytes.len() == STATUS => Some(format!("{at} status {} reply {}", &hex(&bytes[6..14])[14..], bytes[38])),
        Line::Write(bytes) if bytes[0] == b'c' => Some(format!("{at} done")),
        Line::Write(bytes) => Some(format!("{at} query {}", String::from_utf8_lossy(&bytes[5..bytes.len() - 1]))),
        Line::Waited(time) => Some(format!("{at} waited {time}")),
        Line::Event(event) => Some(format!("{at} event {}", event.line())),
        Line::End(number, _) => Some(format!("{at} end {number}")),
        Line::Piece(_) => None,
    });
    lines.collect::<Vec<_>>().join("; ")
}

fn bytes(message: &[u8]) -> String {
    format!("bytes {}\n", hex(message))
}

fn input(moment: u64) -> Input {
    Input { moment: Moment(moment), client_time_micros: 0, stop: false, queue: Queue::Free, ended: false }
}

fn limit(max_message_size: usize) -> Settings {
    Settings { max_message_size, ..Settings::default() }
}

// ---- between the Rust and this project

#[test]
fn a_text_over_the_bound() {
    let slot = "a".repeat(1_048_577);
    let s = Scenario { open: false, slot: slot.clone(), ..Scenario::default() };
    let query = rust_leaves::write_simple_query(&format!(
        "START_REPLICATION SLOT {slot} LOGICAL 0/0 (proto_version '1', publication_names 'p', messages 'true')"
    ));
    assert_eq!(Original::default().run(&s, &[]).lines, [(0, Line::Write(query))]);
    let mut out = vec![0xAA; 2_000_000];
    let refused = Run::open(&limit(0), slot.as_bytes(), &[], Lsn(0), Lsn(0), &mut out);
    assert_eq!(refused, Err(Refusal::InputTooLong));
    assert!(out.iter().all(|b| *b == 0xAA));
    assert!(Run::open(&limit(0), &slot.as_bytes()[1..], &[], Lsn(0), Lsn(0), &mut out).is_ok());
}

/// The Rust takes more texts than PostgreSQL's type pg_lsn, which is followed here.
#[test]
fn position_texts() {
    for (text, taken, number) in [
        (&b"+1/2"[..], 0x1_0000_0002, 23),
        (b"000000001/0", 0x1_0000_0000, 23),
        (b"100000000/0", 0, 23),
        (b"0/100000000", 0x1_0000_0000, 24),
        (b"0/+1", 1, 24),
    ] {
        assert_eq!(rust_leaves::parse_position(text), Some(Ok(taken)));
        assert_eq!(project(b'p', text), format!("p {number}"));
    }
    // 24 becomes 23: the sign comes first.
    assert_eq!(rust_leaves::parse_position(b"+0/"), Some(Err(24)));
    assert_eq!(project(b'p', b"+0/"), "p 23");
    leaf(b'p', b"16/b374d848", "p 0 16/B374D848");
}

#[test]
fn an_output_too_short() {
    assert_eq!(rust_leaves::write_done(), b"c\0\0\0\x04");
    let empty = project_in(b'z', 0, b"");
    assert!(empty.starts_with("z 4 "), "{empty}");
    // Four bytes of the fill, whose sum is told: nothing was written.
    assert_eq!(project_in(b'z', 4, b""), format!("z 4 0 {} -", model::sum(&[0x5A; 4])));
}

#[test]
fn error_fields_are_parts() {
    assert_eq!(rust(b'f', b"M\xC3\0"), "f 0 n n efbfbd n n n n n n n n n n n n");
    assert_eq!(project(b'f', b"M\xC3\0"), "f 0 n n c3 n n n n n n n n n n n n");
    leaf(b'e', b"M\xC3\0", &project(b'e', b"M\xC3\0"));
    assert!(project(b'e', b"M\xC3\0").ends_with(" efbfbd 1"));
}

/// The Rust reads its own clock: a moment is not handed to it.
#[test]
fn a_moment_out_of_its_range() {
    let mut run = Run::already_open(&limit(0), Lsn(0)).unwrap();
    assert_eq!(run.step(&input(0), b"", &mut [], &mut [0; 39]).refusal, Some(Refusal::MomentOutOfOrder));
    assert_eq!(run.step(&input(1), b"", &mut [], &mut [0; 39]).refusal, None);
}

#[test]
fn a_message_in_pieces() {
    assert_eq!(rust_leaves::read(b"Z\0\0\0\x05", 1, 5, false), []);
    assert_eq!(rust_leaves::read(b"Z\0\0\0\x05I", 1, 5, false), [Told::Whole(b'Z', b"I".to_vec())]);
    let mut run = Run::already_open(&limit(1), Lsn(0)).unwrap();
    let (mut payload, mut out) = ([0; 1], [0; 39]);
    let mut taken = |unread: &[u8]| run.step(&input(1), unread, &mut payload, &mut out).taken;
    // Turn, Drain; then the wait reads.
    assert_eq!((taken(b""), taken(b""), taken(b"Z\0\0\0\x05"), taken(b"I")), (0, 0, 5, 1));
    assert_eq!(run.state(), State::Handling);
}

#[test]
fn a_payload_buffer_shorter_than_the_limit() {
    let trace = alike("limit 1\nat 0\nbytes 4e0000000500\n");
    assert_eq!(told(&trace), "0 status 00 reply 0");
    let mut run = Run::already_open(&limit(1), Lsn(0)).unwrap();
    assert_eq!(run.step(&input(1), b"", &mut [], &mut [0; 39]).refusal, Some(Refusal::PayloadBufferTooShort));
}

/// The Rust's own limit too, which is another one than a run's.
#[test]
fn a_message_over_the_limit() {
    let runtime = tokio::runtime::Builder::new_current_thread().build().unwrap();
    let mut reader = MessageReader::new().with_max_message_size(0);
    for mut server in [&b"Z\0\0\0\x05"[..], b""] {
        let said = runtime.block_on(reader.read(&mut server)).unwrap_err().to_string();
        assert_eq!(said, "backend message too large: 1 bytes (max 0)", "{said}");
    }
    // The input: limit, whether the input ends, the size of pieces, the bytes.
    assert!(project_in(b'g', 0, b"\0\0\0\0\0\0\x05Z\0\0\0\x05").starts_with("g R 7 "));
}

#[test]
fn the_largest_limit() {
    let largest = rust_leaves::LIMIT as u32;
    let server = |n: u32| [&b"N"[..], &(n + 4).to_be_bytes()].concat();
    assert_eq!(rust_leaves::read(&server(largest), usize::MAX, 5, false), []);
    assert_eq!(rust_leaves::read(&server(largest + 1), usize::MAX, 5, false), [Told::Refused(7)]);
    let mut payload = vec![0; rust_leaves::LIMIT];
    for (n, refusal) in [(largest, None), (largest + 1, Some(Refusal::MessageTooLarge))] {
        let mut run = Run::already_open(&limit(usize::MAX), Lsn(0)).unwrap();
        let mut refused = |unread: &[u8]| run.step(&input(1), unread, &mut payload, &mut [0; 39]).refusal;
        assert_eq!((refused(b""), refused(b""), refused(&server(n))), (None, None, refusal));
    }
}

#[test]
fn rows_before_an_error() {
    let server = [framed(b'D', &[0, 0]), framed(b'E', b"\0"), framed(b'Z', b"I")].concat();
    assert_eq!(rust_leaves::simple_query(&server, 10), Query::Error(b"unknown server error".to_vec()));
    assert_eq!(project(b'm', &server), format!("m D | Z error {}", hex(b"unknown server error")));
}

/// The Rust takes pairs alone.
#[test]
fn a_parameter_without_a_value() {
    let name = b"\0\x03\0\0\0\x01a";
    assert_eq!(texts(&name[4..]), [b"a"]);
    let line = project(b's', name);
    assert!(line.ends_with(&hex(b"\0\0\0\x0C\0\x03\0\0a\0\0\0")), "{line}");
    assert_eq!(rust_leaves::write_startup(196_608, &[("a", "")]), b"\0\0\0\x0C\0\x03\0\0a\0\0\0");
}

#[test]
fn a_reply_over_the_limit_before_the_stream() {
    let (a, b) = apart("run opened\nlimit 0\nat 0\nbytes 4e0000000500\n", Original::default());
    assert!(!told(&a).contains("end"), "{}", told(&a));
    assert!(told(&b).ends_with("; 0 end 7"), "{}", told(&b));
}

#[test]
fn two_pieces_at_the_end_of_the_idle_interval() {
    let text = "status 86400000\nidle 1\nat 0\nat 1\nbytes 4e\nbytes 00000004\n";
    let (a, b) = apart(text, Original { at_once: true, ..Original::default() });
    assert_eq!((told(&a).as_str(), told(&b).as_str()), ("0 status 00 reply 0", "0 status 00 reply 0; 1 status 00 reply 0"));
    assert_eq!(told(&alike(text)), told(&b));
}

#[test]
fn a_write_that_takes_time() {
    let text = "status 2\nidle 86400000\nat 0\nat 1\nreport 0/1\nat 6\n";
    let (a, b) = apart(text, Original { write_takes: Duration::from_millis(1), ..Original::default() });
    // The Rust's are told when they were written: the second was begun at 3.
    assert_eq!(told(&a), "1 status 00 reply 0; 4 status 01 reply 0");
    assert_eq!(told(&b), "0 status 00 reply 0; 2 status 01 reply 0");
}

/// Here a step has written into the output that it was lent, and sending is the host's.
#[test]
fn a_stream_that_fails() {
    let (a, b) = apart("at 0\n", Original { write_fails: true, ..Original::default() });
    assert_eq!((told(&a).as_str(), told(&b).as_str()), ("0 end 255", "0 status 00 reply 0"));
}

#[test]
fn a_report_inside_a_step() {
    let (a, b) = apart("status 86400000\nidle 1\nat 0\nat 1\nbytes 4e\nduring 1 report 0/1\n", Original::default());
    assert_eq!((told(&a).as_str(), told(&b).as_str()), ("0 status 00 reply 0; 1 status 01 reply 0", "0 status 00 reply 0; 1 status 00 reply 0"));
    assert!(b.outside.is_some());
    let (a, b) = apart("timing\nat 0\nduring 1 report 0/1\n", Original::default());
    assert_eq!((told(&a).as_str(), told(&b).as_str()), ("0 status 00 reply 0; 0 waited 0", "0 status 00 reply 0"));
    assert!(b.outside.is_some());
}

#[test]
fn a_text_that_is_no_utf8() {
    assert_eq!(rust_leaves::parse_position(b"\xFF"), None);
    assert_eq!(Lsn::parse(b"\xFF"), Err(Refusal::MissingSlash));
    let mut out = [0; 200];
    let (_, n) = Run::open(&limit(0), b"\xFF", &[], Lsn(0), Lsn(0), &mut out).unwrap();
    assert!(out[..n].windows(8).any(|w| w == b"SLOT \xFF L"));
}

/// The Rust has one position and is told the smallest of the four: three files confirm nothing, four do. A file that is none is told to nobody.
#[test]
fn four_files() {
    let three = "status 5\nidle 100\nat 0\nat 1\nfile 0 0/5\nfile 1 0/5\nfile 2 0/5\n";
    assert_eq!(told(&alike(&format!("{three}file 4 0/5\nat 5\n"))), "0 status 00 reply 0");
    assert_eq!(told(&alike(&format!("{three}file 3 0/5\nat 5\n"))), "0 status 00 reply 0; 5 status 05 reply 0");
    assert_eq!(told(&alike("status 5\nidle 100\nat 0\nat 1\nreport 0/5\nat 5\n")), "0 status 00 reply 0; 5 status 05 reply 0");
}

/// Compared up to that message; before `W` both skip it.
#[test]
fn the_servers_copy_done() {
    let text = format!("at 0\nbytes 6300000004\nat 0\n{}", bytes(&keepalive(0, 0, 0)));
    let (a, b) = apart(&text, Original::default());
    assert_eq!(told(&a), "0 status 00 reply 0; 0 event K 0/0 0 0");
    assert_eq!(told(&b), "0 status 00 reply 0; 0 done; 0 end 0");
    assert_eq!(told(&alike(&text)), told(&a));
    let opening = alike("run opened\nat 0\nbytes 63000000045700000004\nat 0\nstop\n");
    assert!(told(&opening).ends_with("; 0 status 00 reply 0; 0 done; 0 end 0"), "{}", told(&opening));
}

// ---- between the Rust and the PostgreSQL documentation: the project follows the Rust

#[test]
fn error_fields_that_are_skipped() {
    for payload in [b"Vx\0", b"px\0", b"qx\0"] {
        leaf(b'f', payload, "f 0 n n n n n n n n n n n n n n n");
    }
}

/// Fields as the program `test_leaves` prints them: the code, the message and the detail, of fifteen.
fn fields(code: &str, message: &str, detail: &str) -> String {
    format!("f 0 n {code} {message} {detail} n n n n n n n n n n n")
}

#[test]
fn an_error_with_no_field() {
    for payload in [&b""[..], b"\0"] {
        leaf(b'f', payload, &fields("n", "n", "n"));
        assert!(rust(b'e', payload).ends_with(&(hex(b"unknown server error") + " 0")), "{}", rust(b'e', payload));
        leaf(b'e', payload, &project(b'e', payload));
    }
}

/// The documentation has a zero byte after the last field; neither side asks for it.
#[test]
fn an_error_without_its_terminator() {
    leaf(b'f', b"CX\0My\0", &fields(&hex(b"X"), &hex(b"y"), "n"));
    leaf(b'f', b"CX\0My\0\0", &fields(&hex(b"X"), &hex(b"y"), "n"));
}

#[test]
fn an_error_whose_last_field_is_unterminated() {
    let line = project(b'f', b"CX\0My");
    assert_eq!(rust(b'f', b"CX\0My"), line);
    assert_eq!(line, fields(&hex(b"X"), "n", "n"));
}

#[test]
fn an_error_with_a_field_twice() {
    leaf(b'f', b"Mone\0Mtwo\0\0", &fields("n", &hex(b"two"), "n"));
}

#[test]
fn w_and_z_without_their_bodies() {
    let trace = alike("run opened\nat 0\nbytes 5700000004\n");
    assert!(told(&trace).ends_with("; 0 status 00 reply 0"), "{}", told(&trace));
    let server = framed(b'Z', b"");
    assert_eq!(rust_leaves::simple_query(&server, 10), Query::Rows(vec![]));
    leaf(b'm', &server, &project(b'm', &server));
    assert!(project(b'm', &server).starts_with("m Z"), "{}", project(b'm', &server));
}

#[test]
fn a_zero_byte_inside_a_text() {
    let written = |line: String, bytes: &[u8]| assert!(line.ends_with(&hex(bytes)), "{line}");
    leaf(b'q', b"a\0b", &project(b'q', b"a\0b"));
    written(project(b'q', b"a\0b"), b"Q\0\0\0\x08a\0b\0");
    let startup = b"\0\x03\0\0\0\x03u\0v\0\x01w";
    leaf(b's', startup, &project(b's', startup));
    written(project(b's', startup), b"\0\0\0\x0F\0\x03\0\0u\0v\0w\0\0");
}

#[test]
fn a_startup_without_any_pair() {
    let line = project(b's', b"\0\x03\0\0");
    leaf(b's', b"\0\x03\0\0", &line);
    assert!(line.ends_with(&hex(b"\0\0\0\x09\0\x03\0\0\0")), "{line}");
}

#[test]
fn any_reply_byte_but_0_asks() {
    let trace = alike(&format!("at 0\n{}", bytes(&keepalive(0, 0, 2))));
    assert_eq!(told(&trace), "0 status 00 reply 0; 0 status 00 reply 1; 0 event K 0/0 0 1");
}

#[test]
fn flags_are_ignored() {
    leaf(b'b', &commit(1, 2, 3, 4), "b 0 C 0/2 0/3 4");
    leaf(b'b', &message(3, 1, b"", 0, b""), "b 0 M 1 0/1 - -");
    leaf(b'b', &message(2, 1, b"", 0, b""), "b 0 M 0 0/1 - -");
}

#[test]
fn surplus_bytes_are_ignored() {
    leaf(b'b', &[begin(1, 2, 3), vec![0]].concat(), "b 0 B 0/1 2 3");
    leaf(b'b', &[commit(0, 1, 2, 3), vec![0]].concat(), "b 0 C 0/1 0/2 3");
    leaf(b'b', &[message(0, 1, b"", 0, b""), vec![0]].concat(), "b 0 M 0 0/1 - -");
    leaf(b'c', &[&keepalive(1, 2, 0)[5..], &[0]].concat(), "c 0 k 0/1 2 0");
    leaf(b'r', &[0, 0, 0], "r 0 0");
}

#[test]
fn lengths_and_numbers_of_columns_below_0() {
    leaf(b'r', &[0, 1, 0x80, 0, 0, 0], "r 0 1 n");
    leaf(b'r', &[0xFF, 0xFF], "r 0 0");
}

#[test]
fn the_answer_to_a_keepalive_asks_itself() {
    let trace = alike(&format!("at 0\n{}", bytes(&keepalive(0, 0, 1))));
    assert_eq!(told(&trace), "0 status 00 reply 0; 0 status 00 reply 1; 0 event K 0/0 0 1");
}

#[test]
fn the_run_ends_with_our_copy_done() {
    assert_eq!(told(&alike("at 0\nstop\n")), "0 status 00 reply 0; 0 done; 0 end 0");
}

#[test]
fn names_stand_unquoted() {
    let query = |slot: &str, names: &str| {
        format!("0 query START_REPLICATION SLOT {slot} LOGICAL 0/0 (proto_version '1', publication_names '{names}', messages 'true')")
    };
    assert_eq!(told(&alike("run opened\nslot 612062\nat 0\n")), query("a b", ""));
    assert_eq!(told(&alike("run opened\npublication 612c62\nat 0\n")), query("s", "a,b"));
}

// ---- behaviour that may surprise: the Rust's and the project's alike

#[test]
fn a_message_that_has_begun_in_a_drain_is_read_to_its_end() {
    let trace = alike("status 1\nidle 1\nat 0\nbytes 4e000000046400000005\nat 5\nreport 0/10\nat 10\nstop\nat 20\nend\n");
    assert_eq!(told(&trace), "0 status 00 reply 0; 20 end 9");
}

#[test]
fn the_status_interval_sends_nothing_while_nothing_is_pending() {
    assert_eq!(told(&alike("status 1\nidle 10\nat 0\nat 9\n")), "0 status 00 reply 0");
    assert_eq!(told(&alike("status 1\nidle 10\nat 0\nat 10\n")), "0 status 00 reply 0; 10 status 00 reply 0");
}

#[test]
fn stop_is_not_looked_at_in_opening() {
    let trace = alike("run opened\nstatus 1\nidle 1\nat 0\nstop\nat 50\n");
    assert_eq!(trace.lines.len(), 1, "{}", told(&trace));
}

#[test]
fn a_closed_queue_drops_events() {
    let trace = alike(&format!("at 0\nclose\n{}at 5\n", bytes(&keepalive(0, 0, 0))));
    assert_eq!(told(&trace), "0 status 00 reply 0");
}

#[test]
fn no_publications() {
    assert!(told(&alike("run opened\nat 0\n")).contains("publication_names ''"));
}

#[test]
fn a_stop_position_of_0() {
    let trace = alike(&format!("stop_at 0/0\nat 0\n{}", bytes(&data(0, 0, 0, b""))));
    assert_eq!(told(&trace), "0 status 00 reply 0; 0 event X 0/0 0/0 0 -; 0 event S 0/0; 0 done; 0 end 0");
}
