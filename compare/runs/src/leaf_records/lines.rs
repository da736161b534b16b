//! The Rust's answers, as the lines that the program `test_leaves` prints.

use super::large::lent;
use super::{put_record, records, room, texts, Leaves, Record};
use crate::rust_leaves::{self, Answer, Query, Row, Told};
use crate::scenario::LENT;
use crate::text::position;
use crate::trace::Event;
use model::sum;
use std::io::Write;

#[derive(Default)]
pub struct OriginalLeaves;

/// The limit of the reader in a simple query: no message is over it where the input is longer than a record of the program.
pub(super) fn query_limit(server: &[u8]) -> usize {
    server.len().max(65_536)
}

impl Leaves for OriginalLeaves {
    fn name(&self) -> &'static str {
        "rust"
    }

    fn answer(&mut self, bytes: &[u8]) -> Vec<u8> {
        let mut out = Vec::with_capacity(2 * bytes.len());
        for record in records(bytes) {
            out.extend_from_slice(&[record.kind, b' ']);
            original_line(&record, &mut out);
            out.push(b'\n');
        }
        out
    }
}

pub(super) fn number_at(bytes: &[u8], at: usize) -> u64 {
    u64::from_be_bytes(bytes[at..at + 8].try_into().unwrap())
}

pub(super) fn put_hex(bytes: &[u8], out: &mut Vec<u8>) {
    const DIGITS: &[u8; 16] = b"0123456789abcdef";
    if bytes.is_empty() {
        out.push(b'-');
    }
    bytes.iter().for_each(|b| out.extend_from_slice(&[DIGITS[*b as usize >> 4], DIGITS[*b as usize & 15]]));
}

pub(super) fn put_columns(row: &Row, out: &mut Vec<u8>) {
    for column in row {
        out.push(b' ');
        match column {
            Some(value) => put_hex(value, out),
            None => out.push(b'n'),
        }
    }
}

/// A writer's line. The Rust writes whatever it is lent; here a writer refuses more bytes than it may be lent (25), then an output that is too
/// short (4), and the output is as it was.
fn put_written(text: &[u8], record: &Record, out: &mut Vec<u8>) -> bool {
    let refusal = match (lent(record.kind, record.input) > LENT, text.len() > record.room) {
        (true, _) => 25,
        (_, true) => 4,
        _ => 0,
    };
    let text = if refusal == 0 { text } else { &[] };
    let whole = (text.len()..record.room).fold(sum(text), |h, _| h.wrapping_mul(31).wrapping_add(record.fill as u32));
    let _ = write!(out, "{refusal} {} {whole} ", text.len());
    put_hex(text, out);
    refusal == 0
}

/// How long an output a writer needs.
pub(super) fn need(kind: u8, input: &[u8]) -> Option<usize> {
    if !b"dlueqytzxos".contains(&kind) {
        return None;
    }
    let mut record = Vec::new();
    put_record(kind, input, &mut record);
    let line = String::from_utf8(OriginalLeaves.answer(&record)).expect("a line is a text");
    line.split(' ').nth(2)?.parse().ok()
}

/// An answer that may be refused.
pub(super) fn put_answer<T>(answer: Answer<T>, out: &mut Vec<u8>, put: impl FnOnce(T, &mut Vec<u8>)) {
    match answer {
        Ok(told) => {
            out.extend_from_slice(b"0 ");
            put(told, out);
        }
        Err(number) => drop(write!(out, "{number}")),
    }
}

fn put_copy_data(event: Event, out: &mut Vec<u8>) {
    match event {
        Event::Other { start, end, time, data } => {
            let _ = write!(out, "w {} {} {time} ", position(start), position(end));
            put_hex(&data, out);
        }
        Event::KeepAlive { end, time, reply } => drop(write!(out, "k {} {time} {}", position(end), reply as u8)),
        _ => unreachable!("a CopyData payload is data or a keepalive"),
    }
}

fn utf8(text: &[u8]) -> String {
    String::from_utf8(text.to_vec()).expect("the Rust takes well-formed text alone")
}

fn startup(input: &[u8]) -> Vec<u8> {
    let version = i32::from_be_bytes(input[..4].try_into().unwrap());
    let all: Vec<String> = texts(&input[4..]).into_iter().map(utf8).collect();
    let pairs: Vec<(&str, &str)> = all.chunks_exact(2).map(|p| (p[0].as_str(), p[1].as_str())).collect();
    rust_leaves::write_startup(version, &pairs)
}

/// The Rust's answer to a position text that is accepted, by the second reading in vectors/. The Rust takes more texts (02, wish 6): to every other
/// one the number that the second reading gives is the answer.
fn parsed_position(text: &[u8]) -> Answer<u64> {
    model::position_of(text)?;
    rust_leaves::parse_position(text).expect("the Rust takes well-formed text alone")
}

fn original_line(record: &Record, out: &mut Vec<u8>) {
    let input = record.input;
    let written = |text: &[u8], out: &mut Vec<u8>| _ = put_written(text, record, out);
    let marked = |text: &[u8], marks: usize, out: &mut Vec<u8>| {
        let wrote = put_written(text, record, out);
        let _ = write!(out, " {}", if wrote { marks } else { 0 });
    };
    match record.kind {
        b'p' => put_answer(parsed_position(input), out, |p, out| out.extend_from_slice(rust_leaves::display_position(p).as_bytes())),
        b'd' => written(rust_leaves::display_position(number_at(input, 0)).as_bytes(), out),
        // the plain path, the writer as it is called, and the one by the table throughout
        b'l' | b'u' | b'U' => marked(rust_leaves::lossy(input).as_bytes(), rust_leaves::marks(input), out),
        b'w' => drop(write!(out, "{}", rust_leaves::well_formed_prefix(input))),
        b'e' => marked(&rust_leaves::error_text(input), rust_leaves::error_marks(input), out),
        b'f' => fields_line(input, out),
        b'a' => put_answer(rust_leaves::auth_request(input), out, |(code, rest), out| {
            let _ = write!(out, "{code} ");
            put_hex(rest, out);
        }),
        b'c' => put_answer(rust_leaves::copy_data(input), out, put_copy_data),
        b'b' => {
            put_answer(rust_leaves::boundary(input), out, |event, out| out.extend_from_slice(event.map_or("n".to_string(), |e| e.line()).as_bytes()))
        }
        b'r' => put_answer(rust_leaves::data_row(input), out, |row, out| {
            let _ = write!(out, "{}", row.len());
            put_columns(&row, out);
        }),
        b'q' => written(&rust_leaves::write_simple_query(&utf8(input)), out),
        b'y' => written(&rust_leaves::write_data(input), out),
        b't' => written(&rust_leaves::write_status(number_at(input, 0), number_at(input, 8) as i64, input[16] != 0), out),
        b'z' => written(&rust_leaves::write_done(), out),
        b'x' => written(&rust_leaves::write_terminate(), out),
        b'o' => written(rust_leaves::option_value(texts(input).into_iter().map(utf8).collect()).as_bytes(), out),
        b's' => written(&startup(input), out),
        b'g' => reader_line(record, out),
        b'm' => query_line(input, out),
        kind => panic!("no kind of leaf: {kind}"),
    }
}

fn fields_line(input: &[u8], out: &mut Vec<u8>) {
    out.push(b'0');
    put_columns(&rust_leaves::error_fields(input).into_iter().map(|f| f.map(String::into_bytes)).collect(), out)
}

/// What the reader tells of each message; then the sum of a buffer in which every payload was stored at the front as far as it came.
fn reader_line(record: &Record, out: &mut Vec<u8>) {
    let (limit, piece) = (room(b'g', record.input), u16::from_be_bytes([record.input[5], record.input[6]]) as usize);
    let server = &record.input[7..];
    let mut buffer = vec![record.fill; record.room];
    let mut rest = server;
    out.pop();
    for told in rust_leaves::read(server, limit, piece, record.input[4] != 0) {
        match told {
            Told::Whole(tag, payload) => {
                let _ = write!(out, " W {tag} {}", payload.len());
                buffer[..payload.len()].copy_from_slice(&payload);
                rest = &rest[5 + payload.len()..];
            }
            Told::Refused(number) => {
                let _ = write!(out, " R {number}");
                rest = match number {
                    6 => &rest[5..],
                    7 => &[],
                    _ => rest,
                };
            }
        }
    }
    if let Some(part) = rest.get(5..) {
        buffer[..part.len()].copy_from_slice(part);
    }
    let _ = write!(out, " {}", sum(&buffer));
}

/// The Rust keeps no rows where an error or a refusal comes: they are those of its reader and of its `parse_data_row` there. The end is the
/// query's own.
fn query_line(server: &[u8], out: &mut Vec<u8>) {
    let put_row = |row: &Row, out: &mut Vec<u8>| {
        out.push(b'D');
        put_columns(row, out);
        out.extend_from_slice(b" | ");
    };
    let limit = query_limit(server);
    let end = rust_leaves::simple_query(server, limit);
    if let Query::Rows(rows) = &end {
        rows.iter().for_each(|row| put_row(row, out));
    } else {
        for told in rust_leaves::read(server, limit, server.len().max(1), false) {
            match told {
                Told::Whole(b'D', payload) => match rust_leaves::data_row(&payload) {
                    Ok(row) => put_row(&row, out),
                    Err(_) => break,
                },
                Told::Whole(b'Z', _) | Told::Refused(_) => break,
                Told::Whole(..) => {}
            }
        }
    }
    match end {
        Query::Rows(_) => out.extend_from_slice(b"Z ok"),
        Query::Error(text) => {
            out.extend_from_slice(b"Z error ");
            put_hex(&text, out);
        }
        Query::Refused(number) => drop(write!(out, "{number}")),
        Query::Unfinished => out.push(b'-'),
    }
}
