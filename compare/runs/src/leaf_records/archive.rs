//! The project's answers by the exported calls of the archive, as the lines that the program `test_leaves` prints: inputs may have any length here.

use super::lines::{number_at, put_answer, put_columns, put_hex, query_limit};
use super::{records, room, texts, Leaves, Record};
use crate::rust_leaves::{Answer, Row};
use model::sum;
use rufflesquash::{self as ours, AuthRequest, Column, DataRow, ErrorField, Lossy, Lsn, MessageReader, QueryAnswer, Refusal, Text};
use std::io::Write;

#[derive(Default)]
pub struct Archive;

impl Leaves for Archive {
    fn name(&self) -> &'static str {
        "ours"
    }

    fn answer(&mut self, bytes: &[u8]) -> Vec<u8> {
        let mut out = Vec::with_capacity(2 * bytes.len());
        for record in records(bytes) {
            out.extend_from_slice(&[record.kind, b' ']);
            line(&record, &mut out);
            out.push(b'\n');
        }
        out
    }
}

fn numbered<T>(answer: Result<T, Refusal>) -> Answer<T> {
    answer.map_err(|refusal| refusal.number())
}

fn line(record: &Record, out: &mut Vec<u8>) {
    let input = record.input;
    match record.kind {
        b'p' => put_answer(numbered(Lsn::parse(input)), out, |p, out| drop(write!(out, "{p}"))),
        b'w' => drop(write!(out, "{}", ours::well_formed_prefix(input))),
        b'f' => {
            out.push(b'0');
            put_columns(&FIELDS.iter().map(|field| ours::error_field(input, *field).map(<[u8]>::to_vec)).collect(), out)
        }
        b'a' => put_answer(numbered(AuthRequest::parse(input)), out, |request, out| {
            let _ = write!(out, "{} ", request.code);
            put_hex(request.rest, out);
        }),
        b'r' => put_answer(numbered(DataRow::parse(input)), out, |row, out| {
            let _ = write!(out, "{}", row.columns());
            put_columns(&columns(&row), out);
        }),
        b'g' => reader_line(record, out),
        b'm' => query_line(input, out),
        b'u' => marked(record, out, |room| ours::lossy(input, room)),
        b'U' => marked(record, out, |room| ours::lossy_by_table(input, room)),
        b'e' => marked(record, out, |room| ours::error_text(input, room)),
        kind => written(record, out, |room| write_of(kind, input, room)),
    }
}

/// In the order of the letters S C M D H P W s t c d n F L R.
const FIELDS: [ErrorField; 15] = [
    ErrorField::Severity,
    ErrorField::Code,
    ErrorField::Message,
    ErrorField::Detail,
    ErrorField::Hint,
    ErrorField::Position,
    ErrorField::Where,
    ErrorField::Schema,
    ErrorField::Table,
    ErrorField::Column,
    ErrorField::DataType,
    ErrorField::Constraint,
    ErrorField::File,
    ErrorField::Line,
    ErrorField::Routine,
];

fn columns(row: &DataRow) -> Row {
    let value = |column| match column {
        Column::Absent => panic!("a column before the count is absent"),
        Column::Null => None,
        Column::Value(value) => Some(value.to_vec()),
    };
    (0..row.columns()).map(|i| value(row.column(i))).collect()
}

fn write_of(kind: u8, input: &[u8], out: &mut [u8]) -> Result<usize, Refusal> {
    match kind {
        b'd' => Lsn(number_at(input, 0)).write(out),
        b'q' => ours::write_query(input, out),
        b't' => ours::write_status(Lsn(number_at(input, 0)), number_at(input, 8) as i64, input[16] != 0, out),
        b'z' => ours::write_copy_done(out),
        b'x' => ours::write_terminate(out),
        b's' => {
            let all = texts(&input[4..]);
            let pairs: Vec<[Text; 2]> = all.chunks_exact(2).map(|pair| [pair[0], pair[1]].map(Text::new)).collect();
            ours::write_startup(&pairs, out)
        }
        kind => panic!("no exported call: {kind}"),
    }
}

/// A writer's line: the refusal, how many bytes it wrote, the sum of the whole output, and the bytes.
fn written(record: &Record, out: &mut Vec<u8>, write: impl FnOnce(&mut [u8]) -> Result<usize, Refusal>) {
    let mut room = vec![record.fill; record.room];
    let (refusal, count) = write(&mut room).map_or_else(|refusal| (refusal.number(), 0), |n| (0, n));
    let _ = write!(out, "{refusal} {count} {} ", sum(&room));
    put_hex(&room[..count], out);
}

/// The same, and the marks.
fn marked(record: &Record, out: &mut Vec<u8>, write: impl FnOnce(&mut [u8]) -> Result<Lossy, Refusal>) {
    let mut marks = 0;
    written(record, out, |room| {
        let shown = write(room)?;
        marks = shown.marks;
        Ok(shown.bytes)
    });
    let _ = write!(out, " {marks}");
}

fn reader_line(record: &Record, out: &mut Vec<u8>) {
    let (limit, size) = (room(b'g', record.input), u16::from_be_bytes([record.input[5], record.input[6]]) as usize);
    let (server, mut payload, mut reader) = (&record.input[7..], vec![record.fill; record.room], MessageReader::new());
    let mut refused = false;
    out.pop();
    for piece in server.chunks(size) {
        let mut at = 0;
        while at < piece.len() && !refused {
            refused = !read(&mut reader, limit, &piece[at..], false, &mut payload, &mut at, out);
        }
    }
    if record.input[4] != 0 && !refused {
        read(&mut reader, limit, b"", true, &mut payload, &mut 0, out);
    }
    let _ = write!(out, " {}", sum(&payload));
}

/// One read; whether reading goes on.
fn read(reader: &mut MessageReader, limit: usize, unread: &[u8], ended: bool, payload: &mut [u8], at: &mut usize, out: &mut Vec<u8>) -> bool {
    let answer = reader.read(limit, unread, ended, payload);
    *at += answer.taken;
    if let Some(message) = answer.message {
        let _ = write!(out, " W {} {}", message.tag, message.payload.len());
    }
    let number = answer.refusal.map_or(0, |refusal| refusal.number());
    if number != 0 {
        let _ = write!(out, " R {number}");
    }
    matches!(number, 0 | 6)
}

fn query_line(server: &[u8], out: &mut Vec<u8>) {
    let limit = query_limit(server);
    let (mut reader, mut query, mut payload, mut error) = (MessageReader::new(), ours::Query::new(), vec![0; limit], vec![0; limit]);
    let mut rest = server;
    loop {
        let answer = reader.read(limit, rest, false, &mut payload);
        rest = &rest[answer.taken..];
        let Some(message) = answer.message else {
            return match answer.refusal {
                Some(refusal) => drop(write!(out, "{}", refusal.number())),
                None => out.push(b'-'),
            };
        };
        match query.message(message, &mut error) {
            QueryAnswer::More => {}
            QueryAnswer::Row(n) => {
                let row = DataRow::parse(message.payload).expect("a row that the query took");
                assert_eq!(row.columns(), n, "the columns of a row");
                out.push(b'D');
                put_columns(&columns(&row), out);
                out.extend_from_slice(b" | ");
            }
            QueryAnswer::Ready => return out.extend_from_slice(b"Z ok"),
            QueryAnswer::Failed { payload, len } => {
                assert_eq!(payload.len(), len, "the error's payload has room");
                let mut text = vec![0; 3 * len + 64];
                let shown = ours::error_text(payload, &mut text).expect("the text has room");
                out.extend_from_slice(b"Z error ");
                return put_hex(&text[..shown.bytes], out);
            }
            QueryAnswer::Refused(refusal) => return drop(write!(out, "{}", refusal.number())),
        }
    }
}
