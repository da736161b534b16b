//! The leaves of the Rust as plain functions over bytes.

use crate::original::{event_of, number_of};
use crate::trace::Event;
use bytes::Bytes;
use original::client::worker::reach;
use original::error::PgWireError;
use original::lsn::Lsn;
use original::protocol::framing::{write_copy_data, write_copy_done, write_query, write_startup_message, MessageReader, MAX_MESSAGE_SIZE};
use original::protocol::messages::{parse_auth_request, parse_error_response, ErrorFields};
use original::protocol::replication::{encode_standby_status_update, parse_copy_data, ReplicationCopyData};
use std::future::Future;
use std::io;
use std::pin::{pin, Pin};
use std::task::{Context, Poll, Waker};
use tokio::io::{AsyncRead, AsyncWrite, ReadBuf};

/// An answer, or the number of the refusal (SCOPE 7.1).
pub type Answer<T> = Result<T, u8>;

fn numbered<T>(answer: Result<T, PgWireError>) -> Answer<T> {
    answer.map_err(|e| number_of(&e))
}

// ---- texts and positions

/// None where the text is no UTF-8: it cannot be passed to the Rust.
pub fn parse_position(text: &[u8]) -> Option<Answer<u64>> {
    let text = std::str::from_utf8(text).ok()?;
    Some(Lsn::parse(text).map(|p| p.0).map_err(|e| match e.0.as_bytes() {
        [b'm', ..] => 22,
        said if said.starts_with(b"invalid high part") => 23,
        _ => 24,
    }))
}

pub fn display_position(position: u64) -> String {
    Lsn(position).to_string()
}

/// The standard library's, which is what the Rust calls.
pub fn lossy(text: &[u8]) -> String {
    String::from_utf8_lossy(text).into_owned()
}

/// How far a text is well-formed: the standard library's, which is what its lossy text copies first.
pub fn well_formed_prefix(text: &[u8]) -> usize {
    std::str::from_utf8(text).map_or_else(|e| e.valid_up_to(), str::len)
}

/// How many U+FFFD that put in. The Rust has no count: the standard library's own parts of a text are counted.
pub fn marks(text: &[u8]) -> usize {
    text.utf8_chunks().filter(|chunk| !chunk.invalid().is_empty()).count()
}

/// The same of an error's text: of the last message and the last code before they are made lossy, which the Rust does not keep.
pub fn error_marks(payload: &[u8]) -> usize {
    let (mut message, mut code) = (0, 0);
    let mut rest = payload;
    while let [letter @ 1..=u8::MAX, tail @ ..] = rest {
        let Some(end) = tail.iter().position(|b| *b == 0) else { break };
        match letter {
            b'M' => message = marks(&tail[..end]),
            b'C' => code = marks(&tail[..end]),
            _ => {}
        }
        rest = &tail[end + 1..];
    }
    message + code
}

/// In the order of the letters S C M D H P W s t c d n F L R, lossy.
pub fn error_fields(payload: &[u8]) -> [Option<String>; 15] {
    let f = ErrorFields::parse(payload);
    [
        f.severity,
        f.code,
        f.message,
        f.detail,
        f.hint,
        f.position,
        f.where_,
        f.schema,
        f.table,
        f.column,
        f.data_type,
        f.constraint,
        f.file,
        f.line,
        f.routine,
    ]
}

pub fn error_text(payload: &[u8]) -> Vec<u8> {
    parse_error_response(payload).into_bytes()
}

pub fn auth_request(payload: &[u8]) -> Answer<(i32, &[u8])> {
    numbered(parse_auth_request(payload))
}

pub fn option_value(names: Vec<String>) -> String {
    reach::option_value(names)
}

// ---- messages

/// What a CopyData payload holds: other data or a keepalive, as the event it would be.
pub fn copy_data(payload: &[u8]) -> Answer<Event> {
    Ok(match numbered(parse_copy_data(Bytes::copy_from_slice(payload)))? {
        ReplicationCopyData::XLogData { wal_start, wal_end, server_time_micros, data } => {
            Event::Other { start: wal_start.0, end: wal_end.0, time: server_time_micros, data: data.to_vec() }
        }
        ReplicationCopyData::KeepAlive { wal_end, server_time_micros, reply_requested } => {
            Event::KeepAlive { end: wal_end.0, time: server_time_micros, reply: reply_requested }
        }
    })
}

/// None for no boundary.
pub fn boundary(data: &[u8]) -> Answer<Option<Event>> {
    Ok(numbered(reach::boundary(&Bytes::copy_from_slice(data)))?.map(event_of))
}

pub type Row = Vec<Option<Vec<u8>>>;

fn plain(row: Vec<Option<Bytes>>) -> Row {
    row.into_iter().map(|column| column.map(|c| c.to_vec())).collect()
}

pub fn data_row(payload: &[u8]) -> Answer<Row> {
    numbered(reach::data_row(&Bytes::copy_from_slice(payload))).map(plain)
}

/// How the answers to a simple query end. The Rust keeps no rows where an error came.
#[derive(Clone, Debug, PartialEq)]
pub enum Query {
    Rows(Vec<Row>),
    Error(Vec<u8>),
    Refused(u8),
    /// The bytes end before `Z`.
    Unfinished,
}

pub fn simple_query(server: &[u8], limit: usize) -> Query {
    let mut stream = Script::new(server, server.len().max(1));
    match polled(reach::query(&mut stream, "", limit)) {
        None => Query::Unfinished,
        Some(Ok(rows)) => Query::Rows(rows.into_iter().map(plain).collect()),
        Some(Err(PgWireError::Server(text))) => Query::Error(text.into_bytes()),
        Some(Err(e)) => Query::Refused(number_of(&e)),
    }
}

// ---- writers

/// What a writer wrote into a buffer, which is always ready and takes everything.
macro_rules! written {
    ($out:ident, $write:expr) => {{
        let mut buffer = Vec::new();
        let $out = &mut buffer;
        polled($write).expect("ready").expect("written");
        buffer
    }};
}

pub fn write_startup(version: i32, parameters: &[(&str, &str)]) -> Vec<u8> {
    written!(out, write_startup_message(out, version, parameters))
}

pub fn write_simple_query(text: &str) -> Vec<u8> {
    written!(out, write_query(out, text))
}

pub fn write_data(payload: &[u8]) -> Vec<u8> {
    written!(out, write_copy_data(out, payload))
}

pub fn write_done() -> Vec<u8> {
    written!(out, write_copy_done(out))
}

pub fn write_terminate() -> Vec<u8> {
    written!(out, reach::terminate(out))
}

/// The whole status message.
pub fn write_status(position: u64, client_time: i64, reply: bool) -> Vec<u8> {
    write_data(&encode_standby_status_update(Lsn(position), client_time, reply))
}

// ---- the reader

/// What a reader on its own told.
#[derive(Clone, Debug, PartialEq)]
pub enum Told {
    Whole(u8, Vec<u8>),
    Refused(u8),
}

/// Reads server bytes that come in pieces of a size; goes on after refusal 6, stops at any other. Without the end it stops where the
/// bytes do.
pub fn read(server: &[u8], limit: usize, piece: usize, ended: bool) -> Vec<Told> {
    let mut stream = Script::new(server, piece);
    stream.ended = ended;
    let mut reader = MessageReader::new().with_max_message_size(limit);
    let mut told = Vec::new();
    loop {
        let next = match polled(reader.read(&mut stream)) {
            None if stream.from < server.len() => continue,
            None => return told,
            Some(Ok(message)) => Told::Whole(message.tag, message.payload.to_vec()),
            Some(Err(e)) => Told::Refused(number_of(&e)),
        };
        let last = matches!(next, Told::Refused(n) if n != 6);
        told.push(next);
        if last {
            return told;
        }
    }
}

/// Which payload lengths the reader takes: the limit is the smaller of the setting and this.
pub const LIMIT: usize = MAX_MESSAGE_SIZE;

// ---- streams without a runtime

/// Server bytes in pieces of a size, "not ready" between two, and somewhere to write.
struct Script<'a> {
    server: &'a [u8],
    from: usize,
    piece: usize,
    rests: bool,
    ended: bool,
    out: Vec<u8>,
}

impl<'a> Script<'a> {
    fn new(server: &'a [u8], piece: usize) -> Self {
        Script { server, from: 0, piece, rests: false, ended: false, out: Vec::new() }
    }
}

impl AsyncRead for Script<'_> {
    fn poll_read(mut self: Pin<&mut Self>, _: &mut Context<'_>, buf: &mut ReadBuf<'_>) -> Poll<io::Result<()>> {
        let left = self.server.len() - self.from;
        if left == 0 {
            return if self.ended { Poll::Ready(Ok(())) } else { Poll::Pending };
        }
        if std::mem::take(&mut self.rests) {
            return Poll::Pending;
        }
        // A piece may be taken in parts; after its last byte the stream rests.
        let n = (self.piece - self.from % self.piece).min(left).min(buf.remaining());
        buf.put_slice(&self.server[self.from..self.from + n]);
        self.from += n;
        self.rests = self.from % self.piece == 0;
        Poll::Ready(Ok(()))
    }
}

impl AsyncWrite for Script<'_> {
    fn poll_write(mut self: Pin<&mut Self>, _: &mut Context<'_>, bytes: &[u8]) -> Poll<io::Result<usize>> {
        self.out.extend_from_slice(bytes);
        Poll::Ready(Ok(bytes.len()))
    }

    fn poll_flush(self: Pin<&mut Self>, _: &mut Context<'_>) -> Poll<io::Result<()>> {
        Poll::Ready(Ok(()))
    }

    fn poll_shutdown(self: Pin<&mut Self>, _: &mut Context<'_>) -> Poll<io::Result<()>> {
        Poll::Ready(Ok(()))
    }
}

/// One poll; None where the future waits, and is dropped.
fn polled<T>(future: impl Future<Output = T>) -> Option<T> {
    match pin!(future).poll(&mut Context::from_waker(Waker::noop())) {
        Poll::Ready(answer) => Some(answer),
        Poll::Pending => None,
    }
}
