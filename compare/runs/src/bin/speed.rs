//! The same stream through the Rust's `run_on_stream` and through ours, both in memory, both with the real clock.
//!
//! speed                      the table: time of both, best of several runs; results are compared
//! speed count SIDE ROW KB    plays one stream once, for callgrind (`played_SIDE`) and for the memory used
//!
//! SIDE is rust, ours, queued (ours, each event copied and handed on through the queue that the Rust uses), single (ours step by step), or
//! none: the stream alone.

use original::client::metrics::ReplicationMetrics;
use original::client::worker::{ReplicationEvent, SharedProgress, WorkerState};
use original::config::ReplicationConfig;
use original::lsn::Lsn as TheirLsn;
use rufflesquash::{write_load, Event, Input, Lsn, Moment, Queue, Run, Settings, State, STEP_OUTPUT};
use runs::original::number_of;
use runs::server::{begin, commit, data, keepalive};
use std::io;
use std::pin::Pin;
use std::sync::Arc;
use std::task::{Context, Poll};
use std::time::{Duration, Instant};
use tokio::io::{AsyncRead, AsyncWrite, ReadBuf};
use tokio::runtime::Builder;
use tokio::sync::{mpsc, watch};

/// What comes in front of a stream: AuthenticationOk, ReadyForQuery, CopyBothResponse.
const BEFORE: &[u8] = b"R\0\0\0\x08\0\0\0\0Z\0\0\0\x05IW\0\0\0\x07\0\0\0";
const PIECE: usize = 65_536;
const LIMIT: usize = 65_536;
/// The Rust's usual queue.
const QUEUE: usize = 8192;
/// Within a core's cache, as bytes are that were just read from a socket; played again and again.
const STREAM: usize = 1 << 20;
const RUNS: usize = 200;
/// What a server sent; of each stream the CopyData messages are played.
const RECORDED: [&[u8]; 4] = [
    include_bytes!("../../../../crates/test_streams/data/basic-text.bin"),
    include_bytes!("../../../../crates/test_streams/data/encoding-sqlascii.bin"),
    include_bytes!("../../../../crates/test_streams/data/messages.bin"),
    include_bytes!("../../../../crates/test_streams/data/truncate.bin"),
];
/// Bytes of a row's message of the plugin, and how many rows a transaction has.
const SHAPES: [(usize, usize); 7] = [(30, 1), (30, 100), (64, 10), (100, 10), (600, 10), (1024, 10), (8192, 10)];

struct Stream {
    bytes: Vec<u8>,
    messages: u64,
}

/// Data of the plugin whose positions and time are one number.
fn at(position: u64, body: &[u8]) -> Vec<u8> {
    data(position, position, position as i64, body)
}

/// Transactions of `rows` rows, a keepalive after every hundredth, up to a length.
fn stream(row: usize, rows: usize, length: usize) -> Stream {
    let mut bytes = Vec::with_capacity(length + 2 * PIECE + rows * (row + 64));
    let (mut messages, mut position, mut xid) = (0, 0x16B_0000, 700u32);
    let mut noise = 0x9E37_79B9_7F4A_7C15u64;
    while bytes.len() < length {
        xid += 1;
        let last = position + (rows * row) as u64;
        bytes.extend(at(position, &begin(last, position as i64, xid)));
        for _ in 0..rows {
            position += row as u64;
            let text = row - 13;
            let mut insert = [&b"I\0\0\x40\x01N\0\x01t"[..], &(text as u32).to_be_bytes()].concat();
            for _ in 0..text {
                noise = noise.wrapping_mul(6_364_136_223_846_793_005).wrapping_add(1_442_695_040_888_963_407);
                insert.push((noise >> 56) as u8);
            }
            bytes.extend(at(position, &insert));
        }
        bytes.extend(at(last, &commit(0, last, last + 1, position as i64)));
        messages += rows as u64 + 2;
        if xid % 100 == 0 {
            bytes.extend(keepalive(last, position as i64, 0));
            messages += 1;
        }
    }
    Stream { bytes, messages }
}

/// The recorded messages again and again, up to a length.
fn recorded(length: usize) -> Stream {
    let mut s = Stream { bytes: Vec::new(), messages: 0 };
    while s.bytes.len() < length {
        for stream in RECORDED {
            let mut rest = stream;
            while rest.len() > 4 {
                let n = 1 + u32::from_be_bytes(rest[1..5].try_into().unwrap()) as usize;
                if rest[0] == b'd' {
                    s.bytes.extend(&rest[..n]);
                    s.messages += 1;
                }
                rest = &rest[n..];
            }
        }
    }
    s
}

/// The load of the seed that bench/run takes, too; a message of it has 23 to 94 bytes.
fn generated(length: usize) -> Stream {
    let messages = length as u64 / 48;
    let mut bytes = vec![0; 94 * messages as usize];
    let len = write_load(13, messages, &mut bytes).expect("room for the longest messages");
    bytes.truncate(len);
    Stream { bytes, messages }
}

/// What the consumer makes of the events: all their numbers, and all their bytes or only the first and the last eight of each part.
#[derive(Clone, Copy, Debug, PartialEq)]
struct Sum {
    whole: bool,
    events: u64,
    sum: u64,
    end: u64,
}

impl Sum {
    fn new(whole: bool) -> Sum {
        Sum { whole, events: 0, sum: 0, end: 255 }
    }

    fn mix(&mut self, word: u64) {
        self.sum = (self.sum ^ word).wrapping_mul(0x9E37_79B9_7F4A_7C15).rotate_left(31);
    }

    #[inline]
    fn event(&mut self, kind: u64, a: u64, b: u64, c: u64) {
        self.events += 1;
        self.mix(kind ^ a.wrapping_mul(3) ^ b.wrapping_mul(0x1_0001).rotate_left(17) ^ c.wrapping_mul(0x101).rotate_left(41));
    }

    #[inline]
    fn part(&mut self, bytes: &[u8]) {
        let word = |at: usize| u64::from_le_bytes(bytes[at..at + 8].try_into().unwrap());
        self.mix(bytes.len() as u64);
        if bytes.len() >= 8 && !self.whole {
            self.mix(word(0) ^ word(bytes.len() - 8).rotate_left(7));
        } else {
            bytes.chunks(8).for_each(|c| self.mix(c.iter().fold(1, |w, b| w << 8 | *b as u64)));
        }
    }

    /// The Rust hands on prefixes as lossy texts.
    #[cold]
    fn lossy(&mut self, prefix: &[u8]) {
        self.part(String::from_utf8_lossy(prefix).as_bytes());
    }

    fn theirs(&mut self, event: ReplicationEvent) {
        use ReplicationEvent as E;
        match event {
            E::KeepAlive { wal_end, reply_requested, server_time_micros } => {
                self.event(1, wal_end.0, server_time_micros as u64, reply_requested as u64)
            }
            E::Begin { final_lsn, xid, commit_time_micros } => self.event(2, final_lsn.0, commit_time_micros as u64, xid as u64),
            E::Commit { lsn, end_lsn, commit_time_micros } => self.event(3, lsn.0, end_lsn.0, commit_time_micros as u64),
            E::Message { transactional, lsn, prefix, content } => {
                self.event(4, transactional as u64, lsn.0, 0);
                self.part(prefix.as_bytes());
                self.part(&content);
            }
            E::XLogData { wal_start, wal_end, server_time_micros, data } => {
                self.event(5, wal_start.0, wal_end.0, server_time_micros as u64);
                self.part(&data);
            }
            E::StoppedAt { reached } => self.event(6, reached.0, 0, 0),
        }
    }

    #[inline(always)]
    fn ours(&mut self, event: Event) {
        match event {
            Event::KeepAlive { wal_end, server_time_micros, reply_requested } => {
                self.event(1, wal_end.0, server_time_micros as u64, reply_requested as u64)
            }
            Event::Begin { final_lsn, commit_time_micros, xid } => self.event(2, final_lsn.0, commit_time_micros as u64, xid as u64),
            Event::Commit { lsn, end_lsn, commit_time_micros } => self.event(3, lsn.0, end_lsn.0, commit_time_micros as u64),
            Event::Message { transactional, lsn, prefix, content } => {
                self.event(4, transactional as u64, lsn.0, 0);
                self.lossy(prefix);
                self.part(content);
            }
            Event::XLogData { wal_start, wal_end, server_time_micros, data } => {
                self.event(5, wal_start.0, wal_end.0, server_time_micros as u64);
                self.part(data);
            }
            Event::StoppedAt { reached } => self.event(6, reached.0, 0, 0),
            other => panic!("an event that the Rust does not have: {other:?}"),
        }
    }
}

/// An event of ours as one of theirs, with bytes of its own: what a host with a queue makes of it.
fn owned(event: Event) -> ReplicationEvent {
    let lsn = |l: Lsn| TheirLsn(l.0);
    match event {
        Event::KeepAlive { wal_end, server_time_micros, reply_requested } => {
            ReplicationEvent::KeepAlive { wal_end: lsn(wal_end), reply_requested, server_time_micros }
        }
        Event::Begin { final_lsn, commit_time_micros, xid } => ReplicationEvent::Begin { final_lsn: lsn(final_lsn), xid, commit_time_micros },
        Event::Commit { lsn: at, end_lsn, commit_time_micros } => {
            ReplicationEvent::Commit { lsn: lsn(at), end_lsn: lsn(end_lsn), commit_time_micros }
        }
        Event::Message { transactional, lsn: at, prefix, content } => ReplicationEvent::Message {
            transactional,
            lsn: lsn(at),
            prefix: String::from_utf8_lossy(prefix).into_owned(),
            content: bytes::Bytes::copy_from_slice(content),
        },
        Event::XLogData { wal_start, wal_end, server_time_micros, data } => ReplicationEvent::XLogData {
            wal_start: lsn(wal_start),
            wal_end: lsn(wal_end),
            server_time_micros,
            data: bytes::Bytes::copy_from_slice(data),
        },
        Event::StoppedAt { reached } => ReplicationEvent::StoppedAt { reached: lsn(reached) },
        other => panic!("an event that the Rust does not have: {other:?}"),
    }
}

/// A stream in memory: what comes first, then piece after piece, "not ready" once after each, so that the consumer comes to its turn.
struct Wire<'a> {
    before: &'a [u8],
    bytes: &'a [u8],
    rests: bool,
}

impl AsyncRead for Wire<'_> {
    fn poll_read(mut self: Pin<&mut Self>, cx: &mut Context<'_>, buf: &mut ReadBuf<'_>) -> Poll<io::Result<()>> {
        if std::mem::take(&mut self.rests) {
            cx.waker().wake_by_ref();
            return Poll::Pending;
        }
        let piece = if self.before.is_empty() {
            let (piece, rest) = self.bytes.split_at(self.bytes.len().min(PIECE));
            self.bytes = rest;
            self.rests = true;
            piece
        } else {
            std::mem::take(&mut self.before)
        };
        buf.put_slice(piece);
        Poll::Ready(Ok(()))
    }
}

impl AsyncWrite for Wire<'_> {
    fn poll_write(self: Pin<&mut Self>, _: &mut Context<'_>, bytes: &[u8]) -> Poll<io::Result<usize>> {
        Poll::Ready(Ok(bytes.len()))
    }

    fn poll_flush(self: Pin<&mut Self>, _: &mut Context<'_>) -> Poll<io::Result<()>> {
        Poll::Ready(Ok(()))
    }

    fn poll_shutdown(self: Pin<&mut Self>, _: &mut Context<'_>) -> Poll<io::Result<()>> {
        Poll::Ready(Ok(()))
    }
}

#[no_mangle]
#[inline(never)]
fn played_rust(bytes: &[u8], mut sum: Sum) -> Sum {
    let runtime = Builder::new_current_thread().enable_time().build().expect("a runtime");
    runtime.block_on(async {
        let config = ReplicationConfig::new("h", "u", "p", "d", "s", vec!["p".to_string()])
            .with_status_interval(Duration::from_secs(10))
            .with_wakeup_interval(Duration::from_secs(10))
            .with_buffer_size(QUEUE)
            .with_max_message_size(LIMIT);
        let progress = Arc::new(SharedProgress::with_timing(TheirLsn(0), false));
        let (_stop, stop_seen) = watch::channel(false);
        let (out, mut queue) = mpsc::channel(QUEUE);
        let worker = async move {
            let mut wire = Wire { before: BEFORE, bytes, rests: false };
            let mut state = WorkerState::new(config, progress, stop_seen, out, Arc::new(ReplicationMetrics::default()));
            state.run_on_stream(&mut wire).await
        };
        let consumer = async {
            while let Some(event) = queue.recv().await {
                sum.theirs(event.expect("no errors are sent"));
                while let Ok(event) = queue.try_recv() {
                    sum.theirs(event.expect("no errors are sent"));
                }
            }
        };
        let (end, ()) = tokio::join!(worker, consumer);
        sum.end = end.as_ref().err().map_or(0, number_of) as u64;
    });
    sum
}

/// The calls of a run over all pieces; each is copied into a buffer first, as one is read from a socket. The clock is read once a piece.
#[inline(always)]
fn calls<const SINGLE: bool>(bytes: &[u8], mut event: impl FnMut(Event), mut after_piece: impl FnMut()) -> (u64, u64) {
    let settings = Settings { max_message_size: LIMIT, ..Settings::default() };
    let mut run = Run::already_open(&settings, Lsn(0)).expect("settings within their bounds");
    let mut payload = vec![0; settings.payload_len()];
    let mut buffer = vec![0; PIECE];
    let mut pieces = bytes.chunks(PIECE);
    let (mut at, mut filled, mut calls) = (0, 0, 0);
    let mut out = [0; STEP_OUTPUT];
    let begun = Instant::now();
    let mut input = Input { moment: Moment(1), client_time_micros: 0, stop: false, queue: Queue::Free, ended: false };
    loop {
        if at == filled && matches!(run.state(), State::Reading | State::Waiting) {
            after_piece();
            let piece = pieces.next().unwrap_or_default();
            buffer[..piece.len()].copy_from_slice(piece);
            (at, filled) = (0, piece.len());
            input.moment = Moment(begun.elapsed().as_nanos() as u64 + 1);
            input.ended = piece.is_empty();
        }
        let unread = &buffer[at..filled];
        let step = if SINGLE { run.step(&input, unread, &mut payload, &mut out) } else { run.advance(&input, unread, &mut payload, &mut out) };
        calls += 1;
        at += step.taken;
        if let Some(e) = step.event {
            event(e);
        }
        if let Some(refusal) = step.refusal {
            return (refusal.number() as u64, calls);
        }
    }
}

#[no_mangle]
#[inline(never)]
fn played_ours(bytes: &[u8], mut sum: Sum) -> (Sum, u64) {
    let (end, calls) = calls::<false>(bytes, |event| sum.ours(event), || ());
    sum.end = end;
    (sum, calls)
}

/// Ours step by step.
#[no_mangle]
#[inline(never)]
fn played_single(bytes: &[u8], mut sum: Sum) -> Sum {
    (sum.end, _) = calls::<true>(bytes, |event| sum.ours(event), || ());
    sum
}

/// Ours with every event copied and handed on through the queue that the Rust uses.
#[no_mangle]
#[inline(never)]
fn played_queued(bytes: &[u8], sum: Sum) -> Sum {
    let (out, mut queue) = mpsc::channel::<Result<ReplicationEvent, original::error::PgWireError>>(QUEUE);
    let sum = std::cell::RefCell::new((sum, &mut queue));
    let drain = || {
        let (sum, queue) = &mut *sum.borrow_mut();
        while let Ok(event) = queue.try_recv() {
            sum.theirs(event.expect("no errors are sent"));
        }
    };
    let (end, _) = calls::<false>(bytes, |event| assert!(out.try_send(Ok(owned(event))).is_ok(), "the queue holds a piece"), drain);
    drain();
    let mut sum = sum.into_inner().0;
    sum.end = end;
    sum
}

fn table() {
    let columns = [
        "bytes a row",
        "rows a transaction",
        "Rust, messages/s",
        "ours, messages/s",
        "Rust, MB/s",
        "ours, MB/s",
        "Rust, ns a message",
        "ours, ns a message",
        "ours / Rust",
        "ours with a queue, ns",
        "ours step by step, ns",
        "calls a message",
    ];
    println!("| {} |", columns.join(" | "));
    println!("{}|", "|---".repeat(columns.len()));
    line("recorded", "", &recorded(STREAM));
    line("load", "", &generated(STREAM));
    for (row, rows) in SHAPES {
        line(&row.to_string(), &rows.to_string(), &stream(row, rows, STREAM));
    }
    println!("\na step that does nothing (of an ended run): {:.0} ns", ended_step());
}

/// All sides on one stream: compared byte by byte, then timed, best of several runs.
fn line(row: &str, rows: &str, s: &Stream) {
    let whole = played_rust(&s.bytes, Sum::new(true));
    let (ours, calls) = played_ours(&s.bytes, Sum::new(true));
    assert_eq!(whole, ours, "rows of {row}: the events differ");
    assert_eq!(whole, played_queued(&s.bytes, Sum::new(true)), "rows of {row}: the events differ");
    assert_eq!(whole, played_single(&s.bytes, Sum::new(true)), "rows of {row}: the events differ");
    assert_eq!((whole.events, whole.end), (s.messages, 8), "rows of {row}: an event a message, then the end of the stream");
    let mut best = [f64::MAX; 4];
    for _ in 0..RUNS {
        let (rust, theirs) = timed(|| played_rust(&s.bytes, Sum::new(false)));
        let (ours, mine) = timed(|| played_ours(&s.bytes, Sum::new(false)).0);
        let (queued, third) = timed(|| played_queued(&s.bytes, Sum::new(false)));
        let (single, fourth) = timed(|| played_single(&s.bytes, Sum::new(false)));
        assert!(theirs == mine && mine == third && third == fourth, "rows of {row}: the events differ");
        best = [best[0].min(rust), best[1].min(ours), best[2].min(queued), best[3].min(single)];
    }
    let n = s.messages as f64;
    let mb = s.bytes.len() as f64 / 1e6;
    println!(
        "| {row} | {rows} | {:.0} | {:.0} | {:.0} | {:.0} | {:.0} | {:.0} | {:.2} | {:.0} | {:.0} | {:.2} |",
        n / best[0],
        n / best[1],
        mb / best[0],
        mb / best[1],
        best[0] / n * 1e9,
        best[1] / n * 1e9,
        best[1] / best[0],
        best[2] / n * 1e9,
        best[3] / n * 1e9,
        calls as f64 / n
    );
}

fn timed<T>(mut play: impl FnMut() -> T) -> (f64, T) {
    let begun = Instant::now();
    let result = play();
    (begun.elapsed().as_secs_f64(), result)
}

/// A step of an ended run: the run's words in and out, and nothing else. Nanoseconds.
fn ended_step() -> f64 {
    const STEPS: u64 = 30_000;
    let settings = Settings { max_message_size: 0, ..Settings::default() };
    let mut run = Run::already_open(&settings, Lsn(0)).expect("settings within their bounds");
    let mut out = [0; STEP_OUTPUT];
    let input = Input { moment: Moment(1), client_time_micros: 0, stop: true, queue: Queue::Free, ended: true };
    while run.state() != State::Ended {
        let _ = run.step(&input, b"", &mut [], &mut out);
    }
    let best = (0..RUNS).map(|_| {
        let (time, ()) = timed(|| {
            for _ in 0..STEPS {
                let _ = std::hint::black_box(run.step(std::hint::black_box(&input), b"", &mut [], &mut out));
            }
        });
        time
    });
    best.fold(f64::MAX, f64::min) / STEPS as f64 * 1e9
}

/// The most memory this process ever held, in KB.
fn peak() -> u64 {
    let status = std::fs::read_to_string("/proc/self/status").expect("Linux");
    let line = status.lines().find(|l| l.starts_with("VmHWM:")).expect("VmHWM");
    line.split_whitespace().nth(1).unwrap().parse().unwrap()
}

fn main() {
    let args: Vec<String> = std::env::args().skip(1).collect();
    let Some(("count", [side, row, kb])) = args.split_first().map(|(a, b)| (a.as_str(), b)) else {
        return table();
    };
    let row: usize = row.parse().expect("bytes a row");
    let rows = SHAPES.iter().rev().find(|s| s.0 == row).map_or(10, |s| s.1);
    let s = stream(row, rows, kb.parse::<usize>().expect("a length in KB") << 10);
    let sum = Sum::new(false);
    let sum = match side.as_str() {
        "rust" => played_rust(&s.bytes, sum),
        "ours" => played_ours(&s.bytes, sum).0,
        "queued" => played_queued(&s.bytes, sum),
        "single" => played_single(&s.bytes, sum),
        _ => sum,
    };
    println!("messages {} peak {} sum {:x}", s.messages, peak(), sum.sum);
}
