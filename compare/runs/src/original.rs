//! The Rust, unchanged, on a scripted stream under tokio's paused clock.

use crate::scenario::{Files, Happening, Scenario, FILES};
use crate::server::accepted;
use crate::side::Side;
use crate::trace::{client_time, put_client_time, Event, Line, Metrics, Trace};
use original::client::metrics::ReplicationMetrics;
use original::client::worker::{ReplicationEvent, ReplicationEventReceiver, SharedProgress, WorkerState};
use original::config::ReplicationConfig;
use original::error::PgWireError;
use original::lsn::Lsn;
use original::FeedbackObserver;
use std::collections::VecDeque;
use std::future::{poll_fn, Future};
use std::io;
use std::pin::{pin, Pin};
use std::sync::atomic::{AtomicBool, Ordering};
use std::sync::{Arc, Mutex, Once};
use std::task::{Context, Poll, Wake, Waker};
use std::time::Duration;
use tokio::io::{AsyncRead, AsyncWrite, ReadBuf};
use tokio::runtime::{Builder, Runtime};
use tokio::sync::{mpsc, watch};
use tokio::time::{Instant, Sleep};

/// AuthenticationOk, ReadyForQuery: what comes before `start_replication`.
const AUTHENTICATED: &[u8] = b"R\0\0\0\x08\0\0\0\0Z\0\0\0\x05I";

/// An event's content is known only when it is taken; its place in the trace is known when it is handed on.
enum Noted {
    Event,
    Line(Line),
}

struct Wire {
    begun: Instant,
    /// Pieces that came and are not read yet, and whether they are noted.
    pieces: VecDeque<(Vec<u8>, bool)>,
    ended: bool,
    /// A piece was handed over: "not ready" once, then the next.
    rests: bool,
    at_once: bool,
    /// What a message to the server takes to write, and the one that is being written.
    write_takes: Duration,
    writing: Option<Pin<Box<Sleep>>>,
    write_fails: bool,
    reading: Option<Waker>,
    /// How many of the next writes are not noted.
    unnoted: usize,
    metrics: Arc<ReplicationMetrics>,
    forwarded: u64,
    notes: Vec<(u64, Noted)>,
    /// Calls since the round began, and what happens during later ones.
    calls: usize,
    during: VecDeque<(usize, Happening)>,
    /// Time passed during a call: the runtime has not looked at its timers since.
    passed: bool,
    stop: watch::Sender<bool>,
    progress: Arc<SharedProgress>,
    files: Files,
    queue: ReplicationEventReceiver,
    filling: mpsc::Sender<Result<ReplicationEvent, PgWireError>>,
    taken: VecDeque<Event>,
}

impl Wire {
    fn now(&self) -> u64 {
        let nanos = self.begun.elapsed().as_nanos();
        assert_eq!(nanos % 1_000_000, 0, "the clock stands between two milliseconds");
        (nanos / 1_000_000) as u64
    }

    /// The events that were handed on since the last note.
    fn note_events(&mut self) {
        let forwarded = self.metrics.events_forwarded();
        while self.forwarded < forwarded {
            self.forwarded += 1;
            let now = self.now();
            self.notes.push((now, Noted::Event));
        }
    }

    fn note(&mut self, line: Line) {
        self.note_events();
        let now = self.now();
        self.notes.push((now, Noted::Line(line)));
    }

    /// The run calls: what is to happen during this call happens.
    fn note_call(&mut self, line: Line) {
        self.note(line);
        self.calls += 1;
        while self.during.front().is_some_and(|(call, _)| *call <= self.calls) {
            let (_, what) = self.during.pop_front().unwrap();
            self.happen(&what);
        }
    }

    fn happen(&mut self, what: &Happening) {
        match what {
            Happening::Bytes(bytes) => {
                self.pieces.push_back((bytes.clone(), true));
                self.arrived();
            }
            Happening::End => {
                self.ended = true;
                self.arrived();
            }
            Happening::Stop => drop(self.stop.send_replace(true)),
            Happening::Report(position) => (0..FILES).for_each(|file| self.told(file, *position, None)),
            Happening::ReportFrom(position, at) => (0..FILES).for_each(|file| self.told(file, *position, Some(*at))),
            Happening::File(file, position) => self.told(*file, *position, None),
            Happening::Take(n) => self.take(*n),
            // Its events are errors, which the run sends none of.
            Happening::Fill(n) => drop((0..*n).all(|_| self.filling.try_send(Err(PgWireError::Task(String::new()))).is_ok())),
            Happening::Close => self.queue.close(),
            Happening::Pass(time) => {
                // The clock moves at the first poll.
                let advance = pin!(tokio::time::advance(Duration::from_millis(*time)));
                let _ = advance.poll(&mut Context::from_waker(Waker::noop()));
                self.passed = true;
            }
        }
    }

    /// A file's report. The Rust is told the smallest of the four, each time it rises and only then. It stores its clock's moment where none is
    /// stored: another is stored before, where the report would store one.
    fn told(&mut self, file: u64, position: u64, at: Option<u64>) {
        let Some(smallest) = self.files.report(file, position) else { return };
        if let Some(at) = at.filter(|_| self.progress.pending_since().is_none()) {
            self.progress.carry_pending((self.begun + Duration::from_millis(at)).into_std());
        }
        self.progress.update_applied(Lsn(smallest));
    }

    fn take(&mut self, n: usize) {
        for _ in 0..n {
            match self.queue.try_recv() {
                Ok(event) => self.taken.extend(event.ok().map(event_of)),
                Err(_) => return,
            }
        }
    }

    /// All that was noted, with the events' contents.
    fn lines(&mut self) -> Vec<(u64, Line)> {
        self.take(usize::MAX);
        let (notes, mut taken) = (std::mem::take(&mut self.notes), std::mem::take(&mut self.taken));
        let mut line = |noted| match noted {
            Noted::Line(line) => line,
            Noted::Event => Line::Event(taken.pop_front().expect("as many events as were counted")),
        };
        let lines = notes.into_iter().map(|(at, noted)| (at, line(noted))).collect();
        assert!(taken.is_empty(), "more events than were counted");
        lines
    }

    /// Whether the message is written by now.
    fn writes(&mut self, cx: &mut Context<'_>) -> Poll<()> {
        if !self.write_takes.is_zero() {
            let takes = self.write_takes;
            let sleep = self.writing.get_or_insert_with(|| Box::pin(tokio::time::sleep(takes)));
            if sleep.as_mut().poll(cx).is_pending() {
                return Poll::Pending;
            }
            self.writing = None;
        }
        Poll::Ready(())
    }

    fn arrived(&mut self) {
        if let Some(waker) = self.reading.take() {
            waker.wake();
        }
    }
}

#[derive(Clone)]
struct Stream(Arc<Mutex<Wire>>);

impl AsyncRead for Stream {
    fn poll_read(self: Pin<&mut Self>, cx: &mut Context<'_>, buf: &mut ReadBuf<'_>) -> Poll<io::Result<()>> {
        let mut wire = self.0.lock().unwrap();
        if std::mem::take(&mut wire.rests) {
            cx.waker().wake_by_ref();
            return Poll::Pending;
        }
        if let Some((piece, noted)) = wire.pieces.pop_front() {
            assert!(piece.len() <= buf.remaining(), "a piece longer than the read buffer");
            buf.put_slice(&piece);
            wire.rests = !wire.at_once;
            if noted {
                wire.note_call(Line::Piece(piece.len()));
            }
            return Poll::Ready(Ok(()));
        }
        if wire.ended {
            return Poll::Ready(Ok(()));
        }
        wire.reading = Some(cx.waker().clone());
        Poll::Pending
    }
}

impl AsyncWrite for Stream {
    fn poll_write(self: Pin<&mut Self>, cx: &mut Context<'_>, bytes: &[u8]) -> Poll<io::Result<usize>> {
        let mut wire = self.0.lock().unwrap();
        if wire.unnoted > 0 {
            wire.unnoted -= 1;
        } else if wire.write_fails {
            return Poll::Ready(Err(io::ErrorKind::BrokenPipe.into()));
        } else if wire.writes(cx).is_pending() {
            return Poll::Pending;
        } else {
            wire.note_call(Line::Write(bytes.to_vec()));
        }
        Poll::Ready(Ok(bytes.len()))
    }

    fn poll_flush(self: Pin<&mut Self>, _: &mut Context<'_>) -> Poll<io::Result<()>> {
        Poll::Ready(Ok(()))
    }

    fn poll_shutdown(self: Pin<&mut Self>, _: &mut Context<'_>) -> Poll<io::Result<()>> {
        Poll::Ready(Ok(()))
    }
}

/// The worker's waker: remembers, and wakes the runtime.
struct Bell {
    rung: AtomicBool,
    outer: Mutex<Option<Waker>>,
}

impl Wake for Bell {
    fn wake(self: Arc<Self>) {
        self.wake_by_ref();
    }

    fn wake_by_ref(self: &Arc<Self>) {
        self.rung.store(true, Ordering::Relaxed);
        if let Some(outer) = &*self.outer.lock().unwrap() {
            outer.wake_by_ref();
        }
    }
}

type Outcome = Result<(), PgWireError>;

/// The worker's future, polled by hand, each time as a poll of the runtime of its own.
struct Worker<'a> {
    future: Pin<Box<dyn Future<Output = Outcome> + 'a>>,
    bell: Arc<Bell>,
    waker: Waker,
    outcome: Option<Outcome>,
    wire: Arc<Mutex<Wire>>,
}

impl<'a> Worker<'a> {
    fn new(future: impl Future<Output = Outcome> + 'a, wire: Arc<Mutex<Wire>>) -> Self {
        let bell = Arc::new(Bell { rung: AtomicBool::new(true), outer: Mutex::new(None) });
        let waker = Waker::from(bell.clone());
        Worker { future: Box::pin(future), bell, waker, outcome: None, wire }
    }

    fn poll(&mut self, outer: &mut Context<'_>) {
        if self.outcome.is_some() {
            return;
        }
        {
            let mut known = self.bell.outer.lock().unwrap();
            if !known.as_ref().is_some_and(|w| w.will_wake(outer.waker())) {
                *known = Some(outer.waker().clone());
            }
        }
        self.bell.rung.store(false, Ordering::Relaxed);
        let polled = self.future.as_mut().poll(&mut Context::from_waker(&self.waker));
        let mut wire = self.wire.lock().unwrap();
        wire.note_events();
        if let Poll::Ready(outcome) = polled {
            wire.note(end_of(&outcome));
            self.outcome = Some(outcome);
        }
    }

    fn rung(&self) -> bool {
        self.outcome.is_none() && self.bell.rung.load(Ordering::Relaxed)
    }

    /// Goes on until nothing more can be done at this moment.
    async fn settle(&mut self) {
        poll_fn(|cx| {
            self.poll(cx);
            if std::mem::take(&mut self.wire.lock().unwrap().passed) {
                cx.waker().wake_by_ref();
                return Poll::Pending;
            }
            if self.rung() {
                Poll::Pending
            } else {
                Poll::Ready(())
            }
        })
        .await
    }

    /// Lets the clock go on to a moment. A time that is up before it is met at its own moment, and the run goes on until nothing more can be done
    /// then, also where time passes in its calls; times that are up at the moment itself are only due.
    async fn until(&mut self, moment: Instant) {
        while Instant::now() < moment && !self.reaches(moment).await {
            self.settle().await;
        }
    }

    /// Whether the moment comes before the run can go on.
    async fn reaches(&mut self, moment: Instant) -> bool {
        let mut timer = Box::pin(tokio::time::sleep_until(moment));
        poll_fn(|cx| {
            if timer.as_mut().poll(cx).is_ready() {
                return Poll::Ready(true);
            }
            if self.rung() {
                return Poll::Ready(false);
            }
            Poll::Pending
        })
        .await
    }
}

/// Which refusal's number (SCOPE 7.1) an error of the Rust has.
pub fn number_of(error: &PgWireError) -> u8 {
    let begins = |text: &str, known: &[(&str, u8)]| known.iter().find(|k| text.starts_with(k.0)).map_or(255, |k| k.1);
    match error {
        PgWireError::MessageTooLarge { .. } => 7,
        PgWireError::Server(_) => 19,
        PgWireError::Io(e) if e.kind() == io::ErrorKind::UnexpectedEof => {
            begins(&e.to_string(), &[("EOF while reading backend message header", 8), ("EOF while reading backend message payload", 9)])
        }
        PgWireError::Protocol(text) => begins(
            text,
            &[
                ("invalid backend message length: ", 6),
                ("empty CopyData payload", 10),
                ("XLogData payload too short: ", 11),
                ("KeepAlive payload too short: ", 12),
                ("unknown CopyData kind: ", 13),
                ("pgoutput: truncated i8", 14),
                ("pgoutput: truncated i32", 15),
                ("pgoutput: truncated i64", 16),
                ("pgoutput Message: missing null terminator for prefix", 17),
                ("pgoutput Message: expected ", 18),
                ("malformed DataRow", 20),
                ("auth request too short", 21),
            ],
        ),
        _ => 255,
    }
}

fn end_of(outcome: &Outcome) -> Line {
    match outcome {
        Ok(()) => Line::End(0, Vec::new()),
        Err(PgWireError::Server(text)) => Line::End(19, text.clone().into_bytes()),
        Err(e) => match number_of(e) {
            // An error that has no number.
            255 => Line::End(255, e.to_string().into_bytes()),
            number => Line::End(number, Vec::new()),
        },
    }
}

pub fn event_of(event: ReplicationEvent) -> Event {
    match event {
        ReplicationEvent::KeepAlive { wal_end, reply_requested, server_time_micros } => {
            Event::KeepAlive { end: wal_end.0, time: server_time_micros, reply: reply_requested }
        }
        ReplicationEvent::Begin { final_lsn, xid, commit_time_micros } => Event::Begin { end: final_lsn.0, time: commit_time_micros, xid },
        ReplicationEvent::XLogData { wal_start, wal_end, server_time_micros, data } => {
            Event::Other { start: wal_start.0, end: wal_end.0, time: server_time_micros, data: data.to_vec() }
        }
        ReplicationEvent::Commit { lsn, end_lsn, commit_time_micros } => Event::Commit { position: lsn.0, end: end_lsn.0, time: commit_time_micros },
        ReplicationEvent::Message { transactional, lsn, prefix, content } => {
            Event::Message { flag: transactional, position: lsn.0, prefix: prefix.into_bytes(), content: content.to_vec() }
        }
        ReplicationEvent::StoppedAt { reached } => Event::StoppedAt { reached: reached.0 },
    }
}

fn metrics_of(m: &ReplicationMetrics) -> Metrics {
    [
        m.events_forwarded(),
        m.feedback_sent(),
        m.keepalive_replies(),
        m.stall_count(),
        m.stall_micros_total(),
        m.last_applied_lsn().0,
        m.last_wal_end().0,
    ]
}

fn config_of(s: &Scenario, wire: &Arc<Mutex<Wire>>) -> ReplicationConfig {
    let mut config = ReplicationConfig::new("h", "u", "p", "d", s.slot.as_str(), s.publications.clone())
        .with_start_lsn(Lsn(s.query))
        .with_ack_lsn(Lsn(s.start))
        .with_status_interval(Duration::from_millis(s.status))
        .with_wakeup_interval(Duration::from_millis(s.idle))
        .with_buffer_size(s.queue)
        .with_binary(s.binary)
        .with_max_message_size(s.limit as usize);
    if let Some(stop) = s.stop_at {
        config = config.with_stop_lsn(Lsn(stop));
    }
    if s.timing {
        let wire = wire.clone();
        config = config.with_feedback_observer(FeedbackObserver::new(move |sent| {
            wire.lock().unwrap().note_call(Line::Waited(sent.pending_for.as_nanos() as u64));
        }));
    }
    config
}

fn paused() -> Runtime {
    Builder::new_current_thread().enable_time().start_paused(true).build().expect("a runtime")
}

/// The Rust keeps one origin of its clock for the whole process; it is fixed here, before any clock was moved on.
fn fix_origin() {
    static FIXED: Once = Once::new();
    FIXED.call_once(|| paused().block_on(async { SharedProgress::with_timing(Lsn(0), true).update_applied(Lsn(1)) }));
}

#[derive(Default)]
pub struct Original {
    /// The text of the error that ended the last run.
    pub said: Option<String>,
    /// The number with which the last run ended.
    pub ended: Option<u8>,
    /// The stream hands over the next piece at once, where one is there: outside the domain of the comparison.
    pub at_once: bool,
    /// What a message to the server takes to write, and whether none can be written: nothing and false in the domain of the comparison.
    pub write_takes: Duration,
    pub write_fails: bool,
}

impl Side for Original {
    fn name(&self) -> &'static str {
        "rust"
    }

    fn run(&mut self, scenario: &Scenario, _client_times: &[i64]) -> Trace {
        fix_origin();
        let trace = paused().block_on(self.play(scenario));
        self.ended = trace.end();
        trace
    }
}

/// The Rust once more, with client times that it was handed in the place of its own.
#[derive(Default)]
pub struct Copied(Original);

impl Side for Copied {
    fn name(&self) -> &'static str {
        "rust again"
    }

    fn run(&mut self, scenario: &Scenario, client_times: &[i64]) -> Trace {
        let mut trace = self.0.run(scenario, &[]);
        let mut times = client_times.iter();
        for (_, line) in &mut trace.lines {
            if let Line::Write(bytes) = line {
                if client_time(bytes).is_some() {
                    put_client_time(bytes, times.next().copied().unwrap_or(0));
                }
            }
        }
        trace
    }
}

impl Original {
    async fn play(&mut self, s: &Scenario) -> Trace {
        let begun = Instant::now();
        let metrics = Arc::new(ReplicationMetrics::default());
        let progress = Arc::new(SharedProgress::with_timing(Lsn(s.start), s.timing));
        let (stop, stop_seen) = watch::channel(false);
        let (out, queue) = mpsc::channel(s.queue);
        let wire = Wire {
            begun,
            pieces: VecDeque::from([(AUTHENTICATED.to_vec(), false)]),
            ended: false,
            rests: false,
            at_once: self.at_once,
            write_takes: self.write_takes,
            writing: None,
            write_fails: self.write_fails,
            reading: None,
            // The startup message, and where the run is open its query.
            unnoted: if s.open { 2 } else { 1 },
            metrics: metrics.clone(),
            forwarded: 0,
            notes: Vec::new(),
            calls: 0,
            during: VecDeque::new(),
            passed: false,
            stop,
            progress: progress.clone(),
            files: Files::new(s.start),
            queue,
            filling: out.clone(),
            taken: VecDeque::new(),
        };
        let wire = Arc::new(Mutex::new(wire));
        let state = WorkerState::new(config_of(s, &wire), progress, stop_seen, out, metrics);
        self.play_rounds(s, wire, state).await
    }

    async fn play_rounds(&mut self, s: &Scenario, wire: Arc<Mutex<Wire>>, mut state: WorkerState) -> Trace {
        let begun = wire.lock().unwrap().begun;
        let metrics = wire.lock().unwrap().metrics.clone();
        let mut stream = Stream(wire.clone());
        let mut worker = Worker::new(state.run_on_stream(&mut stream), wire.clone());
        let mut trace = Trace::default();

        worker.settle().await;
        for (i, round) in s.rounds.iter().enumerate() {
            worker.until(begun + Duration::from_millis(round.at)).await;
            if worker.outcome.is_some() {
                break;
            }
            {
                let mut wire = wire.lock().unwrap();
                if s.open && i == 0 {
                    wire.pieces.push_back((accepted(), false));
                    wire.arrived();
                }
                round.what.iter().for_each(|what| wire.happen(what));
                (wire.calls, wire.during) = (0, round.during.clone().into());
            }
            worker.settle().await;
            trace.metrics.push(metrics_of(&metrics));
        }
        self.said = worker.outcome.as_ref().and_then(|o| o.as_ref().err()).map(|e| e.to_string());
        drop(worker);
        trace.lines = wire.lock().unwrap().lines();
        trace
    }
}
