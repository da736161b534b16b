//! One connection's stream: bytes go into the run, what it writes is sent, its events go to the output.
use crate::ack::Acks;
use crate::failure::{tell, Failure, FAILED};
use crate::ffi;
use crate::link::Link;
use crate::output::Output;
use crate::progress::{self, Progress, Standing};
use crate::startup::Talk;
use rufflesquash::{Event, Input, Lsn, Moment, NextStep, Refusal, Run, Settings, State, PAGE, STEP_OUTPUT};
use std::io::{self, Write};
use std::time::{Duration, Instant, SystemTime, UNIX_EPOCH};

const PIECE: usize = 262_144;
/// So many steps are made at one moment of the clock while bytes are there.
const STEPS: u32 = 256;
/// A busy server sends message by message, and each would wake us. Where nothing was left to read so many times in less than so many microseconds, with
/// so many bytes a microsecond but less than so many in all, the next times make a pause in which more comes together.
const TIMES: u32 = 16;
const BUSY: u128 = 32_000;
const RATE: usize = 1;
const ENOUGH: usize = 1_048_576;
const GATHER: Duration = Duration::from_millis(1);
/// How long a stop waits for the output and the acknowledgements, and then for the server.
pub const CLOSING: Duration = Duration::from_secs(5);
/// The first pause in reading, so that the server cannot send; each further one is twice as long.
const FILLING: Duration = Duration::from_millis(500);
/// After so long the user is told what a stop waits for.
const PATIENCE: Duration = Duration::from_secs(1);

/// The host's clocks: moments for the run, the date for statuses.
#[derive(Clone, Copy)]
pub struct Clock(Instant);

impl Clock {
    pub fn start() -> Clock {
        Clock(Instant::now())
    }

    fn now(&self) -> Moment {
        Moment(self.0.elapsed().as_nanos() as u64 + 1)
    }

    // Microseconds from 2000-01-01; a clock that stands before 1970 is taken for 1970.
    fn client_time_micros() -> i64 {
        let since = SystemTime::now().duration_since(UNIX_EPOCH).unwrap_or_default();
        since.as_micros() as i64 - 946_684_800_000_000
    }
}

/// What is told at the end.
#[derive(Clone, Copy, Default)]
pub struct Totals {
    pub streams: u64,
    pub events: u64,
    pub statuses: u64,
    pub stalls: u64,
    pub last_status: Option<Lsn>,
}

/// Who ended a stream that ended well.
#[derive(Clone, Copy, Debug, PartialEq)]
pub enum End {
    /// A stop request, or the stop position.
    Wanted,
    /// No acknowledgement can come any more.
    Unacknowledged,
    /// The server, with its CopyDone.
    Server,
}

/// What a stream uses that lasts longer than it.
pub struct Host<'a> {
    pub output: &'a mut Output,
    pub acks: Option<&'a Acks>,
    pub progress: Option<&'a mut Progress>,
    pub totals: &'a mut Totals,
    pub clock: Clock,
    pub slot: &'a str,
    /// Whether keepalives are printed, so that they can be acknowledged.
    pub keepalives: bool,
    /// Whether other keepalives count, too, once all that was printed is acknowledged.
    pub ack_idle: bool,
    pub verbose: bool,
    /// After how long a silent server is given up; none where it never is.
    pub server_timeout: Option<Duration>,
}

impl Host<'_> {
    // Prints an event. What it is acknowledged by is known before it can be read.
    fn take(&mut self, event: Event) -> Result<(), Failure> {
        if let Some(acks) = self.acks {
            match event {
                Event::Commit { end_lsn, .. } => acks.printed(end_lsn),
                Event::KeepAlive { .. } if self.output.in_transaction() => {}
                Event::KeepAlive { wal_end, .. } if self.keepalives => acks.printed(wal_end),
                Event::KeepAlive { wal_end, .. } if self.ack_idle => acks.passed(wal_end),
                Event::Message { .. } => acks.message(),
                _ => {}
            }
        }
        self.output.take(event).map_err(|why| Failure::new(FAILED, why))
    }
}

/// Up to where each of the four files is done: acknowledged where that is asked for, else written.
pub fn done(output: &Output, acks: Option<&Acks>) -> [Lsn; Run::FILES as usize] {
    acks.map_or_else(|| [output.position(); Run::FILES as usize], Acks::done)
}

/// Follows one connection.
pub struct Session<'a> {
    link: Link<'a>,
    settings: Settings,
    run: Run,
    payload: &'a mut [u8],
    host: Host<'a>,
    input: Vec<u8>,
    at: usize,
    filled: usize,
    // Whether the last step took bytes or had an event.
    moved: bool,
    // Whether a keepalive has reached the end position: what lies behind it is not printed.
    reached: bool,
    ended: bool,
    // Why the host itself ends the stream: a keepalive has reached the end position, or no acknowledgement can come.
    stop: Option<End>,
    end: End,
    reported: [Lsn; Run::FILES as usize],
    // When a status was sent within a message, where the run sends none.
    within: Moment,
    // When bytes last came, or were not waited for, and whether the server was asked for an answer since.
    heard: Instant,
    asked: bool,
    gather: Gather,
    // The clocks, as they were when they were last looked at.
    now: Moment,
    client_time_micros: i64,
}

/// How often nothing was left to read, and what came meanwhile.
struct Gather {
    since: Instant,
    times: u32,
    bytes: usize,
    came: bool,
    pauses: bool,
}

impl Gather {
    fn came(&mut self, bytes: usize) {
        self.bytes += bytes;
        self.came = true;
    }

    // Nothing is left to read. Whether a pause was made in which something may have come.
    fn pause(&mut self) -> bool {
        self.times += 1;
        if self.times == TIMES {
            let micros = self.since.elapsed().as_micros();
            self.pauses = micros < BUSY && self.bytes >= RATE * micros as usize && self.bytes < ENOUGH;
            (self.since, self.times, self.bytes) = (Instant::now(), 0, 0);
        }
        let pauses = self.pauses && std::mem::take(&mut self.came);
        if pauses {
            std::thread::sleep(GATHER);
        }
        pauses
    }
}

impl<'a> Session<'a> {
    /// The run and the query that it has already written are ready; the query is sent here.
    pub fn new(talk: Talk<'a>, settings: Settings, opened: (Run, &[u8]), payload: &'a mut [u8], host: Host<'a>) -> Result<Session<'a>, Failure> {
        let (mut link, mut input) = talk.end();
        link.send(opened.1)?;
        let filled = input.len();
        input.resize(PIECE.max(filled), 0);
        let (now, reported) = (host.clock.now(), [Lsn(0); Run::FILES as usize]);
        let (run, client_time_micros) = (opened.0, Clock::client_time_micros());
        Ok(Session {
            link,
            settings,
            run,
            payload,
            host,
            input,
            at: 0,
            filled,
            moved: false,
            reached: false,
            ended: false,
            stop: None,
            end: End::Server,
            reported,
            within: Moment(0),
            heard: Instant::now(),
            asked: false,
            gather: Gather { since: Instant::now(), times: 0, bytes: 0, came: false, pauses: false },
            now,
            client_time_micros,
        })
    }

    /// Until the stream ends: by the stop position, a stop request or the server's CopyDone well, otherwise with the failure.
    pub fn stream(&mut self) -> Result<End, Failure> {
        let result = self.steps();
        let metrics = self.run.metrics();
        let totals = &mut *self.host.totals;
        totals.streams += u64::from(self.run.last_sent().is_some());
        totals.events += metrics.events_forwarded;
        totals.statuses += metrics.feedback_sent;
        totals.stalls += metrics.stall_count;
        result.map(|()| self.end)
    }

    fn steps(&mut self) -> Result<(), Failure> {
        let mut out = [0; STEP_OUTPUT];
        loop {
            self.look_around();
            self.send_within()?;
            for _ in 0..STEPS {
                match self.step(&mut out) {
                    Ok(0) if self.moved => {}
                    Ok(written) if self.run.state() == State::Ended => {
                        self.close(&out[..written]);
                        return Ok(());
                    }
                    Ok(0) => {}
                    Ok(written) => self.send_status(&out[..written])?,
                    Err(failure) => return Err(self.close_refused(failure)),
                }
                if self.moved && self.at < self.filled {
                    continue;
                }
                match (self.stops(), self.run.state()) {
                    (Some(_), State::Opening) => return Err(Failure::cut("stopped while the stream was opened")),
                    // The run would wait for the message's end. Nothing of it was handed on, so the stream can end before it.
                    (Some(end), State::Reading) if self.at == self.filled => {
                        self.end = end;
                        let written = rufflesquash::write_copy_done(&mut out).unwrap_or(0);
                        self.close(&out[..written]);
                        return Ok(());
                    }
                    _ => {}
                }
                if self.pause()? {
                    break;
                }
            }
        }
    }

    // What the user, the clock and the consumer have to say since the last time.
    fn look_around(&mut self) {
        (self.now, self.client_time_micros) = (self.host.clock.now(), Clock::client_time_micros());
        if ffi::reopen_requested() {
            self.host.output.reopen();
        }
        if self.host.acks.is_some_and(Acks::ended) {
            self.stop = self.stop.or(Some(End::Unacknowledged));
        }
        self.report();
        if ffi::page_requested() {
            self.show_page();
        }
        if self.host.progress.is_some() {
            let (position, server) = (self.run.position(), self.run.metrics().last_wal_end);
            let standing = Standing { events: self.host.totals.events + self.run.metrics().events_forwarded, position, server };
            if let Some(progress) = self.host.progress.as_mut() {
                progress.show(&standing);
            }
        }
    }

    fn report(&mut self) {
        for (file, done) in done(self.host.output, self.host.acks).into_iter().enumerate() {
            if done > self.reported[file] {
                self.reported[file] = done;
                // The number is one of a file.
                let _ = self.run.report(file as u64, done, self.now);
            }
        }
    }

    fn show_page(&self) {
        let mut page = [0; PAGE];
        let n = self.run.page(&mut page).unwrap_or(0);
        show(&page, n);
    }

    fn stops(&self) -> Option<End> {
        if ffi::stop_requested() || self.host.output.failed() {
            Some(End::Wanted)
        } else {
            self.stop
        }
    }

    // When a status is due within a message: a server that hears nothing for long ends the stream, and the message would come anew each time.
    fn due_within(&self) -> Option<Moment> {
        let last = self.run.last_sent()?.at.max(self.within);
        (self.run.state() == State::Reading).then(|| Moment(last.0.saturating_add(self.settings.status_interval.as_nanos() as u64)))
    }

    fn send_within(&mut self) -> Result<(), Failure> {
        if self.due_within().is_none_or(|due| due > self.now) {
            return Ok(());
        }
        self.within = self.now;
        self.own_status(self.run.position(), false)
    }

    // A status that the run does not write; with whether the server is to answer it.
    fn own_status(&mut self, position: Lsn, reply: bool) -> Result<(), Failure> {
        let (mut out, limit) = ([0; STEP_OUTPUT], self.settings.max_message_size);
        let written = rufflesquash::write_status(position, Clock::client_time_micros(), reply, &mut out);
        let n = written.map_err(|refusal| Failure::refused(refusal, limit))?;
        self.link.send(&out[..n])?;
        self.confirmed(position);
        Ok(())
    }

    // Nothing is there to read. A server that is well says nothing by itself while it hears our statuses, so at half the time it is asked. How long it
    // may still be silent.
    fn bear_silence(&mut self) -> Result<Option<Duration>, Failure> {
        let Some(limit) = self.host.server_timeout else { return Ok(None) };
        let silent = self.heard.elapsed();
        if silent >= limit {
            return Err(Failure::cut(format!("the server has sent nothing for {} s (--server-timeout)", limit.as_secs_f64())));
        }
        if silent >= limit / 2 && !self.asked && self.run.last_sent().is_some() {
            self.asked = true;
            self.own_status(self.run.position(), true)?;
        }
        Ok(Some(if self.asked { limit - silent } else { (limit / 2).saturating_sub(silent).max(Duration::from_millis(1)) }))
    }

    // Up to four steps of the run; answers how many bytes are to be sent.
    fn step(&mut self, out: &mut [u8]) -> Result<usize, Failure> {
        let stop = self.stops();
        let input = Input {
            moment: self.now,
            client_time_micros: self.client_time_micros,
            stop: stop.is_some(),
            queue: self.host.output.queue(),
            ended: self.ended,
        };
        let unread = &self.input[self.at..self.filled];
        let step = self.run.advance(&input, unread, self.payload, out);
        self.at += step.taken;
        self.moved = step.taken > 0 || step.event.is_some();
        let (refusal, written) = (step.refusal, step.written);
        // A run that ends neither at a stop request nor with StoppedAt was ended by the server.
        let stopped = matches!(step.event, Some(Event::StoppedAt { .. }));
        self.end = if stopped { End::Wanted } else { stop.unwrap_or(self.end) };
        if let Some(event) = step.event.filter(|_| !self.reached) {
            let asked = matches!(event, Event::KeepAlive { reply_requested: true, .. });
            let reached = keepalive_at_end(&event, self.settings.stop_at_lsn).filter(|_| stop.is_none() && !self.host.output.in_transaction());
            self.host.take(event)?;
            // It may wait for the confirmation, as one that shuts down does.
            if asked {
                self.host.output.sync();
            }
            if let Some(reached) = reached {
                self.host.output.stopped(reached);
                self.reached = true;
                self.stop = Some(End::Wanted);
            }
        }
        match refusal {
            None => Ok(written),
            // A stream that has begun has sent a status.
            Some(Refusal::ServerError) if self.run.last_sent().is_none() => Err(Failure::server(self.run.error(self.payload).unwrap_or_default())),
            Some(Refusal::ServerError) => Err(Failure::in_stream(self.run.error(self.payload).unwrap_or_default(), self.host.slot)),
            Some(refusal) => Err(Failure::refused(refusal, self.settings.max_message_size)),
        }
    }

    fn send_status(&mut self, bytes: &[u8]) -> Result<(), Failure> {
        self.link.send(bytes)?;
        if let Some(status) = self.run.last_sent() {
            self.host.output.begun();
            self.confirmed(status.position);
        }
        Ok(())
    }

    fn confirmed(&mut self, position: Lsn) {
        if self.host.verbose && position > self.host.totals.last_status.unwrap_or_default() {
            tell(format_args!("confirmed {position}"));
        }
        self.host.totals.last_status = Some(position);
    }

    // Reads where the run takes bytes and has none, and waits where no step would move. Whether time may have passed.
    fn pause(&mut self) -> Result<bool, Failure> {
        let takes = matches!(self.run.state(), State::Opening | State::Reading | State::Waiting);
        if takes && (self.at < self.filled || self.ended) {
            return Ok(false);
        }
        if takes && self.read() {
            return Ok(true);
        }
        if !takes && self.run.next_step(self.payload.len(), self.host.output.queue()) == NextStep::AtOnce {
            return Ok(false);
        }
        // The input is used up, or the queue is full: what was gathered is written now.
        self.host.output.flush();
        if takes && self.gather.pause() && self.read() {
            return Ok(true);
        }
        let silent = if takes { self.bear_silence()? } else { None };
        if !takes {
            (self.heard, self.asked) = (Instant::now(), false);
        }
        let timeout = match self.run.next_step(self.payload.len(), self.host.output.queue()) {
            NextStep::AtOnce | NextStep::Never => return Ok(true),
            NextStep::From(moment) => Some(Duration::from_nanos(moment.0.saturating_sub(self.host.clock.now().0))),
            NextStep::OnInput => self.due_within().map(|due| Duration::from_nanos(due.0.saturating_sub(self.host.clock.now().0))),
        };
        let shown = self.host.progress.as_ref().map(|progress| progress.due());
        self.link.wait(takes, [timeout, shown, silent].into_iter().flatten().min());
        Ok(true)
    }

    fn read(&mut self) -> bool {
        let Some(n) = self.link.read(&mut self.input) else { return false };
        (self.at, self.filled, self.ended) = (0, n, n == 0);
        (self.heard, self.asked) = (Instant::now(), false);
        self.gather.came(n);
        true
    }

    // The connection is still good where the run refused what came: what is done is confirmed.
    fn close_refused(&mut self, failure: Failure) -> Failure {
        if failure.status > FAILED {
            let mut out = [0; STEP_OUTPUT];
            let written = rufflesquash::write_copy_done(&mut out).unwrap_or(0);
            self.close(&out[..written]);
        }
        failure
    }

    // The run has written its CopyDone. What the consumer is done with is confirmed before that is sent.
    fn close(&mut self, copy_done: &[u8]) {
        self.host.output.sync();
        let (begun, mut until, mut told) = (Instant::now(), Instant::now() + CLOSING, false);
        while !self.all_done() {
            // A stream that has come to its end waits for the output as long as that takes.
            if !ffi::stop_requested() && !self.host.output.settled() {
                until = Instant::now() + CLOSING;
            }
            if Instant::now() >= until {
                break;
            }
            if !told && begun.elapsed() >= PATIENCE {
                told = true;
                let what = if self.host.output.settled() { "the acknowledgement of" } else { "the output to take" };
                tell(format_args!("waiting for {what} what was printed; Ctrl-C again ends at once"));
            }
            self.link.wait(false, Some(PATIENCE.min(until.saturating_duration_since(Instant::now()))));
        }
        let done = done(self.host.output, self.host.acks).into_iter().min().unwrap_or_default();
        if let Err(failure) = self.say_goodbye(done, copy_done) {
            tell(format_args!("{failure}; what was printed last may be sent again"));
        }
    }

    // Whether nothing that was printed can be confirmed any later.
    fn all_done(&self) -> bool {
        let output = &self.host.output;
        let written = output.failed() || output.settled();
        // A consumer that is gone may have left acknowledgements behind: they are read to their end.
        self.host.acks.map_or(written, |acks| acks.ended() || written && acks.all_done())
    }

    fn say_goodbye(&mut self, done: Lsn, copy_done: &[u8]) -> Result<(), Failure> {
        let mut out = [0; STEP_OUTPUT];
        let limit = self.settings.max_message_size;
        let unwritten = |refusal| Failure::refused(refusal, limit);
        if self.host.totals.last_status.unwrap_or_default() < done {
            // An ended run sends no status any more.
            self.own_status(done, false)?;
        }
        // Within a transaction the server takes a Terminate alone for a reason to end at once; after a CopyDone it first sends the rest.
        if !self.host.output.in_transaction() {
            self.link.send(copy_done)?;
        }
        let n = rufflesquash::write_terminate(&mut out).map_err(unwritten)?;
        self.link.send(&out[..n])?;
        self.read_out();
        Ok(())
    }

    // The server closes once it has read all of that. One that is within a large transaction reads only when it cannot send, so where much comes
    // nothing is read for a while: what lies on the way fills up, and is then read to its end.
    fn read_out(&mut self) {
        let (begun, until) = (Instant::now(), Instant::now() + CLOSING);
        let (mut little, mut pause, mut told) = (PIECE, FILLING, false);
        while Instant::now() < until {
            let left = until.saturating_duration_since(Instant::now());
            match self.link.read(&mut self.input) {
                Some(0) => return,
                Some(n) if n < little => little -= n,
                Some(_) if little == 0 => {}
                None if little > 0 => self.link.wait(true, Some(left)),
                _ => {
                    little = 0;
                    std::thread::sleep(pause.min(left));
                    pause *= 2;
                }
            }
            if !told && begun.elapsed() >= PATIENCE {
                told = true;
                tell(format_args!("waiting for the server to close the connection; Ctrl-C again ends at once"));
            }
        }
    }
}

// The service page on standard error; where that cannot be written the program goes on without it.
fn show(page: &[u8], n: usize) {
    progress::clear();
    let _ = io::stderr().write_all(&page[..n]);
}

/// The page while there is no stream: what was done in all streams so far.
pub fn show_page_between(totals: &Totals, position: Lsn) {
    let sent = totals.last_status.map_or("-".to_string(), |sent| sent.to_string());
    let lines = [
        ("POSITION", position.to_string()),
        ("SENT", sent),
        ("SERVER", "-".to_string()),
        ("EVENTS", totals.events.to_string()),
        ("STALLS", totals.stalls.to_string()),
        ("STATE", "CONNECTING".to_string()),
    ];
    let page: String = lines.iter().map(|(name, value)| format!("{name:<8}{value:>24}\n")).collect();
    show(page.as_bytes(), page.len());
}

// A run never ends at a keepalive, so the host does: all before its position was sent, where no transaction is open.
fn keepalive_at_end(event: &Event, end: Option<Lsn>) -> Option<Lsn> {
    match event {
        Event::KeepAlive { wal_end, .. } => end.filter(|end| wal_end >= end).map(|_| *wal_end),
        _ => None,
    }
}
