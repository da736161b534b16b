//! A run, read off SCOPE 6 (01, "Events and confirmations"): one function for each row of the step table. What a row's tests found is counted
//! (coverage.rs).

use crate::coverage::{seen, seen_in};
use crate::protocol::{boundary_of, copy_data_of, framed, Boundary, CopyData, Reader, Told};
use crate::shared::{display, hex};
use std::collections::VecDeque;

pub const MOST_INTERVAL: u64 = 86_400_000_000_000;
pub const MOST_MOMENT: u64 = 9_223_372_036_854_775_807;

#[derive(Clone, Debug)]
pub struct Settings {
    pub status: u64,
    pub idle: u64,
    pub limit: u64,
    pub stop_at: Option<u64>,
    pub timing: bool,
    pub binary: bool,
}

#[derive(Clone, Copy, PartialEq, Debug)]
pub enum State {
    Opening,
    Turn,
    Drain,
    Reading,
    Waiting,
    Handling,
    Offering,
    Ended,
}

#[derive(Clone, Copy, PartialEq, Debug)]
pub enum Queue {
    Free,
    Full,
    Closed,
}

/// Parts are kept as bytes: an offer leaves the payload as it was.
#[derive(Clone, Debug, PartialEq)]
pub enum Event {
    KeepAlive { end: u64, time: i64, reply: bool },
    Begin { end: u64, time: i64, xid: u32 },
    Commit { position: u64, end: u64, time: i64 },
    Message { flag: bool, position: u64, prefix: Vec<u8>, content: Vec<u8> },
    Other { start: u64, end: u64, time: i64, data: Vec<u8> },
    StoppedAt { reached: u64 },
}

impl Event {
    /// A script's spelling.
    pub fn line(&self) -> String {
        match self {
            Event::KeepAlive { end, time, reply } => format!("K {} {} {}", display(*end), time, *reply as u8),
            Event::Begin { end, time, xid } => format!("B {} {} {}", display(*end), time, xid),
            Event::Commit { position, end, time } => format!("C {} {} {}", display(*position), display(*end), time),
            Event::Message { flag, position, prefix, content } => {
                format!("M {} {} {} {}", *flag as u8, display(*position), hex(prefix), hex(content))
            }
            Event::Other { start, end, time, data } => format!("X {} {} {} {}", display(*start), display(*end), time, hex(data)),
            Event::StoppedAt { reached } => format!("S {}", display(*reached)),
        }
    }
}

pub struct Input<'a> {
    pub moment: u64,
    pub client_time: i64,
    pub stop: bool,
    pub queue: Queue,
    pub unread: &'a [u8],
    pub ended: bool,
}

#[derive(Default)]
pub struct Answer {
    pub refusal: u8,
    pub taken: usize,
    pub written: usize,
    pub waited: Option<u64>,
    pub event: Option<Event>,
}

/// What a step is lent, and what it answers so far.
struct Call<'a> {
    input: &'a Input<'a>,
    payload: &'a mut [u8],
    out: &'a mut [u8],
    answer: Answer,
}

impl Call<'_> {
    fn write(&mut self, message: &[u8]) {
        assert_eq!(self.answer.written, 0, "a step writes one message at most");
        self.out[..message.len()].copy_from_slice(message);
        self.answer.written = message.len();
    }
}

#[derive(Default)]
pub struct Metrics {
    pub events: u64,
    pub statuses: u64,
    pub replies: u64,
    pub stalls: u64,
    pub stall_micros: u64,
    pub last_applied: u64,
    pub last_wal_end: u64,
}

/// The last status: the position it confirmed and its moment.
struct Sent {
    position: u64,
    at: u64,
}

pub struct Run {
    settings: Settings,
    pub state: State,
    reader: Reader,
    last_moment: u64,
    start: u64,
    /// Every report that was not refused: its file and its position.
    reports: Vec<(u64, u64)>,
    signalled: bool,
    stored: u64,
    sent: Option<Sent>,
    drained: usize,
    pending: bool,
    wait_began: u64,
    tag: u8,
    length: usize,
    from_wait: bool,
    offers: VecDeque<Event>,
    stall_began: Option<u64>,
    pub metrics: Metrics,
    /// wal_end of the last `w` or `k` that was handled without refusal.
    server: u64,
}

/// The query that opens a run.
pub fn query(settings: &Settings, slot: &[u8], publications: &[Vec<u8>], position: u64) -> Vec<u8> {
    let names = publications.join(&b',').iter().flat_map(|c| vec![*c; if *c == b'\'' { 2 } else { 1 }]).collect::<Vec<u8>>();
    let position = display(position);
    let binary: &[u8] = if settings.binary { b", binary 'true'" } else { b"" };
    let text: [&[u8]; 9] = [
        b"START_REPLICATION SLOT ",
        slot,
        b" LOGICAL ",
        position.as_bytes(),
        b" (proto_version '1', publication_names '",
        &names,
        b"', messages 'true'",
        binary,
        b")\0",
    ];
    framed(b'Q', &text.concat())
}

pub fn intervals_refused(settings: &Settings) -> bool {
    settings.status > MOST_INTERVAL || settings.idle > MOST_INTERVAL
}

impl Run {
    pub fn new(settings: Settings, start: u64, state: State) -> Run {
        Run {
            reader: Reader::new(settings.limit),
            settings,
            state,
            last_moment: 0,
            start,
            reports: Vec::new(),
            signalled: false,
            stored: 0,
            sent: None,
            drained: 0,
            pending: false,
            wait_began: 0,
            tag: 0,
            length: 0,
            from_wait: false,
            offers: VecDeque::new(),
            stall_began: None,
            metrics: Metrics::default(),
            server: 0,
        }
    }

    /// The service page, with a note of what it shows.
    pub fn page(&self) -> String {
        seen(&format!("page: {:?}", self.state));
        seen(if self.sent.is_some() { "page: a status was sent" } else { "page: before the first status" });
        if self.server != self.metrics.last_wal_end {
            seen("page: SERVER is not last_wal_end");
        }
        let sent = self.sent.as_ref().map_or("-".to_string(), |sent| display(sent.position));
        let lines = [
            ("POSITION", display(self.position())),
            ("SENT", sent),
            ("SERVER", display(self.server)),
            ("EVENTS", self.metrics.events.to_string()),
            ("STALLS", self.metrics.stalls.to_string()),
            ("STATE", format!("{:?}", self.state).to_uppercase()),
        ];
        lines.map(|(label, value)| format!("{label:<12}{value:>20}\n")).concat()
    }

    /// The largest of the start and a file's reports.
    fn reached(&self, file: u64) -> u64 {
        self.reports.iter().filter(|(f, _)| *f == file).map(|(_, position)| *position).fold(self.start, u64::max)
    }

    /// What a status would confirm: the smallest of the four files.
    pub fn position(&self) -> u64 {
        (0..4).map(|file| self.reached(file)).min().unwrap()
    }

    /// A file's report, and its refusal. There is a signal, and a moment to store, only where the smallest of the four rises.
    pub fn report(&mut self, file: u64, position: u64, moment: u64) -> u8 {
        if self.state == State::Ended {
            seen(if file > 3 { "report of no file on an ended run" } else { "report on an ended run" });
        }
        if file > 3 {
            seen("report of no file");
            return 31;
        }
        let (reached, before) = (self.reached(file), self.position());
        self.reports.push((file, position));
        let now = self.position();
        if now > before {
            seen(if now < position { "report that raises to another file" } else { "report that raises" });
            self.raised(moment);
        } else if position > reached {
            seen(if reached > before { "report of a file that is ahead" } else { "report of a file that is not alone behind" });
        } else {
            seen(if position == reached { "report of the same position" } else { "report of a lower position" });
        }
        0
    }

    fn raised(&mut self, moment: u64) {
        self.signalled = true;
        if self.settings.timing {
            seen(if self.stored != 0 {
                "report with a moment stored"
            } else if moment == 0 {
                "report that stores none"
            } else {
                "report that stores"
            });
            if self.stored == 0 {
                self.stored = moment;
            }
        }
    }

    /// Refusals 2 to 5.
    fn turned_back(&self, input: &Input, payload: usize, out: usize) -> Option<u8> {
        let limit = self.settings.limit.min(1_073_741_824) as usize;
        let moment = input.moment;
        let outside = moment == 0 || moment > MOST_MOMENT;
        let tests = [(2, self.state == State::Ended), (3, payload < limit), (4, out < 39), (5, outside || moment < self.last_moment)];
        let applying: Vec<u8> = tests.iter().filter(|t| t.1).map(|t| t.0).collect();
        if applying.len() > 1 {
            seen(["refusal 2 before 3", "refusal 3 before 4", "refusal 4 before 5"][applying[0] as usize - 2]);
        }
        if applying == [5] {
            seen(if moment == 0 {
                "moment 0"
            } else if outside {
                "moment above its range"
            } else {
                "moment before the last"
            });
        }
        applying.first().copied()
    }

    pub fn step(&mut self, input: &Input, payload: &mut [u8], out: &mut [u8]) -> Answer {
        let mut call = Call { input, payload, out, answer: Answer::default() };
        if let Some(n) = self.turned_back(input, call.payload.len(), call.out.len()) {
            seen_in("refusal", n);
            seen(&format!("{:?}: turned back with {n}", self.state));
            call.answer.refusal = n;
            return call.answer;
        }
        if input.moment == self.last_moment {
            seen("moment equal to the last");
        }
        self.last_moment = input.moment;
        let before = self.state;
        let done = match self.state {
            State::Opening => self.opening(&mut call),
            State::Turn => self.turn(&mut call),
            State::Drain => self.drain(&mut call),
            State::Reading => self.reading(&mut call),
            State::Waiting => self.waiting(&mut call),
            State::Handling => self.handling(&mut call),
            State::Offering => self.offering(&mut call),
            State::Ended => Err(2),
        };
        if let Err(n) = done {
            seen_in("refusal", n);
            seen(&format!("{before:?}: refusal {n}"));
            call.answer.refusal = n;
            self.state = State::Ended;
        }
        call.answer
    }

    // ---- what several states do

    /// Takes of the unread bytes what the message lacks; whether it is whole now.
    fn read(&mut self, call: &mut Call) -> Result<bool, u8> {
        let begun = self.reader.header.len();
        let (told, taken) = self.reader.read(call.input.unread, call.input.ended, call.payload);
        call.answer.taken = taken;
        if begun > 0 && begun < 5 && taken > 0 {
            seen("read: a header begun before goes on");
        }
        if begun == 5 && taken > 0 {
            seen("read: a payload begun before goes on");
        }
        match told {
            Told::More => Ok(false),
            Told::Whole(tag, n) => {
                (self.tag, self.length) = (tag, n);
                Ok(true)
            }
            Told::Refused(n) => Err(n),
        }
    }

    fn status(&mut self, call: &mut Call, reply: u8) {
        let position = self.position().to_be_bytes();
        let body = [&b"r"[..], &position, &position, &position, &call.input.client_time.to_be_bytes(), &[reply]].concat();
        call.write(&framed(b'd', &body));
        let rises = self.sent.as_ref().is_none_or(|sent| self.position() > sent.position);
        if self.settings.timing {
            call.answer.waited = self.waited(rises, call.input.moment);
        }
        self.sent = Some(Sent { position: self.position(), at: call.input.moment });
        self.metrics.statuses = self.metrics.statuses.wrapping_add(1);
        self.metrics.last_applied = self.position();
    }

    fn waited(&mut self, rises: bool, moment: u64) -> Option<u64> {
        if !rises {
            // a stored moment would stay, but a moment is stored only with a rise
            assert_eq!(self.stored, 0);
            seen("timing: no rise");
            return None;
        }
        if self.stored == 0 {
            seen("timing: a rise, none stored");
            return None;
        }
        let stored = std::mem::take(&mut self.stored);
        seen(if stored > moment { "timing: the stored moment lies ahead" } else { "timing: a waiting time" });
        seen(if self.sent.is_none() { "timing: told by the first status" } else { "timing: told by a later status" });
        Some(moment.saturating_sub(stored))
    }

    fn copy_done(&mut self, call: &mut Call) {
        call.write(&framed(b'c', &[]));
        self.state = State::Ended;
    }

    /// No status yet, or its interval passed.
    fn due(&self, moment: u64) -> bool {
        self.sent.as_ref().is_none_or(|sent| moment - sent.at >= self.settings.status)
    }

    /// With its events gone, or with none, the message is done.
    fn go_back(&mut self) {
        seen(if self.from_wait { "back to turn" } else { "back to drain" });
        self.state = if self.from_wait { State::Turn } else { State::Drain };
    }

    // ---- the rows of the table

    fn opening(&mut self, call: &mut Call) -> Result<(), u8> {
        if !self.read(call)? {
            seen("Opening: unfinished");
            return Ok(());
        }
        match self.tag {
            b'W' => {
                seen("Opening: W");
                self.state = State::Turn;
                Ok(())
            }
            b'E' => Err(19),
            _ => {
                seen("Opening: skipped");
                Ok(())
            }
        }
    }

    fn turn(&mut self, call: &mut Call) -> Result<(), u8> {
        let first = self.sent.is_none();
        if self.due(call.input.moment) {
            seen(if first { "Turn: first status" } else { "Turn: interval passed" });
            self.status(call, 0);
        } else {
            seen("Turn: interval not passed");
        }
        self.drained = 0;
        self.state = State::Drain;
        Ok(())
    }

    fn drain(&mut self, call: &mut Call) -> Result<(), u8> {
        let unread = call.input.unread.len();
        if self.drained < 256 && unread >= 5 {
            self.seen_draining(call, unread);
            self.state = State::Reading;
            return Ok(());
        }
        if self.drained > 0 {
            seen(if self.drained == 256 && unread >= 5 { "Drain: 256 drained" } else { "Drain: some drained, too few bytes" });
            seen(if call.input.stop { "Drain: some drained, stop" } else { "Drain: some drained, no stop" });
            if call.input.stop {
                self.copy_done(call);
            } else {
                self.state = State::Turn;
            }
            return Ok(());
        }
        if call.input.stop {
            seen("Drain: none drained, stop not looked at");
        }
        if unread == 4 {
            seen("Drain: none drained, 4 bytes");
        }
        self.signalled = false;
        self.pending = self.sent.as_ref().is_none_or(|sent| self.position() > sent.position);
        seen(if self.pending { "Drain: wait, pending" } else { "Drain: wait, not pending" });
        self.wait_began = call.input.moment;
        self.state = State::Waiting;
        Ok(())
    }

    fn seen_draining(&self, call: &Call, unread: usize) {
        seen("Drain: read");
        if unread == 5 {
            seen("Drain: read, exactly 5 bytes");
        }
        if self.drained == 255 {
            seen("Drain: read, 255 drained");
        }
        if call.input.stop && self.drained > 0 {
            seen("Drain: stop between two messages");
        }
    }

    fn reading(&mut self, call: &mut Call) -> Result<(), u8> {
        if !self.read(call)? {
            seen("Reading: unfinished");
            if call.input.stop {
                seen("Reading: stop not looked at");
            }
            if self.due(call.input.moment) {
                seen("Reading: interval not looked at");
            }
            return Ok(());
        }
        seen("Reading: whole");
        self.drained += 1;
        self.from_wait = false;
        self.state = State::Handling;
        Ok(())
    }

    fn waiting(&mut self, call: &mut Call) -> Result<(), u8> {
        self.seen_waiting(call);
        let moment = call.input.moment;
        if call.input.stop {
            seen("Waiting: stop");
            self.copy_done(call);
            return Ok(());
        }
        if self.pending && self.due(moment) {
            seen("Waiting: pending, interval passed");
            self.status(call, 0);
            self.state = State::Turn;
            return Ok(());
        }
        if !self.pending && self.signalled {
            seen("Waiting: signalled");
            self.state = State::Turn;
            return Ok(());
        }
        let readable = !call.input.unread.is_empty() || call.input.ended;
        if readable && self.read(call)? {
            seen("Waiting: whole");
            self.from_wait = true;
            self.state = State::Handling;
            return Ok(());
        }
        if moment - self.wait_began >= self.settings.idle {
            seen(if readable { "Waiting: unfinished, idle passed" } else { "Waiting: nothing to read, idle passed" });
            self.status(call, 0);
            self.state = State::Turn;
        } else {
            seen(if readable { "Waiting: unfinished, stays" } else { "Waiting: nothing to read, stays" });
        }
        Ok(())
    }

    /// Where two tests of a wait apply at once, the upper one counts.
    fn seen_waiting(&self, call: &Call) {
        let input = call.input;
        let idle = input.moment - self.wait_began >= self.settings.idle;
        let tests = [
            ("stop", input.stop),
            ("pending", self.pending && self.due(input.moment)),
            ("signalled", !self.pending && self.signalled),
            ("bytes", !input.unread.is_empty()),
            ("end", input.unread.is_empty() && input.ended),
            ("idle", idle),
        ];
        let applying: Vec<&str> = tests.iter().filter(|t| t.1).map(|t| t.0).collect();
        for (i, upper) in applying.iter().enumerate() {
            for lower in &applying[i + 1..] {
                seen(&format!("Waiting: {upper} before {lower}"));
            }
        }
        if self.pending && self.signalled && !self.due(input.moment) {
            seen("Waiting: pending, signalled, interval not passed");
        }
        let broken_off = input.stop || applying.first().is_some_and(|t| ["pending", "signalled"].contains(t));
        if broken_off && !self.reader.header.is_empty() {
            seen(if self.reader.header.len() < 5 { "Waiting: broken off in a header" } else { "Waiting: broken off in a payload" });
        }
    }

    /// Where the server's CopyDone was read, and what could have been looked at and is not.
    fn note_copy_done(&self, input: &Input) {
        seen(if self.from_wait { "Handling: CopyDone, read in a wait" } else { "Handling: CopyDone, drained" });
        let ignored = [
            ("stop", input.stop),
            ("queue full", matches!(input.queue, Queue::Full)),
            ("queue closed", matches!(input.queue, Queue::Closed)),
            ("interval passed", self.due(input.moment)),
            ("position above the last sent", self.sent.as_ref().is_none_or(|sent| self.position() > sent.position)),
        ];
        ignored.iter().filter(|test| test.1).for_each(|test| seen(&format!("Handling: CopyDone, {}", test.0)));
    }

    fn handling(&mut self, call: &mut Call) -> Result<(), u8> {
        match self.tag {
            b'E' => return Err(19),
            b'c' => {
                self.note_copy_done(call.input);
                self.copy_done(call);
                return Ok(());
            }
            b'd' => {}
            _ => {
                seen("Handling: skipped");
                self.go_back();
                return Ok(());
            }
        }
        let payload = call.payload[..self.length].to_vec();
        let event = match copy_data_of(&payload)? {
            CopyData::KeepAlive { end, time, reply } => {
                self.metrics.last_wal_end = end;
                seen(if reply { "Handling: keepalive, reply asked" } else { "Handling: keepalive" });
                if reply {
                    self.status(call, 1);
                    self.metrics.replies = self.metrics.replies.wrapping_add(1);
                }
                if self.settings.stop_at.is_some_and(|stop| end >= stop) {
                    seen("stop position: keepalive at or above goes on");
                }
                self.server = end;
                Event::KeepAlive { end, time, reply }
            }
            CopyData::XLogData { start, end, time, data } => {
                self.metrics.last_wal_end = end;
                return self.handle_data(start, end, time, data);
            }
        };
        self.offers = VecDeque::from([event]);
        self.stall_began = None;
        self.state = State::Offering;
        Ok(())
    }

    fn handle_data(&mut self, start: u64, wal_end: u64, time: i64, data: &[u8]) -> Result<(), u8> {
        let (event, reached, name) = match boundary_of(data)? {
            Boundary::Begin { end, time, xid } => (Event::Begin { end, time, xid }, end, "Begin"),
            Boundary::Commit { position, end, time } => {
                if self.settings.stop_at.is_some_and(|stop| position >= stop && end < stop) {
                    seen("stop position: Commit's first position at or above, its end below");
                }
                (Event::Commit { position, end, time }, end, "Commit")
            }
            Boundary::Message { flag, position, prefix, content } => {
                (Event::Message { flag, position, prefix: prefix.to_vec(), content: content.to_vec() }, wal_end, "Message")
            }
            Boundary::None => (Event::Other { start, end: wal_end, time, data: data.to_vec() }, wal_end, "other data"),
        };
        seen(&format!("Handling: {name}"));
        self.server = wal_end;
        self.offers = VecDeque::from([event]);
        if let Some(stop) = self.settings.stop_at {
            let how = if reached == stop {
                "at"
            } else if reached > stop {
                "above"
            } else if reached + 1 == stop {
                "one below"
            } else {
                "below"
            };
            seen(&format!("stop position: {name} {how}"));
            if reached >= stop {
                self.offers.push_back(Event::StoppedAt { reached });
            }
        }
        self.stall_began = None;
        self.state = State::Offering;
        Ok(())
    }

    fn offering(&mut self, call: &mut Call) -> Result<(), u8> {
        let what = if matches!(self.offers[0], Event::StoppedAt { .. }) { "StoppedAt" } else { "event" };
        let moment = call.input.moment;
        let first = self.stall_began.is_none();
        let found = format!("Offering {what}: {}", if first { "first try" } else { "stalled" });
        let queue = call.input.queue;
        if first && queue != Queue::Full {
            seen(&format!("{found}, {queue:?}{}", if call.input.stop { ", stop not looked at" } else { "" }));
            self.gone(call);
            return Ok(());
        }
        let began = *self.stall_began.get_or_insert(moment);
        if first {
            self.metrics.stalls = self.metrics.stalls.wrapping_add(1);
        }
        if call.input.stop {
            seen(&format!("{found}, {queue:?}, stop"));
            self.copy_done(call);
        } else if queue != Queue::Full {
            seen(&format!("{found}, {queue:?}"));
            self.metrics.stall_micros = self.metrics.stall_micros.wrapping_add((moment - began) / 1000);
            self.gone(call);
        } else if self.due(moment) {
            seen(&format!("{found}, Full, interval passed"));
            self.status(call, 0);
        } else {
            seen(&format!("{found}, Full, stays"));
        }
        Ok(())
    }

    /// The event is handed on or dropped; what comes next.
    fn gone(&mut self, call: &mut Call) {
        self.stall_began = None;
        let event = self.offers.pop_front().unwrap();
        let last = matches!(event, Event::StoppedAt { .. });
        if call.input.queue == Queue::Free {
            self.metrics.events = self.metrics.events.wrapping_add(1);
            call.answer.event = Some(event);
        }
        if last {
            self.copy_done(call);
        } else if self.offers.is_empty() {
            self.go_back();
        }
    }
}
