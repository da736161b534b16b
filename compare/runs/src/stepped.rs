//! A side that is played step by step, as SCOPE 10 maps it: unread bytes are what the read buffer holds, or in a read the next piece;
//! a step is made as long as one does something, then at the next moment at which something happens or a time is up.

use crate::coverage::{Coverage, Up};
use crate::scenario::{Files, Happening, Scenario, FILES};
use crate::side::Side;
use crate::trace::{Done, Event, Line, Metrics, Trace};
use rufflesquash::{Input, Moment, Queue, State};
use std::collections::VecDeque;

#[derive(Debug)]
pub struct Answer {
    pub refusal: u8,
    pub taken: usize,
    /// The state entered or kept.
    pub state: State,
    pub written: Vec<u8>,
    pub waited: Option<u64>,
    pub event: Option<Event>,
    /// The server's error as a text, with refusal 19.
    pub error: Vec<u8>,
}

/// What the times of a scenario are to a run, in nanoseconds: how long one of them is, and the moment that 0 stands for.
#[derive(Clone, Copy)]
pub struct Clock {
    pub unit: u64,
    pub first: u64,
}

/// Milliseconds, beside the Rust. Moment 0 is a step's millisecond 1; a step takes none below.
pub const MILLISECONDS: Clock = Clock { unit: 1_000_000, first: 1_000_000 };

impl Clock {
    fn moment(&self, time: u64) -> Moment {
        Moment(self.first + time * self.unit)
    }
}

/// The calls of a run.
pub trait Steps {
    /// Begins a fresh run of the scenario's settings, its names and positions, with intervals of so many times the unit; the bytes of the query,
    /// none where it is open.
    fn begin(&mut self, scenario: &Scenario, unit: u64) -> Vec<u8>;
    fn step(&mut self, input: &Input, unread: &[u8]) -> Answer;
    /// A file's report; the number of its refusal, 0 for none.
    fn report(&mut self, file: u64, position: u64, moment: Moment) -> u8;
    /// A report for all four files.
    fn report_all(&mut self, position: u64, moment: Moment) {
        (0..FILES).for_each(|file| assert_eq!(self.report(file, position, moment), 0, "the refusal of a report"));
    }
    fn metrics(&self) -> Metrics;
}

/// Every message has 5 bytes at least and takes fewer than 20 steps: a run that makes more at one moment goes round for ever.
fn most_steps(scenario: &Scenario) -> usize {
    let pieces = scenario.rounds.iter().flat_map(|round| &round.what);
    let bytes = pieces.map(|what| if let Happening::Bytes(bytes) = what { bytes.len() } else { 0 });
    1_000 + 4 * bytes.sum::<usize>()
}

pub struct Stepped<R: Steps> {
    pub name: &'static str,
    pub run: R,
    pub clock: Clock,
    pub coverage: Coverage,
    /// Steps made, all scenarios together.
    pub steps: u64,
    /// Scenarios that left the domain of the comparison.
    pub outside: u64,
    /// Scenarios that the server's CopyDone ended.
    pub done: u64,
}

/// What the host of a run keeps beside it.
struct Host<'a> {
    scenario: &'a Scenario,
    most_steps: usize,
    client_times: &'a [i64],
    statuses: usize,
    state: State,
    held: VecDeque<u8>,
    pieces: VecDeque<&'a [u8]>,
    ended: bool,
    stop: bool,
    room: usize,
    queued: usize,
    closed: bool,
    last_status: Option<u64>,
    wait_began: u64,
    /// Calls since the round began, and what happens during later ones.
    calls: usize,
    during: VecDeque<&'a (usize, Happening)>,
    /// The position of the last status.
    confirmed: Option<u64>,
    /// Where each file is.
    files: Files,
    /// Milliseconds from the beginning.
    now: u64,
    trace: Trace,
}

impl<R: Steps> Side for Stepped<R> {
    fn name(&self) -> &'static str {
        self.name
    }

    fn run(&mut self, scenario: &Scenario, client_times: &[i64]) -> Trace {
        let query = self.run.begin(scenario, self.clock.unit);
        let mut host = Host::new(scenario, client_times);
        if !scenario.open {
            host.trace.lines.push((0, Line::Write(query)));
        }
        for (i, round) in scenario.rounds.iter().enumerate() {
            while let Some(due) = host.due().filter(|due| i > 0 && *due < round.at) {
                host.now = due;
                self.settle(&mut host);
            }
            if host.state == State::Ended {
                break;
            }
            host.now = host.now.max(round.at);
            round.what.iter().for_each(|what| self.happen(&mut host, what, false));
            (host.calls, host.during) = (0, round.during.iter().collect());
            self.settle(&mut host);
            host.trace.metrics.push(self.run.metrics());
        }
        self.coverage.sizes.scenario(scenario, &host.trace);
        self.outside += host.trace.outside.is_some() as u64;
        self.done += host.trace.done.is_some() as u64;
        host.trace
    }
}

impl<R: Steps + Default> Stepped<R> {
    pub fn new(name: &'static str) -> Self {
        Stepped { name, run: R::default(), clock: MILLISECONDS, coverage: Coverage::default(), steps: 0, outside: 0, done: 0 }
    }
}

impl<R: Steps> Stepped<R> {
    fn happen<'a>(&mut self, host: &mut Host<'a>, what: &'a Happening, inside: bool) {
        match what {
            Happening::Bytes(bytes) => host.pieces.push_back(bytes),
            Happening::End => host.ended = true,
            Happening::Stop => host.stop = true,
            Happening::Report(position) => self.report_all(host, *position, self.clock.moment(host.now)),
            Happening::ReportFrom(position, at) => self.report_all(host, *position, self.clock.moment(*at)),
            Happening::File(file, position) => {
                host.files.report(*file, *position);
                let refusal = self.run.report(*file, *position, self.clock.moment(host.now));
                assert_eq!(refusal, if *file < FILES { 0 } else { 31 }, "the refusal of a report of file {file}");
            }
            Happening::Take(n) => host.queued -= host.queued.min(*n),
            Happening::Fill(n) => host.fill(*n, inside),
            Happening::Close => host.closed = true,
            Happening::Pass(time) => host.now += time,
        }
    }

    fn report_all(&mut self, host: &mut Host, position: u64, moment: Moment) {
        host.files.report_all(position);
        self.run.report_all(position, moment);
    }

    /// What happens during the calls of a step happens after it: a step is told of the stop and the queue before it, and reports come
    /// between steps.
    fn calls(&mut self, host: &mut Host, lines: usize) {
        let made: Vec<Call> = host.trace.lines[lines..].iter().filter_map(|(_, line)| call_of(line)).collect();
        let before = host.calls;
        host.calls += made.len();
        while let Some((call, what)) = host.during.front().copied().filter(|(call, _)| *call <= host.calls) {
            host.during.pop_front();
            if host.is_inside(&made, call - before - 1, what) {
                host.trace.outside.get_or_insert(lines);
            }
            self.happen(host, what, true);
        }
        let confirmed = made.iter().find_map(|call| if let Call::Status(position) = call { Some(*position) } else { None });
        host.confirmed = confirmed.or(host.confirmed);
    }

    /// Makes steps until one does nothing.
    fn settle(&mut self, host: &mut Host) {
        for _ in 0..host.most_steps {
            if host.state == State::Ended || !self.step(host) {
                return;
            }
        }
        panic!("the run makes steps without end");
    }

    /// Makes a step; whether it did something.
    fn step(&mut self, host: &mut Host) -> bool {
        let (piece, queue, up) = (host.next_piece(), host.queue(), host.up());
        let unread: &[u8] = match piece {
            Some(piece) => piece,
            None => host.held.make_contiguous(),
        };
        let input = Input {
            moment: self.clock.moment(host.now),
            client_time_micros: host.client_times.get(host.statuses).copied().unwrap_or(0),
            stop: host.stop,
            queue,
            ended: host.ended && host.pieces.is_empty() && unread.is_empty(),
        };
        let answer = self.run.step(&input, unread);
        self.steps += 1;
        self.coverage.step(host.state, &input, unread, &answer, up);
        let lines = host.trace.lines.len();
        if let (Some(piece), true) = (piece, answer.taken > 0) {
            host.trace.lines.push((host.now, Line::Piece(piece.len())));
            host.held.extend(piece);
            host.pieces.pop_front();
        }
        // An offer to a closed queue drops an event, which does not show where StoppedAt is next.
        let offers = host.state == State::Offering && queue != Queue::Full;
        let moves = answer.taken > 0 || answer.state != host.state || !answer.written.is_empty() || offers;
        host.take_in(answer);
        self.calls(host, lines);
        moves || host.state == State::Ended
    }
}

/// A call of a step.
#[derive(PartialEq)]
enum Call {
    Piece,
    /// With the position that it confirms.
    Status(u64),
    Done,
    Told,
}

fn call_of(line: &Line) -> Option<Call> {
    match line {
        Line::Piece(_) => Some(Call::Piece),
        Line::Write(bytes) => Some(match crate::trace::client_time(bytes) {
            Some(_) => Call::Status(u64::from_be_bytes(bytes[6..14].try_into().unwrap())),
            None => Call::Done,
        }),
        Line::Waited(_) => Some(Call::Told),
        _ => None,
    }
}

impl<'a> Host<'a> {
    fn new(scenario: &'a Scenario, client_times: &'a [i64]) -> Self {
        Host {
            scenario,
            most_steps: most_steps(scenario),
            client_times,
            statuses: 0,
            state: if scenario.open { State::Turn } else { State::Opening },
            held: VecDeque::new(),
            pieces: VecDeque::new(),
            ended: false,
            stop: false,
            room: scenario.queue,
            queued: 0,
            closed: false,
            last_status: None,
            wait_began: 0,
            calls: 0,
            during: VecDeque::new(),
            confirmed: None,
            files: Files::new(scenario.start),
            now: 0,
            trace: Trace::default(),
        }
    }

    fn queue(&self) -> Queue {
        match (self.closed, self.queued < self.room) {
            (true, _) => Queue::Closed,
            (_, true) => Queue::Free,
            _ => Queue::Full,
        }
    }

    /// What is up at this moment.
    fn up(&self) -> Up {
        Up {
            status: self.last_status.is_none_or(|last| self.now - last >= self.scenario.status),
            idle: self.now - self.wait_began >= self.scenario.idle,
        }
    }

    /// The next piece, where the run reads and holds nothing unread.
    fn next_piece(&self) -> Option<&'a [u8]> {
        let reads = matches!(self.state, State::Opening | State::Reading | State::Waiting);
        self.pieces.front().copied().filter(|_| reads && self.held.is_empty())
    }

    /// Room that comes while a run waits for it is the run's: another producer gets what is left.
    fn fill(&mut self, n: usize, inside: bool) {
        let waits = self.state == State::Offering && !inside;
        if !self.closed {
            self.queued += n.min(self.room.saturating_sub(self.queued + waits as usize));
        }
    }

    /// Whether what happens during a call of a step is what the rest of the step would have to see, which nothing between steps is. Of a
    /// report: the status that follows the call confirms it, or its moment is taken as the one that the status's own position waited from.
    /// Of time: the status is sent, or the run ends, later than the step.
    fn is_inside(&self, made: &[Call], call: usize, what: &Happening) -> bool {
        if matches!(what, Happening::Pass(_)) && self.state == State::Ended {
            return true;
        }
        let Some(at) = made.iter().position(|call| matches!(call, Call::Status(_))) else { return false };
        let Call::Status(confirmed) = made[at] else { return false };
        let new = self.confirmed.is_none_or(|last| confirmed > last);
        match what {
            Happening::Report(_) | Happening::File(..) => {
                self.told(what) > confirmed && (call < at || call == at && self.scenario.timing && new && !made.contains(&Call::Told))
            }
            Happening::Pass(time) => *time > 0,
            _ => false,
        }
    }

    /// The smallest of the four files after a report.
    fn told(&self, what: &Happening) -> u64 {
        let mut files = self.files.clone();
        match what {
            Happening::Report(position) => files.report_all(*position),
            Happening::File(file, position) => _ = files.report(*file, *position),
            _ => {}
        }
        files.smallest()
    }

    fn take_in(&mut self, answer: Answer) {
        let now = self.now;
        self.held.drain(..answer.taken);
        self.trace.taken += answer.taken;
        if self.state == State::Handling && answer.state == State::Ended && answer.refusal == 0 {
            self.trace.done = Some(Done { lines: self.trace.lines.len(), rounds: self.trace.metrics.len() });
        }
        // Of a step's doings the event comes first, save in the answer to a keepalive, where it is a later step's.
        if let Some(event) = answer.event {
            self.queued += 1;
            self.trace.lines.push((now, Line::Event(event)));
        }
        if !answer.written.is_empty() {
            if crate::trace::client_time(&answer.written).is_some() {
                self.statuses += 1;
                self.last_status = Some(now);
            }
            self.trace.lines.push((now, Line::Write(answer.written)));
        }
        if let Some(time) = answer.waited {
            self.trace.lines.push((now, Line::Waited(time)));
        }
        if answer.state == State::Waiting && self.state != State::Waiting {
            self.wait_began = now;
        }
        self.state = answer.state;
        if self.state == State::Ended {
            let text = if answer.refusal == 19 { answer.error } else { Vec::new() };
            self.trace.lines.push((now, Line::End(answer.refusal, text)));
        }
    }

    /// The next moment at which a time may be up.
    fn due(&self) -> Option<u64> {
        let status = self.last_status.map(|last| last + self.scenario.status);
        let idle = Some(self.wait_began + self.scenario.idle);
        let times = match self.state {
            State::Offering => [status, None],
            State::Waiting => [status, idle],
            _ => [None, None],
        };
        times.into_iter().flatten().filter(|due| *due > self.now).min()
    }
}
