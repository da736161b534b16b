//! Which states, tests of the step table and refusals the scenarios reached, as a side that goes step by step shows it, and which sizes they had.

use crate::sizes::Sizes;
use crate::stepped::Answer;
use rufflesquash::{Input, Queue, State};
use std::collections::HashMap;

#[derive(Clone, Default)]
pub struct Coverage {
    pub sizes: Sizes,
    /// Steps that were made in a state, and runs that reached the last one.
    states: [u64; STATES.len()],
    reached: HashMap<&'static str, u64>,
    refusals: HashMap<String, u64>,
    stalled: bool,
    /// The last whole message was read in a wait.
    in_wait: bool,
}

const ROWS: &[&str] = &[
    "Opening: unfinished",
    "Opening: W",
    "Opening: skipped",
    "Turn: status",
    "Turn: no status",
    "Drain: read",
    "Drain: read, exactly 5 bytes",
    "Drain: read, stop seen",
    "Drain: 256 drained",
    "Drain: some drained, stop",
    "Drain: some drained, turn",
    "Drain: wait",
    "Drain: wait, stop seen",
    "Drain: wait, 1 to 4 bytes",
    "Reading: whole",
    "Reading: unfinished",
    "Reading: unfinished, stop seen",
    "Reading: unfinished, status interval up",
    "Waiting: stop",
    "Waiting: stop and bytes",
    "Waiting: stop and the end",
    "Waiting: status, nothing to read",
    "Waiting: status, bytes not taken",
    "Waiting: status, the end not met",
    "Waiting: status, bytes taken",
    "Waiting: signalled",
    "Waiting: signalled and bytes",
    "Waiting: signalled and the end",
    "Waiting: whole",
    "Waiting: whole, idle interval up",
    "Waiting: refusal, idle interval up",
    "Waiting: stop, idle interval up",
    "Waiting: stop, status interval up",
    "Waiting: signalled, idle interval up",
    "Waiting: pending status",
    "Waiting: idle status",
    "Waiting: status, both intervals up",
    "Waiting: not pending, status interval up",
    "Waiting: stays",
    "Waiting: stays, bytes taken",
    "Handling: skipped, to drain",
    "Handling: skipped, to turn",
    "Handling: CopyDone, drained",
    "Handling: CopyDone, read in a wait",
    "Handling: CopyDone, stop seen",
    "Handling: CopyDone, queue full",
    "Handling: CopyDone, queue closed",
    "Handling: CopyDone, status interval up",
    "Handling: event",
    "Handling: event, reply written",
    "Offering: first try, free",
    "Offering: first try, free, stop seen",
    "Offering: first try, closed",
    "Offering: first try, closed, stop seen",
    "Offering: first try, full",
    "Offering: first try, full, status",
    "Offering: first try, full, stop",
    "Offering: stalled, full",
    "Offering: stalled, full, status",
    "Offering: stalled, full, stop",
    "Offering: stalled, free",
    "Offering: stalled, free, status interval up",
    "Offering: stalled, free, stop",
    "Offering: stalled, closed",
    "Offering: stalled, closed, stop",
    "Offering: StoppedAt is next",
    "Offering: StoppedAt handed on, CopyDone",
    "Offering: StoppedAt dropped, CopyDone",
    "a waiting time",
    "a waiting time of 0",
];

const STATES: &[State] = &[State::Opening, State::Turn, State::Drain, State::Reading, State::Waiting, State::Handling, State::Offering, State::Ended];

/// Refusals that a server can provoke, by the state that meets them.
const REFUSALS: &[(State, &[u8])] = &[
    (State::Opening, &[6, 7, 8, 9, 19]),
    // A reading begins with 5 bytes there, so its header is never cut by the end.
    (State::Reading, &[6, 7, 9]),
    (State::Waiting, &[6, 7, 8, 9]),
    (State::Handling, &[10, 11, 12, 13, 14, 15, 16, 17, 18, 19]),
];

fn refusal(state: State, number: u8) -> String {
    format!("{state:?}: refusal {number}")
}

/// Which times are up.
pub struct Up {
    pub status: bool,
    /// Since the wait began.
    pub idle: bool,
}

impl Coverage {
    fn seen(&mut self, what: &'static str) {
        *self.reached.entry(what).or_insert(0) += 1;
    }

    /// A step in a state, and a run that ended.
    fn in_states(&mut self, before: State, after: State) {
        for (state, count) in STATES.iter().zip(&mut self.states) {
            *count += (*state == before || *state == State::Ended && after == State::Ended) as u64;
        }
    }

    pub fn step(&mut self, before: State, input: &Input, unread: &[u8], answer: &Answer, up: Up) {
        self.in_states(before, answer.state);
        self.times(before, answer, &up);
        if answer.state == State::Handling && before != State::Handling {
            self.in_wait = before == State::Waiting;
        }
        if answer.refusal != 0 {
            *self.refusals.entry(refusal(before, answer.refusal)).or_insert(0) += 1;
            return;
        }
        if let Some(time) = answer.waited {
            self.seen(if time == 0 { "a waiting time of 0" } else { "a waiting time" });
        }
        let status = answer.written.len() == crate::trace::STATUS;
        match before {
            State::Opening if answer.state == State::Turn => self.seen("Opening: W"),
            // A message that ends with the bytes read cannot be told from one that goes on, unless some were left.
            State::Opening if answer.taken < unread.len() => self.seen("Opening: skipped"),
            State::Opening => self.seen("Opening: unfinished"),
            State::Turn => self.seen(if status { "Turn: status" } else { "Turn: no status" }),
            State::Drain => self.drain(input.stop, unread.len(), answer),
            State::Reading if answer.state == State::Handling => self.seen("Reading: whole"),
            State::Reading => self.seen(if input.stop { "Reading: unfinished, stop seen" } else { "Reading: unfinished" }),
            State::Waiting => self.waiting(!unread.is_empty(), input.ended, answer, status),
            State::Handling if answer.state == State::Ended => self.copy_done(input, &up),
            State::Handling => {
                self.stalled = false;
                self.seen(match answer.state {
                    State::Drain => "Handling: skipped, to drain",
                    State::Turn => "Handling: skipped, to turn",
                    _ if status => "Handling: event, reply written",
                    _ => "Handling: event",
                })
            }
            State::Offering => self.offering(input, answer, status),
            State::Ended => {}
        }
    }

    fn times(&mut self, before: State, answer: &Answer, up: &Up) {
        let status = answer.written.len() == crate::trace::STATUS;
        let found = match (before, answer.state) {
            (State::Reading, State::Reading) if up.status => "Reading: unfinished, status interval up",
            (State::Waiting, State::Handling) if up.idle => "Waiting: whole, idle interval up",
            (State::Waiting, State::Ended) if up.idle && answer.refusal != 0 => "Waiting: refusal, idle interval up",
            (State::Waiting, State::Ended) if up.idle => "Waiting: stop, idle interval up",
            (State::Waiting, State::Ended) if up.status && answer.refusal == 0 => "Waiting: stop, status interval up",
            (State::Waiting, State::Turn) if up.idle && !status => "Waiting: signalled, idle interval up",
            (State::Waiting, State::Turn) if status && up.idle && up.status => "Waiting: status, both intervals up",
            (State::Waiting, State::Turn) if status && up.idle => "Waiting: idle status",
            (State::Waiting, State::Turn) if status => "Waiting: pending status",
            (State::Waiting, State::Waiting) if up.status => "Waiting: not pending, status interval up",
            (State::Offering, _) if self.stalled && up.status && answer.event.is_some() => "Offering: stalled, free, status interval up",
            _ => return,
        };
        self.seen(found);
    }

    /// The server's CopyDone, and what could have been looked at and is not.
    fn copy_done(&mut self, input: &Input, up: &Up) {
        self.seen(if self.in_wait { "Handling: CopyDone, read in a wait" } else { "Handling: CopyDone, drained" });
        let ignored = [
            ("Handling: CopyDone, stop seen", input.stop),
            ("Handling: CopyDone, queue full", input.queue == Queue::Full),
            ("Handling: CopyDone, queue closed", input.queue == Queue::Closed),
            ("Handling: CopyDone, status interval up", up.status),
        ];
        ignored.into_iter().filter(|test| test.1).for_each(|test| self.seen(test.0));
    }

    fn drain(&mut self, stop: bool, unread: usize, answer: &Answer) {
        match answer.state {
            State::Reading if unread == 5 => self.seen("Drain: read, exactly 5 bytes"),
            State::Reading if stop => self.seen("Drain: read, stop seen"),
            State::Reading => self.seen("Drain: read"),
            State::Waiting if stop => self.seen("Drain: wait, stop seen"),
            State::Waiting if unread > 0 => self.seen("Drain: wait, 1 to 4 bytes"),
            State::Waiting => self.seen("Drain: wait"),
            State::Ended => self.seen("Drain: some drained, stop"),
            _ => self.seen("Drain: some drained, turn"),
        }
        if unread >= 5 && answer.state != State::Reading {
            self.seen("Drain: 256 drained");
        }
    }

    fn waiting(&mut self, bytes: bool, end: bool, answer: &Answer, status: bool) {
        self.seen(match answer.state {
            State::Ended if bytes => "Waiting: stop and bytes",
            State::Ended if end => "Waiting: stop and the end",
            State::Ended => "Waiting: stop",
            State::Turn if status && answer.taken > 0 => "Waiting: status, bytes taken",
            State::Turn if status && bytes => "Waiting: status, bytes not taken",
            State::Turn if status && end => "Waiting: status, the end not met",
            State::Turn if status => "Waiting: status, nothing to read",
            State::Turn if bytes => "Waiting: signalled and bytes",
            State::Turn if end => "Waiting: signalled and the end",
            State::Turn => "Waiting: signalled",
            State::Handling => "Waiting: whole",
            _ if answer.taken > 0 => "Waiting: stays, bytes taken",
            _ => "Waiting: stays",
        })
    }

    fn offering(&mut self, input: &Input, answer: &Answer, status: bool) {
        let done = answer.written.len() == 5;
        let stops = done && answer.event.is_none() && input.stop && (self.stalled || input.queue == Queue::Full);
        let found = match (self.stalled, input.queue) {
            (false, Queue::Free) if input.stop => "Offering: first try, free, stop seen",
            (false, Queue::Free) => "Offering: first try, free",
            (false, Queue::Closed) if input.stop => "Offering: first try, closed, stop seen",
            (false, Queue::Closed) => "Offering: first try, closed",
            (false, Queue::Full) if stops => "Offering: first try, full, stop",
            (false, Queue::Full) if status => "Offering: first try, full, status",
            (false, Queue::Full) => "Offering: first try, full",
            (true, Queue::Free) if stops => "Offering: stalled, free, stop",
            (true, Queue::Free) => "Offering: stalled, free",
            (true, Queue::Closed) if stops => "Offering: stalled, closed, stop",
            (true, Queue::Closed) => "Offering: stalled, closed",
            (true, Queue::Full) if stops => "Offering: stalled, full, stop",
            (true, Queue::Full) if status => "Offering: stalled, full, status",
            (true, Queue::Full) => "Offering: stalled, full",
        };
        self.seen(found);
        self.stalled = input.queue == Queue::Full;
        if done && !stops {
            self.seen(if answer.event.is_some() { "Offering: StoppedAt handed on, CopyDone" } else { "Offering: StoppedAt dropped, CopyDone" });
        } else if answer.state == State::Offering && input.queue != Queue::Full {
            self.seen("Offering: StoppedAt is next");
        }
    }

    /// One line for each state, test and refusal, how often it was reached; then what was not.
    pub fn print(&self) -> (String, Vec<String>) {
        let (mut lines, mut missing) = (Vec::new(), Vec::new());
        let mut line = |what: String, count: u64| {
            lines.push(format!("{count:>12}  {what}"));
            if count == 0 {
                missing.push(what);
            }
        };
        for (state, count) in STATES.iter().zip(self.states) {
            line(format!("{state:?}"), count);
        }
        for row in ROWS {
            line(row.to_string(), self.reached.get(row).copied().unwrap_or(0));
        }
        for (state, numbers) in REFUSALS {
            for number in *numbers {
                let what = refusal(*state, *number);
                let count = self.refusals.get(&what).copied().unwrap_or(0);
                line(what, count);
            }
        }
        (lines.join("\n"), missing)
    }
}
