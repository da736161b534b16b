//! The model of `vectors/`, which was read off the specification, as a side.

use crate::rust_leaves::error_text;
use crate::scenario::Scenario;
use crate::stepped::{Answer, Stepped, Steps};
use crate::trace::{Event, Metrics, STATUS};
use rufflesquash::{Input, Moment, Queue, State};

#[derive(Default)]
pub struct Modelled {
    run: Option<model::Run>,
    pub(crate) payload: Vec<u8>,
    /// The event last handed on, with its prefix as it came.
    pub(crate) event: Option<Event>,
    /// The message being read, and the last whole one's payload: its error's text is not the model's matter.
    reading: Vec<u8>,
    whole: Vec<u8>,
}

pub fn side() -> Stepped<Modelled> {
    Stepped::new("model")
}

impl Modelled {
    fn run(&mut self) -> &mut model::Run {
        self.run.as_mut().expect("a run that was begun")
    }

    fn read(&mut self, taken: &[u8]) {
        self.reading.extend_from_slice(taken);
        let length = self.reading.get(1..5).map(|l| i32::from_be_bytes(l.try_into().unwrap()));
        if length.is_some_and(|n| n as i64 + 1 == self.reading.len() as i64) {
            self.whole = self.reading.split_off(5);
            self.reading.clear();
        }
    }
}

impl Steps for Modelled {
    fn begin(&mut self, s: &Scenario, unit: u64) -> Vec<u8> {
        let settings =
            model::Settings { status: s.status * unit, idle: s.idle * unit, limit: s.limit, stop_at: s.stop_at, timing: s.timing, binary: s.binary };
        let names: Vec<Vec<u8>> = s.publications.iter().map(|p| p.as_bytes().to_vec()).collect();
        let query = if s.open { Vec::new() } else { model::query(&settings, s.slot.as_bytes(), &names, s.query) };
        let state = if s.open { model::State::Turn } else { model::State::Opening };
        self.run = Some(model::Run::new(settings, s.start, state));
        self.payload = vec![0; s.limit as usize];
        self.reading.clear();
        query
    }

    fn step(&mut self, input: &Input, unread: &[u8]) -> Answer {
        let queue = match input.queue {
            Queue::Free => model::Queue::Free,
            Queue::Full => model::Queue::Full,
            Queue::Closed => model::Queue::Closed,
        };
        let lent =
            model::Input { moment: input.moment.0, client_time: input.client_time_micros, stop: input.stop, queue, unread, ended: input.ended };
        let mut out = [0; STATUS];
        let run = self.run.as_mut().expect("a run that was begun");
        let answer = run.step(&lent, &mut self.payload, &mut out);
        let state = state_of(run.state);
        self.read(&unread[..answer.taken]);
        self.event.clone_from(&answer.event);
        Answer {
            refusal: answer.refusal,
            taken: answer.taken,
            state,
            written: out[..answer.written].to_vec(),
            waited: answer.waited,
            event: answer.event.map(lossy),
            error: if answer.refusal == 19 { error_text(&self.whole) } else { Vec::new() },
        }
    }

    fn report(&mut self, file: u64, position: u64, moment: Moment) -> u8 {
        self.run().report(file, position, moment.0)
    }

    fn metrics(&self) -> Metrics {
        let m = &self.run.as_ref().expect("a run that was begun").metrics;
        [m.events, m.statuses, m.replies, m.stalls, m.stall_micros, m.last_applied, m.last_wal_end]
    }
}

fn state_of(state: model::State) -> State {
    match state {
        model::State::Opening => State::Opening,
        model::State::Turn => State::Turn,
        model::State::Drain => State::Drain,
        model::State::Reading => State::Reading,
        model::State::Waiting => State::Waiting,
        model::State::Handling => State::Handling,
        model::State::Offering => State::Offering,
        model::State::Ended => State::Ended,
    }
}

/// With a message's prefix as its lossy text.
fn lossy(event: Event) -> Event {
    match event {
        Event::Message { flag, position, prefix, content } => {
            Event::Message { flag, position, prefix: crate::rust_leaves::lossy(&prefix).into_bytes(), content }
        }
        other => other,
    }
}
