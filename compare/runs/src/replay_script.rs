//! Scenarios as scripts of the program `test_replay`, with the lines that playing them must print.
//!
//! Events, bytes, waiting times, metrics and the refusal at the end are the Rust's: a scenario is recorded only where the model's trace of it
//! is the Rust's in all of them. What the Rust has not (the state and the bytes taken after each step, the payload buffer's sum, a prefix
//! before it is made lossy) is the model's.

use crate::compare::compare;
use crate::modelled::Modelled;
use crate::original::Original;
use crate::scenario::{Files, Happening, Scenario};
use crate::stepped::{Answer, Stepped, Steps};
use crate::text::position;
use crate::trace::{Metrics, STATUS};
use model::sum;
use rufflesquash::{Input, Moment, Queue};
use std::fmt::Write;

#[derive(Default)]
pub struct Recorder {
    model: Modelled,
    files: Files,
    pub script: Vec<u8>,
    pub lines: String,
    /// Where the number of calls stands in the script, and it.
    place: usize,
    calls: u32,
}

/// What fills a step's output, the opening's, and the payload buffer at first; the length of the opening's output.
const FILLS: [u8; 3] = [0xAA, 0x11, 0];
const OPENING: usize = 1_024;

fn filled(written: &[u8], length: usize, fill: u8) -> Vec<u8> {
    let mut out = vec![fill; length];
    out[..written.len()].copy_from_slice(written);
    out
}

impl Recorder {
    fn call(&mut self) {
        self.calls += 1;
        self.script[self.place..self.place + 4].copy_from_slice(&self.calls.to_be_bytes());
    }
}

impl Steps for Recorder {
    fn begin(&mut self, s: &Scenario, unit: u64) -> Vec<u8> {
        let mut out = vec![b'R', s.open as u8];
        for n in [s.status * unit, s.idle * unit, s.limit, s.query, s.start] {
            out.extend(n.to_be_bytes());
        }
        out.push(s.stop_at.is_some() as u8);
        out.extend(s.stop_at.unwrap_or(0).to_be_bytes());
        out.extend([s.timing as u8, s.binary as u8]);
        out.extend((s.slot.len() as u16).to_be_bytes());
        out.extend(s.slot.as_bytes());
        out.push(s.publications.len() as u8);
        for name in &s.publications {
            out.extend((name.len() as u16).to_be_bytes());
            out.extend(name.as_bytes());
        }
        for (length, fill) in [(s.limit as usize, FILLS[2]), (OPENING, FILLS[1])] {
            out.extend((length as u32).to_be_bytes());
            out.push(fill);
        }
        let server: Vec<u8> = s
            .rounds
            .iter()
            .flat_map(|round| &round.what)
            .flat_map(|what| if let Happening::Bytes(b) = what { &b[..] } else { &[] })
            .copied()
            .collect();
        out.extend((server.len() as u32).to_be_bytes());
        out.extend(server);
        (self.script, self.place, self.calls, self.files) = (out, 0, 0, Files::new(s.start));
        self.place = self.script.len();
        self.script.extend([0; 4]);
        let query = self.model.begin(s, unit);
        self.lines = format!("OPEN 0 {} {}\n", query.len(), sum(&filled(&query, OPENING, FILLS[1])));
        query
    }

    fn step(&mut self, input: &Input, unread: &[u8]) -> Answer {
        self.call();
        let queue = match input.queue {
            Queue::Free => 0,
            Queue::Full => 1,
            Queue::Closed => 2,
        };
        let out = &mut self.script;
        out.push(b'S');
        out.extend(input.moment.0.to_be_bytes());
        out.extend(input.client_time_micros.to_be_bytes());
        out.extend([input.stop as u8, queue]);
        out.extend((unread.len() as u32).to_be_bytes());
        out.push(input.ended as u8);
        out.extend((STATUS as u16).to_be_bytes());
        out.push(FILLS[0]);
        let answer = self.model.step(input, unread);
        let _ = writeln!(
            self.lines,
            "S {} {} {} {} {} {} {} {}",
            answer.refusal,
            answer.taken,
            format!("{:?}", answer.state).to_uppercase(),
            answer.written.len(),
            sum(&filled(&answer.written, STATUS, FILLS[0])),
            sum(&self.model.payload),
            answer.waited.map_or("-".to_string(), |time| time.to_string()),
            self.model.event.as_ref().map_or("-".to_string(), |event| event.line()),
        );
        answer
    }

    fn report(&mut self, file: u64, p: u64, moment: Moment) -> u8 {
        self.call();
        self.script.extend([b'F', u8::try_from(file).expect("a script's file has one byte")]);
        self.script.extend(p.to_be_bytes());
        self.script.extend(moment.0.to_be_bytes());
        let refusal = self.model.report(file, p, moment);
        self.files.report(file, p);
        let _ = writeln!(self.lines, "F {refusal} {}", position(self.files.smallest()));
        refusal
    }

    fn report_all(&mut self, p: u64, moment: Moment) {
        self.call();
        self.script.push(b'P');
        self.script.extend(p.to_be_bytes());
        self.script.extend(moment.0.to_be_bytes());
        self.model.report_all(p, moment);
        self.files.report_all(p);
        let _ = writeln!(self.lines, "P {}", position(self.files.smallest()));
    }

    fn metrics(&self) -> Metrics {
        self.model.metrics()
    }
}

pub fn side() -> Stepped<Recorder> {
    Stepped::new("model")
}

/// Plays a scenario on the Rust; its script and the lines of it. None where the model differs.
pub fn script(first: &mut Original, second: &mut Stepped<Recorder>, scenario: &Scenario) -> Option<(Vec<u8>, String)> {
    if compare(first, second, scenario).is_some() {
        return None;
    }
    let m = second.run.metrics();
    let mut lines = std::mem::take(&mut second.run.lines);
    let _ = writeln!(lines, "END {} {} {} {} {} {} {}", m[0], m[1], m[2], m[3], m[4], position(m[5]), position(m[6]));
    Some((std::mem::take(&mut second.run.script), lines))
}
