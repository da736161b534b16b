//! Scripts of the program `test_replay`: how one is written down, and the lines that playing it must print.

use crate::coverage::{seen, seen_in};
use crate::model::{intervals_refused, query, Input, Queue, Run, Settings, State};
use crate::shared::{display, hex, sum};
use std::fmt::Write as _;

#[derive(Clone)]
pub struct Step {
    pub moment: u64,
    pub client_time: i64,
    pub stop: bool,
    pub queue: Queue,
    pub unread: u32,
    pub ended: bool,
    pub room: u16,
    pub fill: u8,
}

/// A step at a moment: no stop, a free queue, all that is left unread, an output that is just long enough.
pub fn at(moment: u64) -> Step {
    Step { moment, client_time: 700, stop: false, queue: Queue::Free, unread: u32::MAX, ended: false, room: 39, fill: 0xAA }
}

impl Step {
    pub fn stop(mut self) -> Step {
        self.stop = true;
        self
    }

    pub fn full(mut self) -> Step {
        self.queue = Queue::Full;
        self
    }

    pub fn closed(mut self) -> Step {
        self.queue = Queue::Closed;
        self
    }

    pub fn unread(mut self, n: u32) -> Step {
        self.unread = n;
        self
    }

    /// The input ended, with nothing unread.
    pub fn ended(mut self) -> Step {
        (self.unread, self.ended) = (0, true);
        self
    }

    pub fn room(mut self, n: u16) -> Step {
        self.room = n;
        self
    }
}

pub enum Call {
    Step(Step),
    /// For all four files.
    Report(u64, u64),
    FileReport(u8, u64, u64),
    /// The service page, with an output of this length and filling.
    Page(u16, u8),
}

pub struct Script {
    pub already_open: bool,
    pub settings: Settings,
    pub query_position: u64,
    pub start: u64,
    pub slot: Vec<u8>,
    pub publications: Vec<Vec<u8>>,
    pub payload: (u32, u8),
    pub output: (u32, u8),
    pub server: Vec<u8>,
    pub calls: Vec<Call>,
}

impl Script {
    /// A run that is already open, with intervals of 1,000 and 5,000 ns, a limit of 100, and these server bytes.
    pub fn new(server: &[&[u8]]) -> Script {
        Script {
            already_open: true,
            settings: Settings { status: 1_000, idle: 5_000, limit: 100, stop_at: None, timing: false, binary: false },
            query_position: 0,
            start: 0x10,
            slot: b"kiosk".to_vec(),
            publications: vec![b"captions".to_vec()],
            payload: (100, 0x55),
            output: (0, 0),
            server: server.concat(),
            calls: Vec::new(),
        }
    }

    /// The same, opened with a query.
    pub fn opened(server: &[&[u8]]) -> Script {
        Script { already_open: false, output: (300, 0x11), ..Script::new(server) }
    }

    pub fn step(&mut self, step: Step) -> &mut Script {
        self.calls.push(Call::Step(step));
        self
    }

    pub fn steps(&mut self, steps: &[Step]) -> &mut Script {
        self.calls.extend(steps.iter().cloned().map(Call::Step));
        self
    }

    pub fn report(&mut self, position: u64, moment: u64) -> &mut Script {
        self.calls.push(Call::Report(position, moment));
        self
    }

    pub fn file(&mut self, file: u8, position: u64, moment: u64) -> &mut Script {
        self.calls.push(Call::FileReport(file, position, moment));
        self
    }

    pub fn page(&mut self, room: u16) -> &mut Script {
        self.calls.push(Call::Page(room, 0xB6));
        self
    }

    pub fn bytes(&self) -> Vec<u8> {
        let s = &self.settings;
        let mut b = vec![b'R', self.already_open as u8];
        for n in [s.status, s.idle, s.limit, self.query_position, self.start] {
            b.extend(n.to_be_bytes());
        }
        b.push(s.stop_at.is_some() as u8);
        b.extend(s.stop_at.unwrap_or(0).to_be_bytes());
        b.extend([s.timing as u8, s.binary as u8]);
        b.extend((self.slot.len() as u16).to_be_bytes());
        b.extend(&self.slot);
        b.push(self.publications.len() as u8);
        for p in &self.publications {
            b.extend((p.len() as u16).to_be_bytes());
            b.extend(p);
        }
        for (n, fill) in [self.payload, self.output] {
            b.extend(n.to_be_bytes());
            b.push(fill);
        }
        b.extend((self.server.len() as u32).to_be_bytes());
        b.extend(&self.server);
        b.extend((self.calls.len() as u32).to_be_bytes());
        self.calls.iter().for_each(|call| b.extend(call.bytes()));
        b
    }

    /// The lines of all calls.
    pub fn lines(&self) -> String {
        let mut lines = String::new();
        let (refusal, written) = self.open();
        let mut out = vec![self.output.1; self.output.0 as usize];
        out[..written.len()].copy_from_slice(&written);
        writeln!(lines, "OPEN {refusal} {} {}", written.len(), sum(&out)).unwrap();
        let state = if self.already_open { State::Turn } else { State::Opening };
        let mut run = Run::new(self.settings.clone(), self.start, state);
        let mut payload = vec![self.payload.1; self.payload.0 as usize];
        let mut rest = &self.server[..];
        for call in self.calls.iter().filter(|_| refusal == 0) {
            match call {
                Call::Step(step) => lines += &step.line(&mut run, &mut rest, &mut payload),
                Call::Report(position, moment) => {
                    (0..4).for_each(|file| assert_eq!(run.report(file, *position, *moment), 0));
                    writeln!(lines, "P {}", display(run.position())).unwrap();
                }
                Call::FileReport(file, position, moment) => {
                    let refusal = run.report(*file as u64, *position, *moment);
                    writeln!(lines, "F {refusal} {}", display(run.position())).unwrap();
                }
                Call::Page(room, fill) => lines += &page_line(&run, *room, *fill),
            }
        }
        let m = &run.metrics;
        let counts = [m.events, m.statuses, m.replies, m.stalls, m.stall_micros].map(|n| n.to_string()).join(" ");
        writeln!(lines, "END {counts} {} {}", display(m.last_applied), display(m.last_wal_end)).unwrap();
        lines
    }

    /// The refusal of the opening, and what it writes.
    fn open(&self) -> (u8, Vec<u8>) {
        let refused = intervals_refused(&self.settings);
        let text = if self.already_open { Vec::new() } else { query(&self.settings, &self.slot, &self.publications, self.query_position) };
        let short = text.len() > self.output.0 as usize;
        let how = if self.already_open { "already open" } else { "opening" };
        if refused && short {
            seen("opening: 1 before 4");
        }
        if refused || short {
            let n = if refused { 1 } else { 4 };
            seen(&format!("{how}: refusal {n}"));
            seen_in("refusal", n);
            return (n, Vec::new());
        }
        seen(if self.already_open { "already open" } else { "opened" });
        (0, text)
    }
}

/// Refused with 4 where the output is shorter than the page, which leaves it as it was.
fn page_line(run: &Run, room: u16, fill: u8) -> String {
    let page = run.page().into_bytes();
    let mut out = vec![fill; room as usize];
    if out.len() < page.len() {
        seen("page: an output too short");
        return format!("G 4 0 {} -\n", sum(&out));
    }
    out[..page.len()].copy_from_slice(&page);
    seen(if out.len() == page.len() { "page: an output just long enough" } else { "page: an output that is longer" });
    format!("G 0 {} {} {}\n", page.len(), sum(&out), hex(&page))
}

impl Step {
    fn line(&self, run: &mut Run, rest: &mut &[u8], payload: &mut [u8]) -> String {
        let mut out = vec![self.fill; self.room as usize];
        let unread = &rest[..rest.len().min(self.unread as usize)];
        let input = Input { moment: self.moment, client_time: self.client_time, stop: self.stop, queue: self.queue, unread, ended: self.ended };
        let answer = run.step(&input, payload, &mut out);
        *rest = &rest[answer.taken..];
        format!(
            "S {} {} {} {} {} {} {} {}\n",
            answer.refusal,
            answer.taken,
            format!("{:?}", run.state).to_uppercase(),
            answer.written,
            sum(&out),
            sum(payload),
            answer.waited.map_or("-".to_string(), |n| n.to_string()),
            answer.event.map_or("-".to_string(), |e| e.line()),
        )
    }
}

impl Call {
    fn bytes(&self) -> Vec<u8> {
        match self {
            Call::Step(s) => [
                &b"S"[..],
                &s.moment.to_be_bytes(),
                &s.client_time.to_be_bytes(),
                &[s.stop as u8, s.queue as u8],
                &s.unread.to_be_bytes(),
                &[s.ended as u8],
                &s.room.to_be_bytes(),
                &[s.fill],
            ]
            .concat(),
            Call::Report(position, moment) => [&b"P"[..], &position.to_be_bytes(), &moment.to_be_bytes()].concat(),
            Call::Page(room, fill) => [&b"G"[..], &room.to_be_bytes(), &[*fill]].concat(),
            Call::FileReport(file, position, moment) => [&b"F"[..], &[*file], &position.to_be_bytes(), &moment.to_be_bytes()].concat(),
        }
    }
}
