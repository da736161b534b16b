//! What a run did, in order.

use crate::text::{hex, position};

pub use model::Event;

#[derive(Clone, Debug, PartialEq)]
pub enum Line {
    /// Handed to the queue; the prefix of a message is its lossy text.
    Event(Event),
    /// One message to the server.
    Write(Vec<u8>),
    /// How long, in nanoseconds, the position waited that the status just written confirms.
    Waited(u64),
    /// The stream's next piece is begun: how many bytes it has.
    Piece(usize),
    /// The refusal that ended the run, 0 for none; with 19 the server's error as a text.
    End(u8, Vec<u8>),
}

/// Events, statuses, replies, stalls, stall microseconds, last applied, last wal end.
pub type Metrics = [u64; 7];

#[derive(Clone, Debug, Default, PartialEq)]
pub struct Trace {
    /// Each with its moment, in milliseconds from the beginning.
    pub lines: Vec<(u64, Line)>,
    /// After each round; after the end of a run no more.
    pub metrics: Vec<Metrics>,
    /// Where the scenario left the domain of the comparison: a report came, or time passed, inside a step that would have had to see it. How
    /// many lines there were before the step.
    pub outside: Option<usize>,
    /// Where the server's CopyDone ended the run: the Rust goes on there.
    pub done: Option<Done>,
    /// How many of the server's bytes were taken, by a side that goes step by step.
    pub taken: usize,
}

/// How many lines there were before the answer to the server's CopyDone, and how many rounds were over.
#[derive(Clone, Debug, PartialEq)]
pub struct Done {
    pub lines: usize,
    pub rounds: usize,
}

pub const STATUS: usize = 39;

/// A status's client time: eight bytes after the header, the letter and three positions. None where it is no status.
pub fn client_time(write: &[u8]) -> Option<i64> {
    (write.len() == STATUS && write[0] == b'd').then(|| i64::from_be_bytes(write[30..38].try_into().unwrap()))
}

pub fn put_client_time(status: &mut [u8], time: i64) {
    status[30..38].copy_from_slice(&time.to_be_bytes());
}

impl Trace {
    /// The client times of all statuses, in order.
    pub fn client_times(&self) -> Vec<i64> {
        self.lines.iter().filter_map(|(_, line)| if let Line::Write(w) = line { client_time(w) } else { None }).collect()
    }

    pub fn end(&self) -> Option<u8> {
        match self.lines.last() {
            Some((_, Line::End(number, _))) => Some(*number),
            _ => None,
        }
    }

    pub fn print(&self) -> String {
        let mut lines: Vec<String> = self.lines.iter().map(print_line).collect();
        lines.extend(self.metrics.last().map(print_metrics));
        lines.join("\n") + "\n"
    }
}

pub fn print_line((at, line): &(u64, Line)) -> String {
    match line {
        Line::Event(event) => format!("{at} event {}", event.line()),
        Line::Write(bytes) => format!("{at} write {}", hex(bytes)),
        Line::Waited(time) => format!("{at} waited {time}"),
        Line::Piece(length) => format!("{at} piece {length}"),
        Line::End(0, _) => format!("{at} end 0"),
        Line::End(number, text) => format!("{at} end {number} {}", hex(text)),
    }
}

pub fn print_metrics(m: &Metrics) -> String {
    format!("metrics {} {} {} {} {} {} {}", m[0], m[1], m[2], m[3], m[4], position(m[5]), position(m[6]))
}
