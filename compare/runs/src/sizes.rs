//! Which sizes, positions and times the compared scenarios had, by classes.

use crate::classes::{Classes, Wanted};
use crate::scenario::{Happening, Scenario, LAST_MOMENT, LENT, LONGEST_INTERVAL, LONGEST_PIECE};
use crate::trace::{Event, Line, Trace};

const LIMIT: u64 = 131_071;
const PAYLOAD: u64 = LIMIT;

const fn row(what: &'static str, from: u64, to: u64) -> Wanted {
    Wanted { what, from, to }
}

/// The rows, and the ends between which each class must be met.
const ROWS: &[Wanted] = &[
    row("limit", 0, LIMIT),
    row("status interval in ms", 1, LONGEST_INTERVAL),
    row("idle interval in ms", 1, LONGEST_INTERVAL),
    row("places in the queue", 1, 100_000),
    row("slot, bytes", 0, LENT as u64),
    row("publications", 0, LENT as u64 - 1),
    row("a publication, bytes", 0, LENT as u64),
    row("slot and publications, bytes", 0, LENT as u64),
    row("query position", 0, u64::MAX),
    row("start position", 0, u64::MAX),
    row("stop position", 0, u64::MAX),
    row("reported position", 0, u64::MAX),
    row("confirmed position", 0, u64::MAX),
    row("position of an event", 0, u64::MAX),
    row("time of an event, or its complement", 0, i64::MAX as u64),
    row("piece, bytes", 1, LONGEST_PIECE as u64),
    row("pieces of the longest length in a stream", 0, 31),
    row("stream, bytes taken", 0, 4_194_303),
    row("messages in a stream", 0, 26_000),
    row("payload of CopyData, bytes", 0, PAYLOAD),
    row("payload of ErrorResponse, bytes", 0, PAYLOAD),
    row("payload of CopyDone, bytes", 0, PAYLOAD),
    row("payload of another message, bytes", 0, PAYLOAD),
    row("payload that is announced and over the limit, bytes", 1, 0x7FFF_FFFB),
    row("data of an event, bytes", 0, PAYLOAD - 25),
    row("content of a Message, bytes", 0, PAYLOAD - 40),
    row("lossy prefix of a Message, bytes", 0, PAYLOAD - 40),
    row("text of the server's error, bytes", 0, PAYLOAD - 6),
    row("events in a run", 0, 500),
    row("moment of the last round in ms", 0, LAST_MOMENT),
    row("time between two rounds in ms", 0, 30 * LONGEST_INTERVAL),
    row("a report's moment before the clock's in ms", 0, LAST_MOMENT),
    row("a report's moment after the clock's in ms", 0, LAST_MOMENT),
    row("waiting time in ms", 0, LAST_MOMENT),
];

#[derive(Clone, Default)]
pub struct Sizes(Classes);

impl Sizes {
    /// A scenario that was played. Of one that left the domain of the comparison the trace counts up to there.
    pub fn scenario(&mut self, s: &Scenario, trace: &Trace) {
        self.settings(s);
        self.rounds(s);
        let compared = trace.outside.unwrap_or(trace.lines.len());
        trace.lines[..compared].iter().for_each(|(_, line)| self.line(line));
        if trace.outside.is_none() {
            self.stream(s, trace);
        }
    }

    pub fn print(&self) -> (Vec<String>, Vec<String>) {
        self.0.print(ROWS)
    }

    fn settings(&mut self, s: &Scenario) {
        let count = &mut self.0;
        count.count("limit", s.limit);
        count.count("status interval in ms", s.status);
        count.count("idle interval in ms", s.idle);
        count.count("places in the queue", s.queue as u64);
        count.count("start position", s.start);
        s.stop_at.into_iter().for_each(|p| count.count("stop position", p));
        if !s.open {
            count.count("query position", s.query);
            count.count("slot, bytes", s.slot.len() as u64);
            count.count("publications", s.publications.len() as u64);
            s.publications.iter().for_each(|name| count.count("a publication, bytes", name.len() as u64));
            count.count("slot and publications, bytes", s.names() as u64);
        }
    }

    fn rounds(&mut self, s: &Scenario) {
        let count = &mut self.0;
        s.rounds.windows(2).for_each(|pair| count.count("time between two rounds in ms", pair[1].at - pair[0].at));
        s.rounds.last().into_iter().for_each(|round| count.count("moment of the last round in ms", round.at));
        for round in &s.rounds {
            for what in round.what.iter().chain(round.during.iter().map(|(_, what)| what)) {
                match what {
                    Happening::Report(p) | Happening::File(_, p) => count.count("reported position", *p),
                    Happening::ReportFrom(p, at) => {
                        count.count("reported position", *p);
                        count.count("a report's moment before the clock's in ms", round.at.saturating_sub(*at));
                        count.count("a report's moment after the clock's in ms", at.saturating_sub(round.at));
                    }
                    _ => {}
                }
            }
        }
    }

    fn line(&mut self, line: &Line) {
        let count = &mut self.0;
        match line {
            Line::Event(event) => self.event(event),
            Line::Write(bytes) if crate::trace::client_time(bytes).is_some() => {
                count.count("confirmed position", u64::from_be_bytes(bytes[6..14].try_into().unwrap()))
            }
            Line::Write(_) => {}
            Line::Waited(time) => count.count("waiting time in ms", time / 1_000_000),
            Line::Piece(length) => count.count("piece, bytes", *length as u64),
            Line::End(19, text) => count.count("text of the server's error, bytes", text.len() as u64),
            Line::End(..) => {}
        }
    }

    fn event(&mut self, event: &Event) {
        let (position, time) = match event {
            Event::KeepAlive { end, time, .. } | Event::Begin { end, time, .. } | Event::Commit { end, time, .. } => (*end, Some(*time)),
            Event::Other { end, time, data, .. } => {
                self.0.count("data of an event, bytes", data.len() as u64);
                (*end, Some(*time))
            }
            Event::Message { position, prefix, content, .. } => {
                self.0.count("content of a Message, bytes", content.len() as u64);
                self.0.count("lossy prefix of a Message, bytes", prefix.len() as u64);
                (*position, None)
            }
            Event::StoppedAt { reached } => (*reached, None),
        };
        self.0.count("position of an event", position);
        time.into_iter().for_each(|t| self.0.count("time of an event, or its complement", (t ^ t >> 63) as u64));
    }

    /// The messages of which the headers were taken.
    fn stream(&mut self, s: &Scenario, trace: &Trace) {
        let (bytes, count) = (s.stream(), &mut self.0);
        let (mut at, mut messages) = (0, 0);
        while let Some(header) = bytes[..trace.taken].get(at..at + 5) {
            let length = i32::from_be_bytes(header[1..].try_into().unwrap()) as i64 - 4;
            let Ok(length) = u64::try_from(length) else { break };
            count.count(
                match header[0] {
                    _ if length > s.limit => "payload that is announced and over the limit, bytes",
                    b'd' => "payload of CopyData, bytes",
                    b'E' => "payload of ErrorResponse, bytes",
                    b'c' => "payload of CopyDone, bytes",
                    _ => "payload of another message, bytes",
                },
                length,
            );
            messages += 1;
            at += 5 + length as usize;
        }
        let full = trace.lines.iter().filter(|(_, line)| *line == Line::Piece(LONGEST_PIECE)).count();
        let events = trace.lines.iter().filter(|(_, line)| matches!(line, Line::Event(_))).count();
        count.count("messages in a stream", messages);
        count.count("stream, bytes taken", trace.taken as u64);
        count.count("pieces of the longest length in a stream", full as u64);
        count.count("events in a run", events as u64);
    }
}
