//! A scenario: the settings of a run, and what happens to it from outside, round by round. In a round everything happens at once, then
//! the run goes on until it can do nothing more at that moment. Two rounds may have the same moment.

use crate::text::{hex, position, unhex, unposition};

/// The longest piece that a stream hands over.
pub const LONGEST_PIECE: usize = 131_072;
/// The last moment, in milliseconds, that a step takes: moment 0 is a step's millisecond 1.
pub const LAST_MOMENT: u64 = 9_223_372_036_853;

/// The longest interval, in milliseconds.
pub const LONGEST_INTERVAL: u64 = 86_400_000;
/// How many bytes a call may be lent.
pub const LENT: usize = 1_048_576;

#[derive(Clone, Debug, PartialEq)]
pub struct Scenario {
    /// Begins after the `W` that accepted the query.
    pub open: bool,
    /// Milliseconds.
    pub status: u64,
    pub idle: u64,
    pub limit: u64,
    pub stop_at: Option<u64>,
    pub timing: bool,
    pub binary: bool,
    /// How many events the queue holds.
    pub queue: usize,
    pub query: u64,
    pub start: u64,
    pub slot: String,
    pub publications: Vec<String>,
    pub rounds: Vec<Round>,
}

#[derive(Clone, Debug, PartialEq)]
pub struct Round {
    /// Milliseconds from the beginning, never falling.
    pub at: u64,
    pub what: Vec<Happening>,
    /// What happens later, while the run is busy: each during a call that it makes, counted from 1 since the round began. A call is a piece
    /// handed over, a message written, a waiting time told.
    pub during: Vec<(usize, Happening)>,
}

impl Round {
    pub fn new(at: u64, what: Vec<Happening>) -> Round {
        Round { at, what, during: Vec::new() }
    }

    /// What happens between polls is in order; whether the input has ended after it.
    fn sound_between(&self, mut ended: bool) -> Result<bool, String> {
        for what in &self.what {
            match what {
                Happening::Bytes(b) if b.is_empty() || b.len() > LONGEST_PIECE => return Err("a piece of no or too many bytes".to_string()),
                Happening::Bytes(_) | Happening::End if ended => return Err("input after its end".to_string()),
                Happening::End => ended = true,
                Happening::Pass(_) => return Err("time passes between calls by itself".to_string()),
                Happening::ReportFrom(_, at) if *at > LAST_MOMENT => return Err(format!("the moment {at} lies after the last, {LAST_MOMENT}")),
                _ => {}
            }
        }
        Ok(ended)
    }

    /// What happens during calls is in order; how much time passes in them.
    fn sound_during(&self) -> Result<u64, String> {
        let (mut call, mut passed) = (1, 0u64);
        for (n, what) in &self.during {
            if *n < call {
                return Err("calls that are not in order".to_string());
            }
            call = *n;
            match what {
                Happening::Pass(time) => passed = passed.saturating_add(*time),
                Happening::Bytes(_) | Happening::End | Happening::ReportFrom(..) => return Err("input or a moment during a call".to_string()),
                _ => {}
            }
        }
        Ok(passed)
    }
}

#[derive(Clone, Debug, PartialEq)]
pub enum Happening {
    /// A piece of server bytes, 1 to 131,072 of them.
    Bytes(Vec<u8>),
    /// The input ends; no piece comes after it.
    End,
    Stop,
    /// A report for all four files.
    Report(u64),
    /// The same with a moment of its own, in milliseconds from the beginning.
    ReportFrom(u64, u64),
    /// A report of one file, which a number above 3 is none of.
    File(u64, u64),
    /// The consumer takes so many events, or as many as there are.
    Take(usize),
    /// Another producer puts so many events into the queue, or as many as there is room for.
    Fill(usize),
    /// The consumer closes the queue.
    Close,
    /// So many milliseconds pass, during a call alone.
    Pass(u64),
}

impl Default for Scenario {
    fn default() -> Self {
        Scenario {
            open: true,
            status: 10,
            idle: 20,
            limit: 65_536,
            stop_at: None,
            timing: false,
            binary: false,
            queue: 8,
            query: 0,
            start: 0,
            slot: "s".to_string(),
            publications: vec!["p".to_string()],
            rounds: Vec::new(),
        }
    }
}

impl Scenario {
    /// Inside the domain of the comparison, as far as settings and rounds decide it.
    pub fn sound(&self) -> Result<(), String> {
        let intervals = 1..=LONGEST_INTERVAL;
        if !intervals.contains(&self.status) || !intervals.contains(&self.idle) {
            return Err("an interval is not 1 to 86,400,000 ms".to_string());
        }
        if self.limit >= 131_072 {
            return Err("the limit is not below 131,072".to_string());
        }
        if self.names() > LENT {
            return Err(format!("the names have more than {LENT} bytes"));
        }
        if self.queue == 0 {
            return Err("the queue has no room".to_string());
        }
        let (mut last, mut ended, mut passed) = (0, false, 0u64);
        for round in &self.rounds {
            if round.at < last {
                return Err(format!("the moment {} lies before {last}", round.at));
            }
            last = round.at;
            ended = round.sound_between(ended)?;
            passed = passed.saturating_add(round.sound_during()?);
            if last.saturating_add(passed) > LAST_MOMENT {
                return Err(format!("a moment may lie after the last, {LAST_MOMENT}"));
            }
        }
        Ok(())
    }

    /// How many bytes the slot and the publications have together.
    pub fn names(&self) -> usize {
        self.slot.len() + self.publications.iter().map(String::len).sum::<usize>()
    }

    /// The pieces of the stream, in order.
    pub fn pieces(&self) -> impl Iterator<Item = &Vec<u8>> {
        self.rounds.iter().flat_map(|round| &round.what).filter_map(|what| if let Happening::Bytes(b) = what { Some(b) } else { None })
    }

    /// All of the stream.
    pub fn stream(&self) -> Vec<u8> {
        self.pieces().map(Vec::as_slice).collect::<Vec<_>>().concat()
    }

    /// Every opening reply lies within the limit, or is refused whatever the limit: the Rust reads it with a limit of its own.
    pub fn in_domain(&self) -> bool {
        if self.open {
            return true;
        }
        let bytes = self.stream();
        let mut at = 0;
        while let Some(header) = bytes.get(at..at + 5) {
            let length = i32::from_be_bytes(header[1..].try_into().unwrap()) as i64 - 4;
            if !(0..=1_073_741_824).contains(&length) {
                return true;
            }
            if length > self.limit as i64 {
                return false;
            }
            if matches!(header[0], b'W' | b'E') {
                return true;
            }
            at += 5 + length as usize;
        }
        true
    }

    pub fn print(&self) -> String {
        let mut lines = vec![
            format!("run {}", if self.open { "open" } else { "opened" }),
            format!("status {}", self.status),
            format!("idle {}", self.idle),
            format!("limit {}", self.limit),
            format!("queue {}", self.queue),
            format!("query {}", position(self.query)),
            format!("start {}", position(self.start)),
            format!("slot {}", hex(self.slot.as_bytes())),
        ];
        lines.extend(self.publications.iter().map(|p| format!("publication {}", hex(p.as_bytes()))));
        lines.extend(self.stop_at.map(|p| format!("stop_at {}", position(p))));
        lines.extend(self.timing.then(|| "timing".to_string()));
        lines.extend(self.binary.then(|| "binary".to_string()));
        for round in &self.rounds {
            lines.push(format!("at {}", round.at));
            lines.extend(round.what.iter().map(Happening::print));
            lines.extend(round.during.iter().map(|(n, what)| format!("during {n} {}", what.print())));
        }
        lines.join("\n") + "\n"
    }

    /// Reads what `print` writes. Blank lines and lines that begin with `#` count for nothing; settings left out have a usual value.
    pub fn parse(text: &str) -> Result<Scenario, String> {
        let mut s = Scenario { publications: Vec::new(), ..Scenario::default() };
        for (i, line) in text.lines().enumerate() {
            let line = line.trim();
            if line.is_empty() || line.starts_with('#') {
                continue;
            }
            s.parse_line(line).ok_or_else(|| format!("line {}: {line}", i + 1))?;
        }
        s.sound()?;
        Ok(s)
    }

    fn parse_line(&mut self, line: &str) -> Option<()> {
        let (word, rest) = line.split_once(' ').unwrap_or((line, ""));
        let name = || String::from_utf8(unhex(rest)?).ok();
        match word {
            "run" => self.open = ["opened", "open"].iter().position(|w| *w == rest)? == 1,
            "status" => self.status = rest.parse().ok()?,
            "idle" => self.idle = rest.parse().ok()?,
            "limit" => self.limit = rest.parse().ok()?,
            "queue" => self.queue = rest.parse().ok()?,
            "query" => self.query = unposition(rest)?,
            "start" => self.start = unposition(rest)?,
            "slot" => self.slot = name()?,
            "publication" => self.publications.push(name()?),
            "stop_at" => self.stop_at = Some(unposition(rest)?),
            "timing" => self.timing = true,
            "binary" => self.binary = true,
            "at" => self.rounds.push(Round::new(rest.parse().ok()?, Vec::new())),
            "during" => {
                let (call, what) = rest.split_once(' ')?;
                self.rounds.last_mut()?.during.push((call.parse().ok()?, Happening::parse(what)?));
            }
            _ => self.rounds.last_mut()?.what.push(Happening::parse(line)?),
        }
        Some(())
    }
}

/// How many files a run has.
pub const FILES: u64 = 4;

/// Where each of the four files is: the largest of the start and its own reports.
#[derive(Clone, Debug, Default)]
pub struct Files([u64; FILES as usize]);

impl Files {
    pub fn new(start: u64) -> Files {
        Files([start; FILES as usize])
    }

    /// What is to be confirmed: the smallest of the four.
    pub fn smallest(&self) -> u64 {
        *self.0.iter().min().unwrap()
    }

    /// A report; the smallest of the four, where it rises.
    pub fn report(&mut self, file: u64, position: u64) -> Option<u64> {
        let before = self.smallest();
        let at = self.0.get_mut(usize::try_from(file).ok()?)?;
        *at = position.max(*at);
        Some(self.smallest()).filter(|now| *now > before)
    }

    /// A report for all four.
    pub fn report_all(&mut self, position: u64) {
        for at in &mut self.0 {
            *at = position.max(*at);
        }
    }
}

impl Happening {
    fn print(&self) -> String {
        match self {
            Happening::Bytes(b) => format!("bytes {}", hex(b)),
            Happening::End => "end".to_string(),
            Happening::Stop => "stop".to_string(),
            Happening::Report(p) => format!("report {}", position(*p)),
            Happening::ReportFrom(p, at) => format!("report {} from {at}", position(*p)),
            Happening::File(file, p) => format!("file {file} {}", position(*p)),
            Happening::Fill(n) => format!("fill {n}"),
            Happening::Take(n) => format!("take {n}"),
            Happening::Close => "close".to_string(),
            Happening::Pass(time) => format!("pass {time}"),
        }
    }

    fn parse(line: &str) -> Option<Happening> {
        let (word, rest) = line.split_once(' ').unwrap_or((line, ""));
        Some(match word {
            "bytes" => Happening::Bytes(unhex(rest)?),
            "end" => Happening::End,
            "stop" => Happening::Stop,
            "report" => match rest.split_once(" from ") {
                Some((p, at)) => Happening::ReportFrom(unposition(p)?, at.parse().ok()?),
                None => Happening::Report(unposition(rest)?),
            },
            "file" => {
                let (file, p) = rest.split_once(' ')?;
                Happening::File(file.parse().ok()?, unposition(p)?)
            }
            "fill" => Happening::Fill(rest.parse().ok()?),
            "take" => Happening::Take(rest.parse().ok()?),
            "close" => Happening::Close,
            "pass" => Happening::Pass(rest.parse().ok()?),
            _ => return None,
        })
    }
}
