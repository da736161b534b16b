//! The first difference between two sides, and the smallest scenario that still shows one.

use crate::scenario::{Happening, Round, Scenario};
use crate::side::Side;
use crate::trace::{print_line, print_metrics, Line, Trace};
use std::panic::{catch_unwind, AssertUnwindSafe};
use std::time::{Duration, Instant};

/// Plays a scenario on both; the client times of the first are handed to the second. None where the traces are equal, as far as the second
/// tells that the scenario is inside the domain of the comparison. Where the second ends at the server's CopyDone, which the Rust skips, they are
/// compared up to that message.
pub fn compare(first: &mut dyn Side, second: &mut dyn Side, scenario: &Scenario) -> Option<String> {
    let (a, b) = match play(first, second, scenario) {
        Ok(traces) => traces,
        Err(broken) => return Some(broken),
    };
    if let Some(wrong) = wrong_end(scenario, &b) {
        return Some(format!("{}: {wrong}", second.name()));
    }
    let same = match (b.outside, &b.done) {
        (Some(lines), _) => a.lines.get(..lines) == Some(&b.lines[..lines]),
        (_, Some(done)) => {
            a.lines.get(..done.lines) == Some(&b.lines[..done.lines]) && a.metrics.get(..done.rounds) == Some(&b.metrics[..done.rounds])
        }
        _ => a.lines == b.lines && a.metrics == b.metrics,
    };
    if same {
        return None;
    }
    Some(difference(first.name(), &a, second.name(), &b))
}

/// Two sides that go step by step, and so agree in all of it; the n-th status of both bears the n-th client time.
pub fn compare_steps(first: &mut dyn Side, second: &mut dyn Side, scenario: &Scenario, times: &[i64]) -> Option<String> {
    let (a, b) = (first.run(scenario, times), second.run(scenario, times));
    (a != b).then(|| difference(first.name(), &a, second.name(), &b))
}

/// The Rust says nothing of the server's CopyDone. A side that goes step by step must have ended there where it took the whole message, and
/// nowhere else, with its own CopyDone as the last thing that it did.
fn wrong_end(scenario: &Scenario, b: &Trace) -> Option<String> {
    let due = copy_done_in(scenario).filter(|end| *end <= b.taken);
    let ended = b.done.as_ref().map(|_| b.taken);
    if due != ended {
        return Some(format!("the server's CopyDone ends after byte {due:?}, and the run ended at one after byte {ended:?}"));
    }
    let done = b.done.as_ref()?;
    let last: Vec<&Line> = b.lines[done.lines..].iter().map(|(_, line)| line).collect();
    let wanted = [&Line::Write(b"c\0\0\0\x04".to_vec()), &Line::End(0, Vec::new())];
    (last != wanted).then(|| format!("the answer to the server's CopyDone is {last:?}"))
}

/// Where the first CopyDone after the opening ends, counted from the stream's first byte.
fn copy_done_in(scenario: &Scenario) -> Option<usize> {
    let bytes = scenario.stream();
    let mut messages = messages_of(scenario).into_iter();
    if !scenario.open {
        messages.find(|(from, _)| bytes[*from] == b'W')?;
    }
    messages.find(|(from, _)| bytes[*from] == b'c').map(|(_, end)| end)
}

fn play(first: &mut dyn Side, second: &mut dyn Side, scenario: &Scenario) -> Result<(Trace, Trace), String> {
    let caught = |side: &mut dyn Side, times: &[i64]| {
        let name = side.name();
        catch_unwind(AssertUnwindSafe(|| side.run(scenario, times))).map_err(|_| format!("{name}: broke off"))
    };
    let a = caught(first, &[])?;
    let b = caught(second, &a.client_times())?;
    Ok((a, b))
}

/// The first place at which two traces differ, with the lines before it.
fn difference(first: &str, a: &Trace, second: &str, b: &Trace) -> String {
    let same = a.lines.iter().zip(&b.lines).take_while(|(x, y)| x == y).count();
    let mut lines: Vec<String> = a.lines[..same].iter().map(|line| format!("both: {}", print_line(line))).collect();
    if same == a.lines.len() && same == b.lines.len() {
        let round = a.metrics.iter().zip(&b.metrics).take_while(|(x, y)| x == y).count();
        let said = |r: &Trace| r.metrics.get(round).map_or("no more rounds".to_string(), print_metrics);
        lines.push(format!("{first}, after round {}: {}", round + 1, said(a)));
        lines.push(format!("{second}, after round {}: {}", round + 1, said(b)));
    } else {
        let said = |r: &Trace| r.lines.get(same).map_or("nothing more".to_string(), print_line);
        lines.push(format!("{first}: {}", said(a)));
        lines.push(format!("{second}: {}", said(b)));
    }
    lines.join("\n")
}

/// Cuts a scenario that shows a difference down: rounds, happenings, bytes, times and settings go as long as some difference is left.
pub fn shrink(first: &mut dyn Side, second: &mut dyn Side, scenario: &Scenario, time: Duration) -> Scenario {
    let mut shrinking = Shrinking { first, second, best: scenario.clone(), until: Instant::now() + time };
    let quiet = std::panic::take_hook();
    std::panic::set_hook(Box::new(|_| {}));
    while shrinking.pass() {}
    std::panic::set_hook(quiet);
    shrinking.best
}

/// What is tried in a happening's place, the smallest first.
fn smaller(what: &Happening) -> Vec<Happening> {
    match *what {
        Happening::Take(n) if n > 1 => vec![Happening::Take(1)],
        Happening::Fill(n) if n > 1 => vec![Happening::Fill(1)],
        Happening::Pass(n) if n > 1 => vec![Happening::Pass(1)],
        Happening::ReportFrom(p, _) => vec![Happening::Report(p)],
        Happening::Report(p) => (1..p.min(4)).map(Happening::Report).collect(),
        Happening::File(file, p) => (1..p.min(4)).map(|p| Happening::File(file, p)).chain([Happening::Report(p)]).collect(),
        _ => Vec::new(),
    }
}

struct Shrinking<'a> {
    first: &'a mut dyn Side,
    second: &'a mut dyn Side,
    best: Scenario,
    until: Instant,
}

impl Shrinking<'_> {
    /// Keeps the candidate where it is another one, inside the domain, and still differs.
    fn attempt(&mut self, candidate: Scenario) -> bool {
        if candidate == self.best || Instant::now() > self.until || candidate.sound().is_err() || !candidate.in_domain() {
            return false;
        }
        let differs = compare(self.first, self.second, &candidate).is_some();
        if differs {
            self.best = candidate;
        }
        differs
    }

    fn with(&mut self, change: impl FnOnce(&mut Scenario)) -> bool {
        let mut candidate = self.best.clone();
        change(&mut candidate);
        self.attempt(candidate)
    }

    /// One go at everything; whether anything went.
    fn pass(&mut self) -> bool {
        let before = self.best.clone();
        // A queue of one place is full after one event.
        self.with(|s| s.queue = 1);
        self.rounds();
        self.happenings();
        self.during();
        self.messages();
        self.payloads();
        self.bytes();
        self.times();
        self.settings();
        before != self.best
    }

    fn rounds(&mut self) {
        let mut size = self.best.rounds.len().max(1);
        while size > 0 {
            let mut from = 0;
            while from < self.best.rounds.len() {
                let to = (from + size).min(self.best.rounds.len());
                if !self.with(|s| drop(s.rounds.drain(from..to))) {
                    from += size;
                }
            }
            size /= 2;
        }
        // Two rounds into one.
        let mut i = 1;
        while i < self.best.rounds.len() {
            let joined = self.with(|s| {
                let round = s.rounds.remove(i);
                s.rounds[i - 1].what.extend(round.what);
                s.rounds[i - 1].during.extend(round.during);
                s.rounds[i - 1].during.sort_by_key(|(call, _)| *call);
            });
            i += !joined as usize;
        }
    }

    fn happenings(&mut self) {
        for i in 0..self.best.rounds.len() {
            let mut j = 0;
            while j < self.best.rounds[i].what.len() {
                if !self.with(|s| drop(s.rounds[i].what.remove(j))) {
                    let less = smaller(&self.best.rounds[i].what[j]);
                    less.into_iter().any(|less| self.with(|s| s.rounds[i].what[j] = less));
                    j += 1;
                }
            }
            let mut j = 1;
            while j < self.best.rounds[i].what.len() {
                let joined = self.with(|s| {
                    let next = s.rounds[i].what.remove(j);
                    if let (Happening::Bytes(a), Happening::Bytes(b)) = (&mut s.rounds[i].what[j - 1], &next) {
                        a.extend(b);
                    } else {
                        s.rounds[i].what.insert(j, next);
                    }
                });
                j += !joined as usize;
            }
        }
    }

    /// What happens during calls: gone, before the calls, or during the first.
    fn during(&mut self) {
        for i in 0..self.best.rounds.len() {
            let mut j = 0;
            while j < self.best.rounds[i].during.len() {
                let gone = self.with(|s| drop(s.rounds[i].during.remove(j)))
                    || self.with(|s| {
                        let (_, what) = s.rounds[i].during.remove(j);
                        s.rounds[i].what.push(what);
                    });
                if !gone {
                    self.with(|s| s.rounds[i].during[j].0 = 1);
                    let less = smaller(&self.best.rounds[i].during[j].1);
                    less.into_iter().any(|less| self.with(|s| s.rounds[i].during[j].1 = less));
                    j += 1;
                }
            }
        }
    }

    /// Whole messages, wherever the pieces cut them: first many of them, then fewer, then each, goes, or becomes the shortest that is skipped.
    fn messages(&mut self) {
        let mut size = messages_of(&self.best).len();
        while size > 0 {
            let mut from = 0;
            loop {
                let all = messages_of(&self.best);
                let Some(some) = all.get(from..(from + size).min(all.len())).filter(|some| !some.is_empty()) else { break };
                let gone = self.with(|s| replace(s, some, |_| Vec::new()));
                if !gone {
                    self.with(|s| replace(s, some, |_| SKIPPED.to_vec()));
                    from += size;
                }
            }
            size /= 2;
        }
    }

    /// Parts of payloads, with their messages' lengths.
    fn payloads(&mut self) {
        let mut which = 0;
        while let Some(&(from, to)) = messages_of(&self.best).get(which) {
            let mut size = to - from - 5;
            while size > 0 {
                let mut at = 5;
                loop {
                    let (from, to) = messages_of(&self.best)[which];
                    if from + at >= to {
                        break;
                    }
                    let less = size.min(to - from - at);
                    let shorter = self.with(|s| {
                        replace(s, &[(from, to)], |whole| {
                            let mut whole = whole.to_vec();
                            whole.drain(at..at + less);
                            let length = whole.len() as u32 - 1;
                            whole[1..5].copy_from_slice(&length.to_be_bytes());
                            whole
                        })
                    });
                    if !shorter {
                        at += size;
                    }
                }
                size /= 2;
            }
            which += 1;
        }
    }

    /// Bytes of a piece, whatever they belong to.
    fn bytes(&mut self) {
        for i in 0..self.best.rounds.len() {
            for j in 0..self.best.rounds[i].what.len() {
                self.piece(i, j);
            }
        }
    }

    fn piece(&mut self, i: usize, j: usize) {
        fn of(s: &mut Scenario, i: usize, j: usize) -> &mut Vec<u8> {
            match &mut s.rounds[i].what[j] {
                Happening::Bytes(b) => b,
                _ => unreachable!(),
            }
        }
        let length = |s: &Scenario| match &s.rounds[i].what[j] {
            Happening::Bytes(b) => b.len(),
            _ => 0,
        };
        let mut size = length(&self.best);
        while size > 0 {
            let mut from = 0;
            while from < length(&self.best) {
                let to = (from + size).min(length(&self.best));
                if !self.with(|s| drop(of(s, i, j).drain(from..to))) {
                    from += size;
                }
            }
            size /= 2;
        }
        if length(&self.best) <= 600 {
            for k in 0..length(&self.best) {
                self.with(|s| of(s, i, j)[k] = 0);
            }
        }
    }

    fn times(&mut self) {
        for i in 0..self.best.rounds.len() {
            let gap = |s: &Scenario| s.rounds[i].at - if i == 0 { 0 } else { s.rounds[i - 1].at };
            for wished in [0, 1, self.best.status, self.best.idle, gap(&self.best) / 2, gap(&self.best).saturating_sub(1)] {
                let now = gap(&self.best);
                if wished < now {
                    self.with(|s| s.rounds[i..].iter_mut().for_each(|round| earlier(round, now - wished)));
                }
            }
        }
    }

    fn settings(&mut self) {
        let plain = Scenario::default();
        self.with(|s| s.timing = false);
        self.with(|s| s.binary = false);
        if !self.with(|s| s.stop_at = None) {
            let _ = self.with(|s| s.stop_at = s.stop_at.and(Some(0))) || self.with(|s| s.stop_at = s.stop_at.map(|p| p.min(0x100)));
        }
        self.with(|s| s.open = true);
        self.with(|s| s.query = 0);
        self.with(|s| s.start = 0);
        self.with(|s| s.slot = plain.slot.clone());
        self.with(|s| s.publications = plain.publications.clone());
        self.with(|s| s.limit = plain.limit);
        self.with(|s| s.queue = plain.queue);
        let intervals = [86_400_000, 1_000, 10, 5, 2, 1];
        for interval in intervals {
            if self.best.status == interval || self.with(|s| s.status = interval) {
                break;
            }
        }
        for interval in intervals {
            if self.best.idle == interval || self.with(|s| s.idle = interval) {
                break;
            }
        }
    }
}

/// The round so much earlier, with the moments of its reports.
fn earlier(round: &mut Round, less: u64) {
    round.at -= less;
    for what in &mut round.what {
        if let Happening::ReportFrom(_, at) = what {
            *at = at.saturating_sub(less);
        }
    }
}

/// The shortest message that is skipped.
const SKIPPED: &[u8] = b"N\0\0\0\x04";

/// Where the messages of all the bytes begin and end, whatever the pieces; after a header that is none, or one that is not whole, there are
/// no more.
fn messages_of(s: &Scenario) -> Vec<(usize, usize)> {
    let bytes = s.stream();
    let (mut at, mut all) = (0, Vec::new());
    while let Some(header) = bytes.get(at..at + 5) {
        let length = u32::from_be_bytes(header[1..].try_into().unwrap()) as usize;
        if length < 4 || at + 1 + length > bytes.len() {
            break;
        }
        all.push((at, at + 1 + length));
        at += 1 + length;
    }
    all
}

/// Puts other bytes in the place of messages. A cut between two pieces that lies in one stays as far after its beginning as it can; pieces
/// of which nothing is left go.
fn replace(s: &mut Scenario, messages: &[(usize, usize)], by: impl Fn(&[u8]) -> Vec<u8>) {
    let whole = s.stream();
    let mut done = Vec::with_capacity(whole.len());
    // For each replaced stretch where it began and ended, and where it does now.
    let mut moved: Vec<[usize; 4]> = Vec::new();
    let mut at = 0;
    for &(from, to) in messages {
        done.extend_from_slice(&whole[at..from]);
        let begun = done.len();
        done.extend(by(&whole[from..to]));
        moved.push([from, to, begun, done.len()]);
        at = to;
    }
    done.extend_from_slice(&whole[at..]);
    let place = |old: usize| {
        let known = moved.partition_point(|m| m[0] < old);
        match moved[..known].last() {
            Some(&[from, to, begun, ended]) if old < to => ended.min(begun + old - from),
            Some(&[_, to, _, ended]) => ended + old - to,
            None => old,
        }
    };
    let (mut old, mut from) = (0, 0);
    for round in &mut s.rounds {
        for what in &mut round.what {
            if let Happening::Bytes(bytes) = what {
                old += bytes.len();
                let to = place(old);
                *bytes = done[from..to].to_vec();
                from = to;
            }
        }
        round.what.retain(|what| !matches!(what, Happening::Bytes(bytes) if bytes.is_empty()));
    }
}

#[cfg(test)]
mod tests {
    use super::*;

    #[test]
    fn messages_are_replaced_across_pieces() {
        let text = "at 0\nbytes 4e0000\nbytes 000401\nbytes 0000000602\nat 1\nbytes 0344\n";
        let mut s = Scenario::parse(text).unwrap();
        assert_eq!(messages_of(&s), [(0, 5), (5, 12)]);
        replace(&mut s, &[(5, 12)], |_| SKIPPED.to_vec());
        assert_eq!(s.print().split_once("at 0\n").unwrap().1, "bytes 4e0000\nbytes 00044e\nbytes 00000004\nat 1\nbytes 44\n");
        replace(&mut s, &[(0, 5)], |_| Vec::new());
        assert_eq!(s.print().split_once("at 0\n").unwrap().1, "bytes 4e\nbytes 00000004\nat 1\nbytes 44\n");
    }
}
