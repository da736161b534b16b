//! The comparison itself: equal sides agree, sides that differ are found out, and what is shown is small.

use runs::compare::{compare, shrink};
use runs::generate::scenario;
use runs::leaf_records::{self, compare_leaves, Leaves, OriginalLeaves};
use runs::modelled;
use runs::original::{Copied, Original};
use runs::ours;
use runs::scenario::{Happening, Scenario};
use runs::side::Side;
use runs::trace::{Done, Event, Line, Trace};
use std::time::Duration;

/// A side with its traces changed.
struct Changed<S: Side>(S, fn(&mut Trace));

impl<S: Side> Side for Changed<S> {
    fn name(&self) -> &'static str {
        "changed"
    }

    fn run(&mut self, scenario: &Scenario, client_times: &[i64]) -> Trace {
        let mut trace = self.0.run(scenario, client_times);
        self.1(&mut trace);
        trace
    }
}

fn size(s: &Scenario) -> usize {
    let weight = |what: &Happening| if let Happening::Bytes(b) = what { b.len() } else { 1 };
    s.rounds.iter().map(|round| 1 + round.what.iter().map(weight).sum::<usize>()).sum()
}

/// The smallest scenario that shows the change.
fn found(change: fn(&mut Trace)) -> Scenario {
    found_in(Copied::default(), change)
}

fn found_in(side: impl Side, change: fn(&mut Trace)) -> Scenario {
    let (mut first, mut second) = (Original::default(), Changed(side, change));
    for seed in 1..20_000 {
        let s = scenario(seed);
        if compare(&mut first, &mut second, &s).is_some() {
            let small = shrink(&mut first, &mut second, &s, Duration::from_secs(60));
            assert!(compare(&mut first, &mut second, &small).is_some());
            assert!(size(&small) <= size(&s));
            return small;
        }
    }
    panic!("not found out");
}

fn agrees_with_the_rust(mut second: impl Side) {
    let mut first = Original::default();
    for seed in 1..3_000 {
        assert_eq!(compare(&mut first, &mut second, &scenario(seed)), None, "seed {seed}");
    }
}

#[test]
fn the_rust_agrees_with_itself() {
    agrees_with_the_rust(Copied::default());
}

#[test]
fn the_model_agrees_with_the_rust() {
    agrees_with_the_rust(modelled::side());
}

#[test]
fn the_project_agrees_with_the_rust() {
    agrees_with_the_rust(ours::side());
}

#[test]
fn generated_scenarios_are_sound_and_read_back() {
    for seed in 1..3_000 {
        let s = scenario(seed);
        assert_eq!(s.sound(), Ok(()), "seed {seed}");
        assert!(s.in_domain(), "seed {seed}");
        assert_eq!(Scenario::parse(&s.print()).as_ref(), Ok(&s), "seed {seed}");
    }
}

#[test]
fn a_changed_reply_byte_is_shown_by_one_keepalive() {
    let small = found(|trace| {
        for (_, line) in &mut trace.lines {
            if let Line::Write(bytes) = line {
                if bytes.len() == 39 {
                    bytes[38] = 0;
                }
            }
        }
    });
    // One round with one keepalive of 23 bytes.
    assert_eq!(size(&small), 24, "{}", small.print());
}

#[test]
fn a_lost_stopped_at_is_shown_by_one_message() {
    let small = found(|trace| trace.lines.retain(|(_, line)| !matches!(line, Line::Event(Event::StoppedAt { .. }))));
    assert!(size(&small) <= 32, "{}", small.print());
}

#[test]
fn a_changed_metric_is_shown() {
    let small = found(|trace| trace.metrics.iter_mut().for_each(|m| m[4] = 0));
    assert!(size(&small) <= 63, "{}", small.print());
}

#[test]
fn a_waiting_time_is_compared() {
    let small = found(|trace| {
        for (_, line) in &mut trace.lines {
            if let Line::Waited(time) = line {
                *time = (*time).min(2_000_000);
            }
        }
    });
    assert!(small.timing && size(&small) <= 40, "{}", small.print());
}

#[test]
fn a_changed_moment_is_compared() {
    let small = found(|trace| trace.lines.iter_mut().for_each(|(at, _)| *at = (*at).min(40)));
    assert!(size(&small) <= 6, "{}", small.print());
}

#[test]
fn a_copy_done_of_the_server_that_is_skipped_is_shown_by_itself() {
    let small = found_in(modelled::side(), |trace| {
        if let Some(done) = trace.done.take() {
            trace.lines.truncate(done.lines);
        }
    });
    // One round with the message's five bytes.
    assert_eq!(size(&small), 6, "{}", small.print());
}

#[test]
fn another_answer_to_the_servers_copy_done_is_shown() {
    let small = found_in(modelled::side(), |trace| {
        if let Some(done) = &trace.done {
            trace.lines.remove(done.lines);
        }
    });
    assert_eq!(size(&small), 6, "{}", small.print());
}

#[test]
fn an_end_at_another_message_is_shown() {
    let small = found_in(modelled::side(), |trace| {
        if trace.done.is_none() && trace.end() == Some(0) {
            trace.done = Some(Done { lines: trace.lines.len() - 2, rounds: 0 });
        }
    });
    // A stop, or one message that reaches the stop position and something else.
    assert!(size(&small) <= 33, "{}", small.print());
}

/// Misses the slash after a lone plus sign.
struct Lax;

impl Leaves for Lax {
    fn name(&self) -> &'static str {
        "lax"
    }

    fn answer(&mut self, records: &[u8]) -> Vec<u8> {
        let mut lines = OriginalLeaves.answer(records);
        for (record, line) in leaf_records::records(records).zip(lines.split_mut(|b| *b == b'\n')) {
            if record.kind == b'p' && record.input == b"+/0" {
                line.copy_from_slice(b"p 22");
            }
        }
        lines
    }
}

#[test]
fn a_leaf_that_differs_is_found() {
    let said = compare_leaves(&mut OriginalLeaves, &mut Lax, 0, 1).unwrap_err();
    assert_eq!(said, "leaf p 2b2f30\nrust: p 23\nlax: p 22");
}

/// Answers long texts wrongly.
struct Cut;

impl Leaves for Cut {
    fn name(&self) -> &'static str {
        "cut"
    }

    fn answer(&mut self, records: &[u8]) -> Vec<u8> {
        let mut lines = OriginalLeaves.answer(records);
        for (record, line) in leaf_records::records(records).zip(lines.split_mut(|b| *b == b'\n')) {
            if record.kind == b'w' && record.input.len() > 2_500 {
                line.reverse();
            }
        }
        lines
    }
}

#[test]
fn a_leaf_that_differs_on_long_inputs_is_found() {
    let said = compare_leaves(&mut OriginalLeaves, &mut Cut, 100_000, 1).unwrap_err();
    let (input, _) = said.split_once('\n').unwrap();
    assert_eq!(input.len(), "leaf w ".len() + 2 * 2_501);
}

/// A change that shows on long payloads alone, and how many scenarios it takes to show it.
fn shown_by(change: fn(&mut Trace)) -> u64 {
    let (mut first, mut second) = (Original::default(), Changed(modelled::side(), change));
    (1..20_000).find(|seed| compare(&mut first, &mut second, &scenario(*seed)).is_some()).expect("a seed that shows it")
}

#[test]
fn changes_that_long_payloads_alone_show_are_found() {
    let content = shown_by(|trace| {
        for (_, line) in &mut trace.lines {
            if let Line::Event(Event::Message { content, .. }) = line {
                content.truncate(100_000);
            }
        }
    });
    let prefix = shown_by(|trace| {
        for (_, line) in &mut trace.lines {
            if let Line::Event(Event::Message { prefix, .. }) = line {
                prefix.truncate(100_000);
            }
        }
    });
    let error = shown_by(|trace| {
        for (_, line) in &mut trace.lines {
            if let Line::End(19, text) = line {
                text.truncate(60_000);
            }
        }
    });
    let waited = shown_by(|trace| {
        for (_, line) in &mut trace.lines {
            if let Line::Waited(time) = line {
                *time = (*time).min(1 << 62);
            }
        }
    });
    let pieces = shown_by(|trace| {
        if trace.lines.iter().filter(|(_, line)| *line == Line::Piece(131_072)).count() > 4 {
            trace.lines.pop();
        }
    });
    assert!([content, prefix, error, waited, pieces].iter().all(|seeds| *seeds < 10_000), "{content} {prefix} {error} {waited} {pieces}");
}

/// What both do, without the bytes of statuses.
fn played(text: &str) -> Vec<String> {
    let s = Scenario::parse(text).unwrap();
    let (mut first, mut second) = (Original::default(), ours::side());
    assert_eq!(compare(&mut first, &mut second, &s), None, "{text}");
    let lines = first.run(&s, &[]).print();
    lines.lines().map(|line| line.split(" 6400000026").next().unwrap().to_string()).collect()
}

#[test]
fn another_producer_fills_the_queue() {
    let text = "queue 1\nstatus 100\nidle 100\nat 0\nfill 2\nbytes 64000000166b0000000000000000000000000000000000\nat 3\ntake 1\nfill 1\n";
    assert_eq!(played(text), ["0 write", "0 piece 23", "3 event K 0/0 0 0", "metrics 1 1 0 1 3000 0/0 0/0"]);
}

#[test]
fn a_report_carries_its_own_moment() {
    let status = "status 5\nidle 100\ntiming\nat 0\nat 1\n";
    assert_eq!(played(&format!("{status}report 0/1\nat 5\n"))[2], "5 waited 4000000");
    assert_eq!(played(&format!("{status}report 0/1 from 0\nat 5\n"))[2], "5 waited 5000000");
    assert_eq!(played(&format!("{status}report 0/1 from 9\nat 5\n"))[2], "5 waited 0");
}

/// Three files confirm nothing; the moment that counts is that of the report which raises the smallest.
#[test]
fn four_files_have_one_confirmation() {
    let status = "status 5\nidle 100\ntiming\nat 0\nat 1\nfile 0 0/5\nfile 1 0/7\nat 2\nfile 2 0/6\n";
    assert_eq!(played(&format!("{status}at 5\n")).len(), 2);
    assert_eq!(played(&format!("{status}at 3\nfile 3 0/9\nat 5\n"))[2], "5 waited 2000000");
    assert_eq!(played(&format!("{status}at 3\nfile 4 0/9\nat 5\n")).len(), 2);
    let last = |text: &str| played(text).pop().unwrap();
    assert_eq!(last(&format!("{status}at 3\nfile 3 0/9\nat 5\n")), "metrics 0 2 0 0 0 0/5 0/0");
    assert_eq!(last(&format!("{status}at 3\nfile 3 0/9\nfile 0 0/4\nfile 0 0/8\nat 5\n")), "metrics 0 2 0 0 0 0/6 0/0");
}

#[test]
fn what_happens_during_a_call_is_seen_after_it() {
    let keepalives = "64000000166b000000000000000000000000000000000164000000166b0000000000000000000000000000000000";
    let text = format!("queue 1\nstatus 100\nidle 100\nat 0\nbytes {keepalives}\nduring 3 fill 1\nduring 3 stop\n");
    // The reply to the first keepalive is the third call: its event finds the queue full, and stop ends the stall.
    assert_eq!(played(&text), ["0 write", "0 piece 46", "0 write", "0 write 6300000004", "0 end 0", "metrics 0 2 1 1 0 0/0 0/0"]);
}

#[test]
fn time_that_passes_during_a_read_is_seen_after_it() {
    let text = "status 5\nidle 100\nat 0\nbytes 64000000166b0000000000000000000000000000000001\nduring 2 pass 7\nat 8\n";
    // Read at 0; its reply, its event and the next turn are at 7.
    assert_eq!(played(text), ["0 write", "0 piece 23", "7 write", "7 event K 0/0 0 1", "metrics 1 2 1 0 0 0/0 0/0"]);
}

/// A status is due before a round, and time passes in the calls made then, up to the round and past it: the run goes on until it can do nothing
/// more, and only then the round begins.
#[test]
fn a_round_that_time_in_calls_reaches() {
    let data = "640000001d77000000000000000000000000000000000000000000000000";
    let pieces = "bytes 48\n".to_string() + &"bytes 00\n".repeat(8);
    let text =
        format!("status 5\nidle 10\nqueue 1\nat 0\nbytes {data}{data}000000\n{pieces}at 4\nduring 1 close\nduring 6 pass 1\nduring 9 pass 1\nat 6\n");
    let lines = played(&text);
    // The last pieces are read at 7, the moment that the second passing reaches, and not with the round at 6.
    assert!(lines.iter().any(|line| line == "7 piece 1"), "{lines:?}");
}
