//! Scenarios of the comparison, each with a second stream that differs in hidden bytes alone: the project's run writes the same bytes at the same
//! moments, takes the same pieces, refuses and counts the same, and hands on the same events with data and content left out. So does the Rust.

use runs::draw::Draw;
use runs::generate::scenario;
use runs::original::Original;
use runs::ours;
use runs::scenario::{Happening, Scenario};
use runs::side::Side;
use runs::trace::{Event, Line, Trace};

/// The hidden places of a stream, read apart from the project: of whole messages within the limit the content of a Message, and what follows the
/// first byte of other data.
fn hidden(bytes: &[u8], limit: usize) -> Vec<std::ops::Range<usize>> {
    let (mut at, mut all) = (0, Vec::new());
    while let Some(header) = bytes.get(at..at + 5) {
        let length = u32::from_be_bytes(header[1..].try_into().unwrap()) as usize;
        let end = at + 1 + length;
        if length < 4 || length - 4 > limit || end > bytes.len() {
            break;
        }
        if header[0] == b'd' && length >= 4 + 25 && bytes[at + 5] == b'w' {
            all.extend(hidden_in_data(&bytes[at + 30..end]).map(|(from, to)| at + 30 + from..at + 30 + to));
        }
        at = end;
    }
    all
}

fn hidden_in_data(data: &[u8]) -> Option<(usize, usize)> {
    match data.first()? {
        b'B' | b'C' => None,
        b'M' => {
            let prefix = data.get(10..)?.iter().position(|b| *b == 0)?;
            let from = 10 + prefix + 1 + 4;
            let length = i32::from_be_bytes(data.get(from - 4..from)?.try_into().unwrap());
            let to = from + usize::try_from(length).ok()?;
            (to <= data.len()).then_some((from, to))
        }
        _ => Some((1, data.len())),
    }
}

/// The scenario with other bytes in the hidden places, in the same pieces.
fn varied(s: &Scenario, draw: &mut Draw) -> (Scenario, usize) {
    let whole: Vec<u8> = pieces(s).flatten().copied().collect();
    let mut other = whole.clone();
    for range in hidden(&whole, s.limit as usize) {
        other[range].iter_mut().for_each(|b| *b = draw.next() as u8);
    }
    let changed = whole.iter().zip(&other).filter(|(a, b)| a != b).count();
    let (mut second, mut at) = (s.clone(), 0);
    for what in second.rounds.iter_mut().flat_map(|round| &mut round.what) {
        if let Happening::Bytes(piece) = what {
            let n = piece.len();
            piece.copy_from_slice(&other[at..at + n]);
            at += n;
        }
    }
    (second, changed)
}

fn pieces(s: &Scenario) -> impl Iterator<Item = &Vec<u8>> {
    s.rounds.iter().flat_map(|round| &round.what).filter_map(|what| if let Happening::Bytes(b) = what { Some(b) } else { None })
}

/// With data and content left out; their lengths stay.
fn left_out(mut trace: Trace) -> Trace {
    for (_, line) in &mut trace.lines {
        match line {
            Line::Event(Event::Message { content, .. }) => content.fill(0),
            Line::Event(Event::Other { data, .. }) => data.fill(0),
            _ => {}
        }
    }
    trace
}

#[test]
fn hidden_bytes_show_nowhere() {
    let mut draw = Draw::new(14);
    let (mut differ, mut events) = (0, 0);
    for seed in 0..20_000 {
        let first = scenario(seed);
        let (second, changed) = varied(&first, &mut draw);
        let times: Vec<i64> = (0..2_000).map(|n| n * 7).collect();
        let [a, b] = [&first, &second].map(|s| ours::side().run(s, &times));
        differ += (a.lines != b.lines) as u64;
        events += (changed > 0) as u64;
        assert_eq!(left_out(a), left_out(b), "seed {seed}");
    }
    assert!(events > 5_000 && differ > 2_000, "{events} streams have hidden bytes, {differ} traces differ in data or content");
}

#[test]
fn nor_in_the_rust() {
    let mut draw = Draw::new(15);
    let mut rust = Original::default();
    for seed in 0..500 {
        let first = scenario(seed);
        let (second, _) = varied(&first, &mut draw);
        let [a, b] = [&first, &second].map(|s| rust.run(s, &[]));
        // The Rust reads a clock of its own for the times that its statuses bear.
        assert_eq!(without_times(left_out(a)), without_times(left_out(b)), "seed {seed}");
    }
}

fn without_times(mut trace: Trace) -> Trace {
    for (_, line) in &mut trace.lines {
        if let Line::Write(bytes) = line {
            if runs::trace::client_time(bytes).is_some() {
                runs::trace::put_client_time(bytes, 0);
            }
        }
    }
    trace
}
