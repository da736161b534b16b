//! Moments that the Rust's timer cannot tell apart, it counts milliseconds: the same scenarios with shorter times, anywhere in the range of a step's
//! moment, on the project beside the model of `vectors/`.

use crate::classes::{Classes, Wanted};
use crate::compare::compare_steps;
use crate::draw::Draw;
use crate::generate::scenario;
use crate::modelled::{self, Modelled};
use crate::ours::{self, Ours};
use crate::scenario::{Happening, Scenario};
use crate::stepped::{Clock, Stepped};

/// The last moment that a step takes.
const LAST: u64 = i64::MAX as u64;

const MET: &str = "first moment of a run in ns";
const MET_LAST: &str = "last moment of a run in ns";

/// The last moment of a scenario: of its rounds, of what passes in calls, and of its reports.
fn last_of(s: &Scenario) -> u64 {
    let passed = s.rounds.iter().flat_map(|round| &round.during).map(|(_, what)| if let Happening::Pass(time) = what { *time } else { 0 });
    let reported = s.rounds.iter().flat_map(|round| &round.what).map(|what| if let Happening::ReportFrom(_, at) = what { *at } else { 0 });
    (s.rounds.last().map_or(0, |round| round.at) + passed.sum::<u64>()).max(reported.max().unwrap_or(0))
}

/// A unit of up to a millisecond, and a first moment, so that the last one is at most the last that a step takes, and often just that.
fn clock(draw: &mut Draw, last: u64) -> Clock {
    let most = ((LAST - 1) / last.max(1)).min(1_000_000);
    let unit = draw.upto(most).max(1);
    let room = LAST - last * unit;
    Clock { unit, first: if draw.once_in(4) { room } else { draw.upto(room).max(1) } }
}

/// So many scenarios; what was met, or the first difference.
pub fn compare_nanoseconds(count: u64, seed: u64) -> Result<(Vec<String>, Vec<String>), String> {
    let (mut first, mut second): (Stepped<Modelled>, Stepped<Ours>) = (modelled::side(), ours::side());
    let mut met = Classes::default();
    for i in seed..seed + count {
        let (s, mut draw) = (scenario(i), Draw::new(!i));
        let last = last_of(&s);
        let clock = clock(&mut draw, last);
        (first.clock, second.clock) = (clock, clock);
        let times: Vec<i64> = (0..20).map(|_| draw.upto(u64::MAX) as i64).collect();
        if let Some(said) = compare_steps(&mut first, &mut second, &s, &times) {
            let Clock { unit, first } = clock;
            return Err(format!("seed {i}, in units of {unit} ns from {first} ns on\n\n{}\n{said}", s.print()));
        }
        met.count(MET, clock.first);
        met.count(MET_LAST, clock.first + last * clock.unit);
    }
    Ok(met.print(&[Wanted { what: MET, from: 1, to: LAST }, Wanted { what: MET_LAST, from: 1, to: LAST }]))
}
