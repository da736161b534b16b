//! Compares the Rust with the project: compare [--model] [SCENARIOS [LEAF INPUTS [SEED]]]
//!
//! With --model the runs are compared with the model in `vectors/` instead. LEAVES names the program
//! `test_leaves`; unset, it is sought as compare/run leaves it.

use runs::bounds::compare_bounds;
use runs::cell::{self, compare_with_the_project};
use runs::compare::{compare, shrink};
use runs::generate::scenario;
use runs::leaf_records::{compare_archive, compare_leaves, short_inputs, OriginalLeaves, Program, Tally};
use runs::modelled;
use runs::nanoseconds::compare_nanoseconds;
use runs::original::Original;
use runs::ours;
use runs::scenario::Scenario;
use runs::side::Side;
use runs::stepped::{Stepped, Steps};
use std::collections::BTreeMap;
use std::time::{Duration, Instant};

fn fails(difference: String) -> ! {
    println!("{difference}");
    std::process::exit(1)
}

/// The first scenario that shows a difference, cut down.
fn show(first: &mut dyn Side, second: &mut dyn Side, seed: u64, shown: &Scenario) -> ! {
    let small = shrink(first, second, shown, Duration::from_secs(60));
    let said = compare(first, second, &small).unwrap_or("the difference does not come again".to_string());
    fails(format!("seed {seed} shows a difference; the smallest scenario found:\n\n{}\n{said}", small.print()))
}

/// Plays scenarios on both; how far the second went.
fn runs<R: Steps>(mut second: Stepped<R>, scenarios: u64, seed: u64) {
    let mut first = Original::default();
    let mut ends: BTreeMap<String, u64> = BTreeMap::new();
    let begun = Instant::now();
    for i in seed..seed + scenarios {
        let s = scenario(i);
        if compare(&mut first, &mut second, &s).is_some() {
            show(&mut first, &mut second, i, &s);
        }
        *ends.entry(first.ended.map_or("none".to_string(), |n| n.to_string())).or_insert(0) += 1;
    }
    let ((reached, mut missing), (sizes, not_met)) = (second.coverage.print(), second.coverage.sizes.print());
    missing.extend(not_met);
    println!("{reached}\n{}", sizes.join("\n"));
    println!("{scenarios} scenarios, rust and {}, {} steps, in {:.0} s, no difference", second.name, second.steps, begun.elapsed().as_secs_f64());
    println!("{} of them left the domain, by a report or time inside a step: compared up to there", second.outside);
    println!("{} of them ended at the server's CopyDone: compared up to that message", second.done);
    println!("ends: {}", ends.iter().map(|(end, n)| format!("{end}: {n}")).collect::<Vec<_>>().join(", "));
    complete("scenarios", missing, scenarios >= 20_000);
}

/// Where there were so many that every class, state, test and refusal must be met, one that was not is a failure.
fn complete(of: &str, missing: Vec<String>, must: bool) {
    if must && !missing.is_empty() {
        fails(format!("never met by these {of}: {}", missing.join("; ")));
    }
}

fn main() {
    let mut words: Vec<String> = std::env::args().skip(1).collect();
    let model = words.first().is_some_and(|w| w == "--model");
    words.drain(..model as usize);
    let number = |i: usize, usual: u64| {
        words.get(i).map_or(usual, |a| {
            a.parse().unwrap_or_else(|_| {
                eprintln!("compare: not a number: {a}");
                std::process::exit(2)
            })
        })
    };
    let (scenarios, leaves, seed) = (number(0, 100_000), number(1, 10_000_000), number(2, 1));
    if model {
        runs(modelled::side(), scenarios, seed);
        return;
    }
    runs(ours::side(), scenarios, seed);
    nanoseconds(scenarios / 4, seed);
    cells(leaves / 5, seed);
    other_leaves(leaves, seed);
}

/// The same scenarios in other units of time, on the project and on the model.
fn nanoseconds(scenarios: u64, seed: u64) {
    let begun = Instant::now();
    let (lines, missing) = compare_nanoseconds(scenarios, seed).unwrap_or_else(|difference| fails(difference));
    println!("{}", lines.join("\n"));
    println!("{scenarios} scenarios in nanoseconds, model and ours, in {:.0} s, no difference", begun.elapsed().as_secs_f64());
    complete("scenarios in nanoseconds", missing, scenarios >= 5_000);
}

fn cells(lists: u64, seed: u64) {
    let begun = Instant::now();
    let cell::Compared { lists: all, lines, missing } = compare_with_the_project(lists, seed).unwrap_or_else(|difference| fails(difference));
    println!("{}", lines.join("\n"));
    println!("{all} lists of calls on a progress cell in {:.0} s, no difference", begun.elapsed().as_secs_f64());
    complete("lists", missing, lists >= 200_000);
}

fn other_leaves(leaves: u64, seed: u64) {
    let begun = Instant::now();
    let mut program = Program { path: std::env::var_os("LEAVES").unwrap_or("../bin/test_leaves".into()).into() };
    let tally = compare_leaves(&mut OriginalLeaves, &mut program, leaves, seed).unwrap_or_else(|difference| fails(difference));
    let must = leaves >= 1_000_000;
    show_tally(&tally, "other leaf inputs", begun, must);
    println!("among them {} of the {} short ones", tally.short, short_inputs());

    let begun = Instant::now();
    let tally = compare_archive(leaves / 500, seed).unwrap_or_else(|difference| fails(difference));
    show_tally(&tally, "leaf inputs of up to 1,048,576 bytes and just over by exported calls", begun, must);

    let begun = Instant::now();
    let opened = leaves / 10_000;
    let met = compare_bounds(opened, seed).unwrap_or_else(|difference| fails(difference));
    let [accepted, short, over] = met;
    println!("open, outcomes 0: {accepted}, 4: {short}, 25: {over}");
    println!("{opened} runs opened with names around 1,048,576 bytes in {:.0} s, no difference", begun.elapsed().as_secs_f64());
    let names = ["0", "4", "25"].iter().zip(met).filter(|(_, n)| *n == 0).map(|(name, _)| format!("open with {name}"));
    complete("openings", names.collect(), must);
}

fn show_tally(tally: &Tally, what: &str, begun: Instant, must: bool) {
    let (lines, missing) = tally.print();
    println!("{}", lines.join("\n"));
    println!("{} {what} in {:.0} s, no difference", tally.all(), begun.elapsed().as_secs_f64());
    let kinds = tally.kinds.iter().map(|(kind, n)| format!("{}: {n}", *kind as char));
    println!("kinds: {}", kinds.collect::<Vec<_>>().join(", "));
    complete("inputs", missing, must);
}
