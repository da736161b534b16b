//! The progress cell compared: lists of calls, on the Rust's and on the project's, short ones and random ones, the first difference.

use crate::classes::{Classes, Wanted};
use crate::draw::Draw;
use original::client::worker::reach;
use rufflesquash::{Lsn, Moment, ProgressCell};
use std::fmt;

#[derive(Clone, Copy, Debug, PartialEq)]
pub enum Call {
    Raise(u64, u64),
    TakeSignal,
    TakePending(u64, u64),
    CarryPending(u64),
}

/// The calls on a new cell.
#[derive(Clone, Debug, PartialEq)]
pub struct Calls {
    pub start: u64,
    pub timed: bool,
    pub calls: Vec<Call>,
}

/// Whatever has the calls of a cell.
pub trait Cell {
    fn name() -> &'static str;
    fn new(start: u64, timed: bool) -> Self;
    /// What the call answers; a truth is 0 or 1, nothing is 0.
    fn call(&mut self, call: Call) -> u64;
    fn load(&self) -> u64;
    fn pending_since(&self) -> u64;
}

impl Cell for reach::Cell {
    fn name() -> &'static str {
        "rust"
    }

    fn new(start: u64, timed: bool) -> Self {
        reach::Cell::new(start, timed)
    }

    fn call(&mut self, call: Call) -> u64 {
        match call {
            Call::Raise(position, moment) => self.raise(position, moment) as u64,
            Call::TakeSignal => self.take_signal(),
            Call::TakePending(sent, loaded_at) => self.take_pending(sent, loaded_at),
            Call::CarryPending(since) => {
                self.carry_pending(since);
                0
            }
        }
    }

    fn load(&self) -> u64 {
        reach::Cell::load(self)
    }

    fn pending_since(&self) -> u64 {
        reach::Cell::pending_since(self)
    }
}

fn word(moment: Option<Moment>) -> u64 {
    moment.map_or(0, |m| m.0)
}

impl Cell for ProgressCell {
    fn name() -> &'static str {
        "ours"
    }

    fn new(start: u64, timed: bool) -> Self {
        ProgressCell::new(Lsn(start), timed)
    }

    fn call(&mut self, call: Call) -> u64 {
        match call {
            Call::Raise(position, moment) => self.raise(Lsn(position), Moment(moment)) as u64,
            Call::TakeSignal => self.take_signal().0,
            Call::TakePending(sent, loaded_at) => word(self.take_pending(Lsn(sent), Moment(loaded_at))),
            Call::CarryPending(since) => {
                self.carry_pending(Moment(since));
                0
            }
        }
    }

    fn load(&self) -> u64 {
        ProgressCell::load(self).0
    }

    fn pending_since(&self) -> u64 {
        word(ProgressCell::pending_since(self))
    }
}

/// Where two cells first differ: after how many calls, and what each answers, has as its position and as its pending moment.
fn difference<A: Cell, B: Cell>(list: &Calls) -> Option<(usize, [u64; 3], [u64; 3])> {
    let (mut a, mut b) = (A::new(list.start, list.timed), B::new(list.start, list.timed));
    for i in 0..=list.calls.len() {
        let (x, y) = match i.checked_sub(1) {
            Some(last) => (a.call(list.calls[last]), b.call(list.calls[last])),
            None => (0, 0),
        };
        let (x, y) = ([x, a.load(), a.pending_since()], [y, b.load(), b.pending_since()]);
        if x != y {
            return Some((i, x, y));
        }
    }
    None
}

impl fmt::Display for Calls {
    fn fmt(&self, f: &mut fmt::Formatter<'_>) -> fmt::Result {
        write!(f, "cell at {}, timed {}:", self.start, self.timed)?;
        self.calls.iter().try_for_each(|call| write!(f, " {call:?}"))
    }
}

/// The numbers of a list: the start, then those of each call.
fn numbers(list: &mut Calls) -> Vec<&mut u64> {
    let calls = list.calls.iter_mut().flat_map(|call| match call {
        Call::Raise(a, b) | Call::TakePending(a, b) => vec![a, b],
        Call::CarryPending(a) => vec![a],
        Call::TakeSignal => Vec::new(),
    });
    std::iter::once(&mut list.start).chain(calls).collect()
}

/// Fewer calls, then smaller numbers.
fn cut_down<A: Cell, B: Cell>(mut list: Calls) -> String {
    let (end, ..) = difference::<A, B>(&list).expect("a difference");
    list.calls.truncate(end);
    let differs = |list: &Calls| difference::<A, B>(list).is_some();
    let mut i = 0;
    while i < list.calls.len() {
        let mut fewer = list.clone();
        fewer.calls.remove(i);
        if differs(&fewer) {
            list = fewer;
        } else {
            i += 1;
        }
    }
    for i in 0..numbers(&mut list).len() {
        for less in 0..(*numbers(&mut list)[i]).min(3) {
            let mut other = list.clone();
            *numbers(&mut other)[i] = less;
            if differs(&other) {
                list = other;
                break;
            }
        }
    }
    let (_, x, y) = difference::<A, B>(&list).expect("a difference");
    let said = |name: &str, [answer, position, pending]: [u64; 3]| format!("{name}: {answer}, position {position}, pending {pending}");
    format!("{list}\n{}\n{}", said(A::name(), x), said(B::name(), y))
}

/// The calls with positions and moments of 0, 1 and 2.
fn short_calls() -> Vec<Call> {
    let mut all = vec![Call::TakeSignal];
    for n in 0..3 {
        all.push(Call::CarryPending(n));
        all.extend((0..3).map(|m| Call::Raise(n, m)));
        all.extend((0..3).map(|m| Call::TakePending(n, m)));
    }
    all
}

/// Every list of up to so many of these calls.
fn short(most: usize, see: &mut dyn FnMut(&Calls)) {
    let all = short_calls();
    for length in 0..=most {
        for (start, timed) in [(0, false), (0, true), (1, false), (1, true)] {
            let mut digits = vec![0; length];
            let mut list = Calls { start, timed, calls: vec![all[0]; length] };
            loop {
                see(&list);
                let Some(place) = digits.iter().rposition(|d| d + 1 < all.len()) else { break };
                digits[place] += 1;
                digits[place + 1..].fill(0);
                (place..length).for_each(|i| list.calls[i] = all[digits[i]]);
            }
        }
    }
}

const EDGES: &[u64] = &[0, 1, 2, 3, 0xFF, 0x100, 1 << 32, (1 << 63) - 1, 1 << 63, u64::MAX - 1, u64::MAX];

fn number(draw: &mut Draw) -> u64 {
    if draw.once_in(3) {
        draw.next() >> draw.below(64)
    } else {
        draw.pick(EDGES)
    }
}

fn random(draw: &mut Draw, list: &mut Calls) {
    (list.start, list.timed) = (number(draw), !draw.once_in(4));
    list.calls.clear();
    let length = if draw.once_in(200) { draw.upto(2_000) } else { 1 + draw.below(12) };
    for _ in 0..length {
        list.calls.push(match draw.below(8) {
            0..=3 => Call::Raise(number(draw), number(draw)),
            4 => Call::TakeSignal,
            5 | 6 => Call::TakePending(number(draw), number(draw)),
            _ => Call::CarryPending(number(draw)),
        });
    }
}

/// The length up to which all short lists are compared.
const SHORT: usize = 4;

/// How many lists were compared, and what was met by them: a line for each kind of size, and the classes that were not met.
#[derive(Debug)]
pub struct Compared {
    pub lists: u64,
    pub lines: Vec<String>,
    pub missing: Vec<String>,
}

const CALLS: &str = "calls in a list";
const POSITION: &str = "position in a call on a cell";
const MOMENT: &str = "moment in a call on a cell";
const ROWS: &[Wanted] =
    &[Wanted { what: CALLS, from: 0, to: 2_000 }, Wanted { what: POSITION, from: 0, to: u64::MAX }, Wanted { what: MOMENT, from: 0, to: u64::MAX }];

fn count(met: &mut Classes, list: &Calls) {
    met.count(CALLS, list.calls.len() as u64);
    for call in &list.calls {
        match call {
            Call::Raise(position, moment) | Call::TakePending(position, moment) => {
                met.count(POSITION, *position);
                met.count(MOMENT, *moment);
            }
            Call::CarryPending(moment) => met.count(MOMENT, *moment),
            Call::TakeSignal => {}
        }
    }
}

/// Compares the short lists, then so many random ones; what was met, or the first difference.
pub fn compare_cells<A: Cell, B: Cell>(random_lists: u64, seed: u64) -> Result<Compared, String> {
    let (mut lists, mut found) = (0, None);
    let mut see = |list: &Calls| {
        lists += 1;
        if found.is_none() && difference::<A, B>(list).is_some() {
            found = Some(list.clone());
        }
    };
    short(SHORT, &mut see);
    let (mut draw, mut met) = (Draw::new(seed), Classes::default());
    let mut list = Calls { start: 0, timed: false, calls: Vec::new() };
    for _ in 0..random_lists {
        random(&mut draw, &mut list);
        see(&list);
        count(&mut met, &list);
    }
    let (lines, missing) = met.print(ROWS);
    found.map_or(Ok(Compared { lists, lines, missing }), |list| Err(cut_down::<A, B>(list)))
}

pub fn compare_with_the_project(random_lists: u64, seed: u64) -> Result<Compared, String> {
    compare_cells::<reach::Cell, ProgressCell>(random_lists, seed)
}

#[cfg(test)]
mod tests {
    use super::*;

    /// Keeps the newer of two moments that are carried over.
    struct Newer(reach::Cell);

    impl Cell for Newer {
        fn name() -> &'static str {
            "newer"
        }

        fn new(start: u64, timed: bool) -> Self {
            Newer(reach::Cell::new(start, timed))
        }

        fn call(&mut self, call: Call) -> u64 {
            match call {
                Call::CarryPending(since) if self.0.pending_since() != 0 && since > self.0.pending_since() => {
                    self.0.take_pending(u64::MAX, 0);
                    self.0.carry_pending(since);
                    0
                }
                _ => self.0.call(call),
            }
        }

        fn load(&self) -> u64 {
            self.0.load()
        }

        fn pending_since(&self) -> u64 {
            self.0.pending_since()
        }
    }

    #[test]
    fn a_cell_that_differs_is_found() {
        let said = compare_cells::<reach::Cell, Newer>(0, 1).unwrap_err();
        let small = "cell at 0, timed true: CarryPending(1) CarryPending(2)\nrust: 0, position 0, pending 1\nnewer: 0, position 0, pending 2";
        assert_eq!(said, small);
    }

    #[test]
    fn the_project_agrees_with_the_rust() {
        assert_eq!(compare_with_the_project(1_000, 7).map(|compared| compared.lists > 900_000), Ok(true));
    }
}
