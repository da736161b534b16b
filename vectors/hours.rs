//! Opening hours, read a second time: a moment as a date and a time of day, the weekday from the date, and a walk from minute to minute. Then the
//! records of kind `v`.

use crate::shared::Draw;
use crate::Vectors;
use std::fmt::Write as _;

/// For each weekday, Monday first, the opening and the closing minute; minutes that are added to UTC.
#[derive(Clone, Copy)]
pub struct Hours {
    pub windows: [(u64, u64); 7],
    pub offset: i64,
}

#[derive(Clone, Copy, PartialEq, Debug)]
pub enum Next {
    At(i64),
    Never,
}

const MICROS: i64 = 60_000_000;
const MOST_MOMENT: i64 = 4_611_686_018_427_387_904;

fn leap(year: i64) -> bool {
    year.rem_euclid(4) == 0 && (year.rem_euclid(100) != 0 || year.rem_euclid(400) == 0)
}

fn month_days(year: i64, month: usize) -> i64 {
    [31, 28 + leap(year) as i64, 31, 30, 31, 30, 31, 31, 30, 31, 30, 31][month - 1]
}

/// Year, month and day, so many days after 2000-01-01: whole periods of 400 years first, then year by year and month by month.
pub fn date(days: i64) -> (i64, usize, i64) {
    let (mut year, mut left) = (2000 + 400 * days.div_euclid(146_097), days.rem_euclid(146_097));
    while left >= 365 + leap(year) as i64 {
        left -= 365 + leap(year) as i64;
        year += 1;
    }
    let mut month = 1;
    while left >= month_days(year, month) {
        left -= month_days(year, month);
        month += 1;
    }
    (year, month, left + 1)
}

/// The weekday of a date, 0 for Monday, by Zeller's congruence for the Gregorian calendar.
pub fn weekday(year: i64, month: usize, day: i64) -> usize {
    let (y, m) = if month < 3 { (year - 1, month as i64 + 12) } else { (year, month as i64) };
    let saturday_first = day + 13 * (m + 1) / 5 + y + y.div_euclid(4) - y.div_euclid(100) + y.div_euclid(400);
    (saturday_first + 5).rem_euclid(7) as usize
}

/// Whether the hall is open in a minute, counted from 2000-01-01 00:00 of the venue's clock.
fn open_in(hours: &Hours, minute: i64) -> bool {
    let (year, month, day) = date(minute.div_euclid(1440));
    let (opens, closes) = hours.windows[weekday(year, month, day)];
    (opens..closes).contains(&(minute.rem_euclid(1440) as u64))
}

/// The refusal's number, 0 for none, whether the hall is open, and when that changes. Every minute of the eight days after the moment is looked at.
pub fn ask(hours: &Hours, moment: i64) -> (u8, bool, Next) {
    if hours.windows.iter().any(|(opens, closes)| opens > closes || *opens > 1440 || *closes > 1440) {
        return (32, false, Next::Never);
    }
    if !(-840..=840).contains(&hours.offset) {
        return (33, false, Next::Never);
    }
    if !(-MOST_MOMENT..=MOST_MOMENT).contains(&moment) {
        return (34, false, Next::Never);
    }
    let minute = moment.div_euclid(MICROS);
    let open = open_in(hours, minute + hours.offset);
    let change = (minute + 1..minute + 8 * 1440 + 1).find(|m| open_in(hours, m + hours.offset) != open);
    (0, open, change.map_or(Next::Never, |m| Next::At(m * MICROS)))
}

const DAY: i64 = 86_400_000_000;
const SHUT: [(u64, u64); 7] = [(0, 0); 7];
const ALWAYS: [(u64, u64); 7] = [(0, 1440); 7];
const OFFICE: [(u64, u64); 7] = [(600, 1080), (600, 1080), (600, 1080), (600, 1200), (600, 1320), (540, 1320), (0, 0)];

impl Vectors {
    /// A question and its line.
    fn hours(&mut self, windows: [(u64, u64); 7], offset: i64, moment: i64) {
        let mut input = Vec::new();
        for (opens, closes) in windows {
            input.extend((opens as u16).to_be_bytes());
            input.extend((closes as u16).to_be_bytes());
        }
        input.extend((offset as i32).to_be_bytes());
        input.extend(moment.to_be_bytes());
        self.record(b'v', 0, 0, &input);
        let line = match ask(&Hours { windows, offset }, moment) {
            (0, open, Next::At(at)) => format!("v 0 {} {at}", open as u8),
            (0, open, Next::Never) => format!("v 0 {} never", open as u8),
            (refusal, ..) => format!("v {refusal}"),
        };
        writeln!(self.lines, "{line}").unwrap();
    }
}

/// The moment at which a date's day begins in UTC, found by trying days around a guess.
fn moment_of(year: i64, month: usize, day: i64) -> i64 {
    let guess = (year - 2000) * 365;
    let days = (guess - 400..guess + 400).find(|d| date(*d) == (year, month, day)).expect("a date near its year's days");
    days * DAY
}

/// A window on one day of the week, 0 for Monday.
fn one_day(weekday: usize, window: (u64, u64)) -> [(u64, u64); 7] {
    let mut windows = SHUT;
    windows[weekday] = window;
    windows
}

/// Dates whose weekday is public, 0 for Monday.
const KNOWN: [(i64, usize, i64, usize); 16] = [
    (1582, 10, 15, 4), // the first day of the Gregorian calendar
    (1776, 7, 4, 3),
    (1900, 1, 1, 0),
    (1900, 3, 1, 3), // 1900 was no leap year
    (1969, 7, 20, 6),
    (1970, 1, 1, 3),
    (1989, 11, 9, 3),
    (1996, 2, 29, 3),
    (1999, 12, 31, 4),
    (2000, 1, 1, 5),
    (2000, 2, 29, 1),
    (2000, 3, 1, 2),
    (2001, 9, 9, 6),
    (2024, 2, 29, 3),
    (2026, 11, 16, 0),
    (2100, 3, 1, 0), // nor will 2100 be one
];

/// A hall that is open on the date's weekday alone: at the day's first and last microsecond, and at those beside them.
fn known_days(v: &mut Vectors) {
    for (year, month, day, known) in KNOWN {
        assert_eq!(weekday(year, month, day), known, "{year}-{month}-{day}");
        let begins = moment_of(year, month, day);
        for moment in [begins - 1, begins, begins + DAY - 1, begins + DAY] {
            v.hours(one_day(known, (0, 1440)), 0, moment);
        }
    }
}

/// Windows at their edges: the opening and the closing minute, midnight, empty ones, and those that never change.
fn windows(v: &mut Vectors) {
    let monday = 2 * DAY;
    let at = |minute: i64| monday + minute * MICROS;
    for moment in [at(599), at(600) - 1, at(600), at(659), at(660) - 1, at(660), at(661)] {
        v.hours(one_day(0, (600, 660)), 0, moment);
    }
    for (first, second) in [((1430, 1440), (0, 10)), ((1430, 1440), (1, 10)), ((1430, 1439), (0, 10)), ((1440, 1440), (0, 1)), ((0, 0), (0, 1440))] {
        let mut two = SHUT;
        (two[0], two[1]) = (first, second);
        (0..3).for_each(|i| v.hours(two, 0, at(1429) + i * 6 * MICROS));
        v.hours(two, 0, at(1440) - 1);
        v.hours(two, 0, at(1440));
    }
    // over the week's end
    let mut over = SHUT;
    (over[6], over[0]) = ((1380, 1440), (0, 60));
    [at(-61), at(-1), at(0), at(59), at(60)].into_iter().for_each(|moment| v.hours(over, 0, moment));
    for windows in [SHUT, ALWAYS, [(720, 720); 7], [(1440, 1440); 7]] {
        [0, at(0), -1].into_iter().for_each(|moment| v.hours(windows, 0, moment));
    }
    for day in 0..7 {
        let mut gap = ALWAYS;
        gap[day] = (1, 1440);
        v.hours(gap, 0, 0);
    }
}

/// Both signs of the offset, by less than a minute's difference around a change, and at its limits.
fn offsets(v: &mut Vectors) {
    for offset in [-840, -839, -300, -60, -1, 0, 1, 60, 120, 330, 765, 839, 840] {
        for moment in [0, -1, 2 * DAY - offset * MICROS, 2 * DAY - offset * MICROS - 1] {
            v.hours(OFFICE, offset, moment);
        }
    }
}

/// Both ends of the range of moments, where the answer lies outside it.
fn ends(v: &mut Vectors) {
    for moment in [MOST_MOMENT, MOST_MOMENT - 1, -MOST_MOMENT, 1 - MOST_MOMENT] {
        [-840, 0, 840].into_iter().for_each(|offset| v.hours(OFFICE, offset, moment));
        (0..7).for_each(|day| v.hours(one_day(day, (0, 1)), 0, moment));
    }
}

/// Each refusal at its limits, each window in turn, and two that apply at once.
fn refusals(v: &mut Vectors) {
    for window in [(1, 0), (1440, 1439), (65_535, 65_535)] {
        v.hours(one_day(0, window), 0, 0);
    }
    for day in 0..7 {
        for window in [(601, 600), (0, 1441), (1441, 1441)] {
            v.hours(one_day(day, window), 0, 0);
        }
    }
    for offset in [-841, 841, i32::MIN as i64, i32::MAX as i64] {
        v.hours(SHUT, offset, 0);
    }
    for moment in [MOST_MOMENT + 1, -MOST_MOMENT - 1, i64::MAX, i64::MIN] {
        v.hours(SHUT, 0, moment);
        v.hours(SHUT, 841, moment);
        v.hours(one_day(6, (601, 600)), 0, moment);
    }
    v.hours(one_day(6, (0, 1441)), -841, 0);
}

/// Any windows, half of them whole days or none, at any moment.
fn drawn(v: &mut Vectors, draw: &mut Draw, n: usize) {
    for _ in 0..n {
        let windows = [(); 7].map(|()| match draw.below(4) {
            0 => (0, 1440),
            1 => (0, 0),
            _ => {
                let (a, b) = (draw.below(1441), draw.below(1441));
                (a.min(b), a.max(b))
            }
        });
        let offset = draw.below(1681) as i64 - 840;
        let moment = (draw.next() as i64 >> draw.below(20)).clamp(-MOST_MOMENT, MOST_MOMENT);
        v.hours(windows, offset, moment);
    }
}

pub fn all(v: &mut Vectors, draw: &mut Draw) {
    known_days(v);
    windows(v);
    offsets(v);
    ends(v);
    refusals(v);
    drawn(v, draw, 26);
}
