//! Opening hours by the crate's calendar.

use rufflesquash::{HoursAt, Kind, OpeningHours, Refusal, Weekday, Window};

const MINUTE: i64 = 60_000_000;
const DAY: i64 = 1440 * MINUTE;
const MOST: i64 = 4_611_686_018_427_387_904;
const WEEK: [Weekday; 7] =
    [Weekday::Saturday, Weekday::Sunday, Weekday::Monday, Weekday::Tuesday, Weekday::Wednesday, Weekday::Thursday, Weekday::Friday];

fn told(open: bool, changes_at_micros: i64) -> Result<HoursAt, Refusal> {
    Ok(HoursAt { open, changes_at_micros: Some(changes_at_micros) })
}

#[test]
fn each_weekday_has_its_own_window() {
    // moment 0 is a Saturday
    for (days, weekday) in WEEK.into_iter().enumerate() {
        let hours = OpeningHours::new(0).with(weekday, Window::new(600, 660));
        let begins = days as i64 * DAY;
        assert_eq!(hours.window(weekday), Window::new(600, 660));
        assert_eq!(hours.at(begins + 600 * MINUTE - 1), told(false, begins + 600 * MINUTE));
        assert_eq!(hours.at(begins + 600 * MINUTE), told(true, begins + 660 * MINUTE));
        assert_eq!(hours.at(begins + 660 * MINUTE - 1), told(true, begins + 660 * MINUTE));
        assert_eq!(hours.at(begins + 660 * MINUTE), told(false, begins + 7 * DAY + 600 * MINUTE));
    }
}

#[test]
fn midnight_between_two_open_days_is_no_change() {
    let hours = OpeningHours::new(0).with(Weekday::Saturday, Window::OPEN).with(Weekday::Sunday, Window::new(0, 1));
    assert_eq!(hours.at(0), told(true, DAY + MINUTE));
    let later = hours.with(Weekday::Sunday, Window::new(1, 2));
    assert_eq!(later.at(0), told(true, DAY));
    assert_eq!(later.at(DAY), told(false, DAY + MINUTE));
}

#[test]
fn the_offset_is_added_to_utc() {
    let hours = OpeningHours::new(0).with(Weekday::Saturday, Window::new(600, 660));
    for offset_minutes in [-840, -90, 90, 599] {
        let there = OpeningHours { offset_minutes, ..hours };
        let opens = (600 - i64::from(offset_minutes)) * MINUTE;
        assert_eq!(there.at(opens - 1), told(false, opens));
        assert_eq!(there.at(opens), told(true, opens + 60 * MINUTE));
    }
}

#[test]
fn some_hours_never_change() {
    let never = |open| Ok(HoursAt { open, changes_at_micros: None });
    assert_eq!(OpeningHours::default().at(MOST), never(false));
    assert_eq!(OpeningHours { windows: [Window::OPEN; 7], offset_minutes: -840 }.at(-MOST), never(true));
    assert_eq!(OpeningHours { windows: [Window::new(1440, 1440); 7], offset_minutes: 0 }.at(0), never(false));
}

#[test]
fn the_answer_may_lie_past_the_last_moment() {
    let hours = OpeningHours::new(0).with(Weekday::Monday, Window::new(0, 1));
    let last = hours.at(MOST).unwrap().changes_at_micros.unwrap();
    assert!(last > MOST && last - MOST <= 7 * DAY);
    assert_eq!(hours.at(last), Err(Refusal::CalendarMomentOutOfRange));
}

#[test]
fn refusals_come_in_order() {
    let window = OpeningHours::new(841).with(Weekday::Sunday, Window::new(1, 0));
    assert_eq!(window.at(MOST + 1), Err(Refusal::InvalidWindow));
    assert_eq!(OpeningHours::new(0).with(Weekday::Monday, Window::new(0, 1441)).at(0), Err(Refusal::InvalidWindow));
    assert_eq!(OpeningHours::new(841).at(MOST + 1), Err(Refusal::OffsetOutOfRange));
    assert_eq!(OpeningHours::new(i32::MIN).at(0), Err(Refusal::OffsetOutOfRange));
    for moment in [MOST + 1, -MOST - 1, i64::MIN, i64::MAX] {
        assert_eq!(OpeningHours::new(-840).at(moment), Err(Refusal::CalendarMomentOutOfRange));
    }
    for refusal in [Refusal::InvalidWindow, Refusal::OffsetOutOfRange, Refusal::CalendarMomentOutOfRange] {
        assert_eq!((refusal.kind(), refusal.is_transient()), (Kind::Usage, false));
    }
}
