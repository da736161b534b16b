//! Opening hours of a venue.

use crate::archive::assert_archive;
use crate::ffi;
use crate::Refusal;

/// Days of the week, in the order in which [`OpeningHours`] has their windows.
#[derive(Clone, Copy, Debug, PartialEq, Eq, Hash)]
pub enum Weekday {
    /// The first window's day.
    Monday,
    /// The second window's day.
    Tuesday,
    /// The third window's day.
    Wednesday,
    /// The fourth window's day.
    Thursday,
    /// The fifth window's day.
    Friday,
    /// The sixth window's day.
    Saturday,
    /// The seventh window's day.
    Sunday,
}

/// When the hall is open on a day: from its opening minute on, and in its closing minute no longer. Minutes are counted from 00:00, up to 1,440;
/// equal ones mean shut all day.
#[derive(Clone, Copy, Debug, Default, PartialEq, Eq, Hash)]
pub struct Window {
    /// The first minute that is open.
    pub opens_minute: u16,
    /// The first minute after it that is shut.
    pub closes_minute: u16,
}

impl Window {
    /// Shut all day.
    pub const SHUT: Window = Window { opens_minute: 0, closes_minute: 0 };

    /// Open all day. Where the next day begins open, too, midnight is no change.
    pub const OPEN: Window = Window { opens_minute: 0, closes_minute: 1440 };

    /// From one minute to another.
    pub const fn new(opens_minute: u16, closes_minute: u16) -> Window {
        Window { opens_minute, closes_minute }
    }
}

/// A window for each weekday, on a clock that is so many minutes ahead of UTC. It is shut always until windows are given.
///
/// ```
/// use rufflesquash::{HoursAt, OpeningHours, Weekday, Window};
///
/// // Saturdays from 10:00 to 18:00, an hour ahead of UTC.
/// let hours = OpeningHours::new(60).with(Weekday::Saturday, Window::new(600, 1080));
/// // At 2000-01-01 00:00 UTC, a Saturday, the hall is shut; nine hours later it opens.
/// assert_eq!(hours.at(0)?, HoursAt { open: false, changes_at_micros: Some(9 * 3_600_000_000) });
/// # Ok::<(), rufflesquash::Refusal>(())
/// ```
#[derive(Clone, Copy, Debug, Default, PartialEq, Eq, Hash)]
pub struct OpeningHours {
    /// The windows, Monday first.
    pub windows: [Window; 7],
    /// The minutes that are added to UTC, -840 to 840.
    pub offset_minutes: i32,
}

impl OpeningHours {
    /// Shut always, on a clock that is so many minutes ahead of UTC.
    pub const fn new(offset_minutes: i32) -> OpeningHours {
        OpeningHours { windows: [Window::SHUT; 7], offset_minutes }
    }

    /// The same with another window on a weekday.
    pub const fn with(mut self, weekday: Weekday, window: Window) -> OpeningHours {
        self.windows[weekday as usize] = window;
        self
    }

    /// The window of a weekday.
    pub const fn window(&self, weekday: Weekday) -> Window {
        self.windows[weekday as usize]
    }

    /// Whether the hall is open at a moment, in microseconds from 2000-01-01 00:00 UTC, and the first later moment at which that changes. The
    /// answer may lie past the last moment that can be asked for, which is 4,611,686,018,427,387,904. Refused are, in this order: a window that
    /// opens after it closes or has a minute above 1,440 (32), an offset outside its range (33), a moment outside its own (34).
    pub fn at(&self, moment_micros: i64) -> Result<HoursAt, Refusal> {
        assert_archive();
        let opens = self.windows.map(|window| u64::from(window.opens_minute));
        let closes = self.windows.map(|window| u64::from(window.closes_minute));
        let (number, words) = ffi::hours(&opens, &closes, i64::from(self.offset_minutes), moment_micros);
        Refusal::checked(number).map(|()| HoursAt {
            open: words[ffi::HOURS_OPEN] != 0,
            changes_at_micros: (words[ffi::HOURS_CHANGES] != 0).then_some(words[ffi::HOURS_MOMENT] as i64),
        })
    }
}

/// What the hours say at a moment.
#[derive(Clone, Copy, Debug, PartialEq, Eq, Hash)]
pub struct HoursAt {
    /// Whether the venue is open.
    pub open: bool,
    /// The first later moment at which that changes, in microseconds from 2000-01-01 00:00 UTC; none where it never does.
    pub changes_at_micros: Option<i64>,
}
