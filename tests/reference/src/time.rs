//! Times in seconds from a Monday 00:00.

use crate::numbers::{DAYS_PER_WEEK, MINUTES_PER_DAY, SECONDS_PER_DAY, SECONDS_PER_MINUTE};

/// Now less then, or 0 where now is earlier: a clock set back never makes time pass.
pub fn elapsed(now: u32, then: u32) -> u32 {
    now.saturating_sub(then)
}

/// The date as a number of whole days.
pub fn date(time: u32) -> u32 {
    time / SECONDS_PER_DAY
}

/// The weekday, 0 for Monday to 6 for Sunday.
pub fn weekday(time: u32) -> u32 {
    date(time) % DAYS_PER_WEEK
}

/// The weekday before one; before Monday, the first of all too, it is Sunday.
pub fn weekday_before(weekday: u32) -> u32 {
    (weekday + DAYS_PER_WEEK - 1) % DAYS_PER_WEEK
}

pub fn minute_of_day(time: u32) -> u16 {
    (time / SECONDS_PER_MINUTE % u32::from(MINUTES_PER_DAY)) as u16
}
