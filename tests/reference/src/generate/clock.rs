//! Times of one case, gathered around its base so that timeouts and windows are met closely.

use super::random::Random;
use crate::numbers::{NEVER, SECONDS_PER_DAY, SECONDS_PER_MINUTE};
use crate::time::date;

/// The latest time that an entry may carry.
const LAST_TIME: u32 = NEVER - 1;

/// A time for a case to begin with.
pub fn base_time(random: &mut Random) -> u32 {
    let any = random.below(20) as u32;
    // Often the first Monday, or a Sunday or the Monday after it, where the days of rules begin anew.
    let day = random.pick(&[0, 0, 6, 7, any, any]) * SECONDS_PER_DAY;
    let minute = random.below(1_440) as u32 * SECONDS_PER_MINUTE;
    match random.below(16) {
        0 => 0,
        1..=2 => random.pick(&[1, 59, 60, 100, 3_600]),
        3 => LAST_TIME - random.below(200) as u32,
        4 => random.number32().min(LAST_TIME),
        5..=7 => day,
        // So that the journal runs past midnight.
        8..=9 => day + SECONDS_PER_DAY - 1 - random.below(120) as u32,
        _ => day + minute,
    }
}

/// A time at or beside the start of a minute, of the day of `now` or of the one after it.
pub fn beside_minute(random: &mut Random, now: u32, minute: u16) -> u32 {
    let day = (date(now) + random.below(2) as u32).saturating_mul(SECONDS_PER_DAY);
    let start = day.saturating_add(u32::from(minute) * SECONDS_PER_MINUTE);
    let distance = random.pick(&[-60, -1, 0, 0, 59, 60]);
    start.saturating_add_signed(distance).min(LAST_TIME)
}

/// A time not far from the base, on either side.
pub fn near(random: &mut Random, base: u32) -> u32 {
    let distance = random.pick(&[0, 1, 5, 10, 60, 61, 3_600, SECONDS_PER_DAY]);
    if random.sixteenths(8) {
        base.saturating_sub(distance)
    } else {
        base.saturating_add(distance).min(LAST_TIME)
    }
}

/// A time on the date of the base or on one beside it, often in the first or last second of a date.
pub fn beside_date(random: &mut Random, base: u32) -> u32 {
    let today = date(base);
    let day = random.pick(&[today.saturating_sub(1), today, today + 1]);
    let any = random.below(SECONDS_PER_DAY as usize) as u32;
    let second = random.pick(&[0, any, SECONDS_PER_DAY - 1]);
    let time = day.saturating_mul(SECONDS_PER_DAY).saturating_add(second);
    time.min(LAST_TIME)
}

/// The time of the next read of a card that comes on several dates: hours later, beside the next
/// midnight, a day later, or a day earlier where the clock is set back.
pub fn next_visit(random: &mut Random, now: u32) -> u32 {
    let midnight = (date(now) + 1).saturating_mul(SECONDS_PER_DAY);
    let time = match random.below(16) {
        0..=5 => now.saturating_add(random.below(6 * 3_600) as u32),
        6 => midnight - 1,
        7 => midnight,
        8..=12 => now.saturating_add(SECONDS_PER_DAY),
        _ => now.saturating_sub(SECONDS_PER_DAY),
    };
    time.min(LAST_TIME)
}

/// A time at which a wait since then has expired, or is in its last second.
pub fn beside_timeout(random: &mut Random, since: u32, timeout: u32) -> u32 {
    let later = random.pick(&[0, 1, 1, 60, SECONDS_PER_DAY]);
    let time = since.saturating_add(timeout).saturating_add(later);
    time.min(LAST_TIME)
}

/// The time of the entry after one at `now`: mostly a little later, at times much later or
/// set back.
pub fn next_time(random: &mut Random, base: u32, now: u32) -> u32 {
    let later = match random.below(64) {
        0..=31 => random.below(5) as u32,
        32..=45 => random.below(90) as u32,
        46..=49 => random.pick(&[60, 120, 3_600]),
        50..=52 => SECONDS_PER_DAY * (1 + random.below(3) as u32),
        53..=56 => return now.saturating_sub(random.below(3_700) as u32),
        57..=62 => return near(random, base),
        _ => return random.pick(&[0, LAST_TIME, now]),
    };
    now.saturating_add(later).min(LAST_TIME)
}
