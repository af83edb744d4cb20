//! Days and times of day in clear words.

use crate::numbers::{SECONDS_PER_DAY, SECONDS_PER_MINUTE};

pub const MONDAY: u32 = 0;
pub const TUESDAY: u32 = 1;
pub const WEDNESDAY: u32 = 2;
pub const THURSDAY: u32 = 3;
pub const FRIDAY: u32 = 4;
pub const SATURDAY: u32 = 5;
pub const SUNDAY: u32 = 6;
pub const NEXT_MONDAY: u32 = 7;
pub const NEXT_FRIDAY: u32 = 11;
pub const NEXT_SATURDAY: u32 = 12;

pub fn at(day: u32, hour: u32, minute: u32) -> u32 {
    day * SECONDS_PER_DAY + (hour * 60 + minute) * SECONDS_PER_MINUTE
}
