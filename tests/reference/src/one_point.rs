//! Point 1 in authorization mode GRANT_ACTIVE, and the reads of one card and one code at it.

use crate::build::{EntryFields, Point, FORMAT};
use crate::numbers::authorization_mode;

pub const CARD: [u8; 8] = [0, 0, 0, 0, 0, 0, 0, 0x55];
pub const CODE: [u8; 8] = [0, 0, 0, 0, 0, 0, 0x12, 0x34];

pub fn badge(time: u32) -> EntryFields {
    EntryFields::read_factor(time, 1, FORMAT, CARD)
}

pub fn enter_code(time: u32) -> EntryFields {
    EntryFields::read_factor(time, 1, FORMAT, CODE)
}

pub fn open_point() -> Point {
    Point {
        authorization_mode: authorization_mode::GRANT_ACTIVE,
        ..Point::new(1)
    }
}
