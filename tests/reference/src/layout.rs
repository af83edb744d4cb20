//! Offsets of the fields in site records, state records, entries and answers, and places in the bits
//! of a reader, each written once.

/// Fields that every site record has.
pub mod record {
    pub const KIND: usize = 0;
    pub const FLAGS: usize = 1;
    pub const INSTANCE: usize = 4;
}

pub mod zone {
    pub const PASSBACK_MODE: usize = 2;
    pub const OCCUPANCY_UPPER_LIMIT: usize = 8;
    pub const OCCUPANCY_LOWER_LIMIT: usize = 12;
    pub const PASSBACK_TIMEOUT: usize = 16;
}

pub mod point {
    pub const AUTHORIZATION_MODE: usize = 2;
    pub const FACTORS_WANTED: usize = 3;
    pub const ZONE_TO: usize = 8;
    pub const ZONE_FROM: usize = 12;
    pub const THREAT_LEVEL: usize = 16;
    pub const MAX_FAILED_ATTEMPTS: usize = 17;
    pub const FACTOR_TIMEOUT: usize = 18;
    pub const LOCKOUT_RELINQUISH_TIME: usize = 20;
    pub const FAILED_ATTEMPTS_TIME: usize = 24;
}

pub mod rule {
    pub const LOCATION_KIND: usize = 2;
    pub const DAYS: usize = 3;
    pub const LOCATION: usize = 8;
    pub const FROM: usize = 12;
    pub const TO: usize = 14;
}

pub mod credential {
    pub const CREDENTIAL_DISABLE: usize = 2;
    pub const THREAT_AUTHORITY: usize = 3;
    pub const ACTIVATION_TIME: usize = 8;
    pub const EXPIRY_TIME: usize = 12;
    pub const USES_REMAINING: usize = 16;
    pub const DAYS_REMAINING: usize = 18;
    pub const ABSENTEE_LIMIT: usize = 20;
    pub const MOST_WRONG_TRIES: usize = 22;
    pub const FIRST_RIGHTS: usize = 24;
    pub const SECOND_RIGHTS: usize = 28;
}

pub mod factor {
    pub const ROLE: usize = 2;
    pub const DISABLE: usize = 3;
    pub const FORMAT: usize = 8;
    pub const VALUE: usize = 16;
}

pub mod zone_state {
    pub const OCCUPANCY_COUNT: usize = 0;
}

pub mod point_state {
    pub const ACCESS_EVENT_TAG: usize = 0;
    pub const FAILED_ATTEMPTS: usize = 4;
    pub const LOCKOUT: usize = 5;
    pub const LOCK_TIME: usize = 8;
    pub const FIRST_FAILURE: usize = 12;
    pub const WAITING_CREDENTIAL: usize = 16;
    pub const WAITING_SINCE: usize = 20;
}

pub mod credential_state {
    pub const USES_REMAINING: usize = 0;
    pub const DAYS_REMAINING: usize = 2;
    pub const LAST_USE_TIME: usize = 4;
    pub const ZONE: usize = 8;
    pub const ENTERED: usize = 12;
    pub const LAST_ACCESS_EVENT: usize = 16;
    pub const CREDENTIAL_DISABLE: usize = 18;
    pub const WRONG_TRIES: usize = 19;
    pub const LAST_ACCESS_POINT: usize = 20;
    pub const LAST_GRANT_TIME: usize = 24;
}

pub mod entry {
    pub const OPERATION: usize = 0;
    pub const ARGUMENT: usize = 1;
    pub const SPARE: usize = 2;
    pub const TIME: usize = 4;
    pub const INSTANCE: usize = 8;
    pub const AMOUNT: usize = 12;
    pub const VALUE: usize = 16;
}

pub mod answer {
    pub const EVENT: usize = 0;
    pub const MARKS: usize = 2;
    pub const REFUSAL: usize = 3;
    pub const TAG: usize = 4;
    pub const CREDENTIAL: usize = 8;
    pub const COUNT: usize = 12;
}

/// Places in the bits of a raw 26-bit reader; the first bit has place 0.
pub mod wiegand26 {
    use std::ops::Range;

    pub const FIRST_PARITY: usize = 0;
    pub const FACILITY: Range<usize> = 1..9;
    pub const CARD: Range<usize> = 9..25;
    pub const LAST_PARITY: usize = 25;
    /// The bits that the first parity bit makes even.
    pub const FIRST_HALF: Range<usize> = 0..13;
    /// The bits that the last parity bit makes odd.
    pub const LAST_HALF: Range<usize> = 13..26;
}
