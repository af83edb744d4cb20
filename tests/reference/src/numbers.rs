//! The numbers of documents 01 and 02, each written once, under the names of document 002.

/// The instance that refers to no object; real instances are smaller.
pub const NONE: u32 = 4_194_303;
/// The time that stands for never, or for the end of time.
pub const NEVER: u32 = 4_294_967_295;
/// Uses and days without a limit, and an absent absentee limit.
pub const UNLIMITED: u16 = 65_535;
/// Limits, timeouts, windows, Max_Failed_Attempts and most wrong tries that are not set.
pub const UNSET: u32 = 0;
/// The highest Occupancy_Count that four bytes hold.
pub const MOST_COUNT: u32 = u32::MAX;

pub const SECONDS_PER_MINUTE: u32 = 60;
pub const SECONDS_PER_DAY: u32 = 86_400;
pub const MINUTES_PER_DAY: u16 = 1_440;
pub const DAYS_PER_WEEK: u32 = 7;

/// A record of the site, and the record of the state that belongs to it.
pub const RECORD_LENGTH: usize = 32;
pub const ENTRY_LENGTH: usize = 24;
pub const ANSWER_LENGTH: usize = 16;
pub const VALUE_LENGTH: usize = 8;
pub const MOST_SITE_BYTES: usize = 64_000;
pub const MOST_JOURNAL_BYTES: usize = 65_520;

/// Threat_Level and Threat_Authority reach from 0 to this.
pub const MOST_THREAT_LEVEL: u8 = 100;

/// Kinds of site records.
pub mod kind {
    pub const ZONE: u8 = 1;
    pub const POINT: u8 = 2;
    pub const RULE: u8 = 3;
    pub const CREDENTIAL: u8 = 4;
    pub const FACTOR: u8 = 5;
}

pub mod zone_flag {
    pub const OCCUPANCY_COUNT_ENABLE: u8 = 1;
    pub const NAMED: u8 = OCCUPANCY_COUNT_ENABLE;
}

pub mod passback_mode {
    pub const PASSBACK_OFF: u8 = 0;
    pub const HARD_PASSBACK: u8 = 1;
    pub const SOFT_PASSBACK: u8 = 2;
}

pub mod point_flag {
    pub const OUT_OF_SERVICE: u8 = 1;
    pub const OCCUPANCY_UPPER_LIMIT_ENFORCED: u8 = 2;
    pub const OCCUPANCY_LOWER_LIMIT_ENFORCED: u8 = 4;
    pub const OCCUPANCY_COUNT_ADJUST: u8 = 8;
    pub const MUSTER_POINT: u8 = 16;
    pub const NAMED: u8 = OUT_OF_SERVICE
        | OCCUPANCY_UPPER_LIMIT_ENFORCED
        | OCCUPANCY_LOWER_LIMIT_ENFORCED
        | OCCUPANCY_COUNT_ADJUST
        | MUSTER_POINT;
}

pub mod authorization_mode {
    pub const AUTHORIZE: u8 = 0;
    pub const GRANT_ACTIVE: u8 = 1;
    pub const DENY_ALL: u8 = 2;
}

/// Authentication factors wanted at a point.
pub mod factors_wanted {
    pub const ONE: u8 = 1;
    pub const TWO: u8 = 2;
}

pub mod rule_flag {
    pub const ENABLE: u8 = 1;
    pub const NEGATIVE: u8 = 2;
    pub const ALWAYS: u8 = 4;
    pub const EVERYWHERE: u8 = 8;
    pub const NAMED: u8 = ENABLE | NEGATIVE | ALWAYS | EVERYWHERE;
}

/// Kinds of a rule's location; `UNSPECIFIED` stands in rules that hold everywhere.
pub mod location_kind {
    pub const UNSPECIFIED: u8 = 0;
    pub const ZONE: u8 = 1;
    pub const POINT: u8 = 2;
}

/// All seven days of a rule; the bit above them is spare.
pub const EVERY_DAY: u8 = 0x7F;

pub mod credential_flag {
    pub const MASTER_EXEMPTION: u8 = 1;
    pub const PASSBACK_EXEMPTION: u8 = 2;
    pub const OCCUPANCY_EXEMPTION: u8 = 4;
    pub const TRACE_FLAG: u8 = 8;
    pub const EXTENDED_TIME_ENABLE: u8 = 16;
    pub const NAMED: u8 = MASTER_EXEMPTION
        | PASSBACK_EXEMPTION
        | OCCUPANCY_EXEMPTION
        | TRACE_FLAG
        | EXTENDED_TIME_ENABLE;
}

/// Credential_Disable.
pub mod credential_disable {
    pub const NONE: u8 = 0;
    pub const DISABLE: u8 = 1;
    pub const DISABLE_MANUAL: u8 = 2;
    pub const DISABLE_LOCKOUT: u8 = 3;
}

pub mod factor_role {
    pub const IDENTIFYING: u8 = 1;
    pub const CONFIRMING: u8 = 2;
}

/// The disable of one authentication factor.
pub mod factor_disable {
    pub const NONE: u8 = 0;
    pub const DISABLED: u8 = 1;
    pub const DISABLED_LOST: u8 = 2;
    pub const DISABLED_STOLEN: u8 = 3;
    pub const DISABLED_DAMAGED: u8 = 4;
    pub const DISABLED_DESTROYED: u8 = 5;
}

/// Format types of authentication factors. Formats of the site are above `ERROR`.
pub mod format {
    pub const UNDEFINED: u8 = 0;
    /// A read error.
    pub const ERROR: u8 = 1;
    /// The facility and the card number of a raw 26-bit reader.
    pub const WIEGAND26: u8 = 8;
}

/// The bits that a raw 26-bit reader hands over.
pub const WIEGAND26_BITS: u32 = 26;
/// How many numbers so many bits make; each of them is smaller.
pub const WIEGAND26_NUMBERS: u64 = 67_108_864;

pub mod operation {
    pub const READ_FACTOR: u8 = 1;
    pub const SET_COUNT: u8 = 2;
    pub const ADJUST_COUNT: u8 = 3;
    pub const SET_DISABLE: u8 = 4;
    pub const SET_LOCKOUT: u8 = 5;
}

/// Access events.
pub mod event {
    pub const NONE: u16 = 0;
    pub const GRANTED: u16 = 1;
    pub const LOCKOUT_OTHER: u16 = 7;
    pub const LOCKOUT_RELINQUISHED: u16 = 8;
    pub const DENIED_DENY_ALL: u16 = 128;
    pub const DENIED_UNKNOWN_CREDENTIAL: u16 = 129;
    pub const DENIED_AUTHENTICATION_FACTOR_TIMEOUT: u16 = 131;
    pub const DENIED_INCORRECT_AUTHENTICATION_FACTOR: u16 = 132;
    pub const DENIED_ZONE_NO_ACCESS_RIGHTS: u16 = 133;
    pub const DENIED_POINT_NO_ACCESS_RIGHTS: u16 = 134;
    pub const DENIED_NO_ACCESS_RIGHTS: u16 = 135;
    pub const DENIED_OUT_OF_TIME_RANGE: u16 = 136;
    pub const DENIED_THREAT_LEVEL: u16 = 137;
    pub const DENIED_PASSBACK: u16 = 138;
    pub const DENIED_LOWER_OCCUPANCY_LIMIT: u16 = 141;
    pub const DENIED_UPPER_OCCUPANCY_LIMIT: u16 = 142;
    pub const DENIED_AUTHENTICATION_FACTOR_LOST: u16 = 143;
    pub const DENIED_AUTHENTICATION_FACTOR_STOLEN: u16 = 144;
    pub const DENIED_AUTHENTICATION_FACTOR_DAMAGED: u16 = 145;
    pub const DENIED_AUTHENTICATION_FACTOR_DESTROYED: u16 = 146;
    pub const DENIED_AUTHENTICATION_FACTOR_DISABLED: u16 = 147;
    pub const DENIED_AUTHENTICATION_FACTOR_ERROR: u16 = 148;
    pub const DENIED_CREDENTIAL_NOT_YET_ACTIVE: u16 = 151;
    pub const DENIED_CREDENTIAL_EXPIRED: u16 = 152;
    pub const DENIED_CREDENTIAL_MANUAL_DISABLE: u16 = 153;
    pub const DENIED_CREDENTIAL_LOCKOUT: u16 = 154;
    pub const DENIED_CREDENTIAL_MAX_DAYS: u16 = 155;
    pub const DENIED_CREDENTIAL_MAX_USES: u16 = 156;
    pub const DENIED_CREDENTIAL_INACTIVITY: u16 = 157;
    pub const DENIED_CREDENTIAL_DISABLED: u16 = 158;
    pub const DENIED_LOCKOUT: u16 = 161;
    pub const DENIED_OTHER: u16 = 164;
}

/// Marks of an answer, one bit each.
pub mod mark {
    pub const AUTHENTICATION_FACTOR_READ: u8 = 1;
    pub const TRACE: u8 = 2;
    pub const PASSBACK_DETECTED: u8 = 4;
    pub const MUSTER: u8 = 8;
    pub const LOCKOUT_MAX_ATTEMPTS: u8 = 16;
    pub const EXTENDED_PULSE_UNLOCK: u8 = 32;
    pub const LOCKOUT_RELINQUISHED: u8 = 64;
}

/// Why a call or an entry is turned back.
pub mod refusal {
    pub const ACCEPTED: u8 = 0;
    pub const SITE_LENGTH: u8 = 1;
    pub const SITE_FIELD: u8 = 2;
    pub const SITE_TWICE: u8 = 3;
    pub const SITE_MISSING: u8 = 4;
    pub const STATE_LENGTH: u8 = 5;
    pub const STATE_FORM: u8 = 6;
    pub const ENTRY_FIELD: u8 = 7;
    pub const ENTRY_MISSING: u8 = 8;
    pub const ENTRY_COUNT: u8 = 9;
    pub const JOURNAL_LENGTH: u8 = 10;
    pub const ANSWERS_LENGTH: u8 = 11;
    /// The bits of a raw 26-bit reader.
    pub const RAW_BITS: u8 = 17;
}
