//! Refusal 2: whether the fields of a record are in range. Spare bits and bytes are gathered into
//! one word, so that they cost one test.

use crate::bytes::{get16, get32, half, word, Record};
use reference::layout::{credential, factor, point, record, rule, zone};
use reference::numbers::{
    authorization_mode, credential_disable, credential_flag, factor_disable, factor_role,
    factors_wanted, format, kind, location_kind, passback_mode, point_flag, rule_flag, zone_flag,
    EVERY_DAY, MINUTES_PER_DAY, MOST_THREAT_LEVEL, NONE,
};

pub fn in_range(record: &Record) -> bool {
    // Whatever the kind, the instance is real.
    get32(record, record::INSTANCE) < NONE
        && match record[record::KIND] {
            kind::ZONE => zone_in_range(record),
            kind::POINT => point_in_range(record),
            kind::RULE => rule_in_range(record),
            kind::CREDENTIAL => credential_in_range(record),
            kind::FACTOR => factor_in_range(record),
            _ => false,
        }
}

#[inline(always)]
fn unnamed(record: &Record, named: u8) -> u64 {
    u64::from(record[record::FLAGS] & !named)
}

#[inline(always)]
fn zone_in_range(record: &Record) -> bool {
    let spare = unnamed(record, zone_flag::NAMED)
        | u64::from(record[3])
        | u64::from(half(record, 20))
        | word(record, 24);
    spare == 0 && record[zone::PASSBACK_MODE] <= passback_mode::SOFT_PASSBACK
}

#[inline(always)]
fn point_in_range(record: &Record) -> bool {
    let spare = unnamed(record, point_flag::NAMED) | u64::from(half(record, 28));
    let wanted = record[point::FACTORS_WANTED];
    let (to, from) = (
        get32(record, point::ZONE_TO),
        get32(record, point::ZONE_FROM),
    );
    spare == 0
        && record[point::AUTHORIZATION_MODE] <= authorization_mode::DENY_ALL
        && (factors_wanted::ONE..=factors_wanted::TWO).contains(&wanted)
        && to.max(from) <= NONE
        && (to != from || to == NONE)
        && record[point::THREAT_LEVEL] <= MOST_THREAT_LEVEL
}

#[inline(always)]
fn rule_in_range(record: &Record) -> bool {
    let spare = unnamed(record, rule_flag::NAMED)
        | u64::from(record[rule::DAYS] & !EVERY_DAY)
        | word(record, 16)
        | word(record, 24);
    let (from, to) = (get16(record, rule::FROM), get16(record, rule::TO));
    spare == 0 && from.max(to) <= MINUTES_PER_DAY && location_in_range(record)
}

#[inline(always)]
fn location_in_range(record: &Record) -> bool {
    let location_kind = record[rule::LOCATION_KIND];
    let location = get32(record, rule::LOCATION);
    if record[record::FLAGS] & rule_flag::EVERYWHERE != 0 {
        return location_kind == location_kind::UNSPECIFIED && location == 0;
    }
    (location_kind::ZONE..=location_kind::POINT).contains(&location_kind) && location < NONE
}

#[inline(always)]
fn credential_in_range(record: &Record) -> bool {
    let spare = unnamed(record, credential_flag::NAMED) | u64::from(record[23]);
    let rights = [
        get32(record, credential::FIRST_RIGHTS),
        get32(record, credential::SECOND_RIGHTS),
    ];
    spare == 0
        && record[credential::CREDENTIAL_DISABLE] <= credential_disable::DISABLE_LOCKOUT
        && record[credential::THREAT_AUTHORITY] <= MOST_THREAT_LEVEL
        && rights[0].max(rights[1]) <= NONE
}

#[inline(always)]
fn factor_in_range(record: &Record) -> bool {
    // The format stands alone in its eight bytes.
    let beside_format = word(record, factor::FORMAT) ^ lone_byte(record[factor::FORMAT]);
    let spare = unnamed(record, 0) | beside_format | word(record, 24);
    let role = record[factor::ROLE];
    spare == 0
        && (factor_role::IDENTIFYING..=factor_role::CONFIRMING).contains(&role)
        && record[factor::DISABLE] <= factor_disable::DISABLED_DESTROYED
        && record[factor::FORMAT] > format::ERROR
}

/// The word whose first byte in memory is this one, and whose others are zero.
#[inline(always)]
fn lone_byte(byte: u8) -> u64 {
    u64::from_ne_bytes([byte, 0, 0, 0, 0, 0, 0, 0])
}
