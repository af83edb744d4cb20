//! Well-formed states that no journal need have led to.

use super::clock::{beside_date, near};
use super::random::Random;
use super::sites::MISSING;
use crate::build::Record;
use crate::bytes::{put16, put32};
use crate::layout::{credential_state, point_state, zone_state};
use crate::numbers::{kind, MOST_COUNT, NEVER, NONE, RECORD_LENGTH, UNLIMITED};
use crate::site::{instance_of, kind_of, records, CredentialRecord, PointRecord};
use crate::state::kept_records;

/// A random state that the site allows.
pub fn state(random: &mut Random, base: u32, site: &[u8]) -> Vec<u8> {
    let parts = kept_records(site).map(|record| state_record(random, base, site, record));
    parts.collect::<Vec<Record>>().concat()
}

/// A random longer state that the site allows.
pub fn longer_state(random: &mut Random, base: u32, site: &[u8]) -> Vec<u8> {
    let parts = records(site).map(|record| state_record(random, base, site, record));
    parts.collect::<Vec<Record>>().concat()
}

/// A state record for a site record; that of a rule or a factor is zero.
fn state_record(random: &mut Random, base: u32, site: &[u8], record: &[u8]) -> Record {
    match kind_of(record) {
        kind::ZONE => zone(random),
        kind::POINT => point(random, base, site, &PointRecord(record)),
        kind::CREDENTIAL => credential(random, base, site, &CredentialRecord(record)),
        _ => [0; RECORD_LENGTH],
    }
}

fn zone(random: &mut Random) -> Record {
    let mut part = [0; RECORD_LENGTH];
    put32(&mut part, zone_state::OCCUPANCY_COUNT, count(random));
    part
}

/// A count, often small or at the top.
pub fn count(random: &mut Random) -> u32 {
    let any = random.number32();
    let top = MOST_COUNT;
    random.pick(&[0, 0, 1, 2, 3, 4, top - 2, top - 1, top, any])
}

fn point(random: &mut Random, base: u32, site: &[u8], point: &PointRecord) -> Record {
    let mut part = [0; RECORD_LENGTH];
    let tag = random.pick(&[0, 1, u32::MAX - 1, u32::MAX]);
    put32(&mut part, point_state::ACCESS_EVENT_TAG, tag);
    let most = point.max_failed_attempts();
    part[point_state::FAILED_ATTEMPTS] = below_most(random, most);
    let locked = random.sixteenths(3);
    part[point_state::LOCKOUT] = u8::from(locked);
    let waiting = if locked {
        NONE
    } else {
        reference(random, site, kind::CREDENTIAL)
    };
    put32(&mut part, point_state::WAITING_CREDENTIAL, waiting);
    for offset in [
        point_state::LOCK_TIME,
        point_state::FIRST_FAILURE,
        point_state::WAITING_SINCE,
    ] {
        put32(&mut part, offset, stamp(random, base));
    }
    part
}

/// A count below its most, or 0 where that is unset: often one short of it, so that the next failure
/// or wrong try reaches it.
fn below_most(random: &mut Random, most: u8) -> u8 {
    if most == 0 {
        return 0;
    }
    let any = random.below(usize::from(most)) as u8;
    random.pick(&[0, most - 1, any])
}

fn credential(
    random: &mut Random,
    base: u32,
    site: &[u8],
    credential: &CredentialRecord,
) -> Record {
    let mut part = [0; RECORD_LENGTH];
    let uses = remaining(random);
    put16(&mut part, credential_state::USES_REMAINING, uses);
    put16(&mut part, credential_state::DAYS_REMAINING, days(random));
    let entered = stamp(random, base);
    put32(&mut part, credential_state::ENTERED, entered);
    let last_use = last_use(random, base);
    put32(&mut part, credential_state::LAST_USE_TIME, last_use);
    let last_grant = last_grant(random, base);
    put32(&mut part, credential_state::LAST_GRANT_TIME, last_grant);
    let zone = reference(random, site, kind::ZONE);
    put32(&mut part, credential_state::ZONE, zone);
    let event = random.number16();
    put16(&mut part, credential_state::LAST_ACCESS_EVENT, event);
    if random.sixteenths(2) {
        part[credential_state::CREDENTIAL_DISABLE] = random.pick(&[1, 2, 3]);
    }
    let most = credential.most_wrong_tries();
    part[credential_state::WRONG_TRIES] = below_most(random, most);
    let point = reference(random, site, kind::POINT);
    put32(&mut part, credential_state::LAST_ACCESS_POINT, point);
    part
}

/// Takes one record of a state just out of what the site allows.
pub fn spoil(random: &mut Random, site: &[u8], state: &mut [u8]) {
    let pairs = kept_records(site).zip(state.chunks_exact_mut(RECORD_LENGTH));
    spoil_one(random, pairs.collect());
}

/// As `spoil`, of a longer state.
pub fn spoil_longer(random: &mut Random, site: &[u8], longer: &mut [u8]) {
    let pairs = records(site).zip(longer.chunks_exact_mut(RECORD_LENGTH));
    spoil_one(random, pairs.collect());
}

fn spoil_one(random: &mut Random, mut pairs: Vec<(&[u8], &mut [u8])>) {
    if pairs.is_empty() {
        return;
    }
    let chosen = random.below(pairs.len());
    let (record, part) = &mut pairs[chosen];
    match kind_of(record) {
        kind::ZONE => part[4 + random.below(RECORD_LENGTH - 4)] = 1,
        kind::POINT => spoil_point(random, &PointRecord(record), part),
        kind::CREDENTIAL => spoil_credential(random, &CredentialRecord(record), part),
        _ => part[random.below(RECORD_LENGTH)] = 1,
    }
}

fn spoil_point(random: &mut Random, point: &PointRecord, part: &mut [u8]) {
    match random.below(6) {
        0 => part[point_state::FAILED_ATTEMPTS] = point.max_failed_attempts(),
        1 => part[point_state::FAILED_ATTEMPTS] = point.max_failed_attempts().wrapping_add(1),
        2 => part[point_state::LOCKOUT] = 2,
        // Not well formed only where the point waits.
        3 => part[point_state::LOCKOUT] = 1,
        4 => put32(part, point_state::WAITING_CREDENTIAL, MISSING),
        _ => part[random.pick(&[6, 7, 24, 31])] = 1,
    }
}

fn spoil_credential(random: &mut Random, credential: &CredentialRecord, part: &mut [u8]) {
    match random.below(5) {
        0 => part[credential_state::CREDENTIAL_DISABLE] = 4,
        1 => put32(part, credential_state::ZONE, MISSING),
        2 => put32(part, credential_state::LAST_ACCESS_POINT, MISSING),
        3 => part[credential_state::WRONG_TRIES] = not_below(random, credential.most_wrong_tries()),
        _ => part[random.pick(&[28, 31])] = 1,
    }
}

/// A count that is not below its most: at it, above it, or other than 0 where it is unset.
pub fn not_below(random: &mut Random, most: u8) -> u8 {
    random.pick(&[most.max(1), most.saturating_add(1), u8::MAX])
}

fn remaining(random: &mut Random) -> u16 {
    if random.sixteenths(8) {
        return UNLIMITED;
    }
    random.pick(&[0, 1, 2, 3, 5, UNLIMITED - 1])
}

/// Days left, mostly few, so that grants take some and the last of them.
fn days(random: &mut Random) -> u16 {
    if random.sixteenths(4) {
        return UNLIMITED;
    }
    random.pick(&[0, 1, 1, 2, 2, 5, 5, UNLIMITED - 1])
}

/// Often on another date than the last grant, as denials leave it.
fn last_use(random: &mut Random, base: u32) -> u32 {
    if random.sixteenths(8) {
        return stamp(random, base);
    }
    beside_date(random, base)
}

/// Often beside the base, so that the next grant falls on the same date or on another.
fn last_grant(random: &mut Random, base: u32) -> u32 {
    let beside = beside_date(random, base);
    let any = random.number32();
    random.pick(&[beside, beside, beside, beside, 0, NEVER, NEVER, any])
}

fn stamp(random: &mut Random, base: u32) -> u32 {
    let close = near(random, base);
    let any = random.number32();
    random.pick(&[close, close, close, close, 0, NEVER, any])
}

/// NONE or an object of the kind that the site holds.
fn reference(random: &mut Random, site: &[u8], kind: u8) -> u32 {
    let choices: Vec<u32> = records(site)
        .filter(|record| kind_of(record) == kind)
        .map(instance_of)
        .collect();
    if random.sixteenths(6) {
        return NONE;
    }
    random.pick_or(&choices, NONE)
}
