//! The fresh state, and the check that a state is well formed.

use crate::bytes::{get32, half, put32, word, Record};
use crate::lookup::Lookup;
use crate::site::Site;
use reference::layout::{credential, credential_state, point, point_state, record};
use reference::numbers::{credential_disable, kind, refusal, NEVER, NONE, RECORD_LENGTH};

pub fn fresh_state<L: Lookup>(site: &[u8], state: &mut [u8]) -> u8 {
    let accepted = match Site::<L>::accept(site) {
        Ok(accepted) => accepted,
        Err(refused) => return refused,
    };
    if state.len() != accepted.state_length() {
        return refusal::STATE_LENGTH;
    }
    let (parts, _) = state.as_chunks_mut();
    for (record, part) in accepted.kept().zip(parts) {
        *part = fresh(record);
    }
    refusal::ACCEPTED
}

#[inline]
fn fresh(record: &Record) -> Record {
    let mut part = [0; RECORD_LENGTH];
    match record[record::KIND] {
        kind::POINT => put32(&mut part, point_state::WAITING_CREDENTIAL, NONE),
        kind::CREDENTIAL => fresh_credential(record, &mut part),
        _ => {}
    }
    part
}

#[inline]
fn fresh_credential(record: &Record, part: &mut Record) {
    // Uses and days stand side by side in both records.
    let remaining = get32(record, credential::USES_REMAINING);
    put32(part, credential_state::USES_REMAINING, remaining);
    put32(part, credential_state::LAST_USE_TIME, NEVER);
    put32(part, credential_state::ZONE, NONE);
    put32(part, credential_state::ENTERED, NEVER);
    part[credential_state::CREDENTIAL_DISABLE] = record[credential::CREDENTIAL_DISABLE];
    put32(part, credential_state::LAST_ACCESS_POINT, NONE);
    put32(part, credential_state::LAST_GRANT_TIME, NEVER);
}

/// Whether a state as long as the site has it is one that it allows.
pub fn well_formed<L: Lookup>(site: &Site<L>, state: &[Record]) -> bool {
    let mut pairs = site.kept().zip(state);
    pairs.all(|(record, part)| record_well_formed(site, record, part))
}

/// Whether a state record is one that the site allows its record; that of a rule or a factor is zero.
#[inline]
pub fn record_well_formed<L: Lookup>(site: &Site<L>, record: &Record, part: &Record) -> bool {
    match record[record::KIND] {
        kind::ZONE => u64::from(half(part, 4)) | word(part, 8) | rest(part) == 0,
        kind::POINT => point_well_formed(site, record, part),
        kind::CREDENTIAL => credential_well_formed(site, record, part),
        _ => word(part, 0) | word(part, 8) | rest(part) == 0,
    }
}

/// The second half of a record, zero where all its bytes are.
#[inline(always)]
fn rest(part: &Record) -> u64 {
    word(part, 16) | word(part, 24)
}

#[inline]
fn point_well_formed<L: Lookup>(site: &Site<L>, record: &Record, part: &Record) -> bool {
    let failures = part[point_state::FAILED_ATTEMPTS];
    let locked = part[point_state::LOCKOUT];
    let waiting = get32(part, point_state::WAITING_CREDENTIAL);
    let spare = u64::from(part[6] | part[7]) | word(part, 24);
    // Failures are below the most, or 0 where it is unset.
    spare == 0
        && locked <= 1
        && (failures == 0 || failures < record[point::MAX_FAILED_ATTEMPTS])
        && (locked == 0 || waiting == NONE)
        && site.none_or_exists(kind::CREDENTIAL, waiting)
}

#[inline]
fn credential_well_formed<L: Lookup>(site: &Site<L>, record: &Record, part: &Record) -> bool {
    let tries = part[credential_state::WRONG_TRIES];
    // Wrong tries are below the most, or 0 where it is unset.
    half(part, 28) == 0
        && (tries == 0 || tries < record[credential::MOST_WRONG_TRIES])
        && part[credential_state::CREDENTIAL_DISABLE] <= credential_disable::DISABLE_LOCKOUT
        && site.none_or_exists(kind::ZONE, get32(part, credential_state::ZONE))
        && site.none_or_exists(
            kind::POINT,
            get32(part, credential_state::LAST_ACCESS_POINT),
        )
}
