//! The state: a record for each zone, point and credential of the site, in site sequence. The fresh
//! state, the check that a state is well formed, and where the records of an object stand.

use crate::bytes::{all_zero, get32, put16, put32};
use crate::layout::{credential_state, point_state};
use crate::numbers::{credential_disable, kind, refusal, NEVER, NONE, RECORD_LENGTH};
use crate::site::{
    check_site, find, kind_of, none_or_exists, records, CredentialRecord, PointRecord,
};

/// Whether the state holds a record for a site record.
pub fn is_kept(record: &[u8]) -> bool {
    matches!(kind_of(record), kind::ZONE | kind::POINT | kind::CREDENTIAL)
}

/// The whole site records that the state holds records for, in site sequence.
pub fn kept_records(site: &[u8]) -> impl Iterator<Item = &[u8]> {
    records(site).filter(|record| is_kept(record))
}

/// How many bytes of state a site has; of any bytes, what their whole records have.
pub fn state_length(site: &[u8]) -> usize {
    kept_records(site).count() * RECORD_LENGTH
}

/// Where the records of an object stand.
#[derive(Clone, Copy, Debug, PartialEq, Eq)]
pub struct Place {
    /// That of the site record among the records of the site, 0 for the first.
    pub place: usize,
    /// That of the state record in the state, in bytes.
    pub state_offset: usize,
}

/// Where the records of a zone, point or credential stand; of any bytes, by the first whole record
/// of the kind and instance.
pub fn place_of(site: &[u8], kind: u8, instance: u32) -> Option<Place> {
    let place = find(site, kind, instance)?;
    Some(Place {
        place,
        state_offset: state_offset(site, place),
    })
}

/// Where the state record begins that belongs to the site record at a place: behind those of the
/// zones, points and credentials that stand before it.
fn state_offset(site: &[u8], place: usize) -> usize {
    state_length(&site[..place * RECORD_LENGTH])
}

/// A form of states: which states a site allows, and where the records stand.
pub struct Form {
    /// The first of refusals 1 to 6 that site and state meet, or 0.
    pub check_state: fn(&[u8], &[u8]) -> u8,
    /// Of a site and the place of a kept record: where its state record begins.
    pub offset: fn(&[u8], usize) -> usize,
}

/// The form of the state.
pub const SHORTER: Form = Form {
    check_state,
    offset: state_offset,
};

/// A state of one form that an entry works on.
pub struct State<'a> {
    pub site: &'a [u8],
    pub bytes: &'a mut [u8],
    pub form: &'a Form,
}

impl State<'_> {
    /// The state record that belongs to the kept site record at a place.
    pub fn at(&self, place: usize) -> &[u8] {
        let start = (self.form.offset)(self.site, place);
        &self.bytes[start..start + RECORD_LENGTH]
    }

    /// As `at`, for writing.
    pub fn at_mut(&mut self, place: usize) -> &mut [u8] {
        let start = (self.form.offset)(self.site, place);
        &mut self.bytes[start..start + RECORD_LENGTH]
    }
}

/// The state record that belongs to the kept site record at a place.
pub fn state_at<'a>(site: &[u8], state: &'a [u8], place: usize) -> &'a [u8] {
    let start = state_offset(site, place);
    &state[start..start + RECORD_LENGTH]
}

/// As `state_at`, for writing.
pub fn state_at_mut<'a>(site: &[u8], state: &'a mut [u8], place: usize) -> &'a mut [u8] {
    let start = state_offset(site, place);
    &mut state[start..start + RECORD_LENGTH]
}

/// Writes the state in which nothing has happened yet, whatever the state held before.
/// Turned back with 1 to 5, and the state unchanged.
pub fn fresh_state(site: &[u8], state: &mut [u8]) -> u8 {
    let refused = check_site(site);
    if refused != refusal::ACCEPTED {
        return refused;
    }
    if state.len() != state_length(site) {
        return refusal::STATE_LENGTH;
    }
    for (record, part) in kept_records(site).zip(state.chunks_exact_mut(RECORD_LENGTH)) {
        write_fresh(record, part);
    }
    refusal::ACCEPTED
}

/// The first of refusals 1 to 6 that site and state meet, or 0.
pub fn check_state(site: &[u8], state: &[u8]) -> u8 {
    let refused = check_site(site);
    if refused != refusal::ACCEPTED {
        return refused;
    }
    if state.len() != state_length(site) {
        return refusal::STATE_LENGTH;
    }
    if !well_formed(site, state) {
        return refusal::STATE_FORM;
    }
    refusal::ACCEPTED
}

/// Writes the fresh state record of a site record; that of a rule or a factor is zero.
pub(crate) fn write_fresh(record: &[u8], part: &mut [u8]) {
    part.fill(0);
    match kind_of(record) {
        kind::POINT => put32(part, point_state::WAITING_CREDENTIAL, NONE),
        kind::CREDENTIAL => {
            let credential = CredentialRecord(record);
            put16(part, credential_state::USES_REMAINING, credential.uses());
            put16(part, credential_state::DAYS_REMAINING, credential.days());
            put32(part, credential_state::LAST_USE_TIME, NEVER);
            put32(part, credential_state::ZONE, NONE);
            put32(part, credential_state::ENTERED, NEVER);
            part[credential_state::CREDENTIAL_DISABLE] = credential.disable();
            put32(part, credential_state::LAST_ACCESS_POINT, NONE);
            put32(part, credential_state::LAST_GRANT_TIME, NEVER);
        }
        _ => {}
    }
}

/// Whether the state is one that an accepted site allows.
pub fn well_formed(site: &[u8], state: &[u8]) -> bool {
    state.len() == state_length(site)
        && kept_records(site)
            .zip(records(state))
            .all(|(record, part)| record_well_formed(site, record, part))
}

/// Whether a state record is one that the accepted site allows its site record; that of a rule or a
/// factor is zero.
pub(crate) fn record_well_formed(site: &[u8], record: &[u8], part: &[u8]) -> bool {
    match kind_of(record) {
        kind::ZONE => all_zero(&part[4..]),
        kind::POINT => point_well_formed(site, &PointRecord(record), part),
        kind::CREDENTIAL => credential_well_formed(site, &CredentialRecord(record), part),
        _ => all_zero(part),
    }
}

fn point_well_formed(site: &[u8], point: &PointRecord, part: &[u8]) -> bool {
    let failures = part[point_state::FAILED_ATTEMPTS];
    let locked = part[point_state::LOCKOUT];
    let waiting = get32(part, point_state::WAITING_CREDENTIAL);
    // Below the most, or 0 where the most is unset.
    (failures == 0 || failures < point.max_failed_attempts())
        && locked <= 1
        && all_zero(&part[6..8])
        && none_or_exists(site, kind::CREDENTIAL, waiting)
        && (locked == 0 || waiting == NONE)
        && all_zero(&part[24..])
}

fn credential_well_formed(site: &[u8], credential: &CredentialRecord, part: &[u8]) -> bool {
    let tries = part[credential_state::WRONG_TRIES];
    none_or_exists(site, kind::ZONE, get32(part, credential_state::ZONE))
        && part[credential_state::CREDENTIAL_DISABLE] <= credential_disable::DISABLE_LOCKOUT
        // "Well formed then includes that count below its most, 0 if unset."
        && (tries == 0 || tries < credential.most_wrong_tries())
        && none_or_exists(
            site,
            kind::POINT,
            get32(part, credential_state::LAST_ACCESS_POINT),
        )
        && all_zero(&part[28..])
}
