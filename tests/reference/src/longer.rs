//! The longer state of older panels: a record for every site record, those of rules and factors zero.
//! Its fresh state, check and run, by the same decisions, and the ways between the two forms.

use crate::numbers::{refusal, RECORD_LENGTH};
use crate::site::{check_site, records};
use crate::state::{self, is_kept, record_well_formed, state_length, write_fresh, Form};

/// The form of the longer state: its records stand where those of the site do.
const LONGER: Form = Form {
    check_state,
    offset: |_, place| place * RECORD_LENGTH,
};

/// As the fresh state, in the longer form.
pub fn fresh_state(site: &[u8], longer: &mut [u8]) -> u8 {
    let refused = check_length(site, longer);
    if refused != refusal::ACCEPTED {
        return refused;
    }
    for (record, part) in records(site).zip(longer.chunks_exact_mut(RECORD_LENGTH)) {
        write_fresh(record, part);
    }
    refusal::ACCEPTED
}

/// Whether the longer state is one that an accepted site allows.
pub fn well_formed(site: &[u8], longer: &[u8]) -> bool {
    longer.len() == site.len()
        && records(site)
            .zip(records(longer))
            .all(|(record, part)| record_well_formed(site, record, part))
}

/// The first of refusals 1 to 6 that site and longer state meet, or 0.
pub fn check_state(site: &[u8], longer: &[u8]) -> u8 {
    let refused = check_length(site, longer);
    if refused != refusal::ACCEPTED {
        return refused;
    }
    if !well_formed(site, longer) {
        return refusal::STATE_FORM;
    }
    refusal::ACCEPTED
}

/// Refusals 1 to 5.
fn check_length(site: &[u8], longer: &[u8]) -> u8 {
    let refused = check_site(site);
    if refused != refusal::ACCEPTED {
        return refused;
    }
    if longer.len() != site.len() {
        return refusal::STATE_LENGTH;
    }
    refusal::ACCEPTED
}

/// As the journal run, on a longer state.
pub fn run_journal(site: &[u8], longer: &mut [u8], journal: &[u8], answers: &mut [u8]) -> u8 {
    crate::journal::run_journal_on(&LONGER, site, longer, journal, answers)
}

/// Copies the kept records of a longer state, in site sequence. Turned back with 1 to 6, and the state
/// unchanged.
pub fn shorten_state(site: &[u8], longer: &[u8], state: &mut [u8]) -> u8 {
    let refused = check_length(site, longer);
    if refused != refusal::ACCEPTED {
        return refused;
    }
    if state.len() != state_length(site) {
        return refusal::STATE_LENGTH;
    }
    if !well_formed(site, longer) {
        return refusal::STATE_FORM;
    }
    state.copy_from_slice(&shortened(site, longer));
    refusal::ACCEPTED
}

/// The way back: copies the records of a state to the places of their site records, and writes zeros
/// elsewhere. Turned back with 1 to 6, and the longer state unchanged.
pub fn lengthen_state(site: &[u8], state: &[u8], longer: &mut [u8]) -> u8 {
    let refused = check_length(site, longer);
    if refused != refusal::ACCEPTED {
        return refused;
    }
    let refused = state::check_state(site, state);
    if refused != refusal::ACCEPTED {
        return refused;
    }
    longer.copy_from_slice(&lengthened(site, state));
    refusal::ACCEPTED
}

/// The records that stand where zones, points and credentials do in the site.
pub fn shortened(site: &[u8], longer: &[u8]) -> Vec<u8> {
    let pairs = records(site).zip(records(longer));
    let kept = pairs.filter(|(record, _)| is_kept(record));
    kept.flat_map(|(_, part)| part.to_vec()).collect()
}

/// A record for each of the site: the next of the state for a zone, a point or a credential, else
/// zeros.
pub fn lengthened(site: &[u8], state: &[u8]) -> Vec<u8> {
    let mut kept = records(state);
    let mut longer = Vec::with_capacity(site.len());
    for record in records(site) {
        let part = if is_kept(record) { kept.next() } else { None };
        longer.extend_from_slice(part.unwrap_or(&[0; RECORD_LENGTH]));
    }
    longer
}
