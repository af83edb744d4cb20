//! The ways between the state and the longer one, which also has records of rules and factors, all
//! zero.

use crate::lookup::{is_kept, Lookup};
use crate::site::Site;
use crate::state::{record_well_formed, well_formed};
use reference::numbers::{refusal, RECORD_LENGTH};

pub fn shorten_state<L: Lookup>(site: &[u8], longer: &[u8], state: &mut [u8]) -> u8 {
    let accepted = match accept::<L>(site, longer, state) {
        Ok(accepted) => accepted,
        Err(refused) => return refused,
    };
    let (all, _) = longer.as_chunks();
    let pairs = accepted.records.iter().zip(all);
    if !pairs
        .clone()
        .all(|(record, part)| record_well_formed(&accepted, record, part))
    {
        return refusal::STATE_FORM;
    }
    let kept = pairs.filter(|(record, _)| is_kept(record));
    let (parts, _) = state.as_chunks_mut();
    for ((_, held), part) in kept.zip(parts) {
        *part = *held;
    }
    refusal::ACCEPTED
}

pub fn lengthen_state<L: Lookup>(site: &[u8], state: &[u8], longer: &mut [u8]) -> u8 {
    let accepted = match accept::<L>(site, longer, state) {
        Ok(accepted) => accepted,
        Err(refused) => return refused,
    };
    let (parts, _) = state.as_chunks();
    if !well_formed(&accepted, parts) {
        return refusal::STATE_FORM;
    }
    let (all, _) = longer.as_chunks_mut();
    let mut parts = parts.iter();
    for (record, held) in accepted.records.iter().zip(all) {
        let kept = if is_kept(record) { parts.next() } else { None };
        *held = *kept.unwrap_or(&[0; RECORD_LENGTH]);
    }
    refusal::ACCEPTED
}

/// The accepted site, or the first of refusals 1 to 5.
fn accept<'a, L: Lookup>(site: &'a [u8], longer: &[u8], state: &[u8]) -> Result<Site<'a, L>, u8> {
    let accepted = Site::<L>::accept(site)?;
    if longer.len() != site.len() || state.len() != accepted.state_length() {
        return Err(refusal::STATE_LENGTH);
    }
    Ok(accepted)
}
