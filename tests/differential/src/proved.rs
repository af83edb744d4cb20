//! The proved engine's calls, with the signatures of the reference.

use reference::engine::Engine;
use reference::numbers::kind;
use reference::wiegand::Factor;
use warblehay::Place;

/// The proved engine.
pub const PROVED: Engine = Engine {
    check_site,
    fresh_state,
    run_journal,
    shorten_state,
    lengthen_state,
};

pub fn check_site(site: &[u8]) -> u8 {
    number(linked::check_site(site))
}

pub fn fresh_state(site: &[u8], state: &mut [u8]) -> u8 {
    number(linked::fresh_state(site, state))
}

pub fn check_state(site: &[u8], state: &[u8]) -> u8 {
    number(linked::check_state(site, state))
}

pub fn run_journal(site: &[u8], state: &mut [u8], journal: &[u8], answers: &mut [u8]) -> u8 {
    number(linked::run_journal(site, state, journal, answers))
}

pub fn shorten_state(site: &[u8], longer: &[u8], state: &mut [u8]) -> u8 {
    number(linked::shorten_state(site, longer, state))
}

pub fn lengthen_state(site: &[u8], state: &[u8], longer: &mut [u8]) -> u8 {
    number(linked::lengthen_state(site, state, longer))
}

pub fn state_length(site: &[u8]) -> usize {
    linked::state_length(site)
}

/// The place in the site and the offset in the state of a zone, a point or a credential.
pub fn place_of(site: &[u8], kind: u8, instance: u32) -> Option<Place> {
    match kind {
        kind::ZONE => warblehay::place_of_zone(site, instance),
        kind::POINT => warblehay::place_of_point(site, instance),
        kind::CREDENTIAL => warblehay::place_of_credential(site, instance),
        _ => panic!("no lookup of kind {kind}"),
    }
}

pub fn read_wiegand26(bits: u64, count: u32) -> Result<Factor, u8> {
    match warblehay::read_wiegand26(bits, count) {
        Ok(warblehay::Factor { format, value }) => Ok(Factor { format, value }),
        Err(turned_back) => Err(number(turned_back.number())),
    }
}

/// The number as the reference hands it back. Cutting it to a byte could hide a wrong one.
fn number(returned: u32) -> u8 {
    u8::try_from(returned).expect("the numbers of the documents are small")
}
