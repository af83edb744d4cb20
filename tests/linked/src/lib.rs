//! The calls of the package `warblehay` with the numbers of document 01, 0 for worked through, as
//! the second implementation has them.

use warblehay::numbers::WORKED_THROUGH;
use warblehay::TurnedBack;

pub fn check_site(site: &[u8]) -> u32 {
    number(warblehay::check_site(site))
}

pub fn fresh_state(site: &[u8], state: &mut [u8]) -> u32 {
    number(warblehay::fresh_state(site, state))
}

pub fn state_length(site: &[u8]) -> usize {
    warblehay::state_length(site)
}

pub fn shorten_state(site: &[u8], longer: &[u8], state: &mut [u8]) -> u32 {
    number(warblehay::shorten_state(site, longer, state))
}

pub fn lengthen_state(site: &[u8], state: &[u8], longer: &mut [u8]) -> u32 {
    number(warblehay::lengthen_state(site, state, longer))
}

pub fn check_state(site: &[u8], state: &[u8]) -> u32 {
    number(warblehay::check_state(site, state))
}

pub fn run_journal(site: &[u8], state: &mut [u8], journal: &[u8], answers: &mut [u8]) -> u32 {
    number(warblehay::run_journal(site, state, journal, answers))
}

fn number(outcome: Result<(), TurnedBack>) -> u32 {
    outcome.map_or_else(TurnedBack::number, |()| WORKED_THROUGH)
}
