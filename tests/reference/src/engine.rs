//! The calls as one value, so that a scenario runs through either engine.

use crate::journal::run_journal;
use crate::longer::{lengthen_state, shorten_state};
use crate::site::check_site;
use crate::state::fresh_state;

/// A journal run on site, state, journal and answers.
type RunJournal = fn(&[u8], &mut [u8], &[u8], &mut [u8]) -> u8;

/// An engine's calls. Each hands back 0, or the number of the refusal.
#[derive(Clone, Copy)]
pub struct Engine {
    pub check_site: fn(&[u8]) -> u8,
    /// On site and state.
    pub fresh_state: fn(&[u8], &mut [u8]) -> u8,
    pub run_journal: RunJournal,
    /// On site, longer state and state.
    pub shorten_state: fn(&[u8], &[u8], &mut [u8]) -> u8,
    /// On site, state and longer state.
    pub lengthen_state: fn(&[u8], &[u8], &mut [u8]) -> u8,
}

/// The engine of this crate.
pub const REFERENCE: Engine = Engine {
    check_site,
    fresh_state,
    run_journal,
    shorten_state,
    lengthen_state,
};
