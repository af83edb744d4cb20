//! Whole cases: the input of one journal run.

use super::clock::base_time;
use super::damage::{
    answers_length, damage, damage_last_grant, damage_length, damage_wrong_tries, overlong,
};
use super::random::Random;
use super::{journals, sites, states};
use crate::numbers::{
    refusal, ANSWER_LENGTH, ENTRY_LENGTH, MOST_JOURNAL_BYTES, MOST_SITE_BYTES, RECORD_LENGTH,
};
use crate::state::{fresh_state, state_length};

/// The buffers of one journal run. The answers hold bytes that a run must overwrite, or leave
/// where it is turned back.
#[derive(Clone, PartialEq)]
pub struct Case {
    pub site: Vec<u8>,
    pub state: Vec<u8>,
    pub journal: Vec<u8>,
    pub answers: Vec<u8>,
}

/// A case, in one half of them with damage to one or more of the four buffers.
pub fn case(random: &mut Random) -> Case {
    let base = base_time(random);
    let damaged = random.sixteenths(8);
    let mut site = sites::site(random, base);
    if damaged && random.sixteenths(7) {
        damage(random, &mut site, RECORD_LENGTH);
    }
    let mut state = starting_state(random, base, &site);
    if damaged {
        damage_state(random, &site, &mut state);
    }
    let entries = random.below(40);
    let mut journal = journals::journal(random, base, &site, entries);
    if damaged && random.sixteenths(6) {
        damage(random, &mut journal, ENTRY_LENGTH);
    }
    if damaged && random.below(200) == 0 {
        overlong(&mut site, RECORD_LENGTH, MOST_SITE_BYTES);
    }
    if damaged && random.below(200) == 0 {
        overlong(&mut journal, ENTRY_LENGTH, MOST_JOURNAL_BYTES);
    }
    let mut answers_size = journal.len() / ENTRY_LENGTH * ANSWER_LENGTH;
    if damaged && random.sixteenths(4) {
        answers_size = answers_length(random, journal.len());
    }
    Case {
        site,
        state,
        journal,
        answers: vec![random.byte(); answers_size],
    }
}

/// The journal of one run of a list and the room for its answers, at times spoiled so that the run is
/// turned back.
pub fn list_run(random: &mut Random, base: u32, site: &[u8], most: usize) -> (Vec<u8>, Vec<u8>) {
    let entries = random.below(most);
    let mut journal = journals::journal(random, base, site, entries);
    if random.sixteenths(2) {
        damage(random, &mut journal, ENTRY_LENGTH);
    }
    let mut answers_size = journal.len() / ENTRY_LENGTH * ANSWER_LENGTH;
    if random.sixteenths(2) {
        answers_size = answers_length(random, journal.len());
    }
    (journal, vec![0; answers_size])
}

/// Damages a state in some of five ways, or in none.
pub fn damage_state(random: &mut Random, site: &[u8], state: &mut Vec<u8>) {
    if random.sixteenths(3) {
        damage(random, state, RECORD_LENGTH);
    }
    if random.sixteenths(3) {
        states::spoil(random, site, state);
    }
    if random.sixteenths(3) {
        damage_last_grant(random, site, state);
    }
    if random.sixteenths(2) {
        damage_wrong_tries(random, site, state);
    }
    if random.sixteenths(2) {
        damage_length(random, site, state);
    }
}

/// The fresh state or an odd one; of a site turned back, an odd one as far as it has whole records.
fn starting_state(random: &mut Random, base: u32, site: &[u8]) -> Vec<u8> {
    let mut state = vec![random.byte(); state_length(site)];
    if random.sixteenths(8) && fresh_state(site, &mut state) == refusal::ACCEPTED {
        return state;
    }
    states::state(random, base, site)
}
