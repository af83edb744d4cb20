//! The state check through both engines.

use differential::{compare, settings, small};
use reference::generate::{case, large_site, state, Case, Random};
use reference::numbers::{refusal, MOST_SITE_BYTES, RECORD_LENGTH};
use reference::occurrences::Occurrences;

const CASES: usize = 100_000;

/// A time about which the states' own times lie.
const NOW: u32 = 255 * 60;

fn checked(site: &[u8], state: &[u8]) -> u8 {
    compare::check_state(&mut Case {
        site: site.to_vec(),
        state: state.to_vec(),
        journal: Vec::new(),
        answers: Vec::new(),
    })
}

/// Every number that the check can return occurs.
#[test]
fn random_and_damaged_cases() {
    let cases = settings::cases(CASES);
    let mut random = settings::random();
    let mut occurrences = Occurrences::default();
    for _ in 0..cases {
        occurrences.count_call(compare::check_state(&mut case(&mut random)));
    }
    settings::print("State check, random and damaged cases", &occurrences);
    let of_states = Vec::from_iter(refusal::SITE_LENGTH..=refusal::STATE_FORM);
    occurrences.assert_refusals(cases / 1_000, &of_states);
}

#[test]
fn every_byte_of_small_states_changed() {
    let mut random = Random::new(1);
    let mut occurrences = Occurrences::default();
    for site in small::sites() {
        let state = state(&mut random, NOW, &site);
        assert_eq!(checked(&site, &state), refusal::ACCEPTED);
        for changed in small::with_each_byte_changed(&state) {
            occurrences.count_call(checked(&site, &changed));
        }
    }
    settings::print(
        "State check, every byte of small states changed",
        &occurrences,
    );
    occurrences.assert_refusals(10, &[refusal::STATE_FORM]);
}

/// The last record of the largest state is checked too.
#[test]
fn largest_states() {
    let mut random = settings::random();
    let site = large_site(&mut random, NOW, MOST_SITE_BYTES / RECORD_LENGTH);
    let mut state = state(&mut random, NOW, &site);
    assert_eq!(checked(&site, &state), refusal::ACCEPTED);
    let last = state.len() - 1;
    assert_eq!(checked(&site, &state[..last]), refusal::STATE_LENGTH);
    state[last] = 1;
    assert_eq!(checked(&site, &state), refusal::STATE_FORM);
}
