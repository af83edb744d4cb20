//! The state beside the longer one of before: the same answers and the same kept records over lists of
//! journals, from fresh states and from any well-formed ones; and the ways between both forms.

use reference::generate::clock::base_time;
use reference::generate::{forms, list_run, longer_state, site, state, Forms, Random};
use reference::journal::run_journal;
use reference::longer::{self, lengthen_state, shorten_state};
use reference::numbers::{refusal, RECORD_LENGTH};
use reference::occurrences::Occurrences;
use reference::site::{check_site, record_at, records};
use reference::state::{self as shorter, is_kept, state_at, state_length, well_formed};

const LISTS: usize = 20_000;

/// The fewest times that each number has to occur.
const FEWEST: usize = 50;

fn shortened(site: &[u8], longer: &[u8]) -> Vec<u8> {
    let mut state = vec![0xA5; state_length(site)];
    assert_eq!(shorten_state(site, longer, &mut state), refusal::ACCEPTED);
    state
}

fn lengthened(site: &[u8], state: &[u8]) -> Vec<u8> {
    let mut longer = vec![0xA5; site.len()];
    assert_eq!(lengthen_state(site, state, &mut longer), refusal::ACCEPTED);
    longer
}

/// Panics unless both hold the same bytes of each kept record, and the longer one zeros elsewhere.
fn assert_same_records(site: &[u8], longer: &[u8], state: &[u8]) {
    assert_eq!(longer.len(), site.len());
    assert_eq!(state.len(), state_length(site));
    for (place, record) in records(site).enumerate() {
        let held = record_at(longer, place);
        if is_kept(record) {
            assert_eq!(held, state_at(site, state, place));
        } else {
            assert_eq!(held, [0; RECORD_LENGTH]);
        }
    }
}

/// Both fresh states of a site.
fn fresh(site: &[u8]) -> (Vec<u8>, Vec<u8>) {
    let (mut longer, mut state) = (vec![0xA5; site.len()], vec![0xA5; state_length(site)]);
    assert_eq!(longer::fresh_state(site, &mut longer), refusal::ACCEPTED);
    assert_eq!(shorter::fresh_state(site, &mut state), refusal::ACCEPTED);
    (longer, state)
}

/// Runs a list of journals on both forms, some turned back for the journal or the answers.
fn run_list(
    random: &mut Random,
    base: u32,
    site: &[u8],
    (mut longer, mut state): (Vec<u8>, Vec<u8>),
    occurrences: &mut Occurrences,
) {
    for _ in 0..random.below(6) {
        let (journal, mut answers) = list_run(random, base, site, 20);
        let mut longer_answers = answers.clone();
        let returned = run_journal(site, &mut state, &journal, &mut answers);
        let longer_returned = longer::run_journal(site, &mut longer, &journal, &mut longer_answers);
        assert_eq!(returned, longer_returned);
        assert_eq!(answers, longer_answers);
        assert_same_records(site, &longer, &state);
        occurrences.count_run(returned, &journal, &answers);
    }
}

#[test]
fn lists_of_journals_give_the_same_answers_and_records_in_both_forms() {
    let mut random = Random::new(8);
    let mut occurrences = Occurrences::default();
    for _ in 0..LISTS {
        let base = base_time(&mut random);
        let site = site(&mut random, base);
        let states = if random.sixteenths(4) {
            fresh(&site)
        } else {
            let longer = longer_state(&mut random, base, &site);
            let state = shortened(&site, &longer);
            (longer, state)
        };
        assert_same_records(&site, &states.0, &states.1);
        run_list(&mut random, base, &site, states, &mut occurrences);
    }
    println!("{occurrences}");
    occurrences.assert_lists(FEWEST);
}

#[test]
fn the_fresh_states_correspond() {
    let mut random = Random::new(9);
    for _ in 0..LISTS / 4 {
        let base = base_time(&mut random);
        let site = site(&mut random, base);
        let (longer, state) = fresh(&site);
        assert_same_records(&site, &longer, &state);
        assert_eq!(shortened(&site, &longer), state);
        assert_eq!(lengthened(&site, &state), longer);
    }
}

#[test]
fn there_and_back_is_the_same_from_every_well_formed_state() {
    let mut random = Random::new(10);
    for _ in 0..LISTS / 4 {
        let base = base_time(&mut random);
        let site = site(&mut random, base);
        let longer = longer_state(&mut random, base, &site);
        assert!(longer::well_formed(&site, &longer));
        let kept = shortened(&site, &longer);
        assert!(well_formed(&site, &kept));
        assert_eq!(lengthened(&site, &kept), longer);
        let state = state(&mut random, base, &site);
        assert_eq!(shortened(&site, &lengthened(&site, &state)), state);
    }
}

/// What shortening has to return, told from the checks alone.
fn expected_of_shortening(forms: &Forms) -> u8 {
    let refused = longer::check_state(&forms.site, &forms.longer);
    let before_length = refusal::SITE_LENGTH..=refusal::SITE_MISSING;
    if !before_length.contains(&refused) && forms.state.len() != state_length(&forms.site) {
        return refusal::STATE_LENGTH;
    }
    refused
}

/// As `expected_of_shortening`, of lengthening.
fn expected_of_lengthening(forms: &Forms) -> u8 {
    let refused = shorter::check_state(&forms.site, &forms.state);
    let before_length = refusal::SITE_LENGTH..=refusal::SITE_MISSING;
    if !before_length.contains(&refused) && forms.longer.len() != forms.site.len() {
        return refusal::STATE_LENGTH;
    }
    refused
}

#[test]
fn both_ways_are_turned_back_in_the_order_of_the_table_and_then_write_nothing() {
    let mut random = Random::new(11);
    let [mut shortening, mut lengthening] = [Occurrences::default(), Occurrences::default()];
    for _ in 0..LISTS {
        let before = forms(&mut random);
        let mut after = before.clone();
        let returned = shorten_state(&after.site, &after.longer, &mut after.state);
        assert_eq!(returned, expected_of_shortening(&before));
        shortening.count_call(returned);
        if returned != refusal::ACCEPTED {
            assert_eq!(after.state, before.state);
        }

        let mut after = before.clone();
        let returned = lengthen_state(&after.site, &after.state, &mut after.longer);
        assert_eq!(returned, expected_of_lengthening(&before));
        lengthening.count_call(returned);
        if returned != refusal::ACCEPTED {
            assert_eq!(after.longer, before.longer);
        }
    }
    println!("shortened\n{shortening}lengthened\n{lengthening}");
    let of_states = Vec::from_iter(refusal::SITE_LENGTH..=refusal::STATE_FORM);
    shortening.assert_refusals(FEWEST, &of_states);
    lengthening.assert_refusals(FEWEST, &of_states);
}

#[test]
fn a_damaged_site_has_no_fresh_state_of_either_form() {
    let mut random = Random::new(12);
    let mut occurrences = Occurrences::default();
    for _ in 0..LISTS / 4 {
        let Forms {
            site,
            mut longer,
            mut state,
        } = forms(&mut random);
        let refused = check_site(&site);
        let fits = |length: usize, right: usize| match refused {
            refusal::ACCEPTED if length != right => refusal::STATE_LENGTH,
            _ => refused,
        };
        let expected = fits(longer.len(), site.len());
        assert_eq!(longer::fresh_state(&site, &mut longer), expected);
        let expected = fits(state.len(), state_length(&site));
        assert_eq!(shorter::fresh_state(&site, &mut state), expected);
        occurrences.count_call(expected);
    }
    let of_fresh = Vec::from_iter(refusal::SITE_LENGTH..=refusal::STATE_LENGTH);
    occurrences.assert_refusals(FEWEST / 4, &of_fresh);
}
