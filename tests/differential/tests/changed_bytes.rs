//! The journal run through both engines on small buffers, each of whose bytes and lengths is
//! changed in turn.

use differential::{compare, settings, small};
use reference::build::{journal, EntryFields, FORMAT};
use reference::generate::{state, Case, Random};
use reference::numbers::{
    format, refusal, ANSWER_LENGTH, ENTRY_LENGTH, MOST_JOURNAL_BYTES, RECORD_LENGTH,
};
use reference::occurrences::Occurrences;
use reference::state::state_length;

/// A time in the hours of the small sites' rule.
const NOW: u32 = 255 * 60;

/// An entry of each operation, and a card with its code.
fn entries() -> [EntryFields; 7] {
    [
        EntryFields::read_factor(NOW, 1, FORMAT, small::CARD),
        EntryFields::read_factor(NOW + 1, 1, FORMAT, small::CODE),
        EntryFields::read_factor(NOW + 2, 1, format::ERROR, small::CARD),
        EntryFields::set_count(NOW + 3, 1, 1),
        EntryFields::adjust_count(NOW + 4, 1, -1),
        EntryFields::set_disable(NOW + 5, 1, 1),
        EntryFields::set_lockout(NOW + 6, 1, true),
    ]
}

fn case_of(site: &[u8], state: &[u8], journal: &[u8]) -> Case {
    Case {
        site: site.to_vec(),
        state: state.to_vec(),
        journal: journal.to_vec(),
        answers: vec![0xA5; journal.len() / ENTRY_LENGTH * ANSWER_LENGTH],
    }
}

/// The fresh state of a site and two odd ones, the same in every run.
fn states_of(site: &[u8]) -> Vec<Vec<u8>> {
    let mut fresh = case_of(site, &vec![0xA5; state_length(site)], &[]);
    assert_eq!(compare::fresh_state(&mut fresh), refusal::ACCEPTED);
    let mut random = Random::new(1);
    let odd = (0..2).map(|_| state(&mut random, NOW, site));
    std::iter::once(fresh.state).chain(odd).collect()
}

#[test]
fn every_byte_of_sites_and_states_changed() {
    let journal = journal(&entries());
    let mut occurrences = Occurrences::default();
    let mut run = |mut case: Case| {
        let returned = compare::run_journal(&mut case);
        occurrences.count_run(returned, &case.journal, &case.answers);
    };
    for site in small::sites() {
        for state in states_of(&site) {
            small::with_each_byte_changed(&site)
                .for_each(|changed| run(case_of(&changed, &state, &journal)));
            small::with_each_byte_changed(&state)
                .for_each(|changed| run(case_of(&site, &changed, &journal)));
        }
    }
    settings::print("Journal run, every byte of site and state", &occurrences);
    let of_bytes = [
        refusal::SITE_FIELD,
        refusal::SITE_TWICE,
        refusal::SITE_MISSING,
        refusal::STATE_FORM,
        refusal::ENTRY_MISSING,
    ];
    occurrences.assert_refusals(1, &of_bytes);
}

/// Each entry alone, since a change of it may decide what the next one meets.
#[test]
fn every_byte_of_entries_changed() {
    let mut occurrences = Occurrences::default();
    for site in small::sites() {
        for state in states_of(&site) {
            for entry in entries() {
                for changed in small::with_each_byte_changed(&entry.bytes()) {
                    let mut case = case_of(&site, &state, &changed);
                    let returned = compare::run_journal(&mut case);
                    occurrences.count_run(returned, &case.journal, &case.answers);
                }
            }
        }
    }
    settings::print("Journal run, every byte of an entry", &occurrences);
    let in_answers = [
        refusal::ENTRY_FIELD,
        refusal::ENTRY_MISSING,
        refusal::ENTRY_COUNT,
    ];
    occurrences.assert_refusals(1, &in_answers);
}

/// Lengths about the right one, and lengths that are right where only two bytes of them are kept.
fn about(length: usize, unit: usize) -> Vec<usize> {
    let near = length.saturating_sub(unit + 1)..=length + unit + 1;
    near.chain([0, length + 65_536]).collect()
}

#[test]
fn every_length() {
    let site = small::sites().remove(0);
    let state = states_of(&site).remove(0);
    let journal = journal(&entries()[..2]);
    let sound = case_of(&site, &state, &journal);
    let mut occurrences = Occurrences::default();
    let of_both_forms = [state.len(), site.len()].map(|length| about(length, RECORD_LENGTH));
    for state in of_both_forms.concat() {
        for journal in about(journal.len(), ENTRY_LENGTH) {
            for answers in about(2 * ANSWER_LENGTH, ANSWER_LENGTH) {
                let mut case = sound.clone();
                case.state.resize(state, 0);
                case.journal.resize(journal, 0);
                case.answers.resize(answers, 0xA5);
                occurrences.count_call(compare::run_journal(&mut case));
            }
        }
        let mut case = sound.clone();
        case.state.resize(state, 0);
        occurrences.count_call(compare::fresh_state(&mut case));
    }
    settings::print("Journal run, lengths", &occurrences);
    let of_lengths = [
        refusal::STATE_LENGTH,
        refusal::JOURNAL_LENGTH,
        refusal::ANSWERS_LENGTH,
    ];
    occurrences.assert_refusals(1, &of_lengths);
}

#[test]
fn journals_about_as_long_as_the_longest() {
    let site = small::sites().remove(0);
    let state = states_of(&site).remove(0);
    for length in about(MOST_JOURNAL_BYTES, ENTRY_LENGTH) {
        let mut case = case_of(&site, &state, &vec![0; length]);
        let returned = compare::run_journal(&mut case);
        let fits = length <= MOST_JOURNAL_BYTES && length.is_multiple_of(ENTRY_LENGTH);
        assert_eq!(returned == refusal::ACCEPTED, fits, "{length} bytes");
    }
}
