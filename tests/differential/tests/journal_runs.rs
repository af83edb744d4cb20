//! The fresh state and the journal run through both engines, on random and damaged buffers.

use differential::{compare, settings};
use reference::generate::clock::base_time;
use reference::generate::damage::{answers_length, damage};
use reference::generate::{case, journal, large_site, site, state, Case, Random};
use reference::numbers::{
    refusal, ANSWER_LENGTH, ENTRY_LENGTH, MOST_JOURNAL_BYTES, MOST_SITE_BYTES, RECORD_LENGTH,
};
use reference::occurrences::{Occurrences, REFUSALS};
use reference::state::state_length;

const CASES: usize = 300_000;

/// Of a test's own number of cases, the fewest in which each event, mark and refusal occurs.
fn fewest(cases: usize) -> usize {
    cases / 1_000
}

/// Cases of all mixes, one half of them with damage, each run from the state that it has.
#[test]
fn random_and_damaged_cases() {
    let cases = settings::cases(CASES);
    let mut random = settings::random();
    let mut occurrences = Occurrences::default();
    for _ in 0..cases {
        let mut case = case(&mut random);
        let returned = compare::run_journal(&mut case);
        occurrences.count_run(returned, &case.journal, &case.answers);
    }
    settings::print("Journal run, random and damaged cases", &occurrences);
    occurrences.assert_refusals(fewest(cases), &Vec::from_iter(REFUSALS));
    occurrences.assert_events_and_marks(fewest(cases));
}

#[test]
fn fresh_states() {
    let cases = settings::cases(CASES) / 3;
    let mut random = settings::random();
    let mut occurrences = Occurrences::default();
    for _ in 0..cases {
        occurrences.count_call(compare::fresh_state(&mut case(&mut random)));
    }
    settings::print("Fresh state, random and damaged cases", &occurrences);
    let of_fresh = Vec::from_iter(refusal::SITE_LENGTH..=refusal::STATE_LENGTH);
    occurrences.assert_refusals(fewest(cases), &of_fresh);
}

/// A journal with answers for it, at times damaged so that the run is turned back.
fn next_journal(random: &mut Random, base: u32, case: &mut Case) {
    let entries = random.below(20);
    case.journal = journal(random, base, &case.site, entries);
    if random.sixteenths(2) {
        damage(random, &mut case.journal, ENTRY_LENGTH);
    }
    let mut length = case.journal.len() / ENTRY_LENGTH * ANSWER_LENGTH;
    if random.sixteenths(1) {
        length = answers_length(random, case.journal.len());
    }
    case.answers = vec![random.byte(); length];
}

/// Lists of journals, each run on the state that the last one left, those turned back too.
#[test]
fn lists_of_journals_from_fresh() {
    let cases = settings::cases(CASES) / 3;
    let mut random = settings::random();
    let mut occurrences = Occurrences::default();
    for _ in 0..cases {
        let base = base_time(&mut random);
        let site = site(&mut random, base);
        let mut case = unworked(&mut random, site, Vec::new());
        assert_eq!(compare::fresh_state(&mut case), refusal::ACCEPTED);
        for _ in 0..random.below(6) {
            next_journal(&mut random, base, &mut case);
            let returned = compare::run_journal(&mut case);
            occurrences.count_run(returned, &case.journal, &case.answers);
        }
    }
    settings::print("Journal run, lists of journals from fresh", &occurrences);
    occurrences.assert_lists(fewest(cases));
}

/// A case of a sound site and journal, with bytes in state and answers that a call must overwrite.
fn unworked(random: &mut Random, site: Vec<u8>, journal: Vec<u8>) -> Case {
    Case {
        state: vec![random.byte(); state_length(&site)],
        answers: vec![random.byte(); journal.len() / ENTRY_LENGTH * ANSWER_LENGTH],
        site,
        journal,
    }
}

/// The longest journals, on small sites and on large ones up to 2,000 records, from the fresh
/// state and from odd ones.
#[test]
fn longest_journals() {
    let mut random = settings::random();
    let mut occurrences = Occurrences::default();
    for round in 0..120 {
        let base = base_time(&mut random);
        let site = match round % 12 {
            0 => large_site(&mut random, base, MOST_SITE_BYTES / RECORD_LENGTH),
            1 => large_site(&mut random, base, 300),
            _ => site(&mut random, base),
        };
        let entries = MOST_JOURNAL_BYTES / ENTRY_LENGTH;
        let journal = journal(&mut random, base, &site, entries);
        let mut case = unworked(&mut random, site, journal);
        if random.sixteenths(8) {
            case.state = state(&mut random, base, &case.site);
        } else {
            compare::fresh_state(&mut case);
        }
        let returned = compare::run_journal(&mut case);
        occurrences.count_run(returned, &case.journal, &case.answers);
    }
    settings::print("Journal run, longest journals", &occurrences);
    let in_answers = [
        refusal::ENTRY_FIELD,
        refusal::ENTRY_MISSING,
        refusal::ENTRY_COUNT,
    ];
    occurrences.assert_refusals(1, &in_answers);
}
