//! Both engines beside the reference: what each call hands back and every byte of its buffers.

use plain::{HASHED, LINEAR};
use reference::build::{journal, EntryFields, Point, Record, Rule, Zone, FORMAT};
use reference::engine::{Engine, REFERENCE};
use reference::generate::clock::base_time;
use reference::generate::damage::damage;
use reference::generate::{self, case, forms, large_site, orders_of_three, Case, Forms};
use reference::numbers::{
    refusal, ANSWER_LENGTH, ENTRY_LENGTH, MOST_JOURNAL_BYTES, MOST_SITE_BYTES, RECORD_LENGTH,
};
use reference::occurrences::{Occurrences, REFUSALS};
use reference::state::state_length;
use reference::{longer, settings, state};

const CASES: usize = 40_000;

const ENGINES: [(&str, Engine); 2] = [("hashed", HASHED), ("linear", LINEAR)];

/// A call of one engine on the buffers that it takes of a case.
type Call<B> = fn(Engine, &mut B) -> u8;

fn check_site(engine: Engine, case: &mut Case) -> u8 {
    (engine.check_site)(&case.site)
}

fn fresh_state(engine: Engine, case: &mut Case) -> u8 {
    (engine.fresh_state)(&case.site, &mut case.state)
}

fn run_journal(engine: Engine, case: &mut Case) -> u8 {
    let (site, journal) = (&case.site, &case.journal);
    (engine.run_journal)(site, &mut case.state, journal, &mut case.answers)
}

fn shorten_state(engine: Engine, forms: &mut Forms) -> u8 {
    (engine.shorten_state)(&forms.site, &forms.longer, &mut forms.state)
}

fn lengthen_state(engine: Engine, forms: &mut Forms) -> u8 {
    (engine.lengthen_state)(&forms.site, &forms.state, &mut forms.longer)
}

/// One call through all engines, left in the buffers. Panics where one disagrees with the reference.
fn agreed<B: Clone + PartialEq>(call: Call<B>, buffers: &mut B) -> u8 {
    let before = buffers.clone();
    let returned = call(REFERENCE, buffers);
    for (name, engine) in ENGINES {
        let mut other = before.clone();
        assert_eq!(call(engine, &mut other), returned, "{name}");
        assert!(other == *buffers, "{name}: other bytes");
    }
    returned
}

/// The calls that come before the run, from the state that the case has.
fn agreed_checks(case: &Case) -> [u8; 2] {
    [check_site, fresh_state].map(|call| agreed(call, &mut case.clone()))
}

/// Both ways between the forms, each from the same buffers.
fn agreed_ways(forms: &Forms) -> [u8; 2] {
    [shorten_state, lengthen_state].map(|way| agreed(way, &mut forms.clone()))
}

#[test]
fn random_and_damaged_cases() {
    let cases = settings::cases(CASES);
    let mut random = settings::random();
    let mut occurrences = Occurrences::default();
    for _ in 0..cases {
        let mut case = case(&mut random);
        agreed_checks(&case);
        let returned = agreed(run_journal, &mut case);
        occurrences.count_run(returned, &case.journal, &case.answers);
    }
    settings::print("Plain engines, random and damaged cases", &occurrences);
    occurrences.assert_refusals(cases / 1_000, &Vec::from_iter(REFUSALS));
    occurrences.assert_events_and_marks(cases / 1_000);
}

#[test]
fn random_and_damaged_forms_of_states() {
    let cases = settings::cases(CASES);
    let mut random = settings::random();
    let mut occurrences = [Occurrences::default(), Occurrences::default()];
    for _ in 0..cases {
        let returned = agreed_ways(&forms(&mut random));
        for (occurrences, returned) in occurrences.iter_mut().zip(returned) {
            occurrences.count_call(returned);
        }
    }
    let of_states = Vec::from_iter(refusal::SITE_LENGTH..=refusal::STATE_FORM);
    for (way, occurrences) in ["shortened", "lengthened"].iter().zip(&occurrences) {
        settings::print(&format!("Plain engines, states {way}"), occurrences);
        occurrences.assert_refusals(cases / 1_000, &of_states);
    }
}

/// Long journals on large sites, from the fresh state and from odd ones; and damage to the sites.
#[test]
fn large_sites() {
    let mut random = settings::random();
    let mut occurrences = Occurrences::default();
    for round in 0..48 {
        let base = base_time(&mut random);
        let records = random.pick(&[40, 100, 300, MOST_SITE_BYTES / RECORD_LENGTH]);
        let site = large_site(&mut random, base, records);
        let mut case = Case {
            state: generate::state(&mut random, base, &site),
            journal: generate::journal(&mut random, base, &site, 300),
            answers: vec![0xA5; 300 * ANSWER_LENGTH],
            site,
        };
        for _ in 0..4 {
            let mut damaged = case.clone();
            damage(&mut random, &mut damaged.site, RECORD_LENGTH);
            occurrences.count_call(agreed(check_site, &mut damaged));
        }
        let forms = Forms {
            longer: generate::longer_state(&mut random, base, &case.site),
            state: case.state.clone(),
            site: case.site.clone(),
        };
        assert_eq!(agreed_ways(&forms), [refusal::ACCEPTED; 2]);
        if round % 2 == 0 {
            agreed(fresh_state, &mut case);
        }
        let returned = agreed(run_journal, &mut case);
        occurrences.count_run(returned, &case.journal, &case.answers);
    }
    settings::print("Plain engines, large sites", &occurrences);
    let of_sites = refusal::SITE_LENGTH..=refusal::SITE_MISSING;
    let in_answers = refusal::ENTRY_FIELD..=refusal::ENTRY_COUNT;
    occurrences.assert_refusals(1, &Vec::from_iter(of_sites.chain(in_answers)));
}

/// As many zones as fit, and more.
fn zones(count: usize) -> Vec<u8> {
    let zones = (0..count as u32).map(|instance| Zone::new(instance).record());
    zones.collect::<Vec<Record>>().concat()
}

#[test]
fn site_lengths() {
    let most = MOST_SITE_BYTES / RECORD_LENGTH;
    let site = zones(most + 1);
    for length in [0, 1, 31, 32, 33, 64]
        .into_iter()
        .chain(MOST_SITE_BYTES - 33..=site.len())
    {
        let case = Case {
            site: site[..length].to_vec(),
            state: vec![0xA5; length],
            journal: Vec::new(),
            answers: Vec::new(),
        };
        let fits = length <= MOST_SITE_BYTES && length.is_multiple_of(RECORD_LENGTH);
        let wanted = if fits {
            refusal::ACCEPTED
        } else {
            refusal::SITE_LENGTH
        };
        assert_eq!(agreed_checks(&case), [wanted; 2], "{length} bytes");
    }
}

/// The lengths about one that fits.
fn about(length: usize, unit: usize) -> Vec<usize> {
    let near = length.saturating_sub(unit + 1)..=length + unit + 1;
    near.chain([0, length + 65_536]).collect()
}

#[test]
fn state_journal_and_answers_lengths() {
    // A rule before each, so that its place in the state is another.
    let rule = Rule::new(1).record();
    let site = [rule, Point::new(1).record(), rule, Zone::new(1).record()].concat();
    let entry = EntryFields::read_factor(1, 1, FORMAT, [1; 8]);
    let mut occurrences = Occurrences::default();
    for entries in [2, MOST_JOURNAL_BYTES / ENTRY_LENGTH] {
        let mut case = Case {
            state: vec![0; 2 * RECORD_LENGTH],
            journal: journal(&vec![entry; entries]),
            answers: vec![0xA5; entries * ANSWER_LENGTH],
            site: site.clone(),
        };
        assert_eq!(agreed(fresh_state, &mut case), refusal::ACCEPTED);
        assert_eq!(agreed(run_journal, &mut case.clone()), refusal::ACCEPTED);
        for other in with_other_lengths(&case) {
            agreed_checks(&other);
            occurrences.count_call(agreed(run_journal, &mut other.clone()));
        }
    }
    let of_lengths = [
        refusal::STATE_LENGTH,
        refusal::JOURNAL_LENGTH,
        refusal::ANSWERS_LENGTH,
    ];
    occurrences.assert_refusals(2, &of_lengths);
}

/// The case with lengths about its own of state, journal and answers, and with two of them wrong.
fn with_other_lengths(case: &Case) -> Vec<Case> {
    let mut others = vec![case.clone()];
    for length in about(case.state.len(), RECORD_LENGTH) {
        let mut other = case.clone();
        other.state.resize(length, 0);
        others.push(other.clone());
        other.journal.pop();
        others.push(other);
    }
    for length in about(case.journal.len(), ENTRY_LENGTH) {
        let mut other = case.clone();
        other.journal.resize(length, 0);
        others.push(other);
    }
    for length in about(case.answers.len(), ANSWER_LENGTH) {
        let mut other = case.clone();
        other.answers.resize(length, 0xA5);
        others.push(other);
    }
    others
}

/// Each order of three records of different kinds, with fresh states of all lengths about theirs.
#[test]
fn orders_of_three_records() {
    let mut occurrences = Occurrences::default();
    for site in orders_of_three() {
        let mut fresh = Forms {
            longer: vec![0; site.len()],
            state: vec![0; state_length(&site)],
            site,
        };
        longer::fresh_state(&fresh.site, &mut fresh.longer);
        state::fresh_state(&fresh.site, &mut fresh.state);
        for length in about(fresh.site.len(), RECORD_LENGTH) {
            for state in 0..=fresh.site.len() + 1 {
                let mut forms = fresh.clone();
                forms.longer.resize(length, 0);
                forms.state.resize(state, 0);
                for returned in agreed_ways(&forms) {
                    occurrences.count_call(returned);
                }
            }
        }
    }
    occurrences.assert_refusals(2 * 42, &[refusal::SITE_MISSING, refusal::STATE_LENGTH]);
}
