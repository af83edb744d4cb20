//! Sites whose records all fall into one bucket of the library's index, through both engines.

use differential::colliding::{
    collided, collides, unknown_instance, unknown_value, BUCKETS, DIVISOR, HIGH_MULTIPLIER,
    MULTIPLIER, OWNER_MULTIPLIER, STEP,
};
use differential::{compare, settings};
use reference::bytes::put32;
use reference::generate::clock::base_time;
use reference::generate::{journal, large_site, site, state, Case, Random};
use reference::layout::{credential_state, entry, factor, point, point_state, record};
use reference::numbers::{
    factor_role, kind, operation, refusal, ANSWER_LENGTH, ENTRY_LENGTH, MOST_SITE_BYTES,
    RECORD_LENGTH, VALUE_LENGTH,
};
use reference::occurrences::Occurrences;
use reference::site::{instance_of, kind_of, records};
use reference::state::kept_records;
use std::collections::BTreeSet;
use std::fs;
use std::path::Path;

const CASES: usize = 20_000;

const MOST_RECORDS: usize = MOST_SITE_BYTES / RECORD_LENGTH;

/// The index's own text, beside which the numbers here are compared.
const INDEX: &str = "../../crates/index/src";

/// A colliding site of about 30 records, or at times of many.
fn colliding_site(random: &mut Random, base: u32) -> Vec<u8> {
    let sound = match random.below(1_000) {
        0 => large_site(random, base, MOST_RECORDS),
        1..=5 => large_site(random, base, 300),
        _ => site(random, base),
    };
    collided(&sound)
}

/// A journal that also reads unknown cards and codes and names unknown objects of the same bucket.
fn colliding_journal(random: &mut Random, base: u32, site: &[u8]) -> Vec<u8> {
    let length = random.below(40);
    let mut journal = journal(random, base, site, length);
    let credentials = records(site).filter(|record| kind_of(record) == kind::CREDENTIAL);
    let credentials: Vec<u32> = credentials.map(instance_of).collect();
    for entry in journal.chunks_exact_mut(ENTRY_LENGTH) {
        match random.below(16) {
            0..=2 if entry[entry::OPERATION] == operation::READ_FACTOR => {
                let credential = random.pick_or(&credentials, 0);
                let owner = random.pick(&[0, credential]);
                let number = random.below(100) as u32;
                let value = unknown_value(owner, entry[entry::ARGUMENT], number);
                entry[entry::VALUE..entry::VALUE + VALUE_LENGTH].copy_from_slice(&value);
            }
            3 => {
                let kind = match entry[entry::OPERATION] {
                    operation::SET_COUNT | operation::ADJUST_COUNT => kind::ZONE,
                    operation::SET_DISABLE => kind::CREDENTIAL,
                    _ => kind::POINT,
                };
                put32(entry, entry::INSTANCE, unknown_instance(site, kind));
            }
            _ => {}
        }
    }
    journal
}

/// A colliding site with a journal, from the fresh state or an odd one.
fn colliding_case(random: &mut Random) -> Case {
    let base = base_time(random);
    let site = colliding_site(random, base);
    let journal = colliding_journal(random, base, &site);
    let mut case = Case {
        state: state(random, base, &site),
        answers: vec![random.byte(); journal.len() / ENTRY_LENGTH * ANSWER_LENGTH],
        site,
        journal,
    };
    if random.sixteenths(8) {
        assert_eq!(compare::fresh_state(&mut case), refusal::ACCEPTED);
    }
    case
}

#[test]
fn every_record_falls_into_the_bucket() {
    let mut random = Random::new(1);
    for count in [40, 250, 1_000, MOST_RECORDS] {
        let sound = large_site(&mut random, 100, count);
        assert!(!records(&sound).all(collides));
        let site = collided(&sound);
        assert_eq!(
            records(&site).filter(|record| collides(record)).count(),
            count
        );
        assert_eq!(compare::check_site(site), refusal::ACCEPTED);
    }
}

#[test]
fn random_journals() {
    let cases = settings::cases(CASES);
    let mut random = settings::random();
    let mut occurrences = Occurrences::default();
    for _ in 0..cases {
        let mut case = colliding_case(&mut random);
        let returned = compare::run_journal(&mut case);
        occurrences.count_run(returned, &case.journal, &case.answers);
    }
    settings::print("Journal run, colliding sites", &occurrences);
    let in_answers = refusal::ENTRY_FIELD..=refusal::ENTRY_COUNT;
    occurrences.assert_refusals(cases / 1_000, &Vec::from_iter(in_answers));
    occurrences.assert_events_and_marks(cases / 1_000);
}

/// A copy of each record at the far end of the chain, factors also under another credential, since
/// identifying ones are twins even so.
#[test]
fn a_twin_at_the_far_end() {
    let mut random = settings::random();
    let mut occurrences = Occurrences::default();
    let mut under_another_role = BTreeSet::new();
    for count in [40, 300] {
        let site = collided(&large_site(&mut random, 100, count));
        for record in records(&site) {
            let returned = compare::check_site([&site, record].concat());
            assert_eq!(
                returned == refusal::SITE_TWICE,
                kind_of(record) != kind::RULE
            );
            occurrences.count_call(returned);
            if kind_of(record) == kind::FACTOR {
                let identifying = record[factor::ROLE] == factor_role::IDENTIFYING;
                let returned =
                    compare::check_site([&site, &under_another(&site, record)[..]].concat());
                assert_eq!(returned == refusal::SITE_TWICE, identifying);
                occurrences.count_call(returned);
                under_another_role.insert(identifying);
            }
        }
    }
    settings::print("Site check, twins in one bucket", &occurrences);
    occurrences.assert_refusals(1, &[refusal::SITE_TWICE]);
    assert_eq!(under_another_role.len(), 2, "a role was never tried");
}

/// The factor under another credential of the site.
fn under_another(site: &[u8], record: &[u8]) -> Vec<u8> {
    let own = &record[record::INSTANCE..record::INSTANCE + 4];
    let other = records(site)
        .filter(|other| kind_of(other) == kind::CREDENTIAL)
        .map(|other| &other[record::INSTANCE..record::INSTANCE + 4])
        .find(|&instance| instance != own)
        .expect("a second credential");
    let mut factor = record.to_vec();
    factor[record::INSTANCE..record::INSTANCE + 4].copy_from_slice(other);
    factor
}

/// The fields of a colliding site's record that name objects, with the kind of the object.
fn named_in(record: &[u8]) -> Vec<(usize, u8)> {
    match kind_of(record) {
        kind::POINT => vec![(point::ZONE_TO, kind::ZONE), (point::ZONE_FROM, kind::ZONE)],
        kind::FACTOR => vec![(record::INSTANCE, kind::CREDENTIAL)],
        _ => Vec::new(),
    }
}

/// Each reference in turn to an object that would be in the bucket but is not.
#[test]
fn a_missing_object() {
    let mut random = settings::random();
    let mut occurrences = Occurrences::default();
    let mut turned_back = BTreeSet::new();
    for count in [40, 300] {
        let site = collided(&large_site(&mut random, 100, count));
        for (index, record) in records(&site).enumerate() {
            for (offset, kind) in named_in(record) {
                let mut damaged = site.clone();
                let missing = unknown_instance(&site, kind);
                put32(&mut damaged, index * RECORD_LENGTH + offset, missing);
                let returned = compare::check_site(damaged);
                assert_eq!(returned, refusal::SITE_MISSING);
                occurrences.count_call(returned);
                turned_back.insert((kind_of(record), offset));
            }
        }
        occurrences.count_call(compare::check_site(site));
    }
    settings::print("Site check, missing objects in one bucket", &occurrences);
    occurrences.assert_refusals(1, &[refusal::SITE_MISSING]);
    assert_eq!(turned_back.len(), 3, "a field was never tried");
}

/// The fields of a state record that name objects, with the kind of the object.
fn named_in_state(record: &[u8]) -> Vec<(usize, u8)> {
    match kind_of(record) {
        kind::POINT => vec![(point_state::WAITING_CREDENTIAL, kind::CREDENTIAL)],
        kind::CREDENTIAL => vec![
            (credential_state::ZONE, kind::ZONE),
            (credential_state::LAST_ACCESS_POINT, kind::POINT),
        ],
        _ => Vec::new(),
    }
}

/// The same for the references of a state.
#[test]
fn a_state_that_names_a_missing_object() {
    let mut random = settings::random();
    let mut turned_back = BTreeSet::new();
    let site = collided(&large_site(&mut random, 100, 300));
    let sound = Case {
        state: state(&mut random, 100, &site),
        journal: Vec::new(),
        answers: Vec::new(),
        site,
    };
    assert_eq!(compare::run_journal(&mut sound.clone()), refusal::ACCEPTED);
    for (index, record) in kept_records(&sound.site).enumerate() {
        for (offset, kind) in named_in_state(record) {
            let mut case = sound.clone();
            let missing = unknown_instance(&case.site, kind);
            put32(&mut case.state, index * RECORD_LENGTH + offset, missing);
            assert_eq!(compare::run_journal(&mut case), refusal::STATE_FORM);
            turned_back.insert((kind_of(record), offset));
        }
    }
    assert_eq!(turned_back.len(), 3, "a field was never tried");
}

/// Where the index changes its numbers, these sites would no longer collide.
#[test]
fn the_numbers_are_those_of_the_index() {
    let folder = Path::new(env!("CARGO_MANIFEST_DIR")).join(INDEX);
    let mut values = BTreeSet::new();
    for file in fs::read_dir(folder).expect("the index is there") {
        let path = file.expect("the index can be listed").path();
        let text = fs::read_to_string(path).expect("a file of the index can be read");
        values.extend(text.lines().filter_map(value_of_constant));
    }
    let numbers = BTreeSet::from([
        BUCKETS,
        DIVISOR,
        MULTIPLIER,
        HIGH_MULTIPLIER,
        OWNER_MULTIPLIER,
        STEP,
    ]);
    let others = Vec::from_iter(numbers.difference(&values));
    assert!(others.is_empty(), "no constants of the index: {others:?}");
}

/// The value of a line like `const NAME: usize = 1_024;`.
fn value_of_constant(line: &str) -> Option<u64> {
    let (declared, value) = line.trim().split_once('=')?;
    let is_constant = declared.split_whitespace().any(|word| word == "const");
    let digits = value.trim().strip_suffix(';')?.replace('_', "");
    is_constant.then(|| digits.parse().ok())?
}
