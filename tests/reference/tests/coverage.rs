//! The generated cases reach every event, mark and refusal of document 01 and, of document 02, each
//! part of windows across midnight and each kind of day passes and of wrong tries, which they tell from
//! their misreadings; and the generators of sites and states keep what they promise.

mod days;
mod tries;
mod windows;

use reference::bytes::{get16, put16};
use reference::generate::clock::base_time;
use reference::generate::damage::{damage_last_grant, damage_wrong_tries};
use reference::generate::{case, site, state, Random};
use reference::journal::run_journal;
use reference::layout::{credential, credential_state, rule};
use reference::numbers::{event, kind, refusal, MINUTES_PER_DAY, RECORD_LENGTH};
use reference::occurrences::{assert_often, Occurrences, REFUSALS};
use reference::site::{check_site, kind_of, records, CredentialRecord};
use reference::state::{fresh_state, kept_records, state_length, well_formed};
use std::collections::BTreeMap;
use std::fmt::Debug;
use std::ops::Range;
use windows::{see_generated_reads, Moment, MISREADINGS, PARTS};

const CASES: usize = 20_000;

/// The fewest times that each number has to occur.
const FEWEST: usize = 50;

#[test]
fn every_event_mark_and_refusal_occurs_often() {
    let mut occurrences = Occurrences::default();
    let mut random = Random::new(2008);
    for _ in 0..CASES {
        let mut case = case(&mut random);
        let returned = run_journal(
            &case.site,
            &mut case.state,
            &case.journal,
            &mut case.answers,
        );
        occurrences.count_run(returned, &case.journal, &case.answers);
    }
    println!("{occurrences}");
    occurrences.assert_refusals(FEWEST, &Vec::from_iter(REFUSALS));
    occurrences.assert_events_and_marks(FEWEST);
}

#[test]
fn generated_sites_are_accepted_and_generated_states_are_well_formed() {
    let mut random = Random::new(135);
    let mut kinds = BTreeMap::new();
    for _ in 0..5_000 {
        let base = base_time(&mut random);
        let site = site(&mut random, base);
        assert_eq!(check_site(&site), refusal::ACCEPTED);
        assert!(well_formed(&site, &state(&mut random, base, &site)));
        for record in records(&site) {
            *kinds.entry(kind_of(record)).or_insert(0) += 1;
        }
    }
    let all: Vec<u8> = (kind::ZONE..=kind::FACTOR).collect();
    assert!(
        kinds.keys().eq(all.iter()),
        "a kind of record never occurred"
    );
}

/// A run turned back writes nothing; a run worked through leaves a state that the next run
/// accepts.
#[test]
fn runs_keep_the_state_well_formed_and_write_nothing_when_turned_back() {
    let mut random = Random::new(16);
    let mut occurrences = Occurrences::default();
    for _ in 0..CASES / 4 {
        let before = case(&mut random);
        let mut after = before.clone();
        let returned = run_journal(
            &after.site,
            &mut after.state,
            &after.journal,
            &mut after.answers,
        );
        occurrences.count_run(returned, &after.journal, &after.answers);
        if returned == refusal::ACCEPTED {
            assert!(well_formed(&after.site, &after.state));
            continue;
        }
        assert_eq!(after.state, before.state);
        assert_eq!(after.answers, before.answers);
    }
    occurrences.assert_refusals(FEWEST / 4, &Vec::from_iter(REFUSALS));
}

#[test]
fn the_fresh_state_stops_after_refusal_5() {
    let mut random = Random::new(5);
    let mut occurrences = Occurrences::default();
    for _ in 0..CASES / 4 {
        let mut case = case(&mut random);
        let before = case.state.clone();
        let returned = fresh_state(&case.site, &mut case.state);
        occurrences.count_call(returned);
        let check = check_site(&case.site);
        if check != refusal::ACCEPTED {
            assert_eq!((returned, &case.state), (check, &before));
        } else if before.len() != state_length(&case.site) {
            assert_eq!((returned, &case.state), (refusal::STATE_LENGTH, &before));
        } else {
            assert_eq!(returned, refusal::ACCEPTED);
            assert!(well_formed(&case.site, &case.state));
        }
    }
    let of_fresh = Vec::from_iter(refusal::SITE_LENGTH..=refusal::STATE_LENGTH);
    occurrences.assert_refusals(FEWEST / 4, &of_fresh);
}

/// The site with a field of its rules, from or to, at most at the end of the day.
fn within_the_day(site: &[u8], field: usize) -> Vec<u8> {
    let mut site = site.to_vec();
    for record in site.chunks_exact_mut(RECORD_LENGTH) {
        if kind_of(record) == kind::RULE {
            let minute = get16(record, field).min(MINUTES_PER_DAY);
            put16(record, field, minute);
        }
    }
    site
}

#[test]
fn hours_beyond_the_day_are_often_all_that_is_out_of_range() {
    let fields = [("from", rule::FROM), ("to", rule::TO)];
    let mut times = BTreeMap::new();
    let mut random = Random::new(1440);
    for _ in 0..CASES {
        let site = case(&mut random).site;
        if check_site(&site) != refusal::SITE_FIELD {
            continue;
        }
        for (name, field) in fields {
            if check_site(&within_the_day(&site, field)) != refusal::SITE_FIELD {
                *times.entry(name).or_default() += 1;
            }
        }
    }
    print_rows(&times);
    assert_often("field", &times, &fields.map(|(name, _)| name), FEWEST);
}

fn print_rows<K: Debug>(times: &BTreeMap<K, usize>) {
    for (name, times) in times {
        println!("{name:?}: {times}");
    }
}

/// The fewest reads that each part of windows across midnight has to decide, and that each misreading
/// of them has to give another event.
const FEWEST_READS: usize = 20;

#[test]
fn each_part_of_windows_across_midnight_decides_often() {
    let decided = [event::GRANTED, event::DENIED_NO_ACCESS_RIGHTS];
    let outside = (event::DENIED_OUT_OF_TIME_RANGE, "outside the window");
    let mut times = BTreeMap::new();
    see_generated_reads(CASES, |read| {
        for (part, fits) in PARTS {
            if decided.contains(&read.event) && read.is_decided_by(fits) {
                *times.entry((read.event, part)).or_default() += 1;
            }
        }
        if read.is_outside_a_window() {
            *times.entry(outside).or_default() += 1;
        }
    });
    print_rows(&times);
    let by_parts = decided.map(|event| PARTS.map(|(part, _)| (event, part)));
    let wanted = [by_parts.concat(), vec![outside]].concat();
    assert_often("reads decided", &times, &wanted, FEWEST_READS);
}

#[test]
fn each_misreading_of_windows_across_midnight_gives_other_events() {
    let mut times = BTreeMap::new();
    see_generated_reads(CASES, |read| {
        assert_eq!(read.event_by(Moment::fits), read.event);
        for (misreading, fits) in MISREADINGS {
            if read.event_by(fits) != read.event {
                *times.entry(misreading).or_default() += 1;
            }
        }
    });
    print_rows(&times);
    let wanted = MISREADINGS.map(|(misreading, _)| misreading);
    assert_often("misreading", &times, &wanted, FEWEST_READS);
}

#[test]
fn each_kind_of_day_passes_occurs_often() {
    let mut times = BTreeMap::new();
    days::see_generated_reads(CASES, |reads| {
        for worked in reads {
            let taken = worked.days_taken();
            for kind in days::KINDS.iter().filter(|kind| (kind.holds)(&worked.read)) {
                assert_eq!(taken, kind.days_taken, "{}", kind.name);
                *times.entry(kind.name).or_default() += 1;
            }
        }
    });
    print_rows(&times);
    let wanted = days::KINDS.map(|kind| kind.name);
    assert_often("reads", &times, &wanted, FEWEST_READS);
}

#[test]
fn each_misreading_of_day_passes_leaves_other_days() {
    let mut times = BTreeMap::new();
    days::see_generated_reads(CASES, |reads| {
        for worked in reads {
            assert_eq!(days::TEXT.left(&worked.read), worked.left);
        }
        assert_eq!(days::count_other_days(reads, &days::TEXT), 0);
        for (misreading, reading) in days::MISREADINGS {
            *times.entry(misreading).or_default() += days::count_other_days(reads, &reading);
        }
    });
    print_rows(&times);
    let wanted = days::MISREADINGS.map(|(misreading, _)| misreading);
    assert_often("misreading", &times, &wanted, FEWEST_READS);
}

#[test]
fn each_kind_of_wrong_tries_occurs_often() {
    let mut times = BTreeMap::new();
    tries::see_generated_entries(CASES, |worked| {
        for (kind, holds) in tries::KINDS {
            *times.entry(kind).or_default() += usize::from(holds(&worked.found));
        }
    });
    print_rows(&times);
    let wanted = tries::KINDS.map(|(kind, _)| kind);
    assert_often("entries", &times, &wanted, FEWEST_READS);
}

#[test]
fn each_misreading_of_wrong_tries_leaves_another_state_or_mark() {
    let mut times = BTreeMap::new();
    tries::see_generated_entries(CASES, |worked| {
        assert_eq!(tries::TEXT.left(&worked.found), worked.left);
        for (misreading, reading) in tries::MISREADINGS {
            let is_other = reading.left(&worked.found) != worked.left;
            *times.entry(misreading).or_default() += usize::from(is_other);
        }
    });
    print_rows(&times);
    let wanted = tries::MISREADINGS.map(|(misreading, _)| misreading);
    assert_often("misreading", &times, &wanted, FEWEST_READS);
}

/// Where a count stands to its most; nothing where that allows it.
fn beyond_the_most(tries: u8, most: u8) -> Option<&'static str> {
    if tries == 0 || tries < most {
        return None;
    }
    Some(match most {
        0 => "above 0, most unset",
        _ if tries == most => "at the most",
        _ => "above the most",
    })
}

/// The state with no wrong tries, and how those that the site does not allow stood to their mosts.
fn without_wrong_tries(site: &[u8], state: &[u8]) -> (Vec<u8>, Vec<&'static str>) {
    let mut state = state.to_vec();
    let mut beyond = Vec::new();
    for (record, part) in kept_records(site).zip(state.chunks_exact_mut(RECORD_LENGTH)) {
        if kind_of(record) == kind::CREDENTIAL {
            let tries = std::mem::take(&mut part[credential_state::WRONG_TRIES]);
            let most = CredentialRecord(record).most_wrong_tries();
            beyond.extend(beyond_the_most(tries, most));
        }
    }
    (state, beyond)
}

#[test]
fn wrong_tries_are_often_all_that_is_not_well_formed() {
    let mut times = BTreeMap::new();
    let mut random = Random::new(19);
    for _ in 0..CASES {
        let mut case = case(&mut random);
        let (mended, beyond) = without_wrong_tries(&case.site, &case.state);
        let returned = run_journal(
            &case.site,
            &mut case.state,
            &case.journal,
            &mut case.answers,
        );
        if returned == refusal::STATE_FORM && well_formed(&case.site, &mended) {
            for standing in beyond {
                *times.entry(standing).or_default() += 1;
            }
        }
    }
    print_rows(&times);
    let wanted = ["above 0, most unset", "at the most", "above the most"];
    assert_often("state", &times, &wanted, FEWEST);
}

/// Other wrong tries are well formed below the most and nowhere else.
#[test]
fn damage_to_wrong_tries_is_often_well_formed_and_often_not() {
    let mut times = BTreeMap::new();
    let mut random = Random::new(20);
    for _ in 0..CASES / 4 {
        let base = base_time(&mut random);
        let site = site(&mut random, base);
        let before = state(&mut random, base, &site);
        let mut after = before.clone();
        damage_wrong_tries(&mut random, &site, &mut after);
        if after == before {
            continue;
        }
        let (_, beyond) = without_wrong_tries(&site, &after);
        assert_eq!(well_formed(&site, &after), beyond.is_empty());
        let damaged = beyond.first().unwrap_or(&"below the most");
        *times.entry(*damaged).or_default() += 1;
    }
    print_rows(&times);
    let beyond = ["above 0, most unset", "at the most", "above the most"];
    let wanted = [&beyond[..], &["below the most"]].concat();
    assert_often("damage", &times, &wanted, FEWEST);
}

/// Accepted sites have every named most and others; the byte behind it is often all that is out of
/// range.
#[test]
fn accepted_sites_have_any_most_wrong_tries_and_no_byte_behind_it() {
    let mut mosts = BTreeMap::new();
    let mut spare = 0;
    let mut random = Random::new(22);
    for _ in 0..CASES {
        let site = case(&mut random).site;
        let mended = without_byte_behind_most(&site);
        let checked = check_site(&site);
        let is_mended = check_site(&mended) != refusal::SITE_FIELD;
        spare += usize::from(checked == refusal::SITE_FIELD && is_mended);
        let accepted = records(&site).filter(|_| checked == refusal::ACCEPTED);
        for record in accepted.filter(|record| kind_of(record) == kind::CREDENTIAL) {
            let most = CredentialRecord(record).most_wrong_tries();
            let named = NAMED_MOSTS.contains(&most).then_some(most);
            *mosts.entry(named).or_default() += 1;
        }
    }
    print_rows(&mosts);
    println!("refused for byte 23 alone: {spare}");
    assert!(spare >= FEWEST, "{spare} sites");
    let wanted = [&NAMED_MOSTS.map(Some)[..], &[None]].concat();
    assert_often("most", &mosts, &wanted, FEWEST);
}

/// The mosts that are counted one by one.
const NAMED_MOSTS: [u8; 6] = [0, 1, 2, 3, 4, 255];

fn without_byte_behind_most(site: &[u8]) -> Vec<u8> {
    let mut site = site.to_vec();
    for record in site.chunks_exact_mut(RECORD_LENGTH) {
        if kind_of(record) == kind::CREDENTIAL {
            record[credential::MOST_WRONG_TRIES + 1] = 0;
        }
    }
    site
}

/// The bytes of a credential's state behind its last grant.
const SPARE: Range<usize> = credential_state::LAST_GRANT_TIME + 4..RECORD_LENGTH;

/// The state with these bytes of all credentials at zero.
fn without_spare_bytes(site: &[u8], state: &[u8]) -> Vec<u8> {
    let mut state = state.to_vec();
    for (record, part) in kept_records(site).zip(state.chunks_exact_mut(RECORD_LENGTH)) {
        if kind_of(record) == kind::CREDENTIAL {
            part[SPARE].fill(0);
        }
    }
    state
}

#[test]
fn spare_bytes_behind_last_grant_are_often_all_that_is_not_well_formed() {
    let mut times = 0;
    let mut random = Random::new(28);
    for _ in 0..CASES {
        let mut case = case(&mut random);
        let mended = without_spare_bytes(&case.site, &case.state);
        let returned = run_journal(
            &case.site,
            &mut case.state,
            &case.journal,
            &mut case.answers,
        );
        let is_mended = returned == refusal::STATE_FORM && well_formed(&case.site, &mended);
        times += usize::from(is_mended);
    }
    println!("refused for spare bytes alone: {times}");
    assert!(times >= FEWEST, "{times} states");
}

/// Other bytes of last grant leave a state well formed, other bytes behind it do not.
#[test]
fn damage_to_last_grants_is_often_well_formed_and_often_not() {
    let mut times = BTreeMap::new();
    let mut random = Random::new(24);
    for _ in 0..CASES / 4 {
        let base = base_time(&mut random);
        let site = site(&mut random, base);
        let before = state(&mut random, base, &site);
        let mut after = before.clone();
        damage_last_grant(&mut random, &site, &mut after);
        if after == before {
            continue;
        }
        let is_spare = without_spare_bytes(&site, &after) == before;
        assert_eq!(well_formed(&site, &after), !is_spare);
        let damaged = if is_spare { "spare byte" } else { "last grant" };
        *times.entry(damaged).or_default() += 1;
    }
    print_rows(&times);
    let wanted = ["last grant", "spare byte"];
    assert_often("damage", &times, &wanted, FEWEST);
}
