//! The length of a state, and the calls that make the shorter state of a longer one and the way
//! back, in Rust and, by a program, in C.

mod library;

use library::{compile, PLAIN, SANITISED};
use linked::{check_state, lengthen_state, shorten_state, state_length};
use reference::build::{Credential, Factor, Point, Record, Rule, Zone};
use reference::generate::clock::base_time;
use reference::generate::{journal as random_journal, site as random_site, Random};
use reference::settings;
use std::fs;
use std::path::{Path, PathBuf};
use std::process::{Command, Output};
use warblehay::numbers::*;
use warblehay::{place_of_credential, place_of_point, place_of_zone, Place};

/// What a buffer holds before a call, so that any write shows.
const BEFORE: u8 = 0xA5;

/// A rule, a factor and then the objects: no state record stands where its site record does.
fn records() -> Vec<Record> {
    let point = Point {
        max_failed_attempts: 3,
        zone_to: 1,
        ..Point::new(2)
    };
    vec![
        Rule::new(3).record(),
        Factor::new(4, [4; 8]).record(),
        Zone::new(1).record(),
        point.record(),
        Factor::new(5, [5; 8]).record(),
        Credential::new(4).record(),
        Credential::new(5).record(),
        Rule::new(3).record(),
    ]
}

fn has_state(record: &[u8]) -> bool {
    [ACCESS_ZONE, ACCESS_POINT, ACCESS_CREDENTIAL].contains(&record[KIND])
}

/// The longer state, as document 01 had it: a record for every record of the site.
fn longer_of(site: &[u8], state: &[u8]) -> Vec<u8> {
    let mut records = state.chunks_exact(RECORD_SIZE);
    let longer = site.chunks_exact(RECORD_SIZE).flat_map(|record| {
        if !has_state(record) {
            return [0; RECORD_SIZE];
        }
        let held = records.next().expect("a record for each");
        held.try_into().expect("a record's bytes")
    });
    longer.collect()
}

fn fresh(site: &[u8]) -> Vec<u8> {
    let mut state = vec![BEFORE; state_length(site)];
    assert_eq!(linked::fresh_state(site, &mut state), WORKED_THROUGH);
    state
}

/// A state that was run on.
fn live(site: &[u8], journal: &[u8]) -> Vec<u8> {
    let mut state = fresh(site);
    let mut answers = vec![0; journal.len() / ENTRY_SIZE * ANSWER_SIZE];
    let returned = linked::run_journal(site, &mut state, journal, &mut answers);
    assert_eq!(returned, WORKED_THROUGH);
    state
}

/// The number that shortening returns, and the state that it leaves.
fn shortened(site: &[u8], longer: &[u8], length: usize) -> (u32, Vec<u8>) {
    let mut state = vec![BEFORE; length];
    let returned = shorten_state(site, longer, &mut state);
    (returned, state)
}

/// The number that lengthening returns, and the longer state that it leaves.
fn lengthened(site: &[u8], state: &[u8], length: usize) -> (u32, Vec<u8>) {
    let mut longer = vec![BEFORE; length];
    let returned = lengthen_state(site, state, &mut longer);
    (returned, longer)
}

#[test]
fn a_longer_state_is_shortened_and_lengthened() {
    let mut random = settings::random();
    for _ in 0..5_000 {
        let base = base_time(&mut random);
        let site = random_site(&mut random, base);
        let state = live(&site, &random_journal(&mut random, base, &site, 20));
        let longer = longer_of(&site, &state);
        let made = shortened(&site, &longer, state.len());
        assert_eq!(made, (WORKED_THROUGH, state.clone()));
        let made = lengthened(&site, &state, site.len());
        assert_eq!(made, (WORKED_THROUGH, longer));
    }
}

/// The sites that are turned back with 1 to 4.
fn bad_sites() -> [(u32, Vec<u8>); 4] {
    let site = records().concat();
    let mut spare = site.clone();
    spare[RECORD_SIZE - 1] = 1;
    let twice = [&site[..], &Zone::new(1).record()].concat();
    let missing = [&site[..], &Factor::new(6, [6; 8]).record()].concat();
    [
        (SITE_LENGTH, site[1..].to_vec()),
        (SITE_FIELD, spare),
        (SITE_TWICE, twice),
        (SITE_MISSING, missing),
    ]
}

/// Neither call works the states through, and neither writes.
fn assert_turned_back(number: u32, site: &[u8], state: &[u8], longer: &[u8]) {
    let as_it_was = |length| (number, vec![BEFORE; length]);
    let made = shortened(site, longer, state.len());
    assert_eq!(made, as_it_was(state.len()));
    let made = lengthened(site, state, longer.len());
    assert_eq!(made, as_it_was(longer.len()));
}

/// The states would be turned back with 5 and 6 too.
#[test]
fn what_a_bad_site_has_is_turned_back_with_1_to_4() {
    let site = records().concat();
    let state = fresh(&site);
    let longer = longer_of(&site, &state);
    let damaged = [&state, &longer].map(|bytes| vec![BEFORE; bytes.len() + 1]);
    for (number, site) in bad_sites() {
        assert_turned_back(number, &site, &state, &longer);
        assert_turned_back(number, &site, &damaged[0], &damaged[1]);
    }
}

/// Either length, too short or too long; the states would be turned back with 6 too.
#[test]
fn another_length_of_either_state_is_turned_back_with_5() {
    let site = records().concat();
    let [whole, whole_longer] = [4, 8].map(|records| records * RECORD_SIZE);
    assert_eq!(state_length(&site), whole);
    for by in [1, RECORD_SIZE, whole] {
        for length in [whole - by, whole + by] {
            let [state, longer] = [length, whole_longer].map(|length| vec![BEFORE; length]);
            assert_turned_back(STATE_LENGTH, &site, &state, &longer);
        }
        for length in [whole_longer - by, whole_longer + by] {
            let [state, longer] = [whole, length].map(|length| vec![BEFORE; length]);
            assert_turned_back(STATE_LENGTH, &site, &state, &longer);
        }
    }
    // Each in the place of the other.
    let state = fresh(&site);
    let longer = longer_of(&site, &state);
    assert_turned_back(STATE_LENGTH, &site, &longer, &state);
    assert_eq!(check_state(&site, &longer), STATE_LENGTH);
}

/// Any changed bit: what `check_state` says of the kept records, and 6 in those of rules and factors.
#[test]
fn what_is_not_well_formed_is_turned_back_with_6() {
    let site = records().concat();
    let state = fresh(&site);
    let longer = longer_of(&site, &state);
    for (place, record) in records().iter().enumerate() {
        for bit in 0..8 * RECORD_SIZE {
            let mut changed = longer.clone();
            changed[place * RECORD_SIZE + bit / 8] ^= 1 << (bit % 8);
            let kept = kept_of(&site, &changed);
            let form = if has_state(record) {
                check_state(&site, &kept)
            } else {
                STATE_FORM
            };
            let left = |bytes: &[u8]| match form {
                WORKED_THROUGH => (form, bytes.to_vec()),
                _ => (form, vec![BEFORE; bytes.len()]),
            };
            assert_eq!(shortened(&site, &changed, kept.len()), left(&kept));
            if has_state(record) {
                assert_eq!(lengthened(&site, &kept, longer.len()), left(&changed));
            }
        }
    }
}

/// The longer state's records of zones, points and credentials.
fn kept_of(site: &[u8], longer: &[u8]) -> Vec<u8> {
    let records = site.chunks_exact(RECORD_SIZE);
    let kept = records
        .zip(longer.chunks_exact(RECORD_SIZE))
        .filter(|(record, _)| has_state(record));
    kept.flat_map(|(_, held)| held.to_vec()).collect()
}

#[test]
fn a_site_of_rules_alone_has_an_empty_state() {
    let rules = [Rule::new(3).record(), Rule::new(4).record()].concat();
    for site in [&rules[..], &[]] {
        assert_eq!(state_length(site), 0);
        assert_eq!(fresh(site), []);
        assert_eq!(check_state(site, &[]), WORKED_THROUGH);
        let longer = vec![0; site.len()];
        assert_eq!(shortened(site, &longer, 0), (WORKED_THROUGH, vec![]));
        assert_eq!(lengthened(site, &[], site.len()), (WORKED_THROUGH, longer));
    }
    assert_eq!(check_state(&rules, &[0; RECORD_SIZE]), STATE_LENGTH);
}

/// Without rules and factors the two are the same.
#[test]
fn a_state_without_rules_and_factors_is_the_longer_one() {
    let mut records = records();
    records.retain(|record| has_state(record));
    let site = records.concat();
    let state = fresh(&site);
    assert_eq!(state.len(), site.len());
    let same = (WORKED_THROUGH, state.clone());
    assert_eq!(shortened(&site, &state, state.len()), same);
    assert_eq!(lengthened(&site, &state, state.len()), same);
}

/// Bytes of any length, among them records of a site and others with instances that occur in it.
fn any_bytes(random: &mut Random) -> Vec<u8> {
    let site = records().concat();
    let mut bytes: Vec<u8> = (0..random.below(12))
        .flat_map(|_| {
            let place = random.below(records().len());
            let mut record = site[place * RECORD_SIZE..][..RECORD_SIZE].to_vec();
            record[KIND] = random.pick(&[0, 1, 2, 3, 4, 5, 6, u8::MAX]);
            record
        })
        .collect();
    bytes.truncate(bytes.len() - random.below(RECORD_SIZE).min(bytes.len()));
    bytes
}

/// The first whole record of a kind and an instance, by a scan.
fn expected_place(site: &[u8], kind: u8, instance: u32) -> Option<Place> {
    let mut state = 0;
    for (place, record) in site.chunks_exact(RECORD_SIZE).enumerate() {
        let is_it = record[KIND] == kind && record[INSTANCE..][..4] == instance.to_be_bytes();
        if is_it {
            return Some(Place { site: place, state });
        }
        state += if has_state(record) { RECORD_SIZE } else { 0 };
    }
    None
}

#[test]
fn on_any_bytes_the_length_and_the_places() {
    let mut random = settings::random();
    let mut found = 0;
    for _ in 0..20_000 {
        let bytes = any_bytes(&mut random);
        let whole = bytes.chunks_exact(RECORD_SIZE);
        let kept = whole.filter(|record| has_state(record)).count();
        assert_eq!(state_length(&bytes), kept * RECORD_SIZE);
        for instance in 0..7 {
            let places = [
                (ACCESS_ZONE, place_of_zone(&bytes, instance)),
                (ACCESS_POINT, place_of_point(&bytes, instance)),
                (ACCESS_CREDENTIAL, place_of_credential(&bytes, instance)),
            ];
            for (kind, place) in places {
                assert_eq!(place, expected_place(&bytes, kind, instance));
                found += usize::from(place.is_some());
            }
        }
    }
    assert!(found > 20_000, "{found} were found");
}

/// The program in Rust and, plain and sanitised, in C.
fn convert_state(test: &str) -> [PathBuf; 3] {
    [
        env!("CARGO_BIN_EXE_convert_state").into(),
        compile(test, "convert_state", &PLAIN),
        compile(test, "convert_state", &SANITISED),
    ]
}

/// Runs it on a site and a state in the directory of the test; hands back what it wrote.
fn convert(
    program: &Path,
    test: &str,
    way: &str,
    [site, from]: [&[u8]; 2],
) -> (Output, Option<Vec<u8>>) {
    let directory = library::scratch(test);
    let files = ["site", "from", "to"].map(|name| directory.join(name));
    fs::write(&files[0], site).expect("the site file is written");
    fs::write(&files[1], from).expect("the state file is written");
    let _ = fs::remove_file(&files[2]);
    let mut command = Command::new(program);
    let output = command.arg(way).args(&files).output();
    (
        output.expect("the program starts"),
        fs::read(&files[2]).ok(),
    )
}

#[test]
fn the_programs_bring_a_state_over_and_back() {
    let test = "converted";
    let mut random = Random::new(9);
    let site = random_site(&mut random, 1_000);
    let state = live(&site, &random_journal(&mut random, 1_000, &site, 20));
    let longer = longer_of(&site, &state);
    assert!(state.len() < longer.len());
    for program in convert_state(test) {
        for (way, from, to) in [("shorten", &longer, &state), ("lengthen", &state, &longer)] {
            let (output, written) = convert(&program, test, way, [&site, from]);
            assert!(output.status.success(), "{program:?} {output:?}");
            assert!(output.stdout.is_empty() && output.stderr.is_empty());
            assert_eq!(written.as_ref(), Some(to), "{program:?} {way}");
        }
    }
}

/// The program says the number, and writes no file.
fn assert_not_converted(number: u32, way: &str, programs: &[PathBuf], site: &[u8], from: &[u8]) {
    for program in programs {
        let (output, written) = convert(program, "not_converted", way, [site, from]);
        assert!(!output.status.success() && output.stdout.is_empty());
        let message = String::from_utf8_lossy(&output.stderr).into_owned();
        let said = format!("convert_state: turned back with {number}");
        assert!(message.starts_with(&said), "{program:?} {message}");
        assert_eq!(written, None);
    }
}

#[test]
fn the_programs_write_nothing_of_what_is_turned_back() {
    let programs = convert_state("not_converted");
    let site = records().concat();
    let state = fresh(&site);
    let longer = longer_of(&site, &state);
    for (number, site) in bad_sites() {
        assert_not_converted(number, "shorten", &programs, &site, &longer);
        assert_not_converted(number, "lengthen", &programs, &site, &state);
    }
    assert_not_converted(STATE_LENGTH, "shorten", &programs, &site, &state);
    assert_not_converted(STATE_LENGTH, "lengthen", &programs, &site, &longer);
    let [damaged, damaged_longer] = [&state, &longer].map(|bytes| vec![BEFORE; bytes.len()]);
    assert_not_converted(STATE_FORM, "shorten", &programs, &site, &damaged_longer);
    assert_not_converted(STATE_FORM, "lengthen", &programs, &site, &damaged);
}
