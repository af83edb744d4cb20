//! A site that is changed under a live state, by the ways that the header documents, and what happens by another.

mod library;

use reference::build::{journal, Credential, EntryFields, Factor, Point, Record, Zone, FORMAT};
use reference::bytes::get32;
use reference::generate::clock::base_time;
use reference::generate::{journal as random_journal, site as random_site, Random};
use reference::settings;
use std::fs;
use std::path::PathBuf;
use std::process::{Command, Output};
use warblehay::numbers::*;
use warblehay::{
    check_state, fresh_state, place_of_credential, place_of_point, place_of_zone, run_journal,
    state_length, Place, TurnedBack,
};

const ZONE: u32 = 1;
const POINT: u32 = 2;
const POINT_OF_TWO: u32 = 3;
const POINT_THAT_LOCKS: u32 = 4;

fn card(credential: u32) -> [u8; 8] {
    u64::from(credential).to_be_bytes()
}

fn factor(credential: u32) -> Record {
    Factor::new(credential, card(credential)).record()
}

fn read(time: u32, point: u32, credential: u32) -> EntryFields {
    EntryFields::read_factor(time, point, FORMAT, card(credential))
}

fn zone() -> Record {
    let flags = 1 << ZONE_FLAG_COUNTING;
    Zone {
        flags,
        ..Zone::new(ZONE)
    }
    .record()
}

fn point(instance: u32) -> Point {
    Point {
        authorization_mode: MODE_GRANT_ACTIVE,
        ..Point::new(instance)
    }
}

/// A point that grants and counts into the zone.
fn entrance() -> Record {
    let flags = 1 << POINT_FLAG_COUNT_ADJUST;
    Point {
        flags,
        zone_to: ZONE,
        ..point(POINT)
    }
    .record()
}

/// Credential 5 has one use.
fn credential(instance: u32) -> Record {
    let uses = if instance == 5 { 1 } else { UNLIMITED };
    Credential {
        uses,
        ..Credential::new(instance)
    }
    .record()
}

/// A credential's record with its most wrong tries.
fn with_most(most_wrong_tries: u8, mut record: Record) -> Record {
    record[CREDENTIAL_MOST_WRONG_TRIES] = most_wrong_tries;
    record
}

/// Zone, entrance, credentials 5 and 6 with their factors.
fn records() -> Vec<Record> {
    vec![
        zone(),
        entrance(),
        with_most(3, credential(5)),
        factor(5),
        credential(6),
        factor(6),
    ]
}

fn fresh(site: &[u8]) -> Vec<u8> {
    let mut state = vec![0; state_length(site)];
    assert_eq!(fresh_state(site, &mut state), Ok(()));
    state
}

fn answers(site: &[u8], state: &mut [u8], journal: &[u8]) -> Vec<u8> {
    let mut answers = vec![0; journal.len() / ENTRY_SIZE * ANSWER_SIZE];
    assert_eq!(run_journal(site, state, journal, &mut answers), Ok(()));
    answers
}

fn events(site: &[u8], state: &mut [u8], entries: &[EntryFields]) -> Vec<u16> {
    answers(site, state, &journal(entries))
        .chunks_exact(ANSWER_SIZE)
        .map(|answer| u16::from_be_bytes([answer[ANSWER_EVENT], answer[ANSWER_EVENT + 1]]))
        .collect()
}

/// The state after credential 5's one use, with credential 6 disabled by hand.
fn live_state(site: &[u8]) -> Vec<u8> {
    let mut state = fresh(site);
    let entries = [
        read(100, POINT, 5),
        EntryFields::set_disable(110, 6, DISABLE_MANUAL),
    ];
    assert_eq!(events(site, &mut state, &entries), [GRANTED, NO_EVENT]);
    state
}

/// What the two credentials get by their own state, whatever their places.
const BY_THEIR_OWN: [u16; 2] = [DENIED_CREDENTIAL_MAX_USES, DENIED_CREDENTIAL_MANUAL_DISABLE];

fn both_cards() -> [EntryFields; 2] {
    [read(200, POINT, 5), read(210, POINT, 6)]
}

/// Runs the example `carry_state` in a directory of the test; the last file is the one it writes.
fn run_carry_state(test: &str, files: [&[u8]; 3]) -> (Output, PathBuf) {
    let directory = library::scratch(test);
    let names = ["old_site", "old_state", "new_site", "new_state"].map(|name| directory.join(name));
    for (name, bytes) in names.iter().zip(files) {
        fs::write(name, bytes).expect("the file is written");
    }
    let _ = fs::remove_file(&names[3]);
    let mut command = Command::new(env!("CARGO_BIN_EXE_carry_state"));
    (
        command.args(&names).output().expect("the program starts"),
        names[3].clone(),
    )
}

fn carried(test: &str, old_site: &[u8], old_state: &[u8], new_site: &[u8]) -> Vec<u8> {
    let (output, written) = run_carry_state(test, [old_site, old_state, new_site]);
    assert!(
        output.status.success(),
        "{}",
        String::from_utf8_lossy(&output.stderr)
    );
    let state = fs::read(written).expect("the state is written");
    assert_eq!(check_state(new_site, &state), Ok(()));
    state
}

/// The state record of an object.
fn at(state: &[u8], place: Option<Place>) -> &[u8] {
    let place = place.expect("the object is there");
    &state[place.state..][..RECORD_SIZE]
}

#[test]
fn in_place_every_object_keeps_its_state() {
    let old_site = records().concat();
    let old_state = live_state(&old_site);
    let mut new_records = records();
    new_records[0] = Zone {
        upper_limit: 2,
        flags: 1 << ZONE_FLAG_COUNTING,
        ..Zone::new(ZONE)
    }
    .record();
    new_records.extend([credential(7), factor(7)]);
    // A factor that stood before a credential goes to the end.
    let moved = new_records.remove(3);
    new_records.push(moved);
    let new_site = new_records.concat();
    let mut state = [&old_state[..], &fresh(&new_site)[old_state.len()..]].concat();
    assert_eq!(check_state(&new_site, &state), Ok(()));
    assert_eq!(events(&new_site, &mut state, &both_cards()), BY_THEIR_OWN);
    assert_eq!(
        events(&new_site, &mut state, &[read(220, POINT, 7)]),
        [GRANTED]
    );
    assert_eq!(
        at(&state, place_of_zone(&new_site, ZONE))[..4],
        [0, 0, 0, 2]
    );
}

/// Whether a record has a state: one of a zone, a point or a credential.
fn has_state(record: &[u8]) -> bool {
    ![ACCESS_RULE, AUTHENTICATION_FACTOR].contains(&record[KIND])
}

/// The site with its rules and factors at any places, and without some of them where they may go.
fn with_others_moved(random: &mut Random, site: &[u8], may_go: bool) -> Vec<u8> {
    let records = site.chunks_exact(RECORD_SIZE);
    let (mut moved, others): (Vec<_>, Vec<_>) = records.partition(|record| has_state(record));
    for other in others {
        let place = random.below(moved.len() + 1);
        if !may_go || random.below(2) == 0 {
            moved.insert(place, other);
        }
    }
    moved.concat()
}

/// Where rules and factors move, the state stays, and each object has its own record in it.
#[test]
fn in_place_rules_and_factors_move_anywhere() {
    let mut random = settings::random();
    let mut moved = 0;
    for _ in 0..2_000 {
        let base = base_time(&mut random);
        let site = random_site(&mut random, base);
        let [first, second] = [0; 2].map(|_| random_journal(&mut random, base, &site, 20));
        let mut state = fresh(&site);
        answers(&site, &mut state, &first);
        let mut new_state = state.clone();
        let new_site = with_others_moved(&mut random, &site, false);
        let expected = answers(&site, &mut state, &second);
        assert_eq!(answers(&new_site, &mut new_state, &second), expected);
        assert_eq!(new_state, state);
        moved += usize::from(new_site != site);
    }
    assert!(moved > 1_000, "{moved} sites have rules or factors");
}

/// Where rules and factors come and go, the state stays, and is that of the same objects.
#[test]
fn in_place_rules_and_factors_come_and_go() {
    let mut random = settings::random();
    for _ in 0..2_000 {
        let base = base_time(&mut random);
        let site = random_site(&mut random, base);
        let fewer = with_others_moved(&mut random, &site, true);
        for (old_site, new_site) in [(&site, &fewer), (&fewer, &site)] {
            let mut state = fresh(old_site);
            let journal = random_journal(&mut random, base, old_site, 20);
            answers(old_site, &mut state, &journal);
            assert_eq!(check_state(new_site, &state), Ok(()));
            for record in old_site.chunks_exact(RECORD_SIZE) {
                let [old, new] = [old_site, new_site].map(|site| place_in(site, record));
                assert_eq!(old.map(|place| place.state), new.map(|place| place.state));
                assert_eq!(old.is_some(), has_state(record));
            }
        }
    }
}

/// Where a site has the zone, point or credential of a record.
fn place_in(site: &[u8], record: &[u8]) -> Option<Place> {
    let instance = get32(record, INSTANCE);
    match record[KIND] {
        ACCESS_ZONE => place_of_zone(site, instance),
        ACCESS_POINT => place_of_point(site, instance),
        ACCESS_CREDENTIAL => place_of_credential(site, instance),
        _ => None,
    }
}

/// Uses, days and disable are the state's: the site's show in a fresh record alone.
#[test]
fn in_place_the_sites_uses_and_disable_change_nothing() {
    let old_site = records().concat();
    let mut state = live_state(&old_site);
    let mut new_records = records();
    new_records[2] = Credential::new(5).record();
    let new_site = new_records.concat();
    assert_ne!(fresh(&new_site), fresh(&old_site));
    assert_eq!(events(&new_site, &mut state, &both_cards()), BY_THEIR_OWN);
}

/// A most that is lowered to what adds up in the state turns the state back until that is 0.
fn asks_for_none(place: Option<Place>, most: usize, counted: usize) {
    let site = larger_site();
    let mut state = larger_state(&site);
    let place = place.expect("the object is there");
    assert_eq!(state[place.state + counted], 2);
    let mut new_site = site.clone();
    new_site[place.site * RECORD_SIZE + most] = 2;
    assert_eq!(check_state(&new_site, &state), Err(TurnedBack::StateForm));
    state[place.state + counted] = 0;
    assert_eq!(check_state(&new_site, &state), Ok(()));
}

#[test]
fn in_place_a_lowered_most_asks_for_no_failures() {
    let place = place_of_point(&larger_site(), POINT_THAT_LOCKS);
    asks_for_none(place, POINT_MOST_FAILURES, POINT_STATE_FAILURES);
}

#[test]
fn in_place_a_lowered_most_asks_for_no_wrong_tries() {
    let place = place_of_credential(&larger_site(), 5);
    asks_for_none(
        place,
        CREDENTIAL_MOST_WRONG_TRIES,
        CREDENTIAL_STATE_WRONG_TRIES,
    );
}

/// Two records change places, and the state does not: it is accepted, and each holds the state of the other.
#[test]
fn a_record_that_moved_alone_holds_the_state_of_another() {
    let old_site = records().concat();
    let old_state = live_state(&old_site);
    let mut new_records = records();
    new_records.swap(2, 4);
    let new_site = new_records.concat();
    let mut kept = old_state.clone();
    assert_eq!(check_state(&new_site, &kept), Ok(()));
    let [of_five, of_six] = BY_THEIR_OWN;
    assert_eq!(
        events(&new_site, &mut kept, &both_cards()),
        [of_six, of_five]
    );
    let mut moved_too = carried("moved", &old_site, &old_state, &new_site);
    assert_eq!(
        events(&new_site, &mut moved_too, &both_cards()),
        BY_THEIR_OWN
    );
}

/// The points of the larger site: one waits for credential 6, one has two of three failures. Credential 5 has two of three wrong tries.
fn larger_site() -> Vec<u8> {
    let waits = Point {
        factors_wanted: TWO_FACTORS,
        ..point(POINT_OF_TWO)
    };
    let locks = Point {
        max_failed_attempts: 3,
        ..point(POINT_THAT_LOCKS)
    };
    [records(), vec![waits.record(), locks.record()]]
        .concat()
        .concat()
}

fn larger_state(site: &[u8]) -> Vec<u8> {
    let mut state = live_state(site);
    let failures = [
        read(120, POINT_THAT_LOCKS, 9),
        read(121, POINT_THAT_LOCKS, 9),
    ];
    let wrong_codes = [5, 9, 5, 9].map(|value| read(114, POINT_OF_TWO, value));
    let waits = [read(115, POINT_OF_TWO, 6)];
    let entries = [&wrong_codes[..], &waits, &failures].concat();
    let expected = [
        NO_EVENT,
        DENIED_INCORRECT_AUTHENTICATION_FACTOR,
        NO_EVENT,
        DENIED_INCORRECT_AUTHENTICATION_FACTOR,
        NO_EVENT,
        DENIED_UNKNOWN_CREDENTIAL,
        DENIED_UNKNOWN_CREDENTIAL,
    ];
    assert_eq!(events(site, &mut state, &entries), expected);
    state
}

/// The zone and credential 6 are gone, one failure locks, and one wrong try locks out.
fn smaller_site() -> Vec<u8> {
    let waits = Point {
        factors_wanted: TWO_FACTORS,
        ..point(POINT_OF_TWO)
    };
    let locks = Point {
        max_failed_attempts: 1,
        ..point(POINT_THAT_LOCKS)
    };
    [
        factor(5),
        locks.record(),
        waits.record(),
        point(POINT).record(),
        with_most(1, credential(5)),
    ]
    .concat()
}

#[test]
fn carried_over_what_is_gone_is_nobodys() {
    let (old_site, new_site) = (larger_site(), smaller_site());
    let old_state = larger_state(&old_site);
    let state = carried("gone", &old_site, &old_state, &new_site);

    let mut five = at(&old_state, place_of_credential(&old_site, 5)).to_vec();
    five[CREDENTIAL_STATE_ZONE..][..4].copy_from_slice(&NONE.to_be_bytes());
    assert_eq!(five[CREDENTIAL_STATE_WRONG_TRIES], 2);
    five[CREDENTIAL_STATE_WRONG_TRIES] = 0;
    assert_eq!(at(&state, place_of_credential(&new_site, 5)), five);

    let mut waited = at(&old_state, place_of_point(&old_site, POINT_OF_TWO)).to_vec();
    assert_eq!(waited[POINT_STATE_WAITING_CREDENTIAL..][..4], [0, 0, 0, 6]);
    waited[POINT_STATE_WAITING_CREDENTIAL..][..4].copy_from_slice(&NONE.to_be_bytes());
    assert_eq!(at(&state, place_of_point(&new_site, POINT_OF_TWO)), waited);

    let mut failed = at(&old_state, place_of_point(&old_site, POINT_THAT_LOCKS)).to_vec();
    assert_eq!(failed[POINT_STATE_FAILURES], 2);
    failed[POINT_STATE_FAILURES] = 0;
    assert_eq!(
        at(&state, place_of_point(&new_site, POINT_THAT_LOCKS)),
        failed
    );
}

/// The second half of a journal gets the same answers on the shuffled site with its carried state.
#[test]
fn carried_over_a_shuffled_site_answers_alike() {
    let mut random = Random::new(7);
    for _ in 0..200 {
        let site = random_site(&mut random, 1_000);
        let mut shuffled: Vec<&[u8]> = site.chunks_exact(RECORD_SIZE).collect();
        random.shuffle(&mut shuffled);
        let new_site = shuffled.concat();
        let [first, second] = [0; 2].map(|_| random_journal(&mut random, 1_000, &site, 20));
        let mut state = fresh(&site);
        answers(&site, &mut state, &first);
        let mut new_state = carried("shuffled", &site, &state, &new_site);
        let expected = answers(&site, &mut state, &second);
        assert_eq!(answers(&new_site, &mut new_state, &second), expected);
    }
}

/// Whether a record is a rule whose hours run past midnight.
fn is_shift(record: &[u8]) -> bool {
    let minute = |at: usize| u16::from_be_bytes([record[at], record[at + 1]]);
    record[KIND] == ACCESS_RULE && minute(RULE_FROM) > minute(RULE_TO)
}

/// A shift as the two rules that it had to be written as: to the end of the days on which it begins, and from the start of the days after them.
fn halves(shift: &[u8]) -> [Vec<u8>; 2] {
    let [mut until, mut since] = [shift.to_vec(), shift.to_vec()];
    until[RULE_TO..][..2].copy_from_slice(&(MINUTES_OF_DAY as u16).to_be_bytes());
    since[RULE_FROM..][..2].fill(0);
    let days = shift[RULE_DAYS];
    since[RULE_DAYS] = (days << 1 | days >> 6) & 0x7F;
    [until, since]
}

/// The site with something else in the place of each shift.
fn with_shifts_as(site: &[u8], shift_as: impl Fn(&[u8]) -> Vec<u8>) -> Vec<u8> {
    let records = site.chunks_exact(RECORD_SIZE);
    let changed = records.map(|record| {
        if is_shift(record) {
            return shift_as(record);
        }
        record.to_vec()
    });
    changed.collect::<Vec<_>>().concat()
}

/// Pairs of rules become shifts under a live state, which stays: the second of a pair goes, becomes a copy of the shift, or is left as it was.
#[test]
fn in_place_pairs_of_rules_become_shifts() {
    let mut random = settings::random();
    let mut decided = 0;
    for _ in 0..20_000 {
        let base = base_time(&mut random);
        let site = random_site(&mut random, base);
        let pairs = with_shifts_as(&site, |shift| halves(shift).concat());
        let [first, second] = [0; 2].map(|_| random_journal(&mut random, base, &site, 20));
        let mut live = fresh(&pairs);
        answers(&pairs, &mut live, &first);
        let mut state = live.clone();
        let expected = answers(&pairs, &mut state, &second);

        let copied = with_shifts_as(&site, |shift| shift.repeat(2));
        let left = with_shifts_as(&site, |shift| [shift, &halves(shift)[1]].concat());
        for new_site in [&site, &copied, &left] {
            let mut new_state = live.clone();
            assert_eq!(answers(new_site, &mut new_state, &second), expected);
            assert_eq!(new_state, state);
        }
        let first_halves = with_shifts_as(&site, |shift| halves(shift)[0].clone());
        let others = answers(&first_halves, &mut live, &second);
        decided += usize::from(others != expected);
    }
    assert!(decided > 200, "the second halves decided {decided} times");
}

#[test]
fn a_state_of_another_site_is_not_carried() {
    let site = records().concat();
    let state = live_state(&site);
    let (output, written) = run_carry_state("other", [&site, &state[RECORD_SIZE..], &site]);
    assert!(!output.status.success() && !written.exists());
    let message = String::from_utf8_lossy(&output.stderr).into_owned();
    assert!(message.contains("turned back with 5"), "{message}");
}
