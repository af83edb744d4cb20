//! What turns a call or an entry back, in which order, and that nothing is written then.

use reference::answer::Answer;
use reference::build::{Credential, EntryFields, Factor, Panel, Point, Record, Rule, Zone};
use reference::generate::{large_site, Random};
use reference::journal::run_journal;
use reference::layout::entry;
use reference::longer::lengthened;
use reference::numbers::{
    factor_role, kind, location_kind, refusal, rule_flag, zone_flag, ANSWER_LENGTH, ENTRY_LENGTH,
    MOST_JOURNAL_BYTES, MOST_SITE_BYTES, NEVER, NONE, RECORD_LENGTH,
};
use reference::site::check_site;
use reference::state::{fresh_state, well_formed};

const CARD: [u8; 8] = [1, 2, 3, 4, 5, 6, 7, 8];

/// One object of each kind, with every reference set.
fn records() -> [Record; 5] {
    [
        Zone {
            flags: zone_flag::OCCUPANCY_COUNT_ENABLE,
            ..Zone::new(7)
        }
        .record(),
        Point {
            zone_to: 7,
            max_failed_attempts: 3,
            ..Point::new(7)
        }
        .record(),
        Rule {
            flags: rule_flag::ENABLE,
            location_kind: location_kind::ZONE,
            location: 7,
            ..Rule::new(7)
        }
        .record(),
        Credential::new(7).record(),
        Factor::new(7, CARD).record(),
    ]
}

fn with_byte(record: usize, offset: usize, byte: u8) -> Vec<u8> {
    let mut records = records();
    records[record][offset] = byte;
    records.concat()
}

#[test]
fn lengths_of_sites() {
    assert_eq!(check_site(&[]), refusal::ACCEPTED);
    assert_eq!(check_site(&records().concat()), refusal::ACCEPTED);
    assert_eq!(check_site(&records().concat()[..31]), refusal::SITE_LENGTH);
    let most = MOST_SITE_BYTES / RECORD_LENGTH;
    let mut site = large_site(&mut Random::new(1), 100, most);
    assert_eq!(site.len(), MOST_SITE_BYTES);
    assert_eq!(check_site(&site), refusal::ACCEPTED);
    site.extend_from_slice(&Rule::new(1).record());
    assert_eq!(check_site(&site), refusal::SITE_LENGTH);
}

#[test]
fn every_unnamed_byte_of_a_site_is_spare() {
    let spare: [&[usize]; 5] = [
        &[3, 20, 31],
        &[28, 31],
        &[16, 31],
        &[23],
        &[1, 9, 15, 24, 31],
    ];
    for (record, offsets) in spare.iter().enumerate() {
        for &offset in *offsets {
            let returned = check_site(&with_byte(record, offset, 1));
            assert_eq!(returned, refusal::SITE_FIELD, "{record} {offset}");
        }
    }
}

#[test]
fn the_most_wrong_tries_of_a_credential_may_be_any() {
    for most in 0..=255 {
        assert_eq!(check_site(&with_byte(3, 22, most)), refusal::ACCEPTED);
    }
}

#[test]
fn fields_of_a_site_out_of_range() {
    let beyond = [
        (0, 0, 6),
        (0, 1, 2),
        (0, 2, 3),
        (1, 1, 32),
        (1, 2, 3),
        (1, 3, 0),
        (1, 3, 3),
        (1, 16, 101),
        (2, 1, 16),
        (2, 2, 0),
        (2, 2, 3),
        (2, 3, 128),
        (2, 12, 6),
        (2, 14, 6),
        (3, 1, 32),
        (3, 2, 4),
        (3, 3, 101),
        (4, 2, 0),
        (4, 2, 3),
        (4, 3, 6),
        (4, 8, 1),
    ];
    for (record, offset, byte) in beyond {
        let returned = check_site(&with_byte(record, offset, byte));
        assert_eq!(returned, refusal::SITE_FIELD, "{record} {offset} {byte}");
    }
}

#[test]
fn instances_and_references_that_are_not_real() {
    let point = |zone_to, zone_from| Point {
        zone_to,
        zone_from,
        ..Point::new(1)
    };
    let check = |record: Record| check_site(&record);
    assert_eq!(check(Zone::new(NONE - 1).record()), refusal::ACCEPTED);
    assert_eq!(check(Zone::new(NONE).record()), refusal::SITE_FIELD);
    assert_eq!(check(point(NONE, NONE).record()), refusal::ACCEPTED);
    assert_eq!(check(point(NONE + 1, NONE).record()), refusal::SITE_FIELD);
    assert_eq!(check(point(NONE, 9).record()), refusal::SITE_MISSING);
    // The same zone twice is a field out of range, also where the zone is missing.
    assert_eq!(check(point(9, 9).record()), refusal::SITE_FIELD);
    let missing_rights = Credential {
        rights: [9, 9],
        ..Credential::new(1)
    };
    assert_eq!(check(missing_rights.record()), refusal::ACCEPTED);
}

#[test]
fn rules_everywhere_name_no_location() {
    let everywhere = Rule::new(1);
    let with_kind = Rule {
        location_kind: location_kind::ZONE,
        ..everywhere
    };
    let with_location = Rule {
        location: 1,
        ..everywhere
    };
    let accepted = [everywhere.record(), everywhere.record()].concat();
    assert_eq!(check_site(&accepted), refusal::ACCEPTED);
    assert_eq!(check_site(&with_kind.record()), refusal::SITE_FIELD);
    assert_eq!(check_site(&with_location.record()), refusal::SITE_FIELD);
}

#[test]
fn hours_of_rules_are_at_most_1440_in_each_field_and_in_any_order() {
    let check = |from: u16, to: u16| {
        let rule = Rule {
            from,
            to,
            ..Rule::new(1)
        };
        check_site(&rule.record())
    };
    for other in [0, 1, 720, 1_439, 1_440] {
        for minute in [0, 1, 720, 1_439, 1_440] {
            assert_eq!(check(minute, other), refusal::ACCEPTED, "{minute} {other}");
        }
        for minute in [1_441, 1_442, 0x8000, u16::MAX] {
            assert_eq!(check(minute, other), refusal::SITE_FIELD, "from {minute}");
            assert_eq!(check(other, minute), refusal::SITE_FIELD, "to {minute}");
        }
    }
}

#[test]
fn the_same_twice() {
    let [zone, point, rule, credential, factor] = records();
    for twin in [zone, point, credential, factor] {
        let site = [records().concat(), twin.to_vec()].concat();
        assert_eq!(check_site(&site), refusal::SITE_TWICE);
    }
    let site = [records().concat(), rule.to_vec()].concat();
    assert_eq!(check_site(&site), refusal::ACCEPTED);
}

#[test]
fn identifying_twins_cross_credentials_and_confirming_ones_do_not() {
    let confirming = |credential| {
        Factor {
            role: factor_role::CONFIRMING,
            ..Factor::new(credential, CARD)
        }
        .record()
    };
    let check = |more: &[Record]| check_site(&[records().concat(), more.concat()].concat());
    let other = Credential::new(8).record();
    let identifying = Factor::new(8, CARD).record();
    assert_eq!(check(&[other, identifying]), refusal::SITE_TWICE);
    let apart = [other, confirming(7), confirming(8)];
    assert_eq!(check(&apart), refusal::ACCEPTED);
    let alike = [confirming(7), confirming(7)];
    assert_eq!(check(&alike), refusal::SITE_TWICE);
}

#[test]
fn a_missing_zone_point_or_credential() {
    let [zone, point, rule, credential, factor] = records();
    let check = |records: &[Record]| check_site(&records.concat());
    assert_eq!(check(&[point]), refusal::SITE_MISSING);
    assert_eq!(check(&[rule]), refusal::SITE_MISSING);
    assert_eq!(check(&[factor]), refusal::SITE_MISSING);
    // Zone 7 is never credential 7.
    assert_eq!(check(&[zone, factor]), refusal::SITE_MISSING);
    assert_eq!(check(&[credential, rule]), refusal::SITE_MISSING);
    assert_eq!(check(&[factor, credential]), refusal::ACCEPTED);
}

#[test]
fn a_fresh_state_is_well_formed_and_holds_the_bytes_of_the_paper() {
    let site = records().concat();
    let mut state = vec![0xFF; 96];
    assert_eq!(fresh_state(&site, &mut state), refusal::ACCEPTED);
    assert!(well_formed(&site, &state));
    let mut expected = vec![0; 96];
    expected[32 + 16..32 + 20].copy_from_slice(&[0, 0x3F, 0xFF, 0xFF]);
    let credential = &mut expected[64..96];
    credential[..8].fill(0xFF);
    credential[8..12].copy_from_slice(&[0, 0x3F, 0xFF, 0xFF]);
    credential[12..16].fill(0xFF);
    credential[20..24].copy_from_slice(&[0, 0x3F, 0xFF, 0xFF]);
    credential[24..28].fill(0xFF);
    assert_eq!(state, expected);
    for length in [0, 64, 95, 97, 128, site.len()] {
        let mut other = vec![0xFF; length];
        assert_eq!(fresh_state(&site, &mut other), refusal::STATE_LENGTH);
        assert!(other.iter().all(|&byte| byte == 0xFF));
    }
}

/// Whether the fresh state is well formed after the bytes at these offsets are changed. The state
/// records stand at 0 (zone), 32 (point) and 64 (credential).
fn well_formed_with(changes: &[(usize, u8)]) -> bool {
    let mut panel = Panel::fresh(&records());
    for &(offset, byte) in changes {
        panel.state[offset] = byte;
    }
    well_formed(&panel.site, &panel.state)
}

#[test]
fn fields_of_a_state_out_of_range() {
    assert!(well_formed_with(&[(0, 255), (32, 255), (64 + 16, 9)]));
    assert!(well_formed_with(&[(32 + 5, 1)]), "locked");
    assert!(!well_formed_with(&[(32 + 5, 2)]), "neither locked nor not");
    assert!(well_formed_with(&[(32 + 4, 2)]), "failures below the most");
    assert!(!well_formed_with(&[(32 + 4, 3)]), "failures at the most");
    assert!(well_formed_with(&[(64 + 18, 3)]), "the last disable");
    assert!(!well_formed_with(&[(64 + 18, 4)]), "a disable beyond it");
    let last_grant = [(64 + 24, 0), (64 + 25, 1), (64 + 26, 2), (64 + 27, 3)];
    assert!(well_formed_with(&last_grant), "any last grant");
    for spare in [4, 31, 38, 39, 56, 63, 92, 95] {
        assert!(!well_formed_with(&[(spare, 1)]), "spare byte {spare}");
    }
}

#[test]
fn wrong_tries_of_a_state_are_below_the_most_and_zero_where_it_is_unset() {
    let [zone, point, rule, credential, factor] = records();
    for most in [0, 1, 2, 3, 254, 255] {
        let mut credential = credential;
        credential[22] = most;
        let mut panel = Panel::fresh(&[zone, point, rule, credential, factor]);
        assert_eq!(panel.state[64 + 19], 0);
        for tries in 0..=255 {
            panel.state[64 + 19] = tries;
            let is_sound = tries == 0 || tries < most;
            let place = (most, tries);
            assert_eq!(
                well_formed(&panel.site, &panel.state),
                is_sound,
                "{place:?}"
            );
        }
    }
}

#[test]
fn references_of_a_state_are_none_or_exist_and_locked_points_wait_for_nobody() {
    let refers =
        |offset: usize, instance: u8| [(offset + 1, 0), (offset + 2, 0), (offset + 3, instance)];
    for reference in [32 + 16, 64 + 8, 64 + 20] {
        assert!(well_formed_with(&refers(reference, 7)), "{reference}");
        assert!(!well_formed_with(&refers(reference, 8)), "{reference}");
    }
    let waits_locked = [&refers(32 + 16, 7)[..], &[(32 + 5, 1)]].concat();
    assert!(!well_formed_with(&waits_locked));
}

/// Inputs that meet all refusals of a run; mending them one by one shows the order.
#[test]
fn a_run_is_turned_back_in_the_order_of_the_table() {
    let sound = Panel::fresh(&records());
    let short = &sound.site[..sound.site.len() - 1];
    let spare = with_byte(0, 31, 1);
    let twice = [&sound.site[..], &sound.site[..32]].concat();
    let missing = &sound.site[32..];
    let spoiled = [&sound.state[..95], &[1]].concat();
    let run = |site: &[u8], state: &[u8], journal: usize, answers: usize| {
        let mut state = state.to_vec();
        let mut answers = vec![9; answers];
        let before = (state.clone(), answers.clone());
        let returned = run_journal(site, &mut state, &vec![0; journal], &mut answers);
        assert_eq!(
            (state, answers),
            before,
            "refusal {returned} writes nothing"
        );
        returned
    };
    assert_eq!(run(short, &spoiled, 25, 15), refusal::SITE_LENGTH);
    assert_eq!(run(&spare, &spoiled, 25, 15), refusal::SITE_FIELD);
    assert_eq!(run(&twice, &spoiled, 25, 15), refusal::SITE_TWICE);
    assert_eq!(run(missing, &spoiled, 25, 15), refusal::SITE_MISSING);
    let site = &sound.site;
    assert_eq!(run(site, &spoiled[1..], 25, 15), refusal::STATE_LENGTH);
    let longer = lengthened(site, &sound.state);
    assert_eq!(run(site, &longer, 25, 15), refusal::STATE_LENGTH);
    assert_eq!(run(site, &spoiled, 25, 15), refusal::STATE_FORM);
    assert_eq!(run(site, &sound.state, 25, 15), refusal::JOURNAL_LENGTH);
    assert_eq!(run(site, &sound.state, 24, 15), refusal::ANSWERS_LENGTH);
    let most = MOST_JOURNAL_BYTES;
    assert_eq!(run(site, &sound.state, most, 0), refusal::ANSWERS_LENGTH);
    let above = most + ENTRY_LENGTH;
    assert_eq!(run(site, &sound.state, above, 0), refusal::JOURNAL_LENGTH);
    assert_eq!(run(site, &sound.state, 0, 0), refusal::ACCEPTED);
}

/// Sound entries, each with a change that takes it out of range.
type Change = (EntryFields, fn(&mut EntryFields));

fn read() -> EntryFields {
    EntryFields::read_factor(100, 7, 2, CARD)
}

fn set_count() -> EntryFields {
    EntryFields::set_count(100, 7, 3)
}

fn set_disable() -> EntryFields {
    EntryFields::set_disable(100, 7, 1)
}

fn set_lockout() -> EntryFields {
    EntryFields::set_lockout(100, 7, true)
}

#[test]
fn entries_out_of_range_are_turned_back_and_leave_the_state() {
    let changes: [Change; 13] = [
        (read(), |entry| entry.operation = 0),
        (set_count(), |entry| entry.operation = 6),
        (set_count(), |entry| entry.time = NEVER),
        (set_lockout(), |entry| entry.instance = NONE),
        (read(), |entry| entry.argument = 0),
        (read(), |entry| entry.amount = 1),
        (set_count(), |entry| entry.argument = 1),
        (set_count(), |entry| entry.value = CARD),
        (set_disable(), |entry| entry.argument = 4),
        (set_disable(), |entry| entry.amount = 1),
        (set_lockout(), |entry| entry.argument = 2),
        (set_lockout(), |entry| entry.value = CARD),
        // Out of range comes before no such object.
        (read(), |entry| (entry.argument, entry.instance) = (0, 8)),
    ];
    let mut panel = Panel::fresh(&records());
    let before = panel.state.clone();
    for (number, (mut entry, change)) in changes.into_iter().enumerate() {
        change(&mut entry);
        let refused = Answer::refused(refusal::ENTRY_FIELD);
        assert_eq!(panel.work(entry), refused, "entry {number}");
    }
    assert_eq!(panel.state, before);
}

#[test]
fn spare_bytes_of_entries_are_zero() {
    let panel = Panel::fresh(&records());
    for offset in [entry::SPARE, entry::SPARE + 1] {
        let mut state = panel.state.clone();
        let mut journal = set_count().bytes();
        journal[offset] = 1;
        let mut answer = [0; ANSWER_LENGTH];
        let returned = run_journal(&panel.site, &mut state, &journal, &mut answer);
        assert_eq!(returned, refusal::ACCEPTED);
        let refused = Answer::refused(refusal::ENTRY_FIELD);
        assert_eq!(Answer::from_bytes(&answer), refused);
        assert_eq!(state, panel.state);
    }
}

#[test]
fn entries_without_their_object_are_turned_back_and_leave_the_state() {
    let mut panel = Panel::fresh(&records());
    let before = panel.state.clone();
    for mut entry in [read(), set_count(), set_disable(), set_lockout()] {
        entry.instance = 8;
        let answer = panel.work(entry);
        assert_eq!(answer, Answer::refused(refusal::ENTRY_MISSING));
    }
    assert_eq!(panel.state, before);
}

#[test]
fn an_adjustment_above_the_highest_count_is_turned_back() {
    let mut panel = Panel::fresh(&records());
    let answers = panel.run(&[
        EntryFields::set_count(100, 7, u32::MAX - 1),
        EntryFields::adjust_count(100, 7, 2),
        EntryFields::adjust_count(100, 7, 1),
        EntryFields::adjust_count(100, 7, 1),
    ]);
    assert_eq!(answers[0].count, u32::MAX - 1);
    assert_eq!(answers[1], Answer::refused(refusal::ENTRY_COUNT));
    assert_eq!((answers[2].refusal, answers[2].count), (0, u32::MAX));
    assert_eq!(answers[3], Answer::refused(refusal::ENTRY_COUNT));
    assert_eq!(panel.state_of(kind::ZONE, 7)[..4], [255; 4]);
}
