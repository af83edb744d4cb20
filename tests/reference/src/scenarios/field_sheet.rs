//! The five items of the field engineer's sheet.

use crate::build::{journal, Credential, EntryFields, Factor, Panel, Point, Record, Zone, FORMAT};
use crate::engine::Engine;
use crate::numbers::{
    authorization_mode, credential_disable, event, factor_disable, kind, passback_mode, point_flag,
    refusal, zone_flag, NONE, RECORD_LENGTH,
};
use crate::state::state_length;

const WEST: u32 = 10;
const EAST: u32 = 20;
const WEST_CARD: [u8; 8] = [0, 0, 0, 0, 0, 0, 0, 10];
const OTHER_WEST_CARD: [u8; 8] = [0, 0, 0, 0, 0, 0, 0, 11];
const EAST_CARD: [u8; 8] = [0, 0, 0, 0, 0, 0, 0, 20];

/// The exit of a wing; its entry has the wing's own number.
fn exit_of(wing: u32) -> u32 {
    wing + 1
}

fn wing_zone(wing: u32) -> Zone {
    Zone {
        flags: zone_flag::OCCUPANCY_COUNT_ENABLE,
        ..Zone::new(wing)
    }
}

/// Entry and exit of a wing, both counted, with the upper limit enforced.
fn wing_doors(wing: u32) -> [Record; 2] {
    let door = Point {
        flags: point_flag::OCCUPANCY_COUNT_ADJUST | point_flag::OCCUPANCY_UPPER_LIMIT_ENFORCED,
        authorization_mode: authorization_mode::GRANT_ACTIVE,
        ..Point::new(wing)
    };
    let entry = Point {
        zone_to: wing,
        ..door
    };
    let exit = Point {
        instance: exit_of(wing),
        zone_from: wing,
        ..door
    };
    [entry.record(), exit.record()]
}

fn card(credential: u32, value: [u8; 8]) -> [Record; 2] {
    [
        Credential::new(credential).record(),
        Factor::new(credential, value).record(),
    ]
}

/// The west wing with two cards, in file order.
fn west_wing(zone: Zone) -> Vec<Record> {
    [
        vec![zone.record()],
        wing_doors(WEST).to_vec(),
        card(WEST, WEST_CARD).to_vec(),
        card(WEST + 1, OTHER_WEST_CARD).to_vec(),
    ]
    .concat()
}

fn badge(time: u32, point: u32, card: [u8; 8]) -> EntryFields {
    EntryFields::read_factor(time, point, FORMAT, card)
}

/// Every call turns the site back with the number and leaves its buffers as they were.
fn assert_turned_back(engine: Engine, site: &[u8], number: u8) {
    assert_eq!((engine.check_site)(site), number);
    let mut state = vec![0xA5; state_length(site)];
    assert_eq!((engine.fresh_state)(site, &mut state), number);
    let journal = badge(100, WEST, WEST_CARD).bytes();
    let mut answers = [0x5A; 16];
    let returned = (engine.run_journal)(site, &mut state, &journal, &mut answers);
    assert_eq!(returned, number);
    assert!(state.iter().all(|&byte| byte == 0xA5));
    assert_eq!(answers, [0x5A; 16]);
}

pub fn item_1_a_cut_site_and_one_with_a_missing_zone_are_turned_back(engine: Engine) {
    let site = west_wing(wing_zone(WEST)).concat();
    assert_eq!((engine.check_site)(&site), refusal::ACCEPTED);
    assert_turned_back(engine, &site[..site.len() - 1], refusal::SITE_LENGTH);
    assert_turned_back(engine, &site[RECORD_LENGTH..], refusal::SITE_MISSING);
}

pub fn item_2_badge_in_to_the_upper_limit_and_once_more(engine: Engine) {
    let limited = Zone {
        upper_limit: 3,
        ..wing_zone(WEST)
    };
    let mut panel = Panel::fresh_by(engine, &west_wing(limited));
    for count in 1..=3 {
        let answer = panel.work(badge(100 + count, WEST, WEST_CARD));
        assert_eq!((answer.event, answer.count), (event::GRANTED, count));
    }
    let full = panel.work(badge(110, WEST, OTHER_WEST_CARD));
    assert_eq!(full.event, event::DENIED_UPPER_OCCUPANCY_LIMIT);
    assert_eq!((full.count, full.credential), (3, WEST + 1));
    panel.work(badge(120, exit_of(WEST), WEST_CARD));
    let room = panel.work(badge(130, WEST, OTHER_WEST_CARD));
    assert_eq!((room.event, room.count), (event::GRANTED, 3));
}

pub fn item_3_walk_out_past_an_empty_count_then_in(engine: Engine) {
    let mut panel = Panel::fresh_by(engine, &west_wing(wing_zone(WEST)));
    for time in [100, 110] {
        let out = panel.work(badge(time, exit_of(WEST), WEST_CARD));
        assert_eq!(out.event, event::GRANTED);
        assert_eq!(panel.state_of(kind::ZONE, WEST)[..4], [0, 0, 0, 0]);
    }
    let into = panel.work(badge(120, WEST, WEST_CARD));
    assert_eq!((into.event, into.count), (event::GRANTED, 1));
}

pub fn item_4_set_the_clock_back_an_hour_and_repeat_a_passback(engine: Engine) {
    let passback = Zone {
        passback_mode: passback_mode::HARD_PASSBACK,
        passback_timeout: 30,
        ..wing_zone(WEST)
    };
    let mut panel = Panel::fresh_by(engine, &west_wing(passback));
    let entered = 50_000;
    let mut event_at = |time: u32| panel.work(badge(time, WEST, WEST_CARD)).event;
    assert_eq!(event_at(entered), event::GRANTED);
    assert_eq!(event_at(entered + 10), event::DENIED_PASSBACK);
    assert_eq!(event_at(entered - 3_600), event::DENIED_PASSBACK);
    // The timeout still runs from the entry, not from the denied attempts.
    assert_eq!(event_at(entered + 1_799), event::DENIED_PASSBACK);
    assert_eq!(event_at(entered + 1_800), event::GRANTED);
}

/// The east wing before the edit: one card.
fn east_wing() -> Vec<Record> {
    [
        vec![wing_zone(EAST).record()],
        wing_doors(EAST).to_vec(),
        card(EAST, EAST_CARD).to_vec(),
    ]
    .concat()
}

/// The east wing after the edit: the card reported stolen, its credential disabled, a card more.
fn edited_east_wing() -> Vec<Record> {
    let credential = Credential {
        disable: credential_disable::DISABLE_MANUAL,
        ..Credential::new(EAST)
    };
    let stolen = Factor {
        disable: factor_disable::DISABLED_STOLEN,
        ..Factor::new(EAST, EAST_CARD)
    };
    [
        vec![wing_zone(EAST).record()],
        wing_doors(EAST).to_vec(),
        vec![credential.record(), stolen.record()],
        card(EAST + 1, [0, 0, 0, 0, 0, 0, 0, 21]).to_vec(),
    ]
    .concat()
}

fn west_journal() -> Vec<EntryFields> {
    vec![
        badge(100, WEST, WEST_CARD),
        badge(110, WEST, OTHER_WEST_CARD),
        EntryFields::adjust_count(120, WEST, 4),
        badge(130, exit_of(WEST), WEST_CARD),
        badge(140, WEST, [0xEE; 8]),
        EntryFields::set_lockout(150, WEST, true),
        badge(160, WEST, WEST_CARD),
        EntryFields::set_disable(170, WEST + 1, credential_disable::DISABLE),
        badge(180, exit_of(WEST), OTHER_WEST_CARD),
    ]
}

pub fn item_5_editing_the_east_wings_cards_leaves_the_west_wing_as_it_was(engine: Engine) {
    let west = west_wing(wing_zone(WEST));
    let entries = west_journal();
    // The east wing stands before the west wing in one file and after it in the other.
    let mut before = Panel::fresh_by(engine, &[east_wing(), west.clone()].concat());
    let mut after = Panel::fresh_by(engine, &[west.clone(), edited_east_wing()].concat());
    let answers_before = before.run(&entries);
    let answers_after = after.run(&entries);
    assert_eq!(answers_before, answers_after);
    let length = state_length(&west.concat());
    let west_before = &before.state[before.state.len() - length..];
    assert_eq!(west_before, &after.state[..length]);

    // The answers are not empty ones, and the edit did change the east wing.
    let events: Vec<u16> = answers_before.iter().map(|answer| answer.event).collect();
    assert_eq!(events, [1, 1, 0, 1, 129, 7, 161, 0, 158]);
    assert_eq!(answers_before[4].credential, NONE);
    let east_badge = badge(200, EAST, EAST_CARD);
    assert_eq!(before.work(east_badge).event, event::GRANTED);
    let stolen = event::DENIED_AUTHENTICATION_FACTOR_STOLEN;
    assert_eq!(after.work(east_badge).event, stolen);
}

/// The west wing's journal gives the same with east entries among its own.
pub fn item_5_east_entries_among_the_west_entries_change_no_west_answer(engine: Engine) {
    let records = [west_wing(wing_zone(WEST)), east_wing()].concat();
    let mut alone = Panel::fresh_by(engine, &records);
    let mut mixed = Panel::fresh_by(engine, &records);
    let entries = west_journal();
    let with_east: Vec<EntryFields> = entries
        .iter()
        .flat_map(|&entry| [badge(entry.time, EAST, EAST_CARD), entry])
        .collect();
    assert_eq!(journal(&with_east).len(), 2 * journal(&entries).len());
    let west_answers: Vec<_> = mixed
        .run(&with_east)
        .into_iter()
        .skip(1)
        .step_by(2)
        .collect();
    assert_eq!(west_answers, alone.run(&entries));
    let length = state_length(&west_wing(wing_zone(WEST)).concat());
    assert_eq!(mixed.state[..length], alone.state[..length]);
    assert_ne!(mixed.state[length..], alone.state[length..]);
}
