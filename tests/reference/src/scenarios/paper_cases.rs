//! The printed journal and the proved cases of document 01.

use crate::build::{journal, Credential, EntryFields, Factor, Panel, Point, Rule, Zone, FORMAT};
use crate::engine::Engine;
use crate::numbers::{
    authorization_mode, event, kind, location_kind, point_flag, rule_flag, zone_flag, EVERY_DAY,
    NONE, SECONDS_PER_MINUTE,
};
use crate::print::print_by;

const CARD_5: [u8; 8] = [0, 0, 0, 0, 0, 0, 0, 55];
const CARD_6: [u8; 8] = [0, 0, 0, 0, 0, 0, 0, 66];
const UNKNOWN_CARD: [u8; 8] = [0, 0, 0, 0, 0, 0, 0, 77];

/// A card of the default format at a point.
fn badge(time: u32, point: u32, card: [u8; 8]) -> EntryFields {
    EntryFields::read_factor(time, point, FORMAT, card)
}

/// The text that document 01 gives for the printed journal.
pub const PRINTED: &str = "00010100000000010000000500000001\n\
                           008E0100000000020000000600000001\n\
                           0081010000000003003FFFFF00000001\n";

/// The site of the printed journal.
pub fn printed_site() -> Vec<u8> {
    [
        Zone {
            flags: zone_flag::OCCUPANCY_COUNT_ENABLE,
            upper_limit: 1,
            ..Zone::new(23)
        }
        .record(),
        Point {
            flags: 10,
            authorization_mode: authorization_mode::GRANT_ACTIVE,
            zone_to: 23,
            ..Point::new(2)
        }
        .record(),
        Credential::new(5).record(),
        Factor::new(5, CARD_5).record(),
        Credential::new(6).record(),
        Factor::new(6, CARD_6).record(),
    ]
    .concat()
}

/// The printed journal.
pub fn printed_journal() -> Vec<u8> {
    journal(&[
        badge(100, 2, CARD_5),
        badge(160, 2, CARD_6),
        badge(220, 2, UNKNOWN_CARD),
    ])
}

pub fn the_printed_journal_gives_its_three_lines(engine: Engine) {
    let printed = print_by(engine, &printed_site(), &printed_journal());
    assert_eq!(printed, PRINTED);
}

pub fn an_input_turned_back_prints_only_its_number(engine: Engine) {
    let site = printed_site();
    let journal = printed_journal();
    assert_eq!(print_by(engine, &site[1..], &journal), "1\n");
    assert_eq!(print_by(engine, &site[32..], &journal), "4\n");
    assert_eq!(print_by(engine, &site, &journal[1..]), "10\n");
    assert_eq!(print_by(engine, &[], &[]), "");
}

/// A point that grants every active credential, and one card.
fn open_point(engine: Engine, credential: Credential) -> Panel {
    Panel::fresh_by(
        engine,
        &[
            Point {
                authorization_mode: authorization_mode::GRANT_ACTIVE,
                ..Point::new(1)
            }
            .record(),
            credential.record(),
            Factor::new(credential.instance, CARD_5).record(),
        ],
    )
}

pub fn expiry_equal_to_the_time_grants_and_one_later_denies(engine: Engine) {
    let mut panel = open_point(
        engine,
        Credential {
            expiry_time: 5_000,
            ..Credential::new(5)
        },
    );
    assert_eq!(panel.work(badge(5_000, 1, CARD_5)).event, event::GRANTED);
    let late = panel.work(badge(5_001, 1, CARD_5));
    assert_eq!(late.event, event::DENIED_CREDENTIAL_EXPIRED);
}

pub fn minute_equal_to_from_fits_and_minute_equal_to_to_does_not(engine: Engine) {
    let hours = Rule {
        flags: rule_flag::ENABLE,
        location_kind: location_kind::POINT,
        location: 1,
        days: EVERY_DAY,
        from: 480,
        to: 1_020,
        ..Rule::new(9)
    };
    let mut panel = Panel::fresh_by(
        engine,
        &[
            Point::new(1).record(),
            hours.record(),
            Credential {
                rights: [NONE, 9],
                ..Credential::new(5)
            }
            .record(),
            Factor::new(5, CARD_5).record(),
        ],
    );
    let mut event_at = |time: u32| panel.work(badge(time, 1, CARD_5)).event;
    let from = 480 * SECONDS_PER_MINUTE;
    let to = 1_020 * SECONDS_PER_MINUTE;
    assert_eq!(event_at(from - 1), event::DENIED_OUT_OF_TIME_RANGE);
    assert_eq!(event_at(from), event::GRANTED);
    assert_eq!(event_at(to - 1), event::GRANTED);
    assert_eq!(event_at(to), event::DENIED_OUT_OF_TIME_RANGE);
}

/// A counting zone with an entry (point 1) and an exit (point 2).
fn counted_zone(engine: Engine) -> Panel {
    let door = Point {
        flags: point_flag::OCCUPANCY_COUNT_ADJUST,
        authorization_mode: authorization_mode::GRANT_ACTIVE,
        ..Point::new(1)
    };
    Panel::fresh_by(
        engine,
        &[
            Zone {
                flags: zone_flag::OCCUPANCY_COUNT_ENABLE,
                ..Zone::new(7)
            }
            .record(),
            Point { zone_to: 7, ..door }.record(),
            Point {
                instance: 2,
                zone_from: 7,
                ..door
            }
            .record(),
            Credential::new(5).record(),
            Factor::new(5, CARD_5).record(),
        ],
    )
}

pub fn exit_at_count_zero_leaves_zero_and_the_entry_after_it_gives_one(engine: Engine) {
    let mut panel = counted_zone(engine);
    assert_eq!(panel.work(badge(100, 2, CARD_5)).event, event::GRANTED);
    assert_eq!(panel.state_of(kind::ZONE, 7)[..4], [0, 0, 0, 0]);
    let entry = panel.work(badge(160, 1, CARD_5));
    assert_eq!((entry.event, entry.count), (event::GRANTED, 1));
    assert_eq!(panel.state_of(kind::ZONE, 7)[..4], [0, 0, 0, 1]);
}

pub fn adjusting_two_by_minus_five_gives_zero(engine: Engine) {
    let mut panel = counted_zone(engine);
    let answers = panel.run(&[
        EntryFields::set_count(100, 7, 2),
        EntryFields::adjust_count(100, 7, -5),
    ]);
    assert_eq!(answers[0].count, 2);
    assert_eq!(answers[1].count, 0);
    assert_eq!(panel.state_of(kind::ZONE, 7)[..4], [0, 0, 0, 0]);
}
