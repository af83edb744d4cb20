//! Waiting, lockout, marks and hours of factor reads.

use reference::build::{Credential, EntryFields, Factor, Panel, Point, Rule, Zone};
use reference::bytes::get32;
use reference::layout::{credential_state, point_state};
use reference::numbers::{
    authorization_mode, credential_disable, credential_flag, event, factor_role, factors_wanted,
    format, kind, mark, passback_mode, point_flag, rule_flag, zone_flag, MOST_COUNT, NEVER, NONE,
    SECONDS_PER_MINUTE,
};
use reference::one_point::{badge, enter_code, open_point, CARD, CODE};
use std::cmp::Ordering;

fn read_error(time: u32) -> EntryFields {
    EntryFields::read_factor(time, 1, format::ERROR, [0; 8])
}

fn two_factor_point() -> Point {
    Point {
        factors_wanted: factors_wanted::TWO,
        factor_timeout: 30,
        max_failed_attempts: 2,
        lockout_relinquish_time: 60,
        ..open_point()
    }
}

/// Credential 5 with a card and a code at the point.
fn panel(point: Point, flags: u8) -> Panel {
    let credential = Credential {
        flags,
        ..Credential::new(5)
    };
    panel_of(point, credential)
}

fn panel_of(point: Point, credential: Credential) -> Panel {
    Panel::fresh(&[
        point.record(),
        credential.record(),
        Factor::new(5, CARD).record(),
        Factor {
            role: factor_role::CONFIRMING,
            ..Factor::new(5, CODE)
        }
        .record(),
    ])
}

fn waiting_credential(panel: &Panel) -> u32 {
    let held = panel.state_of(kind::POINT, 1);
    get32(held, point_state::WAITING_CREDENTIAL)
}

fn last_use(panel: &Panel) -> u32 {
    let held = panel.state_of(kind::CREDENTIAL, 5);
    get32(held, credential_state::LAST_USE_TIME)
}

#[test]
fn the_first_of_two_factors_names_the_credential_and_writes_nothing_of_it() {
    let mut panel = panel(two_factor_point(), credential_flag::TRACE_FLAG);
    let first = panel.work(badge(100));
    assert_eq!((first.event, first.credential), (event::NONE, 5));
    let marks = mark::AUTHENTICATION_FACTOR_READ | mark::TRACE;
    assert_eq!(first.marks, marks);
    assert_eq!((waiting_credential(&panel), last_use(&panel)), (5, NEVER));
    let second = panel.work(enter_code(130));
    assert_eq!((second.event, second.credential), (event::GRANTED, 5));
    assert_eq!((waiting_credential(&panel), last_use(&panel)), (NONE, 130));
}

#[test]
fn a_confirming_factor_shown_first_is_unknown() {
    let mut panel = panel(two_factor_point(), 0);
    let answer = panel.work(enter_code(100));
    assert_eq!(answer.event, event::DENIED_UNKNOWN_CREDENTIAL);
    assert_eq!((answer.credential, last_use(&panel)), (NONE, NEVER));
}

#[test]
fn while_waiting_any_other_factor_is_incorrect_and_names_the_credential_waited_for() {
    let mut panel = panel(two_factor_point(), 0);
    panel.work(badge(100));
    let answer = panel.work(badge(110));
    let incorrect = event::DENIED_INCORRECT_AUTHENTICATION_FACTOR;
    assert_eq!((answer.event, answer.credential), (incorrect, 5));
    assert_eq!((waiting_credential(&panel), last_use(&panel)), (NONE, 110));
}

#[test]
fn an_expired_wait_comes_before_a_read_error_and_uses_the_factor_up() {
    let mut panel = panel(two_factor_point(), 0);
    panel.work(badge(100));
    let late = panel.work(read_error(131));
    assert_eq!(late.event, event::DENIED_AUTHENTICATION_FACTOR_TIMEOUT);
    assert_eq!((late.credential, waiting_credential(&panel)), (5, NONE));
    let error = panel.work(read_error(132));
    assert_eq!(error.event, event::DENIED_AUTHENTICATION_FACTOR_ERROR);
    assert_eq!(error.credential, NONE);
}

#[test]
fn failures_lock_the_point_and_the_lockout_relinquishes() {
    let mut panel = panel(two_factor_point(), 0);
    assert_eq!(panel.work(read_error(100)).marks, 1);
    let locking = panel.work(read_error(110));
    let marks = mark::AUTHENTICATION_FACTOR_READ | mark::LOCKOUT_MAX_ATTEMPTS;
    assert_eq!(locking.marks, marks);
    let held = panel.state_of(kind::POINT, 1);
    assert_eq!(held[point_state::LOCKOUT], 1);
    assert_eq!(held[point_state::FAILED_ATTEMPTS], 0);
    assert_eq!(panel.work(badge(169)).event, event::DENIED_LOCKOUT);
    let relinquished = panel.work(badge(170));
    assert_eq!(relinquished.event, event::NONE);
    let marks = mark::AUTHENTICATION_FACTOR_READ | mark::LOCKOUT_RELINQUISHED;
    assert_eq!(relinquished.marks, marks);
}

/// Failures of the point, wrong tries and disable of the credential.
fn counts(panel: &Panel) -> (u8, u8, u8) {
    let point = panel.state_of(kind::POINT, 1);
    let credential = panel.state_of(kind::CREDENTIAL, 5);
    (
        point[point_state::FAILED_ATTEMPTS],
        credential[credential_state::WRONG_TRIES],
        credential[credential_state::CREDENTIAL_DISABLE],
    )
}

/// A second factor that is wrong, then one that is late.
fn wrong_codes(time: u32) -> [EntryFields; 4] {
    [
        badge(time),
        badge(time + 1),
        badge(time + 2),
        enter_code(time + 33),
    ]
}

#[test]
fn wrong_and_late_codes_are_no_failures_of_the_point() {
    let mut panel = panel(two_factor_point(), 0);
    for time in [100, 200, 300] {
        let answers = panel.run(&wrong_codes(time));
        let events: Vec<u16> = answers.iter().map(|answer| answer.event).collect();
        assert_eq!(events, [0, 132, 0, 131]);
        assert!(answers.iter().all(|answer| answer.marks == 1));
        assert_eq!(counts(&panel), (0, 0, credential_disable::NONE));
    }
}

#[test]
fn wrong_and_late_codes_lock_the_credential_out_at_its_most() {
    let credential = Credential {
        most_wrong_tries: 3,
        ..Credential::new(5)
    };
    let mut panel = panel_of(two_factor_point(), credential);
    panel.run(&wrong_codes(100));
    assert_eq!(counts(&panel), (0, 2, credential_disable::NONE));
    panel.work(badge(200));
    let third = panel.work(badge(201));
    assert_eq!(third.event, event::DENIED_INCORRECT_AUTHENTICATION_FACTOR);
    assert_eq!(third.marks, mark::AUTHENTICATION_FACTOR_READ);
    assert_eq!(counts(&panel), (0, 0, credential_disable::DISABLE_LOCKOUT));
    panel.work(badge(210));
    let right = panel.work(enter_code(211));
    assert_eq!(right.event, event::DENIED_CREDENTIAL_LOCKOUT);
}

#[test]
fn one_entry_can_relinquish_a_lockout_and_lock_again() {
    let point = Point {
        max_failed_attempts: 1,
        lockout_relinquish_time: 60,
        ..open_point()
    };
    let mut panel = panel(point, 0);
    panel.work(read_error(100));
    let answer = panel.work(read_error(160));
    assert_eq!(answer.event, event::DENIED_AUTHENTICATION_FACTOR_ERROR);
    let both = mark::LOCKOUT_RELINQUISHED | mark::LOCKOUT_MAX_ATTEMPTS;
    assert_eq!(answer.marks, both | mark::AUTHENTICATION_FACTOR_READ);
    assert_eq!(panel.work(badge(219)).event, event::DENIED_LOCKOUT);
}

#[test]
fn the_failure_window_runs_from_the_first_failure() {
    let point = Point {
        max_failed_attempts: 3,
        failed_attempts_time: 10,
        ..open_point()
    };
    let mut panel = panel(point, 0);
    let mut failures_at = |time: u32| {
        panel.work(read_error(time));
        panel.state_of(kind::POINT, 1)[point_state::FAILED_ATTEMPTS]
    };
    assert_eq!(failures_at(100), 1);
    assert_eq!(failures_at(110), 2, "elapsed equal to the window");
    assert_eq!(failures_at(111), 1, "elapsed above the window");
    assert_eq!(failures_at(50), 2, "a clock set back");
}

#[test]
fn a_point_out_of_service_changes_nothing() {
    let point = Point {
        flags: point_flag::OUT_OF_SERVICE,
        ..open_point()
    };
    let mut panel = panel(point, 0);
    panel.work(EntryFields::set_lockout(100, 1, false));
    let before = panel.state.clone();
    let answer = panel.work(badge(100));
    assert_eq!((answer.event, answer.marks), (event::NONE, 0));
    assert_eq!((answer.tag, answer.credential), (1, NONE));
    assert_eq!(panel.state, before);
}

#[test]
fn soft_passback_is_marked_and_counted_and_stays_on_a_later_denial() {
    let mut panel = Panel::fresh(&[
        Zone {
            flags: zone_flag::OCCUPANCY_COUNT_ENABLE,
            passback_mode: passback_mode::SOFT_PASSBACK,
            upper_limit: 2,
            ..Zone::new(7)
        }
        .record(),
        Point {
            flags: point_flag::OCCUPANCY_COUNT_ADJUST | point_flag::OCCUPANCY_UPPER_LIMIT_ENFORCED,
            zone_to: 7,
            ..open_point()
        }
        .record(),
        Credential::new(5).record(),
        Factor::new(5, CARD).record(),
    ]);
    let detected = mark::AUTHENTICATION_FACTOR_READ | mark::PASSBACK_DETECTED;
    assert_eq!(panel.work(badge(100)).marks, 1);
    let again = panel.work(badge(110));
    assert_eq!((again.event, again.count), (event::GRANTED, 2));
    assert_eq!(again.marks, detected);
    let full = panel.work(badge(120));
    assert_eq!(full.event, event::DENIED_UPPER_OCCUPANCY_LIMIT);
    assert_eq!(full.marks, detected);
}

#[test]
fn a_full_count_denies_masters_too() {
    let mut panel = Panel::fresh(&[
        Zone {
            flags: zone_flag::OCCUPANCY_COUNT_ENABLE,
            ..Zone::new(7)
        }
        .record(),
        Point {
            flags: point_flag::OCCUPANCY_COUNT_ADJUST,
            authorization_mode: authorization_mode::DENY_ALL,
            zone_to: 7,
            ..Point::new(1)
        }
        .record(),
        Credential {
            flags: credential_flag::MASTER_EXEMPTION,
            ..Credential::new(5)
        }
        .record(),
        Factor::new(5, CARD).record(),
    ]);
    panel.work(EntryFields::set_count(100, 7, MOST_COUNT - 1));
    let last = panel.work(badge(100));
    assert_eq!((last.event, last.count), (event::GRANTED, MOST_COUNT));
    let full = panel.work(badge(100));
    assert_eq!((full.event, full.count), (event::DENIED_OTHER, MOST_COUNT));
}

const MINUTES_PER_WEEK: u32 = 7 * 1_440;

/// A window as a stretch of the week's minutes: on the day that it begins on, or into the next one,
/// and from the last day into the first.
fn is_in_window(day: u32, from: u32, to: u32, time: u32) -> bool {
    let start = day * 1_440 + from;
    let length = match from.cmp(&to) {
        Ordering::Less => to - from,
        Ordering::Equal => 0,
        Ordering::Greater => 1_440 - from + to,
    };
    let minute = time / SECONDS_PER_MINUTE % MINUTES_PER_WEEK;
    (minute + MINUTES_PER_WEEK - start) % MINUTES_PER_WEEK < length
}

/// Point 1 and a card with one rule, on one day.
fn panel_of_window(day: u32, from: u16, to: u16) -> Panel {
    let rule = Rule {
        flags: rule_flag::ENABLE | rule_flag::EVERYWHERE,
        days: 1 << day,
        from,
        to,
        ..Rule::new(9)
    };
    Panel::fresh(&[
        Point::new(1).record(),
        rule.record(),
        Credential {
            rights: [9, NONE],
            ..Credential::new(5)
        }
        .record(),
        Factor::new(5, CARD).record(),
    ])
}

#[test]
fn a_window_is_a_stretch_of_the_weeks_minutes() {
    let minutes = [0, 1, 2, 359, 360, 361, 719, 720, 721, 1_438, 1_439, 1_440];
    let days = 0..8;
    let entries: Vec<EntryFields> = days
        .flat_map(|day| minutes.map(|minute| (day * 1_440 + minute) * SECONDS_PER_MINUTE))
        .map(badge)
        .collect();
    for day in 0..7 {
        for from in minutes {
            for to in minutes {
                let answers = panel_of_window(day, from as u16, to as u16).run(&entries);
                for (entry, answer) in entries.iter().zip(answers) {
                    let expected = if is_in_window(day, from, to, entry.time) {
                        event::GRANTED
                    } else {
                        event::DENIED_OUT_OF_TIME_RANGE
                    };
                    let place = (day, from, to, entry.time);
                    assert_eq!(answer.event, expected, "{place:?}");
                }
            }
        }
    }
}
