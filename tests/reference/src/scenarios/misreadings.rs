//! The misreadings that document 01 names, each shown not to be what the engine does.

use crate::build::{Credential, EntryFields, Factor, Panel, Point, Rule, Zone};
use crate::bytes::get16;
use crate::engine::Engine;
use crate::layout::credential_state;
use crate::numbers::{
    event, factor_role, factors_wanted, kind, passback_mode, rule_flag, EVERY_DAY, NONE,
    SECONDS_PER_DAY, SECONDS_PER_MINUTE,
};
use crate::one_point::{badge, enter_code, open_point, CARD, CODE};

pub fn days_do_not_fall_on_every_grant(engine: Engine) {
    let mut panel = Panel::fresh_by(
        engine,
        &[
            open_point().record(),
            Credential {
                days: 2,
                ..Credential::new(5)
            }
            .record(),
            Factor::new(5, CARD).record(),
        ],
    );
    let mut days_after = |time: u32| {
        let event = panel.work(badge(time)).event;
        let held = panel.state_of(kind::CREDENTIAL, 5);
        (event, get16(held, credential_state::DAYS_REMAINING))
    };
    let day = SECONDS_PER_DAY;
    assert_eq!(days_after(100), (event::GRANTED, 1), "the first grant");
    assert_eq!(days_after(day - 1), (event::GRANTED, 1), "the same date");
    assert_eq!(days_after(day), (event::GRANTED, 0), "the next date");
    let spent = (event::DENIED_CREDENTIAL_MAX_DAYS, 0);
    assert_eq!(days_after(day + 1), spent);
}

pub fn a_negative_rule_outside_its_hours_does_not_deny(engine: Engine) {
    let negative = Rule {
        flags: rule_flag::ENABLE | rule_flag::NEGATIVE | rule_flag::EVERYWHERE,
        days: EVERY_DAY,
        from: 600,
        to: 660,
        ..Rule::new(9)
    };
    let mut panel = Panel::fresh_by(
        engine,
        &[
            Point::new(1).record(),
            negative.record(),
            Rule::new(8).record(),
            Credential {
                rights: [8, 9],
                ..Credential::new(5)
            }
            .record(),
            Factor::new(5, CARD).record(),
        ],
    );
    let mut event_at = |minute: u32| panel.work(badge(minute * SECONDS_PER_MINUTE)).event;
    assert_eq!(event_at(599), event::GRANTED);
    assert_eq!(event_at(600), event::DENIED_NO_ACCESS_RIGHTS);
    assert_eq!(event_at(659), event::DENIED_NO_ACCESS_RIGHTS);
    assert_eq!(event_at(660), event::GRANTED);
}

/// A point with two factors wanted, and a card with its code.
fn two_factor_panel(engine: Engine, factor_timeout: u16) -> Panel {
    Panel::fresh_by(
        engine,
        &[
            Point {
                factors_wanted: factors_wanted::TWO,
                factor_timeout,
                ..open_point()
            }
            .record(),
            Credential::new(5).record(),
            Factor::new(5, CARD).record(),
            Factor {
                role: factor_role::CONFIRMING,
                ..Factor::new(5, CODE)
            }
            .record(),
        ],
    )
}

pub fn factor_timeout_zero_is_unlimited(engine: Engine) {
    let mut panel = two_factor_panel(engine, 0);
    assert_eq!(panel.work(badge(100)).event, event::NONE);
    assert_eq!(panel.work(enter_code(4_000_000_000)).event, event::GRANTED);

    let mut panel = two_factor_panel(engine, 30);
    assert_eq!(panel.work(badge(100)).event, event::NONE);
    let late = panel.work(enter_code(131));
    assert_eq!(late.event, event::DENIED_AUTHENTICATION_FACTOR_TIMEOUT);
}

pub fn passback_timeout_zero_never_ends_a_passback(engine: Engine) {
    let panel = |passback_timeout: u32| {
        Panel::fresh_by(
            engine,
            &[
                Zone {
                    passback_mode: passback_mode::HARD_PASSBACK,
                    passback_timeout,
                    ..Zone::new(7)
                }
                .record(),
                Point {
                    zone_to: 7,
                    ..open_point()
                }
                .record(),
                Credential::new(5).record(),
                Factor::new(5, CARD).record(),
            ],
        )
    };
    let mut unset = panel(0);
    assert_eq!(unset.work(badge(100)).event, event::GRANTED);
    let late = unset.work(badge(4_000_000_000));
    assert_eq!(late.event, event::DENIED_PASSBACK);

    let mut one_minute = panel(1);
    assert_eq!(one_minute.work(badge(100)).event, event::GRANTED);
    assert_eq!(one_minute.work(badge(159)).event, event::DENIED_PASSBACK);
    assert_eq!(one_minute.work(badge(160)).event, event::GRANTED);
}

pub fn a_clock_set_back_does_not_end_a_lockout(engine: Engine) {
    let mut panel = Panel::fresh_by(
        engine,
        &[
            Point {
                lockout_relinquish_time: 60,
                ..open_point()
            }
            .record(),
            Credential::new(5).record(),
            Factor::new(5, CARD).record(),
        ],
    );
    let lock = EntryFields::set_lockout(10_000, 1, true);
    assert_eq!(panel.work(lock).event, event::LOCKOUT_OTHER);
    for time in [0, 9_999, 10_000, 10_059] {
        let answer = panel.work(badge(time));
        assert_eq!(answer.event, event::DENIED_LOCKOUT, "at {time}");
        assert_eq!((answer.marks, answer.credential), (0, NONE));
    }
    assert_eq!(panel.work(badge(10_060)).event, event::GRANTED);
}
