//! Small sites with every kind of record, for tests that change each byte in turn.

use reference::build::{Credential, Factor, Point, Record, Rule, Zone};
use reference::numbers::{
    authorization_mode, credential_disable, credential_flag, factor_disable, factor_role,
    factors_wanted, location_kind, passback_mode, point_flag, rule_flag, zone_flag, EVERY_DAY,
    MINUTES_PER_DAY, NEVER, NONE,
};

/// The card of credential 1 in each site.
pub const CARD: [u8; 8] = [0, 0, 0, 0, 0, 0, 0, 1];
/// Its code, where it has one.
pub const CODE: [u8; 8] = [0, 0, 0, 0, 0, 0, 0, 2];

/// Accepted sites that between them have each kind of record in each of its forms. Point 1,
/// credential 1 and zone 1 stand in all of them. Many numbers are one bit or one byte from another
/// record's, so that a change of one byte also makes twins and missing objects.
pub fn sites() -> Vec<Vec<u8>> {
    let sites = [
        one_of_each(rule_at(location_kind::ZONE)),
        one_of_each(rule_at(location_kind::POINT)),
        one_of_each(Rule::new(1)),
        one_of_each(shift()),
        two_factors(),
        neighbours(),
    ];
    sites.iter().map(|records| records.concat()).collect()
}

fn rule_at(location_kind: u8) -> Rule {
    Rule {
        flags: rule_flag::ENABLE,
        location_kind,
        location: 1,
        days: EVERY_DAY,
        from: 255,
        to: 256,
        ..Rule::new(1)
    }
}

/// Hours from Sunday's end into Monday, so that they fit where the other rules' do.
fn shift() -> Rule {
    Rule {
        flags: rule_flag::ENABLE | rule_flag::EVERYWHERE,
        days: 1 << 6,
        from: MINUTES_PER_DAY,
        to: 256,
        ..Rule::new(1)
    }
}

/// One record of each kind, with few restrictions.
fn one_of_each(rule: Rule) -> Vec<Record> {
    let zone = Zone {
        flags: zone_flag::OCCUPANCY_COUNT_ENABLE,
        passback_mode: passback_mode::HARD_PASSBACK,
        passback_timeout: 1,
        ..Zone::new(1)
    };
    let point = Point {
        flags: point_flag::OCCUPANCY_COUNT_ADJUST,
        zone_to: 1,
        max_failed_attempts: 3,
        ..Point::new(1)
    };
    let credential = Credential {
        rights: [1, NONE],
        ..Credential::new(1)
    };
    vec![
        zone.record(),
        point.record(),
        rule.record(),
        credential.record(),
        Factor::new(1, CARD).record(),
    ]
}

/// A point between two zones that wants two factors, and a credential with both.
fn two_factors() -> Vec<Record> {
    let point = Point {
        flags: point_flag::NAMED & !point_flag::OUT_OF_SERVICE,
        authorization_mode: authorization_mode::GRANT_ACTIVE,
        factors_wanted: factors_wanted::TWO,
        zone_to: 1,
        zone_from: 2,
        factor_timeout: 30,
        lockout_relinquish_time: 60,
        failed_attempts_time: 10,
        max_failed_attempts: 2,
        ..Point::new(1)
    };
    let credential = Credential {
        flags: credential_flag::TRACE_FLAG,
        uses: 2,
        days: 2,
        absentee_limit: 1,
        activation_time: 1,
        expiry_time: NEVER - 1,
        ..Credential::new(1)
    };
    let confirming = Factor {
        role: factor_role::CONFIRMING,
        ..Factor::new(1, CODE)
    };
    vec![
        confirming.record(),
        Zone::new(2).record(),
        point.record(),
        credential.record(),
        Factor::new(1, CARD).record(),
        Zone::new(1).record(),
    ]
}

/// Objects of neighbouring numbers, a factor in both roles, and a point without zones.
fn neighbours() -> Vec<Record> {
    let confirming = |credential, disable| Factor {
        role: factor_role::CONFIRMING,
        disable,
        ..Factor::new(credential, CARD)
    };
    let disabled = Credential {
        disable: credential_disable::DISABLE,
        rights: [0, 1],
        ..Credential::new(0)
    };
    vec![
        Zone::new(0).record(),
        Zone::new(1).record(),
        Point::new(0).record(),
        Point::new(1).record(),
        Rule::new(0).record(),
        Rule::new(0).record(),
        disabled.record(),
        Credential::new(1).record(),
        Factor::new(1, CARD).record(),
        Factor::new(0, CODE).record(),
        confirming(0, factor_disable::NONE).record(),
        confirming(1, factor_disable::DISABLED_DESTROYED).record(),
    ]
}

/// The bytes with each byte in turn replaced by each of the other 255.
pub fn with_each_byte_changed(bytes: &[u8]) -> impl Iterator<Item = Vec<u8>> + '_ {
    let changes = (0..bytes.len()).flat_map(|offset| (1..=u8::MAX).map(move |by| (offset, by)));
    changes.map(|(offset, by)| {
        let mut changed = bytes.to_vec();
        changed[offset] ^= by;
        changed
    })
}
