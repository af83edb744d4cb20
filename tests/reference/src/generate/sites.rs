//! Accepted sites of all mixes.

use super::clock::near;
use super::random::Random;
use crate::build::{Credential, Factor, Point, Record, Rule, Zone};
use crate::numbers::{
    authorization_mode, credential_disable, credential_flag, factor_role, factors_wanted,
    location_kind, passback_mode, point_flag, rule_flag, zone_flag, DAYS_PER_WEEK, EVERY_DAY,
    MINUTES_PER_DAY, MOST_SITE_BYTES, MOST_THREAT_LEVEL, NEVER, NONE, RECORD_LENGTH, UNLIMITED,
    VALUE_LENGTH,
};
use crate::site::are_twins;
use crate::time::{minute_of_day, weekday, weekday_before};

/// An instance that the small pool leaves out.
pub const MISSING: u32 = 500;

/// Sunday alone, among the days of a rule.
const SUNDAY: u8 = 1 << 6;

/// The numbers that a site draws from. All kinds share the instances, so that zone 7 stands beside
/// credential 7.
pub struct Pool {
    pub instances: Vec<u32>,
    /// Few, so that the rights of credentials and the rules meet.
    pub rights: Vec<u32>,
    pub formats: Vec<u8>,
}

impl Pool {
    /// Few instances, so that references and entries often meet.
    pub fn small() -> Pool {
        Pool {
            instances: vec![0, 1, 2, 3, 7, NONE - 1],
            rights: vec![0, 1, 7],
            formats: vec![2, 3, 255],
        }
    }
}

/// How many objects of each kind a site holds.
pub struct Sizes {
    pub zones: usize,
    pub points: usize,
    pub rules: usize,
    pub credentials: usize,
    pub factors: usize,
}

impl Sizes {
    /// At times rules alone, which have no state, or no rules and factors.
    pub fn small(random: &mut Random) -> Sizes {
        let usual = Sizes::usual(random);
        match random.below(32) {
            0 => Sizes {
                rules: usual.rules,
                ..Sizes::NONE
            },
            1 => Sizes {
                rules: 0,
                factors: 0,
                ..usual
            },
            _ => usual,
        }
    }

    const NONE: Sizes = Sizes {
        zones: 0,
        points: 0,
        rules: 0,
        credentials: 0,
        factors: 0,
    };

    fn usual(random: &mut Random) -> Sizes {
        // Seldom none of a kind, since then few entries are worked.
        let mut size = || match random.below(32) {
            0 => 0,
            number => 1 + number % 4,
        };
        let (zones, points, credentials) = (size(), size(), size());
        Sizes {
            zones,
            points,
            rules: random.below(10),
            credentials,
            factors: if credentials == 0 {
                0
            } else {
                2 * credentials + random.below(6)
            },
        }
    }

    /// Shares of a site with many cards, with exactly the given number of records.
    fn large(records: usize) -> Sizes {
        let (zones, points, rules) = (records / 40, records / 20, records / 10);
        let credentials = records * 3 / 8;
        Sizes {
            zones,
            points,
            rules,
            credentials,
            factors: records - zones - points - rules - credentials,
        }
    }
}

/// How often, out of 16, an object of one site carries a restriction. Drawn for each site, so that
/// some sites grant almost everything and others exercise one check.
struct Mix {
    points: usize,
    credentials: usize,
    days: usize,
    wrong_tries: usize,
    two_factors: usize,
    authorize: usize,
    negative: usize,
    factors: usize,
}

impl Mix {
    fn new(random: &mut Random) -> Mix {
        // More often than the others, since the rules of a site decide at such points alone.
        let authorize = random.pick(&[0, 4, 8, 14]);
        // Apart from the others, so that at some sites most cards are day passes.
        let days = random.pick(&[0, 0, 4, 12]);
        // Apart too, so that at some sites most cards count wrong tries.
        let wrong_tries = random.pick(&[0, 8, 14]);
        // More often too, so that negative rules decide in each part of windows across midnight.
        let negative = random.pick(&[0, 2, 6, 10]);
        let mut part = || random.pick(&[0, 0, 2, 6, 10]);
        Mix {
            points: part(),
            credentials: part(),
            days,
            wrong_tries,
            two_factors: part(),
            authorize,
            negative,
            factors: part(),
        }
    }
}

/// A small site with few instances, from none to about 30 records in any order.
pub fn site(random: &mut Random, base: u32) -> Vec<u8> {
    let sizes = Sizes::small(random);
    site_from(random, base, &Pool::small(), &sizes)
}

/// A site of exactly the given number of records, at least 40 and at most 2,000.
pub fn large_site(random: &mut Random, base: u32, records: usize) -> Vec<u8> {
    assert!((40..=MOST_SITE_BYTES / RECORD_LENGTH).contains(&records));
    let pool = Pool {
        instances: (0..records as u32).collect(),
        rights: (0..records as u32 / 40).collect(),
        formats: Pool::small().formats,
    };
    site_from(random, base, &pool, &Sizes::large(records))
}

/// A site of the given sizes, which the pool's instances suffice for.
pub fn site_from(random: &mut Random, base: u32, pool: &Pool, sizes: &Sizes) -> Vec<u8> {
    let mix = Mix::new(random);
    let zones = instances(random, pool, sizes.zones);
    let points = instances(random, pool, sizes.points);
    let credentials = instances(random, pool, sizes.credentials);
    let mut records: Vec<Record> = Vec::new();
    for &instance in &zones {
        records.push(zone(random, instance).record());
    }
    for &instance in &points {
        records.push(point(random, &mix, instance, &zones).record());
    }
    for _ in 0..sizes.rules {
        records.push(rule(random, &mix, base, pool, &zones, &points).record());
    }
    for &instance in &credentials {
        records.push(credential(random, &mix, base, pool, instance).record());
    }
    add_factors(
        random,
        &mix,
        pool,
        &credentials,
        sizes.factors,
        &mut records,
    );
    random.shuffle(&mut records);
    records.concat()
}

/// Every order of three records of different kinds, each of instance 1. Those with a factor but not
/// its credential are turned back.
pub fn orders_of_three() -> Vec<Vec<u8>> {
    let kinds = [
        Zone::new(1).record(),
        Point::new(1).record(),
        Rule::new(1).record(),
        Credential::new(1).record(),
        Factor::new(1, [1; VALUE_LENGTH]).record(),
    ];
    let mut orders = Vec::new();
    for first in &kinds {
        for second in kinds.iter().filter(|second| *second != first) {
            let others = kinds
                .iter()
                .filter(|third| ![first, second].contains(third));
            orders.extend(others.map(|third| [*first, *second, *third].concat()));
        }
    }
    orders
}

fn instances(random: &mut Random, pool: &Pool, count: usize) -> Vec<u32> {
    let mut instances = pool.instances.clone();
    random.shuffle(&mut instances);
    instances.truncate(count);
    instances
}

fn zone(random: &mut Random, instance: u32) -> Zone {
    Zone {
        flags: random.flags(&[(zone_flag::OCCUPANCY_COUNT_ENABLE, 13)]),
        passback_mode: random.pick(&[
            passback_mode::PASSBACK_OFF,
            passback_mode::HARD_PASSBACK,
            passback_mode::SOFT_PASSBACK,
        ]),
        upper_limit: random.pick(&[0, 0, 0, 1, 2, 3, u32::MAX]),
        lower_limit: random.pick(&[0, 0, 0, 1, 2, u32::MAX - 1]),
        // In seconds, 71,582,789 minutes pass 32 bits.
        passback_timeout: random.pick(&[0, 0, 1, 2, 60, 71_582_789, u32::MAX]),
        ..Zone::new(instance)
    }
}

fn point(random: &mut Random, mix: &Mix, instance: u32, zones: &[u32]) -> Point {
    let zone_to = reference(random, zones);
    let zone_from = reference(random, zones);
    Point {
        flags: random.flags(&[
            (point_flag::OUT_OF_SERVICE, mix.points / 3),
            (point_flag::OCCUPANCY_UPPER_LIMIT_ENFORCED, 8),
            (point_flag::OCCUPANCY_LOWER_LIMIT_ENFORCED, 6),
            (point_flag::OCCUPANCY_COUNT_ADJUST, 13),
            (point_flag::MUSTER_POINT, 5),
        ]),
        authorization_mode: mode(random, mix),
        factors_wanted: if random.sixteenths(mix.two_factors) {
            factors_wanted::TWO
        } else {
            factors_wanted::ONE
        },
        zone_to,
        zone_from: if zone_from == zone_to {
            NONE
        } else {
            zone_from
        },
        threat_level: restriction(random, mix.points / 2, 0, &[1, 50, MOST_THREAT_LEVEL]),
        max_failed_attempts: random.pick(&[0, 0, 0, 0, 1, 2, 3, 4, 255]),
        factor_timeout: random.pick(&[0, 0, 1, 3, 30, u16::MAX]),
        lockout_relinquish_time: random.pick(&[0, 1, 2, 5, 10, 60, 3_600, u32::MAX]),
        failed_attempts_time: random.pick(&[0, 0, 1, 10, 60, u32::MAX]),
        ..Point::new(instance)
    }
}

fn mode(random: &mut Random, mix: &Mix) -> u8 {
    if random.sixteenths(mix.points / 3) {
        return authorization_mode::DENY_ALL;
    }
    if random.sixteenths(mix.authorize) {
        return authorization_mode::AUTHORIZE;
    }
    authorization_mode::GRANT_ACTIVE
}

fn rule(
    random: &mut Random,
    mix: &Mix,
    base: u32,
    pool: &Pool,
    zones: &[u32],
    points: &[u32],
) -> Rule {
    let (location_kind, location) = location(random, zones, points);
    let everywhere = if location_kind == location_kind::UNSPECIFIED {
        rule_flag::EVERYWHERE
    } else {
        0
    };
    Rule {
        rights: random.pick(&pool.rights),
        flags: everywhere
            | random.flags(&[
                (rule_flag::ENABLE, 14),
                (rule_flag::NEGATIVE, mix.negative),
                (rule_flag::ALWAYS, 3),
            ]),
        location_kind,
        location,
        days: days(random, base),
        // In either order, since a from above to runs past midnight.
        from: minute(random, base),
        to: minute(random, base),
    }
}

/// The days of a rule, often one alone: that of the base, its neighbour on either side, or Sunday.
fn days(random: &mut Random, base: u32) -> u8 {
    let today = weekday(base);
    match random.below(16) {
        0 => 0,
        1..=2 => random.byte() & EVERY_DAY,
        3..=5 => 1 << today,
        6..=8 => 1 << weekday_before(today),
        9 => 1 << ((today + 1) % DAYS_PER_WEEK),
        10 => SUNDAY,
        _ => EVERY_DAY,
    }
}

/// The kind and instance of a rule's location; everywhere where there is none to name.
fn location(random: &mut Random, zones: &[u32], points: &[u32]) -> (u8, u32) {
    match random.below(3) {
        0 if !zones.is_empty() => (location_kind::ZONE, random.pick(zones)),
        1 if !points.is_empty() => (location_kind::POINT, random.pick(points)),
        _ => (location_kind::UNSPECIFIED, 0),
    }
}

/// A minute of the day, often at the base or beside it.
fn minute(random: &mut Random, base: u32) -> u16 {
    let now = minute_of_day(base);
    match random.below(8) {
        0 => 0,
        1 => MINUTES_PER_DAY,
        2 | 3 => now,
        4 => now + 1,
        5 => now.saturating_sub(1),
        _ => random.below(usize::from(MINUTES_PER_DAY) + 1) as u16,
    }
}

fn credential(random: &mut Random, mix: &Mix, base: u32, pool: &Pool, instance: u32) -> Credential {
    let strict = mix.credentials / 2;
    let activation = [near(random, base), near(random, base), NEVER];
    let expiry = [near(random, base), near(random, base), 0];
    let any = random.byte();
    Credential {
        flags: random.flags(&[
            (credential_flag::MASTER_EXEMPTION, 2),
            (credential_flag::PASSBACK_EXEMPTION, 3),
            (credential_flag::OCCUPANCY_EXEMPTION, 3),
            (credential_flag::TRACE_FLAG, 5),
            (credential_flag::EXTENDED_TIME_ENABLE, 5),
        ]),
        disable: restriction(
            random,
            strict,
            credential_disable::NONE,
            &[
                credential_disable::DISABLE,
                credential_disable::DISABLE_MANUAL,
                credential_disable::DISABLE_LOCKOUT,
            ],
        ),
        threat_authority: random.pick(&[0, 1, 49, 50, MOST_THREAT_LEVEL]),
        activation_time: restriction(random, strict, 0, &activation),
        expiry_time: restriction(random, strict, NEVER, &expiry),
        uses: restriction(random, mix.credentials, UNLIMITED, &[0, 1, 2, 5]),
        days: restriction(random, mix.days, UNLIMITED, &[0, 1, 2, 2, 5, 5]),
        absentee_limit: restriction(random, strict, UNLIMITED, &[0, 1, 2, UNLIMITED - 1]),
        most_wrong_tries: restriction(random, mix.wrong_tries, 0, &[1, 1, 2, 2, 3, 3, 4, any, 255]),
        rights: [
            reference(random, &pool.rights),
            reference(random, &pool.rights),
        ],
        ..Credential::new(instance)
    }
}

/// Adds factors that are no twins. There are more values than factors, so each is found.
fn add_factors(
    random: &mut Random,
    mix: &Mix,
    pool: &Pool,
    credentials: &[u32],
    count: usize,
    records: &mut Vec<Record>,
) {
    let mut added = 0;
    while added < count {
        let factor = Factor {
            role: random.pick(&[factor_role::IDENTIFYING, factor_role::CONFIRMING]),
            disable: restriction(random, mix.factors / 2, 0, &[1, 2, 3, 4, 5]),
            format: random.pick(&pool.formats),
            ..Factor::new(random.pick(credentials), value(random, count + 4))
        };
        let record = factor.record();
        if records.iter().any(|earlier| are_twins(earlier, &record)) {
            continue;
        }
        records.push(record);
        added += 1;
    }
}

/// One of twice `numbers` values: a number at the low or at the high end, so that leading and
/// trailing zeros are compared.
pub fn value(random: &mut Random, numbers: usize) -> [u8; VALUE_LENGTH] {
    let number = random.below(numbers) as u64;
    if random.sixteenths(8) {
        number.to_be_bytes()
    } else {
        number.to_le_bytes()
    }
}

/// NONE or one of the numbers.
fn reference(random: &mut Random, numbers: &[u32]) -> u32 {
    if random.sixteenths(3) {
        return NONE;
    }
    random.pick_or(numbers, NONE)
}

/// The usual value, or in the given number of cases out of 16 one of the others.
fn restriction<T: Copy>(random: &mut Random, part: usize, usual: T, others: &[T]) -> T {
    if random.sixteenths(part) {
        return random.pick(others);
    }
    usual
}
