//! The sites that are measured, each for a number of records, and the states to begin with.

use differential::colliding::{self, collided};
use reference::build::{Credential, Factor, Point, Record, Rule, Zone, FORMAT};
use reference::bytes::put32;
use reference::generate::Random;
use reference::layout::{credential_state, point_state};
use reference::numbers::{
    factor_role, factors_wanted, kind, location_kind, passback_mode, point_flag, refusal,
    rule_flag, zone_flag, EVERY_DAY, RECORD_LENGTH, VALUE_LENGTH,
};
use reference::site::{instance_of, kind_of, records};
use reference::state::{fresh_state, kept_records, state_length};

/// The time of the first entry, 08:00 on a Monday.
pub const START: u32 = 8 * 60 * 60;

const CODE_FORMAT: u8 = 3;

/// Where there are rules for so many, each rights number has an equal share of them.
const MOST_RIGHTS: u32 = 20;

/// How many records of a thousand are of each kind; the rest are rules.
struct Shares {
    zones: usize,
    points: usize,
    credentials: usize,
    /// Identifying and confirming factors of each credential.
    cards: u32,
    codes: u32,
}

/// What else a shape has.
#[derive(PartialEq)]
enum Twist {
    None,
    /// The records in any order.
    Shuffled,
    /// All records in one bucket of the index.
    Colliding,
    /// A state that names an object wherever it may.
    References,
}

pub struct Shape {
    pub name: &'static str,
    shares: Shares,
    twist: Twist,
}

const fn shape(name: &'static str, shares: [usize; 3], factors: [u32; 2], twist: Twist) -> Shape {
    let [zones, points, credentials] = shares;
    let [cards, codes] = factors;
    Shape {
        name,
        shares: Shares {
            zones,
            points,
            credentials,
            cards,
            codes,
        },
        twist,
    }
}

/// Of a thousand zones, points and credentials, and the cards and codes of each credential.
const CAMPUS: [usize; 3] = [40, 100, 240];

pub const SHAPES: [Shape; 8] = [
    shape("rules", [10, 20, 50], [1, 0], Twist::None),
    shape("credentials", [10, 20, 475], [1, 0], Twist::None),
    shape("points", [50, 800, 70], [1, 0], Twist::None),
    shape("factors", [10, 20, 100], [4, 4], Twist::None),
    shape("campus", CAMPUS, [1, 1], Twist::None),
    shape("shuffled", CAMPUS, [1, 1], Twist::Shuffled),
    shape("colliding", CAMPUS, [1, 1], Twist::Colliding),
    shape("references", [40, 200, 240], [1, 1], Twist::References),
];

impl Shape {
    pub fn site(&self, records: usize) -> Vec<u8> {
        let mut site = self.shares.records(records as u32);
        if self.twist == Twist::Shuffled {
            Random::new(1).shuffle(&mut site);
        }
        let site = site.concat();
        if self.twist == Twist::Colliding {
            return collided(&site);
        }
        site
    }

    /// The state that runs begin with.
    pub fn state(&self, site: &[u8]) -> Vec<u8> {
        let mut state = vec![0; state_length(site)];
        assert_eq!(fresh_state(site, &mut state), refusal::ACCEPTED);
        if self.twist == Twist::References {
            fill_with_references(site, &mut state);
        }
        state
    }

    /// The value of a card that the site does not hold.
    pub fn unknown_card(&self, number: u32) -> [u8; VALUE_LENGTH] {
        match self.twist {
            Twist::Colliding => colliding::unknown_value(0, FORMAT, number),
            _ => (u64::MAX - u64::from(number)).to_be_bytes(),
        }
    }
}

impl Shares {
    fn records(&self, records: u32) -> Vec<Record> {
        let of_thousand = |share: usize| (records as usize * share / 1_000) as u32;
        let (zones, points) = (of_thousand(self.zones), of_thousand(self.points));
        let credentials = of_thousand(self.credentials);
        let factors = credentials * (self.cards + self.codes);
        let rules = records - zones - points - credentials - factors;
        let rights = (rules / 2).clamp(1, MOST_RIGHTS);
        let points_wanting_two = if self.codes > 0 { 4 } else { u32::MAX };
        let all = (0..zones)
            .map(zone)
            .chain((0..points).map(|number| point(number, zones, points_wanting_two)))
            .chain((0..rules).map(|number| rule(number, rights, zones, points)))
            .chain((0..credentials).map(|number| credential(number, rights)))
            .chain((0..credentials).flat_map(|number| self.factors(number)));
        all.collect()
    }

    fn factors(&self, credential: u32) -> Vec<Record> {
        let cards = (0..self.cards).map(|number| {
            let value = 0x0055_0000 + u64::from(credential) * 16 + u64::from(number);
            Factor::new(credential, value.to_be_bytes()).record()
        });
        let codes = (0..self.codes).map(|number| {
            // Four digits; those of one credential differ.
            let value = u64::from(credential * 7_919 + number * 1_237) % 10_000;
            let code = Factor {
                role: factor_role::CONFIRMING,
                format: CODE_FORMAT,
                ..Factor::new(credential, value.to_be_bytes())
            };
            code.record()
        });
        cards.chain(codes).collect()
    }
}

/// A counting zone. Its limit is never met, but is compared.
fn zone(number: u32) -> Record {
    let soft = number.is_multiple_of(3);
    let zone = Zone {
        flags: zone_flag::OCCUPANCY_COUNT_ENABLE,
        passback_mode: if soft {
            passback_mode::SOFT_PASSBACK
        } else {
            passback_mode::PASSBACK_OFF
        },
        upper_limit: 1_000_000,
        ..Zone::new(number)
    };
    zone.record()
}

/// A point between two zones that asks the rules and counts. One in so many wants two factors.
fn point(number: u32, zones: u32, one_in: u32) -> Record {
    let point = Point {
        flags: point_flag::OCCUPANCY_COUNT_ADJUST | point_flag::OCCUPANCY_UPPER_LIMIT_ENFORCED,
        factors_wanted: if number % one_in == one_in - 1 {
            factors_wanted::TWO
        } else {
            factors_wanted::ONE
        },
        zone_to: number % zones,
        zone_from: (number + 1) % zones,
        ..Point::new(number)
    };
    point.record()
}

/// The first rule of each rights number fits everywhere by day, so that most cards are granted; the
/// others fit in some hours at a zone or a point.
fn rule(number: u32, rights: u32, zones: u32, points: u32) -> Record {
    let (flags, location_kind, location) = match number / rights {
        0 => (rule_flag::EVERYWHERE, location_kind::UNSPECIFIED, 0),
        place if place % 2 == 1 => (0, location_kind::ZONE, place / 2 % zones),
        _ => (0, location_kind::POINT, number % points),
    };
    let rule = Rule {
        flags: flags | rule_flag::ENABLE,
        location_kind,
        location,
        days: EVERY_DAY,
        from: 6 * 60,
        to: 22 * 60,
        ..Rule::new(number % rights)
    };
    rule.record()
}

fn credential(number: u32, rights: u32) -> Record {
    let credential = Credential {
        rights: [number % rights, (number + 7) % rights],
        ..Credential::new(number)
    };
    credential.record()
}

/// Gives every credential a zone and a last point, and lets every point wait for a credential.
fn fill_with_references(site: &[u8], state: &mut [u8]) {
    let of_kind = |kind: u8| -> Vec<u32> {
        let of_kind = records(site).filter(|record| kind_of(record) == kind);
        of_kind.map(instance_of).collect()
    };
    let (zones, points) = (of_kind(kind::ZONE), of_kind(kind::POINT));
    let credentials = of_kind(kind::CREDENTIAL);
    let mut random = Random::new(1);
    for (record, part) in kept_records(site).zip(state.chunks_exact_mut(RECORD_LENGTH)) {
        match kind_of(record) {
            kind::POINT => {
                let waiting = random.pick(&credentials);
                put32(part, point_state::WAITING_CREDENTIAL, waiting);
                put32(part, point_state::WAITING_SINCE, START - 1);
            }
            kind::CREDENTIAL => {
                put32(part, credential_state::LAST_USE_TIME, START - 1);
                put32(part, credential_state::ZONE, random.pick(&zones));
                put32(part, credential_state::ENTERED, START - 1);
                put32(
                    part,
                    credential_state::LAST_ACCESS_POINT,
                    random.pick(&points),
                );
            }
            _ => {}
        }
    }
}
