//! The journals that are measured: cards at points, most of them granted.

use crate::shapes::START;
use reference::build::{EntryFields, FORMAT};
use reference::bytes::get32;
use reference::generate::Random;
use reference::layout::point_state;
use reference::numbers::{factor_role, factors_wanted, kind, ENTRY_LENGTH, NONE, VALUE_LENGTH};
use reference::site::{instance_of, kind_of, records, FactorRecord, PointRecord};
use reference::state::kept_records;
use std::collections::HashMap;

/// Seconds from one entry to the next.
const PACE: u32 = 10;

/// One entry in so many is of operations 2 to 5.
const OTHER_OPERATIONS: u32 = 32;

struct Point {
    instance: u32,
    wants_two: bool,
    /// The credential that it waits for, or NONE.
    waits_for: u32,
}

/// What a site holds for entries to name.
pub struct Writer<'a> {
    zones: Vec<u32>,
    points: Vec<Point>,
    credentials: Vec<u32>,
    /// By credential and role.
    factors: HashMap<(u32, u8), Vec<FactorRecord<'a>>>,
    /// The point that operation 5 has locked.
    locked: Option<usize>,
    random: Random,
}

impl<'a> Writer<'a> {
    pub fn new(site: &'a [u8], state: &[u8]) -> Writer<'a> {
        let mut writer = Writer {
            zones: Vec::new(),
            points: Vec::new(),
            credentials: Vec::new(),
            factors: HashMap::new(),
            locked: None,
            random: Random::new(1),
        };
        for (record, part) in kept_records(site).zip(records(state)) {
            writer.add_kept(record, part);
        }
        let factors = records(site).filter(|record| kind_of(record) == kind::FACTOR);
        for factor in factors.map(FactorRecord) {
            let key = (factor.credential(), factor.role());
            writer.factors.entry(key).or_default().push(factor);
        }
        writer
    }

    fn add_kept(&mut self, record: &[u8], part: &[u8]) {
        let instance = instance_of(record);
        match kind_of(record) {
            kind::ZONE => self.zones.push(instance),
            kind::POINT => self.points.push(Point {
                instance,
                wants_two: PointRecord(record).factors_wanted() == factors_wanted::TWO,
                waits_for: get32(part, point_state::WAITING_CREDENTIAL),
            }),
            _ => self.credentials.push(instance),
        }
    }

    /// A read in the middle of the site that is granted.
    pub fn one_entry(&mut self) -> Vec<u8> {
        let half = self.points.len() / 2;
        let wants_one = (half..).find(|&index| !self.points[index].wants_two);
        let credential = self.credentials[self.credentials.len() / 2];
        let point = wants_one.expect("a point that wants one factor");
        self.read(START, point, credential).bytes().to_vec()
    }

    /// A journal of so many entries, one read in 16 of an unknown card.
    pub fn journal(
        &mut self,
        entries: usize,
        unknown: impl Fn(u32) -> [u8; VALUE_LENGTH],
    ) -> Vec<u8> {
        let mut journal = Vec::with_capacity(entries * ENTRY_LENGTH);
        let mut asked = None;
        for number in 0..entries as u32 {
            let now = START + PACE * number;
            let point = self.random.below(self.points.len());
            let entry = if let Some(point) = asked.take() {
                self.read(now, point, NONE)
            } else if number % OTHER_OPERATIONS == OTHER_OPERATIONS - 1 {
                self.other_operation(number / OTHER_OPERATIONS, now)
            } else if self.random.sixteenths(1) {
                self.points[point].waits_for = NONE;
                let instance = self.points[point].instance;
                EntryFields::read_factor(now, instance, FORMAT, unknown(number))
            } else {
                let credential = self.random.pick(&self.credentials);
                let entry = self.read(now, point, credential);
                asked = (self.points[point].waits_for != NONE).then_some(point);
                entry
            };
            journal.extend_from_slice(&entry.bytes());
        }
        journal
    }

    /// The code of the credential that the point waits for, else a card of the other one.
    fn read(&mut self, now: u32, point: usize, credential: u32) -> EntryFields {
        let point = &mut self.points[point];
        let key = if point.waits_for != NONE {
            let key = (point.waits_for, factor_role::CONFIRMING);
            point.waits_for = NONE;
            key
        } else {
            if point.wants_two {
                point.waits_for = credential;
            }
            (credential, factor_role::IDENTIFYING)
        };
        let factor = self.random.pick(&self.factors[&key]);
        let value = *factor.value().first_chunk().expect("eight bytes");
        EntryFields::read_factor(now, point.instance, factor.format(), value)
    }

    /// Operations 2 to 5 in turn, none of which denies much: a point that one locks, the next such
    /// one unlocks.
    fn other_operation(&mut self, turn: u32, now: u32) -> EntryFields {
        let zone = self.random.pick(&self.zones);
        match turn % 4 {
            0 => EntryFields::set_count(now, zone, 100),
            1 => EntryFields::adjust_count(now, zone, -1),
            2 => EntryFields::set_disable(now, self.random.pick(&self.credentials), 0),
            _ => {
                let lock = self.locked.is_none();
                let point = self.random.below(self.points.len());
                let point = self.locked.take().unwrap_or(point);
                if lock {
                    self.locked = Some(point);
                    self.points[point].waits_for = NONE;
                }
                EntryFields::set_lockout(now, self.points[point].instance, lock)
            }
        }
    }
}
