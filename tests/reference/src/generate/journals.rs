//! Journals whose entries mostly meet the objects of a site, with bad entries of every kind.

use super::clock::{beside_minute, beside_timeout, next_time, next_visit};
use super::random::Random;
use super::sites::{self, MISSING};
use super::states;
use crate::build::EntryFields;
use crate::layout::entry;
use crate::numbers::{
    factor_role, factors_wanted, format, kind, ENTRY_LENGTH, NEVER, NONE, VALUE_LENGTH,
};
use crate::site::{instance_of, kind_of, records, FactorRecord, PointRecord, RuleRecord};

/// The objects of a site that entries name.
struct Objects<'a> {
    zones: Vec<u32>,
    points: Vec<u32>,
    /// The points that want two factors.
    two_factor_points: Vec<PointRecord<'a>>,
    credentials: Vec<u32>,
    factors: Vec<FactorRecord<'a>>,
    /// The minutes at which rules begin or cease to fit.
    rule_minutes: Vec<u16>,
}

impl<'a> Objects<'a> {
    fn new(site: &'a [u8]) -> Objects<'a> {
        let of = |kind: u8| records(site).filter(move |record| kind_of(record) == kind);
        Objects {
            zones: of(kind::ZONE).map(instance_of).collect(),
            points: of(kind::POINT).map(instance_of).collect(),
            two_factor_points: of(kind::POINT)
                .map(PointRecord)
                .filter(|point| point.factors_wanted() == factors_wanted::TWO)
                .collect(),
            credentials: of(kind::CREDENTIAL).map(instance_of).collect(),
            factors: of(kind::FACTOR).map(FactorRecord).collect(),
            rule_minutes: of(kind::RULE)
                .map(RuleRecord)
                .flat_map(|rule| [rule.from(), rule.to()])
                .collect(),
        }
    }
}

/// A journal of the given number of entries for a site.
pub fn journal(random: &mut Random, base: u32, site: &[u8], entries: usize) -> Vec<u8> {
    let mut writer = Writer {
        objects: Objects::new(site),
        base,
        now: base,
        shown: None,
        visitor: None,
        forgotten: None,
    };
    if !writer.objects.factors.is_empty() && random.sixteenths(3) {
        writer.visitor = Some(writer.beginning(random));
    }
    if !writer.objects.factors.is_empty() && random.sixteenths(4) {
        writer.forgotten = Some(writer.beginning(random));
    }
    let mut journal = Vec::with_capacity(entries * ENTRY_LENGTH);
    for _ in 0..entries {
        journal.extend_from_slice(&writer.entry(random));
    }
    journal
}

/// What a journal has written so far and the next entry may follow up.
struct Writer<'a> {
    objects: Objects<'a>,
    base: u32,
    now: u32,
    /// The identifying factor read last, at a point that wants two.
    shown: Option<First<'a>>,
    /// A card that is read over and over on several dates, at points that grant it and at others.
    visitor: Option<FactorRecord<'a>>,
    /// A card that is read over and over at points that want two factors, its code forgotten.
    forgotten: Option<FactorRecord<'a>>,
}

/// The first of two factors.
struct First<'a> {
    point: PointRecord<'a>,
    credential: u32,
    time: u32,
}

impl<'a> Writer<'a> {
    fn entry(&mut self, random: &mut Random) -> [u8; ENTRY_LENGTH] {
        self.now = self.time(random);
        let entry = match random.below(64) {
            0..=39 => self.read(random),
            40..=42 => self.unknown_read(random),
            43..=44 => self.read_error(random),
            45..=48 => EntryFields::set_count(self.now, self.zone(random), states::count(random)),
            49..=52 => EntryFields::adjust_count(self.now, self.zone(random), adjustment(random)),
            53..=54 => self.set_disable(random),
            55..=57 => self.set_lockout(random),
            58..=59 => self.missing(random),
            _ => return self.bad(random),
        };
        entry.bytes()
    }

    /// The time of the next entry: as the clock goes on, as the visitor comes, or beside a minute at
    /// which a rule begins or ceases to fit.
    fn time(&self, random: &mut Random) -> u32 {
        if self.visitor.is_some() && random.sixteenths(8) {
            return next_visit(random, self.now);
        }
        if self.forgotten.is_some() && random.sixteenths(1) {
            return next_visit(random, self.now);
        }
        if self.objects.rule_minutes.is_empty() || !random.sixteenths(3) {
            return next_time(random, self.base, self.now);
        }
        let minute = random.pick(&self.objects.rule_minutes);
        beside_minute(random, self.now, minute)
    }

    fn zone(&self, random: &mut Random) -> u32 {
        random.pick_or(&self.objects.zones, MISSING)
    }

    fn point(&self, random: &mut Random) -> u32 {
        random.pick_or(&self.objects.points, MISSING)
    }

    /// A factor of the site; after an identifying one often its confirming one at the same point.
    fn read(&mut self, random: &mut Random) -> EntryFields {
        if self.objects.factors.is_empty() {
            return self.unknown_read(random);
        }
        if let Some(first) = self.shown.take() {
            if let Some(entry) = self.second(random, &first) {
                return entry;
            }
        }
        let factor = self.beginning(random);
        let point = self.first_point(random);
        let wants_two = |wanting: &&PointRecord| instance_of(wanting.0) == point;
        let wanting = self.objects.two_factor_points.iter().find(wants_two);
        if let Some(&point) = wanting.filter(|_| random.sixteenths(13)) {
            self.shown = Some(First {
                point,
                credential: factor.credential(),
                time: self.now,
            });
        }
        self.read_of(point, &factor)
    }

    /// A point to begin at: where a code is forgotten, mostly one that wants two factors.
    fn first_point(&self, random: &mut Random) -> u32 {
        let any = self.point(random);
        if self.forgotten.is_none() || random.sixteenths(4) {
            return any;
        }
        let points = &self.objects.two_factor_points;
        let instances: Vec<u32> = points.iter().map(|point| instance_of(point.0)).collect();
        random.pick_or(&instances, any)
    }

    /// What follows the first of two factors at its point: the code, if the card has one, or mostly
    /// something else where it is forgotten.
    fn second(&mut self, random: &mut Random, first: &First) -> Option<EntryFields> {
        let point = instance_of(first.point.0);
        let code = self.confirming(random, first.credential);
        if self.forgotten.is_none() || random.sixteenths(4) {
            return code.map(|code| self.read_of(point, &code));
        }
        let entry = match random.below(8) {
            0 => self.read_error(random),
            1..=2 => {
                let timeout = first.point.factor_timeout();
                self.now = beside_timeout(random, first.time, timeout);
                self.read_of(point, &code?)
            }
            3..=4 => self.read_of(point, &random.pick(&self.objects.factors)),
            _ => self.unknown_read(random),
        };
        Some(EntryFields {
            instance: point,
            ..entry
        })
    }

    /// A factor to begin with: mostly the visitor's or that of the forgotten code, else of several draws
    /// the first identifying one or the last.
    fn beginning(&self, random: &mut Random) -> FactorRecord<'a> {
        for card in [self.visitor, self.forgotten] {
            if let Some(card) = card.filter(|_| random.sixteenths(10)) {
                return card;
            }
        }
        let mut factor = random.pick(&self.objects.factors);
        for _ in 0..3 {
            if factor.role() == factor_role::IDENTIFYING {
                break;
            }
            factor = random.pick(&self.objects.factors);
        }
        factor
    }

    fn confirming(&self, random: &mut Random, credential: u32) -> Option<FactorRecord<'a>> {
        let start = random.below(self.objects.factors.len());
        let (early, late) = self.objects.factors.split_at(start);
        late.iter()
            .chain(early)
            .find(|factor| {
                factor.role() == factor_role::CONFIRMING && factor.credential() == credential
            })
            .copied()
    }

    fn read_of(&self, point: u32, factor: &FactorRecord) -> EntryFields {
        let mut value = [0; VALUE_LENGTH];
        value.copy_from_slice(factor.value());
        EntryFields::read_factor(self.now, point, factor.format(), value)
    }

    /// A value that mostly no factor has, sometimes one of another format.
    fn unknown_read(&self, random: &mut Random) -> EntryFields {
        let value = if random.sixteenths(8) {
            sites::value(random, 16)
        } else {
            random.number64().to_be_bytes()
        };
        let format = random.pick(&[2, 3, 254, 255]);
        EntryFields::read_factor(self.now, self.point(random), format, value)
    }

    fn read_error(&self, random: &mut Random) -> EntryFields {
        let value = random.pick(&[0, 1, u64::MAX]).to_be_bytes();
        EntryFields::read_factor(self.now, self.point(random), format::ERROR, value)
    }

    fn set_disable(&self, random: &mut Random) -> EntryFields {
        let any = random.pick_or(&self.objects.credentials, MISSING);
        let forgotten = self.forgotten.filter(|_| random.sixteenths(10));
        let credential = forgotten.map_or(any, |card| card.credential());
        let disable = random.pick(&[0, 0, 0, 1, 2, 3]);
        EntryFields::set_disable(self.now, credential, disable)
    }

    fn set_lockout(&self, random: &mut Random) -> EntryFields {
        let lock = random.sixteenths(7);
        EntryFields::set_lockout(self.now, self.point(random), lock)
    }

    fn sound(&mut self, random: &mut Random) -> EntryFields {
        match random.below(5) {
            0 => self.read(random),
            1 => EntryFields::set_count(self.now, self.zone(random), states::count(random)),
            2 => EntryFields::adjust_count(self.now, self.zone(random), adjustment(random)),
            3 => self.set_disable(random),
            _ => self.set_lockout(random),
        }
    }

    /// An entry whose object the site does not hold.
    fn missing(&mut self, random: &mut Random) -> EntryFields {
        EntryFields {
            instance: random.pick(&[MISSING, NONE - 2]),
            ..self.sound(random)
        }
    }

    /// An entry with one field or spare byte changed, mostly out of range.
    fn bad(&mut self, random: &mut Random) -> [u8; ENTRY_LENGTH] {
        let mut entry = self.sound(random);
        match random.below(7) {
            0 => entry.operation = random.pick(&[0, 6, 7, 255]),
            1 => entry.argument = random.pick(&[0, 1, 2, 4, 255]),
            2 => entry.time = NEVER,
            3 => entry.instance = random.pick(&[NONE, NONE + 1, u32::MAX]),
            4 => entry.amount = random.pick(&[1, 1 << 24, u32::MAX]),
            5 => entry.value = random.pick(&[1, 1u64 << 56]).to_be_bytes(),
            _ => return spare_byte(random, entry.bytes()),
        }
        entry.bytes()
    }
}

fn spare_byte(random: &mut Random, mut bytes: [u8; ENTRY_LENGTH]) -> [u8; ENTRY_LENGTH] {
    let offset = random.pick(&[entry::SPARE, entry::SPARE + 1]);
    bytes[offset] = random.pick(&[1, 128, 255]);
    bytes
}

/// An adjustment, often by little, at times by the most in either direction.
fn adjustment(random: &mut Random) -> i32 {
    let any = random.number32() as i32;
    random.pick(&[0, 1, 1, 2, 5, -1, -1, -2, -5, i32::MAX, i32::MIN, any])
}
