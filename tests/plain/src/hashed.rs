//! Lookups by hash maps of the standard library, built in each call.

use crate::bytes::{get32, get64, Record};
use crate::linear::scan_rules;
use crate::lookup::{rights, Field, Lookup, Object, Rule};
use reference::layout::{factor, record};
use reference::numbers::{factor_role, kind, NONE};
use std::cell::{Cell, OnceCell};
use std::collections::HashMap;
use std::hash::{Hash, Hasher};
use std::ops::ControlFlow::{self, Continue};
use std::ops::Range;

/// The position of a record; a site has at most 2,000.
type Place = u16;

/// Where the records of an object stand, in half the room.
#[derive(Clone, Copy)]
struct Places {
    record: Place,
    part: Place,
}

/// The places of what a field of NONE names.
const NOWHERE: Places = Places {
    record: Place::MAX,
    part: Place::MAX,
};

impl Places {
    #[inline]
    fn object(self) -> Object {
        Object {
            record: usize::from(self.record),
            part: usize::from(self.part),
        }
    }
}

/// The bits of an instance.
const INSTANCE_BITS: u32 = NONE.count_ones();

/// The rules are grouped after so many scans of them: for few reads, scans cost less.
const SCANS: u32 = 8;

pub struct Hashed {
    /// Zones, points and credentials by kind and instance.
    objects: HashMap<u32, Places>,
    factors: HashMap<FactorKey, Place>,
    /// What each record names: found by the check that it exists, and kept.
    named: Vec<[Places; 2]>,
    scans: Cell<u32>,
    rules: OnceCell<Rules>,
}

/// The rules, those of a rights number side by side.
struct Rules {
    sorted: Vec<Rule>,
    /// Where those of each credential's rights numbers stand.
    of: Vec<[Range<Place>; 2]>,
}

/// Kind and instance in one number, which is hashed quicker than two.
#[inline]
fn object_key(kind: u8, instance: u32) -> u32 {
    u32::from(kind) << INSTANCE_BITS | instance
}

/// Value, format and credential. Identifying factors go by no credential, so that they are in the
/// map under NONE.
#[derive(PartialEq, Eq)]
struct FactorKey {
    value: u64,
    format_and_credential: u32,
}

impl Hash for FactorKey {
    /// In one piece, which is quicker than two.
    #[inline]
    fn hash<H: Hasher>(&self, hasher: &mut H) {
        let mut bytes = [0; 12];
        bytes[..8].copy_from_slice(&self.value.to_ne_bytes());
        bytes[8..].copy_from_slice(&self.format_and_credential.to_ne_bytes());
        hasher.write(&bytes);
    }
}

#[inline]
fn factor_key(credential: u32, format: u8, value: u64) -> FactorKey {
    FactorKey {
        value,
        format_and_credential: u32::from(format) << INSTANCE_BITS | credential,
    }
}

#[inline]
fn key_of_factor(factor: &Record) -> FactorKey {
    let credential = match factor[factor::ROLE] {
        factor_role::CONFIRMING => get32(factor, record::INSTANCE),
        _ => NONE,
    };
    let value = get64(factor, factor::VALUE);
    factor_key(credential, factor[factor::FORMAT], value)
}

impl Hashed {
    /// Takes a record into its map; false where it stands twice. As many objects as are in theirs have
    /// state records before its own.
    #[inline]
    fn insert(&mut self, place: Place, record: &Record) -> bool {
        let earlier = match record[record::KIND] {
            kind::RULE => false,
            kind::FACTOR => self.factors.insert(key_of_factor(record), place).is_some(),
            kind => {
                let key = object_key(kind, get32(record, record::INSTANCE));
                let places = Places {
                    record: place,
                    part: self.objects.len() as Place,
                };
                self.objects.insert(key, places).is_some()
            }
        };
        !earlier
    }
}

impl Lookup for Hashed {
    fn new(records: &[Record]) -> Option<Hashed> {
        let rules = of_kind(records, kind::RULE).count();
        let factors = of_kind(records, kind::FACTOR).count();
        let mut hashed = Hashed {
            objects: HashMap::with_capacity(records.len() - rules - factors),
            factors: HashMap::with_capacity(factors),
            named: vec![[NOWHERE; 2]; records.len()],
            scans: Cell::new(0),
            rules: OnceCell::new(),
        };
        for (index, record) in records.iter().enumerate() {
            if !hashed.insert(index as Place, record) {
                return None;
            }
        }
        Some(hashed)
    }

    #[inline]
    fn kept(&self, _: &[Record]) -> usize {
        self.objects.len()
    }

    #[inline]
    fn find(&self, _: &[Record], kind: u8, instance: u32) -> Option<Object> {
        let places = self.objects.get(&object_key(kind, instance))?;
        Some(places.object())
    }

    #[inline]
    fn exists(&self, _: &[Record], kind: u8, instance: u32) -> bool {
        self.objects.contains_key(&object_key(kind, instance))
    }

    #[inline]
    fn link(&mut self, records: &[Record], index: usize, field: &Field) -> bool {
        let instance = field.instance(&records[index]);
        if instance == NONE {
            return true;
        }
        let Some(places) = self.objects.get(&object_key(field.kind, instance)) else {
            return false;
        };
        self.named[index][field.slot] = *places;
        true
    }

    #[inline]
    fn named(&self, _: &[Record], index: usize, field: &Field) -> Option<Object> {
        let places = self.named[index][field.slot];
        (places.record != NOWHERE.record).then(|| places.object())
    }

    #[inline]
    fn identifying(&self, _: &[Record], format: u8, value: u64) -> Option<usize> {
        let place = self.factors.get(&factor_key(NONE, format, value))?;
        Some(usize::from(*place))
    }

    #[inline]
    fn confirming(&self, _: &[Record], credential: u32, format: u8, value: u64) -> Option<usize> {
        let place = self.factors.get(&factor_key(credential, format, value))?;
        Some(usize::from(*place))
    }

    #[inline]
    fn each_rule(
        &self,
        records: &[Record],
        credential: usize,
        mut see: impl FnMut(&Rule) -> ControlFlow<()>,
    ) -> ControlFlow<()> {
        if self.scans.get() < SCANS {
            self.scans.set(self.scans.get() + 1);
            return scan_rules(records, rights(&records[credential]), see);
        }
        let rules = self.rules.get_or_init(|| Rules::new(records));
        for range in &rules.of[credential] {
            let group = &rules.sorted[range.start.into()..range.end.into()];
            group.iter().try_for_each(&mut see)?;
        }
        Continue(())
    }
}

impl Rules {
    fn new(records: &[Record]) -> Rules {
        let mut sorted: Vec<Rule> = of_kind(records, kind::RULE)
            .map(|record| *record.first_chunk().expect("a record is longer"))
            .collect();
        sorted.sort_unstable_by_key(rights_of);
        let mut groups = HashMap::new();
        let mut start = 0;
        for group in sorted.chunk_by(|one, next| rights_of(one) == rights_of(next)) {
            let end = start + group.len() as Place;
            groups.insert(rights_of(&group[0]), start..end);
            start = end;
        }
        let of_number = |number| groups.get(&number).cloned().unwrap_or_default();
        let of_record = |record: &Record| match record[record::KIND] {
            kind::CREDENTIAL => rights(record).map(of_number),
            _ => Default::default(),
        };
        Rules {
            of: records.iter().map(of_record).collect(),
            sorted,
        }
    }
}

fn of_kind(records: &[Record], kind: u8) -> impl Iterator<Item = &Record> {
    let records = records.iter();
    records.filter(move |record| record[record::KIND] == kind)
}

fn rights_of(rule: &Rule) -> u32 {
    get32(rule, record::INSTANCE)
}
