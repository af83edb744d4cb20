//! Lookups by scans of the site.

use crate::bytes::{get32, get64, word, Record};
use crate::lookup::{is_kept, rights, Field, Lookup, Object, Rule};
use reference::layout::{factor, record};
use reference::numbers::{factor_role, kind, MOST_SITE_BYTES, NONE, RECORD_LENGTH};
use std::ops::ControlFlow::{self, Continue};

pub struct Linear {
    /// How many state records those before each block of the site have, so that a record's place in
    /// the state takes no second scan of the site.
    before: [u16; BLOCKS],
    kept: usize,
}

/// The records of a block.
const BLOCK: usize = 16;

const BLOCKS: usize = (MOST_SITE_BYTES / RECORD_LENGTH).div_ceil(BLOCK);

/// The bytes of a record's first word that hold kind and instance.
const KEY: u64 = u64::from_ne_bytes([0xFF, 0, 0, 0, 0xFF, 0xFF, 0xFF, 0xFF]);

/// Kind and instance of a record as one word.
#[inline(always)]
fn key_of(record: &Record) -> u64 {
    word(record, 0) & KEY
}

#[inline(always)]
fn key(kind: u8, instance: u32) -> u64 {
    let [a, b, c, d] = instance.to_be_bytes();
    u64::from_ne_bytes([kind, 0, 0, 0, a, b, c, d])
}

#[inline(always)]
fn value_of(factor: &Record) -> u64 {
    get64(factor, factor::VALUE)
}

/// The value first, since it is seldom alike.
#[inline(always)]
fn is_factor(record: &Record, role: u8, format: u8, value: u64) -> bool {
    value_of(record) == value
        && record[record::KIND] == kind::FACTOR
        && record[factor::ROLE] == role
        && record[factor::FORMAT] == format
}

/// The records of one turn of a scan's loop, which the compiler unrolls.
const TURN: usize = 8;

/// The position of the first record that fits.
#[inline(always)]
fn position(records: &[Record], fits: impl Fn(&Record) -> bool) -> Option<usize> {
    let (turns, rest) = records.as_chunks::<TURN>();
    for (turn, records) in turns.iter().enumerate() {
        for (place, record) in records.iter().enumerate() {
            if fits(record) {
                return Some(turn * TURN + place);
            }
        }
    }
    let place = rest.iter().position(fits)?;
    Some(turns.len() * TURN + place)
}

/// How many state records these have.
#[inline(always)]
fn kept(records: &[Record]) -> usize {
    records.iter().filter(|record| is_kept(record)).count()
}

impl Linear {
    fn counted(records: &[Record]) -> Linear {
        let mut before = [0; BLOCKS];
        let mut count = 0;
        for (block, before) in records.chunks(BLOCK).zip(&mut before) {
            *before = count as u16;
            count += kept(block);
        }
        Linear {
            before,
            kept: count,
        }
    }
}

impl Lookup for Linear {
    fn new(records: &[Record]) -> Option<Linear> {
        let mut places = records.iter().enumerate();
        let has_twins = places.any(|(index, record)| is_among(&records[..index], record));
        (!has_twins).then(|| Linear::counted(records))
    }

    #[inline]
    fn kept(&self, _: &[Record]) -> usize {
        self.kept
    }

    #[inline]
    fn find(&self, records: &[Record], kind: u8, instance: u32) -> Option<Object> {
        let key = key(kind, instance);
        let record = position(records, |record| key_of(record) == key)?;
        let block = record / BLOCK;
        Some(Object {
            record,
            part: usize::from(self.before[block]) + kept(&records[block * BLOCK..record]),
        })
    }

    #[inline]
    fn exists(&self, records: &[Record], kind: u8, instance: u32) -> bool {
        let key = key(kind, instance);
        position(records, |record| key_of(record) == key).is_some()
    }

    #[inline]
    fn link(&mut self, records: &[Record], index: usize, field: &Field) -> bool {
        let instance = field.instance(&records[index]);
        instance == NONE || self.exists(records, field.kind, instance)
    }

    #[inline]
    fn named(&self, records: &[Record], index: usize, field: &Field) -> Option<Object> {
        let instance = field.instance(&records[index]);
        if instance == NONE {
            return None;
        }
        self.find(records, field.kind, instance)
    }

    #[inline]
    fn identifying(&self, records: &[Record], format: u8, value: u64) -> Option<usize> {
        let role = factor_role::IDENTIFYING;
        position(records, |record| is_factor(record, role, format, value))
    }

    #[inline]
    fn confirming(
        &self,
        records: &[Record],
        credential: u32,
        format: u8,
        value: u64,
    ) -> Option<usize> {
        let role = factor_role::CONFIRMING;
        position(records, |record| {
            is_factor(record, role, format, value) && get32(record, record::INSTANCE) == credential
        })
    }

    #[inline]
    fn each_rule(
        &self,
        records: &[Record],
        credential: usize,
        see: impl FnMut(&Rule) -> ControlFlow<()>,
    ) -> ControlFlow<()> {
        scan_rules(records, rights(&records[credential]), see)
    }
}

/// Shows the rules of the rights numbers. A loop of its own looks for the next one, so that `see`
/// does not slow it.
#[inline]
pub fn scan_rules(
    records: &[Record],
    rights: [u32; 2],
    mut see: impl FnMut(&Rule) -> ControlFlow<()>,
) -> ControlFlow<()> {
    let [first, second] = rights.map(|number| key(kind::RULE, number));
    let fits = |record: &Record| {
        let key = key_of(record);
        key == first || key == second
    };
    let mut rest = records;
    while let Some(place) = position(rest, fits) {
        see(rest[place].first_chunk().expect("a record is longer"))?;
        rest = &rest[place + 1..];
    }
    Continue(())
}

/// Whether a twin of the record is among the others. Rules have none.
#[inline]
fn is_among(others: &[Record], record: &Record) -> bool {
    match record[record::KIND] {
        kind::RULE => false,
        kind::FACTOR => {
            let value = value_of(record);
            let is_twin = |other: &Record| value_of(other) == value && are_twins(other, record);
            position(others, is_twin).is_some()
        }
        _ => {
            let key = key_of(record);
            position(others, |other| key_of(other) == key).is_some()
        }
    }
}

/// Whether records of one value, the second a factor, are twins.
#[inline]
fn are_twins(other: &Record, factor: &Record) -> bool {
    let role = factor[factor::ROLE];
    other[record::KIND] == kind::FACTOR
        && other[factor::ROLE] == role
        && other[factor::FORMAT] == factor[factor::FORMAT]
        && (role == factor_role::IDENTIFYING || key_of(other) == key_of(factor))
}
