//! Sites whose records all fall into one bucket of the library's index, where every lookup has to
//! walk all of them.

use reference::bytes::{get32, put32};
use reference::layout::{credential, factor, point, record, rule};
use reference::numbers::{factor_role, kind, rule_flag, NONE, RECORD_LENGTH, VALUE_LENGTH};
use reference::site::{instance_of, kind_of, records};
use std::collections::HashMap;

/// The numbers by which the index chooses a bucket.
pub const BUCKETS: u64 = 1_024;
/// What the sum of these products is divided by, so that its upper bits choose.
pub const DIVISOR: u64 = 1_048_576;
/// Of an instance, and of the last four bytes of a value.
pub const MULTIPLIER: u64 = 663_608_941;
/// Of the first four bytes of a value.
pub const HIGH_MULTIPLIER: u64 = 444_758_427;
/// Of a confirming factor's credential.
pub const OWNER_MULTIPLIER: u64 = 786_033_565;
/// From one kind or format to the next; the formats follow the kinds.
pub const STEP: u64 = 204;

/// The bucket of all records here.
const BUCKET: u64 = 0;

/// The bucket of a zone, a point, a credential or a rule for everywhere.
fn bucket(kind: u8, instance: u32) -> u64 {
    (u64::from(instance) * MULTIPLIER / DIVISOR + u64::from(kind) * STEP) % BUCKETS
}

/// The bucket of a factor; an identifying one has owner 0.
fn factor_bucket(owner: u32, format: u8, high: u32, low: u32) -> u64 {
    let sum = u64::from(high) * HIGH_MULTIPLIER
        + u64::from(low) * MULTIPLIER
        + u64::from(owner) * OWNER_MULTIPLIER;
    (sum / DIVISOR + (u64::from(kind::FACTOR) + u64::from(format)) * STEP) % BUCKETS
}

/// Whether a record falls into the one bucket. A rule's bucket is by its location too, so that of
/// rules only those for everywhere are known to.
pub fn collides(record: &[u8]) -> bool {
    let bucket = match kind_of(record) {
        kind::FACTOR => factor_bucket(
            owner(record),
            record[factor::FORMAT],
            get32(record, factor::VALUE),
            get32(record, factor::VALUE + 4),
        ),
        kind::RULE if record[record::FLAGS] & rule_flag::EVERYWHERE == 0 => return false,
        kind => bucket(kind, instance_of(record)),
    };
    bucket == BUCKET
}

fn owner(factor: &[u8]) -> u32 {
    match factor[factor::ROLE] {
        factor_role::CONFIRMING => instance_of(factor),
        _ => 0,
    }
}

/// The first instance from this one on that falls into the bucket.
fn next_instance(kind: u8, from: u32) -> u32 {
    let mut instances = from..NONE;
    let found = instances.find(|&instance| bucket(kind, instance) == BUCKET);
    found.expect("a bucket has instances for more than the most records")
}

/// A value that falls into the bucket, its first four bytes given.
fn value(owner: u32, format: u8, high: u32) -> [u8; VALUE_LENGTH] {
    let low = (0..=u32::MAX).find(|&low| factor_bucket(owner, format, high, low) == BUCKET);
    let low = low.expect("every bucket has values");
    (u64::from(high) << 32 | u64::from(low)).to_be_bytes()
}

/// A value that no factor of a collided site has but that falls into its bucket: where owner is 0,
/// when it is looked for as a card, else as a code of that credential.
pub fn unknown_value(owner: u32, format: u8, number: u32) -> [u8; VALUE_LENGTH] {
    value(owner, format, u32::MAX - number)
}

/// An instance that the site does not hold but that falls into its bucket.
pub fn unknown_instance(site: &[u8], kind: u8) -> u32 {
    let of_kind = records(site).filter(|record| kind_of(record) == kind);
    let last = of_kind.map(instance_of).max();
    next_instance(kind, last.map_or(0, |instance| instance + 1))
}

/// An accepted site with other instances and values, in the same order and naming each other as
/// before, and with its rules for everywhere, so that all its records fall into one bucket.
pub fn collided(site: &[u8]) -> Vec<u8> {
    let mut names = Names::default();
    let mut site = site.to_vec();
    for (index, record) in site.chunks_exact_mut(RECORD_LENGTH).enumerate() {
        names.rename(record, index as u32);
    }
    site
}

/// The new instances by kind and old instance, and the last one of each kind.
#[derive(Default)]
struct Names {
    renamed: HashMap<(u8, u32), u32>,
    last: HashMap<u8, u32>,
}

impl Names {
    fn rename(&mut self, record: &mut [u8], index: u32) {
        self.put(record, record::INSTANCE, instance_kind(kind_of(record)));
        match kind_of(record) {
            kind::POINT => {
                self.put(record, point::ZONE_TO, kind::ZONE);
                self.put(record, point::ZONE_FROM, kind::ZONE);
            }
            kind::RULE => {
                record[record::FLAGS] |= rule_flag::EVERYWHERE;
                record[rule::LOCATION_KIND] = 0;
                put32(record, rule::LOCATION, 0);
            }
            kind::CREDENTIAL => {
                self.put(record, credential::FIRST_RIGHTS, kind::RULE);
                self.put(record, credential::SECOND_RIGHTS, kind::RULE);
            }
            kind::FACTOR => {
                // No two factors of the site have the same first four bytes.
                let value = value(owner(record), record[factor::FORMAT], index);
                record[factor::VALUE..factor::VALUE + VALUE_LENGTH].copy_from_slice(&value);
            }
            _ => {}
        }
    }

    /// Replaces an instance, unless NONE, in a field of a record.
    fn put(&mut self, record: &mut [u8], offset: usize, kind: u8) {
        let old = get32(record, offset);
        if old == NONE {
            return;
        }
        let last = &mut self.last;
        let new = *self.renamed.entry((kind, old)).or_insert_with(|| {
            let from = last.get(&kind).map_or(0, |instance| instance + 1);
            let next = next_instance(kind, from);
            last.insert(kind, next);
            next
        });
        put32(record, offset, new);
    }
}

/// The kind that a record's instance is of: a factor has that of its credential.
fn instance_kind(kind: u8) -> u8 {
    match kind {
        kind::FACTOR => kind::CREDENTIAL,
        kind => kind,
    }
}
