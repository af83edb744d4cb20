//! The site check, and the accepted site that a run works on.

use crate::bytes::{get32, Record};
use crate::lookup::{is_kept, Lookup, Object, OWNER, ZONE_FROM, ZONE_TO};
use crate::range::in_range;
use reference::layout::{record, rule};
use reference::numbers::{
    kind, location_kind, refusal, rule_flag, MOST_SITE_BYTES, NONE, RECORD_LENGTH,
};

/// An accepted site.
pub struct Site<'a, L> {
    pub records: &'a [Record],
    pub lookup: L,
}

pub fn check_site<L: Lookup>(site: &[u8]) -> u8 {
    match Site::<L>::accept(site) {
        Ok(_) => refusal::ACCEPTED,
        Err(refused) => refused,
    }
}

impl<'a, L: Lookup> Site<'a, L> {
    /// The site, or the first refusal of the table that it meets.
    pub fn accept(site: &'a [u8]) -> Result<Site<'a, L>, u8> {
        let (records, rest) = site.as_chunks();
        if !rest.is_empty() || site.len() > MOST_SITE_BYTES {
            return Err(refusal::SITE_LENGTH);
        }
        if !records.iter().all(in_range) {
            return Err(refusal::SITE_FIELD);
        }
        let Some(mut lookup) = L::new(records) else {
            return Err(refusal::SITE_TWICE);
        };
        if !links(&mut lookup, records) {
            return Err(refusal::SITE_MISSING);
        }
        Ok(Site { records, lookup })
    }

    /// The zone, point or credential of the instance, which is real.
    #[inline]
    pub fn find(&self, kind: u8, instance: u32) -> Option<Object> {
        self.lookup.find(self.records, kind, instance)
    }

    #[inline]
    pub fn none_or_exists(&self, kind: u8, instance: u32) -> bool {
        instance == NONE || (instance < NONE && self.lookup.exists(self.records, kind, instance))
    }

    /// How many bytes of state it has.
    #[inline]
    pub fn state_length(&self) -> usize {
        self.lookup.kept(self.records) * RECORD_LENGTH
    }

    /// The records that the state has records for.
    #[inline]
    pub fn kept(&self) -> impl Iterator<Item = &'a Record> {
        self.records.iter().filter(|record| is_kept(record))
    }
}

/// Whether every object that a record names exists.
fn links<L: Lookup>(lookup: &mut L, records: &[Record]) -> bool {
    let mut places = records.iter().enumerate();
    places.all(|(index, record)| match record[record::KIND] {
        kind::POINT => {
            lookup.link(records, index, &ZONE_TO) && lookup.link(records, index, &ZONE_FROM)
        }
        kind::RULE => location_exists(lookup, records, record),
        kind::FACTOR => lookup.link(records, index, &OWNER),
        _ => true,
    })
}

#[inline]
fn location_exists<L: Lookup>(lookup: &L, records: &[Record], record: &Record) -> bool {
    if record[record::FLAGS] & rule_flag::EVERYWHERE != 0 {
        return true;
    }
    let kind = match record[rule::LOCATION_KIND] {
        location_kind::ZONE => kind::ZONE,
        _ => kind::POINT,
    };
    let location = get32(record, rule::LOCATION);
    lookup.exists(records, kind, location)
}
