//! What the two engines do differently: how a record is found.

use crate::bytes::{get32, Record};
use reference::layout::{credential, point, record};
use reference::numbers::kind;
use std::ops::ControlFlow;

/// The bytes of a rule that are not spare.
pub type Rule = [u8; 16];

/// A field in which a record names an object.
pub struct Field {
    pub kind: u8,
    pub offset: usize,
    /// Its place among the fields of the record that name objects.
    pub slot: usize,
}

pub const ZONE_TO: Field = Field {
    kind: kind::ZONE,
    offset: point::ZONE_TO,
    slot: 0,
};

pub const ZONE_FROM: Field = Field {
    kind: kind::ZONE,
    offset: point::ZONE_FROM,
    slot: 1,
};

/// A factor's credential.
pub const OWNER: Field = Field {
    kind: kind::CREDENTIAL,
    offset: record::INSTANCE,
    slot: 0,
};

impl Field {
    #[inline(always)]
    pub fn instance(&self, record: &Record) -> u32 {
        get32(record, self.offset)
    }
}

/// The rights numbers of a credential.
#[inline(always)]
pub fn rights(credential: &Record) -> [u32; 2] {
    [credential::FIRST_RIGHTS, credential::SECOND_RIGHTS].map(|offset| get32(credential, offset))
}

/// Where the records of a zone, point or credential stand.
#[derive(Clone, Copy)]
pub struct Object {
    /// Among the records of the site.
    pub record: usize,
    /// Among those of the state.
    pub part: usize,
}

/// Whether the state has a record for it.
#[inline(always)]
pub fn is_kept(record: &Record) -> bool {
    matches!(
        record[record::KIND],
        kind::ZONE | kind::POINT | kind::CREDENTIAL
    )
}

pub trait Lookup: Sized {
    /// Of records whose fields are in range; nothing where one stands twice.
    fn new(records: &[Record]) -> Option<Self>;

    /// How many records the state has.
    fn kept(&self, records: &[Record]) -> usize;

    /// The zone, point or credential of the instance, which is real.
    fn find(&self, records: &[Record], kind: u8, instance: u32) -> Option<Object>;

    fn exists(&self, records: &[Record], kind: u8, instance: u32) -> bool;

    /// Whether what a record names in the field is NONE or exists. `named` then hands it back.
    fn link(&mut self, records: &[Record], index: usize, field: &Field) -> bool;

    /// What a record names in the field, unless NONE.
    fn named(&self, records: &[Record], index: usize, field: &Field) -> Option<Object>;

    /// The position of the factor.
    fn identifying(&self, records: &[Record], format: u8, value: u64) -> Option<usize>;

    fn confirming(
        &self,
        records: &[Record],
        credential: u32,
        format: u8,
        value: u64,
    ) -> Option<usize>;

    /// Shows the rules of the rights numbers of the credential at a position, until one breaks.
    fn each_rule(
        &self,
        records: &[Record],
        credential: usize,
        see: impl FnMut(&Rule) -> ControlFlow<()>,
    ) -> ControlFlow<()>;
}
