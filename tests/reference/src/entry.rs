//! Entries of a journal, 24 bytes each.

use crate::bytes::{all_zero, get32};
use crate::layout::entry;
use crate::numbers::{
    credential_disable, format, kind, operation, ENTRY_LENGTH, NEVER, VALUE_LENGTH,
};
use crate::site::is_real;

/// An entry whose fields are all in range.
#[derive(Clone, Copy)]
pub struct Entry<'a> {
    pub time: u32,
    pub instance: u32,
    pub action: Action<'a>,
}

/// What an entry asks for, by its operation.
#[derive(Clone, Copy)]
pub enum Action<'a> {
    ReadFactor { format: u8, value: &'a [u8] },
    SetCount { amount: u32 },
    AdjustCount { amount: i32 },
    SetDisable { disable: u8 },
    SetLockout { lock: bool },
}

impl Action<'_> {
    /// The kind of object that the entry's instance names.
    pub fn object_kind(&self) -> u8 {
        match self {
            Action::ReadFactor { .. } | Action::SetLockout { .. } => kind::POINT,
            Action::SetCount { .. } | Action::AdjustCount { .. } => kind::ZONE,
            Action::SetDisable { .. } => kind::CREDENTIAL,
        }
    }
}

impl<'a> Entry<'a> {
    /// Reads one entry of 24 bytes; nothing where it meets refusal 7.
    pub fn read(bytes: &'a [u8]) -> Option<Entry<'a>> {
        let time = get32(bytes, entry::TIME);
        let instance = get32(bytes, entry::INSTANCE);
        let spare_is_zero = all_zero(&bytes[entry::SPARE..entry::TIME]);
        if !spare_is_zero || time == NEVER || !is_real(instance) {
            return None;
        }
        Some(Entry {
            time,
            instance,
            action: read_action(bytes)?,
        })
    }
}

fn read_action(bytes: &[u8]) -> Option<Action<'_>> {
    let argument = bytes[entry::ARGUMENT];
    let amount = get32(bytes, entry::AMOUNT);
    let value = &bytes[entry::VALUE..entry::VALUE + VALUE_LENGTH];
    let only_argument = amount == 0 && all_zero(value);
    let only_amount = argument == 0 && all_zero(value);
    match bytes[entry::OPERATION] {
        operation::READ_FACTOR if argument != format::UNDEFINED && amount == 0 => {
            Some(Action::ReadFactor {
                format: argument,
                value,
            })
        }
        operation::SET_COUNT if only_amount => Some(Action::SetCount { amount }),
        operation::ADJUST_COUNT if only_amount => Some(Action::AdjustCount {
            amount: amount as i32,
        }),
        operation::SET_DISABLE
            if only_argument && argument <= credential_disable::DISABLE_LOCKOUT =>
        {
            Some(Action::SetDisable { disable: argument })
        }
        operation::SET_LOCKOUT if only_argument && argument <= 1 => Some(Action::SetLockout {
            lock: argument == 1,
        }),
        _ => None,
    }
}

/// The whole entries of a journal in order.
pub fn entries(journal: &[u8]) -> impl Iterator<Item = &[u8]> {
    journal.chunks_exact(ENTRY_LENGTH)
}
