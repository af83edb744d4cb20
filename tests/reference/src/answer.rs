//! Answers, 16 bytes each.

use crate::bytes::{get16, get32, put16, put32};
use crate::layout::answer;
use crate::numbers::{event, refusal, ANSWER_LENGTH, NONE};

#[derive(Clone, Copy, Debug, PartialEq, Eq)]
pub struct Answer {
    pub event: u16,
    pub marks: u8,
    pub refusal: u8,
    pub tag: u32,
    pub credential: u32,
    pub count: u32,
}

impl Answer {
    /// Everything zero, and no credential.
    pub const EMPTY: Answer = Answer {
        event: event::NONE,
        marks: 0,
        refusal: refusal::ACCEPTED,
        tag: 0,
        credential: NONE,
        count: 0,
    };

    /// The answer to an entry that is turned back.
    pub fn refused(refusal: u8) -> Answer {
        Answer {
            refusal,
            ..Answer::EMPTY
        }
    }

    pub fn to_bytes(self) -> [u8; ANSWER_LENGTH] {
        let mut bytes = [0; ANSWER_LENGTH];
        put16(&mut bytes, answer::EVENT, self.event);
        bytes[answer::MARKS] = self.marks;
        bytes[answer::REFUSAL] = self.refusal;
        put32(&mut bytes, answer::TAG, self.tag);
        put32(&mut bytes, answer::CREDENTIAL, self.credential);
        put32(&mut bytes, answer::COUNT, self.count);
        bytes
    }

    /// Reads one answer of 16 bytes.
    pub fn from_bytes(bytes: &[u8]) -> Answer {
        Answer {
            event: get16(bytes, answer::EVENT),
            marks: bytes[answer::MARKS],
            refusal: bytes[answer::REFUSAL],
            tag: get32(bytes, answer::TAG),
            credential: get32(bytes, answer::CREDENTIAL),
            count: get32(bytes, answer::COUNT),
        }
    }
}
