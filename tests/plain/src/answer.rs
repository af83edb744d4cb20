//! Answers, 16 bytes each.

use crate::bytes::{put16, put32};
use reference::layout::answer;
use reference::numbers::{refusal, ANSWER_LENGTH, NONE};

pub struct Answer {
    pub event: u16,
    pub marks: u8,
    pub refusal: u8,
    pub tag: u32,
    pub credential: u32,
    pub count: u32,
}

impl Answer {
    /// Everything zero, and no credential.
    pub const EMPTY: Answer = Answer {
        event: 0,
        marks: 0,
        refusal: refusal::ACCEPTED,
        tag: 0,
        credential: NONE,
        count: 0,
    };

    #[inline]
    pub fn refused(refusal: u8) -> Answer {
        Answer {
            refusal,
            ..Answer::EMPTY
        }
    }

    #[inline]
    pub fn write(&self, bytes: &mut [u8; ANSWER_LENGTH]) {
        put16(bytes, answer::EVENT, self.event);
        bytes[answer::MARKS] = self.marks;
        bytes[answer::REFUSAL] = self.refusal;
        put32(bytes, answer::TAG, self.tag);
        put32(bytes, answer::CREDENTIAL, self.credential);
        put32(bytes, answer::COUNT, self.count);
    }
}
