//! What a factor read does to the days and the last grant of its credential by document 02, and by
//! misreadings of it, over the reads of a case.

use reference::answer::Answer;
use reference::bytes::{get16, get32};
use reference::entry::entries;
use reference::generate::{case, Case, Random};
use reference::journal::run_journal;
use reference::layout::{credential_state, entry};
use reference::numbers::{
    event, kind, operation, refusal, ANSWER_LENGTH, NEVER, NONE, SECONDS_PER_DAY, UNLIMITED,
};
use reference::site::find;
use reference::state::state_at;
use reference::time::{date, elapsed};
use std::collections::BTreeMap;

/// What the rule writes of a credential.
#[derive(Clone, Copy, Debug, PartialEq)]
pub struct Held {
    days: u16,
    last_grant: u32,
}

/// A factor read with an event, and what it found of the credential that its answer names.
#[derive(Clone, Copy)]
pub struct Read {
    event: u16,
    now: u32,
    last_use: u32,
    held: Held,
}

impl Read {
    fn is_granted(&self) -> bool {
        self.event == event::GRANTED
    }

    fn is_limited(&self) -> bool {
        self.held.days != UNLIMITED
    }

    fn is_on_a_date_after(&self, time: u32) -> bool {
        date(self.now) > date(time)
    }

    fn has_no_earlier_grant(&self) -> bool {
        self.held.last_grant == NEVER
    }

    fn takes_a_day(&self) -> bool {
        self.has_no_earlier_grant() || self.is_on_a_date_after(self.held.last_grant)
    }

    fn last_grant_left(&self) -> u32 {
        if self.is_granted() {
            self.now
        } else {
            self.held.last_grant
        }
    }
}

/// Whether a grant of limited days takes one, and what any read leaves as last grant.
pub struct Reading {
    takes_a_day: fn(&Read) -> bool,
    last_grant: fn(&Read) -> u32,
}

impl Reading {
    pub fn left(&self, read: &Read) -> Held {
        let takes = read.is_granted() && read.is_limited() && (self.takes_a_day)(read);
        Held {
            days: read.held.days - u16::from(takes),
            last_grant: (self.last_grant)(read),
        }
    }
}

/// The words of document 02.
pub const TEXT: Reading = Reading {
    takes_a_day: Read::takes_a_day,
    last_grant: Read::last_grant_left,
};

/// What an honest reader could take the words for.
pub const MISREADINGS: [(&str, Reading); 8] = [
    (
        "a day is saved by a denial on the same date",
        Reading {
            takes_a_day: |read| read.last_use == NEVER || read.is_on_a_date_after(read.last_use),
            ..TEXT
        },
    ),
    (
        "days fall on every grant",
        Reading {
            takes_a_day: |_| true,
            ..TEXT
        },
    ),
    (
        "last grant is set at every event",
        Reading {
            last_grant: |read| read.now,
            ..TEXT
        },
    ),
    (
        "last grant is never set",
        Reading {
            last_grant: |read| read.held.last_grant,
            ..TEXT
        },
    ),
    (
        "a last grant in the future takes a day too",
        Reading {
            takes_a_day: |read| {
                read.has_no_earlier_grant() || date(read.now) != date(read.held.last_grant)
            },
            ..TEXT
        },
    ),
    (
        "a day is 24 hours from the last grant",
        Reading {
            takes_a_day: |read| {
                read.has_no_earlier_grant()
                    || elapsed(read.now, read.held.last_grant) >= SECONDS_PER_DAY
            },
            ..TEXT
        },
    ),
    (
        "never is a plain time",
        Reading {
            takes_a_day: |read| read.is_on_a_date_after(read.held.last_grant),
            ..TEXT
        },
    ),
    (
        "last grant is not set back",
        Reading {
            last_grant: |read| {
                if read.has_no_earlier_grant() {
                    return read.last_grant_left();
                }
                read.last_grant_left().max(read.held.last_grant)
            },
            ..TEXT
        },
    ),
];

/// A kind of reads, and how many days each of them takes.
pub struct Kind {
    pub name: &'static str,
    pub days_taken: u16,
    pub holds: fn(&Read) -> bool,
}

impl Kind {
    const fn new(name: &'static str, days_taken: u16, holds: fn(&Read) -> bool) -> Kind {
        Kind {
            name,
            days_taken,
            holds,
        }
    }
}

/// Whether the read is a grant of limited days whose credential was granted before.
fn is_later_grant(read: &Read) -> bool {
    read.is_granted() && read.is_limited() && !read.has_no_earlier_grant()
}

/// The second with which the date of a time begins.
fn midnight(time: u32) -> u32 {
    date(time) * SECONDS_PER_DAY
}

/// Kinds of grants, by what they find, and the denial for want of days.
pub const KINDS: [Kind; 11] = [
    Kind::new("last grant never", 1, |read| {
        read.is_granted() && read.is_limited() && read.has_no_earlier_grant()
    }),
    Kind::new("last grant on an earlier date", 1, |read| {
        is_later_grant(read) && date(read.held.last_grant) < date(read.now)
    }),
    Kind::new("last grant on the same date", 0, |read| {
        is_later_grant(read) && date(read.held.last_grant) == date(read.now)
    }),
    Kind::new("last grant on a later date", 0, |read| {
        is_later_grant(read) && date(read.held.last_grant) > date(read.now)
    }),
    Kind::new("last grant 0, on the first date", 0, |read| {
        is_later_grant(read) && read.held.last_grant == 0 && date(read.now) == 0
    }),
    Kind::new("last grant 0, on a later date", 1, |read| {
        is_later_grant(read) && read.held.last_grant == 0 && date(read.now) > 0
    }),
    Kind::new("last grant in the last second before today", 1, |read| {
        is_later_grant(read) && read.held.last_grant + 1 == midnight(read.now)
    }),
    Kind::new("last grant in the first second of today", 0, |read| {
        is_later_grant(read) && read.held.last_grant == midnight(read.now)
    }),
    Kind::new("the last day", 1, |read| {
        read.is_granted() && read.held.days == 1 && read.takes_a_day()
    }),
    Kind::new("unlimited days", 0, |read| {
        read.is_granted() && !read.is_limited()
    }),
    Kind::new("155", 0, |read| {
        read.event == event::DENIED_CREDENTIAL_MAX_DAYS
    }),
];

/// A read, and what the engine left of the credential, which is known by its position.
pub struct Worked {
    credential: usize,
    pub read: Read,
    pub left: Held,
}

impl Worked {
    pub fn days_taken(&self) -> u16 {
        self.read.held.days - self.left.days
    }
}

fn held_at(site: &[u8], state: &[u8], credential: usize) -> Held {
    let part = state_at(site, state, credential);
    Held {
        days: get16(part, credential_state::DAYS_REMAINING),
        last_grant: get32(part, credential_state::LAST_GRANT_TIME),
    }
}

/// Works one entry of a case that is not turned back.
fn work(site: &[u8], state: &mut [u8], entry: &[u8]) -> Option<Worked> {
    let before = state.to_vec();
    let mut answer = [0; ANSWER_LENGTH];
    let returned = run_journal(site, state, entry, &mut answer);
    assert_eq!(returned, refusal::ACCEPTED);
    let answer = Answer::from_bytes(&answer);
    let is_read = entry[entry::OPERATION] == operation::READ_FACTOR;
    if !is_read || answer.event == event::NONE || answer.credential == NONE {
        return None;
    }
    let credential = find(site, kind::CREDENTIAL, answer.credential)?;
    let last_use = credential_state::LAST_USE_TIME;
    Some(Worked {
        credential,
        read: Read {
            event: answer.event,
            now: get32(entry, entry::TIME),
            last_use: get32(state_at(site, &before, credential), last_use),
            held: held_at(site, &before, credential),
        },
        left: held_at(site, state, credential),
    })
}

/// The reads of a case; none where it is turned back.
fn reads(case: &Case) -> Vec<Worked> {
    let mut state = case.state.clone();
    let mut answers = case.answers.clone();
    let returned = run_journal(&case.site, &mut state, &case.journal, &mut answers);
    if returned != refusal::ACCEPTED {
        return Vec::new();
    }
    let mut state = case.state.clone();
    entries(&case.journal)
        .filter_map(|entry| work(&case.site, &mut state, entry))
        .collect()
}

/// Shows the reads of each of so many generated cases.
pub fn see_generated_reads(cases: usize, mut see: impl FnMut(&[Worked])) {
    let mut random = Random::new(4242);
    for _ in 0..cases {
        see(&reads(&case(&mut random)));
    }
}

/// How many of a case's reads leave other days by a reading. It goes on from the last grant that it
/// left itself, since that shows only in the days of a later read.
pub fn count_other_days(reads: &[Worked], reading: &Reading) -> usize {
    let mut last_grants = BTreeMap::new();
    let mut others = 0;
    for worked in reads {
        let mut read = worked.read;
        let carried = last_grants.get(&worked.credential);
        read.held.last_grant = carried.copied().unwrap_or(read.held.last_grant);
        let left = reading.left(&read);
        others += usize::from(left.days != worked.left.days);
        last_grants.insert(worked.credential, left.last_grant);
    }
    others
}
