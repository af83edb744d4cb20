//! What an entry does to wrong tries and failures by document 02, and by misreadings of it, over the
//! entries of a case.

use reference::answer::Answer;
use reference::bytes::get32;
use reference::entry::entries;
use reference::generate::{case, Case, Random};
use reference::journal::run_journal;
use reference::layout::{credential_state, entry, point_state};
use reference::numbers::{
    credential_disable, event, factor_role, kind, mark, operation, refusal, ANSWER_LENGTH, NONE,
    RECORD_LENGTH, VALUE_LENGTH,
};
use reference::site::{
    find, instance_of, kind_of, record_at, records, CredentialRecord, FactorRecord, PointRecord,
};
use reference::state::state_at;
use reference::time::elapsed;

/// What the rule writes of a credential.
#[derive(Clone, Copy, Debug, Default, PartialEq)]
pub struct Card {
    tries: u8,
    disable: u8,
}

/// What it writes of a point.
#[derive(Clone, Copy, Debug, Default, PartialEq)]
pub struct Door {
    failures: u8,
    first_failure: u32,
    locked: u8,
    lock_time: u32,
}

/// The credential that the answer names and, where the point waits for it, another one whose card was
/// read; the point; and whether the answer has mark 16. What an entry does not name is zero.
#[derive(Clone, Copy, Debug, Default, PartialEq)]
pub struct Held {
    cards: [Card; 2],
    door: Door,
    marked: bool,
}

/// When and where the first of a credential's tries was, as far as the case shows it, and whether they
/// locked it out.
#[derive(Clone, Copy, Default)]
pub struct History {
    first_try: Option<(u32, u32)>,
    is_locked_out: bool,
}

/// A factor read or an operation 4, and what it found.
#[derive(Clone, Copy)]
pub struct Found {
    /// Of a read.
    event: u16,
    /// The argument of operation 4.
    set_disable: Option<u8>,
    now: u32,
    point: u32,
    is_waiting: bool,
    has_other: bool,
    is_relinquished: bool,
    most_tries: [u8; 2],
    most_failures: u8,
    window: u32,
    held: Held,
    history: History,
}

impl Found {
    fn is_late(&self) -> bool {
        self.event == event::DENIED_AUTHENTICATION_FACTOR_TIMEOUT
    }

    fn is_wrong(&self) -> bool {
        self.event == event::DENIED_INCORRECT_AUTHENTICATION_FACTOR
    }

    fn is_try(&self) -> bool {
        self.is_late() || self.is_wrong()
    }

    fn is_unknown(&self) -> bool {
        self.event == event::DENIED_UNKNOWN_CREDENTIAL
    }

    fn is_error(&self) -> bool {
        self.event == event::DENIED_AUTHENTICATION_FACTOR_ERROR
    }

    fn is_error_while_waiting(&self) -> bool {
        self.is_error() && self.is_waiting
    }

    fn is_failure(&self) -> bool {
        self.is_unknown() || self.is_error()
    }

    fn is_granted(&self) -> bool {
        self.event == event::GRANTED
    }

    fn zeroes(&self) -> bool {
        self.is_granted() || self.set_disable.is_some()
    }

    /// Whether the second factor was right, so that the checks went on.
    fn is_confirmed(&self) -> bool {
        let others = self.is_try() || self.is_error() || self.event == event::NONE;
        self.is_waiting && !others
    }

    fn tries(&self) -> u8 {
        self.held.cards[0].tries
    }

    fn has_tries(&self) -> bool {
        self.tries() > 0
    }

    fn most(&self) -> u8 {
        self.most_tries[0]
    }

    fn counts(&self) -> bool {
        self.is_try() && self.most() != 0
    }

    fn reaches_the_most(&self) -> bool {
        self.counts() && self.tries() + 1 == self.most()
    }

    fn locks_out_from(&self, disable: u8) -> bool {
        self.is_wrong() && self.reaches_the_most() && self.held.cards[0].disable == disable
    }

    fn is_of_unset_most(&self) -> bool {
        self.is_try() && self.most() == 0
    }

    fn is_at_a_counting_point(&self) -> bool {
        self.most_failures != 0
    }

    fn is_past_the_window(&self, then: u32) -> bool {
        self.window != 0 && elapsed(self.now, then) > self.window
    }

    /// Whether the first of the tries was longer ago than the point's window.
    fn has_aged_tries(&self) -> bool {
        let first = self.history.first_try;
        first.is_some_and(|(time, _)| self.is_past_the_window(time))
    }

    /// Whether the first of the tries was at another point.
    fn has_tries_elsewhere(&self) -> bool {
        let first = self.history.first_try;
        first.is_some_and(|(_, point)| point != self.point)
    }

    fn sets_disable_with_tries(&self, disable: u8) -> bool {
        self.set_disable == Some(disable) && self.has_tries()
    }
}

/// Which entries count and zero, and how a wrong try is counted.
#[derive(Clone, Copy)]
pub struct Reading {
    is_failure: fn(&Found) -> bool,
    is_try: fn(&Found) -> bool,
    zeroes: fn(&Found) -> bool,
    /// Which of the two credentials is counted.
    counted: fn(&Found) -> usize,
    /// Nothing where no try is counted.
    most: fn(&Found, usize) -> Option<u8>,
    /// The tries that this one is added to.
    earlier: fn(&Found, usize) -> u8,
    is_reached: fn(u8, u8) -> bool,
    /// The credential after the try that reaches the most.
    locked_out: fn(Card, u8) -> Card,
    marks: bool,
}

impl Reading {
    pub fn left(&self, found: &Found) -> Held {
        let mut held = found.held;
        if found.is_relinquished {
            (held.door.failures, held.door.locked) = (0, 0);
        }
        if (self.is_failure)(found) {
            fail(found, &mut held);
        }
        if found.is_granted() {
            held.door.failures = 0;
        }
        if (self.zeroes)(found) {
            held.cards[0].tries = 0;
        }
        if let Some(disable) = found.set_disable {
            held.cards[0].disable = disable;
        }
        if (self.is_try)(found) {
            self.count_try(found, &mut held);
        }
        held
    }

    fn count_try(&self, found: &Found, held: &mut Held) {
        let place = (self.counted)(found);
        let Some(most) = (self.most)(found, place) else {
            return;
        };
        let card = &mut held.cards[place];
        let tries = (self.earlier)(found, place) + 1;
        if !(self.is_reached)(tries, most) {
            card.tries = tries;
            return;
        }
        *card = (self.locked_out)(*card, tries);
        held.marked |= self.marks;
    }
}

/// A failure of the point, as document 01 counts it.
fn fail(found: &Found, held: &mut Held) {
    if found.most_failures == 0 {
        return;
    }
    let door = &mut held.door;
    if door.failures == 0 || found.is_past_the_window(door.first_failure) {
        (door.failures, door.first_failure) = (0, found.now);
    }
    door.failures += 1;
    if door.failures < found.most_failures {
        return;
    }
    (door.failures, door.locked, door.lock_time) = (0, 1, found.now);
    held.marked = true;
}

fn set(most: u8) -> Option<u8> {
    (most != 0).then_some(most)
}

/// The words of document 02.
pub const TEXT: Reading = Reading {
    is_failure: Found::is_failure,
    is_try: Found::is_try,
    zeroes: Found::zeroes,
    counted: |_| 0,
    most: |found, place| set(found.most_tries[place]),
    earlier: |found, place| found.held.cards[place].tries,
    is_reached: |tries, most| tries >= most,
    locked_out: |_, _| Card {
        tries: 0,
        disable: credential_disable::DISABLE_LOCKOUT,
    },
    marks: false,
};

/// What an honest reader could take the words for.
pub const MISREADINGS: [(&str, Reading); 19] = [
    (
        "148 while waiting counts on the card and not on the point",
        Reading {
            is_failure: |found| found.is_failure() && !found.is_error_while_waiting(),
            is_try: |found| found.is_try() || found.is_error_while_waiting(),
            ..TEXT
        },
    ),
    (
        "148 while waiting counts on both",
        Reading {
            is_try: |found| found.is_try() || found.is_error_while_waiting(),
            ..TEXT
        },
    ),
    (
        "131 does not count",
        Reading {
            is_try: Found::is_wrong,
            ..TEXT
        },
    ),
    (
        "131 and 132 still count on the point too",
        Reading {
            is_failure: |found| found.is_failure() || found.is_try(),
            ..TEXT
        },
    ),
    (
        "131 and 132 still count on the point alone",
        Reading {
            is_failure: |found| found.is_failure() || found.is_try(),
            is_try: |_| false,
            ..TEXT
        },
    ),
    (
        "131 and 132 count on the point where the card's most is unset",
        Reading {
            is_failure: |found| found.is_failure() || found.is_of_unset_most(),
            ..TEXT
        },
    ),
    (
        "the count has the point's window",
        Reading {
            earlier: |found, _| {
                if found.has_aged_tries() {
                    0
                } else {
                    found.tries()
                }
            },
            ..TEXT
        },
    ),
    (
        "each point counts by itself",
        Reading {
            earlier: |found, _| {
                if found.has_tries_elsewhere() {
                    return 0;
                }
                found.tries()
            },
            ..TEXT
        },
    ),
    (
        "the point's most is used",
        Reading {
            most: |found, _| set(found.most_failures),
            ..TEXT
        },
    ),
    (
        "an unset most is a most of 0",
        Reading {
            most: |found, _| Some(found.most()),
            ..TEXT
        },
    ),
    (
        "lockout only where disable was NONE",
        Reading {
            locked_out: |card, _| Card {
                tries: 0,
                disable: match card.disable {
                    credential_disable::NONE => credential_disable::DISABLE_LOCKOUT,
                    other => other,
                },
            },
            ..TEXT
        },
    ),
    (
        "not zeroed by a grant",
        Reading {
            zeroes: |found| found.set_disable.is_some(),
            ..TEXT
        },
    ),
    (
        "zeroed by a right code that is not granted too",
        Reading {
            zeroes: |found| found.zeroes() || found.is_confirmed(),
            ..TEXT
        },
    ),
    (
        "not zeroed at the most",
        Reading {
            locked_out: |_, tries| Card {
                tries,
                disable: credential_disable::DISABLE_LOCKOUT,
            },
            ..TEXT
        },
    ),
    (
        "not zeroed by operation 4",
        Reading {
            zeroes: Found::is_granted,
            ..TEXT
        },
    ),
    (
        "zeroed by operation 4 with argument 0 alone",
        Reading {
            zeroes: |found| {
                found.is_granted() || found.set_disable == Some(credential_disable::NONE)
            },
            ..TEXT
        },
    ),
    (
        "lockout one try late",
        Reading {
            is_reached: |tries, most| tries > most,
            ..TEXT
        },
    ),
    (
        "lockout with mark 16",
        Reading {
            marks: true,
            ..TEXT
        },
    ),
    (
        "the count falls on the card that was read",
        Reading {
            counted: |found| usize::from(found.has_other),
            ..TEXT
        },
    ),
];

type Kind = (&'static str, fn(&Found) -> bool);

/// Kinds of entries, by what they find.
pub const KINDS: [Kind; 31] = [
    ("132 below the most", |found| {
        found.is_wrong() && found.counts() && !found.reaches_the_most()
    }),
    ("131 below the most", |found| {
        found.is_late() && found.counts() && !found.reaches_the_most()
    }),
    ("132 at the most, disable NONE", |found| {
        found.locks_out_from(credential_disable::NONE)
    }),
    ("132 at the most, disable DISABLE", |found| {
        found.locks_out_from(credential_disable::DISABLE)
    }),
    ("132 at the most, disable MANUAL", |found| {
        found.locks_out_from(credential_disable::DISABLE_MANUAL)
    }),
    ("132 at the most, disable LOCKOUT", |found| {
        found.locks_out_from(credential_disable::DISABLE_LOCKOUT)
    }),
    ("131 at the most", |found| {
        found.is_late() && found.reaches_the_most()
    }),
    ("a most of 1", |found| found.counts() && found.most() == 1),
    ("a most of 2, from 0", |found| {
        found.counts() && found.most() == 2 && !found.has_tries()
    }),
    ("at a most of 255", |found| {
        found.reaches_the_most() && found.most() == 255
    }),
    ("132, most unset", |found| {
        found.is_wrong() && found.is_of_unset_most()
    }),
    ("131, most unset", |found| {
        found.is_late() && found.is_of_unset_most()
    }),
    ("131 or 132, both mosts set", |found| {
        found.counts() && found.is_at_a_counting_point()
    }),
    ("131 or 132, the point's most alone set", |found| {
        found.is_of_unset_most() && found.is_at_a_counting_point()
    }),
    ("131 or 132, the card's most alone set", |found| {
        found.counts() && !found.is_at_a_counting_point()
    }),
    ("131 or 132, neither most set", |found| {
        found.is_of_unset_most() && !found.is_at_a_counting_point()
    }),
    ("the first try was at another point", |found| {
        found.counts() && found.has_tries_elsewhere()
    }),
    ("the first try was longer ago than the window", |found| {
        found.counts() && found.has_aged_tries()
    }),
    ("another card while a code is awaited", |found| {
        found.counts() && found.has_other
    }),
    ("a grant with tries", |found| {
        found.is_granted() && found.has_tries()
    }),
    ("operation 4 to NONE with tries", |found| {
        found.sets_disable_with_tries(credential_disable::NONE)
    }),
    ("operation 4 to DISABLE with tries", |found| {
        found.sets_disable_with_tries(credential_disable::DISABLE)
    }),
    ("operation 4 to MANUAL with tries", |found| {
        found.sets_disable_with_tries(credential_disable::DISABLE_MANUAL)
    }),
    ("operation 4 to LOCKOUT with tries", |found| {
        found.sets_disable_with_tries(credential_disable::DISABLE_LOCKOUT)
    }),
    ("operation 4 after the lockout", |found| {
        found.set_disable.is_some() && found.history.is_locked_out
    }),
    ("148 while waiting, both mosts set", |found| {
        found.is_error_while_waiting() && found.is_at_a_counting_point() && found.most() != 0
    }),
    ("148 while waiting, neither most set", |found| {
        found.is_error_while_waiting() && !found.is_at_a_counting_point() && found.most() == 0
    }),
    ("148 without a wait, at a point that counts", |found| {
        found.is_error() && !found.is_waiting && found.is_at_a_counting_point()
    }),
    ("129 at a point that counts", |found| {
        found.is_unknown() && found.is_at_a_counting_point()
    }),
    ("154 after the lockout", |found| {
        found.event == event::DENIED_CREDENTIAL_LOCKOUT && found.history.is_locked_out
    }),
    ("131 or 132 after the lockout", |found| {
        found.counts() && found.history.is_locked_out
    }),
];

/// An entry, and what the engine left.
pub struct Worked {
    pub found: Found,
    pub left: Held,
}

/// The positions of the objects that an entry works on.
struct Places {
    point: Option<usize>,
    cards: [Option<usize>; 2],
}

impl Places {
    fn of(site: &[u8], state: &[u8], entry: &[u8], answer: &Answer) -> Places {
        let instance = get32(entry, entry::INSTANCE);
        let named = find(site, kind::CREDENTIAL, answer.credential);
        if entry[entry::OPERATION] == operation::SET_DISABLE {
            return Places {
                point: None,
                cards: [named, None],
            };
        }
        let point = find(site, kind::POINT, instance);
        let shown = shown_card(site, entry).filter(|_| waited_for(site, state, point) != NONE);
        Places {
            point,
            cards: [named, shown.filter(|_| shown != named)],
        }
    }
}

/// The credential that a point waits for.
fn waited_for(site: &[u8], state: &[u8], point: Option<usize>) -> u32 {
    let waiting = point_state::WAITING_CREDENTIAL;
    point.map_or(NONE, |index| get32(state_at(site, state, index), waiting))
}

/// The position of the credential whose identifying factor the entry reads.
fn shown_card(site: &[u8], entry: &[u8]) -> Option<usize> {
    let value = &entry[entry::VALUE..entry::VALUE + VALUE_LENGTH];
    let factor = records(site)
        .filter(|record| kind_of(record) == kind::FACTOR)
        .map(FactorRecord)
        .find(|factor| {
            factor.role() == factor_role::IDENTIFYING
                && factor.format() == entry[entry::ARGUMENT]
                && factor.value() == value
        })?;
    find(site, kind::CREDENTIAL, factor.credential())
}

fn card_at(site: &[u8], state: &[u8], place: Option<usize>) -> Card {
    place.map_or(Card::default(), |index| {
        let part = state_at(site, state, index);
        Card {
            tries: part[credential_state::WRONG_TRIES],
            disable: part[credential_state::CREDENTIAL_DISABLE],
        }
    })
}

fn door_at(site: &[u8], state: &[u8], place: Option<usize>) -> Door {
    place.map_or(Door::default(), |index| {
        let part = state_at(site, state, index);
        Door {
            failures: part[point_state::FAILED_ATTEMPTS],
            first_failure: get32(part, point_state::FIRST_FAILURE),
            locked: part[point_state::LOCKOUT],
            lock_time: get32(part, point_state::LOCK_TIME),
        }
    })
}

fn held_at(site: &[u8], state: &[u8], places: &Places) -> Held {
    Held {
        cards: places.cards.map(|place| card_at(site, state, place)),
        door: door_at(site, state, places.point),
        marked: false,
    }
}

/// What an entry with this answer found in the state.
fn found(site: &[u8], state: &[u8], places: &Places, entry: &[u8], answer: &Answer) -> Found {
    let most = |index: usize| CredentialRecord(record_at(site, index)).most_wrong_tries();
    let point = places
        .point
        .map(|index| PointRecord(record_at(site, index)));
    let is_read = entry[entry::OPERATION] == operation::READ_FACTOR;
    Found {
        event: answer.event,
        set_disable: (!is_read).then_some(entry[entry::ARGUMENT]),
        now: get32(entry, entry::TIME),
        point: point.map_or(NONE, |point| instance_of(point.0)),
        is_waiting: waited_for(site, state, places.point) != NONE,
        has_other: places.cards[1].is_some(),
        is_relinquished: answer.marks & mark::LOCKOUT_RELINQUISHED != 0,
        most_tries: places.cards.map(|place| place.map_or(0, most)),
        most_failures: point.map_or(0, |point| point.max_failed_attempts()),
        window: point.map_or(0, |point| point.failed_attempts_time()),
        held: held_at(site, state, places),
        history: History::default(),
    }
}

/// The history of a credential after an entry that names it.
fn continued(history: History, worked: &Worked) -> History {
    let (found, tries) = (&worked.found, worked.left.cards[0].tries);
    if found.set_disable.is_some() {
        return History::default();
    }
    let first_try = match tries {
        0 => None,
        1 if found.counts() => Some((found.now, found.point)),
        _ => history.first_try,
    };
    History {
        first_try,
        is_locked_out: history.is_locked_out || found.reaches_the_most(),
    }
}

/// Works one entry of a case that is not turned back. Histories are those of the records.
fn work(site: &[u8], state: &mut [u8], entry: &[u8], histories: &mut [History]) -> Option<Worked> {
    let before = state.to_vec();
    let mut answer = [0; ANSWER_LENGTH];
    let returned = run_journal(site, state, entry, &mut answer);
    assert_eq!(returned, refusal::ACCEPTED);
    let answer = Answer::from_bytes(&answer);
    let operations = [operation::READ_FACTOR, operation::SET_DISABLE];
    if answer.refusal != refusal::ACCEPTED || !operations.contains(&entry[entry::OPERATION]) {
        return None;
    }
    let places = Places::of(site, &before, entry, &answer);
    let mut worked = Worked {
        found: found(site, &before, &places, entry, &answer),
        left: Held {
            marked: answer.marks & mark::LOCKOUT_MAX_ATTEMPTS != 0,
            ..held_at(site, state, &places)
        },
    };
    if let Some(card) = places.cards[0] {
        worked.found.history = histories[card];
        histories[card] = continued(histories[card], &worked);
    }
    Some(worked)
}

/// The entries of a case; none where it is turned back.
fn worked_entries(case: &Case) -> Vec<Worked> {
    let mut state = case.state.clone();
    let mut answers = case.answers.clone();
    let returned = run_journal(&case.site, &mut state, &case.journal, &mut answers);
    if returned != refusal::ACCEPTED {
        return Vec::new();
    }
    let mut state = case.state.clone();
    let mut histories = vec![History::default(); case.site.len() / RECORD_LENGTH];
    entries(&case.journal)
        .filter_map(|entry| work(&case.site, &mut state, entry, &mut histories))
        .collect()
}

/// Shows the reads and the operations 4 of so many generated cases.
pub fn see_generated_entries(cases: usize, mut see: impl FnMut(&Worked)) {
    let mut random = Random::new(2219);
    for _ in 0..cases {
        worked_entries(&case(&mut random)).iter().for_each(&mut see);
    }
}
