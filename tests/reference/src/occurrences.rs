//! How often each event, mark and refusal of document 01 occurs over many calls.

use crate::answer::Answer;
use crate::entry::entries;
use crate::layout::entry;
use crate::numbers::{event, mark, operation, refusal, ANSWER_LENGTH};
use std::collections::BTreeMap;
use std::fmt::{self, Debug, Display, Formatter};
use std::ops::RangeInclusive;

/// Every refusal of a call or of an entry.
pub const REFUSALS: RangeInclusive<u8> = refusal::SITE_LENGTH..=refusal::ANSWERS_LENGTH;

/// Why a factor read has no event.
const READS_WITHOUT_EVENT: [&str; 2] = ["first of two factors", "out of service"];

const EVENTS: [u16; 32] = [
    event::NONE,
    event::GRANTED,
    event::LOCKOUT_OTHER,
    event::LOCKOUT_RELINQUISHED,
    event::DENIED_DENY_ALL,
    event::DENIED_UNKNOWN_CREDENTIAL,
    event::DENIED_AUTHENTICATION_FACTOR_TIMEOUT,
    event::DENIED_INCORRECT_AUTHENTICATION_FACTOR,
    event::DENIED_ZONE_NO_ACCESS_RIGHTS,
    event::DENIED_POINT_NO_ACCESS_RIGHTS,
    event::DENIED_NO_ACCESS_RIGHTS,
    event::DENIED_OUT_OF_TIME_RANGE,
    event::DENIED_THREAT_LEVEL,
    event::DENIED_PASSBACK,
    event::DENIED_LOWER_OCCUPANCY_LIMIT,
    event::DENIED_UPPER_OCCUPANCY_LIMIT,
    event::DENIED_AUTHENTICATION_FACTOR_LOST,
    event::DENIED_AUTHENTICATION_FACTOR_STOLEN,
    event::DENIED_AUTHENTICATION_FACTOR_DAMAGED,
    event::DENIED_AUTHENTICATION_FACTOR_DESTROYED,
    event::DENIED_AUTHENTICATION_FACTOR_DISABLED,
    event::DENIED_AUTHENTICATION_FACTOR_ERROR,
    event::DENIED_CREDENTIAL_NOT_YET_ACTIVE,
    event::DENIED_CREDENTIAL_EXPIRED,
    event::DENIED_CREDENTIAL_MANUAL_DISABLE,
    event::DENIED_CREDENTIAL_LOCKOUT,
    event::DENIED_CREDENTIAL_MAX_DAYS,
    event::DENIED_CREDENTIAL_MAX_USES,
    event::DENIED_CREDENTIAL_INACTIVITY,
    event::DENIED_CREDENTIAL_DISABLED,
    event::DENIED_LOCKOUT,
    event::DENIED_OTHER,
];

const MARKS: [u8; 7] = [
    mark::AUTHENTICATION_FACTOR_READ,
    mark::TRACE,
    mark::PASSBACK_DETECTED,
    mark::MUSTER,
    mark::LOCKOUT_MAX_ATTEMPTS,
    mark::EXTENDED_PULSE_UNLOCK,
    mark::LOCKOUT_RELINQUISHED,
];

/// How often each number occurred.
#[derive(Default)]
pub struct Occurrences {
    worked_through: usize,
    events: BTreeMap<u16, usize>,
    reads_without_event: BTreeMap<&'static str, usize>,
    marks: BTreeMap<u8, usize>,
    refusals: BTreeMap<u8, usize>,
}

impl Occurrences {
    /// Counts what a call handed back.
    pub fn count_call(&mut self, returned: u8) {
        if returned == refusal::ACCEPTED {
            self.worked_through += 1;
        } else {
            *self.refusals.entry(returned).or_default() += 1;
        }
    }

    /// Counts a journal run with its answers.
    pub fn count_run(&mut self, returned: u8, journal: &[u8], answers: &[u8]) {
        self.count_call(returned);
        if returned != refusal::ACCEPTED {
            return;
        }
        for (entry, answer) in entries(journal).zip(answers.chunks_exact(ANSWER_LENGTH)) {
            self.count_answer(entry, &Answer::from_bytes(answer));
        }
    }

    fn count_answer(&mut self, entry: &[u8], answer: &Answer) {
        if answer.refusal != refusal::ACCEPTED {
            *self.refusals.entry(answer.refusal).or_default() += 1;
            return;
        }
        *self.events.entry(answer.event).or_default() += 1;
        // All eight bits, so that one that the paper does not name is noticed.
        for bit in 0..u8::BITS {
            if answer.marks & 1 << bit != 0 {
                *self.marks.entry(1 << bit).or_default() += 1;
            }
        }
        if entry[entry::OPERATION] == operation::READ_FACTOR && answer.event == event::NONE {
            let [first_of_two, out_of_service] = READS_WITHOUT_EVENT;
            let reason = match answer.marks {
                0 => out_of_service,
                _ => first_of_two,
            };
            *self.reads_without_event.entry(reason).or_default() += 1;
        }
    }

    /// Panics where calls were worked through, or one of these refusals occurred, less often than
    /// `fewest`, or where another refusal occurred.
    pub fn assert_refusals(&self, fewest: usize, refusals: &[u8]) {
        let times = self.worked_through;
        assert!(times >= fewest, "{times} calls worked through");
        assert_often("refusal", &self.refusals, refusals, fewest);
    }

    /// As `assert_refusals`, of journals on an accepted site and a state that a run takes, with the
    /// events and marks of the paper.
    pub fn assert_lists(&self, fewest: usize) {
        let of_lists = [
            refusal::ENTRY_FIELD,
            refusal::ENTRY_MISSING,
            refusal::ENTRY_COUNT,
            refusal::JOURNAL_LENGTH,
            refusal::ANSWERS_LENGTH,
        ];
        self.assert_refusals(fewest, &of_lists);
        self.assert_events_and_marks(fewest);
    }

    /// As `assert_refusals`, for the events and marks of the paper.
    pub fn assert_events_and_marks(&self, fewest: usize) {
        assert_often("event", &self.events, &EVENTS, fewest);
        assert_often(
            "read",
            &self.reads_without_event,
            &READS_WITHOUT_EVENT,
            fewest,
        );
        assert_often("mark", &self.marks, &MARKS, fewest);
    }
}

/// Panics where one of the wanted occurred less often than `fewest`, or where another occurred.
pub fn assert_often<K: Ord + Debug>(
    name: &str,
    counts: &BTreeMap<K, usize>,
    wanted: &[K],
    fewest: usize,
) {
    assert!(fewest > 0, "{name}: a floor of 0 asserts nothing");
    for number in wanted {
        let times = counts.get(number).copied().unwrap_or(0);
        assert!(times >= fewest, "{name} {number:?} occurred {times} times");
    }
    let other = counts.keys().find(|number| !wanted.contains(number));
    assert!(other.is_none(), "{name} {other:?} does not belong here");
}

impl Display for Occurrences {
    fn fmt(&self, out: &mut Formatter) -> fmt::Result {
        writeln!(out, "worked through {:>20}", self.worked_through)?;
        write_rows(out, "refusal", &self.refusals)?;
        write_rows(out, "event", &self.events)?;
        for (reason, times) in &self.reads_without_event {
            writeln!(out, "event 0 of a read, {reason}: {times}")?;
        }
        write_rows(out, "mark", &self.marks)
    }
}

/// Numbers with their times, several to a line.
fn write_rows<K: Display>(
    out: &mut Formatter,
    name: &str,
    counts: &BTreeMap<K, usize>,
) -> fmt::Result {
    let counts: Vec<_> = counts.iter().collect();
    for row in counts.chunks(6) {
        write!(out, "{name:<8}")?;
        for (number, times) in row {
            write!(out, "{number:>5}: {times:>8}")?;
        }
        writeln!(out)?;
    }
    Ok(())
}
