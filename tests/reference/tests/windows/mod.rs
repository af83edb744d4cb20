//! The time-fits condition of document 02, its parts and its misreadings, each put in the place of
//! the engine's own over the factor reads of a case.

use reference::answer::Answer;
use reference::bytes::get32;
use reference::entry::entries;
use reference::generate::{case, Case, Random};
use reference::journal::run_journal;
use reference::layout::{entry, record, rule};
use reference::numbers::{
    event, kind, operation, refusal, rule_flag, ANSWER_LENGTH, DAYS_PER_WEEK, MINUTES_PER_DAY,
    RECORD_LENGTH,
};
use reference::site::{kind_of, RuleRecord};
use reference::time::{date, minute_of_day, weekday};

const MONDAY: u32 = 0;

/// What the condition asks: a rule's days and hours, and the time.
pub struct Moment {
    days: u8,
    from: u16,
    to: u16,
    date: u32,
    weekday: u32,
    minute: u16,
}

impl Moment {
    fn new(rule: &RuleRecord, now: u32) -> Moment {
        Moment {
            days: rule.days(),
            from: rule.from(),
            to: rule.to(),
            date: date(now),
            weekday: weekday(now),
            minute: minute_of_day(now),
        }
    }

    /// Whether the weekday that is so many days after today is set.
    fn has_day(&self, later: u32) -> bool {
        self.days & (1 << ((self.weekday + later) % DAYS_PER_WEEK)) != 0
    }

    fn today(&self) -> bool {
        self.has_day(0)
    }

    fn tomorrow(&self) -> bool {
        self.has_day(1)
    }

    fn yesterday(&self) -> bool {
        self.has_day(DAYS_PER_WEEK - 1)
    }

    fn fits_within_a_day(&self) -> bool {
        self.today() && self.from <= self.minute && self.minute < self.to
    }

    pub fn crosses_midnight(&self) -> bool {
        self.from > self.to
    }

    fn fits_before_midnight(&self) -> bool {
        self.crosses_midnight() && self.today() && self.minute >= self.from
    }

    fn fits_after_midnight(&self) -> bool {
        self.crosses_midnight() && self.yesterday() && self.minute < self.to
    }

    pub fn fits(&self) -> bool {
        self.fits_within_a_day() || self.fits_before_midnight() || self.fits_after_midnight()
    }
}

type Condition = fn(&Moment) -> bool;

/// Parts of the windows across midnight.
pub const PARTS: [(&str, Condition); 6] = [
    ("before midnight", Moment::fits_before_midnight),
    ("before midnight, to 0", |moment| {
        moment.fits_before_midnight() && moment.to == 0
    }),
    ("after midnight", Moment::fits_after_midnight),
    ("after midnight, from 1,440", |moment| {
        moment.fits_after_midnight() && moment.from == MINUTES_PER_DAY
    }),
    ("from Sunday into Monday", |moment| {
        moment.fits_after_midnight() && moment.weekday == MONDAY
    }),
    ("from Sunday into the first Monday", |moment| {
        moment.fits_after_midnight() && moment.date == 0
    }),
];

/// What an honest reader could take the condition for.
pub const MISREADINGS: [(&str, Condition); 7] = [
    ("the second half asks for today", |moment| {
        let second = moment.crosses_midnight() && moment.today() && moment.minute < moment.to;
        moment.fits_within_a_day() || moment.fits_before_midnight() || second
    }),
    ("no day is before Monday", |moment| {
        let second = moment.fits_after_midnight() && moment.weekday != MONDAY;
        moment.fits_within_a_day() || moment.fits_before_midnight() || second
    }),
    ("from equal to to fits all day", |moment| {
        moment.fits() || (moment.from == moment.to && moment.today())
    }),
    ("from above to never fits", Moment::fits_within_a_day),
    ("from is not yet in the window", |moment| {
        let first = moment.fits_before_midnight() && moment.minute > moment.from;
        moment.fits_within_a_day() || first || moment.fits_after_midnight()
    }),
    ("to is still in the window", |moment| {
        let last = moment.crosses_midnight() && moment.minute == moment.to;
        moment.fits() || (last && moment.yesterday())
    }),
    ("the window belongs to the day on which it ends", |moment| {
        let first = moment.tomorrow() && moment.minute >= moment.from;
        let second = moment.today() && moment.minute < moment.to;
        moment.fits_within_a_day() || (moment.crosses_midnight() && (first || second))
    }),
];

/// The events of step 9 and of those after it. A read with another one asks no rule.
const EVENTS: [u16; 9] = [
    event::GRANTED,
    event::DENIED_ZONE_NO_ACCESS_RIGHTS,
    event::DENIED_POINT_NO_ACCESS_RIGHTS,
    event::DENIED_NO_ACCESS_RIGHTS,
    event::DENIED_OUT_OF_TIME_RANGE,
    event::DENIED_PASSBACK,
    event::DENIED_LOWER_OCCUPANCY_LIMIT,
    event::DENIED_UPPER_OCCUPANCY_LIMIT,
    event::DENIED_OTHER,
];

/// A factor read that came to step 9 or beyond, with the state that it found.
pub struct Read<'a> {
    site: &'a [u8],
    state: Vec<u8>,
    entry: &'a [u8],
    pub event: u16,
}

impl Read<'_> {
    /// The event where this is the time-fits condition.
    pub fn event_by(&self, condition: impl Fn(&Moment) -> bool) -> u16 {
        let site = decided(self.site, get32(self.entry, entry::TIME), condition);
        work(&site, &mut self.state.clone(), self.entry).event
    }

    /// Whether the event would be another without a part of the windows.
    pub fn is_decided_by(&self, part: Condition) -> bool {
        self.event_by(|moment| moment.fits() && !part(moment)) != self.event
    }

    /// Whether it is out of time, and a window across midnight would let it go on if it fitted.
    pub fn is_outside_a_window(&self) -> bool {
        let rights = [
            event::DENIED_NO_ACCESS_RIGHTS,
            event::DENIED_OUT_OF_TIME_RANGE,
        ];
        self.event == event::DENIED_OUT_OF_TIME_RANGE
            && !rights.contains(&self.event_by(|moment| moment.fits() || moment.crosses_midnight()))
    }
}

/// The site with each rule as the condition finds it at this time: always in time, or on no day.
fn decided(site: &[u8], now: u32, condition: impl Fn(&Moment) -> bool) -> Vec<u8> {
    let mut site = site.to_vec();
    for record in site.chunks_exact_mut(RECORD_LENGTH) {
        if kind_of(record) != kind::RULE {
            continue;
        }
        if condition(&Moment::new(&RuleRecord(record), now)) {
            record[record::FLAGS] |= rule_flag::ALWAYS;
        }
        record[rule::DAYS] = 0;
    }
    site
}

fn work(site: &[u8], state: &mut [u8], entry: &[u8]) -> Answer {
    let mut answer = [0; ANSWER_LENGTH];
    let returned = run_journal(site, state, entry, &mut answer);
    assert_eq!(returned, refusal::ACCEPTED);
    Answer::from_bytes(&answer)
}

/// Shows the reads of a case that is not turned back.
fn see_reads(case: &Case, mut see: impl FnMut(&Read)) {
    let mut worked = case.clone();
    let returned = run_journal(
        &worked.site,
        &mut worked.state,
        &worked.journal,
        &mut worked.answers,
    );
    if returned != refusal::ACCEPTED {
        return;
    }
    let mut state = case.state.clone();
    for entry in entries(&case.journal) {
        let before = state.clone();
        let answer = work(&case.site, &mut state, entry);
        if entry[entry::OPERATION] == operation::READ_FACTOR && EVENTS.contains(&answer.event) {
            see(&Read {
                site: &case.site,
                state: before,
                entry,
                event: answer.event,
            });
        }
    }
}

/// Shows the reads of so many generated cases.
pub fn see_generated_reads(cases: usize, mut see: impl FnMut(&Read)) {
    let mut random = Random::new(2200);
    for _ in 0..cases {
        see_reads(&case(&mut random), &mut see);
    }
}
