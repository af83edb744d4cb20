//! The access decision engine of document 01, proved, for a panel maker who writes Rust; with the
//! shifts that cross midnight, the wrong codes that follow the card, the day passes, the state of
//! zones, points and credentials alone and the 26-bit readers of document 02.
//!
//! The calls are those of the C library: each is proved to return and write what document 01 says,
//! whatever bytes it is handed, and to end. This package only lends them slices, and is not proved.
//! One that is turned back has changed no slice. Nothing is allocated or kept between calls, and
//! a call uses less than 8 KiB of stack.
//!
//! A state has a record of [`numbers::RECORD_SIZE`] bytes for each zone, point and credential of its
//! site, in site sequence, and none for rules and factors. The longer state of an engine of before,
//! with a record for every record of the site, is brought over by [`shorten_state`].
//!
//! `docs/FORMATS.md` of the repository has the layouts and says of each of the [`numbers`] when it
//! is given.
//!
//! ```
//! use warblehay::numbers::{ANSWER_SIZE, ENTRY_SIZE};
//!
//! /// The answers to a journal from the fresh state.
//! fn answers(site: &[u8], journal: &[u8]) -> Result<Vec<u8>, warblehay::TurnedBack> {
//!     let mut state = vec![0; warblehay::state_length(site)];
//!     let mut answers = vec![0; journal.len() / ENTRY_SIZE * ANSWER_SIZE];
//!     warblehay::fresh_state(site, &mut state)?;
//!     warblehay::run_journal(site, &mut state, journal, &mut answers)?;
//!     Ok(answers)
//! }
//!
//! assert_eq!(answers(&[], &[]), Ok(vec![]));
//! assert_eq!(answers(&[0], &[]), Err(warblehay::TurnedBack::SiteLength));
//! ```

#![no_std]
#![warn(missing_docs)]

mod library;

/// The numbers of document 01 by name, made from the library's header: values, offsets of fields,
/// bits of flags.
pub mod numbers {
    include!(concat!(env!("OUT_DIR"), "/numbers.rs"));
}

use core::fmt;
use numbers::*;

/// Why a call is turned back. The number of each is that of documents 01 and 02.
#[derive(Clone, Copy, Debug, PartialEq, Eq)]
#[repr(u32)]
pub enum TurnedBack {
    /// The site is not a multiple of [`RECORD_SIZE`] bytes, or above [`LARGEST_SITE`].
    SiteLength = SITE_LENGTH,
    /// A site record's kind, field or spare byte is out of range.
    SiteField = SITE_FIELD,
    /// The site has the same twice.
    SiteTwice = SITE_TWICE,
    /// The site names an object that it does not have.
    SiteMissing = SITE_MISSING,
    /// The state is not [`RECORD_SIZE`] bytes for each zone, point and credential, or the longer
    /// state not as long as the site.
    StateLength = STATE_LENGTH,
    /// The state is not well formed for the site.
    StateForm = STATE_FORM,
    /// The journal is not a multiple of [`ENTRY_SIZE`] bytes, or above [`LARGEST_JOURNAL`].
    JournalLength = JOURNAL_LENGTH,
    /// The answers are not [`ANSWER_SIZE`] bytes for each entry.
    AnswersLength = ANSWERS_LENGTH,
    /// A reader's bits are not [`WIEGAND26_BITS`], or their number is larger than these make.
    NotTwentySixBits = NOT_TWENTY_SIX_BITS,
}

impl TurnedBack {
    /// All of them, in the order in which they are tried.
    pub const ALL: [TurnedBack; 9] = [
        TurnedBack::SiteLength,
        TurnedBack::SiteField,
        TurnedBack::SiteTwice,
        TurnedBack::SiteMissing,
        TurnedBack::StateLength,
        TurnedBack::StateForm,
        TurnedBack::JournalLength,
        TurnedBack::AnswersLength,
        TurnedBack::NotTwentySixBits,
    ];

    /// The number of documents 01 and 02.
    pub fn number(self) -> u32 {
        self as u32
    }

    fn of_number(number: u32) -> Option<TurnedBack> {
        TurnedBack::ALL
            .into_iter()
            .find(|outcome| outcome.number() == number)
    }

    fn words(self) -> &'static str {
        match self {
            TurnedBack::SiteLength => "the site is not a multiple of 32 bytes, or too long",
            TurnedBack::SiteField => "a site record's kind, field or spare byte is out of range",
            TurnedBack::SiteTwice => "the site has the same twice",
            TurnedBack::SiteMissing => "the site names an object that it does not have",
            TurnedBack::StateLength => {
                "the state is not 32 bytes for each zone, point and credential, or the longer one \
                 not as long as the site"
            }
            TurnedBack::StateForm => "the state is not well formed for the site",
            TurnedBack::JournalLength => "the journal is not a multiple of 24 bytes, or too long",
            TurnedBack::AnswersLength => "the answers are not 16 bytes for each entry",
            TurnedBack::NotTwentySixBits => "the bits of the reader are not 26",
        }
    }
}

impl fmt::Display for TurnedBack {
    fn fmt(&self, formatter: &mut fmt::Formatter<'_>) -> fmt::Result {
        write!(
            formatter,
            "turned back with {}: {}",
            self.number(),
            self.words()
        )
    }
}

impl core::error::Error for TurnedBack {}

fn outcome(returned: u32) -> Result<(), TurnedBack> {
    if returned == WORKED_THROUGH {
        return Ok(());
    }
    Err(TurnedBack::of_number(returned).expect("a call returns a number of the documents"))
}

fn place((site, state): (usize, usize)) -> Option<Place> {
    Some(Place { site, state }).filter(|place| place.site != NOWHERE)
}

/// Checks a site file. It may be empty.
pub fn check_site(site: &[u8]) -> Result<(), TurnedBack> {
    outcome(library::check_site(site))
}

/// How many bytes the state of a site has: [`RECORD_SIZE`] for each zone, point and credential,
/// never more than the site. On any bytes, the whole records that have one of these kinds count.
pub fn state_length(site: &[u8]) -> usize {
    library::state_length(site)
}

/// Writes the fresh state of a site into a slice of [`state_length`] bytes; what it held before does
/// not matter.
pub fn fresh_state(site: &[u8], state: &mut [u8]) -> Result<(), TurnedBack> {
    outcome(library::fresh_state(site, state))
}

/// Checks a state that was stored or sent, as [`run_journal`] does before it works. It cannot tell
/// whose state a record is: its first is that of the site's first zone, point or credential, and so
/// on.
pub fn check_state(site: &[u8], state: &[u8]) -> Result<(), TurnedBack> {
    outcome(library::check_state(site, state))
}

/// Works a journal through on the state that [`fresh_state`] or the run before has left for this
/// site, leaves the state after the last entry, and writes an answer of [`ANSWER_SIZE`] bytes for
/// each entry. A bad entry does not turn the journal back: its own answer has the refusal.
pub fn run_journal(
    site: &[u8],
    state: &mut [u8],
    journal: &[u8],
    answers: &mut [u8],
) -> Result<(), TurnedBack> {
    outcome(library::run_journal(site, state, journal, answers))
}

/// Brings a state of before over: of the longer state, which has a record for every record of the
/// site, writes those of zones, points and credentials, unchanged, into a slice of [`state_length`]
/// bytes. What this held before does not matter. [`TurnedBack::StateForm`] where the longer state is
/// not well formed, or a record of a rule or a factor is not zero.
///
/// ```
/// use warblehay::numbers::{ACCESS_RULE, ACCESS_ZONE, FLAGS, INSTANCE, KIND, RECORD_SIZE};
/// use warblehay::numbers::{RULE_FLAG_EVERYWHERE, ZONE_STATE_COUNT};
///
/// // A rule, and then zone 9, in which 7 people are.
/// let mut site = [0; 2 * RECORD_SIZE];
/// site[KIND] = ACCESS_RULE;
/// site[FLAGS] = 1 << RULE_FLAG_EVERYWHERE;
/// site[RECORD_SIZE + KIND] = ACCESS_ZONE;
/// site[RECORD_SIZE + INSTANCE + 3] = 9;
/// let mut longer = [0; 2 * RECORD_SIZE];
/// longer[RECORD_SIZE + ZONE_STATE_COUNT + 3] = 7;
///
/// let mut state = vec![0; warblehay::state_length(&site)];
/// warblehay::shorten_state(&site, &longer, &mut state)?;
/// assert_eq!(state, longer[RECORD_SIZE..]);
/// # Ok::<(), warblehay::TurnedBack>(())
/// ```
pub fn shorten_state(site: &[u8], longer: &[u8], state: &mut [u8]) -> Result<(), TurnedBack> {
    outcome(library::shorten_state(site, longer, state))
}

/// The way back, for a panel whose engine is still one of before: writes the records of the state to
/// the places that the records of zones, points and credentials have in the site, and zeros to those
/// of rules and factors, into a slice as long as the site. What this held before does not matter.
pub fn lengthen_state(site: &[u8], state: &[u8], longer: &mut [u8]) -> Result<(), TurnedBack> {
    outcome(library::lengthen_state(site, state, longer))
}

/// Where a zone, a point or a credential stands in the site and in the state. The two differ as soon
/// as a rule or a factor stands before it.
#[derive(Clone, Copy, Debug, PartialEq, Eq)]
pub struct Place {
    /// The place of its record among the records of the site, 0 for the first. The record begins at
    /// this times [`RECORD_SIZE`] in the site.
    pub site: usize,
    /// The byte at which its state record begins in the state: as many times [`RECORD_SIZE`] as
    /// zones, points and credentials stand before it.
    pub state: usize,
}

/// Where a zone stands. On any bytes, it is the first whole record of the kind and instance.
///
/// ```
/// use warblehay::numbers::RECORD_SIZE;
///
/// /// The state record of a zone.
/// fn state_record<'a>(site: &[u8], state: &'a [u8], zone: u32) -> Option<&'a [u8]> {
///     let place = warblehay::place_of_zone(site, zone)?;
///     state.get(place.state..place.state + RECORD_SIZE)
/// }
///
/// assert_eq!(state_record(&[], &[], 9), None);
/// ```
pub fn place_of_zone(site: &[u8], zone: u32) -> Option<Place> {
    place(library::place_of_zone(site, zone))
}

/// Where a point stands, as [`place_of_zone`] has it.
pub fn place_of_point(site: &[u8], point: u32) -> Option<Place> {
    place(library::place_of_point(site, point))
}

/// Where a credential stands, as [`place_of_zone`] has it.
pub fn place_of_credential(site: &[u8], credential: u32) -> Option<Place> {
    place(library::place_of_credential(site, credential))
}

/// What a reader's bits become: the factor of a journal entry.
#[derive(Clone, Copy, Debug, PartialEq, Eq)]
pub struct Factor {
    /// It stands at [`ENTRY_ARGUMENT`]: [`FORMAT_WIEGAND26`], or [`FORMAT_ERROR`].
    pub format: u8,
    /// It stands at [`ENTRY_VALUE`].
    pub value: [u8; 8],
}

/// Reads the bits of a 26-bit reader: a parity bit, 8 bits of facility, 16 of card number, a parity
/// bit, as one number, the first bit highest, with their count. Wrong parity makes a factor of
/// [`FORMAT_ERROR`] with value zero. One wrong bit is always found so, and two where one is in the
/// first 13 and the other in the last 13; two in the same 13 are not.
///
/// ```
/// use warblehay::numbers::{FORMAT_ERROR, FORMAT_WIEGAND26, WIEGAND26_BITS};
///
/// let number = warblehay::write_wiegand26(131, 77).into();
/// let factor = warblehay::read_wiegand26(number, WIEGAND26_BITS)?;
/// assert_eq!(factor.format, FORMAT_WIEGAND26);
/// assert_eq!(factor.value, [0, 0, 0, 0, 0, 131, 0, 77]);
///
/// let flipped = warblehay::read_wiegand26(number ^ 1, WIEGAND26_BITS)?;
/// assert_eq!(flipped.format, FORMAT_ERROR);
/// # Ok::<(), warblehay::TurnedBack>(())
/// ```
pub fn read_wiegand26(number: u64, count: u32) -> Result<Factor, TurnedBack> {
    let (mut format, mut value) = (FORMAT_UNDEFINED, [0; 8]);
    outcome(library::read_wiegand26(
        number,
        count,
        &mut format,
        &mut value,
    ))?;
    Ok(Factor { format, value })
}

/// The way back: the 26 bits of a facility and a card number, as one number, from which
/// [`read_wiegand26`] reads the same facility and card number.
pub fn write_wiegand26(facility: u8, card: u16) -> u32 {
    library::write_wiegand26(facility, card)
}
