//! One call through both engines: what it hands back and every byte of its buffers are the same,
//! and a call turned back leaves the buffers as they were.

use crate::faults::{called, report, smallest, Buffers, Call};
use crate::proved;
use reference::generate::{Case, Forms};
use reference::numbers::refusal;
use reference::state::Place;
use reference::{journal, longer, site, state};

/// The site check through both engines. Panics where they disagree.
pub fn check_site(site: Vec<u8>) -> u8 {
    let mut case = Case {
        site,
        state: Vec::new(),
        journal: Vec::new(),
        answers: Vec::new(),
    };
    agreed(
        |case| proved::check_site(&case.site),
        |case| site::check_site(&case.site),
        &mut case,
    )
}

/// The fresh state through both engines, left in the case. Panics where they disagree.
pub fn fresh_state(case: &mut Case) -> u8 {
    agreed(
        |case| {
            guarded(&mut case.state, |state| {
                proved::fresh_state(&case.site, state)
            })
        },
        |case| state::fresh_state(&case.site, &mut case.state),
        case,
    )
}

/// The state check through both engines. Panics where they disagree.
pub fn check_state(case: &mut Case) -> u8 {
    agreed(
        |case| proved::check_state(&case.site, &case.state),
        |case| state::check_state(&case.site, &case.state),
        case,
    )
}

/// The journal run through both engines, left in the case. Panics where they disagree.
pub fn run_journal(case: &mut Case) -> u8 {
    agreed(proved_run, reference_run, case)
}

/// The way from the longer state through both engines, left in the forms. Panics where they disagree.
pub fn shorten_state(forms: &mut Forms) -> u8 {
    agreed(
        |forms| {
            guarded(&mut forms.state, |state| {
                proved::shorten_state(&forms.site, &forms.longer, state)
            })
        },
        |forms| longer::shorten_state(&forms.site, &forms.longer, &mut forms.state),
        forms,
    )
}

/// The way back through both engines, left in the forms. Panics where they disagree.
pub fn lengthen_state(forms: &mut Forms) -> u8 {
    agreed(
        |forms| {
            guarded(&mut forms.longer, |longer| {
                proved::lengthen_state(&forms.site, &forms.state, longer)
            })
        },
        |forms| longer::lengthen_state(&forms.site, &forms.state, &mut forms.longer),
        forms,
    )
}

/// The length of a site's state by both engines. Panics where they disagree.
pub fn state_length(site: &[u8]) -> usize {
    let length = state::state_length(site);
    assert_eq!(proved::state_length(site), length, "{site:02X?}");
    length
}

/// Where both engines find the records of an object. Panics where they disagree.
pub fn place_of(site: &[u8], kind: u8, instance: u32) -> Option<Place> {
    let place = state::place_of(site, kind, instance);
    let expected = place.map(|found| (found.place, found.state_offset));
    let found = proved::place_of(site, kind, instance).map(|found| (found.site, found.state));
    assert_eq!(found, expected, "{kind} {instance} in {site:02X?}");
    place
}

fn proved_run(case: &mut Case) -> u8 {
    let (site, journal) = (&case.site, &case.journal);
    guarded(&mut case.state, |state| {
        guarded(&mut case.answers, |answers| {
            proved::run_journal(site, state, journal, answers)
        })
    })
}

fn reference_run(case: &mut Case) -> u8 {
    let (site, journal) = (&case.site, &case.journal);
    journal::run_journal(site, &mut case.state, journal, &mut case.answers)
}

/// Lends a call a copy of a buffer that has other bytes on both sides, and sees that they stay.
/// Nothing else would notice a length that the two languages understand differently.
fn guarded(buffer: &mut [u8], call: impl FnOnce(&mut [u8]) -> u8) -> u8 {
    // An odd length, so that the part that is lent is aligned to nothing.
    const GUARD: [u8; 33] = [0xC3; 33];
    let mut lent = [&GUARD, &*buffer, &GUARD].concat();
    let part = GUARD.len()..GUARD.len() + buffer.len();
    let returned = call(&mut lent[part.clone()]);
    assert_eq!(lent[..part.start], GUARD, "bytes before a buffer changed");
    assert_eq!(lent[part.end..], GUARD, "bytes after a buffer changed");
    buffer.copy_from_slice(&lent[part]);
    returned
}

fn agreed<B: Buffers>(proved: Call<B>, reference: Call<B>, buffers: &mut B) -> u8 {
    let disagree = |buffers: &B| called(proved, buffers) != called(reference, buffers);
    let (returned, after) = called(proved, buffers);
    let (expected, reference_after) = called(reference, buffers);
    if returned != expected || after != reference_after {
        let buffers = smallest(buffers, disagree);
        panic!("{}", report(proved, reference, &buffers));
    }
    if returned != refusal::ACCEPTED {
        assert!(after == *buffers, "a call turned back changed a buffer");
    }
    *buffers = after;
    returned
}

#[cfg(test)]
mod tests {
    use super::*;
    use reference::numbers::{event, ANSWER_LENGTH, ENTRY_LENGTH, RECORD_LENGTH};
    use reference::scenarios::paper_cases::{printed_journal, printed_site};

    /// The paper's site and journal, from the fresh state.
    fn paper_case() -> Case {
        let (site, journal) = (printed_site(), printed_journal());
        let mut case = Case {
            state: vec![0; state::state_length(&site)],
            answers: vec![0; journal.len() / ENTRY_LENGTH * ANSWER_LENGTH],
            site,
            journal,
        };
        state::fresh_state(&case.site, &mut case.state);
        case
    }

    /// An engine whose answer to an unknown card counts one too many.
    fn run_with_a_wrong_answer(case: &mut Case) -> u8 {
        let returned = reference_run(case);
        let unknown = event::DENIED_UNKNOWN_CREDENTIAL.to_be_bytes();
        for answer in case.answers.chunks_exact_mut(ANSWER_LENGTH) {
            if answer.starts_with(&unknown) {
                answer[ANSWER_LENGTH - 1] += 1;
            }
        }
        returned
    }

    /// An engine that writes the state although it turns the call back.
    fn run_that_writes(case: &mut Case) -> u8 {
        case.state.fill(0);
        reference_run(case)
    }

    #[test]
    #[should_panic(expected = "the engines disagree")]
    fn a_wrong_answer_is_noticed() {
        agreed(run_with_a_wrong_answer, reference_run, &mut paper_case());
    }

    #[test]
    #[should_panic(expected = "a call turned back changed a buffer")]
    fn a_change_by_a_call_turned_back_is_noticed_also_where_both_engines_make_it() {
        let mut case = paper_case();
        case.answers.clear();
        agreed(run_that_writes, run_that_writes, &mut case);
    }

    /// The unknown card, read third, needs no other entry, and of the site the point and its zone.
    #[test]
    fn a_case_is_cut_to_what_its_fault_needs() {
        let wrong =
            |case: &Case| called(run_with_a_wrong_answer, case) != called(reference_run, case);
        let case = smallest(&paper_case(), wrong);
        assert_eq!(case.site, printed_site()[..2 * RECORD_LENGTH]);
        assert_eq!(case.journal, printed_journal()[2 * ENTRY_LENGTH..]);
    }

    /// A way that spoils the count of zone 23, the first record.
    fn shorten_with_a_wrong_count(forms: &mut Forms) -> u8 {
        let returned = reference_shorten(forms);
        if returned == refusal::ACCEPTED && !forms.state.is_empty() {
            forms.state[0] ^= 1;
        }
        returned
    }

    fn reference_shorten(forms: &mut Forms) -> u8 {
        longer::shorten_state(&forms.site, &forms.longer, &mut forms.state)
    }

    /// One record with a state is enough, and both of its forms go with it.
    #[test]
    fn forms_are_cut_to_what_their_fault_needs() {
        let site = printed_site();
        let mut forms = Forms {
            longer: vec![0; site.len()],
            state: vec![0xA5; state::state_length(&site)],
            site,
        };
        longer::fresh_state(&forms.site, &mut forms.longer);
        let wrong = |forms: &Forms| {
            called(shorten_with_a_wrong_count, forms) != called(reference_shorten, forms)
        };
        let forms = smallest(&forms, wrong);
        assert_eq!(forms.site.len(), RECORD_LENGTH);
        assert_eq!(forms.longer.len(), RECORD_LENGTH);
        assert_eq!(forms.state.len(), RECORD_LENGTH);
    }
}
